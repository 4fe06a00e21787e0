/* What a design can go on with at a place, found by reading the text up to there with each candidate behind it. A candidate is possible
   exactly where it is not refused 3 or 4 at its own place: a read refuses a token where no design can go on with it, and nowhere else. */
#include "goes_on.h"

#include "show.h"

#include <ctype.h>
#include <stdio.h>
#include <string.h>

enum { NAME, CANDIDATES = 42 };

/* What is tried, and how it is said: one name and one integer stand for all of them, and nothing for the end of the text. */
static const struct {
    const char *token, *said;
} candidates[CANDIDATES] = {
    {"x", "a name"},        {"0", "an integer"},     {"entity", "`entity`"}, {"is", "`is`"},         {"end", "`end`"},
    {"architecture", "`architecture`"},              {"of", "`of`"},         {"signal", "`signal`"}, {"begin", "`begin`"},
    {"boolean", "`boolean`"},                        {"process", "`process`"},                       {"transport", "`transport`"},
    {"after", "`after`"},   {"if", "`if`"},          {"then", "`then`"},     {"else", "`else`"},     {"null", "`null`"},
    {"not", "`not`"},       {"nand", "`nand`"},      {"nor", "`nor`"},       {"and", "`and`"},       {"or", "`or`"},
    {"xor", "`xor`"},       {"xnor", "`xnor`"},      {"true", "`true`"},     {"false", "`false`"},   {"fs", "`fs`"},
    {"ps", "`ps`"},         {"ns", "`ns`"},          {"us", "`us`"},         {"ms", "`ms`"},         {"sec", "`sec`"},
    {"min", "`min`"},       {"hr", "`hr`"},          {"(", "`(`"},           {")", "`)`"},           {",", "`,`"},
    {":", "`:`"},           {";", "`;`"},            {"<=", "`<=`"},         {":=", "`:=`"},         {"", "the end of the text"},
};

static uint8_t trial[COMPASSNAIL_TEXT_BYTES];

/* Writes the tokens before a place for the trials, with one blank where there are blanks or comments. Answers their length. */
static size_t write_before(const struct text *text, size_t place)
{
    struct token token;
    size_t length = 0, from = 0;
    for (token = token_at(text, 0); token.place < place; token = token_at(text, from)) {
        if (token.place > from)
            trial[length++] = ' ';
        memcpy(trial + length, text->bytes + token.place, token.length);
        length += token.length;
        from = token.place + token.length;
    }
    return length;
}

/* Whether a design can go on with a candidate behind the first so many bytes of the trial. */
static int is_possible(size_t length, const char *token)
{
    static uint64_t table[COMPASSNAIL_TABLE_WORDS];
    size_t size = strlen(token), place = size == 0 ? length : length + 1;
    uint64_t answer;
    if (size > 0)
        trial[length] = ' ';
    memcpy(trial + place, token, size);
    answer = compassnail_read(trial, place + size, table, COMPASSNAIL_TABLE_WORDS);
    return !((compassnail_kind(answer) == COMPASSNAIL_REFUSED_GRAMMAR || compassnail_kind(answer) == COMPASSNAIL_REFUSED_NESTING) &&
             compassnail_detail(answer) == place);
}

/* Whether a token is a word with which no design goes on anywhere. */
static int fits_nowhere(const struct text *text, struct token token)
{
    size_t k;
    for (k = 0; k < CANDIDATES; k++)
        if (is_word(text, token, candidates[k].token))
            return 0;
    return 1;
}

/* Whether a word that is refused was probably meant as a name, of which there may be one among so many possible tokens. */
static int is_meant_as_name(const struct text *text, struct token refused, size_t count)
{
    return refused.length > 0 && isalpha(text->bytes[refused.place]) && (count == 1 || fits_nowhere(text, refused));
}

/* Says so many of the candidates as one list. */
static void say_list(const char *const *said, size_t count)
{
    size_t k;
    fputs("  accepted here: ", stderr);
    for (k = 0; k < count; k++)
        fprintf(stderr, "%s%s", k == 0 ? "" : k + 1 < count ? ", " : " or ", said[k]);
    fputc('\n', stderr);
}

void say_accepted(const struct text *text, struct token refused)
{
    const char *said[CANDIDATES];
    size_t length = write_before(text, refused.place), count = 0, k;
    if (length + 1 + strlen("architecture") > sizeof trial)
        return;
    for (k = 0; k < CANDIDATES; k++)
        if (is_possible(length, candidates[k].token))
            said[count++] = candidates[k].said;
    say_list(said, count);
    if (is_possible(length, candidates[NAME].token) && is_meant_as_name(text, refused, count)) {
        fputs("  ", stderr);
        quote(text, refused);
        fputs(" is a reserved word, which is no name\n", stderr);
    }
}
