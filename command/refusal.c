/* A refused text as people read it, on standard error: where, what, and what would be accepted. */
#include "refusal.h"

#include "goes_on.h"
#include "names.h"
#include "show.h"
#include "units.h"

#include <ctype.h>
#include <stdio.h>

enum { LISTED = 8 /* of more signals, so many are listed */ };

static struct tokens tokens; /* of the text that is refused */

/* Says what is accepted instead of a stretch of letters, digits and underscores that is neither word nor integer. */
static void say_stretch(const struct text *text, struct token token)
{
    const uint8_t *bytes = text->bytes + token.place;
    struct token digits = {token.place, 0}, rest = token;
    while (isdigit(text->bytes[rest.place])) {
        digits.length++;
        rest.place++;
        rest.length--;
    }
    if (digits.length > 0 && isalpha(text->bytes[rest.place])) {
        fputs("  accepted here: two tokens, ", stderr);
        quote(text, digits);
        fputs(" and ", stderr);
        quote(text, rest);
        fputs(", with a blank between them\n", stderr);
    } else if (digits.length > 0)
        fputs("  accepted here: an integer of digits alone\n", stderr);
    else if (bytes[0] == '_')
        fputs("  accepted here: a word that begins with a letter\n", stderr);
    else if (bytes[token.length - 1] == '_')
        fputs("  accepted here: a word that ends with a letter or a digit\n", stderr);
    else if (token.length > 32)
        fprintf(stderr, "  accepted here: a word of at most 32 bytes, and this has %lu\n", (unsigned long)token.length);
    else
        fputs("  accepted here: a word with no two underscores side by side\n", stderr);
}

static void say_lexical(const struct text *text, struct token token)
{
    uint8_t byte = text->bytes[token.place];
    if (byte >= 128)
        fprintf(stderr, "  accepted: bytes below 128, in comments too, and this is %u\n", (unsigned)byte);
    else if (in_stretch(byte))
        say_stretch(text, token);
    else if (byte == '-')
        fputs("  accepted here: `--`, which starts a comment\n", stderr);
    else if (byte == '<' || byte == '=')
        fputs("  accepted here: `<=` or `:=`, with no blank inside\n", stderr);
    else
        fputs("  accepted here: a word, an integer, or one of `(` `)` `,` `:` `;` `<=` `:=`\n", stderr);
}

/* Says which signals are declared. */
static void say_signals(const struct text *text)
{
    size_t count = 0, k;
    for (k = 0; k < tokens.count; k++)
        count += (size_t)declares_signal(text, &tokens, k);
    fputs(count == 0 ? "  accepted here: nothing, since no signal is declared" : "  accepted here: a declared signal, ", stderr);
    for (k = 0; k < count && k < LISTED; k++) {
        fputs(k == 0 ? "" : k + 1 < count ? ", " : " or ", stderr);
        quote(text, nth(text, &tokens, declares_signal, k));
    }
    if (count > LISTED)
        fprintf(stderr, " or one of %lu more", (unsigned long)(count - LISTED));
    fputc('\n', stderr);
}

static void say_unknown(const struct text *text, size_t number)
{
    struct token nearest = nearest_signal(text, &tokens, tokens.all[number]);
    if (is_word(text, tokens.all[number - 1], "of")) {
        fputs("  accepted here: ", stderr);
        quote(text, tokens.all[1]);
        fputs(", the entity's name\n", stderr);
    } else if (nearest.length > 0) {
        fputs("  accepted here: a declared signal, and the nearest is ", stderr);
        quote(text, nearest);
        fputc('\n', stderr);
    } else
        say_signals(text);
}

static void say_used(const struct text *text, struct token token)
{
    struct token signal = first_same(text, &tokens, declares_signal, token), label = first_same(text, &tokens, is_label, token);
    fputs("  accepted here: a name that no signal and no label has\n", stderr);
    show_place(text, signal.place < label.place ? signal : label, "the name is used here first");
}

static void say_driver(const struct text *text, struct token target)
{
    fputs("  accepted here: a signal that no earlier process assigns\n", stderr);
    show_place(text, first_same(text, &tokens, is_target, target), "the earlier process assigns it here");
}

static void say_closing(const struct text *text, size_t number)
{
    struct token opening, name = closed_name(text, &tokens, number, &opening);
    fputs("  accepted here: ", stderr);
    if (name.length > 0) {
        quote(text, name);
        fputs(" or ", stderr);
    }
    fputs("`;`\n", stderr);
    show_place(text, name.length > 0 ? name : opening, name.length > 0 ? "it closes what has its name here" : "it closes this process");
}

static void say_delay(const struct text *text, size_t number)
{
    struct token unit = tokens.all[number + 1];
    fputs("  accepted here: ", stderr);
    say_limit(stderr, unit_of((const char *)text->bytes + unit.place, unit.length));
    fputc('\n', stderr);
}

static void say_count(const struct text *text, size_t number)
{
    if (is_word(text, tokens.all[number], "process"))
        fputs("  accepted: at most 64 processes\n", stderr);
    else if (declares_signal(text, &tokens, number))
        fputs("  accepted: at most 64 signals\n", stderr);
    else
        fputs("  accepted: at most 4,096 instructions, one for each name, literal, operator and assignment, two for each `if`\n", stderr);
}

/* Says what is accepted at the token of a number, which was refused so. */
static void say_instead(const struct text *text, unsigned kind, size_t number)
{
    if (kind == COMPASSNAIL_REFUSED_TOKEN)
        say_lexical(text, tokens.all[number]);
    else if (kind == COMPASSNAIL_REFUSED_GRAMMAR)
        say_accepted(text, tokens.all[number]);
    else if (kind == COMPASSNAIL_REFUSED_NESTING)
        fputs("  accepted: at most 32 brackets and `if`s that are open at once\n", stderr);
    else if (kind == COMPASSNAIL_REFUSED_UNKNOWN)
        say_unknown(text, number);
    else if (kind == COMPASSNAIL_REFUSED_USED)
        say_used(text, tokens.all[number]);
    else if (kind == COMPASSNAIL_REFUSED_CLOSING)
        say_closing(text, number);
    else if (kind == COMPASSNAIL_REFUSED_DELAY)
        say_delay(text, number);
    else if (kind == COMPASSNAIL_REFUSED_DRIVER)
        say_driver(text, tokens.all[number]);
    else if (kind == COMPASSNAIL_REFUSED_COUNT)
        say_count(text, number);
}

void explain_text(const struct text *text, uint64_t answer)
{
    unsigned kind = compassnail_kind(answer);
    if (!compassnail_has_place(answer)) {
        fprintf(stderr, "%s: refused %u: %s\n", text->name, kind, compassnail_message(kind));
        if (kind == COMPASSNAIL_REFUSED_TEXT_LENGTH)
            fputs("  accepted: at most 60,000 bytes, with blanks and comments\n", stderr);
        return;
    }
    find_tokens(text, &tokens);
    show_place(text, tokens.all[number_at(&tokens, compassnail_detail(answer))], "refused %u: %s", kind, compassnail_message(kind));
    say_instead(text, kind, number_at(&tokens, compassnail_detail(answer)));
}
