/* A design's text as a file has it, and its tokens. */
#include "text.h"

#include <ctype.h>
#include <errno.h>
#include <stdio.h>
#include <string.h>

int load_text(struct text *text, const char *file)
{
    int given = strcmp(file, "-") == 0;
    FILE *stream = given ? stdin : fopen(file, "rb");
    int failed = !stream;
    text->name = given ? "<standard input>" : file;
    if (stream) {
        text->length = fread(text->bytes, 1, sizeof text->bytes, stream);
        failed = ferror(stream);
    }
    if (failed)
        fprintf(stderr, "compassnail: %s cannot be read: %s\n", text->name, strerror(errno));
    if (stream && !given)
        fclose(stream);
    return !failed;
}

int in_stretch(uint8_t byte)
{
    return byte < 128 && (isalnum(byte) || byte == '_');
}

static uint8_t byte_at(const struct text *text, size_t place)
{
    return place < text->length ? text->bytes[place] : 0;
}

/* Where blanks and comments end that begin at a place. */
static size_t skip(const struct text *text, size_t place)
{
    while (place < text->length) {
        uint8_t byte = text->bytes[place];
        if (byte == ' ' || (byte >= '\t' && byte <= '\r'))
            place++;
        else if (byte == '-' && byte_at(text, place + 1) == '-')
            while (place < text->length && !(text->bytes[place] >= '\n' && text->bytes[place] <= '\r') && text->bytes[place] < 128)
                place++;
        else
            break;
    }
    return place;
}

struct token token_at(const struct text *text, size_t place)
{
    struct token token = {skip(text, place), 0};
    uint8_t byte = byte_at(text, token.place);
    if (token.place == text->length)
        return token;
    while (in_stretch(byte_at(text, token.place + token.length)))
        token.length++;
    if (token.length == 0)
        token.length = (byte == '<' || byte == ':') && byte_at(text, token.place + 1) == '=' ? 2 : 1;
    return token;
}

void find_tokens(const struct text *text, struct tokens *tokens)
{
    struct token token = token_at(text, 0);
    tokens->count = 0;
    while (token.length > 0) {
        tokens->all[tokens->count++] = token;
        token = token_at(text, token.place + token.length);
    }
    tokens->all[tokens->count] = token;
}

size_t number_at(const struct tokens *tokens, uint64_t place)
{
    size_t k = 0;
    while (k < tokens->count && tokens->all[k].place < place)
        k++;
    return k;
}

int is_word(const struct text *text, struct token token, const char *word)
{
    size_t k;
    if (token.length != strlen(word))
        return 0;
    for (k = 0; k < token.length; k++)
        if (tolower(text->bytes[token.place + k]) != word[k])
            return 0;
    return 1;
}

int same_token(const struct text *text, struct token one, struct token other)
{
    size_t k;
    if (one.length != other.length)
        return 0;
    for (k = 0; k < one.length; k++)
        if (tolower(text->bytes[one.place + k]) != tolower(text->bytes[other.place + k]))
            return 0;
    return 1;
}
