/* A place of a text as people read it: file, line and column with a sentence, the line itself, and a caret below the token. */
#include "show.h"

#include <stdarg.h>
#include <stdio.h>

/* Of a long line, so many bytes are shown: at most BEFORE of them stand before the token. */
enum { WIDTH = 100, BEFORE = 60 };

/* A byte as it is shown: tabs stay, and what else cannot be shown is a question mark. */
static int shown(uint8_t byte)
{
    return byte == '\t' || (byte >= ' ' && byte < 127) ? byte : '?';
}

static size_t end_of_line(const struct text *text, size_t place)
{
    while (place < text->length && text->bytes[place] != '\n' && text->bytes[place] != '\r')
        place++;
    return place;
}

/* The line from one place to another, with a caret below the token and a wave below the rest of it. */
static void show_line(const struct text *text, size_t start, size_t end, struct token token)
{
    size_t from = token.place - start > BEFORE ? token.place - BEFORE : start, to = end - from > WIDTH ? from + WIDTH : end, k;
    fprintf(stderr, "  %s", from > start ? "..." : "");
    for (k = from; k < to; k++)
        fputc(shown(text->bytes[k]), stderr);
    fprintf(stderr, "%s\n  %s", to < end ? "..." : "", from > start ? "   " : "");
    for (k = from; k < token.place; k++)
        fputc(text->bytes[k] == '\t' ? '\t' : ' ', stderr);
    fputc('^', stderr);
    for (k = token.place + 1; k < token.place + token.length && k < to; k++)
        fputc('~', stderr);
    fputc('\n', stderr);
}

void show_place(const struct text *text, struct token token, const char *format, ...)
{
    size_t line, column;
    va_list arguments;
    compassnail_line_column(text->bytes, text->length, token.place, &line, &column);
    fprintf(stderr, "%s:%lu:%lu: ", text->name, (unsigned long)line, (unsigned long)column);
    va_start(arguments, format);
    vfprintf(stderr, format, arguments);
    va_end(arguments);
    fputc('\n', stderr);
    show_line(text, token.place - (column - 1), end_of_line(text, token.place), token);
}

void quote(const struct text *text, struct token token)
{
    size_t k;
    fputc('`', stderr);
    for (k = 0; k < token.length; k++)
        fputc(shown(text->bytes[token.place + k]), stderr);
    fputc('`', stderr);
}
