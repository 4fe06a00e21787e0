/* Tests the plain functions of the header: lines and columns by hand, and prints each refusal's number and sentence. */
#include "compassnail.h"

#include <stdio.h>
#include <string.h>

static int wrong;

static void at(const char *text, uint64_t place, size_t line, size_t column)
{
    size_t got_line, got_column;
    compassnail_line_column((const uint8_t *)text, strlen(text), place, &got_line, &got_column);
    if (got_line != line || got_column != column) {
        fprintf(stderr, "place %lu of \"%s\": line %lu, column %lu\n", (unsigned long)place, text, (unsigned long)got_line,
                (unsigned long)got_column);
        wrong = 1;
    }
}

int main(void)
{
    size_t line, column;
    unsigned kind;
    at("", 0, 1, 1);
    at("ab", 1, 1, 2);
    at("ab", 2, 1, 3);
    at("ab", 3, 1, 3);
    at("ab", UINT64_MAX, 1, 3);
    at("ab\n", 2, 1, 3);
    at("ab\n", 3, 2, 1);
    at("a\n\nb", 3, 3, 1);
    at("a\r\nb", 1, 1, 2);
    at("a\r\nb", 2, 1, 3);
    at("a\r\nb", 3, 2, 1);
    at("a\rb", 2, 2, 1);
    at("a\r\rb", 3, 3, 1);
    at("a\n\rb", 3, 3, 1);
    at("a\r", 2, 2, 1);
    at("a\v\f\tb", 4, 1, 5);
    compassnail_line_column(NULL, 0, 0, &line, &column);
    wrong |= line != 1 || column != 1;
    for (kind = 1; kind < COMPASSNAIL_QUIET; kind++)
        if (strcmp(compassnail_message(kind), compassnail_message(253)) != 0)
            printf("%u %s\n", kind, compassnail_message(kind));
    wrong |= strcmp(compassnail_message(COMPASSNAIL_DONE), "done") != 0;
    wrong |= strcmp(compassnail_message(COMPASSNAIL_QUIET), "quiet: nothing is pending") != 0;
    wrong |= strcmp(compassnail_message(COMPASSNAIL_STOP_REACHED), "stop reached: something is pending, but nothing up to the stop") != 0;
    wrong |= strcmp(compassnail_message(256), compassnail_message(253)) != 0;
    return wrong;
}
