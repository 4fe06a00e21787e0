/* Prints, of each file whose text the reference refuses 3, its name and what is accepted there: a candidate is where the reference does not
   refuse it 3 or 4 at its own place. A text that has no room for a candidate is left out. Usage: accepted FILES.. */
#include "reference.h"

#include <stdio.h>
#include <string.h>

enum { FIRST_WORD = 2, MOST_BYTES = 60000, ROOM = 16 };

static const char *const tried[] = {
    "n",    "1",     "entity", "is",   "end", "architecture", "of", "signal", "begin", "boolean", "process", "transport", "after", "if",
    "then", "else",  "null",   "not",  "nand", "nor",         "and", "or",    "xor",   "xnor",    "true",    "false",     "fs",    "ps",
    "ns",   "us",    "ms",     "sec",  "min", "hr",           "(",   ")",     ",",     ":",       ";",       "<=",        ":=",    ""};

static struct ref_answer parse(const uint8_t *text, size_t length)
{
    struct ref_design *design = NULL;
    struct ref_answer answer = ref_parse(text, length, &design);
    if (answer.kind != REF_REFUSED)
        ref_free(design);
    return answer;
}

/* Whether the text up to a place can go on with a token, or end where that is empty. */
static int goes_on(uint8_t *text, size_t place, const char *token)
{
    size_t start = *token ? place + 1 : place;
    struct ref_answer answer;
    if (*token)
        text[place] = '\n';
    memcpy(text + start, token, strlen(token));
    answer = parse(text, start + strlen(token));
    return answer.kind != REF_REFUSED || (answer.number != 3 && answer.number != 4) || answer.place != start;
}

static void say(size_t number)
{
    if (number < FIRST_WORD)
        fputs(number == 0 ? "a name" : "an integer", stdout);
    else if (*tried[number])
        printf("`%s`", tried[number]);
    else
        fputs("the end of the text", stdout);
}

static void say_accepted(const char *name, uint8_t *text, size_t place)
{
    size_t accepted[sizeof tried / sizeof *tried], count = 0, k;
    for (k = 0; k < sizeof tried / sizeof *tried; k++)
        if (goes_on(text, place, tried[k]))
            accepted[count++] = k;
    printf("%s accepted here: ", name);
    for (k = 0; k < count; k++) {
        fputs(k == 0 ? "" : k + 1 < count ? ", " : " or ", stdout);
        say(accepted[k]);
    }
    putchar('\n');
}

int main(int count, char **files)
{
    static uint8_t text[MOST_BYTES + 1 + ROOM];
    int k;
    for (k = 1; k < count; k++) {
        FILE *file = fopen(files[k], "rb");
        size_t length = file ? fread(text, 1, MOST_BYTES + 1, file) : 0;
        struct ref_answer answer = parse(text, length);
        if (!file || fclose(file) != 0)
            return 2;
        if (answer.kind == REF_REFUSED && answer.number == 3 && answer.place + ROOM < MOST_BYTES)
            say_accepted(files[k], text, (size_t)answer.place);
    }
    return 0;
}
