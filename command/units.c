/* Times in words: an integer and a unit as they are written, and a number of femtoseconds in a unit that fits it. */
#include "units.h"

#include <ctype.h>
#include <string.h>

enum { SEC = 5, UNITS = 8 };

static const struct {
    const char *word;
    uint64_t size;
} units[UNITS] = {{"fs", 1},
                  {"ps", UINT64_C(1000)},
                  {"ns", UINT64_C(1000000)},
                  {"us", UINT64_C(1000000000)},
                  {"ms", UINT64_C(1000000000000)},
                  {"sec", UINT64_C(1000000000000000)},
                  {"min", UINT64_C(60000000000000000)},
                  {"hr", UINT64_C(3600000000000000000)}};

int unit_of(const char *word, size_t length)
{
    int unit;
    size_t k;
    for (unit = 0; unit < UNITS; unit++) {
        for (k = 0; k < length && tolower((unsigned char)word[k]) == units[unit].word[k]; k++)
            ;
        if (k == length && units[unit].word[k] == 0)
            return unit;
    }
    return -1;
}

uint64_t time_of(const char *digits, size_t length, int unit)
{
    uint64_t amount = 0;
    size_t k;
    for (k = 0; k < length; k++)
        if (amount <= COMPASSNAIL_LAST_TIME)
            amount = amount * 10 + (uint64_t)(digits[k] - '0');
    return amount > COMPASSNAIL_LAST_TIME / units[unit].size ? COMPASSNAIL_LAST_TIME + 1 : amount * units[unit].size;
}

void say_time(FILE *stream, uint64_t time)
{
    int unit = time == 0 ? 0 : SEC;
    while (time % units[unit].size != 0)
        unit--;
    fprintf(stream, "%llu %s", (unsigned long long)(time / units[unit].size), units[unit].word);
}

void say_limit(FILE *stream, int unit)
{
    fprintf(stream, "at most %llu %s", (unsigned long long)(COMPASSNAIL_LAST_TIME / units[unit].size), units[unit].word);
    if (unit > SEC)
        fputs(", or 1000 sec", stream);
}
