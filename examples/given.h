/* What the benches here are given: a design's text in a file, and a stop as an integer and a unit. */
#ifndef GIVEN_H
#define GIVEN_H

#include "compassnail.h"

#include <stdio.h>
#include <string.h>

/* The stop in femtoseconds. A stop that is too large is above COMPASSNAIL_LAST_TIME, so that the library refuses it. */
static inline int stop_of(const char *amount, const char *unit, uint64_t *stop)
{
    static const struct {
        const char *name;
        uint64_t size;
    } units[] = {{"fs", 1},
                 {"ps", UINT64_C(1000)},
                 {"ns", UINT64_C(1000000)},
                 {"us", UINT64_C(1000000000)},
                 {"ms", UINT64_C(1000000000000)},
                 {"sec", UINT64_C(1000000000000000)}};
    uint64_t n = 0;
    size_t k;
    if (*amount == 0)
        return 0;
    for (; *amount; amount++) {
        if (*amount < '0' || *amount > '9')
            return 0;
        if (n <= COMPASSNAIL_LAST_TIME)
            n = n * 10 + (uint64_t)(*amount - '0');
    }
    for (k = 0; k < sizeof units / sizeof *units; k++) {
        if (strcmp(unit, units[k].name) == 0) {
            *stop = n > COMPASSNAIL_LAST_TIME / units[k].size ? COMPASSNAIL_LAST_TIME + 1 : n * units[k].size;
            return 1;
        }
    }
    return 0;
}

/* The length of a file's text, of which at most so many bytes are loaded; SIZE_MAX where there is no such file. */
static inline size_t load(const char *path, uint8_t *text, size_t most)
{
    FILE *file = fopen(path, "rb");
    size_t length;
    if (!file) {
        perror(path);
        return SIZE_MAX;
    }
    length = fread(text, 1, most, file);
    fclose(file);
    return length;
}

#endif
