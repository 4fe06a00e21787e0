/* Times in words: an integer and a unit as they are written, and a number of femtoseconds in a unit that fits it. */
#ifndef UNITS_H
#define UNITS_H

#include "compassnail.h"

#include <stdio.h>

/* The unit of a word of so many bytes, 0 to 7; -1 where it is none. Case does not count. */
int unit_of(const char *word, size_t length);

/* How many femtoseconds so many of a unit are; above COMPASSNAIL_LAST_TIME where that is too many. */
uint64_t time_of(const char *digits, size_t length, int unit);

/* Says a time in the largest unit up to `sec` that divides it. */
void say_time(FILE *stream, uint64_t time);

/* Says how many of a unit a delay or a stop may have, and where that is no round number how many seconds. */
void say_limit(FILE *stream, int unit);

#endif
