/* What a design can go on with at a place, found by reading the text up to there with each candidate behind it. */
#ifndef GOES_ON_H
#define GOES_ON_H

#include "text.h"

/* Says on standard error what is accepted at a token that was refused 3. Nothing is said where the text has no room for a trial. */
void say_accepted(const struct text *text, struct token refused);

#endif
