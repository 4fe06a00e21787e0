/* A refusal as people read it, on standard error: where, what, and what would be accepted. */
#ifndef REFUSAL_H
#define REFUSAL_H

#include "replay.h"
#include "text.h"

/* Explains the refusal of a text. */
void explain_text(const struct text *text, uint64_t answer);

/* Explains the refusal of a start or an advance, which has been repeated. */
void explain_run(const struct text *text, uint64_t answer, const struct replay *replay);

/* Explains a stop that is too large, by its unit. */
void explain_stop(int unit);

#endif
