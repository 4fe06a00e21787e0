/* A start or an advance that was refused 15 or 16, repeated by the rules on a copy of its session, to see which signals it is about. */
#ifndef REPLAY_H
#define REPLAY_H

#include "compassnail.h"

struct replay {
    const uint64_t *table;
    uint64_t session[COMPASSNAIL_SESSION_WORDS];
    uint64_t time;     /* at which it is refused */
    uint64_t changing; /* the signals that changed in the last cycles: bit k for signal k */
    int overflows;     /* whether a post is refused 15 */
    size_t assignment; /* whose post that is, counted from 0 in the order of the text */
};

enum { REPLAY_LAST_CYCLES = 100 }; /* how many cycles count as the last ones */

/* Repeats the start of a table, or the advance of a session where one is given. */
void replay(struct replay *replay, const uint64_t *table, const uint64_t *session);

#endif
