/* How far a run is: one line on a terminal, from the first second on, gone at the end. */
#ifndef PROGRESS_H
#define PROGRESS_H

#include <stdint.h>

struct progress {
    int is_wanted, is_shown;
    uint64_t stop;
    double began, said; /* in seconds */
};

/* Begins a run up to a stop. It is shown where it is wanted and standard error is a terminal. */
void begin_progress(struct progress *progress, int is_wanted, uint64_t stop);

/* Says that a time has been reached, at most ten times a second. */
void say_progress(struct progress *progress, uint64_t time);

void end_progress(struct progress *progress);

#endif
