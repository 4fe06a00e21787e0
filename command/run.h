/* The run of a design up to a stop, call by call. */
#ifndef RUN_H
#define RUN_H

#include "progress.h"
#include "text.h"

#include <stdio.h>

struct run {
    uint64_t table[COMPASSNAIL_TABLE_WORDS], session[COMPASSNAIL_SESSION_WORDS], report[COMPASSNAIL_REPORT_WORDS];
    uint8_t out[COMPASSNAIL_OUT_BYTES];
    int has_started;
    struct progress progress;
};

/* What is written of a call that is done, quiet or at its stop. */
typedef void write_call(FILE *stream, const struct run *run, const char *call, uint64_t answer);

/* Reads a text's table and writes its header. Answers what the call of the header answered. */
uint64_t read_design(struct run *run, const struct text *text);

/* Starts the design and goes on to a stop; each call is written to a stream, up to one that is not written well. Answers the last one's
   answer. */
uint64_t go(struct run *run, uint64_t stop, FILE *stream, write_call *write);

#endif
