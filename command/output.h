/* Where a dump goes: standard output, or a file that appears only when all of it is written. */
#ifndef OUTPUT_H
#define OUTPUT_H

#include <stdio.h>

struct output {
    FILE *stream;
    const char *name; /* as messages name it */
    char *file;       /* what the file will be called, and what it is called up to then: null for standard output and for devices */
    char *beside;
};

/* Opens standard output where no name or `-` is given. Where a file cannot be written, says why and answers 0. */
int open_output(struct output *output, const char *name);

/* Ends the output: it appears where it is whole, else it is removed. Where it cannot be written, says why and answers 0. */
int close_output(struct output *output, int whole);

#endif
