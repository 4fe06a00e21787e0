/* What the dump or the trace program has to print of a text up to a stop, by the reference, which runs the statements as written.
   Usage: due dump|trace STOP < TEXT, with the stop in femtoseconds. */
#include "reference.h"

#include <inttypes.h>
#include <stdio.h>
#include <stdlib.h>
#include <string.h>

static uint8_t text[60001], out[REF_BUFFER_BYTES];
static uint64_t session[REF_SESSION_WORDS];
static int traces;

static void show(const char *call, struct ref_answer answer)
{
    if (traces)
        printf("%s ", call);
    if (answer.kind == REF_REFUSED) {
        printf("refused %d", answer.number);
        if (answer.number >= 2 && answer.number <= 10)
            printf(" %" PRIu64, answer.place);
        printf("\n");
    } else if (!traces) {
        fwrite(out, 1, (size_t)answer.bytes, stdout);
    } else if (answer.kind != REF_DONE) {
        printf("%s bytes 0\n", answer.kind == REF_QUIET ? "quiet" : "stop reached");
    } else if (strcmp(call, "header") == 0) {
        printf("written bytes %" PRIu64 "\n", answer.bytes);
    } else {
        printf("moved bytes %" PRIu64 " time %" PRIu64 " cycles %" PRIu64 " steps %" PRIu64 "\n", answer.bytes, answer.time, answer.cycles, answer.steps);
    }
}

int main(int count, char **words)
{
    struct ref_design *design;
    struct ref_answer answer;
    size_t length;
    uint64_t stop;
    if (count != 3)
        return 2;
    traces = strcmp(words[1], "trace") == 0;
    stop = strtoull(words[2], NULL, 10);
    length = fread(text, 1, sizeof text, stdin);
    answer = ref_header(text, length, out, sizeof out);
    show("header", answer);
    if (answer.kind == REF_REFUSED)
        return 0;
    ref_parse(text, length, &design);
    answer = ref_start_written(design, session, out);
    show("start", answer);
    while (answer.kind == REF_DONE) {
        answer = ref_advance_written(design, session, stop, out);
        show("advance", answer);
    }
    ref_free(design);
    return 0;
}
