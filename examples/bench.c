/* A bench in plain C: reads a design from a file, runs it up to a stop, and prints its value change dump.
   Usage: bench FILE INTEGER UNIT, as in `bench pair.vhd 10 ns`. */
#include "given.h"

static uint8_t text[COMPASSNAIL_TEXT_BYTES + 1]; /* one more, to see that a text is too long */
static uint64_t table[COMPASSNAIL_TABLE_WORDS];
static uint64_t session[COMPASSNAIL_SESSION_WORDS];
static uint64_t report[COMPASSNAIL_REPORT_WORDS];
static uint8_t out[COMPASSNAIL_OUT_BYTES];

/* Where a call was refused, says so and answers 1. Else prints what it wrote. */
static int refused(uint64_t answer)
{
    if (compassnail_has_place(answer))
        printf("refused %u %llu\n", compassnail_kind(answer), (unsigned long long)compassnail_detail(answer));
    else if (compassnail_is_refusal(answer))
        printf("refused %u\n", compassnail_kind(answer));
    else
        fwrite(out, 1, (size_t)compassnail_detail(answer), stdout);
    return compassnail_is_refusal(answer);
}

int main(int count, char **words)
{
    uint64_t stop, answer;
    size_t length;
    if (count != 4 || !stop_of(words[2], words[3], &stop)) {
        fprintf(stderr, "usage: bench FILE INTEGER UNIT, where UNIT is fs, ps, ns, us, ms or sec\n");
        return 2;
    }
    length = load(words[1], text, sizeof text);
    if (length == SIZE_MAX)
        return 2;
    if (refused(compassnail_read(text, length, table, COMPASSNAIL_TABLE_WORDS)))
        return 1;
    if (refused(compassnail_header(text, length, out, sizeof out)))
        return 1;
    answer = compassnail_start(table, COMPASSNAIL_TABLE_WORDS, session, COMPASSNAIL_SESSION_WORDS, out, sizeof out, report,
                               COMPASSNAIL_REPORT_WORDS);
    while (compassnail_kind(answer) == COMPASSNAIL_DONE) {
        fwrite(out, 1, (size_t)compassnail_detail(answer), stdout);
        answer = compassnail_advance(table, COMPASSNAIL_TABLE_WORDS, session, COMPASSNAIL_SESSION_WORDS, stop, out, sizeof out,
                                     report, COMPASSNAIL_REPORT_WORDS);
    }
    return refused(answer);
}
