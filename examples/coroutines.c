/* A bench in plain C that runs two designs at once, in two coroutines with small stacks, and takes turns between them: a start or
   an advance of the one, then of the other. Each line of the two dumps has the number of its design in front, 1 or 2.
   Usage: coroutines FILE FILE INTEGER UNIT, as in `coroutines latch.vhd wave.vhd 100 ns`. */
#define _XOPEN_SOURCE 700
#include "given.h"

#include <stdlib.h>
#include <ucontext.h>

/* The larger of what the two calls of a coroutine need, and 8 KB for its own frames and for what else the header does not count. */
#define CALL_BYTES \
    (COMPASSNAIL_START_STACK_BYTES > COMPASSNAIL_ADVANCE_STACK_BYTES ? COMPASSNAIL_START_STACK_BYTES : COMPASSNAIL_ADVANCE_STACK_BYTES)
#define STACK_BYTES (CALL_BYTES + 8192)

struct run {
    unsigned number;
    uint64_t table[COMPASSNAIL_TABLE_WORDS], session[COMPASSNAIL_SESSION_WORDS], report[COMPASSNAIL_REPORT_WORDS];
    uint8_t out[COMPASSNAIL_OUT_BYTES];
    uint64_t answer; /* of the last call */
    ucontext_t context;
    uint8_t stack[STACK_BYTES];
};

static struct run runs[2];
static struct run *own; /* the run whose turn it is */
static ucontext_t bench;
static uint64_t stop;

/* Prints what a call wrote, or its refusal, line by line. Answers whether the run goes on. */
static int show(const struct run *run)
{
    size_t length = compassnail_is_refusal(run->answer) ? 0 : (size_t)compassnail_detail(run->answer), k;
    for (k = 0; k < length; k++) {
        if (k == 0 || run->out[k - 1] == '\n')
            printf("%u ", run->number);
        putchar(run->out[k]);
    }
    if (compassnail_has_place(run->answer))
        printf("%u refused %u %llu\n", run->number, compassnail_kind(run->answer), (unsigned long long)compassnail_detail(run->answer));
    else if (compassnail_is_refusal(run->answer))
        printf("%u refused %u\n", run->number, compassnail_kind(run->answer));
    return compassnail_kind(run->answer) == COMPASSNAIL_DONE;
}

/* A coroutine: a start and then advances, and after each the bench has its turn, which gives none back after the last. */
static void calls(void)
{
    struct run *run = own;
    run->answer = compassnail_start(run->table, COMPASSNAIL_TABLE_WORDS, run->session, COMPASSNAIL_SESSION_WORDS, run->out,
                                    COMPASSNAIL_OUT_BYTES, run->report, COMPASSNAIL_REPORT_WORDS);
    for (;;) {
        swapcontext(&run->context, &bench);
        run->answer = compassnail_advance(run->table, COMPASSNAIL_TABLE_WORDS, run->session, COMPASSNAIL_SESSION_WORDS, stop, run->out,
                                          COMPASSNAIL_OUT_BYTES, run->report, COMPASSNAIL_REPORT_WORDS);
    }
}

/* Reads a design, prints its header or its refusal, and makes its coroutine. Answers whether it can run. */
static int prepare(struct run *run, unsigned number, const char *path)
{
    static uint8_t text[COMPASSNAIL_TEXT_BYTES + 1]; /* one more, to see that a text is too long */
    size_t length = load(path, text, sizeof text);
    if (length == SIZE_MAX || getcontext(&run->context) != 0)
        exit(2);
    run->number = number;
    run->context.uc_stack.ss_sp = run->stack;
    run->context.uc_stack.ss_size = STACK_BYTES;
    makecontext(&run->context, calls, 0);
    run->answer = compassnail_read(text, length, run->table, COMPASSNAIL_TABLE_WORDS);
    if (!compassnail_is_refusal(run->answer))
        run->answer = compassnail_header(text, length, run->out, COMPASSNAIL_OUT_BYTES);
    return show(run);
}

/* One turn of a run that goes on. Answers whether it still does. */
static int take_turn(struct run *run)
{
    own = run;
    swapcontext(&bench, &run->context);
    return show(run);
}

int main(int count, char **words)
{
    int first, second;
    if (count != 5 || !stop_of(words[3], words[4], &stop)) {
        fprintf(stderr, "usage: coroutines FILE FILE INTEGER UNIT, where UNIT is fs, ps, ns, us, ms or sec\n");
        return 2;
    }
    first = prepare(&runs[0], 1, words[1]);
    second = prepare(&runs[1], 2, words[2]);
    while (first || second) {
        first = first && take_turn(&runs[0]);
        second = second && take_turn(&runs[1]);
    }
    return compassnail_is_refusal(runs[0].answer) || compassnail_is_refusal(runs[1].answer);
}
