/* Runs every function on a stack of exactly the bytes that the header promises, between pages that cannot be touched: on its deepest
   inputs, and into every refusal that it has. Where a function needs more, it touches the pages below: the test says which one and
   ends with status 1. Its own test gives each function too little, which has to be noticed. For x86-64; it is linked with -z now, so
   that nothing is bound while a function runs. */
#define _DEFAULT_SOURCE
#include "compassnail.h"

#include <signal.h>
#include <stdio.h>
#include <stdlib.h>
#include <string.h>
#include <sys/mman.h>
#include <sys/wait.h>
#include <unistd.h>

#define LAST COMPASSNAIL_LAST_TIME

enum { PAGE = 4096, GUARD = 16 * PAGE, PAINT = 0xa5, DEEPEST = 32, TOO_LITTLE = 1024, ADVANCES = 40 };

/* What the functions are called with. */
static struct {
    uint8_t text[COMPASSNAIL_TEXT_BYTES + 1];
    size_t text_length, table_words, session_words, out_length, report_words;
    uint64_t table[COMPASSNAIL_TABLE_WORDS], session[COMPASSNAIL_SESSION_WORDS], stop, report[COMPASSNAIL_REPORT_WORDS];
    uint8_t out[COMPASSNAIL_OUT_BYTES];
} lent;

static uint64_t call_read(void)
{
    return compassnail_read(lent.text, lent.text_length, lent.table, lent.table_words);
}

static uint64_t call_header(void)
{
    return compassnail_header(lent.text, lent.text_length, lent.out, lent.out_length);
}

static uint64_t call_start(void)
{
    return compassnail_start(lent.table, lent.table_words, lent.session, lent.session_words, lent.out, lent.out_length, lent.report,
                             lent.report_words);
}

static uint64_t call_advance(void)
{
    return compassnail_advance(lent.table, lent.table_words, lent.session, lent.session_words, lent.stop, lent.out, lent.out_length, lent.report,
                               lent.report_words);
}

struct function {
    const char *name;
    size_t promised;
    uint64_t (*call)(void);
    uint8_t *stack;
    size_t used;
    unsigned long calls;
};

enum { READ, HEADER, START, ADVANCE, FUNCTIONS };

static struct function functions[FUNCTIONS] = {
    {"compassnail_read", COMPASSNAIL_READ_STACK_BYTES, call_read, NULL, 0, 0},
    {"compassnail_header", COMPASSNAIL_HEADER_STACK_BYTES, call_header, NULL, 0, 0},
    {"compassnail_start", COMPASSNAIL_START_STACK_BYTES, call_start, NULL, 0, 0},
    {"compassnail_advance", COMPASSNAIL_ADVANCE_STACK_BYTES, call_advance, NULL, 0, 0},
};

static const char *running;    /* the function that is on its stack; the empty word where nobody is to hear of it */
static const uint8_t *lowest; /* the first byte of that stack */

static void fail(const char *what)
{
    fprintf(stderr, "FAILED: %s\n", what);
    exit(2);
}

/* ---- stacks ---- */

static void say(const char *words)
{
    if (write(2, words, strlen(words)) < 0)
        _exit(2);
}

/* The exit status is 1 where the guard below the stack was touched. */
static void caught(int number, siginfo_t *info, void *context)
{
    uintptr_t place = (uintptr_t)info->si_addr, end = (uintptr_t)lowest;
    int below = place < end && end - place <= GUARD;
    (void)number;
    (void)context;
    if (*running) {
        say(running);
        say(below ? " needs more stack than this\n" : " touches what is not its own\n");
    }
    _exit(below ? 1 : 2);
}

static void catch_faults(void)
{
    static uint8_t own[1 << 16];
    stack_t other;
    struct sigaction action;
    memset(&other, 0, sizeof other);
    other.ss_sp = own;
    other.ss_size = sizeof own;
    memset(&action, 0, sizeof action);
    action.sa_sigaction = caught;
    action.sa_flags = SA_ONSTACK | SA_SIGINFO;
    if (sigaltstack(&other, NULL) || sigaction(SIGSEGV, &action, NULL) || sigaction(SIGBUS, &action, NULL))
        fail("no handler");
}

/* So many bytes, a multiple of 16, right above pages that cannot be touched; behind their own pages stand others. */
static uint8_t *new_stack(size_t bytes)
{
    size_t inner = (bytes + PAGE - 1) / PAGE * PAGE;
    uint8_t *all = mmap(NULL, inner + 2 * GUARD, PROT_NONE, MAP_PRIVATE | MAP_ANONYMOUS, -1, 0);
    if (bytes % 16 != 0 || all == MAP_FAILED || mprotect(all + GUARD, inner, PROT_READ | PROT_WRITE))
        fail("no stack");
    memset(all + GUARD, PAINT, inner);
    return all + GUARD;
}

/* Calls a function whose return address is the first thing on another stack. */
static uint64_t call_on(uint8_t *top, uint64_t (*call)(void))
{
    uint64_t answer;
    __asm__ volatile("movq %%rsp, %%rbx\n\tmovq %1, %%rsp\n\tcall *%2\n\tmovq %%rbx, %%rsp"
                     : "=a"(answer)
                     : "r"(top), "r"(call)
                     : "rbx", "rcx", "rdx", "rsi", "rdi", "r8", "r9", "r10", "r11", "cc", "memory", "xmm0", "xmm1", "xmm2", "xmm3", "xmm4",
                       "xmm5", "xmm6", "xmm7", "xmm8", "xmm9", "xmm10", "xmm11", "xmm12", "xmm13", "xmm14", "xmm15");
    return answer;
}

/* A call on the function's own stack, which has to give an answer of this kind. */
static void expect(int which, unsigned kind)
{
    struct function *f = &functions[which];
    size_t left = 0;
    uint64_t answer;
    running = f->name;
    lowest = f->stack;
    answer = call_on(f->stack + f->promised, f->call);
    while (left < f->promised && f->stack[left] == PAINT)
        left++;
    memset(f->stack + left, PAINT, f->promised - left);
    if (f->promised - left > f->used)
        f->used = f->promised - left;
    f->calls++;
    if (compassnail_kind(answer) == kind)
        return;
    fprintf(stderr, "%s: kind %u, where %u is due\n", f->name, compassnail_kind(answer), kind);
    fail("an input is not what it should be");
}

/* The test of this test: a function with too little stack is caught. It runs in a process of its own. */
static void expect_caught(int which, size_t bytes)
{
    int status = 0;
    pid_t child = fork();
    if (child == 0) {
        uint8_t *stack = new_stack(bytes);
        running = "";
        lowest = stack;
        call_on(stack + bytes, functions[which].call);
        _exit(0);
    }
    if (child < 0 || waitpid(child, &status, 0) != child || !WIFEXITED(status) || WEXITSTATUS(status) != 1)
        fail("too little stack was not noticed");
}

/* ---- texts ---- */

static void add(const char *more)
{
    size_t length = strlen(more);
    if (lent.text_length + length > sizeof lent.text)
        fail("no room for a text");
    memcpy(lent.text + lent.text_length, more, length);
    lent.text_length += length;
}

static void add_times(unsigned times, const char *more)
{
    while (times--)
        add(more);
}

/* Words, and then the number of a signal. */
static void add_number(const char *before, unsigned k)
{
    char number[16];
    snprintf(number, sizeof number, "%u", k);
    add(before);
    add(number);
}

/* A design up to its declarations' end, with so many signals: q, s0, s1 and so on. */
static void begin_design(unsigned signals)
{
    lent.text_length = 0;
    add("entity e is end; architecture a of e is signal q");
    for (unsigned k = 0; k + 1 < signals; k++)
        add_number(",s", k);
    add(":boolean; begin ");
}

/* What opens and closes a bracket within an expression, and an `if` within statements. */
static const char *const brackets[][2] = {{"(", ")"},         {"not (", ")"},      {"q and (", ")"},         {"q nand (", ")"},
                                          {"(", " or q)"},    {"(", " nor not q)"}, {"q xor q xor (", ")"}, {"(q) xnor not (", ")"}};
static const char *const ifs[][2] = {{"if q then ", " end if;"},
                                     {"if q then null; else ", " end if;"},
                                     {"if not q then q <= transport q; else null; ", " end if;"}};

/* What stands innermost, what stands behind the expression, and the kind of the answer. */
static const struct {
    const char *innermost, *behind;
    unsigned kind;
} middles[] = {{"q", "", COMPASSNAIL_DONE},
               {"q", " after 1000 sec", COMPASSNAIL_DONE},
               {"q @", "", COMPASSNAIL_REFUSED_TOKEN},
               {"q q", "", COMPASSNAIL_REFUSED_GRAMMAR},
               {"(q)", "", COMPASSNAIL_REFUSED_NESTING},
               {"w", "", COMPASSNAIL_REFUSED_UNKNOWN},
               {"q", " after 1001 sec", COMPASSNAIL_REFUSED_DELAY},
               {"q", "; s0 <= transport q", COMPASSNAIL_REFUSED_DRIVER}};

/* 32 open in the last of two processes: so many `if`s, and brackets for the rest. */
static void nest(const char *const *conditional, const char *const *bracket, unsigned deep, const char *innermost, const char *behind)
{
    begin_design(2);
    add("process begin s0 <= transport q; end process; process (q) begin ");
    add_times(deep, conditional[0]);
    add("q <= transport ");
    add_times(DEEPEST - deep, bracket[0]);
    add(innermost);
    add_times(DEEPEST - deep, bracket[1]);
    add(behind);
    add(";");
    add_times(deep, conditional[1]);
    add(" end process; end;");
}

static void expect_text(unsigned kind)
{
    expect(READ, kind);
    expect(HEADER, kind);
}

static void nested_texts(void)
{
    for (size_t i = 0; i < sizeof ifs / sizeof *ifs; i++)
        for (size_t b = 0; b < sizeof brackets / sizeof *brackets; b++)
            for (size_t m = 0; m < sizeof middles / sizeof *middles; m++)
                for (unsigned deep = 0; deep <= DEEPEST; deep++) {
                    nest(ifs[i], brackets[b], deep, middles[m].innermost, middles[m].behind);
                    expect_text(middles[m].kind);
                }
}

/* A text that is cut off within its deepest bracket, and a condition with 31 brackets in an `if`. */
static void cut_texts(void)
{
    nest(ifs[0], brackets[2], 0, "", "");
    lent.text_length -= strlen(" end process; end;");
    expect_text(COMPASSNAIL_REFUSED_GRAMMAR);
    begin_design(2);
    add("process begin if ");
    add_times(DEEPEST - 1, "q or not (");
    add("q");
    add_times(DEEPEST - 1, ")");
    add(" then null; end if; end process; end;");
    expect_text(COMPASSNAIL_DONE);
}

/* Refusals of names and sizes outside of expressions. */
static void flat_texts(void)
{
    begin_design(2);
    add("s0 : process begin end process; end;");
    expect_text(COMPASSNAIL_REFUSED_USED);
    begin_design(2);
    add("p : process begin end process s0; end;");
    expect_text(COMPASSNAIL_REFUSED_CLOSING);
    begin_design(65);
    add("end;");
    expect_text(COMPASSNAIL_REFUSED_COUNT);
    begin_design(2);
    add_times(65, "process begin end process; ");
    add("end;");
    expect_text(COMPASSNAIL_REFUSED_COUNT);
    lent.text_length = 0;
    expect_text(COMPASSNAIL_REFUSED_GRAMMAR);
    add_times(COMPASSNAIL_TEXT_BYTES + 1, " ");
    expect_text(COMPASSNAIL_REFUSED_TEXT_LENGTH);
    lent.table_words--;
    expect(READ, COMPASSNAIL_REFUSED_BUFFER);
    lent.table_words++;
    lent.out_length--;
    expect(HEADER, COMPASSNAIL_REFUSED_BUFFER);
    lent.out_length++;
}

/* A process with all of 64 signals in its list, which inverts its own within so many `if`s: 3 instructions for each of these, 4 and 2 for
   each `xor false` more. */
static void full_process(const char *own, unsigned deep, unsigned more, const char *first)
{
    add("process (q");
    for (unsigned k = 0; k < 63; k++)
        add_number(",s", k);
    add(") begin ");
    add_times(deep, "if true then ");
    add(own);
    add(" <= transport ");
    add(first);
    add(own);
    add(" xor true");
    add_times(more, " xor false");
    add(" after 1000 sec;");
    add_times(deep, " end if;");
    add(" end process; ");
}

/* 64 signals, 64 processes and 4,096 instructions, the last ones within 32 `if`s; one more where the last process has a first word `not`. */
static void full_design(const char *first)
{
    begin_design(64);
    for (unsigned k = 0; k < 62; k++) {
        char own[16];
        snprintf(own, sizeof own, "s%u", k);
        full_process(own, 0, 30, "");
    }
    full_process("s62", 0, 0, "");
    full_process("q", DEEPEST, 12, first);
    add("end;");
}

/* ---- runs ---- */

/* q changes every ns, and 63 signals follow so many ns later: as many changes are pending for each. */
static void followers(const char *delay)
{
    begin_design(64);
    add("process (q) begin q <= transport not q after 1 ns; end process; ");
    for (unsigned k = 0; k < 63; k++) {
        add_number("process (q) begin s", k);
        add(" <= transport q after ");
        add(delay);
        add(" ns; end process; ");
    }
    add("end;");
}

/* At 1 ns, a counter without delay up to a number below 1,024: one cycle, and as many as it counts. */
static void counter(unsigned upto)
{
    begin_design(11);
    add("process begin q <= transport true after 1 ns; end process; process (q");
    for (unsigned k = 0; k < 10; k++)
        add_number(",s", k);
    add(") begin if q and not (true");
    for (unsigned k = 0; k < 10; k++)
        add_number(upto >> k & 1 ? " and s" : " and not s", k);
    add(") then s0 <= transport not s0; ");
    for (unsigned k = 1; k < 10; k++) {
        add_number("if s", k - 1);
        add_number(" then s", k);
        add_number(" <= transport not s", k);
        add("; ");
    }
    add_times(10, "end if; ");
    add("end process; end;");
}

/* So many changes of one signal in one run of its process. */
static void posts(unsigned count)
{
    begin_design(2);
    add("process begin ");
    for (unsigned k = 1; k <= count; k++) {
        add_number("q <= transport not q after ", k);
        add(" ns; ");
    }
    add("end process; end;");
}

/* Reads the text, starts it, and advances it so many times; the last answer is of this kind, those before it are done. */
static void run(unsigned advances, unsigned kind)
{
    expect_text(COMPASSNAIL_DONE);
    expect(START, advances ? COMPASSNAIL_DONE : kind);
    for (unsigned k = 1; k <= advances; k++)
        expect(ADVANCE, k < advances ? COMPASSNAIL_DONE : kind);
}

static void runs(void)
{
    followers("16");
    run(ADVANCES, COMPASSNAIL_DONE);
    followers("17");
    run(16, COMPASSNAIL_REFUSED_PENDING);
    posts(COMPASSNAIL_PENDING);
    run(COMPASSNAIL_PENDING + 1, COMPASSNAIL_QUIET);
    posts(COMPASSNAIL_PENDING + 1);
    run(0, COMPASSNAIL_REFUSED_PENDING);
    counter(COMPASSNAIL_CYCLES - 1);
    run(1, COMPASSNAIL_DONE);
    if (lent.report[COMPASSNAIL_REPORT_CYCLES] != COMPASSNAIL_CYCLES)
        fail("a counter of other than 1,000 cycles");
    expect(ADVANCE, COMPASSNAIL_QUIET);
    counter(COMPASSNAIL_CYCLES);
    run(1, COMPASSNAIL_REFUSED_CYCLES);
    begin_design(1);
    add("process (q) begin q <= transport not q; end process; end;");
    run(0, COMPASSNAIL_REFUSED_CYCLES);
}

/* ---- tables and sessions ---- */

static void expect_run(unsigned kind)
{
    expect(START, kind);
    expect(ADVANCE, kind);
}

/* One word of a table becomes another for a start and an advance. */
static void damage_table(size_t place, uint64_t word)
{
    uint64_t old = lent.table[place];
    lent.table[place] = word;
    expect_run(COMPASSNAIL_REFUSED_TABLE);
    lent.table[place] = old;
}

/* Counts, unused words, starting values, ends, kinds, signals, delays, jumps, operands and drivers that are not fit. */
static void damaged_tables(void)
{
    static const struct {
        size_t place;
        uint64_t word;
    } damages[] = {{0, 65},         {1, 65},         {2, 4097},      {0, 63},       {3, 2},           {131, 4097},
                   {194, 4095},     {195, 12},       {195, 1024},    {4291, 1},     {4291 + 63, LAST + 1}, {195 + 4094, 10 + 16 * 4094},
                   {195 + 4095, 0}, {195 + 4095, 2}, {195 + 1, 3},   {195 + 63, 9 + 16 * 2}};
    for (size_t k = 0; k < sizeof damages / sizeof *damages; k++)
        damage_table(damages[k].place, damages[k].word);
}

static void damage_session(size_t place, uint64_t word)
{
    uint64_t old = lent.session[place];
    lent.session[place] = word;
    expect(ADVANCE, COMPASSNAIL_REFUSED_SESSION);
    lent.session[place] = old;
}

/* Its count, time, values, numbers of changes, and changes. */
static void damaged_sessions(void)
{
    damage_session(0, 63);
    damage_session(1, LAST + 1);
    damage_session(65, 2);
    damage_session(66 + 63, 17);
    damage_session(66 + 63, 0);
    damage_session(130 + 16 * 63, 0);
    damage_session(130 + 16 * 63 + 15, 1);
}

static void short_buffers(void)
{
    size_t *lengths[] = {&lent.table_words, &lent.session_words, &lent.out_length, &lent.report_words};
    for (size_t k = 0; k < sizeof lengths / sizeof *lengths; k++) {
        --*lengths[k];
        expect_run(COMPASSNAIL_REFUSED_BUFFER);
        ++*lengths[k];
    }
    lent.stop = LAST + 1;
    expect(ADVANCE, COMPASSNAIL_REFUSED_STOP);
    lent.stop = LAST;
}

/* The largest design: all its signals change at the last time. */
static void full_designs(void)
{
    full_design("not ");
    expect_text(COMPASSNAIL_REFUSED_COUNT);
    full_design("");
    run(2, COMPASSNAIL_STOP_REACHED);
    if (lent.table[2] != COMPASSNAIL_INSTRUCTIONS || lent.report[COMPASSNAIL_REPORT_TIME] != LAST)
        fail("a design of other than 4,096 instructions");
    damaged_tables();
    expect(START, COMPASSNAIL_DONE);
    damaged_sessions();
    short_buffers();
}

int main(void)
{
    catch_faults();
    lent.table_words = COMPASSNAIL_TABLE_WORDS;
    lent.session_words = COMPASSNAIL_SESSION_WORDS;
    lent.out_length = COMPASSNAIL_OUT_BYTES;
    lent.report_words = COMPASSNAIL_REPORT_WORDS;
    lent.stop = LAST;
    for (int k = 0; k < FUNCTIONS; k++)
        functions[k].stack = new_stack(functions[k].promised);
    nested_texts();
    cut_texts();
    flat_texts();
    runs();
    full_designs();
    for (int k = 0; k < FUNCTIONS; k++) {
        const struct function *f = &functions[k];
        expect_caught(k, TOO_LITTLE);
        printf("%-20s %6lu calls on %5zu bytes of stack, at most %5zu of them used\n", f->name, f->calls, f->promised, f->used);
    }
    return 0;
}
