/* Worked cases with their whole dumps and reports written out, so that they do not rest on the reference.
   The exit status is 0 where the library gives all of them. */
#include "compassnail.h"

#include <stdio.h>
#include <string.h>

#define NS UINT64_C(1000000)
#define LAST COMPASSNAIL_LAST_TIME

static uint64_t table[COMPASSNAIL_TABLE_WORDS], session[COMPASSNAIL_SESSION_WORDS], report[COMPASSNAIL_REPORT_WORDS];
static uint8_t out[COMPASSNAIL_OUT_BYTES];
static char dump[1 << 20];
static size_t dumped;
static int failures;

static void expect(const char *title, int holds, const char *what)
{
    if (holds)
        return;
    failures++;
    printf("FAILED: %s: %s\n", title, what);
}

static void keep_bytes(uint64_t answer)
{
    memcpy(dump + dumped, out, (size_t)compassnail_detail(answer));
    dumped += (size_t)compassnail_detail(answer);
    dump[dumped] = 0;
}

static uint64_t start(void)
{
    return compassnail_start(table, COMPASSNAIL_TABLE_WORDS, session, COMPASSNAIL_SESSION_WORDS, out, sizeof out, report, COMPASSNAIL_REPORT_WORDS);
}

static uint64_t advance(uint64_t stop)
{
    return compassnail_advance(table, COMPASSNAIL_TABLE_WORDS, session, COMPASSNAIL_SESSION_WORDS, stop, out, sizeof out, report, COMPASSNAIL_REPORT_WORDS);
}

/* Reads a text and keeps its header. */
static void begin(const char *title, const char *text)
{
    uint64_t answer;
    dumped = 0;
    expect(title, compassnail_read((const uint8_t *)text, strlen(text), table, COMPASSNAIL_TABLE_WORDS) == 0, "is read");
    answer = compassnail_header((const uint8_t *)text, strlen(text), out, sizeof out);
    expect(title, compassnail_kind(answer) == COMPASSNAIL_DONE, "has a header");
    keep_bytes(answer);
}

/* The dump up to the stop, and how the run ends. */
static void check(const char *title, const char *text, uint64_t stop, unsigned ends, const char *due)
{
    uint64_t answer;
    begin(title, text);
    for (answer = start(); compassnail_kind(answer) == COMPASSNAIL_DONE; answer = advance(stop))
        keep_bytes(answer);
    expect(title, compassnail_kind(answer) == ends && compassnail_detail(answer) == 0, "ends as it should");
    expect(title, strcmp(dump, due) == 0, "dumps what it should");
}

/* The time, cycles and steps of a call that is done. */
static void moved(const char *title, uint64_t answer, uint64_t time, uint64_t cycles, uint64_t steps)
{
    expect(title, compassnail_kind(answer) == COMPASSNAIL_DONE, "moves");
    expect(title, report[COMPASSNAIL_REPORT_TIME] == time, "time");
    expect(title, report[COMPASSNAIL_REPORT_CYCLES] == cycles, "cycles");
    expect(title, report[COMPASSNAIL_REPORT_STEPS] == steps, "steps");
}

static const char case_a[] = "entity pair is end;\narchitecture a of pair is\n  signal q, d : boolean;\nbegin\n"
                             "  process (q) begin q <= transport not q after 3 ns; end process;\n"
                             "  process (q) begin d <= transport not q; end process;\nend;\n";

static void pair(void)
{
    check("case A", case_a, 10 * NS, COMPASSNAIL_STOP_REACHED,
          "$timescale 1 fs $end\n$scope module pair $end\n$var wire 1 ! q $end\n$var wire 1 \" d $end\n$upscope $end\n$enddefinitions $end\n"
          "#0\n$dumpvars\n0!\n1\"\n$end\n#3000000\n1!\n0\"\n#6000000\n0!\n1\"\n#9000000\n1!\n0\"\n");
    begin("reports of case A", case_a);
    moved("start of case A", start(), 0, 1, 6);
    moved("first advance", advance(LAST), 3 * NS, 2, 6);
    moved("second advance", advance(6 * NS), 6 * NS, 2, 6);
    expect("before 9 ns", advance(9 * NS - 1) == COMPASSNAIL_STOP_REACHED, "stop reached");
    moved("third advance", advance(9 * NS), 9 * NS, 2, 6);
    expect("after 9 ns", advance(9 * NS) == COMPASSNAIL_STOP_REACHED, "stop reached");
    expect("a stop in the past", advance(0) == COMPASSNAIL_STOP_REACHED, "stop reached");
    expect("a stop too large", advance(LAST + 1) == COMPASSNAIL_REFUSED_STOP, "12");
}

static void nothing(void)
{
    check("no signals, no processes", "entity None is end; architecture a of none is begin end;", LAST, COMPASSNAIL_QUIET,
          "$timescale 1 fs $end\n$scope module none $end\n$upscope $end\n$enddefinitions $end\n#0\n$dumpvars\n$end\n");
    begin("reports of nothing", "entity none is end; architecture a of none is begin end;");
    moved("start of nothing", start(), 0, 0, 0);
    expect("nothing", advance(0) == COMPASSNAIL_QUIET, "quiet before stop reached");
    begin("endless cycles", "entity e is end; architecture a of e is signal q : boolean; begin process (q) begin q <= transport not q; end process; end;");
    expect("endless cycles", start() == COMPASSNAIL_REFUSED_CYCLES, "16");
}

#define HEAD "$timescale 1 fs $end\n$scope module e $end\n$var wire 1 ! s $end\n$upscope $end\n$enddefinitions $end\n#0\n$dumpvars\n0!\n$end\n"
#define ONE(statements) "entity e is end; architecture a of e is signal s : boolean; begin process begin " statements " end process; end;"

static void posts(void)
{
    check("true after 8 ns, false after 3 ns", ONE("s <= transport true after 8 ns; s <= transport false after 3 ns;"), LAST, COMPASSNAIL_QUIET, HEAD);
    check("true after 3 ns, false after 8 ns", ONE("s <= transport true after 3 ns; s <= transport false after 8 ns;"), LAST, COMPASSNAIL_QUIET,
          HEAD "#3000000\n1!\n#8000000\n0!\n");
    check("both after 3 ns", ONE("s <= transport false after 3 ns; s <= transport true after 3 ns;"), LAST, COMPASSNAIL_QUIET, HEAD "#3000000\n1!\n");
    check("true nand true", ONE("s <= transport true nand true after 1 fs;"), LAST, COMPASSNAIL_QUIET, HEAD);
    check("1000 sec", ONE("s <= transport true after 1000 sec;"), LAST, COMPASSNAIL_QUIET, HEAD "#1000000000000000000\n1!\n");
    check("just before 1000 sec", ONE("s <= transport true after 1000 sec;"), LAST - 1, COMPASSNAIL_STOP_REACHED, HEAD);
    check("past the last time",
          "entity e is end; architecture a of e is signal s : boolean; begin process (s) begin s <= transport true after 600 sec; "
          "if s then s <= transport false after 600 sec; end if; end process; end;",
          LAST, COMPASSNAIL_STOP_REACHED, HEAD "#600000000000000000\n1!\n");
}

/* The last time line of the dump so far. */
static uint64_t last_time(void)
{
    unsigned long long time = 0;
    const char *line = strrchr(dump, '#');
    if (line)
        sscanf(line + 1, "%llu", &time);
    return time;
}

static void pending(void)
{
    const char *text = "entity e is end; architecture a of e is signal q, s : boolean; begin process (q) begin q <= transport not q after 1 ns; end process; "
                       "process (q) begin s <= transport q after %d ns; end process; end;";
    for (int delay = 15; delay <= 17; delay++) {
        char own[512];
        uint64_t answer;
        snprintf(own, sizeof own, text, delay);
        begin("pending changes", own);
        for (answer = start(); compassnail_kind(answer) == COMPASSNAIL_DONE; answer = advance(100 * NS))
            keep_bytes(answer);
        expect("pending changes", answer == (delay == 17 ? COMPASSNAIL_REFUSED_PENDING : COMPASSNAIL_STOP_REACHED), "ends as it should");
        expect("pending changes", last_time() == (delay == 17 ? 15 : 100) * NS, "last time");
        expect("pending changes", session[1] == (delay == 17 ? 15 : 100) * NS, "a refused call leaves the session");
    }
}

/* A counter without delay that stops at a number: so many cycles at time 0. */
static void cycles(unsigned upto)
{
    char text[4096], condition[512] = "";
    size_t used = 0;
    uint64_t answer;
    for (int k = 0; k < 10; k++)
        used += (size_t)snprintf(condition + used, sizeof condition - used, "%s%sc%d", k ? " and " : "", upto >> k & 1 ? "" : "not ", k);
    used = (size_t)snprintf(text, sizeof text,
                            "entity e is end; architecture a of e is signal c0, c1, c2, c3, c4, c5, c6, c7, c8, c9 : boolean; begin "
                            "process (c0, c1, c2, c3, c4, c5, c6, c7, c8, c9) begin if not (%s) then c0 <= transport not c0; ",
                            condition);
    for (int k = 1; k < 10; k++)
        used += (size_t)snprintf(text + used, sizeof text - used, "if c%d then c%d <= transport not c%d; ", k - 1, k, k);
    for (int k = 0; k < 10; k++)
        used += (size_t)snprintf(text + used, sizeof text - used, "end if; ");
    snprintf(text + used, sizeof text - used, "end process; end;");
    begin("cycles at one time", text);
    answer = start();
    if (upto > COMPASSNAIL_CYCLES) {
        expect("cycles at one time", answer == COMPASSNAIL_REFUSED_CYCLES, "16");
    } else {
        expect("cycles at one time", compassnail_kind(answer) == COMPASSNAIL_DONE, "starts");
        expect("cycles at one time", report[COMPASSNAIL_REPORT_CYCLES] == upto, "as many as counted");
    }
}

/* Refusals 2 to 10 have a place, whatever the place is; nothing else has one. */
static void places(void)
{
    for (uint64_t kind = 0; kind < 256; kind++) {
        int due = 2 <= kind && kind <= 10;
        expect("places", compassnail_has_place(kind) == due, "at place 0");
        expect("places", compassnail_has_place(kind + 256 * UINT64_C(60000)) == due, "at place 60,000");
    }
}

int main(void)
{
    places();
    pair();
    nothing();
    posts();
    pending();
    cycles(999);
    cycles(1000);
    cycles(1001);
    printf("worked cases: %d failures\n", failures);
    return failures != 0;
}
