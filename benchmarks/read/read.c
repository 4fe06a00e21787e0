/* How long reading a text of 60,000 bytes takes, and how much stack: the least and the middle time of many calls. */
#include <stdio.h>

#include "compassnail.h"
#include "../measure.h"

enum { LONGEST = 60000, ROUNDS = 201 };

static uint8_t text[LONGEST + 1000], out[COMPASSNAIL_OUT_BYTES];
static size_t length;
static uint64_t table[COMPASSNAIL_TABLE_WORDS], answer;

static void add(const char *more)
{
    memcpy(text + length, more, strlen(more));
    length += strlen(more);
}

/* The name of signal k: short, or 32 bytes that differ in the last two from those of the others. */
static void add_name(int k, int is_long)
{
    char name[40];
    snprintf(name, sizeof name, is_long ? "a_name_as_long_as_a_name_may_b%02d" : "s%02d", k);
    add(name);
}

static void begin(int is_long)
{
    length = 0;
    add("entity bench is end; architecture a of bench is signal ");
    for (int k = 0; k < 64; k++) {
        if (k)
            add(", ");
        add_name(k, is_long);
    }
    add(" : boolean; begin process begin\n");
}

/* What is left is filled with spaces, so that the text has its 60,000 bytes. */
static void end(void)
{
    static const char last[] = "end process; end;";
    while (length < LONGEST - strlen(last))
        text[length++] = ' ';
    add(last);
}

static void assignments(int is_long)
{
    begin(is_long);
    for (int k = 0; length < LONGEST - 200 && k < 1020; k++) {
        add_name(63 - k % 2, is_long);
        add(" <= transport ");
        add_name(63, is_long);
        add(" and ");
        add_name(62, is_long);
        add(";\n");
    }
    end();
}

static void short_names(void)
{
    assignments(0);
}

static void long_names(void)
{
    assignments(1);
}

static void nested(void)
{
    begin(0);
    for (int k = 0; length < LONGEST - 800 && k < 60; k++) {
        for (int i = 0; i < 16; i++)
            add("if s63 then ");
        add("s63 <= transport ");
        for (int i = 0; i < 16; i++)
            add("(not ");
        add("s63");
        for (int i = 0; i < 16; i++)
            add(")");
        add(";");
        for (int i = 0; i < 16; i++)
            add(" end if;");
        add("\n");
    }
    end();
}

/* One list of some 20,000 names of two letters, the last of 64 that are declared: the slowest text that was found. */
static void many_names(void)
{
    length = 0;
    add("entity e is end; architecture a of e is signal aa");
    for (int k = 1; k < 64; k++) {
        const char name[] = {',', (char)('a' + k % 26), (char)('a' + k / 26), 0};
        add(name);
    }
    add(":boolean; begin process(lc");
    while (length < LONGEST - 40)
        add(",lc");
    add(") begin ");
    end();
}

static void read_text(void)
{
    answer = compassnail_read(text, length, table, COMPASSNAIL_TABLE_WORDS);
}

static void write_header(void)
{
    answer = compassnail_header(text, length, out, COMPASSNAIL_OUT_BYTES);
}

static void measure(const char *name, void (*make)(void), void (*call)(void))
{
    static double times[ROUNDS];
    make();
    for (int r = 0; r < ROUNDS; r++) {
        double from = nanoseconds();
        call();
        times[r] = (nanoseconds() - from) / 1e6;
    }
    qsort(times, ROUNDS, sizeof *times, rising);
    printf("%-24s %8.3f %8.3f ms, %6zu bytes of stack, %zu bytes read, answer %llu, %llu instructions\n", name, times[0], times[ROUNDS / 2], stack_of(call), length,
           (unsigned long long)answer, (unsigned long long)table[2]);
}

int main(void)
{
    printf("%-24s %8s %8s\n", "per call", "least", "middle");
    measure("read, short names", short_names, read_text);
    measure("read, long names", long_names, read_text);
    measure("read, nested", nested, read_text);
    measure("read, many names", many_names, read_text);
    measure("header, long names", long_names, write_header);
    return 0;
}
