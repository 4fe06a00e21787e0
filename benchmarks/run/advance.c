/* How long an advance takes on three tables: the least and the middle time of many, per advance. */
#include <stdio.h>

#include "../measure.h"

void run_bench_relays(const uint64_t *table, size_t table_length, uint64_t *relays);
uint64_t run_bench_begin(uint64_t *cells, const uint64_t *table, size_t table_length, const uint64_t *relays, uint8_t *out, size_t out_length);
uint64_t run_bench_forward(uint64_t *cells, const uint64_t *table, size_t table_length, const uint64_t *relays, uint64_t stop, uint8_t *out, size_t out_length);
uint64_t run_bench_start(const uint64_t *table, size_t table_length, uint64_t *words, size_t length, uint8_t *out, size_t out_length);
uint64_t run_bench_advance(const uint64_t *table, size_t table_length, uint64_t *words, size_t length, uint64_t stop, uint8_t *out, size_t out_length);

enum { TABLE = 8387, SESSION = 1154, OUT = 4096, ADVANCES = 1000, ROUNDS = 301 };

static uint64_t table[TABLE], words[SESSION], cells[SESSION - 2], relays[256];
static uint8_t out[OUT];
static const uint64_t stop = 1000000000000000000u;

enum { NAME = 0, NOT = 2, ASSIGNMENT = 9 };

static void instruction(uint64_t operation, uint64_t delay)
{
    table[195 + table[2]] = operation;
    table[4291 + table[2]] = delay;
    table[2]++;
}

/* A process that wakes with signal s and assigns it, or its negation, to signal k. */
static void follows(int s, int k, int negated, uint64_t delay)
{
    table[67 + s] |= (uint64_t)1 << table[1];
    instruction(NAME + 16 * s, 0);
    if (negated)
        instruction(NOT, 0);
    instruction(ASSIGNMENT + 16 * k, delay);
    table[131 + table[1]] = table[2];
    table[1]++;
}

static void case_a(void)
{
    table[0] = 2;
    follows(0, 0, 1, 3000000);
    follows(0, 1, 1, 0);
}

static void oscillators(void)
{
    table[0] = 64;
    for (int k = 0; k < 64; k++)
        follows(k, k, 1, 1000003 + 7919 * k);
}

static void chain(void)
{
    table[0] = 64;
    follows(0, 0, 1, 3000000);
    for (int k = 1; k < 64; k++)
        follows(k - 1, k, 0, 0);
}

static void measure(const char *name, void (*make)(void))
{
    static double inner[ROUNDS], outer[ROUNDS];
    memset(table, 0, sizeof table);
    make();
    memset(relays, 0, sizeof relays);
    run_bench_relays(table, TABLE, relays);
    for (int r = 0; r < ROUNDS; r++) {
        run_bench_begin(cells, table, TABLE, relays, out, OUT);
        double from = nanoseconds();
        for (int i = 0; i < ADVANCES; i++)
            if (!run_bench_forward(cells, table, TABLE, relays, stop, out, OUT))
                exit(1);
        inner[r] = (nanoseconds() - from) / ADVANCES;
        run_bench_start(table, TABLE, words, SESSION, out, OUT);
        from = nanoseconds();
        for (int i = 0; i < ADVANCES / 10; i++)
            if (!run_bench_advance(table, TABLE, words, SESSION, stop, out, OUT))
                exit(1);
        outer[r] = (nanoseconds() - from) / (ADVANCES / 10);
    }
    qsort(inner, ROUNDS, sizeof *inner, rising);
    qsort(outer, ROUNDS, sizeof *outer, rising);
    printf("%-32s %8.1f %8.1f ns on cells, %8.1f %8.1f ns on lent words\n", name, inner[0], inner[ROUNDS / 2], outer[0], outer[ROUNDS / 2]);
}

int main(void)
{
    printf("%-32s %8s %8s\n", "per advance", "least", "middle");
    measure("case A", case_a);
    measure("64 oscillators", oscillators);
    measure("a zero-delay chain of 64", chain);
    return 0;
}
