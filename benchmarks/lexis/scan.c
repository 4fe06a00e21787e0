/* How long one scan of a typical text of 60,000 bytes takes: the least and the middle time of many. */
#include <stdbool.h>
#include <stdint.h>
#include <stdio.h>
#include <stdlib.h>
#include <string.h>
#include <time.h>

bool lexis_bench_allowed(const uint8_t *text, size_t length);
size_t lexis_bench_names(const uint8_t *text, size_t length);

enum { LENGTH = 60000, SCANS = 1001 };

static char text[LENGTH + 1];

/* Processes as people write them, with names, comments and indentation; spaces fill the end. */
static void make_text(void)
{
    size_t n = sprintf(text, "entity bench is end entity bench;\narchitecture a of bench is\nbegin\n");
    for (int k = 0;; k++) {
        char part[512];
        size_t length = sprintf(part,
            "  -- stage %d: holds its value until the clock rises\n"
            "  stage_%d : process (clock, input_%d, enable)\n"
            "  begin\n"
            "    if enable and not (clock xor clock_before) then\n"
            "      output_%d <= transport input_%d nand Hold after %d ns;\n"
            "    else\n"
            "      output_%d <= transport false;\n"
            "    end if;\n"
            "  end process stage_%d;\n\n",
            k, k, k, k, k, k % 90 + 1, k, k);
        if (n + length > LENGTH)
            break;
        memcpy(text + n, part, length);
        n += length;
    }
    memset(text + n, ' ', LENGTH - n);
}

static double milliseconds(void)
{
    struct timespec now;
    clock_gettime(CLOCK_MONOTONIC, &now);
    return now.tv_sec * 1e3 + now.tv_nsec / 1e6;
}

static size_t allowed(void) { return lexis_bench_allowed((const uint8_t *)text, LENGTH); }
static size_t names(void) { return lexis_bench_names((const uint8_t *)text, LENGTH); }

static int by_size(const void *a, const void *b)
{
    double x = *(const double *)a, y = *(const double *)b;
    return (x > y) - (x < y);
}

static void measure(const char *what, size_t (*scan)(void))
{
    static double times[SCANS];
    size_t found = 0;
    for (int i = 0; i < SCANS; i++) {
        double start = milliseconds();
        found = scan();
        times[i] = milliseconds() - start;
    }
    qsort(times, SCANS, sizeof times[0], by_size);
    printf("%-32s %.3f ms at best, %.3f ms in the middle of %d scans (answer %zu)\n", what, times[0], times[SCANS / 2], SCANS, found);
}

int main(void)
{
    make_text();
    measure("first refused place", allowed);
    measure("tokens, each word looked up", names);
    return 0;
}
