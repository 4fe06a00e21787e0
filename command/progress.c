/* How far a run is: one line on a terminal, from the first second on, gone at the end. */
#define _POSIX_C_SOURCE 200809L
#include "progress.h"

#include <stdio.h>
#include <time.h>
#include <unistd.h>

static double seconds(void)
{
    struct timespec now;
    clock_gettime(CLOCK_MONOTONIC, &now);
    return (double)now.tv_sec + (double)now.tv_nsec * 1e-9;
}

/* A time of some digits, in the largest unit up to `sec` of which there is one. */
static void write_time(char *out, size_t room, double time)
{
    static const char *const units[] = {"fs", "ps", "ns", "us", "ms", "sec"};
    size_t unit = 0;
    for (; time >= 1000 && unit < 5; unit++)
        time /= 1000;
    snprintf(out, room, "%.4g %s", time, units[unit]);
}

void begin_progress(struct progress *progress, int is_wanted, uint64_t stop)
{
    progress->is_wanted = is_wanted && isatty(STDERR_FILENO);
    progress->is_shown = 0;
    progress->stop = stop;
    progress->began = progress->is_wanted ? seconds() : 0;
    progress->said = progress->began + 0.9;
}

void say_progress(struct progress *progress, uint64_t time)
{
    char reached[32], stop[32], rate[32], line[128];
    double now;
    if (!progress->is_wanted)
        return;
    now = seconds();
    if (now < progress->said + 0.1)
        return;
    progress->said = now;
    progress->is_shown = 1;
    write_time(reached, sizeof reached, (double)time);
    write_time(stop, sizeof stop, (double)progress->stop);
    write_time(rate, sizeof rate, (double)time / (now - progress->began));
    snprintf(line, sizeof line, "%s of %s, %s a second", reached, stop, rate);
    fprintf(stderr, "\r%-70s", line);
}

void end_progress(struct progress *progress)
{
    if (progress->is_shown)
        fprintf(stderr, "\r%70s\r", "");
}
