/* The commands that read designs: dump, trace and check. */
#define _XOPEN_SOURCE 700
#include "commands.h"

#include "output.h"
#include "refusal.h"
#include "run.h"
#include "units.h"

#include <string.h>
#include <sys/stat.h>
#include <unistd.h>

static struct text read_text;
static struct run own_run;

/* The stop that two words say. */
static enum status find_stop(const struct given *given, uint64_t *stop)
{
    const char *amount = given->words[1];
    int unit = unit_of(given->words[2], strlen(given->words[2]));
    if (*amount == 0 || amount[strspn(amount, "0123456789")])
        return bad_usage(given->command, "`%s` is no integer", amount);
    if (unit < 0)
        return bad_usage(given->command, "`%s` is no unit: fs, ps, ns, us, ms, sec, min or hr", given->words[2]);
    *stop = time_of(amount, strlen(amount), unit);
    if (*stop <= COMPASSNAIL_LAST_TIME)
        return DONE;
    explain_stop(unit);
    return REFUSED;
}

/* Loads the text of a file and reads its table and header. */
static enum status find_design(const char *file, uint64_t *header)
{
    if (!load_text(&read_text, file))
        return BAD_USAGE;
    *header = read_design(&own_run, &read_text);
    if (!compassnail_is_refusal(*header))
        return DONE;
    explain_text(&read_text, *header);
    return REFUSED;
}

static void write_dump(FILE *stream, const struct run *run, const char *call, uint64_t answer)
{
    (void)call;
    fwrite(run->out, 1, (size_t)compassnail_detail(answer), stream);
}

static void write_trace(FILE *stream, const struct run *run, const char *call, uint64_t answer)
{
    const uint64_t *report = run->report;
    if (compassnail_kind(answer) == COMPASSNAIL_DONE)
        fprintf(stream, "%s moved bytes %llu time %llu cycles %llu steps %llu\n", call, (unsigned long long)compassnail_detail(answer),
                (unsigned long long)report[COMPASSNAIL_REPORT_TIME], (unsigned long long)report[COMPASSNAIL_REPORT_CYCLES],
                (unsigned long long)report[COMPASSNAIL_REPORT_STEPS]);
    else
        fprintf(stream, "%s %s bytes 0\n", call, compassnail_kind(answer) == COMPASSNAIL_QUIET ? "quiet" : "stop reached");
}

/* Runs the design that was read, and explains a refusal. */
static enum status run_design(const struct given *given, uint64_t stop, FILE *stream, write_call *write)
{
    static struct replay repeated;
    uint64_t answer;
    begin_progress(&own_run.progress, !given->is_quiet && !(stream == stdout && isatty(STDOUT_FILENO)), stop);
    answer = go(&own_run, stop, stream, write);
    if (!compassnail_is_refusal(answer))
        return DONE;
    fflush(stream);
    replay(&repeated, own_run.table, own_run.has_started ? own_run.session : NULL);
    explain_run(&read_text, answer, &repeated);
    return REFUSED;
}

/* Whether a file is the design's own, so that writing it would lose the text. */
static int is_same_file(const char *out, const char *file)
{
    struct stat one, other;
    return out && stat(out, &one) == 0 && stat(file, &other) == 0 && S_ISREG(one.st_mode) && one.st_dev == other.st_dev &&
           one.st_ino == other.st_ino;
}

enum status run_dump(const struct given *given)
{
    struct output output;
    uint64_t stop, header;
    enum status status = find_stop(given, &stop);
    if (status == DONE && is_same_file(given->out, given->words[0]))
        return bad_usage(given->command, "%s is the design's own file", given->out);
    if (status == DONE)
        status = find_design(given->words[0], &header);
    if (status != DONE)
        return status;
    if (!open_output(&output, given->out))
        return BAD_USAGE;
    write_dump(output.stream, &own_run, "header", header);
    status = run_design(given, stop, output.stream, write_dump);
    return close_output(&output, status == DONE) ? status : BAD_USAGE;
}

enum status run_trace(const struct given *given)
{
    uint64_t stop, header;
    enum status status = find_stop(given, &stop);
    if (status == DONE)
        status = find_design(given->words[0], &header);
    if (status != DONE)
        return status;
    printf("header written bytes %llu\n", (unsigned long long)compassnail_detail(header));
    return run_design(given, stop, stdout, write_trace);
}

enum status run_check(const struct given *given)
{
    enum status worst = DONE;
    uint64_t header;
    int k;
    for (k = 0; k < given->count; k++) {
        enum status status = find_design(given->words[k], &header);
        worst = status > worst ? status : worst;
        if (status == DONE && !given->is_quiet)
            printf("%s: accepted, with %lu signals, %lu processes and %lu instructions\n", read_text.name, (unsigned long)own_run.table[0],
                   (unsigned long)own_run.table[1], (unsigned long)own_run.table[2]);
    }
    return worst;
}
