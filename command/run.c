/* The run of a design up to a stop, call by call. */
#include "run.h"

uint64_t read_design(struct run *run, const struct text *text)
{
    uint64_t answer = compassnail_read(text->bytes, text->length, run->table, COMPASSNAIL_TABLE_WORDS);
    if (compassnail_is_refusal(answer))
        return answer;
    return compassnail_header(text->bytes, text->length, run->out, sizeof run->out);
}

uint64_t go(struct run *run, uint64_t stop, FILE *stream, write_call *write)
{
    uint64_t answer = compassnail_start(run->table, COMPASSNAIL_TABLE_WORDS, run->session, COMPASSNAIL_SESSION_WORDS, run->out,
                                        sizeof run->out, run->report, COMPASSNAIL_REPORT_WORDS);
    run->has_started = compassnail_kind(answer) == COMPASSNAIL_DONE;
    if (run->has_started)
        write(stream, run, "start", answer);
    while (compassnail_kind(answer) == COMPASSNAIL_DONE && !ferror(stream)) {
        answer = compassnail_advance(run->table, COMPASSNAIL_TABLE_WORDS, run->session, COMPASSNAIL_SESSION_WORDS, stop, run->out,
                                     sizeof run->out, run->report, COMPASSNAIL_REPORT_WORDS);
        if (!compassnail_is_refusal(answer))
            write(stream, run, "advance", answer);
        say_progress(&run->progress, run->report[COMPASSNAIL_REPORT_TIME]);
    }
    end_progress(&run->progress);
    return answer;
}
