/* A refused run as people read it, on standard error: the stop that is too large, and the signals and the time of refusals 15 and 16. */
#include "refusal.h"

#include "names.h"
#include "show.h"
#include "units.h"

#include <stdio.h>

static struct tokens tokens; /* of the text that is run */

/* Says the time at which a call is refused. */
static void say_when(const struct replay *replay)
{
    fputs("  at ", stderr);
    say_time(stderr, replay->time);
}

/* Explains a refusal 15, at the assignment whose post is refused. */
static void explain_pending(const struct text *text, const struct replay *replay)
{
    struct token target = nth(text, &tokens, is_target, replay->assignment);
    show_place(text, target, "refused %u: %s", COMPASSNAIL_REFUSED_PENDING, compassnail_message(COMPASSNAIL_REFUSED_PENDING));
    say_when(replay);
    fputs(": 16 changes of ", stderr);
    quote(text, target);
    fputs(" are pending, and no more are accepted\n", stderr);
}

/* Says which signals a refusal 16 is about. */
static void say_changing(const struct text *text, const struct replay *replay)
{
    size_t k;
    say_when(replay);
    fputs(", these signals still change:", stderr);
    for (k = 0; k < COMPASSNAIL_SIGNALS; k++)
        if (replay->changing >> k & 1) {
            fputc(' ', stderr);
            quote(text, nth(text, &tokens, declares_signal, k));
        }
    fputs("\n  accepted: at most 1,000 cycles at one time; a delay in one of their assignments ends them\n", stderr);
}

void explain_run(const struct text *text, uint64_t answer, const struct replay *replay)
{
    unsigned kind = compassnail_kind(answer);
    find_tokens(text, &tokens);
    if (kind == COMPASSNAIL_REFUSED_PENDING && replay->overflows) {
        explain_pending(text, replay);
        return;
    }
    fprintf(stderr, "%s: refused %u: %s\n", text->name, kind, compassnail_message(kind));
    if (kind == COMPASSNAIL_REFUSED_CYCLES)
        say_changing(text, replay);
}

void explain_stop(int unit)
{
    fprintf(stderr, "compassnail: refused %u: %s\n  accepted: ", COMPASSNAIL_REFUSED_STOP, compassnail_message(COMPASSNAIL_REFUSED_STOP));
    say_limit(stderr, unit);
    fputc('\n', stderr);
}
