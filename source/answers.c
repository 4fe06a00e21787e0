/* Answers in words, and places as lines and columns: plain C beside the proved functions, for every bench. */
#include "compassnail.h"

static const char *const refusals[] = {
    "done",
    "the text is longer than 60,000 bytes",
    "this byte or token is not in the lexical rules",
    "no design can go on with this token, or end here",
    "this bracket or `if` is the 33rd that is open",
    "this name is no declared signal or, after `of`, not the entity's",
    "this signal or label has a name that is used already",
    "this closing name differs, or closes a process without a label",
    "this delay is above 10^18 fs",
    "this signal is assigned by an earlier process too",
    "this is the 65th signal, the 65th process or the 4,097th instruction",
    "a lent buffer is too short",
    "the stop is above 10^18 fs, or its words are no integer and unit",
    "the table is not fit",
    "the session is not fit for the table",
    "a post gives its signal a 17th pending change",
    "a 1,001st cycle at one time would begin",
};

const char *compassnail_message(unsigned kind)
{
    if (kind < sizeof refusals / sizeof *refusals)
        return refusals[kind];
    switch (kind) {
    case COMPASSNAIL_QUIET:
        return "quiet: nothing is pending";
    case COMPASSNAIL_STOP_REACHED:
        return "stop reached: something is pending, but nothing up to the stop";
    default:
        return "an answer that this version does not know";
    }
}

void compassnail_line_column(const uint8_t *text, size_t text_length, uint64_t place, size_t *line, size_t *column)
{
    size_t end = place < text_length ? (size_t)place : text_length, start = 0, k;
    *line = 1;
    for (k = 0; k < end; k++) {
        if (text[k] == '\n' || (text[k] == '\r' && !(k + 1 < text_length && text[k + 1] == '\n'))) {
            start = k + 1;
            ++*line;
        }
    }
    *column = end - start + 1;
}
