/* Compassnail: a simulator for circuits written in a small VHDL subset, as plain functions on bytes, 64-bit words and numbers.

   For C99 and C++ on x86-64; link with libcompassnail.a. The functions keep nothing between calls
   and allocate nothing: a design is a table that the caller holds, a run is a session that the caller holds, and any number of both
   may be in use, in any number of threads. docs/FORMAT.md describes the table and the session word by word.

   A bench reads a text into a table once, and then asks for the dump piece by piece:

       compassnail_read(text, ...)       text to table
       compassnail_header(text, ...)     the dump's header, from the text
       compassnail_start(table, ...)     a new session, and the dump's lines at time 0
       compassnail_advance(table, ...)   the session at the next time at which something happens, and the dump's lines there;
                                         again and again, until it answers quiet, stop reached or a refusal

   What is lent. Every buffer is lent for the length of the call, and its length is given in elements, not in bytes. A pointer may be
   null where its length is 0: that is an empty buffer, as any other of length 0. A pointer to words is aligned as uint64_t. Buffers that
   a call may write overlap none of the others. A buffer may be longer than it must be: what stands behind its size is neither read nor
   written, and of an output buffer only the bytes that the answer counts are written. Any content of any buffer is allowed: damaged
   tables and sessions are refused where they are not fit. A call that is refused, quiet, or has reached its stop changes nothing that
   was lent to it.

   What is answered. Each of these four answers one number, kind + 256 * detail. compassnail_kind and compassnail_detail take it apart.

       kind 0          done; the detail is the number of bytes written, and 0 for compassnail_read
       kind 1 to 16    the refusal of that number; the detail is the byte place in the text where the refusal has one, else 0
       kind 254        quiet: nothing is pending, so nothing will ever happen again
       kind 255        stop reached: something is pending, but nothing up to the stop

   There is no other kind today; 17 to 253 are kept for refusals to come. */
#ifndef COMPASSNAIL_H
#define COMPASSNAIL_H

#include <stddef.h>
#include <stdint.h>

#ifdef __cplusplus
extern "C" {
#endif

/* The version of this header: the first number moves where a bench would have to change. */
#define COMPASSNAIL_VERSION "1.0.0"
#define COMPASSNAIL_VERSION_MAJOR 1
#define COMPASSNAIL_VERSION_MINOR 0
#define COMPASSNAIL_VERSION_PATCH 0

/* Sizes of the buffers, in elements. A shorter one is refused 11. */
#define COMPASSNAIL_TABLE_WORDS 8387
#define COMPASSNAIL_SESSION_WORDS 1154
#define COMPASSNAIL_OUT_BYTES 4096
#define COMPASSNAIL_REPORT_WORDS 3

/* Bytes of stack that a call needs at most, whatever it is lent: for the arguments and the return address that are handed over on the
   stack, and for the frames of all that runs until the call returns, memcpy and memset of the C library among them. Where a call runs
   on a small stack, as a coroutine's, that stack needs room beside this for what is not counted:

       the caller's own frames
       handlers of signals that run on that stack (a handler with SA_ONSTACK runs on another)
       the dynamic linker, where it binds memcpy or memset at their first use, with some 3 KB: none where the program is linked with
       -z now or statically

   tests/c/stack.c runs every function on stacks of exactly these sizes; they hold for the archive of the same version. */
#define COMPASSNAIL_READ_STACK_BYTES 40960
#define COMPASSNAIL_HEADER_STACK_BYTES 40960
#define COMPASSNAIL_START_STACK_BYTES 16384
#define COMPASSNAIL_ADVANCE_STACK_BYTES 16384

/* Limits of a design and of a run. */
#define COMPASSNAIL_TEXT_BYTES 60000
#define COMPASSNAIL_SIGNALS 64
#define COMPASSNAIL_PROCESSES 64
#define COMPASSNAIL_INSTRUCTIONS 4096
#define COMPASSNAIL_PENDING 16
#define COMPASSNAIL_CYCLES 1000
#define COMPASSNAIL_LAST_TIME UINT64_C(1000000000000000000) /* femtoseconds: the largest stop and the largest delay */

/* Places in a report, which is written by a start or an advance that is done. */
#define COMPASSNAIL_REPORT_TIME 0   /* the session's time, in femtoseconds */
#define COMPASSNAIL_REPORT_CYCLES 1 /* cycles of this call; the first run of all processes is none */
#define COMPASSNAIL_REPORT_STEPS 2  /* instructions done in this call */

/* Kinds of answers. A place is the byte, counted from 0, at which the named token starts. docs/FORMAT.md says when a table and a session
   are fit: a table that no compassnail_read wrote may be, and so may another table's session that has as many signals. */
#define COMPASSNAIL_DONE 0
#define COMPASSNAIL_REFUSED_TEXT_LENGTH 1   /* the text has more than 60,000 bytes */
#define COMPASSNAIL_REFUSED_TOKEN 2         /* a byte or token that is not in the lexical rules */
#define COMPASSNAIL_REFUSED_GRAMMAR 3       /* a token with which no design can go on; at the end of the text, the place is its length */
#define COMPASSNAIL_REFUSED_NESTING 4       /* a bracket or `if` that is the 33rd open */
#define COMPASSNAIL_REFUSED_UNKNOWN 5       /* a name that is not declared as a signal, or another entity's name after `of` */
#define COMPASSNAIL_REFUSED_USED 6          /* a signal or label with a name that a signal or label already has */
#define COMPASSNAIL_REFUSED_CLOSING 7       /* a closing name that differs, or that closes a process without a label */
#define COMPASSNAIL_REFUSED_DELAY 8         /* a delay above 10^18 femtoseconds, at its integer */
#define COMPASSNAIL_REFUSED_DRIVER 9        /* an assignment to a signal that an earlier process assigns */
#define COMPASSNAIL_REFUSED_COUNT 10        /* the 65th signal, the 65th process (at its word `process`) or the 4,097th instruction */
#define COMPASSNAIL_REFUSED_BUFFER 11       /* a lent buffer is too short */
#define COMPASSNAIL_REFUSED_STOP 12         /* the stop is above 10^18 femtoseconds */
#define COMPASSNAIL_REFUSED_TABLE 13        /* the table is not fit: it may be damaged, or no compassnail_read may have written it */
#define COMPASSNAIL_REFUSED_SESSION 14      /* the session is not fit for the table: it may be damaged, or another table's */
#define COMPASSNAIL_REFUSED_PENDING 15      /* a post would give its signal a 17th pending change */
#define COMPASSNAIL_REFUSED_CYCLES 16       /* a 1,001st cycle at one time would begin */
#define COMPASSNAIL_QUIET 254
#define COMPASSNAIL_STOP_REACHED 255

/* The kind of an answer: one of the numbers above. */
static inline unsigned compassnail_kind(uint64_t answer)
{
    return (unsigned)(answer % 256);
}

/* The detail of an answer: bytes written where the kind is 0, the place in the text where it has one, else 0. */
static inline uint64_t compassnail_detail(uint64_t answer)
{
    return answer / 256;
}

/* Whether an answer is a refusal. */
static inline int compassnail_is_refusal(uint64_t answer)
{
    unsigned kind = compassnail_kind(answer);
    return kind != COMPASSNAIL_DONE && kind != COMPASSNAIL_QUIET && kind != COMPASSNAIL_STOP_REACHED;
}

/* Whether the detail of an answer is a place in the text: it is for refusals 2 to 10. */
static inline int compassnail_has_place(uint64_t answer)
{
    unsigned kind = compassnail_kind(answer);
    return kind >= COMPASSNAIL_REFUSED_TOKEN && kind <= COMPASSNAIL_REFUSED_COUNT;
}

/* Reads a text and writes the table of its design.

   text, text_length     the text; of a text that is too long, nothing is read
   table, table_words    at least 8,387 words, of which exactly 8,387 are written where it is done

   Done with detail 0, or refused, in this order: 11; then 1; then 2, the first in the whole text; then 3 or 4, the first in the
   text; then 5 to 10, the first in the text, and at one token the lowest number. */
uint64_t compassnail_read(const uint8_t *text, size_t text_length, uint64_t *table, size_t table_words);

/* Reads a text and writes the header of its dump: timescale, scope, a `$var` line for each signal, two closing lines.

   text, text_length     the text
   out, out_length       at least 4,096 bytes, of which the answer's detail are written where it is done

   Done, or refused as compassnail_read. */
uint64_t compassnail_header(const uint8_t *text, size_t text_length, uint8_t *out, size_t out_length);

/* Starts a run: time 0, declared values, every process once, then cycles at time 0 while something is pending there.

   table, table_words        a table, at least 8,387 words
   session, session_words    at least 1,154 words. They are not read; exactly 1,154 are written where it is done
   out, out_length           at least 4,096 bytes, for the dump's lines at time 0, from `#0` to `$end`
   report, report_words      at least 3 words, of which 3 are written where it is done

   Done, or refused, in this order: 11; 13; then 15 or 16, the first to arise in the run. */
uint64_t compassnail_start(const uint64_t *table, size_t table_words, uint64_t *session, size_t session_words, uint8_t *out,
                           size_t out_length, uint64_t *report, size_t report_words);

/* Moves a session to the least time at which something is pending, unless that is above the stop, and runs the cycles there.

   table, table_words        the table that the session was started with
   session, session_words    the session; it becomes the session after the call where it is done
   stop                      the last time to go to, in femtoseconds, at most 10^18
   out, out_length           at least 4,096 bytes, for `#` and the time and the signals that changed. Where none differs from
                             before the call nothing is written and the answer's detail is 0
   report, report_words      at least 3 words, of which 3 are written where it is done

   Done; quiet; stop reached; or refused, in this order: 11; 12; 13; 14; then 15 or 16, the first to arise in the run. */
uint64_t compassnail_advance(const uint64_t *table, size_t table_words, uint64_t *session, size_t session_words, uint64_t stop,
                             uint8_t *out, size_t out_length, uint64_t *report, size_t report_words);

/* The two functions below are plain C (source/answers.c): an installed library has them, the archive of the proved functions alone has
   not. */

/* A sentence for a kind of answer, in English, without a full stop; for a kind that this version does not know, one that says so. */
const char *compassnail_message(unsigned kind);

/* The line and the column of a place in a text, both counted from 1; a column counts bytes. A line ends with LF, with CR LF or with a CR
   alone. A place behind the text's end is taken for its end. */
void compassnail_line_column(const uint8_t *text, size_t text_length, uint64_t place, size_t *line, size_t *column);

#ifdef __cplusplus
}
#endif

#endif
