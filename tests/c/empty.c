/* A null pointer with length 0 is an empty buffer: each buffer of each function in turn, and all choices of several at once. An empty
   text is refused 3 at its end, any other empty buffer 11, and nothing that was lent is changed. The sanitizers see the calls
   from this side only: the library is not built with them, so a null pointer that it used would end the test with a signal. */
#include "compassnail.h"

#include <stdio.h>
#include <string.h>

enum { TEXT = 1, TABLE = 2, SESSION = 4, OUT = 8, REPORT = 16, ALL = 32 };

static const char text[] = "entity e is end; architecture a of e is signal q : boolean; begin process (q) begin "
                           "q <= transport not q after 1 ns; end process; end;";

/* Without a null pointer every call on these is done. */
static struct {
    uint64_t table[COMPASSNAIL_TABLE_WORDS], session[COMPASSNAIL_SESSION_WORDS], report[COMPASSNAIL_REPORT_WORDS];
    uint8_t out[COMPASSNAIL_OUT_BYTES];
} lent, before;

static unsigned calls, failures;

/* A buffer and its length, or the null pointer and 0 where its bit is set. */
#define BUFFER(bit, buffer) (empty & (bit)) ? NULL : (buffer), (empty & (bit)) ? 0 : sizeof(buffer) / sizeof *(buffer)
#define TEXT_BUFFER (empty & TEXT) ? NULL : (const uint8_t *)text, (empty & TEXT) ? 0 : strlen(text)

static void expect(const char *call, unsigned empty, uint64_t answer)
{
    uint64_t due = empty & ~(unsigned)TEXT ? COMPASSNAIL_REFUSED_BUFFER : COMPASSNAIL_REFUSED_GRAMMAR;
    calls++;
    if (answer == due && memcmp(&lent, &before, sizeof lent) == 0)
        return;
    failures++;
    printf("FAILED: %s with the empty buffers %u answers %llu\n", call, empty, (unsigned long long)answer);
}

/* The calls that have all of these buffers, with null pointers for them. */
static void try_all(unsigned empty)
{
    if (!(empty & ~(unsigned)(TEXT | TABLE)))
        expect("read", empty, compassnail_read(TEXT_BUFFER, BUFFER(TABLE, lent.table)));
    if (!(empty & ~(unsigned)(TEXT | OUT)))
        expect("header", empty, compassnail_header(TEXT_BUFFER, BUFFER(OUT, lent.out)));
    if (empty & TEXT)
        return;
    expect("start", empty,
           compassnail_start(BUFFER(TABLE, lent.table), BUFFER(SESSION, lent.session), BUFFER(OUT, lent.out), BUFFER(REPORT, lent.report)));
    for (uint64_t more = 0; more < 2; more++)
        expect("advance", empty,
               compassnail_advance(BUFFER(TABLE, lent.table), BUFFER(SESSION, lent.session), COMPASSNAIL_LAST_TIME + more,
                                   BUFFER(OUT, lent.out), BUFFER(REPORT, lent.report)));
}

int main(void)
{
    unsigned empty = 0;
    uint64_t read = compassnail_read(TEXT_BUFFER, BUFFER(TABLE, lent.table));
    uint64_t start = compassnail_start(BUFFER(TABLE, lent.table), BUFFER(SESSION, lent.session), BUFFER(OUT, lent.out), BUFFER(REPORT, lent.report));
    if (compassnail_kind(read) != COMPASSNAIL_DONE || compassnail_kind(start) != COMPASSNAIL_DONE) {
        printf("FAILED: the design does not start\n");
        return 1;
    }
    before = lent;
    for (empty = 1; empty < ALL; empty++)
        try_all(empty);
    printf("null pointers with length 0: %u calls, %u failures\n", calls, failures);
    return failures != 0;
}
