/* Tests the library against the reference: every answer, and every lent word and byte after each call.
   Usage: library [SEED]. The exit status is 0 where all agree. A case is made from the seed, its part and its number alone. */
#include "compassnail.h"
#include "designs.h"
#include "lent.h"
#include "reference.h"
#include "words.h"

#include <stdio.h>
#include <stdlib.h>
#include <string.h>

#define LAST COMPASSNAIL_LAST_TIME

enum { TEXT_MOST = 61000, TABLE_MOST = TABLE_WORDS + 8, SESSION_MOST = SESSION_WORDS + 8, OUT_MOST = 4096 + 64, REPORT_MOST = 8 };
enum { FAILURES_SHOWN = 10 };

static struct lent text_lent, table_lent, session_lent, out_lent, report_lent;

/* What the reference makes of copies of the lent buffers. */
static uint64_t table_due[TABLE_MOST], session_due[SESSION_MOST], report_due[REPORT_MOST];
static uint8_t out_due[OUT_MOST];

static struct tokens tokens;
static struct text text;

static uint64_t seed = 1;
static const char *part;
static unsigned long case_number, calls, failures, kinds[256];
static struct random r; /* of the case */

/* ---- comparing ---- */

static void failed(const char *what)
{
    if (failures++ < FAILURES_SHOWN)
        fprintf(stderr, "FAILED: %s; part %s, case %lu, seed %llu\n", what, part, case_number, (unsigned long long)seed);
}

static uint64_t answer_of(struct ref_answer a)
{
    switch (a.kind) {
    case REF_REFUSED: return (uint64_t)a.number + 256 * a.place;
    case REF_QUIET: return COMPASSNAIL_QUIET;
    case REF_STOP_REACHED: return COMPASSNAIL_STOP_REACHED;
    default: return COMPASSNAIL_DONE + 256 * a.bytes;
    }
}

static void compare_answer(const char *call, uint64_t got, struct ref_answer due)
{
    calls++;
    kinds[compassnail_kind(got)]++;
    if (got == answer_of(due))
        return;
    failed(call);
    fprintf(stderr, "  answered %u with %llu, not %u with %llu\n", compassnail_kind(got), (unsigned long long)compassnail_detail(got),
            compassnail_kind(answer_of(due)), (unsigned long long)compassnail_detail(answer_of(due)));
}

static void compare_lent(const char *what, const struct lent *lent, const void *due)
{
    if (memcmp(lent->data, due, lent->length) != 0)
        failed(what);
    if (!lent_guarded(lent)) {
        failed("bytes beside a buffer");
        fprintf(stderr, "  %s\n", what);
    }
}

static void compare_report(struct ref_answer due)
{
    if (due.kind == REF_DONE) {
        report_due[COMPASSNAIL_REPORT_TIME] = due.time;
        report_due[COMPASSNAIL_REPORT_CYCLES] = due.cycles;
        report_due[COMPASSNAIL_REPORT_STEPS] = due.steps;
    }
    compare_lent("report", &report_lent, report_due);
}

/* ---- lending ---- */

/* A buffer with the given content, or with any byte again and again; and a copy of it for the reference. */
static void lend(struct lent *lent, const void *content, size_t length, void *copy)
{
    lent_set(lent, length, !once_in(&r, 3));
    if (content)
        memcpy(lent->data, content, length);
    else
        memset(lent->data, (int)below(&r, 256), length);
    if (copy)
        memcpy(copy, lent->data, length);
}

static uint64_t *words_of(const struct lent *lent)
{
    return (uint64_t *)(void *)lent->data;
}

/* How long the buffers are, in elements. */
struct lengths {
    size_t table, session, out, report;
};

static const struct lengths exact = {TABLE_WORDS, SESSION_WORDS, COMPASSNAIL_OUT_BYTES, COMPASSNAIL_REPORT_WORDS};

static size_t about(size_t needed, size_t most)
{
    if (once_in(&r, 60))
        return needed - (size_t)between(&r, 1, once_in(&r, 2) ? 1 : needed);
    return once_in(&r, 6) ? (size_t)between(&r, needed, most) : needed;
}

static struct lengths any_lengths(void)
{
    struct lengths l;
    l.table = about(exact.table, TABLE_MOST);
    l.session = about(exact.session, SESSION_MOST);
    l.out = about(exact.out, OUT_MOST);
    l.report = about(exact.report, REPORT_MOST);
    return l;
}

/* ---- the calls ---- */

static uint64_t check_read(const uint8_t *bytes, size_t length, struct lengths l)
{
    lend(&text_lent, bytes, length, NULL);
    lend(&table_lent, NULL, l.table * 8, table_due);
    lent_lock(&text_lent);
    uint64_t answer = compassnail_read(text_lent.data, length, words_of(&table_lent), l.table);
    lent_unlock(&text_lent);
    compare_answer("read", answer, ref_read(bytes, length, table_due, l.table));
    compare_lent("table", &table_lent, table_due);
    return answer;
}

static uint64_t check_header(const uint8_t *bytes, size_t length, struct lengths l)
{
    lend(&text_lent, bytes, length, NULL);
    lend(&out_lent, NULL, l.out, out_due);
    lent_lock(&text_lent);
    uint64_t answer = compassnail_header(text_lent.data, length, out_lent.data, l.out);
    lent_unlock(&text_lent);
    compare_answer("header", answer, ref_header(bytes, length, out_due, l.out));
    compare_lent("header's bytes", &out_lent, out_due);
    return answer;
}

static uint64_t check_start(const uint64_t *table, struct lengths l)
{
    struct ref_answer due = {REF_REFUSED, 11, 0, 0, 0, 0, 0};
    lend(&table_lent, table, l.table * 8, NULL);
    lend(&session_lent, NULL, l.session * 8, session_due);
    lend(&out_lent, NULL, l.out, out_due);
    lend(&report_lent, NULL, l.report * 8, report_due);
    lent_lock(&table_lent);
    uint64_t answer = compassnail_start(words_of(&table_lent), l.table, words_of(&session_lent), l.session, out_lent.data, l.out,
                                        words_of(&report_lent), l.report);
    lent_unlock(&table_lent);
    if (l.report >= COMPASSNAIL_REPORT_WORDS)
        due = ref_start(table, l.table, session_due, l.session, out_due, l.out);
    compare_answer("start", answer, due);
    compare_lent("session", &session_lent, session_due);
    compare_lent("start's bytes", &out_lent, out_due);
    compare_report(due);
    return answer;
}

static uint64_t check_advance(const uint64_t *table, const uint64_t *session, uint64_t stop, struct lengths l)
{
    struct ref_answer due = {REF_REFUSED, 11, 0, 0, 0, 0, 0};
    lend(&table_lent, table, l.table * 8, NULL);
    lend(&session_lent, session, l.session * 8, session_due);
    lend(&out_lent, NULL, l.out, out_due);
    lend(&report_lent, NULL, l.report * 8, report_due);
    lent_lock(&table_lent);
    uint64_t answer = compassnail_advance(words_of(&table_lent), l.table, words_of(&session_lent), l.session, stop, out_lent.data, l.out,
                                          words_of(&report_lent), l.report);
    lent_unlock(&table_lent);
    if (l.report >= COMPASSNAIL_REPORT_WORDS)
        due = ref_advance(table, l.table, session_due, l.session, stop, out_due, l.out);
    compare_answer("advance", answer, due);
    compare_lent("session", &session_lent, session_due);
    compare_lent("advance's bytes", &out_lent, out_due);
    compare_report(due);
    return answer;
}

/* What the last start or advance left in the lent buffers is what the statements as written give. */
static void compare_written(uint64_t answer, struct ref_answer due, const uint64_t *session, const uint8_t *out)
{
    const uint64_t *report = words_of(&report_lent);
    if (answer != answer_of(due))
        failed("answer over the statements as written");
    if (due.kind != REF_DONE)
        return;
    if (memcmp(session, session_lent.data, SESSION_WORDS * 8) != 0 || memcmp(out, out_lent.data, (size_t)due.bytes) != 0)
        failed("session or bytes over the statements as written");
    if (report[0] != due.time || report[1] != due.cycles || report[2] != due.steps)
        failed("report over the statements as written");
}

/* ---- runs ---- */

static uint64_t any_stop(const uint64_t *session)
{
    uint64_t time = session[1];
    switch (below(&r, 12)) {
    case 0: return LAST + between(&r, 1, 2);
    case 1: return any_word(&r);
    case 2: return time + below(&r, 20);
    case 3: return time;
    case 4: return session[130 + 16 * below(&r, 64)] / 2; /* some signal's next change */
    case 5: return below(&r, LAST + 1);
    default: return LAST;
    }
}

static void check_any_advance(const uint64_t *table, const uint64_t *session)
{
    uint64_t stop = any_stop(session);
    check_advance(table, session, stop, any_lengths());
}

static void lengthen(uint64_t *long_words, const uint64_t *words, size_t count, size_t most)
{
    memcpy(long_words, words, count * 8);
    for (size_t k = count; k < most; k++)
        long_words[k] = any_word(&r);
}

/* At most so many advances from a session, each also over the statements where a design is given. */
static void check_run(const uint64_t *table, const uint64_t *from, const struct ref_design *design, unsigned advances)
{
    static uint64_t session[SESSION_MOST], written[SESSION_MOST];
    static uint8_t out[COMPASSNAIL_OUT_BYTES];
    lengthen(session, from, SESSION_WORDS, SESSION_MOST);
    while (advances--) {
        struct lengths l = any_lengths();
        uint64_t stop = any_stop(session);
        memcpy(written, session, sizeof written);
        uint64_t answer = check_advance(table, session, stop, l);
        unsigned kind = compassnail_kind(answer);
        if (kind == 11 || kind == 12)
            continue;
        if (design)
            compare_written(answer, ref_advance_written(design, written, stop, out), written, out);
        if (kind == COMPASSNAIL_DONE)
            memcpy(session, session_lent.data, SESSION_WORDS * 8);
        else if (kind != COMPASSNAIL_STOP_REACHED)
            return;
    }
}

/* The texts whose table is run: those that the reference accepts. */
static void check_design(unsigned advances)
{
    static uint64_t table[TABLE_MOST], session[SESSION_MOST], written[SESSION_MOST];
    static uint8_t out[COMPASSNAIL_OUT_BYTES];
    struct ref_design *design;
    check_header(text.bytes, text.length, any_lengths());
    if (compassnail_kind(check_read(text.bytes, text.length, exact)) != COMPASSNAIL_DONE)
        return;
    lengthen(table, words_of(&table_lent), TABLE_WORDS, TABLE_MOST);
    ref_parse(text.bytes, text.length, &design);
    if (!design)
        return;
    uint64_t answer = check_start(table, exact);
    compare_written(answer, ref_start_written(design, written, out), written, out);
    if (answer % 256 == COMPASSNAIL_DONE) {
        lengthen(session, words_of(&session_lent), SESSION_WORDS, SESSION_MOST);
        check_run(table, session, design, advances);
    }
    make_session(&r, table, session);
    check_run(table, session, design, 3);
    ref_free(design);
}

/* ---- the parts ---- */

static enum style any_style(void)
{
    return tokens.count > 6000 ? TIGHT : (enum style)below(&r, 3);
}

static void make_any_design(void)
{
    struct shape shape = any_shape(&r);
    make_design(&r, &shape, &tokens);
}

static void case_design(void)
{
    make_any_design();
    write_text(&r, &tokens, any_style(), &text);
    if (text.length > TEXT_MOST)
        return;
    struct ref_answer due = {REF_DONE, 0, 0, 0, 0, 0, 0};
    struct ref_design *design;
    if (text.length <= COMPASSNAIL_TEXT_BYTES)
        due = ref_parse(text.bytes, text.length, &design);
    if (due.kind == REF_REFUSED)
        failed("a design that was made to be accepted");
    else if (text.length <= COMPASSNAIL_TEXT_BYTES)
        ref_free(design);
    check_design(30);
}

static void case_damaged_text(void)
{
    struct shape shape = any_shape(&r);
    if (shape.instructions > 60)
        shape.instructions = 60;
    if (shape.signals > 8 && !once_in(&r, 10))
        shape.signals = 8;
    make_design(&r, &shape, &tokens);
    if (once_in(&r, 2))
        for (uint64_t k = between(&r, 1, 2); k > 0; k--)
            damage_tokens(&r, &tokens);
    write_text(&r, &tokens, any_style(), &text);
    if (once_in(&r, 2))
        for (uint64_t k = between(&r, 1, 2); k > 0; k--)
            damage_text(&r, &text);
    if (text.length > TEXT_MOST)
        return;
    check_read(text.bytes, text.length, any_lengths());
    check_design(2);
}

/* Names and sizes: a sentence of the grammar with a wrong name, a delay that is too long, or a design that is too large. */
static void case_names(void)
{
    struct shape shape = any_shape(&r);
    switch (below(&r, 12)) {
    case 0: shape.signals = 64 + (unsigned)below(&r, 4); break;
    case 1: shape.processes = 64 + (unsigned)below(&r, 4); break;
    case 2:
        shape.instructions = 6000;
        shape.statements = 60;
        shape.brackets = 1;
        break;
    default: shape.instructions %= 200;
    }
    make_design(&r, &shape, &tokens);
    for (uint64_t k = below(&r, 4); k > 0; k--)
        damage_names(&r, &tokens);
    write_text(&r, &tokens, any_style(), &text);
    if (text.length <= TEXT_MOST)
        check_design(2);
}

static void case_random_text(void)
{
    static const char plain[] = "abcdefghijklmnopqrstuvwxyzABCXYZ0123456789__  \n\t(),:;<==:--";
    size_t length = (size_t)below(&r, once_in(&r, 200) ? TEXT_MOST : once_in(&r, 2) ? 12 : 200);
    uint64_t sort = below(&r, 4);
    if (sort < 2) {
        make_soup(&r, length / 4, &tokens);
        write_text(&r, &tokens, any_style(), &text);
    } else {
        text.length = length;
        for (size_t k = 0; k < length; k++)
            text.bytes[k] = sort == 2 ? (uint8_t)below(&r, 256) : (uint8_t)plain[below(&r, sizeof plain - 1)];
    }
    if (text.length > TEXT_MOST)
        text.length = TEXT_MOST;
    check_read(text.bytes, text.length, any_lengths());
    check_header(text.bytes, text.length, any_lengths());
}

/* A design filled up with blanks to a length around the limit. */
static void case_long_text(void)
{
    size_t length = COMPASSNAIL_TEXT_BYTES - 20 + case_number % 41;
    text.length = 0;
    if (case_number % 3) {
        make_any_design();
        write_text(&r, &tokens, TIGHT, &text);
    }
    if (text.length > length)
        text.length = length;
    memset(text.bytes + text.length, ' ', length - text.length);
    if (once_in(&r, 4))
        text.bytes[length - 1] = 200;
    text.length = length;
    check_read(text.bytes, length, exact);
    check_header(text.bytes, length, exact);
}

static void case_made_table(void)
{
    static uint64_t table[TABLE_MOST], session[SESSION_MOST];
    make_table(&r, 34, table);
    lengthen(table, table, TABLE_WORDS, TABLE_MOST);
    uint64_t answer = check_start(table, any_lengths());
    if (answer % 256 == COMPASSNAIL_DONE) {
        lengthen(session, words_of(&session_lent), SESSION_WORDS, SESSION_MOST);
        check_run(table, session, NULL, 10);
    }
    if (answer % 256 == COMPASSNAIL_REFUSED_TABLE)
        failed("a table that was made to be fit");
    for (int k = 0; k < 3; k++) {
        make_session(&r, table, session);
        check_run(table, session, NULL, 3);
    }
}

/* A table of a text or of none, some with an operand too many. */
static void any_table(uint64_t *table)
{
    make_table(&r, 34 + (unsigned)below(&r, 2), table);
    if (once_in(&r, 2)) {
        make_any_design();
        write_text(&r, &tokens, TIGHT, &text);
        ref_read(text.bytes, text.length, table, TABLE_WORDS);
    }
    for (size_t k = TABLE_WORDS; k < TABLE_MOST; k++)
        table[k] = any_word(&r);
}

static void any_session(const uint64_t *table, uint64_t *session)
{
    make_session(&r, table, session);
    for (size_t k = SESSION_WORDS; k < SESSION_MOST; k++)
        session[k] = any_word(&r);
}

static void case_damaged_words(void)
{
    static uint64_t table[TABLE_MOST], session[SESSION_MOST];
    any_table(table);
    any_session(table, session);
    for (int k = 0; k < 12; k++) {
        static uint64_t damaged_table[TABLE_MOST], damaged_session[SESSION_MOST];
        memcpy(damaged_table, table, sizeof table);
        memcpy(damaged_session, session, sizeof session);
        if (k % 3 != 0)
            damage_words(&r, damaged_table, once_in(&r, 2) ? TABLE_WORDS : 400);
        if (k % 3 != 1)
            damage_words(&r, damaged_session, SESSION_WORDS);
        if (once_in(&r, 4))
            damage_words(&r, damaged_table, TABLE_MOST);
        check_start(damaged_table, any_lengths());
        check_any_advance(damaged_table, damaged_session);
    }
}

static void case_random_words(void)
{
    static uint64_t table[TABLE_MOST], session[SESSION_MOST];
    uint64_t mask = once_in(&r, 2) ? UINT64_MAX : once_in(&r, 2) ? 1 : 63;
    for (size_t k = 0; k < TABLE_MOST; k++)
        table[k] = any_word(&r) & mask;
    for (size_t k = 0; k < SESSION_MOST; k++)
        session[k] = any_word(&r) & mask;
    check_start(table, any_lengths());
    check_any_advance(table, session);
    any_table(table);
    check_any_advance(table, session);
    any_session(table, session);
    check_any_advance(table, session);
}

/* One case damages one word of a table, and where there is such a word, of a session: all words in turn, many times over. */
static void case_word_by_word(void)
{
    static uint64_t table[TABLE_MOST], session[SESSION_MOST];
    static unsigned long made_for = UINT64_MAX;
    size_t in_table = case_number % TABLE_WORDS, in_session = case_number % SESSION_WORDS;
    uint64_t old = 0;
    if (made_for != case_number / SESSION_WORDS) {
        made_for = case_number / SESSION_WORDS;
        any_table(table);
        any_session(table, session);
    }
    old = table[in_table];
    table[in_table] = near_word(&r, old);
    check_start(table, exact);
    check_advance(table, session, LAST, exact);
    table[in_table] = old;
    old = session[in_session];
    session[in_session] = near_word(&r, old);
    check_advance(table, session, LAST, exact);
    session[in_session] = old;
}

/* Each buffer in turn at every length near the limit and near 0, with arguments that are fine and with ones that are refused later. */
static void case_short_buffers(void)
{
    static uint64_t table[TABLE_MOST], session[SESSION_MOST];
    struct lengths l = exact;
    size_t *turn[] = {&l.table, &l.session, &l.out, &l.report}, k = case_number / 4, *length = turn[case_number % 4];
    size_t most[] = {TABLE_MOST, SESSION_MOST, OUT_MOST, REPORT_MOST};
    *length = k < 8 ? k : most[case_number % 4] - (k - 8) % (most[case_number % 4] < 80 ? most[case_number % 4] : 80);
    any_table(table);
    any_session(table, session);
    if (once_in(&r, 3))
        *turn[below(&r, 4)] = 2;
    if (once_in(&r, 3))
        damage_words(&r, table, TABLE_WORDS);
    if (once_in(&r, 3))
        damage_words(&r, session, SESSION_WORDS);
    make_any_design();
    write_text(&r, &tokens, TIGHT, &text);
    if (once_in(&r, 3))
        damage_text(&r, &text);
    if (text.length > TEXT_MOST)
        text.length = TEXT_MOST;
    check_read(text.bytes, text.length, l);
    check_header(text.bytes, text.length, l);
    check_start(table, l);
    check_advance(table, session, once_in(&r, 4) ? LAST + 1 : LAST, l);
}

static void run_part(const char *name, unsigned long cases, void (*one)(void))
{
    unsigned long before = calls, failed_before = failures;
    uint64_t own = seed;
    part = name;
    for (const char *c = name; *c; c++)
        own = own * 31 + (uint8_t)*c;
    for (case_number = 0; case_number < cases; case_number++) {
        r.state = own + case_number * UINT64_C(0x2545f4914f6cdd1d);
        one();
        if (failures >= FAILURES_SHOWN)
            break;
    }
    printf("%-16s %7lu cases %8lu calls  %s\n", name, case_number, calls - before, failures == failed_before ? "agree" : "DIFFER");
    fflush(stdout);
}

/* Every kind of answer has to have been seen, or the tests do not test what they should. */
static void show_kinds(void)
{
    printf("answers:");
    for (int k = 0; k < 256; k++) {
        int due = k <= 16 || k == COMPASSNAIL_QUIET || k == COMPASSNAIL_STOP_REACHED;
        if (kinds[k])
            printf(" %d:%lu", k, kinds[k]);
        if (!!kinds[k] != due) {
            part = "all";
            failed(due ? "a kind of answer that never came" : "a kind of answer that does not exist");
        }
    }
    printf("\n");
}

int main(int count, char **arguments)
{
    if (count > 1)
        seed = strtoull(arguments[1], NULL, 0);
    printf("seed %llu\n", (unsigned long long)seed);
    lent_open(&text_lent, TEXT_MOST);
    lent_open(&table_lent, TABLE_MOST * 8);
    lent_open(&session_lent, SESSION_MOST * 8);
    lent_open(&out_lent, OUT_MOST);
    lent_open(&report_lent, REPORT_MOST * 8);
    run_part("short buffers", 4 * 96, case_short_buffers);
    run_part("random texts", 8000, case_random_text);
    run_part("long texts", 41 * 3, case_long_text);
    run_part("designs", 1500, case_design);
    run_part("damaged texts", 8000, case_damaged_text);
    run_part("names and sizes", 3000, case_names);
    run_part("made tables", 1500, case_made_table);
    run_part("damaged words", 1000, case_damaged_words);
    run_part("word by word", TABLE_WORDS, case_word_by_word);
    run_part("random words", 300, case_random_words);
    if (!failures)
        show_kinds();
    printf("%lu calls, %lu failures\n", calls, failures);
    return failures != 0;
}
