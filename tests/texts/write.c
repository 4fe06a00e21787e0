/* Writes the stored texts, what the reference answers to each, and a title for each. Usage: write TEXTS ANSWERS TITLES. README.md beside it
   has the format. A text is made of pieces, each a number of times, so that long texts are stored short. */
#include "designs.h"
#include "reference.h"

#include <stdarg.h>
#include <stdio.h>
#include <stdlib.h>
#include <string.h>

enum { PIECES = 4000, ROOM = 70000 };

struct piece {
    unsigned times;
    size_t start, length; /* in the pool */
};

static FILE *texts, *expected, *titles;
static struct piece pieces[PIECES];
static size_t piece_count, pool_used, length;
static uint8_t pool[1 << 20], whole[ROOM];
static unsigned long written;

/* ---- one text ---- */

static void add_bytes(unsigned times, const void *bytes, size_t n)
{
    struct piece *p = &pieces[piece_count++];
    p->times = times;
    p->start = pool_used;
    p->length = n;
    if (piece_count == PIECES || pool_used + n > sizeof pool || length + times * n > ROOM)
        abort();
    memcpy(pool + pool_used, bytes, n);
    pool_used += n;
    for (unsigned k = 0; k < times; k++, length += n)
        memcpy(whole + length, bytes, n);
}

static void add(const char *part)
{
    add_bytes(1, part, strlen(part));
}

static void repeat(unsigned times, const char *part)
{
    add_bytes(times, part, strlen(part));
}

static void numbered(unsigned from, unsigned upto, const char *format)
{
    char all[8192];
    size_t used = 0;
    for (; from < upto; from++)
        used += (size_t)snprintf(all + used, sizeof all - used, format, from, from);
    add(all);
}

/* Ends the text: writes it, with the answer that is due. */
static void done(const char *format, ...)
{
    struct ref_design *design;
    struct ref_answer a = ref_parse(whole, length, &design);
    unsigned signals, processes, instructions;
    char title[1000];
    va_list arguments;
    fprintf(texts, "text %04u\n", (unsigned)piece_count);
    for (size_t k = 0; k < piece_count; k++) {
        fprintf(texts, "%05u %05u\n", pieces[k].times, (unsigned)pieces[k].length);
        fwrite(pool + pieces[k].start, 1, pieces[k].length, texts);
        fputc('\n', texts);
    }
    if (design) {
        ref_counts(design, &signals, &processes, &instructions);
        fprintf(expected, "accepted %u %u %u\n", signals, processes, instructions);
    } else if (a.number == 1) {
        fprintf(expected, "refused 1\n");
    } else {
        fprintf(expected, "refused %d %llu\n", a.number, (unsigned long long)a.place);
    }
    ref_free(design);
    va_start(arguments, format);
    vsnprintf(title, sizeof title, format, arguments);
    va_end(arguments);
    for (char *c = title; *c; c++)
        fputc(*c < 32 || *c > 126 ? '?' : *c, titles);
    fputc('\n', titles);
    written++;
    piece_count = pool_used = length = 0;
}

/* A text of signals q, a, b, c and the given statements of one process that q wakes. */
static void head(void)
{
    add("entity e is end; architecture x of e is signal q, a, b, c : boolean; begin process (q) begin ");
}

static void tail(void)
{
    add(" end process; end;");
}

static void body(const char *statements)
{
    head();
    add(statements);
    tail();
    done("statements: %s", statements);
}

static void body_value(const char *expression)
{
    head();
    add("q <= transport ");
    add(expression);
    add(";");
    tail();
    done("expression: %s", expression);
}

/* A text whose processes are given. */
static void processes(const char *text)
{
    add("entity e is end; architecture x of e is signal q, a, b, c : boolean; begin ");
    add(text);
    add(" end;");
    done("processes: %s", text);
}

/* A text whose declarations are given. */
static void signals(const char *text)
{
    add("entity e is end; architecture x of e is ");
    add(text);
    add(" begin end;");
    done("declarations: %s", text);
}

static void design(const char *text)
{
    add(text);
    done("design: %s", text);
}

/* ---- bytes and tokens ---- */

static void all_bytes(void)
{
    for (int b = 0; b < 256; b++) {
        uint8_t byte = (uint8_t)b;
        add_bytes(1, &byte, 1);
        done("byte %d alone", b);
    }
    for (int b = 0; b < 256; b++) {
        uint8_t byte = (uint8_t)b;
        if (b == 10) {
            add("-- ");
            for (int k = 0; k < 128; k++) {
                uint8_t all = (uint8_t)(k >= 10 && k <= 13 ? 32 : k);
                add_bytes(1, &all, 1);
            }
            done("a comment of every byte below 128 that ends none");
        } else if (b >= 9 && b <= 14) {
            add("entity -- a comment ");
            add_bytes(1, &byte, 1);
            add("e is \x80");
            done("byte %d in a comment", b);
        } else if (b == 127 || b == 128 || b == 255) {
            add("entity -- a comment ");
            add_bytes(1, &byte, 1);
            done("byte %d in a comment", b);
        }
    }
}

static void tokens(void)
{
    static const char *const runs[] = {"a_", "_a", "a__b", "_", "1a", "1_0", "1e3", "0x", "a-b", "a--b", "-", "- -", "<", "< =", "=", ":=", ": =", "<==", ">=", "/",
                                       "\"", "'", "a.b", "a'b", "(*", "a\x80", "a_\x80", "1\xff", "--\xff", "--\r\xff", "--\n", "--", "---\v_", "#", "$", "&", "+", "~"};
    for (size_t k = 0; k < sizeof runs / sizeof *runs; k++) {
        add("entity ");
        add(runs[k]);
        done("entity %zu of the odd tokens", k);
    }
    for (unsigned n = 31; n <= 33; n++) {
        add("entity ");
        repeat(n, "n");
        add(" is end ");
        repeat(n, "N");
        add(";architecture ");
        repeat(n - 2, "n");
        add("_n of ");
        repeat(n, "n");
        add(" is begin end;");
        done("names of %u bytes", n);
    }
    design("is \x80");
    design("entity entity a_");
    design("\x80 _");
    add("entity e is end");
    add_bytes(1, "\0", 1);
    done("a zero byte");
}

static void lengths(void)
{
    repeat(60000, " ");
    done("60,000 spaces");
    repeat(60001, " ");
    done("60,001 spaces");
    repeat(60001, "\xff");
    done("60,001 bytes of 255");
    for (unsigned n = 59999; n <= 60001; n++) {
        static const char small[] = "entity e is end;architecture a of e is begin end;";
        add(small);
        repeat(n - (unsigned)sizeof small + 1, "\t");
        done("a design and tabs, %u bytes", n);
        repeat(n - (unsigned)sizeof small + 1, "\n");
        add(small);
        done("line ends and a design, %u bytes", n);
        add("--");
        repeat(n - 3, "-");
        add("\x80");
        done("a comment with byte 128 at the end of %u bytes", n);
        repeat(n - 1, " ");
        add("_");
        done("spaces and an underscore, %u bytes", n);
        repeat(n, "a");
        done("one run of %u bytes", n);
        repeat(n, "7");
        done("one integer of %u digits", n);
    }
    repeat(20000, "(),");
    done("60,000 marks");
    add("entity e is end;architecture a of e is begin process begin ");
    repeat(11000, "null;");
    add("end process;end;");
    done("11,000 nulls");
}

/* ---- the grammar ---- */

static const char rich[] =
    "entity e is end entity e ; architecture x of e is signal q , a : boolean ; signal b , c : boolean := true ; begin "
    "p : process ( q , a ) is begin q <= transport not q after 3 ns ; if a nand ( not b ) then null ; if true then null ; end if ; else "
    "a <= transport ( a or b or false ) xor q ; end if ; end process p ; process begin null ; end process ; end architecture x ;";

/* The text up to each token, and each token replaced by a word that fits nowhere. */
static void prefixes(void)
{
    size_t from = 0, n = sizeof rich - 1;
    add(rich);
    done("a design with every form");
    while (from < n) {
        size_t end = from + strcspn(rich + from, " ");
        add_bytes(1, rich, from);
        done("ends before token at %zu", from);
        add_bytes(1, rich, from);
        add("wait");
        add_bytes(1, rich + end, n - end);
        done("`wait` for the token at %zu", from);
        from = end + 1;
    }
    add(rich);
    add(" entity");
    done("a word behind the design");
}

static void grammar(void)
{
    for (int k = 0; vocabulary[k]; k++) {
        add("entity e is end; architecture x of e is signal ");
        add(vocabulary[k]);
        add(" : boolean; begin end;");
        done("`%s` as a name", vocabulary[k]);
    }
    body_value("a nand b nand c");
    body_value("a nor b nor c");
    body_value("a nand b and c");
    body_value("a and b or c");
    body_value("a xor b xnor c");
    body_value("a and b and c and a and b");
    body_value("a xnor b xnor c");
    body_value("not not a");
    body_value("not (not a)");
    body_value("not a and not b");
    body_value("(a nand b) nand c");
    body_value("a and");
    body_value("and a");
    body_value("()");
    body_value("(a");
    body_value("a)");
    body_value("a b");
    body_value("1");
    body_value("(a) after 1");
    body_value("(a) after ns");
    body_value("(a) after 1 q");
    body_value("(a) after 1 ns ns");
    body_value("(a) after 1 ns, b");
    body_value("a after (1 ns)");
    body_value("true nand true");
    body("q <= a;");
    body("q <= inertial a;");
    body("q := a;");
    body("q;");
    body(";");
    body("null");
    body("if a then end if");
    body("if a then else else end if;");
    body("if a then null; elsif b then null; end if;");
    body("if then end if;");
    body("if a then end;");
    body("if a then else end if;");
    body("if a then if b then end if; else end if;");
    processes("process () begin end process;");
    processes("process (q,) begin end process;");
    processes("process (q a) begin end process;");
    processes("process (q) is is begin end process;");
    processes("p : q : process begin end process;");
    processes("p process begin end process;");
    processes("p: process begin end process p p;");
    processes("p:= process begin end process;");
    processes("process begin end;");
    processes("process is signal s : boolean; begin end process;");
    processes("q <= transport a;");
    processes("signal s : boolean;");
    signals("signal : boolean;");
    signals("signal s boolean;");
    signals("signal s : bit;");
    signals("signal s : boolean := 1;");
    signals("signal s : boolean := not true;");
    signals("signal s : boolean = true;");
    signals("signal s, : boolean;");
    signals("signal s : boolean := false");
    signals("");
    design("");
    design(" ");
    design("entity");
    design("architecture a of e is begin end;");
    design("entity e is end; entity e is end;");
    design("entity e is begin end;");
    design("entity e is end e entity; architecture a of e is begin end;");
    design("entity e is end; architecture a of e is begin end; entity");
    design("entity e is end; architecture a of e is begin end; -- no more");
    design("entity e is end architecture; architecture a of e is begin end;");
    design("ENTITY e IS END;ARCHITECTURE a OF E IS BEGIN END ARCHITECTURE A;");
    design("entity\te\nis\vend\f;\rarchitecture a of e is--x\nbegin--y\rend--z\v;--");
}

/* ---- open brackets and `if`s ---- */

/* So many `if`s, then an expression in so many brackets. */
static void nested(unsigned ifs, unsigned brackets)
{
    head();
    repeat(ifs, "if a then ");
    add("q <= transport ");
    repeat(brackets, "(");
    add("a");
    repeat(brackets, ")");
    add(";");
    repeat(ifs, " end if;");
    tail();
    done("%u ifs and %u brackets", ifs, brackets);
}

static void nesting(void)
{
    static const unsigned pairs[][2] = {{0, 31}, {0, 32}, {0, 33}, {0, 200}, {31, 0}, {32, 0}, {33, 0}, {200, 0}, {31, 1}, {32, 1}, {31, 2}, {16, 16}, {16, 17}, {17, 16}, {1, 31}, {1, 32}};
    for (size_t k = 0; k < sizeof pairs / sizeof *pairs; k++)
        nested(pairs[k][0], pairs[k][1]);
    for (unsigned n = 31; n <= 33; n++) {
        head();
        add("if ");
        repeat(n, "(");
        add("a");
        repeat(n, ")");
        add(" then end if;");
        tail();
        done("%u brackets in a condition", n);
        head();
        repeat(n, "if a then else ");
        repeat(n, "end if; ");
        tail();
        done("%u ifs in second arms", n);
        head();
        repeat(n, "if (a) then null; end if; q <= transport ((a) and (b)); ");
        tail();
        done("%u times opened and closed", n);
        head();
        add("q <= transport ");
        repeat(n, "not (a xor ");
        add("b");
        repeat(n, ")");
        add(";");
        tail();
        done("%u brackets behind operators", n);
    }
    head();
    add("q <= transport ");
    repeat(32, "(");
    add("a (");
    done("3 at a bracket that would be the 33rd");
    head();
    repeat(32, "if a then ");
    add("q <= if");
    done("3 at an `if` that would be the 33rd");
    head();
    repeat(33, "if a then ");
    add("wait");
    done("4 before 3");
    head();
    add("wait ");
    repeat(33, "if a then ");
    done("3 before 4");
    head();
    repeat(33, "if zz then ");
    done("4 with 5 before it");
    head();
    repeat(32, "if a then ");
    add("q <= transport z ");
    done("3 at the end of the text with 32 open");
}

/* ---- names ---- */

static void names(void)
{
    body("z <= transport a;");
    body("q <= transport z;");
    body("q <= transport a and (b or z);");
    body("if z then end if;");
    body("if a then q <= transport zz; end if;");
    body("e <= transport a;");
    body("x <= transport a;");
    body("Q <= transport A;");
    body("z <= transport a after 1 hr;");
    processes("process (z) begin end process;");
    processes("process (q, a, z) begin end process;");
    processes("process (q, Q, q) begin end process;");
    processes("p : process begin p <= transport a; end process;");
    processes("p : process (p) begin end process;");
    processes("e : process begin end process e;");
    processes("x : process begin end process x;");
    processes("q : process begin end process;");
    processes("p : process begin end process; P : process begin end process;");
    processes("p : process begin end process; C : process begin end process;");
    processes("p : process begin end process q;");
    processes("p : process begin end process P;");
    processes("process begin end process p;");
    processes("process begin end process q;");
    processes("p : process begin z <= transport a; end process r;");
    processes("process begin q <= transport a; end process; process begin q <= transport b; end process;");
    processes("process begin q <= transport a; q <= transport b; end process;");
    processes("process begin if false then q <= transport a; end if; end process; process begin if false then else q <= transport b; end if; end process;");
    processes("process begin q <= transport a; end process; process begin a <= transport q; Q <= transport zz; end process;");
    processes("process begin q <= transport a after 1 hr; end process; process begin q <= transport b; end process;");
    processes("process begin q <= transport a; end process; process begin q <= transport b after 1 hr; end process;");
    signals("signal s, s : boolean;");
    signals("signal s : boolean; signal t, S : boolean;");
    signals("signal e, x : boolean;");
    design("entity e is end f; architecture a of e is begin end;");
    design("entity e is end f; architecture a of g is begin end;");
    design("entity e is end E; architecture a of E is begin end A;");
    design("entity e is end; architecture a of f is begin end;");
    design("entity e is end; architecture a of a is signal s, s : boolean; begin end;");
    design("entity e is end; architecture a of e is begin end e;");
    design("entity e is end; architecture a of e is begin end architecture b;");
    design("entity a is end a; architecture a of a is signal a : boolean; begin p : process (a) begin a <= transport a; end process p; end a;");
}

/* ---- delays ---- */

static void delay(const char *amount, const char *unit)
{
    head();
    add("q <= transport a after ");
    add(amount);
    add(" ");
    add(unit);
    add(";");
    tail();
    done("delay %s %s", amount, unit);
}

static void delays(void)
{
    static const char *const most[][4] = {{"fs", "999999999999999999", "1000000000000000000", "1000000000000000001"},
                                          {"ps", "999999999999999", "1000000000000000", "1000000000000001"},
                                          {"ns", "999999999999", "1000000000000", "1000000000001"},
                                          {"us", "999999999", "1000000000", "1000000001"},
                                          {"ms", "999999", "1000000", "1000001"},
                                          {"sec", "999", "1000", "1001"},
                                          {"min", "15", "16", "17"},
                                          {"hr", "0", "00", "1"}};
    static const char *const wraps[] = {"18446744073709551615", "18446744073709551616", "18446744073709551617", "18446744074", "18446744073710", "36893488147419103232"};
    for (int u = 0; u < 8; u++)
        for (int k = 1; k < 4; k++)
            delay(most[u][k], most[u][0]);
    for (int u = 0; u < 8; u++)
        for (size_t k = 0; k < sizeof wraps / sizeof *wraps; k++)
            delay(wraps[k], most[u][0]);
    delay("0", "FS");
    delay("0003", "Ns");
    for (unsigned n = 100; n <= 900; n += 400) {
        head();
        add("q <= transport a after ");
        repeat(n, "0");
        add("16 min;");
        tail();
        done("16 min with %u zeros before it", n);
        head();
        add("q <= transport a after ");
        repeat(n, "0");
        add("17 min;");
        tail();
        done("17 min with %u zeros before it", n);
        head();
        add("q <= transport a after 1");
        repeat(n, "0");
        add(" fs;");
        tail();
        done("1 with %u zeros behind it", n);
        head();
        add("q <= transport a after ");
        repeat(n, "9");
        add(" hr; z <= transport a;");
        tail();
        done("%u nines", n);
    }
}

/* ---- counts ---- */

static void counts_of_names(void)
{
    for (unsigned n = 63; n <= 66; n++) {
        add("entity e is end;architecture x of e is signal s0");
        numbered(1, n, ",s%u");
        add(":boolean;begin end;");
        done("%u signals", n);
        add("entity e is end;architecture x of e is ");
        numbered(0, n, "signal s%u:boolean;");
        add("begin ");
        numbered(0, n, "p%u:process begin end process;");
        add("end;");
        done("%u signals and %u processes", n, n);
        add("entity e is end;architecture x of e is begin ");
        repeat(n, "process begin end process;");
        add("end;");
        done("%u processes", n);
        add("entity e is end;architecture x of e is begin ");
        numbered(0, n, "p%u:process begin end process p%u;");
        add("end;");
        done("%u processes with labels", n);
        add("entity e is end;architecture x of e is signal s0");
        numbered(1, n, ",s%u");
        add(",s0:boolean;begin end;");
        done("%u signals and the first again", n);
    }
    add("entity e is end;architecture x of e is begin ");
    repeat(64, "process begin end process;");
    add("p:process(z)begin end process;end;");
    done("a 65th process with a label and a bad list");
    add("entity e is end;architecture x of e is begin p:");
    repeat(64, "process begin end process;");
    add("p:process begin end process;end;");
    done("a 65th process with a label that is used");
}

/* A text with so many instructions, two for each assignment but perhaps the first, and then the given statements. */
static void filled(unsigned instructions, const char *statements)
{
    head();
    if (instructions % 2)
        add("q<=transport not a;");
    repeat((instructions - (instructions % 2 ? 3 : 0)) / 2, "q<=transport a;");
    add(statements);
    tail();
    done("%u instructions and %s", instructions, statements);
}

static void counts_of_instructions(void)
{
    static const char *const ends[] = {"", "q<=transport a;", "q<=transport true;", "q<=transport not a;", "q<=transport a and b;", "q<=transport(a)xor false;", "if a then end if;",
                                       "if a then else end if;", "z<=transport a;", "q<=transport z;", "null;", "q<=transport a after 1 hr;", "if true then null; end if; z<=transport b;"};
    for (unsigned n = 4091; n <= 4097; n++)
        for (size_t k = 0; k < sizeof ends / sizeof *ends; k++)
            filled(n, ends[k]);
    add("entity e is end; architecture x of e is signal q, a : boolean; begin process begin ");
    repeat(2048, "q<=transport a;");
    add(" end process; process begin q <= transport a; end process; end;");
    done("4,096 instructions and an assignment to another process's signal");
    add("entity e is end; architecture x of e is signal q, a : boolean; begin process begin ");
    repeat(2048, "q<=transport a;");
    add(" end process; p : process (q) begin end process q; end;");
    done("4,096 instructions and a wrong closing name");
    add("entity e is end; architecture x of e is signal q : boolean; begin process begin q <= transport q");
    repeat(2047, " or q");
    add("; end process; end;");
    done("one expression of 4,095 instructions");
    add("entity e is end; architecture x of e is signal q : boolean; begin process begin q <= transport q");
    repeat(2048, " or q");
    add("; end process; end;");
    done("one expression of 4,097 instructions");
    add("entity e is end; architecture x of e is signal q : boolean; begin process begin ");
    repeat(1365, "if q then end if; ");
    add("q <= transport");
    add(" q; end process; end;");
    done("1,365 ifs and an assignment");
}

/* ---- made by chance ---- */

static void by_chance(void)
{
    static struct tokens made;
    static struct text text;
    static const struct shape small = {4, 3, 30, 2, 2, 3, 1, 1}, deep = {3, 2, 40, 12, 8, 2, 0, 0}, large = {64, 64, 400, 2, 2, 3, 1, 1};
    struct random r = {20261115};
    for (int k = 0; k < 180; k++) {
        const struct shape *shape = k % 60 == 0 ? &large : k % 5 == 0 ? &deep : &small;
        make_design(&r, shape, &made);
        if (k % 3 == 1)
            damage_names(&r, &made);
        if (k % 3 == 2)
            damage_tokens(&r, &made);
        write_text(&r, &made, (enum style)(k % 4 == 0 ? WILD : k % 4 == 1 ? PLAIN : TIGHT), &text);
        if (k % 9 == 8)
            damage_text(&r, &text);
        if (text.length > 16000)
            text.length = 16000;
        add_bytes(1, text.bytes, text.length);
        done("made by chance, number %d", k);
    }
}

static FILE *open_file(const char *path)
{
    FILE *file = fopen(path, "wb");
    if (!file) {
        perror(path);
        exit(2);
    }
    return file;
}

int main(int count, char **arguments)
{
    if (count != 4) {
        fprintf(stderr, "usage: write TEXTS ANSWERS TITLES\n");
        return 2;
    }
    texts = open_file(arguments[1]);
    expected = open_file(arguments[2]);
    titles = open_file(arguments[3]);
    all_bytes();
    tokens();
    lengths();
    prefixes();
    grammar();
    nesting();
    names();
    delays();
    counts_of_names();
    counts_of_instructions();
    by_chance();
    printf("%lu texts\n", written);
    return fclose(texts) || fclose(expected) || fclose(titles);
}
