/* See designs.h. */
#include "designs.h"

#include <stdio.h>
#include <string.h>

const char *const vocabulary[] = {
    "entity", "is", "end", "architecture", "of", "signal", "begin", "boolean", "process", "transport", "after", "if", "then", "else", "null",
    "not", "nand", "nor", "and", "or", "xor", "xnor", "true", "false", "fs", "ps", "ns", "us", "ms", "sec", "min", "hr", "abs", "access", "alias",
    "all", "array", "assert", "attribute", "block", "body", "buffer", "bus", "case", "component", "configuration", "constant", "disconnect",
    "downto", "elsif", "exit", "file", "for", "function", "generate", "generic", "group", "guarded", "impure", "in", "inertial", "inout", "label",
    "library", "linkage", "literal", "loop", "map", "mod", "new", "next", "on", "open", "others", "out", "package", "port", "postponed",
    "procedure", "pure", "range", "record", "register", "reject", "rem", "report", "return", "rol", "ror", "select", "severity", "shared", "sla",
    "sll", "sra", "srl", "subtype", "to", "type", "unaffected", "units", "until", "use", "variable", "wait", "when", "while", "with", NULL};

enum { SUBSET_WORDS = 32, VOCABULARY_WORDS = 108 };

static const char *const marks[] = {"(", ")", ",", ":", ";", "<=", ":="};

const char *token_at(const struct tokens *tokens, size_t k)
{
    return tokens->pool + tokens->at[k];
}

static uint32_t keep(struct tokens *tokens, const char *word)
{
    size_t length = strlen(word) + 1;
    uint32_t at = (uint32_t)tokens->used;
    if (tokens->used + length > POOL_ROOM)
        return 0;
    memcpy(tokens->pool + at, word, length);
    tokens->used += length;
    return at;
}

void add_token(struct tokens *tokens, const char *word)
{
    if (tokens->count < TOKENS_ROOM)
        tokens->at[tokens->count++] = keep(tokens, word);
}

/* ---- names ---- */

enum { SIGNALS_ROOM = 80, NAMES = 200, NAME_BYTES = 33 };

struct maker {
    struct random *r;
    const struct shape *shape;
    struct tokens *tokens;
    char names[NAMES][NAME_BYTES]; /* the signals, and behind them the labels, entity and architecture */
    unsigned name_count, signals;
    unsigned left; /* instructions */
    unsigned targets[SIGNALS_ROOM], target_count;
    const char *unit; /* of small delays */
};

static void say(struct maker *m, const char *word)
{
    add_token(m->tokens, word);
}

/* Letters, digits and single underscores, from 1 to 32 bytes. */
static void any_name(struct random *r, char *name)
{
    static const char letters[] = "abcdefghijklmnopqrstuvwxyz", more[] = "abcdefghijklmnopqrstuvwxyz0123456789_";
    size_t length = once_in(r, 8) ? between(r, 30, 32) : once_in(r, 3) ? between(r, 1, 32) : between(r, 1, 4);
    name[0] = letters[below(r, 26)];
    for (size_t i = 1; i < length; i++) {
        int single = name[i - 1] != '_' && i + 1 < length;
        name[i] = more[below(r, single ? 37 : 36)];
    }
    name[length] = 0;
    if (once_in(r, 6)) { /* nearly a word of the vocabulary */
        const char *word = vocabulary[below(r, VOCABULARY_WORDS)];
        snprintf(name, NAME_BYTES, "%s%c", word, more[below(r, 36)]);
    }
}

static int is_vocabulary(const char *word)
{
    for (int k = 0; vocabulary[k]; k++)
        if (word[0] == vocabulary[k][0] && strcmp(word, vocabulary[k]) == 0)
            return 1;
    return 0;
}

static int is_taken(const struct maker *m, const char *name)
{
    if (is_vocabulary(name))
        return 1;
    for (unsigned k = 0; k < m->name_count; k++)
        if (strcmp(name, m->names[k]) == 0)
            return 1;
    return 0;
}

static const char *fresh_name(struct maker *m)
{
    char *name = m->names[m->name_count];
    do
        any_name(m->r, name);
    while (is_taken(m, name));
    m->name_count++;
    return name;
}

/* The entity's and the architecture's name may be a signal's too. */
static const char *free_name(struct maker *m)
{
    return m->signals && once_in(m->r, 4) ? m->names[below(m->r, m->signals)] : fresh_name(m);
}

/* ---- expressions ---- */

static unsigned expression(struct maker *m, unsigned allowed, unsigned room);

/* A factor of at most so many instructions, at least 1, in so many brackets. Answers how many it has. */
static unsigned factor(struct maker *m, unsigned allowed, unsigned room)
{
    unsigned used = 0;
    if (allowed >= 2 && once_in(m->r, 3)) {
        say(m, "not");
        used++;
    }
    if (room && !once_in(m->r, m->shape->brackets)) {
        say(m, "(");
        used += expression(m, allowed - used, room - 1);
        say(m, ")");
        return used;
    }
    if (m->signals && !once_in(m->r, 5))
        say(m, m->names[below(m->r, m->signals)]);
    else
        say(m, once_in(m->r, 2) ? "true" : "false");
    return used + 1;
}

static unsigned expression(struct maker *m, unsigned allowed, unsigned room)
{
    static const char *const words[] = {"nand", "nor", "and", "or", "xor", "xnor"};
    unsigned most = (allowed + 1) / 2, factors = 1, used = 0, word = (unsigned)below(m->r, 6);
    if (most >= 2 && !once_in(m->r, 3))
        factors = word < 2 ? 2 : (unsigned)between(m->r, 2, most < 5 ? most : once_in(m->r, 10) ? most : 5);
    for (unsigned k = 0; k < factors; k++) {
        unsigned reserved = 2 * (factors - 1 - k), rest = allowed - used - reserved;
        used += factor(m, k + 1 == factors ? rest : (unsigned)between(m->r, 1, rest), room);
        if (k + 1 < factors) {
            say(m, words[word]);
            used++;
        }
    }
    return used;
}

/* ---- statements ---- */

static void any_delay(struct maker *m)
{
    static const uint64_t sizes[] = {1, 1000, 1000000, 1000000000, UINT64_C(1000000000000), UINT64_C(1000000000000000), UINT64_C(60000000000000000)};
    char digits[80];
    unsigned unit = (unsigned)below(m->r, 8);
    uint64_t most = unit == 7 ? 0 : UINT64_C(1000000000000000000) / sizes[unit], amount;
    if (once_in(m->r, m->shape->wild_delays ? 6 : 4))
        return;
    amount = below(m->r, once_in(m->r, 6) ? 100 : 12);
    if (m->shape->wild_delays && once_in(m->r, 2))
        amount = once_in(m->r, 4) ? most : below(m->r, most + 1);
    if (m->shape->wild_delays && once_in(m->r, 2))
        amount >>= below(m->r, 60);
    if (m->shape->wild_delays && amount > most)
        amount = most;
    snprintf(digits, sizeof digits, "%0*llu", once_in(m->r, 8) ? (int)below(m->r, 40) : 1, (unsigned long long)amount);
    say(m, "after");
    say(m, digits);
    say(m, m->shape->wild_delays ? vocabulary[24 + unit] : m->unit);
}

static unsigned share(struct maker *m)
{
    return (unsigned)between(m->r, 1, once_in(m->r, 12) ? m->left : m->left < 40 ? m->left : 40);
}

static void assignment(struct maker *m, unsigned room)
{
    m->left--;
    say(m, m->names[m->targets[below(m->r, m->target_count)]]);
    say(m, "<=");
    say(m, "transport");
    m->left -= expression(m, share(m), room);
    any_delay(m);
    say(m, ";");
}

static void statements(struct maker *m, unsigned room);

static void if_statement(struct maker *m, unsigned room)
{
    m->left -= 2;
    say(m, "if");
    m->left -= expression(m, share(m), room - 1);
    say(m, "then");
    statements(m, room - 1);
    if (once_in(m->r, 2)) {
        say(m, "else");
        statements(m, room - 1);
    }
    say(m, "end");
    say(m, "if");
    say(m, ";");
}

static void statements(struct maker *m, unsigned room)
{
    for (uint64_t k = below(m->r, m->shape->statements + 1); k > 0; k--) {
        if (room && m->left >= 3 && !once_in(m->r, m->shape->ifs)) {
            if_statement(m, room);
        } else if (m->target_count && m->left >= 2) {
            assignment(m, room);
        } else {
            say(m, "null");
            say(m, ";");
        }
    }
}

/* ---- the design ---- */

static void names_list(struct maker *m, uint64_t count)
{
    for (uint64_t k = 0; k < count; k++) {
        if (k)
            say(m, ",");
        say(m, m->names[below(m->r, m->signals)]);
    }
}

/* One process, which drives the targets. An oscillator listens to its first target and inverts it. */
static void process(struct maker *m)
{
    const char *label = once_in(m->r, 2) ? fresh_name(m) : NULL;
    int oscillates = m->shape->busy && m->target_count && m->left >= 3 && once_in(m->r, 3);
    if (label) {
        say(m, label);
        say(m, ":");
    }
    say(m, "process");
    if (m->signals && (oscillates || !once_in(m->r, 6))) {
        say(m, "(");
        if (oscillates)
            say(m, m->names[m->targets[0]]);
        else
            names_list(m, between(m->r, 1, 4));
        say(m, ")");
    }
    if (once_in(m->r, 2))
        say(m, "is");
    say(m, "begin");
    if (oscillates) {
        static const char *const rest[] = {"<=", "transport", "not"};
        m->left -= 3;
        say(m, m->names[m->targets[0]]);
        for (int k = 0; k < 3; k++)
            say(m, rest[k]);
        say(m, m->names[m->targets[0]]);
        say(m, "after");
        say(m, once_in(m->r, 2) ? "3" : "5");
        say(m, m->unit);
        say(m, ";");
    } else {
        statements(m, 32);
    }
    say(m, "end");
    say(m, "process");
    if (label && once_in(m->r, 2))
        say(m, label);
    say(m, ";");
}

static void declarations(struct maker *m, unsigned signals)
{
    unsigned k = 0;
    while (k < signals) {
        uint64_t together = between(m->r, 1, signals - k < 6 ? signals - k : 6);
        say(m, "signal");
        for (uint64_t i = 0; i < together; i++, k++) {
            if (i)
                say(m, ",");
            say(m, m->names[k]);
        }
        say(m, ":");
        say(m, "boolean");
        if (once_in(m->r, 2)) {
            say(m, ":=");
            say(m, once_in(m->r, 2) ? "true" : "false");
        }
        say(m, ";");
    }
}

static void closing(struct maker *m, const char *word, const char *name)
{
    say(m, "end");
    if (once_in(m->r, 2))
        say(m, word);
    if (once_in(m->r, 2))
        say(m, name);
    say(m, ";");
}

static void processes(struct maker *m)
{
    unsigned count = (unsigned)below(m->r, m->shape->processes + 1), drivers[SIGNALS_ROOM];
    if (once_in(m->r, 3))
        count = m->shape->processes;
    for (unsigned k = 0; k < m->signals; k++)
        drivers[k] = (unsigned)below(m->r, count + count / 8 + 1); /* some are driven by none */
    for (unsigned p = 0; p < count; p++) {
        m->target_count = 0;
        for (unsigned k = 0; k < m->signals; k++)
            if (drivers[k] == p)
                m->targets[m->target_count++] = k;
        process(m);
    }
}

void make_design(struct random *r, const struct shape *shape, struct tokens *tokens)
{
    static struct maker m;
    unsigned signals = once_in(r, 3) ? shape->signals : (unsigned)below(r, shape->signals + 1);
    const char *entity, *architecture;
    memset(&m, 0, sizeof m);
    m.r = r;
    m.shape = shape;
    m.tokens = tokens;
    m.left = shape->instructions;
    m.unit = vocabulary[24 + below(r, 5)];
    tokens->count = tokens->used = 0;
    while (m.name_count < signals)
        fresh_name(&m);
    m.signals = signals;
    entity = free_name(&m);
    architecture = free_name(&m);
    say(&m, "entity");
    say(&m, entity);
    say(&m, "is");
    closing(&m, "entity", entity);
    say(&m, "architecture");
    say(&m, architecture);
    say(&m, "of");
    say(&m, entity);
    say(&m, "is");
    declarations(&m, signals);
    say(&m, "begin");
    processes(&m);
    closing(&m, "architecture", architecture);
}

struct shape any_shape(struct random *r)
{
    static const unsigned sizes[] = {1, 2, 3, 5, 8, 16, 33, 64};
    struct shape s;
    s.signals = sizes[below(r, 8)];
    s.processes = once_in(r, 2) ? sizes[below(r, 4)] : sizes[below(r, 8)];
    s.instructions = once_in(r, 4) ? (unsigned)below(r, 4097) : (unsigned)below(r, 300);
    s.brackets = once_in(r, 5) ? 20 : (unsigned)between(r, 1, 2);
    s.ifs = once_in(r, 5) ? 12 : (unsigned)between(r, 1, 2);
    s.statements = s.ifs == 12 ? (unsigned)between(r, 1, 2) : (unsigned)between(r, 1, 5);
    if (s.brackets == 20 && s.instructions > 600) /* many brackets make long texts */
        s.instructions = 600;
    s.wild_delays = once_in(r, 3);
    s.busy = once_in(r, 2);
    return s;
}

/* ---- the text ---- */

static int is_run(int c)
{
    return (c >= 'a' && c <= 'z') || (c >= 'A' && c <= 'Z') || (c >= '0' && c <= '9') || c == '_';
}

static void put(struct text *text, int byte)
{
    if (text->length < TEXT_ROOM)
        text->bytes[text->length++] = (uint8_t)byte;
}

static void wild_blank(struct random *r, struct text *text)
{
    static const char blanks[] = " \t\n\v\f\r";
    if (once_in(r, 30)) {
        put(text, '-');
        put(text, '-');
        for (uint64_t k = below(r, 30); k > 0; k--) {
            int byte = (int)below(r, 128);
            put(text, byte >= 10 && byte <= 13 ? ' ' : byte);
        }
        put(text, (int)between(r, 10, 13));
    } else {
        put(text, once_in(r, 2) ? ' ' : blanks[below(r, 6)]);
    }
}

static void between_tokens(struct random *r, enum style style, int needed, int last, struct text *text)
{
    if (style == PLAIN) {
        put(text, last == ';' ? '\n' : ' ');
    } else if (style == TIGHT) {
        if (needed)
            put(text, ' ');
    } else {
        if (needed)
            wild_blank(r, text);
        while (once_in(r, 3))
            wild_blank(r, text);
    }
}

void write_text(struct random *r, const struct tokens *tokens, enum style style, struct text *text)
{
    text->length = 0;
    for (size_t k = 0; k < tokens->count; k++) {
        const char *token = token_at(tokens, k);
        int capitals = style == WILD ? (int)below(r, 3) : 0; /* none, some, all */
        int last = text->length ? text->bytes[text->length - 1] : 0;
        if (k || style == WILD)
            between_tokens(r, style, k && is_run(last) && is_run(token[0]), last, text);
        for (; *token; token++) {
            int letter = *token >= 'a' && *token <= 'z';
            put(text, letter && (capitals == 2 || (capitals == 1 && once_in(r, 2))) ? *token - 32 : *token);
        }
    }
    if (style == WILD)
        wild_blank(r, text);
}

/* ---- damage ---- */

static uint32_t any_token(struct random *r, struct tokens *tokens)
{
    char word[NAME_BYTES];
    uint64_t sort = below(r, 12);
    if (sort < 5 && tokens->count)
        return tokens->at[below(r, tokens->count)];
    if (sort < 7)
        return keep(tokens, vocabulary[below(r, SUBSET_WORDS)]);
    if (sort < 8)
        return keep(tokens, vocabulary[below(r, VOCABULARY_WORDS)]);
    if (sort < 10)
        return keep(tokens, marks[below(r, 7)]);
    if (sort < 11) {
        static const char *const amounts[] = {"0", "1", "1000", "1001", "1000000000000000000", "1000000000000000001", "18446744073709551617"};
        return keep(tokens, amounts[below(r, 7)]);
    }
    any_name(r, word);
    return keep(tokens, word);
}

void damage_tokens(struct random *r, struct tokens *tokens)
{
    size_t n = tokens->count, k = (size_t)below(r, n), j = (size_t)below(r, n);
    uint32_t old;
    if (n < 2 || n + 1 >= TOKENS_ROOM)
        return;
    switch (below(r, 6)) {
    case 0: /* deleted */
        memmove(tokens->at + k, tokens->at + k + 1, (n - 1 - k) * sizeof *tokens->at);
        tokens->count--;
        break;
    case 1: /* doubled */
        memmove(tokens->at + k + 1, tokens->at + k, (n - k) * sizeof *tokens->at);
        tokens->count++;
        break;
    case 2: /* exchanged with the next */
        j = k + 1 < n ? k + 1 : 0;
        /* fall through */
    case 3: /* exchanged with any */
        old = tokens->at[k];
        tokens->at[k] = tokens->at[j];
        tokens->at[j] = old;
        break;
    case 4: /* replaced */
        tokens->at[k] = any_token(r, tokens);
        break;
    default: /* put in */
        memmove(tokens->at + k + 1, tokens->at + k, (n - k) * sizeof *tokens->at);
        tokens->count++;
        tokens->at[k] = any_token(r, tokens);
    }
}

enum sort { NAME, INTEGER, TARGET };

static int is_sort(const struct tokens *tokens, size_t k, enum sort sort)
{
    const char *token = token_at(tokens, k);
    int name = token[0] >= 'a' && token[0] <= 'z' && !is_vocabulary(token);
    switch (sort) {
    case NAME: return name;
    case INTEGER: return token[0] >= '0' && token[0] <= '9';
    default: return name && k + 1 < tokens->count && strcmp(token_at(tokens, k + 1), "<=") == 0;
    }
}

/* A token of this sort at a random place, or the number of tokens. */
static size_t find(struct random *r, const struct tokens *tokens, enum sort sort)
{
    for (int tries = 0; tries < 200; tries++) {
        size_t k = (size_t)below(r, tokens->count);
        if (is_sort(tokens, k, sort))
            return k;
    }
    return tokens->count;
}

/* Puts a closing name behind some `end`, `process` where none stands. */
static void close_with(struct random *r, struct tokens *tokens, uint32_t name)
{
    for (int tries = 0; tries < 200; tries++) {
        size_t k = (size_t)below(r, tokens->count), n = tokens->count;
        if (k < 2 || n + 1 >= TOKENS_ROOM || strcmp(token_at(tokens, k), ";") != 0)
            continue;
        if (strcmp(token_at(tokens, k - 1), "process") != 0 || strcmp(token_at(tokens, k - 2), "end") != 0)
            continue;
        memmove(tokens->at + k + 1, tokens->at + k, (n - k) * sizeof *tokens->at);
        tokens->at[k] = name;
        tokens->count++;
        return;
    }
}

void damage_names(struct random *r, struct tokens *tokens)
{
    static const char *const amounts[] = {"1", "17", "1000", "1001", "1000000", "16666666666666667", "1000000000000000000",
                                          "1000000000000000001", "18446744073709551616", "99999999999999999999999999999999999999999"};
    enum sort sort = once_in(r, 5) ? INTEGER : once_in(r, 3) ? TARGET : NAME;
    size_t k = find(r, tokens, sort), j = find(r, tokens, sort == INTEGER ? NAME : sort);
    char word[NAME_BYTES];
    if (k == tokens->count || j == tokens->count)
        return;
    any_name(r, word);
    if (sort == INTEGER)
        tokens->at[k] = keep(tokens, amounts[below(r, 10)]);
    else if (once_in(r, 8))
        close_with(r, tokens, tokens->at[j]);
    else if (once_in(r, 6))
        tokens->at[k] = keep(tokens, vocabulary[below(r, VOCABULARY_WORDS)]);
    else
        tokens->at[k] = once_in(r, 6) ? keep(tokens, word) : tokens->at[j];
}

void damage_text(struct random *r, struct text *text)
{
    static const char close_ones[] = "()-_=<>:;,\"'#019azAZ\n\r\v\f\t @[`{/";
    size_t n = text->length, k = (size_t)below(r, n);
    uint8_t byte = once_in(r, 2) ? (uint8_t)close_ones[below(r, sizeof close_ones - 1)] : (uint8_t)below(r, 256), old;
    if (n < 2 || n + 1 >= TEXT_ROOM)
        return;
    switch (below(r, 6)) {
    case 0:
        memmove(text->bytes + k, text->bytes + k + 1, n - 1 - k);
        text->length--;
        break;
    case 1:
        byte = text->bytes[k];
        /* fall through */
    case 2:
        memmove(text->bytes + k + 1, text->bytes + k, n - k);
        text->bytes[k] = byte;
        text->length++;
        break;
    case 3:
        old = text->bytes[k];
        text->bytes[k] = text->bytes[(k + 1) % n];
        text->bytes[(k + 1) % n] = old;
        break;
    case 4:
        text->bytes[k] = byte;
        break;
    default:
        text->length = k;
    }
}

void make_soup(struct random *r, size_t count, struct tokens *tokens)
{
    tokens->count = tokens->used = 0;
    while (count--) {
        uint32_t at = any_token(r, tokens);
        tokens->at[tokens->count++] = at;
    }
}
