/* See words.h, and docs/FORMAT.md for the places. */
#include "words.h"

#include <string.h>

#define LONGEST UINT64_C(1000000000000000000)

enum { VALUES_FIRST = 3, WAKES = 67, ENDS = 131, OPERATIONS = 195, DELAYS = 4291 };
enum { NAME, LITERAL, NOT, AND, OR, NAND, NOR, XOR, XNOR, ASSIGN, TEST, SKIP };

/* ---- tables ---- */

enum { JUMPS = 40, UNREACHED = -1 };

struct builder {
    struct random *r;
    uint64_t *table;
    uint64_t process;
    uint64_t targets[64], target_count;
    int most;   /* operands */
    int height; /* operands here, or UNREACHED */
    uint64_t jumps[JUMPS]; /* addresses of jumps that go nowhere yet, each with its operands */
    int jump_height[JUMPS];
    unsigned jump_count;
};

static void emit(struct builder *b, uint64_t kind, uint64_t about, uint64_t delay)
{
    uint64_t x = b->table[2]++;
    b->table[OPERATIONS + x] = kind + 16 * about;
    b->table[DELAYS + x] = delay;
}

static uint64_t any_delay(struct random *r)
{
    if (once_in(r, 4))
        return 0;
    if (once_in(r, 12))
        return LONGEST - below(r, 3);
    if (once_in(r, 5))
        return between(r, 30, 90); /* behind what is pending in most sessions */
    return once_in(r, 10) ? below(r, LONGEST + 1) : below(r, 9);
}

static void emit_assignment(struct builder *b)
{
    uint64_t target = b->targets[below(b->r, b->target_count)];
    emit(b, ASSIGN, target, any_delay(b->r));
}

static void emit_jump(struct builder *b, uint64_t kind)
{
    if (kind == TEST && b->height >= 0)
        b->height--;
    b->jumps[b->jump_count] = b->table[2];
    b->jump_height[b->jump_count++] = b->height;
    emit(b, kind, 0, 0);
    if (kind == SKIP)
        b->height = UNREACHED;
}

/* Lets jump j come here, where the operands agree. A jump that is itself never reached may go anywhere. */
static int land(struct builder *b, unsigned j)
{
    int h = b->jump_height[j];
    if (b->jumps[j] >= b->table[2] || (h >= 0 && b->height >= 0 && h != b->height))
        return 0;
    if (b->height < 0)
        b->height = h;
    b->table[OPERATIONS + b->jumps[j]] += 16 * b->table[2];
    b->jump_count--;
    b->jumps[j] = b->jumps[b->jump_count];
    b->jump_height[j] = b->jump_height[b->jump_count];
    return 1;
}

static void push(struct builder *b)
{
    if (b->table[0] && !once_in(b->r, 4))
        emit(b, NAME, below(b->r, b->table[0]), 0);
    else
        emit(b, LITERAL, below(b->r, 2), 0);
    b->height += b->height >= 0;
}

/* One operand fewer: by an assignment, a binary word, or a test that goes on with the next instruction either way. */
static void pop(struct builder *b)
{
    if (b->target_count && !once_in(b->r, 3))
        emit_assignment(b);
    else if (b->height >= 2 && once_in(b->r, 2))
        emit(b, between(b->r, AND, XNOR), 0, 0);
    else
        emit(b, TEST, b->table[2] + 1, 0);
    b->height--;
}

/* Where no way leads: any kind, whatever operands it would need. */
static void unreached_instruction(struct builder *b)
{
    uint64_t choice = below(b->r, 4);
    if (choice == 0 && b->target_count)
        emit_assignment(b);
    else if (choice == 1)
        emit(b, between(b->r, TEST, SKIP), b->table[2] + 1, 0);
    else if (choice == 2)
        emit(b, between(b->r, NOT, XNOR), 0, 0);
    else
        push(b);
}

static void any_instruction(struct builder *b)
{
    uint64_t choice = b->most > 20 && b->height < b->most && !once_in(b->r, 3) ? 9 : below(b->r, 10);
    if (b->height < 0)
        unreached_instruction(b);
    else if (choice < 1 && b->jump_count < JUMPS)
        emit_jump(b, SKIP);
    else if (choice < 3 && b->jump_count < JUMPS && b->height >= 1)
        emit_jump(b, TEST);
    else if (choice < 4 && b->height >= 1)
        emit(b, NOT, 0, 0);
    else if (choice < 6 && b->height >= 2) {
        emit(b, between(b->r, AND, XNOR), 0, 0);
        b->height--;
    } else if (choice < 8 && b->height >= 1)
        pop(b);
    else if (b->height < b->most)
        push(b);
}

/* A process of about so many instructions. At its end every jump has landed, and no operand is left. */
static void build_process(struct builder *b, uint64_t size)
{
    uint64_t end = b->table[2] + size;
    b->height = 0;
    b->jump_count = 0;
    while (b->table[2] < end) {
        any_instruction(b);
        for (unsigned j = 0; j < b->jump_count; j++)
            if (once_in(b->r, 3))
                land(b, j);
    }
    while (b->jump_count) {
        int h = b->jump_height[0];
        if (b->height >= 0 && h >= 0 && b->height < h)
            push(b);
        else if (b->height >= 0 && h >= 0 && b->height > h)
            pop(b);
        else if (!land(b, 0))
            push(b);
    }
    while (b->height > 0)
        pop(b);
    b->table[ENDS + b->process] = b->table[2];
}

void make_table(struct random *r, unsigned operands, uint64_t *table)
{
    static const uint64_t sizes[] = {0, 1, 2, 3, 5, 9, 33, 64};
    struct builder b;
    uint64_t signals = sizes[below(r, 8)], processes = sizes[below(r, 8)], drivers[64];
    uint64_t room = once_in(r, 6) ? 2600 : 400; /* jumps that have to land add at most 40 times 34 */
    memset(table, 0, TABLE_WORDS * sizeof *table);
    table[0] = signals;
    table[1] = processes;
    b.r = r;
    b.table = table;
    for (uint64_t k = 0; k < signals; k++) {
        table[VALUES_FIRST + k] = below(r, 2);
        table[WAKES + k] = any_word(r) & any_word(r) & any_word(r);
        if (processes < 64)
            table[WAKES + k] &= (UINT64_C(1) << processes) - 1;
        drivers[k] = below(r, processes + 2);
    }
    for (b.process = 0; b.process < processes; b.process++) {
        b.target_count = 0;
        for (uint64_t k = 0; k < signals; k++)
            if (drivers[k] == b.process)
                b.targets[b.target_count++] = k;
        b.most = once_in(r, 4) ? (int)operands : (int)between(r, 1, 6);
        build_process(&b, table[2] < room ? below(r, once_in(r, 5) ? room - table[2] : 20) : 0);
    }
}

/* ---- sessions ---- */

void make_session(struct random *r, const uint64_t *table, uint64_t *session)
{
    uint64_t driven = 0, offsets[24];
    uint64_t spread = once_in(r, 4) ? LONGEST : 40;
    memset(session, 0, SESSION_WORDS * sizeof *session);
    for (uint64_t x = 0; x < table[2]; x++)
        if (table[OPERATIONS + x] % 16 == ASSIGN)
            driven |= UINT64_C(1) << table[OPERATIONS + x] / 16;
    session[0] = table[0];
    session[1] = once_in(r, 3) ? below(r, LONGEST + 1) : once_in(r, 4) ? LONGEST : below(r, 100);
    for (int k = 0; k < 24; k++) /* few times, so that several signals change at one */
        offsets[k] = once_in(r, 8) ? LONGEST : 1 + below(r, spread);
    for (uint64_t k = 0; k < table[0]; k++) {
        uint64_t last = 0, *count = &session[66 + k];
        session[2 + k] = below(r, 2);
        if (!(driven >> k & 1) || once_in(r, 3))
            continue;
        for (uint64_t tries = once_in(r, 3) ? 60 : below(r, 5); tries > 0 && *count < 16; tries--) {
            uint64_t offset = once_in(r, 2) ? offsets[below(r, 24)] : last + 1;
            if (offset <= last || offset > LONGEST)
                continue;
            session[130 + 16 * k + *count] = 2 * (session[1] + offset) + below(r, 2);
            ++*count;
            last = offset;
        }
    }
}

/* ---- damage ---- */

uint64_t near_word(struct random *r, uint64_t word)
{
    static const uint64_t close_ones[] = {0, 1, 2, 16, 17, 63, 64, 65, 4096, 4097, LONGEST, LONGEST + 1, 2 * LONGEST, UINT64_MAX, UINT64_C(1) << 63};
    switch (below(r, 7)) {
    case 0: return word + 1;
    case 1: return word - 1;
    case 2: return word ^ UINT64_C(1) << below(r, 64);
    case 3: return word + 16 * between(r, 1, 3);
    case 4: return once_in(r, 2) ? word + 2 : word - 2;
    case 5: return close_ones[below(r, 15)];
    default: return any_word(r);
    }
}

void damage_words(struct random *r, uint64_t *words, size_t count)
{
    size_t k = (size_t)below(r, count), j = (size_t)below(r, count);
    for (int tries = once_in(r, 3) ? 0 : 2000; tries > 0 && words[k] == 0; tries--) /* rather one that is not zero */
        k = (size_t)below(r, count);
    if (once_in(r, 5)) {
        uint64_t old = words[k];
        words[k] = words[j];
        words[j] = old;
    } else {
        words[k] = near_word(r, words[k]);
    }
}
