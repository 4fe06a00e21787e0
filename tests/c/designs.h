/* Random designs that document 01 accepts, as lists of tokens; their texts; and ways to damage both. */
#ifndef DESIGNS_H
#define DESIGNS_H

#include "random.h"

enum {
    TOKENS_ROOM = 200000,
    POOL_ROOM = 1 << 20,
    TEXT_ROOM = 1 << 20
};

/* Tokens in lower case. Each stands in the pool, ended by a zero byte. */
struct tokens {
    size_t count, used;
    uint32_t at[TOKENS_ROOM];
    char pool[POOL_ROOM];
};

struct text {
    size_t length;
    uint8_t bytes[TEXT_ROOM];
};

/* What a design may have at most, and how it looks. With up to 80 signals and processes, and any number of instructions, it may pass the
   sizes of document 01. */
struct shape {
    unsigned signals, processes, instructions;
    unsigned brackets;  /* one factor in so many is no bracket: 1 for none, 20 for nearly all */
    unsigned ifs;       /* one statement in so many is no `if`, as long as there is room */
    unsigned statements; /* in one list */
    int wild_delays;    /* delays of every size in every unit, not only small ones of one unit */
    int busy;           /* one process in three is an oscillator */
};

/* How a text is written. */
enum style {
    PLAIN, /* one space or line end between tokens */
    TIGHT, /* a space only where two tokens would become one */
    WILD   /* every blank, comments with every byte below 128, capitals */
};

const char *token_at(const struct tokens *tokens, size_t k);
void add_token(struct tokens *tokens, const char *word);

struct shape any_shape(struct random *r);
void make_design(struct random *r, const struct shape *shape, struct tokens *tokens);
void write_text(struct random *r, const struct tokens *tokens, enum style style, struct text *text);

/* One change: a token or byte deleted, doubled, exchanged, replaced or put in, or the end cut off. */
void damage_tokens(struct random *r, struct tokens *tokens);
void damage_text(struct random *r, struct text *text);

/* A name becomes another name of the design, a new one or a word that is no name; a process gets a closing name; or an integer another value. */
void damage_names(struct random *r, struct tokens *tokens);

/* Any words of the vocabulary, names, integers and marks, one after another. */
void make_soup(struct random *r, size_t count, struct tokens *tokens);

/* Every word that is no name: the reserved words, `true`, `false`, `boolean` and the units, ended by NULL. */
extern const char *const vocabulary[];

#endif
