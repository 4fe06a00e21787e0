/* Random tables and sessions, fit or nearly so, that no text needs to have given; and ways to damage both. */
#ifndef WORDS_H
#define WORDS_H

#include "random.h"

enum { TABLE_WORDS = 8387, SESSION_WORDS = 1154 };

/* A table by the rules of fitness: jumps that no statement has, instructions that no way reaches, up to so many operands (34 are allowed). */
void make_table(struct random *r, unsigned operands, uint64_t *table);

/* A session that is fit for a table, at any time, with any pending changes. */
void make_session(struct random *r, const uint64_t *table, uint64_t *session);

/* Words that a reader might confuse with a word. */
uint64_t near_word(struct random *r, uint64_t word);

/* One word, rather one that is not zero, or two exchanged. */
void damage_words(struct random *r, uint64_t *words, size_t count);

#endif
