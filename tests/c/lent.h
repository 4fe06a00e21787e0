/* Buffers to lend to a function that may not be built with sanitizers. Behind and before the pages of a buffer stand pages that cannot
   be touched; the buffer stands at the end or at the beginning of its pages, and the rest of them holds guard bytes. */
#ifndef LENT_H
#define LENT_H

#include <stddef.h>
#include <stdint.h>

struct lent {
    uint8_t *pages;
    size_t page_bytes;
    uint8_t *data;
    size_t length; /* in bytes */
};

/* Takes pages for at most so many bytes. */
void lent_open(struct lent *lent, size_t most);

/* Makes it a buffer of so many bytes: at the end of its pages, or at their beginning. */
void lent_set(struct lent *lent, size_t length, int at_end);

/* From here on its pages can be read only, or be written again. */
void lent_lock(struct lent *lent);
void lent_unlock(struct lent *lent);

/* Whether all guard bytes are as they were. */
int lent_guarded(const struct lent *lent);

#endif
