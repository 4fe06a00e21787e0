/* See lent.h. */
#define _DEFAULT_SOURCE
#include "lent.h"

#include <stdio.h>
#include <stdlib.h>
#include <string.h>
#include <sys/mman.h>

enum { PAGE = 4096, GUARD = 0xa5 };

void lent_open(struct lent *lent, size_t most)
{
    size_t inner = (most + PAGE - 1) / PAGE * PAGE + PAGE;
    uint8_t *all = mmap(NULL, inner + 2 * PAGE, PROT_NONE, MAP_PRIVATE | MAP_ANONYMOUS, -1, 0);
    if (all == MAP_FAILED || mprotect(all + PAGE, inner, PROT_READ | PROT_WRITE)) {
        perror("mmap");
        exit(2);
    }
    lent->pages = all + PAGE;
    lent->page_bytes = inner;
    lent->data = lent->pages;
    lent->length = 0;
}

void lent_set(struct lent *lent, size_t length, int at_end)
{
    memset(lent->pages, GUARD, lent->page_bytes);
    lent->data = at_end ? lent->pages + lent->page_bytes - length : lent->pages;
    lent->length = length;
}

static void protect(struct lent *lent, int how)
{
    if (mprotect(lent->pages, lent->page_bytes, how)) {
        perror("mprotect");
        exit(2);
    }
}

void lent_lock(struct lent *lent)
{
    protect(lent, PROT_READ);
}

void lent_unlock(struct lent *lent)
{
    protect(lent, PROT_READ | PROT_WRITE);
}

static int all_guard(const uint8_t *from, const uint8_t *end)
{
    return from == end || (*from == GUARD && memcmp(from, from + 1, (size_t)(end - from) - 1) == 0);
}

int lent_guarded(const struct lent *lent)
{
    return all_guard(lent->pages, lent->data) && all_guard(lent->data + lent->length, lent->pages + lent->page_bytes);
}
