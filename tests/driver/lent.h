/* Memory as a caller lends it: each buffer has exactly its bytes, with a page that nobody may touch right behind it or right before it, so a call
 * that reads or writes past that end stops the program; marked bytes on the other side; and a copy of what it held. With LEND_HEAP in the
 * environment each buffer is an allocation of its own instead, for a run under valgrind. */
#ifndef LENT_H
#define LENT_H

#include <stddef.h>
#include <stdint.h>
#include <stdio.h>
#include <stdlib.h>
#include <string.h>
#include <sys/mman.h>

enum { LENT_PAGE = 4096, LENT_MARGIN = 256, LENT_MARK = 0xc7 };

/* `len` bytes at `at`. */
struct lent {
    uint8_t *at, *base, *copy;
    size_t len, room;
};

static inline void *lent_memory(void *memory)
{
    if (!memory || memory == MAP_FAILED) {
        perror("memory to lend");
        exit(2);
    }
    return memory;
}

/* Makes room for at least so many bytes and their margin, twice as many as before; what stood there is gone. */
static inline void lent_grow(struct lent *l, size_t len)
{
    if (l->base)
        munmap(l->base - LENT_PAGE, l->room + 2 * LENT_PAGE);
    size_t most = len > 2 * l->room ? len : 2 * l->room;
    l->room = (most + LENT_MARGIN + LENT_PAGE - 1) / LENT_PAGE * LENT_PAGE;
    l->base = lent_memory(mmap(NULL, l->room + 2 * LENT_PAGE, PROT_NONE, MAP_PRIVATE | MAP_ANONYMOUS, -1, 0));
    l->base += LENT_PAGE;
    lent_memory(mprotect(l->base, l->room, PROT_READ | PROT_WRITE) ? NULL : l->base);
    l->copy = lent_memory(realloc(l->copy, l->room));
}

/* Places so many bytes, flush with the page behind them or with the one before them, and marks their margin. */
static inline void lent_place(struct lent *l, size_t len, int at_end)
{
    if (!l->base || len + LENT_MARGIN > l->room)
        lent_grow(l, len);
    l->at = at_end ? l->base + l->room - len : l->base;
    memset(at_end ? l->at - LENT_MARGIN : l->at + len, LENT_MARK, LENT_MARGIN);
}

/* The same as an allocation of exactly these bytes. */
static inline void lent_allocate(struct lent *l, size_t len)
{
    free(l->at);
    l->at = malloc(len);
    l->copy = lent_memory(realloc(l->copy, len + 1));
}

/* Lends these bytes, or, where none are given, so many marked ones. */
static inline uint8_t *lend_at(struct lent *l, const void *bytes, size_t len, int at_end)
{
    if (getenv("LEND_HEAP"))
        lent_allocate(l, len);
    else
        lent_place(l, len, at_end);
    l->len = len;
    if (len && bytes)
        memcpy(l->at, bytes, len);
    else if (len)
        memset(l->at, LENT_MARK, len);
    if (len)
        memcpy(l->copy, l->at, len);
    return l->at;
}

static inline uint8_t *lend(struct lent *l, size_t len)
{
    return lend_at(l, NULL, len, 1);
}

static inline void lend_bytes(struct lent *l, const void *bytes, size_t len)
{
    lend_at(l, bytes, len, 1);
}

/* Takes the bytes as they are now for what was lent. */
static inline void lent_keep(struct lent *l)
{
    memcpy(l->copy, l->at, l->len);
}

/* Puts back what was lent. */
static inline void lent_restore(struct lent *l)
{
    memcpy(l->at, l->copy, l->len);
}

/* Whether the bytes from `from` on are as they were lent. */
static inline int lent_same(const struct lent *l, size_t from)
{
    return from >= l->len || !memcmp(l->at + from, l->copy + from, l->len - from);
}

/* Whether the margin is still marked: its first byte is, and each is like the one before it. */
static inline int lent_margin(const struct lent *l)
{
    const uint8_t *margin = l->at == l->base ? l->at + l->len : l->at - LENT_MARGIN;
    return getenv("LEND_HEAP") || (margin[0] == LENT_MARK && !memcmp(margin, margin + 1, LENT_MARGIN - 1));
}
#endif
