/* What docs/STORE.md and docs/RULES.md say of stores and raw trees, written from those pages and not from the library's code. */
#ifndef CHECK_H
#define CHECK_H

#include "tree_editor.h"

/* A record and five arrays as they are lent to a call. */
typedef struct {
    tree_editor ed;
    const uint64_t *plens;
    size_t plens_len;
    const uint8_t *paths;
    size_t paths_len;
    const uint64_t *tlens;
    size_t tlens_len;
    const uint8_t *trees;
    size_t trees_len;
    const uint64_t *order;
    size_t order_len;
} check_lent;

/* One entry of a tree in compact form: a byte of kind, a byte of length, the id, the name. */
typedef struct {
    uint8_t kind;
    const uint8_t *id, *name;
    size_t len;
} check_entry;

/* Whether the arrays are long enough. */
int check_long_enough(const check_lent *s);
/* Whether record and arrays hold an editor. */
int check_holds(const check_lent *s);
/* Reads the entry at the front of a run; its bytes, or 0 where there is none. */
size_t check_read(const uint8_t *run, size_t len, check_entry *e);
/* The answer of `new` to a raw tree: 0, 5 or 12. */
int check_root(const uint8_t *raw, size_t len);
/* Unsigned bytes, a tree compared as if a slash followed its name. */
int check_order(const uint8_t *a, size_t n, int a_tree, const uint8_t *b, size_t m, int b_tree);

#endif
