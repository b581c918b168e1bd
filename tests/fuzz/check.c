#include "check.h"

#include <stdlib.h>
#include <string.h>

/* A slip put in on purpose, to see that a run notices it (tests/fuzz/slips.sh); 0: none. */
#ifndef CHECK_SLIP
#define CHECK_SLIP 0
#endif

enum { ID = 20 };

typedef struct {
    const uint8_t *at;
    size_t len;
} run;

int check_order(const uint8_t *a, size_t n, int a_tree, const uint8_t *b, size_t m, int b_tree) {
    for (size_t i = 0;; i++) {
        int x = i < n ? a[i] : i == n && a_tree ? '/' : -1, y = i < m ? b[i] : i == m && b_tree ? '/' : -1;
        if (x != y) return x < y ? -1 : 1;
        if (x < 0) return 0;
    }
}

size_t check_read(const uint8_t *at, size_t len, check_entry *e) {
    if (len < 2 + ID || len < 2u + ID + at[1]) return 0;
    *e = (check_entry){at[0], at + 2, at + 2 + ID, at[1]};
    return 2u + ID + e->len;
}

static int by_name(const void *x, const void *y) {
    const check_entry *a = x, *b = y;
    int c = memcmp(a->name, b->name, a->len < b->len ? a->len : b->len);
    return c ? c : a->len < b->len ? -1 : a->len > b->len;
}

static int good_name(const check_entry *e) {
    return e->len >= 1 && e->len <= TREE_EDITOR_NAME && !memchr(e->name, '/', e->len) && !memchr(e->name, 0, e->len);
}

/* Names nonempty, without slash and NUL, all different, in Git's order. Sorts the entries by name. */
static int well_formed(check_entry *e, size_t n) {
    for (size_t i = 0; i < n; i++) {
        if (!good_name(&e[i])) return 0;
        if (i > 0 && check_order(e[i - 1].name, e[i - 1].len, e[i - 1].kind == 0, e[i].name, e[i].len, e[i].kind == 0) >= 0)
            return 0;
    }
    qsort(e, n, sizeof *e, by_name);
    for (size_t i = 1; i < n && CHECK_SLIP != 1; i++)
        if (by_name(&e[i - 1], &e[i]) == 0) return 0;
    return 1;
}

/* Adds the entries and name bytes of a tree's run; 0 where it isn't a well-formed tree. */
static int tree_counts(run t, size_t *entries, size_t *names) {
    static check_entry e[TREE_EDITOR_TREES / (2 + ID) + 1];
    size_t n = 0;
    for (size_t at = 0, step; at < t.len; at += step, n++) {
        step = check_read(t.at + at, t.len - at, &e[n]);
        if (step == 0 || e[n].kind > 4) return 0;
        *names += e[n].len;
    }
    *entries += n;
    return well_formed(e, n);
}

static int valid_path(run p) {
    size_t part = 0;
    if (p.len > TREE_EDITOR_PATH + (CHECK_SLIP == 2)) return 0;
    for (size_t i = 0; i <= p.len; i++) {
        if (i < p.len && p.at[i] != '/') {
            if (p.at[i] == 0) return 0;
            part++;
        } else {
            if (part == 0 || part > TREE_EDITOR_NAME) return 0;
            part = 0;
        }
    }
    return 1;
}

static int same(run a, run b) { return a.len == b.len && memcmp(a.at, b.at, a.len) == 0; }

/* Cuts the runs of the slots; 0 where the lengths do not sum to `used`, or pass the limit. */
static int cut(run *to, const uint64_t *lens, const uint8_t *data, size_t used, size_t limit) {
    size_t sum = 0;
    for (int k = 0; k < TREE_EDITOR_SLOTS; k++) {
        if (lens[k] > limit - sum) return 0;
        to[k] = (run){data + sum, lens[k]};
        sum += lens[k];
    }
    return sum == used;
}

/* Whether a path lies one component below another whose tree has a tree entry for it. */
static int lies_below(run child, run parent, run tree) {
    size_t front = parent.len ? parent.len + 1 : 0, step;
    if (child.len <= front || memcmp(child.at, parent.at, parent.len)) return 0;
    if (front && child.at[parent.len] != '/') return 0;
    check_entry e;
    for (size_t at = 0; at < tree.len && (step = check_read(tree.at + at, tree.len - at, &e)); at += step)
        if (e.kind == 0 && e.len == child.len - front && memcmp(e.name, child.at + front, e.len) == 0) return 1;
    return 0;
}

static int below_any(const run *paths, const run *trees, uint64_t k, const uint64_t *aside, size_t n) {
    for (size_t i = 0; i < n; i++)
        if (lies_below(paths[k], paths[aside[i]], trees[aside[i]])) return 1;
    return 0;
}

static int root_cached(const check_lent *s, const run *paths) {
    for (int k = 0; k < TREE_EDITOR_SLOTS; k++)
        if (!(s->ed.hidden >> k & 1) && paths[k].len == 0) return 1;
    return 0;
}

/* Takes a slot into the set of taken ones; 0 where it is none, free, or taken already. */
static int take(const check_lent *s, uint64_t *taken, uint64_t k) {
    if (k >= TREE_EDITOR_SLOTS || s->ed.free >> k & 1 || *taken >> k & 1) return 0;
    *taken |= 1ull << k;
    return 1;
}

/* Rule 7: an open write. */
static int write_holds(const check_lent *s, const run *paths, const run *trees) {
    const tree_editor *ed = &s->ed;
    uint64_t taken = 0;
    if (ed->open > 2 || ed->aside > TREE_EDITOR_SLOTS || ed->stacked > TREE_EDITOR_SLOTS) return 0;
    const uint64_t *aside = s->order, *stacked = s->order + TREE_EDITOR_SLOTS - ed->stacked;
    for (size_t i = 0; i < ed->aside; i++)
        if (!take(s, &taken, aside[i])) return 0;
    for (size_t i = 0; i < ed->stacked; i++)
        if (!take(s, &taken, stacked[i])) return 0;
    if (!take(s, &taken, ed->asked)) return 0;
    if (ed->hidden != (ed->free | taken) || (ed->aside == 0 && ed->stacked > 0)) return 0;
    uint64_t start = ed->aside ? aside[0] : ed->asked;
    for (size_t i = 1; i < ed->aside; i++)
        if (!below_any(paths, trees, aside[i], aside, CHECK_SLIP == 3 ? ed->aside : i)) return 0;
    if (ed->aside) {
        for (size_t i = 0; i < ed->stacked; i++)
            if (!below_any(paths, trees, stacked[i], aside, ed->aside)) return 0;
        if (!below_any(paths, trees, ed->asked, aside, ed->aside)) return 0;
    }
    if (ed->open == 1 && paths[start].len > 0) return 0;
    return paths[start].len == 0 || root_cached(s, paths);
}

int check_long_enough(const check_lent *s) {
    return s->plens_len >= TREE_EDITOR_SLOTS && s->paths_len >= TREE_EDITOR_PATHS && s->tlens_len >= TREE_EDITOR_SLOTS &&
           s->trees_len >= TREE_EDITOR_TREES && s->order_len >= TREE_EDITOR_SLOTS;
}

int check_holds(const check_lent *s) {
    run paths[TREE_EDITOR_SLOTS], trees[TREE_EDITOR_SLOTS];
    const tree_editor *ed = &s->ed;
    size_t entries = 0, names = 0;
    /* 1 */
    if (!check_long_enough(s) || !cut(paths, s->plens, s->paths, ed->paths, TREE_EDITOR_PATHS) ||
        !cut(trees, s->tlens, s->trees, ed->trees, TREE_EDITOR_TREES))
        return 0;
    for (int k = 0; k < TREE_EDITOR_SLOTS; k++) {
        /* 2, 3 */
        if (ed->free >> k & 1 && (paths[k].len || trees[k].len)) return 0;
        if (!tree_counts(trees[k], &entries, &names)) return 0;
        /* 5 */
        if (ed->free >> k & 1) continue;
        if (paths[k].len && !valid_path(paths[k])) return 0;
        for (int j = 0; j < k; j++)
            if (!(ed->free >> j & 1) && same(paths[j], paths[k])) return 0;
    }
    /* 4 */
    if (ed->entries != entries || ed->names != names || entries > TREE_EDITOR_ENTRIES || names > TREE_EDITOR_NAMES) return 0;
    /* 6, 7 */
    if (ed->open) return write_holds(s, paths, trees);
    return ed->hidden == ed->free && !ed->aside && !ed->stacked && (CHECK_SLIP == 4 || !ed->asked) && root_cached(s, paths);
}

/* The kind that a mode's text stands for, or -1. */
static int kind_of(const uint8_t *text, size_t len) {
    static const char *const modes[] = {"40000", "100644", "100755", "120000", "160000"};
    for (int k = 0; k < 5; k++)
        if (strlen(modes[k]) == len && memcmp(modes[k], text, len) == 0) return k;
    return -1;
}

int check_root(const uint8_t *raw, size_t len) {
    check_entry *e = malloc((len / 27 + 1) * sizeof *e);
    size_t n = 0, names = 0, at = 0;
    int number = 0;
    while (at < len && number == 0) {
        const uint8_t *space = memchr(raw + at, ' ', len - at);
        size_t name = space ? (size_t)(space - raw) + 1 : len;
        const uint8_t *nul = memchr(raw + name, 0, len - name);
        int kind = space ? kind_of(raw + at, name - 1 - at) : -1;
        if (kind < 0 || !nul || len - (size_t)(nul - raw) - 1 < ID) {
            number = 12;
            break;
        }
        e[n] = (check_entry){(uint8_t)kind, nul + 1, raw + name, (size_t)(nul - raw) - name};
        if (!good_name(&e[n])) number = 12;
        names += e[n++].len;
        at = (size_t)(nul - raw) + 1 + ID;
    }
    if (number == 0 && !well_formed(e, n)) number = 12;
    if (number == 0 && (n > TREE_EDITOR_ENTRIES || names > TREE_EDITOR_NAMES)) number = 5;
    free(e);
    return number;
}
