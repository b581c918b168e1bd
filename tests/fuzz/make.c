#include "make.h"
#include "check.h"

#include <stdio.h>
#include <stdlib.h>
#include <string.h>

static uint64_t state;

void make_seed(uint64_t seed) { state = seed * 0x9e3779b97f4a7c15 + 1; }

/* Splitmix. */
uint64_t make_word(void) {
    uint64_t z = state += 0x9e3779b97f4a7c15;
    z = (z ^ z >> 30) * 0xbf58476d1ce4e5b9;
    z = (z ^ z >> 27) * 0x94d049bb133111eb;
    return z ^ z >> 31;
}

size_t make_below(size_t n) { return (size_t)(make_word() % n); }
int make_once(size_t n) { return make_below(n) == 0; }

void make_id(uint8_t id[20]) {
    static const uint8_t empty[20] = {0x4b, 0x82, 0x5d, 0xc6, 0x42, 0xcb, 0x6e, 0xb9, 0xa0, 0x60,
                                      0xe5, 0x4b, 0xf8, 0xd6, 0x92, 0x88, 0xfb, 0xee, 0x49, 0x04};
    size_t which = make_below(10);
    if (which == 0)
        memset(id, 0, 20);
    else if (which == 1)
        memcpy(id, empty, 20);
    else
        memset(id, (int)which, 20);
    if (which == 9) id[19] = (uint8_t)make_word();
}

uint32_t make_mode(void) {
    static const uint32_t modes[] = {TREE_EDITOR_BLOB, TREE_EDITOR_TREE, TREE_EDITOR_EXEC, TREE_EDITOR_LINK, TREE_EDITOR_COMMIT};
    return modes[make_once(2) ? 0 : make_below(5)];
}

/* A name into `to`, which has room for 300 bytes; its length. */
static size_t put_name(uint8_t *to, style how) {
    static const char *const few[] = {"a",    "b",    "c",    "d",  "a.c", "a0", "a-", "z", "\xc3\xa9",
                                      "\xc3", "\x80", "\xff", "ab", "a.",  "p",  "q",  "s"};
    size_t n;
    if (how == SMALL || make_once(4)) {
        const char *name = few[make_below(make_once(2) ? 5 : sizeof few / sizeof few[0])];
        n = strlen(name);
        memcpy(to, name, n);
    } else if (how == MANY) {
        n = (size_t)sprintf((char *)to, "%04u", (unsigned)make_below(1200));
    } else {
        n = how == LONG ? 150 + make_below(106) : 60 + make_below(196);
        memset(to, 'k' + (int)make_below(how == LONG ? 3 : 2), n);
        to[n - 1] = (uint8_t)('0' + make_below(10));
        to[n - 2] = (uint8_t)('0' + make_below(10));
    }
    if (make_once(150)) n = 254 + make_below(3), memset(to, 'n', n);
    return n;
}

static bytes copy(const uint8_t *from, size_t n) {
    bytes b = {malloc(n ? n : 1), n};
    if (n) memcpy(b.at, from, n);
    return b;
}

/* A path of a length near the limit. */
static size_t put_long(uint8_t *to) {
    size_t want = 1022 + make_below(5), n = 0;
    while (n < want) {
        if (n) to[n++] = '/';
        size_t part = want - n < 255 ? want - n : 100 + make_below(156);
        if (part > want - n) part = want - n;
        memset(to + n, 'l', part);
        n += part;
    }
    return n;
}

bytes make_path(style how) {
    uint8_t to[4096];
    size_t n = 0, parts = make_once(40) ? 0 : 1 + make_below(how == DEEP ? 5 : make_once(3) ? 4 : 2);
    if (make_once(120)) return copy(to, put_long(to));
    for (size_t i = 0; i < parts; i++) {
        if (i) to[n++] = '/';
        if (!make_once(60)) n += put_name(to + n, how);
    }
    if (make_once(60)) to[n++] = '/';
    if (n && make_once(100)) to[make_below(n)] = 0;
    return copy(to, n);
}

typedef struct {
    uint8_t mode, len, id[20], name[255];
} entry;

static int by_key(const void *x, const void *y) {
    const entry *a = x, *b = y;
    return check_order(a->name, a->len, a->mode == 0, b->name, b->len, b->mode == 0);
}

static int by_name(const void *x, const void *y) {
    const entry *a = x, *b = y;
    return check_order(a->name, a->len, 0, b->name, b->len, 0);
}

/* Different names in Git's order; how many. */
static size_t put_entries(entry *e, size_t n, style how) {
    uint8_t name[300];
    for (size_t i = 0; i < n; i++) {
        size_t len;
        do len = how == MANY && n > 100 ? (size_t)sprintf((char *)name, "%04u", (unsigned)i) : put_name(name, how);
        while (len > 255);
        e[i].len = (uint8_t)len;
        memcpy(e[i].name, name, len);
        e[i].mode = make_once(3) ? 0 : (uint8_t)(1 + make_below(4));
        make_id(e[i].id);
    }
    qsort(e, n, sizeof *e, by_name);
    size_t kept = 0;
    for (size_t i = 0; i < n; i++) {
        if (i > 0 && !by_name(&e[kept - 1], &e[i])) continue;
        if (kept < i) e[kept] = e[i];
        kept++;
    }
    qsort(e, kept, sizeof *e, by_key);
    return kept;
}

/* How many entries a tree of this style is to have. */
static size_t count(style how) {
    if (how == MANY && make_once(3)) return make_once(6) ? 1015 + make_below(12) : 900 + make_below(100);
    if (how == LONG && make_once(3)) return 70 + make_below(50);
    return make_below(how == SMALL ? 7 : 30);
}

bytes make_raw(style how) {
    static const char *const modes[] = {"40000 ", "100644 ", "100755 ", "120000 ", "160000 "};
    size_t most = count(how);
    entry *e = malloc((most + 1) * sizeof *e);
    size_t n = put_entries(e, most, how), len = 0;
    uint8_t *to = malloc(n * 283 + 1);
    if (n > 1 && make_once(25)) {
        entry swapped = e[0];
        e[0] = e[n - 1], e[n - 1] = swapped;
    }
    for (size_t i = 0; i < n; i++) {
        size_t m = strlen(modes[e[i].mode]);
        memcpy(to + len, modes[e[i].mode], m);
        memcpy(to + len + m, e[i].name, e[i].len);
        to[len + m + e[i].len] = 0;
        memcpy(to + len + m + e[i].len + 1, e[i].id, 20);
        len += m + e[i].len + 21u;
    }
    free(e);
    if (len && make_once(12)) to[make_below(len)] ^= (uint8_t)(1 << make_below(8));
    if (len && make_once(25)) len -= 1 + make_below(len < 30 ? len : 30);
    bytes raw = copy(to, len);
    free(to);
    return raw;
}

table make_table(style how) {
    size_t n = make_below(12);
    table t = {{malloc(20 * n + 20), 0}, {malloc(1), 0}, malloc((n + 1) * sizeof(uint32_t)), n};
    for (size_t i = 0; i < n; i++) {
        bytes raw = make_raw(make_once(3) ? how : SMALL);
        if (raw.len && make_once(5)) raw.at[make_below(raw.len < 12 ? raw.len : 12)] ^= 16;
        t.raws.at = realloc(t.raws.at, t.raws.len + raw.len + 1);
        memcpy(t.raws.at + t.raws.len, raw.at, raw.len);
        t.raws.len += raw.len;
        t.ends[i] = (uint32_t)t.raws.len;
        make_id(t.ids.at + t.ids.len);
        t.ids.len += 20;
        free(raw.at);
    }
    if (make_once(12)) switch (make_below(4)) {
        case 0:
            t.ids.len = make_below(20 * n + 20);
            memset(t.ids.at, 9, t.ids.len);
            break;
        case 1:
            if (n) t.ends[make_below(n)] = (uint32_t)make_word();
            break;
        case 2:
            if (n) t.ends[n - 1] = (uint32_t)t.raws.len + 1;
            break;
        default:
            if (n > 1) t.ends[0] = t.ends[n - 1] + 1;
            break;
        }
    return t;
}

void make_free_table(table *t) {
    free(t->ids.at);
    free(t->raws.at);
    free(t->ends);
}
