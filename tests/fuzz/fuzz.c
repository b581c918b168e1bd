/* Random calls of the C functions over good and damaged stores, in memory that shows every touch beside a lent buffer (lent.h).
 *
 *   fuzz SEED COUNT FOLDER [STORES]
 *
 * makes COUNT calls or a few more. Calls on stores that other calls left are written to FOLDER/calls in the form of
 * tests/oracle/PROTOCOL.md, and what was answered to FOLDER/answers, for comparison with the original; after each of them a damaged
 * copy of the store is lent to another call, whose number is compared with the check in check.c. STORES are stores made by
 * `tests/stores/stores.py make`, lent as they are and damaged. Some of the damaged and made stores that still hold an editor go to
 * FOLDER/held with their calls and answers, for tests/fuzz/held.py. Numbers by call go to FOLDER/counts. For every call: nothing beside
 * a buffer is touched; no lent byte changes with a number from 5 on; bytes behind an array's front never change; what is left
 * holds an editor. Status 1 with the first thing that isn't so. */
#define _DEFAULT_SOURCE
#include "check.h"
#include "lent.h"
#include "make.h"
#include "stack.h"

#include <signal.h>
#include <stdio.h>
#include <stdlib.h>
#include <string.h>
#include <unistd.h>

enum { EXTRA = 16, MODE = 040000 };

typedef enum { NEW, SET_ROOT, UPSERT, REMOVE, REMOVE_LEAF, CURSOR_AT, GET, BEGIN, BEGIN_AT, REQUEST, ANSWER, ONWARD, FAIL, HOLDS, OPS } op;
static const char *const names[OPS] = {"new",   "set_root", "upsert",  "remove", "remove_leaf",        "cursor_at", "get",
                                       "begin", "begin_at", "request", "answer", "answer_and_request", "fail",      "holds"};

/* A record and five arrays with room for more than their fronts, and how much of them is lent. */
typedef struct {
    tree_editor ed;
    uint64_t plens[TREE_EDITOR_SLOTS + EXTRA], tlens[TREE_EDITOR_SLOTS + EXTRA], order[TREE_EDITOR_SLOTS + EXTRA];
    uint8_t paths[TREE_EDITOR_PATHS + EXTRA], trees[TREE_EDITOR_TREES + EXTRA];
    size_t plens_len, paths_len, tlens_len, trees_len, order_len;
} image;

/* `from_root`: the prefix has no bytes, and the call is written down as the editor's own and not as a cursor's. */
typedef struct {
    op op;
    int from_root;
    bytes prefix, path, raw;
    uint8_t id[40];
    size_t id_len, out_len, at_len, lens_len, next_len;
    uint32_t mode;
} call;

/* What is lent to the call at hand. `given`: the bytes, or a null pointer for none. */
typedef struct {
    struct lent mem;
    uint8_t *given;
} area;
static struct { area ed, plens, paths, tlens, trees, order, ids, ends, raws, prefix, path, id, raw, out, at, lens, next; } lent;

/* Numbers by kind of store and call: up to 13 by themselves, then BAD_ARGUMENT, and lookups that find an entry. */
enum { COUNT_BAD = TREE_EDITOR_STORE_DAMAGED + 1, COUNT_FOUND, COUNTS };
static uint64_t seed, calls, counts[3][OPS][COUNTS];
static size_t deepest[OPS];
static op current;
static FILE *to_calls, *to_answers, *held, *held_calls, *held_answers;

static void differs(const char *what) {
    fflush(NULL);
    fprintf(stderr, "seed %llu, call %llu, tree_editor_%s: %s\n", (unsigned long long)seed, (unsigned long long)calls,
            names[current], what);
    _exit(1);
}

static void on_fault(int signal) {
    (void)signal;
    differs("touched memory beside a lent buffer, or ended otherwise");
}

static int reads(op o) { return o == GET || o == REQUEST || o == HOLDS; }
/* Edits and the lookup: their prefix may have no bytes. */
static int has_prefix(op o) { return o == UPSERT || o == REMOVE || o == REMOVE_LEAF || o == GET; }

/* ---- one call, with all that is to be so of any call ---- */

static check_lent as_lent(const image *im) {
    return (check_lent){im->ed,        im->plens, im->plens_len, im->paths, im->paths_len, im->tlens,
                        im->tlens_len, im->trees, im->trees_len, im->order, im->order_len};
}

/* Lends an area, at one of its two ends; no bytes may also be a null pointer. */
static void hand(area *a, const void *from, size_t n) {
    a->given = lend_at(&a->mem, from, n, !make_once(4));
    if (n == 0 && make_once(4)) a->given = NULL;
}

static int same(const area *a, size_t from) { return lent_same(&a->mem, from); }

static void lend_all(const image *im, const call *c, const table *t) {
    hand(&lent.ed, &im->ed, sizeof im->ed);
    hand(&lent.plens, im->plens, im->plens_len * 8);
    hand(&lent.paths, im->paths, im->paths_len);
    hand(&lent.tlens, im->tlens, im->tlens_len * 8);
    hand(&lent.trees, im->trees, im->trees_len);
    hand(&lent.order, im->order, im->order_len * 8);
    hand(&lent.ids, t->ids.at, t->ids.len);
    hand(&lent.ends, t->ends, t->count * 4);
    hand(&lent.raws, t->raws.at, t->raws.len);
    hand(&lent.prefix, c->prefix.at, c->prefix.len);
    hand(&lent.path, c->path.at, c->path.len);
    hand(&lent.id, c->id, c->id_len);
    hand(&lent.raw, c->raw.at, c->raw.len);
    hand(&lent.out, NULL, c->out_len);
    hand(&lent.at, NULL, c->at_len);
    hand(&lent.lens, NULL, c->lens_len * sizeof(uint64_t));
    hand(&lent.next, NULL, c->next_len);
}

#define EDIT (tree_editor *)(void *)lent.ed.given, STORE
#define WORDS(a) (uint64_t *)(void *)lent.a.given, im->a##_len
#define STORE WORDS(plens), lent.paths.given, im->paths_len, WORDS(tlens), lent.trees.given, im->trees_len, WORDS(order)
#define TABLE LENT(ids), (uint32_t *)(void *)lent.ends.given, t->count, LENT(raws)
#define LENT(a) lent.a.given, lent.a.mem.len
#define READ_TO LENT(out), LENT(at), (uint64_t *)(void *)lent.lens.given, c->lens_len

/* The lengths that a reading gave, and the second number of an answer. */
static const uint64_t *lengths(void) { return (const uint64_t *)(const void *)lent.lens.mem.at; }
static uint8_t second(void) { return lent.next.mem.at[0]; }

static __attribute__((noinline)) uint32_t make_call(const image *im, const call *c, const table *t) {
    stack_from(__builtin_frame_address(0));
    switch (c->op) {
    case NEW: return tree_editor_new(EDIT, LENT(raw));
    case SET_ROOT: return tree_editor_set_root(EDIT, LENT(raw));
    case UPSERT: return tree_editor_upsert(EDIT, TABLE, LENT(prefix), LENT(path), LENT(id), c->mode);
    case REMOVE: return tree_editor_remove(EDIT, TABLE, LENT(prefix), LENT(path));
    case REMOVE_LEAF: return tree_editor_remove_leaf(EDIT, TABLE, LENT(prefix), LENT(path));
    case CURSOR_AT: return tree_editor_cursor_at(EDIT, TABLE, LENT(path));
    case GET: return tree_editor_get(im->ed, STORE, LENT(prefix), LENT(path), LENT(id));
    case BEGIN: return tree_editor_begin(EDIT);
    case BEGIN_AT: return tree_editor_begin_at(EDIT, LENT(prefix));
    case REQUEST: return tree_editor_request(im->ed, STORE, READ_TO);
    case ANSWER: return tree_editor_answer(EDIT, LENT(id));
    case ONWARD: return tree_editor_answer_and_request(EDIT, LENT(id), READ_TO, LENT(next));
    case FAIL: return tree_editor_fail(EDIT);
    default: return tree_editor_holds(im->ed, STORE);
    }
}

/* The call on a stack of its own, for the most that any takes: -DMEASURE_STACK=1. */
#ifndef MEASURE_STACK
#define MEASURE_STACK 0
#endif
static struct {
    const image *im;
    const call *c;
    const table *t;
    uint32_t said;
} on_stack;
static void call_on_stack(void) { on_stack.said = make_call(on_stack.im, on_stack.c, on_stack.t); }

static uint32_t measured_call(const image *im, const call *c, const table *t) {
    if (!MEASURE_STACK) return make_call(im, c, t);
    on_stack.im = im, on_stack.c = c, on_stack.t = t;
    size_t used = stack_of(call_on_stack);
    if (used > deepest[c->op]) deepest[c->op] = used;
    return on_stack.said;
}

static int known_mode(uint32_t m) {
    return m == TREE_EDITOR_TREE || m == TREE_EDITOR_BLOB || m == TREE_EDITOR_EXEC || m == TREE_EDITOR_LINK ||
           m == TREE_EDITOR_COMMIT;
}

/* Whether the header names the arguments as bad: BAD_ARGUMENT then comes before all else. */
static int bad_arguments(const call *c) {
    if (c->op == UPSERT && !known_mode(c->mode)) return 1;
    if ((c->op == UPSERT || c->op == ANSWER || c->op == ONWARD) && c->id_len != TREE_EDITOR_ID) return 1;
    if (c->op == GET && c->id_len < TREE_EDITOR_ID) return 1;
    if ((c->op == REQUEST || c->op == ONWARD) && (c->lens_len < 2 || c->at_len < TREE_EDITOR_PATH)) return 1;
    return c->op == ONWARD && c->next_len < 1;
}

/* The number that the call has to give by the check alone; -1: another than 13 and BAD_ARGUMENT. */
static int foretold(const check_lent *s, const call *c) {
    if (bad_arguments(c)) return TREE_EDITOR_BAD_ARGUMENT;
    if (c->op == NEW) return check_long_enough(s) ? check_root(c->raw.at, c->raw.len) : 13;
    if (c->op == HOLDS) return check_holds(s);
    return check_holds(s) ? -1 : 13;
}

static int store_same(void) {
    return same(&lent.ed, 0) && same(&lent.plens, 0) && same(&lent.paths, 0) && same(&lent.tlens, 0) &&
           same(&lent.trees, 0) && same(&lent.order, 0);
}

static int behind_same(void) {
    return same(&lent.plens, 8 * TREE_EDITOR_SLOTS) && same(&lent.paths, TREE_EDITOR_PATHS) &&
           same(&lent.tlens, 8 * TREE_EDITOR_SLOTS) && same(&lent.trees, TREE_EDITOR_TREES) &&
           same(&lent.order, 8 * TREE_EDITOR_SLOTS);
}

static int inputs_same(const call *c) {
    int output = c->op == GET;
    return same(&lent.ids, 0) && same(&lent.ends, 0) && same(&lent.raws, 0) && same(&lent.prefix, 0) &&
           same(&lent.path, 0) && same(&lent.raw, 0) && (output || same(&lent.id, 0));
}

static int outputs_same(const call *c, uint32_t said) {
    int looked = c->op == ONWARD && said != TREE_EDITOR_BAD_ARGUMENT;
    if (c->op == GET) return same(&lent.id, said >= MODE ? TREE_EDITOR_ID : 0);
    if (!same(&lent.next, looked)) return 0;
    if (looked) said = second(); /* what was read after the answer */
    if ((c->op != REQUEST && c->op != ONWARD) || (said != 0 && said != 11))
        return same(&lent.out, 0) && same(&lent.at, 0) && same(&lent.lens, 0);
    if (!same(&lent.lens, (said == 11 ? 1 : 2) * sizeof(uint64_t))) return 0;
    if (said == 11) return lengths()[0] > c->out_len && same(&lent.out, 0) && same(&lent.at, 0);
    return lengths()[0] <= c->out_len && lengths()[1] <= TREE_EDITOR_PATH && same(&lent.out, lengths()[0]) && same(&lent.at, lengths()[1]);
}

/* Whether the second number goes with the first: what reads the request after an answer is refused as the answer is, or finds a request or
 * none as the record says. */
static int next_goes(const call *c, uint32_t said, const tree_editor *after) {
    if (c->op != ONWARD || said == TREE_EDITOR_BAD_ARGUMENT) return 1;
    return said ? second() == said : after->open ? second() == 0 || second() == 11 : second() == 10;
}

static int margins(void) {
    const area *all = (const area *)&lent;
    for (size_t i = 0; i < sizeof lent / sizeof *all; i++)
        if (!lent_margin(&all[i].mem)) return 0;
    return 1;
}

static void take_back(image *im) {
    memcpy(&im->ed, lent.ed.mem.at, sizeof im->ed);
    memcpy(im->plens, lent.plens.mem.at, im->plens_len * 8);
    memcpy(im->paths, lent.paths.mem.at, im->paths_len);
    memcpy(im->tlens, lent.tlens.mem.at, im->tlens_len * 8);
    memcpy(im->trees, lent.trees.mem.at, im->trees_len);
    memcpy(im->order, lent.order.mem.at, im->order_len * 8);
}

/* Makes the call, checks it, and leaves in the image what it left. `kind`: 0 good store, 1 damaged, 2 made. */
static uint32_t perform(int kind, image *im, const call *c, const table *t) {
    check_lent before = as_lent(im);
    int want = foretold(&before, c);
    lend_all(im, c, t);
    current = c->op;
    calls++;
    uint32_t said = measured_call(im, c, t);
    int refused = said >= 5 && said < MODE;
    if (said > TREE_EDITOR_STORE_DAMAGED && said != TREE_EDITOR_BAD_ARGUMENT && (c->op != GET || said < MODE)) differs("gives no number");
    counts[kind][c->op][said >= MODE ? COUNT_FOUND : said == TREE_EDITOR_BAD_ARGUMENT ? COUNT_BAD : said]++;
    if (want >= 0 ? said != (uint32_t)want : said == 13 || said == TREE_EDITOR_BAD_ARGUMENT) {
        char text[80];
        sprintf(text, "gives %u where the check says %d", said, want);
        differs(text);
    }
    if (!margins()) differs("wrote beside a lent buffer");
    if (!inputs_same(c)) differs("changed what it may only read");
    if (!outputs_same(c, said)) differs("changed more of its outputs than it may");
    if ((refused || reads(c->op)) && !store_same()) differs("changed a lent byte though it refused or only reads");
    if (!next_goes(c, said, (const tree_editor *)(const void *)lent.ed.mem.at)) differs("gives a second number that cannot be");
    if (!behind_same()) differs("changed bytes behind an array's front");
    if (c->op < BEGIN && !same(&lent.order, 0)) differs("changed the order, which it may only read");
    if (!refused && !reads(c->op)) {
        take_back(im);
        check_lent after = as_lent(im);
        if (!check_holds(&after)) differs("left a store that holds no editor");
    }
    return said;
}

/* ---- random calls ---- */

static int used(const image *im, size_t k) { return !(im->ed.free >> k & 1); }

/* The path in a slot of a good store, or the path of one of its entries. */
static bytes cached_path(const image *im, int of_entry) {
    size_t k = make_below(TREE_EDITOR_SLOTS), p = 0, t = 0;
    while (!used(im, k)) k = (k + 1) % TREE_EDITOR_SLOTS;
    for (size_t i = 0; i < k; i++) p += im->plens[i], t += im->tlens[i];
    bytes b = {malloc(im->plens[k] + 257), im->plens[k]};
    memcpy(b.at, im->paths + p, b.len);
    check_entry e;
    if (!of_entry || im->tlens[k] == 0) return b;
    size_t skip = make_below(8), step;
    for (size_t at = 0; at < im->tlens[k]; at += step) {
        step = check_read(im->trees + t + at, im->tlens[k] - at, &e);
        if (skip-- == 0 || at + step >= im->tlens[k]) break;
    }
    if (b.len) b.at[b.len++] = '/';
    memcpy(b.at + b.len, e.name, e.len);
    b.len += e.len;
    return b;
}

static op random_op(int open) {
    static const uint8_t weights[2][OPS] = {{1, 3, 40, 12, 9, 9, 15, 5, 5, 1, 1, 1, 1, 2}, {1, 1, 3, 2, 2, 1, 3, 1, 1, 15, 20, 25, 3, 2}};
    size_t sum = 0;
    for (int i = 0; i < OPS; i++) sum += weights[open][i];
    size_t at = make_below(sum);
    for (int i = 0;; i++) {
        if (at < weights[open][i]) return (op)i;
        at -= weights[open][i];
    }
}

/* A call that suits the store; `good`: the store holds an editor. */
static call random_call(const image *im, int good, style how) {
    call c = {.op = random_op(good && im->ed.open),
              .id_len = 20,
              .out_len = TREE_EDITOR_OUTPUT,
              .at_len = TREE_EDITOR_PATH,
              .lens_len = 2,
              .next_len = 1,
              .mode = make_mode()};
    if (make_once(4)) c.at_len += make_below(EXTRA), c.lens_len += make_below(3), c.next_len += make_below(3);
    c.raw = c.op <= SET_ROOT ? make_raw(how) : (bytes){malloc(1), 0};
    c.path = good && make_once(3) ? cached_path(im, 1) : make_path(how);
    c.prefix = good && !make_once(6) ? cached_path(im, 0) : make_path(SMALL);
    if (has_prefix(c.op) && !make_once(3)) c.prefix.len = 0;
    c.from_root = c.prefix.len == 0 && !make_once(4);
    make_id(c.id);
    if ((c.op == REQUEST || c.op == ONWARD) && make_once(2)) c.out_len = make_once(2) ? make_below(40) : make_below(TREE_EDITOR_OUTPUT);
    return c;
}

/* Arguments that only the C functions can be given. */
static void spoil(call *c) {
    switch (make_below(6)) {
    case 0: c->mode = make_once(2) ? (uint32_t)make_word() : make_mode() ^ 1u << make_below(32); break;
    case 1: c->id_len = make_below(40); break;
    case 2: c->lens_len = make_below(4); break;
    case 3: c->at_len = make_once(2) ? TREE_EDITOR_PATH - 1 : make_below(TREE_EDITOR_PATH); break;
    case 4: c->next_len = 0; break;
    default: c->id_len = 19 + make_below(3); break;
    }
}

static void drop(call *c) {
    free(c->raw.at);
    free(c->path.at);
    free(c->prefix.at);
}

/* ---- damage ---- */

static void fill(void *to, size_t n) {
    uint8_t *p = to;
    for (size_t i = 0; i < n; i++) p[i] = (uint8_t)(make_word() >> 13);
}

static void lengthen(image *im) {
    im->plens_len = im->tlens_len = im->order_len = TREE_EDITOR_SLOTS;
    im->paths_len = TREE_EDITOR_PATHS;
    im->trees_len = TREE_EDITOR_TREES;
    if (!make_once(3)) return;
    im->plens_len += make_below(EXTRA), im->tlens_len += make_below(EXTRA), im->order_len += make_below(EXTRA);
    im->paths_len += make_below(EXTRA), im->trees_len += make_below(EXTRA);
}

static void damage_word(uint64_t *w, uint64_t other) {
    switch (make_below(6)) {
    case 0: *w ^= 1ull << make_below(64); break;
    case 1: *w += 1; break;
    case 2: *w -= 1; break;
    case 3: *w = other; break;
    case 4: *w = make_below(70); break;
    default: *w = make_word(); break;
    }
}

/* One damage, at a place that matters more often than not. */
static void damage(image *im) {
    uint64_t *fields = (uint64_t *)(void *)&im->ed;
    size_t k = make_below(TREE_EDITOR_SLOTS), j = make_below(TREE_EDITOR_SLOTS);
    size_t tree = im->ed.trees && im->ed.trees <= TREE_EDITOR_TREES && !make_once(8) ? make_below(im->ed.trees)
                                                                                     : make_below(TREE_EDITOR_TREES);
    size_t path = im->ed.paths && im->ed.paths <= TREE_EDITOR_PATHS && !make_once(8) ? make_below(im->ed.paths)
                                                                                     : make_below(TREE_EDITOR_PATHS);
    uint64_t *lens = make_once(2) ? im->plens : im->tlens;
    switch (make_below(11)) {
    case 0: im->trees[tree] ^= (uint8_t)(1 << make_below(8)); break;
    case 1: im->trees[tree] = im->trees[make_below(TREE_EDITOR_TREES)]; break;
    case 2: im->paths[path] ^= (uint8_t)(1 << make_below(8)); break;
    case 3: im->paths[path] = make_once(2) ? '/' : (uint8_t)make_word(); break;
    case 4: damage_word(&fields[make_below(10)], fields[make_below(10)]); break;
    case 5: damage_word(&lens[k], lens[j]); break;
    case 6: lens[k] += 1, lens[j] -= 1; break;
    case 7: damage_word(&im->order[im->ed.open && make_once(2) ? make_below(4) : k], j); break;
    case 8: fields[make_below(6) + 4] = make_below(5); break;
    case 9: {
        size_t most = im->ed.open && im->ed.aside > 1 && im->ed.aside < TREE_EDITOR_SLOTS ? im->ed.aside : TREE_EDITOR_SLOTS;
        uint64_t *x = &im->order[make_below(most)], *y = &im->order[make_below(most)], word = *x;
        *x = *y, *y = word;
        break;
    }
    default: {
        size_t *all[] = {&im->plens_len, &im->paths_len, &im->tlens_len, &im->trees_len, &im->order_len};
        size_t *one = all[make_below(5)];
        if (*one) *one = make_once(2) ? *one - 1 : make_below(*one);
    }
    }
}

/* ---- calls on good stores, with their lines ---- */

static char line[1 << 22];
static size_t used_of_line;

static void put(const char *text) {
    size_t n = strlen(text);
    memcpy(line + used_of_line, text, n + 1);
    used_of_line += n;
}

static void put_hex(const uint8_t *b, size_t n) {
    static const char digits[] = "0123456789abcdef";
    if (n == 0) put("-");
    for (size_t i = 0; i < n; i++) line[used_of_line++] = digits[b[i] >> 4], line[used_of_line++] = digits[b[i] & 15];
    line[used_of_line] = 0;
}

static void put_number(const char *form, unsigned n) {
    char text[40];
    sprintf(text, form, n);
    put(text);
}

/* The call in the protocol's form. */
static void put_call(const call *c) {
    static const char *const words[OPS] = {"new ",    "setroot ", "upsert ", "remove ", "leaf ",   "cursor ", "get ",
                                           "begin .", "begin ",   "read ",   "answer ", "answer ", "fail",    ""};
    used_of_line = 0;
    put(words[c->op]);
    if (has_prefix(c->op) && c->from_root) put(".");
    else if (has_prefix(c->op) || c->op == BEGIN_AT) put_hex(c->prefix.at, c->prefix.len);
    if (has_prefix(c->op)) put(" ");
    if (has_prefix(c->op) || c->op == CURSOR_AT) put_hex(c->path.at, c->path.len);
    if (c->op == UPSERT) put_number(" %o ", c->mode);
    if (c->op == UPSERT || c->op == ANSWER || c->op == ONWARD) put_hex(c->id, TREE_EDITOR_ID);
    if (c->op <= SET_ROOT) put_hex(c->raw.at, c->raw.len);
    if (c->op == REQUEST) put_number("%u", (unsigned)c->out_len);
    fprintf(to_calls, "%s\n", line);
}

static void put_request(void) {
    put_hex(lent.at.mem.at, lengths()[1]);
    put(" ");
    put_hex(lent.out.mem.at, lengths()[0]);
}

/* Whether the caller's view of an answered request is the one read: the call `request` with all the room it may need. */
static void read_request(image *im, const table *t) {
    call c = {.op = REQUEST, .out_len = TREE_EDITOR_OUTPUT, .at_len = TREE_EDITOR_PATH, .lens_len = 2};
    if (perform(0, im, &c, t) != 0) differs("does not give the open request");
    put(" request ");
    put_request();
}

/* What the call that answered read, or, where its output was too short, what `request` reads with the length that it said is needed. */
static void read_onward(image *im, const table *t) {
    uint64_t needed = lengths()[0];
    if (second() == 0) {
        put(" request ");
        put_request();
        return;
    }
    read_request(im, t);
    if (lengths()[0] != needed) differs("has another length than an answer said is needed");
}

static void say_answer(image *im, const call *c, uint32_t said, const table *t) {
    put(" => ");
    if (c->op == GET) {
        if (said == 0)
            put("none");
        else if (said < MODE)
            put_number("%u", said);
        else
            put_number("0 %o ", said), put_hex(lent.id.mem.at, TREE_EDITOR_ID);
    } else {
        put_number("%u", said);
        if (c->op == REQUEST && said == 0) put(" "), put_request();
        if (c->op == REQUEST && said == 11) put_number(" %u", (unsigned)lengths()[0]);
        if ((c->op == BEGIN || c->op == BEGIN_AT || c->op == ANSWER || c->op == ONWARD) && said == 0) {
            if (im->ed.open)
                c->op == ONWARD ? read_onward(im, t) : read_request(im, t);
            else
                put(" done "), put_hex(c->id, 20);
        }
    }
    fprintf(to_answers, "%s\n", line);
}

typedef struct {
    const uint8_t *path, *tree;
    size_t plen, tlen;
} slot;

static int by_path(const void *x, const void *y) {
    const slot *a = x, *b = y;
    return check_order(a->path, a->plen, 0, b->path, b->plen, 0);
}

static void show_tree(const slot *s) {
    static const unsigned modes[] = {TREE_EDITOR_TREE, TREE_EDITOR_BLOB, TREE_EDITOR_EXEC, TREE_EDITOR_LINK, TREE_EDITOR_COMMIT};
    check_entry e;
    size_t n = 0, step;
    for (size_t at = 0; at < s->tlen; at += check_read(s->tree + at, s->tlen - at, &e)) n++;
    used_of_line = 0;
    put("  tree ");
    put_hex(s->path, s->plen);
    put_number(" %u\n", (unsigned)n);
    for (size_t at = 0; at < s->tlen; at += step) {
        step = check_read(s->tree + at, s->tlen - at, &e);
        put_number("   %o ", modes[e.kind]);
        put_hex(e.name, e.len);
        put(" ");
        put_hex(e.id, 20);
        put("\n");
    }
    fputs(line, to_answers);
}

/* All cached trees; with a write open, those that a failure reported now would leave. */
static void show(const image *good, const table *t) {
    static image im;
    slot slots[TREE_EDITOR_SLOTS];
    size_t n = 0, p = 0, r = 0;
    im = *good;
    call c = {.op = FAIL};
    if (good->ed.open && perform(0, &im, &c, t) != 0) differs("refuses to fail an open write");
    for (size_t k = 0; k < TREE_EDITOR_SLOTS; p += im.plens[k], r += im.tlens[k], k++)
        if (used(&im, k)) slots[n++] = (slot){im.paths + p, im.trees + r, im.plens[k], im.tlens[k]};
    qsort(slots, n, sizeof *slots, by_path);
    fprintf(to_calls, "show\n");
    fprintf(to_answers, "show\n %s trees=%zu entries=%zu names=%zu paths=%zu\n", good->ed.open ? "if-fail" : "state", n,
            (size_t)im.ed.entries, (size_t)im.ed.names, (size_t)im.ed.paths);
    for (size_t k = 0; k < n; k++) show_tree(&slots[k]);
}

static void say_table(const table *t) {
    used_of_line = 0;
    put("table ");
    put_hex(t->ids.at, t->ids.len);
    put(t->count ? " " : " -");
    for (size_t i = 0; i < t->count; i++) put_number(i ? ",%u" : "%u", t->ends[i]);
    put(" ");
    put_hex(t->raws.at, t->raws.len);
    fprintf(to_calls, "%s\n", line);
}

/* A store that holds an editor, by its fronts, in the form of tests/stores/stores.py. */
static void keep_held(const image *im) {
    static const uint32_t lens[] = {TREE_EDITOR_SLOTS, TREE_EDITOR_PATHS, TREE_EDITOR_SLOTS, TREE_EDITOR_TREES,
                                    TREE_EDITOR_SLOTS};
    fwrite(lens, sizeof lens, 1, held);
    fwrite(&im->ed, sizeof im->ed, 1, held);
    fwrite(im->plens, 8, TREE_EDITOR_SLOTS, held);
    fwrite(im->paths, 1, TREE_EDITOR_PATHS, held);
    fwrite(im->tlens, 8, TREE_EDITOR_SLOTS, held);
    fwrite(im->trees, 1, TREE_EDITOR_TREES, held);
    fwrite(im->order, 8, TREE_EDITOR_SLOTS, held);
}

/* A call on a store that holds an editor though no call may ever have left it so: written down with its answer and the state
 * after it. */
static void call_held(int kind, image *im, const call *c, const table *t) {
    FILE *calls_before = to_calls, *answers_before = to_answers;
    to_calls = held_calls, to_answers = held_answers;
    keep_held(im);
    fprintf(to_calls, "store\n");
    fprintf(to_answers, "store\n");
    say_table(t);
    put_call(c);
    uint32_t said = perform(kind, im, c, t);
    say_answer(im, c, said, t);
    show(im, t);
    to_calls = calls_before, to_answers = answers_before;
}

static void lend_damaged(const image *good, const table *t, style how, int made) {
    static image im;
    im = *good;
    check_lent s = as_lent(good);
    call c = random_call(good, check_holds(&s), how);
    if (!made) lengthen(&im);
    size_t times = make_once(8) || (made && make_once(2)) ? 0 : make_once(4) ? 2 : 1;
    if (make_once(200)) fill(&im, offsetof(image, plens_len));
    while (times-- > 0) damage(&im);
    int plain = 1;
    if (make_once(3))
        c.op = HOLDS;
    else if (make_once(10))
        spoil(&c), plain = 0;
    s = as_lent(&im);
    if (plain && c.op != HOLDS && c.op != NEW && make_once(made ? 4 : 16) && check_holds(&s))
        call_held(made ? 2 : 1, &im, &c, t);
    else
        perform(made ? 2 : 1, &im, &c, t);
    drop(&c);
}

/* A trace: calls on one store from junk or `new` on, each followed by one on a damaged copy. In some, many cursors are opened
 * first, to come near the limits. */
static void trace(size_t number, style how, size_t length, const image *made, size_t made_count) {
    static image im;
    table t = {{malloc(1), 0}, {malloc(1), 0}, malloc(4), 0};
    fill(&im, offsetof(image, plens_len));
    lengthen(&im);
    fprintf(to_calls, "trace %zu\n", number);
    fprintf(to_answers, "trace %zu\n", number);
    int made_once = 0;
    size_t fill_up = how == SMALL || make_once(2) ? 0 : how == MANY ? 70 : 10;
    for (size_t step = 0; step < length + fill_up; step++) {
        lengthen(&im);
        if (make_once(step < 2 ? 2 : 25)) {
            make_free_table(&t);
            t = make_table(how);
            say_table(&t);
        }
        call c = random_call(&im, made_once, how);
        if (!made_once && !make_once(8))
            c.op = NEW, free(c.raw.at), c.raw = make_raw(how);
        else if (step < fill_up && !make_once(8))
            c.op = CURSOR_AT, free(c.path.at), c.path = make_path(how);
        if (c.op == HOLDS) {
            perform(0, &im, &c, &t);
        } else {
            put_call(&c);
            uint32_t said = perform(0, &im, &c, &t);
            if (c.op == NEW && said == 0) made_once = 1;
            say_answer(&im, &c, said, &t);
            if (c.op == GET) c.id_len = make_below(TREE_EDITOR_ID), perform(0, &im, &c, &t); /* less room for the id */
        }
        drop(&c);
        if (made_once && make_once(12)) show(&im, &t);
        lend_damaged(&im, &t, how, 0);
        if (made_count && make_once(3)) lend_damaged(&made[make_below(made_count)], &t, how, 1);
    }
    if (made_once) show(&im, &t);
    make_free_table(&t);
}

/* ---- stores made by tests/stores/stores.py ---- */

static void take(FILE *f, void *to, size_t n) {
    if (fread(to, 1, n, f) != n) exit(2);
}

static image *read_stores(const char *name, size_t *count) {
    FILE *f = fopen(name, "rb");
    uint32_t lens[5];
    image *all = NULL;
    *count = 0;
    if (!f) exit(2);
    while (fread(lens, 4, 5, f) == 5) {
        all = realloc(all, (*count + 1) * sizeof *all);
        image *im = memset(&all[*count], 0, sizeof *all);
        im->plens_len = lens[0], im->paths_len = lens[1], im->tlens_len = lens[2], im->trees_len = lens[3],
        im->order_len = lens[4];
        int fits = lens[0] <= TREE_EDITOR_SLOTS + EXTRA && lens[1] <= TREE_EDITOR_PATHS + EXTRA &&
                   lens[2] <= TREE_EDITOR_SLOTS + EXTRA && lens[3] <= TREE_EDITOR_TREES + EXTRA &&
                   lens[4] <= TREE_EDITOR_SLOTS + EXTRA;
        take(f, &im->ed, sizeof im->ed);
        if (fits) {
            take(f, im->plens, 8 * lens[0]), take(f, im->paths, lens[1]), take(f, im->tlens, 8 * lens[2]),
                take(f, im->trees, lens[3]), take(f, im->order, 8 * lens[4]);
            ++*count;
        } else {
            fseek(f, (long)(8 * lens[0] + lens[1] + 8 * lens[2] + lens[3] + 8 * lens[4]), SEEK_CUR);
        }
    }
    fclose(f);
    return all;
}

static FILE *opened(const char *folder, const char *name, const char *how) {
    char path[4096];
    snprintf(path, sizeof path, "%s/%s", folder, name);
    FILE *f = fopen(path, how);
    if (!f) {
        perror(path);
        exit(2);
    }
    return f;
}

int main(int argc, char **argv) {
    if (argc < 4) {
        fprintf(stderr, "fuzz SEED COUNT FOLDER [STORES]\n");
        return 2;
    }
    seed = strtoull(argv[1], NULL, 10);
    uint64_t count = strtoull(argv[2], NULL, 10);
    to_calls = opened(argv[3], "calls", "w");
    to_answers = opened(argv[3], "answers", "w");
    held = opened(argv[3], "held", "w");
    held_calls = opened(argv[3], "held-calls", "w");
    held_answers = opened(argv[3], "held-answers", "w");
    size_t made_count = 0;
    image *made = argc > 4 ? read_stores(argv[4], &made_count) : NULL;
    signal(SIGSEGV, on_fault);
    signal(SIGBUS, on_fault);
    signal(SIGILL, on_fault);
    make_seed(seed);
    for (size_t n = 1; calls < count; n++)
        trace(n, make_once(2) ? (style)make_below(STYLES) : SMALL, 10 + make_below(60), made, made_count);
    free(made);
    FILE *to = opened(argv[3], "counts", "a");
    static const char *const kinds[] = {"good", "damaged", "made"};
    for (int k = 0; k < 3; k++)
        for (int o = 0; o < OPS; o++)
            for (int n = 0; n < COUNTS; n++)
                if (counts[k][o][n]) {
                    fprintf(to, n == COUNT_FOUND ? "%s %s found" : "%s %s %d", kinds[k], names[o], n == COUNT_BAD ? TREE_EDITOR_BAD_ARGUMENT : n);
                    fprintf(to, " %llu\n", (unsigned long long)counts[k][o][n]);
                }
    for (int o = 0; o < OPS && MEASURE_STACK; o++) fprintf(to, "stack %s bytes %zu\n", names[o], deepest[o]);
    return fclose(to) || fclose(to_calls) || fclose(to_answers) || fclose(held) || fclose(held_calls) || fclose(held_answers) ? 2
                                                                                                                              : 0;
}
