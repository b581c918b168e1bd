/* The calls of tree_editor.h over memory that is lent as a caller would, each with checks of what it left (trace.c says which). */
#ifndef DRIVER_CALLS_H
#define DRIVER_CALLS_H

#include <stdbool.h>
#include <stdint.h>
#include <stdio.h>
#include <stdlib.h>
#include <string.h>

#include "bytes.h"
#include "lent.h"
#include "tree_editor.h"

/* ---- what is lent ---- */

/* The five arrays, in the order of the parameters, and the bytes and elements that docs/STORE.md asks for. */
enum { PLENS, PATHS, TLENS, TREES, ORDER, ARRAYS };
static const size_t wide[ARRAYS] = {8, 1, 8, 1, 8};
static const size_t need[ARRAYS] = {TREE_EDITOR_SLOTS, TREE_EDITOR_PATHS, TREE_EDITOR_SLOTS, TREE_EDITOR_TREES, TREE_EDITOR_SLOTS};

static tree_editor ed;
static struct lent array[ARRAYS];
static size_t count[ARRAYS]; /* elements that are lent */
static bool made;            /* whether an editor was made since the last `trace` */
static bool holds;           /* what tree_editor_holds said after the last call */

/* The record as it was before the call; `kept` where the arrays are as they were before it. */
static tree_editor ed_before;
static bool kept;

/* Inputs and outputs of calls. */
static struct lent raw, prefix, path, id, ids, ends, raws;
static struct lent out, out_path, out_lens, out_id, out_next;
static uint32_t mode;
static struct bytes table_ids, table_ends, table_raws;
static bool roomy, probing;

static size_t extra(void)
{
    return roomy ? 7 : 0;
}

/* Record and arrays with other bytes for each trace, that hold no editor. */
static void forget(void)
{
    static uint64_t seed = 0x9e3779b97f4a7c15;
    for (int k = 0; k < ARRAYS; k++) {
        count[k] = need[k] + extra();
        uint8_t *at = lend(&array[k], count[k] * wide[k]);
        for (size_t n = 0; n < array[k].len; n++) {
            seed ^= seed << 13, seed ^= seed >> 7, seed ^= seed << 17;
            at[n] = (uint8_t)(seed >> 32);
        }
    }
    memcpy(&ed, array[TREES].at, sizeof ed);
    ed.open |= 1 << 20;
    made = kept = false;
}

static void lend_table(void)
{
    lend_bytes(&ids, table_ids.at, table_ids.len);
    lend_bytes(&ends, table_ends.at, table_ends.len);
    lend_bytes(&raws, table_raws.at, table_raws.len);
}

static void add_object(const uint8_t *object, const uint8_t *bytes, size_t len)
{
    append(&table_ids, object, TREE_EDITOR_ID);
    append(&table_raws, bytes, len);
    uint32_t end = (uint32_t)table_raws.len;
    append(&table_ends, &end, sizeof end);
}

/* ---- calls ---- */

/* Lengths and outputs of lengths have 64 bits. */
typedef uint64_t length;

enum op { NEW, SET_ROOT, UPSERT, REMOVE, LEAF, CURSOR, GET, BEGIN, REQUEST, ANSWER, ONWARD, FAIL };

#define LENT(l) (l).at, (l).len
#define READ_TO LENT(out), LENT(out_path), (length *)(void *)out_lens.at, out_lens.len / sizeof(length)
#define ONE_ARRAY(k) (void *)array[k].at, count[k]
#define STORE ONE_ARRAY(PLENS), ONE_ARRAY(PATHS), ONE_ARRAY(TLENS), ONE_ARRAY(TREES), ONE_ARRAY(ORDER)
#define TABLE LENT(ids), (const uint32_t *)(const void *)ends.at, ends.len / sizeof(uint32_t), LENT(raws)

/* The call itself, with what is lent; `below` makes it a cursor's, at `prefix`, and else it is one from the root. */
static uint32_t call(enum op op, bool below)
{
    const uint8_t *from = below ? prefix.at : NULL;
    length from_len = below ? prefix.len : 0;
    switch (op) {
    case NEW: return tree_editor_new(&ed, STORE, LENT(raw));
    case SET_ROOT: return tree_editor_set_root(&ed, STORE, LENT(raw));
    case UPSERT: return tree_editor_upsert(&ed, STORE, TABLE, from, from_len, LENT(path), LENT(id), mode);
    case REMOVE: return tree_editor_remove(&ed, STORE, TABLE, from, from_len, LENT(path));
    case LEAF: return tree_editor_remove_leaf(&ed, STORE, TABLE, from, from_len, LENT(path));
    case CURSOR: return tree_editor_cursor_at(&ed, STORE, TABLE, LENT(path));
    case GET: return tree_editor_get(ed, STORE, from, from_len, LENT(path), LENT(out_id));
    case BEGIN: return below ? tree_editor_begin_at(&ed, STORE, from, from_len) : tree_editor_begin(&ed, STORE);
    case REQUEST: return tree_editor_request(ed, STORE, READ_TO);
    case ANSWER: return tree_editor_answer(&ed, STORE, LENT(id));
    case ONWARD: return tree_editor_answer_and_request(&ed, STORE, LENT(id), READ_TO, LENT(out_next));
    case FAIL: return tree_editor_fail(&ed, STORE);
    }
    abort();
}

static void keep(void)
{
    ed_before = ed;
    for (int k = 0; k < ARRAYS && !kept; k++)
        lent_keep(&array[k]);
    kept = true;
}

static void restore(void)
{
    ed = ed_before;
    for (int k = 0; k < ARRAYS; k++)
        lent_restore(&array[k]);
    kept = true;
}

/* Whether a byte of record or arrays is other than before the call; only those behind the needed elements, if `behind`. */
static bool changed(bool behind)
{
    bool other = !behind && memcmp(&ed, &ed_before, sizeof ed);
    for (int k = 0; k < ARRAYS; k++) {
        size_t from = behind ? need[k] * wide[k] : 0;
        other = other || !lent_same(&array[k], from) || !lent_margin(&array[k]);
    }
    return other;
}

static length length_given(int k)
{
    length len;
    memcpy(&len, out_lens.at + (size_t)k * sizeof len, sizeof len);
    return len;
}

/* Whether an output is as it was lent from `from` on, and its margin too. */
static bool untouched(const struct lent *l, size_t from)
{
    return lent_same(l, from) && lent_margin(l);
}

/* Whether outputs are as they were lent where the call may not have written: behind what it gave back, everywhere where it was refused. */
static bool outputs_kept(enum op op, uint32_t number)
{
    if (op == GET)
        return untouched(&out_id, number >= TREE_EDITOR_TREE ? TREE_EDITOR_ID : 0);
    if (op == ONWARD) {
        bool looked = number != TREE_EDITOR_BAD_ARGUMENT;
        if (!untouched(&out_next, looked))
            return false;
        number = looked ? out_next.at[0] : number;
    } else if (op != REQUEST) {
        return true;
    }
    bool done = number == TREE_EDITOR_DONE;
    if (done && (length_given(0) > out.len || length_given(1) > out_path.len))
        return false;
    return untouched(&out, done ? length_given(0) : 0) && untouched(&out_path, done ? length_given(1) : 0)
        && untouched(&out_lens, (done ? 2 : number == TREE_EDITOR_OUTPUT_SHORT ? 1 : 0) * sizeof(length));
}

/* A call that has to be refused with this number. */
static void refused(enum op op, bool below, uint32_t number, const char *why)
{
    uint32_t got = call(op, below);
    if (got != number || changed(false) || !outputs_kept(op, got))
        printf("PROBE %s: %u for %u\n", why, got, number);
    lend(&out_next, out_next.len);
}

/* The same call with something wrong in what is lent. */
static void probe(enum op op, bool below)
{
    static const char *const shorter[ARRAYS] = {"plens short", "paths short", "tlens short", "trees short", "order short"};
    for (int k = 0; k < ARRAYS; k++) {
        size_t all = count[k];
        count[k] = need[k] - 1;
        refused(op, below, TREE_EDITOR_STORE_DAMAGED, shorter[k]);
        count[k] = all;
    }
    if (op != NEW) {
        ed.names++, ed_before.names++;
        refused(op, below, TREE_EDITOR_STORE_DAMAGED, "count of names");
        ed.names--, ed_before.names--;
    }
    if (op == UPSERT) {
        uint32_t right = mode;
        mode = right ^ 0100;
        if (mode != TREE_EDITOR_BLOB && mode != TREE_EDITOR_EXEC)
            refused(op, below, TREE_EDITOR_BAD_ARGUMENT, "mode");
        mode = right + 0200000;
        refused(op, below, TREE_EDITOR_BAD_ARGUMENT, "mode");
        mode = right;
    }
    if (op == UPSERT || op == ANSWER || op == ONWARD) {
        id.len--;
        refused(op, below, TREE_EDITOR_BAD_ARGUMENT, "id short");
        id.len++, id.at--, id.len++;
        refused(op, below, TREE_EDITOR_BAD_ARGUMENT, "id long");
        id.len--, id.at++;
    }
    if (op == GET) {
        lend(&out_id, TREE_EDITOR_ID - 1);
        refused(op, below, TREE_EDITOR_BAD_ARGUMENT, "id output short");
        lend(&out_id, 0);
        refused(op, below, TREE_EDITOR_BAD_ARGUMENT, "no id output");
    }
    if (op == ONWARD) {
        lend(&out_next, 0);
        refused(op, below, TREE_EDITOR_BAD_ARGUMENT, "no number");
        lend(&out_next, 1 + extra());
    }
    if (op == REQUEST || op == ONWARD) {
        size_t right = out_lens.len;
        out_lens.len = sizeof(length);
        refused(op, below, TREE_EDITOR_BAD_ARGUMENT, "lens short");
        out_lens.len = right;
        right = out_path.len;
        out_path.len = TREE_EDITOR_PATH - 1;
        refused(op, below, TREE_EDITOR_BAD_ARGUMENT, "path short");
        out_path.len = right;
    }
}

/* A call with all checks. */
static uint32_t checked(enum op op, bool below)
{
    keep();
    lend(&out_id, TREE_EDITOR_ID + extra());
    lend(&out_next, 1 + extra());
    if (probing)
        probe(op, below);
    lend(&out_id, TREE_EDITOR_ID + extra());
    uint32_t number = call(op, below);
    bool stays = op == GET || op == REQUEST || number >= TREE_EDITOR_NO_ROOM;
    if (stays && changed(false))
        printf("CHANGED\n");
    kept = stays;
    if (changed(true) || !outputs_kept(op, number))
        printf("PAST\n");
    if (number > TREE_EDITOR_STORE_DAMAGED && (op != GET || number < TREE_EDITOR_TREE))
        printf("NUMBER\n");
    made = made || (op == NEW && number == TREE_EDITOR_DONE);
    holds = tree_editor_holds(ed, STORE);
    if (holds != made)
        printf(holds ? "HOLDS\n" : "DAMAGED\n");
    return number;
}

/* Reads the open request into so many bytes of output; or (ONWARD) answers it, and reads the next one. */
static uint32_t reading(enum op op, size_t room)
{
    lend(&out, room);
    lend(&out_path, TREE_EDITOR_PATH + extra());
    lend(&out_lens, (2 + extra()) * sizeof(length));
    return checked(op, false);
}

static uint32_t request(size_t room)
{
    return reading(REQUEST, room);
}
#endif
