// Makes a store and makes one call on it: store.sh counts its instructions.
#include "tree_editor.h"

#include <stdbool.h>
#include <stdio.h>
#include <stdlib.h>
#include <string.h>

enum { NAME = 16, ENTRY = 2 + TREE_EDITOR_ID + NAME };

static tree_editor_store s;
static tree_editor ed;

// The name with the number n: twelve of its sixteen bytes are the same in all.
static void put_name(uint8_t *to, int n) {
    char text[NAME + 1];
    snprintf(text, sizeof text, "nnnnnnnnnnnn%04d", n);
    memcpy(to, text, NAME);
}

// The next slot: a tree of files with the numbers from a to b; the first slot is the root.
static void add_tree(int slot, int a, int b) {
    if (slot > 0) {
        char path[4];
        snprintf(path, sizeof path, "d%02d", slot);
        memcpy(s.paths + ed.paths, path, 3);
        s.plens[slot] = 3;
        ed.paths += 3;
    }
    for (int n = a; n < b; n++) {
        uint8_t *e = s.trees + ed.trees;
        e[0] = 1;
        e[1] = NAME;
        memset(e + 2, 17, TREE_EDITOR_ID);
        put_name(e + 2 + TREE_EDITOR_ID, n);
        ed.trees += ENTRY;
        ed.entries += 1;
        ed.names += NAME;
    }
    s.tlens[slot] = (uint64_t)(b - a) * ENTRY;
    ed.free &= ~(1ull << slot);
}

static bool holds(void) { return tree_editor_holds(ed, TREE_EDITOR_LENT(&s)) == 1; }

static void need(bool b, const char *what) {
    if (!b) {
        fprintf(stderr, "%s\n", what);
        exit(1);
    }
}

// `full`, `one`: the check of a full store, 64 trees or one. `insert`, `insert-one`: an upsert that fills it, at the front of its first tree, after
// the same store without that entry was checked.
int main(int argc, char **argv) {
    if (argc < 2) return 2;
    const char *what = argv[1];
    bool one = !strcmp(what, "one") || !strcmp(what, "insert-one"), insert = !strncmp(what, "insert", 6);
    ed.free = ~0ull;
    add_tree(0, 1, one ? 1025 - insert : 17 - insert);
    for (int k = 1; !one && k < TREE_EDITOR_SLOTS; k++) add_tree(k, 1, 17);
    ed.hidden = ed.free;
    need(ed.entries == (uint64_t)(1024 - insert), "the store is not full");
    need(holds(), "the store does not hold an editor");
    if (!insert) return 0;
    uint8_t id[TREE_EDITOR_ID], name[NAME];
    uint64_t trees = ed.trees;
    memset(id, 9, sizeof id);
    put_name(name, 0);
    need(tree_editor_upsert(&ed, TREE_EDITOR_LENT(&s), TREE_EDITOR_NO_TABLE, TREE_EDITOR_ROOT, name, NAME, id, sizeof id, TREE_EDITOR_BLOB) ==
             TREE_EDITOR_DONE,
         "the upsert is refused");
    need(ed.trees == trees + ENTRY && !memcmp(s.trees + 2 + TREE_EDITOR_ID, name, NAME), "the entry is not at the front");
    if (argc > 2) need(holds(), "the store does not hold an editor after the insertion");
    return 0;
}
