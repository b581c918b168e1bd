// Makes a store, or a raw tree, of names of one sort and makes one call on it: names.sh counts its instructions. The folder of names is as full as
// the name room and the number of entries allow.
//   names check SORT    tree_editor_holds on a store whose root is that folder; `none` is an empty root
//   names load SORT     tree_editor_new with that folder as a raw tree, which it judges and packs
//   names entries SORT  prints how many names there are
#include "tree_editor.h"

#include <stdbool.h>
#include <stdio.h>
#include <string.h>

enum { ID = TREE_EDITOR_ID, SHARED = 190 };

static tree_editor_store s;
static tree_editor ed;
static uint8_t raw[TREE_EDITOR_OUTPUT];
static size_t raw_len;

// The name with the number n, of its sort; its length, or 0 where there is no such sort.
static size_t name_of(const char *sort, int n, char to[256]) {
    if (!strcmp(sort, "6")) return (size_t)snprintf(to, 256, "a%05d", n);
    if (!strcmp(sort, "12")) return (size_t)snprintf(to, 256, "exerci%04d.c", n);
    if (!strcmp(sort, "16")) return (size_t)snprintf(to, 256, "exercise-%05d.c", n);
    if (!strcmp(sort, "28")) return (size_t)snprintf(to, 256, "exercise-09-semihosting-%04d", n);
    if (!strcmp(sort, "200")) {
        for (int k = 0; k < SHARED; k++) to[k] = (char)('a' + k % 26);
        return SHARED + (size_t)snprintf(to + SHARED, 256 - SHARED, "%010d", n);
    }
    return 0;
}

// A file of that name, behind the others of the root, and behind the others of the raw tree.
static void add(const char *name, size_t len) {
    uint8_t *e = s.trees + ed.trees;
    e[0] = 1;
    e[1] = (uint8_t)len;
    memset(e + 2, 7, ID);
    memcpy(e + 2 + ID, name, len);
    ed.trees += 2 + ID + len;
    ed.entries += 1;
    ed.names += len;
    memcpy(raw + raw_len, "100644 ", 7);
    memcpy(raw + raw_len + 7, name, len);
    raw[raw_len + 7 + len] = 0;
    memset(raw + raw_len + 8 + len, 7, ID);
    raw_len += 8 + len + ID;
}

int main(int argc, char **argv) {
    if (argc < 3) return 2;
    char name[256];
    size_t len = name_of(argv[2], 0, name);
    ed.free = ~1ull;
    ed.hidden = ed.free;
    for (int n = 0; len > 0 && ed.entries < TREE_EDITOR_ENTRIES && ed.names + len <= TREE_EDITOR_NAMES; n++) {
        name_of(argv[2], n, name);
        add(name, len);
    }
    s.tlens[0] = ed.trees;
    if (!strcmp(argv[1], "entries")) return printf("%d\n", (int)ed.entries) < 0;
    if (!strcmp(argv[1], "check")) return tree_editor_holds(ed, TREE_EDITOR_LENT(&s)) == 1 ? 0 : 1;
    if (!strcmp(argv[1], "load")) return tree_editor_new(&ed, TREE_EDITOR_LENT(&s), raw, raw_len) == TREE_EDITOR_DONE ? 0 : 1;
    return 2;
}
