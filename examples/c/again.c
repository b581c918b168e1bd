/* Two hand-ins, one after the other: the trees that the first write gave are kept, and lent as the table to the edits before the second.
 * After a write only the root is cached, so without that table the second hand-in could not go into its folder.
 * Nothing here uses the heap: what is kept has room for the trees of two hand-ins. */
#include "example.h"

static tree_editor ed;
static tree_editor_store store;
static uint8_t out[TREE_EDITOR_OUTPUT], at[TREE_EDITOR_PATH];

enum { TREES = 8, RAWS = 1024 };

/* The trees that were written, in the form of a table: their ids, where each ends, and their bytes. */
static uint8_t ids[TREES * TREE_EDITOR_ID], raws[RAWS];
static uint32_t ends[TREES];
static size_t kept;

#define KEPT ids, kept * TREE_EDITOR_ID, ends, kept, raws, kept ? ends[kept - 1] : 0

static void keep(const uint8_t *id, const uint8_t *raw, uint64_t len) {
    uint32_t end = kept ? ends[kept - 1] : 0;
    if (kept == TREES || len > RAWS - end) exit(1);
    memcpy(ids + kept * TREE_EDITOR_ID, id, TREE_EDITOR_ID);
    memcpy(raws + end, raw, len);
    ends[kept++] = end + (uint32_t)len;
}

static void write_trees(void) {
    uint8_t id[TREE_EDITOR_ID];
    uint64_t lens[2];
    need(tree_editor_begin(&ed, TREE_EDITOR_LENT(&store)), "begin");
    while (ed.open) {
        if (tree_editor_request(ed, TREE_EDITOR_LENT(&store), out, sizeof out, at, sizeof at, lens, 2) != TREE_EDITOR_DONE) exit(1);
        git_id(id, "tree", out, lens[0]);
        print_tree(at, lens, id);
        keep(id, out, lens[0]);
        if (tree_editor_answer(&ed, TREE_EDITOR_LENT(&store), id, sizeof id) != TREE_EDITOR_DONE) exit(1);
    }
}

/* Puts a text at a path below a prefix; the number that the upsert gives. The table is the trees that were kept. */
#define PUT(prefix, path, text)                                                                                            \
    (git_id(blob, "blob", text, strlen(text)),                                                                             \
     tree_editor_upsert(&ed, TREE_EDITOR_LENT(&store), KEPT, prefix, BYTES(path), blob, sizeof blob, TREE_EDITOR_BLOB))

static void look(const char *path) {
    uint8_t id[TREE_EDITOR_ID];
    uint32_t found = tree_editor_get(ed, TREE_EDITOR_LENT(&store), TREE_EDITOR_ROOT, BYTES(path), id, sizeof id);
    printf("get %s: %o%s", path, found, found >= TREE_EDITOR_TREE ? " " : "\n");
    if (found >= TREE_EDITOR_TREE) print_id(id);
}

int main(void) {
    uint8_t blob[TREE_EDITOR_ID];
    need(tree_editor_new(&ed, TREE_EDITOR_LENT(&store), NULL, 0), "new");
    need(PUT(TREE_EDITOR_ROOT, "hand-in/one.c", "int one;\n"), "hand-in/one.c");
    need(PUT(TREE_EDITOR_ROOT, "tests/one.txt", "1\n"), "tests/one.txt");
    write_trees();

    /* Only the root is cached now: the folder's entry has the id that was answered, and what lies in it is not seen. */
    look("hand-in");
    look("hand-in/one.c");
    printf("hand-in/two.c without the table: %u\n",
           tree_editor_upsert(&ed, TREE_EDITOR_LENT(&store), TREE_EDITOR_NO_TABLE, TREE_EDITOR_ROOT, BYTES("hand-in/two.c"), blob, sizeof blob,
                              TREE_EDITOR_BLOB));
    need(PUT(TREE_EDITOR_ROOT, "hand-in/two.c", "int two;\n"), "hand-in/two.c with it");
    /* The edit has loaded the folder. Its own id stays the old one until the next write. */
    look("hand-in/one.c");
    look("hand-in");
    /* A cursor opened on the folder now stands in what was loaded; opened before, it would have started the folder empty. */
    need(tree_editor_cursor_at(&ed, TREE_EDITOR_LENT(&store), KEPT, BYTES("hand-in")), "cursor at hand-in");
    need(PUT(BYTES("hand-in"), "one.c", "int one = 1;\n"), "one.c");
    write_trees();
    look("hand-in");
    return 0;
}
