/* A lesson's files as Git trees: a new editor, upserts, a cursor, a lookup, and the write, request by request.
 * Nothing here uses the heap: record, store and output are static. */
#include "example.h"

static tree_editor ed;
static tree_editor_store store;
static uint8_t out[TREE_EDITOR_OUTPUT], at[TREE_EDITOR_PATH];

static const struct {
    const char *path, *text;
    uint32_t mode;
} files[] = {
    {"README", "Lesson 9: semihosting\n", TREE_EDITOR_BLOB},
    {"src/main.c", "int main(void) { return 0; }\n", TREE_EDITOR_BLOB},
    {"src/board/led.c", "void led(int on) { (void)on; }\n", TREE_EDITOR_BLOB},
    {"src.mk", "SRC = src\n", TREE_EDITOR_BLOB},
    {"flash.sh", "#!/bin/sh\n", TREE_EDITOR_EXEC},
    {"notes/\xc3\xa9tude.txt", "fini\n", TREE_EDITOR_BLOB}, /* "étude.txt" in UTF-8: ten bytes */
};

/* Writes everything: each requested tree is hashed (an adapter would also send it), and its id is the answer, which reads the next request. */
static void write_trees(void) {
    uint8_t id[TREE_EDITOR_ID];
    uint8_t next;
    uint64_t lens[2];
    need(tree_editor_begin(&ed, TREE_EDITOR_LENT(&store)), "begin");
    next = tree_editor_request(ed, TREE_EDITOR_LENT(&store), out, sizeof out, at, sizeof at, lens, 2);
    while (next == TREE_EDITOR_DONE) {
        git_id(id, "tree", out, lens[0]);
        print_tree(at, lens, id);
        if (tree_editor_answer_and_request(&ed, TREE_EDITOR_LENT(&store), id, sizeof id, out, sizeof out, at, sizeof at, lens, 2, &next, 1) !=
            TREE_EDITOR_DONE)
            exit(1);
    }
    if (ed.open) exit(1);
}

int main(void) {
    uint8_t id[TREE_EDITOR_ID];
    need(tree_editor_new(&ed, TREE_EDITOR_LENT(&store), NULL, 0), "new");
    /* This lesson starts from nothing, so there is no object to list in a table. */
    for (size_t i = 0; i < sizeof files / sizeof files[0]; i++) {
        git_id(id, "blob", files[i].text, strlen(files[i].text));
        need(tree_editor_upsert(&ed, TREE_EDITOR_LENT(&store), TREE_EDITOR_NO_TABLE, TREE_EDITOR_ROOT, BYTES(files[i].path), id, sizeof id,
                                files[i].mode),
             files[i].path);
    }
    /* A cursor: its path is lent as the prefix. */
    need(tree_editor_cursor_at(&ed, TREE_EDITOR_LENT(&store), TREE_EDITOR_NO_TABLE, BYTES("src/board")), "cursor at src/board");
    git_id(id, "blob", "#pragma once\n", 13);
    need(tree_editor_upsert(&ed, TREE_EDITOR_LENT(&store), TREE_EDITOR_NO_TABLE, BYTES("src/board"), BYTES("led.h"), id, sizeof id,
                            TREE_EDITOR_BLOB),
         "led.h");

    printf("get notes/\xc3\xa9tude.txt: %o ",
           tree_editor_get(ed, TREE_EDITOR_LENT(&store), TREE_EDITOR_ROOT, BYTES("notes/\xc3\xa9tude.txt"), id, sizeof id));
    print_id(id);
    printf("get absent: %o\n", tree_editor_get(ed, TREE_EDITOR_LENT(&store), TREE_EDITOR_ROOT, BYTES("absent"), id, sizeof id));
    printf("upsert src//x: %u\n", tree_editor_upsert(&ed, TREE_EDITOR_LENT(&store), TREE_EDITOR_NO_TABLE, TREE_EDITOR_ROOT, BYTES("src//x"),
                                                     id, sizeof id, TREE_EDITOR_BLOB));
    write_trees();
    return 0;
}
