/* What the examples share: texts as bytes, and what they print. */
#ifndef EXAMPLE_H
#define EXAMPLE_H

#include "sha1.h"
#include "tree_editor.h"

#include <stdio.h>
#include <stdlib.h>
#include <string.h>

#define BYTES(text) (const uint8_t *)(text), strlen(text)

static void need(uint8_t number, const char *what) {
    printf("%s: %u\n", what, number);
    if (number != TREE_EDITOR_DONE) exit(1);
}

static void print_id(const uint8_t *id) {
    for (int i = 0; i < TREE_EDITOR_ID; i++) printf("%02x", id[i]);
    printf("\n");
}

/* The line of a requested tree: its path, its length and its id. */
static void print_tree(const uint8_t *path, const uint64_t lens[2], const uint8_t *id) {
    printf("tree '%.*s', %u bytes: ", (int)lens[1], (const char *)path, (unsigned)lens[0]);
    print_id(id);
}

#endif
