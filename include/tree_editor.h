/* A Git tree editor in lent memory, without heap: the port of gix-object's tree editor, for the adapter.
 *
 * An editor is a small record and five arrays that the caller lends to each call. Nothing is kept anywhere else, so calls may be
 * as far apart as the caller likes, and record and arrays may be moved together between two calls. A call looks only at the front of
 * an array that is longer than docs/STORE.md says, and leaves the rest as it is; where one is shorter, it gives
 * TREE_EDITOR_STORE_DAMAGED. No call asks anything of what record and arrays hold. No array that a call may change overlaps another
 * that is lent to it, or the record. An array of no elements may have any pointer.
 *
 * Every function but tree_editor_holds gives a number that says what it did (tree_editor_mend with others beside it); crates/adapter proves what each does, and docs/RULES.md says it
 * in words.
 *
 * Names and paths are bytes: compared as unsigned bytes, counted as bytes, never taken for text.
 *
 * Lengths are uint64_t on every machine, not size_t: the proofs speak of 64-bit lengths, and with these they hold on a 32-bit core too, where
 * a size_t is shorter.
 *
 * What surprises a caller
 *
 * - tree_editor_new starts over: it asks nothing of record and arrays, and forgets an editor that they hold, even one with an open write.
 * - 13 does not only mean damage: it is also the answer where an array is too short, and where no editor has been made yet.
 * - A path of no bytes names nothing: an edit with it does nothing and gives 0, a lookup finds nothing, and a cursor opened there stands at the
 *   root.
 * - A slash at the end is an empty component: an upsert of `a/` gives 1, and the tree `a` that it made or loaded on its way stays, as after every
 *   number from 1 to 4.
 * - Opening a cursor is an edit. Where no tree is cached at its path, the folder starts empty there and its id is forgotten, even if the
 *   table lists it: the write then leaves out what the folder held. To keep that, make an edit below the folder first, which loads it.
 * - A lookup sees cached trees only: what lies in a folder that no edit has gone into yet is not found. It gives a folder's old id, whatever
 *   was changed below it (the null id for a new one), until the write answers for the folder.
 * - Entries with the null id vanish when their tree is written, and so do trees that have no entry left; only the tree that the write starts
 *   from is requested even when it is empty. An upsert with the null id thus lasts until the write.
 * - A removed folder's tree stays cached: a later upsert below its path brings back what it held.
 * - After a write from the root only the root is cached. The next edit below a folder looks up the id that was answered for it, so the trees
 *   that were just written have to be in the table, or it gives 2 (examples/c/again.c). After a write from a cursor its tree stays cached, and so
 *   does what the write did not visit. */
#ifndef TREE_EDITOR_H
#define TREE_EDITOR_H

#include <stddef.h>
#include <stdint.h>

enum {
    TREE_EDITOR_SLOTS = 64,     /* words of plens, of tlens and of order; at most so many trees are cached */
    TREE_EDITOR_PATHS = 8192,   /* bytes of paths */
    TREE_EDITOR_TREES = 38912,  /* bytes of trees */
    TREE_EDITOR_ENTRIES = 1024, /* entries over all cached trees */
    TREE_EDITOR_NAMES = 16384,  /* name bytes over all entries */
    TREE_EDITOR_NAME = 255,     /* bytes of a name */
    TREE_EDITOR_PATH = 1024,    /* bytes of a path with its cursor's prefix */
    TREE_EDITOR_ID = 20,        /* bytes of an id */
    TREE_EDITOR_OUTPUT = 45056  /* bytes of output that every request fits in */
};

/* The numbers that calls give back. From 5 on, no lent byte and no field of the record has changed, but for the length that goes with 11 and
 * the second number of tree_editor_answer_and_request. */
enum {
    TREE_EDITOR_DONE = 0,
    TREE_EDITOR_EMPTY_COMPONENT = 1, /* the walk reached an empty component; earlier steps stay */
    TREE_EDITOR_TREE_NOT_FOUND = 2,  /* an id that was looked up isn't in the table; earlier steps stay */
    TREE_EDITOR_TREE_DAMAGED = 3,    /* the tree that was found isn't well formed; earlier steps stay */
    TREE_EDITOR_NOT_A_LEAF = 4,      /* a leaf removal ended at a tree; loaded trees stay */
    TREE_EDITOR_NO_ROOM = 5,         /* a limit would be passed */
    TREE_EDITOR_PATH_REFUSED = 6,    /* NUL, a component over 255 bytes, or over 1,024 bytes in all */
    TREE_EDITOR_BAD_TABLE = 7,       /* ids not 20 bytes per end offset, offsets falling or past the end */
    TREE_EDITOR_CURSOR_STALE = 8,    /* no tree is cached at the prefix */
    TREE_EDITOR_WRITE_OPEN = 9,      /* a write is open, and this call is none of its own */
    TREE_EDITOR_NO_WRITE_OPEN = 10,  /* a write's own call, and none is open */
    TREE_EDITOR_OUTPUT_SHORT = 11,   /* the output is too short; the length needed is given */
    TREE_EDITOR_BAD_ROOT = 12,       /* the new root isn't a well-formed raw tree */
    TREE_EDITOR_STORE_DAMAGED = 13,  /* record and arrays hold no editor, or an array is too short */
    TREE_EDITOR_BAD_ARGUMENT = 255   /* for C alone: a mode that is none of the five; an id that isn't 20 bytes, or, for a lookup, fewer than 20
                                        bytes of place for one; for a request, fewer than two lengths, fewer than TREE_EDITOR_PATH bytes of
                                        path or no place for a second number. It comes first: nothing else was looked at, and nothing at all
                                        has changed */
};

/* The modes of entries. */
enum {
    TREE_EDITOR_TREE = 040000,
    TREE_EDITOR_BLOB = 0100644,
    TREE_EDITOR_EXEC = 0100755,
    TREE_EDITOR_LINK = 0120000,
    TREE_EDITOR_COMMIT = 0160000
};

/* The record of an editor. Its fields are the editor's own (docs/STORE.md). */
typedef struct tree_editor {
    uint64_t free, hidden, paths, trees, entries, names, open, aside, stacked, asked;
} tree_editor;

/* The arrays of an editor, for a caller that keeps them together; TREE_EDITOR_LENT(s) lends them to a call. */
typedef struct tree_editor_store {
    uint64_t plens[TREE_EDITOR_SLOTS], tlens[TREE_EDITOR_SLOTS], order[TREE_EDITOR_SLOTS];
    uint8_t paths[TREE_EDITOR_PATHS], trees[TREE_EDITOR_TREES];
} tree_editor_store;

#define TREE_EDITOR_LENT(s)                                                                                                    \
    (s)->plens, TREE_EDITOR_SLOTS, (s)->paths, TREE_EDITOR_PATHS, (s)->tlens, TREE_EDITOR_SLOTS, (s)->trees, TREE_EDITOR_TREES, \
        (s)->order, TREE_EDITOR_SLOTS

/* Each array is lent as a pointer and its number of elements. */
#define TREE_EDITOR_STORE                                                                                                 \
    uint64_t *plens, uint64_t plens_len, uint8_t *paths, uint64_t paths_len, uint64_t *tlens, uint64_t tlens_len,         \
        uint8_t *trees, uint64_t trees_len
#define TREE_EDITOR_READ                                                                                                  \
    const uint64_t *plens, uint64_t plens_len, const uint8_t *paths, uint64_t paths_len, const uint64_t *tlens,           \
        uint64_t tlens_len, const uint8_t *trees, uint64_t trees_len, const uint64_t *order, uint64_t order_len
#define TREE_EDITOR_ORDER const uint64_t *order, uint64_t order_len
/* The object table: ids end to end, one end offset per object, raw trees end to end. The first equal id counts. */
#define TREE_EDITOR_TABLE                                                                                                 \
    const uint8_t *ids, uint64_t ids_len, const uint32_t *ends, uint64_t ends_len, const uint8_t *raws, uint64_t raws_len

/* Arguments for callers: a table of no objects, and the prefix of calls from the root. */
#define TREE_EDITOR_NO_TABLE NULL, 0, NULL, 0, NULL, 0
#define TREE_EDITOR_ROOT NULL, 0

#ifdef __cplusplus
extern "C" {
#endif

/* Makes an editor with this raw tree as its root (no bytes: the empty tree), whatever record and arrays held. 13, only for arrays that are
 * too short, then 12, 5. */
uint8_t tree_editor_new(tree_editor *ed, TREE_EDITOR_STORE, TREE_EDITOR_ORDER, const uint8_t *raw, uint64_t raw_len);
/* Sets a new root; all cached trees go. 13, 9, 12, 5. */
uint8_t tree_editor_set_root(tree_editor *ed, TREE_EDITOR_STORE, TREE_EDITOR_ORDER, const uint8_t *raw, uint64_t raw_len);

/* Edits, from the tree that is cached at a prefix: a cursor's path, or TREE_EDITOR_ROOT. 255 (an upsert alone), 13, 9, 7, 8, 6, then 5 or 1 to
 * 4. */
uint8_t tree_editor_upsert(tree_editor *ed, TREE_EDITOR_STORE, TREE_EDITOR_ORDER, TREE_EDITOR_TABLE, const uint8_t *prefix, uint64_t prefix_len,
                           const uint8_t *path, uint64_t path_len, const uint8_t *id, uint64_t id_len, uint32_t mode);
/* Removes an entry, a tree with all below it; where there is none, nothing happens. */
uint8_t tree_editor_remove(tree_editor *ed, TREE_EDITOR_STORE, TREE_EDITOR_ORDER, TREE_EDITOR_TABLE, const uint8_t *prefix, uint64_t prefix_len,
                           const uint8_t *path, uint64_t path_len);
/* Removes an entry, but refuses a tree: 4. */
uint8_t tree_editor_remove_leaf(tree_editor *ed, TREE_EDITOR_STORE, TREE_EDITOR_ORDER, TREE_EDITOR_TABLE, const uint8_t *prefix,
                                uint64_t prefix_len, const uint8_t *path, uint64_t path_len);
/* Opens a cursor at a path: where it gives 0, the path is the cursor, to be lent as prefix. 13, 9, 7, 6, then 5 or 1 to 3. */
uint8_t tree_editor_cursor_at(tree_editor *ed, TREE_EDITOR_STORE, TREE_EDITOR_ORDER, TREE_EDITOR_TABLE, const uint8_t *path, uint64_t path_len);

/* Looks a path up in the cached trees, from the one at a prefix: the entry's mode (040000 or more) with its id at the front of `id`, or 0 where
 * there is none, or the number of the refusal: 255, exactly where `id` has less than 20 bytes, 13, 9, 8, 6. Changes nothing but `id`, and
 * that only where an entry is found. */
uint32_t tree_editor_get(tree_editor ed, TREE_EDITOR_READ, const uint8_t *prefix, uint64_t prefix_len, const uint8_t *path, uint64_t path_len,
                         uint8_t *id, uint64_t id_len);

/* Begins a write from the root: when it is over, only the root is cached. 13, 9. */
uint8_t tree_editor_begin(tree_editor *ed, TREE_EDITOR_STORE, uint64_t *order, uint64_t order_len);
/* Begins a write from the tree that is cached at a prefix: when it is over, that tree is cached, and what the write did not visit. So a
 * cursor at the root ends otherwise than the root, and TREE_EDITOR_ROOT is a cursor here. 13, 9, 8. */
uint8_t tree_editor_begin_at(tree_editor *ed, TREE_EDITOR_STORE, uint64_t *order, uint64_t order_len, const uint8_t *prefix, uint64_t prefix_len);
/* Reads the open request: the raw tree to the front of `out` and the path it belongs at to the front of `path`, their lengths to lens[0] and
 * lens[1]. 255 where `path` has fewer than TREE_EDITOR_PATH bytes or `lens` fewer than 2 elements, 13, 10; 11 where `out` is too short, with
 * the length needed in lens[0] and nothing else changed: TREE_EDITOR_OUTPUT bytes always suffice. */
uint8_t tree_editor_request(tree_editor ed, TREE_EDITOR_READ, uint8_t *out, uint64_t out_len, uint8_t *path, uint64_t path_len, uint64_t *lens,
                            uint64_t lens_len);
/* Answers the open request with the id of the tree that was requested. 255, 13, 10. The write is over when ed->open is 0. */
uint8_t tree_editor_answer(tree_editor *ed, TREE_EDITOR_STORE, uint64_t *order, uint64_t order_len, const uint8_t *id, uint64_t id_len);
/* Answers the open request and reads the one that is open then, exactly as tree_editor_answer and then tree_editor_request would, with one
 * check of record and arrays instead of two. Gives the number of the answer, and in next[0] that of the reading: 0 with the request in `out`,
 * `path` and `lens`; 10 where the write is over, and 11, with the length needed in lens[0], where the answer is made and tree_editor_request
 * reads the next request (to answer again would answer that one); the answer's own number where it is refused. 255, with nothing in next[0],
 * where `id` has not 20 bytes, `path` fewer than TREE_EDITOR_PATH bytes, `lens` fewer than 2 elements or `next` none. */
uint8_t tree_editor_answer_and_request(tree_editor *ed, TREE_EDITOR_STORE, uint64_t *order, uint64_t order_len, const uint8_t *id, uint64_t id_len,
                                       uint8_t *out, uint64_t out_len, uint8_t *path, uint64_t path_len, uint64_t *lens, uint64_t lens_len,
                                       uint8_t *next, uint64_t next_len);
/* Fails the open request: the start tree goes back as it stands, the other taken trees are lost. 13, 10. */
uint8_t tree_editor_fail(tree_editor *ed, TREE_EDITOR_STORE, TREE_EDITOR_ORDER);

/* 1 where record and arrays hold an editor, else 0. */
uint8_t tree_editor_holds(tree_editor ed, TREE_EDITOR_READ);

/* What became of a damaged tree. `code` is 0 with a well-formed raw tree of `len` bytes at the front of the output; 5 where the entries kept
 * are over 1,024 or their names over 16,384 bytes; 11 where the output has fewer than `len` bytes; 255 for a width that is neither 20 nor
 * 32, or a tree of 2^29 bytes or more. With any but 0 nothing is written, and what follows `len` is 0. */
typedef struct tree_editor_mended {
    uint32_t code;
    uint64_t len;      /* bytes of the tree that was written, or with 11 that are needed */
    uint64_t cut;      /* bytes from the first entry on that could not be read */
    uint64_t badname;  /* entries dropped for their name */
    uint64_t badmode;  /* entries dropped for their mode, their name being good */
    uint64_t doubled;  /* entries dropped since their name was kept before */
    uint64_t moved;    /* 1 where the entries kept were not in order, else 0 */
} tree_editor_mended;

/* Mends a damaged raw tree with ids of `width` bytes, without an editor: reads entries until one can't be read, keeps those with a good name
 * and mode and a name that is new, and writes them in order. A well-formed tree comes out as it is, with all zeros. */
tree_editor_mended tree_editor_mend(const uint8_t *raw, uint64_t raw_len, uint64_t width, uint8_t *out, uint64_t out_len);

#ifdef __cplusplus
}
#endif
#endif
