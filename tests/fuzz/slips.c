/* Wrong libraries: LIBRARY_SLIP chooses one function to do something that it may not. Linked with --wrap, so that the harness
 * calls these. */
#include "tree_editor.h"

#include <string.h>

#define ARGS_EDIT plens, plens_len, paths, paths_len, tlens, tlens_len, trees, trees_len, order, order_len
#define ARGS_TABLE ids, ids_len, ends, ends_len, raws, raws_len

#if LIBRARY_SLIP <= 4 || LIBRARY_SLIP == 9 || LIBRARY_SLIP == 11
uint8_t __real_tree_editor_upsert(tree_editor *ed, TREE_EDITOR_STORE, TREE_EDITOR_ORDER, TREE_EDITOR_TABLE, const uint8_t *prefix,
                                  uint64_t prefix_len, const uint8_t *path, uint64_t path_len, const uint8_t *id, uint64_t id_len,
                                  uint32_t mode);
uint8_t __wrap_tree_editor_upsert(tree_editor *ed, TREE_EDITOR_STORE, TREE_EDITOR_ORDER, TREE_EDITOR_TABLE, const uint8_t *prefix,
                                  uint64_t prefix_len, const uint8_t *path, uint64_t path_len, const uint8_t *id, uint64_t id_len,
                                  uint32_t mode) {
    if (LIBRARY_SLIP == 11) prefix_len = 0; /* always from the root */
    if (LIBRARY_SLIP == 1 && *(volatile const uint8_t *)(path + path_len) == 1) return 0; /* reads one byte too many */
    uint8_t said = __real_tree_editor_upsert(ed, ARGS_EDIT, ARGS_TABLE, prefix, prefix_len, path, path_len, id, id_len, mode);
    if (LIBRARY_SLIP == 2 && said == TREE_EDITOR_NO_ROOM) trees[trees_len - 1] ^= 1; /* a spare byte changed by a refusal */
    if (LIBRARY_SLIP == 3 && said == TREE_EDITOR_EMPTY_COMPONENT)
        said = TREE_EDITOR_PATH_REFUSED; /* refuses with another number */
    if (LIBRARY_SLIP == 4 && said == 0 && plens_len > TREE_EDITOR_SLOTS)
        plens[TREE_EDITOR_SLOTS] = 0;                                                /* writes behind the front */
    if (LIBRARY_SLIP == 9 && said == 0 && path_len == 1 && mode == TREE_EDITOR_EXEC) /* does nothing, and says that it did */
        said = __real_tree_editor_upsert(ed, ARGS_EDIT, ARGS_TABLE, prefix, prefix_len, path, path_len, id, id_len, TREE_EDITOR_BLOB);
    return said;
}
#elif LIBRARY_SLIP == 5 || LIBRARY_SLIP == 12
uint32_t __real_tree_editor_get(tree_editor ed, TREE_EDITOR_READ, const uint8_t *prefix, uint64_t prefix_len, const uint8_t *path,
                                uint64_t path_len, uint8_t *id, uint64_t id_len);
uint32_t __wrap_tree_editor_get(tree_editor ed, TREE_EDITOR_READ, const uint8_t *prefix, uint64_t prefix_len, const uint8_t *path,
                                uint64_t path_len, uint8_t *id, uint64_t id_len) {
    uint8_t whole[TREE_EDITOR_ID];
    uint32_t said = __real_tree_editor_get(ed, ARGS_EDIT, prefix, prefix_len, path, path_len, id, id_len);
    if (LIBRARY_SLIP == 12) /* a short place for the id refused only where an entry is found */
        return said != TREE_EDITOR_BAD_ARGUMENT ||
                       __real_tree_editor_get(ed, ARGS_EDIT, prefix, prefix_len, path, path_len, whole, sizeof whole) >= TREE_EDITOR_TREE
                   ? said
                   : 0;
    return said >= TREE_EDITOR_TREE && path[path_len - 1] >= 0x80 ? 0 : said; /* bytes taken for signed: not found */
}
#elif LIBRARY_SLIP == 6
uint8_t __real_tree_editor_holds(tree_editor ed, TREE_EDITOR_READ);
uint8_t __wrap_tree_editor_holds(tree_editor ed, TREE_EDITOR_READ) {
    if (ed.open == 0) ed.stacked = 0; /* a field not looked at */
    return __real_tree_editor_holds(ed, ARGS_EDIT);
}
#elif LIBRARY_SLIP == 7
uint8_t __real_tree_editor_request(tree_editor ed, TREE_EDITOR_READ, uint8_t *out, uint64_t out_len, uint8_t *path, uint64_t path_len,
                                   uint64_t *lens, uint64_t lens_len);
uint8_t __wrap_tree_editor_request(tree_editor ed, TREE_EDITOR_READ, uint8_t *out, uint64_t out_len, uint8_t *path, uint64_t path_len,
                                   uint64_t *lens, uint64_t lens_len) {
    uint8_t said = __real_tree_editor_request(ed, ARGS_EDIT, out, out_len, path, path_len, lens, lens_len);
    if (said == TREE_EDITOR_OUTPUT_SHORT) lens[0]++; /* an invented length */
    return said;
}
#elif LIBRARY_SLIP == 8
uint8_t __real_tree_editor_fail(tree_editor *ed, TREE_EDITOR_STORE, TREE_EDITOR_ORDER);
uint8_t __wrap_tree_editor_fail(tree_editor *ed, TREE_EDITOR_STORE, TREE_EDITOR_ORDER) {
    uint8_t said = __real_tree_editor_fail(ed, ARGS_EDIT);
    if (said == 0 && ed->names > 0) ed->names--; /* a count not kept */
    return said;
}
#elif LIBRARY_SLIP == 10
uint8_t __wrap_tree_editor_answer_and_request(tree_editor *ed, TREE_EDITOR_STORE, uint64_t *order, uint64_t order_len,
                                              const uint8_t *id, uint64_t id_len, uint8_t *out, uint64_t out_len, uint8_t *path,
                                              uint64_t path_len, uint64_t *lens, uint64_t lens_len, uint8_t *next, uint64_t next_len) {
    if (id_len != TREE_EDITOR_ID || next_len == 0) return TREE_EDITOR_BAD_ARGUMENT;
    uint8_t read = tree_editor_request(*ed, ARGS_EDIT, out, out_len, path, path_len, lens, lens_len); /* before the answer */
    if (read == TREE_EDITOR_BAD_ARGUMENT) return read;
    uint8_t said = tree_editor_answer(ed, ARGS_EDIT, id, id_len);
    next[0] = said == 0 && !ed->open ? TREE_EDITOR_NO_WRITE_OPEN : read;
    return said;
}
#endif
