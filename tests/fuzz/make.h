/* Random names, paths, raw trees and tables. */
#ifndef MAKE_H
#define MAKE_H

#include <stddef.h>
#include <stdint.h>

typedef struct {
    uint8_t *at;
    size_t len;
} bytes;

/* What the names and sizes of a trace are like. */
typedef enum { SMALL, MANY, LONG, DEEP, STYLES } style;

/* An object table. */
typedef struct {
    bytes ids, raws;
    uint32_t *ends;
    size_t count;
} table;

void make_seed(uint64_t seed);
uint64_t make_word(void);
/* A number below n. */
size_t make_below(size_t n);
/* True once in n. */
int make_once(size_t n);
/* An id of a small pool: some that tables list, the null id, the empty tree's, others. */
void make_id(uint8_t id[20]);
uint32_t make_mode(void);
/* A path of at most 2,000 bytes, mostly valid. Every function below gives memory of its own. */
bytes make_path(style how);
/* A raw tree, mostly well formed. */
bytes make_raw(style how);
/* A table, mostly good. */
table make_table(style how);
void make_free_table(table *t);

#endif
