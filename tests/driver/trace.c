/* The trace protocol of tests/oracle/PROTOCOL.md, spoken through the C functions of tree_editor.h: calls on standard input, answers and dumps on
 * standard output, the same text as oracle-trace.
 *
 *     trace [--brief] [--roomy] [--probe] [--next]
 *
 * What the Rust cannot show is checked here after every call, and printed as a line that oracle-trace never prints:
 *   CHANGED   a number from 5 on, a lookup or a request left another byte in record or arrays
 *   PAST      a byte was written outside what was lent, behind the length that was given back, or to the output of a call that was refused
 *   DAMAGED   the store that a call left is not accepted by tree_editor_holds (HOLDS: one is, though no editor was made)
 *   PROBE     see --probe
 *   NUMBER    a number that the call cannot give
 * Everything lent ends at a page that nobody may touch (lent.h), so a read past the end stops the program.
 *
 * --roomy lends arrays and outputs that are longer than needed; the bytes behind must stay as they are.
 * --probe makes each call first with an array that is one element short, with a count in the record off by one, and with bad arguments; each
 * must be refused with its number and change nothing.
 * --next answers and reads the next request by the one call that does both, by turns with an output that is long enough and with one that is
 * not: the request is then read again with the length needed. */
#include <stdbool.h>
#include <stdint.h>
#include <stdio.h>
#include <stdlib.h>
#include <string.h>

#include "../../examples/c/sha1.h"
#include "bytes.h"
#include "calls.h"
#include "tree_editor.h"

/* ---- dumps, from the bytes of the store ---- */

struct slot {
    const uint8_t *path, *tree;
    size_t path_len, tree_len, entries, names;
};

static int by_path(const void *a, const void *b)
{
    const struct slot *x = a, *y = b;
    int order = memcmp(x->path, y->path, x->path_len < y->path_len ? x->path_len : y->path_len);
    return order ? order : x->path_len < y->path_len ? -1 : x->path_len > y->path_len;
}

/* An entry's bytes: kind, length of the name, id, name. */
static size_t entry_len(const uint8_t *entry)
{
    return 2 + TREE_EDITOR_ID + (size_t)entry[1];
}

/* The used slots, by path. */
static int slots(struct slot found[TREE_EDITOR_SLOTS])
{
    const uint64_t *plens = (const void *)array[PLENS].at, *tlens = (const void *)array[TLENS].at;
    const uint8_t *path_at = array[PATHS].at, *tree_at = array[TREES].at;
    int n = 0;
    for (int k = 0; k < TREE_EDITOR_SLOTS; path_at += plens[k], tree_at += tlens[k], k++) {
        if (ed.free >> k & 1)
            continue;
        struct slot s = {path_at, tree_at, plens[k], tlens[k], 0, 0};
        for (const uint8_t *e = tree_at; e < tree_at + tlens[k]; e += entry_len(e))
            s.entries++, s.names += e[1];
        found[n++] = s;
    }
    qsort(found, (size_t)n, sizeof *found, by_path);
    return n;
}

/* The lines of trees and entries. */
static void add_lines(struct bytes *text, const struct slot *found, int n)
{
    static const char *const modes[] = {"   40000 ", "   100644 ", "   100755 ", "   120000 ", "   160000 "};
    for (int k = 0; k < n; k++) {
        char number[24];
        append(text, "  tree ", 7);
        add_hex(text, found[k].path, found[k].path_len);
        append(text, number, (size_t)sprintf(number, " %zu\n", found[k].entries));
        for (const uint8_t *e = found[k].tree; e < found[k].tree + found[k].tree_len; e += entry_len(e)) {
            append(text, modes[e[0]], strlen(modes[e[0]]));
            add_hex(text, e + 2 + TREE_EDITOR_ID, e[1]);
            append(text, " ", 1);
            add_hex(text, e + 2, TREE_EDITOR_ID);
            append(text, "\n", 1);
        }
    }
}

/* What a dump shows of trees and entries: their lines, the Adler-32 of those lines, nothing. */
enum shown { LINES, SUM, COUNTS };

static void dump(const char *label, enum shown shown)
{
    static struct bytes text;
    struct slot found[TREE_EDITOR_SLOTS];
    int n = slots(found);
    size_t entries = 0, names = 0, paths = 0;
    for (int k = 0; k < n; k++)
        entries += found[k].entries, names += found[k].names, paths += found[k].path_len;
    printf(" %s trees=%d entries=%zu names=%zu paths=%zu\n", label, n, entries, names, paths);
    text.len = 0;
    if (shown != COUNTS)
        add_lines(&text, found, n);
    if (shown == LINES)
        fwrite(text.at, 1, text.len, stdout);
    else if (shown == SUM)
        printf("  sum %08x\n", adler32(&text));
}

/* The state, or with a write open what a failure would leave: the store is failed, shown and put back. */
static void state(enum shown shown)
{
    if (!made) {
        puts(" no editor");
    } else if (!holds) {
        puts(" DAMAGED");
    } else if (!ed.open) {
        dump("state", shown);
    } else if (checked(FAIL, false) == TREE_EDITOR_DONE) {
        dump("if-fail", shown);
        restore();
    } else {
        puts(" NUMBER");
    }
}

/* ---- the protocol ---- */

static const char *line; /* as it was read */

static void says(uint32_t number)
{
    printf("%s => %u\n", line, number);
}

static void put_request(void)
{
    put_hex(out_path.at, length_given(1));
    putchar_unlocked(' ');
    put_hex(out.at, length_given(0));
}

static bool onward;
static int read_ahead = -1; /* what the call that answered gave for the request that is open now; -1: it read none */

/* Answers the open request. */
static uint32_t answer(void)
{
    static const size_t rooms[] = {TREE_EDITOR_OUTPUT, 0, TREE_EDITOR_OUTPUT, 40};
    static unsigned turn;
    if (!onward)
        return checked(ANSWER, false);
    uint32_t number = reading(ONWARD, rooms[turn++ % 4]), next = out_next.at[0];
    bool more = number == TREE_EDITOR_DONE && ed.open;
    if (more ? next && next != TREE_EDITOR_OUTPUT_SHORT : next != (number ? number : TREE_EDITOR_NO_WRITE_OPEN))
        puts("NUMBER");
    read_ahead = more ? (int)next : -1;
    return number;
}

/* Reads the open request, where the answer before it didn't. */
static uint32_t next_request(void)
{
    int ahead = read_ahead;
    read_ahead = -1;
    if (ahead == TREE_EDITOR_DONE)
        return TREE_EDITOR_DONE;
    if (ahead != TREE_EDITOR_OUTPUT_SHORT)
        return request(TREE_EDITOR_OUTPUT);
    length needed = length_given(0);
    uint32_t number = request(needed);
    if (needed != length_given(0))
        puts("NUMBER");
    return number;
}

/* The answer of a write's begin or answer: the next request, or the id that ended the write. */
static void says_step(uint32_t number)
{
    if (number != TREE_EDITOR_DONE) {
        says(number);
    } else if (!ed.open) {
        printf("%s => 0 done ", line);
        put_hex(id.at, id.len);
        putchar_unlocked('\n');
    } else if (next_request() == TREE_EDITOR_DONE) {
        printf("%s => 0 request ", line);
        put_request();
        putchar_unlocked('\n');
    } else {
        puts("NUMBER");
    }
}

static void says_read(size_t room)
{
    uint32_t number = request(room);
    if (number == TREE_EDITOR_OUTPUT_SHORT) {
        printf("%s => %u %zu\n", line, number, (size_t)length_given(0));
    } else if (number != TREE_EDITOR_DONE) {
        says(number);
    } else {
        printf("%s => 0 ", line);
        put_request();
        putchar_unlocked('\n');
    }
}

static void says_get(uint32_t got)
{
    if (got >= TREE_EDITOR_TREE) {
        printf("%s => 0 %o ", line, got);
        put_hex(out_id.at, TREE_EDITOR_ID);
        putchar_unlocked('\n');
    } else if (got == TREE_EDITOR_DONE) {
        printf("%s => none\n", line);
    } else {
        says(got);
    }
}

/* A whole write, answered with Git's ids; with `keeping`, each tree is put into the table. */
static void finish(bool below, bool keeping)
{
    uint8_t answered[TREE_EDITOR_ID];
    uint32_t number = checked(BEGIN, below);
    while (number == TREE_EDITOR_DONE && ed.open) {
        number = next_request();
        if (number != TREE_EDITOR_DONE)
            break;
        git_id(answered, "tree", out.at, length_given(0));
        lend_bytes(&id, answered, sizeof answered);
        fputs(" wrote ", stdout);
        put_request();
        putchar_unlocked(' ');
        put_hex(id.at, id.len);
        putchar_unlocked('\n');
        if (keeping)
            add_object(answered, out.at, length_given(0));
        number = answer();
    }
    lend_table();
    says_step(number);
}

/* A token's bytes, to be lent. */
static void take(struct lent *l, const char *token)
{
    struct bytes b = unhex(token);
    lend_bytes(l, b.at, b.len);
}

/* A prefix token: whether the call is a cursor's. */
static bool take_prefix(const char *token)
{
    if (!token)
        broken(line);
    bool below = strcmp(token, ".") != 0;
    if (below)
        take(&prefix, token);
    return below;
}

static void set_table(const char *new_ids, const char *new_ends, const char *new_raws)
{
    table_ids.len = table_ends.len = table_raws.len = 0;
    struct bytes b = unhex(new_ids);
    append(&table_ids, b.at, b.len);
    if (!new_ends || !new_raws)
        broken(line);
    for (const char *p = new_ends; strcmp(new_ends, "-") && p; p = strchr(p, ',') ? strchr(p, ',') + 1 : NULL) {
        uint32_t end = (uint32_t)strtoul(p, NULL, 10);
        append(&table_ends, &end, sizeof end);
    }
    b = unhex(new_raws);
    append(&table_raws, b.at, b.len);
    lend_table();
}

/* An edit by path: prefix and path are taken; an upsert's mode and id too. */
static void says_edit(enum op op, char **word)
{
    bool below = op != CURSOR && take_prefix(word[1]);
    take(&path, op == CURSOR ? word[1] : word[2]);
    if (op == UPSERT) {
        take(&id, word[4]);
        mode = (uint32_t)strtoul(word[3], NULL, 8);
    }
    says(checked(op, below));
}

/* One call, without its dump. Whether a dump follows. */
static bool one_call(char **word)
{
    const char *name = word[0];
    if (!strcmp(name, "trace")) {
        forget();
        set_table("-", "-", "-");
        puts(line);
        return false;
    } else if (!strcmp(name, "object")) {
        uint8_t object[TREE_EDITOR_ID];
        struct bytes b = unhex(word[1]);
        if (b.len != sizeof object)
            broken(line);
        memcpy(object, b.at, sizeof object);
        b = unhex(word[2]);
        add_object(object, b.at, b.len);
        lend_table();
        return false;
    } else if (!strcmp(name, "table")) {
        set_table(word[1], word[2], word[3]);
        return false;
    } else if (!strcmp(name, "read")) {
        says_read(strtoul(word[1] ? word[1] : "", NULL, 10));
        return false;
    } else if (!strcmp(name, "new") || !strcmp(name, "setroot")) {
        take(&raw, word[1]);
        says(checked(*name == 'n' ? NEW : SET_ROOT, false));
    } else if (!strcmp(name, "upsert")) {
        says_edit(UPSERT, word);
    } else if (!strcmp(name, "remove")) {
        says_edit(REMOVE, word);
    } else if (!strcmp(name, "leaf")) {
        says_edit(LEAF, word);
    } else if (!strcmp(name, "cursor")) {
        says_edit(CURSOR, word);
    } else if (!strcmp(name, "get")) {
        bool below = take_prefix(word[1]);
        take(&path, word[2]);
        says_get(checked(GET, below));
    } else if (!strcmp(name, "begin")) {
        says_step(checked(BEGIN, take_prefix(word[1])));
    } else if (!strcmp(name, "answer")) {
        take(&id, word[1]);
        says_step(answer());
    } else if (!strcmp(name, "fail")) {
        says(checked(FAIL, false));
    } else if (!strcmp(name, "finish")) {
        finish(take_prefix(word[1]), word[2] && !strcmp(word[2], "keep"));
    } else if (!strcmp(name, "show")) {
        puts("show");
    } else {
        broken(line);
    }
    return true;
}

int main(int argc, char **argv)
{
    bool brief = false;
    enum shown shown = LINES;
    for (int k = 1; k < argc; k++) {
        if (!strcmp(argv[k], "--brief"))
            brief = true;
        else if (!strcmp(argv[k], "--roomy"))
            roomy = true;
        else if (!strcmp(argv[k], "--probe"))
            probing = true;
        else if (!strcmp(argv[k], "--next"))
            onward = true;
        else
            broken(argv[k]);
    }
    forget();
    lend_table();
    char *text = NULL, *words = NULL;
    size_t room = 0;
    for (ssize_t len; (len = getline(&text, &room, stdin)) >= 0;) {
        if (len && text[len - 1] == '\n')
            text[--len] = 0;
        words = realloc(words, room);
        if (!words)
            abort();
        memcpy(words, text, (size_t)len + 1);
        char *word[6] = {0}, *rest = words;
        for (int k = 0; k < 5 && (word[k] = strtok_r(k ? NULL : words, " \t", &rest)); k++)
            ;
        if (!word[0] || word[0][0] == '#')
            continue;
        line = text;
        if (!strcmp(word[0], "dump")) {
            shown = !word[1] ? COUNTS : !strcmp(word[1], "on") ? LINES : !strcmp(word[1], "sum") ? SUM : COUNTS;
            continue;
        }
        if (!strcmp(word[0], "trace"))
            shown = LINES;
        bool show = !strcmp(word[0], "show"), follows = one_call(word);
        if (show || (follows && !brief))
            state(show ? LINES : shown);
    }
    free(words);
    free(text);
    return 0;
}
