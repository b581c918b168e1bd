#!/usr/bin/env python3
"""Shows that the comparison of the port can fail: slips put into the driver one by one must each be noticed.

    driver_slips.py [--library LIBRARY] [LABEL...]

A slip is one edit of the driver's text: a call made with something other than the trace says, an answer given back otherwise, or,
in place of a library that misbehaves, memory changed behind the call. The changed driver replays tests/data/oracle-answers.txt.
Exit status 1 if a slip passes, or if its place in the text is no longer found.
"""
import argparse
import os
import subprocess
import sys

import compare_traces

HERE = os.path.dirname(os.path.abspath(__file__))
ROOT = os.path.join(HERE, "..", "..")
DRIVER = os.path.join(ROOT, "tests", "driver")
ANSWERS = os.path.join(ROOT, "tests", "data", "oracle-answers.txt")
AFTER = "    uint32_t number = call(op, below);\n"

SLIPS = [
    # what is handed to the library
    ("tree-for-file", "mode = (uint32_t)strtoul(word[3], NULL, 8);",
     "mode = (uint32_t)strtoul(word[3], NULL, 8);\n        mode = mode == TREE_EDITOR_BLOB ? TREE_EDITOR_TREE : mode;"),
    ("exec-for-link", "mode = (uint32_t)strtoul(word[3], NULL, 8);",
     "mode = (uint32_t)strtoul(word[3], NULL, 8);\n        mode = mode == TREE_EDITOR_LINK ? TREE_EDITOR_EXEC : mode;"),
    ("path-cut", "    take(&path, op == CURSOR ? word[1] : word[2]);",
     "    take(&path, op == CURSOR ? word[1] : word[2]);\n    path.len -= path.len > 255;"),
    ("path-cut-at-nul", "    take(&path, op == CURSOR ? word[1] : word[2]);",
     "    take(&path, op == CURSOR ? word[1] : word[2]);\n    path.len = strnlen((char *)path.at, path.len);"),
    ("path-of-lookup-cut", "        take(&path, word[2]);", "        take(&path, word[2]);\n        path.len -= path.len > 2;"),
    ("leaf-for-remove", "        says_edit(REMOVE, word);", "        says_edit(LEAF, word);"),
    ("remove-for-leaf", "        says_edit(LEAF, word);", "        says_edit(REMOVE, word);"),
    ("prefix-forgotten", "    bool below = op != CURSOR && take_prefix(word[1]);",
     "    bool below = op != CURSOR && take_prefix(word[1]) && false;"),
    ("root-for-cursor-at-root", "    bool below = strcmp(token, \".\") != 0;", "    bool below = strcmp(token, \".\") && strcmp(token, \"-\");"),
    ("first-answer-for-all", "        take(&id, word[1]);\n", "        if (!id.len)\n            take(&id, word[1]);\n"),
    ("answers-swapped", "        take(&id, word[1]);\n",
     "        take(&id, word[1]);\n        uint8_t first = id.at[0];\n        id.at[0] = id.at[19], id.at[19] = first;\n"),
    ("answer-for-fail", "        says(checked(FAIL, false));", "        take(&id, \"4444444444444444444444444444444444444444\"), says(checked(ANSWER, false));"),
    ("set-root-for-new", "*name == 'n' ? NEW : SET_ROOT", "SET_ROOT"),
    ("new-for-set-root", "*name == 'n' ? NEW : SET_ROOT", "NEW"),
    ("output-longer", "    lend(&out, room);", "    lend(&out, room + 1);"),
    ("table-without-last-byte", "    lend_bytes(&raws, table_raws.at, table_raws.len);",
     "    lend_bytes(&raws, table_raws.at, table_raws.len - (table_raws.len > 0));"),
    ("table-of-last-trace", "        set_table(\"-\", \"-\", \"-\");\n", ""),
    ("offsets-start-at-first", "    uint32_t end = (uint32_t)table_raws.len;", "    uint32_t end = (uint32_t)(table_raws.len - len);"),
    ("sha1-other-turn", "c = sha1_rotate(b, 30)", "c = sha1_rotate(b, 29)"),
    # what is given back
    ("empty-for-not-found", "    } else if (got == TREE_EDITOR_DONE) {", "    } else if (got == TREE_EDITOR_DONE || got == TREE_EDITOR_CURSOR_STALE) {"),
    ("invented-length", "number, (size_t)length_given(0));", "number, (size_t)TREE_EDITOR_OUTPUT);"),
    ("damaged-as-not-found", "    printf(\"%s => %u\\n\", line, number);", "    printf(\"%s => %u\\n\", line, number == 3 ? 2 : number);"),
    ("slot-order", "    qsort(found, (size_t)n, sizeof *found, by_path);\n", ""),
    ("failure-not-shown", "    } else if (checked(FAIL, false) == TREE_EDITOR_DONE) {\n        dump(\"if-fail\"",
     "    } else if (true) {\n        kept = false, keep();\n        dump(\"if-fail\""),
    ("failure-not-undone", "        dump(\"if-fail\", shown);\n        restore();", "        dump(\"if-fail\", shown);"),
    # a library that misbehaves
    ("refusal-changes-spare-byte", AFTER, AFTER + "    array[TREES].at[TREE_EDITOR_TREES - 1] ^= number >= 5 && op != GET;\n"),
    ("refusal-changes-order", AFTER, AFTER + "    array[ORDER].at[40] ^= number == 5;\n"),
    ("refusal-changes-record", AFTER, AFTER + "    ed.asked ^= number == 8 && op != GET;\n"),
    ("lookup-changes-spare-byte", AFTER, AFTER + "    array[PATHS].at[TREE_EDITOR_PATHS - 1] ^= op == GET;\n"),
    ("byte-before", AFTER, AFTER + "    array[PATHS].at[-1] ^= number == 0 && op == UPSERT;\n"),
    ("byte-behind", AFTER, AFTER + "    array[TREES].at[TREE_EDITOR_TREES] ^= number == 0 && op == UPSERT;\n"),
    ("read-behind", AFTER, AFTER + "    number += ((volatile uint8_t *)path.at)[path.len] & (op == REMOVE);\n"),
    ("count-off", AFTER, AFTER + "    ed.entries += op == REMOVE && number == 0;\n"),
    ("path-spoilt", AFTER, AFTER + "    array[PATHS].at[0] = op == LEAF && number == 0 ? '/' : array[PATHS].at[0];\n"),
    ("id-without-entry", AFTER, AFTER + "    out_id.at[0] ^= op == GET && number == 0;\n"),
    ("output-behind-length", AFTER, AFTER + "    out.at[op == REQUEST && number == 0 && length_given(0) < out.len ? out.len - 1 : 0] ^= op == REQUEST && number == 0 && length_given(0) < out.len;\n"),
    ("short-output-written", AFTER, AFTER + "    if (op == REQUEST && number == 11 && out.len)\n        out.at[0] = 0;\n"),
    # one call for an answer and the next request
    ("request-before-answer", "    case ONWARD: return tree_editor_answer_and_request(&ed, STORE, LENT(id), READ_TO, LENT(out_next));",
     "    case ONWARD: out_next.at[0] = tree_editor_request(ed, STORE, READ_TO); return tree_editor_answer(&ed, STORE, LENT(id));", "--next"),
    ("answer-undone-when-short", AFTER, AFTER + "    if (op == ONWARD && number == 0 && out_next.at[0] == 11)\n        restore();\n", "--next"),
    ("invented-next-length", AFTER, AFTER + "    if (op == ONWARD && out_next.at[0] == 11)\n        ++*(length *)(void *)out_lens.at;\n", "--next"),
    ("second-number-kept-back", AFTER, AFTER + "    if (op == ONWARD)\n        out_next.at[0] = LENT_MARK;\n", "--next"),
    ("place-for-number-not-asked", "        lend(&out_next, 0);", "        lend(&out_next, 1);", "--next", "--probe"),
    # probes
    ("short-array-taken", "        count[k] = need[k] - 1;", "        count[k] = need[k] - (k != ORDER);", "--probe"),
    ("count-not-judged", "        ed.names++, ed_before.names++;\n", "        ed.names += 0, ed_before.names += 0;\n", "--probe"),
    ("mode-not-judged", "        mode = right + 0200000;", "        mode = right;", "--probe"),
    ("id-output-not-judged", "        lend(&out_id, TREE_EDITOR_ID - 1);", "        lend(&out_id, TREE_EDITOR_ID);", "--probe"),
    ("byte-behind-room", AFTER, AFTER + "    array[PLENS].at[8 * TREE_EDITOR_SLOTS + (roomy ? 0 : -1)] ^= roomy && number == 0 && op == LEAF;\n", "--roomy"),
]


def whole(name, seen):
    """A source of the driver with the headers that stand beside it, or are named from there, in place."""
    seen.add(name)
    with open(os.path.join(DRIVER, name)) as f:
        lines = f.readlines()
    for k, line in enumerate(lines):
        wanted = line[10:-2] if line.startswith('#include "') else ""
        if wanted and os.path.exists(os.path.join(DRIVER, wanted)):
            lines[k] = "" if wanted in seen else whole(wanted, seen)
    return "".join(lines)


def noticed(program, mode, answers):
    calls = [c for trace, _ in answers for c in trace]
    known = [x for _, k in answers for x in k]
    found = compare_traces.first_difference(known, compare_traces.lines_of(compare_traces.run([program] + mode, calls)))
    return None if found is None else "%s | %s" % (found[1][:60], found[2][:60])


def main():
    p = argparse.ArgumentParser(usage=__doc__)
    p.add_argument("--library")
    p.add_argument("--verbose", action="store_true")
    p.add_argument("labels", nargs="*")
    o = p.parse_args()
    answers = list(compare_traces.replayed(ANSWERS))
    folder = os.path.join(ROOT, "target", "slips")
    os.makedirs(folder, exist_ok=True)
    library = o.library or subprocess.run([os.path.join(ROOT, "tools", "library.sh")], check=True, stdout=subprocess.PIPE, text=True).stdout.strip()
    text = whole("trace.c", set())
    tried = wrong = 0
    for label, old, new, *mode in [("none", "", "")] + SLIPS:
        if o.labels and label not in o.labels:
            continue
        tried += label != "none"
        if label != "none" and text.count(old) != 1:
            print("%s: its place stands %d times" % (label, text.count(old)))
            wrong += 1
            continue
        with open(os.path.join(folder, "slip.c"), "w") as f:
            f.write(text.replace(old, new) if old else text)
        subprocess.run([os.path.join(DRIVER, "build.sh"), library, "target/slips/slip", "target/slips/slip.c"], check=True,
                       env=dict(os.environ, CFLAGS="-O0 -w"))
        how = noticed(os.path.join(folder, "slip"), mode, answers)
        if o.verbose:
            print("%s: %s" % (label, how))
        if (how is None) != (label == "none"):
            wrong += 1
            print("%s: %s" % (label, how or "not noticed"))
    print("%d slips of the driver tried, %d wrong" % (tried, wrong))
    sys.exit(1 if wrong else 0)


if __name__ == "__main__":
    main()
