#!/usr/bin/env python3
"""Brings the repository's own definitions and lemmas to today's spelling: words in snake case.

Run once, at the top of the repository, after the toolchain's own port.py: python3 tools/respell.py
A camel-case word `windowAnswer` becomes `window_answer`, and a dash between plain words an underscore. A dash stays where
it joins the names of two functions, as in `length-pile`. Names of the code, of goals and of files stay as they are.
With --list it prints what it would rename, and which new names fall together with others.
"""
import glob
import re
import sys

# where the plain rule would make two names fall together, or a definition's name and a field's of the code; a lemma that
# would have the name of a function gets `_lem`
CHOSEN = {
    "answer-by": "answer_by_lem",
    "at-node": "at_node_lem",
    "bit-or": "bit-bit_or",
    "bytes-by": "bytes_by_lem",
    "depotIn": "depot_in_image",
    "firstLeg": "first_leg_of",
    "leg-at": "leg_at_lem",
    "legIn": "leg_in_record",
    "legs-in": "legs_in_lem",
    "no-nodes": "no_nodes_lem",
    "nodes-in": "nodes_in_lem",
    "read-is-written": "read_is_written_lem",
    "row-length": "row_length_lem",
    "sinkIn": "sink_in_image",
    "start-at": "start_at_lem",
    "start-in": "start_in_lem",
    "valid-header": "valid_header_lem",
    "valid-leg": "valid_leg_lem",
    "valid-node": "valid_node_lem",
    "written-is-read": "written_is_read_lem",
}

# the constructors of a row: `legs` and `unreadable` are taken
MADE_ROWS = {"Legs": "legs_row", "Unreadable": "unreadable_row"}

# names of functions that a dash joins in a lemma's name
JOINED = {
    "length-entries",
    "length-finished",
    "length-pile",
    "length-ring",
    "over-over",
    "over-take",
    "plain_sum-push",
    "sum_by-map",
    "weighted_sum-push",
}

DECLARED = re.compile(r"^(?:(?:abbrev|pub|unfoldable|data|record|ruleset)\s+)*([^\s({:]+)\s*(?:\(|\{|:)")
FIELD = re.compile(r"^\s+(?:pub )?([^\s({:]+) :")
MADE = re.compile(r"^(invariant|decreases|ghost)-")
EDGE = r"[\w'′\-+*]"


def declared():
    names = {}
    for path in sorted(glob.glob("crates/*/specs/**/*.antt", recursive=True) + glob.glob("crates/*/proofs/**/*.antt", recursive=True)):
        for line in open(path, encoding="utf8"):
            if line.startswith(("use ", "--")) or ": goal." in line:
                continue
            found = DECLARED.match(line) or FIELD.match(line)
            if found and not MADE.match(found.group(1)):
                names.setdefault(found.group(1), set()).add(path)
    return names


def snake(name):
    if name in CHOSEN:
        return CHOSEN[name]
    if not re.match(r"[a-z]", name) or not re.search(r"[A-Z-]", name):
        return name
    name = re.sub(r"(?<=[a-z0-9])([A-Z])", lambda m: "_" + m.group(1).lower(), name)
    return name if name in JOINED else name.replace("-", "_")


def texts():
    return sorted(
        glob.glob("crates/*/specs/**/*.antt", recursive=True)
        + glob.glob("crates/*/proofs/**/*.antt", recursive=True)
        + glob.glob("crates/*/src/**/*.rt", recursive=True)
        + glob.glob("crates/*/must-fail/*.edit")
        + glob.glob("docs/*.md")
        + ["README.md"]
    )


def main():
    renamed = {old: snake(old) for old in declared() if snake(old) != old}
    if "--list" in sys.argv:
        words = {}
        for path in texts():
            for word in re.findall(r"[\w'′\-+*]+", open(path, encoding="utf8").read()):
                words.setdefault(word, set()).add(path)
        new = {}
        for old, name in sorted(renamed.items()):
            new.setdefault(name, []).append(old)
        for name, olds in sorted(new.items()):
            taken = sorted(words.get(name, []))
            mark = "  TWO" if len(olds) > 1 else ""
            mark += "  TAKEN " + " ".join(t.replace("crates/", "") for t in taken[:4]) if taken else ""
            print(name, "<-", " ".join(olds), mark)
        return
    dashed = {old: name for old, name in renamed.items() if "-" in old}
    camel = {old: name for old, name in renamed.items() if "-" not in old}
    for path in texts():
        text = open(path, encoding="utf8").read()
        out = "\n".join(line_of(path, line, camel, dashed) for line in text.split("\n"))
        if out != text:
            open(path, "w", encoding="utf8").write(out)


def line_of(path, line, camel, dashed):
    """A camel-case word is a definition wherever it stands; a dashed one or a capital only in antt, and not in its prose."""
    line = put(line, camel, "")
    clause = path.endswith(".antt") or re.match(r"\s*(ghost|requires|ensures)\b|(old|new): ", line)
    if not clause or line.lstrip().startswith("--"):
        return line
    return put(put(line, dashed, ""), MADE_ROWS, r"|\.|mod ")


def put(line, names, before):
    one = "|".join(re.escape(n) for n in sorted(names, key=len, reverse=True))
    not_before = "".join("(?<!" + b + ")" for b in [EDGE] + [b for b in before.split("|") if b])
    return re.sub(not_before + "(" + one + ")(?!" + EDGE + ")", lambda m: names[m.group(1)], line)


main()
