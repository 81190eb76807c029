#!/usr/bin/env python3
"""Brings this repository's definitions and lemmas to today's spelling: words in snake case, a dash only
between two names. Run once, at the top, on a tree as the toolchain's own converter leaves it.

respell.tsv has a line for each name: the old one, the new one and, where it isn't every crate, the crates.
Names are replaced as whole words, in specs/, proofs/, the ghost text of src/, and the edits."""
import glob
import os
import re

HERE = os.path.dirname(os.path.abspath(__file__))
WORD = re.compile(r"[^\s(){}\[\],;.|\"`]+")


def load():
    rows = []
    with open(os.path.join(HERE, "respell.tsv"), encoding="utf-8") as lines:
        for line in lines:
            old, new, *crates = line.rstrip("\n").split("\t")
            rows.append((old, new, crates[0].split() if crates else None))
    return rows


def table_for(rows, crate):
    return {old: new for old, new, crates in rows if crates is None or crate in crates}


def respell(text, table):
    return WORD.sub(lambda m: table.get(m.group(0), m.group(0)), text)


def comment_at(line, mark):
    at = line.find(mark)
    return len(line) if at < 0 else at


def respell_file(path, table, mark):
    with open(path, encoding="utf-8") as f:
        lines = f.read().split("\n")
    camel = {o: n for o, n in table.items() if "-" not in o and len(o) > 1}
    out = []
    for line in lines:
        at = comment_at(line, mark)
        out.append(respell(line[:at], table) + respell(line[at:], camel))
    text = "\n".join(out)
    if text != "\n".join(lines):
        with open(path, "w", encoding="utf-8") as f:
            f.write(text)


def main():
    rows = load()
    for crate in sorted(os.listdir("crates")):
        table = table_for(rows, crate)
        for part in ("specs", "proofs"):
            for path in glob.glob(f"crates/{crate}/{part}/**/*.antt", recursive=True):
                respell_file(path, table, "--")
        for path in glob.glob(f"crates/{crate}/src/**/*.rt", recursive=True):
            ghost = {o: n for o, n in table.items() if "-" in o or re.search(r"[a-z][A-Z]", o)}
            respell_file(path, ghost, "//")


if __name__ == "__main__":
    main()
