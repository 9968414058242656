#!/usr/bin/env python3
"""Holds docs/PROMISES.md to the code: every public function, anything that another crate or C can call, asks nothing of its caller, promises
something, and has a row in the table "Public functions" that names its promise, the theorem that two allowed results are equal, and two must-fail edits
or more. Each name in a row must be found: the promise in the function's contract and in specs/, the theorem in proofs/, of the function's crate or of one
below it, the edits in the crate's must-fail/. A row for a function that is not there is a fault too. Exceptions stand in the table "Exceptions" below it, with their reason.

Exit status 0: nothing is wrong. 1: the faults are printed. The last line counts the functions.
"""

import pathlib
import re
import sys

TOP = pathlib.Path(__file__).resolve().parent.parent
HEAD = re.compile(r'^\s*pub (?:const |unsafe |extern "C" )*fn (\w+)')


def public_functions():
    """Crate, name and contract, as its lines, for each public function."""
    for path in sorted(TOP.glob("crates/*/src/**/*.rt")):
        crate = path.relative_to(TOP).parts[1]
        lines = path.read_text(encoding="utf-8").split("\n")
        for at, line in enumerate(lines):
            found = HEAD.match(line)
            if found:
                clauses = []
                for text in lines[at + 1 :]:
                    if text.strip() == "{" or text.startswith("}"):
                        break
                    clauses.append(text.strip())
                yield crate, found.group(1), clauses


def table(title):
    """The rows of a table of docs/PROMISES.md, as lists of the names in backquotes in each cell."""
    text = (TOP / "docs" / "PROMISES.md").read_text(encoding="utf-8")
    part = text.split(f"\n## {title}\n", 1)
    if len(part) == 1:
        return []
    rows = [line for line in part[1].split("\n## ", 1)[0].split("\n") if line.startswith("|")]
    return [[re.findall(r"`([^`]+)`", cell) for cell in row.strip("|").split("|")] for row in rows[2:]]


def with_floors(crate):
    """A crate and those that crates.txt puts below it."""
    for line in (TOP / "crates.txt").read_text(encoding="utf-8").split("\n"):
        head, colon, below = line.partition(":")
        if colon and head.split()[:1] == [crate]:
            return [crate, *below.split()]
    return [crate]


def stands_in(name, crate, folder):
    """Whether a name is declared in a file of that folder, of the crate or of one below it."""
    word = re.compile(rf"^\s*(?:pub |abbrev |unfoldable )*(?:record |data )?{re.escape(name)}(?: |$)", re.M)
    files = [path for floor in with_floors(crate) for path in (TOP / "crates" / floor / folder).rglob("*.antt")]
    return any(word.search(path.read_text(encoding="utf-8")) for path in files)


def faults_of_row(crate, clauses, row):
    """What is wrong with the row of a function: its promise, its theorem, its edits."""
    promises, theorems, edits = row[1], row[2], row[3]
    words = set(re.findall(r"[^\s(){}]+", " ".join(clauses)))
    for each in promises:
        if each not in words:
            yield f"promise {each} is not in its contract"
    for kind, names, folder in (("promise", promises, "specs"), ("theorem", theorems, "proofs")):
        if not names:
            yield f"names no {kind}"
        for each in names:
            if not stands_in(each, crate, folder):
                yield f"{kind} {each} is in no file of {folder}/"
    if len(edits) < 2:
        yield "names fewer than two must-fail edits"
    for edit in edits:
        if not (TOP / "crates" / crate / "must-fail" / f"{edit}.edit").is_file():
            yield f"edit {edit} is not in must-fail/"


def main():
    rows = {row[0][0]: row for row in table("Public functions")}
    excepted = {row[0][0] for row in table("Exceptions") if row[0]}
    faults = []
    names = set()
    for crate, name, clauses in public_functions():
        whole = f"{crate}::{name}"
        names.add(whole)
        if whole in excepted:
            continue
        if any(text.startswith("requires") for text in clauses):
            faults.append(f"{whole} asks something of its caller")
        if not any(text.startswith("ensures") for text in clauses):
            faults.append(f"{whole} promises nothing")
        if whole not in rows:
            faults.append(f"{whole} has no row in docs/PROMISES.md")
        else:
            faults += [f"{whole}: {fault}" for fault in faults_of_row(crate, clauses, rows[whole])]
    faults += [f"{whole} is in docs/PROMISES.md and not in the code" for whole in (set(rows) | excepted) - names]
    for fault in faults:
        print("promises:", fault)
    print(f"promises: {len(names)} public functions, {len(excepted)} exceptions, {len(faults)} faults")
    return 1 if faults else 0


if __name__ == "__main__":
    sys.exit(main())
