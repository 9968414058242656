#!/usr/bin/env python3
"""Spells the repository's own definitions and lemmas in snake case, after port.py of the kit.

usage: python3 tools/respell.py FOLDER     rewrites the .antt, .rt, .edit and .md files below FOLDER in place, once

A name that the repository's specs/ and proofs/ define (of an abbrev, a lemma, a field, a constructor; not a type and not the goals of a function's
proof file) is spelled so: a capital inside becomes _ and a small letter, as delayLimit gives delay_limit; a dash becomes _ unless it joins two words
of std, as in length-take. Names that would fall together with others, or with a name of a source file, stay or are named in SPECIAL.
--list prints the table and changes nothing.
"""

import os
import re
import sys

STD = set("length take drop append map sum min max get_or set suc zero reverse replicate count".split())
# A lemma that would have its function's name gets _lem.
LEMMAS = "cap-ahead cap-from delays-of each-event held-limit next-cap of-rule of-target rule-kept rule-passes set-from unfolds-to rounds-to same-m held-pair".split()
SPECIAL = {n: n.replace("-", "_") + "_lem" for n in LEMMAS}
SPECIAL.update({"capped_at": "capped_at_lem", "l-unlimited": "unlimited_l", "w-unlimited": "unlimited_w"})
KEEP = set()
TOKEN = re.compile(r"[^\s(){}\[\].,;:\"`«»@=|]+")
SIGN = re.compile(r"^\s*(?:(?:abbrev|unfoldable|pub|ruleset|instance)\s+)*([^\s(){}\[\].,;:\"`]+)\s*(?:=|:)(?:\s|$)")
HEAD = re.compile(r"^\s*(?:pub\s+)?(?:record|data)\s")
CTOR = re.compile(r"^\s*(?:pub\s+)?constructor\s+(\S+)")


def files(root, endings):
    for folder, dirs, names in os.walk(root):
        dirs[:] = sorted(d for d in dirs if d not in ("out", ".git", "target"))
        for n in sorted(names):
            if n.endswith(endings):
                yield os.path.join(folder, n)


def read(p):
    with open(p, encoding="utf-8") as f:
        return f.read()


def goal_file(p):
    """A file of a function's proof: it stands in the function's folder, not beside the laws."""
    folder, name = os.path.split(p)
    return name in ("Proof.antt", "Answers.antt", "Invariants.antt") and os.path.basename(folder) not in ("specs", "proofs")


def defined(root):
    own, goals, outside = set(), set(), set()
    for p in files(os.path.join(root, "crates"), (".antt",)):
        text = read(p)
        for line in text.split("\n"):
            if line.startswith("use "):
                m = re.match(r"use ([^{\s]+)\.\{(.*)\}", line)
                if m and not m.group(1).startswith("Rattle."):
                    outside |= set(x.strip().split(" as ")[0] for x in m.group(2).split(","))
                if m and m.group(1).startswith("Rattle.std"):
                    outside |= set(x.strip() for x in m.group(2).split(","))
                continue
            if line.strip().startswith("--") or HEAD.match(line):
                continue
            m = SIGN.match(line) or CTOR.match(line)
            if not m:
                continue
            if goal_file(p):
                if re.match(r"\S+ : tie\.", line):
                    goals.add(m.group(1))
            elif re.match(r"^\s*(?:(?:abbrev|unfoldable|pub|ruleset)\s+)*\S+\s*(?:=|:)(?:\s|$)", line):
                own.add(m.group(1))
    return own, goals, outside


def snake(piece):
    return re.sub(r"(?<=[a-z0-9])([A-Zℤℕ])", lambda m: "_" + m.group(1).lower(), piece)


def named(piece, known):
    return bool(piece) and (piece in known or not piece[0].islower())


def spell(name, known):
    pieces = name.split("-")
    out = pieces[0] if named(pieces[0], set()) else snake(pieces[0])
    for a, b in zip(pieces, pieces[1:]):
        joins = named(a, known) and named(b, known) and not b.isdigit()
        out += ("-" if joins else "_") + (b if named(b, set()) else snake(b))
    return out


def table(root):
    own, goals, outside = defined(root)
    code = set()
    for p in files(os.path.join(root, "crates"), (".rt",)):
        text = "\n".join(x for x in read(p).split("\n") if not x.startswith("ghost use"))
        code |= set(re.findall(r"\b(?:fn|let|let mut|const)\s+([a-z_A-Z0-9]+)", text)) | set(re.findall(r"\b([a-z_0-9]+)\s*:\s", text))
    to, seen = {}, {}
    for n in sorted(own):
        if n in outside or n in KEEP or not n[0].isalpha() or n[0].isupper():
            continue
        if n == "capped_at" and "cappedAt" not in own:
            continue
        new = SPECIAL.get(n) or spell(n, STD)
        if new != n:
            to[n] = new
    clash = []
    for n, new in sorted(to.items()):
        if new in own and new not in to or new in outside or new in seen:
            clash.append((n, new, "a name"))
        seen[new] = n
        if new in code:
            clash.append((n, new, "in the source"))
        if n in goals:
            clash.append((n, new, "in a proof file"))
    return to, clash


def respell(root):
    to, _ = table(root)
    for p in files(root, (".antt", ".rt", ".edit", ".md")):
        text = read(p)
        turned = TOKEN.sub(lambda m: to.get(m.group(0), m.group(0)), text)
        if turned != text:
            with open(p, "w", encoding="utf-8") as f:
                f.write(turned)


if __name__ == "__main__":
    words = [w for w in sys.argv[1:] if not w.startswith("--")]
    if "--list" in sys.argv:
        to, clash = table(words[0])
        for n, new in sorted(to.items()):
            print(n, new)
        for c in clash:
            print("CLASH", *c)
    else:
        respell(words[0])
