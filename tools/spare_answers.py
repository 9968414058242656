#!/usr/bin/env python3
# Says which answers written by hand the check finds alone. Usage, at the top of a checkout that is proved: tools/spare_answers.py CRATE [WORD]
# Each Answers.antt of the crate (those whose path has WORD) is taken away, the crate is checked, and the file is put back.
import pathlib
import re
import subprocess
import sys


def left_open(crate, folder):
    """The goals that the check leaves open in the function of this folder."""
    out = subprocess.run(["rt", "check", "--allow-holes"], cwd=crate, capture_output=True, text=True)
    name = "::".join([crate.name, *folder.relative_to(crate / "proofs").parts])
    line = re.search(rf"^fn {re.escape(name)}: .*?did not prove (.*?)(;|$)", out.stdout + out.stderr, flags=re.M)
    return set(re.findall(r"`([^`]+)`", line.group(1))) if line else set()


def main():
    crate = pathlib.Path("crates") / sys.argv[1]
    word = sys.argv[2] if len(sys.argv) > 2 else ""
    for answers in sorted((crate / "proofs").rglob("Answers.antt")):
        if word not in str(answers):
            continue
        text = answers.read_text()
        goals = re.findall(r"^pub (\S+) : goal\.", text, flags=re.M)
        answers.unlink()
        try:
            found = left_open(crate, answers.parent)
        finally:
            answers.write_text(text)
        spare = [goal for goal in goals if goal not in found]
        print(answers, "spare:", ", ".join(spare) if spare else "none", flush=True)


main()
