#!/usr/bin/env python3
"""Composes the input and the expected output of the program `exercise`.

Usage: tools/exercise_lines.py

Writes crates/exercise/stdin and crates/exercise/stdout: the sample script of
samples/ and then the table of data/modes.script, which tools/modes_table.py
makes, with their answers one after the other. The line numbers of the second
are moved on, and the two accounts are added up. Needs Python 3 and no other
package.
"""
import re
from pathlib import Path

ROOT = Path(__file__).resolve().parent.parent
PARTS = ("samples/weir.script", "samples/weir.answers"), ("data/modes.script", "data/modes.answers")
ACCOUNT = re.compile(r"account: (\d+) calls, (\d+) accepted, (\d+) refused; (\d+) lines unreadable")


def main():
    script, answers, standing = "", [], []
    totals = [0, 0, 0, 0]
    for said, answered in PARTS:
        before = script.count("\n")
        script += (ROOT / said).read_text()
        for line in (ROOT / answered).read_text().splitlines():
            account = ACCOUNT.fullmatch(line)
            if account:
                totals = [a + int(b) for a, b in zip(totals, account.groups())]
            elif line.startswith("cipher "):
                standing.append(line)
            else:
                number, answer = line.split(": ", 1)
                answers.append(f"{int(number) + before}: {answer}")
    calls, accepted, refused, unreadable = totals
    answers.append(f"account: {calls} calls, {accepted} accepted, {refused} refused; {unreadable} lines unreadable")
    (ROOT / "crates/exercise/stdin").write_text(script)
    (ROOT / "crates/exercise/stdout").write_text("\n".join(answers + standing) + "\n")


if __name__ == "__main__":
    main()
