#!/usr/bin/env python3
"""Tries each example of docs/FAULTS.md; needs Python 3 and the program.

usage: tools/faults.py [PROGRAM AND ITS FIRST WORDS]      (./abcps if none is given)

A wrong example must give the line that the document says, a right one no fault. Prints what differs and how many
examples were tried, and ends with 1 if some differ.
"""
import os
import re
import subprocess
import sys

sys.dont_write_bytecode = True
import abcbook

ROOT = os.path.dirname(os.path.dirname(os.path.realpath(__file__)))
MADE = {
    "a tune with the lines `V:1` to `V:17`": [f"V:{n}" for n in range(1, 18)],
    "a line of 2001 measures `A|`": ["A|" * 2001],
    "a line of 50,001 notes `A`": ["A" * 50001],
    "a line of 69 notes `G` and a bar": ["G" * 69 + "|"],
}


def cells_of(row):
    return [cell.strip().replace(r"\|", "|") for cell in re.split(r"(?<!\\)\|", row)[1:-1]]


def code(text):
    """Returns the texts between backticks, also those of doubled backticks around a backtick."""
    return [a or b for a, b in re.findall(r"``\s?(.*?)\s?``|`([^`]*)`", text)]


def book_of(lines):
    """Returns a book of these lines, with a header if they have none; a field alone is of the header, but V: is not."""
    if len(lines) == 1 and re.match("[MLKV]:", lines[0]):
        field = lines[0]
        lines = {"K": ["X:1", field, "A|"], "V": [field, "A|"]}.get(field[0], ["X:1", field, "K:C", "A|"])
    head = [] if any(line.startswith("X:") for line in lines) else ["X:1", "K:C"]
    return "\n".join(head + lines) + "\n"


def listed(fault, row):
    """Returns the example of a line 'Wrong: ..' or 'Right: ..': its book, options and report."""
    report, text = "", row[len("- Wrong: "):].rstrip("\n")
    if row.startswith("- Wrong"):
        text, after = text.split(" is reported as ")
        report = after.strip("`") + "\n"
        assert report.split(": ")[1].split()[0] == fault, row
    text, _, options = text.partition(" with `")
    if text not in MADE and not text.startswith("`"):
        return []
    return [(fault, book_of(MADE.get(text) or code(text)), options.strip("`").split(), report)]


def caused(fault, row):
    """Returns the examples of a row of causes 'what is met | what is read instead': faulty, and without a fault."""
    wrong, right = cells_of(row)[:2]
    found = [(fault, book_of(code(wrong)), [], None)] if code(wrong) else []
    if right.startswith("`"):
        found.append((fault, book_of(code(right.split(" (")[0])), [], ""))
    return found


def examples():
    """Returns each example: its fault, book, options, and the report; None if any report of the fault will do."""
    found, fault, in_causes = [], "", False
    with open(f"{ROOT}/docs/FAULTS.md", encoding="utf-8") as document:
        for row in document:
            if row.startswith("### "):
                fault = row[4:].strip()
            in_causes = row.startswith("| You have") or (in_causes and row.startswith("|"))
            if row.startswith(("- Wrong: ", "- Right: ")):
                found += listed(fault, row)
            elif in_causes and not row.startswith(("| You have", "|---")):
                found += caused(fault, row)
    return found


def differs(program, fault, book, options, report):
    """Returns what the program reports if that isn't what the document says."""
    ran = subprocess.run([*program, "set", *options], input=book, capture_output=True, text=True)
    if report is None:
        names = [line.split(": ")[1].split()[0] for line in ran.stderr.splitlines()]
        return None if names == [fault] else ran.stderr or "nothing"
    return None if ran.stderr == report else ran.stderr or "nothing"


def main(words):
    if {"-h", "--help"} & set(words):
        print(__doc__, end="")
        return 0
    program = abcbook.words_of(words[0]) if words else [f"{ROOT}/abcps"]
    tried = wrong = 0
    for fault, book, options, report in examples():
        said = differs(program, fault, book, options, report)
        tried += 1
        if said is not None:
            wrong += 1
            wanted = f"'{report.strip() or 'no fault'}'" if report is not None else fault
            print(f"docs/FAULTS.md: {fault}: {book[:200]!r} gives '{said.strip()[:300]}', the document says {wanted}")
    print(f"{tried} examples of faults tried, {wrong} differ")
    return 1 if wrong else 0


if __name__ == "__main__":
    sys.exit(main(sys.argv[1:]))
