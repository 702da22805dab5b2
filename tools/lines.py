#!/usr/bin/env python3
"""Fails if a line of a .rt or .antt file of the crates passes 120 columns, and prints each: FILE:LINE: COLUMNS.

usage: tools/lines.py
"""
import os, sys

WIDTH = 120


def long_lines(path):
    """The number of each line past the width, with its columns."""
    with open(path, encoding="utf-8") as it:
        for number, line in enumerate(it, 1):
            columns = len(line.rstrip("\n"))
            if columns > WIDTH:
                yield number, columns


def sources(root):
    """The sources of the crates, without what checks leave in out/."""
    for at, folders, files in os.walk(f"{root}/crates"):
        folders[:] = sorted(it for it in folders if it not in ("out", "data"))
        for name in sorted(files):
            if name.endswith((".rt", ".antt")):
                yield os.path.relpath(f"{at}/{name}", root)


def main():
    root = os.path.join(os.path.dirname(os.path.abspath(__file__)), "..")
    found = 0
    for path in sources(root):
        for number, columns in long_lines(f"{root}/{path}"):
            print(f"{path}:{number}: {columns}")
            found += 1
    if found:
        print(f"{found} lines pass {WIDTH} columns")
    return 1 if found else 0


if __name__ == "__main__":
    sys.exit(main())
