#!/usr/bin/env python3
"""Prints the man page abcps.1 from the page that abcps --help shows and from docs/FAULTS.md; needs Python 3 alone.

usage: tools/man.py > abcps.1
"""
import os
import re
import sys

HERE = os.path.dirname(os.path.realpath(__file__))
TITLES = {"USAGE": "SYNOPSIS", "STATUS": "EXIT STATUS", "ALSO": "RELATED PROGRAMS"}
EXAMPLES = [
    ("One book to paper", "abcps set < tune.abc > page.ps"),
    ("A PDF, with faults by file and line", "abcpdf tune.abc"),
    ("Several books on one document", "cat one.abc two.abc | abcps set > pages.ps"),
    ("A tune a whole step higher", "abcps set --transpose 2 < tune.abc > page.ps"),
    ("Whether no breaking of lines is better", "abcps systems --table < tune.abc | abcps check"),
]


def read(path):
    with open(f"{HERE}/{path}", encoding="utf-8") as it:
        return it.read()


def escaped(text):
    text = text.replace("\\", "\\e").replace("-", "\\-")
    return re.sub(r"^([.'])", r"\\&\1", text)


def sections():
    """Returns the first line of the help, and its sections with their lines."""
    first, *rest = read("help.txt").split("\n")
    found = {}
    for line in rest:
        if re.match("[A-Z]", line):
            found[line] = name = []
        elif found:
            name.append(line)
    return first, found


def body_of(lines):
    """Returns the lines of a section: an entry begins at two blanks, its text is further in or after two blanks."""
    text = []
    for line in lines:
        entry = re.fullmatch(r"(?:  |      )(\S.*?)(?:  +(\S.*))?", line)
        if not line.strip():
            text.append(".PP")
        elif entry and entry[2]:
            text += [".TP", escaped(entry[1]), escaped(entry[2])]
        elif line.startswith("      "):
            text.append(escaped(line.strip()))
        else:
            text += [".TP", f".B {escaped(line.strip())}"]
    return text


def faults():
    """Returns the name of each fault with the first sentence about it."""
    found = re.findall(r"^### (\w+)\n(.*?\.)(?= [A-Z]|\n)", read("../docs/FAULTS.md"), re.M)
    return [line for name, words in found for line in (".TP", f".B {name}", escaped(words.replace("`", "")))]


def main():
    if {"-h", "--help"} & set(sys.argv[1:]):
        print(__doc__, end="")
        return
    first, found = sections()
    usage = [it.strip() for it in found["USAGE"]]
    page = [".TH ABCPS 1", ".SH NAME", escaped(first.replace(": ", " - ", 1))]
    page += [".SH SYNOPSIS", ".nf", *(escaped(it) for it in usage if it.startswith("abcps")), ".fi", ".SH DESCRIPTION"]
    page += [escaped(it) for it in usage if it and not it.startswith("abcps")]
    for name in ("COMMANDS", "ALSO", "STATUS"):
        page += [f".SH {TITLES.get(name, name)}", *body_of(found[name])]
    page += [".SH FAULTS", "A skipped tune gets one line on standard error: tune K line L column C: NAME.", *faults()]
    page += [".SH FILES", *body_of(found["FILES"]), ".SH EXAMPLES"]
    page += [line for words, command in EXAMPLES for line in (".TP", words, f".B {escaped(command)}")]
    print("\n".join(page))


main()
