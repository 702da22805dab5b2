#!/usr/bin/env python3
"""Draws the documents' pictures, docs/pictures/*.png; needs Python 3, the program and Ghostscript (not for --check).

usage: tools/pictures.py [--check] [PROGRAM AND ITS FIRST WORDS]      (./abcps if none is given)

The pages are those that the program writes of examples/*.abc. The sheet of glyphs is a page of its own over the prolog
that the program writes, so each glyph has its outline. docs/pictures/pages.txt keeps the checksum of each page that a
picture was drawn from. With --check nothing is drawn: pages that differ from those are reported, with status 1.
"""
import hashlib
import os
import re
import subprocess
import sys
import tempfile

sys.dont_write_bytecode = True
import abcbook

ROOT = os.path.dirname(os.path.dirname(os.path.realpath(__file__)))
PICTURES = f"{ROOT}/docs/pictures"
BOOKS = {
    "one-measure": ["one-measure"],
    "page": ["reel", "song", "two-voices"],
    "decorations": ["decorations"],
    "engraving": ["engraving"],
    "bars": ["bars"],
    "staves": ["staves"],
}
# Width and height in points, and dots an inch.
SIZES = {
    "page": (595, 842, 100),
    "decorations": (500, 120, 110),
    "engraving": (560, 225, 110),
    "bars": (330, 120, 110),
    "staves": (400, 225, 110),
    "even": (365, 220, 110),
    "glyphs": (595, 460, 100),
    "transpose": (370, 274, 110),
}
END = "grestore\nshowpage\n%%Trailer\n%%Pages: 1\n%%EOF\n"


def page(program, books, *options):
    """Returns the document of some examples, one after another."""
    text = b""
    for book in books:
        with open(f"{ROOT}/examples/{book}.abc", "rb") as it:
            text += it.read()
    ran = subprocess.run([*program, "set", *options], input=text, stdout=subprocess.PIPE, check=True)
    return ran.stdout.decode()


def prolog_of(document):
    return document[: document.index("%%EndProlog\n")] + "%%EndProlog\n%%Page: 1 1\n"


def glyph_sheet(document):
    """Returns a sheet of all glyphs in the order of the prolog, eight in a row, each over a cross at its place."""
    text = prolog_of(document) + "pg\n-3000 -1600 translate 1.5 1.5 scale\n"
    glyphs = re.findall(r"^/([a-z][a-z0-9]) \{gsave translate translate ", document, re.M)
    for number, glyph in enumerate(glyphs):
        x = 1700 + number % 8 * 4300
        y = 1900 + (5 - number // 8) * 4700
        text += f"gsave 0.6 setgray 20 setlinewidth {x - 300} {y} m {x + 300} {y} l"
        text += f" {x} {y - 300} m {x} {y + 300} l k grestore\n"
        text += f"0 0 {x} {y} {glyph}\n({glyph}) -540 0 {x} {y - 1900} t1\n"
    return text + END


def framed(document, row):
    """Returns the pages of a document side by side, each in a frame of its paper; row 0 is the lowest."""
    begin = re.search(r"^/pg \{gsave 0\.01 0\.01 scale(.*)\} def$", document, re.M)[1]
    paper = re.search(r"^%%BoundingBox: 0 0 (\d+) (\d+)$", document, re.M).groups()
    width, height = (int(points) * 100 for points in paper)
    text = ""
    for number, items in re.findall(r"^%%Page: (\d+) \d+\npg\n(.*?)^grestore\nshowpage$", document, re.M | re.S):
        x, y = (int(number) - 1) * (width + 2000) + 1000, row * (height + 2000) + 1000
        corners = f"0 0 m {width} 0 l {width} {height} l 0 {height} l closepath k"
        text += f"gsave {x} {y} translate 100 setlinewidth {corners}\n"
        text += f"gsave {begin}\n{items}grestore grestore\n"
    return text


def pair_sheet(program, document, book, scale, *options):
    """Returns the pages of an example: without options above, and with them below."""
    text = prolog_of(document) + f"gsave\n{scale} {scale} scale\n"
    text += framed(page(program, [book]), 1) + framed(page(program, [book], *options), 0)
    return text + END


def pages_of(program):
    """Returns the pages by the names of their pictures."""
    pages = {name: page(program, books) for name, books in BOOKS.items()}
    pages["glyphs"] = glyph_sheet(pages["one-measure"])
    pages["even"] = pair_sheet(program, pages["one-measure"], "pages", "0.005", "--even")
    pages["transpose"] = pair_sheet(program, pages["one-measure"], "transpose", "0.01", "--transpose", "2")
    return pages


def sums_of(pages):
    rows = (f"{hashlib.sha256(text.encode()).hexdigest()}  {name}.ps\n" for name, text in sorted(pages.items()))
    return "".join(rows)


def draw(name, text):
    """Draws the first page of a document."""
    width, height, dots = SIZES[name]
    with tempfile.NamedTemporaryFile("w", suffix=".ps") as document:
        document.write(text)
        document.flush()
        words = ["gs", "-q", "-dSAFER", "-dBATCH", "-dNOPAUSE", "-dLastPage=1", "-sDEVICE=pnggray", f"-r{dots}"]
        words += ["-dTextAlphaBits=4", "-dGraphicsAlphaBits=4", "-dFIXEDMEDIA"]
        words += [f"-dDEVICEWIDTHPOINTS={width}", f"-dDEVICEHEIGHTPOINTS={height}"]
        subprocess.run([*words, f"-sOutputFile={PICTURES}/{name}.png", document.name], check=True)


def check(pages):
    """Returns whether the pages are those that the pictures were drawn from, and prints those that aren't."""
    with open(f"{PICTURES}/pages.txt", encoding="utf-8") as it:
        drawn = set(it)
    changed = sorted(drawn ^ set(sums_of(pages).splitlines(True)))
    for name in sorted({row.split()[1] for row in changed}):
        print(f"docs/pictures: the page {name} isn't the one that its picture was drawn from")
    return not changed


def main(words):
    if {"-h", "--help"} & set(words):
        print(__doc__, end="")
        return 0
    only_check = words[:1] == ["--check"]
    words = words[1:] if only_check else words
    pages = pages_of(abcbook.words_of(words[0]) if words else [f"{ROOT}/abcps"])
    if only_check:
        return 0 if check(pages) else 1
    for name in SIZES:
        draw(name, pages[name])
    with open(f"{PICTURES}/pages.txt", "w", encoding="utf-8") as it:
        it.write(sums_of(pages))
    return 0


sys.exit(main(sys.argv[1:]))
