#!/usr/bin/env python3
"""Tries wrong bodies that the gate doesn't try; needs Python 3 and the Rattle kit (`rt`) on the path.

usage: tools/plants.py [CRATE [EDIT ..]]      tries the edits of all crates, of one, or these of it

plants/CRATE/NAME.edit changes a line or a few of a crate, in the form of the gate's must-fail edits: `file:` names a
file of the crate, `old:` is a text that stands once there, and `new:` is what takes its place. The prover must refuse
each edit. Of each is printed how many seconds of one processor it took, and what the prover said first. The first edit
of a crate takes as long as the crate's proof, another one a third of a minute. The crates below it are proved first, or
taken from what tools/keep.py keeps. Ends with 1 if an edit isn't refused.
"""
import glob
import os
import sys

if {"-h", "--help"} & set(sys.argv[1:2]):
    print(__doc__, end="")
    sys.exit(0)
sys.dont_write_bytecode = True
import keep


def plants_of(crate):
    """Returns the edits of a crate by their names."""
    paths = sorted(glob.glob(f"{keep.ROOT}/plants/{crate}/*.edit"))
    return {os.path.basename(path).removesuffix(".edit"): path for path in paths}


def chosen(words):
    """Returns the edits to try, by crate. Exits at a name that is no crate or no edit."""
    if not words:
        return {crate: list(plants_of(crate).values()) for crate in sorted(os.listdir(f"{keep.ROOT}/plants"))}
    crate, names = words[0], words[1:]
    found = plants_of(crate)
    missing = [it for it in names if it not in found]
    if not found or missing:
        sys.exit(f"plants.py: plants/ has no edit {' '.join(missing) or 'of ' + crate}")
    return {crate: [found[it] for it in names or found]}


def main(words):
    refused = [keep.try_edits(keep.CRATES[crate], paths) for crate, paths in chosen(words).items()]
    return 0 if all(refused) else 1


sys.exit(main(sys.argv[1:]))
