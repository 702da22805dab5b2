#!/usr/bin/env python3
"""Prints a book of one tune that grows: bench/growing_book.py MEASURES VOICES VERSES; needs Python 3 alone."""
import sys

BARS = ["CDEF GABc", "c2 BA G2 FE", "[CE]2 ^F_B =A2 d2", "(3cde f2 (gf) e2"]
SUNG = [8, 6, 5, 7]


def main(measures, voices, verses):
    print("X:1\nT:growth\nM:4/4\nL:1/8\nK:D")
    for voice in range(1, voices + 1):
        if voices > 1:
            print(f"V:{voice}")
        for start in range(0, measures, 4):
            line = [i % 4 for i in range(start, min(start + 4, measures))]
            print("|".join(BARS[i] for i in line) + "|")
            for _ in range(verses):
                print("w:" + "|".join(" ".join(["la"] * SUNG[i]) for i in line) + "|")


main(*map(int, sys.argv[1:]))
