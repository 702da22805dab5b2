#!/usr/bin/env python3
"""Measures the gate crate by crate; needs Python 3, Linux and the Rattle kit (`rt`) on the path.

usage: tools/gate.py [--anew]     runs rt ci and prints what each crate took
       tools/gate.py --sizes      prints the lines of each crate's code, definitions and proofs, and its edits

A row has the processor minutes of a crate's proof, of the proof and build of its tests, and of its must-fail edits with
what they begin with, and the most memory that one of its processes held. Then come the sum over all crates, and the sum
over those that the program needs. With --anew the gate proves everything from nothing: a kit whose rt ci knows the flag
gets it, and any other kit does that anyway. Other words go to rt ci as they are.

The script reads the time of each process four times a second until the process ends, so a row lacks the last moment of
each process. The last two lines are the system's own count, and the longest chain of crates that wait for each other.
"""
import glob
import os
import resource
import subprocess
import sys
import time

TICK = os.sysconf("SC_CLK_TCK")
KINDS = ("proof", "tests", "edits")


def crates():
    """Returns the crates in the order of crates.txt, each with what it uses."""
    used = {}
    with open("crates.txt", encoding="utf-8") as lines:
        for line in lines:
            head, colon, names = line.partition("#")[0].partition(":")
            if colon:
                used[head.split()[0]] = names.split()
    return used


def below(name, used):
    """Returns a crate and all crates below it."""
    found, rest = set(), [name]
    while rest:
        one = rest.pop()
        if one in used and one not in found:
            found.add(one)
            rest += used[one]
    return found


def row(*cells):
    print("|", " | ".join(str(it) for it in cells), "|", flush=True)


def lines_of(pattern):
    total = 0
    for path in glob.glob(pattern, recursive=True):
        with open(path, "rb") as it:
            total += it.read().count(b"\n")
    return total


def sizes(used):
    row("Crate", "Code", "Definitions", "Proofs", "Edits")
    row("---", "---", "---", "---", "---")
    sums = [0, 0, 0, 0]
    for name in used:
        at = f"crates/{name}"
        counts = [lines_of(f"{at}/src/**/*.rt"), lines_of(f"{at}/specs/**/*.antt"), lines_of(f"{at}/proofs/**/*.antt")]
        counts.append(len(glob.glob(f"{at}/must-fail/*.edit")))
        sums = [a + b for a, b in zip(sums, counts)]
        row(f"`{name}`", *counts)
    row("all", *sums)


def read(path):
    try:
        with open(path, "rb") as it:
            return it.read()
    except OSError:
        return b""


def processes():
    """Returns each process by its number: its parent, when it began and its processor time, in ticks."""
    found = {}
    for entry in os.listdir("/proc"):
        if entry.isdigit():
            said = read(f"/proc/{entry}/stat").rpartition(b")")[2].split()
            if len(said) > 19:
                found[int(entry)] = int(said[1]), int(said[19]), int(said[11]) + int(said[12])
    return found


def work_of(pid):
    """Returns the crate and the kind of work of a process of rattle."""
    words = read(f"/proc/{pid}/cmdline").decode(errors="replace").split("\0")
    if "--crate-name" not in words:
        return None
    name = words[words.index("--crate-name") + 1]
    try:
        folder = os.readlink(f"/proc/{pid}/cwd")
    except OSError:
        folder = ""
    if os.path.basename(folder).startswith("rt-edit-"):
        return name, "edits"
    return name, "tests" if "--test" in words else "proof"


def most_memory(pid):
    for line in read(f"/proc/{pid}/status").splitlines():
        if line.startswith(b"VmHWM:"):
            return int(line.split()[1]) / 1e6
    return 0.0


class Watch:
    """What the processes below one process took, by crate and kind of work."""

    def __init__(self, top):
        self.top, self.works, self.times, self.memory = top, {}, {}, {}

    def look(self):
        found = processes()
        for pid, (parent, begun, ticks) in found.items():
            chain = [pid]
            while parent in found and parent != self.top:
                chain.append(parent)
                parent = found[parent][0]
            if parent != self.top:
                continue
            key = pid, begun
            if not self.works.get(key):
                # (one that was seen before it became rattle is asked again)
                works = (work_of(it) for it in chain)
                self.works[key] = next((it for it in works if it), None)
            self.times[key] = ticks
            work = self.works[key]
            if work:
                self.memory[work[0]] = max(self.memory.get(work[0], 0.0), most_memory(pid))

    def minutes(self, name, kind):
        mine = (ticks for key, ticks in self.times.items() if self.works[key] == (name, kind))
        return sum(mine) / TICK / 60


def table(used, watch):
    stands = below("abcps_main", used)
    row("Crate", "Proof", "Tests", "Edits", "All", "GB")
    row("---", "---", "---", "---", "---", "---")
    sums, program = [0.0] * 3, 0.0
    for name in used:
        took = [watch.minutes(name, kind) for kind in KINDS]
        sums = [a + b for a, b in zip(sums, took)]
        program += took[0] if name in stands else 0.0
        row(f"`{name}`", *(f"{it:.1f}" for it in (*took, sum(took))), f"{watch.memory.get(name, 0.0):.1f}")
    row("all", *(f"{it:.1f}" for it in (*sums, sum(sums))), f"{max(watch.memory.values(), default=0.0):.1f}")
    row("of these the proofs that the program needs", f"{program:.1f}", "", "", "", "")


def longest_chain(used, minutes):
    """Returns the crates, lowest first, whose proofs take longest one after another, each using the one before it."""
    chains = {}

    def chain_to(name):
        if name not in chains:
            under = [chain_to(it) for it in used[name] if it in used]
            chains[name] = max(under, key=lambda it: sum(minutes[one] for one in it), default=[]) + [name]
        return chains[name]

    return max((chain_to(it) for it in used), key=lambda it: sum(minutes[one] for one in it), default=[])


def tell_chain(used, watch):
    minutes = {name: watch.minutes(name, "proof") for name in used}
    chain = longest_chain(used, minutes)
    each = ", ".join(f"{name} {minutes[name]:.1f}" for name in chain)
    print(f"The longest chain of proofs takes {sum(minutes[it] for it in chain):.1f} minutes: {each}.")


def words_for(words):
    """Returns the words without --anew if this kit's rt ci has no such flag."""
    told = subprocess.run(["rt", "help"], stdout=subprocess.PIPE, stderr=subprocess.STDOUT, text=True).stdout
    return [it for it in words if it != "--anew" or "--anew" in told]


def gate(words, used):
    begun = time.monotonic()
    run = subprocess.Popen(["rt", "ci", *words_for(words)], stdout=sys.stderr)
    watch = Watch(run.pid)
    while run.poll() is None:
        watch.look()
        time.sleep(0.25)
    took = resource.getrusage(resource.RUSAGE_CHILDREN)
    table(used, watch)
    print()
    minutes, clock = (took.ru_utime + took.ru_stime) / 60, (time.monotonic() - begun) / 60
    print(f"By the system's count {minutes:.1f} processor minutes, in {clock:.1f} minutes by the clock.")
    tell_chain(used, watch)
    return run.returncode


def main(words):
    if {"-h", "--help"} & set(words):
        print(__doc__, end="")
        return 0
    os.chdir(os.path.join(os.path.dirname(os.path.realpath(__file__)), ".."))
    used = crates()
    if words == ["--sizes"]:
        sizes(used)
        return 0
    return gate(words, used)


sys.exit(main(sys.argv[1:]))
