#!/usr/bin/env python3
"""Proves crates in parallel and keeps what it proved by content; needs Python 3 and the Rattle kit (`rt`) on the path.

Each crate is proved over the statements of the crates below it. A further run, or one in another clone, proves only
what changed. Use it between two runs of the gate: only rt ci gives the verdict.

usage: tools/keep.py [CRATE ..]              proves these crates, or all, and the crates below them
       tools/keep.py check CRATE [FLAG ..]   checks one crate; flags go to rattle check, as --allow-holes, --only FN
       tools/keep.py edits CRATE [EDIT ..]   tries the crate's must-fail edits, or these of them
       tools/keep.py build PROGRAM           proves a program and the crates below it, and builds it for the launcher

What is proved is kept in the folder that ABCPS_KEPT names, else in ~/.cache/abcps (some 3 GB in all). What a check
keeps for the next one is in the crate's out/checked. Two runs in one clone race: let one end before the next begins.
"""
import hashlib
import importlib.machinery
import importlib.util
import math
import os
import resource
import shutil
import subprocess
import sys
import tempfile
import time
from concurrent.futures import FIRST_COMPLETED, ThreadPoolExecutor, wait


def load(path):
    """Returns the kit's command rt as a module: how it calls the prover is its own matter."""
    loader = importlib.machinery.SourceFileLoader("rt", path)
    made = importlib.util.module_from_spec(importlib.util.spec_from_loader("rt", loader))
    sys.modules["rt"] = made
    loader.exec_module(made)
    return made


if __name__ == "__main__" and {"-h", "--help"} & set(sys.argv[1:2]):
    print(__doc__, end="")
    sys.exit(0)
sys.dont_write_bytecode = True
os.chdir(os.path.join(os.path.dirname(os.path.realpath(__file__)), ".."))
rt = load(os.path.realpath(shutil.which("rt") or sys.exit("keep.py: rt is not on the path")))
lib, Crate = rt.rtlib, rt.Crate
KEPT = os.environ.get("ABCPS_KEPT") or os.path.expanduser("~/.cache/abcps")
ROOT = os.getcwd()
Crate.cuts_libraries = True
Crate.allowed = rt.handles_of(ROOT)
lib.Crate = Crate
lib.guarded()
CRATES = {it.name: it for it in sorted(lib.crates_below(ROOT), key=lambda it: len(it.below()))}


def rattle(crate, *words):
    """Runs the prover in a crate's folder, and returns how it ended with what it printed."""
    how = {"stdin": subprocess.DEVNULL, "stdout": subprocess.PIPE, "stderr": subprocess.STDOUT, "errors": "replace"}
    return subprocess.run([lib.RATTLE, *words], cwd=crate.folder, **how)


def summed(folder, files, start=b""):
    """Returns a sum of the contents of files of a folder."""
    made = hashlib.sha256(start)
    for path in files:
        with open(path, "rb") as it:
            made.update(path[len(folder) :].encode() + b"\0" + hashlib.sha256(it.read()).digest())
    return made.hexdigest()


def all_files(folder):
    return sorted(f"{at}/{name}" for at, _, names in os.walk(folder) for name in names)


def room_of(crate, sums):
    """Returns the folder in which the crate is kept as it is now, over crates with these sums."""
    with open(f"{rt.KIT}/KIT-ID", "rb") as it:
        start = it.read() + "".join(sums[dep.name] for dep in crate.below()).encode()
    return f"{KEPT}/{crate.name}-{summed(crate.folder, lib.files_of(crate.folder), start)[:24]}"


def put_statements(room, into):
    """Copies what is kept of a crate to the folder in which the crates above read its statements."""
    mark = f"{into}/kept"
    if os.path.isfile(mark):
        with open(mark, encoding="utf-8") as it:
            if it.read() == room:
                return
    shutil.rmtree(into, ignore_errors=True)
    shutil.copytree(room, into)
    with open(mark, "w", encoding="utf-8") as it:
        it.write(room)


def prove(crate, sums, jobs):
    """Proves a library, or takes what is kept of it. Returns why it isn't proved, if so, and the seconds it took."""
    room, took = room_of(crate, sums), 0
    if not os.path.isdir(room):
        part, before = tempfile.mkdtemp(dir=KEPT), time.monotonic()
        words = crate.words(["--jobs", str(jobs)], keeps=False)
        ran = rattle(crate, "build", *words, "--statements", "-o", f"{part}/{crate.name}.rlib")
        if ran.returncode:
            shutil.rmtree(part)
            return f"{crate.name} isn't proved:\n{ran.stdout}", 0
        try:
            os.rename(part, room)
        except OSError:  # another clone has proved the same meanwhile
            shutil.rmtree(part)
        took = time.monotonic() - before
    put_statements(room, os.path.dirname(crate.rlib))
    sums[crate.name] = summed(room, all_files(room))  # from here on those above may begin
    return None, took


def by_chains(crates):
    """Returns the crates, those with the longest chain of lines above them first."""
    chains = {}
    for crate in sorted(crates, key=lambda it: -len(it.below())):
        above = [chains[it.name] for it in crates if it.name in chains and crate in it.below()]
        chains[crate.name] = crate.count(rb"\n") + max(above, default=0)
    return sorted(crates, key=lambda it: -chains[it.name])


def lanes_for(each):
    """Returns how many crates to prove in parallel: one per processor, if each has this many bytes of free memory."""
    return max(1, min(rt.processors(), rt.free() // each))


class Progress:
    """Reports each proved crate, with the minutes left by the lines of source proved so far."""

    def __init__(self, crates):
        self.lines = {it.name: it.count(rb"\n") for it in crates}
        self.begun, self.done, self.proved = time.monotonic(), 0, 0

    def add(self, crate, took):
        self.done += 1
        lines = self.lines[crate.name]
        self.lines[crate.name] = 0
        if not took:
            return
        self.proved += lines
        seconds = (time.monotonic() - self.begun) * sum(self.lines.values()) / max(1, self.proved)
        print(
            f"crate {self.done} of {len(self.lines)}: {crate.name} proved in {took:.0f} s,"
            f" about {math.ceil(seconds / 60)} minutes left",
            flush=True,
        )


def prove_all(names):
    """Proves libraries and those below them. Exits at the first that isn't proved."""
    wanted = {dep.name for name in names for dep in [*CRATES[name].below(), CRATES[name]] if not dep.is_program}
    left, sums, running, lanes = by_chains([CRATES[it] for it in wanted]), {}, {}, lanes_for(3_000_000_000)
    progress = Progress(left)
    with ThreadPoolExecutor(lanes) as pool:
        while left or running:
            ready = [it for it in left if all(dep.name in sums for dep in it.below())]
            for crate in ready[: lanes - len(running)]:
                left.remove(crate)
                jobs = max(1, (lanes - len(running)) // len(ready))
                running[pool.submit(prove, crate, sums, jobs)] = crate
            for it in wait(running, return_when=FIRST_COMPLETED).done:
                (failed, took), crate = it.result(), running.pop(it)
                if failed:
                    sys.exit(failed)
                progress.add(crate, took)


def check(crate, flags):
    prove_all([dep.name for dep in crate.below()])
    kept = f"{crate.folder}/out/checked"
    os.makedirs(kept, exist_ok=True)
    jobs = [] if any(it.startswith("--jobs") for it in flags) else ["--jobs", "1"]
    words = [lib.RATTLE, "check", *crate.words([*jobs, *flags], keeps=False), "--incremental", kept]
    return subprocess.run(words, cwd=crate.folder).returncode


def edits(crate, names):
    """Tries edits of the gate. Returns 1 if one isn't refused or isn't there."""
    found = {os.path.basename(it).removesuffix(".edit"): it for it in rt.edits_of(crate)[0]}
    missing = [it for it in names if it not in found]
    if missing:
        sys.exit(f"keep.py: {crate.name} has no edit {missing[0]}")
    return 0 if try_edits(crate, [found[it] for it in names or found]) else 1


def try_edits(crate, paths):
    """Tries edits, each over what those before it proved, and reports what each took. Returns whether the prover
    refused each."""
    prove_all([dep.name for dep in crate.below()])
    each_refused = True
    with tempfile.TemporaryDirectory() as kept:
        for path in paths:
            before = resource.getrusage(resource.RUSAGE_CHILDREN)
            came, text = rt.must_fail(crate, path, ["--jobs", "1"], kept)
            after = resource.getrusage(resource.RUSAGE_CHILDREN)
            each_refused &= came == rt.REFUSED
            print(f"{after.ru_utime - before.ru_utime:.0f} s: {text}", flush=True)
    return each_refused


def build(crate, _):
    """Builds a program aside and renames it, so that a failed build leaves the program that was there."""
    prove_all([dep.name for dep in crate.below()])
    print(f"all crates are proved; {crate.name} itself takes two to three minutes more", flush=True)
    with tempfile.TemporaryDirectory() as room:
        words = crate.words(["--jobs", str(rt.processors())], keeps=False)
        ran = rattle(crate, "check", *words, "-o", f"{room}/checked")
        if ran.returncode:
            sys.exit(f"{crate.name} isn't proved:\n{ran.stdout}")
        for flag in ("--logic-built", "--jobs"):
            at = words.index(flag)
            words = [*words[:at], *words[at + 2 :]]
        os.makedirs(f"{crate.folder}/out", exist_ok=True)
        aside = f"out/{crate.name}.new"
        words += ["--crate-checked", f"{room}/checked", "--toolchain", f"{rt.KIT}/toolchain"]
        status = crate.compile_by("llvm", words, aside)
    if os.path.exists(f"{crate.folder}/{aside}.o"):
        os.remove(f"{crate.folder}/{aside}.o")
    if status == 0:
        os.replace(f"{crate.folder}/{aside}", f"{crate.folder}/out/{crate.name}")
    return status


CALLS = {"check": check, "edits": edits, "build": build}


def main(words):
    if words[:1] and words[0] in CALLS and len(words) > 1:
        return CALLS[words[0]](CRATES[words[1]], words[2:])
    prove_all(words or list(CRATES))
    return 0


os.makedirs(KEPT, exist_ok=True)
if __name__ == "__main__":
    sys.exit(main(sys.argv[1:]))
