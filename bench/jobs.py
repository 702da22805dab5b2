#!/usr/bin/env python3
"""Times what jobs gain by the clock; needs Python 3, Linux, the program, and a machine with nothing else to do.

usage: bench/jobs.py [JOBS [RUNS [PROGRAM]]]     4 jobs, 15 runs of each, and the proved program if not given

Times `set` of the generated book of 500 tunes by one job alone, by one job on each of JOBS processors at once, and by
JOBS jobs, in turn. Prints the medians, how many processors each run kept at work, and ratios. Processors that share a
core slow each other down, so the gain of the program itself is the second ratio: one job beside others like it, to all
jobs. Some kernels leave a new thread for some milliseconds on the processor of its maker while others are idle. So the
script times all again in the round-robin class of the scheduler, if it may: there each thread goes to an idle processor
at once.
"""
import os
import shutil
import statistics
import subprocess
import sys
import tempfile
import time

ROOT = os.path.dirname(os.path.dirname(os.path.realpath(__file__)))


def timed(program, before, count, by, book):
    """Returns seconds and processor seconds of each of `count` runs at once after these words, each by `by` jobs."""
    begun, found = {}, []
    for _ in range(count):
        with open(book, "rb") as tunes:
            start = time.monotonic()
            run = subprocess.Popen([*before, program, "set", "--jobs", str(by)], stdin=tunes, stdout=subprocess.DEVNULL)
            begun[run.pid] = run, start
    while begun:
        pid, status, used = os.wait4(-1, 0)
        run, start = begun.pop(pid)
        run.returncode = status
        found.append((time.monotonic() - start, used.ru_utime + used.ru_stime))
        if status:
            sys.exit("jobs.py: a run didn't end well")
    return found


def median(pairs):
    seconds, used = (statistics.median(it) for it in zip(*pairs))
    return seconds, used / seconds


def classes():
    """Returns the words before a run in each class of the scheduler that may be used, by its name in reports."""
    try:
        # what begins the runs and waits for them goes before them all
        os.sched_setscheduler(0, os.SCHED_RR | os.SCHED_RESET_ON_FORK, os.sched_param(2))
    except PermissionError:
        return {"": []}
    return {"": [], "round robin, ": ["chrt", "--rr", "1"]} if shutil.which("chrt") else {"": []}


def report(name, jobs, times):
    found = [median(it) for it in times.values()]
    for kind, (seconds, busy) in zip(times, found):
        print(f"{name}{kind}: {seconds:.3f} s, {busy:.2f} processors at work")
    alone, beside, all_jobs = (seconds for seconds, _ in found)
    gains = f"to one alone: {alone / all_jobs:.2f}; to one beside others like it: {beside / all_jobs:.2f}"
    print(f"{name}{jobs} jobs {gains}")


def measure(jobs, runs, program, book):
    """Returns the times of each kind of run, by class of the scheduler."""
    kinds = {"one job alone": (1, 1), f"one job, {jobs} runs at once": (jobs, 1), f"{jobs} jobs": (1, jobs)}
    ways = classes()
    times = {name: {kind: [] for kind in kinds} for name in ways}
    for _ in range(runs):
        for name, before in ways.items():
            for kind, (count, by) in kinds.items():
                times[name][kind] += timed(program, before, count, by, book)
    return times


def main(jobs="4", runs="15", program=None):
    if jobs in ("-h", "--help"):
        print(__doc__, end="")
        return
    if program is None:
        subprocess.run([f"{ROOT}/abcps", "make", "1"], stdout=subprocess.DEVNULL, check=True)
        program = f"{ROOT}/crates/abcps_main/out/abcps_main"
    with tempfile.TemporaryDirectory() as folder:
        book = f"{folder}/500.abc"
        with open(book, "wb") as out:
            subprocess.run([program, "make", "500"], stdout=out, check=True)
        for name, found in measure(int(jobs), int(runs), program, book).items():
            report(name, int(jobs), found)


main(*sys.argv[1:])
