#!/usr/bin/env python3
"""Lets each allocation of the program fail in turn; needs Python 3, Linux, a C compiler and the built program.

usage: tools/failing.py [PROGRAM]      without PROGRAM the proved program, which ./abcps builds if need be

A preloaded allocator fails one allocation of a run, for each command. The run must end with status 5 and nothing on
errors, and output must hold a prefix of what the command writes, which is nothing if the words were still being
gathered. If the program can do without the allocation, the run may also end as it does without a failure. Prints the
wrong answers, and ends with 1 if there is one.
"""
import os
import subprocess
import sys
import tempfile

ROOT = os.path.dirname(os.path.dirname(os.path.realpath(__file__)))

ALLOCATOR = r"""
#include <errno.h>
#include <stddef.h>
#include <stdlib.h>
#include <unistd.h>
extern void *__libc_malloc(size_t), *__libc_calloc(size_t, size_t);
extern void *__libc_realloc(void *, size_t), *__libc_memalign(size_t, size_t);
static long count, failing = -1;
static void tell(void) {
    static int file = -1;
    if (file == -1) { const char *to = getenv("COUNT_TO"); file = to ? atoi(to) : -2; }
    if (file < 0) return;
    char text[8]; long left = count;
    for (int at = 8; at-- > 0; left /= 10) text[at] = '0' + left % 10;
    if (pwrite(file, text, sizeof text, 0) < 0) _exit(99);
}
static int fails(void) {
    if (failing < 0) { const char *at = getenv("FAILING"); failing = at ? atol(at) : 0; }
    ++count;
    tell();
    if (count != failing) return 0;
    errno = ENOMEM;
    return 1;
}
void *malloc(size_t n) { return fails() ? NULL : __libc_malloc(n); }
void *calloc(size_t k, size_t n) { return fails() ? NULL : __libc_calloc(k, n); }
void *realloc(void *p, size_t n) { return fails() ? NULL : __libc_realloc(p, n); }
void *memalign(size_t a, size_t n) { return fails() ? NULL : __libc_memalign(a, n); }
void *aligned_alloc(size_t a, size_t n) { return memalign(a, n); }
int posix_memalign(void **p, size_t a, size_t n) { *p = memalign(a, n); return *p ? 0 : ENOMEM; }
"""


def run(program, library, words, text, failing, counted=None):
    env = {"LD_PRELOAD": library, "FAILING": str(failing)}
    if counted is not None:
        env["COUNT_TO"] = str(counted)
    how = {"input": text, "capture_output": True, "env": env, "pass_fds": [counted] if counted is not None else []}
    return subprocess.run([program, *words], **how)


def allocations(program, library, words, text):
    """Returns how many allocations a run asks for, and what it writes when none fails."""
    with tempfile.TemporaryFile() as told:
        whole = run(program, library, words, text, 0, told.fileno())
        told.seek(0)
        return int(told.read() or b"0"), whole


def is_wanted(whole, tried):
    if (tried.returncode, tried.stdout, tried.stderr) == (whole.returncode, whole.stdout, whole.stderr):
        return True
    return tried.returncode == 5 and not tried.stderr and whole.stdout.startswith(tried.stdout)


def cases(program):
    """Returns the words and the input of each run."""
    with open(f"{ROOT}/examples/reel.abc", "rb") as it:
        reel = it.read()
    document = subprocess.run([program, "set"], input=reel, capture_output=True).stdout
    listing = subprocess.run([program, "systems", "--table"], input=reel, capture_output=True).stdout
    return [
        (["set"], reel),
        (["set", "--flow", "--jobs", "1"], b"X:1\nK:C\nc|\n\nX:2\nc|\n"),
        (["systems"], reel),
        (["systems", "--table"], reel),
        (["inspect"], document),
        (["inspect"], b"no pages"),
        (["check"], listing),
        (["paint"], document),
        (["paint"], b"1 moveto"),
        (["make", "1"], b""),
        (["trial", "1"], b""),
        (["no", "command"], b""),
        (["\udcff"], b""),
    ]


def fail_each(program, library, words, text):
    """Fails each allocation of a run; returns how many there are and which were answered wrongly."""
    count, whole = allocations(program, library, words, text)
    bad = []
    for failing in range(1, count + 1):
        tried = run(program, library, words, text, failing)
        if not is_wanted(whole, tried):
            bad.append(f"{failing}: {tried.returncode} {tried.stderr[:60]!r}")
    said = f"{ascii(' '.join(words))}: {count} allocations, {len(bad)} answered wrongly {'; '.join(bad[:6])}"
    print(said.rstrip(), flush=True)
    return count, len(bad)


def main(program=None):
    if program in ("-h", "--help"):
        print(__doc__, end="")
        return 0
    if program is None:
        subprocess.run([f"{ROOT}/abcps", "make", "1"], stdout=subprocess.DEVNULL, check=True)
        program = f"{ROOT}/crates/abcps_main/out/abcps_main"
    with tempfile.TemporaryDirectory() as room:
        library = f"{room}/failing.so"
        with open(f"{room}/failing.c", "w") as it:
            it.write(ALLOCATOR)
        subprocess.run(["cc", "-O1", "-shared", "-fPIC", "-o", library, f"{room}/failing.c"], check=True)
        found = [fail_each(program, library, words, text) for words, text in cases(program)]
    tries, wrong = (sum(it) for it in zip(*found))
    print(f"{tries} allocations failed in turn, {wrong} answered wrongly")
    return 1 if wrong else 0


sys.exit(main(*sys.argv[1:]))
