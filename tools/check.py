#!/usr/bin/env python3
"""Runs, in about a minute and without a proof, what a change breaks most often; needs Python 3 and the built programs.

usage: tools/check.py [PROGRAM]      (the program that the gate or the launcher built if none is given)

It runs every case of the tests, with the stored runs of every command, by the built program of tests, which prints each
case that doesn't hold with what is expected and what came. Then it runs the checks that follow the gate: the length of
lines, the list of promises, the documents and the scripts. It ends with 1 if something is wrong.

It proves nothing. Only the gate says that the crates are proved, that the must-fail edits are refused, and that both
compilers build programs that write the same.
"""
import difflib
import os
import shutil
import subprocess
import sys
import tempfile

ROOT = os.path.dirname(os.path.dirname(os.path.realpath(__file__)))
TESTS = f"{ROOT}/crates/all_tests"
PROGRAM = f"{ROOT}/crates/abcps_main/out/abcps_main"


def newest(folder, endings):
    """Returns the time of the newest source below a folder, without what checks leave in out/."""
    times = [0.0]
    for at, folders, names in os.walk(folder):
        folders[:] = [it for it in folders if it not in ("out", "data")]
        times += [os.path.getmtime(f"{at}/{name}") for name in names if name.endswith(endings)]
    return max(times)


def run_cases():
    """Runs the cases in a folder of their own, and returns whether all hold and what the program of tests prints."""
    with tempfile.TemporaryDirectory() as folder:
        shutil.copytree(f"{TESTS}/data", folder, dirs_exist_ok=True)
        ran = subprocess.run([f"{TESTS}/out/all_tests"], cwd=folder, stdin=subprocess.DEVNULL, capture_output=True)
    with open(f"{TESTS}/stdout", "rb") as it:
        expected = it.read().decode()
    found = ran.stdout.decode(errors="replace")
    return ran.returncode == 0, found, expected


def check_cases():
    if not os.access(f"{TESTS}/out/all_tests", os.X_OK):
        print("cases: not run, the program of tests isn't built; tools/keep.py build all_tests proves and builds it")
        return False
    if newest(f"{ROOT}/crates", (".rt", ".antt")) > os.path.getmtime(f"{TESTS}/out/all_tests"):
        print("cases: the program of tests is older than its sources")
    good, found, expected = run_cases()
    if not good:
        print(found, end="")
        print("cases: some don't hold, as shown above")
    elif found != expected:
        print("\n".join(difflib.unified_diff(expected.split("\n"), found.split("\n"), "stdout", "found", lineterm="")))
        print("cases: all hold, but crates/all_tests/stdout has other numbers")
    else:
        print("cases: " + found.strip().split("\n")[-1])
    return good and found == expected


def check_script(name, *words):
    return subprocess.run([sys.executable, f"{ROOT}/tools/{name}.py", *words], cwd=ROOT).returncode == 0


def main(words):
    if words[:1] in (["-h"], ["--help"]):
        print(__doc__)
        return 0
    program = os.path.abspath(words[0]) if words else PROGRAM
    good = [check_cases(), check_script("lines"), check_script("promises")]
    if os.access(program, os.X_OK):
        good += [check_script("documents", program), check_script("users", program)]
    else:
        print("documents and scripts: not run, the program isn't built; ./abcps make 1 builds it")
        good.append(False)
    print("All checks hold; proofs and must-fail edits are the gate's." if all(good) else "Some checks fail: see above.")
    return 0 if all(good) else 1


if __name__ == "__main__":
    sys.exit(main(sys.argv[1:]))
