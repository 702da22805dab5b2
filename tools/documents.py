#!/usr/bin/env python3
"""Checks README.md and docs/ against the repository and the program; needs Python 3, the program, Ghostscript if there.

usage: tools/documents.py [PROGRAM AND ITS FIRST WORDS]      (./abcps if none is given)

Each file, link and picture that they name exists. The commands of their blocks of sh run, but for those that prove or
install, and for the printer. The examples of FAULTS.md give what it says, the pictures are drawn from what the program
writes, and the list of promises is true. Prints what is wrong, and ends with 1 if something is.
"""
import glob
import os
import re
import shlex
import shutil
import subprocess
import sys
import tempfile

sys.dont_write_bytecode = True
import abcbook

ROOT = os.path.dirname(os.path.dirname(os.path.realpath(__file__)))
TOOLS = ("abcpdf", "abchints", "abcbatch", "tools", "docs", "examples")
NOT_RUN = ("rt", "lp", "git", "sudo", "apt-get", "./install.sh", "./look", "cd")


def read(path):
    with open(f"{ROOT}/{path}", encoding="utf-8") as it:
        return it.read()


def documents():
    paths = glob.glob(f"{ROOT}/*.md") + glob.glob(f"{ROOT}/docs/*.md") + glob.glob(f"{ROOT}/bench/*.md")
    return sorted(os.path.relpath(path, ROOT) for path in paths)


def named_files(path):
    """Returns the files that a document names or links to."""
    text, folder = read(path), os.path.dirname(path)
    links = [os.path.join(folder, link) for link in re.findall(r"\]\(([^)#:]+)\)", text)]
    files = re.findall(r"`\.?/?((?:docs|bench|tools|examples|crates|\.ci)/[\w./-]*\w)`", text)
    return links + files + re.findall(r"`\./([\w.]*\w)[ `]", text)


def check_files():
    missing = [
        f"{path}: no file {file}"
        for path in documents()
        for file in named_files(path)
        if not os.path.exists(f"{ROOT}/{file}")
    ]
    return missing


def commands_of(path):
    """Returns the commands of a document's blocks of sh, without comments."""
    blocks = re.findall(r"^```sh\n(.*?)^```$", read(path), re.M | re.S)
    lines = [re.sub(r"(^|\s+)#.*", "", line) for block in blocks for line in block.splitlines()]
    return [line for line in lines if line.strip() and line.split()[0] not in NOT_RUN]


def can_run(command):
    """Returns whether the programs of other packages that a command needs are there."""
    needs = {"ps2pdf": "ps2pdf", "abcpdf": "gs", "parallel": "parallel", "make": "make"}
    return all(shutil.which(program) for word, program in needs.items() if re.search(rf"\b{word}\b", command))


def check_commands(program):
    """Runs the commands of each document in a folder that has the program under its name and the examples."""
    wrong = []
    for path in documents():
        with tempfile.TemporaryDirectory(prefix="abcps documents ") as folder:
            with open(f"{folder}/abcps", "w", encoding="utf-8") as it:
                it.write(f'#!/bin/sh\nexec {shlex.join(program)} "$@"\n')
            os.chmod(f"{folder}/abcps", 0o755)
            for name in TOOLS:
                copy = shutil.copytree if os.path.isdir(f"{ROOT}/{name}") else shutil.copy
                copy(f"{ROOT}/{name}", f"{folder}/{name}")
            for command in commands_of(path):
                if not can_run(command):
                    print(f"skipped: {path}: {command}")
                elif fails(command, folder):
                    wrong.append(f"{path}: fails: {command}")
            if path == "README.md" and not starts_document(f"{folder}/page.ps"):
                wrong.append("README.md: its commands write no page")
    return wrong


def fails(command, folder):
    """Returns whether a command fails, and prints what it wrote if so."""
    how = {"stdin": subprocess.DEVNULL, "stdout": subprocess.PIPE, "stderr": subprocess.STDOUT, "errors": "replace"}
    ran = subprocess.run(["sh", "-c", command], cwd=folder, **how)
    if ran.returncode:
        print(ran.stdout, end="")
    return ran.returncode != 0


def starts_document(path):
    try:
        with open(path, encoding="utf-8") as it:
            return it.readline() == "%!PS-Adobe-3.0\n"
    except OSError:
        return False


def main(words):
    if {"-h", "--help"} & set(words):
        print(__doc__, end="")
        return 0
    program = abcbook.words_of(words[0]) if words else [f"{ROOT}/abcps"]
    wrong = check_files() + check_commands(program)
    print("".join(f"{it}\n" for it in wrong), end="", flush=True)
    failed = bool(wrong)
    for check in (["promises.py"], ["faults.py", shlex.join(program)], ["pictures.py", "--check", shlex.join(program)]):
        failed |= subprocess.run([sys.executable, f"{ROOT}/tools/{check[0]}", *check[1:]]).returncode != 0
    return 1 if failed else 0


sys.exit(main(sys.argv[1:]))
