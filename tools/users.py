#!/usr/bin/env python3
"""Tries the launcher and the scripts beside it as a user would; needs Python 3 and the program.

usage: tools/users.py PROGRAM

Works on copies in folders with blanks in their names, and never proves: rt is a stand-in. Ghostscript, GNU parallel,
make, script and bash are used if they are there; a test without what it needs is reported as skipped. Prints the tests
that fail, then how many hold, fail and are skipped, and ends with 1 if one fails.
"""
import functools
import glob
import importlib.machinery
import importlib.util
import os
import re
import resource
import shlex
import shutil
import signal
import subprocess
import sys
import tempfile
import time
import zlib

sys.dont_write_bytecode = True
ROOT = os.path.dirname(os.path.dirname(os.path.realpath(__file__)))
GOOD = "X:1\nT:One\nK:C\nabc|\n"
BAD = "X:7\nT:First\nK:C\nabc|\n\nX:9\nT:Second (old)\nM:4/5\nK:C\nabc|\n"
KEPT = ("abcps", "abcpdf", "abchints", "abcbatch", "install.sh", "tools", "examples", "docs", "crates.txt", "HANDLES")
TESTS = []


def test(*needs):
    """Adds a test that needs these programs."""

    def add(function):
        TESTS.append((function, needs))
        return function

    return add


class Place:
    """A copy of the launcher and its scripts over a built program, a stand-in for rt, and symlinks on the path."""

    def __init__(self, folder, program):
        self.folder, self.root, self.bin = folder, f"{folder}/a clone", f"{folder}/on the path"
        os.makedirs(f"{self.root}/crates/abcps_main/out")
        os.makedirs(f"{self.root}/crates/abcps_main/src")
        os.makedirs(self.bin)
        for name in KEPT:
            copy = shutil.copytree if os.path.isdir(f"{ROOT}/{name}") else shutil.copy
            copy(f"{ROOT}/{name}", f"{self.root}/{name}")
        self.source = f"{self.root}/crates/abcps_main/src/main.rt"
        self.write(self.source, "a source\n")
        self.program = f"{self.root}/crates/abcps_main/out/abcps_main"
        shutil.copy(program, self.program)
        for name in ("abcps", "abcpdf", "abchints", "abcbatch"):
            os.symlink(f"{self.root}/{name}", f"{self.bin}/{name}")
        self.stand_in("exit 1")

    def write(self, path, text):
        with open(os.path.join(self.folder, path), "w", encoding="utf-8") as it:
            it.write(text)

    def read(self, path):
        with open(os.path.join(self.folder, path), encoding="utf-8") as it:
            return it.read()

    def stand_in(self, build):
        """Puts a stand-in for rt on the path, which builds by these lines of sh."""
        lines = ["#!/bin/sh", 'case $1 in version) echo the-kit-here; exit ;; esac', "echo building", build]
        self.write(f"{self.bin}/rt", "\n".join(lines) + "\n")
        os.chmod(f"{self.bin}/rt", 0o755)

    def run(self, command, **how):
        """Runs a command of sh in the folder, without a terminal."""
        env = {**os.environ, "PATH": f"{self.bin}:{os.environ['PATH']}"}
        usual = {"capture_output": True, "text": True, "stdin": subprocess.DEVNULL, "errors": "replace"}
        return subprocess.run(["sh", "-c", command], cwd=self.folder, env=env, **{**usual, **how})

    def limited(self, words, limit):
        """Runs a program in at most so many bytes of memory."""
        bound = functools.partial(resource.setrlimit, resource.RLIMIT_AS, (limit, limit))
        return subprocess.run(words, stdin=subprocess.DEVNULL, capture_output=True, text=True, preexec_fn=bound)

    def on_terminal(self, command):
        """Returns what a terminal shows of a command and the line 'status N'."""
        words = ["script", "-qec", f"sh -c {shlex.quote(command + '; echo status $?')}", "/dev/null"]
        ran = self.run(shlex.join(words))
        return ran.stdout.replace("\r", "")


def hold(is_true, what):
    if not is_true:
        raise AssertionError(what)


@test()
def launcher_through_symlink(place):
    place.write("my book.abc", GOOD)
    ran = place.run('abcps set < "my book.abc"')
    direct = subprocess.run([place.program, "set"], input=GOOD, capture_output=True, text=True)
    hold((ran.stdout, ran.stderr, ran.returncode) == (direct.stdout, "", 0), ran)


@test()
def launcher_keeps_status_and_words(place):
    place.write("bad.abc", BAD)
    for command in ("abcps set < bad.abc", "abcps set bad.abc", "abcps inspect < bad.abc", "abcps set < /", "abcps no"):
        ran = place.run(command)
        direct = place.run(command.replace("abcps", shlex.quote(place.program)))
        same = (ran.stdout, ran.stderr, ran.returncode) == (direct.stdout, direct.stderr, direct.returncode)
        hold(same and ran.returncode, (command, ran))


@test()
def help_without_building(place):
    os.remove(place.program)
    whole = place.read(f"{place.root}/tools/help.txt")
    for command in ("abcps", "abcps --help", "abcps -h", "abcps help"):
        ran = place.run(command)
        hold((ran.stdout, ran.returncode) == (whole, 0), (command, ran))
    hold(place.run("abcps --version").stdout == "abcps\nkit: the-kit-here\n", "--version")
    hold("--even" in place.run("abcps help set").stdout, "help set")
    hold("set" not in place.run("abcps help paint").stdout, "help paint")
    hold(place.run("abcps help nothing").returncode == 2, "help nothing")


@test()
def help_has_each_command_and_option(place):
    usage, page = place.run("abcps no").stderr, place.read(f"{place.root}/tools/help.txt")
    completion = place.read(f"{place.root}/tools/completion.bash")
    for command in re.findall(r"(?:: abcps|\|) (.*?)(?= \||$)", usage.strip()):
        hold(f"  {command}\n" in page, command)
        for word in re.findall(r"--\w+|^\w+", command):
            hold(word in completion, word)


@test()
def a_failed_build_loses_nothing(place):
    hold(place.run("abcps make 1").returncode == 0, "first")
    before = place.read(place.source)
    place.write(place.source, "another source\n")
    ran = place.run("ABCPS_CHECK=1 abcps make 1")
    hold(ran.returncode == 69 and not ran.stdout and "could not be built" in ran.stderr, ran)
    hold("./look" in ran.stderr and os.access(place.program, os.X_OK), ran)
    place.write(place.source, before)
    hold(place.run("abcps make 1").returncode == 0, "the source is as it was")


@test()
def a_program_of_the_gate_is_taken(place):
    place.write(f"{place.program}.stamp", "the sum of other sources\n")
    os.utime(f"{place.program}.stamp", (1, 1))
    hold(place.run("abcps make 1").returncode == 0, "the program is newer than its sources and the stamp")
    place.write(f"{place.program}.stamp", "the sum of other sources\n")
    os.utime(f"{place.program}.stamp", (time.time() + 2, time.time() + 2))
    hold(place.run("ABCPS_CHECK=1 abcps make 1").returncode == 69, "the stamp is newer")


@test()
def a_build_is_made_once(place):
    shutil.move(place.program, f"{place.folder}/built")
    built, builds = (shlex.quote(f"{place.folder}/{name}") for name in ("built", "builds"))
    place.stand_in(f"cp {built} out/abcps_main; echo >> {builds}")
    first, second = place.run("abcps make 1"), place.run("abcps make 1")
    hold("abcps: built" in first.stderr and first.returncode == 0, first)
    hold(second.stderr == "" and second.stdout == first.stdout, second)
    place.write(f"{place.root}/crates.txt", "changed:\n")
    hold("abcps: built" in place.run("abcps make 1").stderr, "changed sources")
    hold(place.read("builds").count("\n") == 2, "builds")


@test()
def launcher_is_quick(place):
    place.run("cat 'a clone'/examples/*.abc > a.abc")
    took = []
    for program in ("'a clone/abcps'", shlex.quote(place.program)):
        runs = []
        for _ in range(5):
            start = time.monotonic()
            place.run(f'i=0; while [ $i -lt 50 ]; do {program} set < a.abc > /dev/null; i=$((i + 1)); done')
            runs.append(time.monotonic() - start)
        took.append(min(runs))
    # (two milliseconds a call on top, since other programs may run)
    hold(took[0] < 1.2 * took[1] + 0.1, f"launcher {took[0] * 20:.1f} ms a call, program {took[1] * 20:.1f} ms")


@test()
def program_ends_with_each_status(place):
    """Each status, from the program itself: the command, the status, the whole output or how it begins, and errors."""
    shutil.copy(f"{ROOT}/crates/all_tests/data/commands/dearer-choice.listing", f"{place.folder}/dearer.listing")
    place.write("good.abc", GOOD)
    place.write("bad.abc", BAD)
    usage = place.run(f"{shlex.quote(place.program)} no").stderr
    hold(usage.startswith("usage: ") and usage.count("\n") == 1, usage)
    cases = [
        ("set < good.abc", 0, "%!PS-Adobe-3.0\n", ""),
        ("set < bad.abc", 1, "%!PS-Adobe-3.0\n", "tune 2 "),
        ("set good.abc", 2, None, usage),
        ("set --jobs 65 < good.abc", 2, None, usage),
        ("\"$(printf 'make\\377')\" 1", 2, None, usage),
        ("set < /", 3, None, ""),
        ("set < good.abc > /dev/full", 4, None, ""),
        ("inspect < good.abc", 6, None, "not pages at line 1\n"),
        ("set < long", 7, None, ""),
        ("check < dearer.listing", 8, "notleast ", ""),
        ("paint < unopened", 10, None, "halt at token 0: Restore\n"),
    ]
    place.write("unopened", "grestore")
    with open(f"{place.folder}/long", "wb") as it:
        it.truncate(8_388_609)
    for words, status, output, errors in cases:
        ran = place.run(f"{shlex.quote(place.program)} {words}")
        hold(ran.returncode == status, (words, ran))
        hold(ran.stdout.startswith(output) if output else not ran.stdout, (words, ran.stdout[:200]))
        hold(ran.stderr.startswith(errors) if errors else not ran.stderr, (words, ran.stderr))
    # some of these limits leave memory for the program's start, but not for its words
    endings = set()
    many = [place.program, *["x" * 60_000] * 20]
    for limit in range(2_000_000, 10_000_000, 250_000):
        try:
            ran = place.limited(many, limit)
        except OSError:
            continue
        endings.add((ran.returncode, ran.stdout))
    hold((5, "") in endings and (2, "") in endings, endings)


@test("script")
def words_on_a_terminal(place):
    place.write("my book.abc", GOOD)
    place.write("none.abc", "no tune\n")
    cases = [
        ('abcps set "my book.abc"', "reads standard input", 2),
        ('abcps set < "my book.abc" > p.ps', "", 0),
        ("abcps set > p.ps", "reads from the terminal", 0),
        ("abcps set < none.abc > p.ps", "no tune found", 0),
        ("cat none.abc | abcps set > p.ps", "no tune found", 0),
        ("abcps set < none.abc | tail -n 1 >/dev/null", "no tune found", 0),
        ('abcps set < "my book.abc"', "writes PostScript to the terminal", 0),
        ("abcps set < / > p.ps", "could not be read", 3),
        ('abcps set < "my book.abc" > /dev/full', "could not be written", 4),
        ("head -c 9000000 /dev/zero | abcps set > p.ps", "too long", 7),
        ("(ulimit -v 20000; head -c 8000000 /dev/zero | abcps set) > p.ps", "out of memory", 5),
    ]
    for command, words, status in cases:
        shown = place.on_terminal(command)
        hold(words in shown and shown.endswith(f"status {status}\n"), (command, shown))
        hold(words or shown == "status 0\n", shown)
    hold("abcps:" not in place.run("abcps set < none.abc").stderr, "no words without a terminal")


@test("script")
def output_is_the_same_on_a_terminal(place):
    place.write("bad.abc", BAD)
    place.on_terminal("abcps set < bad.abc > one.ps")
    place.run("abcps set < bad.abc > two.ps")
    hold(place.read("one.ps") == place.read("two.ps"), "pages")


@test("gs")
def pdf_of_books(place):
    place.write("my book.abc", BAD)
    place.write("b.abc", "%%pagewidth 10cm\n%%pageheight 8cm\nX:1\nT:A (b)\nK:C\nabc|\n")
    ran = place.run('abcpdf "my book.abc" b.abc --transpose -2')
    hold(ran.returncode == 1, ran)
    hold('my book.abc:8:1: BadMeter (tune 2, X:9, "Second (old)")\n' in ran.stderr, ran)
    hold(pdf(place, "my book.pdf", rb"/Title ?\(First\)") and pdf(place, "b.pdf", rb"/Title ?\(A \\\(b"), "bookmarks")
    hold(pdf(place, "b.pdf", rb"/MediaBox ?\[ ?0 0 284(\.0*)? 227"), "paper")
    hold(place.run('abcpdf -o all.pdf b.abc "my book.abc"').returncode == 1, "-o")
    hold(pdf(place, "all.pdf", rb"/Count 2\b"), "two pages")
    hold(not glob.glob(f"{place.folder}/.abcpdf*"), "no file is left aside")


@test("gs")
def pdf_without_a_page(place):
    place.write("none.abc", "no tune\n")
    place.write("none.pdf", "as before")
    ran = place.run("abcpdf none.abc gone.abc")
    hold(ran.returncode == 3 and "none.abc: no page" in ran.stderr and "gone.abc" in ran.stderr, ran)
    hold(place.read("none.pdf") == "as before", "the PDF is kept")


@test("gs")
def pdf_on_each_change(place):
    book = "my book.abc"
    place.write(book, GOOD)
    env = {**os.environ, "PATH": f"{place.bin}:{os.environ['PATH']}"}
    words = ["abcpdf", "--watch", book]
    watching = subprocess.Popen(words, cwd=place.folder, env=env, stdout=subprocess.PIPE, stderr=subprocess.DEVNULL)
    try:
        hold(b"done" in watching.stdout.readline(), "first")
        place.write(book, GOOD.replace("One", "Two"))
        hold(b"done" in watching.stdout.readline() and pdf(place, "my book.pdf", rb"/Title ?\(Two\)"), "changed")
        place.write(book, "nothing\n")
        hold(b"as before" in watching.stdout.readline(), "no page")
        hold(pdf(place, "my book.pdf", rb"/Title ?\(Two\)"), "the last good one is kept")
    finally:
        watching.send_signal(signal.SIGINT)
        hold(watching.wait(10) == 130, "an interrupt ends it")


def pdf(place, name, pattern):
    """Returns whether a PDF has a pattern, in its compressed streams too."""
    with open(f"{place.folder}/{name}", "rb") as it:
        data = it.read()
    texts = [data]
    for stream in re.findall(rb"stream\r?\n(.*?)endstream", data, re.S):
        try:
            texts.append(zlib.decompressobj().decompress(stream))
        except zlib.error:
            pass
    return any(re.search(pattern, text) for text in texts)


@test()
def hints_of_each_kind(place):
    loader = importlib.machinery.SourceFileLoader("abchints", f"{ROOT}/abchints")
    hints = importlib.util.module_from_spec(importlib.util.spec_from_loader("abchints", loader))
    loader.exec_module(hints)
    for words, _, book, lines in [*hints.HINTS, hints.CHORDS]:
        found = hints.hints_of(book.encode(), words == hints.CHORDS[0])
        hold(found == [(line, words) for line in lines], (words, found))
    for words, _, data in hints.FILES:
        hold((1, words) in hints.hints_of(data), words)
    place.write("my book.abc", GOOD + "W:a\n")
    ran = place.run('abchints "my book.abc"; abchints examples.abc gone.abc')
    hold(ran.stdout.startswith("my book.abc:5: W:") and ran.returncode == 2, ran)
    for book in glob.glob(f"{ROOT}/examples/*.abc"):
        hold(place.run(f"abchints {shlex.quote(book)}").returncode == 0, book)


def try_batch(place):
    os.makedirs(f"{place.folder}/books/a b")
    place.write("books/a b/it's $one.abc", BAD)
    place.write("books/two.abc", GOOD)
    place.write("books/none.abc", "\n")
    ran = place.run("abcbatch books 'out put'")
    hold(ran.returncode == 1 and "3 books, 3 of them set now" in ran.stderr, ran)
    hold(ran.stdout.split() == ["2", "set", "1", "BadMeter", "1", "no-tune"], ran)
    row = "a b/it's $one.abc\t2\t9\tSecond (old)\tBadMeter\t8\t1\n"
    hold(row in place.read("out put/tunes.tsv"), place.read("out put/tunes.tsv"))
    hold(place.read("out put/two.ps") == place.run("abcps set < books/two.abc").stdout, "pages")
    place.write("books/two.abc", GOOD + "\n")
    hold("3 books, 1 of them" in place.run("abcbatch books 'out put'").stderr, "again only what changed")
    hold("3 books, 3 of them" in place.run("abcbatch books 'out put' --flow").stderr, "again with other options")
    place.write("books/two.abc", "%" * 9000000)
    hold("status-7" in place.run("abcbatch books 'out put'").stdout, "a book that is too long")
    hold(not os.path.exists(f"{place.folder}/out put/two.ps"), "no pages of another book")
    place.write("books/two.abc", GOOD)
    os.remove(f"{place.folder}/books/a b/it's $one.abc")
    hold(place.run("abcbatch books 'out put' --flow").returncode == 0, "all tunes are set")


@test("parallel")
def batch_by_parallel(place):
    try_batch(place)
    ran = place.run("abcbatch books 'out there' --sshlogin 2/:")
    hold(ran.returncode == 0 and "2 books, 2 of them" in ran.stderr, ran)


@test()
def batch_by_xargs(place):
    place.write(f"{place.bin}/parallel", "#!/bin/sh\necho another parallel\n")
    os.chmod(f"{place.bin}/parallel", 0o755)
    try_batch(place)
    hold("GNU parallel" in place.run("abcbatch books out --sshlogin a,b").stderr, "--sshlogin")


@test("make")
def makefile_keeps_pages(place):
    shutil.copy(f"{ROOT}/examples/Makefile", f"{place.folder}/Makefile")
    place.write("bad.abc", BAD)
    for said in ("abcps set", "Nothing to be done"):
        ran = place.run("make ABCPS=abcps")
        hold(ran.returncode == 0 and said in ran.stdout, ran)
    hold("%%Page: 1 1" in place.read("bad.ps") and "BadMeter" in place.read("bad.faults"), "pages and faults")


@test()
def install_and_use(place):
    prefix = f"{place.folder}/pre fix"
    ran = place.run('"a clone/install.sh" "pre fix"')
    hold(ran.returncode == 0, ran)
    shutil.rmtree(place.root)
    place.bin = f"{prefix}/bin"
    place.write("my book.abc", BAD)
    hold(place.run('abcps set < "my book.abc"').returncode == 1, "abcps")
    hold(place.run("abcps --version").stdout == "abcps\nkit: the-kit-here\n", "--version")
    hold(place.run("abcps").stdout.startswith("abcps: "), "help")
    hold(place.run('abchints "my book.abc"').returncode == 0, "abchints")
    os.makedirs(f"{place.folder}/books")
    shutil.copy(f"{place.folder}/my book.abc", f"{place.folder}/books")
    hold(place.run("abcbatch books out").returncode == 1, "abcbatch")
    hold("BadMeter" in place.read("pre fix/share/man/man1/abcps.1"), "man page")


@test("groff")
def man_page_is_well_formed(place):
    ran = place.run('python3 "a clone/tools/man.py" | groff -man -ww -z')
    hold(not ran.stderr and not ran.returncode, ran)


@test("bash")
def completion_of_words(place):
    script = (
        'source "a clone/tools/completion.bash"; COMP_WORDS=({}); COMP_CWORD={}; _abcps; echo "${{COMPREPLY[*]}}"'
    )
    for words, at, found in (
        ("abcps s", 1, "set systems"),
        ("abcps set --f", 2, "--flow"),
        ("abcps hear ''", 2, "not octave pitch"),
        ("abcpdf --w", 1, "--watch"),
    ):
        ran = place.run(shlex.join(["bash", "-c", script.format(words, at)]))
        hold(ran.stdout.strip() == found, (words, ran))


@test()
def each_script_has_help(place):
    for name in ("abcps", "abcpdf", "abchints", "abcbatch", "install.sh", "tools/compare.sh"):
        ran = place.run(f'"a clone/{name}" --help')
        hold(ran.returncode == 0 and len(ran.stdout) > 200, (name, ran))


def run_test(function, needs, program):
    """Returns how a test ends: 'holds', 'fails' or 'skipped'."""
    missing = [it for it in needs if not shutil.which(it)]
    if missing:
        print(f"skipped: {function.__name__}: {', '.join(missing)} is missing", flush=True)
        return "skipped"
    with tempfile.TemporaryDirectory(prefix="abcps users ") as folder:
        try:
            function(Place(folder, program))
        except (AssertionError, OSError, subprocess.SubprocessError) as error:
            print(f"fails: {function.__name__}: {error}", flush=True)
            return "fails"
    return "holds"


def main(words):
    if len(words) != 1 or words[0] in ("-h", "--help"):
        print(__doc__, end="")
        return 0 if words else 2
    found = [run_test(function, needs, os.path.realpath(words[0])) for function, needs in TESTS]
    counts = {it: found.count(it) for it in ("holds", "fails", "skipped")}
    print(f"users: {counts['holds']} tests hold, {counts['fails']} fail, {counts['skipped']} skipped")
    return 1 if counts["fails"] else 0


if __name__ == "__main__":
    sys.exit(main(sys.argv[1:]))
