"""Books, their tunes and faults, and the program, for the scripts beside it; needs Python 3."""
import os
import re
import shlex
import subprocess
from collections import namedtuple

Tune = namedtuple("Tune", "number line x title")
Fault = namedtuple("Fault", "tune line column name")
HERE = os.path.dirname(os.path.realpath(__file__))
LAUNCHERS = (f"{HERE}/../abcps", f"{HERE}/../../bin/abcps")
PROGRAMS = (f"{HERE}/../crates/abcps_main/out/abcps_main", f"{HERE}/../../lib/abcps/abcps")


def program():
    """Returns the path of the program. The launcher builds it first if need be, and reports progress."""
    launcher = next(it for it in LAUNCHERS if os.path.isfile(it))
    built = subprocess.run([launcher, "make", "1"], stdin=subprocess.DEVNULL, stdout=subprocess.DEVNULL)
    if built.returncode:
        raise SystemExit(built.returncode)
    return os.path.realpath(next((it for it in PROGRAMS if os.path.isfile(it)), launcher))


def words_of(program):
    """Returns the words of a command: a path as it is, blanks and all, or a program and its first words."""
    return [program] if os.path.isfile(program) else shlex.split(program)


def add_options(parser):
    """Adds the options of abcps set to a parser."""
    parser.add_argument("--flow", action="store_true", help="no line end forces a system to end")
    parser.add_argument("--even", action="store_true", help="fills the pages evenly")
    parser.add_argument("--jobs", metavar="N", type=int, help="uses N threads, 1 to 64")
    parser.add_argument("--transpose", metavar="N", type=int, help="moves each tune by N half steps, -12 to 12")


def options_of(given):
    """Returns the words of abcps set for parsed options."""
    words = [f"--{name}" for name in ("flow", "even") if getattr(given, name)]
    for name in ("jobs", "transpose"):
        if getattr(given, name) is not None:
            words += [f"--{name}", str(getattr(given, name))]
    return words


def lines_of(data):
    """Returns the lines of a book as abcps reads them, from 1."""
    lines = data.removeprefix(b"\xef\xbb\xbf").split(b"\n")
    return [text_of(line.removesuffix(b"\r")) for line in lines]


def text_of(line):
    try:
        return line.decode("utf-8")
    except UnicodeDecodeError:
        return line.decode("latin-1")


def without_comment(line):
    """Returns a line up to its comment, without blanks at its end; a directive has no comment."""
    if line.startswith("%%"):
        return line
    return re.split(r"(?<!\\)%", line, maxsplit=1)[0].rstrip(" \t")


def tunes_of(data):
    """Returns the tunes of a book, each with the line of its X:, what follows X:, and its first title."""
    tunes, in_tune = [], False
    for number, line in enumerate(lines_of(data), 1):
        text = without_comment(line)
        if text.startswith("X:"):
            tunes.append(Tune(len(tunes) + 1, number, text[2:].strip(), ""))
            in_tune = True
        elif not line.strip(" \t"):
            in_tune = False
        elif in_tune and text.startswith("T:") and not tunes[-1].title:
            tunes[-1] = tunes[-1]._replace(title=text[2:].strip())
    return tunes


def faults_of(report):
    """Returns the faults of a report on standard error."""
    found = re.findall(r"^tune (\d+) line (\d+) column (\d+): (.*)$", report, re.M)
    return [Fault(int(tune), int(line), int(column), name) for tune, line, column, name in found]
