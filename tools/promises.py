#!/usr/bin/env python3
"""Checks docs/PROMISES.md and the tables of README.md against the sources; needs Python 3 alone.

usage: tools/promises.py

PROMISES.md has a section per crate. Each public call has a row, and the clauses of a row are clauses of its calls. A
row of a single call names each of its clauses. Definitions are in specs, edits and tests exist, and each edit is named,
those of plants/ too. Each edit still fits: each text that it replaces stands once in the file that it names. In
README.md each crate has a row, and calls, clauses and the program's promises exist. Prints what is wrong, and ends with
1 if something is.
"""
import glob
import os
import re
import sys

WRONG = []


def wrong(crate, text):
    WRONG.append(f"{crate}: {text}")


def read(path):
    with open(path, encoding="utf-8") as file:
        return file.read()


# ---- the sources -------------------------------------------------------------------------------------------------

NAME = r"[A-Za-z_][A-Za-z0-9_]*"


class Call:
    def __init__(self, name, owner, trait, public, module):
        self.name, self.owner, self.trait, self.public, self.module = name, owner, trait, public, module
        self.of_trait = trait is not None and owner != trait
        self.clauses, self.unnamed = [], 0


def calls_of(path, module):
    """Returns the functions of a file, with the names of their ensures clauses; of traits also the laws."""
    calls, owner, trait, call = [], None, None, None
    for row in read(path).split("\n"):
        if row.startswith("#[cfg(test)]"):
            break
        head = re.match(rf"pub trait ({NAME})", row)
        if head:
            owner, trait, call = head[1], head[1], None
            TRAITS.add(trait)
        head = re.match(rf"impl(?:<.*?>)? (?:({NAME})(?:<.*?>)? for )?({NAME})", row)
        if head:
            owner, trait, call = head[2], head[1], None
        if row.startswith("}"):
            owner, trait, call = None, None, None
        head = re.match(rf"\s*(pub )?(?:const )?fn ({NAME})", row)
        if head:
            public = head[1] is not None or (trait is not None and owner == trait)
            call = Call(head[2], owner, trait, public, module)
            calls.append(call)
        clause = re.match(rf"\s*ensures ({NAME})? ?\{{", row)
        if clause and call:
            if clause[1]:
                call.clauses.append(clause[1])
            else:
                call.unnamed += 1
        law = re.match(rf"\s*ghost ({NAME}): \{{", row)
        if law and trait and owner == trait:
            LAWS.setdefault(trait, []).append(law[1])
    return calls


LAWS, TRAITS = {}, set()


def crate_calls(crate):
    root = read(sorted(glob.glob(f"crates/{crate}/src/lib.rt") + glob.glob(f"crates/{crate}/src/main.rt"))[0])
    public = set(re.findall(rf"^pub mod ({NAME});", root, re.M))
    given = set()
    for module, names in re.findall(rf"^pub use (?:crate::)?({NAME})::(\{{[^}}]*\}}|[^;]*);", root, re.M | re.S):
        given.update(re.findall(NAME, names))
    calls = []
    for path in sorted(glob.glob(f"crates/{crate}/src/**/*.rt", recursive=True)):
        module = os.path.relpath(path, f"crates/{crate}/src")[:-3].split("/")[0]
        if "test" in module:
            continue
        for call in calls_of(path, module):
            seen = module in public or module in ("lib", "main") or call.name in given or call.owner in given
            call.public = call.public and seen
            calls.append(call)
    return calls


def tests_of():
    tests = set()
    for path in glob.glob("crates/*/src/**/*.rt", recursive=True):
        tests.update(re.findall(rf"#\[test\]\s*(?:#\[[^\n]*\]\s*)*(?:pub )?fn ({NAME})", read(path)))
    return tests


def edits_of(crate):
    """Returns the paths of a crate's edits by name: those that the gate tries, and those of plants/."""
    paths = glob.glob(f"crates/{crate}/must-fail/*.edit") + glob.glob(f"plants/{crate}/*.edit")
    edits = {os.path.basename(path)[:-5]: path for path in sorted(paths)}
    if len(edits) < len(paths):
        wrong(crate, "an edit stands in must-fail/ and in plants/")
    return edits


def check_fit(crate, path):
    """Checks that each 'old:' text of an edit stands once in the file that the edit names before it."""
    file, texts, count = None, {}, 0
    for row in read(path).split("\n"):
        head, _, text = row.partition(": ")
        if head == "file":
            file = f"crates/{crate}/{text.strip()}"
            texts[file] = texts.get(file) or (read(file) if os.path.isfile(file) else "")
        elif head == "old":
            old, count = text, count + 1
            if texts.get(file, "").count(old) != 1:
                wrong(crate, f"{path}: an old text stands {texts.get(file, '').count(old)} times in {file}")
        elif row.startswith("new:"):
            texts[file] = texts[file].replace(old, text)
    if not count:
        wrong(crate, f"{path}: it has no old text")


def definitions_of():
    """Returns for each name of a file in specs or proofs the texts of the files of that name, with their crates."""
    files = {}
    for part in ("specs", "proofs"):
        for path in glob.glob(f"crates/*/{part}/**/*.antt", recursive=True):
            files.setdefault(os.path.basename(path)[:-5], []).append((path.split("/")[1], read(path)))
    return files


# ---- the document ------------------------------------------------------------------------------------------------

def sections():
    """Returns each section's rows of calls or laws, and its other text. A row 'the same' continues the one before."""
    crate, head, rows, other = None, [], {}, {}
    lines = read("docs/PROMISES.md").split("\n")
    for row, below in zip(lines, lines[1:] + [""]):
        if row.startswith("## "):
            crate = row[3:].strip()
            rows[crate], other[crate] = [], []
        elif crate and re.match(r"\|[- |]+\|$", row):
            continue
        elif crate and row.startswith("|"):
            cells = [cell.strip() for cell in re.split(r"(?<!\\)\|", row)[1:-1]]
            if re.match(r"\|[- |]+\|$", below):
                head = cells
            elif head[0] not in ("Call", "Law"):
                other[crate].append(row)
            elif cells[0] == "the same":
                for column, cell in zip(head[1:], cells[1:]):
                    rows[crate][-1][column] += "; " + cell
            else:
                rows[crate].append(dict(zip(head, cells)))
        elif crate:
            other[crate].append(row)
    return rows, other


def code(cell):
    return re.findall(r"`([^`]*)`", cell)


def fields_of(spec):
    """Returns the names of the fields of a definition's records."""
    return re.findall(rf"^  pub ({NAME}) :", spec, re.M)


def names(cell):
    """Returns the names of a list such as 'a, b; c: what it says': each at the beginning of its item."""
    cell = re.sub(r"\([^()]*\)", "", re.sub(r"\([^()]*\)", "", cell)).replace("`", "")
    found = []
    for part in cell.split(";"):
        for item in re.split(r",| and ", part.split(":")[0]):
            item = re.match(rf"\s*(?:or )?({NAME})(?: each)?\s*$", item)
            if item:
                found.append(item[1])
    return found


# What the cell of clauses says of a call whose one clause has no name.
FREE = {"one"}


def calls_named(cell, calls):
    """Returns the names of a cell of calls, and the functions that they mean. 'Owner::name' means that of a type or
    trait, and a bare name after it may too."""
    found, mine, owners = [], [], set()
    for entry in code(cell):
        parts = entry.split("::")
        if not all(re.fullmatch(NAME, part) for part in parts) or parts[-1][0].isupper():
            continue
        if len(parts) > 1 and parts[0][0].isupper():
            owners.add(parts[0])
        found.append(parts[-1])
        mine += [call for call in calls if call.name == parts[-1] and (call.owner in owners if owners else True)]
    return found, mine


def check_names(crate, row, calls, mine):
    """Checks that each call of a row is a function of its crate, or a law of the proofs that the row names."""
    proofs = [path for path in code(row.get("Call", "")) if path.startswith("proofs/")]
    laws = "".join(read(f"crates/{crate}/{path}") for path in proofs)
    for name in calls:
        if name not in {call.name for call in mine} and not re.search(rf"^pub {name} :", laws, re.M):
            wrong(crate, f"no function '{name}' in its sources")


def clauses_of(row, mine, files):
    """Returns the clauses of a row's calls, and the fields of the definitions that it cites."""
    have = {clause for call in mine for clause in call.clauses}
    have |= {law for call in mine for law in LAWS.get(call.trait, [])}
    cited = [entry.split(".")[0] for entry in code(row.get("Definitions", ""))]
    specs = [spec for file in cited for _, spec in files.get(file, [])]
    return have, {field for spec in specs for field in fields_of(spec)}


def check_clauses(crate, row, calls, mine, files):
    """Checks that the clauses of a row are clauses of its calls, and that it names each clause of them."""
    clauses = names(row.get("Clauses", ""))
    have, fields = clauses_of(row, mine, files)
    unnamed = any(call.unnamed for call in mine)
    for clause in clauses:
        if clause in FREE and clause not in have:
            if not unnamed:
                wrong(crate, f"{', '.join(calls)}: the row says '{clause}', but each clause has a name")
        elif clause not in have and clause not in fields:
            wrong(crate, f"{', '.join(calls)}: no clause '{clause}'")
    if clauses and not re.search("the same|steps|the trait", row["Clauses"]):
        own = {clause for call in mine for clause in call.clauses if not call.of_trait}
        for clause in sorted(own - set(clauses)):
            wrong(crate, f"{', '.join(calls)}: the clause '{clause}' isn't named")


def check_row(crate, row, everything, tests, files):
    """Checks a row of calls. Returns the calls and the edits that it names."""
    calls, mine = calls_named(row.get("Call", ""), everything[crate])
    check_names(crate, row, calls, mine)
    check_clauses(crate, row, calls, mine, files)
    for entry in code(row.get("Definitions", "")):
        check_definition(crate, entry, files, "std's" in row["Definitions"])
    edits = names(row.get("Edits", ""))
    for edit in edits:
        if edit not in edits_of(crate):
            wrong(crate, f"{', '.join(calls)}: no edit '{edit}'")
    check_tests(crate, calls, row.get("Test", ""), tests)
    return calls, edits


def check_crate(crate, section, everything, tests, files):
    """Checks the section of a crate, its rows and its other text: each public call and each edit is named."""
    rows, text = section
    public = [call for call in everything[crate] if call.public]
    if rows is None:
        if any(call for call in public if call.name != "main"):
            wrong(crate, "has no section")
        return
    found = [check_row(crate, row, everything, tests, files) for row in rows]
    listed = {call for calls, _ in found for call in calls} | set(re.findall(NAME, " ".join(code(text))))
    for call in public:
        if call.name not in listed and call.name != "main":
            wrong(crate, f"the public call '{call.name}' ({call.module}) isn't listed")
    named = {edit for _, edits in found for edit in edits}
    for edit, path in edits_of(crate).items():
        if edit not in named:
            wrong(crate, f"the edit '{edit}' isn't named")
        check_fit(crate, path)


def main():
    if {"-h", "--help"} & set(sys.argv[1:2]):
        print(__doc__, end="")
        return
    os.chdir(os.path.join(os.path.dirname(os.path.realpath(__file__)), ".."))
    (document, other), tests, files = sections(), tests_of(), definitions_of()
    crates = sorted(os.path.basename(path) for path in glob.glob("crates/*") if os.path.isdir(path + "/src"))
    everything = {crate: crate_calls(crate) for crate in crates}
    for crate in crates:
        section = document.get(crate), "\n".join(other.get(crate, []))
        check_crate(crate, section, everything, tests, files)
    for section in document:
        if section not in crates:
            wrong(section, "has a section, but is no crate")
    for folder in sorted(glob.glob("plants/*")):
        if os.path.basename(folder) not in crates:
            wrong(folder, "has edits of no crate")
    check_readme(crates, everything, files)
    if WRONG:
        print("\n".join(WRONG))
    print(f"docs/PROMISES.md and README.md: {len(WRONG)} wrong")
    sys.exit(1 if WRONG else 0)


def cases_of(crate):
    """Returns the names of the cases of a crate of tests: the tables in its folder, the first word of each row
    there, and its modules."""
    cases = {os.path.basename(path)[:-3] for path in glob.glob(f"crates/{crate}/src/*.rt")}
    folder = crate.removesuffix("_tests").removeprefix("abcps_")
    for path in glob.glob(f"crates/all_tests/data/{folder}/*"):
        cases.add(os.path.basename(path).split(".")[0])
        cases.update(row.split()[0].strip(":|") for row in read(path).split("\n") if row.split())
    return cases


def check_tests(crate, calls, cell, tests):
    """Checks that a test is a test function, a crate, or a case of the crate of tests that is named before a colon."""
    for part in cell.split(";"):
        of_tests = re.match(rf"\s*(?:by |through )?`({NAME})`: (.*)", part)
        if of_tests and os.path.isdir(f"crates/{of_tests[1]}"):
            named = re.sub("`[^`]*`", "", of_tests[2]).split(", by ")[0].split(" (")[0]
            for case in re.findall(rf"(?<![`A-Za-z_]){NAME}", named):
                if case not in cases_of(of_tests[1]):
                    wrong(crate, f"{', '.join(calls)}: no case '{case}' of {of_tests[1]}")
            continue
        for test in names(part):
            if "_" in test and test not in tests and not os.path.isdir(f"crates/{test}"):
                wrong(crate, f"{', '.join(calls)}: no test '{test}'")


def check_readme(crates, everything, files):
    """Checks README's tables: each crate but those of tests and the program itself has a row, the calls of a row are
    of its crates, and the clauses after a call are clauses of it. The promises' clauses are those of the top call."""
    parts = ("abcps", "set_tune", "lay_tune", "law_one_outcome")
    specs = [path for part in parts for path in glob.glob(f"crates/{part}/specs/*.antt")]
    fields = {field for path in specs for field in fields_of(read(path))}
    proofs = glob.glob("crates/abcps/proofs/*.antt")
    laws = {law for path in proofs for law in re.findall(rf"^pub ({NAME}) :", read(path), re.M)}
    lines, head, named = read("README.md").split("\n"), [], set()
    for row, below in zip(lines, lines[1:] + [""]):
        cells = [cell.strip() for cell in re.split(r"(?<!\\)\|", row)[1:-1]]
        if re.match(r"\|[-|]+\|$", below):
            head = cells
        elif not row.startswith("|") or re.match(r"\|[-|]+\|$", row):
            continue
        elif head[-1] == "Clause":
            for clause in code(cells[-1]):
                if clause not in fields | laws:
                    wrong("README.md", f"no clause '{clause}' of the program")
        elif head[-1] == "Calls and their clauses":
            mine = [call for crate in code(cells[0]) for call in everything.get(crate, [])]
            named.update(code(cells[0]))
            for part in cells[-1].split(";"):
                calls = [call for call in mine if call.name in code(part)]
                if code(part) and not calls:
                    wrong("README.md", f"no call {part.strip()} in {cells[0]}")
                for clause in re.findall(NAME, part.split(":")[1]) if ":" in part else []:
                    if not any(clause in call.clauses for call in calls):
                        wrong("README.md", f"no clause '{clause}' in {part.strip()} of {cells[0]}")
    for crate in crates:
        if crate not in named and not re.fullmatch(r"\w+_tests|(?:case|answer)_texts|abcps_(main|commands)", crate):
            wrong("README.md", f"has no row for {crate}")
    for crate in named - set(crates):
        wrong("README.md", f"no crate {crate}")


def check_definition(crate, entry, files, of_std):
    """Checks that a name 'File.word' is in a file of that name in specs or proofs. A name without a point is a file
    there, a word of one, or a trait of the sources; if the cell speaks of std, it may be a word of std."""
    parts = entry.split(".")
    if not all(re.fullmatch(NAME, part) for part in parts) or os.path.isdir(f"crates/{entry}"):
        return
    group = files.get(parts[0], []) if len(parts) == 2 else [one for group in files.values() for one in group]
    stands = any(re.search(rf"(?<!\w){parts[-1]}(?!\w)", text) for _, text in group)
    if not (stands or (len(parts) == 1 and (of_std or parts[0] in files or parts[0] in TRAITS))):
        wrong(crate, f"no definition '{entry}'")


main()
