#!/usr/bin/env python3
"""Checks the names that the documents give: each stands in the repository, and each wrong body stands in a document.

    tests/names.py

The documents are README.md, CHANGELOG.md, CONTRIBUTING.md, SECURITY.md, docs/ (but for the pages that a script types), the README.md of each crate, of
tests/simulator and of contrib/, and bench/RESULTS.md. What is looked for:

- A word of small letters with an underscore, as no_order_remains, and in a code span a word in CamelCase, as `JobTable`, has to stand
  in a source, a definition, a proof, an edit, a script or a path, or below in OUTSIDE.
- Of `File.name`, as `Due.is_throttled`, a file of that name has to be there and to hold the name.
- Of `Type::call` or `call` with clauses behind it, as `Throttle::free_at` (`past`), some function of that name has to have a clause of
  each of these names; in the README of a crate, some function of this crate, if it has one of that name.
- Of a code span `Type::call`, or `crate::module::call`, there has to be a `fn` of that name in the crate of that type, or in that crate; and of a
  call with its arguments, as `own_label(&self)`, in some crate, or in that whose README it is. A module, a type or a constant will do too.
- A contract that a page prints, indented by four spaces, has to stand in a source: the head of the function, if it is printed, and each of the
  clauses that are printed, word for word but for the white space.
- A file that a code span names by its ending, as `due.rt`, has to be there.
- Each wrong body has to have a row in tests/wrong_bodies/RESULTS.csv, which says what refused it, or to be named in a document, as one that is not
  tried yet. They stand in crates/CRATE/must-fail/ and in tests/wrong_bodies/CRATE/. One of must-fail/ has no parts: the gate would try them
  together, and pass all if it refuses one.
- Where a comment names specs/NAME or proofs/NAME, its crate has to have that file.
- A name in a code span of a comment, as `read_def`, `JobTable` or `Dialogue::new`, is to be met in the code of its crate or of one below it. One that names
  another crate, as `replay::status_of`, is to be defined there.
- A file that a drawing names, as outside/order.rt, has to be there, below src/ of that crate.
- Each fault that tests/simulated.py plants can be planted: what an edit of tests/simulator_plants replaces is once in its file.
- No row of a table in the pages that a reader begins with (SHORT) is longer than 200 characters.

One line a fault; the status is 1 if there is one.
"""
import csv
import os
import re
import sys

sys.dont_write_bytecode = True
TOP = os.path.dirname(os.path.dirname(os.path.abspath(__file__)))
sys.path.insert(0, f"{TOP}/tools")
import kit  # noqa: E402

WORD = re.compile(r"[A-Za-z0-9_]+")

# Names of the standard library, of ported crates, of the kernel, of processors and of systemd, and keys of launchd.plist(5).
OUTSIDE = {"include_str", "node_exporter", "timestamp_seconds", "get_flag", "tcp_wmem", "x86_64", "drop"} | set(
    "IfNone TasksMax MemoryMax OnCalendar OtherJobEnabled AfterInitialDemand SockPathOwner MulticastGroup MachServices"
    " StartOnMount ProcessType LimitLoadToHosts AbandonProcessGroup TimeOut EnableGlobbing LaunchEvents SoftResourceLimits"
    " HardResourceLimits".split()
)

# A word in CamelCase, a call with its clauses, and the ending of a file, in documents.
CAMEL = re.compile(r"\b[A-Z][a-z0-9]+(?:[A-Z][a-z0-9]*)+\b")
CLAUSES = re.compile(r"`(?:\w+::)*(\w+)`\s+\(((?:`\w+`(?:,?\s+(?:and\s+)?)?)+)\)")
FILE = re.compile(r"(?<![\w*<>{/.-])((?:[\w-]+/)*[\w-]+\.(?:rt|rattle|antt|py|sh|md|mk|edit))\b")
FUNCTION = re.compile(r"\bfn (\w+)")
DEFINED = re.compile(r"\b(?:fn|mod|const|static|struct|enum|trait|type|macro_rules!) (\w+)")
HANDED_ON = re.compile(r"(?m)^pub use ([^;]*);")
TYPE = re.compile(r"\b(?:struct|enum|trait|type) ([A-Z]\w*)")
PATH = re.compile(r"\b((?:\w+::)+)(?:(\w+)|\{([^}]*)\})")
CALL = re.compile(r"`([a-z_]\w*)\([a-z_&, ]*\)`")
# A contract in a page: lines that are indented so, and begin a clause.
BLOCK = re.compile(r"(?:^    .*\n)+", re.M)
CLAUSE_BEGINS = re.compile(r"\b(?=(?:ensures|requires)\*?\s+(?:\w+\s+)?\{)")
CLAUSE = re.compile(r"^\s*(?:ensures|requires)\*?\s+(\w+)\s*\{", re.M)

# Words before a dot that name no file: keys of a definition, as in `KeepAlive.NetworkState`, words that stand for any name, and what
# `make dist` writes.
NO_FILES = {"KeepAlive", "Sockets", "StartCalendarInterval", "NAME", "LABEL", "File", "PROVED"}


# Pages whose names are of other programs and of jobs that they define; a script types their lines.
TYPED = {f"{TOP}/docs/{name}.md" for name in ("TUTORIAL", "COOKBOOK", "MOVING", "BEYOND-ONE-MACHINE")}

# Pages whose tables are read first, and the longest row that they may have.
SHORT = {"docs/MAP.md", "docs/GLOSSARY.md", "docs/CHANGING.md", "docs/CHEAP_TO_PROVE.md"}
LONGEST_ROW = 200

# What is a name in a comment's code span, and what comments name of others: calls of std and of the store's crate, keys of a definition, Unicode's word.
NAMED = re.compile(r"((?:\w+::)*)([a-z]\w*_\w*[a-z0-9]|[A-Z]\w*[a-z]\w*|(?<=::)\w+|\w+(?=\())(?:\(\))?")
OF_OTHERS = {"extend_from_slice", "open_files", "close_files", "serde_json", "SuccessfulExit", "Crashed", "Bidi_Control"}
COMMENT = {".rt": "//", ".antt": "--"}

# The one crate that is not in crates/, and the endings of sources: its own is another one, since `rt ci` proves each .rt file.
SIMULATOR = "tests/simulator"
SOURCES = (".rt", ".rattle")


def files_below(*folders):
    for folder in folders:
        for at, below, names in os.walk(f"{TOP}/{folder}"):
            below[:] = sorted(it for it in below if it not in ("out", "build", ".git"))
            yield from (f"{at}/{name}" for name in sorted(names))


def text_of(path):
    with open(path, encoding="utf-8", errors="replace") as it:
        return it.read()


def crate_of(path):
    """The name of the folder of crates/, or of tests/, that has the file."""
    return path[len(TOP) :].split("/")[2]


def documents():
    tops = ("README.md", "CHANGELOG.md", "CONTRIBUTING.md", "SECURITY.md", "bench/RESULTS.md")
    yield from (f"{TOP}/{name}" for name in tops)
    yield from (it for it in files_below("docs") if it.endswith(".md") and it not in TYPED)
    yield from (it for it in files_below("crates", "contrib", SIMULATOR) if os.path.basename(it) == "README.md")


def sources():
    for path in files_below("crates", "tests", "tools", "bench", "examples", "completions", "contrib", "man"):
        if not path.endswith(".md"):
            yield path


def wrong_bodies():
    """Each wrong body, with its edit's name and path."""
    for path in files_below("crates", "tests/wrong_bodies"):
        if path.endswith(".edit"):
            parts = re.findall(r"(?m)^# part: (\S+)", text_of(path))
            edit = os.path.basename(path)[: -len(".edit")]
            for name in parts or [edit]:
                yield name, edit, os.path.relpath(path, TOP)


def clauses_of():
    """The names of the clauses of each function, by crate and function; those of functions of one name are joined."""
    found = {}
    for path in files_below("crates", SIMULATOR):
        if not path.endswith(SOURCES):
            continue
        crate, text = crate_of(path), text_of(path)
        starts = [*FUNCTION.finditer(text)]
        for it, after in zip(starts, [*(one.start() for one in starts[1:]), len(text)]):
            names = set(CLAUSE.findall(text[it.end() : after]))
            for key in ((crate, it[1]), (None, it[1])):
                found.setdefault(key, set()).update(names)
    return found


def faults_in_clauses(path, text, clauses, crates):
    """A document names a clause that no function of that name has."""
    parts = os.path.relpath(path, TOP).split("/")
    crate = parts[1] if parts[0] == "crates" else None
    for it in CLAUSES.finditer(text):
        has = clauses.get((crate, it[1])) or clauses.get((None, it[1]))
        line = text.count("\n", 0, it.start()) + 1
        for name in re.findall(r"\w+", it[2]):
            if has is not None and name not in has and name not in crates:
                yield f"{os.path.relpath(path, TOP)}:{line}: {it[1]} has no clause {name}"


def one_spaced(text):
    return " ".join(text.split())


def contracts_of():
    """Of each function each of its heads with the clauses behind it, white space as one blank: what stands before its body."""
    found = {}
    for path in files_below("crates", SIMULATOR):
        if path.endswith(SOURCES):
            text = text_of(path)
            starts = [it.start() for it in FUNCTION.finditer(text)]
            for start, after in zip(starts, [*starts[1:], len(text)]):
                name = FUNCTION.match(text, start)[1]
                found.setdefault(name, []).append(one_spaced(re.sub(r"(?m)^\s*//.*$", "", text[start:after])))
    return found


def faults_in_blocks(path, text, contracts):
    """A page prints a contract in other words than a source has."""
    for it in BLOCK.finditer(text):
        if not CLAUSE_BEGINS.search(it[0]):
            continue
        head, *clauses = (one_spaced(part) for part in CLAUSE_BEGINS.split(it[0]))
        name = (FUNCTION.search(head) or re.search(r"(\w+)", head) or [""])[1 if head else 0]
        wanted = [head[head.index("fn ") :]] if "fn " in head else []
        line = text.count("\n", 0, it.start()) + 1
        lacking = [[part for part in [*wanted, *clauses] if part not in told] for told in contracts.get(name, [])]
        if not lacking:
            yield f"{os.path.relpath(path, TOP)}:{line}: a contract is printed, and there is no fn {name}"
        elif all(lacking):
            least = min(lacking, key=len)
            yield f"{os.path.relpath(path, TOP)}:{line}: no source has these words of {name}: {least[0][:80]}"


def defined_in():
    """What each crate defines or hands on, and the crates that have a type of a name."""
    names, types = {}, {}
    for path in files_below("crates", SIMULATOR):
        if path.endswith(SOURCES):
            crate, text = crate_of(path), text_of(path)
            handed_on = (name for uses in HANDED_ON.findall(text) for name in WORD.findall(uses))
            names.setdefault(crate, set()).update([*DEFINED.findall(text), *handed_on])
            for name in TYPE.findall(text):
                types.setdefault(name, set()).add(crate)
    return names, types


def faults_in_calls(path, text, names, types):
    """A page names a call that its crate does not have."""
    short = os.path.relpath(path, TOP)
    parts = short.split("/")
    own = {parts[1]} if parts[0] == "crates" or short.startswith(SIMULATOR) else set(names)
    for number, line in enumerate(text.splitlines(), 1):
        for name in CALL.findall(line):
            if name not in OUTSIDE and not any(name in names[crate] for crate in own if crate in names):
                yield f"{short}:{number}: no crate has a call {name}" if len(own) > 1 else f"{short}:{number}: {parts[1]} has no call {name}"
        for span in re.findall(r"`([^`]+)`", line):
            for front, last, several in PATH.findall(span):
                first, before = front.split("::")[0], front.split("::")[-2]
                crates = types.get(before) or ({first} if first in names else set())
                for name in [last] if last else re.findall(r"\w+", several):
                    if crates and name.islower() and not any(name in names[crate] for crate in crates):
                        yield f"{short}:{number}: {' and '.join(sorted(crates))} has no {name}"


def faults_in_spans(path, text, known, files):
    """A document names in a code span a type that is nowhere, or a file that is not there."""
    short = os.path.relpath(path, TOP)
    for number, line in enumerate(text.splitlines(), 1):
        for span in re.findall(r"`([^`]+)`", line):
            for word in CAMEL.findall(span):
                if word not in known and word not in OUTSIDE:
                    yield f"{short}:{number}: {word} stands nowhere in the repository"
            for name in FILE.findall(span):
                if NO_FILES & set(re.split(r"[/.]", name)):
                    continue
                beside = os.path.normpath(os.path.join(os.path.dirname(short), name))
                if beside not in files and not any(it == name or it.endswith(f"/{name}") for it in files):
                    yield f"{short}:{number}: there is no file {name}"


def faults_in_drawings(path, text, files):
    """A drawing, which stands between fences, names a file that is not there."""
    short, is_drawing = os.path.relpath(path, TOP), False
    for number, line in enumerate(text.splitlines(), 1):
        if line.startswith("```"):
            is_drawing = not is_drawing
        for name in FILE.findall(line) if is_drawing else ():
            crate, _, rest = name.partition("/")
            if f"crates/{crate}/src/{rest}" not in files and not any(it.endswith(f"/{name}") for it in files):
                yield f"{short}:{number}: there is no file {name}"


def faults_in_comments(crates):
    """A comment names in a code span what its crate does not have, nor one below it."""
    code, comments = {crate: set() for crate in crates}, []
    for path in files_below("crates"):
        sign = COMMENT.get(os.path.splitext(path)[1])
        for number, line in enumerate(text_of(path).splitlines(), 1) if sign else ():
            front, _, comment = line.partition(sign)
            code[crate_of(path)].update(WORD.findall(front))
            comments += [(path, number, span) for span in re.findall(r"`([^`]+)`", comment)]
    known = {crate: set().union(*(code[it] for it in {crate, *kit.below(crate)})) for crate in crates}
    for path, number, span in comments:
        found = NAMED.fullmatch(span)
        if not found or found[2] in crates or found[2] in OF_OTHERS or span in OUTSIDE:
            continue
        crate = found[1].split("::")[0]
        if found[2] not in known[crate_of(path)] | code.get(crate, set()):
            yield f"{os.path.relpath(path, TOP)}:{number}: a comment names {span}, which stands in no code here or below"


def faults_in_plants():
    """A plant replaces what its file does not have, or has more than once."""
    for path in files_below("tests/simulator_plants"):
        source = ""
        for line in text_of(path).splitlines():
            word, _, rest = line.partition(": ")
            if word == "file":
                source = text_of(f"{TOP}/{rest}") if os.path.exists(f"{TOP}/{rest}") else ""
            elif word == "old" and source.count(rest) != 1:
                yield f"{os.path.relpath(path, TOP)}: its file has this {source.count(rest)} times: {rest.strip()}"


def faults_in_rows(path, text):
    """A table of a page that is to be short has a long row."""
    short = os.path.relpath(path, TOP)
    for number, line in enumerate(text.splitlines(), 1):
        if short in SHORT and line.startswith("|") and len(line) > LONGEST_ROW:
            yield f"{short}:{number}: a row of {len(line)} characters"


def main():
    known, holders = set(), {}
    clauses, files = clauses_of(), {os.path.relpath(it, TOP) for it in files_below("")}
    crates = set(os.listdir(f"{TOP}/crates"))
    contracts, (names, types) = contracts_of(), defined_in()
    for path in sources():
        words = set(WORD.findall(text_of(path))) | set(WORD.findall(os.path.relpath(path, TOP)))
        known |= words
        if path.endswith((".antt", ".rt")):
            holders.setdefault(os.path.basename(path).rsplit(".", 1)[0], []).append(words)
    for name in ("crates.txt", "Makefile"):
        known |= set(WORD.findall(text_of(f"{TOP}/{name}")))
    faults, named = [], set()
    for path in documents():
        short, text = os.path.relpath(path, TOP), text_of(path)
        faults += [*faults_in_clauses(path, text, clauses, crates), *faults_in_spans(path, text, known, files)]
        faults += [*faults_in_blocks(path, text, contracts), *faults_in_calls(path, text, names, types)]
        for number, line in enumerate(text.splitlines(), 1):
            words = set(WORD.findall(line))
            named |= words
            for word in sorted(words - known):
                if "_" in word.strip("_") and word.islower() and word not in OUTSIDE:
                    faults.append(f"{short}:{number}: {word} stands nowhere in the repository")
            for file, name in re.findall(r"`(?:[a-z_]+::)?([A-Z][A-Za-z]+)\.([A-Za-z_]\w*)`", line):
                if file in NO_FILES or name == "md":
                    continue
                if file not in holders:
                    faults.append(f"{short}:{number}: no file is named {file}")
                elif not any(name in words for words in holders[file]):
                    faults.append(f"{short}:{number}: {file} does not hold {name}")
    for path in files_below("crates"):
        if path.endswith((".antt", ".rt")):
            crate = path[len(TOP) :].split("/")[2]
            for number, line in enumerate(text_of(path).splitlines(), 1):
                comment = re.search(r"(--|//) (.*)", line)
                for name in re.findall(r"\b(?:specs|proofs)/[A-Z]\w*", comment.group(2) if comment else ""):
                    if not os.path.exists(f"{TOP}/crates/{crate}/{name}.antt"):
                        faults.append(f"{os.path.relpath(path, TOP)}:{number}: there is no {name}.antt")
    with open(f"{TOP}/tests/wrong_bodies/RESULTS.csv", newline="", encoding="utf-8") as it:
        tried = {(row["crate"], row["body"]) for row in csv.DictReader(it)}
    for name, edit, path in wrong_bodies():
        crate = path.split("/")[-2 if path.startswith("tests/") else 1]
        if not tried & {(crate, name), (crate, f"{edit}.{name}")} and name not in named and edit not in named:
            faults.append(f"{path}: RESULTS.csv has no row for {name}, and no document names it")
        if name != edit and path.startswith("crates/"):
            faults.append(f"{path}: the gate tries {name} with other parts of this edit, and not alone")
    for path in documents():
        faults += [*faults_in_drawings(path, text_of(path), files), *faults_in_rows(path, text_of(path))]
    faults += [*faults_in_comments(crates), *faults_in_plants()]
    print("\n".join([*faults, f"{len(faults)} faults"]))
    return 1 if faults else 0


if __name__ == "__main__":
    sys.exit(main())
