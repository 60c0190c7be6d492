#!/usr/bin/env python3
"""Finds sentences that break the rules of CONTRIBUTING, *How a sentence is written*.

    tests/words.py [PAGE..]     the pages that users read (USERS), or those that are named: one line a breach, and the status is 1 if there is one
    tests/words.py --all        counts breaches in all pages, page by page, and apart from them the words of the specification in pages about it (SPECIFIED);
                                the status is 0
    tests/words.py --crates     lists the breaches in texts of crates/*/src and of tests/simulator/src, which are helps and messages, and in doc comments: the
                                status is 1 if there is one.
                                It counts those in plain comments and in comments of specs/, crate by crate: they don't change the status
    tests/words.py --crates NAME..  the same of these crates, and lists the breaches in their plain comments and comments of specs/, too

A text is a string of two words or more. Each of its lines is looked at by itself. What code must have as it is, is listed with the reason (FIXED);
an entry of that list that no text needs is a breach, too. Doc comments have no such list. Comments of specs/ may have the words of the specification.

A sentence has at most 30 words; code in it counts as one. A coined word has the field's word in its place: the table is COINED. Code, commands,
what programs print, and file names are not looked at.
"""
import glob
import os
import re
import sys

os.chdir(os.path.dirname(os.path.dirname(os.path.abspath(__file__))))

LONGEST = 30

# Pages that users read: these have no breach. Of CHANGELOG the part above the newest release.
USERS = [
    "README.md", "SECURITY.md", "CHANGELOG.md",
    *(f"docs/{name}.md" for name in ("TUTORIAL", "COOKBOOK", "OPERATING", "DAMAGED-STORE", "MOVING", "WHY-NOT-RUNNING", "DIFFERENCES", "JSON", "BEYOND-ONE-MACHINE")),
    *sorted(glob.glob("man/*.[158]")),
]

# What is not written, and what is written in its place.
COINED = [
    (r"\b(?:is|are|was|were|be|been|being)(?: \w+ly| then| also| not| once)? told\b", "who prints, logs or reports it"),
    (r"\btells?\b|\btelling\b|\btold\b", "prints, logs, reports, says"),
    (r"\bstands?\b(?! for\b)|\bstood\b", "is, is present, is set"),
    (r"\bbehind\b", "after, later"),
    (r"\bbeside\b", "next to, with, besides"),
    (r"\banew\b", "again, new"),
    (r"\blook-outs?\b", "helper process"),
    (r"\bsights?\b", "observation, path check"),
    (r"\b(?:a|an|the|each|every|this|that|last|next|older|newer) reading\b|(?<!clock )\breadings\b", "clock reading"),
    (r"\bmoments?\b", "time"),
    (r"\brounds?\b", "pass of the event loop"),
    (r"\blet go\b|\blets go\b", "disconnected, released"),
    (r"\blives\b|\blived\b|\blive on\b", "is running, keeps running"),
    (r"\b(?:is|are|was|were|has|have|had) gone\b", "exited, was removed, is not loaded"),
    (r"\bmade up for\b", "caught up"),
    (r"\bby hand\b", "manually"),
    (r"\bhand(?:s|ed|ing)? (?:in|on|out|down|over|to)\b", "delivers, passes"),
    (r"\bmarks? of direction\b", "bidirectional control characters"),
    (r"\ban only\b", "a single"),
    (r"\bdictionar(?:y|ies)\b", "object"),
    (r"\btexts? of (?:1 to |at most |up to )?\d", "string"),
    (r"\bwords?\b", "arguments, options, output, wrapper command"),
    (r"\b(?:no|without a) clock\b", "no schedule"),
    (r"(?<!\bthere )(?<!\bThere )\b(?:is|are|was|were) no (?!longer\b|more\b|earlier\b|later\b)", "is not a (a negated verb, not a noun with no)"),
    (r"\boverrides?\b", "setting"),
    (r"\bpatience\b", "timeout"),
    (r"\bstruck\b|\bstrikes?\b", "killed by kickstart -k"),
    (r"\bsending half\b", "half-closes"),
    (r"\bfolds?\b", "DST overlap"),
    (r"\bwrong bod(?:y|ies)\b", "mutant"),
    (r"(?<!on-)\bdemands?\b", "pending start request"),
    (r"\bacts? on\b|\bacted on\b", "supported, ignored"),
    (r"\bclocks alone\b", "scheduled"),
    (r"\b(?:ends?|ended|ending) with (?:status|code|exit|\d|CODE)", "exits with"),
    (r"\bprocess (?:ids?|numbers?)\b", "PID"),
    (r"\b[Ss]o many\b|\b[Aa]s many\b", "how many, the number of"),
    (r"\bheed(?:s|ed)?\b", "obeys, takes into account"),
    (r"\bto be had\b|\bbe had\b", "available"),
]
COINED = [(re.compile(form), instead) for form, instead in COINED]

# Words of the specification, which docs/GLOSSARY.md defines for its second kind of reader. Pages that users read have none of them either.
SPECIFIED = re.compile(r"'(?:moments?|rounds?|demands?|struck|lives|(?:is|are|has|have) gone|tells?|told)' ")

# Texts that are not sentences for a user: where they are, what is not looked at there, and why it is as it is.
FIXED = [
    ("job_defs/src/load_text.rt", r"not acted on:", "a reply of the protocol"),
    ("loaded_jobs/src/texts.rt", r"\\tdemand = ", "a line of the reply to print, which the protocol fixes"),
    ("trials/src/little_memory/replaying.rt", r"\\tdemand = ", "a line of the reply to print"),
    ("trials/src/little_memory/turning.rt", r"\\tdemand = ", "a line of the reply to print"),
    ("child_edge/src/notices.rt", r"ended with code", "contrib/jobd-run reads it back in a line of JOBD_LOG=runs"),
    ("files_and_process/src/own_process/program.rt", r"jobd-look-out", "the name of a program, which contrib/jobd-run reads in /proc"),
    ("look_out/src/helper.rt", r"jobd-look-out", "the name of a program, which contrib/jobd-run reads in /proc"),
    ("run_times/src/picture/svg.rt", r"(?:\.runs \.|@media ).*", "CSS: the classes of shapes"),
    ("trials/src/rounds/refusals.rt", r"^\{.*", "a line of a journal"),
    ("override_store/src/open.rt", r"CREATE TABLE.*", "SQL: the tables of the store"),
    ("startup/src/looking.rt", r"SELECT .* FROM overrides", "SQL: a table of the store"),
    ("trials/src/stores/calls.rt", r"CREATE TABLE.*", "SQL: the tables of the store"),
    ("trials/src/stores/files.rt", r"CREATE TABLE.*", "SQL: the tables of the store"),
    ("trials/src/little_memory/storing.rt", r"DROP TABLE .*", "SQL: the tables of the store"),
]

PUNCTUATION = {".", ",", ";", ":", "(", ")", "[", "]", "?", "!"}
# Macros of mdoc(7) whose arguments are code, and those that only mark a text.
CODE_MACROS = {"Ql", "Pa", "Va", "Ev", "Fl", "Ar", "Cm", "Nm", "Xr", "Li", "Sx", "Op", "Dv", "Er"}
MARKS = {"Em", "Sy", "Pq", "Dq", "Sq", "Qq", "Ns", "No", "Aq", "Bq", "Po", "Pc", "Oo", "Oc", "An", "Ta"}


def read(path):
    with open(path, encoding="utf-8") as it:
        return it.read()


def plain_line(text):
    """A line of Markdown without its marks, with one word for each code span."""
    text = re.sub(r"``[^`]+``|`[^`]*`", " CODE ", text)
    text = re.sub(r"!?\[([^\]]*)\]\([^)]*\)", r"\1", text)
    text = re.sub(r"<!--.*?-->|</?\w[^>]*>", "", text)
    return re.sub(r"CODE\s+([.,;:)?!])", r"CODE\1", text.replace("**", "").replace("*", "").replace("\\|", "/"))


def units_of_markdown(text):
    """Each paragraph, item, heading and cell of a table, with the number of its first line."""
    unit, start, is_fenced, was_blank, is_code = [], 0, False, True, False
    for number, line in enumerate([*text.split("\n"), ""], 1):
        fence = line.lstrip().startswith("```")
        is_new = bool(re.match(r"\s*(?:[-*+]|\d+\.) ", line))
        deep = line.startswith("    ") and was_blank and not is_new
        is_code = bool(line.strip()) and (deep or (is_code and line.startswith("    ")))
        if fence or is_fenced or not line.strip() or is_code or is_new or line.startswith(("#", "|", ">")):
            if unit:
                yield start, plain_line("\n".join(unit)).replace("\n", " ")
            unit = []
        is_fenced ^= fence
        was_blank = not line.strip()
        if fence or is_fenced or was_blank or is_code:
            continue
        if line.startswith("|"):
            for cell in re.split(r"(?<!\\)\|", re.sub(r"`[^`]*`", " CODE ", line))[1:-1]:
                yield number, plain_line(cell)
        elif line.startswith("#"):
            yield number, plain_line(line.lstrip("# "))
        else:
            if not unit:
                start = number
            unit.append(re.sub(r"^\s*(?:[-*+]|\d+\.) |^>\s*", "", line))


def plain_macro(words):
    """The words of a macro's line, with one word for the arguments of each macro of code."""
    out, is_code = [], False
    for word in words:
        if word in CODE_MACROS:
            is_code = True
            out.append("CODE")
        elif word in MARKS:
            is_code = False
        elif word in PUNCTUATION:
            is_code = False
            out.append(word)
        elif not is_code:
            out.append(word)
    return " ".join(out)


def units_of_mdoc(text):
    """Each paragraph, item and heading of a manual page, with the number of its first line."""
    unit, start, is_display = [], 0, False
    text = re.sub(r"(?s)\.Sh SYNOPSIS\n.*?(?=\.Sh )", lambda it: "\n" * it[0].count("\n"), text)

    def done():
        joined = re.sub(r"\s+([.,;:)?!])", r"\1", " ".join(unit)).replace("\\&", "").replace("\\(en", "-")
        unit.clear()
        return re.sub(r"CODE(?: CODE)+", "CODE", joined)

    for number, line in enumerate(text.split("\n"), 1):
        if line.startswith('.\\"') or not line.strip():
            continue
        words = line[1:].split() if line.startswith(".") else []
        name = words[0] if words else ""
        if name in ("Bd", "Ed"):
            is_display = name == "Bd"
        if is_display or name in ("Sh", "Ss", "Pp", "Bl", "El", "Bd", "Ed", "It", "Dl", "D1", "Dd", "Dt", "Os", "Nd"):
            if unit:
                yield start, done()
            if name == "It" and not is_display:
                # the head of an item is code where it is a number with the names of subcommands
                for part in re.split(r" Ta ", " ".join(words[1:])) if not re.match(r"\d", " ".join(words[1:2])) else ():
                    yield number, plain_macro(part.split())
            elif name == "Nd" or name == "Ss" and not words[1].startswith("job"):
                yield number, " ".join(words[1:])
            continue
        if name == "In" or name == "Fd":
            continue
        if not unit:
            start = number
        unit.append(plain_macro(words) if words else line)
    if unit:
        yield start, done()


SIMULATOR = "simulator"

# What begins a line of a comment, by kind. Only breaches in doc comments change the status.
DOC = re.compile(r"\s*//[/!] ?(.*)")
OTHER = [("plain comments", "src/**/*.rt", re.compile(r"\s*//(?![/!]) ?(.*)")), ("comments of specs", "specs/**/*.antt", re.compile(r"\s*-- ?(.*)"))]


def comments_of_source(text, mark):
    """The comments of a source whose lines `mark` finds, each with its first line. A line without a word ends a comment."""
    comment, start = [], 0
    for number, line in enumerate([*text.split("\n"), ""], 1):
        found = mark.match(line)
        if found and found[1].strip():
            start = start if comment else number
            comment.append(found[1])
            continue
        if comment:
            yield start, plain_line(" ".join(comment))
            comment = []


# A comment, a character, a raw string or a string of a source.
TOKEN = re.compile(r"//[^\n]*|'(?:\\u\{\w*\}|\\x\w\w|\\.|[^'\\\n])'|\br(#*)\"(.*?)\"\1|\"((?:[^\"\\]|\\.)*)\"", re.S)


def texts_of_source(text):
    """The lines of each string of a source that has two words or more, each with the line where the string begins."""
    for it in TOKEN.finditer(text):
        string = it[2] if it[2] is not None else it[3]
        if string is None:
            continue
        for row in re.split(r"\n|\\n", string):
            if len(re.findall(r"[A-Za-z]{2,}", row)) >= 2:
                yield text.count("\n", 0, it.start()) + 1, row


def plain_text(row):
    """A line of a text with one word for each hole, each quotation and each piece of code."""
    row = re.sub(r"</?\w[^>]*>", " ", row)
    row = re.sub(r"\{[^{} ]*\}|\$\d*|`[^`]*`|\\\"[^\"]*\\\"", " CODE ", row.replace("\\t", " "))
    return re.sub(r"CODE\s+([.,;:)?!])", r"CODE\1", row)


def sentences(unit):
    return [it for it in re.split(r"(?<=[.!?])[\")]*\s+(?=[\"(]?[A-Z0-9])", unit.strip()) if it]


def breaches(unit):
    for sentence in sentences(unit):
        count = sum(1 for it in sentence.split() if re.search(r"\w", it))
        sentence = sentence if sentence.startswith("CODE") else sentence[0].lower() + sentence[1:]
        if count > LONGEST:
            yield f"{count} words: {sentence[:70]}"
        seen = []
        for form, instead in COINED:
            for it in form.finditer(sentence):
                if not any(a <= it.start() < b for a, b in seen):
                    seen.append(it.span())
                    yield f"{it[0]!r} ({instead}): {sentence[max(0, it.start() - 30) : it.end() + 30]}"


def units(path):
    text = read(path)
    if path == "CHANGELOG.md":
        parts = re.split(r"(?m)^## ", text)
        text = "\n".join([parts[0], "## " + parts[1] if len(parts) > 1 else ""])
    return units_of_markdown(text) if path.endswith(".md") else units_of_mdoc(text)


def in_page(path):
    return [f"{path}:{number}: {it}" for number, unit in units(path) for it in breaches(unit)]


def in_comments(path, mark=DOC):
    found = [(number, it) for number, unit in comments_of_source(read(path), mark) for it in breaches(unit)]
    return [f"{path}:{number}: {it}" for number, it in found if mark is DOC or not SPECIFIED.match(it)]


def in_texts(path, needed):
    """The breaches in the texts of a source. The entries of FIXED that a text needs are added to `needed`."""
    faults = []
    for number, row in texts_of_source(read(path)):
        for at, form, _ in FIXED:
            if path == f"crates/{at}" and any(breaches(plain_text(row))):
                row, count = re.subn(form, "CODE", row)
                needed.update({(at, form)} if count else ())
        faults += [f"{path}:{number}: {it}" for it in breaches(plain_text(row))]
    return faults


def files_of(crate, where):
    """The files of a crate. The simulator, which no gate proves, is in tests/, and its sources have an ending of their own."""
    form = f"crates/{crate}/{where}" if crate != SIMULATOR else f"tests/{crate}/**/*.rattle" if where.startswith("src") else ""
    return sorted(glob.glob(form, recursive=True))


def of_crates(names):
    """The breaches in the texts and comments of these crates, or of all: the status is 1 if a text or a doc comment has one."""
    crates = names or [*sorted(os.listdir("crates")), SIMULATOR]
    texts, docs, needed, others, last = [], [], set(), [], []
    for crate in crates:
        for path in files_of(crate, "src/**/*.rt"):
            texts += in_texts(path, needed)
            docs += in_comments(path)
        for kind, where, mark in OTHER:
            found = [it for path in files_of(crate, where) for it in in_comments(path, mark)]
            others += found
            last += [f"{crate}: {len(found)} in {kind}"] if found else []
    if not names:
        texts += [f"tests/words.py: FIXED: no text of crates/{at} needs {form!r}" for at, form, _ in FIXED if (at, form) not in needed]
    print("\n".join([*texts, *docs, *(others if names else last)]))
    print(f"words: {len(texts)} in texts, {len(docs)} in doc comments, and {len(others)} in other comments")
    return 1 if texts or docs else 0


def main(words):
    if words[:1] == ["--crates"]:
        return of_crates(words[1:])
    if words == ["--all"]:
        pages = sorted({*USERS, *glob.glob("*.md"), *glob.glob("docs/*.md"), *glob.glob("crates/*/README.md"), "bench/RESULTS.md"})
        counts, specified = {}, 0
        for path in filter(os.path.exists, pages):
            found = [it.split(": ", 1)[1] for it in in_page(path)]
            apart = [] if path in USERS else [it for it in found if SPECIFIED.match(it)]
            counts[path] = len(found) - len(apart)
            specified += len(apart)
        print("\n".join([*(f"{path}: {count}" for path, count in counts.items() if count), f"words: {sum(counts.values())} in all pages, and {specified} times a word of the specification"]))
        return 0
    pages = words or USERS
    faults = [it for path in pages for it in in_page(path)]
    print("\n".join([*faults, f"words: {len(pages)} pages, {len(faults)} breaches"]))
    return 1 if faults else 0


if __name__ == "__main__":
    sys.exit(main(sys.argv[1:]))
