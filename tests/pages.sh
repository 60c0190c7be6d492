#!/usr/bin/env bash
# The manual pages beside the programs: each subcommand and option of the programs' words (of jobctl also those of apply, which
# apply_folder reads) stands in their page, and the other way round; so does each key that the reader of definitions knows, with its numbers. VERSION, the programs' source and the pages
# name one version. page_tables.py compares limits, exit statuses, environment and single places, page_numbers.py the numbers of all pages.
# If the programs are there, in build/ or in the folder that is the first word, their help is asked too, and page_lines.py types what the
# pages show. If mandoc is there, the pages are clean under its lint. It is run by hand.
set -euo pipefail

cd "$(dirname "$0")/.."
programs=${1:-build}
python3 - "$programs" <<'END'
import os, re, subprocess, sys

PROGRAMS = sys.argv[1]
faults = []
counts = {"words": 0, "keys": 0, "numbers": 0, "helps": 0}


def read(*paths):
    return "\n".join(open(path, encoding="utf-8").read() for path in paths)


def same(what, wanted, found):
    for name in sorted(wanted - found):
        faults.append(f"{what}: {name} is not in the page")
    for name in sorted(found - wanted):
        faults.append(f"{what}: {name} is in the page alone")


# ---- subcommands and options

WORDS = "crates/command_words/src/"


def words_in(source, flags_of):
    """The subcommands and options that the source gives to the reader of words."""
    names = set(re.findall(r'name: "([a-z]+)",\s*about:', source))
    options = {"--" + name for name in re.findall(r'option\(\s*alloc,\s*"([a-z-]+)"', source)}
    options |= {"--" + name for name in re.findall(r'id: "([a-z-]+)",\s*form: Form::(?:AnyValue|Values?|Switch)', source)}
    flags = {"-" + letter for letter in re.findall(r"""flag\(\s*alloc,\s*"[a-z]+",\s*'(\w)'""", flags_of)}
    flags |= {"-" + letter for letter in re.findall(r"""Form::(?:Letter|ShortValue)\('(\w)'\)""", source)}
    return names, options | flags


def help_of(program, *words):
    run = subprocess.run([program, *words, "--help"], stdin=subprocess.DEVNULL, capture_output=True, text=True)
    if run.returncode != 0 or not run.stdout:
        faults.append(f"{program} {' '.join(words)} --help: status {run.returncode}")
    counts["helps"] += 1
    return run.stdout


def words_of_help(text):
    """The subcommands and options that a help text lists, but for help itself."""
    names, options, part = set(), set(), ""
    for line in text.splitlines():
        if re.match(r"\S.*:$", line):
            part = line
        elif part.startswith("Commands") and (row := re.match(r"  ([a-z]+)\b", line)):
            names.add(row.group(1))
        elif part.startswith("Options"):
            row = re.match(r"\s+(-[-\w, ]*)", line)
            options |= set(re.findall(r"(?<![\w-])--?[\w-]+", row.group(1))) if row else set()
    return names - {"help"}, options - {"-h", "--help", "-V", "--version"}


def options_of_page(page):
    rows = re.findall(r"^\.It (?:.*? )?Fl .*$", page, re.M) + re.findall(r"^\.(?:Op )?Fl .*$", page, re.M)
    found = set()
    for row in rows:
        for name in re.findall(r"Fl ([-\w]+)", row):
            found.add("-" + name)
    return found


def check_program(program, page_path, source, flags_of, own_name, apart=()):
    """`apart` has the subcommands that another crate reads, each with its options."""
    page = read(page_path)
    names, options = words_in(source, flags_of)
    for name, its_options in apart:
        names.add(name)
        options |= its_options
    names.discard(own_name)
    # A subcommand has an item or a section of its own, and stands in the synopsis.
    synopsis = page.split(".Sh SYNOPSIS")[1].split(".Sh DESCRIPTION")[0]
    in_synopsis = {word for row in re.findall(r"^\.(?:Op )?Cm (.*)$", synopsis, re.M) for word in re.findall(r"[a-z]+", row)}
    own = set(re.findall(r"^\.It Cm ([a-z]+)", page, re.M)) | set(re.findall(rf"^\.Ss {own_name} ([a-z]+)$", page, re.M))
    same(f"{page_path}: subcommands", names, own)
    same(f"{page_path}: synopsis", names, in_synopsis)
    same(f"{page_path}: options", options, options_of_page(page) - {"-h", "--help"})
    items = {"-" + name for row in re.findall(r"^\.It (Fl .*)$", page, re.M) for name in re.findall(r"Fl ([-\w]+)", row)}
    same(f"{page_path}: items of options", options, items - {"-h", "--help"})
    for word in ("-h", "--help"):
        if word not in items:
            faults.append(f"{page_path}: {word} is not in the page")
    for name, value in re.findall(r'id: "([a-z-]+)",\s*form: Form::(?:AnyValue|Values|Value \{[^}]*\}),\s*value: "([A-Z]+)"', source):
        if f"Fl -{name} Ar {value}" not in page:
            faults.append(f"{page_path}: --{name} {value} is not in the page")
    counts["words"] += len(names) + len(options)
    if os.access(program, os.X_OK):
        told, told_options = words_of_help(help_of(program))
        for name, its_options in apart:
            told.add(name)
            same(f"{program} {name} --help", its_options, set(re.findall(r"^ +(--[a-z-]+) ", help_of(program, name), re.M)) - {"--socket"})
            told_options |= its_options
        same(f"{program} --help: subcommands", told, own)
        for name in sorted(told):
            told_options |= words_of_help(help_of(program, name))[1]
        same(f"{program}: options of the helps", {o for o in told_options if len(o) == 2 or o.startswith("--")}, items - {"-h", "--help"})


control = read(WORDS + "control_words.rt")
apply_words = read("crates/apply_folder/src/words.rt")
APART = [(re.search(r'^const WORD: &str = "([a-z]+)"', apply_words, re.M)[1], set(re.findall(r'"(--[a-z-]+)" =>', apply_words)) - {"--socket", "--help"})]
check_program(f"{PROGRAMS}/jobctl", "man/jobctl.1", control, control, "jobctl", APART)
check_program(f"{PROGRAMS}/jobd", "man/jobd.8", read(WORDS + "jobd.rt"), "", "jobd")
SCOPE = read(WORDS + "scope_words.rt")
check_program(f"{PROGRAMS}/jobscope", "man/jobscope.1", SCOPE, "", "jobscope")

# ---- the version

version = read("VERSION").strip()
for path in ("crates/command_words/src/version.rt", "docs/OPERATING.md", "tests/scenes/words.py"):
    if {f"Kivgrond {version}"} != set(re.findall(r"Kivgrond [0-9.]*[0-9]", read(path))):
        faults.append(f"{path}: it does not name the version {version} alone")
if re.findall(r'VERSION: &str = "([0-9.]+)"', read("crates/status_file/src/lib.rt")) != [version]:
    faults.append(f"crates/status_file/src/lib.rt: it does not name the version {version}")
first, newest = (re.search(form, read("CHANGELOG.md"), re.M)[1] for form in (r"^## (\S+)", r"^## (\S+), \d{4}-\d\d-\d\d$"))
# Before a release VERSION is the one that comes.
comes = first == "Unreleased" and [int(it) for it in newest.split(".")] < [int(it) for it in version.split(".")]
if newest != version and not comes:
    faults.append(f"CHANGELOG.md: the newest version is not {version}")

# ---- the keys of a definition

PAGE = "man/jobd.json.5"
page = read(PAGE)
names = read("crates/json_kinds/src/names.rt")
keys = set(re.findall(r'KeyName::\w+ => "(\w+)"', names)) | set(re.findall(r'^pub const [A-Z_]+: &str = "(\w+)"', names, re.M))
same(f"{PAGE}: keys", keys, set(re.findall(r"^\.It Va (\w+)$", page, re.M)))
counts["keys"] = len(keys)
reasons = set(re.findall(r'Reason::\w+ => "(\w+)"', names))
fault_text = page.split(".Ss Fault")[1].split(".Ss ")[0]
same(f"{PAGE}: reasons", reasons, set(re.findall(r"^\.It Ql ([A-Z]\w+)$", fault_text, re.M)))

# ---- the numbers of the keys

SOURCE = {
    "limits": read("crates/job_defs/src/limits.rt"),
    "demand": read("crates/job_defs/src/demand.rt"),
    "host": read("crates/job_defs/src/host.rt"),
    "keys": read("crates/json_kinds/src/keys.rt"),
    "label": read("crates/history_model/specs/Labels.antt"),
}


def limit(name):
    """How a limit stands in the source: its number."""
    return rf"\b{name}: \w+ = ([\d_]+);"


def least_and_most(name):
    return rf"(?s)\b{name}_LEAST: \w+ = ([\d_]+);.*\b{name}_MOST: \w+ = ([\d_]+);"


# Each key, the file that checks it, and how its numbers stand there. Behind them stand numbers that the page may name too.
NUMBERS = [
    ("Label", "label", r"nat_lt (\d+) \(length bytes\) && nat_le \(length bytes\) (\d+)", {"32", "127"}),
    ("Program", "limits", limit("WORD_LIMIT"), {"1"}),
    ("ProgramArguments", "limits", limit("WORD_LIMIT"), {"256", "0"}),
    ("ProgramArguments", "limits", limit("ARGUMENTS_LIMIT"), {"4,096", "0"}),
    ("PathState", "limits", limit("LIST_LIMIT"), set()),
    ("QueueDirectories", "limits", limit("LIST_LIMIT"), set()),
    ("StartInterval", "limits", least_and_most("INTERVAL"), set()),
    ("StartCalendarInterval", "limits", limit("LIST_LIMIT"), set()),
    ("Minute", "limits", least_and_most("MINUTE"), set()),
    ("Hour", "limits", least_and_most("HOUR"), set()),
    ("Day", "limits", least_and_most("DAY"), set()),
    ("Weekday", "limits", least_and_most("WEEKDAY"), set()),
    ("Month", "limits", least_and_most("MONTH"), {"400"}),
    ("ThrottleInterval", "limits", least_and_most("PACE"), {"1", "10"}),
    ("ThrottleInterval", "demand", r"KeyName::ThrottleInterval,\s+PACE_LEAST,\s+PACE_MOST,\s+([\d_]+)", {"0", "1", "86,400"}),
    ("ExitTimeOut", "limits", least_and_most("PACE"), {"20"}),
    ("ExitTimeOut", "demand", r"KeyName::ExitTimeOut,\s+PACE_LEAST,\s+PACE_MOST,\s+([\d_]+)", {"0", "86,400"}),
    ("EnvironmentVariables", "limits", limit("VARIABLES_LIMIT"), {"1", "255", "4,096"}),
    ("EnvironmentVariables", "limits", limit("VARIABLE_NAME_LIMIT"), {"1", "128", "4,096"}),
    ("EnvironmentVariables", "limits", limit("WORD_LIMIT"), {"1", "128", "255"}),
    ("Sockets", "limits", limit("SOCKETS_LIMIT"), {"65,536", "64"}),
    ("SockPathName", "limits", limit("SOCKET_PATH_LIMIT"), {"1", "0600"}),
    ("SockNodeName", "host", r"n <= (255)", {"0", "127.0.0.1"}),
    ("SockServiceName", "limits", least_and_most("PORT"), set()),
]


def shown(number):
    return f"{int(number.replace('_', '')):,}"


def numbers_at(key):
    text = re.split(rf"^\.It Va {key}$", page, flags=re.M)[1]
    text = re.split(r"^\.(?:It Va|Ss|Sh) ", text, flags=re.M)[0]
    text = re.sub(r"^\.Xr .*$", "", text, flags=re.M)
    return set(re.findall(r"(?<![\w.,])\d[\d,.]*\d|(?<![\w.,])\d", text))


for key, where, pattern, others in NUMBERS:
    row = re.search(pattern, SOURCE[where])
    if row is None:
        faults.append(f"{key}: its numbers are not found in the source: {pattern}")
        continue
    wanted = {shown(number) for number in row.groups()}
    if key == "Label":  # more than 0 bytes
        wanted = (wanted - {"0"}) | {"1"}
    found = numbers_at(key)
    for number in sorted(wanted - found):
        faults.append(f"{PAGE}: {key}: {number} is not in the page")
    for number in sorted(found - wanted - others):
        faults.append(f"{PAGE}: {key}: {number} is in the page alone")
    counts["numbers"] += len(wanted)
row = re.search(r"PATH_LIMIT: usize = ([\d_]+)", SOURCE["keys"])
if f"A path is a string of 1 to {shown(row.group(1))} bytes." not in page:
    faults.append(f"{PAGE}: the length of a path is not in the page")

for fault in faults:
    print("pages:", fault, file=sys.stderr)
if faults:
    sys.exit(1)
print(
    f"pages: {counts['words']} subcommands and options, {counts['keys']} keys and {counts['numbers']} numbers agree;"
    f" {counts['helps']} helps of built programs were asked"
)
END
if command -v mandoc >/dev/null; then
    # What it says of pages that its own database does not have, and of that database, is no fault of the pages.
    (cd man && mandoc -Tlint -W style -- *.[158] 2>&1) | grep -v -e 'referenced manual not found' -e 'outdated mandoc.db' > "${TMPDIR:-/tmp}/pages.lint.$$" || true
    lint=$(cat "${TMPDIR:-/tmp}/pages.lint.$$")
    rm -f "${TMPDIR:-/tmp}/pages.lint.$$"
    [ -z "$lint" ] || { echo "$lint" >&2; exit 1; }
    echo "pages: mandoc's lint is clean"
else
    echo "pages: mandoc is not here, so its lint was not run"
fi
python3 tests/page_tables.py
python3 tests/page_numbers.py
if [ -x "$programs/jobd" ] && [ -x "$programs/jobctl" ] && [ -x "$programs/jobscope" ]; then
    python3 tests/page_lines.py "$programs"
else
    echo "pages: no programs in $programs, so nothing was typed"
fi
# ---- figures, and sentences that were mended once
python3 bench/results.py > /dev/null || { python3 bench/results.py >&2; exit 1; }
python3 - README.md SECURITY.md docs/WHY-NOT-RUNNING.md docs/OPERATING.md docs/DAMAGED-STORE.md docs/COOKBOOK.md docs/TUTORIAL.md docs/MOVING.md man/*.[158] <<'END'
import re, sys

with open("tests/old_sentences.txt", encoding="utf-8") as it:
    old = [re.compile(r"\s+".join(re.escape(word) for word in row.split())) for row in it]
old += [re.compile(r"\bis no such\b"), re.compile(r"\bAs many\b")]
faults = []
for page in sys.argv[1:]:
    with open(page, encoding="utf-8") as it:
        text = it.read()
    faults += [f"pages: {page}: a sentence that was mended stands there again: {found[0]!r}" for form in old if (found := form.search(text))]
print("\n".join(faults), file=sys.stderr, end="\n" if faults else "")
sys.exit(1 if faults else 0)
END
echo "pages: the figures are the last ones of bench/history.csv"
