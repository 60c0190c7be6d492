#!/usr/bin/env python3
"""The tables of the manual pages beside the sources: LIMITS, EXIT STATUS and ENVIRONMENT, the texts of refusals, what the helps say of them, and single
places that were wrong once. It needs no built program. `tests/pages.sh` runs it.

    tests/page_tables.py

One line a fault; the status is 1 if there is one.
"""
import glob
import os
import re
import sys

os.chdir(os.path.dirname(os.path.dirname(os.path.abspath(__file__))))
faults = []


def read(path):
    with open(path, encoding="utf-8") as it:
        return it.read()


def same(what, wanted, found):
    for name in sorted(wanted - found):
        faults.append(f"{what}: {name} is not in the page")
    for name in sorted(found - wanted):
        faults.append(f"{what}: {name} is in the page alone")


def plain(text):
    """The words of a page's lines, without its marks."""
    rows = [re.sub(r"^\.(?:Xr|Pa|Ql|Va|Ev|Fl|Ar|Cm|Pq|Em|Nm|It|Dl|Sx)\b ?", "", row) for row in text.splitlines()]
    return " ".join(re.sub(r"\b(?:Pq|Ql|Cm|Va|Fl|Ar|Ns) ", "", row) for row in rows if not row.startswith("."))


def section(page, title):
    text = read(page).split(f".Sh {title}\n")
    if len(text) != 2:
        faults.append(f"{page}: {title} stands there {len(text) - 1} times")
        return ""
    return re.split(r"^\.Sh ", text[1], flags=re.M)[0]


def items(page, title):
    """Each item of a section that begins with a number: the number, what stands behind it, and the text below."""
    for part in re.split(r"^\.It ", section(page, title), flags=re.M)[1:]:
        head, _, text = part.partition("\n")
        number, _, rest = head.partition(" ")
        if re.fullmatch(r"[\d,]+", number):
            yield number, rest, text


# ---- limits: the number in the page, how its item begins, and the sources that have it
LIMITS = [
    ("loaded jobs", [("history_model/src/lib.rt", r"MAX_JOBS: usize = ([\d_]+)")]),
    ("connections that wait for a job", [("history_model/src/lib.rt", r"MAX_CONNECTIONS: usize = ([\d_]+)")]),
    ("connections of a job whose request still comes", [("job_clients/src/callers.rt", r"CALLERS_OF_A_JOB: usize = ([\d_]+)")]),
    ("connections of all jobs whose request still comes", [("job_clients/src/callers.rt", r"CALLERS: usize = ([\d_]+)")]),
    ("connections held of all jobs", [("child_edge/src/room.rt", r"MOST: u64 = ([\d_]+)")]),
    ("connections of a job whose run is over", [("child_edge/src/connections.rt", r"OVER: usize = ([\d_]+)")]),
    ("seconds without a byte", [("child_edge/src/connection.rt", r"STILL: u64 = ([\d_]+)"), ("job_clients/src/caller.rt", r"LONGEST_SILENCE: u64 = ([\d_]+) \* SECOND")]),
    ("bytes of a connection's request", [("socket_demand/src/exchange.rt", r"MAX_REQUEST: usize = ([\d_]+)")]),
    ("clients of the control socket", [("control_socket/src/control.rt", r"CLIENTS: usize = ([\d_]+)")]),
    ("bytes of replies that a control client has not taken", [("control_socket/src/dialogue.rt", r"UNSENT: usize = ([\d_]+)")]),
    ("lines of a control client in a pass", [("control_socket/src/turn.rt", r"LINES: u32 = ([\d_]+)")]),
    ("milliseconds in a pass", [("live_loop/src/round_time.rt", r"LONGEST: u64 = ([\d_]+)"), ("child_edge/src/connections.rt", r"LONGEST: u64 = ([\d_]+)")]),
    ("bytes of a line before its newline", [("ctl_protocol/src/feed.rt", r"LINE_LIMIT: usize = ([\d_]+)")]),
    ("path checks in a pass", [("live_loop/src/paths.rt", r"LOOKS: u32 = ([\d_]+)")]),
    ("helpers, with those", [("look_out/src/left.rt", r"MOST: usize = ([\d_]+)")]),
    ("descriptors at least", [("child_edge/src/room.rt", r"FEWEST: u64 = ([\d_]+)")]),
    ("labels with a setting", [("override_store/src/known.rt", r"MOST_LABELS: usize = ([\d_]+)")]),
    ("bytes of the store", [("startup/src/looking.rt", r"MOST_BYTES: u64 = ([\d_]+)")]),
    ("bytes of a zone file", [("startup/src/zone.rt", r"MOST_BYTES: u64 = ([\d_]+)"), ("calendar_due/src/zone.rt", r"LONGEST_FILE: usize = ([\d_]+)")]),
    ("bytes of a string within a line on standard error", [("child_edge/src/words.rt", r"LONGEST: usize = ([\d_]+)")]),
]
# Numbers elsewhere in the pages: a sentence in which @ stands for the number, and the source.
NUMBERS = [
    ("man/jobctl.1", "its reply: @ if absent", "control_client/src/settings.rt", r"PATIENCE: u32 = ([\d_]+)"),
    ("man/jobctl.1", "or has more than @ bytes", "control_client/src/connection.rt", r"REPLY: usize = ([\d_]+)"),
    ("man/jobctl.1", "has more than @ bytes. Or, for", "ctl_protocol/src/feed.rt", r"LINE_LIMIT: usize = ([\d_]+)"),
    ("man/jobctl.1", ": @ are loaded", "history_model/src/lib.rt", r"MAX_JOBS: usize = ([\d_]+)"),
    ("man/jobctl.1", ": @ are served already", "control_socket/src/control.rt", r"CLIENTS: usize = ([\d_]+)"),
    ("man/jobd.8", "fewer than @ descriptors are allowed", "child_edge/src/room.rt", r"FEWEST: u64 = ([\d_]+)"),
    ("man/jobd.8", "it keeps @ lines of each kind", "child_edge/src/notices.rt", r"ROOM: usize = ([\d_]+)"),
    ("man/jobd.journal.5", "Milliseconds, at most @.", "history_model/src/lib.rt", r"MAX_UP: u64 = ([\d_]+)"),
    ("man/jobd.journal.5", "Unix time, at most @.", "history_model/src/lib.rt", r"MAX_WALL: u64 = ([\d_]+)"),
    ("man/jobd.journal.5", "too many connections : @ wait", "history_model/src/lib.rt", r"MAX_CONNECTIONS: usize = ([\d_]+)"),
    ("docs/WHY-NOT-RUNNING.md", "no answer within @ s", "control_client/src/settings.rt", r"PATIENCE: u32 = ([\d_]+)"),
    ("docs/WHY-NOT-RUNNING.md", "`too many jobs` | @ are loaded", "history_model/src/lib.rt", r"MAX_JOBS: usize = ([\d_]+)"),
    ("man/jobscope.1", "up to @; after now", "history_model/src/lib.rt", r"MAX_WALL: u64 = ([\d_]+)"),
    ("man/jobscope.1", "The number of lines: @ if absent", "scope/src/host_subcommands.rt", r"const COUNT: u64 = ([\d_]+)"),
    ("man/jobscope.1", "that of the last @ runs", "scope/src/journal/past.rt", r"MOST_RUNS: usize = ([\d_]+)"),
    ("man/jobscope.1", "is asked of a terminal; elsewhere it is @", "status_page/src/width.rt", r"COLUMNS: u16 = ([\d_]+)"),
    ("man/jobscope.1", "if more than @ entries would be needed", "definition_files/src/cron/entries.rt", r"MOST_ENTRIES: usize = ([\d_]+)"),
    ("man/jobscope.1", "a NUL byte or more than @ bytes", "job_defs/src/limits.rt", r"WORD_LIMIT: usize = ([\d_]+)"),
    ("man/jobscope.1", "more than @ nested", "property_lists/src/list.rt", r"DEEPEST: usize = ([\d_]+)"),
    ("man/jobscope.1", "levels, or more than @ bytes", "property_lists/src/list.rt", r"LONGEST: usize = ([\d_]+)"),
]


def number_in(path, form):
    row = re.search(form, read(f"crates/{path}"))
    if row is None:
        faults.append(f"crates/{path}: nothing there is {form}")
        return "none"
    return f"{int(row.group(1).replace('_', '')):,}"


told = [(number, plain(text)) for number, _, text in items("man/jobd.8", "LIMITS")]
for words, sources in LIMITS:
    rows = [number for number, text in told if text.startswith(words)]
    for path, form in sources:
        if rows != [number_in(path, form)]:
            faults.append(f"man/jobd.8: LIMITS: {words}: {rows}, and {number_in(path, form)} in {path}")
for number, text in told:
    if not any(text.startswith(words) for words, _ in LIMITS):
        faults.append(f"man/jobd.8: LIMITS: {number} {text[:40]}: no source is known for it")
for page, words, path, form in NUMBERS:
    wanted = words.replace("@", number_in(path, form))
    if " ".join(wanted.split()) not in " ".join(plain(read(page)).split()):
        faults.append(f"{page}: {wanted!r} does not stand there")

# ---- exit statuses: the page, the helps, and the sources
WORDS = "crates/command_words/src/"
STATUS = {name: int(number) for name, number in re.findall(r"pub const (\w+): u8 = (\d+);", read("crates/exit_status/src/lib.rt"))}
REFUSALS = read("crates/history_model/specs/RefusalTexts.antt")
CODES = {name: int(code) for name, code in re.findall(r"^refusal_code \(?(\w+)[^=]*= (\d+)", REFUSALS, re.M)}
TEXTS = {CODES[name]: text for name, text in re.findall(r'^refusal_text \(?(\w+)[^=]*=\s+codes "([^"\\]*)', REFUSALS, re.M)}
IN_JOURNALS = {CODES["TooManyConnections"], CODES["Stale"], CODES["ClockRefused"]}


def statuses(*names):
    return {STATUS[name] for name in names} | {0}


def told_by_help(path, name):
    """The statuses that a text of the helps names: the number that begins each line of its table."""
    row = re.search(rf'const {name}: &str =\s+"(?:[^"]*\n)?Exit status:\n([^"]*)"', read(WORDS + path))
    if row is None:
        faults.append(f"{WORDS}{path}: there is no {name}")
        return set()
    return {int(number) for number in re.findall(r"(?m)^ +(\d+) ", row.group(1))}


JOBCTL = (set(CODES.values()) - IN_JOURNALS) | statuses("USAGE", "BAD_FILE", "NO_ANSWER", "BAD_OUTPUT", "READER_GONE", "NO_MEMORY")
REPLAY = {int(number) for number in re.findall(r"=> (\d+),", read("crates/replay/src/status.rt"))} | statuses("USAGE")
OVERRIDES = statuses("NO_MEMORY", "STREAMS", "STORE", "USAGE")
SERVE = statuses("NO_MEMORY", "STORE", "CONTROL_SOCKET", "ZONE", "JOURNAL", "CLOCK_OR_WAITING", "SPOOL", "USAGE")
SCOPE = statuses("REFUSED", "DIFFERS", "USAGE", "BAD_FILE", "BAD_CLOCK", "BAD_OUTPUT", "READER_GONE")


def check_statuses(what, wanted, in_page, in_help):
    same(f"{what}: EXIT STATUS", {str(it) for it in wanted}, {str(it) for it in in_page})
    same(f"{what}: exit statuses of the help", {str(it) for it in wanted}, {str(it) for it in in_help})


def of_subcommand(name):
    return {int(number) for number, rest, _ in items("man/jobd.8", "EXIT STATUS") if name in re.findall(r"[a-z]+", rest)}


check_statuses("man/jobctl.1", JOBCTL, {int(it[0]) for it in items("man/jobctl.1", "EXIT STATUS")}, told_by_help("control_words.rt", "EXIT_HELP"))
check_statuses("man/jobscope.1", SCOPE, {int(it[0]) for it in items("man/jobscope.1", "EXIT STATUS")}, told_by_help("scope_words.rt", "EXIT_HELP"))
check_statuses("man/jobd.8: serve", SERVE, of_subcommand("serve"), told_by_help("jobd.rt", "SERVE_EXIT"))
check_statuses("man/jobd.8: replay", REPLAY, of_subcommand("replay"), told_by_help("jobd.rt", "REPLAY_EXIT"))
check_statuses("man/jobd.8: overrides", OVERRIDES, of_subcommand("overrides"), told_by_help("jobd.rt", "OVERRIDES_EXIT"))
# Each text of a refusal stands beside its code, in the page where the code is told; in the help too.
in_pages = {int(number): text for number, _, text in items("man/jobctl.1", "EXIT STATUS")}
journal_page = read("man/jobd.journal.5")
for code, text in TEXTS.items():
    if code in IN_JOURNALS:
        if f".It {code}\n.Ql {text} :\n" not in journal_page:
            faults.append(f"man/jobd.journal.5: {code} does not have the text {text!r}")
    elif not in_pages.get(code, "").startswith(f".Ql {text.rstrip()}"):
        faults.append(f"man/jobctl.1: {code} does not have the text {text!r}")
    elif f"{code} {text.rstrip(': ')}" not in read(WORDS + "control_words.rt"):
        faults.append(f"{WORDS}control_words.rt: {code} does not have the text {text!r}")

# ---- the environment: what a program reads stands in its page, and what its words read in its help
READS = {
    "man/jobctl.1": (["control_client"], set()),
    "man/jobd.8": (["startup"], {"JOBD_JOBS", "JOBD_STATUS_FILE", "JOBD_STATUS_GROUP"}),
    "man/jobscope.1": (["scope", "status_page", "run_times", "definition_files"], set()),
}
for page, (crates, others) in READS.items():
    text = "\n".join(read(path) for crate in crates for path in glob.glob(f"crates/{crate}/src/**/*.rt", recursive=True))
    wanted = set(re.findall(r'(?:env::var\(\w+, |said\(\w+, |set_in\(\w+, )"([A-Z_]+)"', text)) | others
    same(f"{page}: ENVIRONMENT", wanted, set(re.findall(r"^\.It Ev ([A-Z_]+)", section(page, "ENVIRONMENT"), re.M)))
for path, name in (("control_words.rt", "JOBD_SOCKET"), ("scope_words.rt", "JOBD_JOURNAL")):
    if name not in read(WORDS + path):
        faults.append(f"{WORDS}{path}: no help names {name}")
keeper = read("contrib/jobd-run")
# Not for users: where the programs are, whose watchdog it is, and how long its own calls wait.
wanted = set(re.findall(r"\$\{([A-Z_]+)[:-]", keeper)) - {"JOBD_PROGRAMS", "WATCHDOG_PID", "JOBCTL_TIMEOUT"}
environment = section("man/jobd-run.8", "ENVIRONMENT")
same("man/jobd-run.8: ENVIRONMENT", wanted, set(re.findall(r"^\.It Ev ([A-Z_]+)", environment, re.M)))
for name, default in re.findall(r"\$\{(JOBD_[A-Z]+):-([^}@]+)\}", keeper):
    part = re.split(rf"^\.It Ev {name}$", environment, flags=re.M)[-1].split(".It ")[0]
    if not re.search(rf"(?<![\w/]){re.escape(default)}(?![\w/])", part):
        faults.append(f"man/jobd-run.8: {name}: {default} is not told")

# ---- single places that were wrong once: a file, what has to stand there, and why
HELPS = "".join(read(WORDS + it) for it in ("control_words.rt", "jobd.rt", "scope_words.rt"))
for text in re.findall(r'"([^"\n]*)"', HELPS):
    if re.search(r"\bdaemon\b", text):
        faults.append(f"{WORDS}: a help has daemon for launcher: {text[:60]!r}")
PLACES = [
    ("man/jobd.json.5", ".Dl jobscope plist web.plist > web.json", "the converter is a program's"),
    ("man/jobd-run.8", ".Pa .json\nor\n.Pa .plist", "which files jobd-run loads"),
    ("contrib/jobd-run", "*.json | *.plist)", "which files jobd-run loads"),
    ("contrib/jobd-run", '\\( -user 0 -o -user "$user" \\) ! -perm -020 ! -perm -002', "what jobd-run looks at"),
    ("man/jobd-run.8", "a file that another user owns, but root, or that others\nmay write by its mode", "what jobd-run looks at"),
    ("docs/OPERATING.md", "| `/etc/jobd/*.json`, `*.plist` |", "which files jobd-run loads"),
    ("docs/OPERATING.md", "a run adds some 200 bytes", "how fast a journal grows"),
    ("docs/DAMAGED-STORE.md", "    sqlite3 damaged/overrides.db .dump |", "how a damaged store is saved"),
    ("man/jobd.journal.5", "The text of a refusal ends with a newline", "what a reply's text ends with"),
    ("man/jobscope.1", "A fault is one line on standard error", "how a fault is told"),
    ("SECURITY.md", "in the repository", "where faults are told"),
    ("README.md", "Report bugs as issues in the repository", "where to report bugs"),
    ("packaging/debian/control", "Report bugs in the repository", "where to report bugs"),
]
for path, words, why in PLACES:
    if words not in read(path):
        faults.append(f"{path}: {why}: {words!r} does not stand there")
GONE = [".recover", "plutil -convert json", "import plistlib", "docs/USING", "USING.md"]
pages = ["README.md", "SECURITY.md", "CONTRIBUTING.md", *glob.glob("docs/*.md"), *glob.glob("man/*"), *glob.glob("packaging/**/*", recursive=True)]
for path in pages:
    for words in GONE if os.path.isfile(path) else ():
        if words in read(path):
            faults.append(f"{path}: {words!r} stands there again")

# ---- each page that a page refers to is there, as far as it is one of ours
for path in sorted(glob.glob("man/*.[158]")):
    for name, part in re.findall(r"^\.Xr (job[\w.-]*) (\d)", read(path), re.M):
        if not os.path.exists(f"man/{name}.{part}"):
            faults.append(f"{path}: there is no {name}({part})")
    for name in re.findall(r"^\.Pa ([A-Z-]+\.md)", read(path), re.M):
        if not os.path.exists(f"docs/{name}"):
            faults.append(f"{path}: there is no {name}")
for path in ("README.md", "SECURITY.md", *glob.glob("docs/*.md")):
    for name, part in re.findall(r"`(job[\w.-]*)\((\d)\)`", read(path)):
        if not os.path.exists(f"man/{name}.{part}"):
            faults.append(f"{path}: there is no {name}({part})")

# ---- how long it all is: the manual pages, and the texts of the helps
# The manual page of jobd-group came with it, and that of jobscope grew with what is printed of a failed run.
MOST = 12_500
in_pages = sum(len(read(path).split()) for path in glob.glob("man/*.[158]"))
in_helps = sum(len(text.split()) for text in re.findall(r'"([^"\n]*)"', HELPS))

# ---- ten tasks, each a click from README
TASKS = [
    "apt install ./jobd_", "COOKBOOK.md#a-backup-that-must-not-run-twice", "COOKBOOK.md#a-web-server", "COOKBOOK.md#a-job-for-another-user",
    "COOKBOOK.md#deploy-on-push", "COOKBOOK.md#a-service-on-a-socket", "(docs/WHY-NOT-RUNNING.md)", "OPERATING.md#upgrading-and-going-back",
    "COOKBOOK.md#in-a-container", "MOVING.md#from-cron",
]
for words in TASKS:
    if words not in read("README.md"):
        faults.append(f"README.md: {words} does not stand there")

# ---- links of pages lead somewhere
for path in ("README.md", *glob.glob("docs/*.md")):
    for target in re.findall(r"\]\(([^)\s]+)\)", read(path)):
        if "://" in target:
            continue
        file, _, anchor = target.partition("#")
        there = os.path.normpath(os.path.join(os.path.dirname(path), file)) if file else path
        if not os.path.exists(there):
            faults.append(f"{path}: the link {target} leads nowhere")
        elif anchor:
            titles = re.findall(r"^#+ (.*)$", read(there), re.M)
            forms = {re.sub(r"[^\w\- ]", "", title.lower()).replace(" ", "-") for title in titles}
            if anchor not in forms:
                faults.append(f"{path}: the link {target}: no title there")

if in_pages + in_helps > MOST:
    faults.append(f"{in_pages} words in manual pages and {in_helps} in helps are more than {MOST}")
for fault in faults:
    print("pages:", fault, file=sys.stderr)
if faults:
    sys.exit(1)
print(f"pages: {len(LIMITS) + len(NUMBERS)} limits, {len(JOBCTL | SERVE | SCOPE)} exit statuses, {len(TEXTS)} texts agree; {in_pages} words in manual pages, {in_helps} in helps")
