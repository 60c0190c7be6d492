#!/usr/bin/env python3
"""Measures what each line of a journal and each deed of the live launcher costs, and prints it beside its aim and a yardstick.

    lines.py [JOBD [JOBCTL]]

The programs are build/jobd and build/jobctl where none are given. PARTS in the environment, as `counts,split`, takes these parts alone:
  counts  instructions of a line with 1, 100 and 1,000 jobs (callgrind): the difference of two streams of stream.py, so the start and
          what was loaded before are not in it. With BASELINE=PROGRAM that program, which reads the same lines from standard input, is
          counted too, and stands in place of the yardstick; with PLAIN=PROGRAM a third, as an earlier build's `jobd replay`
  split   where the instructions of a clock line with nothing due go: by parts, and the 16 dearest functions (callgrind)
  dear    the time that one dear line, or 40,000 cheap ones, take, and `jobscope why` over a journal: the difference of two streams, the
          least of five
  live    the running launcher: settings, a start over many, TERM, rest with 1,000 children, connections
The yardstick is a plain Rust program beside `serde_json`, over a heap of timers, with no proof, as it was counted in November 2026; for the
live launcher it is what a C program needs, or tcpserver. `-` is what was not measured. NOTE=MACHINE in the environment has each
figure added to history.csv, with that name. The status is 1 where a figure misses its aim.
"""
import os
import re
import shlex
import shutil
import statistics
import subprocess
import sys
import tempfile
import threading
import time

sys.dont_write_bytecode = True
import history
import live
from replay import HERE, instructions, seconds, write_stream

try:
    import sqlite3
except ImportError:
    sqlite3 = None

JOBS = (1, 100, 1000)
# What is counted, the kind of stream, its two lengths, what the difference is parted by (`lines`, `jobs` or nothing), the aim (a count, or
# how many times the first count the last may be), and the yardstick.
COUNTS = [
    ("a clock line, nothing due", "ticks", (200, 1200), "lines", 1300, "4,259"),
    ("a reading that crosses a minute of no job", "minutes", (9, 59), "lines", "1.2", "-"),
    ("a start of a job that is throttled", "asks", (200, 1200), "lines", None, "-"),
    ("a reading, a start and its two answers (mean)", "starts", (200, 1200), "lines", None, "-"),
    ("an observation of a path of one job", "looks", (200, 1200), "lines", None, "-"),
    ("an observation of a path that every job watches, nothing ordered, each job", "watched", (40, 240), "jobs", 200, "205"),
    ("a minute of jobs with a calendar of every minute, nothing ordered", "calendars", (9, 59), "lines", 500_000, "-"),
    ("a load, small", "smalls", (0, 20), "lines", 14_000, "14,900"),
    ("a load, usual (10 keys)", "usuals", (0, 20), "lines", 38_000, "38,200"),
    ("a job leaves", "leaves", (0, 20), "lines", 7_000, "7,534"),
    ("`enable` or `disable` of a label that has a setting", "known", (200, 1200), "lines", "1.1", "growth 1.15"),
    ("`disable` of a label that has none", "fresh", (200, 400), "lines", "1.3", "growth 1.47"),
    ("shutdown, with its answers and ends", "shutdown", (0, 1), "", 15_000_000, "15.3 million"),
]
# 1,024 is the most jobs that there are: these kinds take them all.
WHOLE = ("calendars", "shutdown", "watched")
# The crates' functions, by a part of their names: the dearest of them, with all that it calls, is what the part takes.
SPLIT = [
    ("lines", r"ctl_protocol::(cut|feed)::"),
    ("reading", r"ctl_protocol::(event|line|members|number|target|tree|written)::"),
    ("table", r"job_table"),
    ("outcome", r"ctl_protocol.*outcome"),
]
# What one line takes, or many: the kind, its jobs, the lengths of the two streams, and the aim in milliseconds.
DEAR = [
    ("40,000 `disable` of distinct labels, replayed", "fresh", 0, (0, 40_000), 1000),
    ("a wall jump of 400 days, 100 jobs of 64 entries that never match", "jump", 100, (0, 400), 100),
    ("a load with 18,000 unknown keys", "keys", 1, (0, 18_000), 20),
    ("a refused line with 87,000 objects", "objects", 0, (0, 87_000), 20),
]
WHY = "`jobscope why` of one job by a journal of 1,000 jobs, 1,000 lines"
WHY_AIM = 2.5
# The tables of a store, in the order in which a launcher makes them.
OVERRIDES = "CREATE TABLE overrides (label TEXT NOT NULL PRIMARY KEY, disabled INTEGER NOT NULL CHECK (disabled IN (0, 1))) STRICT"
SETTINGS = "CREATE TABLE settings (label TEXT NOT NULL PRIMARY KEY, disabled INTEGER NOT NULL CHECK (disabled IN (0, 1)), " \
    "changed INTEGER NOT NULL CHECK (changed >= 0)) STRICT"
# So many labels may have a setting.
MOST_LABELS = 16_384
missed = []


def text(figure):
    if figure is None:
        return "-"
    return f"{figure:,.0f}" if figure >= 100 else f"{figure:.2f}"


def note(what, figure, unit):
    if os.environ.get("NOTE") and figure is not None:
        history.append(what, f"{figure:.2f}".rstrip("0").rstrip("."), unit, "bench/lines.py", os.environ["NOTE"])


def verdict(what, figure, aim):
    """The aim, and whether the figure, the more the worse, keeps it."""
    if aim is None or figure is None:
        return "-" if aim is None else f"{aim:,}"
    is_kept = figure <= aim
    if not is_kept:
        missed.append(what)
    return f"{aim:,} {'kept' if is_kept else 'MISSED'}"


def counted(command, kind, jobs, lengths, folder):
    """The instructions that the longer stream has more, and its lines."""
    path = os.path.join(folder, "stream")
    counts = []
    for length in lengths:
        lines = write_stream(path, kind, jobs, length)
        counts.append((instructions(command, path, folder), lines))
    (less, few), (more, many) = counts
    return (None, 1) if less is None or more is None else (more - less, many - few)


def count_of(command, kind, jobs, lengths, parted, folder):
    count, lines = counted(command, kind, jobs, lengths, folder)
    if count is None:
        return None
    return count / {"lines": lines, "jobs": lines * jobs, "": 1}[parted]


def counts(jobd, folder):
    programs = {"jobd": [jobd, "replay"]}
    for name in ("BASELINE", "PLAIN"):
        if os.environ.get(name):
            programs[name.lower()] = shlex.split(os.environ[name])
    print("| instructions of | program | 1 job | 100 | 1,000 | growth | aim | yardstick |\n|---|---|---|---|---|---|---|---|", flush=True)
    for what, kind, lengths, parted, aim, yardstick in COUNTS:
        for name, command in programs.items():
            jobs = [1024 if it == 1000 and kind in WHOLE else it for it in JOBS]
            figures = [count_of(command, kind, it, lengths, parted, folder) for it in jobs]
            growth = figures[2] / figures[0] if figures[0] and figures[2] else None
            cells = " | ".join(text(figure) for figure in figures)
            said = "-"
            if name == "jobd":
                said = verdict(what, growth, float(aim)) if isinstance(aim, str) else verdict(what, figures[2], aim)
                for it, figure in zip(jobs, figures):
                    note(f"{what}, {it} jobs", figure, "instructions")
            print(f"| {what} | {name} | {cells} | {text(growth)} | {said} | {yardstick} |", flush=True)


def by_function(out, inclusive):
    """The instructions of each function, with all that it calls if `inclusive`."""
    words = ["callgrind_annotate", f"--inclusive={inclusive}", "--threshold=100", out]
    found = {}
    for line in subprocess.run(words, capture_output=True, text=True).stdout.splitlines():
        row = re.match(r"\s*([\d,]+) \([^)]*\)\s+\S*?:(.*?)(?: \[.*)?$", line)
        if row:
            found.setdefault(row[2], int(row[1].replace(",", "")))
    return found


def split(jobd, folder):
    tables = {"yes": [], "no": []}
    for lines in (200, 1200):
        path, out = os.path.join(folder, "stream"), os.path.join(folder, f"counted{lines}")
        write_stream(path, "ticks", 1, lines)
        with open(path) as given:
            subprocess.run(["valgrind", "--tool=callgrind", f"--callgrind-out-file={out}", jobd, "replay"], stdin=given, capture_output=True)
        for inclusive, table in tables.items():
            table.append(by_function(out, inclusive))
    whole, own = ({name: (more[name] - less.get(name, 0)) / 1000 for name in more} for less, more in tables.values())
    print("\n| a clock line, nothing due | instructions |\n|---|---|")
    for what, pattern in SPLIT:
        figure = max((count for name, count in whole.items() if re.search(pattern, name)), default=None)
        print(f"| {what}, with all that it calls | {text(figure)} |", flush=True)
        note(f"a clock line, nothing due, {what}", figure, "instructions")
    for name, count in sorted(own.items(), key=lambda it: -it[1])[:16]:
        print(f"| `{name[:90]}` alone | {text(count)} |")


def least(command, kind, jobs, length, folder):
    path = os.path.join(folder, "stream")
    write_stream(path, kind, jobs, length)
    return min(seconds(command, path, os.path.join(folder, "written")) for _ in range(5)) * 1000


def dear(jobd, folder):
    print("\n| milliseconds of | figure | aim |\n|---|---|---|")
    for what, kind, jobs, (few, many), aim in DEAR:
        command = [jobd, "replay"]
        figure = least(command, kind, jobs, many, folder) - least(command, kind, jobs, few, folder)
        print(f"| {what} | {text(figure)} | {verdict(what, figure, aim)} |", flush=True)
        note(what, figure, "ms")
    jobscope = os.path.join(os.path.dirname(jobd), "jobscope")
    if os.path.exists(jobscope):
        what, figure = WHY, why_of_lines(jobscope, folder)
        print(f"| {what} | {text(figure)} | {verdict(what, figure, WHY_AIM)} |", flush=True)
        note(what, figure, "ms")


def why_of_lines(jobscope, folder):
    path, took, lines = os.path.join(folder, "stream"), [], []
    for length in (4_000, 40_000):
        lines.append(write_stream(path, "starts", 1000, length))
        command = [jobscope, "why", "--journal", path, "work.0500"]
        took.append(min(seconds(command, path, os.path.join(folder, "written")) for _ in range(5)) * 1000)
    return (took[1] - took[0]) / (lines[1] - lines[0]) * 1000


def fill(count):
    def prepare(folder):
        with sqlite3.connect(os.path.join(folder, "store")) as store:
            store.execute(OVERRIDES)
            store.execute(SETTINGS)
            store.executemany("INSERT INTO settings VALUES (?, 1, 0)", ((f"job{number:06d}",) for number in range(count)))
        store.close()
    return prepare


def setting(jobd, jobctl, count):
    """The median milliseconds of a setting of a known label with so many stored."""
    launcher = live.Launcher(jobd, jobctl, fill(count))
    try:
        caller, replies = launcher.connect()
        turn = iter(range(1000))

        def once():
            number = next(turn)
            request = f'{{"job":"job{number * 7919 % count:06d}","req":"{("enable", "disable")[number // count % 2]}"}}\n'
            caller.sendall(request.encode())
            if not replies.readline().startswith('{"code":0'):
                raise SystemExit("lines.py: a setting was refused")

        took = statistics.median(live.timed(once, 60))
        caller.close()
        launcher.stop()
        return took
    finally:
        launcher.end()


def settings(jobd, jobctl):
    if sqlite3 is None:
        yield f"a live setting with {MOST_LABELS:,} stored, to one with ten", None, "times", 1.5, "-"
        return
    few, many = setting(jobd, jobctl, 10), setting(jobd, jobctl, MOST_LABELS)
    yield "a live setting with ten stored", few, "ms", None, "-"
    yield f"a live setting with {MOST_LABELS:,} stored", many, "ms", None, "-"
    yield f"a live setting with {MOST_LABELS:,} stored, to one with ten", many / few, "times", 1.5, "-"
    yield f"a start over {MOST_LABELS:,} stored settings", starting(jobd, jobctl, MOST_LABELS), "ms", 400, "-"


def starting(jobd, jobctl, count):
    """The milliseconds from the start of a launcher over a store with so many settings to its ready line, the median of five."""
    def once():
        begun = []

        def prepare(folder):
            fill(count)(folder)
            begun.append(live.now())

        launcher = live.Launcher(jobd, jobctl, prepare)
        try:
            took = live.now() - begun[0]
            launcher.stop()
            return took
        finally:
            launcher.end()

    return statistics.median(once() for _ in range(5))


def sleepers(launcher, count):
    for number in range(count):
        launcher.define(f"job{number:04d}", ProgramArguments=["/bin/sleep", "100000"], RunAtLoad=True, ThrottleInterval=0)
    live.deliver(launcher, "load")
    launcher.await_children(count)


def terms(launcher):
    """What a `stop` with its TERM takes more of the loop than a `print` does: another request waits behind each."""
    caller, replies = launcher.connect()

    def pair(word, label):
        caller.sendall(f'{{"job":"{label}","req":"{word}"}}\n{{"req":"print","job":"{label}"}}\n'.encode())
        replies.readline()
        replies.readline()

    pair("stop", "job0000")
    printed = [live.timed(lambda: pair("print", f"job{number:04d}"), 1)[0] for number in range(1, 101)]
    stopped = [live.timed(lambda: pair("stop", f"job{number:04d}"), 1)[0] for number in range(1, 101)]
    caller.close()
    return statistics.median(stopped) - statistics.median(printed)


def floor(children, folder):
    """The processor's milliseconds a minute of a loop in C that asks each child once in 100 ms, or None without a C compiler."""
    if not shutil.which("cc"):
        return None
    program = os.path.join(folder, "floor")
    subprocess.run(["cc", "-O2", "-o", program, os.path.join(HERE, "floor.c")], check=True)
    return float(subprocess.run([program, str(children), "10"], capture_output=True, text=True, check=True).stdout)


def rest(jobd, jobctl, folder):
    launcher = live.Launcher(jobd, jobctl)
    try:
        sleepers(launcher, 1000)
        time.sleep(1)
        figure, _waits = live.quiet(launcher)
        yield "TERM, of the loop", terms(launcher), "ms", 0.1, "0.05 (a call of kill)"
        begun = live.now()
        launcher.stop()
        yield "a shutdown of 900 children, of each", (live.now() - begun) / 900, "ms", None, "-"
    finally:
        launcher.end()
    bare = floor(1000, folder)
    yield "at rest with 1,000 children, of the processor", figure, "ms a minute", None, f"{text(bare)} (a bare loop of wait4)"
    yield "at rest with 1,000 children, to the bare loop", figure / bare if bare else None, "times", 1.1, "1"


def connections(jobd, jobctl):
    launcher = live.Launcher(jobd, jobctl)
    try:
        path = live.serve_by(launcher, "cat", ["/bin/cat"])
        took = live.timed(lambda: live.call(path), 400)
        # The more the better, so aims are the most milliseconds of one.
        yield "a connection after another", statistics.median(took), "ms", 0.70, "0.58 (tcpserver)"
        callers = [threading.Thread(target=lambda: live.timed(lambda: live.call(path), 100)) for _ in range(8)]
        begun = live.now()
        for caller in callers:
            caller.start()
        for caller in callers:
            caller.join()
        yield "a connection, eight at once, of each", (live.now() - begun) / 800, "ms", round(1000 / 1300, 2), "0.33 (tcpserver, in parallel)"
        launcher.stop()
    finally:
        launcher.end()


def running(jobd, jobctl, folder):
    print("\n| the running launcher | figure | unit | aim | yardstick |\n|---|---|---|---|---|")
    for part in (settings(jobd, jobctl), rest(jobd, jobctl, folder), connections(jobd, jobctl)):
        for what, figure, unit, aim, yardstick in part:
            print(f"| {what} | {text(figure)} | {unit} | {verdict(what, figure, aim)} | {yardstick} |", flush=True)
            note(what, figure, unit)


def main():
    named = sys.argv[1:] or [os.path.join(HERE, "..", "build", "jobd")]
    jobd = os.path.abspath(named[0])
    jobctl = os.path.abspath(named[1] if len(named) > 1 else os.path.join(os.path.dirname(jobd), "jobctl"))
    parts = os.environ.get("PARTS", "counts,split,dear,live").split(",")
    if not shutil.which("valgrind"):
        print("lines.py: valgrind is missing, so no instructions are counted")
        parts = [part for part in parts if part in ("dear", "live")]
    with tempfile.TemporaryDirectory() as folder:
        for name, call in (("counts", counts), ("split", split), ("dear", dear)):
            if name in parts:
                call(jobd, folder)
        if "live" in parts:
            if os.path.exists(jobctl):
                running(jobd, jobctl, folder)
            else:
                print(f"lines.py: no {jobctl}, so nothing live is measured")
    print("\n" + (f"missed: {'; '.join(missed)}" if missed else "each aim is kept"))
    return 1 if missed else 0


if __name__ == "__main__":
    sys.exit(main())
