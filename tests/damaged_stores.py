#!/usr/bin/env python3
"""Stores that are damaged, or none of ours, before `jobd overrides` and `jobd serve`: neither hangs, dies or writes to what it refuses.

    tests/damaged_stores.py [--jobd PROGRAM] [--jobctl PROGRAM] [--count N] [--harms N] [--calls N] [--seed S] [--at-once N]

It is run by hand, after `make build`; PROGRAM is build/jobd. A sound store of 300 settings is made, as a clean end leaves it, as
signal 9 leaves it, and as one file. 500 others are made of these, or N of them: bits flipped in the file or in its log, both cut, fields of
the header overwritten, noise, databases with other schemas (if Python has sqlite3), and folders, FIFOs, links, sockets and devices at
the path of the store or of its log.

`jobd overrides` has to end with status 0 and lines of settings, or with 5, one line on standard error, and no file changed.
`jobd serve` has to be ready, answer and shut down; or to end with 5 and a line, and no file changed. A setting that it acknowledged
has to be there afterwards, where the store could be read before. Then the logs of 40 launchers that run, or of N, are removed, cut,
overwritten or put back: after a shutdown each acknowledged setting has to be there. And in 200 launchers, or N, one call on the store's files is
refused, the first in one, the second in the next (if there is `cc`): at most one setting is refused, which is told, and after a shutdown, or signal 9, the store has
exactly what was acknowledged. Each fault is told, and the last line counts; the status is 1 if there is one.
"""
import argparse
import collections
import concurrent.futures
import os
import random
import re
import shlex
import shutil
import signal
import socket
import stat
import subprocess
import sys
import tempfile

sys.dont_write_bytecode = True
HERE = os.path.dirname(os.path.abspath(__file__))
sys.path.insert(0, os.path.join(HERE, "scenes"))
from harness import Fault, Stage, adopt_orphans, check, connect, end_children, read_line  # noqa: E402

try:
    import sqlite3
except ImportError:
    sqlite3 = None

SETTINGS = "CREATE TABLE settings (label TEXT NOT NULL PRIMARY KEY, disabled INTEGER NOT NULL CHECK (disabled IN (0, 1)), " \
    "changed INTEGER NOT NULL CHECK (changed >= 0)) STRICT"
# Databases that are no store of ours, or nearly one.
SCHEMAS = {
    "another table": ["CREATE TABLE theirs (word TEXT)", "INSERT INTO theirs VALUES ('precious')"],
    "another table beside ours": [SETTINGS, "CREATE TABLE theirs (word TEXT)"],
    "an index beside ours": [SETTINGS, "CREATE INDEX i ON settings (disabled)"],
    "a view of our name": ["CREATE VIEW settings AS SELECT 'a' AS label, 1 AS disabled, 0 AS changed"],
    "a trigger on ours": [SETTINGS, "CREATE TRIGGER t AFTER INSERT ON settings BEGIN DELETE FROM settings; END"],
    "no strict table": [
        "CREATE TABLE settings (label TEXT, disabled INTEGER, changed INTEGER)", "INSERT INTO settings VALUES ('a', 7, 'x')"],
    "a column more": ["CREATE TABLE settings (label TEXT NOT NULL PRIMARY KEY, disabled INTEGER, changed INTEGER, more TEXT) STRICT"],
    "a column less": ["CREATE TABLE settings (label TEXT NOT NULL PRIMARY KEY, disabled INTEGER) STRICT"],
    "columns the other way round": ["CREATE TABLE settings (changed INTEGER, disabled INTEGER, label TEXT PRIMARY KEY) STRICT"],
    "no key": ["CREATE TABLE settings (label TEXT, disabled INTEGER, changed INTEGER) STRICT", "INSERT INTO settings VALUES (NULL, 2, -1)"],
    "no row numbers": [SETTINGS.replace(" STRICT", " STRICT, WITHOUT ROWID")],
    "labels that are none": [SETTINGS, "INSERT INTO settings VALUES ('', 1, 0), ('a/b', 1, 0), (char(10), 1, 0)"],
    "a label of 300 bytes": [SETTINGS, "INSERT INTO settings VALUES (printf('%0300d', 0), 1, 0)"],
    "a label of a million bytes": [SETTINGS, "INSERT INTO settings VALUES (printf('%01000000d', 0), 1, 0)"],
    "a time beyond all": [SETTINGS, "INSERT INTO settings VALUES ('a', 1, 9223372036854775807)"],
    "the first version": [
        "CREATE TABLE overrides (label TEXT NOT NULL PRIMARY KEY, disabled INTEGER NOT NULL CHECK (disabled IN (0, 1))) STRICT",
        "INSERT INTO overrides VALUES ('a', 1), ('b', 0)"],
    "both versions": [
        SETTINGS, "CREATE TABLE overrides (label TEXT NOT NULL PRIMARY KEY, disabled INTEGER NOT NULL CHECK (disabled IN (0, 1))) STRICT",
        "INSERT INTO overrides VALUES ('a', 1)", "INSERT INTO settings VALUES ('a', 0, 9)"],
    "ten thousand settings": [
        SETTINGS, "WITH RECURSIVE n(i) AS (SELECT 1 UNION ALL SELECT i + 1 FROM n WHERE i < 10000) "
        "INSERT INTO settings SELECT printf('job%05d', i), i % 2, i FROM n"],
    "a hundred tables": [f"CREATE TABLE t{number} (a)" for number in range(100)],
    "nothing": [],
}
PRAGMAS = ["", "PRAGMA encoding = 'UTF-16'", "PRAGMA auto_vacuum = FULL", "PRAGMA page_size = 512", "PRAGMA page_size = 65536",
           "PRAGMA journal_mode = WAL", "PRAGMA user_version = 7", "PRAGMA application_id = 7"]
# Where the fields of a database's header stand, and of how many bytes they are.
FIELDS = [(0, 16), (16, 2), (18, 2), (20, 1), (24, 4), (28, 4), (32, 8), (40, 4), (44, 4), (56, 4), (92, 8), (100, 12)]
KINDS = [
    "folder", "fifo", "socket", "link to nothing", "link to itself", "link to a store", "link to a folder", "link to a fifo",
    "link to /dev/null", "link to /dev/full", "link to /dev/zero", "locked by mode", "no way through the folder",
]


# ---- stores to be damaged

def sound_stores(given, folder):
    """The files of a sound store by what it went through: its bytes, and those of its log, or None where there is none."""
    stage = Stage(given, folder)
    launcher = stage.serve()
    with connect(launcher.path) as client:
        for number in range(300):
            client.sendall(b'{"req":"%s","job":"org.example.job%03d"}\n' % ((b"disable", b"enable")[number % 2], number))
            check(b'"code":0' in read_line(client), "a setting was refused")
        killed = files_of(stage.at("store"))
    launcher.shut_down()
    stores = {"killed": killed, "clean": files_of(stage.at("store"))}
    if sqlite3:
        database = sqlite3.connect(stage.at("store"))
        database.execute("PRAGMA wal_checkpoint(TRUNCATE)").fetchall()
        database.close()
        stores["one file"] = files_of(stage.at("store"))
    stage.clear()
    return stores


def files_of(path):
    return bytes_or_none(path), bytes_or_none(f"{path}-wal")


def bytes_or_none(path):
    try:
        with open(path, "rb") as file:
            return file.read()
    except FileNotFoundError:
        return None


# ---- damages: each writes a store's files at a path

def write(path, store):
    for end, held in zip(("", "-wal"), store):
        if held is not None:
            with open(path + end, "wb") as file:
                file.write(held)


def flipped(held, rng, times):
    held = bytearray(held)
    for _ in range(times):
        held[rng.randrange(len(held))] ^= 1 << rng.randrange(8)
    return bytes(held)


def damaged(held, rng, how):
    if not held:
        return rng.randbytes(rng.randrange(1, 5000))
    if how == "bits":
        return flipped(held, rng, rng.choice((1, 1, 2, 8, 64)))
    if how == "cut":
        return held[: rng.choice((rng.randrange(len(held)), rng.randrange(len(held) // 4096 + 1) * 4096, rng.randrange(120)))]
    if how == "head":
        at, size = rng.choice(FIELDS)
        return held[:at] + rng.choice((bytes(size), b"\xff" * size, rng.randbytes(size))) + held[at + size:]
    if how == "page":
        at = rng.randrange(len(held) // 4096 + 1) * 4096
        return held[:at] + rng.choice((bytes(4096), rng.randbytes(4096), held[:4096])) + held[at + 4096:]
    return held + rng.randbytes(rng.choice((1, 4096, 10000)))


def damage(stores, rng, how, part):
    """A maker of a store whose file (part 0) or log (1) is damaged."""
    files = list(stores[rng.choice(sorted(stores))])
    files[part] = damaged(files[part], rng, how)
    return lambda path: write(path, files)


def noise(rng):
    magic = b"SQLite format 3\0"
    held = rng.choice((b"", b"a text\n" * 100, rng.randbytes(rng.randrange(1, 20000)), magic, magic + rng.randbytes(5000)))
    return lambda path: write(path, (held, None))


def schema(lines, pragma):
    def make(path):
        database = sqlite3.connect(path, isolation_level=None)
        for line in (pragma, *lines):
            database.execute(line).fetchall()
        database.close()

    return make


def kind(name, end, store):
    """A maker of something else than a file at the path, or at that of its log (the end)."""

    def make(path):
        if end:
            write(path, store)
        at, beside = path + end, os.path.join(os.path.dirname(path), "beside")
        if os.path.exists(at):
            os.remove(at)
        if name == "folder":
            os.mkdir(at)
        elif name == "fifo":
            os.mkfifo(at)
        elif name == "socket":
            with socket.socket(socket.AF_UNIX) as it:
                it.bind(at)
        elif name == "locked by mode":
            write(at, (store[0], None))
            os.chmod(at, 0)
        elif name == "no way through the folder":
            write(path, store)
            os.chmod(os.path.dirname(path), 0o500)
        else:
            make_link(name, at, beside, store)

    return make


def make_link(name, at, beside, store):
    target = {"link to nothing": "nothing", "link to itself": os.path.basename(at)}.get(name, beside)
    if name.startswith("link to /"):
        target = name.partition("to ")[2]
    elif name == "link to a store":
        write(beside, store)
    elif name == "link to a folder":
        os.mkdir(beside)
    elif name == "link to a fifo":
        os.mkfifo(beside)
    os.symlink(target, at)


def makers(stores, count, rng):
    """So many stores, each with its name and who makes it."""
    made = [(f"{name} at the {'log' if end else 'store'}", kind(name, end, stores["clean"])) for end in ("", "-wal") for name in KINDS]
    made += [(name, lambda path, store=stores[name]: write(path, store)) for name in sorted(stores)]
    if sqlite3:
        made += [(f"{name}, {pragma or 'plain'}", schema(lines, pragma)) for name, lines in SCHEMAS.items() for pragma in PRAGMAS]
    while len(made) < 500:
        how = rng.choice(("bits", "bits", "bits", "cut", "cut", "head", "page", "longer", "noise"))
        part = rng.randrange(2)
        if how == "noise":
            made.append((f"noise {len(made)}", noise(rng)))
        else:
            made.append((f"{how} {len(made)} of the {'log' if part else 'store'}", damage(stores, rng, how, part)))
    return made if count >= len(made) else rng.sample(made, count)


# ---- what is looked for

def seen(folder):
    """Each name below the folder with what it is."""
    found = {}
    for at, folders, names in os.walk(folder):
        for name in [*folders, *names]:
            path = os.path.join(at, name)
            mode = os.lstat(path).st_mode
            held = os.readlink(path) if stat.S_ISLNK(mode) else bytes_or_none(path) if stat.S_ISREG(mode) else None
            found[os.path.relpath(path, folder)] = (stat.S_IFMT(mode), held)
    return found


def strange(text):
    return "Sanitizer" in text or "panic" in text


def try_overrides(stage, path, folder):
    """The status."""
    before = seen(folder)
    run = stage.run(["overrides", "--store", path])
    check(run.returncode in (0, 5) and not strange(run.stderr), f"overrides: {run.returncode}, {run.stderr[-300:]!r}")
    if run.returncode == 0:
        lines = run.stdout.splitlines()
        check(all(re.fullmatch(r"[^\t]+\t(enabled|disabled)\t\d+", line) for line in lines), f"overrides prints {lines[:3]}")
    else:
        check(not run.stdout and re.fullmatch(r"jobd: [^\n]*\n", run.stderr), f"overrides: {run.stdout[:80]!r}, {run.stderr!r}")
        changed = [name for name, held in seen(folder).items() if before.get(name) != held] + sorted(set(before) - set(seen(folder)))
        check(not changed, f"overrides refused the store, and changed {changed}")
    return run.returncode


def try_serve(stage, path, folder):
    """The status of a start, or of a setting."""
    before = seen(folder)
    launcher = stage.start(store=path)
    if not launcher.is_ready():
        status = launcher.ends()
        check(status == 5 and not strange(launcher.said()), f"serve: {status}, {launcher.said()[-300:]!r}")
        check(re.fullmatch(r"(jobd: [^\n]*\n)+", launcher.said()), f"serve: 5, {launcher.said()!r}")
        changed = [name for name, held in seen(folder).items() if before.get(name) != held] + sorted(set(before) - set(seen(folder)))
        check(not changed, f"serve refused the store, and changed {changed}")
        check(not os.path.exists(launcher.path), "serve refused the store, and left its socket")
        return "refused"
    launcher.answers("with this store")
    code = launcher.ask({"req": "disable", "job": "just.set"})["code"]
    check(code in (0, 9), f"a setting got code {code}")
    launcher.shut_down()
    check(not strange(launcher.said()), f"serve said {launcher.said()[-300:]!r}")
    return "set" if code == 0 else "not set"


def try_store(given, folder, name, make):
    """What came of it."""
    os.mkdir(folder)
    stage, below = Stage(given, folder), os.path.join(folder, "below")
    path = os.path.join(below, "store")
    os.mkdir(below)
    try:
        make(path)
        status = try_overrides(stage, path, below)
        served = try_serve(stage, path, below)
        if served == "set" and status == 0:
            shown = stage.run(["overrides", "--store", path])
            lines = shown.stdout.splitlines()
            check(any(line.startswith("just.set\tdisabled\t") for line in lines), f"an acknowledged setting is gone: {shown.stderr!r}")
        return f"overrides {status}, serve {served}"
    finally:
        os.chmod(below, 0o700)
        stage.clear()


# ---- logs that are harmed while a launcher runs

def remove_log(path, rng, older):
    os.remove(path)


def cut_log(path, rng, older):
    os.truncate(path, rng.randrange(os.path.getsize(path)))


def overwrite_log(path, rng, older):
    with open(path, "r+b") as file:
        file.seek(rng.randrange(os.path.getsize(path)))
        file.write(rng.choice((bytes, rng.randbytes))(rng.randrange(1, 100_000)))


def put_back_log(path, rng, older):
    with open(path + ".older", "wb") as file:
        file.write(older)
    os.replace(path + ".older", path)


HARMS = [remove_log, cut_log, overwrite_log, put_back_log]


def try_harm(given, folder, rng, harm):
    """What came of it: after the end the store has each setting that was acknowledged."""
    os.mkdir(folder)
    stage, wanted, older = Stage(given, folder), {}, b""
    try:
        launcher = stage.serve()
        count = rng.randrange(1, 120)
        for number in range(count):
            word, label = rng.choice(("disable", "enable")), f"job{rng.randrange(60):02}"
            check(launcher.ask({"req": word, "job": label})["code"] == 0, "a setting was refused")
            wanted[label] = f"{word}d"
            if number == count // 2:
                older = bytes_or_none(stage.at("store-wal"))
        harm(stage.at("store-wal"), rng, older)
        launcher.shut_down()
        check(not strange(launcher.said()), f"serve said {launcher.said()[-300:]!r}")
        lines = stage.run(["overrides", "--store", stage.at("store")]).stdout.splitlines()
        found = dict(line.split("\t")[:2] for line in lines)
        check(found == wanted, f"{len(wanted)} labels were set, {len(set(wanted.items()) - set(found.items()))} are lost: {launcher.said()!r}")
        return f"{harm.__name__}, {'written again' if launcher.said() else 'nothing lost'}"
    finally:
        stage.clear()


# ---- one call of the system that is refused

def calls_library(folder):
    """A library that refuses one call of a launcher, or None if it can't be made."""
    made, source = os.path.join(folder, "calls.so"), os.path.join(HERE, "broken_calls.c")
    if not shutil.which("cc"):
        print("the calls are skipped: there is no cc")
        return None
    subprocess.run(["cc", "-shared", "-fPIC", "-O1", "-o", made, source], check=True)
    return made


def try_call(given, folder, library, number):
    """What came of it: at most one setting is refused, and the store has exactly those that were acknowledged."""
    os.mkdir(folder)
    stage, wanted, refused, last = Stage(given, folder), {}, 0, 0
    try:
        launcher = stage.start(env={"LD_PRELOAD": library, "FAIL_AT": str(number)})
        if not launcher.is_ready():
            status = launcher.ends()
            check(status == 5 and "store" in launcher.said(), f"serve: {status}, {launcher.said()!r}")
            return "call, no start"
        for at in range(300):
            word, label = ("disable", "enable")[at // 7 % 2], f"job{at % 60:02}"
            last = launcher.ask({"req": word, "job": label})["code"]
            check(last in (0, 9), f"{word} of {label} got {last}")
            refused += last == 9
            if last == 0:
                wanted[label] = f"{word}d"
        check(refused <= 1, f"{refused} settings are refused after one call")
        told = launcher.lines("store ")
        check(len(told) == refused, f"{refused} settings are refused: said {launcher.said()!r}")
        if number % 2:
            launcher.shut_down()
        else:
            os.kill(launcher.pid, signal.SIGKILL)
            launcher.ends()
        check(not strange(launcher.said()), f"serve said {launcher.said()[-300:]!r}")
        lines = stage.run(["overrides", "--store", stage.at("store")]).stdout.splitlines()
        found = dict(line.split("\t")[:2] for line in lines)
        check(found == wanted or last, f"{len(wanted)} labels were set, the store differs in {set(wanted.items()) ^ set(found.items())}")
        return f"call, {'one refused' if refused else 'none refused'}"
    finally:
        stage.clear()


def play_call(given, folder, library, number):
    try:
        return try_call(given, os.path.join(folder, f"call{number}"), library, number), None
    except Fault as fault:
        return "at fault", f"FAILED call {number}: {fault}".replace(folder, "@")


def play_harm(given, folder, number, seed):
    rng, harm = random.Random(seed), HARMS[number % len(HARMS)]
    try:
        return try_harm(given, os.path.join(folder, f"harm{number}"), rng, harm), None
    except Fault as fault:
        return "at fault", f"FAILED {harm.__name__} {number}: {fault}".replace(folder, "@")


def play(given, folder, number, name, make):
    try:
        return try_store(given, os.path.join(folder, str(number)), name, make), None
    except Fault as fault:
        return "at fault", f"FAILED {name}: {fault}".replace(folder, "@")
    except Exception as error:
        return "at fault", f"FAILED {name}: {type(error).__name__}: {error}".replace(folder, "@")


def read_words():
    words = argparse.ArgumentParser(usage="see the head of this script")
    words.add_argument("--jobd", type=shlex.split, default=[f"{HERE}/../build/jobd"])
    words.add_argument("--jobctl", type=shlex.split, default=[f"{HERE}/../build/jobctl"])
    words.add_argument("--count", type=int, default=500)
    words.add_argument("--harms", type=int, default=40)
    words.add_argument("--calls", type=int, default=200)
    words.add_argument("--seed", type=int, default=1)
    words.add_argument("--at-once", type=int, default=4)
    given = words.parse_args()
    for command in (given.jobd, given.jobctl):
        command[0] = os.path.abspath(command[0])
    return given


def count_all(played, outcomes):
    for outcome, fault in played:
        outcomes[outcome] += 1
        if fault:
            print(fault, flush=True)


def main():
    given = read_words()
    adopt_orphans()
    folder, outcomes = tempfile.mkdtemp(prefix="damaged."), collections.Counter()
    try:
        os.mkdir(os.path.join(folder, "sound"))
        stores = sound_stores(given, os.path.join(folder, "sound"))
        made = makers(stores, given.count, random.Random(given.seed))
        library = calls_library(folder)
        calls = range(1, given.calls + 1) if library else ()
        with concurrent.futures.ThreadPoolExecutor(given.at_once) as pool:
            count_all(pool.map(lambda each: play(given, folder, each[0], *each[1]), enumerate(made)), outcomes)
            count_all(pool.map(lambda number: play_harm(given, folder, number, given.seed + number), range(given.harms)), outcomes)
            count_all(pool.map(lambda number: play_call(given, folder, library, number), calls), outcomes)
    finally:
        end_children()
        shutil.rmtree(folder, ignore_errors=True)
    told = ", ".join(f"{count} {outcome}" for outcome, count in sorted(outcomes.items()))
    print(f"{sum(outcomes.values())} stores, {outcomes['at fault']} failed: {told}")
    return 1 if outcomes["at fault"] else 0


if __name__ == "__main__":
    sys.exit(main())
