"""Scenes of the store of settings: its log, its disk, its bound, its first version, and files that are no store.

`play.py` plays them; `harness.py` has what all scenes share.
"""
import json
import os
import resource
import shutil
import signal
import time

from harness import bytes_at, check, text_at


def settings_in_the_log(stage):
    """After a clean end the store's file and the log beside it hold the settings, also where they were copied, or made one."""
    launcher = stage.serve()
    for label in ("one", "two"):
        check(launcher.ask({"req": "disable", "job": label})["code"] == 0, "disable refused")
    launcher.shut_down()
    for end in ("", "-wal"):
        if os.path.exists(stage.at(f"store{end}")):
            shutil.copyfile(stage.at(f"store{end}"), stage.at(f"copy{end}"))
    shown = stage.run(["overrides", "--store", "copy"]).stdout
    check([line.split("\t")[:2] for line in shown.splitlines()] == [["one", "disabled"], ["two", "disabled"]], f"the copy has {shown!r}")
    import sqlite3

    database = sqlite3.connect(stage.at("store"))
    database.execute("PRAGMA wal_checkpoint(TRUNCATE)").fetchall()
    database.close()
    os.mkdir(stage.at("alone"))
    shutil.copyfile(stage.at("store"), stage.at("alone/store"))
    alone = stage.run(["overrides", "--store", "alone/store"]).stdout
    check(alone == shown, f"the store that was made one has {alone!r}")


def cut(path):
    os.truncate(path, os.path.getsize(path) // 8)


def overwrite(path):
    with open(path, "r+b") as file:
        file.seek(40_000)
        file.write(b"noise" * 10_000)


def log_that_goes_away(stage, name, how):
    """Something is done to the log of a launcher that runs; after its end the store has all settings, and the launcher told so."""
    launcher, path = stage.serve(store=name), stage.at(f"{name}-wal")
    wanted = []
    for number in range(40):
        word = ("disable", "enable")[number % 2]
        check(launcher.ask({"req": word, "job": f"job{number:02}"})["code"] == 0, f"{word} refused")
        wanted.append([f"job{number:02}", f"{word}d"])
        if number == 9:
            shutil.copyfile(path, stage.at("older"))
    how(path)
    launcher.shut_down()
    told = launcher.lines(f"store {stage.at(name)}: its files lack the last settings of some labels")
    check(len(told) == 1, f"the log was {name}: said {launcher.said()!r}")
    shown = stage.run(["overrides", "--store", name]).stdout
    check([line.split("\t")[:2] for line in shown.splitlines()] == wanted, f"the log was {name}: the store has {shown!r}")
    check(all(int(line.split("\t")[2]) > 1_700_000_000 for line in shown.splitlines()), f"the log was {name}: the seconds are {shown!r}")


def logs_that_go_away(stage):
    """The log of a store is taken away, emptied, cut, overwritten, or another's: a clean end leaves each setting in the store all the same."""
    log_that_goes_away(stage, "removed", os.remove)
    log_that_goes_away(stage, "emptied", lambda path: os.truncate(path, 0))
    log_that_goes_away(stage, "cut", cut)
    log_that_goes_away(stage, "overwritten", overwrite)
    log_that_goes_away(stage, "replaced", lambda path: os.replace(stage.at("older"), path))
    launcher = stage.serve(store="removed")
    check(launcher.ask({"req": "enable", "job": "job00"})["code"] == 0, "a store whose log went away takes no setting")
    launcher.shut_down()
    check(not launcher.said(), f"a store that nobody changed: said {launcher.said()!r}")


def settings_of(stage, name):
    """The stored settings of labels, once no launcher runs."""
    run = stage.run(["overrides", "--store", name])
    check(run.returncode == 0, f"overrides of {name}: {run.returncode}, {run.stderr!r}")
    return dict(line.split("\t")[:2] for line in run.stdout.splitlines())


def a_store_with_another_reason(stage):
    """A store that can't be written says each reason once: the disk's, then the system's at another file. Once it took a setting it says them anew."""
    launcher = stage.serve(shell="trap '' XFSZ")
    limits = resource.prlimit(launcher.pid, resource.RLIMIT_FSIZE)

    def refused():
        reply = launcher.ask({"req": "disable", "job": "one"})
        check(reply["code"] == 9, f"a setting got {reply}")

    def told():
        return [line.partition(f"store {stage.at('store')}: ")[2] for line in launcher.lines(f"store {stage.at('store')}: ")]

    check(launcher.ask({"req": "disable", "job": "one"})["code"] == 0, "a setting of a sound disk is refused")
    for turn in (1, 2):
        resource.prlimit(launcher.pid, resource.RLIMIT_FSIZE, (4096, limits[1]))
        refused()
        refused()
        for name in ("store", "store-wal"):
            os.rename(stage.at(name), stage.at(f"{name}.aside"))
        os.mkdir(stage.at("store"))
        refused()
        refused()
        reasons = told()[2 * (turn - 1):]
        check(len(reasons) == 2 and "disk I/O error" in reasons[0] and "disk I/O error" not in reasons[1], f"turn {turn}: said {launcher.said()!r}")
        os.rmdir(stage.at("store"))
        for name in ("store", "store-wal"):
            os.rename(stage.at(f"{name}.aside"), stage.at(name))
        refused()
        check(len(told()) == 2 * turn, f"a reason is told twice: {launcher.said()!r}")
        resource.prlimit(launcher.pid, resource.RLIMIT_FSIZE, limits)
        check(launcher.ask({"req": "disable", "job": f"two{turn}"})["code"] == 0, f"a disk that was mended takes no setting: {launcher.said()!r}")
    launcher.shut_down()


def a_disk_that_fails_and_mends(stage):
    """A store whose file may not grow refuses settings, and tells that once. It takes the next one as soon as it may grow again, and holds none
    that was refused: after an end in order, and after signal 9."""
    for end in ("shutdown", "kill"):
        name = f"store.{end}"
        launcher = stage.serve(shell="trap '' XFSZ", store=name)

        def code(word, label):
            return launcher.ask({"req": word, "job": label})["code"]

        codes = [code(*words) for words in (("disable", "one"), ("disable", "two"), ("enable", "three"))]
        check(codes == [0, 0, 0], f"settings of a sound disk: codes {codes}")
        limits = resource.prlimit(launcher.pid, resource.RLIMIT_FSIZE)
        for turn in (1, 2):
            resource.prlimit(launcher.pid, resource.RLIMIT_FSIZE, (4096, limits[1]))
            codes = [code(*words) for words in (("enable", "one"), ("disable", "four"), ("enable", "two"))]
            check(codes == [9, 9, 9], f"settings of a disk that fails: codes {codes}")
            told = launcher.lines(f"store {stage.at(name)}: ")
            check(len(told) == turn and "disk I/O error" in told[-1], f"the disk failed {turn} times: said {launcher.said()!r}")
            resource.prlimit(launcher.pid, resource.RLIMIT_FSIZE, limits)
            check(code("disable", f"five{turn}") == 0, f"a disk that was mended takes no setting: {launcher.said()!r}")
        launcher.keeps_its_stack()
        if end == "shutdown":
            launcher.shut_down()
        else:
            launcher.kill()
        check(len(launcher.lines("store ")) == 2, f"after a {end}: said {launcher.said()!r}")
        found = settings_of(stage, name)
        wanted = {"one": "disabled", "two": "disabled", "three": "enabled", "five1": "disabled", "five2": "disabled"}
        check(found == wanted, f"after a {end} the store has {found}")


def too_many_labels(stage):
    """16,384 labels have a setting: one more is refused, which is told once; one of them can be set; a forgotten one makes room."""
    import sqlite3

    def run(statement):
        database = sqlite3.connect(stage.at("store"))
        database.execute(statement)
        database.commit()
        database.close()

    def code(launcher, word, label):
        return launcher.ask({"req": word, "job": label})["code"]

    stage.serve().shut_down()
    run("WITH RECURSIVE n(i) AS (SELECT 0 UNION ALL SELECT i + 1 FROM n WHERE i < 16382) "
        "INSERT INTO settings SELECT printf('job%05d', i), 1, 1700000000 FROM n")
    launcher = stage.serve()
    codes = [code(launcher, "enable", label) for label in ("last", "one more", "another", "last", "job00000")]
    check(codes == [0, 9, 9, 0, 0], f"settings of 16,384 labels and more: codes {codes}")
    check(len(launcher.lines("16,384 labels have a setting")) == 1, f"too many labels: said {launcher.said()!r}")
    launcher.shut_down()
    launcher = stage.serve()
    check(code(launcher, "disable", "one more") == 9, "one more label is taken after a start")
    launcher.shut_down()
    run("DELETE FROM settings WHERE label = 'job00001'")
    launcher = stage.serve()
    codes = [code(launcher, "disable", label) for label in ("one more", "another")]
    check(codes == [0, 9], f"settings where a label was forgotten: codes {codes}")
    launcher.shut_down()
    lines = stage.run(["overrides", "--store", "store"]).stdout.splitlines()
    check(len(lines) == 16_384 and lines[0].startswith("job00000\tenabled\t"), f"the store has {len(lines)} labels, {lines[:2]}")
    check(any(line.startswith("one more\tdisabled\t") for line in lines), "a setting is not there that made room")


FIRST_VERSION = """
CREATE TABLE overrides (label TEXT NOT NULL PRIMARY KEY, disabled INTEGER NOT NULL CHECK (disabled IN (0, 1))) STRICT;
INSERT INTO overrides VALUES ('a', 1), ('b', 0);
"""


def settings_of_the_first_version(stage):
    """A file of the first version is listed with second 0; a setting, with that of the journal's reading before it."""
    import sqlite3

    def write(statements):
        database = sqlite3.connect(stage.at("store"))
        database.executescript(statements)
        database.close()

    def has(text, why):
        run = stage.run(["overrides", "--store", "store"])
        check((run.returncode, run.stdout) == (0, text), f"{why} the store has {run.stdout!r}, {run.stderr!r}")

    write(FIRST_VERSION)
    has("a\tdisabled\t0\nb\tenabled\t0\n", "of the first version")
    before, launcher = int(time.time()), stage.serve(journal="journal")
    check(launcher.ask({"req": "enable", "job": "a"})["code"] == 0, "enable refused")
    launcher.shut_down()
    events = [json.loads(line) for line in text_at(stage.at("journal")).splitlines()]
    names = [event.get("ev") for event in events]
    second = [event["wall"] for event in events[: names.index("enable")] if "wall" in event][-1]
    check(before - 1 <= second <= time.time(), f"the journal's reading is {second}, and not about {before}")
    has(f"a\tenabled\t{second}\nb\tenabled\t0\n", "after enable")
    write("UPDATE settings SET changed = 1700000060 WHERE label = 'a'")
    has("a\tenabled\t1700000060\nb\tenabled\t0\n", "with another second")


def what_is_no_store(stage):
    """`jobd overrides` of a file that is no store of ours does not write to it."""
    files = {"text": b"a text\n" * 100, "noise": bytes(range(256)) * 32, "empty": b""}
    import sqlite3

    for name, mode in (("theirs", "delete"), ("logged", "wal")):
        database = sqlite3.connect(stage.at("other"))
        database.execute(f"PRAGMA journal_mode={mode}").fetchall()
        database.execute("CREATE TABLE theirs (word TEXT)")
        database.execute("INSERT INTO theirs VALUES ('precious')")
        database.commit()
        database.close()
        files[name] = bytes_at(stage.at("other"))
        os.remove(stage.at("other"))
    for name, held in files.items():
        folder = stage.at(f"folder.{name}")
        os.mkdir(folder)
        path = os.path.join(folder, name)
        with open(path, "wb") as file:
            file.write(held)
        run = stage.run(["overrides", "--store", path])
        check(run.returncode >= 0, f"overrides of {name} ended by signal {-run.returncode}")
        check(bytes_at(path) == held, f"overrides wrote to the file {name} ({run.returncode}, {run.stderr!r})")
        if held:
            check(run.returncode == 5 and run.stderr.startswith("jobd: "), f"overrides of {name}: {run.returncode}, {run.stderr!r}")
        left = sorted(os.listdir(folder))
        check(left == [name], f"overrides of {name} left {left}")


SCENES = [
    settings_in_the_log, logs_that_go_away, a_disk_that_fails_and_mends, a_store_with_another_reason, too_many_labels, settings_of_the_first_version,
    what_is_no_store,
]
