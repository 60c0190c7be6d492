#!/usr/bin/env python3
"""A launcher that is started while the disk of its store has no room.

    tests/full_disk.py [--jobd PROGRAM] [--jobctl PROGRAM] [TRIAL..]

It is run by hand as root, after `make build`; PROGRAM is build/jobd. Each trial has a launcher and a folder of its own, and mounts a small tmpfs in it,
whose bytes or whose files are used up.

    read_and_shut      a store that can be read: the launcher serves, its settings hold, and a setting is refused until there is room
    no_store           none is there, or an empty file: status 5
    no_journal         none is there, and none can be made: status 8
    then_two           while the disk is full and the store shut, and after that: what was set lasts

Each prints `ok NAME` or `FAILED NAME: why`; the last line counts, and the status is 1 if one failed.
"""
import os
import shutil
import subprocess
import sys
import tempfile

sys.dont_write_bytecode = True
HERE = os.path.dirname(os.path.abspath(__file__))
sys.path.insert(0, os.path.join(HERE, "scenes"))
from harness import (  # noqa: E402
    Fault, Stage, adopt_orphans, check, chosen, end_children, make, program_words, shell_job, text_at, wait_for,
)

REFUSED, DISABLED = 9, 5


class Disk:
    """A tmpfs in the stage's folder."""

    def __init__(self, stage, options="size=1200k"):
        self.folder = stage.at("disk")
        os.makedirs(self.folder, exist_ok=True)
        subprocess.run(["mount", "-t", "tmpfs", "-o", f"{options},mode=700", "none", self.folder], check=True)

    def at(self, name):
        return os.path.join(self.folder, name)

    def fill(self):
        """Uses up its bytes, and then its files."""
        try:
            with open(self.at("fill"), "wb", buffering=0) as file:
                while file.write(b"x" * 512):
                    pass
        except OSError:
            pass

    def use_up_files(self):
        number = 0
        try:
            while True:
                make(self.at(f"fill.{number}"))
                number += 1
        except OSError:
            pass

    def make_room(self):
        for name in os.listdir(self.folder):
            if name.startswith("fill"):
                os.remove(self.at(name))

    def __enter__(self):
        return self

    def __exit__(self, *_):
        subprocess.run(["umount", "-l", self.folder], check=True)


def set_two(stage):
    """A store with two settings, as a launcher leaves it that was shut down."""
    launcher = stage.serve(store="disk/store")
    for label in ("one", "two"):
        check(launcher.ask({"req": "disable", "job": label})["code"] == 0, "disable refused")
    launcher.shut_down()


def settings(stage):
    shown = stage.run(["overrides", "--store", "disk/store"]).stdout
    return [line.split("\t")[:2] for line in shown.splitlines()]


def serves_shut(stage, disk):
    """It serves, its settings hold, and no other is taken until there is room."""
    launcher = stage.serve(store="disk/store")
    line = f"jobd: store {stage.at('disk/store')}: "
    check(launcher.lines(f"{line}database or disk is full") or launcher.lines(f"{line}No space left on device"), f"it said {launcher.said()!r}")
    check(len(launcher.lines(f"{line}it stays closed")) == 1, f"it said {launcher.said()!r}")
    launcher.load(shell_job("one", "exit 0"), DISABLED)
    launcher.load(shell_job("runs", f"echo run > {stage.at('ran')}", RunAtLoad=True))
    wait_for(lambda: text_at(stage.at("ran")) == "run\n", "no job runs")
    for _ in range(2):
        reply = launcher.ask({"req": "disable", "job": "three"})
        check(reply["code"] == REFUSED, f"a setting got {reply} while the disk is full")
    launcher.answers("after a setting was refused")
    disk.make_room()
    check(launcher.ask({"req": "enable", "job": "one"})["code"] == 0, "no setting is taken though there is room")
    launcher.load(shell_job("one", "exit 0"))
    return launcher


def read_and_shut(stage):
    """A store that can be read, without its log, with an empty one, and where no further file can be made."""
    for how in ("none", "empty", "no files"):
        with Disk(stage, "size=1200k,nr_inodes=12" if how == "no files" else "size=1200k") as disk:
            set_two(stage)
            if how == "empty":
                make(disk.at("store-wal"))
            else:
                os.remove(disk.at("store-wal"))
            if how == "no files":
                disk.use_up_files()
            else:
                disk.fill()
            launcher = serves_shut(stage, disk)
            launcher.shut_down()
            os.remove(stage.at("ran"))
            check(settings(stage) == [["one", "enabled"], ["two", "disabled"]], f"with the log {how} the store has {settings(stage)}")


def then_two(stage):
    """What was set once there was room lasts over a kill."""
    with Disk(stage) as disk:
        set_two(stage)
        os.remove(disk.at("store-wal"))
        disk.fill()
        launcher = serves_shut(stage, disk)
        launcher.kill()
        launcher = stage.serve(store="disk/store")
        check("it stays closed" not in launcher.said(), f"it said {launcher.said()!r}")
        launcher.load(shell_job("two", "exit 0"), DISABLED)
        launcher.load(shell_job("one", "exit 0"))
        launcher.shut_down()


def no_store(stage):
    """A store that is not there can't be made, and one without tables holds no settings to start from."""
    for is_there in (False, True):
        with Disk(stage) as disk:
            if is_there:
                make(disk.at("store"))
                os.chmod(disk.at("store"), 0o600)
            disk.fill()
            launcher = stage.start(store="disk/store")
            check(not launcher.is_ready(), "it serves without a store")
            check(launcher.ends() == 5, f"it ended with {launcher.ends()}: {launcher.said()!r}")


def no_journal(stage):
    """A journal that can't be made is status 8, whatever the store is."""
    with Disk(stage, "size=1200k,nr_inodes=12") as disk:
        set_two(stage)
        disk.use_up_files()
        launcher = stage.start(store="disk/store", journal="disk/journal")
        check(not launcher.is_ready(), "it serves without a journal")
        check(launcher.ends() == 8, f"it ended with {launcher.ends()}: {launcher.said()!r}")


TRIALS = [read_and_shut, no_store, no_journal, then_two]


def main():
    words = program_words(description=__doc__, formatter_class=__import__("argparse").RawDescriptionHelpFormatter)
    given = words.parse_args()
    trials = chosen(words, given, TRIALS)
    adopt_orphans()
    failed = 0
    for trial in trials:
        folder = tempfile.mkdtemp(prefix="full.")
        stage = Stage(given, folder)
        try:
            trial(stage)
            print(f"ok {trial.__name__}", flush=True)
        except Fault as fault:
            failed += 1
            print(f"FAILED {trial.__name__}: {fault}", flush=True)
        finally:
            stage.clear()
            end_children()
            shutil.rmtree(folder, ignore_errors=True)
    print(f"{len(trials)} trials, {failed} failed")
    return 1 if failed else 0


if __name__ == "__main__":
    sys.exit(main())
