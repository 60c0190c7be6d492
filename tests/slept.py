#!/usr/bin/env python3
"""A machine that sleeps, without one: `jobd` whose clock of sleeps is a library's (slept_clock.c, which needs cc), and `jobd` in time
namespaces, which root alone can make. What is not here is left out, with a line.

    slept.py [FOLDER]     FOLDER holds jobd and jobctl (build/ if absent)

Tried: an hourly job starts after a sleep of two hours, once; a job that was given TERM has its whole ExitTimeOut awake before KILL, and the
sleep counts behind that; beside a job that gets no KILL it counts at once; what the machine slept before the launcher began counts for
nothing, whichever of the two clocks is ahead. After a sleep, and after the wall clock was set, the status file is renewed at once. The status file tells runs by the launcher's own readings. It is run by hand, after `make build`.
"""
import json
import os
import shutil
import subprocess
import sys
import tempfile
import time
import types

HERE = os.path.dirname(os.path.abspath(__file__))
sys.dont_write_bytecode = True
sys.path.insert(0, os.path.join(HERE, "scenes"))
os.environ.setdefault("BOUND", "30")
from harness import Fault, Stage, adopt_orphans, check, end_children, wait_for  # noqa: E402

PROGRAMS = os.path.abspath(sys.argv[1] if len(sys.argv) > 1 else os.path.join(HERE, "..", "build"))
HOURS = 7_200


class Sleeper:
    """A launcher in a folder of its own. FRONT stands before its words."""

    def __init__(self, folder, front=(), **env):
        os.mkdir(folder)
        os.mkdir(f"{folder}/standing", 0o700)
        self.folder = folder
        self.stage = Stage(types.SimpleNamespace(jobd=[*front, f"{PROGRAMS}/jobd"], jobctl=[f"{PROGRAMS}/jobctl"]), folder)
        self.stage.serve(env={"JOBD_STATUS_FILE": f"{folder}/standing/status.jsonl", **env})

    def control(self, *words):
        run = self.stage.jobctl(words)
        check(run.returncode == 0, f"jobctl {' '.join(words)}: {run.stdout}{run.stderr}")
        return run.stdout

    def load(self, label, line, **keys):
        path = f"{self.folder}/{label}.json"
        with open(path, "w") as it:
            json.dump({"Label": label, "ProgramArguments": ["/bin/sh", "-c", line], "ThrottleInterval": 0, **keys}, it)
        self.control("load", path)

    def runs(self, label):
        return int(self.control("print", label).split("runs = ")[1].split()[0])

    def has(self, name):
        return os.path.exists(f"{self.folder}/{name}")

    def deaf(self, label, **keys):
        self.load(label, f"trap '' TERM; : >{self.folder}/{label}.deaf; while :; do sleep 0.05; done", RunAtLoad=True, **keys)
        wait_for(lambda: self.has(f"{label}.deaf"), "the job is deaf")

    def standing(self, label):
        """What the status file says: the launcher's reading, and the job's line."""
        try:
            with open(f"{self.folder}/standing/status.jsonl") as it:
                first, *rest = [json.loads(line) for line in it]
        except FileNotFoundError:
            return None
        jobs = [line["job"] for line in rest if line["job"]["label"] == label]
        return (first["launcher"]["at"], jobs[0]) if jobs else None

    def end(self):
        self.stage.clear()


def of_library(folder, library):
    slept = f"{folder}/slept"

    def sleep(seconds):
        with open(f"{slept}.new", "w") as it:
            it.write(f"{seconds}\n")
        os.rename(f"{slept}.new", slept)

    sleep(500)
    launcher = Sleeper(f"{folder}/library", LD_PRELOAD=library, SLEPT_FILE=slept)
    try:
        launcher.load("hourly", ":", StartInterval=3600)
        time.sleep(0.5)
        check(launcher.runs("hourly") == 0, "what was slept before the launcher counts")
        sleep(500 + HOURS)
        wait_for(lambda: launcher.runs("hourly") == 1, "an hourly job starts after a sleep")
        time.sleep(0.5)
        check(launcher.runs("hourly") == 1, "two hours start it more than once")
        # A job that has four seconds to end, of which the machine sleeps none.
        launcher.deaf("deaf", ExitTimeOut=4)
        begun = time.monotonic()
        launcher.control("stop", "deaf")
        time.sleep(0.5)
        sleep(500 + 2 * HOURS)
        # What ends meanwhile is told by the launcher's reading, which does not count that sleep yet.
        launcher.load("beside", ":", RunAtLoad=True)

        def ended():
            found = launcher.standing("beside")
            return found if found and found[1]["last_end"] else None
        at, beside = wait_for(ended, "the status file tells the end of a run")
        check(beside["last_end"]["ended"]["up"] <= at["up"], f"a run ended at {beside['last_end']}, and the launcher is at {at}")
        while time.monotonic() - begun < 3.8:
            check("pid = " in launcher.control("print", "deaf"), f"KILL came {time.monotonic() - begun:.1f} s after TERM")
            check(launcher.runs("hourly") == 1, "a sleep counts while a job waits for its KILL")
            time.sleep(0.1)
        wait_for(lambda: "last exit = signal 9" in launcher.control("print", "deaf"), "KILL comes")
        wait_for(lambda: launcher.runs("hourly") == 2, "the sleep counts once no job waits")
        # A job that gets no KILL holds nothing up.
        launcher.deaf("calm", ExitTimeOut=0)
        launcher.control("stop", "calm")
        sleep(500 + 3 * HOURS)
        wait_for(lambda: launcher.runs("hourly") == 3, "a sleep counts beside a job that gets no KILL")
        check("pid = " in launcher.control("print", "calm"), "the job that gets no KILL is gone")
    finally:
        launcher.end()


def renewed(folder, library):
    """The modification time of the status file follows the clocks at once, and not only ten seconds later."""
    paths = {name: f"{folder}/{name}" for name in ("SLEPT_FILE", "SET_FILE")}

    def show(name, seconds):
        with open(f"{paths[name]}.new", "w") as it:
            it.write(f"{seconds}\n")
        os.rename(f"{paths[name]}.new", paths[name])

    for name in paths:
        show(name, 500)
    launcher = Sleeper(f"{folder}/renewed", LD_PRELOAD=library, **paths)
    path = f"{folder}/renewed/standing/status.jsonl"
    try:
        launcher.load("idle", ":")
        wait_for(lambda: launcher.standing("idle"), "the job is in the status file")
        for name, seconds, ahead in (("SLEPT_FILE", 500 + HOURS, 500), ("SET_FILE", 500 + HOURS, 500 + HOURS), ("SET_FILE", 0, 0)):
            time.sleep(1.5)
            old = time.time() - 100
            os.utime(path, (old, old))
            begun = time.monotonic()
            show(name, seconds)
            wait_for(lambda ahead=ahead: abs(os.stat(path).st_mtime - time.time() - ahead) < 5, f"after {name} {seconds} the file is renewed")
            check(time.monotonic() - begun < 5, f"after {name} {seconds} the file was renewed only {time.monotonic() - begun:.1f} s later")
    finally:
        launcher.end()


def in_namespace(folder, *clocks):
    launcher = Sleeper(folder, front=["unshare", "--time", *clocks, "--"])
    try:
        launcher.load("often", ":", StartInterval=1)
        launcher.load("hourly", ":", StartInterval=3600)
        wait_for(lambda: launcher.runs("often") >= 2, "a job of each second starts")
        check(launcher.runs("hourly") == 0, f"with {' '.join(clocks)} an hour was over at once")
    finally:
        launcher.end()


def main():
    adopt_orphans()
    folder = tempfile.mkdtemp(prefix="slept.")
    try:
        if shutil.which("cc"):
            library = f"{folder}/slept_clock.so"
            subprocess.run(["cc", "-shared", "-fPIC", "-O1", "-o", library, f"{HERE}/slept_clock.c"], check=True)
            of_library(folder, library)
            print("slept: a sleep counts once, and takes no time to end")
            renewed(folder, library)
            print("slept: after a sleep, and after a clock that was set, the status file is renewed at once")
        else:
            print("slept: cc is not here, so a clock of its own was not tried")
        if subprocess.run(["unshare", "--time", "--boottime", "1", "true"], capture_output=True).returncode == 0:
            in_namespace(f"{folder}/ahead", "--boottime", "86400")
            in_namespace(f"{folder}/behind", "--monotonic", "86400")
            print("slept: in a time namespace it counts from the launcher's beginning")
        else:
            print("slept: no time namespace can be made here, so none was tried")
    except Fault as fault:
        print(f"slept: {fault}", file=sys.stderr)
        return 1
    finally:
        end_children()
        shutil.rmtree(folder, ignore_errors=True)
    return 0


sys.exit(main())
