#!/usr/bin/env python3
"""contrib/jobd-run, tried by hand and under runit's runsv: no job runs twice, none is left behind, and what is wrong is told.

jobd_run.py [--programs FOLDER] [--shell SHELL] [SCENE..]. FOLDER holds jobd and jobctl (build/ if absent); SHELL runs the script
(sh if absent). It is run by hand, after `make build`. Scenes under runsv are left out, with a line, if runsv is not here.
"""

import argparse
import ctypes
import glob
import json
import os
import pwd
import re
import select
import shutil
import signal
import subprocess
import sys
import tempfile
import time

HERE = os.path.dirname(os.path.dirname(os.path.abspath(__file__)))
sys.dont_write_bytecode = True
sys.path.insert(0, f"{HERE}/tests/scenes")
import pace  # noqa: E402
from pace import Fault, check  # noqa: E402

SCRIPT = f"{HERE}/contrib/jobd-run"
options = None
scenes = {}


def scene(function):
    scenes[function.__name__] = function
    return function


# The longest wait for anything, in seconds: programs built without a proof are slow.
MOST = 90


def wait_for(test, what, seconds=MOST):
    return pace.wait_for(test, what, seconds)


def gone(pid):
    try:
        with open(f"/proc/{pid}/stat") as it:
            return it.read().rpartition(")")[2].split()[0] in "ZX"
    except OSError:
        return True


class Place:
    """The folders of one launcher, its definitions, and what jobd-run told."""

    def __init__(self, folder):
        self.folder = folder
        self.jobs, self.run, self.state = (f"{folder}/{name}" for name in ("jobs", "run", "state"))
        os.mkdir(self.jobs)
        self.log = f"{folder}/log"
        open(self.log, "w").close()
        self.started = []

    def environment(self, **more):
        own = {"JOBD_JOBS": self.jobs, "JOBD_RUN": self.run, "JOBD_STATE": self.state, "JOBD_PROGRAMS": options.programs}
        return {**os.environ, **own, **more}

    def define(self, label, body="exec sleep 1000", **keys):
        """A job that is kept alive, and holds a lock as long as it lives; one that finds it held while the one before lives writes `twice`. The lock alone does
        not tell: if a job is killed in its first milliseconds, its child `flock` still holds it."""
        at = f"{self.folder}/{label}"
        alive = f"grep -qs ') [^ZX]' \"/proc/$(cat {at}.pid)/stat\" && echo {label} >>{self.folder}/twice"
        line = f"exec 8>>{at}.lock; flock -n 8 || {{ {alive}; flock 8; }}; echo $$ >{at}.pid; {body}"
        keys = {"Label": label, "ProgramArguments": ["/bin/sh", "-c", line], "KeepAlive": True, "ThrottleInterval": 0, **keys}
        with open(f"{self.jobs}/{label}.json", "w") as it:
            json.dump(keys, it)

    def start(self, first=None, output=None, **more):
        """Starts the script; FIRST is done in its process before it begins, and OUTPUT is its standard output."""
        log = open(self.log, "a")
        child = subprocess.Popen(
            [options.shell, SCRIPT],
            env=self.environment(**more),
            stdin=subprocess.DEVNULL,
            stdout=output or log,
            stderr=log,
            preexec_fn=first,
        )
        self.started.append(child)
        return child

    def reload(self, **more):
        """Runs `jobd-run reload`: its status, and what it told."""
        words = [options.shell, SCRIPT, "reload"]
        run = subprocess.run(words, env=self.environment(**more), capture_output=True, text=True, errors="replace", timeout=MOST, stdin=subprocess.DEVNULL)
        return run.returncode, run.stdout + run.stderr

    def control(self, *words):
        run = subprocess.run(
            [f"{options.programs}/jobctl", "--socket", f"{self.run}/jobd.sock", *words], capture_output=True, text=True, timeout=60
        )
        return run.returncode, run.stdout

    def child_of(self, label):
        code, text = self.control("list")
        for row in text.splitlines()[1:]:
            pid, _, name = row.split("\t")
            if name == label and pid != "-" and code == 0:
                return int(pid)
        return None

    def running(self, label):
        return wait_for(lambda: self.child_of(label), f"{label} runs; told: {self.told()}")

    def launchers(self):
        """The process ids of launchers at this place's socket."""
        found = []
        for path in glob.glob("/proc/[0-9]*/cmdline"):
            try:
                words = open(path, "rb").read().decode(errors="replace").split("\0")
            except OSError:
                continue
            if "serve" in words and f"{self.run}/jobd.sock" in words and os.path.basename(words[0]) == "jobd":
                found.append(int(path.split("/")[2]))
        return found

    def told(self):
        return open(self.log, errors="replace").read()

    def check_told(self, text):
        check(text in self.told(), f"not told: {text!r} in {self.told()!r}")

    def check_once(self):
        check(not os.path.exists(f"{self.folder}/twice"), f"two of a job ran at once: {self.told()}")

    def marked(self):
        """The processes of this place: those that hold a job's lock, and launchers."""
        mark = open(f"{self.state}/mark").read().split()[0].encode()
        found = set(self.launchers())
        for path in glob.glob("/proc/[0-9]*/environ"):
            try:
                if b"JOBD_MARK=" + mark in open(path, "rb").read():
                    found.add(int(path.split("/")[2]))
            except OSError:
                pass
        return {pid for pid in found if not gone(pid)}

    def check_nothing_left(self):
        check(not self.marked(), f"left: {self.marked()}; told: {self.told()}")
        self.check_once()

    def clear(self):
        for child in self.started:
            if child.poll() is None:
                child.terminate()
                try:
                    child.wait(MOST)
                except subprocess.TimeoutExpired:
                    child.kill()
        if os.path.exists(f"{self.state}/mark"):
            for pid in self.marked():
                os.kill(pid, signal.SIGKILL)


# ---- ends in order


def ends_in_order(place, number):
    place.define("a", "trap 'echo in order >>%s/ends; exit' TERM; sleep 1000 & : >%s/minds; wait" % (place.folder, place.folder))
    keeper = place.start()
    child = place.running("a")
    wait_for(lambda: os.path.exists(f"{place.folder}/minds"), "the job minds its signal")
    keeper.send_signal(number)
    check(keeper.wait(MOST) == 0, f"status {keeper.returncode}: {place.told()}")
    check(gone(child), "the job lives on")
    check(open(f"{place.folder}/ends").read() == "in order\n", "the job was not ended in order")
    check(not os.path.exists(f"{place.run}/jobd.sock"), "the socket's file is left")
    # The shell's own child was left by the job.
    place.check_told("(sleep) gets TERM")
    place.check_nothing_left()


@scene
def term_ends_in_order(place):
    ends_in_order(place, signal.SIGTERM)


@scene
def int_ends_in_order(place):
    ends_in_order(place, signal.SIGINT)


@scene
def quit_ends_in_order(place):
    ends_in_order(place, signal.SIGQUIT)


# ---- the folder applied again


def define_night(place, **keys):
    """A job whose run goes on and that nothing keeps alive."""
    place.define("night", KeepAlive=False, RunAtLoad=True, **keys)


def body_of(place, label):
    """What the job's run was started with."""
    pid = place.child_of(label)
    return open(f"/proc/{pid}/environ", "rb").read().decode() if pid else ""


def define_body(place, label, body, **keys):
    place.define(label, EnvironmentVariables={"BODY": body}, **keys)


def is_body(place, label, body):
    try:
        return f"BODY={body}\0" in body_of(place, label)
    except OSError:
        return False


@scene
def hup_applies_the_folder(place):
    """What is new is loaded, what changed and is kept alive replaced; a run that goes on, and a job whose file is gone, are left. It never ends all jobs."""
    for label in "abc":
        define_body(place, label, "one")
    define_night(place)
    keeper = place.start()
    before = {label: place.running(label) for label in ("a", "b", "c", "night")}
    wait_for(lambda: "jobs loaded" in place.told(), "the loads")
    define_body(place, "a", "two")
    define_body(place, "d", "new")
    define_night(place, ExitTimeOut=33)
    os.unlink(f"{place.jobs}/c.json")
    keeper.send_signal(signal.SIGHUP)
    wait_for(lambda: is_body(place, "a", "two") and is_body(place, "d", "new"), f"the folder is applied: {place.told()}")
    wait_for(lambda: place.told().count("jobs loaded") == 2, f"that it is told: {place.told()}")
    for label in ("b", "c", "night"):
        check(place.child_of(label) == before[label], f"the run of {label} was ended: {place.told()}")
    for form in (r"jobd-run: a: changed: ", r"jobd-run: d: new: ", r"jobd-run: c: orphan: ", r"jobd-run: night: running: "):
        check(re.search(f"^{form}", place.told(), re.M), f"not told: {form}: {place.told()}")
    check(keeper.poll() is None and len(place.launchers()) == 1, "it ended at HUP")
    # Several at once: what is there after the last one is in effect.
    for number in range(3):
        define_body(place, "a", f"n{number}")
        keeper.send_signal(signal.SIGHUP)
    wait_for(lambda: is_body(place, "a", "n2"), f"the last of three: {place.told()}")
    place.check_once()
    keeper.terminate()
    check(keeper.wait(MOST) == 0, f"status {keeper.returncode}: {place.told()}")
    place.check_nothing_left()


@scene
def hup_before_ready_is_heeded(place):
    place.define("a")
    keeper = place.start()
    wait_for(place.launchers, "a launcher")
    keeper.send_signal(signal.SIGHUP)
    place.running("a")
    wait_for(lambda: place.told().count("jobs loaded") == 2, f"that it is applied again: {place.told()}")
    check(keeper.poll() is None, f"it ended at HUP: {place.told()}")


@scene
def reload_waits_and_says_how_it_went(place):
    status, told = place.reload()
    check(status == 1 and "no launcher has its socket there" in told, f"without a launcher: {status} {told}")
    define_body(place, "a", "one")
    define_night(place)
    keeper = place.start()
    place.running("a")
    night = place.running("night")
    wait_for(lambda: "jobs loaded" in place.told(), "the loads")
    define_body(place, "a", "two")
    status, told = place.reload()
    check(status == 0 and "jobd-run: a: changed: " in told and "jobd-run: 2 jobs loaded, 0 not" in told, f"{status} {told}")
    wait_for(lambda: is_body(place, "a", "two"), "the new one")
    define_night(place, ExitTimeOut=33)
    status, told = place.reload()
    check(status == 0 and "night: running: " in told and place.child_of("night") == night, f"a run that is left: {status} {told}")
    open(f"{place.jobs}/bad.json", "w").write("{")
    status, told = place.reload()
    check(status == 65 and f"{place.jobs}/bad.json: not loaded: " in told, f"a file that can't be read: {status} {told}")
    check(f"{place.jobs}/bad.json: not loaded at the boot: " in scope(place, "why", "--failing")[1], f"seen: {scope(place, 'why', '--failing')}")
    os.unlink(f"{place.jobs}/bad.json")
    status, told = place.reload()
    check(status == 0 and "not loaded at the boot" not in scope(place, "why", "--failing")[1], f"mended: {status} {told} {scope(place, 'why', '--failing')}")
    check(place.reload(JOBD_JOBS=f"{place.folder}/none")[0] == 65, "no folder")
    os.chmod(place.run, 0o777)
    status, told = place.reload()
    check(status == 1 and "another user owns it or may write to it" in told, f"a folder of others: {status} {told}")
    os.chmod(place.run, 0o700)
    run = subprocess.run([options.shell, SCRIPT, "other"], env=place.environment(), capture_output=True, text=True, timeout=MOST)
    check(run.returncode == 1 and "jobd-run [reload]" in run.stderr, f"another word: {run}")
    keeper.terminate()
    check(keeper.wait(MOST) == 0, f"status {keeper.returncode}: {place.told()}")


@scene
def patience_follows_a_reload(place):
    """The greatest ExitTimeOut is that of what is loaded by now."""
    place.define("a")
    place.start()
    place.running("a")
    wait_for(lambda: "jobs loaded" in place.told(), "the loads")
    check(open(f"{place.state}/patience").read() == "20\n", "at first")
    place.define("b", ExitTimeOut=77)
    check(place.reload()[0] == 0, "no reload")
    check(open(f"{place.state}/patience").read() == "77\n", "after the reload")


@scene
def the_file_named_for_a_label_decides_at_a_boot(place):
    """And the others are named. Without such a file none is loaded."""
    for name, label, body in (("web", "web", "right"), ("web-old", "web", "copy"), ("zz", "web", "copy"), ("one", "other", "x"), ("two", "other", "y")):
        define_body(place, label, body)
        os.rename(f"{place.jobs}/{label}.json", f"{place.folder}/{name}.json")
    for name in ("web", "web-old", "zz", "one", "two"):
        os.rename(f"{place.folder}/{name}.json", f"{place.jobs}/{name}.json")
    place.start()
    place.running("web")
    wait_for(lambda: "jobs loaded" in place.told(), "the loads")
    check(is_body(place, "web", "right"), f"another one was loaded: {place.told()}")
    check(place.child_of("other") is None, "of two files one was loaded")
    failing = scope(place, "why", "--failing")[1]
    for name in ("web-old", "zz", "one", "two"):
        place.check_told(f"{place.jobs}/{name}.json: not loaded: ")
        check(f"{place.jobs}/{name}.json: not loaded at the boot: " in failing, f"{name}: {failing}")
    place.check_told("jobd-run: 1 jobs loaded, 4 not")


@scene
def names_that_are_no_text(place):
    """A name that is not UTF-8 keeps no other file from being loaded, at a boot and later, and is named."""
    place.define("a")
    place.define("b")
    os.chmod(f"{place.jobs}/b.json", 0o664)
    folder = place.jobs.encode()
    open(folder + b"/\xff.json", "w").write('{"Label":"strange","Program":"/bin/true"}')
    open(folder + b"/notes-\xe9", "w").close()
    place.start()
    place.running("a")
    wait_for(lambda: "1 jobs loaded, 2 not" in open(place.log, errors="replace").read(), "the loads")
    told = open(place.log, "rb").read()
    check(folder + b"/\xff.json: not loaded: its name is not UTF-8\n" in told, f"{told}")
    check(folder + b"/b.json: not loaded: another user owns it or may write to it\n" in told, f"{told}")
    rows = [json.loads(row) for row in open(f"{place.run}/status.jsonl.boot").read().splitlines()]
    check(rows[0]["boot"]["pid"] == place.launchers()[0] and len(rows) == 3, f"{rows}")
    place.define("c")
    status, _ = place.reload()
    check(status == 0 and place.running("c"), f"status {status}")


@scene
def no_status_file_is_wanted(place):
    """jobctl has one all the same, and nothing is written of the boot."""
    place.define("a")
    open(f"{place.jobs}/b.json", "w").write("{")
    keeper = place.start(JOBD_STATUS_FILE="")
    place.running("a")
    wait_for(lambda: "1 jobs loaded, 1 not" in place.told(), f"the loads: {place.told()}")
    check(not [name for name in os.listdir(place.run) if name.startswith("status") or name.endswith(".boot")], f"{os.listdir(place.run)}")
    keeper.terminate()
    check(keeper.wait(MOST) == 0, f"status {keeper.returncode}: {place.told()}")


@scene
def the_launcher_names_the_folder(place):
    place.define("a")
    place.start()
    place.running("a")
    places = json.load(open(f"{place.run}/jobd.sock.places"))
    check(places["jobs"] == place.jobs and places["status_file"] == f"{place.run}/status.jsonl", f"{places}")
    check(places["journal"] == f"{place.state}/journal.jsonl", f"{places}")


@scene
def signal_before_ready(place):
    place.define("a")
    keeper = place.start()
    wait_for(place.launchers, "a launcher")
    keeper.send_signal(signal.SIGTERM)
    check(keeper.wait(MOST) == 0, f"status {keeper.returncode}: {place.told()}")
    place.check_nothing_left()


# ---- what was killed


@scene
def killed_script(place):
    place.define("a")
    keeper = place.start()
    child, launcher = place.running("a"), place.launchers()[0]
    keeper.kill()
    keeper.wait()
    check(not gone(child) and not gone(launcher), "a KILL of the script ends the job")
    place.start()
    wait_for(lambda: gone(launcher), "the launcher before ends")
    check(gone(child), "the launcher before ended, and its job did not")
    second = place.running("a")
    check(second != child and len(place.launchers()) == 1, "not one launcher")
    place.check_told(f"the launcher before this one still runs: {launcher} is asked for a shutdown")
    place.check_once()


@scene
def killed_launcher(place):
    place.define("a")
    keeper = place.start()
    child, launcher = place.running("a"), place.launchers()[0]
    os.kill(launcher, signal.SIGKILL)
    check(keeper.wait(MOST) == 128 + 9, f"status {keeper.returncode}: {place.told()}")
    check(gone(child), "the job is left")
    place.check_told(f"left by a launcher that exited: {child} (sleep) gets TERM")
    place.check_nothing_left()
    place.start()
    place.running("a")
    place.check_once()


def killed_both(place, script_first):
    place.define("a")
    place.define("b")
    keeper = place.start()
    children, launcher = [place.running("a"), place.running("b")], place.launchers()[0]
    if script_first:
        keeper.kill()
        os.kill(launcher, signal.SIGKILL)
    else:
        keeper.send_signal(signal.SIGSTOP)
        os.kill(launcher, signal.SIGKILL)
        keeper.kill()
    keeper.wait()
    wait_for(lambda: gone(launcher), "the launcher ends")
    check(not any(map(gone, children)), "a job ended by itself")
    place.start()
    for label in "ab":
        check(place.running(label) not in children, "a job was not ended")
    for child in children:
        check(gone(child), "a job is left")
        place.check_told(f"left by a launcher that exited: {child} (sleep) gets TERM")
    place.check_once()


@scene
def killed_script_then_launcher(place):
    killed_both(place, True)


@scene
def killed_launcher_then_script(place):
    killed_both(place, False)


def take_orphans_in():
    """The children of a process that ends become children of this one, as with the first process of a container."""
    PR_SET_CHILD_SUBREAPER = 36
    if ctypes.CDLL(None, use_errno=True).prctl(PR_SET_CHILD_SUBREAPER, 1, 0, 0, 0) != 0:
        raise OSError(ctypes.get_errno(), "prctl")


@scene
def killed_launcher_of_one_that_takes_orphans_in(place):
    """A loop whose own children begin and end, as a child of the script: one TERM for each that is left, and it ends."""
    place.define("a", "while :; do sleep 0.05; done")
    place.define("b", "trap exit TERM; sleep 1000 & wait")
    keeper = place.start(first=take_orphans_in)
    children = [place.running(label) for label in "ab"]
    begin = time.time()
    os.kill(place.launchers()[0], signal.SIGKILL)
    check(keeper.wait(MOST) == 128 + 9, f"status {keeper.returncode}: {place.told()}")
    check(time.time() - begin < 15, f"{time.time() - begin} s until the jobs were ended")
    check(all(map(gone, children)), f"left: {place.told()}")
    rows = [row for row in place.told().splitlines() if "gets TERM" in row]
    check(len(rows) <= 10, f"{len(rows)} lines of TERM")
    check("can't be ended" not in place.told(), place.told())
    place.check_nothing_left()


@scene
def stopped_launcher(place):
    """A launcher that answers nobody is ended by KILL, and its job by TERM."""
    place.define("a")
    keeper = place.start(JOBCTL_TIMEOUT="2")
    child, launcher = place.running("a"), place.launchers()[0]
    os.kill(launcher, signal.SIGSTOP)
    keeper.send_signal(signal.SIGTERM)
    check(keeper.wait(MOST) == 128 + 9, f"status {keeper.returncode}: {place.told()}")
    place.check_told("no shutdown can be asked for")
    check(gone(child), "the job is left")
    place.check_nothing_left()


@scene
def deaf_job(place):
    """A job that hears no TERM gets KILL, and not before its time."""
    place.define("a", f"trap '' TERM; : >{place.folder}/minds; exec sleep 1000", ExitTimeOut=23)
    keeper = place.start()
    child, launcher = place.running("a"), place.launchers()[0]
    wait_for(lambda: os.path.exists(f"{place.folder}/minds"), "the job is deaf")
    time.sleep(0.5)
    begin = time.time()
    os.kill(launcher, signal.SIGKILL)
    check(keeper.wait(MOST) == 128 + 9, f"status {keeper.returncode}")
    check(time.time() - begin >= 22, "KILL came too early")
    place.check_told(f"{child} (sleep) did not end in 23 seconds: it gets KILL")
    place.check_nothing_left()


# ---- how long what was left has


def fast_clock(place, factor):
    """A PATH by which the script's clock goes so many times faster: it asks `date` how late it is."""
    folder = f"{place.folder}/bin"
    os.mkdir(folder)
    with open(f"{folder}/date", "w") as it:
        begin, date = int(time.time()), shutil.which("date")
        it.write(f"#!/bin/sh\necho $(({begin} + ($({date} +%s%3N) - {begin}000) * {factor} / 1000))\n")
    os.chmod(f"{folder}/date", 0o755)
    return f"{folder}:{os.environ['PATH']}"


def define_deaf(place, label, **keys):
    place.define(label, f"trap '' TERM; : >{place.folder}/{label}.minds; exec sleep 1000", **keys)


def left_by_both(place, seconds, factor, told=None):
    """Script and launcher are killed, and the job of `a` is deaf: the next script gives it KILL after so many seconds."""
    path = fast_clock(place, factor)
    keeper = place.start(PATH=path)
    child, launcher = place.running("a"), place.launchers()[0]
    wait_for(lambda: os.path.exists(f"{place.folder}/a.minds"), "the job is deaf")
    wait_for(lambda: "jobs loaded" in place.told(), "that all are loaded")
    if told:
        place.check_told(told)
    # The status file names the job's process, a second later at most.
    wait_for(lambda: f'"pid":{child},' in open(f"{place.run}/status.jsonl").read(), "the status file")
    keeper.kill()
    keeper.wait()
    os.kill(launcher, signal.SIGKILL)
    begin = time.time()
    keeper = place.start(PATH=path)
    wait_for(lambda: gone(child), f"the job is ended; told: {place.told()}", 40)
    spent = time.time() - begin
    # It looks each tenth of a second, and counts whole seconds.
    check(seconds / factor - 0.2 <= spent <= seconds / factor + 12, f"{spent} s, which are {spent * factor} of its clock")
    place.check_told(f"{child} (sleep) did not end in {seconds} seconds: it gets KILL")
    check(place.running("a") != child, "no new run")
    place.check_once()
    # An end in order would wait for the deaf job.
    keeper.kill()
    keeper.wait()
    kill(place.launchers()[0])


@scene
def patience_outlasts_the_script(place):
    define_deaf(place, "a", ExitTimeOut=60)
    left_by_both(place, 60, 10)


@scene
def patience_of_ten_minutes(place):
    define_deaf(place, "a", ExitTimeOut=600)
    left_by_both(place, 600, 50)


@scene
def patience_of_another_job_is_at_most_120_seconds(place):
    define_deaf(place, "a")
    place.define("b", KeepAlive=False, ExitTimeOut=86400)
    left_by_both(place, 120, 20)


@scene
def patience_of_what_jobctl_loaded(place):
    """A job from elsewhere has its time too: the launcher's status file tells it."""
    path = fast_clock(place, 10)
    place.define("a")
    define_deaf(place, "b", ExitTimeOut=90)
    os.rename(f"{place.jobs}/b.json", f"{place.folder}/b.json")
    keeper = place.start(PATH=path)
    place.running("a")
    check(place.control("load", f"{place.folder}/b.json")[0] == 0, "not loaded")
    child, launcher = place.running("b"), place.launchers()[0]
    wait_for(lambda: f'"pid":{child},' in open(f"{place.run}/status.jsonl").read(), "the status file")
    keeper.kill()
    keeper.wait()
    os.kill(launcher, signal.SIGKILL)
    place.start(PATH=path)
    wait_for(lambda: gone(child), f"the job is ended; told: {place.told()}", 40)
    place.check_told(f"{child} (sleep) did not end in 90 seconds: it gets KILL")


@scene
def patience_of_what_is_not_loaded_counts_for_nothing(place):
    """A number that is none to a shell, a definition that is refused, one that others may write, one alone in its folder's rest."""
    define_deaf(place, "a")
    place.define("b", ExitTimeOut=100)
    os.chmod(f"{place.jobs}/b.json", 0o646)
    for name, text in (("c", '"Label":"c","Program":"/bin/true","ExitTimeOut":99999999999999999999'), ("d", '"ExitTimeOut":100')):
        with open(f"{place.jobs}/{name}.json", "w") as it:
            it.write("{" + text + "}")
    left_by_both(place, 20, 5)
    check(open(f"{place.state}/patience").read() == "20\n", "it counts")


@scene
def fifo_among_the_definitions_stops_nothing(place):
    place.define("a")
    keeper = place.start()
    child, launcher = place.running("a"), place.launchers()[0]
    keeper.kill()
    keeper.wait()
    os.kill(launcher, signal.SIGKILL)
    os.mkfifo(f"{place.folder}/fifo")
    os.symlink(f"{place.folder}/fifo", f"{place.jobs}/f.json")
    place.start()
    wait_for(lambda: gone(child), f"what was left is ended; told: {place.told()}", 15)
    check(place.running("a") != child, "no new run")
    place.check_once()


@scene
def job_without_its_variables(place):
    """A job that has lost the variable is found by its session; so is one of another user, if root tries it."""
    place.define("a", "exec env -i /bin/sleep 1000")
    if os.getuid() == 0:
        place.define("b", "exec setpriv --reuid=65534 --clear-groups /bin/sleep 1000")
    keeper = place.start()
    children = [place.running(label) for label in ("ab" if os.getuid() == 0 else "a")]
    time.sleep(0.5)
    os.kill(place.launchers()[0], signal.SIGKILL)
    keeper.wait(MOST)
    check(all(map(gone, children)), f"left: {place.told()}")
    place.check_once()


@scene
def job_in_its_own_session(place):
    place.define("a", "exec setsid /bin/sleep 1000")
    keeper = place.start()
    child = place.running("a")
    time.sleep(0.5)
    os.kill(place.launchers()[0], signal.SIGKILL)
    keeper.wait(MOST)
    check(gone(child), f"left: {place.told()}")
    place.check_once()


@scene
def others_are_spared(place):
    """What bears another number, and another user's process that bears this one, live on."""
    place.define("a")
    keeper = place.start()
    place.running("a")
    number = open(f"{place.state}/mark").read().split()[0]
    others = [subprocess.Popen(["setsid", "sleep", "1000"], env={"JOBD_MARK": "0" + number[1:-1] + "x", "PATH": os.environ["PATH"]})]
    if os.getuid() == 0:
        words = ["setpriv", "--reuid=65534", "--clear-groups", "setsid", "sleep", "1000"]
        others.append(subprocess.Popen(words, env={"JOBD_MARK": number, "PATH": os.environ["PATH"]}))
    time.sleep(0.5)
    try:
        os.kill(place.launchers()[0], signal.SIGKILL)
        keeper.wait(MOST)
        check(not any(other.poll() is not None for other in others), f"another process was ended: {place.told()}")
    finally:
        for other in others:
            other.kill()
            other.wait()


class Hung:
    """A file system of this script's own in the place's folder, which once hung reads and does not answer: look-outs at it stay in state D."""

    def __init__(self, place):
        sys.path.insert(0, f"{HERE}/tests")
        import hung_file_system

        class Stage:
            def at(self, name):
                return f"{place.folder}/{name}"

        self.system = hung_file_system.FileSystem(Stage(), "hung")

    def path(self, name):
        return self.system.path(name)

    def hang(self):
        open(self.system.mute, "w").close()
        time.sleep(0.1)

    def end(self):
        self.system.end()


def look_outs_in_d(place):
    found = []
    for path in glob.glob("/proc/[0-9]*/stat"):
        try:
            row = open(path).read()
            words = open(path.replace("/stat", "/cmdline"), "rb").read()
            environment = open(path.replace("/stat", "/environ"), "rb").read()
        except OSError:
            continue
        if words == b"jobd-look-out\0" and row.rpartition(")")[2].split()[0] == "D" and f"JOBD_STATUS_FILE={place.run}".encode() in environment:
            found.append(int(path.split("/")[2]))
    return found


def beside_a_hung_look_out(place, stop):
    if os.getuid() != 0 or not os.path.exists("/dev/fuse"):
        print("jobd_run: no root or no FUSE, so no file system hung")
        return
    hung = Hung(place)
    try:
        place.define("a")
        place.define("b", KeepAlive=False, WatchPaths=[hung.path("p")])
        keeper = place.start()
        child = place.running("a")
        wait_for(lambda: "jobs loaded" in place.told(), "that all are loaded")
        # It is watched before it hangs.
        time.sleep(1.5)
        hung.hang()
        looks = wait_for(lambda: look_outs_in_d(place), "a look-out that hangs")
        stop(keeper)
        keeper.wait(MOST)
        begin = time.time()
        place.start()
        second = place.running("a")
        spent = time.time() - begin
        check(second != child and gone(child), "the job was not ended")
        for pid in looks:
            check(not gone(pid), "the look-out ended, so this tries nothing")
            place.check_told(f"left by a launcher that exited: {pid} (exe) is a helper process, and KILL does not end it")
        check("can't be ended" not in place.told(), place.told())
        print(f"jobd_run: beside {len(looks)} look-outs in state D the job runs after {spent:.1f} s")
        # Two seconds on a quiet machine; without it, none.
        check(spent < 20, f"{spent} s until the job ran again")
        place.check_once()
    finally:
        hung.end()


@scene
def hung_look_out_of_a_killed_launcher(place):
    def both(keeper):
        keeper.kill()
        os.kill(place.launchers()[0], signal.SIGKILL)

    beside_a_hung_look_out(place, both)


@scene
def hung_look_out_at_a_stop(place):
    """The one that is stopped goes on to its end too, with the launcher's status."""
    def stop(keeper):
        keeper.terminate()
        begin = time.time()
        check(keeper.wait(MOST) == 0, f"status {keeper.returncode}: {place.told()}")
        check(time.time() - begin < 15, f"it took {time.time() - begin} s to stop")

    beside_a_hung_look_out(place, stop)


@scene
def job_that_bears_a_look_outs_name_is_a_job(place):
    """By its name alone nothing is a look-out: it gets TERM, and its time."""
    place.define("a", f"trap 'echo TERM >>{place.folder}/ends; exit' TERM; : >{place.folder}/minds; while :; do sleep 0.1; done")
    text = json.load(open(f"{place.jobs}/a.json"))
    text["ProgramArguments"] = ["/bin/bash", "-c", f"exec -a jobd-look-out /bin/sh -c {chr(39)}. {place.folder}/body{chr(39)}"]
    with open(f"{place.folder}/body", "w") as it:
        it.write(f"trap 'echo TERM >>{place.folder}/ends; exit' TERM; : >{place.folder}/minds; while :; do sleep 0.1; done\n")
    with open(f"{place.jobs}/a.json", "w") as it:
        json.dump(text, it)
    keeper = place.start()
    place.running("a")
    wait_for(lambda: os.path.exists(f"{place.folder}/minds"), "the job minds its signal")
    os.kill(place.launchers()[0], signal.SIGKILL)
    keeper.wait(MOST)
    check(open(f"{place.folder}/ends").read() == "TERM\n", f"it got no TERM: {place.told()}")


@scene
def second_keeper(place):
    """A second jobd-run over the same folders is refused, and ends nothing."""
    place.define("a")
    place.start()
    child = place.running("a")
    second = place.start()
    check(second.wait(MOST) == 1, f"status {second.returncode}")
    place.check_told("another jobd-run keeps it")
    check(place.child_of("a") == child, "the job was ended")


# ---- what is named, kept and told


def words_of_launcher(place):
    launcher = wait_for(place.launchers, f"a launcher: {place.told()}")[0]
    return open(f"/proc/{launcher}/cmdline").read().split("\0")


@scene
def local_zone(place):
    wanted = os.access("/etc/localtime", os.R_OK)
    place.define("a")
    keeper = place.start()
    place.running("a")
    words = words_of_launcher(place)
    check(("--zone-file" in words) == wanted, f"{words}")
    check(not wanted or words[words.index("--zone-file") + 1] == "/etc/localtime", f"{words}")
    keeper.terminate()
    keeper.wait(MOST)
    place.start(JOBD_OPTIONS="--zone UTC0")
    place.running("a")
    check("--zone-file" not in words_of_launcher(place), "two zones")


@scene
def journal_is_kept(place):
    place.define("a")
    keeper = place.start()
    place.running("a")
    journal = f"{place.state}/journal.jsonl"
    check(os.stat(journal).st_mode & 0o777 == 0o600, f"mode {oct(os.stat(journal).st_mode)}")
    os.kill(place.launchers()[0], signal.SIGKILL)
    keeper.wait(MOST)
    before = open(journal).read()
    check('"load"' in before, "the journal has no load")
    keeper = place.start()
    place.running("a")
    check(open(f"{journal}.1").read() == before, "the journal before is not kept")
    check(os.stat(f"{journal}.1").st_mode & 0o777 == 0o600, "mode of the journal before")
    keeper.terminate()
    keeper.wait(MOST)
    keeper = place.start(JOBD_JOURNAL=f"{place.folder}/own")
    place.running("a")
    check('"load"' in open(f"{place.folder}/own").read(), "the journal that was named has no load")
    keeper.terminate()
    keeper.wait(MOST)
    place.start(JOBD_JOURNAL="")
    place.running("a")
    check("--journal" not in words_of_launcher(place), "a journal, though none is wanted")


@scene
def many_journals_are_kept(place):
    place.define("a")
    journal = f"{place.state}/journal.jsonl"
    texts = []
    for _ in range(4):
        keeper = place.start(JOBD_JOURNALS="3")
        place.running("a")
        keeper.terminate()
        keeper.wait(MOST)
        texts.append(open(journal).read())
    names = sorted(os.path.basename(path) for path in glob.glob(f"{journal}*"))
    check(names == ["journal.jsonl", "journal.jsonl.1", "journal.jsonl.2", "journal.jsonl.3"], f"{names}")
    for number in (1, 2, 3):
        check(open(f"{journal}.{number}").read() == texts[3 - number], f"journal {number} is another")
    place.start(JOBD_JOURNALS="0")
    place.running("a")
    check(open(f"{journal}.1").read() == texts[2], "a journal was kept, though none is wanted")
    keeper = place.start(JOBD_JOURNALS="-1")
    check(keeper.wait(MOST) == 1, "a number that is none")
    place.check_told("JOBD_JOURNALS is -1, expected 0 to 99")


@scene
def output_is_the_supervisors(place):
    """A job that writes to /dev/stdout writes where the supervisor of the script reads."""
    place.define("a", "echo here; exec sleep 1000", StandardOutPath="/dev/stdout")
    output = f"{place.folder}/output"
    with open(output, "w") as it:
        place.start(output=it)
        place.running("a")
        wait_for(lambda: "here\n" in open(output).read(), "the job's word")
    check(open(output).read().startswith("jobd: ready\n"), f"{open(output).read()!r}")
    check(os.listdir(place.run) and "ready" not in os.listdir(place.run), f"{os.listdir(place.run)}")


@scene
def output_is_the_supervisors_terminal(place):
    place.define("a", "echo here; exec sleep 1000", StandardOutPath="/dev/stdout")
    ours, its = os.openpty()
    place.start(output=its)
    os.close(its)
    text = b""
    end = time.time() + MOST
    while b"here" not in text and time.time() < end:
        if select.select([ours], [], [], 1)[0]:
            text += os.read(ours, 4096)
    check(b"here" in text, f"{text!r}; told: {place.told()}")
    place.running("a")
    os.close(ours)


@scene
def output_by_a_pipe_is_refused_and_told(place):
    """An open of a pipe may wait, so a definition can't name one; the recipe of docs/OPERATING.md writes into it all the same."""
    place.define("a", "echo here; exec sleep 1000", StandardOutPath="/dev/stdout")
    ours, its = os.pipe()
    place.start(output=its)
    os.close(its)
    wait_for(lambda: "a: run 1: cannot" in place.told() and "FIFO" in place.told(), f"that it is refused: {place.told()}")
    os.close(ours)


@scene
def ended_launcher_is_told(place):
    """A launcher that ends before it answers is told with its status, and nothing is loaded by another."""
    place.define("a")
    keeper = place.start(JOBD_OPTIONS="--zone nonsense")
    check(keeper.wait(MOST) == 7, f"status {keeper.returncode}: {place.told()}")
    place.check_told("the launcher exited with status 7 before it answered")


@scene
def other_launcher_is_left_alone(place):
    place.define("a")
    os.mkdir(place.run, 0o700)
    os.mkdir(f"{place.folder}/spool", 0o700)
    words = ["serve", "--socket", f"{place.run}/jobd.sock", "--store", f"{place.folder}/other.db", "--spool", f"{place.folder}/spool"]
    other = subprocess.Popen([f"{options.programs}/jobd", *words], stdin=subprocess.DEVNULL, stdout=subprocess.DEVNULL)
    try:
        wait_for(lambda: place.control("list")[0] == 0, "the other launcher")
        keeper = place.start()
        check(keeper.wait(MOST) == 1, f"status {keeper.returncode}: {place.told()}")
        place.check_told("another launcher answers there")
        check(place.control("list")[1] == "PID\tStatus\tLabel\n", "a job was loaded into the other launcher")
    finally:
        place.control("shutdown")
        other.wait(MOST)


def stand_in(place, name, line):
    """A program of this name, which comes first on the PATH."""
    folder = f"{place.folder}/bin"
    os.makedirs(folder, exist_ok=True)
    with open(f"{folder}/{name}", "w") as it:
        it.write(f"#!/bin/sh\n{line}\n")
    os.chmod(f"{folder}/{name}", 0o755)
    return f"{folder}:{os.environ['PATH']}"


@scene
def systemd_is_told(place):
    """With a stand-in for systemd-notify: after the loads, with their number; jobs get no variable of it."""
    path = stand_in(place, "systemd-notify", f'echo "$NOTIFY_SOCKET $*" >>{place.folder}/notified')
    place.define("a", f"env >{place.folder}/variables; exec sleep 1000")
    with open(f"{place.jobs}/b.json", "w") as it:
        it.write('{"Label":"b"}')
    keeper = place.start(PATH=path, NOTIFY_SOCKET="@here", WATCHDOG_USEC="1000000", JOURNAL_STREAM="1:2")
    place.running("a")
    notified = f"{place.folder}/notified"
    wait_for(lambda: os.path.exists(notified) and open(notified).read().count("WATCHDOG=1") >= 3, "three signs of life")
    rows = open(notified).read().splitlines()
    check(rows[0] == "@here --ready --status=1 jobs loaded, 1 not", f"{rows[0]}")
    check(set(rows[1:]) == {"@here WATCHDOG=1"}, f"{rows}")
    place.check_told("<6>jobd-run: 1 jobs loaded, 1 not\n")
    place.check_told("<6>jobd-run: the watchdog is on: the launcher is asked each 0.500 s")
    place.check_told(f"<4>jobd-run: {place.jobs}/b.json: not loaded: bad definition: Missing ProgramArguments\n")
    wait_for(lambda: os.path.exists(f"{place.folder}/variables"), "the job's variables")
    time.sleep(0.2)
    names = {row.split("=")[0] for row in open(f"{place.folder}/variables")}
    check("JOBD_MARK" in names and not names & {"NOTIFY_SOCKET", "WATCHDOG_USEC", "WATCHDOG_PID"}, f"variables of a job: {sorted(names)}")
    # A launcher that does not answer gets no sign of life.
    launcher = place.launchers()[0]
    os.kill(launcher, signal.SIGSTOP)
    time.sleep(2)
    before = open(notified).read().count("WATCHDOG=1")
    time.sleep(2)
    check(open(notified).read().count("WATCHDOG=1") == before, "a stopped launcher lives")
    os.kill(launcher, signal.SIGCONT)
    wait_for(lambda: open(notified).read().count("WATCHDOG=1") > before, "a sign of life again")
    keeper.terminate()
    check(keeper.wait(MOST) == 0, f"status {keeper.returncode}: {place.told()}")
    place.check_nothing_left()


@scene
def jobs_have_what_a_login_has_and_nothing_of_systemds(place):
    place.define("a", f"env >{place.folder}/variables; exec sleep 1000")
    path = stand_in(place, "systemd-notify", ":")
    theirs = {
        "NOTIFY_SOCKET": "@here", "JOURNAL_STREAM": "8:1", "INVOCATION_ID": "0123", "SYSTEMD_EXEC_PID": "1", "STATE_DIRECTORY": "/x", "RUNTIME_DIRECTORY": "/x",
        "CACHE_DIRECTORY": "/x", "LOGS_DIRECTORY": "/x", "CONFIGURATION_DIRECTORY": "/x", "CREDENTIALS_DIRECTORY": "/x", "LISTEN_FDS": "1", "LISTEN_PID": "1",
        "LISTEN_FDNAMES": "x", "MANAGERPID": "1", "MAINPID": "1", "MEMORY_PRESSURE_WATCH": "/x", "MEMORY_PRESSURE_WRITE": "x", "FDSTORE": "1",
    }
    for name in ("HOME", "USER", "LOGNAME", "SHELL"):
        os.environ.pop(name, None)
    place.start(PATH=path, **theirs)
    place.running("a")
    text = wait_for(lambda: os.path.exists(f"{place.folder}/variables") and open(f"{place.folder}/variables").read(), "the job's variables")
    time.sleep(0.2)
    text = open(f"{place.folder}/variables").read()
    found = dict(row.partition("=")[::2] for row in text.splitlines())
    entry = pwd.getpwuid(os.getuid())
    wanted = {"HOME": entry.pw_dir, "USER": entry.pw_name, "LOGNAME": entry.pw_name, "SHELL": entry.pw_shell}
    check({name: found.get(name) for name in wanted} == wanted, f"{text}")
    check(not theirs.keys() & found.keys(), f"systemd's own: {sorted(theirs.keys() & found.keys())}")
    for launcher in place.launchers():
        words = open(f"/proc/{launcher}/environ", "rb").read().decode().split("\0")
        check(not theirs.keys() & {word.split("=")[0] for word in words}, "the launcher has systemd's own")


@scene
def variables_that_somebody_set_stay(place):
    place.define("a", f"env >{place.folder}/variables; exec sleep 1000")
    place.start(HOME="/nonexistent", SHELL="/bin/own", USER="own", LOGNAME="own2")
    place.running("a")
    wait_for(lambda: os.path.exists(f"{place.folder}/variables") and "HOME=" in open(f"{place.folder}/variables").read(), "the job's variables")
    time.sleep(0.2)
    rows = open(f"{place.folder}/variables").read().splitlines()
    for row in ("HOME=/nonexistent", "SHELL=/bin/own", "USER=own", "LOGNAME=own2"):
        check(row in rows, f"no {row} in {rows}")


@scene
def failed_runs_are_told(place):
    """JOBD_LOG=failures: a line for each run that failed, and none for one that was to be ended; with levels under systemd."""
    place.define("bad", "exit 7", KeepAlive=False, RunAtLoad=True, StandardErrorPath=f"{place.folder}/errors")
    place.define("signalled", "kill -USR1 $$", KeepAlive=False, RunAtLoad=True)
    place.define("good", "exit 0", KeepAlive=False, RunAtLoad=True)
    place.define("missing", KeepAlive=False, RunAtLoad=True, ProgramArguments=["/no/such/program"])
    place.define("long")
    keeper = place.start(JOBD_LOG="failures", JOURNAL_STREAM="8:1")
    place.running("long")
    ends = [
        rf"<4>jobd: bad: run 1 ended with code 7 after \d+\.\d s(; its errors are in {place.folder}/errors)?",
        r"<4>jobd: signalled: run 1 ended by signal 10 after \d+\.\d s(; its errors went nowhere \(StandardErrorPath\))?",
        r"<4>jobd: missing: run 1: cannot start /no/such/program: No such file or directory \(os error 2\)",
    ]
    for form in ends:
        wait_for(lambda: re.search(f"^{form}$", place.told(), re.M), f"a line {form}: {place.told()}")
    check("; its errors" in place.told(), f"where errors go: {place.told()}")
    place.control("stop", "long")
    wait_for(lambda: place.child_of("long"), "it runs again")
    keeper.terminate()
    check(keeper.wait(MOST) == 0, f"status {keeper.returncode}")
    rows = place.told().splitlines()
    strange = [row for row in rows if not row.startswith(("<4>", "<6>")) and row != "jobd: ready" and "not proved" not in row]
    check(not strange, f"without a level: {strange}")
    more = [row for row in rows if re.search(r"started as|TERM to|good: run|long: run", row)]
    check(not more, f"told, though it is no failure: {more}")
    place.check_nothing_left()


@scene
def all_runs_are_told_with_their_level(place):
    place.define("bad", "exit 7", KeepAlive=False, RunAtLoad=True)
    place.start(JOBD_LOG="runs", JOURNAL_STREAM="8:1")
    wait_for(lambda: "<6>jobd: bad: run 1 ended with code 7" in place.told(), f"the end: {place.told()}")
    check("<6>jobd: bad: run 1 started as " in place.told(), f"the start: {place.told()}")


@scene
def status_follows(place):
    """What systemd shows follows loads and failures within a second or two; at rest nothing runs for it."""
    notified = f"{place.folder}/notified"
    path = stand_in(place, "systemd-notify", f'echo "$*" >>{notified}')
    stand_in(place, "none", ":")
    place.define("a")
    place.define("b", f"test ! -e {place.folder}/fail", KeepAlive=False)
    place.define("c", KeepAlive=False)
    os.rename(f"{place.jobs}/c.json", f"{place.folder}/c.json")
    keeper = place.start(PATH=path, NOTIFY_SOCKET="@here")
    place.running("a")
    last = lambda: os.path.exists(notified) and [row for row in open(notified).read().splitlines() if "status" in row][-1:]
    wait_for(lambda: last() == ["--ready --status=2 jobs loaded, 0 not"], f"that all are loaded: {last()}")
    time.sleep(2)
    check(place.control("load", f"{place.folder}/c.json")[0] == 0, "not loaded")
    wait_for(lambda: last() == ["--status=3 jobs loaded, 0 not"], f"that a further one is loaded: {last()}", 10)
    open(f"{place.folder}/fail", "w").close()
    place.control("start", "b")
    wait_for(lambda: last() == ["--status=3 jobs loaded, 0 not, 1 failing"], f"that one fails: {last()}", 10)
    # At rest: none of the helpers of jobd-run was given the processor in three seconds.
    time.sleep(2)
    helpers = [pid for pid in children_of(keeper.pid) if pid not in place.launchers()]
    check(helpers, "no reader")
    before = [switches(pid) for pid in helpers]
    time.sleep(3)
    check([switches(pid) for pid in helpers] == before, f"at rest something runs: {before} {[switches(pid) for pid in helpers]}")
    keeper.terminate()
    check(keeper.wait(MOST) == 0, "status")
    place.check_nothing_left()
    wait_for(lambda: all(map(gone, helpers)), "the readers end")


def children_of(pid):
    found = []
    for path in glob.glob("/proc/[0-9]*/stat"):
        try:
            if int(open(path).read().rpartition(")")[2].split()[1]) == pid:
                found.append(int(path.split("/")[2]))
        except OSError:
            pass
    return found


def switches(pid):
    return [row for row in open(f"/proc/{pid}/status") if "ctxt_switches" in row]


@scene
def stop_takes_as_long_as_a_job_has(place):
    """systemd is told that it takes longer, and whom the stop waits for, as long as a job has its time."""
    notified = f"{place.folder}/notified"
    path = stand_in(place, "systemd-notify", f'echo "$*" >>{notified}')
    place.define("slow", f"trap 'sleep 9; echo in order >>{place.folder}/ends; exit' TERM; : >{place.folder}/minds; while :; do sleep 0.1; done", ExitTimeOut=600)
    keeper = place.start(PATH=path, NOTIFY_SOCKET="@here")
    place.running("slow")
    wait_for(lambda: os.path.exists(f"{place.folder}/minds"), "the job minds its signal")
    wait_for(lambda: "jobs loaded" in place.told(), "that all are loaded")
    time.sleep(1.5)
    keeper.terminate()
    check(keeper.wait(MOST) == 0, f"status {keeper.returncode}")
    rows = open(notified).read().splitlines()
    check(rows.count("EXTEND_TIMEOUT_USEC=30000000") >= 3, f"{rows}")
    check("--status=waits for slow" in rows, f"{rows}")
    place.check_told("jobd-run: waits for slow")
    check(open(f"{place.folder}/ends").read() == "in order\n", "the job was not ended in order")
    place.check_nothing_left()


@scene
def wait_of_the_supervisor_that_is_too_short_is_told(place):
    place.define("a", ExitTimeOut=600)
    keeper = place.start(JOBD_STOP_WAIT="90")
    place.running("a")
    wait_for(lambda: "jobs loaded" in place.told(), "that all are loaded")
    place.check_told("a job may take 600 seconds to end (ExitTimeOut), and the supervisor gives KILL 90 seconds after TERM: 511 too early (JOBD_STOP_WAIT)")
    keeper.terminate()
    keeper.wait(MOST)
    place.define("a", ExitTimeOut=0)
    keeper = place.start(JOBD_STOP_WAIT="90")
    place.running("a")
    wait_for(lambda: "a job has no bound on its end (ExitTimeOut 0)" in place.told(), f"that it has no bound: {place.told()}")
    keeper.terminate()
    keeper.wait(MOST)
    keeper = place.start(JOBD_STOP_WAIT="soon")
    check(keeper.wait(MOST) == 1, "a number that is none")
    place.check_told("JOBD_STOP_WAIT is soon, expected a number of seconds")


@scene
def watchdog_of_another_process_is_left(place):
    path = stand_in(place, "systemd-notify", f'echo "$*" >>{place.folder}/notified')
    place.define("a")
    place.start(PATH=path, NOTIFY_SOCKET="@here", WATCHDOG_USEC="100000", WATCHDOG_PID="1")
    place.running("a")
    time.sleep(1)
    check(open(f"{place.folder}/notified").read() == "--ready --status=1 jobs loaded, 0 not\n", open(f"{place.folder}/notified").read())


@scene
def many_definitions(place):
    """In one call, in byte order; each text belongs to its file. What a load would refuse is not asked for."""
    for number in range(250):
        place.define(f"j{number:03}", KeepAlive=False, **({"Nice": 1} if number % 100 == 7 else {}))
    for number in (3, 150, 249):
        with open(f"{place.jobs}/j{number:03}.json", "w") as it:
            it.write('{"Label":"x%d"}' % number)
    os.unlink(f"{place.jobs}/j120.json")
    os.symlink("nowhere", f"{place.jobs}/j120.json")
    # A stand-in that writes each call down and makes it.
    stand_in(place, "jobctl", f'echo "$*" >>{place.folder}/calls; exec {options.programs}/jobctl "$@"')
    os.symlink(f"{options.programs}/jobd", f"{place.folder}/bin/jobd")
    place.start(JOBD_PROGRAMS=f"{place.folder}/bin")
    wait_for(lambda: "jobs loaded" in place.told(), f"that all are loaded: {place.told()}")
    place.check_told("jobd-run: 246 jobs loaded, 4 not\n")
    calls = [row for row in open(f"{place.folder}/calls") if " load " in row or " apply " in row]
    check(len(calls) == 1, f"{len(calls)} calls for 250 definitions")
    rows = [row.split(f"{place.jobs}/")[-1] for row in place.told().splitlines() if f"{place.jobs}/" in row]
    bad = "not loaded: bad definition: Missing ProgramArguments"
    named = "not acted on: Nice"
    rest = [row for row in rows if not row.startswith("j120")]
    # Notes and refusals of one hundred come apart, each in byte order.
    wanted = [f"j{number:03}.json: {text}" for text, numbers in ((bad, (3, 150, 249)), (named, (7, 107, 207))) for number in numbers]
    check(sorted(rest) == sorted(wanted), f"{rows}")
    check([row for row in rest if bad in row] == sorted(row for row in rest if bad in row), f"{rows}")
    check(sum(row.startswith("j120.json: not loaded: ") for row in rows) == 1, f"{rows}")
    journal = [json.loads(row) for row in open(f"{place.state}/journal.jsonl").read().splitlines()]
    loads = [json.loads(row["def"])["Label"] for row in journal if row.get("ev") == "load"]
    check(loads == [f"j{number:03}" for number in range(250) if number not in (3, 120, 150, 249)], "not in byte order")


@scene
def definitions_of_others_are_left_out(place):
    for label in "abcd":
        place.define(label)
    os.chmod(f"{place.jobs}/a.json", 0o664)
    os.chmod(f"{place.jobs}/b.json", 0o646)
    os.rename(f"{place.jobs}/c.json", f"{place.folder}/c")
    os.chmod(f"{place.folder}/c", 0o666)
    os.symlink(f"{place.folder}/c", f"{place.jobs}/c.json")
    left_out = "abc"
    if os.getuid() == 0:
        place.define("e")
        os.chown(f"{place.jobs}/e.json", 65534, 0)
        left_out = "abce"
    place.start()
    place.running("d")
    wait_for(lambda: "jobs loaded" in place.told(), "that all are loaded")
    for label in left_out:
        place.check_told(f"{place.jobs}/{label}.json: not loaded: another user owns it or may write to it")
    place.check_told(f"1 jobs loaded, {len(left_out)} not")


@scene
def folder_of_definitions_of_others_is_left_out(place):
    place.define("a")
    os.chmod(place.jobs, 0o777)
    keeper = place.start()
    wait_for(lambda: "jobs loaded" in place.told(), "that it is told")
    place.check_told(f"{place.jobs}: another user owns this folder or may write to it, so no job is loaded")
    place.check_told("0 jobs loaded, 0 not")
    keeper.terminate()
    check(keeper.wait(MOST) == 0, "status")


@scene
def folder_that_cannot_be_read_is_told(place):
    """Root reads every folder, so root tries it as nobody."""
    place.define("a")
    os.chmod(place.jobs, 0)
    first = None
    if os.getuid() == 0:
        os.chmod(place.folder, 0o711)
        open(place.log, "a").close()
        for folder in (place.run, place.state):
            os.mkdir(folder, 0o700)
            os.chown(folder, 65534, 65534)

        def first():
            os.setgroups([])
            os.setgid(65534)
            os.setuid(65534)

        if not os.path.realpath(options.programs).startswith(("/usr/", "/tmp/")):
            shutil.copytree(options.programs, f"{place.folder}/programs")
            os.chmod(f"{place.folder}/programs", 0o755)
    more = {"JOBD_PROGRAMS": f"{place.folder}/programs"} if os.path.isdir(f"{place.folder}/programs") else {}
    keeper = place.start(first=first, **more)
    wait_for(lambda: "jobs loaded" in place.told(), f"that it is told: {place.told()}")
    place.check_told(f"{place.jobs}: this folder can't be read, so no job is loaded")
    keeper.terminate()
    check(keeper.wait(MOST) == 0, "status")


@scene
def no_folder_is_told(place):
    os.rmdir(place.jobs)
    keeper = place.start()
    wait_for(lambda: f"{place.jobs}: no such folder" in place.told(), "that the folder is not there")
    keeper.terminate()
    check(keeper.wait(MOST) == 0, "status")


@scene
def empty_folder_is_told(place):
    open(f"{place.jobs}/README", "w").close()
    place.start()
    wait_for(lambda: f"{place.jobs}: no definition in this folder" in place.told(), "that the folder is empty")


@scene
def bad_definitions_are_told(place):
    for name, text in (("b.json", '{"Label":"b"}'), ("c d.plist", "<plist/>")):
        with open(f"{place.jobs}/{name}", "w") as it:
            it.write(text)
    os.symlink("nowhere", f"{place.jobs}/e.json")
    os.mkfifo(f"{place.folder}/fifo")
    os.symlink(f"{place.folder}/fifo", f"{place.jobs}/f.json")
    os.mkdir(f"{place.jobs}/g.json")
    place.define("z", Nice=1)
    place.start()
    place.running("z")
    wait_for(lambda: "z.json" in place.told(), "the key that is not acted on")
    for row in (
        f"{place.jobs}/b.json: not loaded: bad definition: Missing ProgramArguments",
        f"{place.jobs}/c d.plist: not loaded: ",
        f"{place.jobs}/f.json: not loaded: ",
        f"{place.jobs}/e.json: not loaded: ",
        f"{place.jobs}/z.json: not acted on: Nice",
    ):
        place.check_told(row)


# ---- what the boot could not load, and what passed while no launcher ran


def scope(place, *words):
    """What `jobscope` answers by the status file, or by the journals that the words name."""
    source = [] if "--journal" in words else ["--status-file", f"{place.run}/status.jsonl"]
    run = subprocess.run([f"{options.programs}/jobscope", *words, *source], capture_output=True, text=True, timeout=60, stdin=subprocess.DEVNULL)
    return run.returncode, run.stdout, run.stderr


@scene
def what_was_not_loaded_is_seen(place):
    """By status, why and metrics, until it is loaded. A further file of a label that is loaded stays named."""
    place.define("good")
    shutil.copy(f"{place.jobs}/good.json", f"{place.jobs}/twice.json")
    bad = f"{place.jobs}/bad.json"
    open(bad, "w").write('{"Label": "of-bad"}')
    place.define("shared")
    os.chmod(f"{place.jobs}/shared.json", 0o666)
    open(f"{place.jobs}/a \"b\\.json", "w").write("{")
    place.start()
    place.running("good")
    wait_for(lambda: "jobs loaded" in place.told() and scope(place, "metrics")[0] == 0, f"the loads: {place.told()}")
    check("jobd_definitions_not_loaded 4\n" in scope(place, "metrics")[1], f"metrics: {scope(place, 'metrics')}")
    row = f"{bad}: not loaded at the boot: bad definition: Missing ProgramArguments\n"
    for words in (["why", "--failing"], ["why"], ["status"], ["why", "bad"], ["why", bad], ["why", "of-bad"]):
        code, text, told = scope(place, *words)
        check(row in text and code == (2 if "--failing" in words else 0) and not told, f"{words}: {code} {text} {told}")
    code, text, _ = scope(place, "why", "--failing")
    for name, why in (("shared", "another user owns it or may write to it"), ("twice", "good.json is used; twice.json is ignored")):
        check(f"{place.jobs}/{name}.json: not loaded at the boot: {why}\n" in text, f"{name}: {text}")
    check(re.search(rf'^{place.jobs}/a "b\\\.json: not loaded at the boot: line 1, column 2: .', text, re.M), f"a name with marks: {text}")
    rows = [json.loads(it) for it in scope(place, "why", "--failing", "--json")[1].splitlines()]
    own = [it for it in rows if it.get("file") == bad]
    check(own and own[0]["state"] == "not_loaded" and own[0]["file_label"] == "of-bad", f"objects: {rows}")
    check(scope(place, "why", "nobody")[0] == 65, "a word that means nothing")
    open(bad, "w").write('{"Label": "of-bad", "ProgramArguments": ["/bin/sleep", "1000"]}')
    check(place.control("load", bad)[0] == 0, "it is not loaded")
    wait_for(lambda: "jobd_definitions_not_loaded 3\n" in scope(place, "metrics")[1], f"that it is loaded: {scope(place, 'metrics')}")
    check(bad not in scope(place, "why", "--failing")[1], "it is named though it is loaded")


def over_a_minute(place, **more):
    """A launcher is asked for a shutdown before a minute of a job's calendar, and one job takes until after it; then it is started anew. The minute's words."""
    at = (int(time.time()) + 12) // 60 * 60 + 60
    time.sleep(max(0, at - 50 - time.time()) if at - time.time() > 70 else 0)
    minute = time.localtime(at)
    place.define("nightly", f"echo ran >>{place.folder}/ran", KeepAlive=False, StartCalendarInterval={"Hour": minute.tm_hour, "Minute": minute.tm_min})
    place.define("slow", f"trap 'while [ $(date +%s) -lt {at + 2} ]; do sleep 0.2; done; exit' TERM; : >{place.folder}/minds; while :; do sleep 0.1; done", ExitTimeOut=120)
    keeper = place.start()
    place.running("slow")
    wait_for(lambda: os.path.exists(f"{place.folder}/minds") and "jobs loaded" in place.told(), "the loads")
    check(time.time() < at - 2, "this machine is too slow for this scene")
    while time.time() < at - 5:
        time.sleep(0.1)
    keeper.terminate()
    check(keeper.wait(MOST) == 0 and time.time() >= at, f"status {keeper.returncode}")
    check(not os.path.exists(f"{place.folder}/ran"), "it ran")
    place.start(**more)
    wait_for(lambda: place.told().count("jobs loaded") == 2, "the second loads")
    return time.strftime("%H:%M", minute)


@scene
def journal_on_an_overlay_is_a_living_launchers(place):
    """Layers of an overlayfs on two file systems: a file tells another device than /proc/locks. It needs root."""
    if os.getuid() != 0:
        return
    for name in ("low", "high", "state"):
        os.mkdir(f"{place.folder}/{name}")
    subprocess.run(["mount", "-t", "tmpfs", "tmpfs", f"{place.folder}/high"], check=True)
    for name in ("up", "work"):
        os.mkdir(f"{place.folder}/high/{name}")
    layers = f"lowerdir={place.folder}/low,upperdir={place.folder}/high/up,workdir={place.folder}/high/work"
    subprocess.run(["mount", "-t", "overlay", "overlay", "-o", layers, place.state], check=True)
    try:
        os.chmod(place.state, 0o700)
        place.define("a")
        keeper = place.start()
        place.running("a")
        told = scope(place, "why", "--journal", f"{place.state}/journal.jsonl")[1]
        check("The launcher that writes this journal lives" in told, f"a launcher that lives: {told}")
        keeper.terminate()
        check(keeper.wait(MOST) == 0, "status")
        check("No launcher writes this journal now" in scope(place, "why", "--journal", f"{place.state}/journal.jsonl")[1], "one that ended")
    finally:
        subprocess.run(["umount", "-l", place.state, f"{place.folder}/high"], check=True)


@scene
def minute_that_passed_while_nobody_ran_is_seen(place):
    """Also if the launcher before was still ending its jobs then; until the job is started."""
    minute = over_a_minute(place)
    row = re.compile(rf"nightly: (\S+ )?{minute}(:00)? passed while no launcher ran\n")
    wait_for(lambda: row.search(scope(place, "why", "--failing")[1]), f"that it is named: {scope(place, 'why', '--failing')}", 20)
    check(scope(place, "why", "--failing")[0] == 2, "status")
    check(re.search(rf"{minute}(:00)? passed while no launcher ran", scope(place, "why", "nightly")[1]), f"why: {scope(place, 'why', 'nightly')}")
    own = [json.loads(it) for it in scope(place, "why", "--failing", "--json")[1].splitlines()]
    check([it["fault"] for it in own if it.get("label") == "nightly"] == ["minute_passed"], f"objects: {own}")
    journals = ["--journal", f"{place.state}/journal.jsonl.1", "--journal", f"{place.state}/journal.jsonl"]
    check(re.search(rf"nightly: .*{minute}(:00)? passed while no launcher ran", scope(place, "log", *journals)[1]), f"log: {scope(place, 'log', *journals)}")
    check(row.search(scope(place, "why", "--failing", *journals)[1]), f"by the journals: {scope(place, 'why', '--failing', *journals)}")
    wait_for(lambda: "nightly: a minute of its calendar passed while no launcher ran" in place.told(), f"that it is told: {place.told()}")
    check(not os.path.exists(f"{place.folder}/ran"), "it was started, which nobody asked")
    check(place.control("start", "nightly")[0] == 0, "no start")
    wait_for(lambda: not row.search(scope(place, "why", "--failing")[1]), "that it is made up for")
    check(not row.search(scope(place, "why", "--failing", *journals)[1]), "by the journals, though it is made up for")


@scene
def minute_that_passed_is_made_up_for(place):
    """JOBD_MISSED=start: once."""
    over_a_minute(place, JOBD_MISSED="start")
    wait_for(lambda: os.path.exists(f"{place.folder}/ran"), f"that it runs: {place.told()}", 30)
    made = "nightly: a minute of its calendar passed while no launcher ran: started"
    wait_for(lambda: made in place.told(), f"that it is told: {place.told()}")
    time.sleep(2)
    check(open(f"{place.folder}/ran").read() == "ran\n", "it ran more than once")


@scene
def jobs_hear_every_signal(place):
    place.define("a")
    place.start()
    child = place.running("a")
    row = [row for row in open(f"/proc/{child}/status") if row.startswith("SigIgn")][0]
    check(int(row.split()[1], 16) & 0b110 == 0, f"INT or QUIT is ignored: {row}")


@scene
def folder_of_others_is_refused(place):
    os.mkdir(place.run)
    os.chmod(place.run, 0o777)
    keeper = place.start()
    check(keeper.wait(MOST) == 1, f"status {keeper.returncode}")
    place.check_told("another user owns it or may write to it")


# ---- under runit


class Service:
    def __init__(self, place):
        self.place = place
        self.folder = f"{place.folder}/sv"
        os.mkdir(self.folder)
        with open(f"{self.folder}/run", "w") as it:
            it.write(f"#!/bin/sh\nexec 2>>{place.log}\nexec {options.shell} {SCRIPT}\n")
        os.chmod(f"{self.folder}/run", 0o755)
        self.runsv = subprocess.Popen(["runsv", self.folder], env=place.environment(), stdin=subprocess.DEVNULL)
        wait_for(lambda: os.path.exists(f"{self.folder}/supervise/ok"), "runsv is ready")

    def sv(self, *words):
        return subprocess.run(["sv", *words, self.folder], capture_output=True, text=True).stdout

    def script(self):
        try:
            return int(open(f"{self.folder}/supervise/pid").read() or 0)
        except (OSError, ValueError):
            return 0

    def end(self):
        self.sv("-w", "60", "force-shutdown")
        self.runsv.terminate()
        self.runsv.wait(MOST)


def served(place, attack):
    """Attacks the service three times: never two of a job, and a new one after each within the time of a restart."""
    place.define("a")
    service = Service(place)
    longest = 0
    try:
        for _ in range(3):
            child, launcher = place.running("a"), place.launchers()[0]
            begin = time.time()
            attack(service, service.script(), launcher)
            wait_for(lambda: gone(launcher), "the launcher ends")
            wait_for(lambda: place.child_of("a") not in (None, child), f"a new run: {place.told()}")
            longest = max(longest, time.time() - begin)
            check(len(place.launchers()) == 1, f"launchers: {place.launchers()}")
            check(gone(child), f"two of a job after {time.time() - begin} s")
            place.check_once()
        service.sv("-w", "60", "stop")
        check(service.script() == 0, "not down")
        place.check_nothing_left()
        print(f"jobd_run: a new run came within {longest:.1f} s")
    finally:
        service.end()


def kill(pid, number=signal.SIGKILL):
    try:
        os.kill(pid, number)
    except ProcessLookupError:
        pass


@scene
def runsv_killed_script(place):
    served(place, lambda service, script, launcher: kill(script))


@scene
def runsv_killed_launcher(place):
    served(place, lambda service, script, launcher: kill(launcher))


@scene
def runsv_killed_script_then_launcher(place):
    served(place, lambda service, script, launcher: (kill(script), kill(launcher)))


@scene
def runsv_killed_launcher_then_script(place):
    served(place, lambda service, script, launcher: (kill(launcher), kill(script)))


@scene
def runsv_hup(place):
    """The folder is applied, and no job is ended."""
    place.define("a")
    service = Service(place)
    try:
        child, script = place.running("a"), service.script()
        wait_for(lambda: "jobs loaded" in place.told(), "the loads")
        place.define("b")
        service.sv("hup")
        place.running("b")
        check(place.child_of("a") == child and service.script() == script, f"HUP ended something: {place.told()}")
        service.sv("-w", "60", "stop")
        place.check_nothing_left()
    finally:
        service.end()


@scene
def runsv_quit(place):
    served(place, lambda service, script, launcher: service.sv("quit"))


@scene
def runsv_kill(place):
    served(place, lambda service, script, launcher: service.sv("kill"))


def main():
    global options
    parser = argparse.ArgumentParser()
    parser.add_argument("--programs", default=f"{HERE}/build")
    parser.add_argument("--shell", default="sh")
    parser.add_argument("scene", nargs="*")
    options = parser.parse_args()
    options.programs = os.path.abspath(options.programs)
    for program in ("jobd", "jobctl"):
        if not os.access(f"{options.programs}/{program}", os.X_OK):
            sys.exit(f"jobd_run: no program at {options.programs}/{program} (make build)")
    # What is ignored here would be ignored by the script too.
    for number in (signal.SIGHUP, signal.SIGQUIT, signal.SIGTERM):
        signal.signal(number, signal.SIG_DFL)
    signal.signal(signal.SIGINT, signal.default_int_handler)
    chosen = options.scene or list(scenes)
    failed = passed = 0
    for name in chosen:
        if name.startswith("runsv") and shutil.which("runsv") is None:
            print(f"jobd_run: {name}: runsv is not here, so it was not tried")
            continue
        folder = tempfile.mkdtemp()
        place = Place(folder)
        begin = time.time()
        try:
            scenes[name](place)
            passed += 1
            print(f"jobd_run: {name}: passed in {time.time() - begin:.1f} s", flush=True)
        except (Fault, subprocess.TimeoutExpired) as fault:
            failed += 1
            print(f"jobd_run: {name}: {fault}", file=sys.stderr, flush=True)
        finally:
            place.clear()
            shutil.rmtree(folder, ignore_errors=True)
    print(f"jobd_run: {passed} scenes passed, {failed} failed, with {options.shell}")
    sys.exit(1 if failed else 0)


main()
