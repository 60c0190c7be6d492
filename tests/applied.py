#!/usr/bin/env python3
"""Kills `jobctl apply` by signal 9 in the midst, again and again, and looks whether the next one comes to the same end.

    tests/applied.py [TRIES] [--seed S] [--jobd PROGRAM] [--jobctl PROGRAM]

TRIES is 200; the programs are build/jobd and build/jobctl. It is run by hand. One launcher runs beside a folder of twelve definitions: jobs that are kept alive,
some of which take a while to end, jobs of the calendar, and one whose run goes on and must never be ended. For each try some files are changed, some go, some come,
and some get another label. `jobctl apply --prune` is killed after a time of its own, up to that of the longest one so far. Then it is run to its end, and:

    loaded      the labels are those of the files, and the digests in the status file are those of the definitions
    runs        each job that is kept alive has a run, none is still being removed, and the run that goes on is the one of before
    once more   a further apply says that all is the same

Prints the first difference and ends with 1 then. The last line counts.
"""
import argparse
import os
import random
import subprocess
import sys
import tempfile
import time
import types

HERE = os.path.dirname(os.path.abspath(__file__))
sys.dont_write_bytecode = True
sys.path.insert(0, os.path.join(HERE, "scenes"))
from apply import apply, apply_words, begin, digest, kept, loaded, nightly, pid_of, put, running, state_of  # noqa: E402
from harness import Fault, Stage, adopt_orphans, check, end_children, shell_job, wait_for  # noqa: E402
from status import told  # noqa: E402


def slow(label, body):
    """A job that takes a fifth of a second to end."""
    script = f": {body}; trap 'sleep 0.2; exit' TERM; while :; do sleep 0.05; done"
    return shell_job(label, script, KeepAlive=True, ThrottleInterval=0, ExitTimeOut=30)


def definition(rng, label, number):
    kind = label.partition("-")[0]
    if kind == "slow":
        return slow(label, f"n{number}")
    if kind == "night":
        return shell_job(label, f": n{number}", StartCalendarInterval={"Month": 1, "Day": 1, "Hour": 0, "Minute": rng.randrange(60)})
    return kept(label, f"n{number}")


class Folder:
    """The files by their names, each with its definition."""

    def __init__(self, stage):
        self.stage, self.files, self.count = stage, {}, 0

    def put(self, name, it):
        put(self.stage, name, it)
        self.files[name] = it

    def add(self, rng, number):
        self.count += 1
        label = f"{rng.choice(('web', 'slow', 'night'))}-{self.count}"
        self.put(f"{label}.json", definition(rng, label, number))

    def change(self, rng, number):
        """Some are changed, one goes, one comes, and one gets another label."""
        names = sorted(self.files)
        for name in rng.sample(names, 3):
            self.put(name, definition(rng, self.files[name]["Label"], number))
        gone = rng.choice(names)
        os.unlink(self.stage.at(f"jobs/{gone}"))
        del self.files[gone]
        self.add(rng, number)
        name = rng.choice(sorted(self.files))
        it = self.files[name]
        self.put(name, {**it, "Label": f"{it['Label'].partition('-')[0]}-moved{number}"})


def check_end(stage, launcher, folder, pid, what):
    """What is loaded is what the files say."""
    wanted = {it["Label"]: digest(it) for it in folder.files.values()}
    labels = [label for label in loaded(launcher) if label != "backup"]
    check(sorted(labels) == sorted(wanted), f"{what}: loaded are {sorted(labels)}, wanted {sorted(wanted)}")

    def are_the_same():
        both = told(stage.at("standing/status.jsonl"))
        return both and {label: job["definition"] for label, job in both[1].items() if label != "backup"} == wanted

    wait_for(are_the_same, lambda: f"{what}: the status file does not come to have {wanted}: {told(stage.at('standing/status.jsonl'))}")
    for label in wanted:
        check(state_of(launcher, label) != "removing", f"{what}: {label} is still being removed")
        if not label.startswith("night"):
            running(launcher, label)
    check(pid_of(launcher, "backup") == pid and os.path.exists(f"/proc/{pid}"), f"{what}: the run that goes on was ended")


def kill_one(stage, rng, longest):
    """Whether an apply was killed in its midst."""
    process = subprocess.Popen(apply_words(stage, ["--prune", "jobs"]), cwd=stage.folder, stdin=subprocess.DEVNULL, stdout=subprocess.DEVNULL, stderr=subprocess.DEVNULL)
    try:
        process.wait(timeout=rng.random() * longest)
        return False
    except subprocess.TimeoutExpired:
        process.kill()
        process.wait()
        return True


def try_all(stage, given, rng):
    launcher = begin(stage)
    folder = Folder(stage)
    put(stage, "backup.json", nightly(stage))
    for number in range(12):
        folder.add(rng, number)
    check(apply(stage).status == 0, "the first apply is not in effect")
    launcher.ask({"req": "start", "job": "backup"})
    pid = running(launcher, "backup")
    check_end(stage, launcher, folder, pid, "at first")
    longest, in_midst, done = 0.1, 0, 0
    for number in range(given.tries):
        folder.change(rng, number)
        # the file of the job whose run goes on changes too, and changes back
        put(stage, "backup.json", nightly(stage, ExitTimeOut=30 + number % 2))
        was_killed = kill_one(stage, rng, longest)
        in_midst += was_killed
        begun = time.monotonic()
        got = apply(stage, "--prune", "jobs")
        longest = min(5.0, max(longest, time.monotonic() - begun))
        check(got.status == 2, f"try {number}: {got}")
        check([row[1] for row in got.rows if row[0] == "running"] == ["backup"], f"try {number}: {got}")
        done += len(got.words()) - 1
        check_end(stage, launcher, folder, pid, f"try {number}")
        again = apply(stage, "--prune", "jobs")
        check(again.words() == [("running", "backup")], f"try {number}, once more: {again}")
    return in_midst, done


def main():
    words = argparse.ArgumentParser()
    words.add_argument("tries", nargs="?", type=int, default=200)
    words.add_argument("--seed", type=int, default=int(time.time()))
    words.add_argument("--jobd", default=f"{HERE}/../build/jobd")
    words.add_argument("--jobctl", default=f"{HERE}/../build/jobctl")
    given = words.parse_args()
    print(f"seed {given.seed}", flush=True)
    adopt_orphans()
    place = tempfile.mkdtemp(prefix="applied-")
    stage = Stage(types.SimpleNamespace(jobd=[os.path.abspath(given.jobd)], jobctl=[os.path.abspath(given.jobctl)]), place)
    try:
        in_midst, done = try_all(stage, given, random.Random(given.seed))
    except Fault as fault:
        print(f"applied: {fault}")
        sys.exit(1)
    finally:
        stage.clear()
        end_children()
    print(f"applied: {given.tries} tries, {in_midst} of them killed in the midst; {done} steps were left for the next one; each came to its end")


if __name__ == "__main__":
    main()
