#!/usr/bin/env python3
"""Proves a program of this tree and all that it stands on, as many crates side by side as there are processors, and keeps it.

    tools/build_all.py PROGRAM

It is `rt ci PROGRAM` without the wrong bodies and the warnings of contracts that no call can meet, which are the gate's. rt's own function is called,
which works on a copy. lanes.py finds the order and the number of jobs of each check. What the gate or an earlier build passed on this machine is not
proved again, and what this passes the gate does not prove again. RT_JOBS bounds the checks that run side by side. With a kit whose rt keeps nothing
(13b), the same is done by proofs_kept.py: what it proves is kept for the next build and for check_crate.py, and the gate proves it again.

A line is written as each crate is proved: how many of all are, and its name. What rt said stands in build/build.log; if something is not proved,
the end of it is written. The program is left in crates/PROGRAM/out/. The last line has the processor time of all, and the time by the clock.
"""
import contextlib
import io
import os
import re
import resource
import shutil
import sys
import time

sys.dont_write_bytecode = True
from kit import TOP, below, load_rt, rt_keeps
from lanes import Lanes, measured
from proofs_kept import Proofs


class Progress(io.StringIO):
    """Takes what rt says into the log, and shows a line for each crate that stands."""

    def __init__(self, log, shown, count):
        super().__init__()
        self.log, self.shown, self.count, self.done, self.line = log, shown, count, 0, ""

    def write(self, text):
        self.log.write(text)
        *lines, self.line = (self.line + text).split("\n")
        for line in lines:
            found = re.match(r"rt: ([a-z0-9_]+)( proved$| is kept: )", line)
            if found:
                self.done += 1
                kept = "" if found[2].startswith(" proved") else " (kept)"
                print(f"[{self.done}/{self.count}] {found[1]}{kept}", file=self.shown, flush=True)
        return len(text)

    def flush(self):
        self.log.flush()


def build_by_ours(program):
    """Builds the program by proofs_kept.py, and leaves it in crates/PROGRAM/out/."""
    proofs = Proofs()
    lacking = proofs.prove_all([program])
    for name in lacking:
        if os.path.isfile(f"build/{name}.log"):
            with open(f"build/{name}.log", encoding="utf-8", errors="replace") as log:
                print("".join(log.readlines()[-60:]), end="", file=sys.stderr)
    if lacking:
        return 1
    to = f"{TOP}/crates/{program}/out"
    os.makedirs(to, exist_ok=True)
    shutil.copyfile(f"{proofs.place(program)}/{program}", f"{to}/{program}")
    return 0


def lanes_of(rt, tasks):
    """The lanes for rt's tasks: the proof of each crate, and its tests, of which there are none here. A task is what it waits for, its lines, the
    memory that rt reckons with, and its call."""
    known = measured(f"{TOP}/bench/crate_seconds.csv")
    number = os.environ.get("RT_JOBS", "")
    seconds = {(crate, what): known.get(crate, 20 + tasks[crate, what][1] // 6) if what == "proof" else 0 for crate, what in tasks}
    # Checks were seen to take a third to a half of what rt reckons. By its figure the greatest crate waits until little else is left to prove.
    memory = {task: tasks[task][2] // 2 for task in tasks}
    below = {task: set(tasks[task][0]) for task in tasks}
    return Lanes(below, seconds, memory, int(number) if number.isdigit() else rt.processors(), 0.85 * rt.free())


def without_warnings(help_of):
    """rt asks each check for warnings of contracts that no call can meet, if rattle's help has the word. They take 4 to 14 % of a check, and no verdict
    rests on them: the gate's own proofs ask for them, a build does not."""
    return lambda command: help_of(command).replace("--empty-contracts", "")


def build_by_rt(program, rt):
    """Builds the program by a kit whose rt keeps what it proved, and leaves it in crates/PROGRAM/out/. This rt serves for nothing else then."""
    count = len(below(program))
    run = rt.run

    def run_and_take(crate, tests, ending=""):
        # the copy that rt works on is gone when it ends
        if crate.name == program and not ending:
            to = f"{TOP}/crates/{program}/out"
            os.makedirs(to, exist_ok=True)
            shutil.copyfile(f"{crate.folder}/out/{program}", f"{to}/{program}")
        return run(crate, tests, ending)

    rt.run, rt.edits_of = run_and_take, lambda crate: ([], [])
    rt.in_lanes = lambda tasks: lanes_of(rt, tasks).run(lambda task, jobs, given: tasks[task][3](given, jobs))
    rt.rtlib.help_of = without_warnings(rt.rtlib.help_of)
    with open("build/build.log", "w+", encoding="utf-8", errors="replace") as log:
        with contextlib.redirect_stdout(Progress(log, sys.stdout, count)):
            status = rt.ci(False, [program])
        if status:
            log.seek(0)
            print("".join(log.readlines()[-60:]), end="", file=sys.stderr)
    return status


def main(program):
    below(program)
    start = time.monotonic()
    os.chdir(TOP)
    # rt proves no crates by name where this says that the gate runs
    os.environ.pop("CI", None)
    os.makedirs("build", exist_ok=True)
    if rt_keeps():
        status = build_by_rt(program, load_rt("ci", "run", "edits_of", "in_lanes", "processors", "free", "rtlib"))
    else:
        status = build_by_ours(program)
    used = [resource.getrusage(it) for it in (resource.RUSAGE_SELF, resource.RUSAGE_CHILDREN)]
    minutes = sum(it.ru_utime + it.ru_stime for it in used) / 60
    print(f"{minutes:.1f} processor minutes, {(time.monotonic() - start) / 60:.1f} by the clock")
    return status


if __name__ == "__main__":
    sys.exit(main(sys.argv[1]) if len(sys.argv) == 2 else __doc__)
