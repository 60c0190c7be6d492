#!/usr/bin/env python3
"""Types the lines of docs/BEYOND-ONE-MACHINE.md on Slurm, from nothing, and compares what comes with what the page shows. Then, in the same cluster: exit
statuses and signals come back, TERM at any moment of a run reaches the program once, a wrapper that is killed leaves no program, and no run is doubled.

    tests/slurm.py FOLDER [PROGRAMS]

Run by hand, as root. FOLDER gets Debian's packages that the page names, or has them from a run before; PROGRAMS is build, if absent. Slurm runs in namespaces
of its own and ends with them.
"""
import json
import os
import re
import sys

sys.dont_write_bytecode = True
sys.path.insert(0, os.path.dirname(os.path.abspath(__file__)))
from apart import TOP, Layer, Machine, end_all, fail, wait_until, words
from typed_page import type_page

PAGE = f"{TOP}/docs/BEYOND-ONE-MACHINE.md"


ENVIRONMENT = {"JOBD_SOCKET": "/tmp/try/jobd.sock"}


def packages(part):
    with open(PAGE, encoding="utf-8") as it:
        return re.search(rf"<!-- {part} packages -->\s+apt-get install (.*)", it.read())[1].split()


class Cluster:
    """The cluster that the page's lines left: node n1 is dead, n2 lives."""

    def __init__(self, machine, programs):
        self.machine, self.programs = machine, programs

    def wrapper(self, *program, options=()):
        """Starts a run by the wrapper. Answers its process, whose end is the wrapper's."""
        return self.machine.start(["jobd-on-slurm", "srun", *options, "--", *program], "/dev/null")

    def status_of(self, *program):
        """The status of a run as jobd has it: a code, or a signal below zero."""
        script = "import subprocess, sys; print(subprocess.run(sys.argv[1:], stdin=subprocess.DEVNULL, stderr=subprocess.DEVNULL).returncode)"
        return int(self.machine.run(["/usr/bin/python3", "-c", script, "jobd-on-slurm", "srun", "--", *program]).stdout)

    def statuses(self):
        for line, wanted in (("exit 0", 0), ("exit 3", 3), ("exit 143", 143), ("kill -SEGV $$", -11), ("kill -TERM $$", -15), ("kill -KILL $$", -9)):
            found = self.status_of("sh", "-c", line)
            if found != wanted:
                fail(f"{line}: {found}, not {wanted}")
        self.machine.run(["sh", "-c", "jobd-on-slurm true; [ $? -eq 64 ]"])
        return 6

    def term_at_any_moment(self):
        """TERM so many seconds after the start: the program gets one, or never began. Answers how many, and the slowest of those that had begun."""
        slowest, moments = 0, (0.05, 0.1, 0.2, 0.3, 0.4, 0.5, 0.6, 0.7, 0.8, 1.0, 1.2, 1.5, 2.0, 3.0)
        script = """
import os, signal, subprocess, sys, time
program = "trap 'date +%s.%N >>/tmp/terms; exit 4' TERM; echo >/tmp/begun; while :; do sleep 0.05; done"
for path in ("/tmp/terms", "/tmp/begun"):
    if os.path.exists(path): os.remove(path)
it = subprocess.Popen(["jobd-on-slurm", "srun", "--", "sh", "-c", program], stdin=subprocess.DEVNULL, stderr=subprocess.DEVNULL)
time.sleep(float(sys.argv[1]))
begun, at = os.path.exists("/tmp/begun"), time.time()
it.send_signal(signal.SIGTERM)
status = it.wait(40)
terms = open("/tmp/terms").read().split() if os.path.exists("/tmp/terms") else []
print(int(begun), status, len(terms), float(terms[0]) - at if terms else 0)
"""
        for moment in moments:
            begun, status, terms, took = self.machine.run(["/usr/bin/python3", "-c", script, str(moment)]).stdout.split()
            # Before the program has set its trap a TERM ends it, or takes it out of the queue.
            if (status, terms) != ("4", "1") and (begun == "1" or status not in ("-15", "1", "143") or terms != "0"):
                fail(f"TERM {moment} s after the start: begun {begun}, status {status}, {terms} times")
            slowest = max(slowest, float(took) if begun == "1" else 0)
            self.calm()
        return len(moments), slowest

    def calm(self):
        wait_until("no run in Slurm", lambda: not self.machine.shell("squeue -h"))

    def launcher(self, name, **keys):
        """Loads a job of the program work, which ignores TERM, into a launcher of its own."""
        command = ["/usr/local/bin/jobd-on-slurm", "srun", "--job-name", name, "--dependency", "singleton", "--", "/usr/local/bin/deaf"]
        self.machine.write("/tmp/try/deaf.json", json.dumps({"Label": name, "ProgramArguments": command, "KeepAlive": True, "ThrottleInterval": 0, **keys}))
        self.machine.write("/usr/local/bin/deaf", DEAF, 0o755)
        started = self.machine.start([f"{self.programs}/jobd", "serve", "--socket", "/tmp/try/jobd.sock", "--store", "/tmp/try/o.db", "--spool", "/tmp/try/spool",
                                      "--journal", "/tmp/try/j.jsonl", "--zone", "UTC0"])
        wait_until("the launcher", lambda: self.jobctl("list", check=False).returncode == 0)
        self.jobctl("load", "/tmp/try/deaf.json")
        wait_until("the program", lambda: self.said().count("begins") == 1)
        return started

    def jobctl(self, *command, check=True):
        return self.machine.run([f"{self.programs}/jobctl", *command], check=check, **ENVIRONMENT)

    def said(self):
        return self.machine.read("/tmp/said").split()

    def kill_after_term(self):
        """A program that ignores TERM gets KILL on its node, and the next run begins after it."""
        started = self.launcher("deaf", ExitTimeOut=2)
        first = self.machine.read("/tmp/pid")
        self.jobctl("stop", "deaf")
        wait_until("the next run", lambda: self.said().count("begins") == 2, 60)
        if "twice" in self.said() or self.machine.read("/tmp/pid") == first:
            fail(f"a run was doubled: {self.said()}")
        return started

    def machine_dies(self, started):
        """Launcher, wrapper and srun die at once, as with their machine: Slurm ends the run, and the next launcher's run begins after that."""
        self.machine.shell("kill -KILL $(pgrep -x jobd) $(pgrep -f '[j]obd-on-slurm') $(pgrep -x srun)")
        started.wait(20)
        wait_until("the end of what the launcher left", lambda: not self.machine.shell("pgrep -x deaf || :"), 90)
        self.calm()
        self.machine.shell("rm /tmp/said")
        self.launcher("deaf", ExitTimeOut=2)
        if "twice" in self.said():
            fail("a run was doubled after the launcher's machine died")
        self.jobctl("shutdown")
        self.calm()


DEAF = """#!/bin/sh
exec 8>>/tmp/deaf.lock
flock -n 8 || echo twice >>/tmp/said
trap '' TERM
echo begins >>/tmp/said
echo $$ >/tmp/pid
while :; do sleep 0.1 8>&-; done
"""


def main():
    folder, programs = words(sys.argv[1:], __doc__)
    layer = Layer(folder, packages("slurm"))
    machine = Machine(layer, "try", shared=(programs,))
    try:
        machine.shell("mkdir -p /tmp/try /usr/share/doc/jobd/contrib")
        with open(f"{TOP}/contrib/jobd-on-slurm", encoding="utf-8") as it:
            machine.write("/usr/share/doc/jobd/contrib/jobd-on-slurm", it.read(), 0o755)
        typed = type_page(PAGE, "slurm", f"{programs}:/usr/sbin:/usr/bin:/sbin:/bin", "/", variables={"HOME": "/root", "LC_ALL": "C.UTF-8"},
                          shell=machine.words(["sh", "-c", "cd /tmp/try && exec bash"]))
        if not typed:
            sys.exit(1)
        print(f"slurm: {typed} lines were typed, and what came is what the page shows", flush=True)
        cluster = Cluster(machine, programs)
        print(f"slurm: {cluster.statuses()} exit statuses and signals came back", flush=True)
        moments, slowest = cluster.term_at_any_moment()
        print(f"slurm: TERM at {moments} moments of a run reached the program once, in {slowest:.2f} s at most once it had begun", flush=True)
        started = cluster.kill_after_term()
        print("slurm: a program that ignores TERM got KILL, and no run was doubled", flush=True)
        cluster.machine_dies(started)
        print("slurm: passed", flush=True)
    finally:
        end_all()


main()
