#!/usr/bin/env python3
"""Some minutes of `jobd serve` with 100 jobs of all kinds, loaded and unloaded at random; called by live_soak.sh.

    live_soak.py MINUTES JOBD JOBCTL

In the end no child, no descriptor and no spool file may be left over, each run that began must have its end in the journal, and
the journal must replay to the replies that the requests got, and to the orders whose answers it holds. It prints what it did, and
what is wrong, with status 1 then. SEED in the environment makes the choices again. If WAKE_KILLED is a number of seconds, it kills
the launcher's jobd-wake that often, which has to lie beside JOBD.
"""
import json
import os
import random
import re
import shutil
import signal
import socket
import subprocess
import sys
import tempfile
import time
import types

sys.dont_write_bytecode = True
sys.path.insert(0, os.path.join(os.path.dirname(os.path.abspath(__file__)), "scenes"))
from harness import Fault, Stage, text_at, wakes  # noqa: E402

JOBS = 100
# What the launcher has to say: that the jobs of one kind have no program.
REFUSED = re.compile(r"jobd: job\d\d: run \d+: cannot start /no/such/program: No such file or directory \(os error 2\)")
# And of a jobd-wake that was killed.
WAKE_GONE = re.compile(r"jobd: exits are seen within 0\.1 s, as no jobd-wake reports them: .*")
ANSWERED = {"spawned": "spawn", "spawn_refused": "spawn", "termed": "term", "killed": "kill"}
REQUESTS = ("load", "unload", "start", "stop", "kickstart", "enable", "disable", "list", "print", "shutdown")


def is_helper(pid):
    """Whether the launcher's child is a look-out, jobd-wake, or the shell that gives TERM, and no job."""
    # one that was killed has a name, and no words, until the launcher asks about it
    named, words = text_at(f"/proc/{pid}/comm"), text_at(f"/proc/{pid}/cmdline")
    return named == "jobd-wake\n" or words.startswith("jobd-look-out") or "while read" in words


def is_reply(request, got):
    """Whether jobctl printed what the journal replays to; lines of its own may follow."""
    return request[:2] == got[:2] and all(line.startswith("jobctl: ") for line in got[2].removeprefix(request[2]).splitlines()) \
        and got[2].startswith(request[2])


class Soak:
    def __init__(self, minutes, jobd, jobctl):
        self.minutes, self.jobd, self.jobctl = minutes, jobd, jobctl
        self.folder = tempfile.mkdtemp(prefix="soak.")
        self.replies, self.wrong, self.counts = [], [], {}
        self.random = random.Random(int(os.environ.get("SEED", "1")))
        self.labels = [f"job{number:02d}" for number in range(JOBS)]

    def path(self, name):
        return os.path.join(self.folder, name)

    def count(self, what):
        self.counts[what] = self.counts.get(what, 0) + 1

    def complain(self, text):
        if len(self.wrong) < 20:
            self.wrong.append(text)
        self.count("faults")

    # ---- definitions

    def definition(self, number):
        """Twelve kinds of jobs by turns."""
        label = self.labels[number]
        shell = lambda script: ["/bin/sh", "-c", script]
        unix = {"s": {"SockPathName": self.path(f"{label}.socket")}}
        kinds = [
            dict(ProgramArguments=shell("exit 0"), RunAtLoad=True),
            dict(ProgramArguments=shell("exec sleep 3"), KeepAlive=True, ThrottleInterval=1),
            dict(ProgramArguments=shell("exit 3"), StartInterval=1, ThrottleInterval=0),
            dict(ProgramArguments=shell(":"), StartCalendarInterval={}, ThrottleInterval=0),
            dict(ProgramArguments=shell(":"), WatchPaths=[self.path(f"{label}.watched")], ThrottleInterval=1),
            dict(ProgramArguments=shell(f"rm -f {self.path(label)}.queue/*"),
                 QueueDirectories=[self.path(f"{label}.queue")], ThrottleInterval=1),
            dict(ProgramArguments=["/bin/cat"], inetdCompatibility={"Wait": False}, Sockets=unix, ThrottleInterval=0),
            dict(ProgramArguments=shell("kill -SEGV $$"), KeepAlive={"Crashed": True}, RunAtLoad=True, ThrottleInterval=2),
            dict(ProgramArguments=shell("trap '' TERM; while :; do sleep 1; done"), RunAtLoad=True, ExitTimeOut=1),
            dict(ProgramArguments=["/no/such/program"], RunAtLoad=True, ThrottleInterval=2),
            dict(ProgramArguments=shell("exec sleep 1000"), RunAtLoad=True, LaunchOnlyOnce=True),
            dict(ProgramArguments=shell("exec sleep 2"), KeepAlive={"PathState": {self.path(f"{label}.watched"): True}},
                 Disabled=number % 24 == 11, ThrottleInterval=0),
        ]
        return dict(kinds[number % len(kinds)], Label=label)

    def prepare(self):
        for number, label in enumerate(self.labels):
            os.mkdir(self.path(f"{label}.queue"))
            with open(self.path(f"{label}.json"), "w") as out:
                json.dump(self.definition(number), out)

    # ---- what is done

    def serve(self):
        try:
            self.started = Stage(types.SimpleNamespace(jobd=[self.jobd], jobctl=[self.jobctl]), self.folder).serve(journal="journal")
        except Fault as fault:
            sys.exit(f"live_soak: {fault}")
        self.launcher = self.started.process
        time.sleep(0.3)
        self.open_before = self.descriptors()

    def ask(self, *words):
        done = subprocess.run([self.jobctl, "--socket", self.path("socket"), *words], capture_output=True, text=True)
        self.replies.append((words, done.returncode, done.stdout + done.stderr))
        self.count(words[0])
        return done

    def call(self, label):
        """A client of a job's socket; what it sends must come back, if the job runs to its end."""
        path, text = self.path(f"{label}.socket"), f"hello {self.random.random()}"
        try:
            with socket.socket(socket.AF_UNIX) as caller:
                caller.settimeout(10)
                caller.connect(path)
                caller.sendall(text.encode())
                caller.shutdown(socket.SHUT_WR)
                got = b""
                while piece := caller.recv(4096):
                    got += piece
        except OSError:
            self.count("calls refused")
            return
        self.count("calls")
        if got not in (b"", text.encode()):
            self.complain(f"{label}: sent {text!r}, got {got!r}")

    def act(self):
        label, choice = self.random.choice(self.labels), self.random.random()
        definition = self.path(f"{label}.json")
        if choice < 0.30:
            self.ask("load", *self.random.choice([[], [], ["-F"], ["-w"]]), definition)
        elif choice < 0.45:
            self.ask("unload", *self.random.choice([[], [], [], ["-w"]]), definition)
        elif choice < 0.55:
            self.ask(self.random.choice(["start", "stop", "enable", "disable", "print"]), label)
        elif choice < 0.60:
            self.ask("kickstart", *self.random.choice([[], ["-k"]]), label)
        elif choice < 0.65:
            self.ask("list")
        elif choice < 0.75:
            with open(self.path(f"{label}.watched"), "w") as out:
                out.write("touched")
        elif choice < 0.80:
            if os.path.exists(self.path(f"{label}.watched")):
                os.remove(self.path(f"{label}.watched"))
        elif choice < 0.90:
            with open(os.path.join(self.path(f"{label}.queue"), "item"), "w") as out:
                out.write("queued")
        else:
            number = self.random.randrange(JOBS // 12) * 12 + 6
            self.call(self.labels[number])

    def kill_wake(self):
        """Returns whether there was one: it is started again ten seconds after its end."""
        found = wakes(self.launcher.pid)
        for pid in found:
            os.kill(int(pid), signal.SIGKILL)
            self.count("jobd-wake killed")
        return bool(found)

    def run(self):
        until = time.monotonic() + 60 * self.minutes
        each = float(os.environ.get("WAKE_KILLED", "inf"))
        kills = time.monotonic() + each
        while time.monotonic() < until and self.launcher.poll() is None:
            self.act()
            if time.monotonic() > kills and self.kill_wake():
                kills += each
            time.sleep(self.random.random() * 0.05)

    # ---- what must be left

    def descriptors(self):
        return sorted(os.listdir(f"/proc/{self.launcher.pid}/fd"), key=int)

    def children(self):
        with open(f"/proc/{self.launcher.pid}/task/{self.launcher.pid}/children") as told:
            return [pid for pid in told.read().split() if not is_helper(pid)]

    def unload_all(self):
        for label in self.labels:
            self.ask("unload", self.path(f"{label}.json"))
        until = time.monotonic() + 60
        while time.monotonic() < until:
            if self.ask("list").stdout == "PID\tStatus\tLabel\n":
                return
            time.sleep(0.2)
        self.complain("jobs are left a minute after the last unload")

    def look(self):
        time.sleep(0.5)
        if self.children():
            self.complain(f"children are left: {[(pid, text_at(f'/proc/{pid}/cmdline')) for pid in self.children()]}")
        # One more is that of the shell which gives TERM, two are those of the look-outs, and one is that of jobd-wake.
        if len(self.descriptors()) > len(self.open_before) + 3 + len(wakes(self.launcher.pid)):
            self.complain(f"descriptors are left: {len(self.open_before)} before, {len(self.descriptors())} after")
        spool = [name for name in os.listdir(self.path("spool")) if name != "jobd.lock"]
        if spool:
            self.complain(f"spool files are left: {spool[:5]}")

    def end(self):
        """Half of the jobs are loaded again, so that the shutdown stops some."""
        for label in self.labels[::2]:
            self.ask("load", "-F", self.path(f"{label}.json"))
        children = self.children()
        self.ask("shutdown")
        try:
            status = self.launcher.wait(60)
        except subprocess.TimeoutExpired:
            self.launcher.kill()
            status = "none in a minute"
        if status != 0:
            self.complain(f"the launcher ended with {status}")
        lines = self.started.lines("")
        self.counts["refusals told"] = len(lines)
        for line in lines:
            if not REFUSED.fullmatch(line) and not ("WAKE_KILLED" in os.environ and WAKE_GONE.fullmatch(line)):
                self.complain(f"standard error: {line[:200]}")
        left = [pid for pid in children if os.path.exists(f"/proc/{pid}")]
        if left:
            self.complain(f"children are left after the end: {left}")
        if os.path.exists(self.path("socket")):
            self.complain("the control socket's file is left")
        if os.listdir(self.path("spool")):
            self.complain("spool files are left after the end")

    def replay(self):
        with open(self.path("journal")) as journal:
            events = [json.loads(line) for line in journal][1:]
            journal.seek(0)
            done = subprocess.run([self.jobd, "replay"], stdin=journal, capture_output=True, text=True)
        outcomes = [json.loads(line) for line in done.stdout.splitlines()]
        self.counts["events"] = len(events)
        if done.returncode != 0 or len(outcomes) != len(events):
            self.complain(f"replay: status {done.returncode}, {len(outcomes)} outcomes of {len(events)} events")
        self.compare_replies(events, outcomes)
        self.compare_orders(events, outcomes)
        self.compare_ends(events)

    def compare_replies(self, events, outcomes):
        told = [(event["ev"], outcome["code"], outcome["text"])
                for event, outcome in zip(events, outcomes) if event["ev"] in REQUESTS]
        got = [(words[0], status, text) for words, status, text in self.replies]
        self.counts["replies"] = len(got)
        at = 0
        for request in told:
            if at < len(got) and is_reply(request, got[at]):
                at += 1
            elif request[0] == "list":
                self.count("lists for labels like one that is not loaded")
            else:
                self.complain(f"replies differ from number {at}: {request} in the journal, {got[at:at + 1]} from jobctl")
                return
        if at < len(got):
            self.complain(f"the journal has no request for the replies from number {at}: {got[at]}")

    def compare_orders(self, events, outcomes):
        orders = [(order["order"], order["job"], order["run"])
                  for outcome in outcomes for order in outcome["orders"] if order["order"] in ("spawn", "term", "kill")]
        answers = [(ANSWERED[event["ev"]], event["job"], event["run"]) for event in events if event["ev"] in ANSWERED]
        self.counts["orders"] = len(orders)
        if orders != answers:
            self.complain(f"{len(orders)} orders and {len(answers)} answers differ")

    def compare_ends(self, events):
        """Each run that began has one end, after the lines of a job's removal too."""
        running = {}
        for event in events:
            if event["ev"] == "spawned":
                running[event["job"], event["run"]] = running.get((event["job"], event["run"]), 0) + 1
                self.count("runs begun")
            elif event["ev"] in ("ended", "lost"):
                running[event["job"], event["run"]] = running.get((event["job"], event["run"]), 0) - 1
                self.count("runs ended")
        if wrong := [run for run, count in running.items() if count]:
            self.complain(f"{len(wrong)} runs have no end, or one too many: {wrong[:5]}")

    def whole(self):
        self.prepare()
        self.serve()
        try:
            self.run()
            self.unload_all()
            self.look()
            self.end()
            self.replay()
        finally:
            if self.launcher.poll() is None:
                self.launcher.kill()
        print(", ".join(f"{count} {what}" for what, count in sorted(self.counts.items())))
        if self.wrong:
            print(f"live_soak: see {self.folder}", *self.wrong, sep="\n", file=sys.stderr)
            return 1
        shutil.rmtree(self.folder)
        print("live_soak: nothing is left over, and the journal tells the same")
        return 0


if __name__ == "__main__":
    sys.exit(Soak(float(sys.argv[1]), sys.argv[2], sys.argv[3]).whole())
