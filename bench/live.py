#!/usr/bin/env python3
"""Times the live launcher and prints a table.

    live.py [JOBD JOBCTL [JOBD JOBCTL]]

The programs are build/jobd and build/jobctl if none are given. A second pair is timed after the first in each part, and has a
column of its own. A launcher is started in a folder of its own; JOBS (1000) jobs of the one program /bin/sleep, kept alive with
ThrottleInterval 0, are loaded by one `jobctl load` of their folder. Then: all started, restarts of one job after a kill (KILLS, 50, from rest, 0.25 to 0.65 s apart, and four times as many back to back), CPU and
wake-ups while nothing happens for IDLE seconds (10), memory, `list` of all and `print` of one (over an open connection, and as a
program), and all stopped by `shutdown`. A second launcher loads JOBS jobs that don't start and unloads them, and does the same
with FEW (300) that start. A third serves a Unix socket by /bin/cat: CALLS connections (200) one after another, then eight at a
time, then REPLIES (10) whose reply is a file of 20 MB. A fourth keeps its status file (JOBD_STATUS_FILE) over JOBS jobs that don't start:
the processor time of a round that answers a `start` and writes the file, and `jobscope why` of one job and `status` of all by it, if there is a
jobscope beside jobd. Times are wall times in milliseconds as median, least and greatest;
compare figures of one run only. Four figures have an aim, and behind them stands whether it was kept. The figures of the programs
of build/ are added to history.csv, but not those of programs that were named.
"""
import json
import os
import random
import shutil
import signal
import socket
import statistics
import subprocess
import sys
import tempfile
import threading
import time
import types
from dataclasses import dataclass

sys.dont_write_bytecode = True
HERE = os.path.dirname(os.path.abspath(__file__))
sys.path.insert(0, os.path.join(HERE, "..", "tests", "scenes"))
import history
from harness import Fault, Stage

JOBS = int(os.environ.get("JOBS", "1000"))
IDLE = float(os.environ.get("IDLE", "10"))
CALLS = int(os.environ.get("CALLS", "200"))
FEW = int(os.environ.get("FEW", "300"))
KILLS = int(os.environ.get("KILLS", "50"))
REPLIES = int(os.environ.get("REPLIES", "10"))
# The most milliseconds for JOBS loads of jobs that don't start, and the fewest megabytes a second of a reply.
LOAD_AIM = JOBS
REPLY_AIM = 200
# The most milliseconds for a writing of the status file of JOBS jobs, and for `jobscope why` of one by it.
STANDING_AIM = 5
WHY_AIM = 10
REPLY = 20_000_000
# The names of its own children.
OF_THE_LAUNCHER = ("sh", "exe", "jobd-wake")


def now():
    return time.monotonic() * 1000


def name_of(pid):
    try:
        with open(f"/proc/{pid}/comm") as told:
            return told.read().strip()
    except OSError:
        return "sh"


@dataclass
class Figure:
    what: str
    value: str
    unit: str
    note: str = ""
    aim: str = ""
    is_kept: bool = True

    def text(self):
        return f"{self.value} {self.unit}" + self.note + ("" if not self.aim else ", kept" if self.is_kept else ", MISSED")


def spread(what, times):
    return Figure(what, f"{statistics.median(times):.2f}", "ms", f" ({min(times):.2f} to {max(times):.2f}, {len(times)} times)")


def tail(what, times):
    at = statistics.quantiles(times, n=100, method="inclusive")[98]
    return Figure(what, f"{statistics.median(times):.2f}", "ms", f" (99 in 100 within {at:.2f}, {len(times)} times)")


def timed(call, times):
    took = []
    for _ in range(times):
        begun = now()
        call()
        took.append(now() - begun)
    return took


class Launcher:
    def __init__(self, jobd, jobctl, prepare=lambda folder: None):
        self.jobctl = jobctl
        self.jobscope = os.path.join(os.path.dirname(jobd), "jobscope")
        self.folder = tempfile.mkdtemp(prefix="live.")
        self.stage = Stage(types.SimpleNamespace(jobd=[jobd], jobctl=[jobctl]), self.folder)
        os.mkdir(self.path("jobs"))
        prepare(self.folder)
        try:
            self.process = self.stage.serve(env=self.surroundings()).process
        except Fault as fault:
            raise SystemExit(f"live.py: the launcher did not start: {fault}") from None

    def path(self, name):
        return os.path.join(self.folder, name)

    def surroundings(self):
        """Variables of its own."""
        return {}

    def define(self, label, **keys):
        path = self.path(f"jobs/{label}.json")
        with open(path, "w") as out:
            json.dump(dict(keys, Label=label), out)
        return path

    def ask(self, *words):
        return subprocess.run([self.jobctl, "--socket", self.path("socket"), *words], capture_output=True, text=True)

    def children(self):
        """How many jobs run: the shell that gives TERM and the look-out are children too, and no job here is one of these."""
        with open(f"/proc/{self.process.pid}/task/{self.process.pid}/children") as told:
            return sum(name_of(pid) not in OF_THE_LAUNCHER for pid in told.read().split())

    def await_children(self, wanted, seconds=60):
        until = now() + 1000 * seconds
        while self.children() != wanted:
            if now() > until:
                raise SystemExit(f"live.py: {self.children()} children in place of {wanted} after {seconds} s")
            time.sleep(0.001)

    def connect(self):
        caller = socket.socket(socket.AF_UNIX)
        caller.connect(self.path("socket"))
        return caller, caller.makefile()

    def run_time(self):
        with open(f"/proc/{self.process.pid}/schedstat") as told:
            return int(told.read().split()[0]) / 1e6

    def status(self, key):
        with open(f"/proc/{self.process.pid}/status") as told:
            return next(int(line.split()[1]) for line in told if line.startswith(key))

    def stop(self):
        begun = now()
        self.ask("shutdown")
        status = self.process.wait(60)
        took = now() - begun
        if status != 0:
            raise SystemExit(f"live.py: the launcher ended with {status}")
        shutil.rmtree(self.folder)
        return took

    def end(self):
        if self.process.poll() is None:
            self.process.kill()


def restarts(launcher, times, least=0.0, most=0.0):
    """From the kill of a job's child to the first line of the next one, which a shell writes to a pipe. It opens the pipe itself: the
    launcher opens plain files alone. Before each kill it waits, from the least to the most seconds; without them the kills are back to back."""
    os.mkfifo(launcher.path("told"))
    pipe = os.open(launcher.path("told"), os.O_RDWR)
    lines = os.fdopen(pipe)
    launcher.ask("load", launcher.define(
        "restarted", ProgramArguments=["/bin/sh", "-c", 'echo $$ > "$0"; exec sleep 100000', launcher.path("told")], KeepAlive=True,
        ThrottleInterval=0))
    pid, took = int(lines.readline()), []
    for _ in range(times):
        time.sleep(random.uniform(least, most))
        begun = now()
        os.kill(pid, signal.SIGKILL)
        pid = int(lines.readline())
        took.append(now() - begun)
    lines.close()
    os.remove(launcher.path("told"))
    launcher.ask("unload", launcher.path("jobs/restarted.json"))
    return took


def quiet(launcher):
    run, switches = launcher.run_time(), launcher.status("voluntary_ctxt")
    time.sleep(IDLE)
    return (launcher.run_time() - run) * 60 / IDLE, (launcher.status("voluntary_ctxt") - switches) * 60 / IDLE


def requests(launcher, request):
    caller, replies = launcher.connect()
    line = json.dumps(request).encode() + b"\n"

    def once():
        caller.sendall(line)
        if json.loads(replies.readline())["code"] != 0:
            raise SystemExit(f"live.py: {request} was refused")

    took = timed(once, 50)
    caller.close()
    return took


def deliver(launcher, word):
    """The milliseconds until `jobctl load` or `unload` of the launcher's folder has ended."""
    begun = now()
    ran = launcher.ask(word, launcher.path("jobs"))
    if ran.returncode != 0:
        raise SystemExit(f"live.py: the {word} ended with {ran.returncode}: {ran.stderr}")
    return now() - begun


def many(launcher):
    for number in range(JOBS):
        launcher.define(f"job{number:04d}", ProgramArguments=["/bin/sleep", "100000"], KeepAlive=True, ThrottleInterval=0)
    begun = now()
    loaded = deliver(launcher, "load")
    launcher.await_children(JOBS)
    yield Figure(f"{JOBS} jobs loaded and started", f"{now() - begun:.0f}", "ms", f" (jobctl ended after {loaded:.0f})")
    time.sleep(1)
    cpu, switches = quiet(launcher)
    yield Figure("CPU a minute, nothing happens", f"{cpu:.1f}", "ms", f", {switches:.0f} waits")
    yield Figure("resident memory", f"{launcher.status('VmRSS') / 1024:.1f}", "MB", f", at most {launcher.status('VmHWM') / 1024:.1f}")
    yield spread("`list` of all, over a connection", requests(launcher, {"req": "list"}))
    yield spread("`print` of one, over a connection", requests(launcher, {"req": "print", "job": "job0000"}))
    yield spread("`jobctl list`", timed(lambda: launcher.ask("list"), 20))
    yield spread("`jobctl print` of one", timed(lambda: launcher.ask("print", "job0000"), 20))
    yield tail("a restart after a kill, from rest", restarts(launcher, KILLS, 0.25, 0.65))
    yield tail("a restart after a kill, back to back", restarts(launcher, 4 * KILLS))
    yield Figure("all stopped by `shutdown`", f"{launcher.stop():.0f}", "ms")


def loads(launcher):
    for number in range(JOBS):
        launcher.define(f"job{number:04d}", ProgramArguments=["/bin/true"])
    took = deliver(launcher, "load")
    what = f"{JOBS} loads of jobs that don't start"
    yield Figure(what, f"{took:.0f}", "ms", aim=f"at most {LOAD_AIM} ms", is_kept=took <= LOAD_AIM)
    yield Figure("their unloads", f"{deliver(launcher, 'unload'):.0f}", "ms")
    shutil.rmtree(launcher.path("jobs"))
    os.mkdir(launcher.path("jobs"))
    for number in range(FEW):
        launcher.define(f"job{number:04d}", ProgramArguments=["/bin/sleep", "100000"], RunAtLoad=True)
    begun = now()
    deliver(launcher, "load")
    launcher.await_children(FEW)
    yield Figure(f"{FEW} jobs loaded and started once", f"{now() - begun:.0f}", "ms")
    begun = now()
    deliver(launcher, "unload")
    launcher.await_children(0)
    yield Figure(f"these {FEW} unloaded and ended", f"{now() - begun:.0f}", "ms")
    launcher.stop()


def bytes_from(path, request):
    """What the job behind the socket answers."""
    with socket.socket(socket.AF_UNIX) as caller:
        caller.settimeout(30)
        caller.connect(path)
        caller.sendall(request)
        caller.shutdown(socket.SHUT_WR)
        pieces = []
        while piece := caller.recv(1 << 20):
            pieces.append(piece)
    return b"".join(pieces)


def call(path):
    got = bytes_from(path, b"hello")
    if got != b"hello":
        raise SystemExit(f"live.py: cat answered {got!r}")


def take_reply(path):
    got = len(bytes_from(path, b""))
    if got != REPLY:
        raise SystemExit(f"live.py: {got} bytes came of a reply of {REPLY}")


def serve_by(launcher, label, words):
    """Loads a job of these words with a Unix socket, whose path it returns."""
    path = launcher.path(label)
    launcher.ask("load", launcher.define(
        label, ProgramArguments=words, inetdCompatibility={"Wait": False}, Sockets={"s": {"SockPathName": path}},
        ThrottleInterval=0))
    return path


def calls(launcher):
    path = serve_by(launcher, "cat", ["/bin/cat"])
    yield spread("a connection to `cat`, one after another", timed(lambda: call(path), CALLS))
    took = []
    callers = [threading.Thread(target=lambda: took.extend(timed(lambda: call(path), CALLS // 8))) for _ in range(8)]
    begun = now()
    for caller in callers:
        caller.start()
    for caller in callers:
        caller.join()
    rate = len(took) * 1000 / (now() - begun)
    eight = spread("a connection to `cat`, eight at once", took)
    eight.note += f", {rate:.0f} a second"
    yield eight
    with open(launcher.path("file"), "wb") as out:
        out.write(os.urandom(REPLY))
    path = serve_by(launcher, "file.cat", ["/bin/cat", launcher.path("file")])
    took = timed(lambda: take_reply(path), REPLIES)
    rate = REPLY / 1000 / statistics.median(took)
    yield spread("a reply of 20 MB over a job socket", took)
    yield Figure("a reply of 20 MB over a job socket, as a rate", f"{rate:.0f}", "MB/s", aim=f"at least {REPLY_AIM} MB/s", is_kept=rate >= REPLY_AIM)
    launcher.stop()


class StandingLauncher(Launcher):
    """One that keeps its status file."""

    def surroundings(self):
        return {"JOBD_STATUS_FILE": self.path("status.jsonl")}


def written(launcher, request):
    """The milliseconds of processor time until the file is written anew behind the request."""
    caller, replies = launcher.connect()
    line, path = json.dumps(request).encode() + b"\n", launcher.path("status.jsonl")
    time.sleep(1.2)
    before, run = os.stat(path).st_ino, launcher.run_time()
    caller.sendall(line)
    replies.readline()
    while os.stat(path).st_ino == before:
        time.sleep(0.001)
    caller.close()
    return launcher.run_time() - run


def standing(launcher):
    for number in range(JOBS):
        launcher.define(f"job{number:04d}", ProgramArguments=["/bin/true"], WatchPaths=[launcher.path("watched")])
    deliver(launcher, "load")
    took = [written(launcher, {"req": "disable", "job": "job0000"}) for _ in range(10)]
    figure = spread(f"processor time of a round that writes the status file of {JOBS} jobs", took)
    figure.aim, figure.is_kept = f"at most {STANDING_AIM} ms", statistics.median(took) <= STANDING_AIM
    yield figure
    if os.path.exists(launcher.jobscope):
        for words, aim in ((("why", "job0500"), WHY_AIM), (("status",), None)):
            command = [launcher.jobscope, *words, "--status-file", launcher.path("status.jsonl")]
            took = timed(lambda: subprocess.run(command, capture_output=True, check=True), 20)
            figure = spread(f"`jobscope {words[0]}` by it", took)
            if aim:
                figure.aim, figure.is_kept = f"at most {aim} ms", statistics.median(took) <= aim
            yield figure
    launcher.stop()


def figures_of(part, jobd, jobctl):
    launcher = (StandingLauncher if part is standing else Launcher)(os.path.abspath(jobd), os.path.abspath(jobctl))
    try:
        return list(part(launcher))
    finally:
        launcher.end()


def main():
    words = sys.argv[1:] or [os.path.join(HERE, "..", "build", program) for program in ("jobd", "jobctl")]
    pairs = list(zip(words[::2], words[1::2]))
    names = sys.argv[1::2] or ["build/jobd"]
    print("| The live launcher | " + " | ".join(names) + " | aim |\n|---|" + "---|" * (len(names) + 1))
    for part in (many, loads, calls, standing):
        for row in zip(*(figures_of(part, *pair) for pair in pairs)):
            print(f"| {row[0].what} | " + " | ".join(figure.text() for figure in row) + f" | {row[0].aim} |", flush=True)
            if not sys.argv[1:]:
                history.append(row[0].what, row[0].value, row[0].unit, "bench/live.py")


if __name__ == "__main__":
    main()
