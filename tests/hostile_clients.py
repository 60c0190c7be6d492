#!/usr/bin/env python3
"""Clients that misbehave, against a running `jobd serve`. Honest clients are answered all the while, and how fast is measured.

    tests/hostile_clients.py [--jobd PROGRAM] [--jobctl PROGRAM] [--seed S] [--slack N] [TRIAL..]
    tests/hostile_clients.py --soak SECONDS [--jobd PROGRAM] [--jobctl PROGRAM] [--slack N]

It is run by hand, after `make build`; the programs are build/jobd and build/jobctl. Beside each trial an honest client connects each
20 ms and asks for `list`. A trial fails if one of these answers takes longer than a second, or 50 ms in the trials with figures, or
isn't code 0. --slack multiplies these times, for a slow machine. At the end the launcher has as many descriptors as at the beginning,
and the spool is empty. Its resident memory has grown by at most 24 MiB: a job's connection takes 80 KiB, there are at most 256, and the
C library keeps what is freed.

    half_a_line       100 clients send half a request and leave
    byte_by_byte      a request of one byte at a time is answered
    long_line         262,145 bytes without a newline: one reply of code 2, then the connection is closed
    full_line         a request of exactly 262,144 bytes is answered with code 0
    hundred           100 connections at once: at most 64 of them are served
    never_reads       a client asks on and on and reads nothing
    random_bytes      10,000 lines: each is answered, in order, with code 2
    long_request      65,537 bytes to a job's socket: the connection is closed, and no job is started
    leaves_early      a client of a job's socket half-closes and leaves before it is served; the next one is served

With figures: the descriptors before, at most and after; the honest client's median and most; how late a KILL came that was due a
second after TERM (it may be late by half a second):

    replies_unread    130 clients of a job half-close and never read
    silent_callers    64 clients of a job send nothing: others are served, and after five seconds a further one of this job
    slow_callers      64 clients of a job send a byte each 3 s: others are served, and a further one of this job once the first is 5 s old
    slow_at_four      256 of four jobs do so: clients of a fifth are served, none is closed
    forty_crowds      1,000 of forty jobs send nothing, and come again as they are let go: those of a further job are served, none is closed
    settings_at_once  a client sends 7,200 settings at once, and again and again
    silent_control    64 silent clients of the control socket and eight with half a request, replaced as they are let go
    spent_descriptors 790 sockets at 1,024 descriptors, clients that half-close and leave: each that waits is served, a job starts and gets TERM
    unread_at_a_limit 400 sockets at 1,024 descriptors, clients that do not read: a job starts and gets TERM
    a_still_minute    a caller that sends nothing, and one that does not read, are let go after a minute

--soak plays such clients of both kinds of sockets all together: of each thousand honest lists in a row 990 take at most 50 ms, and each
one at most a second, since settings are synced to the disk meanwhile. From the first tenth of the time on the memory grows by 2 MiB at
most, and no child that ended is left. The status is 1 if something failed.
"""
import json
import os
import random
import re
import select
import shutil
import sys
import tempfile
import threading
import time

from crowds import (
    LIST, Beside, Crowd, Deaf, Descriptors, asks, at_rest, calls, dripping, is_held, never_reading, pipelining, resident, settles, silent, vanishing,
    zombies,
)
from harness import Fault, Stage, begin, call, check, chosen, connect, program_words, shell_job, socket_job, wait_for

BAD = {"code": 2, "text": "bad request\n"}
LONGEST = 262144
MIB = 1024


def read_lines(it, count):
    """The next lines that come, up to as many, or fewer if the other side closes."""
    text = b""
    while text.count(b"\n") < count:
        try:
            piece = it.recv(65536)
        except ConnectionResetError:
            break
        if not piece:
            break
        text += piece
    return [json.loads(line) for line in text.splitlines()]


def ask(path, line):
    with connect(path) as it:
        it.sendall(line)
        replies = read_lines(it, 1)
    check(len(replies) == 1, f"no reply to {line[:80]!r}")
    return replies[0]


# ---- trials of one client, or of clients that leave

def half_a_line(stage, launcher):
    for _ in range(100):
        with connect(launcher.path) as it:
            it.sendall(b'{"req":"sh')


def byte_by_byte(stage, launcher):
    with connect(launcher.path) as it:
        for byte in LIST:
            it.sendall(bytes([byte]))
            time.sleep(0.002)
        replies = read_lines(it, 1)
    check([reply["code"] for reply in replies] == [0], f"a request byte by byte got {replies}")


def long_line(stage, launcher):
    with connect(launcher.path) as it:
        try:
            it.sendall(b"x" * (LONGEST + 1))
        except (BrokenPipeError, ConnectionResetError):
            pass
        replies = read_lines(it, 2)
    check(replies == [BAD], f"a line that is too long got {replies}")


def full_line(stage, launcher):
    reply = ask(launcher.path, b'{"req":"list"}'.ljust(LONGEST) + b"\n")
    check(reply["code"] == 0, f"a line of {LONGEST} bytes got {reply}")


def hundred(stage, launcher):
    many = [connect(launcher.path) for _ in range(100)]
    served = 0
    for it in many:
        try:
            it.sendall(LIST)
            replies = read_lines(it, 1)
        except (BrokenPipeError, ConnectionResetError):
            replies = []
        served += [reply["code"] for reply in replies] == [0]
    for it in many:
        it.close()
    # The honest client takes the place of a silent one each time.
    check(32 <= served <= 64, f"{served} of 100 connections were served, wanted nearly 64")
    return f"{served} served"


def never_reads(stage, launcher):
    with connect(launcher.path) as it:
        it.setblocking(False)
        end, sent = time.monotonic() + 3, 0
        while time.monotonic() < end:
            select.select([], [it], [], 0.05)
            try:
                sent += it.send(LIST * 1000)
            except BlockingIOError:
                pass
    return f"{sent} bytes taken"


def random_bytes(stage, launcher):
    rng = random.Random(stage.given.seed)
    lines = [bytes(b for b in rng.randbytes(rng.randrange(1, 60)) if b != 10) + b"\n" for _ in range(10000)]
    got = []
    with connect(launcher.path) as it:
        reader = threading.Thread(target=lambda: got.extend(read_lines(it, len(lines))))
        reader.start()
        for line in lines:
            it.sendall(line)
        reader.join()
    strange = sum(reply != BAD for reply in got)
    check(got == [BAD] * len(lines), f"{len(got)} replies to {len(lines)} lines of random bytes, {strange} of another kind")


def long_request(stage, launcher):
    runs = launcher.print("cat")
    got = call(stage.at("cat"), b"x" * 65537)
    check(not got and launcher.print("cat") == runs, f"a request of 65,537 bytes got {got[:20]!r}: {launcher.print('cat')!r}")


def leaves_early(stage, launcher):
    for _ in range(20):
        begin(stage.at("cat"), b"gone").close()
    got = call(stage.at("cat"), b"hello")
    check(got == b"hello", f"the client after those that left got {got!r}")


# ---- trials of crowds, with figures

def runs(launcher):
    """How many runs the jobs with sockets had, as far as they are loaded."""
    return sum(int(found) for label in ("cat", "other", "greedy") for found in re.findall(r"runs = (\d+)", launcher.print(label)))


class Watched:
    """What honest clients see beside crowds, each of which is what a process does, with its words."""

    def __init__(self, stage, launcher, crowds, honest):
        self.stage, self.launcher = stage, launcher
        self.before = at_rest(launcher.pid)
        # Processes before threads: a fork takes no thread along.
        self.crowds = [Crowd(*words) for words in crowds]
        self.most = Descriptors(launcher.pid)
        self.honest = {name: Beside(step, pause) for name, (step, pause) in honest.items()}
        for it in (*self.honest.values(), self.most):
            it.start()

    def end(self, slack, most=50, late=50):
        """The figures. A Fault if an honest client got no answer, or a late one: a list may take `most` milliseconds, and 99 of a hundred `late`; any
        if `most` is None."""
        for it in (*self.honest.values(), self.most):
            it.end()
        for crowd in self.crowds:
            crowd.end()
        after = settles(self.launcher.pid, self.before, 10 * slack, lambda: runs(self.launcher))
        figures = [f"{name} {seen.told()}" for name, seen in self.honest.items()]
        figures.append(f"descriptors {self.before} before, {self.most.most} at most, {after} after")
        faults = [f"{name}: {len(seen.faults)} faults, the first: {seen.faults[0]}" for name, seen in self.honest.items() if seen.faults]
        check(not faults, f"{'; '.join(faults)}: {'; '.join(figures)}")
        check(after <= self.before, f"descriptors are left: {'; '.join(figures)}")
        if most is not None:
            self.check_lists(figures, most * slack, late * slack)
        return figures

    def check_lists(self, figures, most, late):
        """A Fault if an honest list took more than `most` milliseconds, or one of a hundred more than `late`."""
        lists = self.honest.get("list")
        is_slow = lists is not None and (lists.most() > most or lists.late() > late)
        bounds = f"more than {most:.0f} ms, or one of a hundred more than {late:.0f} ms"
        check(not is_slow, f"an honest list took {bounds}: {'; '.join(figures)}")


def beside(stage, launcher, crowds, honest, goes_on):
    """Plays the crowds as long as this takes, with a KILL that is due."""
    slack = stage.given.slack
    deaf = Deaf(stage, launcher, f"deaf{len(stage.told)}")
    watched = Watched(stage, launcher, crowds, honest)
    try:
        goes_on()
        late = deaf.lateness(30 * slack)
    finally:
        figures = watched.end(slack)
    check(late is not None and late <= 500 * slack, f"KILL was {late} ms late: {'; '.join(figures)}")
    return "; ".join([*figures, f"KILL {late:.0f} ms late"])


def replies_unread(stage, launcher):
    slack = stage.given.slack
    served = lambda: int(launcher.print("greedy").partition("runs = ")[2].split()[0]) >= 100
    crowds = [(never_reading, stage.at("greedy"), b"x", 130, 100 * slack, True)]
    honest = {"list": (asks(launcher.path), 0.02), "call": (calls(stage.at("cat")), 0.05)}
    told = beside(stage, launcher, crowds, honest, lambda: wait_for(served, "100 clients that never read are not served", 40 * slack))
    wait_for(lambda: len(call(stage.at("greedy"), b"x")) == 400000, "a later client of the same job is not served", 10 * slack)
    return told


def silent_callers(stage, launcher):
    serves = lambda: call(stage.at("cat"), b"hello") == b"hello"
    crowds = [(silent, stage.at("cat"), 64)]
    honest = {"list": (asks(launcher.path), 0.02), "call of another job": (calls(stage.at("other")), 0.05)}
    return beside(stage, launcher, crowds, honest, lambda: wait_for(serves, "no further client of the job is served", 15))


def slow_callers(stage, launcher):
    serves = lambda: call(stage.at("cat"), b"hello") == b"hello"
    crowds = [(dripping, stage.at("cat"), 64, 3)]
    honest = {"list": (asks(launcher.path), 0.02), "call of another job": (calls(stage.at("other")), 0.05)}

    def further():
        """Ten further clients of the job, one after the other: each within 15 seconds."""
        for _ in range(10):
            wait_for(serves, "no further client of the job is served", 15 * stage.given.slack)
            time.sleep(1)

    return beside(stage, launcher, crowds, honest, further)


def calls_one_by_one(stage, launcher, label, crowds, count, most):
    """So many clients of the job beside crowds, each of which has its reply in as many seconds at most. The figures."""
    took = []

    def honest_calls():
        time.sleep(2)
        for _ in range(count):
            start = time.monotonic()
            got = call(stage.at(label), b"hello", 60)
            took.append(time.monotonic() - start)
            check(got == b"hello", f"after {len(took) - 1} of {count} a client got {got!r} in {took[-1]:.1f} s")

    told = beside(stage, launcher, crowds, {"list": (asks(launcher.path), 0.02)}, honest_calls)
    took.sort()
    check(took[-1] <= most * stage.given.slack, f"a client waited for {took[-1]:.1f} s")
    return f"{told}; {count} clients served, median {took[count // 2]:.2f} s, most {took[-1]:.2f} s"


def slow_at_four(stage, launcher):
    labels = [f"slow{number}" for number in range(4)]
    for label in labels:
        launcher.load(socket_job(stage, label, ["/bin/cat"]))
    crowds = [(dripping, stage.at(label), 64, 3) for label in labels]
    try:
        return calls_one_by_one(stage, launcher, "other", crowds, 30, 6)
    finally:
        for label in labels:
            launcher.ask({"req": "unload", "job": label})


def forty_crowds(stage, launcher):
    labels = [f"crowd{number}" for number in range(40)]
    for label in labels:
        launcher.load(socket_job(stage, label, ["/bin/cat"]))
    crowds = [(silent, stage.at(label), 25) for label in labels]
    try:
        return calls_one_by_one(stage, launcher, "other", crowds, 30, 6)
    finally:
        for label in labels:
            launcher.ask({"req": "unload", "job": label})


def scarce_launcher(stage, number, sockets):
    """A further launcher with 1,024 descriptors and so many sockets of jobs, which answer with their request or write without end; and where they are."""
    os.mkdir(stage.at(f"spool.{number}"), 0o700)
    launcher = stage.serve(shell="ulimit -n 1024", socket=f"socket.{number}", store=f"store.{number}", spool=f"spool.{number}")
    launcher.load(shell_job("lasting", "exec sleep 1000", RunAtLoad=True))
    paths = []
    while len(paths) < sockets:
        label = f"many.{number}.{len(paths)}"
        places = [stage.at(f"{label}.{place}") for place in range(min(8, sockets - len(paths)))]
        job = socket_job(stage, label, ["/bin/sh", "-c", "if [ \"$(cat)\" = zeros ]; then exec head -c 400000 /dev/zero; fi; echo served"])
        launcher.load({**job, "Sockets": {f"s{place}": {"SockPathName": path} for place, path in enumerate(places)}})
        paths += places
    return launcher, paths


def starts_and_ends(stage, launcher, label, slack):
    """Milliseconds until a job that is loaded now has run, and until one that runs has got TERM."""
    start = time.monotonic()
    launcher.load(shell_job(label, f"echo run > {stage.at(label)}", RunAtLoad=True, StandardErrorPath=stage.at(f"{label}.err")))
    wait_for(lambda: os.path.exists(stage.at(label)), f"no job starts: {launcher.said()[-300:]!r}", 10 * slack)
    started = 1000 * (time.monotonic() - start)
    start = time.monotonic()
    launcher.ask({"req": "stop", "job": "lasting"})
    launcher.tells("lasting", "last exit = signal 15", 10 * slack)
    return f"a start after {started:.0f} ms, TERM after {1000 * (time.monotonic() - start):.0f} ms"


def spent_descriptors(stage, launcher):
    slack = stage.given.slack
    scarce, paths = scarce_launcher(stage, 1, 790)
    before, most = at_rest(scarce.pid), Descriptors(scarce.pid)
    most.start()
    for _ in range(3):
        for path in paths:
            try:
                begin(path, b"gone").close()
            except OSError:
                pass
    told = starts_and_ends(stage, scarce, "new.1", slack)
    waiting = lambda: [name for name in os.listdir(stage.at("spool.1")) if name.endswith(".request")]
    held, start = len(waiting()), time.monotonic()
    wait_for(lambda: not waiting(), lambda: f"{len(waiting())} connections wait for ever", 60 * slack)
    took = time.monotonic() - start
    wait_for(lambda: call(paths[-1], b"x") == b"served\n", "an honest client is not served", 10 * slack)
    most.end()
    # The shell that gives TERM is kept from the first one on.
    after = settles(scarce.pid, before + 1, 10 * slack)
    refused = scarce.lines("Too many open files")
    scarce.shut_down()
    check(after <= before + 1 and not refused, f"{after} descriptors after it, {before} before; it was refused {refused[:3]}")
    return f"{told}; {held} connections waited, all served {took:.1f} s later; descriptors {before} before, {most.most} at most, {after} after"


def unread_at_a_limit(stage, launcher):
    slack = stage.given.slack
    scarce, paths = scarce_launcher(stage, 2, 400)
    before, most = at_rest(scarce.pid), Descriptors(scarce.pid)
    most.start()
    unread = []
    for path in paths:
        try:
            unread.append(begin(path, b"zeros"))
        except OSError:
            pass
    told = starts_and_ends(stage, scarce, "new.2", slack)
    for client in unread:
        client.close()
    wait_for(lambda: call(paths[-1], b"x") == b"served\n", "an honest client is not served", 60 * slack)
    most.end()
    after = settles(scarce.pid, before + 1, 30 * slack)
    refused = scarce.lines("Too many open files")
    scarce.shut_down()
    check(after <= before + 1 and not refused, f"{after} descriptors after it, {before} before; it was refused {refused[:3]}")
    return f"{told}; descriptors {before} before, {most.most} at most, {after} after"


def settings_at_once(stage, launcher):
    crowds = [(pipelining, launcher.path, b'{"req":"disable","job":"x"}\n' * 7200)]
    honest = {"list": (asks(launcher.path), 0.02), "print": (asks(launcher.path, b'{"req":"print","job":"cat"}\n'), 0.02)}
    return beside(stage, launcher, crowds, honest, lambda: time.sleep(5))


def silent_control(stage, launcher):
    crowds = [(silent, launcher.path, 64), (silent, launcher.path, 8, b'{"req":"li')]
    honest = {"list": (asks(launcher.path), 0.02), "jobctl list": (runs_jobctl(stage), 0.1)}
    return beside(stage, launcher, crowds, honest, lambda: time.sleep(5))


def a_still_minute(stage, launcher):
    slack = stage.given.slack
    start = time.monotonic()
    held = {"one that sends nothing": connect(stage.at("cat"), 120), "one that does not read": begin(stage.at("greedy"), b"x")}
    gone = {}

    def look():
        """The launcher's end of a connection is no more: something of it is there to be read, or its end."""
        for name, client in held.items():
            if name not in gone and not is_held(client):
                gone[name] = time.monotonic() - start
        return len(gone) == len(held)

    honest = {"list": (asks(launcher.path), 0.02), "call": (calls(stage.at("cat")), 0.05)}
    told = beside(stage, launcher, [], honest, lambda: wait_for(look, f"after a still minute only {gone} are let go", 80 * slack))
    for client in held.values():
        client.close()
    check(all(55 <= after for after in gone.values()), f"they were let go after {gone}")
    return "; ".join([told, *(f"{name} let go after {after:.1f} s" for name, after in gone.items())])


def runs_jobctl(stage):
    """The step of an honest client that is the program `jobctl`."""

    def step():
        run = stage.jobctl(["list"])
        return None if run.returncode == 0 else f"jobctl list ended with {run.returncode}: {run.stderr!r}"

    return step


# ---- all together

def soak_crowds(stage, path):
    settings = b'{"req":"disable","job":"x"}\n{"req":"enable","job":"x"}\n' * 50
    return [
        (silent, path, 64), (silent, path, 4, b'{"req":"li'), (vanishing, path, b'{"req":"sh'), (vanishing, path, LIST * 20),
        (vanishing, path, b""), (pipelining, path, (LIST + b'{"req":"print","job":"cat"}\n') * 200), (pipelining, path, settings),
        (pipelining, path, b"no request\n" * 500), (never_reading, path, LIST * 1000, 2, 3),
        (silent, stage.at("cat"), 64), (silent, stage.at("greedy"), 20, b"half"), (vanishing, stage.at("cat"), b"gone", True),
        (vanishing, stage.at("greedy"), b"gone"), (vanishing, stage.at("cat"), b"x" * 65537, True),
        (never_reading, stage.at("greedy"), b"x", 80, 3, True), (never_reading, stage.at("other"), b"x" * 60000, 5, 3, True),
    ]


def soak(stage, launcher):
    slack, seconds = stage.given.slack, stage.given.soak
    spool = os.listdir(stage.at("spool"))
    honest = {
        "list": (asks(launcher.path), 0.02), "jobctl list": (runs_jobctl(stage), 0.5),
        "call": (calls(stage.at("other")), 0.1), "print": (asks(launcher.path, b'{"req":"print","job":"cat"}\n'), 0.1),
        # Nothing is asked: what is late here is the machine's own.
        "a sleep of 1 ms": (lambda: time.sleep(0.001), 0.005),
    }
    memory = [resident(launcher.pid)]
    watched = Watched(stage, launcher, soak_crowds(stage, launcher.path), honest)
    try:
        for _ in range(10):
            time.sleep(seconds / 10)
            memory.append(resident(launcher.pid))
    finally:
        figures = watched.end(slack, None)
    wait_for(lambda: os.listdir(stage.at("spool")) == spool, "spool files are left", 10 * slack)
    wait_for(lambda: zombies(launcher.pid) == 0, "children that ended are left", 10 * slack)
    memory.append(resident(launcher.pid))
    # What the first tenth took is reached again and again.
    grown = memory[-1] - memory[1]
    figures += [f"memory {memory[0]} KiB before, {max(memory)} at most, {memory[-1]} after", f"spool {len(spool)} files before and after"]
    figures.append(f"{len(launcher.said().splitlines())} lines told")
    check(grown <= 2 * MIB, f"the memory grew by {grown} KiB after the first tenth: {'; '.join(figures)}")
    # A setting's sync stands in the loop: a list that falls behind one waits for the disk.
    watched.check_lists(figures, 1000 * slack, 50 * slack)
    return "; ".join(figures)


TRIALS = [
    half_a_line, byte_by_byte, long_line, full_line, hundred, never_reads, random_bytes, long_request, leaves_early,
    replies_unread, silent_callers, slow_callers, slow_at_four, forty_crowds, spent_descriptors, unread_at_a_limit,
    settings_at_once, silent_control, a_still_minute,
]
CROWDED = TRIALS[9:]


def play(stage, launcher, trial):
    """The figures of the trial."""
    if trial in CROWDED or trial is soak:
        return trial(stage, launcher)
    watched = Watched(stage, launcher, [], {"list": (asks(launcher.path), 0.02)})
    try:
        said = trial(stage, launcher)
        time.sleep(0.3)
    finally:
        figures = watched.end(stage.given.slack, 1000, 1000)
    return "; ".join([said, *figures] if said else figures)


def prepare(stage):
    launcher = stage.serve()
    for label in ("cat", "other"):
        launcher.load(socket_job(stage, label, ["/bin/cat"]))
    launcher.load(socket_job(stage, "greedy", ["/bin/sh", "-c", "exec head -c 400000 /dev/zero"]))
    check(call(stage.at("cat"), b"hello") == b"hello", "the job does not answer")
    # The shell that gives TERM is kept from the first one on, with a descriptor.
    launcher.load(shell_job("ended", "exec sleep 1000", RunAtLoad=True))
    launcher.tells("ended", "state = running")
    launcher.ask({"req": "stop", "job": "ended"})
    launcher.tells("ended", "last exit = signal 15")
    return launcher


def read_words():
    words = program_words(usage="see the head of this script")
    words.add_argument("--seed", type=int, default=int(time.time()))
    words.add_argument("--slack", type=float, default=1.0)
    words.add_argument("--soak", type=float)
    given = words.parse_args()
    given.trials = chosen(words, given, TRIALS)
    if given.soak:
        given.trials = [soak]
    return given


def play_all(stage):
    """Plays the trials, and says how each went. The number that failed."""
    launcher = prepare(stage)
    stage.told, failed = [], 0
    before, memory = at_rest(launcher.pid), resident(launcher.pid)
    for trial in stage.given.trials:
        try:
            line = f"ok {trial.__name__}: {play(stage, launcher, trial)}"
        except Fault as fault:
            line, failed = f"FAILED {trial.__name__}: {fault}", failed + 1
        stage.told.append(line)
        print(line, flush=True)
    left, grown = settles(launcher.pid, before, 5), resident(launcher.pid) - memory
    launcher.shut_down()
    check(left <= before, f"{left} descriptors at the end, {before} at the beginning")
    check(grown <= 24 * MIB, f"the memory grew by {grown} KiB")
    check(not os.listdir(stage.at("spool")), f"spool files are left: {os.listdir(stage.at('spool'))[:5]}")
    print(f"{len(stage.told)} trials, {failed} failed; {before} descriptors before and after, memory grew by {grown} KiB")
    return failed


def main():
    given = read_words()
    print(f"seed {given.seed}", flush=True)
    folder = tempfile.mkdtemp(prefix="hostile.")
    stage = Stage(given, folder)
    try:
        failed = play_all(stage)
    except Fault as fault:
        print(f"FAILED: {fault}")
        failed = 1
    finally:
        stage.clear()
        shutil.rmtree(folder, ignore_errors=True)
    return 1 if failed else 0


if __name__ == "__main__":
    sys.exit(main())
