"""Waits, and what they are charged by: how quick the machine is meanwhile. The faults of scenes.

A wait ends with what is waited for. Its deadline follows the machine: `play.py` has a process beside the scenes that sleeps and writes, again and again
(`Probe`), and while that is slow, or more processes want to run than there are processors, less of the wait counts. Without it (other scripts)
seconds are seconds. Where a deadline passes, the fault is a `Late`: it may be the machine's. What is wrong, or lost, is a `Fault`.

BOUND in the environment is for how many seconds a fact is waited for, 20 if it is not set.
"""
import ctypes
import mmap
import os
import signal
import struct
import time

BOUND = float(os.environ.get("BOUND", "20"))


class Fault(Exception):
    """What was seen, and is not as it has to be."""


class Late(Fault):
    """A deadline passed before what was waited for came."""


def check(fact, why):
    if not fact:
        raise Fault(why)


def in_time(fact, why):
    """As `check`, of how long something took."""
    if not fact:
        raise Late(why)


# ---- the speed of the machine

class Probe:
    """A process that sleeps for 50 ms and writes a block through to the disk at each fourth time, again and again. It counts the seconds that a wait is
    charged with, and keeps what it saw."""

    TICK, KEPT = 0.05, 4096
    ROW = struct.Struct("ddd")

    def __init__(self, folder):
        self.seen = mmap.mmap(-1, 16 + self.KEPT * self.ROW.size)
        self.pid = os.fork()
        if self.pid == 0:
            try:
                ctypes.CDLL(None).prctl(1, signal.SIGKILL, 0, 0, 0)
                self.look(os.open(os.path.join(folder, "probe"), os.O_WRONLY | os.O_CREAT, 0o600))
            finally:
                os._exit(0)

    def look(self, disk):
        counted, at, processors = 0.0, 0, os.cpu_count() or 1
        while True:
            begun = time.monotonic()
            time.sleep(self.TICK)
            slept = time.monotonic() - begun
            written = 0.0
            if at % 4 == 0:
                os.pwrite(disk, b"." * 4096, 0)
                os.fdatasync(disk)
                written = time.monotonic() - begun - slept
            running = int(text_at("/proc/loadavg").split()[3].partition("/")[0])
            counted += min(slept + written, 2 * self.TICK) / max(1.0, running / processors)
            self.ROW.pack_into(self.seen, 16 + at % self.KEPT * self.ROW.size, begun, slept - self.TICK, written)
            at += 1
            struct.pack_into("dQ", self.seen, 0, counted, at)

    def counted(self):
        return struct.unpack_from("d", self.seen)[0]

    def told(self, since):
        """The most that a sleep of 50 ms was late, and a write to the disk took, since this moment."""
        count = struct.unpack_from("Q", self.seen, 8)[0]
        rows = [self.ROW.unpack_from(self.seen, 16 + at % self.KEPT * self.ROW.size) for at in range(max(0, count - self.KEPT), count)]
        rows = [row for row in rows if row[0] >= since] or [(0, 0, 0)]
        return f"a sleep of 50 ms was late by {1000 * max(row[1] for row in rows):.0f} ms at most, fdatasync took {1000 * max(row[2] for row in rows):.0f} ms"

    def end(self):
        os.kill(self.pid, signal.SIGKILL)
        os.waitpid(self.pid, 0)


class Pace:
    """By what a wait is charged: the probe, if there is one."""

    probe = None
    # A wait lasts at most so many times its seconds.
    MOST = 10


def seconds():
    """A clock of the seconds that a wait is charged with."""
    return Pace.probe.counted() if Pace.probe else time.monotonic()


def patience(bound=None):
    """How many seconds a call may last that takes a plain timeout: more where the machine is slow now."""
    bound = BOUND if bound is None else bound
    if Pace.probe is None:
        return bound
    running = int(text_at("/proc/loadavg").split()[3].partition("/")[0])
    return 2 * bound * min(Pace.MOST / 2, max(1.0, running / (os.cpu_count() or 1)))


class Deadline:
    """Whether so many seconds are over, as the probe counts them."""

    def __init__(self, bound):
        self.bound, self.begun, self.counted = bound, time.monotonic(), seconds()

    def is_over(self):
        return seconds() - self.counted > self.bound or time.monotonic() - self.begun > Pace.MOST * self.bound


def comes(fact, bound=None):
    """The fact's first value that counts as true, or None when the bound is over."""
    deadline = Deadline(BOUND if bound is None else bound)
    while True:
        value = fact()
        if value:
            return value
        if deadline.is_over():
            return None
        time.sleep(0.01)


def wait_for(fact, why, bound=None):
    """As `comes`, but a Late where the bound is over: `why`, or what it returns then."""
    value = comes(fact, bound)
    if not value:
        raise Late(f"{why() if callable(why) else why}, in {BOUND if bound is None else bound:.0f} s")
    return value


def text_at(path):
    try:
        with open(path, "r", encoding="utf-8", errors="replace") as file:
            return file.read()
    except OSError:
        return ""
