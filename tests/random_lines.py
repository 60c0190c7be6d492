#!/usr/bin/env python3
"""Sends random journals through `jobd replay` and checks what no contract says of the running program.

    tests/random_lines.py [--program PROGRAM] [--lines N] [--seed S] [--jobs J]

PROGRAM is build/jobd, N is a million lines, S is taken from the clock and printed. A journal has a header and lines of
which most are valid, some are damaged (a byte turned, dropped, added or the line cut), some are of no kind at all; jobs,
runs and connections are few, so that most events meet a job. For each journal:

    status      0; 2 where the header was damaged; 4 where a line is too long; never another, never a signal
    lines       with status 0 one outcome line for each event line; each is compact JSON with exactly the keys code, orders
                and text; the code is 0 to 15; a refusal has no orders; an order has the keys of its kind
    front       the output for the first half of the lines is the front of the output for all of them
    again       the same input gives the same output

Prints the first input that fails as a file name, and ends with 1 then. The last line counts.
"""
import argparse
import concurrent.futures
import json
import os
import random
import subprocess
import sys
import tempfile
import time

HERE = os.path.dirname(os.path.abspath(__file__))
LABELS = ["a", "b", "com.example.web", "s" * 255, "ä"]
NO_LABELS = ["", "x/y", "s" * 256, "tab\there"]
PATHS = ["/w", "/q", "/f", "/nobody/lists/this"]
KEYS_OF = {
    "spawn": [{"job", "order", "run"}, {"conn", "job", "order", "run"}],
    "term": [{"job", "order", "run"}],
    "kill": [{"job", "order", "run"}],
    "close": [{"conn", "job", "order"}],
    "gone": [{"job", "order"}],
}


def definition(rng, label):
    """A definition that a user might write, or one with a fault."""
    found = {"Label": label, "ProgramArguments": ["/bin/x", "1"]}
    choices = {
        "RunAtLoad": lambda: rng.random() < 0.7,
        "LaunchOnlyOnce": lambda: rng.random() < 0.3,
        "Disabled": lambda: rng.random() < 0.3,
        "OnDemand": lambda: rng.random() < 0.5,
        "KeepAlive": lambda: rng.choice([True, False, {}, {"SuccessfulExit": rng.random() < 0.5}, {"Crashed": True}, {"PathState": {"/f": True}}]),
        "WatchPaths": lambda: ["/w"],
        "QueueDirectories": lambda: ["/q"],
        "StartInterval": lambda: rng.choice([1, 60, 3600, 0, 1.5]),
        "StartCalendarInterval": lambda: rng.choice([{"Minute": rng.randrange(60)}, [{"Minute": 14}, {"Hour": 3}], {}, {"Weekday": 8}]),
        "ThrottleInterval": lambda: rng.choice([0, 1, 10]),
        "ExitTimeOut": lambda: rng.choice([0, 1, 20]),
        "Sockets": lambda: {"l": {"SockPathName": "/tmp/s"}},
        "inetdCompatibility": lambda: {"Wait": rng.random() < 0.2},
        "UserName": lambda: "nobody",
        "Nice": lambda: 5,
    }
    for key in rng.sample(sorted(choices), rng.randrange(5)):
        found[key] = choices[key]()
    if "Sockets" in found and rng.random() < 0.9:
        found["inetdCompatibility"] = {"Wait": False}
    if rng.random() < 0.9:
        found.pop("UserName", None)
    return json.dumps(found)


class Journal:
    """Writes lines that follow one another as a launcher's would, as far as it can guess."""

    def __init__(self, rng):
        self.rng, self.up, self.wall, self.conn = rng, 0, 1_700_000_000, 0

    def header(self):
        zone = self.rng.choice([{"zone": "UTC0"}, {"zone": "EST5EDT,M3.2.0,M11.1.0"}, {"offset": 3600}])
        return json.dumps({"up": self.up, "wall": self.wall, "overrides": {"b": self.rng.random() < 0.5}, **zone})

    def event(self):
        rng = self.rng
        job = rng.choice(LABELS) if rng.random() < 0.98 else rng.choice(NO_LABELS)
        run = rng.choice([1, 1, 1, 2, 2, 3, 0, 2**63])
        kind = rng.choice(
            "load load unload start stop enable disable list print clock clock clock saw came left spawned spawned spawn_refused "
            "termed killed ended ended wait_refused kickstart".split()
        )
        if rng.random() < 0.002:
            return {"ev": "shutdown"}
        if kind == "load":
            asked = {"w": rng.random() < 0.2, "F": rng.random() < 0.2, "bind": rng.random() < 0.9, "store": rng.random() < 0.9}
            return {"ev": kind, "def": definition(rng, job), **{it: asked[it] for it in asked if rng.random() < 0.3}}
        if kind == "clock":
            self.up += rng.choice([0, 1, 999, 1000, 10_000, 60_000, 3_600_000, -1])
            self.wall += rng.choice([0, 1, 60, 3600, 86_400, -3600])
            return {"ev": kind, "up": max(self.up, 0), "wall": max(self.wall, 0)}
        if kind == "saw":
            return {"ev": kind, "path": rng.choice(PATHS), "exists": rng.random() < 0.5, "nonempty": rng.random() < 0.5, "stamp": rng.randrange(3)}
        if kind in ("came", "left"):
            self.conn += kind == "came"
            return {"ev": kind, "job": job, "conn": max(self.conn - rng.randrange(3), 0)}
        more = {
            "spawned": {"run": run, "pid": rng.choice([1, 812, 2**32 - 1, 0])},
            "spawn_refused": {"run": run},
            "wait_refused": {"run": run},
            "termed": {"run": run, "ok": rng.random() < 0.8},
            "killed": {"run": run, "ok": rng.random() < 0.8},
            "ended": {"run": run, rng.choice(["code", "signal"]): rng.choice([0, 1, 8, 9, 11, 15, 255, 256])},
            "kickstart": {"k": rng.random() < 0.5},
            "enable": {"store": rng.random() < 0.8},
            "disable": {"store": rng.random() < 0.8},
        }
        if kind in ("enable", "disable", "print", "kickstart"):
            job = rng.choice(["", "system/", "user/501/", "gui/501/", "gui/x/"]) + job
        return {"ev": kind} if kind == "list" else {"ev": kind, "job": job, **more.get(kind, {})}

    def line(self):
        rng = self.rng
        chance = rng.random()
        if chance < 0.01:
            return bytes(rng.randrange(256) for _ in range(rng.randrange(60))).replace(b"\n", b" ")
        line = json.dumps(self.event(), separators=rng.choice([(",", ":"), (", ", ": ")])).encode()
        return damaged(rng, line) if chance < 0.08 else line


def damaged(rng, line):
    at = rng.randrange(len(line))
    way = rng.randrange(4)
    if way == 0:
        line = line[:at]
    elif way == 1:
        line = line[:at] + line[at + 1 :]
    elif way == 2:
        line = line[:at] + bytes([rng.randrange(256)]) + line[at + 1 :]
    else:
        line = line[:at] + bytes([rng.randrange(256)]) + line[at:]
    return line.replace(b"\n", b" ")


def bad_line(line):
    """What is wrong with an outcome line, or None."""
    try:
        found = json.loads(line)
    except ValueError:
        return "not JSON"
    if type(found) is not dict or set(found) != {"code", "orders", "text"}:
        return "other keys"
    if found["code"] not in range(16) or type(found["text"]) is not str or type(found["orders"]) is not list:
        return "a value of another kind"
    if found["code"] and (found["orders"] or not found["text"].endswith("\n")):
        return "a refusal with orders, or without its text"
    for order in found["orders"]:
        if set(order) not in KEYS_OF.get(order.get("order"), []):
            return "an order of no kind"
    if json.dumps(found, separators=(",", ":"), sort_keys=True, ensure_ascii=False).encode() != line:
        return "not compact, or keys out of order"
    return None


def replayed(program, text):
    ran = subprocess.run([program, "replay"], input=text, stdout=subprocess.PIPE, stderr=subprocess.PIPE, timeout=100)
    return ran.returncode, ran.stdout


def fault_of(program, lines, header_is_damaged):
    """What is wrong with the replays of these lines (the first is the header), or None."""
    text = b"".join(it + b"\n" for it in lines)
    status, wrote = replayed(program, text)
    if header_is_damaged and status == 2:
        return None if not wrote else "a damaged header, and something was written"
    if status != 0:
        return f"status {status}"
    told = wrote.split(b"\n")
    if told.pop() != b"" or len(told) != len(lines) - 1:
        return f"{len(told)} outcomes for {len(lines) - 1} lines"
    for at, line in enumerate(told):
        why = bad_line(line)
        if why:
            return f"line {at + 2}: {why}: {line[:200]}"
    half = lines[: 1 + len(lines) // 2]
    status, front = replayed(program, b"".join(it + b"\n" for it in half))
    if status != 0 or not wrote.startswith(front) or front.count(b"\n") != len(half) - 1:
        return "the output of the first half is no front of the whole"
    return None if replayed(program, text) == (0, wrote) else "another output the second time"


def try_journal(program, seed, count):
    rng = random.Random(seed)
    journal = Journal(rng)
    header = journal.header().encode()
    is_damaged = rng.random() < 0.03
    lines = [damaged(rng, header) if is_damaged else header]
    lines += [journal.line() for _ in range(count)]
    # a line that is empty but for blanks is a line too
    why = fault_of(program, lines, is_damaged)
    if why:
        kept = os.path.join(tempfile.gettempdir(), f"random-lines-{seed}.jsonl")
        with open(kept, "wb") as out:
            out.write(b"".join(it + b"\n" for it in lines))
        return f"{kept}: {why}"
    return None


def main():
    words = argparse.ArgumentParser(description="Random journals through jobd replay.")
    words.add_argument("--program", default=os.path.join(os.path.dirname(HERE), "build", "jobd"))
    words.add_argument("--lines", type=int, default=1_000_000)
    words.add_argument("--seed", type=int, default=time.time_ns() % 1_000_000_007)
    words.add_argument("--jobs", type=int, default=os.cpu_count())
    given = words.parse_args()
    each = 2_000
    journals = max(given.lines // each, 1)
    begun = time.monotonic()
    failed = []
    with concurrent.futures.ProcessPoolExecutor(given.jobs) as pool:
        tasks = [pool.submit(try_journal, given.program, given.seed * 1_000_003 + it, each) for it in range(journals)]
        for task in concurrent.futures.as_completed(tasks):
            if task.result():
                failed.append(task.result())
                print(task.result(), flush=True)
    spent = time.monotonic() - begun
    print(f"seed {given.seed}: {journals} journals, {journals * each} lines, {len(failed)} failed, {spent:.0f} s")
    return 1 if failed else 0


if __name__ == "__main__":
    sys.exit(main())
