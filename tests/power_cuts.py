#!/usr/bin/env python3
"""Cuts the power at each call of a launcher on its store, and looks whether each acknowledged setting is there.

    tests/power_cuts.py [--settings N] [--cuts N] [--seed S] [--at-once N] [--jobd PROGRAM]

It is run by hand, and needs strace(1). PROGRAM is build/jobd. Two launchers, one after the other, run over one store under strace: the first from nothing and to
its end, the second until a signal 9. Each gets half of N settings (200 where absent), one after the other. So the calls on the store's two files and its folder are known, with their bytes, and where
among them each reply went out.

At 1,500 places between two calls, or N of them (all, if 0), the files are made as a disk may have them if the machine loses its power there: what was synced is there. Of the
writes, cuts and new names after that, none are there, or all, or some, chosen at random, and one of them with some of its sectors of 512 bytes alone. Of each:

    overrides   `jobd overrides` opens the store. Each label has its last acknowledged setting, or one that was asked after it
    serve       where `overrides` refuses the store, nothing was acknowledged. For one store of fifteen, and each that is refused: `jobd serve` is ready over it

Each fault is printed, and the last line counts; the status is 1 if there is one.
"""
import argparse
import collections
import concurrent.futures
import json
import os
import random
import re
import shutil
import signal
import subprocess
import sys
import tempfile
import time

sys.dont_write_bytecode = True
HERE = os.path.dirname(os.path.abspath(__file__))
sys.path.insert(0, os.path.join(HERE, "scenes"))
from harness import connect, read_line  # noqa: E402

CALLS = "openat,creat,pwrite64,pwritev,write,writev,sendto,sendmsg,ftruncate,fallocate,fsync,fdatasync,unlink,unlinkat,rename,renameat,renameat2,link,linkat"
CALL = re.compile(r"(\d+) +(\w+)\((.*)\) += (-?\d+)")
SECTOR = 512
# Calls on the files of the store that this script does not know how to play: there are none.
UNKNOWN = ("pwritev", "writev", "write", "fallocate", "rename", "renameat", "renameat2", "link", "linkat", "creat")


def plain(text):
    return re.sub(rb"\\x([0-9a-f]{2})", lambda it: bytes([int(it[1], 16)]), text.encode()) if "\\x" in text else text.encode()


def words_of(program, folder):
    return [program, "serve", "--socket", f"{folder}/socket", "--store", f"{folder}/store", "--spool", f"{folder}/spool"]


def until_ready(process):
    return process.stdout.readline() == b"jobd: ready\n"


def record(program, folder, requests):
    """Runs the two launchers. Gives their calls that matter, of the replies those to settings."""
    os.mkdir(f"{folder}/spool", 0o700)
    half, done = len(requests) // 2, []
    for number, part in enumerate((requests[:half], requests[half:])):
        out = f"{folder}/calls{number}"
        traced = ["strace", "-f", "-y", "-xx", "-s", "1000000", "-e", f"trace={CALLS}", "-o", out, *words_of(program, folder)]
        process = subprocess.Popen(traced, stdout=subprocess.PIPE, stderr=subprocess.DEVNULL, start_new_session=True)
        assert until_ready(process), "the launcher does not start"
        client = connect(f"{folder}/socket")
        for label, setting in part:
            client.sendall(json.dumps({"req": setting, "job": label}).encode() + b"\n")
            assert json.loads(read_line(client))["code"] == 0, "a setting is refused"
        if number:
            os.killpg(process.pid, signal.SIGKILL)
        else:
            client.sendall(b'{"req":"shutdown"}\n')
        process.wait(60)
        with open(out, encoding="utf-8") as text:
            calls = list(steps(text, folder))
        replies = [at for at, it in enumerate(calls) if it == ("reply",)]
        assert len(replies) >= len(part), f"{len(replies)} replies to {len(part)} settings were seen"
        # A reply to the shutdown may follow.
        done += [it for at, it in enumerate(calls) if at not in replies[len(part):]]
    return done


def steps(lines, folder):
    """The calls that matter, in order: ("write", file, at, bytes), ("cut", file, size), ("sync", file), ("make" or "remove", file), ("folder",), and ("reply",)."""
    begun, files = {}, {f"{folder}/{name}".encode(): name for name in ("store", "store-wal", "store-journal", "store-shm")}
    for line in lines:
        pid, _, rest = line.rstrip("\n").partition(" ")
        if rest.endswith("<unfinished ...>"):
            begun[pid] = rest[: -len("<unfinished ...>")]
            continue
        if resumed := re.match(r" *<\.\.\. \w+ resumed>", rest):
            rest = begun.pop(pid, "") + rest[resumed.end():]
        call = CALL.match(f"{pid} {rest}")
        if not call or int(call[4]) < 0:
            continue
        _, name, words, result = call.groups()
        on = re.match(r"\d+<([^>]*)>", words)
        path = plain(on[1]) if on else b""
        texts = [plain(it) for it in re.findall(r'"((?:[^"\\]|\\.)*)"', words)]
        if name == "openat" and texts and texts[0] in files and "O_EXCL" in words:
            yield ("make", files[texts[0]])
        elif name in ("unlink", "unlinkat") and texts and texts[0] in files:
            yield ("remove", files[texts[0]])
        elif path in files and name == "pwrite64":
            at = int(words.rpartition(",")[2])
            yield ("write", files[path], at, texts[0][: int(result)])
        elif path in files and name == "ftruncate":
            yield ("cut", files[path], int(words.rpartition(",")[2]))
        elif path in files and name in ("fsync", "fdatasync"):
            yield ("sync", files[path])
        elif path in files and name in UNKNOWN or name in UNKNOWN and any(it in files for it in texts):
            sys.exit(f"power_cuts: {name} on the store is not known here")
        elif path == folder.encode() and name == "fsync":
            yield ("folder",)
        elif name in ("write", "sendto", "sendmsg") and texts and texts[0].startswith(b'{"code":0'):
            yield from [("reply",)] * texts[0].count(b'{"code"')


class Disk:
    """What is on the disk for sure, and what may be there."""

    def __init__(self):
        self.bytes, self.names, self.waiting, self.changed = {}, set(), {}, []

    def take(self, step):
        what, name = step[0], step[1] if len(step) > 1 else None
        if what in ("write", "cut"):
            self.waiting.setdefault(name, []).append(step)
        elif what == "sync":
            for it in self.waiting.pop(name, []):
                self.bytes[name] = applied(self.bytes.get(name, b""), it)
        elif what in ("make", "remove"):
            self.changed.append(step)
        elif what == "folder":
            for it in self.changed:
                self.rename(self.names, it)
            self.changed = []

    def rename(self, names, step):
        (names.add if step[0] == "make" else names.discard)(step[1])

    def left(self, chance, how):
        """The files after a cut of the power."""
        names, files = set(self.names), dict(self.bytes)
        for step in self.changed:
            if how == "all" or how == "some" and chance.random() < 0.5:
                self.rename(names, step)
        for name, waiting in self.waiting.items():
            chosen = [] if how == "none" else [it for it in waiting if how == "all" or chance.random() < 0.5]
            torn = chance.randrange(len(chosen)) if chosen and how == "some" else None
            for at, it in enumerate(chosen):
                for part in sectors(chance, it) if at == torn else [it]:
                    files[name] = applied(files.get(name, b""), part)
        return {name: files.get(name, b"") for name in names}


def sectors(chance, step):
    """Some of the sectors that a write reaches."""
    if step[0] != "write":
        return [step]
    _, name, at, data = step
    ends = [at, *range(at - at % SECTOR + SECTOR, at + len(data), SECTOR), at + len(data)]
    return [("write", name, low, data[low - at:high - at]) for low, high in zip(ends, ends[1:]) if chance.random() < 0.5]


def applied(data, step):
    if step[0] == "cut":
        return data[: step[2]].ljust(step[2], b"\0")
    _, _, at, text = step
    return data[:at].ljust(at, b"\0") + text + data[at + len(text):]


def may_have(requests, acknowledged):
    """What each label may have: its last acknowledged setting, or the one that is under way."""
    found = {}
    for label, setting in requests[:acknowledged]:
        found[label] = {setting}
    for label, setting in requests[acknowledged:acknowledged + 1]:
        found.setdefault(label, {None}).add(setting)
    return found


def look(program, folder, number, files, allowed, acknowledged):
    """What is wrong with a store of these files; nothing, if it is right. And whether it was refused."""
    place = f"{folder}/{number}"
    os.makedirs(f"{place}/spool", 0o700)
    for name, data in files.items():
        with open(f"{place}/{name}", "wb") as out:
            out.write(data)
        os.chmod(f"{place}/{name}", 0o600)
    run = subprocess.run([program, "overrides", "--store", f"{place}/store"], capture_output=True, text=True, timeout=120)
    is_refused, fault = run.returncode != 0, None
    if is_refused and acknowledged:
        fault = f"status {run.returncode}: {run.stderr.strip()}"
    elif not is_refused:
        listed = {row.split("\t")[0]: {"disabled": "disable", "enabled": "enable"}[row.split("\t")[1]] for row in run.stdout.splitlines()}
        wrong = [label for label in {*listed, *allowed} if listed.get(label) not in allowed.get(label, {None})]
        fault = f"{wrong[0]} has {listed.get(wrong[0])}, expected one of {allowed.get(wrong[0])}" if wrong else None
    if not fault and (is_refused or number % 15 == 0):
        process = subprocess.Popen(words_of(program, place), stdout=subprocess.PIPE, stderr=subprocess.PIPE)
        if not until_ready(process):
            fault = f"`serve` does not start: {process.stderr.read().decode(errors='replace').strip()}"
        process.kill()
        process.communicate()
    shutil.rmtree(place)
    return fault, is_refused


def tried(pool, given, chance, program, folder, requests, done, places):
    """Each place with each way, and what was found. Few stores are held at once: they are large."""
    disk, acknowledged, under_way, number = Disk(), 0, collections.deque(), 0
    for at in range(len(done) + 1):
        for how in ("none", "all", "some") if at in places else ():
            under_way.append((at, how, pool.submit(look, program, folder, number, disk.left(chance, how), may_have(requests, acknowledged), acknowledged)))
            number += 1
        while under_way and (at == len(done) or len(under_way) > 4 * given.at_once):
            place, way, found = under_way.popleft()
            yield place, way, found.result()
        if at < len(done):
            disk.take(done[at])
            acknowledged += done[at] == ("reply",)


def main():
    words = argparse.ArgumentParser(usage="see the head of this script")
    words.add_argument("--settings", type=int, default=200)
    words.add_argument("--cuts", type=int, default=1500)
    words.add_argument("--seed", type=int, default=int(time.time()))
    words.add_argument("--at-once", type=int, default=2)
    words.add_argument("--jobd", default=os.path.join(HERE, "..", "build", "jobd"))
    given = words.parse_args()
    print(f"seed {given.seed}", flush=True)
    chance, program, folder = random.Random(given.seed), os.path.abspath(given.jobd), os.path.realpath(tempfile.mkdtemp(prefix="power."))
    labels = [f"job.{number}" for number in range(30)] + ["s" * 255]
    requests = [(chance.choice(labels), chance.choice(("enable", "disable"))) for _ in range(given.settings)]
    count = refused = failed = 0
    try:
        done = record(program, folder, requests)
        places = set(chance.sample(range(len(done) + 1), min(given.cuts, len(done) + 1)) if given.cuts else range(len(done) + 1))
        with concurrent.futures.ThreadPoolExecutor(given.at_once) as pool:
            for at, how, (fault, is_refused) in tried(pool, given, chance, program, folder, requests, done, places):
                count, refused, failed = count + 1, refused + is_refused, failed + bool(fault)
                if fault:
                    print(f"FAILED after call {at} of {len(done)} ({done[at - 1][:2]}), {how} of what was not synced: {fault}", flush=True)
    finally:
        shutil.rmtree(folder, ignore_errors=True)
    print(f"{len(done)} calls and replies; {count} stores after a cut of the power, {refused} refused before the first setting, {failed} failed")
    return 1 if failed else 0


if __name__ == "__main__":
    sys.exit(main())
