"""Proves crates of this tree one by one with rt's own functions, and keeps what was proved, for kits whose `rt ci` keeps nothing.

A crate is kept under a sum of all that its proof reads: the kit, HANDLES, its line of crates.txt, its files, and the same of each crate below. So
clones share what they have alike, and what is kept is never taken for a crate that differs. It lies in KIVGROND_KEPT, or in the user's cache.
A library is kept as its statements, as the gate makes it; a program as what LLVM made of it. `rt ci` itself reads none of it.
"""
import copy
import hashlib
import os
import shutil
import subprocess
import sys
import tempfile
import threading
import time

sys.dont_write_bytecode = True
from kit import TOP, Timed, load_rt
from lanes import Lanes, measured

# What nobody took for so many seconds is removed.
UNUSED = 5 * 24 * 3600


def store():
    return os.environ.get("KIVGROND_KEPT") or os.path.join(os.environ.get("XDG_CACHE_HOME") or os.path.expanduser("~/.cache"), "kivgrond")


class Proofs:
    """The crates of the tree, and what is kept of them."""

    def __init__(self):
        self.rt = load_rt("Crate", "handles_of", "need", "free", "processors", "rtlib", "run", "must_fail_all", "edits_of")
        rtlib = self.rt.rtlib
        self.rt.Crate.allowed = self.rt.handles_of(TOP)
        # as under rt ci: the crates above a library load its statements
        self.rt.Crate.cuts_libraries = True
        rtlib.Crate = self.rt.Crate
        rtlib.stop = self.rt.stop
        rtlib.guarded()
        self.crates = {it.name: it for it in sorted(rtlib.crates_below(f"{TOP}/crates"), key=lambda it: len(it.below()))}
        os.makedirs(store(), exist_ok=True)
        self.keys = {}
        for it in self.crates.values():
            self.keys[it.name] = self.key(it)
            it.rlib = f"{store()}/{self.keys[it.name]}/{it.name}.rlib"

    def key(self, crate):
        said = hashlib.sha256(f"{self.rt.rtlib.text_of(f'{self.rt.KIT}/KIT-ID')} {self.rt.Crate.allowed} {sorted(crate.said.items())}".encode())
        for file in self.rt.rtlib.files_of(crate.folder):
            with open(file, "rb") as it:
                said.update(repr((os.path.relpath(file, crate.folder), it.read())).encode())
        for it in crate.deps:
            said.update(self.keys[it.name].encode())
        return f"{crate.name}-{said.hexdigest()[:24]}"

    def place(self, name):
        return f"{store()}/{self.keys[name]}"

    def is_kept(self, name):
        return os.path.isfile(f"{self.place(name)}/log")

    def with_those_below(self, names):
        wanted = {it.name for name in names for it in [*self.crates[name].below(), self.crates[name]]}
        return [it for it in self.crates.values() if it.name in wanted]

    def prove(self, crate, jobs):
        """Proves one crate, if it is not kept. Answers whether it stands, and writes what was said beside it."""
        if self.is_kept(crate.name):
            os.utime(self.place(crate.name))
            return True
        crate = copy.copy(crate)
        room = tempfile.mkdtemp(prefix=f"{crate.name}-new-", dir=store())
        begun, Timed.spent[crate.name] = time.monotonic(), 0.0
        try:
            with open(f"{room}/said", "w+", errors="replace") as crate.out:
                status = self.made(crate, room, jobs)
                print(f"seconds={Timed.spent[crate.name]:.1f} clock={time.monotonic() - begun:.1f} jobs={jobs}", file=crate.out)
            if status or self.key(self.crates[crate.name]) != self.keys[crate.name]:
                shutil.copyfile(f"{room}/said", f"{TOP}/build/{crate.name}.log")
                return False
            os.rename(f"{room}/said", f"{room}/log")
            try:
                os.rename(room, self.place(crate.name))
            except OSError:
                # another run kept it meanwhile, or the disk is full
                return self.is_kept(crate.name)
            return True
        finally:
            shutil.rmtree(room, ignore_errors=True)

    def made(self, crate, room, jobs):
        flags = ["--jobs", str(jobs)]
        if crate.makes_rlib():
            return crate.prove(["build", *crate.words(flags, keeps=False), "--statements", "-o", f"{room}/{crate.name}.rlib"])
        words = crate.words(flags, keeps=False)
        status = crate.prove(["check", *words, "-o", f"{room}/checked"])
        print(f"checked={Timed.spent[crate.name]:.1f}", file=crate.out, flush=True)
        for flag in ("--logic-built", "--jobs"):
            at = words.index(flag)
            words = [*words[:at], *words[at + 2 :]]
        words += ["--crate-checked", f"{room}/checked", "--toolchain", f"{self.rt.KIT}/toolchain"]
        made = f"out/{crate.name}"
        os.makedirs(f"{crate.folder}/out", exist_ok=True)
        status = status or crate.compile_by("llvm", words, made)
        if not status:
            shutil.copyfile(f"{crate.folder}/{made}", f"{room}/{crate.name}")
        shutil.rmtree(f"{room}/checked", ignore_errors=True)
        if os.path.isfile(f"{room}/checked"):
            os.remove(f"{room}/checked")
        return status

    def seconds(self, name):
        """What the kept proof of the crate took: processor seconds, seconds by the clock, jobs."""
        with open(f"{self.place(name)}/log", encoding="utf-8", errors="replace") as it:
            last = it.read().splitlines()[-1]
        return [float(it.partition("=")[2]) for it in last.split()]

    def guess(self, crate):
        """About how many seconds the proof of a crate takes that was never measured."""
        return 20 + crate.count(rb"\n") // 6 + 3 * len(crate.below())

    def prove_all(self, names, shown=print):
        """Proves these crates and all below them, side by side. Answers the names of those that are not proved."""
        subprocess.Popen = Timed
        crates = self.with_those_below(names)
        done, guard, failed, known = [0], threading.Lock(), set(), measured(f"{TOP}/bench/crate_seconds.csv")

        def work(name, jobs, _given):
            crate = self.crates[name]
            if failed & {it.name for it in crate.below()}:
                failed.add(name)
                return False
            kept = self.is_kept(name)
            try:
                stands = self.prove(crate, jobs)
            except SystemExit:
                stands = False
            with guard:
                if not stands:
                    failed.add(name)
                done[0] += 1
                told = "" if stands else " NOT PROVED"
                spent = " (kept)" if kept else " {:.0f} s, {:.0f} by the clock".format(*self.seconds(crate.name)) if stands else ""
                shown(f"[{done[0]}/{len(crates)}] {crate.name}{told}{spent}", flush=True)
            return stands

        below = {it.name: {dep.name for dep in it.below()} for it in crates}
        seconds = {it.name: 0.1 if self.is_kept(it.name) else known.get(it.name, self.guess(it)) for it in crates}
        # checks were seen to take a third to a half of what rt reckons
        memory = {it.name: self.rt.need(it) // 2 for it in crates}
        number = os.environ.get("RT_JOBS", "")
        lanes = Lanes(below, seconds, memory, int(number) if number.isdigit() else self.rt.processors(), 0.85 * self.rt.free())
        given = lanes.run(work)
        self.prune()
        return [it.name for it in crates if not given[it.name]]

    def prune(self):
        for name in os.listdir(store()):
            path = f"{store()}/{name}"
            if time.time() - os.stat(path).st_mtime > UNUSED:
                shutil.rmtree(path, ignore_errors=True)
