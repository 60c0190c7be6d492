#!/usr/bin/env python3
"""Builds the program as `make build` does, then runs the gate as `rt ci` does, both with nothing of an earlier run, and prints what they cost: the time
of the build by the clock, and the processor seconds of each crate's proof, tests and edits.

    bench/times.py

It calls rt's own functions, with RT_JOBS lanes (as many as there are processors if it is unset). The gate takes what the build proved, as it does for
users: each part is done once. So the crates of the program are counted without the gate's warnings of contracts that no call can meet, which take
4 to 14 % of a check (tools/build_all.py). A kit whose rt keeps nothing (13b) runs the gate alone. What was proved is then kept as by any other run. The figures
are appended to bench/history.csv, and what each proof took is left in bench/crate_seconds.csv, by which `make build` orders the crates. Each process that
rt starts is counted by its user and system time, its own children included, and put down to the crate that it names:

    proof    the check of the crate from nothing; of a program also its two compilers
    tests    the check of the crate with its tests, and their compiler
    edits    the must-fail edits, the first check that they share and the last one
    runs     programs and tests that were run, and what is of no crate

The last lines are those of rt, then the sum and the time by the clock. The status is rt's.
"""
import contextlib
import csv
import os
import shutil
import subprocess
import sys
import time

sys.dont_write_bytecode = True
import history

HERE = os.path.dirname(os.path.abspath(__file__))
sys.path.insert(0, f"{os.path.dirname(HERE)}/tools")
import build_all
import kit

PROGRAM = "jobd_program"
COLUMNS = ("proof", "tests", "edits", "runs")


class Timed(kit.Timed):
    """A process whose processor time is put down to the crate that it names, and to a column."""

    @staticmethod
    def place(words, folder):
        crate = kit.crate_in(words)
        if not crate:
            return "-", "runs"
        if os.path.basename(str(folder or "")).startswith("rt-edit-"):
            return crate, "edits"
        return crate, "tests" if "--test" in words else "proof"


def keep_seconds(spent):
    """Leaves what the proof of each crate took, for the order of a build."""
    with open(f"{HERE}/crate_seconds.csv", "w", newline="", encoding="utf-8") as file:
        rows = csv.writer(file, lineterminator="\n")
        rows.writerow(["crate", "proof"])
        rows.writerows([crate, f"{spent[crate, of]:.0f}"] for crate, of in sorted(spent) if of == "proof")


def print_table(spent, begun):
    crates = {crate for crate, _ in spent}
    rows = [(crate, [spent.get((crate, it), 0.0) for it in COLUMNS]) for crate in crates]
    rows.sort(key=lambda it: -sum(it[1]))
    print(f"\n{'crate':24}" + "".join(f"{it:>9}" for it in (*COLUMNS, "sum")) + "  (processor seconds)")
    for crate, cells in rows:
        print(f"{crate:24}" + "".join(f"{it:9.1f}" for it in (*cells, sum(cells))))
    sums = [sum(cells[at] for _, cells in rows) for at in range(len(COLUMNS))]
    print(f"{'sum':24}" + "".join(f"{it:9.1f}" for it in (*sums, sum(sums))))
    minutes = (time.monotonic() - begun) / 60
    history.append("the whole gate", minutes_of(spent), "processor minutes", "make times")
    print(f"{sum(sums) / 60:.1f} processor minutes, {minutes:.1f} minutes by the clock, RT_JOBS={os.environ['RT_JOBS']}")


def minutes_of(spent):
    return f"{sum(spent.values()) / 60:.1f}"


@contextlib.contextmanager
def nothing_kept(rt):
    """Has this rt keep what it proves in an empty folder, and hands that over to the usual one at the end."""
    usual = rt.STORE
    rt.STORE = f"{usual}-{os.getpid()}"
    for folder in (rt.STORE, usual):
        os.makedirs(f"{folder}/edits", 0o700, exist_ok=True)
    try:
        yield rt.STORE
    finally:
        for name in [*os.listdir(rt.STORE), *(f"edits/{it}" for it in os.listdir(f"{rt.STORE}/edits"))]:
            if name != "edits" and not os.path.exists(f"{usual}/{name}"):
                os.rename(f"{rt.STORE}/{name}", f"{usual}/{name}")
        shutil.rmtree(rt.STORE, ignore_errors=True)


def build_and_gate(rt):
    """The status of the gate over what a build proved, which is timed by the clock, with nothing kept from before."""
    with nothing_kept(rt) as store:
        begun = time.monotonic()
        builder = kit.load_rt()
        builder.STORE = store
        status = build_all.build_by_rt(PROGRAM, builder)
        clock = f"{(time.monotonic() - begun) / 60:.1f}"
        said = f"make build: {minutes_of(Timed.spent)} processor minutes, {clock} by the clock"
        if not status:
            history.append("the program from nothing", clock, "minutes by the clock", "make times")
            history.append("the program from nothing", minutes_of(Timed.spent), "processor minutes", "make times")
        print(said, flush=True)
        status = rt.ci(False)
    print(said)
    return status


def main():
    os.chdir(os.path.dirname(HERE))
    os.environ.setdefault("RT_JOBS", str(os.cpu_count()))
    os.makedirs("build", exist_ok=True)
    rt = kit.load_rt("ci")
    begun = time.monotonic()
    subprocess.Popen = Timed
    status = build_and_gate(rt) if kit.rt_keeps() else rt.ci()
    sys.stdout.flush()
    print_table(Timed.spent, begun)
    if not status:
        keep_seconds(Timed.spent)
    return status


if __name__ == "__main__":
    sys.exit(main())
