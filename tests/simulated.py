#!/usr/bin/env python3
"""Plants faults of the status file in a copy of the sources, and checks that the simulator finds each one within a minute.

    tests/simulated.py [PLANT..]               one at a time
    tests/simulated.py --together [PLANT..]    all in one copy, which is compiled once

A plant is a file of tests/simulator_plants: a line `found:`, a line `file:`, and then pairs of `old:` and `new:`. Each `old:` is a text that is once in
that file. PLANT is its name. For each copy the simulator is compiled without a proof and without optimizing (some minutes), and plays the numbers from 1
on, one after the other. A plant is found at the first number whose fault fits the pattern of `found:`; with one plant alone, at the first number that fails. The
script prints a line for each plant: at which number it was found, after how many seconds, and as what. The status is 1 if one was not found, or could not
be tried.
"""
import os
import re
import shutil
import subprocess
import sys
import tempfile
import time

TOP = os.path.dirname(os.path.dirname(os.path.abspath(__file__)))
PLANTS = f"{TOP}/tests/simulator_plants"
COPIED = ("crates", "tools", "tests/simulator", "crates.txt", "HANDLES")
SECONDS = 60


def lines_of(name):
    with open(f"{PLANTS}/{name}.edit", encoding="utf-8") as it:
        for line in it.read().splitlines():
            word, _, text = line.partition(": ")
            yield word, text


def wanted(name):
    """A pattern of what the fault of this plant is reported as."""
    return "".join(text for word, text in lines_of(name) if word == "found")


def plant(folder, name):
    """Applies the plant in the copy. None, or why it can't be applied."""
    place = old = None
    for word, text in lines_of(name):
        if word == "file":
            place = f"{folder}/{text.strip()}"
        elif word == "old":
            old = text
        elif word == "new":
            with open(place, encoding="utf-8") as it:
                source = it.read()
            if source.count(old) != 1:
                return f"{name} can't be planted: {place[len(folder) + 1:]} has this {source.count(old)} times: {old.strip()}"
            with open(place, "w", encoding="utf-8") as out:
                out.write(source.replace(old, text))
    return None


def copy_to(folder):
    for part in COPIED:
        if os.path.isdir(f"{TOP}/{part}"):
            shutil.copytree(f"{TOP}/{part}", f"{folder}/{part}", ignore=shutil.ignore_patterns("out", "__pycache__"))
        else:
            shutil.copy(f"{TOP}/{part}", f"{folder}/{part}")


def found_by(program, names):
    """What was found of each of these plants, as a line; and how many numbers were played."""
    found, start, number = {}, time.monotonic(), 0
    while len(found) < len(names) and time.monotonic() - start < SECONDS:
        number += 1
        ran = subprocess.run([program, f"{number}..1"], stdin=subprocess.DEVNULL, capture_output=True, text=True, errors="replace", timeout=SECONDS,
                             env={**os.environ, "QUICK_IS_QUIET": "1"})
        if ran.returncode == 0:
            continue
        said = (ran.stderr.splitlines() or [f"it exited with {ran.returncode}"])[0]
        for name in names:
            if len(names) == 1 or re.search(wanted(name), said):
                found.setdefault(name, f"{time.monotonic() - start:.1f} s: {said}")
    return found, number


def tried(names):
    """How many of these plants, all in one copy, were not found. A line is printed for each."""
    with tempfile.TemporaryDirectory(prefix="planted-") as folder:
        copy_to(folder)
        lacking = [it for it in (plant(folder, name) for name in names) if it]
        if lacking:
            print("\n".join(lacking), flush=True)
            return len(names)
        compiling = [sys.executable, "-B", "tools/simulate", "--unoptimized", "--compile"]
        made = subprocess.run(compiling, cwd=folder, stdin=subprocess.DEVNULL, capture_output=True, text=True)
        program = made.stdout.splitlines()[-1] if made.returncode == 0 and made.stdout else ""
        if not os.path.isfile(program):
            print(f"the simulator can't be compiled with {' '.join(names)}: {(made.stdout + made.stderr)[-2000:]}", flush=True)
            return len(names)
        found, numbers = found_by(program, names)
        for name in names:
            print(f"found {name}: {found[name]}" if name in found else f"NOT FOUND {name} by {numbers} numbers", flush=True)
        return len(names) - len(found)


def main(words):
    is_together = words[:1] == ["--together"]
    names = words[is_together:] or sorted(it[: -len(".edit")] for it in os.listdir(PLANTS) if it.endswith(".edit"))
    missed = tried(names) if is_together else sum(tried([name]) for name in names)
    print(f"{len(names) - missed} found, {missed} not found")
    return int(missed > 0)


if __name__ == "__main__":
    sys.exit(main(sys.argv[1:]))
