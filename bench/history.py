"""Appends a figure to bench/history.csv: its day, the kit, the machine's name or its processors, the tree's commit, what it is, and how it was measured."""
import csv
import datetime
import os
import subprocess

HERE = os.path.dirname(os.path.abspath(__file__))


def said(*words):
    """The first line that a command prints, or nothing if it can't be run."""
    try:
        ran = subprocess.run(words, cwd=HERE, capture_output=True, text=True)
    except OSError:
        return ""
    return ran.stdout.splitlines()[0] if ran.stdout else ""


def append(what, value, unit, command, machine=None):
    kit = said("rt", "version").split(" ")[0].removeprefix("rattle-kit-")
    machine = machine or f"{os.cpu_count()} processors"
    tree = os.environ.get("TREE") or said("git", "rev-parse", "--short", "HEAD")
    row = [datetime.date.today().isoformat(), kit, machine, tree, what, value, unit, command]
    with open(f"{HERE}/history.csv", "a", newline="") as file:
        csv.writer(file, lineterminator="\n").writerow(row)
