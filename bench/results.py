#!/usr/bin/env python3
"""Compares the figures of bench/RESULTS.md, those of other supervisors there and in README.md, and the size of the programs in README.md, with bench/history.csv: each has to be the last one under the
words of its row's first column, and no later one may stand there under the same words with other circumstances (QUALIFIER).

    bench/results.py            tells which is not; the status is 1 if there is one
    bench/results.py --write    puts the last one in its place

A figure is a number with its unit, in the second column; of the table of lines it is a number of instructions, with one job and with 1,000.
"""
import csv
import os
import re
import sys

HERE = os.path.dirname(os.path.abspath(__file__))
PAGE = f"{HERE}/RESULTS.md"
README = f"{os.path.dirname(HERE)}/README.md"
# The rows beside other supervisors: what history.csv says after `1000 jobs under NAME, a quiet machine: `, and the unit; and whose figure stands in which column.
# README has some of them, RESULTS.md all.
PEER_ROWS = {
    "all started, seconds": ("all started", "s"),
    "processor to start them, ms": ("processor to start them", "ms"),
    "status of all jobs, ms": ("status of all, by a program", "ms"),
    "all stopped, seconds": ("all stopped", "s"),
    "memory without the jobs, MB": ("memory, shared pages parted", "MB"),
    "a restart after a kill, ms": ("a restart after a kill, median of twenty", "ms"),
    "restarts back to back, ms": ("a restart back to back, median of twenty", "ms"),
    "status of one job, ms": ("status of one, by a program", "ms"),
    "**processor a minute at rest, ms**": ("processor a minute at rest", "ms"),
}
README_ROWS = {"all started, seconds", "memory without the jobs, MB", "a restart after a kill, ms", "status of one job, ms", "**processor a minute at rest, ms**"}
PEER_COLUMNS = {1: "jobd", 2: "runit", 3: "s6", 4: "daemontools", 5: "supervisor"}
NUMBER = re.compile(r"[\d,]+(?:\.\d+)?")
# Under what circumstances a figure was measured: rows that differ in these alone are of one kind.
QUALIFIER = re.compile(r", (?:a quiet machine|beside [^,:]*|in memory|on a disk)(?=[,:]|$)|(?<=median of )\w+")


def last_figures():
    """The last value under each name and unit."""
    with open(f"{HERE}/history.csv", newline="", encoding="utf-8") as file:
        return {(row["what"], row["unit"]): float(row["value"]) for row in csv.DictReader(file)}


def last_kinds():
    """The words of the last figure of each kind and unit."""
    with open(f"{HERE}/history.csv", newline="", encoding="utf-8") as file:
        return {(QUALIFIER.sub("", row["what"]), row["unit"]): row["what"] for row in csv.DictReader(file)}


def figures_in(cells, of_lines):
    """The figures of a row: for each the place of its cell, its name and its unit."""
    if of_lines:
        return [(1, f"{cells[0]}, 1 jobs", "instructions"), (2, f"{cells[0]}, 1000 jobs", "instructions")]
    return [(1, cells[0], NUMBER.sub("", cells[1], count=1).strip())]


def written(number):
    return f"{number:,.2f}".rstrip("0").rstrip(".")


def compared(line, of_lines, last):
    """The row with the last figures in it, and what differs."""
    cells, faults = [it.strip() for it in line.strip("|").split("|")], []
    for place, what, unit in figures_in(cells, of_lines):
        found = NUMBER.match(cells[place])
        if not found or (what, unit) not in last:
            faults.append(f"{what}: history.csv has no figure in {unit or 'this unit'}")
        elif float(found[0].replace(",", "")) != last[what, unit]:
            faults.append(f"{what}: {found[0]}, and the last is {written(last[what, unit])} {unit}")
            cells[place] = written(last[what, unit]) + cells[place][found.end() :]
        newest = KINDS.get((QUALIFIER.sub("", what), unit), what)
        if newest != what:
            faults.append(f"{what}: a later figure of its kind is {newest!r}")
    return f"| {' | '.join(cells)} |".replace("|  |", "| |"), faults


def peers_compared(path, wanted, last):
    """The page with the last figures beside other supervisors in it, and what differs."""
    name_of_page, lines, faults, rows = os.path.basename(path), [], [], set()
    with open(path, encoding="utf-8") as file:
        for line in file.read().splitlines():
            cells = [it.strip() for it in line.strip("|").split("|")]
            if line.startswith("| ") and cells[0] in wanted and len(cells) > len(PEER_COLUMNS):
                rows.add(cells[0])
                what, unit = PEER_ROWS[cells[0]]
                for place, name in PEER_COLUMNS.items():
                    figure = written(last[f"1000 jobs under {name}, a quiet machine: {what}", unit])
                    if cells[place] != figure:
                        faults.append(f"{name_of_page}: {cells[0]}, {name}: {cells[place]}, and the last is {figure}")
                        cells[place] = figure
                line = f"| {' | '.join(cells)} |".replace("|  |", "| |")
            lines.append(line)
    faults += [f"{name_of_page} has no row: {it}" for it in wanted - rows]
    return "\n".join(lines) + "\n", faults


def size_compared(text, last):
    """README with the size of the file of the programs, as it was measured last, and what differs."""
    figure = f"{last['the file of the three programs', 'bytes'] / 1e6:.1f}"
    found = re.search(r"One file of ([\d.]+) MB", text)
    if found is None:
        return text, ["README.md does not say how large the file of the programs is"]
    faults = [] if found[1] == figure else [f"README.md: a file of {found[1]} MB, and the last is {figure}"]
    return text.replace(found[0], f"One file of {figure} MB"), faults


KINDS = last_kinds()


def main(words):
    last, lines, faults, of_lines = last_figures(), [], [], False
    page, new = peers_compared(PAGE, set(PEER_ROWS), last)
    faults += new
    is_peers = False
    for line in page.splitlines():
        if line.startswith("|---"):
            lines.append(line)
            continue
        if line.startswith(("| What", "| Line", "| Of ")):
            of_lines, is_peers = line.startswith("| Line"), line.startswith("| Of ")
        elif line.startswith("| ") and not is_peers:
            row, new = compared(line, of_lines, last)
            # a row with no fault stays as it is written
            line = row if new else line
            faults += new
        lines.append(line)
    readme, new = peers_compared(README, README_ROWS, last)
    faults += new
    readme, new = size_compared(readme, last)
    faults += new
    print("\n".join([*faults, f"{len(faults)} figures are not the last"]))
    if words == ["--write"]:
        with open(README, "w", encoding="utf-8") as file:
            file.write(readme)
        with open(PAGE, "w", encoding="utf-8") as file:
            file.write("\n".join(lines) + "\n")
        return 0
    return 1 if faults else 0


if __name__ == "__main__":
    sys.exit(main(sys.argv[1:]) if sys.argv[1:] in ([], ["--write"]) else __doc__)
