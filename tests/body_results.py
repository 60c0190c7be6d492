#!/usr/bin/env python3
"""Keeps tests/wrong_bodies/RESULTS.csv: for each wrong body the tree in which it was last refused, a sum of what its crate's contracts said there,
and what refused it.

    tests/body_results.py note FILE    notes the lines `refused CRATE/NAME ..` that tests/wrong_bodies.sh wrote into FILE
    tests/body_results.py stale [CRATE..]
                                       lists each wrong body (of these crates) that is to be tried: its crate has other clauses or definitions
                                       now than when it was tried (another sum), or no try is noted; and each that was refused
                                       elsewhere, at a proof and not at a clause, for which the column `why` has no word. That is written by hand

A body's name is that of its edit, with `.PART` behind it for a part of a joined edit. The status of `stale` is 1 if it lists one.
"""
import csv
import glob
import hashlib
import os
import re
import subprocess
import sys

TOP = os.path.dirname(os.path.dirname(os.path.abspath(__file__)))
FILE = f"{TOP}/tests/wrong_bodies/RESULTS.csv"
COLUMNS = ["crate", "body", "tree", "said", "refused", "why"]
CLAUSE = re.compile(r"\b(?:ensures|requires)\*?\s+(?:\w+\s+)?\{")
# A comment of a definition says nothing to the prover.
COMMENT = re.compile(r"(?m)(?:^|[ \t]+)--(?: .*)?$")


def git(*words):
    return subprocess.run(["git", "-C", TOP, *words], capture_output=True, text=True).stdout


def bodies():
    """Each wrong body that stands in the tree, as (crate, name)."""
    for path in sorted(glob.glob(f"{TOP}/tests/wrong_bodies/*/*.edit") + glob.glob(f"{TOP}/crates/*/must-fail/*.edit")):
        with open(path) as it:
            parts = re.findall(r"(?m)^# part: (\S+)", it.read())
        crate = re.search(r"/(?:wrong_bodies|crates)/([^/]+)/", path[len(TOP) :])[1]
        edit = os.path.basename(path)[: -len(".edit")]
        yield from ((crate, f"{edit}.{it}" if parts else edit) for it in parts or [edit])


def clauses(text):
    """The clauses of a source, each with its braces, white space as one blank."""
    for it in CLAUSE.finditer(text):
        depth, at = 1, it.end()
        while depth and at < len(text):
            depth += {"{": 1, "}": -1}.get(text[at], 0)
            at += 1
        yield " ".join(text[it.start() : at].split())


def without_comments(text):
    return "\n".join(line for line in COMMENT.sub("", text).splitlines() if line.strip())


def said(crate):
    """A sum of all that the contracts of the crate say."""
    found = []
    for name in git("ls-files", f"crates/{crate}/src", f"crates/{crate}/specs").split():
        if os.path.isfile(f"{TOP}/{name}"):
            with open(f"{TOP}/{name}") as it:
                found += clauses(it.read()) if name.endswith(".rt") else [without_comments(it.read())]
    return hashlib.sha256("\n".join(sorted(found)).encode()).hexdigest()[:12]


def noted():
    if not os.path.isfile(FILE):
        return {}
    with open(FILE, newline="") as it:
        return {(row["crate"], row["body"]): row for row in csv.DictReader(it)}


def is_elsewhere(refused):
    return refused.startswith("elsewhere")


def note(path):
    rows, tree, now = noted(), git("rev-parse", "--short", "HEAD").strip(), {}
    with open(path) as it:
        for line in it:
            if found := re.match(r"refused (\w+)/(\S+) (?:by )?(.*)", line):
                crate = found[1]
                now[crate] = now.get(crate) or said(crate)
                was, refused = rows.get((crate, found[2]), {}), found[3][:120]
                why = was.get("why", "") if is_elsewhere(refused) else ""
                rows[crate, found[2]] = dict(zip(COLUMNS, (crate, found[2], tree, now[crate], refused, why)))
    there = set(bodies())
    with open(FILE, "w", newline="") as it:
        out = csv.DictWriter(it, COLUMNS, lineterminator="\n")
        out.writeheader()
        out.writerows(rows[key] for key in sorted(rows) if key in there)
    return 0


def stale(crates):
    rows, now, listed = noted(), {}, 0
    for crate, body in bodies():
        if crates and crate not in crates:
            continue
        row = rows.get((crate, body))
        now[crate] = now.get(crate) or said(crate)
        is_tried = row and row["said"] == now[crate]
        if is_tried and not (is_elsewhere(row["refused"]) and not row["why"]):
            continue
        listed += 1
        lacks = "refused elsewhere, and nothing says why" if is_tried else f"other clauses since {row['tree']}" if row else "no try is noted"
        print(f"{crate}/{body}: {lacks}")
    print(f"{listed} to be tried")
    return 1 if listed else 0


if __name__ == "__main__":
    words = sys.argv[1:]
    sys.exit(note(words[1]) if words[:1] == ["note"] and len(words) == 2 else stale(words[1:]) if words[:1] == ["stale"] else __doc__)
