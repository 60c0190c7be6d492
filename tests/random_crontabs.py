#!/usr/bin/env python3
"""Lines of crontabs made at random, as `jobscope cron` reads them, beside a real cron.

    random_crontabs.py TREE [COUNT] [--seed SEED] [--jobscope WORDS]

TREE is a Debian with the package cron. COUNT lines (400 where absent) have fields with names, ranges, lists and steps, right and wrong, variables with quotes, and commands with quotes and
backslashes. `crontab -n` there takes a line exactly if `jobscope cron` makes a definition of it, but for what `STRICTER` of crontab_cases.py names. The entries have exactly
the minutes that crontab(5) gives the fields, and cron itself hands its shell the command and the variables that the definition has. Status 1 if one differs. It is run by hand, as root.
"""
import argparse
import json
import os
import random
import re
import shlex
import subprocess
import sys

sys.dont_write_bytecode = True
from crontab_cases import NAMES, OWN, SPANS, STRICTER, entries_minutes, is_taken, kind_of, minutes_of, run_cron

PIECES = ["echo", "a b", '"q w"', "'", '"', "\\", "\\\\", "\\%", "\\n", "$HOME", "*", "#", "#x", "é", "  ", "\t", ";", "&&", "=", "`x`", "{", "}", "|", "\\\\%"]
VALUES = ["1", "two words", '"two  words"', "'x'", '"', "'a\"b'", '"a" b', "$A/x", "  x ", '""', "a=b", "#c", "\\", "é", "x # y", "'it's'"]


def field(chance, low, high, names):
    def number():
        if names and chance.random() < 0.4:
            return chance.choice((str.lower, str.upper, str.title))(chance.choice(names))
        if chance.random() < 0.03:
            return chance.choice(("", "x", "-1", "+2", str(high + 1), "007", "1x", "?", "L"))
        it = chance.randint(low, high)
        return f"{it:02d}" if chance.random() < 0.2 else str(it)
    if chance.random() < 0.35:
        return "*"
    items = []
    for _ in range(chance.choice((1, 1, 1, 2, 3))):
        kind = chance.random()
        item = number() if kind < 0.5 else "*" if kind < 0.6 else "-".join(sorted((number(), number()), key=lambda it: int(it) if it.isdigit() else low) if chance.random() < 0.9 else (number(), number()))
        if chance.random() < 0.3:
            item += f"/{chance.choice((1, 2, 3, 5, 7, high, 0, '', 'x', 100)) if chance.random() < 0.2 else chance.randint(1, max(2, (high - low) // 2))}"
        items.append(item)
    return ",".join(items)


def command(chance):
    return "".join(chance.choice(PIECES) + chance.choice((" ", "")) for _ in range(chance.randint(1, 6))).strip(" \t")


def line_of(chance):
    kind = chance.random()
    if kind < 0.12:
        name = chance.choice(("A", "B_1", '"C"', "'D'", "A", "E F", "TZ"))
        return f"{name}{chance.choice(('=', ' = ', '= ', ' ='))}{chance.choice(VALUES)}"
    if kind < 0.2:
        return f"{chance.choice([*NAMES, '@reboot', '@Daily', '@every'])} {command(chance)}"
    blank = chance.choice((" ", " ", "\t", "  "))
    return chance.choice(("", "", " ")) + blank.join(field(chance, *span) for span in SPANS) + blank + command(chance)


def main():
    words = argparse.ArgumentParser()
    words.add_argument("tree")
    words.add_argument("count", type=int, nargs="?", default=400)
    words.add_argument("--seed", type=int, default=5)
    words.add_argument("--jobscope", type=shlex.split, default=["build/jobscope"])
    given = words.parse_args()
    tree, chance = os.path.realpath(given.tree), random.Random(given.seed)
    lines = [line_of(chance) for _ in range(given.count)]
    ran = subprocess.run([*given.jobscope, "cron", "--logs", "/l", "-"], input="".join(f"{it}\n" for it in lines), capture_output=True, text=True, env={"PATH": os.environ["PATH"]}, check=False)
    made = {int(it["Label"].split(".")[1]): it for it in map(json.loads, ran.stdout.splitlines())}
    told = {int(number): why for number, why in re.findall(r"^cron:(\d+): error: (.*)$", ran.stderr, flags=re.M)}
    faults, counts, variables, tabs, wanted = [], [0, 0, 0], [], {}, {}
    for number, line in enumerate(lines, 1):
        kind, own, why = kind_of(line), made.get(number), told.get(number, "")
        if kind == "nothing":
            continue
        has = is_taken(tree, [], line)
        if kind == "variable":
            if not has or why:
                faults.append(f"{line!r}: cron {'takes' if has else 'refuses'} the variable; told: {why}")
            variables += [line] if has else []
            continue
        counts[0] += 1
        if has != (own is not None) and not any(it in why for it in STRICTER):
            faults.append(f"{line!r}: cron {'takes' if has else 'refuses'} it; told: {why}")
        if own is None or not has:
            continue
        text = line.lstrip(" \t")
        cut = re.match(r"((?:\S+[ \t]+){%d})(.*)" % (1 if text.startswith("@") else 5), text)
        if cut[1].strip() != "@reboot" and not any("set -- " in it for it in own["ProgramArguments"][:-3]):
            counts[1] += 1
            both = minutes_of(NAMES.get(cut[1].strip(), cut[1]).split()), entries_minutes(own["StartCalendarInterval"])
            if any(both[0](*it) != both[1](*it) for it in ((month, day, weekday) for month in range(1, 13) for day in range(1, 32) for weekday in range(7))):
                faults.append(f"{line!r}: its entries are of other minutes")
        key = f"c{len(tabs)}"
        tabs[key] = "".join(f"{it}\n" for it in [*variables, "SHELL=/root/record", f"CASE={key}"]) + f"@reboot root {cut[2]}\n"
        wanted[key] = (line, own)
    for key, (command_run, around, _) in run_cron(tree, tabs).items():
        counts[2] += 1
        line, own = wanted[key]
        if own["ProgramArguments"][-1] != command_run:
            faults.append(f"{line!r}: cron runs {command_run!r}, the definition {own['ProgramArguments'][-1]!r}")
        # Debian's cron loses the blanks at the end of a quoted value, which crontab(5) says it keeps; the shell that tells passes on no name that is none of its own.
        found = {it: value.rstrip() for it, value in own["EnvironmentVariables"].items() if it not in OWN and re.fullmatch(r"[A-Za-z_]\w*", it)}
        if found != {it: value for it, value in around.items() if it not in OWN}:
            faults.append(f"{line!r}: cron gives {around}, the definition {own['EnvironmentVariables']}")
    faults += [f"{line!r}: cron did not run it" for key, (line, _) in wanted.items() if not os.path.exists(f"{tree}/root/told/{key}.env")]
    print("\n".join(faults[:20]), file=sys.stderr, end="\n" if faults else "")
    print(f"{len(lines)} lines, {counts[0]} entries beside crontab -n, {counts[1]} calendars, {counts[2]} commands that cron ran: {len(faults)} differ")
    return int(bool(faults) or not all(counts))


if __name__ == "__main__":
    sys.exit(main())
