#!/usr/bin/env python3
"""Command lines as from-systemd splits them, beside a real systemd.

    systemd_words.py TREE PID [COUNT] [--seed SEED]

TREE is a Debian in whose namespace PID is a systemd, the first process there. COUNT lines (240 where absent) are made at random, of quotes anywhere in a
word, escapes, variables, specifiers, blanks and semicolons, beside some that stand here. Each is the ExecStart of a unit in TREE, whose program writes its
words to a file. systemd runs it, and from-systemd brings it over; the definition's words are run here. Both have to have the same words, or both have to
refuse the line. Status 1 if one differs. It is run by hand, as root.
"""
import argparse
import json
import os
import random
import re
import subprocess
import sys

CONTRIB = os.path.join(os.path.dirname(os.path.dirname(os.path.abspath(__file__))), "contrib")
FIXED = ["""--why="Prevent interrupting scheduled backup" x""", """a"b c"d'e f'g""", '''"" '' a''', r"""\x41\u00e9\101\s|""", r"""\q\w "a\qb" 'c\d'""", r"""a\;b \; c""", "a;b",
         "a ; b", "a ;", r"""'it''s' "a'b" 'c"d'""", "$ONE ${ONE} x$ONE $$ONE $${ONE}", "$TWO ${TWO} a${TWO}b", "$NONE ${NONE}a x", "%% %n %p %i", r"a\tb \"c\" \'d\'", '"a', "a\\", '"$TWO" "${TWO}"',
         "$QUOTED ${QUOTED}", "$BACK ${BACK}", "$OPEN ${OPEN}", "$BACK $OPEN $QUOTED", "--x=${TWO} '${ONE}'", "$ $$ ${} ${ONE", r"\e", r"\x0", "é ü'ö ä'", r"a\\b \\ \\\\", "$ONE/x x/${ONE}/y"]
PIECES = ['"', "'", '"', "'", " ", " ", "\t", "\\", "\\\\", "\\s", "\\x41", "\\101", "\\u00e9", "\\n", "\\q", "\\;", ";", " ; ", "$ONE", "${ONE}", "${TWO}", "$$", "$", "%%", "%n", "a", "b c", "--d=",
          "é", "{", "}", "#", "\\\"", "\\'", "-", "@"]
UNIT = """[Service]
Type=oneshot
Environment=ONE=one "TWO=t w o" 'QUOTED="q r" s' 'BACK=a\\\\tb \\\\"c\\\\" d\\\\ e' "OPEN=x 'y z"
ExecStart=/bin/words /var/words/{number} {line}
"""
PROGRAM = "#!/bin/sh\nto=$1; shift\nprintf '%s\\n' \"$#\" > \"$to.new\"\nfor word; do printf '%s\\0' \"$word\" >> \"$to.new\"; done\nmv \"$to.new\" \"$to\"\n"


def inside(pid, *words):
    before = ["nsenter", "-t", pid, "-m", "-p", "-u", "-i", "-n", "-C", "-r", "-w", "env", "-i", "PATH=/usr/sbin:/usr/bin:/sbin:/bin"]
    return subprocess.run([*before, *words], capture_output=True, text=True, timeout=300, check=False)


def put(path, text, mode=0o644):
    with open(path, "w", encoding="utf-8") as it:
        it.write(text)
    os.chmod(path, mode)


def words_of(path):
    """The words that the program was given; None if it did not run."""
    if not os.path.exists(path):
        return None
    count, _, rest = open(path, "rb").read().partition(b"\n")
    found = rest.split(b"\0")[:-1]
    assert len(found) == int(count), path
    return found


def here(number, folder):
    """The words that the definition gives to the program, by running it here; None if from-systemd refused the unit."""
    if not os.path.exists(f"{folder}/words{number}.json"):
        return None
    with open(f"{folder}/words{number}.json", encoding="utf-8") as it:
        program = json.load(it)["ProgramArguments"]
    assert program[:2] == ["/bin/words", f"/var/words/{number}"], program
    subprocess.run([f"{folder}/words", f"{folder}/{number}", *program[2:]], timeout=20, check=True)
    return words_of(f"{folder}/{number}")


def line_of(chance):
    """A line at random: quotes closed in most, and anything in the others."""
    pieces = [chance.choice(PIECES) for _ in range(chance.choice((2, 4, 6, 9)))]
    if chance.random() < 0.8:
        for at, piece in enumerate(pieces):
            quote = chance.choice("\"'  ").strip()
            pieces[at] = quote + "".join(it for it in piece + chance.choice(("", " ", "$ONE", "\\q")) if it not in "\"'") + quote if piece not in ("\\", "\\\"", "\\'") else piece + "x"
    return "".join(pieces).strip()


def main():
    words = argparse.ArgumentParser()
    words.add_argument("tree")
    words.add_argument("pid")
    words.add_argument("count", type=int, nargs="?", default=240)
    words.add_argument("--seed", type=int, default=5)
    given = words.parse_args()
    chance = random.Random(given.seed)
    lines = FIXED + [line_of(chance) for _ in range(given.count - len(FIXED))]
    units, kept, own = f"{given.tree}/etc/systemd/system", f"{given.tree}/var/words", f"{given.tree}/var/words-here"
    for folder in (kept, own):
        os.makedirs(folder, exist_ok=True)
        for name in os.listdir(folder):
            os.remove(f"{folder}/{name}")
    put(f"{given.tree}/bin/words", PROGRAM, 0o755)
    put(f"{own}/words", PROGRAM, 0o755)
    for number, line in enumerate(lines):
        put(f"{units}/words{number}.service", UNIT.format(number=number, line=line))
    inside(given.pid, "systemctl", "daemon-reload")
    inside(given.pid, "systemctl", "start", *(f"words{number}.service" for number in range(len(lines))))
    paths = [f"{units}/words{number}.service" for number in range(len(lines))]
    ran = subprocess.run([f"{CONTRIB}/from-systemd", "--into", own, *paths], capture_output=True, text=True, timeout=60, check=False)
    faults, refused = 0, 0
    for number, line in enumerate(lines):
        unit = f"{units}/words{number}.service"
        there = words_of(f"{kept}/{number}")
        found = here(number, own)
        told = "\n".join(row for row in ran.stderr.splitlines() if unit in row)
        os.remove(unit)
        refused += found is None
        if found is None and there is not None and (re.search(r"(^|\s);(\s|$)", line) or "is no UTF-8" in told or "is not known here" in told):
            continue
        if found != there:
            faults += 1
            print(f"line {line!r}\n  systemd: {there}\n  here:    {found} {told}", file=sys.stderr)
    inside(given.pid, "systemctl", "daemon-reload")
    print(f"{len(lines)} command lines, {faults} differ; {refused} were refused here")
    return int(faults > 0)


sys.exit(main())
