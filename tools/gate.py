#!/usr/bin/env python3
"""The gate: `rt ci`, then the sentences of the pages, of the programs' texts and of doc comments, then the scenes over the program that it proved, and
then the simulator.

    tools/gate.py

All write as they go. The last line is `N passed, M failed` over them: crates and wrong bodies of `rt ci`, one for the sentences of the pages that users read
(tests/words.py, two seconds), one for the texts that the programs print and for doc comments (tests/words.py --crates, four seconds), scenes (tests/scenes/play.py), and one for the
200 numbers that the simulator plays (tools/simulate). Scenes and numbers are not played if `rt ci` failed. Kit 13b leaves no program of Rattle's own
compiler; then no scene is played by that one, and it is said. With a kit that does not let the simulator be compiled without a proof no number is played:
one line says so, and nothing is counted. Compiling and playing have 45 minutes; more is a failure.
"""
import os
import re
import signal
import subprocess
import sys
import threading

TOP = os.path.dirname(os.path.dirname(os.path.abspath(__file__)))
PROGRAM = f"{TOP}/crates/jobd_program/out/jobd_program"
NUMBERS, SIMULATED_SECONDS = "1..200", 45 * 60
LAST = re.compile(r"(\d+) passed, (\d+) failed\s*$")


def run(words, front, seconds=None):
    """Runs a part to its end, and gives how many passed and failed in it. Its last line is written with its name before it, so that the last line of
    all is alone. A part that is not over after these seconds is ended, with all that it started, and has failed."""
    counts = None
    with subprocess.Popen(words, cwd=TOP, stdin=subprocess.DEVNULL, stdout=subprocess.PIPE, text=True, errors="replace", start_new_session=bool(seconds)) as ran:
        clock = threading.Timer(seconds or 0, os.killpg, [ran.pid, signal.SIGTERM])
        if seconds:
            clock.start()
        for line in ran.stdout:
            found = LAST.match(line)
            if found:
                counts = int(found[1]), int(found[2])
                line = f"{front}: {line}"
            print(line, end="", flush=True)
        clock.cancel()
    if counts is None:
        print(f"{front}: it ended with {ran.returncode}, and said no numbers")
        counts = 0, 1
    passed, failed = counts
    return passed, failed or int(ran.returncode != 0)


def sentences():
    """Whether the pages that users read, and the programs' texts with the doc comments, keep to the rules of a sentence: passed and failed."""
    statuses = [subprocess.run([sys.executable, "tests/words.py", *of], cwd=TOP, stdin=subprocess.DEVNULL).returncode for of in ([], ["--crates"])]
    return statuses.count(0), len(statuses) - statuses.count(0)


def main():
    passed, failed = run(["rt", "ci"], "rt ci")
    is_proved = not failed
    kept, broken = sentences()
    passed, failed = passed + kept, failed + broken
    if not is_proved:
        print("no scene was played and nothing was simulated, since rt ci failed")
    else:
        words = [sys.executable, "tests/scenes/play.py", "--by", PROGRAM]
        if os.path.isfile(f"{PROGRAM}.by-rattle"):
            words += ["--second", f"{PROGRAM}.by-rattle"]
        else:
            print("this kit left no program of Rattle's own compiler: no scene is played by that one")
        simulating = [sys.executable, "tools/simulate", NUMBERS]
        for played, wrong in (run(words, "scenes"), run(simulating, "simulator", SIMULATED_SECONDS)):
            passed, failed = passed + played, failed + wrong
    print(f"{passed} passed, {failed} failed", flush=True)
    return 1 if failed else 0


if __name__ == "__main__":
    sys.exit(main())
