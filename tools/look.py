#!/usr/bin/env python3
"""A look without a proof, in about a minute: builds the replay alone, replays examples/first.jsonl, and shows what `jobscope log` says of the same journal.

    tools/look.py

`make run` runs it. The outcomes are computed now; what `jobscope log` says is kept in examples/first.log, and the scene `the_first_journal_is_told` compares
it with the program. What is done is said on standard error, at least every ten seconds.
"""
import os
import subprocess
import sys
import time

TOP = os.path.dirname(os.path.dirname(os.path.abspath(__file__)))
OFTEN = 10


def say(text):
    print(f"make run: {text}", file=sys.stderr, flush=True)


def main():
    begun = time.monotonic()
    say("the replay of a journal (the crates below crates/try_replay) is compiled without a proof; that takes about a minute")
    with open(f"{TOP}/build/run.log", "w+b") as log, open(f"{TOP}/examples/first.jsonl", "rb") as journal:
        ran = subprocess.Popen(["rt", "try", "--", "look"], cwd=f"{TOP}/crates/try_replay", stdin=journal, stdout=subprocess.PIPE, stderr=log)
        while True:
            try:
                outcomes, _ = ran.communicate(timeout=OFTEN)
                break
            except subprocess.TimeoutExpired:
                say(f"{time.monotonic() - begun:.0f} s, it is compiled ..")
        if ran.returncode:
            log.seek(0)
            sys.stderr.write(log.read().decode(errors="replace"))
            return 1
    say("the outcomes of examples/first.jsonl, a line for each of its events:")
    sys.stdout.write(outcomes.decode())
    sys.stdout.flush()
    say("what jobscope log says of the same journal (kept in examples/first.log):")
    with open(f"{TOP}/examples/first.log", encoding="utf-8") as told:
        sys.stdout.write(told.read())
    sys.stdout.flush()
    say("nothing was proved for this look; make quick makes jobd, jobctl and jobscope in some minutes, not proved; make build proves them")
    return 0


if __name__ == "__main__":
    sys.exit(main())
