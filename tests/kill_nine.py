#!/usr/bin/env python3
"""Kills `jobd serve` by signal 9 in the midst of settings, again and again, and looks whether each acknowledged one is there.

    tests/kill_nine.py [--times N] [--seed S] [--jobd PROGRAM] [--jobctl PROGRAM]

N is 1,000; the programs are build/jobd and build/jobctl. Each time the launcher is started over one store, `jobctl` enables and
disables labels one after the other, and the launcher is killed after a moment between 0 and 60 ms. Then:

    store       `jobd overrides` opens the store and lists it. A label whose last setting was acknowledged has that setting. One
                whose last setting was not acknowledged has that one or the one before
    journal     what the launcher had journaled replays with status 0, one outcome for each whole line, and each setting that
                was acknowledged is among its lines
    start       the launcher starts again, though its socket file was left behind

Prints the first difference and ends with 1 then. The last line counts.
"""
import argparse
import json
import os
import random
import subprocess
import sys
import tempfile
import threading
import time
import types

HERE = os.path.dirname(os.path.abspath(__file__))
sys.dont_write_bytecode = True
sys.path.insert(0, os.path.join(HERE, "scenes"))
from harness import Fault, Stage  # noqa: E402

LABELS = [f"job.{n}" for n in range(8)] + ["s" * 255]


def fail(text):
    print(f"kill_nine: {text}")
    sys.exit(1)


def settings_of(jobd, folder):
    """What `jobd overrides` lists: whether each label is disabled."""
    run = subprocess.run([jobd, "overrides", "--store", f"{folder}/store"], capture_output=True, text=True, timeout=30)
    if run.returncode != 0:
        fail(f"jobd overrides ended with {run.returncode}: {run.stderr}")
    rows = [line.split("\t") for line in run.stdout.splitlines()]
    return {row[0]: row[1] == "disabled" for row in rows}


def set_until_killed(jobctl, folder, rng, sent, acknowledged):
    """Sends settings, one after the other, until the launcher is gone."""
    while True:
        label, disabled = rng.choice(LABELS), rng.random() < 0.5
        sent.append((label, disabled))
        word = "disable" if disabled else "enable"
        run = subprocess.run([jobctl, "--socket", f"{folder}/s", word, label], capture_output=True, timeout=30)
        if run.returncode != 0:
            return
        acknowledged.append((label, disabled))


def check_store(found, before, sent, acknowledged):
    """The store against the settings before, those that were sent, and those that were acknowledged (all but the last one sent)."""
    wanted = dict(before)
    wanted.update(acknowledged)
    last = sent[-1] if len(sent) > len(acknowledged) else None
    for label in LABELS:
        allowed = {wanted.get(label)}
        if last and last[0] == label:
            allowed.add(last[1])
        if found.get(label) not in allowed:
            fail(f"the setting of {label} is {found.get(label)}, wanted one of {allowed}")


def check_journal(jobd, folder, acknowledged):
    """The journal replays, and holds the acknowledged settings in order."""
    with open(f"{folder}/journal", "rb") as file:
        text = file.read()
    whole = text[: text.rfind(b"\n") + 1]
    if not whole:
        return
    run = subprocess.run([jobd, "replay"], input=whole, capture_output=True, timeout=30)
    lines = whole.splitlines()
    if run.returncode != 0 or len(run.stdout.splitlines()) != len(lines) - 1:
        fail(f"the journal replays with {run.returncode} and {len(run.stdout.splitlines())} of {len(lines) - 1} outcomes")
    events = [json.loads(line) for line in lines[1:]]
    made = [(it["job"], it["ev"] == "disable") for it in events if it["ev"] in ("enable", "disable") and it["store"]]
    if made[: len(acknowledged)] != acknowledged:
        fail("the journal lacks an acknowledged setting")


def main():
    words = argparse.ArgumentParser()
    words.add_argument("--times", type=int, default=1000)
    words.add_argument("--seed", type=int, default=int(time.time()))
    words.add_argument("--jobd", default=f"{HERE}/../build/jobd")
    words.add_argument("--jobctl", default=f"{HERE}/../build/jobctl")
    given = words.parse_args()
    jobd, jobctl = os.path.abspath(given.jobd), os.path.abspath(given.jobctl)
    rng = random.Random(given.seed)
    print(f"seed {given.seed}")
    held, settings, in_midst = {}, 0, 0
    with tempfile.TemporaryDirectory() as folder:
        stage = Stage(types.SimpleNamespace(jobd=[jobd], jobctl=[jobctl]), folder)
        for _ in range(given.times):
            try:
                launcher = stage.serve(socket="s", journal="journal")
            except Fault as fault:
                fail(str(fault))
            sent, acknowledged = [], []
            sender = threading.Thread(target=set_until_killed, args=(jobctl, folder, rng, sent, acknowledged))
            sender.start()
            time.sleep(rng.random() * 0.06)
            launcher.kill()
            launcher.process.stdout.close()
            sender.join()
            found = settings_of(jobd, folder)
            check_store(found, held, sent, acknowledged)
            check_journal(jobd, folder, acknowledged)
            held, settings = found, settings + len(acknowledged)
            in_midst += len(sent) > len(acknowledged)
    print(f"killed {given.times} times, {in_midst} of them with a setting under way; {settings} settings acknowledged, none lost")


if __name__ == "__main__":
    main()
