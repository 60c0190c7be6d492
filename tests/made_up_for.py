#!/usr/bin/env python3
"""Each row of the table "Catch-up" in docs/OPERATING.md, replayed: what starts after a sleep of the machine, a jump of the wall
clock, and a restart of the launcher.

    made_up_for.py [FOLDER]     FOLDER holds jobd (build/ if absent)

A sleep is a reading of `up` and the wall; while a job waits for its KILL it is one of the wall alone, and one of `up` behind it. A restart is
a new journal, whose header is later. It is run by hand, after `make build`.
"""
import json
import os
import subprocess
import sys

HERE = os.path.dirname(os.path.dirname(os.path.abspath(__file__)))
PROGRAM = f"{os.path.abspath(sys.argv[1] if len(sys.argv) > 1 else HERE + '/build')}/jobd"
BEGIN = 1_700_000_000 - 1_700_000_000 % 86_400  # a midnight of UTC
DAY, HOUR = 86_400, 3_600
faults = []


class Launcher:
    """A journal that is written at this second of the wall clock, with this job loaded."""

    def __init__(self, wall, **keys):
        definition = {"Label": "a", "Program": "/bin/true", "ThrottleInterval": 0, **keys}
        self.up, self.wall = 0, wall
        self.lines = [{"up": 0, "wall": wall, "zone": "UTC0"}, {"ev": "load", "def": json.dumps(definition)}]

    def read(self, up=0, wall=0):
        """So many seconds of the launcher's clock, and of the wall clock, later."""
        self.up += up * 1000
        self.wall += wall
        self.lines.append({"ev": "clock", "up": self.up, "wall": self.wall})
        return self

    def saw(self, stamp, nonempty=False):
        self.lines.append({"ev": "saw", "path": "/p", "exists": True, "nonempty": nonempty, "stamp": stamp})
        return self

    def starts(self):
        """After each event the number of starts that it ordered; each run ends at once."""
        counts = []
        run = 0
        lines = self.lines[:1]
        for line in self.lines[1:]:
            ordered = 0
            lines.append(line)
            while self.last(lines)["orders"]:
                if not any(order["order"] == "spawn" for order in self.last(lines)["orders"]):
                    break
                ordered += 1
                run += 1
                lines += [{"ev": "spawned", "job": "a", "run": run, "pid": 9}, {"ev": "ended", "job": "a", "run": run, "code": 0}]
                if ordered > 3:
                    break
            counts.append(ordered)
        return counts

    @staticmethod
    def last(lines):
        text = "".join(json.dumps(line) + "\n" for line in lines)
        out = subprocess.run([PROGRAM, "replay"], input=text, capture_output=True, text=True, check=True).stdout
        outcome = json.loads(out.splitlines()[-1])
        if outcome["code"] != 0:
            raise SystemExit(f"made_up_for: {lines[-1]}: {outcome}")
        return outcome


def row(name, launcher, wanted):
    """The last events of the launcher order so many starts each."""
    found = launcher.starts()[-len(wanted) :]
    if found != wanted:
        faults.append(f"{name}: {found} starts, and the page says {wanted}")


nightly = {"StartCalendarInterval": {"Hour": 3, "Minute": 30}}
row("a calendar, slept over three nights", Launcher(BEGIN, **nightly).read(1, 1).read(3 * DAY, 3 * DAY), [0, 1])
row("a calendar, slept beside a job that waits for its KILL", Launcher(BEGIN, **nightly).read(1, 1).read(1, 3 * DAY), [0, 1])
row("a calendar, slept for 390 days", Launcher(BEGIN, StartCalendarInterval={"Day": 20, "Month": 11, "Hour": 3}).read(1, 1)
    .read(1, 390 * DAY), [0, 1])
row("a calendar, set forward", Launcher(BEGIN, **nightly).read(1, DAY), [1])
row("a calendar, set back over its minute", Launcher(BEGIN, **nightly).read(1, 4 * HOUR).read(1, -HOUR).read(HOUR, HOUR), [1, 0, 1])
row("a calendar, restarted after its minute", Launcher(BEGIN + 4 * HOUR, **nightly).read(1, 1), [0, 0])
row("an interval, slept beside a job that waits for its KILL", Launcher(BEGIN, StartInterval=HOUR).read(1, DAY).read(19, 19).read(DAY, 0), [0, 0, 1])
row("an interval, slept", Launcher(BEGIN, StartInterval=HOUR).read(1, 1).read(DAY, DAY), [0, 1])
row("an interval, set forward and back", Launcher(BEGIN, StartInterval=HOUR).read(1, DAY).read(1, -DAY), [0, 0])
row("an interval, restarted", Launcher(BEGIN + DAY, StartInterval=HOUR).read(HOUR - 1, HOUR - 1).read(1, 1), [0, 0, 1])
row("RunAtLoad, restarted", Launcher(BEGIN, RunAtLoad=True), [1])
row("RunAtLoad, slept, set forward and back", Launcher(BEGIN, RunAtLoad=True).read(DAY, DAY).read(1, DAY).read(1, -DAY), [0, 0, 0])
row("RunAtLoad beside a calendar, restarted after its minute", Launcher(BEGIN + 4 * HOUR, RunAtLoad=True, **nightly).read(1, 1), [1, 0])
row("KeepAlive, restarted", Launcher(BEGIN, KeepAlive={"SuccessfulExit": False}), [1])
row("a crash's KeepAlive, restarted", Launcher(BEGIN, KeepAlive={"Crashed": True}), [0])
row("a watched path, changed while no launcher ran", Launcher(BEGIN, WatchPaths=["/p"]).saw(2), [0, 0])
row("a watched path, changed while a launcher ran", Launcher(BEGIN, WatchPaths=["/p"]).saw(2).saw(3), [0, 0, 1])
row("a queue with an entry, restarted", Launcher(BEGIN, QueueDirectories=["/p"]).saw(2, True).saw(3, False), [0, 4, 0])
row("a throttle, slept", Launcher(BEGIN, KeepAlive=True, ThrottleInterval=HOUR).read(1, 1).read(DAY, DAY), [1, 0, 1])
for fault in faults:
    print(f"made_up_for: {fault}", file=sys.stderr)
if faults:
    sys.exit(1)
print("made_up_for: each row of the page is what jobd replay decides")
