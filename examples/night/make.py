#!/usr/bin/env python3
"""Makes journal.jsonl beside it, a made-up journal of a night, and docs/night.svg, its picture: examples/night/make.py [PROGRAMS]

PROGRAMS is the folder with jobd and jobscope, or build. The events are written here by hand, as a story; what the launcher orders at each is asked of
`jobd replay`, and the lines have the form of a launcher's, so the journal is one that a launcher would write. Both files are committed.
"""

import heapq
import json
import os
import subprocess
import sys

HERE = os.path.dirname(os.path.abspath(__file__))
TOP = os.path.dirname(os.path.dirname(HERE))
# 2026-03-14, 22:00 in Berlin
START, ZONE = 1773522000, "CET-1CEST,M3.5.0,M10.5.0/3"
JOBS = [
    {"Label": "web", "Program": "/usr/local/bin/webd", "KeepAlive": True},
    {"Label": "backup", "Program": "/usr/local/bin/backup", "StartCalendarInterval": {"Hour": 3, "Minute": 30}},
    {"Label": "poll", "Program": "/usr/local/bin/poll", "StartInterval": 1800},
    {"Label": "mail", "Program": "/usr/local/bin/sendmail-queue", "QueueDirectories": ["/var/spool/out"], "ThrottleInterval": 60},
    {"Label": "report", "Program": "/usr/local/bin/report", "StartCalendarInterval": {"Hour": 5, "Minute": 0}},
]
THROTTLE = {job["Label"]: job["ThrottleInterval"] for job in JOBS if "ThrottleInterval" in job}
# How long a run of each job lasts, and how it ends: the story. The last one stands for all further runs.
RUNS = {
    "web": [(11520, {"signal": 11}), (9, {"signal": 11}), (7, {"signal": 11}), (13000, {"signal": 15}), (10**6, {"code": 0})],
    "backup": [(1320, {"code": 0})],
    "poll": [(40, {"code": 0}), (55, {"code": 0}), (900, {"code": 1}), (35, {"code": 0})],
    "mail": [(150, {"code": 0}), (400, {"code": 0}), (90, {"code": 0})],
    "report": [(600, {"code": 1})],
}
# When mail lies in the queue, and when it is sent, in seconds from the start
QUEUE = [(1, False), (4000, True), (4140, False), (14500, True), (14880, False), (25000, True), (25080, False)]


def replayed(programs, lines):
    """The outcome of the last of the lines."""
    ran = subprocess.run([f"{programs}/jobd", "replay"], input="".join(lines), capture_output=True, text=True, check=True)
    return json.loads(ran.stdout.splitlines()[-1])


def line(event):
    """A line as a launcher writes it."""
    return json.dumps(event, separators=(",", ":"), sort_keys=True) + "\n"


def night(programs):
    lines = [line({"overrides": {}, "up": 0, "wall": START, "zone": ZONE})]
    coming, count, runs, at = [], 0, {}, 0

    def hear(event):
        lines.append(line(event))
        orders = replayed(programs, lines)["orders"]
        for order in orders:
            if order["order"] == "spawn":
                answer(order["job"], order["run"])

    def answer(job, run):
        nonlocal count
        runs[job] = runs.get(job, 0) + 1
        hear({"ev": "spawned", "job": job, "run": run, "pid": 700 + sum(runs.values())})
        lasts, how = RUNS[job][min(runs[job], len(RUNS[job])) - 1]
        count += 1
        heapq.heappush(coming, (at + lasts, count, {"ev": "ended", "job": job, "run": run, **how}))
        # the clock is read when the throttle is over: a job that ended may start again then
        count += 1
        heapq.heappush(coming, (at + THROTTLE.get(job, 10), count, None))

    for job in JOBS:
        hear({"ev": "load", "F": False, "bind": True, "store": True, "w": False, "def": json.dumps(job, separators=(",", ":"))})
    for moment, filled in QUEUE:
        count += 1
        heapq.heappush(coming, (moment, count, {"ev": "saw", "path": "/var/spool/out", "exists": True, "nonempty": filled, "stamp": moment}))
    end = 9 * 3600
    for minute in range(1, end // 60):
        count += 1
        heapq.heappush(coming, (minute * 60, count, None))
    while coming and coming[0][0] < end:
        at, _, event = heapq.heappop(coming)
        hear({"ev": "clock", "up": at * 1000, "wall": START + at})
        if event:
            hear(event)
    return lines


def main(programs):
    lines = night(programs)
    with open(f"{HERE}/journal.jsonl", "w", encoding="utf-8") as it:
        it.writelines(lines)
    picture = subprocess.run([f"{programs}/jobscope", "picture", "--journal", f"{HERE}/journal.jsonl"], capture_output=True, text=True, check=True)
    with open(f"{TOP}/docs/night.svg", "w", encoding="utf-8") as it:
        it.write(picture.stdout)
    print(f"{len(lines)} lines")


if __name__ == "__main__":
    main(os.path.abspath(sys.argv[1] if sys.argv[1:] else f"{TOP}/build"))
