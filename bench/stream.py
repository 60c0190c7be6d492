#!/usr/bin/env python3
"""Writes a journal for `jobd replay`: a header line, then one event a line.

    stream.py KIND JOBS LINES

JOBS jobs are loaded first. Then come about LINES lines of one KIND:
  ticks     the clock is read each second, and no job has anything to do
  starts    jobs are started in turn; each spawn is answered and each run ends
  interval  the clock is read each second, and every job runs once a minute or so
  looks     a watched path of one job after another is looked at, and changes at each fourth look
  loads     a job is loaded and unloaded again, beside the others
  asks      one job after another, which ran once and is throttled, is asked to start
  minutes   each reading crosses a minute, and no job has an entry for it (at most 59 lines)
  calendars each reading crosses a minute that every job has an entry for, and every job runs, so that nothing is ordered
  watched   one path that every job watches is looked at, and changes at each fourth look; every job is throttled
  known     the setting of one label after another is turned, beside JOBS labels that have one
  fresh     a label that had no setting is disabled, beside JOBS labels that have one
  shutdown  every job runs; if LINES is not 0 the launcher is shut down, and each job takes TERM and ends
  jump      every job has 64 entries that never match; the clock comes back LINES days later, in one line
  keys      JOBS definitions are loaded, each with LINES keys that nothing acts on
  objects   JOBS jobs are loaded; then one line, which is refused, with LINES empty objects
  smalls    LINES jobs of a small definition are loaded, beside JOBS others (at most 1,024 in all)
  usuals    the same of a usual definition of 10 keys
  leaves    LINES jobs are unloaded, of 20 beside JOBS others
The stream is the same for the same words.
"""
import json
import sys

WALL = 1_700_000_000


def line(members):
    return json.dumps(members, separators=(",", ":"), sort_keys=True)


def label(number):
    return f"work.{number:04d}"


def load(name, **more):
    definition = {"Label": name, "ProgramArguments": ["/bin/true"], **more}
    return line({"ev": "load", "def": line(definition)})


def clock(second):
    return line({"ev": "clock", "up": 1000 * second, "wall": WALL + second})


def answered(name, run):
    yield line({"ev": "spawned", "job": name, "pid": 2000 + run, "run": run})
    yield line({"code": 0, "ev": "ended", "job": name, "run": run})


def ticks(jobs, lines):
    for number in range(jobs):
        yield load(label(number), StartInterval=31_536_000)
    for second in range(1, lines + 1):
        yield clock(second)


def starts(jobs, lines):
    for number in range(jobs):
        yield load(label(number), ThrottleInterval=0)
    for turn in range(lines // 4):
        name, run = label(turn % jobs), turn // jobs + 1
        yield clock(turn + 1)
        yield line({"ev": "start", "job": name})
        yield from answered(name, run)


def interval(jobs, lines):
    every = [60 + number % 11 for number in range(jobs)]
    for number in range(jobs):
        yield load(label(number), StartInterval=every[number])
    written = second = 0
    while written < lines:
        second += 1
        written += 1
        yield clock(second)
        for number in range(jobs):
            if second % every[number] == 0:
                written += 2
                yield from answered(label(number), second // every[number])


def looks(jobs, lines):
    for number in range(jobs):
        yield load(label(number), WatchPaths=[f"/watched/{number}"], ThrottleInterval=86_400)
    for turn in range(lines):
        stamp = turn // jobs // 4
        yield line({"ev": "saw", "exists": True, "nonempty": False, "path": f"/watched/{turn % jobs}", "stamp": stamp})


def loads(jobs, lines):
    for number in range(jobs):
        yield load(label(number))
    for turn in range(lines // 2):
        name = f"guest.{turn % 7}"
        yield load(name)
        yield line({"ev": "unload", "job": name})


def asks(jobs, lines):
    for number in range(jobs):
        yield load(label(number), ThrottleInterval=86_400)
        yield line({"ev": "start", "job": label(number)})
        yield from answered(label(number), 1)
    for turn in range(lines):
        yield line({"ev": "start", "job": label(turn % jobs)})


def minutes(jobs, lines):
    for number in range(jobs):
        yield load(label(number), StartCalendarInterval={"Minute": WALL // 60 % 60})
    for crossed in range(1, min(lines, 59) + 1):
        yield clock(60 * crossed)


def calendars(jobs, lines):
    for number in range(jobs):
        yield load(label(number), StartCalendarInterval={}, RunAtLoad=True)
        yield line({"ev": "spawned", "job": label(number), "pid": 2000 + number, "run": 1})
    for crossed in range(1, lines + 1):
        yield clock(60 * crossed)


def watched(jobs, lines):
    for number in range(jobs):
        yield load(label(number), WatchPaths=["/watched"], RunAtLoad=True, ThrottleInterval=86_400)
        yield from answered(label(number), 1)
    for turn in range(lines):
        yield line({"ev": "saw", "exists": True, "nonempty": False, "path": "/watched", "stamp": turn // 4})


def known(jobs, lines):
    for number in range(jobs):
        yield line({"ev": "disable", "job": label(number)})
    for turn in range(lines):
        yield line({"ev": ("enable", "disable")[turn // jobs % 2], "job": label(turn % jobs)})


def fresh(jobs, lines):
    for number in range(jobs):
        yield line({"ev": "disable", "job": label(number)})
    for turn in range(lines):
        yield line({"ev": "disable", "job": f"guest.{turn * 7919 % 99_991:05d}"})


def shutdown(jobs, lines):
    for number in range(jobs):
        yield load(label(number), RunAtLoad=True)
        yield line({"ev": "spawned", "job": label(number), "pid": 2000 + number, "run": 1})
    if lines == 0:
        return
    yield line({"ev": "shutdown"})
    for number in range(jobs):
        yield line({"ev": "termed", "job": label(number), "ok": True, "run": 1})
        yield line({"code": 0, "ev": "ended", "job": label(number), "run": 1})


def jump(jobs, lines):
    never = [{"Month": 2, "Day": 30, "Hour": number % 24, "Minute": number % 60} for number in range(64)]
    for number in range(jobs):
        yield load(label(number), StartCalendarInterval=never)
    yield clock(86_400 * lines)


def keys(jobs, lines):
    for number in range(jobs):
        yield load(label(number), **{f"k{key:05d}": 0 for key in range(lines)})


def objects(jobs, lines):
    for number in range(jobs):
        yield load(label(number))
    yield '{"ev":"clock","up":1,"wall":1700000001,"x":[' + ",".join(["{}"] * lines) + "]}"


def smalls(jobs, lines):
    for number in range(jobs):
        yield load(label(number), StartInterval=31_536_000)
    for number in range(lines):
        yield load(f"guest.{number:03d}", StartInterval=31_536_000)


def usuals(jobs, lines):
    for number in range(jobs):
        yield load(label(number), StartInterval=31_536_000)
    for number in range(lines):
        yield load(
            f"guest.{number:03d}", RunAtLoad=False, KeepAlive={"SuccessfulExit": False}, ThrottleInterval=30, ExitTimeOut=5,
            WorkingDirectory="/var/lib/x", EnvironmentVariables={"LANG": "C", "PATH": "/usr/bin:/bin"},
            StandardOutPath="/var/log/x.out", StandardErrorPath="/var/log/x.err")


def leaves(jobs, lines):
    yield from smalls(jobs, 20)
    for number in range(lines):
        yield line({"ev": "unload", "job": f"guest.{number:03d}"})


KINDS = {kind.__name__: kind for kind in (ticks, starts, interval, looks, loads, asks, minutes, calendars, watched, known, fresh,
                                   shutdown, jump, keys, objects, smalls, usuals, leaves)}


def main():
    if len(sys.argv) != 4 or sys.argv[1] not in KINDS:
        sys.exit(__doc__)
    print(line({"up": 0, "wall": WALL, "zone": "UTC0"}))
    for event in KINDS[sys.argv[1]](int(sys.argv[2]), int(sys.argv[3])):
        print(event)


main()
