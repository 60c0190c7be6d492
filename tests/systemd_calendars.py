#!/usr/bin/env python3
"""The moments of OnCalendar as from-systemd brings them over, beside those that systemd-analyze names.

    systemd_calendars.py [COUNT] [--seed SEED]

COUNT expressions (400 where absent) are made at random, beside some that stand here. Of each `systemd-analyze calendar` names the next 40 moments from a Sunday noon on, in UTC. The definition's
entries, and the test before its command if there is one, have to name the same. What systemd refuses from-systemd has to refuse; what it refuses alone has to be one of `REFUSED`.
Status 1 if one differs. It needs systemd-analyze and no program of ours, and is run by hand.
"""
import argparse
import datetime
import fnmatch
import json
import os
import random
import re
import subprocess
import sys
import tempfile

CONTRIB = os.path.join(os.path.dirname(os.path.dirname(os.path.abspath(__file__))), "contrib")
FIRST, MOST, DAYS = datetime.datetime(2026, 5, 31, 12), 40, 12000
FIXED = ["Mon..Fri 09..17:00/10", "Mon-Fri 10:00", "Monday..wednesday 8:00", "Sat..Sun", "Sun..Mon 1:00", "Fri..Mon 1:00", "Monkey 1:00", "Mon,,Tue", "*:0/15", "*:*/5", "*/2:00", "0/2:00", "24:00",
         "*-*-31 0:0", "*-2-29", "2-29 12:30", "*-*-*", "daily", "Weekly", "monthly", "hourly", "minutely", "quarterly", "semi-annually", "biannually", "yearly", "annually", "1..5:3/19", "*-1,7-1/9",
         "Sun *-*-1..7 1:00", "*-*-1/40", "*:5/60", "10", "10:", "*-*~1", "*~1", "2030-*-1", "1:00 UTC", "daily UTC", "1:00:30", "1:00:00.0", "Wed", "wed,THU..sat 23:59", "*-*-1 Mon", "mon mon", ""]
# What systemd takes and from-systemd refuses: why, by a part of what is told.
REFUSED = ["the zone is the launcher's", "counts days from the end of a month", "no entry names a year", "a start is at a whole minute", "no 64 entries say these lines"]
NAMES = ["Mon", "tue", "WED", "Thursday", "fri", "Saturday", "Sun"]


def weekdays(chance):
    items = []
    for _ in range(chance.choice((1, 1, 2, 3))):
        first = chance.choice(NAMES)
        items.append(first if chance.random() < 0.6 else first + chance.choice(("..", "-")) + chance.choice(NAMES))
    return ",".join(items)


def part(chance, least, most):
    items = []
    for _ in range(chance.choice((1, 1, 1, 2, 3))):
        low = chance.randint(least, most)
        item = f"{low:02d}" if chance.random() < 0.5 else str(low)
        kind = chance.random()
        if kind < 0.3:
            item += f"..{chance.randint(low, most) if chance.random() < 0.9 else low}"
        if 0.2 < kind < 0.5:
            item += f"/{chance.randint(1, max(1, (most - low) // 2))}"
        items.append("*" if kind > 0.85 and len(items) == 0 else item)
        if items == ["*"]:
            break
    return ",".join(items)


def expression(chance):
    made = []
    if chance.random() < 0.4:
        made.append(weekdays(chance))
    if chance.random() < 0.6:
        day, month = part(chance, 1, 31), chance.choice(("*", "*", part(chance, 1, 12)))
        made.append(chance.choice(("*-", "*-", "")) + f"{month}-{day}")
    if chance.random() < 0.85 or not made:
        hour, minute = chance.choice(("*", part(chance, 0, 23), part(chance, 0, 23))), part(chance, 0, 59)
        made.append(f"{hour}:{minute}" + chance.choice(("", "", ":00", ":0")))
    return " ".join(made)


def there(text):
    """The next moments that systemd names, or nothing if it refuses the text."""
    ran = subprocess.run(["systemd-analyze", "calendar", f"--iterations={MOST}", f"--base-time={FIRST} UTC", text], capture_output=True, text=True,
                         env={"PATH": os.environ["PATH"], "TZ": "UTC", "LC_ALL": "C"}, check=False)
    if ran.returncode:
        return None
    found = [datetime.datetime.fromisoformat(it) for it in re.findall(r"(?:Next elapse|Iter\w*\.? #\d+): \w+ (\S+ \S+) UTC", ran.stdout)]
    return [it for it in found if it < FIRST + datetime.timedelta(days=DAYS)]


def lets(guard, at):
    """Whether the test before a command lets it run that starts at this moment: its cases, read here."""
    minutes = int(re.search(r" (\d+) minutes ago", guard)[1])
    was = at - datetime.timedelta(minutes=minutes)
    text = f"{was.month}.{was.day}.{was.isoweekday() % 7}{was.isoweekday()}.{was.hour}"
    return all(any(fnmatch.fnmatchcase(text, it) for it in case.split("|")) for case in re.findall(r"case \$1 in (.*?)\) ;;", guard))


def here(definition):
    """The next moments at which the definition runs its command."""
    entries, program = definition["StartCalendarInterval"], definition["ProgramArguments"]
    guard = program[2] if len(program) > 2 and "/bin/date" in program[2] else None
    assert len(entries) <= 64
    found = []
    for count in range(DAYS + 1):
        day = FIRST.replace(hour=0) + datetime.timedelta(days=count)
        minutes = set()
        for entry in entries:
            either = [day.day == entry["Day"]] if "Day" in entry else []
            either += [day.isoweekday() % 7 == entry["Weekday"] % 7] if "Weekday" in entry else []
            if entry.get("Month", day.month) == day.month and (any(either) or not either):
                minutes.update((hour, minute) for hour in ([entry["Hour"]] if "Hour" in entry else range(24)) for minute in ([entry["Minute"]] if "Minute" in entry else range(60)))
        moments = [day + datetime.timedelta(hours=hour, minutes=minute) for hour, minute in sorted(minutes)]
        found += [at for at in moments if at > FIRST and (guard is None or lets(guard, at))]
        if len(found) >= MOST:
            break
    return [it for it in found if it < FIRST + datetime.timedelta(days=DAYS)][:MOST]


def is_odd(found, wanted):
    """Whether they are the same but for the first day of a month, of which systemd 252 passes over the first moments if the hours have a step: `0/9:23` from the last day of May on names
    09:23 of June 1 first, and from June 1 on 00:23 of each day."""
    if not found or not wanted or found == wanted:
        return False
    both = [[it for it in them if it.day != 1] for them in (found, wanted)]
    count = min(map(len, both))
    return count > MOST // 2 and both[0][:count] == both[1][:count] and all(it in found for it in wanted if it <= found[-1])


def main():
    words = argparse.ArgumentParser()
    words.add_argument("count", type=int, nargs="?", default=400)
    words.add_argument("--seed", type=int, default=5)
    given = words.parse_args()
    chance = random.Random(given.seed)
    texts = FIXED + [expression(chance) for _ in range(given.count - len(FIXED))]
    faults, taken, guarded, odd = 0, 0, 0, 0
    with tempfile.TemporaryDirectory() as folder:
        for number, text in enumerate(texts):
            for name, it in ((f"x{number}.service", "[Service]\nExecStart=/bin/true\n"), (f"x{number}.timer", f"[Timer]\nOnCalendar={text}\n")):
                with open(f"{folder}/{name}", "w", encoding="utf-8") as file:
                    file.write(it)
        ran = subprocess.run([f"{CONTRIB}/from-systemd", "--into", f"{folder}/jobs", *(f"{folder}/x{number}.timer" for number in range(len(texts)))], capture_output=True, text=True, check=False)
        for number, text in enumerate(texts):
            wanted = there(text) if text else None
            told = "\n".join(row for row in ran.stderr.splitlines() if f"/x{number}." in row)
            path, found = f"{folder}/jobs/x{number}.json", None
            if os.path.exists(path):
                with open(path, encoding="utf-8") as it:
                    definition = json.load(it)
                found, taken = here(definition), taken + 1
                guarded += "a test before the command" in told
                if ("/bin/date" in json.dumps(definition)) != ("a test before the command" in told):
                    told, found = f"{told} (the test is not told)", []
            if found is None and wanted is not None and any(it in told for it in REFUSED):
                continue
            if is_odd(found, wanted):
                odd += 1
            elif found != wanted:
                faults += 1
                print(f"{text!r}\n  systemd: {wanted and [str(it) for it in wanted[:8]]}\n  here:    {found and [str(it) for it in found[:8]]} {told}", file=sys.stderr)
    print(f"{len(texts)} expressions, {taken} of which are taken, {guarded} by a test before the command, {odd} without the days that systemd passes over: {faults} differ")
    return int(bool(faults) or not taken)


if __name__ == "__main__":
    sys.exit(main())
