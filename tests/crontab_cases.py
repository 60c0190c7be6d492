#!/usr/bin/env python3
"""The cases of `jobscope cron` (tests/scenes/scope/cron/cases) beside Debian's own cron.

    crontab_cases.py TREE

TREE is a Debian with the package cron. Of each line of each case: `crontab -n` there takes it exactly if the case has a definition of it, but for what `STRICTER`
names; the entries of the case match exactly the minutes that crontab(5) gives its fields, over each day of a month, weekday and minute; and cron itself, started
there with the line's command behind @reboot, hands the shell the command that the case has, with the case's variables, in its working folder. SHELL, HOME, LOGNAME and the folder
are those that crontab(5) says, by the users of this machine. Of a definition with a guard
the command runs at exactly the minutes of the fields too, over a week of minutes: the guard of the case is run by a shell, as in `guards.py`. No program of ours
runs. Status 1 if one differs. It is run by hand, as root.
"""
import grp
import json
import os
import pwd
import re
import subprocess
import sys
import time

sys.dont_write_bytecode = True
import guards

TOP = os.path.dirname(os.path.dirname(os.path.abspath(__file__)))
NAMES = {"@yearly": "0 0 1 1 *", "@annually": "0 0 1 1 *", "@monthly": "0 0 1 * *", "@weekly": "0 0 * * 0", "@daily": "0 0 * * *", "@midnight": "0 0 * * *", "@hourly": "0 * * * *"}
MONTHS = "jan feb mar apr may jun jul aug sep oct nov dec".split()
DAYS = "sun mon tue wed thu fri sat".split()
SPANS = [(0, 59, []), (0, 23, []), (1, 31, []), (1, 12, MONTHS), (0, 7, DAYS)]
# What cron takes and `jobscope cron` refuses on purpose: why, by a part of what is told.
STRICTER = {"% ends a command": "a command's input has no counterpart", "the command begins with *": "a field too many is the likely mistake",
            "has the step": "a step past the field's values", "runs backwards": "cron never runs it", "0~9": "cron passes over what stands behind the 0",
            "expected five fields and a command": "cron gives the shell an empty command"}
# cron's own: it sets these itself, or the crontab of the trial does.
OWN = {"SHELL", "HOME", "LOGNAME", "PATH", "PWD", "CASE", "_", "SHLVL", "OLDPWD", "MAILTO", "MAILFROM", "CRON_TZ", "USER"}


def cases():
    text = open(f"{TOP}/tests/scenes/scope/cron/cases", encoding="utf-8").read()
    for case in re.split(r"^=== ", text, flags=re.M)[1:]:
        parts, rows = {}, None
        name, _, rest = case.partition("\n")
        for row in rest.splitlines():
            head = re.fullmatch(r"--- (\w+)", row)
            if head:
                rows = parts[head[1]] = []
            else:
                rows.append(row)
        yield name, parts


def lines_of(parts):
    words = parts["words"][1:]
    is_system = "--system" in words
    words = [it for it in words if it != "--system"]
    if "--logs" in words:
        words = words[words.index("--logs") + 2:]
    return (parts["input"] if words == ["-"] else words), is_system


def values(text, low, high, names):
    found = set()

    def number(word):
        return names.index(word.lower()) + (1 if names is MONTHS else 0) if word.lower() in names else int(word)
    for item in text.split(","):
        span, _, step = item.partition("/")
        first, _, last = (f"{low}-{high}" if span == "*" else span).partition("-")
        found.update(range(number(first), number(last or first) + 1, int(step or 1)))
    return found


def minutes_of(fields):
    """For each month, day and weekday the minutes of the day that the fields match, as crontab(5) has it."""
    minutes, hours, days, months, weekdays = (values(text, *span) for text, span in zip(fields, SPANS))
    weekdays = {it % 7 for it in weekdays}
    mask = sum(1 << (hour * 60 + minute) for hour in hours for minute in minutes)
    # cron's code, and the note of crontab(5): a field that begins with * restricts nothing.
    is_either = not fields[2].startswith("*") and not fields[4].startswith("*")

    def at(month, day, weekday):
        has = day in days or weekday in weekdays if is_either else day in days and weekday in weekdays
        return mask if month in months and has else 0
    return at


def entries_minutes(entries):
    def at(month, day, weekday):
        mask = 0
        for entry in entries:
            asked = [day == entry["Day"]] if "Day" in entry else []
            asked += [weekday == entry["Weekday"] % 7] if "Weekday" in entry else []
            if entry.get("Month", month) == month and (any(asked) or not asked):
                for hour in [entry["Hour"]] if "Hour" in entry else range(24):
                    for minute in [entry["Minute"]] if "Minute" in entry else range(60):
                        mask |= 1 << (hour * 60 + minute)
        return mask
    return at


def cron_sets(parts, variables, user):
    """SHELL, HOME and LOGNAME as crontab(5) has them, for a crontab of the asker or, with a user's field, of that user: the first two may be set by a line, LOGNAME may not. And the
    folder, which is the home folder."""
    around = dict(it.split("=", 1) for it in parts.get("environment", []))
    lines = dict(re.match(r"""["']?([^"'\s=]+)["']?\s*=\s*(.*)""", it).groups() for it in variables)
    of_all = {it.pw_name: it for it in pwd.getpwall()}
    home, name = around.get("HOME"), around.get("LOGNAME")
    if user:
        home, name = of_all[user].pw_dir if user in of_all else None, user
    elif home and not name:
        name = next((it.pw_name for it in pwd.getpwall() if it.pw_dir == home), None)
    home = lines.get("HOME", home)
    return {"SHELL": lines.get("SHELL", "/bin/sh"), "HOME": home, "LOGNAME": name}, home


def user_before(words, user):
    """Whether the words before the shell are those by which setpriv(1) makes a program the user's, with all of the user's groups."""
    if user in (None, "root"):
        return words == []
    groups = {user}
    if user in (it.pw_name for it in pwd.getpwall()):
        number = pwd.getpwnam(user).pw_gid
        groups = {str(number), grp.getgrgid(number).gr_name}
    return words[:2] == ["/usr/bin/setpriv", f"--reuid={user}"] and words[2].removeprefix("--regid=") in groups and words[3:] == ["--init-groups", "--"]


def is_taken(tree, variables, line):
    with open(f"{tree}/root/try.tab", "w", encoding="utf-8") as file:
        file.write("".join(f"{it}\n" for it in [*variables, line]))
    return subprocess.run(["chroot", tree, "crontab", "-n", "/root/try.tab"], capture_output=True, check=False).returncode == 0


def kind_of(line):
    """A comment or an empty line, a variable as cron reads one, or an entry."""
    text = line.lstrip(" \t")
    if not text or text.startswith("#"):
        return "nothing"
    name = re.match(r"""("[^"]*"|'[^']*'|[^\s=]+)\s*=\s*(.*)""", text)
    if name:
        value = name[2].rstrip()
        if re.fullmatch(r""""[^"]*"|'[^']*'|[^"'\s].*""", value):
            return "variable"
    return "entry"


def run_cron(tree, tabs):
    """What cron hands the shell for each of these crontabs of the system, by its name."""
    shell = f"{tree}/root/record"
    with open(shell, "w", encoding="utf-8") as file:
        # SHELL -c COMMAND
        file.write('#!/bin/sh\nprintf %s "$2" >/root/told/$CASE.command\nenv -0 >/root/told/$CASE.new\npwd -P >/root/told/$CASE.folder\nmv /root/told/$CASE.new /root/told/$CASE.env\n')
    os.chmod(shell, 0o755)
    subprocess.run(["rm", "-rf", f"{tree}/root/told"], check=True)
    os.makedirs(f"{tree}/root/told")
    folder = f"{tree}/etc/cron.d"
    for name in os.listdir(folder):
        os.unlink(f"{folder}/{name}")
    for name, text in tabs.items():
        with open(f"{folder}/{name}", "w", encoding="utf-8") as file:
            file.write(text)
    inner = f"mount -t proc proc {tree}/proc; mount -t tmpfs tmpfs {tree}/run; exec chroot {tree} env -i PATH=/usr/bin:/bin /usr/sbin/cron -f -L 0"
    with subprocess.Popen(["unshare", "--pid", "--fork", "--kill-child", "--mount", "sh", "-ec", inner]) as cron:
        for _ in range(300):
            if len([it for it in os.listdir(f"{tree}/root/told") if it.endswith(".env")]) == len(tabs):
                break
            time.sleep(0.1)
        cron.kill()
    told = {}
    for name in tabs:
        base = f"{tree}/root/told/{name}"
        if os.path.exists(f"{base}.env"):
            variables = dict(it.split("=", 1) for it in open(f"{base}.env", encoding="utf-8").read().split("\0") if it)
            told[name] = (open(f"{base}.command", encoding="utf-8").read(), variables, open(f"{base}.folder", encoding="utf-8").read().strip())
    return told


def main(tree):
    faults, looked, tabs, wanted = [], [0, 0, 0, 0], {}, {}
    for name, parts in cases():
        lines, is_system = lines_of(parts)
        made = [json.loads(it) for it in parts.get("output", [])]
        told = parts.get("error", [])
        variables = []
        for number, line in enumerate(lines, 1):
            kind = kind_of(line)
            if kind == "nothing":
                continue
            if kind == "variable":
                if not is_taken(tree, variables, line):
                    faults.append(f"{name}: {line!r} is taken for a variable, and cron refuses it")
                variables.append(line)
                continue
            own = [it for it in made if it["Label"].split(".")[1] == str(number)]
            text = line.lstrip(" \t")
            count = 1 if text.startswith("@") else 5
            cut = re.match(r"((?:\S+[ \t]+){%d})" % count + (r"\S+[ \t]+" if is_system else "") + r"(.*)", text)
            plain = cut[1] + cut[2] if cut else text
            looked[0] += 1
            reason = next((it for it in told if it.startswith(f"cron:{number}: error:")), None)
            if bool(own) == bool(reason):
                faults.append(f"{name}: {line!r} has a definition and is refused, or neither")
            if is_taken(tree, variables, plain) != bool(own) and not any(it in (reason or "") for it in STRICTER) and not (is_system and reason):
                faults.append(f"{name}: {line!r}: cron {'refuses' if own else 'takes'} it; told: {reason}")
            if not own:
                continue
            fields = NAMES.get(cut[1].strip(), cut[1]).split()
            words = own[0]["ProgramArguments"]
            if cut[1].strip() == "@reboot":
                if not own[0].get("RunAtLoad"):
                    faults.append(f"{name}: {line!r} is not run at the load")
            elif not any("set -- " in it for it in words[:-3]):
                looked[1] += 1
                both = minutes_of(fields), entries_minutes(own[0]["StartCalendarInterval"])
                if any(both[0](*it) != both[1](*it) for it in ((month, day, weekday) for month in range(1, 13) for day in range(1, 32) for weekday in range(7))):
                    faults.append(f"{name}: {line!r}: its entries are of other minutes")
            else:
                looked[3] += 1
                at_each = minutes_of(fields)
                wrong, _ = guards.faults_of(own[0], lambda at, has=at_each: has(at.month, at.day, at.isoweekday() % 7) >> (at.hour * 60 + at.minute) & 1)
                faults += [f"{name}: {line!r}: its guard decides otherwise: {it}" for it in wrong[:3]]
            user = re.match(r"(?:\S+[ \t]+){%d}(\S+)" % count, text)[1] if is_system else None
            own_variables, home = cron_sets(parts, variables, user)
            found = {it: own[0]["EnvironmentVariables"].get(it) for it in own_variables}
            if found != own_variables or own[0].get("WorkingDirectory") != home:
                faults.append(f"{name}: {line!r}: crontab(5) sets {own_variables}, the case has {found}")
            before = [] if any("set -- " in it for it in words[:-3]) else words[:-3]
            if words[-3:-1] != [own_variables["SHELL"], "-c"] or not user_before(before, user):
                faults.append(f"{name}: {line!r}: it is not run by {own_variables['SHELL']} as {user}")
            key = f"c{len(tabs)}"
            shells = [it for it in variables if not it.startswith("SHELL")]
            tabs[key] = "".join(f"{it}\n" for it in [*shells, "SHELL=/root/record", f"CASE={key}"]) + f"@reboot root {cut[2]}\n"
            wanted[key] = (name, line, own[0])
    ran = run_cron(tree, tabs)
    for key, (name, line, made) in wanted.items():
        if key not in ran:
            faults.append(f"{name}: {line!r}: cron did not run it")
            continue
        looked[2] += 1
        command, variables, folder = ran[key]
        if made["ProgramArguments"][-1] != command:
            faults.append(f"{name}: {line!r}: cron runs {command!r}")
        # Debian's cron (3.0pl1-162) loses the blanks at the end of a quoted value, which crontab(5) says it keeps.
        told = {it: value.rstrip() for it, value in made["EnvironmentVariables"].items() if it not in OWN}
        if told != {it: value for it, value in variables.items() if it not in OWN}:
            faults.append(f"{name}: {line!r}: cron gives {variables}")
        # Those of the crontab itself; cron of the trial is root's.
        for own in ("HOME", "PATH"):
            value = made["EnvironmentVariables"].get(own)
            if value is not None and value not in (variables.get(own), "/home/ann"):
                faults.append(f"{name}: {line!r}: {own} is {variables.get(own)}")
        if made["EnvironmentVariables"].get("HOME") == variables["HOME"] and os.path.isdir(f"{tree}{variables['HOME']}") and made.get("WorkingDirectory") != folder:
            faults.append(f"{name}: {line!r}: cron runs it in {folder}")
    print("\n".join(faults))
    print(f"{looked[0]} lines beside crontab -n, {looked[1]} calendars, {looked[3]} guards over a week, {looked[2]} commands that cron ran: {len(faults)} differ")
    return 1 if faults or not all(looked) else 0


if __name__ == "__main__":
    sys.exit(main(os.path.realpath(sys.argv[1])) if len(sys.argv) == 2 else __doc__)
