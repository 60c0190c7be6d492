#!/usr/bin/env python3
"""What from-systemd makes of the units of packages, beside what systemd itself shows of them.

    systemd_shown.py TREE PID [NAME..]

TREE is a Debian with python3, and with the units of packages in usr/lib/systemd/system (the packages themselves need not be there), in whose namespace PID is a systemd, the first process there.
Each timer, socket and path, and each service that none of these starts, is brought over, or those that are named. Of each definition the user, the groups, the folder, the mask, the niceness, the
limits, the variables, when it is kept alive and the time to stop are those of `systemctl show`, and the calendar has the moments of `systemd-analyze calendar`. Status 1 if one differs. It needs
no program of ours, and is run by hand, as root.
"""
import glob
import json
import os
import re
import shutil
import sys

sys.dont_write_bytecode = True
from systemd_calendars import here, is_odd, there
from systemd_units import CONTRIB, inside

FOLDER = "usr/lib/systemd/system"
KEPT = {"always": True, "on-failure": {"SuccessfulExit": False}, "on-success": {"SuccessfulExit": True}, "on-abnormal": {"Crashed": True}, "on-abort": {"Crashed": True}}
UNITS = {"min": 60, "s": 1, "ms": 0.001, "h": 3600}


def started_by(tree, name):
    """The service that a timer, socket or path starts."""
    with open(f"{tree}/{FOLDER}/{name}", encoding="utf-8", errors="replace") as it:
        text = it.read()
    named = re.search(r"^(?:Unit|Service)=(.*)$", text, re.M)
    each = name.endswith(".socket") and re.search(r"^Accept=(yes|true|1|on)", text, re.M)
    return named[1].strip() if named else name.rpartition(".")[0] + ("@" if each else "") + ".service"


def given_of(tree):
    names = [os.path.basename(it) for kind in ("service", "timer", "socket", "path") for it in glob.glob(f"{tree}/{FOLDER}/*.{kind}") if not os.path.islink(it)]
    started = {started_by(tree, it) for it in names if not it.endswith(".service")}
    return sorted(it for it in names if not it.endswith(".service") or it not in started)


def shown(pid, unit):
    return dict(row.split("=", 1) for row in inside(pid, "systemctl", "show", unit).stdout.splitlines() if "=" in row)


def differing(job, show, told):
    """What of a definition is not as systemd shows it."""
    words, found = job["ProgramArguments"], []

    def option(name):
        return next((it.partition("=")[2] for it in words if it.startswith(f"--{name}=")), None)

    def same(what, theirs, ours):
        if theirs != ours:
            found.append(f"{what} is {ours}, and there {theirs}")
    user = show.get("User") or None
    same("the user", None if user == "root" else user, option("reuid"))
    if show.get("Group"):
        same("the group", show["Group"], option("regid"))
    if show.get("SupplementaryGroups"):
        same("the groups", set(show["SupplementaryGroups"].split()) - set((option("groups") or "").split(",")), set())
    if "~" not in show.get("WorkingDirectory", ""):
        same("the folder", show.get("WorkingDirectory", "").lstrip("!-").replace("[not set]", "") or "/", job["WorkingDirectory"])
    mask = re.search(r"umask (\d+)", " ".join(words))
    same("the mask", int(show["UMask"], 8), int(mask[1], 8) if mask else 0o22)
    same("the niceness", show.get("Nice", "0"), words[words.index("/usr/bin/nice") + 2] if "/usr/bin/nice" in words else "0")
    for key, hard in show.items():
        if (kind := re.fullmatch(r"Limit([A-Z]+)", key)) and (ours := option(kind[1].lower())) is not None:
            both = [show[f"{key}Soft"].replace("infinity", "unlimited"), hard.replace("infinity", "unlimited")]
            same(key, both, [ours.split(":")[0], ours.split(":")[-1]])
    for name, value in re.findall(r'(?:^| )"?([A-Z_]+)=([^ "]*)', show.get("Environment", "")):
        # a file of variables counts over the unit's own
        if not show.get("EnvironmentFiles"):
            same(f"${name}", value, job.get("EnvironmentVariables", {}).get(name, "").split(" ")[0])
    level = job.get("KeepAlive")
    if not (isinstance(level, dict) and "PathState" in level):
        same("kept alive", KEPT.get(show["Restart"]), level)
    span = show["TimeoutStopUSec"]
    seconds = 0 if span == "infinity" else sum(int(number) * UNITS[unit] for number, unit in re.findall(r"(\d+)(min|ms|s|h)", span))
    if show.get("SendSIGKILL") != "no" and abs(seconds - job["ExitTimeOut"]) >= 1:
        found.append(f"the time to stop is {job['ExitTimeOut']}, and there {span}")
    return [it for it in found if it not in told]


def main(tree, pid, *names):
    names = list(names) or given_of(tree)
    place = f"{tree}/opt/kiv"
    shutil.rmtree(place, ignore_errors=True)
    os.makedirs(place)
    for name in ("from-systemd", "moving.py"):
        shutil.copy(f"{CONTRIB}/{name}", f"{place}/{name}")
    inside(pid, "systemctl", "daemon-reload")
    faults, jobs, calendars, refused, kinds = [], 0, 0, 0, {}
    for name in names:
        ran = inside(pid, "/opt/kiv/from-systemd", f"/{FOLDER}/{name}")
        if ran.returncode:
            why = ran.stderr.partition(": error: ")[2].partition("\n")[0]
            refused, kinds = refused + 1, {**kinds, (kind := re.sub(r"^\S+: |[,;:].*", "", why) if "Type=" not in why else "Type=forking"): kinds.get(kind, 0) + 1}
            if "Traceback" in ran.stderr or not why:
                faults.append(f"{name}: {ran.stderr[-300:]}")
            continue
        job, jobs = json.loads(ran.stdout), jobs + 1
        service = name if name.endswith(".service") else started_by(tree, name)
        faults += [f"{name}: {it}" for it in differing(job, shown(pid, service.replace("@.", "@x.")), ran.stderr)]
        texts = re.findall(r"OnCalendar=([^;]*) ;", inside(pid, "systemctl", "show", "-p", "TimersCalendar", name).stdout) if name.endswith(".timer") else []
        if len(texts) == 1:
            calendars += 1
            theirs, ours = there(texts[0]), here(job)
            if theirs != ours and not is_odd(ours, theirs):
                faults.append(f"{name}: {texts[0]}: it starts at {[str(it) for it in ours[:5]]}, and there at {[str(it) for it in theirs[:5]]}")
    print("\n".join(faults), file=sys.stderr, end="\n" if faults else "")
    print(f"{len(names)} units, {jobs} jobs beside systemctl show, {calendars} calendars, {refused} refused: {len(faults)} differ")
    print("refused: " + ", ".join(f"{kind} {count}" for kind, count in sorted(kinds.items(), key=lambda it: -it[1])))
    return int(bool(faults) or not jobs)


if __name__ == "__main__":
    sys.exit(main(*sys.argv[1:]) if len(sys.argv) > 2 else __doc__)
