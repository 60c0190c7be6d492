#!/usr/bin/env python3
"""What a program gets of a real systemd, beside what it gets of the definition that from-systemd makes of its unit.

    systemd_units.py TREE PID [COUNT] [--seed SEED]

TREE is a Debian with python3 in whose namespace PID is a systemd, the first process there. Worked units stand here: drop-ins in all of systemd's folders, templates, users, limits,
folders, specifiers, files of variables. COUNT files of variables more (200 where absent) are made at random, of quotes, backslashes, comments and ends of lines. The program of each unit
writes its words, variables, user, groups, mask, folder, niceness and limits to a file. systemd runs it; then the words of the definition are run in the same namespace, with its
variables and in its folder. Both have to have the same, but for what systemd sets for each service (`OWN`). Status 1 if one differs. It is run by hand, as root.
"""
import argparse
import json
import os
import random
import shutil
import subprocess
import sys

CONTRIB = os.path.join(os.path.dirname(os.path.dirname(os.path.abspath(__file__))), "contrib")
OWN = {"INVOCATION_ID", "JOURNAL_STREAM", "SYSTEMD_EXEC_PID", "PATH", "LANG", "PWD", "OLDPWD", "SHLVL", "_"}
PROGRAM = r"""#!/bin/sh
# probe NAME WORD..
to=/var/probe/$1.$$; named=/var/probe/$1; shift
env -0 >"$to.env"
{
    printf 'words'; for word; do printf '<%s>' "$word"; done; echo
    echo "user $(id -u) $(id -g) $(id -G | tr ' ' '\n' | sort -nu | tr '\n' ' ')"
    echo "umask $(umask)"; echo "folder $(pwd -P)"; echo "nice $(nice)"; echo "oom $(cat /proc/self/oom_score_adj)"; echo "ionice $(ionice)"; grep NoNewPrivs /proc/self/status
    sed 's/   */|/g' /proc/self/limits
} >"$to"
mv "$to.env" "$named.env"; mv "$to" "$named.state"
"""
LIB, ETC, RUN = "usr/lib/systemd/system", "etc/systemd/system", "run/systemd/system"


def service(*lines):
    return "\n".join(["[Service]", "Type=oneshot", *lines, ""])


# The unit, its files, and the limits that are compared.
WORKED = [
    ("kiv-a@nobody.service", {f"{LIB}/kiv-a@.service": service("Environment=A=1 B=1", "User=%i", "ExecStart=/bin/probe NAME %i ${A}${B}${C}${D}"),
                              f"{ETC}/kiv-a@.service.d/20.conf": "[Service]\nEnvironment=B=2\n", f"{RUN}/kiv-a@nobody.service.d/10.conf": "[Service]\nEnvironment=C=3 B=9\n",
                              f"{ETC}/kiv-.service.d/30.conf": "[Service]\nEnvironment=D=4\n", f"{LIB}/kiv-@nobody.service.d/05.conf": "[Service]\nEnvironment=E=5 A=8\n"}, []),
    ("kivb.service", {f"{LIB}/kivb.service": service("Environment=A=1", "ExecStart=/bin/probe NAME ${A}"), f"{LIB}/kivb.service.d/x.conf": "[Service]\nEnvironment=A=lib\n",
                      f"{ETC}/kivb.service.d/x.conf": "[Service]\nEnvironment=A=etc\n", f"{LIB}/kivb.service.d/y.conf": "[Service]\nEnvironment=A=no\n",
                      f"{ETC}/kivb.service.d/y.conf": "/dev/null"}, []),
    ("kivc.service", {f"{LIB}/kivc.service": service(
        "LimitNOFILE=1024:2048", "LimitFSIZE=1G", "LimitMEMLOCK=64K", "LimitAS=8G", "LimitCPU=1min", "LimitCORE=infinity", "LimitRTTIME=5ms", "LimitSTACK=8M:16M", "LimitNPROC=500",
        "LimitSIGPENDING=77", "LimitMSGQUEUE=3K", "ExecStart=/bin/probe NAME")},
     ["open files", "file size", "locked memory", "address space", "cpu time", "core file size", "realtime timeout", "stack size", "processes", "pending signals", "msgqueue size"]),
    ("kivd.service", {f"{LIB}/kivd.service": service(
        "User=daemon", "StateDirectory=kiv/one kivtwo", "RuntimeDirectory=kivd", "CacheDirectory=kivd", "LogsDirectory=kivd", "ConfigurationDirectory=kivd",
        "ExecStart=/bin/probe NAME ${STATE_DIRECTORY} ${RUNTIME_DIRECTORY} $CACHE_DIRECTORY ${LOGS_DIRECTORY} ${CONFIGURATION_DIRECTORY}")}, []),
    ("kive.service", {f"{LIB}/kive.service": service("UMask=0027", "Nice=7", "OOMScoreAdjust=300", "IOSchedulingClass=best-effort", "IOSchedulingPriority=6", "ExecStart=/bin/probe NAME")}, []),
    ("kivf.service", {f"{LIB}/kivf.service": service("User=daemon", "Group=games", "SupplementaryGroups=adm tty", "NoNewPrivileges=y", "WorkingDirectory=~", "ExecStart=/bin/probe NAME ~ $HOME $USER")}, []),
    ("kivm.service", {f"{LIB}/kivm.service": service("User=root", "ExecStart=/bin/probe NAME $HOME")}, []),
    ("kivn.service", {f"{LIB}/kivn.service": service("User=65534", "ExecStart=/bin/probe NAME $HOME")}, []),
    ("kivo.service", {f"{LIB}/kivo.service": service("User=1", "Environment=HOME=/var", "ExecStart=/bin/probe NAME $HOME ${USER}")}, []),
    ("kivp.service", {f"{LIB}/kivp.service": service("User=kiv", "ExecStart=/bin/probe NAME $HOME ${USER} $SHELL")}, []),
    ("kivq.service", {f"{LIB}/kivq.service": service("User=kiv", "SupplementaryGroups=adm", "ExecStart=/bin/probe NAME")}, []),
    ("kivg.service", {f"{LIB}/kivg.service": service("Group=games", "WorkingDirectory=/var", "ExecStart=/bin/probe NAME $HOME")}, []),
    (r"kiv-h-i@x-y\x2dz.service", {f"{LIB}/kiv-h-i@.service": service("ExecStart=/bin/probe NAME %p %P %i %I %j %J %n %N %%")}, []),
    ("kivj.service", {f"{LIB}/kivj.service": service("User=daemon", "ExecStart=/bin/probe NAME %t %S %C %L %E %h %u %U %g %G %T %V")}, []),
    ("kivk.service", {f"{LIB}/kivk.service": service("ExecStartPre=-/bin/false", "ExecStartPre=/bin/sh -c 'echo pre > /var/probe/pre'", "ExecStart=/bin/sh -c 'echo first >> /var/probe/pre'",
                                                     "ExecStart=/bin/probe NAME a \\", "# no part of it", "   b")}, []),
    ("kivl.service", {f"{LIB}/kivl.service": service("EnvironmentFile=-/etc/kiv/none", "Environment=A=1 B=2", "EnvironmentFile=/etc/kiv/l", "ExecStart=/bin/probe NAME $A ${B}"),
                      "etc/kiv/l": "# A=9\nB=\"two \\\nlines\"\nA='x y'  z \\\n  w\n C = c \n;D=1\nnone\n2E=1\nF=\nG=a#b\n"}, []),
]
PIECES = ["A=", "B=", "C=", "D_1=", "\nA=", "\nB=", "\nC=", "\nD_1=", "\n", "\n", '"', "'", '"', "'", "\\", "\\\n", "\\\\", '\\"', "\\$", "\\n", " ", "  ", "\t", "#", "\n#", "\n;", ";", "$A", "`", "x", "y z",
          "=", "é", "export E=", "\r", "2F=", "-"]


def inside(pid, *words, timeout=300):
    before = ["nsenter", "-t", pid, "-m", "-p", "-u", "-i", "-n", "-C", "-r", "-w", "env", "-i", "PATH=/usr/local/sbin:/usr/local/bin:/usr/sbin:/usr/bin:/sbin:/bin"]
    return subprocess.run([*before, *words], capture_output=True, text=True, timeout=timeout, check=False)


def probed(tree, number, limits):
    """What the program of a unit wrote, without what systemd sets for each service; nothing if it did not run."""
    base = f"{tree}/var/probe/{number}"
    if not os.path.exists(f"{base}.state"):
        return None
    with open(f"{base}.env", "rb") as it:
        variables = dict(one.split("=", 1) for one in it.read().decode().split("\0") if one)
    with open(f"{base}.state", encoding="utf-8") as it:
        state = [row for row in it.read().splitlines() if not row.startswith(("Limit|", "Max ")) or any(row.lower().startswith(f"max {name}|") for name in limits)]
    for end in ("env", "state"):
        os.remove(f"{base}.{end}")
    return {**{name: value for name, value in variables.items() if name not in OWN}, "(state)": state}


def random_file(chance):
    return "".join(chance.choice(PIECES) for _ in range(chance.choice((3, 6, 12, 20))))


def main():
    words = argparse.ArgumentParser()
    words.add_argument("tree")
    words.add_argument("pid")
    words.add_argument("count", type=int, nargs="?", default=200)
    words.add_argument("--seed", type=int, default=5)
    given = words.parse_args()
    # What runs here gets it from this script; systemd has none.
    os.setpriority(os.PRIO_PROCESS, 0, 0)
    chance = random.Random(given.seed)
    tree, pid = given.tree, given.pid
    units = [(name, files, limits) for name, files, limits in WORKED]
    for number in range(given.count):
        units.append((f"kivr{number}.service", {f"{LIB}/kivr{number}.service": service(f"EnvironmentFile=/etc/kiv/r{number}", "ExecStart=/bin/probe NAME"), f"etc/kiv/r{number}": random_file(chance)}, []))
    for folder in ("var/probe", "opt/kiv"):
        shutil.rmtree(f"{tree}/{folder}", ignore_errors=True)
        os.makedirs(f"{tree}/{folder}")
    os.chmod(f"{tree}/var/probe", 0o1777)
    for name in ("from-systemd", "moving.py"):
        shutil.copy(f"{CONTRIB}/{name}", f"{tree}/opt/kiv/{name}")
    with open(f"{tree}/bin/probe", "w", encoding="utf-8") as it:
        it.write(PROGRAM)
    os.chmod(f"{tree}/bin/probe", 0o755)
    if inside(pid, "id", "kiv").returncode:
        inside(pid, "useradd", "-m", "-s", "/bin/sh", "kiv")
    inside(pid, "usermod", "-aG", "audio,video", "kiv")
    put = []
    for number, (name, files, _) in enumerate(units):
        for path, text in files.items():
            # /run there is a file system of its own
            path = f"/proc/{pid}/root/{path}" if path.startswith("run/") else f"{tree}/{path}"
            os.makedirs(os.path.dirname(path), exist_ok=True)
            if text == "/dev/null":
                os.symlink(text, path)
            else:
                with open(path, "w", encoding="utf-8", newline="") as it:
                    it.write(text.replace("NAME", str(number)))
            put.append(path)
    faults, ran = [], 0
    try:
        inside(pid, "systemctl", "daemon-reload")
        inside(pid, "systemctl", "start", *(name for name, _, _ in units))
        there = [probed(tree, number, limits) for number, (_, _, limits) in enumerate(units)]
        made = inside(pid, "/opt/kiv/from-systemd", "--into", "/opt/kiv/jobs", *(f"/{LIB}/{name}" for name, _, _ in units))
        for number, (name, files, limits) in enumerate(units):
            path = f"{tree}/opt/kiv/jobs/{name.removesuffix('.service')}.json"
            found = None
            if os.path.exists(path):
                with open(path, encoding="utf-8") as it:
                    job = json.load(it)
                pairs = [f"{key}={value}" for key, value in job.get("EnvironmentVariables", {}).items()]
                inside(pid, *pairs, "sh", "-c", 'cd "$0" && exec "$@"', job["WorkingDirectory"], *job["ProgramArguments"])
                found = probed(tree, number, limits)
            ran += there[number] is not None
            if found != there[number]:
                faults.append(f"{name}: {files}\n  systemd: {there[number]}\n  here:    {found}\n" + "\n".join(row for row in made.stderr.splitlines() if name in row))
    finally:
        for path in put:
            os.remove(path)
        inside(pid, "systemctl", "daemon-reload")
    print("\n".join(faults), file=sys.stderr, end="\n" if faults else "")
    print(f"{len(units)} units, {ran} of which systemd ran, {len(faults)} differ")
    return int(bool(faults) or not ran)


if __name__ == "__main__":
    sys.exit(main())
