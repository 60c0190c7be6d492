#!/usr/bin/env python3
"""What from-systemd and from-supervisor make of worked units and programs, and what they tell. It needs no program of ours, and is run by hand."""
import json
import os
import pwd
import subprocess
import sys
import tempfile

CONTRIB = os.path.join(os.path.dirname(os.path.dirname(os.path.abspath(__file__))), "contrib")
ROOT = pwd.getpwnam("root")
ONCE = "TERM and KILL go to the program itself"
DEFAULT = "ExitTimeOut is 90 where a unit has no TimeoutStopSec"

# The files, the one that is given, the keys that are wanted of the definition (None: it is refused), what has to be told, and what may not.
SYSTEMD = [
    ({"a.service": '[Service]\nExecStart=/bin/x --why="Prevent interrupting" a\'b c\'d "" \\x41\\q\n'}, "a.service",
     {"ProgramArguments": ["/bin/x", "--why=Prevent interrupting", "ab cd", "", "A\\q"], "ExitTimeOut": 90}, [ONCE, DEFAULT], []),
    ({"a.service": "[Service]\nEnvironment=ONE=1 'TWO=t w'\nExecStart=/bin/x $TWO ${TWO} $$ONE $${ONE} x$ONE %%\n"}, "a.service",
     {"ProgramArguments": ["/bin/x", "t", "w", "t w", "$ONE", "${ONE}", "x$ONE", "%"]}, [], []),
    ({"a@b c.service": "[Service]\nExecStart=/bin/x %i\n"}, "a@b c.service", {"ProgramArguments": ["/bin/x", "b c"]}, [], []),
    ({"a.service": "[Service]\nExecStart=/bin/x a \\\n  b\\\\\nNice=5\n"}, "a.service", {"ProgramArguments": ["/usr/bin/nice", "-n", "5", "/bin/x", "a", "b\\"]}, [], []),
    ({"a.service": "[Service]\nExecStart=/bin/x a ; /bin/y\n"}, "a.service", None, ["several commands in one line"], []),
    ({"a.service": '[Service]\nExecStart=/bin/x "a\n'}, "a.service", None, ["a quote has no end"], []),
    ({"a.service": "[Service]\nKillMode=process\nTimeoutStopSec=7\nExecStart=/bin/x\n"}, "a.service", {"ExitTimeOut": 7}, [], [ONCE, DEFAULT, "KillMode=process:"]),
    ({"a.service": "[Service]\nKillMode=none\nExecStart=/bin/x\n"}, "a.service", {}, ["KillMode=none: stop gives TERM, and KILL after ExitTimeOut"], [ONCE]),
    ({"a.service": "[Service]\nSendSIGKILL=no\nExecStart=/bin/x\n"}, "a.service", {"ExitTimeOut": 0}, [], ["SendSIGKILL"]),
    ({"a.service": "[Service]\nPrivateTmp=yes\nExecStart=/bin/x\nProtectHome=yes\nMemoryMax=5G\n"}, "a.service", {},
     ["a.service: PrivateTmp (2), ProtectHome (4), MemoryMax (5): no such bound here"], ["PrivateTmp=yes"]),
    ({"a.service": "[Service]\nExecStart=/bin/x\n", "a.timer": "[Timer]\nOnCalendar=Mon..Fri 09..17:00/10\n"}, "a.timer", {"len": 30}, ["a test before the command"], []),
    ({"a.service": "[Service]\nExecStart=/bin/x\n", "a.timer": "[Timer]\nOnCalendar=Sun *-*-1..7 1:00\n"}, "a.timer",
     {"StartCalendarInterval": [{"Weekday": 0, "Hour": 1, "Minute": 0}]}, ["a test before the command"], []),
    ({"a.service": "[Service]\nExecStart=/bin/x\n", "a.timer": "[Timer]\nOnCalendar=Sun 1:00\nOnCalendar=*:0/2:00\nOnCalendar=*:1/2\nOnCalendar=Mon *-*-1 2:00\n"}, "a.timer", None,
     ["no 64 entries say these lines"], []),
    ({"a.service": "[Service]\nEnvironmentFile=%t/none\nEnvironmentFile=FOLDER/vars\nExecStart=/bin/x ${A} ${B} ${C}\n",
      "vars": "# it\nA=plain words  \nB=\"a \\\"b\\\" $c\"\nC='x'  y\\ z\n"}, "a.service", {"ProgramArguments": ["/bin/x", "plain words", 'a "b" $c', "xy z"]}, [], []),
    ({"a.service": "[Service]\nExecStart=/bin/x\n", "a.timer": "[Timer]\nOnCalendar=Mon-Fri 10:00\n"}, "a.timer",
     {"StartCalendarInterval": [{"Weekday": day, "Hour": 10, "Minute": 0} for day in (1, 2, 3, 4, 5)]}, [], []),
    ({"a.service": "[Service]\nExecStart=/bin/x\n", "a.timer": "[Timer]\nOnCalendar=Monkey 10:00\n"}, "a.timer", None, ["'monkey' is not a weekday"], []),
    ({"a.service": "[Service]\nExecStart=/bin/x\nRestart=on-failure\n", "a.timer": "[Timer]\nOnCalendar=daily\n"}, "a.timer", {"KeepAlive": {"SuccessfulExit": False}},
     ["Restart=on-failure: a job that is kept alive starts at its load too"], []),
    ({"a.service": "[Service]\nExecStart=-/bin/x\nLimitFSIZE=1G\nLimitNICE=+5\nLimitCPU=1min\nLimitNOFILE=1K\n"}, "a.service",
     {"ProgramArguments": ["/usr/bin/prlimit", "--fsize=1073741824", "--nice=15", "--cpu=60", "--", "/bin/x"]}, ["ExecStart=-/bin/x: a code other than 0", "LimitNOFILE=1K"], []),
    ({"a@.service": "[Service]\nExecStart=/bin/x\nUser=%i\n", "a@.service.d/b.conf": "[Service]\nEnvironment=A=%h\n"}, "a@root.service",
     {"ProgramArguments": ["/bin/x"], "EnvironmentVariables": {"A": "/root", "HOME": ROOT.pw_dir, "SHELL": ROOT.pw_shell, "USER": "root", "LOGNAME": "root"}, "Label": "a@root"}, [], ["no such user"]),
    ({"lib/systemd/system/a-b.service": "[Service]\nExecStart=/bin/x ${A} ${B} ${C} ${D}\nEnvironment=A=1 B=1 C=1 D=1\n", "etc/systemd/system/a-b.service.d/2.conf": "[Service]\nEnvironment=A=2\n",
      "lib/systemd/system/a-.service.d/1.conf": "[Service]\nEnvironment=A=3 B=3\n", "run/systemd/system/service.d/1.conf": "[Service]\nEnvironment=B=4\n",
      "lib/systemd/system/a-b.service.d/3.conf": "[Service]\nEnvironment=C=5\n", "etc/systemd/system/a-b.service.d/3.conf": "/dev/null"}, "lib/systemd/system/a-b.service",
     {"ProgramArguments": ["/bin/x", "2", "3", "1", "1"]}, [], []),
    ({"lib/systemd/system/a.service": "[Service]\nExecStart=/bin/x\n", "etc/systemd/system/a.service": "[Service]\nExecStart=/bin/y\n"}, "lib/systemd/system/a.service", None, ["a.service in its place"], []),
    ({"lib/systemd/system/a.service": "[Service]\nExecStart=/bin/x\n", "etc/systemd/system/a.service": "/dev/null"}, "lib/systemd/system/a.service", None, ["masks it"], []),
    ({"lib/systemd/system/a@.service": "[Service]\nExecStart=/bin/x %i $A\n", "etc/systemd/system/a@b.service.d/c.conf": "[Service]\nEnvironment=A=1\n",
      "etc/systemd/system/multi-user.target.wants/a@b.service": "->../../../../lib/systemd/system/a@.service"}, "etc/systemd/system/multi-user.target.wants/a@b.service",
     {"ProgramArguments": ["/bin/x", "b", "1"], "Label": "a@b"}, [], []),
    ({"lib/systemd/system/a.service": "[Service]\nExecStart=/bin/x\n", "etc/systemd/system/a.service": "[Service]\nExecStart=/bin/y\n",
      "etc/systemd/system/multi-user.target.wants/a.service": "->../a.service"}, "etc/systemd/system/multi-user.target.wants/a.service", {"ProgramArguments": ["/bin/y"]}, [], []),
    ({"lib/systemd/system/a.service": "[Service]\nExecStart=/bin/x $A\n", "etc/systemd/system/a.service.d/b.conf": "[Service]\nEnvironment=A=1\n",
      "etc/systemd/system/c.service": "->../../../lib/systemd/system/a.service"}, "etc/systemd/system/c.service", {"ProgramArguments": ["/bin/x", "1"], "Label": "c"}, [], []),
    ({"lib/systemd/system/a.service": "[Service]\nExecStart=/bin/x\n", "etc/systemd/system/a.timer": "[Timer]\nOnBootSec=1\n"}, "etc/systemd/system/a.timer", {"RunAtLoad": True}, [], []),
    ({".config/systemd/user/a.service": "[Service]\nExecStart=/bin/x %E\nCacheDirectory=c\n"}, ".config/systemd/user/a.service", {"WorkingDirectory": os.path.expanduser("~")},
     ["CacheDirectory=c: no folder is made for a user's unit"], []),
    ({"a.service": "[Service]\nExecStart=/bin/x ${STATE_DIRECTORY}\nStateDirectory=b c/d\n"}, "a.service", {"EnvironmentVariables": {"STATE_DIRECTORY": "/var/lib/b:/var/lib/c/d"}}, [], []),
    ({"a.service": "[Service]\nExecStart=/bin/x\nEnvironmentFile=FOLDER/v\n", "v": "A=one \\\n  two\nB='x\ny'\n#C=1 \\\nD=2\nE=3"}, "a.service",
     {"EnvironmentVariables": {"A": "one   two", "B": "x\ny", "E": "3"}}, [], []),
]
SUPERVISOR = [
    ("[supervisord]\nenvironment=A=one\nminfds=65536\n[program:x]\ncommand=x %(ENV_A)s %(ENV_B)s %(group_name)s\nenvironment=B=\"t\\wo\",PATH=/y\nstopwaitsecs=0\nstdout_logfile=off\n",
     {"ProgramArguments": ["x", "one", "two", "x"], "EnvironmentVariables": {"A": "one", "B": "t\\wo", "PATH": "/y"}, "ExitTimeOut": 1, "StandardOutPath": None},
     ["minfds=65536: supervisord raises its own limit", "KILL comes a second after TERM", "x is looked for in the PATH of environment"], []),
    ("[program:x]\ncommand=x %(ENV_PATH)s %(group_name)s\n[program:y]\n[group:g]\nprograms=x\n", None, ["ENV_PATH is '", "[group:g]: nothing here is like it", "no command"], []),
    ("[supervisord]\nenvironment=A=\"1\",B=2\numask=027\nstrange=5\n[program:x]\ncommand=/bin/x 'a b'\nenvironment=B=3\n",
     {"EnvironmentVariables": {"A": "1", "B": "3"}, "ProgramArguments": ["/bin/sh", "-c", 'umask 027 && exec "$0" "$@"', "/bin/x", "a b"]},
     ["strange=5: nothing here is like it", "supervisor gives up after startretries", "umask=027: supervisord sets it for its programs if it goes to the background"], []),
    ("[supervisord]\numask=027\ndirectory=/d\nnodaemon=true\n[program:x]\ncommand=/bin/x\n", {"ProgramArguments": ["/bin/x"], "WorkingDirectory": None},
     ["umask=027: supervisord with nodaemon does not set it", "directory=/d: supervisord with nodaemon"], []),
    ("[program:x]\ncommand=/bin/x\nstdout_logfile_maxbytes=0\nstdout_events_enabled=true\nstderr_logfile_backups=3\n", {"StandardOutPath": "/l/x.log"},
     ["stdout_events_enabled=true: what it writes goes to its file alone", "stderr_logfile_backups=3: a file is not rotated here"], ["maxbytes"]),
    ("[group:g]\nprograms=x\n[program:x]\ncommand=/bin/x\n", None, ["[group:g]: nothing here is like it"], []),
]


def faults_of(named, ran, wanted, told, untold):
    found = [f"{named}: not told: {it}" for it in told if it not in ran.stderr] + [f"{named}: told: {it}" for it in untold if it in ran.stderr]
    if wanted is None or ran.returncode:
        return found + ([f"{named}: status {ran.returncode}: {ran.stderr}"] if (wanted is None) != bool(ran.returncode) else [])
    made = json.loads(ran.stdout)
    made["len"] = len(made.get("StartCalendarInterval", []))
    return found + [f"{named}: {key} is {made.get(key)!r}, wanted {value!r}" for key, value in wanted.items() if made.get(key) != value]


def main():
    faults = []
    with tempfile.TemporaryDirectory() as folder:
        for number, (files, given, *rest) in enumerate(SYSTEMD):
            place = os.path.join(folder, str(number))
            os.mkdir(place)
            for name, text in files.items():
                os.makedirs(os.path.dirname(f"{place}/{name}"), exist_ok=True)
                if text == "/dev/null" or text.startswith("->"):
                    os.symlink(text.removeprefix("->"), f"{place}/{name}")
                    continue
                with open(f"{place}/{name}", "w", encoding="utf-8") as it:
                    it.write(text.replace("FOLDER", place))
            ran = subprocess.run([f"{CONTRIB}/from-systemd", "--logs", "/l", f"{place}/{given}"], capture_output=True, text=True, check=False)
            faults += faults_of(f"from-systemd, case {number + 1}", ran, *rest)
        for number, (text, *rest) in enumerate(SUPERVISOR):
            with open(f"{folder}/conf", "w", encoding="utf-8") as it:
                it.write(text)
            ran = subprocess.run([f"{CONTRIB}/from-supervisor", "--logs", "/l", f"{folder}/conf"], capture_output=True, text=True, check=False)
            faults += faults_of(f"from-supervisor, case {number + 1}", ran, *rest)
    print("".join(f"converters: {it}\n" for it in faults), file=sys.stderr, end="")
    print(f"converters: {len(SYSTEMD) + len(SUPERVISOR)} cases, {len(faults)} faults")
    return int(bool(faults))


sys.exit(main())
