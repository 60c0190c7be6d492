#!/usr/bin/env python3
"""What from-supervisor makes of files at random, beside what supervisor itself reads of them.

    supervisor_programs.py TREE [COUNT] [--seed SEED]

TREE is a Debian with the package supervisor, whose reader of files (options.py) is used. The programs of tests/supervisor_files are read first. COUNT files (300 where absent)
are made at random: sections, comments, lines that go on, quotes, `%(NAME)s` of all kinds, groups, numprocs, files of [include]. For each process both have to have the same words, variables, folder, user, mask, wait before KILL, output files, and
whether it starts by itself and again. What supervisor refuses from-supervisor may refuse or not. What from-supervisor refuses alone has to be one of `REFUSED`. Status 1 if one differs. It
needs no program of ours, and is run by hand.
"""
import argparse
import glob
import json
import os
import random
import shlex
import shutil
import subprocess
import sys
import tempfile

TOP = os.path.dirname(os.path.dirname(os.path.abspath(__file__)))
REFUSED = ["nothing here is like it", "is there already, and is left as it is", "No closing quotation", "No escaped character"]
TEXTS = ["a", "x y", "%(program_name)s", "%(group_name)s", "%(here)s/x", "%(ENV_KIV)s", "%(host_node_name)s", "%(process_num)02d", "%%", "'q w'", '"q  w"', r"\\n", r'"a\"b"', "é", "a;b", "a#b",
         "$HOME", "~", "--x=1", "-c", "%(numprocs)d"]
# Of variables that `environment` may set or not, and that nothing sets.
RARE = ["%(ENV_A)s", "%(ENV_B)s", "%(ENV_NONE)s", "%(none)s", "it's"]
VALUES = ["1", '"two words"', "'x,y'", "%(ENV_KIV)s", '"%(program_name)s"', "/usr/bin:/bin", "a-b.c+d", r'"a\nb"', r"'it\s'", "%(here)s", '""', "a(b)", '"a%%b"', '"a%%%%b"', "%(process_num)d"]
# Of [supervisord], which is no program.
OF_ALL = ["1", '"two words"', "'x,y'", '"%(ENV_KIV)s"', "a-b.c+d", "%(here)s", '"a%%%%b"']
SHOWN = """
import json, os, sys
sys.path.insert(0, sys.argv[1])
from supervisor import datatypes, options as all_options
from supervisor.options import ServerOptions, Automatic
# A folder or a user need not be here.
datatypes.existing_dirpath = all_options.existing_dirpath = all_options.existing_directory = os.path.expanduser
all_options.name_to_uid = str
from supervisor.datatypes import RestartUnconditionally, RestartWhenExitUnexpected
found = []
for path in sys.argv[2:]:
    options = ServerOptions()
    options.configfile, options.here = path, os.path.dirname(path)
    try:
        section = options.read_config(path)
    except (ValueError, KeyError) as fault:
        found.append(None)
        continue
    made = {}
    for group in section.process_group_configs:
        for it in group.process_configs:
            again = {RestartUnconditionally: "always", RestartWhenExitUnexpected: "unexpected"}.get(it.autorestart, "never")
            both = ((it.stdout_logfile, it.stdout_syslog), (it.stderr_logfile, it.stderr_syslog))
            # what goes to syslog there goes to a file here, which is told
            files = [("AUTO" if file is Automatic or is_syslog else file) for file, is_syslog in both]
            made[it.name] = {"command": it.command, "variables": it.environment, "folder": it.directory, "user": it.uid, "mask": it.umask, "stop": it.stopwaitsecs, "starts": it.autostart,
                             "again": again, "files": files, "is_joined": it.redirect_stderr, "count": made.get(it.name, {}).get("count", 0) + 1}
    found.append({"programs": made, "folder": section.directory, "user": section.user, "mask": section.umask if "umask" in open(path).read().split("[program")[0] else None})
print(json.dumps(found))
"""


def blank(chance):
    return chance.choice(("", "", "", " ; a remark", "  # another"))


def pairs(chance, values):
    return chance.choice((",", ", ")).join(f"{name}={chance.choice(values)}" for name in chance.sample(["A", "B", "C_1", "PATH"], chance.randint(1, 3)))


def program(chance, name):
    count = chance.choice((1, 1, 1, 2, 3))
    command = " ".join(["/bin/echo", *(chance.choice(TEXTS if chance.random() < 0.93 else RARE) for _ in range(chance.randint(0, 4)))])
    rows = [f"[program:{name}]", f"command{chance.choice(('=', ' = ', ':'))}{command}{blank(chance)}"]
    if count > 1 or chance.random() < 0.2:
        rows.append("process_name=" + chance.choice(("%(program_name)s_%(process_num)d", "%(group_name)s-%(process_num)02d", "n%(process_num)s")))
        rows.append(f"numprocs={count}")
    more = {
        "environment": lambda: pairs(chance, VALUES), "directory": lambda: chance.choice(("/tmp", "/var/%(program_name)s", "/%(ENV_KIV)s")), "user": lambda: chance.choice(("root", "nobody", "daemon", "0", "1")),
        "umask": lambda: chance.choice(("022", "077", "2")), "stopwaitsecs": lambda: chance.choice(("1", "0", "30", "100000")), "autostart": lambda: chance.choice(("true", "false", "No", "1")),
        "autorestart": lambda: chance.choice(("true", "false", "unexpected", "On", "0")), "redirect_stderr": lambda: chance.choice(("true", "false", "1")),
        "stdout_logfile": lambda: chance.choice(("NONE", "none", "off", "AUTO", "auto", "/tmp/%(program_name)s.log", "/tmp/x.%(process_num)d", "/tmp/%%%%x")),
        "stderr_logfile": lambda: chance.choice(("NONE", "off", "AUTO", "/tmp/err.log")), "numprocs_start": lambda: chance.choice(("0", "1", "7")), "priority": lambda: "5",
        "stopsignal": lambda: chance.choice(("TERM", "INT", "QUIT")), "exitcodes": lambda: chance.choice(("0", "0,2")),
    }
    for key in chance.sample(sorted(more), chance.randint(0, 7)):
        rows.append(f"{key}{chance.choice(('=', ' = ', ': '))}{more[key]()}{blank(chance)}")
    if chance.random() < 0.3:
        rows.insert(2, chance.choice(("    more words", "\t'q w' ; a remark", "; a whole line", "  # within")))
    return rows


def file_of(chance):
    """The main file and the one that it includes."""
    names = chance.sample(["web", "work_er", "x-1", "y.z"], chance.randint(1, 3))
    rows = ["[supervisord]"]
    if chance.random() < 0.4:
        rows.append("environment=" + pairs(chance, OF_ALL))
    if chance.random() < 0.2:
        rows.append("umask=" + chance.choice(("027", "077")))
    if chance.random() < 0.2:
        rows.append("directory=/var")
    if chance.random() < 0.1:
        rows.append("user=daemon")
    if chance.random() < 0.2:
        rows.append("minfds=" + chance.choice(("1024", "65536")))
    rows += ["[include]", "files = extra/*.conf", "[supervisorctl]", "serverurl=unix:///run/x.sock"] if chance.random() < 0.5 else []
    for name in names:
        rows += [""] * chance.randint(0, 1) + program(chance, name)
    if chance.random() < 0.3:
        rows += ["[group:many]", "programs=" + ",".join(chance.sample(names, chance.randint(1, len(names))))]
    return "\n".join(rows) + "\n", "\n".join(program(chance, "extra")) + "\n[include]\nfiles=*.conf\n"


def seen(definition, logs):
    """A definition in supervisor's terms."""
    words, mask, user = definition["ProgramArguments"], None, None
    if words[:2] == ["/bin/sh", "-c"] and len(words) > 3 and words[2].startswith("umask "):
        mask, words = int(words[2].split()[1], 8), words[3:]
    if words[0] == "/usr/bin/setpriv":
        user, words = words[1].partition("=")[2], words[5:]
    level = definition.get("KeepAlive")
    files = [definition.get(key) for key in ("StandardOutPath", "StandardErrorPath")]
    again = {"true": "always", '{"SuccessfulExit": false}': "unexpected"}.get(json.dumps(level), "never")
    return {"words": words, "variables": definition.get("EnvironmentVariables", {}), "folder": definition.get("WorkingDirectory"), "user": user, "mask": mask, "stop": definition["ExitTimeOut"],
            "starts": (level is not None or definition.get("RunAtLoad", False)) and not definition.get("Disabled", False), "again": again,
            "files": ["AUTO" if file == f"{logs}/{definition['Label']}.log" else file for file in files]}


def is_command(text):
    try:
        return bool(shlex.split(text))
    except ValueError:
        return False


def wanted(it, above):
    user = it["user"] if it["user"] is not None else above["user"]
    files = [it["files"][0], it["files"][0] if it["is_joined"] else it["files"][1]]
    return {"words": shlex.split(it["command"]), "variables": it["variables"], "folder": it["folder"] or above["folder"], "user": None if user in (None, "0", "root") else user,
            "mask": it["mask"] if it["mask"] is not None else above["mask"], "stop": max(1, min(it["stop"], 86400)), "starts": it["starts"], "again": it["again"], "files": files}


def main():
    words = argparse.ArgumentParser()
    words.add_argument("tree")
    words.add_argument("count", type=int, nargs="?", default=300)
    words.add_argument("--seed", type=int, default=5)
    given = words.parse_args()
    chance = random.Random(given.seed)
    faults, compared, refused = 0, 0, 0
    environment = {"PATH": os.environ["PATH"], "KIV": "kiv value", "HOME": "/root"}
    with tempfile.TemporaryDirectory() as folder:
        places = []
        for number in range(given.count):
            place = f"{folder}/{number}"
            os.makedirs(f"{place}/extra")
            main_text, extra = file_of(chance)
            for name, text in (("main.conf", main_text), ("extra/one.conf", extra)):
                with open(f"{place}/{name}", "w", encoding="utf-8") as it:
                    it.write(text)
            places.append(place)
        for path in sorted(glob.glob(f"{TOP}/tests/supervisor_files/*.conf")):
            places.append(f"{folder}/{os.path.basename(path)}")
            os.mkdir(places[-1])
            shutil.copy(path, f"{places[-1]}/main.conf")
        shown = subprocess.run([sys.executable, "-c", SHOWN, f"{given.tree}/usr/lib/python3/dist-packages", *(f"{it}/main.conf" for it in places)], capture_output=True, text=True, env=environment,
                               check=False)
        if shown.returncode:
            sys.exit(shown.stderr)
        for place, theirs in zip(places, json.loads(shown.stdout)):
            ran = subprocess.run([f"{TOP}/contrib/from-supervisor", "--into", f"{place}/jobs", "--logs", "/l", f"{place}/main.conf"], capture_output=True, text=True, env=environment, check=False)
            ours = {}
            for path in glob.glob(f"{place}/jobs/*.json"):
                with open(path, encoding="utf-8") as it:
                    made = json.load(it)
                own = seen(made, "/l")
                label = made["Label"]
                names = [name for name in (theirs or {"programs": {}})["programs"] if label == name or label.endswith(f".{name}")]
                ours[max(names, key=len, default=label)] = own
            if theirs is None:
                refused += 1
                continue
            if any(it["count"] > 1 for it in theirs["programs"].values()):
                continue
            # a command that has no end of a quote supervisor takes, and never starts
            them = {name: wanted(it, theirs) for name, it in theirs["programs"].items() if is_command(it["command"])}
            compared += len(them)
            bad = [row for row in ran.stderr.splitlines() if "error:" in row and not any(it in row for it in REFUSED)]
            if ours != them or bad or "Traceback" in ran.stderr:
                faults += 1
                for name in sorted({*ours, *them}):
                    if ours.get(name) != them.get(name):
                        print(f"{name}\n  supervisor: {them.get(name)}\n  here:       {ours.get(name)}", file=sys.stderr)
                with open(f"{place}/main.conf", encoding="utf-8") as it:
                    print(it.read() + "\n".join(bad) + ran.stderr[-300:], file=sys.stderr)
    print(f"{len(places)} files, {compared} processes, {refused} files that supervisor refuses: {faults} differ")
    return int(bool(faults) or not compared)


sys.exit(main())
