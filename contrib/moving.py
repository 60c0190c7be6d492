"""What from-systemd and from-supervisor have alike: their words, the user's prefix, and where a definition is put."""

import grp
import json
import os
import pwd
import sys


class Fault(Exception):
    """Why something can't be brought over."""


def words_of(arguments, shown):
    """What --into and --logs name, and the other words. Ends the script with status 64 if they are not as `shown` says."""
    into, logs, paths = None, "/var/log", []
    left = list(arguments)
    while left:
        word = left.pop(0)
        if word in ("--into", "--logs") and left:
            into, logs = (left.pop(0), logs) if word == "--into" else (into, left.pop(0))
        elif word.startswith("-"):
            paths = []
            break
        else:
            paths.append(word)
    if not paths:
        print(shown, file=sys.stderr)
        sys.exit(64)
    return into, logs, paths


def user_of(name):
    """The user's home, the name of its group and its shell, or nothing if this machine has no such user."""
    try:
        entry = pwd.getpwuid(int(name)) if name.isdigit() else pwd.getpwnam(name)
        return entry.pw_dir, grp.getgrgid(entry.pw_gid).gr_name, entry.pw_shell or "/bin/sh"
    except KeyError:
        return None


def put(made, into):
    """Writes a definition to standard output, or to LABEL.json in the folder, where no file is written over."""
    text = json.dumps(made, indent=2, ensure_ascii=False) + "\n"
    if into is None:
        sys.stdout.write(text)
        return
    os.makedirs(into, exist_ok=True)
    path = f"{into}/{made['Label'].replace('/', '_')}.json"
    try:
        with open(path, "x", encoding="utf-8") as it:
            it.write(text)
    except FileExistsError as fault:
        raise Fault(f"{path} is there already, and is left as it is") from fault
    except OSError as fault:
        raise Fault(f"{path}: {fault.strerror}") from fault
