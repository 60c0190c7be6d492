#!/usr/bin/env python3
"""Counts what `jobscope check` tells of mistakes that people make, and what it tells of files that are right.

    tests/mistakes.py [PROGRAM] [-v]

The files in `tests/mistakes` have definitions, each with a title behind `===`; of a mistake a regular expression behind `--- told` is for the line that
is to name it.

`wrong` has 215 mistakes by who wrote the check, written after it.

`asked` has 95 that people ask about, written by somebody who had not read the check. Of 97 at first 85 were told when they were first tried. Then two were
taken out, since by sh(1) and jobd.json(5) they do no harm, and one expression was mended, which missed the line that named its mistake.

`fetched` has 31 property lists of other projects that do here what their authors did not mean, and 15 lines of units of Debian 12; 24 and 8 were told
when they were first tried. Of the seven units whose line was not told, each names a program of which the check had no row.

`right` has what is right: 43 property lists of other projects, 55 lines of units of Debian 12, 22 by the manual pages there, and others. Titles name
package, version and file, of a list the suite too; `tests/fetch_lists.py` fetches the lists and compares them. All of these were fetched in
November 2026. Four had a false alarm when they were first tried: three lists with a path from their WorkingDirectory, and bluetoothd, which never leaves
the foreground. Titles that end with `from memory` have no such source.

The verdicts were written before the check was run over the file, and never from what it says: of a list by launchd.plist(5), jobd.json(5) and the
documents of its project; of a unit by its Type, where `forking` leaves the foreground and any other stays, but for collectd, which stays for systemd
alone, and for a line of a shell without exec.

Nine in ten of the mistakes have to be told; no error and no warning may stand at a file that is right, but of a program, a file or a folder that this
machine lacks. PROGRAM is that of jobscope, build/quick/jobscope where absent. The status is 1 if either does not hold. -v shows each file that is not as
wanted.

What the definitions name is laid out in a scratch folder: scripts that can't be started, programs of another processor and cut ones, a queue.
"""
import os
import re
import socket
import subprocess
import sys
import tempfile

TOP = os.path.dirname(os.path.dirname(os.path.abspath(__file__)))

# What may be said of a file that is right: that it is not here.
LACKS = re.compile(r"warning: (the program|the script|the folder|[A-Z][A-Za-z]+:) \S+ is (not there$|in no folder of )")


def parted(name):
    """The files of a list: of each the title, the text, and what is to be told."""
    with open(os.path.join(TOP, "tests", "mistakes", name), encoding="utf-8") as file:
        for case in file.read().split("=== ")[1:]:
            title, _, rest = case.partition("\n")
            text, _, told = rest.partition("\n--- told\n")
            yield title, text.strip("\n"), told.strip("\n")


def make(folder, name, content, mode=0o755):
    path = os.path.join(folder, name)
    with open(path, "wb") as file:
        file.write(content)
    os.chmod(path, mode)


def lay_out(folder):
    """The files that definitions name."""
    with open("/bin/true", "rb") as file:
        whole = file.read()
    make(folder, "cut", whole[: len(whole) // 2])
    # e_machine of elf(5): 243 is RISC-V, 183 Arm of 64 bits; neither is this machine's, or one is.
    other = 243 if whole[18] != 243 else 183
    make(folder, "arm", whole[:18] + other.to_bytes(2, "little") + whole[20:])
    make(folder, "lost.sh", b"#!/nowhere/interpreter\n")
    make(folder, "crlf.sh", b"#!/bin/sh\r\necho\r\n")
    make(folder, "env.sh", b"#!/usr/bin/env no-such-program-9\n")
    make(folder, "tab.sh", b"#!\t/bin/sh\n")
    make(folder, "plain.py", b"print(1)\n", 0o644)
    os.makedirs(os.path.join(folder, "queue"))
    os.makedirs(os.path.join(folder, "empty"))
    make(folder, "queue/.gitkeep", b"", 0o644)


def checked(program, folder, files):
    """What a check says of each of the files, by its name: one call for all, and as nobody for those that a user has to check."""
    said = {name: [] for name in files}
    for is_users in (False, True):
        names = [name for name in files if name.startswith("user-") == is_users]
        if not names:
            continue
        front = ["setpriv", "--reuid=65534", "--regid=65534", "--clear-groups", "--"] if is_users and os.geteuid() == 0 else []
        ran = subprocess.run([*front, *program, "check", "--utc", "--now", "1795602000", *names], cwd=folder, capture_output=True, text=True, check=False)
        for line in ran.stdout.splitlines():
            front, _, rest = line.partition(":")
            # (a tip that stands in a line of its own is of the file before it)
            if front in said:
                last = front
            said[last].append(re.sub(r"^(\d+:\d+)?( \(\S*\))?:? ?", "", rest))
    return said


def write(folder, name, cases, port):
    """Writes each definition to a file of its own, and gives the names."""
    names = []
    for number, (title, text, _) in enumerate(cases):
        # (a port below 1024 is a mistake of who is not root)
        front = "user-" if title.endswith("as a user") else ""
        file = f"{front}{name}{number:03}.json"
        text = text.replace("FOLDER", folder).replace("@PORT@", str(port))
        label = f"org.example.{name}{number}"
        # (each file has a label of its own)
        if re.match(r"\S+ \S+ (of|in) [a-z]+[:,] ", title):
            text = re.sub(r'("Label": ")([^"]*)"', rf'\g<1>\g<2>.{name}{number}"', text)
        text = re.sub(r'("Label": ")(org\.example\.[a-z]*|a|app|deep)"', rf'\g<1>{label}"', text)
        make(folder, file, text.encode(), 0o644)
        names.append(file)
    return names


def main(words):
    shows = "-v" in words
    program = [word for word in words if word != "-v"] or [os.path.join(TOP, "build", "quick", "jobscope")]
    wrong, right = [*parted("wrong"), *parted("asked"), *parted("fetched")], list(parted("right"))
    with tempfile.TemporaryDirectory() as folder, socket.create_server(("::1", 0), family=socket.AF_INET6) as server:
        os.chmod(folder, 0o755)
        lay_out(folder)
        port = server.getsockname()[1]
        names = write(folder, "wrong", wrong, port) + write(folder, "right", right, port)
        said = checked(program, folder, names)
        silent, false = [], []
        for (title, _, told), name in zip(wrong, names):
            if not any(re.search(told, line) for line in said[name]):
                silent.append((title, said[name]))
        for (title, _, _), name in zip(right, names[len(wrong):]):
            bad = [line for line in said[name] if line.startswith(("error", "also", "warning")) and not LACKS.match(line)]
            # (each file is heard of)
            if bad or not said[name]:
                false.append((title, bad))
    if shows:
        for kind, cases in (("not told", silent), ("false alarm", false)):
            for title, lines in cases:
                print(f"{kind}: {title}: {lines}")
    told = len(wrong) - len(silent)
    is_well = told * 10 >= len(wrong) * 9 and not false and len(wrong) >= 200 and len(right) >= 200
    print(f"{told} of {len(wrong)} mistakes are told; {len(false)} of {len(right)} right files have a false alarm")
    return int(not is_well)


if __name__ == "__main__":
    sys.exit(main(sys.argv[1:]))
