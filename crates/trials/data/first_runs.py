#!/usr/bin/env python3
"""The first runs of a launcher and its clients, as their users make them: `trials` plays them in the gate, under the names of the programs.

    first_runs.py --by PROGRAM

Prints `ok NAME` for each run, or `FAILED NAME: why`; the status is 1 if one failed. Each wait ends with what is waited for, or after BOUND
seconds. The scenes of `tests/scenes` try all else.
"""
import json
import os
import select
import shutil
import socket
import subprocess
import sys
import tempfile

BOUND = 60
# The outcome of a list of no job.
LISTED = '{"code":0,"orders":[],"text":"PID\\tStatus\\tLabel\\n"}\n'


class Fault(Exception):
    """What was seen, and is not as it has to be."""


def check(fact, why):
    if not fact:
        raise Fault(why)


class Place:
    """A folder with links of the programs' names, and the launcher that serves in it."""

    def __init__(self, program):
        self.folder = tempfile.mkdtemp(prefix="runs.")
        os.mkdir(f"{self.folder}/spool", 0o700)
        for name in ("jobd", "jobctl"):
            os.symlink(program, f"{self.folder}/{name}")
        self.said = open(f"{self.folder}/said", "wb")
        self.launcher = None

    def serve(self):
        words = ["serve", "--socket", "s", "--store", "store", "--spool", "spool", "--zone", "UTC0", "--journal", "journal"]
        self.launcher = subprocess.Popen(
            [f"{self.folder}/jobd", *words], cwd=self.folder, stdin=subprocess.DEVNULL, stdout=subprocess.PIPE, stderr=self.said)
        ready, _, _ = select.select([self.launcher.stdout], [], [], BOUND)
        line = self.launcher.stdout.readline() if ready else b""
        check(line == b"jobd: ready\n", f"the ready line is {line!r}; it said {self.told()!r}")

    def told(self):
        """What the launcher logged, but for the line that it has no jobd-wake, which is not there."""
        with open(f"{self.folder}/said", encoding="utf-8", errors="replace") as it:
            return "".join(line for line in it if "as no jobd-wake reports them: No such file" not in line)

    def jobctl(self, words, status, printed, told=""):
        """Runs `jobctl`, and compares all that comes of it. Before what it tells may stand of what."""
        ran = subprocess.run([f"{self.folder}/jobctl", "--socket", "s", *words], cwd=self.folder, stdin=subprocess.DEVNULL,
                             capture_output=True, timeout=BOUND, text=True)
        got, is_told = (ran.returncode, ran.stdout, ran.stderr), ran.stderr.endswith(told) and bool(ran.stderr) == bool(told)
        check(got[:2] == (status, printed) and is_told, f"jobctl {' '.join(words)}: {got}, wanted {(status, printed, told)}")

    def ends(self):
        status = self.launcher.wait(BOUND)
        check(status == 0, f"the launcher ended with {status}: {self.told()!r}")
        check(self.told() == "", f"it said {self.told()!r}")

    def outcomes(self):
        """What a replay of the journal answers to each request: the code and the text."""
        with open(f"{self.folder}/journal", "rb") as journal:
            ran = subprocess.run([f"{self.folder}/jobd", "replay"], stdin=journal, capture_output=True, timeout=BOUND, text=True)
        check((ran.returncode, ran.stderr) == (0, ""), f"the journal replays with {ran.returncode}: {ran.stderr!r}")
        with open(f"{self.folder}/journal", encoding="utf-8") as journal:
            events = [json.loads(line)["ev"] for line in journal.readlines()[1:]]
        outcomes = [json.loads(line) for line in ran.stdout.splitlines()]
        check(len(outcomes) == len(events), f"{len(outcomes)} outcomes of {len(events)} events")
        asked = ("load", "list", "start", "shutdown")
        return [(event, it["code"], it["text"]) for event, it in zip(events, outcomes) if event in asked]

    def clear(self):
        if self.launcher:
            self.launcher.kill()
            self.launcher.wait()
        self.said.close()
        shutil.rmtree(self.folder, ignore_errors=True)


def a_launcher_and_jobctl(place):
    """A list of no job, a start of a job that is not loaded, and a shutdown. A replay of the journal answers the same. After the refusal `jobctl` asks which labels
    are near, so a list stands there too."""
    place.serve()
    place.jobctl(["list"], 0, "PID\tStatus\tLabel\n")
    place.jobctl(["start", "z"], 3, "", "no such job\n")
    place.jobctl(["shutdown"], 0, "")
    place.ends()
    listed = ("list", 0, "PID\tStatus\tLabel\n")
    wanted = [listed, ("start", 3, "no such job\n"), listed, ("shutdown", 0, "")]
    got = place.outcomes()
    check(got == wanted, f"the replay answers {got}, wanted {wanted}")


def cat_behind_a_socket(place):
    """A client of a job's socket sends a word and half-closes; the job, which is /bin/cat, gives it back."""
    place.serve()
    job = {"Label": "s", "ProgramArguments": ["/bin/cat"], "inetdCompatibility": {"Wait": False},
           "Sockets": {"l": {"SockPathName": f"{place.folder}/cat"}}}
    with open(f"{place.folder}/s.json", "w", encoding="utf-8") as out:
        json.dump(job, out)
    place.jobctl(["load", "s.json"], 0, "")
    with socket.socket(socket.AF_UNIX) as client:
        client.settimeout(BOUND)
        client.connect(f"{place.folder}/cat")
        client.sendall(b"hello")
        client.shutdown(socket.SHUT_WR)
        got = b""
        while piece := client.recv(4096):
            got += piece
    check(got == b"hello", f"the client got {got!r}")
    place.jobctl(["shutdown"], 0, "")
    place.ends()
    got = [(event, code) for event, code, _ in place.outcomes()]
    check(got == [("load", 0), ("shutdown", 0)], f"the replay answers {got}")


def words_of_both_programs(place):
    """A load of a file with `-w` stores its setting; a `start` of nothing is no command, nor is `jobd` alone; a replay is one."""
    place.serve()
    with open(f"{place.folder}/x.json", "w", encoding="utf-8") as out:
        json.dump({"Label": "x", "ProgramArguments": ["/bin/true"]}, out)
    place.jobctl(["load", "-w", "x.json"], 0, "")
    place.jobctl(["shutdown"], 0, "")
    place.ends()
    header = '{"up":0,"wall":1700000000,"zone":"UTC0"}\n'
    for words, given, status, printed in (
        (["jobctl", "start"], "", 64, ""), (["jobd"], "", 64, ""), (["jobd", "replay"], header + '{"ev":"list"}\n', 0, LISTED),
        (["jobd", "overrides", "--store", "store"], "", 0, "x\tenabled\t"),
    ):
        ran = subprocess.run([f"{place.folder}/{words[0]}", *words[1:]], cwd=place.folder, input=given, capture_output=True, timeout=BOUND, text=True)
        is_so = ran.stdout.startswith(printed) and bool(ran.stdout) == bool(printed) and bool(ran.stderr) == (status == 64)
        check(ran.returncode == status and is_so, f"{words}: {ran.returncode}, {ran.stdout!r}, {ran.stderr!r}, wanted {status}, {printed!r}")


def main():
    failed = 0
    for run in (a_launcher_and_jobctl, cat_behind_a_socket, words_of_both_programs):
        place = Place(sys.argv[2])
        try:
            run(place)
            line = f"ok {run.__name__}"
        except (Fault, OSError, ValueError, subprocess.SubprocessError) as fault:
            line = f"FAILED {run.__name__}: {fault}"
            failed += 1
        finally:
            place.clear()
        for out in (sys.stdout, sys.stderr) if line.startswith("FAILED") else (sys.stdout,):
            print(line, file=out, flush=True)
    return 1 if failed else 0


if __name__ == "__main__":
    sys.exit(main() if sys.argv[1:2] == ["--by"] and len(sys.argv) == 3 else __doc__)
