#!/usr/bin/env python3
"""Whether a launcher runs, asked from another PID namespace in both directions, and where /proc hides the processes of others. Root alone can make these.

    seen_from_elsewhere.py [FOLDER]     FOLDER holds jobd, jobctl and jobscope (build/ if absent)

Tried: a launcher in a namespace of its own is seen from the host, by the status file and by the journal, and is gone once it was killed. One on the host is not seen
from within a namespace: nothing is foretold, nothing is called gone, and jobd_up is absent. With hidepid=2 another user sees it by its lock. It is run by hand.
"""
import json
import os
import shutil
import signal
import subprocess
import sys
import tempfile
import time

HERE = os.path.dirname(os.path.abspath(__file__))
PROGRAMS = os.path.abspath(sys.argv[1] if len(sys.argv) > 1 else os.path.join(HERE, "..", "build"))
INSIDE = ["unshare", "--pid", "--fork", "--kill-child", "--mount-proc"]
NOBODY = 65534
JOB = {"Label": "hourly", "ProgramArguments": ["/bin/true"], "StartInterval": 3600}
tried = 0


def check(is_so, what):
    global tried
    tried += 1
    if not is_so:
        sys.exit(f"seen_from_elsewhere: {what}")


def wait_for(fact, what):
    end = time.monotonic() + 60
    while not fact():
        if time.monotonic() > end:
            sys.exit(f"seen_from_elsewhere: {what}")
        time.sleep(0.05)


class Launcher:
    """A launcher in a folder of its own, started behind the words FRONT, with one job."""

    def __init__(self, folder, front=()):
        os.makedirs(f"{folder}/standing", mode=0o750)
        os.chown(f"{folder}/standing", 0, NOBODY)
        self.folder, self.status, self.journal = folder, f"{folder}/standing/status.jsonl", f"{folder}/journal"
        places = ["--socket", f"{folder}/socket", "--store", f"{folder}/store", "--spool", f"{folder}/spool", "--journal", self.journal]
        env = {**os.environ, "JOBD_STATUS_FILE": self.status, "JOBD_STATUS_GROUP": str(NOBODY)}
        self.process = subprocess.Popen([*front, f"{PROGRAMS}/jobd", "serve", *places], env=env, stdin=subprocess.DEVNULL,
                                        stdout=subprocess.DEVNULL, stderr=subprocess.DEVNULL)
        wait_for(lambda: os.path.exists(f"{folder}/socket"), "the launcher does not serve")
        with open(f"{folder}/hourly.json", "w", encoding="utf-8") as out:
            json.dump(JOB, out)
        wait_for(lambda: subprocess.run([f"{PROGRAMS}/jobctl", "--socket", f"{folder}/socket", "load", f"{folder}/hourly.json"], capture_output=True).returncode == 0,
                 "the job is not loaded")
        wait_for(lambda: os.path.exists(self.status) and "hourly" in open(self.status, encoding="utf-8").read(), "the status file does not have the job")

    def sources(self):
        return ["--status-file", self.status], ["--journal", self.journal]

    def end(self):
        self.process.kill()
        self.process.wait()


def scope(front, *words):
    ran = subprocess.run([*front, f"{PROGRAMS}/jobscope", *words], stdin=subprocess.DEVNULL, capture_output=True, text=True, timeout=60)
    return ran.stdout + ran.stderr


def is_up(launcher, front=()):
    """The value of jobd_up, or None."""
    for line in scope(front, "metrics", "--status-file", launcher.status).splitlines():
        if line.startswith("jobd_up "):
            return int(line.split()[1])
    return None


def name_of(front, words):
    lines = [line for line in scope(front, "why", "--json", *words).splitlines() if line.startswith("{")]
    return json.loads(lines[0])["launcher"] if lines else None


def from_the_host(folder):
    launcher = Launcher(folder, INSIDE)
    first = json.loads(open(launcher.status, encoding="utf-8").readline())["launcher"]
    check(first["pid"] < 10, f"the launcher is in no namespace of its own: {first['pid']}")
    for words in launcher.sources():
        check(name_of([], words) == "lives", f"from the host, {words}: {scope([], 'why', *words)}")
        check("hourly  in" in scope([], "next", *words), f"from the host, {words}: {scope([], 'next', *words)}")
    check(is_up(launcher) == 1, "from the host jobd_up is not 1")
    launcher.end()
    for words in launcher.sources():
        wait_for(lambda words=words: name_of([], words) == "gone", f"after a KILL, {words}: {scope([], 'why', *words)}")
        check("hourly  in" not in scope([], "next", *words), f"after a KILL, {words}: a start is foretold")
    check(is_up(launcher) == 0, "after a KILL jobd_up is not 0")


def from_within(folder):
    launcher = Launcher(folder)
    for words in launcher.sources():
        check(name_of(INSIDE, words) == "not_seen", f"from within, {words}: {scope(INSIDE, 'why', *words)}")
        said = scope(INSIDE, "why", *words) + scope(INSIDE, "next", *words)
        check("is not seen here" in said and "gone" not in said and "hourly  in" not in said, f"from within, {words}: {said}")
    check(is_up(launcher, INSIDE) is None, "from within jobd_up is there")
    check("launcher_gone" not in scope(INSIDE, "why", "--failing", "--json", "--status-file", launcher.status), "from within a job fails")
    launcher.end()


def where_proc_hides(folder):
    launcher = Launcher(folder)
    front = ["unshare", "--mount", "sh", "-c", 'mount -t proc -o hidepid=2 proc /proc && exec setpriv --reuid=65534 --regid=65534 --clear-groups "$@"', "sh"]
    words = ["--status-file", launcher.status]
    hidden = subprocess.run([*front, "cat", f"/proc/{launcher.process.pid}/stat"], capture_output=True)
    check(hidden.returncode != 0, "the process is not hidden")
    check(name_of(front, words) == "lives", f"with hidepid: {scope(front, 'why', *words)}")
    check("hourly  in" in scope(front, "next", *words), f"with hidepid: {scope(front, 'next', *words)}")
    launcher.end()
    check(name_of(front, words) == "gone", f"with hidepid, after a KILL: {scope(front, 'why', *words)}")
    check(is_up(launcher, front) == 0, "with hidepid, after a KILL, jobd_up is not 0")


def main():
    if os.geteuid() != 0:
        sys.exit("seen_from_elsewhere: root alone can make namespaces")
    folder = tempfile.mkdtemp(prefix="seen-")
    os.chmod(folder, 0o755)
    # (nobody may not pass through the folder of the programs)
    global PROGRAMS
    programs = f"{folder}/programs"
    os.mkdir(programs)
    for name in ("jobd", "jobctl", "jobscope"):
        shutil.copy(f"{PROGRAMS}/{name}", programs)
    PROGRAMS = programs
    os.environ["QUICK_IS_QUIET"] = "1"
    signal.signal(signal.SIGTERM, lambda *_: sys.exit(1))
    try:
        for at, case in enumerate((from_the_host, from_within, where_proc_hides)):
            os.mkdir(f"{folder}/{at}", mode=0o755)
            case(f"{folder}/{at}")
            print(f"{case.__name__}: as wanted", flush=True)
    finally:
        shutil.rmtree(folder, ignore_errors=True)
    print(f"seen_from_elsewhere: {tried} checks")


main()
