#!/usr/bin/env python3
"""The status file of 1,024 jobs: how long a round of the launcher takes that writes it, and how long a `list` waits.

    tests/large_status_file.py [--jobd PROGRAM] [--jobctl PROGRAM] [--jobs N] [--seconds N] [--in FOLDER]

It is run by hand, after `make build`, and needs strace(1). One job starts each second, so the file is written each second. FOLDER is where the file is;
without it, it is in the folder of the launcher.

First strace shows the calls: each piece has 64 KiB at most, the loop polls between any two of them, and after the last one the file is put in place whole.
Then 200 `list` a second are asked, without the file and with it. Each line is asked by a client that waits for its reply. What it prints are the median,
the 99th of 100 parts and the longest. The round that makes the text takes the longest; its time is that of the processor.
The status is 1 if a call is not as above. The times are figures, since they depend on the machine.
"""
import json
import os
import re
import shutil
import statistics
import subprocess
import sys
import tempfile
import time

sys.dont_write_bytecode = True
HERE = os.path.dirname(os.path.abspath(__file__))
sys.path.insert(0, os.path.join(HERE, "scenes"))
from harness import Fault, Stage, adopt_orphans, check, end_children, program_words, text_at, wait_for  # noqa: E402

PIECE = 65_536
CALL = re.compile(r"^(?:\d+ +)?([\d.]+) (\w+)\((.*)\) += (-?\d+)")


def loaded(stage, count, path):
    """A launcher with so many jobs, one of which starts each second; and where its file is."""
    launcher = stage.serve(env={"JOBD_STATUS_FILE": path} if path else {})
    for at in range(count - 1):
        launcher.load({"Label": f"job{at:04}", "ProgramArguments": ["/bin/true"], "WatchPaths": [stage.at("watched")], "EnvironmentVariables": {"NAME": "value"}})
    launcher.load({"Label": "again", "ProgramArguments": ["/bin/true"], "StartInterval": 1, "ThrottleInterval": 1})
    return launcher


def calls_of(launcher, path, stage):
    """The calls of three seconds: of each its time, its name, and what it gave."""
    out = stage.at("calls")
    traced = subprocess.Popen(
        ["strace", "-f", "-ttt", "-y", "-s", "0", "-e", "trace=epoll_wait,epoll_pwait,poll,write,rename,renameat,renameat2", "-o", out, "-p", str(launcher.pid)],
        stderr=subprocess.DEVNULL)
    time.sleep(4)
    traced.terminate()
    traced.wait()
    return [(float(found[1]), found[2], found[3], int(found[4])) for line in text_at(out).splitlines() if (found := CALL.match(line))]


def pieces(stage, count, path):
    launcher = loaded(stage, count, path)
    wait_for(lambda: text_at(path).count("\n") == count + 1, "the file has not all jobs")
    found = calls_of(launcher, path, stage)
    beside, sizes, whole, polled = f"{path}.new", [], [], True
    for _, name, words, gave in found:
        if name == "write" and beside in words:
            check(gave <= PIECE, f"a piece has {gave} bytes")
            check(polled, f"two pieces without a poll: after {sizes}")
            sizes.append(gave)
            polled = False
        elif name.startswith("rename") and beside in words and gave == 0:
            whole.append(sizes)
            sizes = []
        elif "poll" in name:
            polled = True
    check(len(whole) > 1, f"the file was put in place {len(whole)} times in 4 s")
    size = os.stat(path).st_size
    check(abs(sum(whole[-1]) - size) < size / 50, f"the last one had {sum(whole[-1])} bytes, and the file has {size}")
    check([json.loads(line) for line in text_at(path).splitlines()], "the file is empty")
    print(f"{size} bytes go out in {len(whole[-1])} pieces, at most {max(max(it) for it in whole)} bytes in one")
    launcher.shut_down(30)
    left = text_at(path)
    check(left.endswith("\n") and left.count("\n") == json.loads(left.splitlines()[0])["launcher"]["jobs"] + 1, "the end does not leave a whole file")
    check(not os.path.exists(beside), "the end leaves a piece of a file")


def lists(launcher, seconds):
    """The times of lists, in milliseconds."""
    took, until = [], time.monotonic() + seconds
    while time.monotonic() < until:
        begun = time.monotonic()
        launcher.ask({"req": "list"})
        took.append(1000 * (time.monotonic() - begun))
        time.sleep(max(0, 0.005 - (time.monotonic() - begun)))
    return took


def processor_time(pid):
    with open(f"/proc/{pid}/schedstat", encoding="utf-8") as told:
        return int(told.read().split()[0]) / 1e6


def figures(stage, count, path, seconds):
    launcher = loaded(stage, count, path)
    time.sleep(2)
    spent, begun = processor_time(launcher.pid), time.monotonic()
    took = sorted(lists(launcher, seconds))
    share = (processor_time(launcher.pid) - spent) / (1000 * (time.monotonic() - begun))
    parts = statistics.quantiles(took, n=100)
    print(f"{'with the file' if path else 'without it'}: {len(took)} lists, median {parts[49]:.1f} ms, 99th of 100 parts {parts[98]:.1f}, longest {took[-1]:.1f}; "
          f"{100 * share:.0f} % of a processor; load {os.getloadavg()[0]:.1f}", flush=True)
    launcher.shut_down(30)


def main():
    words = program_words(usage="see the head of this script")
    words.add_argument("--jobs", type=int, default=1024)
    words.add_argument("--seconds", type=int, default=20)
    words.add_argument("--in", dest="inside")
    given = words.parse_args()
    given.jobd[0] = os.path.abspath(given.jobd[0])
    adopt_orphans()
    inside = tempfile.mkdtemp(prefix="large.", dir=given.inside)
    path, status = os.path.join(inside, "status.jsonl"), 0
    try:
        for part in (lambda stage: figures(stage, given.jobs, None, given.seconds), lambda stage: figures(stage, given.jobs, path, given.seconds),
                     lambda stage: pieces(stage, given.jobs, path)):
            folder = tempfile.mkdtemp(prefix="large.")
            stage = Stage(given, folder)
            try:
                part(stage)
            except Fault as fault:
                print(f"FAILED: {fault}")
                status = 1
            finally:
                stage.clear()
                end_children()
                shutil.rmtree(folder, ignore_errors=True)
    finally:
        shutil.rmtree(inside, ignore_errors=True)
    print("ok" if status == 0 else "failed")
    return status


if __name__ == "__main__":
    sys.exit(main())
