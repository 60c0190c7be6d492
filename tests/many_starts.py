#!/usr/bin/env python3
"""A thousand jobs that one reading starts: how long a `print` waits meanwhile.

    tests/many_starts.py [--jobd PROGRAM] [--jobctl PROGRAM] [--jobs N]

It is run by hand, after `make build`. Each job has a folder and two logs, which are there. The launcher is stopped (SIGSTOP) until all are due, so the first reading after that starts
them all; a `print` that is asked with it waits for as long. What the machine itself needs is measured beside: as many programs started by posix_spawn(3) from
this script, which resets as many signals as the launcher's starts do. The bound is 0.4 s for a thousand on a quiet machine, or one and a half times of that.
The status is 1 past it.
"""
import os
import shutil
import signal
import sys
import tempfile
import time

sys.dont_write_bytecode = True
HERE = os.path.dirname(os.path.abspath(__file__))
sys.path.insert(0, os.path.join(HERE, "scenes"))
from harness import Fault, Stage, adopt_orphans, check, end_children, program_words, wait_for  # noqa: E402

EVERY = 20


def by_itself(count):
    """How many seconds as many starts take from a small process."""
    signals = [number for number in signal.valid_signals() if number not in (signal.SIGKILL, signal.SIGSTOP)]
    begun = time.monotonic()
    started = [os.posix_spawn("/bin/true", ["/bin/true"], {}, setsigdef=signals) for _ in range(count)]
    took = time.monotonic() - begun
    for pid in started:
        os.waitpid(pid, 0)
    return took


def processor_time(pid):
    with open(f"/proc/{pid}/stat", encoding="utf-8") as stat:
        words = stat.read().rpartition(")")[2].split()
    return (int(words[11]) + int(words[12])) / os.sysconf("SC_CLK_TCK")


def print_beside(stage, count):
    launcher = stage.serve()
    logs = stage.at("logs")
    os.mkdir(logs)
    for at in range(count):
        for name in ("out", "err"):
            with open(f"{logs}/{name}{at}", "w", encoding="utf-8"):
                pass
        launcher.load({
            "Label": f"job{at}", "ProgramArguments": ["/bin/true"], "StandardOutPath": f"{logs}/out{at}", "StandardErrorPath": f"{logs}/err{at}",
            "WorkingDirectory": "/tmp", "StartInterval": EVERY, "ThrottleInterval": 1})
    # The first start makes the look-out.
    launcher.load({"Label": "first", "ProgramArguments": ["/bin/true"], "RunAtLoad": True})
    wait_for(lambda: "last exit" in launcher.print("first"), "the first job does not end")
    os.kill(launcher.pid, signal.SIGSTOP)
    time.sleep(EVERY + 1)
    spent, begun = processor_time(launcher.pid), time.monotonic()
    os.kill(launcher.pid, signal.SIGCONT)
    text = launcher.ask({"req": "print", "job": f"job{count - 1}"}, 60)["text"]
    took, spent = time.monotonic() - begun, processor_time(launcher.pid) - spent
    check("runs = 1" in text, f"the last job was not started by the reading: {text!r}")
    launcher.shut_down(60)
    return took, spent


def main():
    words = program_words(usage="see the head of this script")
    words.add_argument("--jobs", type=int, default=1000)
    given = words.parse_args()
    given.jobd[0] = os.path.abspath(given.jobd[0])
    adopt_orphans()
    folder = tempfile.mkdtemp(prefix="many.")
    stage = Stage(given, folder)
    try:
        before = by_itself(given.jobs)
        took, spent = print_beside(stage, given.jobs)
        floor = min(before, by_itself(given.jobs))
        bound = max(0.4 * given.jobs / 1000, 1.5 * floor)
        print(f"{given.jobs} starts by one reading: a print waited {took:.2f} s; the launcher's processor time {spent:.2f} s; the same programs by"
              f" themselves {floor:.2f} s")
        check(took <= bound, f"more than {bound:.2f} s")
        print("ok")
        return 0
    except Fault as fault:
        print(f"FAILED: {fault}")
        return 1
    finally:
        stage.clear()
        end_children()
        shutil.rmtree(folder, ignore_errors=True)


if __name__ == "__main__":
    sys.exit(main())
