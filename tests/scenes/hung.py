"""Scenes of a launcher whose look-outs get no answer: what they look at and what they open hangs, and the one loop goes on.

`play.py` plays them; `harness.py` has what all scenes share.
"""
import fcntl
import os
import signal
import threading
import time

from harness import BOUND, Honest, check, end_process, in_time, look_outs, make, shell_job, text_at, wait_for


class Withheld:
    """Stops the look-outs of a launcher, each as it comes, so that they take no question and give no answer."""

    def __init__(self, launcher):
        self.launcher, self.is_over = launcher, False
        self.stop_all()
        self.thread = threading.Thread(target=self.go, daemon=True)
        self.thread.start()

    def tell_all(self, number):
        for pid in look_outs(self.launcher.pid):
            try:
                os.kill(pid, number)
            except OSError:
                pass

    def stop_all(self):
        self.tell_all(signal.SIGSTOP)

    def go(self):
        while not self.is_over:
            self.stop_all()
            time.sleep(0.001)

    def end(self):
        self.is_over = True
        self.thread.join()
        self.tell_all(signal.SIGCONT)


def paths_and_logs_without_an_answer(stage):
    """64 watched paths and 34 logs get no answer, 14 of jobs that are due at once: a client is answered meanwhile, a child's end is seen, a run
    is stopped, and what was asked comes about once there are answers again."""
    launcher = stage.serve(journal="journal")
    watched = [stage.at(f"watched{at}") for at in range(64)]
    launcher.load(shell_job("watcher", f"echo seen >> {stage.at('seen')}", WatchPaths=watched, ThrottleInterval=0))
    launcher.load(shell_job("ends", f"until test -e {stage.at('go')}; do sleep 0.05; done", RunAtLoad=True))
    launcher.load(shell_job("stopped", "exec sleep 600", RunAtLoad=True))
    for at in range(20):
        launcher.load(shell_job(f"log{at}", f"echo {at}", StandardOutPath=stage.at(f"log{at}"), ThrottleInterval=1))
    for at in range(14):
        launcher.load(shell_job(f"each{at}", "true", StandardOutPath=stage.at(f"each{at}"), StartInterval=1, ThrottleInterval=1))
    for label in ("ends", "stopped"):
        launcher.tells(label, "state = running")
    time.sleep(1.5)
    wait_for(lambda: f'"path":"{watched[7]}"' in text_at(stage.at("journal")), "a path that is absent is not looked at")
    there = lambda: f"there are {len(look_outs(launcher.pid))} look-outs, not one for looks and one for starts"
    wait_for(lambda: len(look_outs(launcher.pid)) == 2, there)
    withheld, honest = Withheld(launcher), Honest(launcher)
    try:
        make(watched[7], "changed")
        for at in range(20):
            launcher.ask({"req": "start", "job": f"log{at}"})
        make(stage.at("go"))
        launcher.tells("ends", "last exit = code 0")
        launcher.ask({"req": "stop", "job": "stopped"})
        launcher.tells("stopped", "last exit = signal 15")
        # Of more than 64 refusals at once the launcher logs how many it left out.
        refused = lambda: [line for at in range(20) for line in launcher.lines(f"log{at}: run 1: ")]
        wait_for(refused, "no start without an answer is told")
        wait_for(lambda: launcher.lines("cannot check "), "the path without an answer is not told")
        wait_for(lambda: len(honest.times) >= 5, lambda: f"only {len(honest.times)} lists were answered")
    finally:
        withheld.end()
        times = honest.end()
    for line in refused() + launcher.lines("cannot check "):
        check(line.endswith("no answer"), f"of what got no answer it tells {line!r}")
    # A start waits half a second for its log at most, all starts two seconds, and meanwhile a list waits too: each log of a disk is asked about by itself.
    in_time(times[-1] < BOUND / 2, f"a list took {times[-1]:.2f} s")
    wait_for(lambda: text_at(stage.at("seen")), "the path's change is not seen once there are answers", 2 * BOUND)
    for at in range(20):
        log = stage.at(f"log{at}")
        wait_for(lambda: text_at(log) == f"{at}\n", lambda: f"{log} has {text_at(log)!r}", 3 * BOUND)
    launcher.shut_down()


def hold_a_lease(path):
    """A process that holds a lease on the file, so that whoever opens it waits. It is ended by end_process."""
    ready, told = os.pipe()
    pid = os.fork()
    if pid == 0:
        try:
            os.close(ready)
            signal.signal(signal.SIGIO, signal.SIG_IGN)
            with open(path, "r+b") as file:
                fcntl.fcntl(file, fcntl.F_SETLEASE, fcntl.F_WRLCK)
                os.write(told, b"1")
                signal.pause()
        finally:
            os._exit(1)
    os.close(told)
    is_held = os.read(ready, 1) == b"1"
    os.close(ready)
    check(is_held, f"no lease can be had on {path}")
    return pid


def one_of_many_starts_without_an_answer(stage):
    """Twenty jobs are due at one clock reading, and whoever opens the log of one waits. That start alone is refused, each other log has what its own
    job printed, and the one follows once its log can be opened."""
    launcher = stage.serve()
    for at in range(20):
        launcher.load(shell_job(f"many{at:02}", f"echo {at}", StandardOutPath=make(stage.at(f"many{at:02}")), StartInterval=4, ThrottleInterval=1))
    holder = hold_a_lease(stage.at("many10"))
    try:
        os.kill(launcher.pid, signal.SIGSTOP)
        time.sleep(5)
        os.kill(launcher.pid, signal.SIGCONT)
        wait_for(lambda: launcher.lines("many10: run 1: "), "the start without an answer is not logged")
        for at in range(20):
            if at != 10:
                launcher.tells(f"many{at:02}", "last exit = code 0")
                printed = set(text_at(stage.at(f"many{at:02}")).split())
                check(printed == {str(at)}, f"the log of job {at} has {printed}")
    finally:
        end_process(holder)
        os.waitpid(holder, 0)
    for line in launcher.lines("many10: run 1: "):
        check(line.endswith("no answer"), f"of the log without an answer it says {line!r}")
    refused = [line for line in launcher.lines("many") if "many10" not in line]
    check(not refused, f"starts at other logs are refused: {refused}")
    wait_for(lambda: set(text_at(stage.at("many10")).split()) == {"10"}, "the start does not follow", 3 * BOUND)
    launcher.shut_down()


SCENES = [paths_and_logs_without_an_answer, one_of_many_starts_without_an_answer]
