"""Scenes of the helper that reports exits, jobd-wake: it can make a launcher ask about a child earlier, and no more. It is killed, stopped, slow, it floods,
lies, has no descriptors, or names a PID that is another's by now; each time the launcher goes on, and no exit is lost. `play.py` plays them.

Most have a stand-in for the helper, which writes down what it was told. The others use the real one, if it lies beside the program or play.py could
compile it.
"""
import os
import re
import shutil
import signal
import statistics
import sys
import time
import types

from harness import check, children_of, in_time, make, shell_job, text_at, wait_for

# Where play.py lays a helper that it copied or compiled.
COMPILED = os.path.join(os.path.dirname(os.path.abspath(__file__)), "../../wake/jobd-wake")

# A new helper is started ten seconds after the last one was given up; all children are asked about once in ten seconds.
PEACE = 10

# As jobd-wake, but for its way: what it does beside, in place of a report, or before an answer.
STAND_IN = """#!{python} -IS
import os, select, sys, time
way, log = {way!r}, open({log!r}, "a", buffering=1)
queue, names, had = select.epoll(), {{}}, b""
queue.register(0, select.EPOLLIN)
log.write("begins\\n")

def out(text):
    os.write(0, text.encode())

def reap(wait):
    found = queue.poll(wait)
    for fd, _ in found:
        if fd:
            os.close(fd)
            name = names.pop(fd)
            if way == "stale":
                name = name.split()[0] + " " + str(int(name.split()[1]) + 1)
            if way != "silent":
                out(name + "\\n")
    return found

def take(line):
    if line:
        log.write(line + "\\n")
        if way == "lies":
            out(line + "\\n")
            return
        try:
            fd = os.pidfd_open(int(line.split()[1]))
        except OSError:
            out(line + "\\n")
            return
        names[fd] = line
        queue.register(fd, select.EPOLLIN)
        return
    while [fd for fd, _ in reap(0) if fd]:
        pass
    if way == "slow" and names or way == "late" and os.path.exists(log.name + ".late"):
        time.sleep(0.05)
    out("\\n")
    if way == "floods" and names:
        for _ in range(100000):
            out("0 1\\n")
    if way == "babbles" and names:
        out("what is this?\\n")

while True:
    if 0 in [fd for fd, _ in reap(-1)]:
        piece = os.read(0, 65536)
        if not piece:
            sys.exit(0)
        *lines, had = (had + piece).split(b"\\n")
        for line in lines:
            take(line.decode())
"""


# ---- what scenes share

def beside(stage, way=None, folder="bin"):
    """From now on the stage's launchers are a copy of the program, with a stand-in of this way; without a way, with the real helper, if there is one.
    False: there is none."""
    program = os.path.realpath(stage.given.jobd[0])
    real = [it for it in (os.path.join(os.path.dirname(program), "jobd-wake"), COMPILED) if os.path.isfile(it)]
    os.makedirs(stage.at("bin"), 0o755, exist_ok=True)
    os.makedirs(stage.at(folder), 0o755, exist_ok=True)
    if program != os.path.realpath(stage.at("bin/jobd")):
        shutil.copy(program, stage.at("bin/jobd"))
    stage.given = types.SimpleNamespace(jobd=[stage.at("bin/jobd")], jobctl=stage.given.jobctl, jobscope=stage.given.jobscope)
    wake = stage.at(f"{folder}/jobd-wake")
    if way:
        make(wake, STAND_IN.format(python=sys.executable, way=way, log=stage.at("told")))
    elif real:
        shutil.copy(real[0], wake)
    else:
        return False
    os.chmod(wake, 0o755)
    return True


def helpers(launcher):
    """The helpers that run: those that have exited are left out."""
    found = []
    for pid in children_of(launcher.pid):
        words = text_at(f"/proc/{pid}/cmdline").split("\0")
        if "jobd-wake" in words[0] or any(re.search(r"/proc/\d+/fd/\d+$", word) for word in words):
            found.append(pid)
    return found


def is_used(launcher):
    """Waits until there is a helper, and answers with its PID."""
    wait_for(lambda: helpers(launcher), lambda: f"there is no helper; it said {launcher.said()!r}")
    return helpers(launcher)[0]


def kept_alive(label):
    return shell_job(label, "exec sleep 100000", KeepAlive=True, ThrottleInterval=0)


def pid_of(launcher, label):
    found = re.search(r"pid = (\d+)", launcher.print(label))
    return int(found[1]) if found else 0


def runs_on(launcher, label):
    wait_for(lambda: pid_of(launcher, label), f"{label} does not run")
    return pid_of(launcher, label)


def comes_back(launcher, label, bound=None):
    """Kills the job's child, and waits until it runs again: how many seconds that took."""
    pid, begun = runs_on(launcher, label), time.monotonic()
    os.kill(pid, signal.SIGKILL)
    wait_for(lambda: pid_of(launcher, label) not in (0, pid), lambda: f"{label} does not run again; it said {launcher.said()!r}", bound)
    return time.monotonic() - begun


def is_replaced(launcher, pid):
    """The helper is ended, and another is there ten seconds later."""
    begun = time.monotonic()
    wait_for(lambda: pid not in helpers(launcher), f"the helper {pid} is not ended")
    wait_for(lambda: helpers(launcher), "no other helper is started", 3 * PEACE)
    check(time.monotonic() - begun > PEACE / 2, "another helper is started at once")


# ---- the scenes

def exits_that_the_helper_reports(stage):
    """On a quiet launcher most exits are seen within a few milliseconds, and without the helper after 50 on average. The file may be gone since."""
    if not beside(stage):
        check(beside(stage, "honest"), "there is no stand-in")
    launcher = stage.serve()
    launcher.load(kept_alive("one"))
    is_used(launcher)
    os.remove(stage.at("bin/jobd-wake"))
    fifo = stage.at("starts")
    os.mkfifo(fifo)
    pipe = os.open(fifo, os.O_RDWR)
    launcher.load(shell_job("timed", f"echo $$ > {fifo}; exec sleep 100000", KeepAlive=True, ThrottleInterval=0))
    pid = int(os.read(pipe, 64))
    for _ in range(5):
        took = []
        for at in range(15):
            time.sleep(0.25 + at * 0.02)
            begun = time.monotonic()
            os.kill(pid, signal.SIGKILL)
            pid = int(os.read(pipe, 64))
            took.append(time.monotonic() - begun)
        if statistics.median(took) < 0.025:
            break
        # On a crowded machine this helper may have been given up. Another is started, and the machine may be quiet by then.
        time.sleep(PEACE)
        wait_for(lambda: helpers(launcher), "no other helper is started", 3 * PEACE)
    os.close(pipe)
    in_time(statistics.median(took) < 0.025, f"restarts took {sorted(took)}")
    first = is_used(launcher)
    os.kill(first, signal.SIGKILL)
    comes_back(launcher, "one")
    is_replaced(launcher, first)
    comes_back(launcher, "one")
    launcher.shut_down()


def a_helper_that_is_stopped(stage):
    """It gives no answer: it is ended, and another is started ten seconds later. Exits are seen meanwhile."""
    if not beside(stage):
        check(beside(stage, "honest"), "there is no stand-in")
    launcher = stage.serve()
    for label in ("one", "two"):
        launcher.load(kept_alive(label))
    pid = is_used(launcher)
    comes_back(launcher, "one")
    os.kill(pid, signal.SIGSTOP)
    comes_back(launcher, "one")
    comes_back(launcher, "two")
    is_replaced(launcher, pid)
    comes_back(launcher, "two")
    launcher.shut_down()


def a_helper_that_is_late_for_a_while(stage):
    """Some answers come 50 ms late, as on a crowded machine: exits are seen meanwhile, and the helper stays."""
    beside(stage, "late")
    launcher = stage.serve()
    launcher.load(kept_alive("one"))
    pid = is_used(launcher)
    comes_back(launcher, "one")
    for _ in range(2):
        make(stage.at("told.late"))
        time.sleep(0.15)
        os.remove(stage.at("told.late"))
        comes_back(launcher, "one")
        time.sleep(0.3)
    check(text_at(stage.at("told")).count("begins") == 1 and helpers(launcher) == [pid], f"it is given up: {text_at(stage.at('told'))!r}")
    launcher.shut_down()


def a_helper_that_is_slow(stage):
    """Each answer comes 50 ms late. The launcher asks about each child then, waits for none of many answers in a row, and keeps the helper."""
    beside(stage, "slow")
    launcher = stage.serve()
    launcher.load(kept_alive("one"))
    pid = is_used(launcher)
    begun = time.monotonic()
    for _ in range(12):
        comes_back(launcher, "one")
        launcher.answers("slow")
        time.sleep(0.25)
    in_time(time.monotonic() - begun < 12, f"12 restarts took {time.monotonic() - begun:.1f} s")
    check(text_at(stage.at("told")).count("begins") == 1 and helpers(launcher) == [pid], f"it is given up: {text_at(stage.at('told'))!r}")
    launcher.shut_down()


def a_helper_that_floods(stage):
    """One that reports without end, and one that writes what no helper does: each is ended."""
    for way in ("floods", "babbles"):
        beside(stage, way)
        launcher = stage.serve()
        launcher.load(kept_alive("one"))
        wait_for(lambda: text_at(stage.at("told")).count("begins") == 1, f"{way}: the helper does not begin")
        wait_for(lambda: not helpers(launcher), f"{way}: the helper is not ended")
        comes_back(launcher, "one")
        launcher.answers(way)
        wait_for(lambda: text_at(stage.at("told")).count("begins") == 2, f"{way}: no other helper is started", 3 * PEACE)
        comes_back(launcher, "one")
        launcher.shut_down()
        os.remove(stage.at("told"))


def a_helper_that_lies(stage):
    """Of a living child it reports an exit: nothing comes of that. Of one that exited it reports none, or another PID: that is seen ten seconds later."""
    for way in ("lies", "silent", "stale"):
        beside(stage, way)
        launcher = stage.serve()
        launcher.load(kept_alive("one"))
        launcher.load(shell_job("once", f"until test -e {stage.at('go')}; do sleep 0.05; done; exit 3", RunAtLoad=True))
        pid = runs_on(launcher, "one")
        wait_for(lambda: text_at(stage.at("told")).count("\n") >= 3, f"{way}: the helper is not told of both")
        time.sleep(1)
        check(pid_of(launcher, "one") == pid and "runs = 1\n" in launcher.print("one"), f"{way}: {launcher.print('one')}")
        make(stage.at("go"))
        launcher.tells("once", "last exit = code 3", 3 * PEACE)
        comes_back(launcher, "one", 3 * PEACE)
        check("runs = 2\n" in launcher.print("one"), f"{way}: {launcher.print('one')}")
        launcher.shut_down()
        os.remove(stage.at("told"))
        os.remove(stage.at("go"))


def a_helper_without_descriptors(stage):
    """It may have 40 descriptors and is told of 60 children: each exit is seen."""
    if not beside(stage):
        check(beside(stage, "lies"), "there is no stand-in")
    launcher = stage.serve(shell="ulimit -n 40")
    for at in range(60):
        launcher.load(kept_alive(f"job{at}"))
    is_used(launcher)
    for at in (0, 20, 40, 59):
        comes_back(launcher, f"job{at}")
    launcher.shut_down()


def a_helper_that_others_may_change(stage):
    """It is not started, and the launcher says so once: if others may write it or its folder, if it is a link or a FIFO, or missing. In libexec it is found."""
    beside(stage, "honest")
    wake = stage.at("bin/jobd-wake")
    cases = [
        (lambda: os.chmod(wake, 0o775), "others may write it"),
        (lambda: (os.chmod(wake, 0o755), os.chmod(stage.at("bin"), 0o775)), "others may write in it; chmod 700 mends it"),
        (lambda: (os.chmod(stage.at("bin"), 0o755), os.rename(wake, wake + "r"), os.symlink("jobd-waker", wake)), "it is not a plain file"),
        (lambda: (os.remove(wake), os.mkfifo(wake)), "it is not a plain file"),
        (lambda: os.remove(wake), "No such file or directory (os error 2)"),
    ]
    for change, why in cases:
        change()
        launcher = stage.serve()
        launcher.load(kept_alive("one"))
        comes_back(launcher, "one")
        said = lambda: [it for it in text_at(launcher.said_at).splitlines() if "jobd-wake" in it]
        wait_for(said, f"that there is no helper is not told, but should be: {why}")
        check(said() == [f"jobd: exits are seen within 0.1 s, as no jobd-wake reports them: {why}"], f"of {why!r} it says {said()!r}")
        check(not helpers(launcher), f"there is a helper, although {why}")
        launcher.shut_down()
    beside(stage, "honest", "libexec")
    launcher = stage.serve()
    launcher.load(kept_alive("one"))
    is_used(launcher)
    comes_back(launcher, "one")
    check("jobd-wake" not in text_at(launcher.said_at), f"it says {text_at(launcher.said_at)!r}")
    launcher.shut_down()


SCENES = [
    exits_that_the_helper_reports, a_helper_that_is_stopped, a_helper_that_is_late_for_a_while, a_helper_that_is_slow, a_helper_that_floods, a_helper_that_lies,
    a_helper_without_descriptors, a_helper_that_others_may_change,
]
