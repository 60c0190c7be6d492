#!/usr/bin/env python3
"""A launcher whose jobs' paths hang: it goes on, refuses what hangs, and tells it by name.

    tests/hung_file_system.py [--jobd PROGRAM] [--jobctl PROGRAM] [TRIAL..]

It is run by hand as root, after `make build`; PROGRAM is build/jobd. Each trial has a launcher and a folder of its own. The file system is a FUSE
server of this script's own, mounted in the folder, that is stopped (SIGSTOP, its requests lie unread) or reads and does not answer.

    watched_paths      WatchPaths, QueueDirectories and PathState on it, 64 of each: each is told once, and `list` is answered meanwhile
    streams            20 jobs with their logs on it, inputs too
    a_program          Program on it
    an_interpreter     a script whose interpreter is on it, and one whose interpreter is such a script
    a_loader           an ELF file whose loader is on it
    a_search           PATH with a file that may not be run, and then a folder on it
    root_and_cwd       logs on it by /proc/self/root and /proc/self/cwd
    a_folder           WorkingDirectory on it
    a_socket           SockPathName on it
    unanswered         the same of paths and logs, with a server that reads and does not answer (look-outs stay in state D)
    exchanges          another user exchanges log and FIFO without end (renameat2)
    leases             another user holds a write lease on a log
    no_proc            without /proc that there is no look-out is told once, and the launcher goes on by itself
    a_terminal         standard error is a terminal that nobody reads
    links              300 logs and 60 watched paths over a link to it, with a server that does not answer, beside 20 jobs that are well, under jobd-run; it
                       is stopped and started anew; then the server answers
    a_disk             60 logs and 60 watched paths on an overlay over it: each is a place of its own, and the whole is shut once four look-outs are left there
    leases_and_a_disk  eight logs under a write lease of another user: no other log of the disk is refused
    no_process         no process can be had for a look-out: looks and starts are refused with the system's reason, and the launcher goes on
    slow               figures: 50 starts by one clock reading, with logs on a server that takes 10 ms a request, and how long a `list` waits meanwhile
    figures            the 99th of 100 parts of 1,000 `list` with 64 hung paths and 20 hung logs; the time of a start; memory of an idle launcher

Each prints `ok NAME` or `FAILED NAME: why`; the last line counts, and the status is 1 if one failed.
"""
import ctypes
import fcntl
import json
import os
import pty
import shutil
import signal
import struct
import subprocess
import sys
import tempfile
import time

sys.dont_write_bytecode = True
HERE = os.path.dirname(os.path.abspath(__file__))
sys.path.insert(0, os.path.join(HERE, "scenes"))
from harness import (  # noqa: E402
    Fault, Honest, Launcher, Stage, adopt_orphans, check, children_of, chosen, comes, end_children, look_outs, program_words, shell_job, text_at, wait_for,
)

LIBC = ctypes.CDLL(None, use_errno=True)
NOBODY = 65534
# In seconds, on a quiet machine: a `list` that is answered later was held up. One wait of half a second is allowed for a place, and no more.
PROMPT, ONE_WAIT = 0.05, 0.9


# ---- the file system

def attributes(node):
    """Node 1 is the folder; names that begin with `d` are folders, all others plain files that may run."""
    folder = node == 1 or node % 2 == 1
    mode = 0o040777 if folder else 0o100777
    now = int(time.time())
    return struct.pack("<QQQQQQIIIIIIIIII", node, 20, 1, now, 1_700_000_000, now, 0, 0, 0, mode, 2 if folder else 1, 0, 0, 0, 4096, 0)


def answer_to(opcode, node, body, names):
    """The answer's bytes, or the number of the error; None: it wants no answer."""
    if opcode == 26:  # INIT
        return struct.pack("<IIIIHHIIHHI7I", 7, 31, 65536, 0, 12, 10, 65536, 1, 16, 0, 0, *[0] * 7)
    if opcode in (2, 42):  # FORGET, BATCH_FORGET
        return None
    if opcode == 1:  # LOOKUP
        name = body.split(b"\0")[0]
        if name.startswith(b"s"):
            return -2
        found = names.setdefault(name, 2 * len(names) + (11 if name.startswith(b"d") else 10))
        return struct.pack("<QQQQII", found, 0, 0, 0, 0, 0) + attributes(found)
    if opcode in (3, 4):  # GETATTR, SETATTR
        return struct.pack("<QII", 0, 0, 0) + attributes(node)
    if opcode in (14, 27):  # OPEN, OPENDIR
        return struct.pack("<QII", node, 1 if opcode == 14 else 0, 0)
    if opcode == 15:  # READ
        offset = struct.unpack_from("<Q", body, 8)[0]
        return b"#!/bin/sh\nexit 0\n\n\n\n"[offset:]
    if opcode == 28:  # READDIR
        offset = struct.unpack_from("<Q", body, 8)[0]
        return b"" if offset else struct.pack("<QQII", 99, 1, 5, 8) + b"entry\0\0\0"
    if opcode == 16:  # WRITE
        return struct.pack("<II", struct.unpack_from("<I", body, 16)[0], 0)
    if opcode == 17:  # STATFS
        return struct.pack("<QQQQQIIII6I", 1, 1, 1, 1, 1, 4096, 255, 4096, 0, *[0] * 6)
    if opcode in (18, 20, 25, 29, 34, 36, 38):  # RELEASE, FSYNC, FLUSH, RELEASEDIR, ACCESS, INTERRUPT, DESTROY
        return b""
    return -38


def serve_requests(device, mute, pause):
    """Answers each request after the pause, until the file system is unmounted. Once the file `mute` is there it reads and does not answer."""
    names = {}
    while True:
        try:
            request = os.read(device, 1 << 17)
        except OSError as error:
            if error.errno in (2, 4):
                continue
            os._exit(0)
        _, opcode, unique, node = struct.unpack_from("<IIQQ", request)
        while os.path.exists(mute):
            time.sleep(0.02)
        time.sleep(pause)
        answer = answer_to(opcode, node, request[40:], names)
        if answer is None:
            continue
        error, body = (answer, b"") if isinstance(answer, int) else (0, answer)
        try:
            os.write(device, struct.pack("<IiQ", 16 + len(body), error, unique) + body)
        except OSError:
            pass


class FileSystem:
    def __init__(self, stage, name, pause=0):
        self.at, self.mute = stage.at(name), stage.at(f"{name}.mute")
        os.mkdir(self.at)
        device = os.open("/dev/fuse", os.O_RDWR)
        options = f"fd={device},rootmode=40000,user_id=0,group_id=0,allow_other"
        if LIBC.mount(b"hung", self.at.encode(), b"fuse", 0, options.encode()):
            raise Fault(f"no FUSE here: {os.strerror(ctypes.get_errno())}")
        self.server = os.fork()
        if self.server == 0:
            serve_requests(device, self.mute, pause)
        os.close(device)
        check(comes(lambda: os.path.isdir(self.at)), "the file system does not come")

    def path(self, name):
        return os.path.join(self.at, name)

    def stop(self):
        os.kill(self.server, signal.SIGSTOP)

    def go_on(self):
        os.kill(self.server, signal.SIGCONT)
        if os.path.exists(self.mute):
            os.remove(self.mute)

    def end(self):
        self.go_on()
        LIBC.umount2(self.at.encode(), 2)
        os.kill(self.server, signal.SIGKILL)
        os.waitpid(self.server, 0)


# ---- an honest client

def late(times):
    return times[int(len(times) * 0.99)], times[-1]


def slowness():
    """By how much the machine is too busy for its processors: 1 on a quiet one."""
    return max(1.0, os.getloadavg()[0] / (os.cpu_count() or 1))


def is_prompt(honest, waits=3):
    """All but some waits of half a second were prompt."""
    times = honest.end()
    part, most = late(times)
    held = [took for took in times if took > PROMPT * slowness()]
    check(most < ONE_WAIT * slowness(), f"a list took {most:.2f} s")
    check(len(held) <= waits + len(times) // 100, f"{len(held)} of {len(times)} lists took more than {PROMPT} s")
    return part


def goes_on(launcher, stage, label):
    """Another job starts, ends, and is told so."""
    mark = stage.at(f"{label}.mark")
    launcher.load(shell_job(label, f"echo run > {mark}", RunAtLoad=True))
    check(comes(lambda: text_at(mark) == "run\n"), f"the job {label} does not start: {launcher.said()[-300:]!r}")


def told(launcher, part, count=1):
    wait_for(lambda: len(launcher.lines(part)) >= count, f"{part!r} is told {len(launcher.lines(part))} times, not {count}")


# ---- trials

def hang(hung, is_mute):
    if is_mute:
        open(hung.mute, "w").close()
        time.sleep(0.1)
    else:
        hung.stop()


def paths_and_logs(stage, is_mute):
    hung = FileSystem(stage, "hung")
    try:
        launcher = stage.serve()
        for key, label in (("WatchPaths", "w"), ("QueueDirectories", "q")):
            launcher.load(shell_job(label, "exit 0", **{key: [hung.path(f"{label}{at}") for at in range(64)]}))
        launcher.load(shell_job("s", "exit 0", KeepAlive={"PathState": {hung.path(f"p{at}"): False for at in range(64)}}))
        for at in range(20):
            launcher.load(shell_job(f"log{at}", "echo x", StandardOutPath=hung.path(f"log{at}"), ThrottleInterval=0))
        time.sleep(2)
        hang(hung, is_mute)
        honest = Honest(launcher, 20)
        told(launcher, "no answer")
        for at in range(20):
            launcher.ask({"req": "start", "job": f"log{at}"})
        told(launcher, "for its output: no answer", 20)
        time.sleep(12)
        goes_on(launcher, stage, "good")
        is_prompt(honest, waits=3)
        check(len(look_outs(launcher.pid)) <= 5, f"look-outs are left: {look_outs(launcher.pid)}")
        hung.go_on()
        launcher.load(shell_job("again", "echo x", StandardOutPath=hung.path("again"), RunAtLoad=True, KeepAlive=True))
        wait_for(lambda: "last exit" in launcher.print("again"), "no answer about the job", 30)
        launcher.shut_down(30)
    finally:
        hung.end()


def watched_paths(stage):
    paths_and_logs(stage, False)


def unanswered(stage):
    paths_and_logs(stage, True)


def one_part(stage, part, **keys):
    hung = FileSystem(stage, "hung")
    try:
        launcher = stage.serve()
        made = {key: value(hung) if callable(value) else value for key, value in keys.items()}
        job = {"Label": "job", "ProgramArguments": ["/bin/sh", "-c", "exit 0"], "ThrottleInterval": 0, **made}
        launcher.load(job)
        launcher.ask({"req": "start", "job": "job"})
        wait_for(lambda: "runs = 0" not in launcher.print("job"), "the job does not start")
        time.sleep(0.5)
        hung.stop()
        honest = Honest(launcher, 20)
        launcher.ask({"req": "start", "job": "job"})
        told(launcher, part)
        goes_on(launcher, stage, "good")
        time.sleep(1)
        is_prompt(honest)
        hung.go_on()
        launcher.shut_down(30)
    finally:
        hung.end()


def streams(stage):
    one_part(stage, "for its output: no answer", StandardOutPath=lambda hung: hung.path("out"))


def an_input(stage):
    one_part(stage, "for its input: no answer", StandardInPath=lambda hung: hung.path("in"))


def a_program(stage):
    one_part(stage, "no answer", ProgramArguments=lambda hung: [hung.path("prog")])


def script_at(stage, name, interpreter):
    path = stage.at(name)
    with open(path, "w", encoding="utf-8") as out:
        out.write(f"#!{interpreter} -x\nexit 0\n")
    os.chmod(path, 0o755)
    return path


def an_interpreter(stage):
    one_part(stage, "no answer", ProgramArguments=lambda hung: [script_at(stage, "second", script_at(stage, "first", hung.path("sh")))])


def elf_with_loader(path, loader):
    """The least of an ELF file that names a loader."""
    name = loader.encode() + b"\0"
    head = b"\x7fELF\x02\x01\x01" + b"\0" * 9 + struct.pack("<HHIQQQIHHHHHH", 2, 62, 1, 0x400078, 64, 0, 0, 64, 56, 1, 0, 0, 0)
    part = struct.pack("<IIQQQQQQ", 3, 4, 120, 0, 0, len(name), len(name), 1)
    with open(path, "wb") as out:
        out.write(head + part + name)
    os.chmod(path, 0o755)
    return path


def a_loader(stage):
    hung = FileSystem(stage, "hung")
    try:
        launcher = stage.serve()
        launcher.load({"Label": "job", "ProgramArguments": [elf_with_loader(stage.at("elf"), hung.path("ld"))], "ThrottleInterval": 0})
        hung.stop()
        honest = Honest(launcher)
        launcher.ask({"req": "start", "job": "job"}, 20)
        told(launcher, "no answer")
        goes_on(launcher, stage, "good")
        is_prompt(honest)
        hung.go_on()
        launcher.shut_down(30)
    finally:
        hung.end()


def a_search(stage):
    os.mkdir(stage.at("first"))
    with open(stage.at("first/prog"), "w", encoding="utf-8") as out:
        out.write("no program\n")
    one_part(
        stage, "no answer", ProgramArguments=["prog"], EnvironmentVariables=lambda hung: {"PATH": f"{stage.at('first')}:{hung.at}:/bin"}
    )


def root_and_cwd(stage):
    hung = FileSystem(stage, "hung")
    try:
        launcher = stage.serve()
        for label, path in (("root", f"/proc/self/root{hung.path('log')}"), ("cwd", "/proc/self/cwd/hung/log")):
            launcher.load(shell_job(label, "echo x", StandardOutPath=path, ThrottleInterval=0))
        hung.stop()
        honest = Honest(launcher)
        for label in ("root", "cwd"):
            launcher.ask({"req": "start", "job": label}, 20)
        told(launcher, "for its output: no answer", 2)
        goes_on(launcher, stage, "good")
        is_prompt(honest)
        hung.go_on()
        launcher.shut_down(30)
    finally:
        hung.end()


def zombies(pid):
    """Look-outs of the launcher that have gone and were not waited for. Their name is `exe`; a job that has just ended has another."""
    found = []
    for name in os.listdir("/proc"):
        if name.isdigit():
            head, _, rest = text_at(f"/proc/{name}/stat").rpartition(")")
            if head.endswith("(exe") and rest.split()[:2] == ["Z", str(pid)]:
                found.append(name)
    return found


class Kept:
    """A launcher that `jobd-run` keeps, with definitions in a folder."""

    def __init__(self, stage, jobs):
        self.stage = stage
        self.said = stage.at("kept.said")
        for name in ("jobs", "run", "state"):
            os.mkdir(stage.at(name))
        for job in jobs:
            with open(stage.at(f"jobs/{job['Label']}.json"), "w", encoding="utf-8") as out:
                json.dump(job, out)
        self.socket = stage.at("run/jobd.sock")

    def start(self):
        """Starts `jobd-run`, and waits until its launcher answers: how many seconds that took."""
        places = {f"JOBD_{name.upper()}": self.stage.at(name) for name in ("jobs", "run", "state")}
        programs = os.path.dirname(os.path.abspath(self.stage.given.jobd[0]))
        begun = time.monotonic()
        with open(self.said, "ab") as said:
            self.keeper = subprocess.Popen(
                ["/bin/sh", os.path.join(HERE, "../contrib/jobd-run")], env={**os.environ, **places, "JOBD_PROGRAMS": programs}, cwd=self.stage.folder,
                stdin=subprocess.DEVNULL, stdout=subprocess.DEVNULL, stderr=said)
        self.process = self.keeper
        self.launcher = wait_for(self.answering, lambda: f"no launcher answers: {text_at(self.said)[-400:]!r}", 60)
        return time.monotonic() - begun

    def answering(self):
        for pid in children_of(self.keeper.pid):
            if "\0serve\0" in text_at(f"/proc/{pid}/cmdline"):
                try:
                    launcher = Launcher(self.keeper, self.said, self.socket)
                    launcher.ask({"req": "list"}, 5)
                except (Fault, OSError):
                    return None
                self.pid = pid
                return launcher
        return None

    def end(self):
        self.keeper.terminate()
        self.keeper.wait(60)


def orphans(before):
    """Look-outs of launchers that are gone."""
    found = []
    for name in os.listdir("/proc"):
        if name.isdigit() and text_at(f"/proc/{name}/cmdline") == "jobd-look-out\0" and int(name) in before:
            found.append(int(name))
    return found


def links(stage):
    hung = FileSystem(stage, "hung")
    os.symlink(hung.at, stage.at("link"))
    over = lambda name: os.path.join(stage.at("link"), name)  # noqa: E731
    marks = [stage.at(f"mark{at}") for at in range(20)]
    jobs = [shell_job(f"good{at}", f"echo >> {mark}", StartInterval=1, ThrottleInterval=1) for at, mark in enumerate(marks)]
    jobs.append(shell_job("good", f"echo >> {stage.at('seen')}", WatchPaths=[stage.at("watched")], ThrottleInterval=0))
    jobs.append(shell_job("watcher", "exit 0", WatchPaths=[over(f"w{at}") for at in range(60)], ThrottleInterval=1))
    jobs.append(shell_job("stopped", "exec sleep 600", RunAtLoad=True, ThrottleInterval=0))
    for at in range(300):
        jobs.append(shell_job(f"log{at}", "echo x", StandardOutPath=over(f"log{at}"), StartInterval=4, ThrottleInterval=1))
    kept, left = Kept(stage, jobs), set()
    try:
        for life in ("first", "second"):
            took = kept.start()
            if life == "second":
                check(took < 2 * slowness(), f"jobd-run came up after {took:.1f} s")
                check(len(orphans(left)) <= 16, f"{len(orphans(left))} look-outs of the launcher before are left")
            wait_for(lambda: "state = running" in kept.launcher.print("stopped"), "the definitions are not loaded", 60)
            time.sleep(2)
            if life == "first":
                hang(hung, True)
                time.sleep(2)
            left |= set(others_go_on(stage, kept, marks, life, took))
            if life == "first":
                kept.end()
        hung.go_on()
        time.sleep(5)
        check(not zombies(kept.pid), f"zombies are left: {zombies(kept.pid)}")
        wait_for(lambda: "last exit = code 0" in kept.launcher.print("log7"), "a log is not opened again", 40)
        kept.end()
    finally:
        kept.keeper.kill()
        hung.end()


def others_go_on(stage, kept, marks, life, came_up):
    """All jobs but those over the link start, end and are stopped on time, and a list is answered. The look-outs that the launcher has then."""
    launcher = kept.launcher
    honest, before, begun = Honest(launcher), [len(text_at(mark)) for mark in marks], time.monotonic()
    seen = []
    for at in range(6):
        count, asked = len(text_at(stage.at("seen"))), time.monotonic()
        with open(stage.at("watched"), "w", encoding="utf-8") as out:
            out.write(str(at))
        wait_for(lambda: len(text_at(stage.at("seen"))) > count, "a change of a path that is well is not seen", 30)
        seen.append(time.monotonic() - asked)
        time.sleep(2)
    asked = time.monotonic()
    launcher.ask({"req": "stop", "job": "stopped"})
    wait_for(lambda: "last exit = signal 15" in launcher.print("stopped"), "a job that is well is not stopped")
    took, passed = time.monotonic() - asked, time.monotonic() - begun
    runs = [len(text_at(mark)) - count for mark, count in zip(marks, before)]
    found = look_outs(kept.pid)
    part, most = late(honest.end())
    print(f"  {life}: up after {came_up:.1f} s; list: 99 of 100 within {part * 1000:.1f} ms, at most {most * 1000:.0f}; seen after {max(seen):.1f} s;"
          f" stopped after {took:.1f} s; {min(runs)} runs in {passed:.0f} s; {len(found)} look-outs", flush=True)
    check(part < PROMPT * slowness(), f"99 of 100 lists took {part * 1000:.0f} ms")
    check(max(seen) < 1.5 * slowness(), f"a change was seen after {max(seen):.1f} s")
    check(took < 2, f"a job was stopped after {took:.1f} s")
    check(min(runs) >= passed * 0.8 - 2, f"a job that is due each second ran {min(runs)} times in {passed:.0f} s")
    check(len(found) <= 16, f"{len(found)} look-outs are left")
    return found


def a_disk(stage):
    """A file system of a kind that counts as a disk's, an overlay, over one that hangs: each path there is a place of its own."""
    hung = FileSystem(stage, "hung")
    for name in ("upper", "disk"):
        os.mkdir(stage.at(name))
    disk = stage.at("disk")
    if LIBC.mount(b"upper", stage.at("upper").encode(), b"tmpfs", 0, b""):
        raise Fault("no tmpfs here")
    for name in ("up", "work"):
        os.mkdir(stage.at(f"upper/{name}"))
    options = f"lowerdir={hung.at},upperdir={stage.at('upper/up')},workdir={stage.at('upper/work')}"
    try:
        if LIBC.mount(b"disk", disk.encode(), b"overlay", 0, options.encode()):
            raise Fault(f"no overlay here: {os.strerror(ctypes.get_errno())}")
        launcher = stage.serve()
        launcher.load(shell_job("good", f"echo >> {stage.at('seen')}", WatchPaths=[stage.at("watched")], ThrottleInterval=0))
        launcher.load(shell_job("watcher", "exit 0", WatchPaths=[os.path.join(disk, f"w{at}") for at in range(60)], ThrottleInterval=1))
        for at in range(60):
            launcher.load(shell_job(f"log{at}", "echo x", StandardOutPath=os.path.join(disk, f"log{at}"), StartInterval=2, ThrottleInterval=1))
        time.sleep(2)
        hang(hung, True)
        time.sleep(15)
        honest = Honest(launcher, 20)
        count, asked = len(text_at(stage.at("seen"))), time.monotonic()
        with open(stage.at("watched"), "w", encoding="utf-8") as out:
            out.write("x")
        wait_for(lambda: len(text_at(stage.at("seen"))) > count, "a change of a path that is well is not seen", 30)
        seen = time.monotonic() - asked
        goes_on(launcher, stage, "well")
        time.sleep(10)
        part, most = late(honest.end())
        found = look_outs(launcher.pid)
        print(f"  list: 99 of 100 within {part * 1000:.1f} ms, at most {most * 1000:.0f}; seen after {seen:.1f} s; {len(found)} look-outs", flush=True)
        check(len(found) <= 16, f"{len(found)} look-outs are left")
        check(seen < 1.5 * slowness(), f"a change was seen after {seen:.1f} s")
        check(part < PROMPT * slowness(), f"99 of 100 lists took {part * 1000:.0f} ms")
        hung.go_on()
        time.sleep(5)
        check(not zombies(launcher.pid), f"zombies are left: {zombies(launcher.pid)}")
        launcher.shut_down(30)
    finally:
        hung.go_on()
        LIBC.umount2(disk.encode(), 2)
        LIBC.umount2(stage.at("upper").encode(), 2)
        hung.end()


def leases_and_a_disk(stage):
    os.chmod(stage.folder, 0o755)
    place = stage.at("nobody")
    os.mkdir(place)
    os.chown(place, NOBODY, NOBODY)

    def lease():
        signal.signal(signal.SIGIO, signal.SIG_IGN)
        files = [os.open(os.path.join(place, f"log{at}"), os.O_RDWR | os.O_CREAT) for at in range(8)]
        while True:
            for file in files:
                try:
                    fcntl.fcntl(file, fcntl.F_SETLEASE, fcntl.F_WRLCK)
                except OSError:
                    pass
            time.sleep(0.01)

    holder = as_nobody(lease)
    try:
        launcher = stage.serve()
        time.sleep(0.5)
        for at in range(8):
            launcher.load(shell_job(f"job{at}", "echo x", StandardOutPath=os.path.join(place, f"log{at}"), StartInterval=1, ThrottleInterval=1))
        for at in range(20):
            launcher.load(shell_job(f"well{at}", "echo x", StandardOutPath=stage.at(f"out{at}"), StartInterval=1, ThrottleInterval=1))
        told(launcher, "for its output: no answer")
        time.sleep(8)
        check(len(text_at(stage.at("out7"))) >= 8, f"a log of the disk was opened {len(text_at(stage.at('out7'))) // 2} times in 8 s")
        check(not [line for line in launcher.lines("no answer") if "well" in line], f"a log that is well is refused: {launcher.lines('well')}")
        launcher.shut_down()
    finally:
        os.kill(holder, signal.SIGKILL)
        os.waitpid(holder, 0)


def no_process(stage):
    """One process of a user of its own is all that it may have, and that is the launcher."""
    hung = FileSystem(stage, "hung")
    user = 61_234
    os.chmod(stage.folder, 0o755)
    for path in (stage.folder, stage.at("spool")):
        os.chown(path, user, user)
    try:
        launcher = stage.serve(shell=f'exec prlimit --nproc=1:1 -- setpriv --reuid={user} --regid={user} --clear-groups -- "$@"')
        hung.stop()
        honest = Honest(launcher)
        launcher.load(shell_job("w", "exit 0", WatchPaths=[hung.path(f"w{at}") for at in range(8)]))
        launcher.load(shell_job("job", "echo x", StandardOutPath=hung.path("log"), RunAtLoad=True))
        reason = "esource temporarily unavailable"
        wait_for(lambda: launcher.lines(reason), lambda: f"the system's reason is not told: {launcher.said()[-300:]!r}")
        time.sleep(3)
        check([line for line in launcher.lines("job: run ") if reason in line], f"the start has another reason: {launcher.said()[-300:]!r}")
        check([line for line in launcher.lines("cannot check") if reason in line], f"a look has another reason: {launcher.said()[-300:]!r}")
        times = honest.end()
        check(times[-1] < 0.4, f"a list took {times[-1]:.2f} s")
        hung.go_on()
        launcher.shut_down(30)
    finally:
        hung.end()


def no_proc(stage):
    """A launcher in a mount namespace of its own, without /proc: it says once that there is no look-out, and looks and opens for itself."""
    launcher = stage.serve(shell="""exec unshare -m --propagation private -- /bin/sh -c 'umount -l /proc && exec "$@"' sh "$@" """)
    launcher.load(shell_job("w", f"echo >> {stage.at('seen')}", WatchPaths=[stage.at("watched")], ThrottleInterval=0))
    for at in range(3):
        launcher.load(shell_job(f"job{at}", "echo x", StandardOutPath=stage.at(f"out{at}"), RunAtLoad=True))
    for at in range(3):
        wait_for(lambda: text_at(stage.at(f"out{at}")) == "x\n", lambda: f"job{at} does not start: {launcher.said()[-300:]!r}")
    told(launcher, "no helper process can be started from /proc/self/exe")
    time.sleep(1.5)
    with open(stage.at("watched"), "w", encoding="utf-8") as out:
        out.write("x")
    wait_for(lambda: text_at(stage.at("seen")), "a change is not seen")
    check(len(launcher.lines("no helper process can be started")) == 1, f"it is told again: {launcher.lines('no helper process')}")
    launcher.shut_down(30)


def a_folder(stage):
    one_part(stage, "cannot enter the folder", WorkingDirectory=lambda hung: hung.path("dir"))


def a_socket(stage):
    hung = FileSystem(stage, "hung")
    try:
        launcher = stage.serve()
        hung.stop()
        honest = Honest(launcher, 20)
        job = shell_job("job", "exit 0", inetdCompatibility={"Wait": False}, Sockets={"s": {"SockPathName": hung.path("socket")}})
        reply = launcher.ask({"req": "load", "def": json.dumps(job)})
        check(reply["code"] != 0, f"the load got {reply}")
        told(launcher, "no answer")
        goes_on(launcher, stage, "good")
        time.sleep(1)
        is_prompt(honest)
        hung.go_on()
        launcher.shut_down(30)
    finally:
        hung.end()


def as_nobody(work):
    pid = os.fork()
    if pid == 0:
        try:
            os.setgid(NOBODY)
            os.setuid(NOBODY)
            work()
        finally:
            os._exit(0)
    return pid


def exchanges(stage):
    os.chmod(stage.folder, 0o755)
    place = stage.at("nobody")
    os.mkdir(place)
    os.chown(place, NOBODY, NOBODY)

    def exchange():
        log, fifo = os.path.join(place, "log").encode(), os.path.join(place, "fifo").encode()
        open(log, "w").close()
        os.mkfifo(fifo)
        while True:
            LIBC.renameat2(-100, log, -100, fifo, 2)

    exchanger = as_nobody(exchange)
    try:
        launcher = stage.serve()
        launcher.load(shell_job("job", "echo x", StandardOutPath=os.path.join(place, "log"), ThrottleInterval=0))
        honest = Honest(launcher, 20)
        for _ in range(60):
            launcher.ask({"req": "start", "job": "job"}, 20)
            time.sleep(0.05)
        goes_on(launcher, stage, "good")
        times = honest.end()
        check(times[-1] < ONE_WAIT, f"a list took {times[-1]:.2f} s")
        launcher.shut_down()
    finally:
        os.kill(exchanger, signal.SIGKILL)
        os.waitpid(exchanger, 0)


def leases(stage):
    os.chmod(stage.folder, 0o755)
    place = stage.at("nobody")
    os.mkdir(place)
    os.chown(place, NOBODY, NOBODY)

    def lease():
        signal.signal(signal.SIGIO, signal.SIG_IGN)
        file = os.open(os.path.join(place, "log"), os.O_RDWR | os.O_CREAT)
        while True:
            try:
                fcntl.fcntl(file, fcntl.F_SETLEASE, fcntl.F_WRLCK)
            except OSError:
                pass
            time.sleep(0.01)

    holder = as_nobody(lease)
    try:
        launcher = stage.serve()
        time.sleep(0.5)
        launcher.load(shell_job("job", "echo x", StandardOutPath=os.path.join(place, "log"), ThrottleInterval=0))
        honest = Honest(launcher, 20)
        launcher.ask({"req": "start", "job": "job"}, 20)
        told(launcher, "for its output: no answer")
        for _ in range(10):
            launcher.ask({"req": "start", "job": "job"}, 20)
            time.sleep(0.1)
        goes_on(launcher, stage, "good")
        is_prompt(honest)
        launcher.shut_down()
    finally:
        os.kill(holder, signal.SIGKILL)
        os.waitpid(holder, 0)


def a_terminal(stage):
    near, far = pty.openpty()
    places = ["--socket", stage.at("socket"), "--store", stage.at("store"), "--spool", stage.at("spool")]
    process = subprocess.Popen([*stage.given.jobd, "serve", *places], cwd=stage.folder, stdin=subprocess.DEVNULL, stdout=subprocess.PIPE, stderr=far)
    os.close(far)
    try:
        check(process.stdout.readline() == b"jobd: ready\n", "it is not ready")
        launcher = Launcher(process, stage.at("none"), stage.at("socket"))
        for at in range(400):
            launcher.load({"Label": f"{at}{'x' * 240}", "Program": "/none" + "y" * 900, "RunAtLoad": True})
        launcher.answers("with a terminal that nobody reads")
        goes_on(launcher, stage, "good")
    finally:
        process.kill()
        process.wait()
        os.close(near)


def figures(stage):
    hung = FileSystem(stage, "hung")
    try:
        launcher = stage.serve()
        time.sleep(1)
        idle = memory_of(launcher.pid)
        launcher.load(shell_job("w", "exit 0", WatchPaths=[hung.path(f"w{at}") for at in range(64)]))
        for at in range(20):
            launcher.load(shell_job(f"log{at}", "echo x", StandardOutPath=hung.path(f"log{at}"), ThrottleInterval=1, KeepAlive=True))
        # Between two starts: one that has begun when the file system stops holds the launcher (the window that SECURITY tells).
        time.sleep(2.5)
        hung.stop()
        time.sleep(1)
        times = []
        for _ in range(1000):
            begun = time.monotonic()
            launcher.ask({"req": "list"}, 20)
            times.append(time.monotonic() - begun)
        part, most = late(sorted(times))
        helpers = sum(memory_of(pid) for pid in look_outs(launcher.pid))
        print(f"  list: 99 of 100 within {part * 1000:.1f} ms, at most {most * 1000:.1f}; an idle launcher {idle} kB, its look-outs {helpers} kB")
        check(part < PROMPT, f"99 of 100 lists took {part * 1000:.0f} ms")
        hung.go_on()
        launcher.shut_down(30)
    finally:
        hung.end()


def slow(stage):
    """What a file system costs that answers, but slowly: a figure, and no bound."""
    hung = FileSystem(stage, "hung", pause=0.01)
    try:
        launcher = stage.serve()
        for at in range(50):
            launcher.load(shell_job(f"log{at}", "echo x", StandardOutPath=hung.path(f"log{at}"), StartInterval=5, ThrottleInterval=1))
        launcher.load(shell_job("first", ":", RunAtLoad=True))
        wait_for(lambda: "last exit" in launcher.print("first"), "the first job does not end")
        os.kill(launcher.pid, signal.SIGSTOP)
        time.sleep(6)
        begun = time.monotonic()
        os.kill(launcher.pid, signal.SIGCONT)
        launcher.ask({"req": "list"}, 120)
        print(f"  50 starts: a list waited {time.monotonic() - begun:.1f} s", flush=True)
        check(not launcher.lines("no answer"), f"a server that answers is refused: {launcher.said()[-300:]!r}")
    finally:
        hung.end()


def memory_of(pid):
    lines = text_at(f"/proc/{pid}/smaps_rollup").splitlines()
    return sum(int(line.split()[1]) for line in lines if line.startswith("Pss:"))


TRIALS = [
    watched_paths, streams, an_input, a_program, an_interpreter, a_loader, a_search, root_and_cwd, a_folder, a_socket, unanswered, links, a_disk, exchanges,
    leases, leases_and_a_disk, no_process, no_proc, a_terminal, slow, figures,
]


def play(given, folder, trial):
    own = os.path.join(folder, trial.__name__)
    os.mkdir(own)
    stage = Stage(given, own)
    try:
        trial(stage)
        return f"ok {trial.__name__}"
    except Fault as fault:
        return f"FAILED {trial.__name__}: {fault}"
    finally:
        stage.clear()


def main():
    words = program_words(usage="see the head of this script")
    given = words.parse_args()
    trials = chosen(words, given, TRIALS)
    adopt_orphans()
    folder, failed = tempfile.mkdtemp(prefix="hung."), 0
    os.chmod(folder, 0o755)
    try:
        for trial in trials:
            line = play(given, folder, trial)
            failed += line.startswith("FAILED")
            print(line, flush=True)
    finally:
        end_children()
        shutil.rmtree(folder, ignore_errors=True)
    print(f"{len(trials)} trials, {failed} failed")
    return 1 if failed else 0


if __name__ == "__main__":
    sys.exit(main())
