"""Scenes of the places of a launcher: files, links, FIFOs and sockets of others, other launchers, what was removed.

`play.py` plays them; `harness.py` has what all scenes share.
"""
import ctypes
import json
import os
import re
import socket
import stat
import subprocess
import sys
import time

from harness import (
    BOUND, Late, begin, bytes_at, call, check, connect, gated_job, has_answer, in_time, make, read_all,
    requests_in, shell_job, socket_job, text_at, wait_for,
)


def a_stream_at_a_fifo(stage):
    """A stream's path names a FIFO without a peer, itself or by a link: the launcher serves on, and says what it refused."""
    launcher = stage.serve()
    os.mkfifo(stage.at("fifo"))
    os.symlink("fifo", stage.at("link"))
    for key in ("StandardInPath", "StandardOutPath", "StandardErrorPath"):
        for name in ("fifo", "link"):
            label = f"{key}.{name}"
            request = {"req": "load", "def": json.dumps(shell_job(label, ":", RunAtLoad=True, **{key: stage.at(name)}))}
            launcher.ask(request)
            launcher.answers(f"{key} at a {name}")
            wait_for(lambda: launcher.lines(f"jobd: {label}: run 1: cannot "), f"nothing said of {label}")
            check(stage.at(name) in launcher.lines(f"{label}: run 1")[0], f"the path is missing in {launcher.lines(label)}")
    plain = shell_job("plain", "echo said", RunAtLoad=True, StandardOutPath=stage.at("plain"))
    launcher.load(plain)
    wait_for(lambda: text_at(stage.at("plain")) == "said\n", "a plain file is not written")
    launcher.shut_down()


def ends_that_cannot_be_seen(stage):
    """SIGCHLD is ignored by whoever starts the launcher: it refuses to serve, and says why."""
    launcher = stage.start(ignored="SIGCHLD")
    check(not launcher.is_ready(), "it serves, though no end of a child can be seen")
    status = launcher.ends()
    check(status > 0, f"it ended with {status}")
    check(re.search(r"jobd: .*(SIGCHLD|child)", launcher.said()), f"it said {launcher.said()!r}")
    check(not os.path.exists(stage.at("socket")), "its socket is left")


def shared_places(stage, shared):
    """A second launcher with these places of the first."""
    mark = "-".join(shared)
    first = stage.serve(socket=f"a.{mark}", store=f"store.{mark}", spool=f"spool.{mark}", journal=f"journal.{mark}")
    label = f"slow.{mark}"
    first.load(gated_job(stage, label))
    serving = begin(stage.at(label), b"first")
    waiting = begin(stage.at(label), b"second")
    wait_for(lambda: len(requests_in(stage, f"spool.{mark}")) == 2, "two requests are not spooled")
    before = bytes_at(stage.at(f"journal.{mark}"))
    own = {"socket": f"b.{mark}", "store": f"store2.{mark}", "spool": f"spool2.{mark}", "journal": f"journal2.{mark}"}
    os.mkdir(stage.at(own["spool"]), 0o700)
    second = stage.start(**{**own, **{name: f"{name}.{mark}" for name in shared}})
    check(not second.is_ready(), f"a second launcher serves with the {' and the '.join(shared)} of the first")
    status = second.ends()
    check(status > 0 and "jobd: " in second.said(), f"a second launcher with the same {shared} ended with {status}: {second.said()!r}")
    after = bytes_at(stage.at(f"journal.{mark}"))
    check(after.startswith(before), f"the first's journal was cut by a second with the same {shared}")
    check(len(requests_in(stage, f"spool.{mark}")) == 2, f"the first's spool was emptied by a second with the same {shared}")
    make(stage.at("go"))
    got = (read_all(serving), read_all(waiting))
    check(got == (b"first", b"second"), f"the first's clients got {got} after a second with the same {shared}")
    first.shut_down()
    os.remove(stage.at("go"))
    check(b"\0" not in bytes_at(stage.at(f"journal.{mark}")), "the journal has a hole")
    replayed = stage.replay(f"journal.{mark}")
    check(replayed.returncode == 0, f"the first's journal replays with {replayed.returncode}")
    return own


def a_second_launcher(stage):
    """A second launcher with the journal, the spool or the store of one that runs, in each combination, changes nothing of it."""
    names = ("journal", "spool", "store")
    for number in range(1, 8):
        shared = tuple(name for place, name in enumerate(names) if number >> place & 1)
        os.mkdir(stage.at(f"spool.{'-'.join(shared)}"), 0o700)
        shared_places(stage, shared)
    again = {"socket": "a.store", "store": "store.store", "spool": "spool.store", "journal": "journal.store"}
    launcher = stage.serve(**again)
    launcher.kill()
    stage.serve(**again).shut_down()


def a_start_that_fails(stage):
    """A start that fails by its store, its spool or its socket leaves the journal of the last one as it was."""
    stage.serve(journal="journal").shut_down()
    before = bytes_at(stage.at("journal"))
    os.mkdir(stage.at("folder"))
    make(stage.at("text"), "no database, but a text that is long enough to be looked at\n" * 20)
    for places in ({"store": "folder"}, {"store": "text"}, {"socket": "nowhere/socket"}):
        launcher = stage.start(journal="journal", **places)
        check(not launcher.is_ready(), f"it serves with {places}")
        status = launcher.ends()
        check(status > 0 and "jobd: " in launcher.said(), f"with {places} it ended with {status}: {launcher.said()!r}")
        check(bytes_at(stage.at("journal")) == before, f"the journal was changed by a start that failed with {places}")


def spool_links_and_fifos(stage):
    """Somebody foresees the names of spool files: nothing is written through a link, and no FIFO is waited for."""
    victim = make(stage.at("victim"), "precious\n")
    for kind in ("link", "fifo"):
        launcher = stage.serve()
        launcher.load(socket_job(stage, "cat", ["/bin/cat"]))
        for job in range(3):
            for end in ("request", "reply"):
                path = stage.at(f"spool/{job}-1.{end}")
                if kind == "link":
                    os.symlink(victim, path)
                else:
                    os.mkfifo(path)
        try:
            got = call(stage.at("cat"), b"hello")
        except TimeoutError:
            got = None
        launcher.answers(f"a {kind} at a spool file's name")
        check(text_at(victim) == "precious\n", f"a file was written through a link in the spool: {text_at(victim)!r}")
        in_time(got is not None, f"a client at a {kind} was neither served nor closed")
        if got != b"hello":
            check(got == b"", f"a client got {got!r}")
            wait_for(lambda: launcher.lines("jobd: cat: "), f"nothing said of the {kind} in the spool")
        wait_for(lambda: call(stage.at("cat"), b"again") == b"again", "the next client is not served")
        launcher.shut_down()
        for name in os.listdir(stage.at("spool")):
            os.remove(stage.at(f"spool/{name}"))


def a_spool_that_others_may_write(stage):
    """The spool's folder may be written by others: it is refused, and that is said."""
    os.chmod(stage.at("spool"), 0o777)
    launcher = stage.start()
    if launcher.is_ready():
        launcher.load(socket_job(stage, "cat", ["/bin/cat"]))
        got = call(stage.at("cat"), b"hello")
        check(got == b"", f"a folder in which others may write is used as spool: {got!r}")
    else:
        check(launcher.ends() > 0, "it ended with 0")
    wait_for(lambda: launcher.lines(stage.at("spool")), f"the folder is not named, but said {launcher.said()!r}")


def another_ones_socket(stage):
    """Somebody else has bound the path of a control socket, or of a job's, since: it is not removed."""
    launcher = stage.serve()
    launcher.load(socket_job(stage, "cat", ["/bin/cat"]))
    others = []
    with connect(launcher.path) as client:
        for path in (stage.at("cat"), stage.at("socket")):
            other = socket.socket(socket.AF_UNIX)
            other.bind(stage.at("other"))
            other.listen(1)
            # In one step: where the control socket is gone, the launcher may make it again.
            os.replace(stage.at("other"), path)
            others.append(other)
        reply = launcher.ask_over(client, {"req": "unload", "job": "cat"})
        check(reply["code"] == 0, f"unload got {reply}")
        wait_for(lambda: launcher.ask_over(client, {"req": "print", "job": "cat"})["code"] == 3, "the job is not removed")
        check(os.path.exists(stage.at("cat")), "another one's socket was removed when the job was unloaded")
        launcher.ask_over(client, {"req": "shutdown"})
    check(launcher.ends() == 0, "no clean end")
    check(os.path.exists(stage.at("socket")), "another one's socket was removed at the shutdown")
    for other in others:
        other.close()


# Puts a link to the file in the socket's place as soon as the socket is there, and takes it away.
RACER = """
import os, stat, sys
place, link, file = sys.argv[1:]
while True:
    try:
        os.symlink(file, link)
    except FileExistsError:
        pass
    try:
        while not stat.S_ISSOCK(os.lstat(place).st_mode):
            pass
        os.rename(link, place)
        os.remove(place)
    except OSError:
        pass
"""


# Makes two names change places without end (renameat2).
EXCHANGER = """
import ctypes, sys
libc = ctypes.CDLL(None)
first, second = (word.encode() for word in sys.argv[1:])
while True:
    libc.renameat2(-100, first, -100, second, 2)
"""


def changed_modes(folder, act):
    """The names in the folder whose mode or owner was changed while this was done (inotify)."""
    libc = ctypes.CDLL(None)
    watch = libc.inotify_init1(os.O_NONBLOCK)
    check(libc.inotify_add_watch(watch, os.fsencode(folder), 0x4) >= 0, "no inotify")
    act()
    names, at = [], 0
    try:
        told = os.read(watch, 65536)
    except BlockingIOError:
        told = b""
    os.close(watch)
    while at < len(told):
        size = int.from_bytes(told[at + 12 : at + 16], sys.byteorder)
        names.append(told[at + 16 : at + 16 + size].rstrip(b"\0").decode())
        at += 16 + size
    return names


def a_racing_owner(stage, bound=3):
    """Whoever may write in the folder of a job's socket races with the launcher: no other file gets its mode, and none is removed."""
    launcher = stage.serve(socket="raced", store="raced.store")
    victim = make(stage.at("victim"), "precious\n")
    os.chmod(victim, 0o644)
    mine, theirs = stage.at("mine"), stage.at("theirs")
    for folder in (mine, theirs):
        os.mkdir(folder)
        os.chmod(folder, 0o777)
    os.symlink(theirs, stage.at("way"))
    job = socket_job(stage, "raced", ["/bin/cat"], Sockets={"s": {"SockPathName": f"{mine}/cat"}})
    changed = changed_modes(mine, lambda: launcher.load(job))
    check("cat" not in changed, f"the mode is changed of what is at a socket's path where others may write: {changed}")
    check(stat.S_IMODE(os.lstat(f"{mine}/cat").st_mode) == 0o600, "a socket has another mode than 0600")
    check(os.listdir(mine) == ["cat"], f"beside a socket there are {os.listdir(mine)}")
    check(launcher.ask({"req": "unload", "job": "raced"})["code"] == 0, "unload refused")
    check(not os.listdir(mine), f"a socket leaves {os.listdir(mine)}")
    for program, words in ((RACER, (f"{mine}/cat", stage.at("link"), victim)), (EXCHANGER, (mine, stage.at("way")))):
        racer = subprocess.Popen([sys.executable, "-I", "-S", "-c", program, *words])
        try:
            end, loads = time.monotonic() + bound, 0
            with connect(launcher.path) as client:
                while time.monotonic() < end:
                    kept = make(os.path.join(theirs, "kept"), "precious\n")
                    launcher.ask_over(client, {"req": "load", "def": json.dumps(job)})
                    try:
                        os.rename(kept, os.path.join(theirs, "cat"))
                    except OSError:
                        pass
                    launcher.ask_over(client, {"req": "unload", "job": "raced"})
                    loads += 1
                    mode = stat.S_IMODE(os.stat(victim).st_mode)
                    check(mode == 0o644, f"after {loads} loads another file has the mode {mode:o}")
                    check(os.path.exists(os.path.join(theirs, "cat")), f"after {loads} loads a file of somebody else is removed")
        finally:
            racer.kill()
            racer.wait()
    launcher.shut_down()


def many_at_a_stale_socket(stage):
    """Six launchers start at once where a socket file is left over: one serves, and the others are refused."""
    stale = socket.socket(socket.AF_UNIX)
    stale.bind(stage.at("socket"))
    stale.close()
    launchers = []
    for number in range(6):
        os.mkdir(stage.at(f"spool{number}"), 0o700)
        launchers.append(stage.start(store=f"store{number}", spool=f"spool{number}"))
    ready = [launcher for launcher in launchers if launcher.is_ready()]
    check(len(ready) == 1, f"{len(ready)} of six launchers serve one socket")
    for launcher in launchers:
        if launcher is not ready[0]:
            check(launcher.ends() == 6, f"a refused one ended with {launcher.ends()}: {launcher.said()!r}")
    ready[0].shut_down()


def a_lost_spool_file(stage):
    """The request of a client that waits is removed: that client is closed, and the next one served."""
    launcher = stage.serve()
    launcher.load(gated_job(stage))
    known, clients = [], []
    for text in (b"first", b"second", b"third"):
        clients.append(begin(stage.at("slow"), text))
        wait_for(lambda: len(requests_in(stage)) == len(clients), f"the {text.decode()} request is not spooled")
        known.append((set(requests_in(stage)) - set(known)).pop())
    os.remove(stage.at(f"spool/{known[1]}"))
    make(stage.at("go"))
    got = []
    for client in clients:
        try:
            got.append(read_all(client))
        except TimeoutError:
            raise Late(f"the queue is stuck: only {got} were answered in {BOUND:.0f} s") from None
    check(got == [b"first", b"", b"third"], f"the clients got {got}")
    wait_for(lambda: launcher.lines("jobd: slow: "), "nothing said of the lost file")
    launcher.shut_down()


def closed_standard_streams(stage):
    """Started with standard streams closed, the launcher writes no line of its own into its files."""
    for number, closed in enumerate(("<&-", ">&-", "2>&-", "<&- >&- 2>&-")):
        places = {"socket": f"socket{number}", "store": f"store{number}", "journal": f"journal{number}"}
        launcher = stage.start(shell=f"exec {closed}", **places)
        # Whoever comes before the socket is private is closed.
        wait_for(lambda: has_answer(launcher), f"no answer with {closed}")
        launcher.load({"Label": "missing", "ProgramArguments": ["/no/such/program"], "RunAtLoad": True})
        launcher.tells("missing", "runs = 1")
        launcher.shut_down()
        lines = text_at(stage.at(places["journal"])).splitlines()
        check(lines and all(line.startswith("{") for line in lines), f"with {closed} the journal has {[x for x in lines if x[:1] != '{']}")
        replayed = stage.replay(places["journal"])
        check(replayed.returncode == 0, f"with {closed} the journal replays with {replayed.returncode}")


def a_control_socket_that_was_removed(stage):
    """The control socket's file is removed: it is made again, for its owner alone, which is told each time; its clients stay. What somebody else
    put there is left, which is told once, and it is made once that is gone. If its lock was removed too, that is made again, and so it is if
    it alone was removed."""
    launcher = stage.serve()
    path, lock = stage.at("socket"), stage.at("socket.lock")
    is_there = lambda: os.path.exists(path) and stat.S_ISSOCK(os.stat(path).st_mode) and stat.S_IMODE(os.stat(path).st_mode) == 0o600
    told = "jobd: control socket: its file was removed, and is made again"
    with connect(path) as client:
        check(launcher.ask_over(client, {"req": "list"})["code"] == 0, "list refused")
        for times in (1, 2):
            os.remove(path)
            wait_for(is_there, "it is not made again")
            wait_for(lambda: launcher.lines("") == [told] * times, lambda: f"it said {launcher.said()!r}")
            launcher.answers("at a control socket that was made again")
            check(launcher.ask_over(client, {"req": "list"})["code"] == 0, "a client that was there before is let go")
        os.replace(make(stage.at("text"), "text"), path)
        refused = "jobd: control socket: its file was removed, and can't be made again: "
        wait_for(lambda: launcher.lines(refused), lambda: f"it said {launcher.said()!r}")
        time.sleep(2.5)
        check(len(launcher.lines(refused)) == 1 and text_at(path) == "text", f"it has {text_at(path)!r}, and was told {launcher.lines(refused)}")
        os.remove(lock)
        os.remove(path)
        wait_for(lambda: is_there() and os.path.exists(lock), "it is not made again with its lock")
        wait_for(lambda: len(launcher.lines(told)) == 3, lambda: f"it said {launcher.said()!r}")
        os.remove(lock)
        wait_for(lambda: os.path.exists(lock), "its lock alone is not made again")
        locked = "jobd: control socket: its lock's file was removed, and is made again"
        wait_for(lambda: launcher.lines("")[4:] == [locked], lambda: f"it said {launcher.said()!r}")
    launcher.answers("at a control socket that was made again with its lock")
    second = stage.start(store="store.2", spool="spool.2")
    check(second.ends() == 6, f"a second launcher ends with {second.ends()}")
    launcher.shut_down()
    check(not os.path.exists(path) and not os.path.exists(lock), "a file of the control socket is left")


def private_files(stage):
    """Journal and store are for their user alone, and no spool file is left at the end."""
    launcher = stage.serve(journal="journal", shell="umask 022")
    launcher.ask({"req": "disable", "job": "x"})
    launcher.load(socket_job(stage, "greedy", ["/bin/sh", "-c", "exec head -c 400000 /dev/zero"]))
    client = begin(stage.at("greedy"), b"x")
    launcher.tells("greedy", "last exit = code 0")
    for name in ("journal", "store"):
        mode = stat.S_IMODE(os.stat(stage.at(name)).st_mode)
        check(mode == 0o600, f"the {name} has mode {mode:04o}")
    launcher.shut_down()
    left = [name for name in os.listdir(stage.at("spool")) if name.endswith((".request", ".reply"))]
    check(not left, f"spool files are left after the end: {left}")
    client.close()


def a_journal_at_a_fifo(stage):
    """A journal or a zone file that is no plain file is refused, and not waited for."""
    os.mkfifo(stage.at("fifo"))
    os.symlink("fifo", stage.at("link"))
    for name in ("fifo", "link", "spool"):
        launcher = stage.start(journal=name)
        check(not launcher.is_ready(), f"it serves with a journal at a {name}")
        status = launcher.ends()
        check(status == 8 and stage.at(name) in launcher.said(), f"a journal at a {name}: {status}, {launcher.said()!r}")
    for name in ("fifo", "link"):
        launcher = stage.start(words=["--zone-file", stage.at(name)])
        check(not launcher.is_ready(), f"it serves with a zone file at a {name}")
        status = launcher.ends()
        check(status == 7 and stage.at(name) in launcher.said(), f"a zone file at a {name}: {status}, {launcher.said()!r}")


def places_that_are_one_file(stage):
    """A journal or a store that is another place's file is refused before anything is emptied, cleared or removed."""
    launcher = stage.serve()
    for label in ("one", "two"):
        check(launcher.ask({"req": "disable", "job": label})["code"] == 0, "disable refused")
    launcher.shut_down()
    os.link(stage.at("store"), stage.at("beside"))
    os.symlink("store", stage.at("link"))
    held = bytes_at(stage.at("store"))
    journals = ("store", "link", "beside", "store-wal", "store-journal", "store-shm", "spool/7-7.request", "spool/jobd.lock", "socket.lock")
    for name in journals:
        make(stage.at("spool/7-7.request"))
        launcher = stage.start(journal=name)
        check(not launcher.is_ready(), f"it serves with its journal at {name}")
        status = launcher.ends()
        check(status == 8 and f"journal {stage.at(name)}: " in launcher.said(), f"a journal at {name}: {status}, {launcher.said()!r}")
        check(bytes_at(stage.at("store")) == held, f"a journal at {name} changed the store")
        check(os.path.exists(stage.at("spool/7-7.request")), f"a journal at {name} cleared the spool")
        for left in ("store-journal", "store-shm"):
            if os.path.exists(stage.at(left)):
                os.remove(stage.at(left))
    os.remove(stage.at("beside"))
    os.remove(stage.at("link"))
    for name in ("spool/7-7.request", "spool/7-7.reply", "spool/jobd.lock", "socket.lock"):
        launcher = stage.start(store=name)
        check(not launcher.is_ready(), f"it serves with its store at {name}")
        status = launcher.ends()
        check(status == 5 and f"store {stage.at(name)}: " in launcher.said(), f"a store at {name}: {status}, {launcher.said()!r}")
        check(name == "socket.lock" or os.path.exists(stage.at(name)), f"a store at {name} is gone")
        if os.path.exists(stage.at(name)):
            os.remove(stage.at(name))
    stage.serve(journal="journal").shut_down()
    shown = stage.run(["overrides", "--store", "store"]).stdout
    check([line.split("\t")[:2] for line in shown.splitlines()] == [["one", "disabled"], ["two", "disabled"]], f"the store has {shown!r}")
    launcher = stage.serve(journal="header")
    launcher.kill()
    replayed = stage.replay("header")
    check(replayed.returncode == 0, f"the journal of a launcher that was killed at once replays with {replayed.returncode}")


SCENES = [
    a_stream_at_a_fifo, ends_that_cannot_be_seen, a_second_launcher, a_start_that_fails, spool_links_and_fifos,
    a_spool_that_others_may_write, another_ones_socket, a_racing_owner, many_at_a_stale_socket, a_lost_spool_file, closed_standard_streams,
    a_control_socket_that_was_removed, private_files, a_journal_at_a_fifo, places_that_are_one_file,
]
