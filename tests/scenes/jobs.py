"""Scenes of what jobs, their sockets and their paths are given by a real `jobd serve`, and of the control socket and its files.

`play.py` plays them; `harness.py` has what all scenes share.
"""
import json
import os
import random
import re
import signal
import socket
import stat
import time

from harness import (
    BOUND, begin, bytes_at, call, check, connect, descriptors, gated_job, in_time, kept_shells, make, patience, read_all, requests_in,
    shell_job, socket_job, text_at, wait_for,
)

ABSENT = "No such file or directory (os error 2)"
BARRED = "Permission denied (os error 13)"
IN_USE = "address in use"
LOCKED = "another launcher holds its lock"
TOO_LONG = "File name too long (os error 36)"

# A serial line, whose open waits for its carrier; a machine may have none.
SERIAL = "/dev/ttyS0"
MAY_WAIT = "is a device whose open may wait, not a plain file"
STREAMS = [("StandardInPath", "input"), ("StandardOutPath", "output"), ("StandardErrorPath", "errors")]

# A name of 1,023 bytes, which no file can have: a path of 1,024 may stand in a definition.
NO_NAME = "/" + "n" * 1023


# ---- what scenes share

def events(stage, kind, journal="journal"):
    """The journal's events of this kind, oldest first."""
    lines = (json.loads(line) for line in text_at(stage.at(journal)).splitlines() if line.endswith("}"))
    return [event for event in lines if event.get("ev") == kind]


def start_again(launcher, label, runs):
    """Starts the job, which is to be its run of this number, and waits for its end."""
    reply = launcher.ask({"req": "kickstart", "job": label})
    check(reply["code"] == 0, f"kickstart of {label} got {reply}")
    launcher.tells(label, f"runs = {runs}")


def told(launcher, text):
    """The lines that say this, whatever number a run has."""
    pattern = re.escape(text).replace("RUN", r"run \d+")
    return [line for line in launcher.said().splitlines() if re.fullmatch("jobd: " + pattern, line)]


def comes_to_say(launcher, text, count=1):
    wait_for(lambda: len(told(launcher, text)) >= count, lambda: f"{text!r} is not told {count} times, but {launcher.said()!r}")
    check(len(told(launcher, text)) == count, f"{text!r} is told {len(told(launcher, text))} times, and not {count}")


def runs_of(launcher, label):
    return int(re.search(r"runs = (\d+)", launcher.print(label))[1])


def unload(launcher, label):
    """Unloads the job, and waits until it is gone."""
    reply = launcher.ask({"req": "unload", "job": label})
    check(reply["code"] == 0, f"unload of {label} got {reply}")
    wait_for(lambda: launcher.ask({"req": "print", "job": label})["code"] == 3, f"{label} is not gone")


def at_rest(launcher):
    """How many descriptors the launcher has open while no client comes or goes. Those that left before are gone at the second answer to one."""
    with connect(launcher.path) as client:
        for _ in range(2):
            launcher.ask_over(client, {"req": "list"})
        return descriptors(launcher.pid) - 1


def as_before(launcher, before, why):
    wait_for(lambda: descriptors(launcher.pid) <= before, f"more than {before} descriptors are open {why}")


def spooled(stage, part=""):
    return sorted(name for name in os.listdir(stage.at("spool")) if name.endswith((".request", ".reply")) and part in name)


def mode_of(path):
    return stat.S_IMODE(os.stat(path).st_mode)


def listening(path):
    other = socket.socket(socket.AF_UNIX)
    other.bind(path)
    other.listen(4)
    return other


def node_of():
    """An address of this machine that no other scene has, nor one of another run, whose process may have the same number as this one."""
    number = random.randrange(1 << 22)
    return f"127.{64 + (number >> 16)}.{number >> 8 & 255}.{number & 255}"


def port_job(stage, label, words, node, port, **sockets):
    """A job with a socket at the port, and one at its label."""
    job = socket_job(stage, label, words)
    return {**job, "Sockets": {**job["Sockets"], "t": {"SockNodeName": node, "SockServiceName": str(port)}, **sockets}}


def free_port(node):
    with socket.socket() as taken:
        taken.bind((node, 0))
        return taken.getsockname()[1]


def call_port(node, port, text=b""):
    with socket.create_connection((node, port), patience()) as client:
        client.sendall(text)
        client.shutdown(socket.SHUT_WR)
        return read_all(client)


# ---- children, what they are given and how they end

def ends_of_children(stage):
    """Each exit code is told whole and once, and the signals TERM and KILL; two children run at once."""
    launcher = stage.serve(journal="journal")
    codes = (0, 7, 127, 128, 200, 255)
    for code in codes:
        launcher.load(shell_job(f"code{code}", f"exit {code}", RunAtLoad=True))
    for code in codes:
        launcher.tells(f"code{code}", f"last exit = code {code}")
    deaf = f"trap '' TERM; : > {stage.at('deaf')}; while :; do sleep 0.05; done"
    launcher.load(shell_job("deaf", deaf, RunAtLoad=True, ExitTimeOut=1))
    launcher.load(shell_job("mild", "exec sleep 1000", RunAtLoad=True))
    launcher.load(shell_job("first", f"until [ -e {stage.at('met')} ]; do sleep 0.01; done", RunAtLoad=True))
    launcher.load(shell_job("second", f": > {stage.at('met')}", RunAtLoad=True))
    for label in ("first", "second"):
        launcher.tells(label, "last exit = code 0")
    launcher.tells("mild", "state = running")
    wait_for(lambda: os.path.exists(stage.at("deaf")), "the deaf job does not start")
    for label in ("mild", "deaf"):
        launcher.ask({"req": "stop", "job": label})
    launcher.tells("mild", "last exit = signal 15")
    launcher.tells("deaf", "last exit = signal 9")
    launcher.shut_down()
    ends = sorted((event["job"], event.get("code", event.get("signal"))) for event in events(stage, "ended"))
    wanted = sorted([("deaf", 9), ("mild", 15), ("first", 0), ("second", 0), *((f"code{code}", code) for code in codes)])
    check(ends == wanted, f"the journal has the ends {ends}")


def streams_of_children(stage):
    """Output is appended; input is the file that is given; a stream that is not named is the null device, and no stream of the launcher."""
    launcher = stage.serve()
    make(stage.at("in"), "line\n")
    os.symlink("in", stage.at("link"))
    out = stage.at("out")
    keys = {"ThrottleInterval": 0, "StandardOutPath": out, "StandardErrorPath": out}
    launcher.load(shell_job("twice", "echo out; echo bad >&2", RunAtLoad=True, **keys))
    launcher.tells("twice", "last exit = code 0")
    start_again(launcher, "twice", 2)
    wait_for(lambda: text_at(out) == "out\nbad\nout\nbad\n", lambda: f"the output is {text_at(out)!r}")
    for name in ("in", "link"):
        keys = {"StandardInPath": stage.at(name), "StandardOutPath": stage.at(f"{name}.out")}
        launcher.load(shell_job(name, "cat; echo end; head -c 3 /dev/zero >&2", RunAtLoad=True, StandardErrorPath="/dev/null", **keys))
        launcher.tells(name, "last exit = code 0")
        check(text_at(stage.at(f"{name}.out")) == "line\nend\n", f"from {name} came {text_at(stage.at(f'{name}.out'))!r}")
    launcher.load(shell_job("none", f"cat > {stage.at('none')}; echo lost; echo lost >&2", RunAtLoad=True))
    launcher.tells("none", "last exit = code 0")
    check(text_at(stage.at("none")) == "" and os.path.exists(stage.at("none")), f"without an input came {text_at(stage.at('none'))!r}")
    keys = {"StandardInPath": "/dev/zero", "StandardOutPath": stage.at("zeros")}
    launcher.load(shell_job("zeros", "head -c 4", RunAtLoad=True, **keys))
    launcher.tells("zeros", "last exit = code 0")
    check(bytes_at(stage.at("zeros")) == b"\0\0\0\0", f"a device gave {bytes_at(stage.at('zeros'))!r}")
    launcher.shut_down()
    check(launcher.said() == "", f"the launcher said {launcher.said()!r}")
    check(launcher.process.stdout.read() == b"", "a child wrote to the launcher's output")


def words_and_surroundings(stage):
    """A child's name, words, environment and folder are those of its definition; what the launcher has beside them is there too."""
    launcher = stage.serve(env={"AROUND": "kept"})
    script = 'echo $0 $1 "$A" "[$N]" $AROUND; pwd; [ -n "$PATH" ]'
    launcher.load({
        "Label": "words", "Program": "/bin/sh", "ProgramArguments": ["other", "-c", script, "name", "a  b"],
        "EnvironmentVariables": {"A": "b  c", "N": 1}, "WorkingDirectory": stage.folder, "StandardOutPath": stage.at("out"),
        "RunAtLoad": True,
    })
    launcher.tells("words", "last exit = code 0")
    # A variable whose value is no text is none.
    wanted = f"name a b b  c [] kept\n{os.path.realpath(stage.folder)}\n"
    check(text_at(stage.at("out")) == wanted, f"the child has {text_at(stage.at('out'))!r}")
    launcher.load(shell_job("name", "echo $0", RunAtLoad=True, StandardOutPath=stage.at("name")))
    launcher.tells("name", "last exit = code 0")
    check(text_at(stage.at("name")) == "/bin/sh\n", f"the child is named {text_at(stage.at('name'))!r}")
    launcher.shut_down()


def refused_starts(stage):
    """A start that the system refuses names its part and the system's reason, leaves no descriptor, and the job runs once it can.
    A stream at a FIFO, a folder, a socket or a serial line is refused and not waited for."""
    launcher = stage.serve()
    at = stage.at
    os.mkfifo(at("fifo"))
    os.symlink("fifo", at("link"))
    os.mkdir(at("folder"))
    make(at("plain"), "no program\n")
    os.chmod(at("plain"), 0o644)
    other = listening(at("other"))
    script, soon = {"ProgramArguments": ["/bin/sh", "-c", ":"]}, {"ThrottleInterval": 1}
    cases = [
        ({"Program": at("none")}, f"cannot start {at('none')}: {ABSENT}"),
        ({"Program": at("plain")}, f"cannot start {at('plain')}: {BARRED}"),
        ({"Program": "/no\nne"}, f"cannot start /no?ne: {ABSENT}"),
        ({"WorkingDirectory": at("late"), **soon}, f"cannot enter the folder {at('late')}: {ABSENT}"),
        ({"WorkingDirectory": NO_NAME}, f"cannot enter the folder {NO_NAME}: {TOO_LONG}"),
        ({"StandardInPath": at("none")}, f"cannot open {at('none')} for its input: {ABSENT}"),
        ({"StandardOutPath": at("late/f"), **soon}, f"cannot open {at('late/f')} for its output: {ABSENT}"),
        ({"StandardOutPath": NO_NAME}, f"cannot open {NO_NAME} for its output: {TOO_LONG}"),
        ({"StandardErrorPath": at("late/f"), **soon}, f"cannot open {at('late/f')} for its errors: {ABSENT}"),
        ({"StandardInPath": at("fifo")}, f"cannot open {at('fifo')} for its input: is a FIFO, not a plain file"),
        ({"StandardOutPath": at("link")}, f"cannot open {at('link')} for its output: is a FIFO, not a plain file"),
        ({"StandardErrorPath": at("fifo")}, f"cannot open {at('fifo')} for its errors: is a FIFO, not a plain file"),
        ({"StandardInPath": at("folder")}, f"cannot open {at('folder')} for its input: is a folder, not a plain file"),
        *[({key: SERIAL}, f"cannot open {SERIAL} for its {what}: {MAY_WAIT}") for key, what in STREAMS if os.path.exists(SERIAL)],
        ({"StandardOutPath": at("folder")}, f"cannot open {at('folder')} for its output: is a folder, not a plain file"),
        ({"StandardErrorPath": at("other")}, f"cannot open {at('other')} for its errors: is a socket, not a plain file"),
    ]
    before = at_rest(launcher)
    for number, (keys, line) in enumerate(cases):
        label = f"case{number}"
        launcher.load({"Label": label, "RunAtLoad": True, **({} if "Program" in keys else script), **keys})
        comes_to_say(launcher, f"{label}: run 1: {line}")
    as_before(launcher, before, "after starts that were refused")
    os.mkdir(at("late"))
    for number in (3, 6, 8):
        launcher.tells(f"case{number}", "last exit = code 0")
    as_before(launcher, before, "after runs")
    other.close()
    launcher.shut_down()
    check(len(launcher.said().splitlines()) == len(cases), f"it said {launcher.said()!r}")


def a_reason_is_told_once(stage):
    """The reason of a refused start is told at first, when it changes, after a start that was done, and in another load, and not again."""
    launcher = stage.serve()
    path = stage.at("p")
    job = {"Label": "a", "Program": path, "RunAtLoad": True, "ThrottleInterval": 0}
    absent, barred = f"a: RUN: cannot start {path}: {ABSENT}", f"a: RUN: cannot start {path}: {BARRED}"

    def is_tried_on():
        runs = runs_of(launcher, "a")
        wait_for(lambda: runs_of(launcher, "a") > runs, "the job is not tried again")

    launcher.load(job)
    comes_to_say(launcher, absent)
    is_tried_on()
    comes_to_say(launcher, absent)
    make(path, "#!/bin/sh\n")
    os.chmod(path, 0o644)
    comes_to_say(launcher, barred)
    is_tried_on()
    comes_to_say(launcher, barred)
    os.chmod(path, 0o755)
    launcher.tells("a", "last exit = code 0")
    os.remove(path)
    launcher.ask({"req": "kickstart", "job": "a"})
    comes_to_say(launcher, absent, 2)
    is_tried_on()
    comes_to_say(launcher, absent, 2)
    unload(launcher, "a")
    launcher.load(job)
    comes_to_say(launcher, absent, 3)
    launcher.shut_down()


# ---- paths and the clock

def touch(path, seconds, nanoseconds):
    stamp = seconds * 1_000_000_000 + nanoseconds
    os.utime(path, ns=(stamp, stamp), follow_symlinks=True)


def sights_and_the_clock(stage):
    """The journal has each path as it is: absent, empty, full, with its stamp to the nanosecond, and a link as what it leads to. Its
    readings are the system's second, and milliseconds since the start that go on."""
    before, begun = int(time.time()), time.monotonic()
    launcher = stage.serve(journal="journal")
    for name in ("empty", "full"):
        os.mkdir(stage.at(name))
    for name in ("full/f", "old"):
        make(stage.at(name))
    os.symlink("full", stage.at("link"))
    os.symlink("none", stage.at("astray"))
    touch(stage.at("empty"), 1_700_000_000, 250_000_000)
    touch(stage.at("full"), 1_700_000_000, 123_456_789)
    touch(stage.at("old"), -5, 500_000_000)
    full = (True, True, 1_700_000_000_123_456_789)
    wanted = {
        "empty": (True, False, 1_700_000_000_250_000_000), "full": full, "link": full, "old": (True, False, 0),
        "none": (False, False, 0), "astray": (False, False, 0), "old/below": (False, False, 0),
    }
    launcher.load(shell_job("watch", ":", WatchPaths=[stage.at(name) for name in wanted]))
    sights = lambda: {event["path"]: (event["exists"], event["nonempty"], event["stamp"]) for event in events(stage, "saw")}
    wait_for(lambda: len(sights()) >= len(wanted), lambda: f"the journal has the sights {sights()}")
    for name, sight in wanted.items():
        got = sights().get(stage.at(name))
        check(got == sight, f"{name} is seen as {got}, and is {sight}")
    launcher.load(shell_job("beside", "exit 0", RunAtLoad=True))
    launcher.tells("beside", "last exit = code 0")
    launcher.shut_down()
    took = (time.monotonic() - begun) * 1000
    readings = [(event["up"], event["wall"]) for event in events(stage, "clock")]
    check(len(readings) >= 2 and readings == sorted(readings), f"the clock does not go on: {readings[:5]}")
    check(readings[0][0] < readings[-1][0] <= took, f"up goes from {readings[0][0]} to {readings[-1][0]} in {took:.0f} ms")
    check(all(before <= wall <= time.time() for _, wall in readings), f"the clock says {readings[:5]}, about {before}")


def sights_that_are_refused(stage):
    """A look that the system refuses is told once, also of many: none is lost, and none is told twice. Of many lines at once 64 are told, and of
    further ones the number; what was not told is at the next look. How many come at once is the look-out's affair."""
    launcher = stage.serve()
    launcher.load(shell_job("first", ":", WatchPaths=[NO_NAME]))
    comes_to_say(launcher, f"cannot check {NO_NAME}: {TOO_LONG}")
    paths = ["/" * number + "n" * 1000 for number in range(2, 8)] + ["/" + "m" * 254 + str(number) for number in range(10, 80)]
    many = [shell_job(f"many{at}", ":", WatchPaths=paths[at : at + 38]) for at in (0, 38)]
    with connect(launcher.path) as client:
        client.sendall(b"".join(json.dumps({"req": "load", "def": json.dumps(job)}).encode() + b"\n" for job in many))
        got = b""
        while got.count(b"\n") < 2:
            got += client.recv(65536)
    check(got.count(b'"code":0') == 2, f"the loads got {got!r}")
    # (of a path whose look had no answer in half a second, as on a busy machine, that is told too)
    looks = lambda: [line for line in launcher.lines("jobd: cannot check ") if TOO_LONG in line]
    wait_for(lambda: len(looks()) >= 77, lambda: f"of 77 looks {len(looks())} are told")
    check(len(looks()) == len(set(looks())) == 77, f"{len(looks())} looks are told, of them {len(set(looks()))} different ones")
    told = launcher.said().partition(" more lines were dropped")
    first = told[0].count("jobd: cannot check ")
    check(not told[1] or first >= 64, f"{first} looks are told before lines are dropped")
    launcher.shut_down()


# ---- sockets of jobs and their clients

def sockets_of_a_job(stage):
    """Eight sockets, each for its owner alone: a request is spooled for its run alone, answered, and nothing is left. At the unload those
    who wait are let go, and the sockets, spool files and descriptors go."""
    launcher = stage.serve(shell="umask 022")
    at = stage.at

    def has_shell():
        launcher.load(shell_job("mild", "exec sleep 1000", RunAtLoad=True))
        launcher.tells("mild", "state = running")
        unload(launcher, "mild")
        return kept_shells(launcher)

    # The shell that gives TERM is kept from the first TERM on, unless its answer takes half a second.
    wait_for(has_shell, "no shell is kept")
    before = at_rest(launcher)
    job = gated_job(stage, "a")
    job["ProgramArguments"][2] = f"until [ -e {at('go')} ]; do sleep 0.02; done; cat; echo $0"
    job["Sockets"] = {"s": [{"SockPathName": at(f"s{number}")} for number in range(8)]}
    launcher.load(job)
    check(at_rest(launcher) == before + 8, f"{at_rest(launcher)} descriptors are open, and not {before} and those of eight sockets")
    for number in range(8):
        data = os.stat(at(f"s{number}"))
        check(stat.S_ISSOCK(data.st_mode) and mode_of(at(f"s{number}")) == 0o600, f"a socket has mode {data.st_mode:o}")
    check(runs_of(launcher, "a") == 0, "the job ran, though nobody called")
    first = begin(at("s0"), b"hello ")
    wait_for(lambda: runs_of(launcher, "a") == 1, "the job does not start")
    last = begin(at("s7"), b"more ")
    # The reply's file is made once the request is written.
    wait_for(lambda: len(spooled(stage, "reply")) == 2, lambda: f"the spool has {spooled(stage)}")
    check(len(spooled(stage, "request")) == 2, f"the spool has {spooled(stage)}")
    texts = sorted(text_at(at(f"spool/{name}")) for name in spooled(stage, "request"))
    check(texts == ["hello ", "more "], f"the requests are spooled as {texts}")
    check({mode_of(at(f"spool/{name}")) for name in spooled(stage)} == {0o600}, "others may read the spool's files")
    make(at("go"))
    got = (read_all(first), read_all(last))
    check(got == (b"hello /bin/sh\n", b"more /bin/sh\n"), f"the clients got {got}")
    wait_for(lambda: not spooled(stage), lambda: f"the spool has {spooled(stage)} after the replies")
    as_before(launcher, before + 8, "after the replies")
    os.remove(at("go"))
    waiting = [begin(at(f"s{number}"), b"x") for number in range(3)]
    wait_for(lambda: len(spooled(stage, "request")) == 3, lambda: f"the spool has {spooled(stage)}")
    unload(launcher, "a")
    check([read_all(client) for client in waiting] == [b"", b"", b""], "those who waited at the unload got something")
    wait_for(lambda: not spooled(stage), lambda: f"the spool has {spooled(stage)} after the unload")
    check(not any(os.path.exists(at(f"s{number}")) for number in range(8)), "a socket is left after the unload")
    as_before(launcher, before, "after the unload")
    launcher.shut_down()
    check(launcher.said() == "", f"the launcher said {launcher.said()!r}")


def places_of_sockets(stage):
    """A socket that nobody listens at is replaced; a plain file, somebody's socket, and the path of another job are refused and left. A
    path of 107 bytes is bound."""
    launcher = stage.serve()
    path = stage.at("a")
    before = at_rest(launcher)
    job = socket_job(stage, "a", ["/bin/cat"])
    make(path, "text")
    launcher.load(job, 11)
    comes_to_say(launcher, f"a: cannot bind {path}: {IN_USE}")
    check(text_at(path) == "text", "a plain file at a socket's path was changed")
    os.remove(path)
    other = listening(path)
    launcher.load(job, 11)
    check(os.path.exists(path), "somebody's socket was removed")
    other.settimeout(patience())
    other.close()
    launcher.load(job)
    check(call(path, b"hello") == b"hello", "a socket that nobody listened at is not replaced")
    runs = runs_of(launcher, "a")
    launcher.load({**job, "Label": "b"}, 11)
    check(call(path, b"again") == b"again", "the job is no longer served at its path")
    check(runs_of(launcher, "a") == runs + 1, "the job was called by the bind of another one")
    unload(launcher, "a")
    at_none = {**job, "Label": "none", "Sockets": {"s": {"SockPathName": stage.at("none/s")}}}
    refused = f"none: cannot bind {stage.at('none/s')}: "
    for _ in range(2):
        launcher.load(at_none, 11)
        comes_to_say(launcher, refused + ABSENT)
    make(stage.at("none"))
    launcher.load(at_none, 11)
    comes_to_say(launcher, refused + "Not a directory (os error 20)")
    comes_to_say(launcher, refused + ABSENT)
    for folder, code in (("away", 11), ("", 0)):
        front = os.path.join(stage.folder, folder, "")
        long = front + "s" * (107 - len(front))
        launcher.load({**job, "Label": f"long{folder}", "Sockets": {"s": {"SockPathName": long}}}, code)
    check(call(long, b"hello") == b"hello", "a path of 107 bytes is not served")
    unload(launcher, "long")
    check(not os.path.exists(long), "a socket of 107 bytes is left")
    as_before(launcher, before, "after sockets that were refused or given up")
    launcher.shut_down()


def ports_of_a_job(stage):
    """A port in use leaves none of the job's sockets bound. A port is bound at the node of the definition, and at no other."""
    launcher = stage.serve()
    node = node_of()
    before = at_rest(launcher)
    with socket.socket() as busy:
        busy.bind((node, 0))
        busy.listen(1)
        port = busy.getsockname()[1]
        launcher.load(port_job(stage, "a", ["/bin/cat"], node, port), 11)
        comes_to_say(launcher, f"a: cannot bind {node} port {port}: Address already in use (os error 98)")
        check(not os.path.exists(stage.at("a")), "a socket is left of a job whose port is in use")
        as_before(launcher, before, "after a refused bind")
    launcher.load(port_job(stage, "a", ["/bin/cat"], node, port))
    got = (call_port(node, port, b"hello"), call(stage.at("a"), b"here"))
    check(got == (b"hello", b"here"), f"at the port and at the path came {got}")
    unload(launcher, "a")
    others = [f"127.0.{number}.{os.getpid() & 127 or 1}" for number in (1, 2)]
    for bound, free in ((others[0], (False, True)), (others[1], (True, False)), ("0.0.0.0", (False, False))):
        port = free_port("0.0.0.0")
        launcher.load(port_job(stage, "b", ["/bin/cat"], bound, port))
        got = tuple(is_free(place, port) for place in others)
        check(got == free, f"a port at {bound} leaves {got} free, and not {free}")
        check(runs_of(launcher, "b") == 0, "the job ran, though nobody called")
        unload(launcher, "b")
    as_before(launcher, before, "after the unload")
    launcher.shut_down()


def is_free(node, port):
    with socket.socket() as asked:
        asked.setsockopt(socket.SOL_SOCKET, socket.SO_REUSEADDR, 1)
        try:
            asked.bind((node, port))
            asked.listen(1)
            return True
        except OSError:
            return False


def replies_as_they_grow(stage):
    """A reply is sent on while its run goes on, and arrives whole also if its client reads late. A client may vanish before its run:
    that has the request all the same, and nothing is left."""
    launcher = stage.serve()
    at = stage.at
    before = at_rest(launcher)
    script = f"echo one; until [ -e {at('go')} ]; do sleep 0.01; done; head -c 300000 /dev/zero"
    launcher.load(socket_job(stage, "grows", ["/bin/sh", "-c", script]))
    client = begin(at("grows"))
    got = b""
    while len(got) < 4:
        piece = client.recv(4 - len(got))
        check(piece, f"the reply ended with {got!r}")
        got += piece
    check(got == b"one\n", f"the reply begins with {got!r}")
    launcher.tells("grows", "state = running")
    make(at("go"))
    check(len(read_all(client)) == 300000, "the reply does not arrive whole")
    client.close()
    launcher.load(socket_job(stage, "long", ["/bin/sh", "-c", "exec head -c 8000000 /dev/zero"]))
    client = begin(at("long"))
    launcher.tells("long", "last exit = code 0")
    got = len(read_all(client))
    check(got == 8000000, f"of a reply of 8,000,000 bytes its client got {got} late")
    client.close()
    script = f"until [ -e {at('now')} ]; do sleep 0.01; done; cat > {at('got')}; head -c 300000 /dev/zero"
    launcher.load(socket_job(stage, "vanish", ["/bin/sh", "-c", script]))
    client = begin(at("vanish"), b"hello")
    wait_for(lambda: spooled(stage, "request"), "the request is not spooled")
    client.close()
    make(at("now"))
    launcher.tells("vanish", "last exit = code 0")
    check(text_at(at("got")) == "hello", f"the run has the request {text_at(at('got'))!r}")
    comes_to_say(launcher, "vanish: a client was disconnected: Broken pipe (os error 32)")
    wait_for(lambda: not spooled(stage), lambda: f"the spool has {spooled(stage)}")
    for label in ("grows", "long", "vanish"):
        unload(launcher, label)
    as_before(launcher, before, "after the unload")
    launcher.shut_down()


def names_in_the_spool_are_taken(stage):
    """A name in the spool that is taken, by a link or a FIFO, refuses its client and is left; that is told once. The next one is served."""
    launcher = stage.serve()
    launcher.load(socket_job(stage, "cat", ["/bin/cat"]))
    victim = make(stage.at("victim"), "kept\n")
    check(call(stage.at("cat"), b"first") == b"first", "the first client is not served")
    wait_for(lambda: not spooled(stage), lambda: f"the spool has {spooled(stage)}")
    taken = {}
    for job in range(3):
        taken[f"{job}-2.request"] = lambda path: os.symlink(victim, path)
        taken[f"{job}-3.reply"] = os.mkfifo
    for name, put in taken.items():
        put(stage.at(f"spool/{name}"))
    got = [call(stage.at("cat"), text) for text in (b"second", b"third")]
    check(got == [b"", b""], f"clients at names that are taken got {got}")
    comes_to_say(launcher, f"cat: a client was disconnected: cannot spool its request in {stage.at('spool')}: File exists (os error 17)")
    check(call(stage.at("cat"), b"fourth") == b"fourth", "the next client is not served")
    wait_for(lambda: spooled(stage) == sorted(taken), lambda: f"the spool has {spooled(stage)}, and not what was put there")
    check(text_at(victim) == "kept\n", f"what a link led to has {text_at(victim)!r}")
    launcher.shut_down()


def spool_files_that_change(stage):
    """A spooled file is removed, or another one put at its name: its client is let go, which is told, and the next one is served."""
    launcher = stage.serve()
    launcher.load(gated_job(stage))
    front = "slow: RUN: a client was disconnected: cannot open the spooled "
    another = "another file is at its name"
    clients, known = [], set()
    for text in (b"runs", b"removed", b"moved", b"linked", b"last"):
        clients.append(begin(stage.at("slow"), text))
        wait_for(lambda: len(requests_in(stage)) == len(clients), f"the request {text!r} is not spooled")
        known.add(text)
    numbers = sorted((re.fullmatch(r"(\d+)-(\d+)\.request", name).groups() for name in requests_in(stage)), key=lambda pair: int(pair[1]))
    at = lambda number, end: stage.at(f"spool/{'-'.join(numbers[number])}.{end}")
    os.remove(at(1, "request"))
    os.rename(at(2, "reply"), stage.at("away"))
    os.mkfifo(at(2, "reply"))
    os.remove(at(3, "request"))
    os.symlink("/etc/passwd", at(3, "request"))
    make(stage.at("go"))
    got = [read_all(client) for client in clients]
    check(got == [b"runs", b"", b"", b"", b"last"], f"the clients got {got}")
    for line in (f"request: {ABSENT}", f"reply: {another}", f"request: {another}"):
        comes_to_say(launcher, front + line)
    launcher.shut_down()


def clients_at_the_end(stage):
    """At the end those who wait and those who take no reply are let go, and the spool is empty."""
    launcher = stage.serve()
    launcher.load(gated_job(stage))
    launcher.load(socket_job(stage, "big", ["/bin/sh", "-c", "exec head -c 400000 /dev/zero"]))
    waiting = [begin(stage.at("slow"), b"wait") for _ in range(2)]
    taking = [begin(stage.at("big")) for _ in range(2)]
    wait_for(lambda: runs_of(launcher, "big") == 2 and "state = running" not in launcher.print("big"), "the replies are not written")
    wait_for(lambda: len(spooled(stage)) == 8, lambda: f"the spool has {spooled(stage)}")
    launcher.shut_down()
    check([read_all(client) for client in waiting] == [b"", b""], "those who waited got something")
    check(all(len(read_all(client)) < 400000 for client in taking), "those who took nothing got all")
    check(not spooled(stage), f"the spool has {spooled(stage)} after the end")
    check(launcher.said() == "", f"the launcher said {launcher.said()!r}")


def replies_that_nobody_takes(stage):
    """Of a job 64 clients are held that take nothing of their replies: for a further one the first is let go."""
    launcher = stage.serve(shell="ulimit -n 1024")
    launcher.load(socket_job(stage, "big", ["/bin/sh", "-c", "exec head -c 400000 /dev/zero"]))
    clients = []

    def come(count):
        while len(clients) < count:
            clients.append(begin(stage.at("big")))
        wait_for(lambda: runs_of(launcher, "big") == count, f"{count} clients are not served", 3 * BOUND)
        wait_for(lambda: "state = running" not in launcher.print("big"), "the last run goes on")

    # (one by one, since those that come in one round may change places)
    for count in (1, 2, 3, 64):
        come(count)
    check(len(spooled(stage, "reply")) == 64 and launcher.said() == "", f"of 64 clients are held {len(spooled(stage, 'reply'))}")
    for count in (65, 66):
        come(count)
        wait_for(lambda: len(spooled(stage, "reply")) == 64, lambda: f"of {count} clients are held {len(spooled(stage, 'reply'))}")
        comes_to_say(launcher, "big: a client was disconnected: it takes nothing, like 64 others of the job")
    got = [len(read_all(client)) for client in clients]
    check(max(got[:2]) < 400000 and set(got[2:]) == {400000}, f"the first got {got[:3]}, and of the others {got[2:].count(400000)} all")
    launcher.shut_down()


def room_for_three(stage):
    """With room for three connections the client goes that took nothing for longest, after five seconds of that, and none that waits; of those who
    are held and wait a job has no more than its share, and one more waits until it is below."""
    # (42 - 32 - 2) / 4 + 1, beside two sockets.
    launcher = stage.serve(shell="ulimit -n 42")
    launcher.load(gated_job(stage))
    launcher.load(socket_job(stage, "big", ["/bin/sh", "-c", "exec head -c 400000 /dev/zero"]))
    slow, big = [], []

    def wait(text):
        slow.append(begin(stage.at("slow"), text))

    def take(count):
        big.append(begin(stage.at("big")))
        wait_for(lambda: runs_of(launcher, "big") == count and "state = running" not in launcher.print("big"), "a client is not served")

    wait(b"first")
    wait_for(lambda: len(requests_in(stage)) == 1, "a request is not spooled")
    for count in (1, 2):
        take(count)
    check(launcher.said() == "", f"with room for three it said {launcher.said()!r}")
    take(3)
    served = time.monotonic()
    room = "big: a client was disconnected: it takes nothing, and 3 connections are open"
    comes_to_say(launcher, room)
    wait(b"second")
    wait_for(lambda: len([name for name in requests_in(stage) if name[0] == requests_in(stage)[0][0]]) == 2, "a second is not held")
    wait(b"third")
    time.sleep(0.5)
    check(len(requests_in(stage)) == 3, f"the spool has {requests_in(stage)}")
    comes_to_say(launcher, room)
    make(stage.at("go"))
    check([read_all(client) for client in slow] == [b"first", b"second", b"third"], "those who waited are not served")
    took = time.monotonic() - served
    got = [len(read_all(client)) for client in big]
    # The last one goes too, if the machine is so slow that it has taken nothing for five seconds by then.
    in_time(got[2] == 400000 or took < 4.5, f"the last of three took nothing for {took:.1f} s")
    check(max(got[:2]) < 400000 and got[2] == 400000, f"of three who took nothing got {got}")
    launcher.shut_down()


def a_socket_that_was_put_there(stage):
    """Somebody else has bound a job's path since: that one is left at the unload, and the path is the job's again once it is stale."""
    launcher = stage.serve()
    path = stage.at("a")
    launcher.load(socket_job(stage, "a", ["/bin/cat"]))
    os.remove(path)
    other = listening(path)
    unload(launcher, "a")
    check(os.path.exists(path), "another one's socket was removed at the unload")
    other.close()
    launcher.load(socket_job(stage, "a", ["/bin/cat"]))
    check(call(path, b"hello") == b"hello", "the job is not served at its path")
    unload(launcher, "a")
    check(not os.path.exists(path), "the job's own socket is left")
    launcher.shut_down()


# ---- the control socket

def requests(*names):
    return b"".join(json.dumps({"req": name}).encode() + b"\n" for name in names)


def lines_from(client, count):
    """So many replies, and nothing behind them."""
    text = b""
    while text.count(b"\n") < count:
        piece = client.recv(65536)
        check(piece, f"the connection ended with {text[-200:]!r}")
        text += piece
    check(text.count(b"\n") == count and text.endswith(b"\n"), f"more came than {count} replies: {text[-200:]!r}")
    return [json.loads(line) for line in text.splitlines()]


def requests_in_pieces(stage):
    """A request comes in whatever pieces, and several at once are answered in order. A last line without a newline is dropped. A client may
    leave before its reply."""
    launcher = stage.serve(journal="journal")
    with connect(launcher.path) as client:
        for piece in (b'{"req":"li', b'st"}\n{"req":"pri', b'nt","job":"a"}\n'):
            client.sendall(piece)
            launcher.answers("beside half a request")
        got = [reply["code"] for reply in lines_from(client, 2)]
        check(got == [0, 3], f"two requests in pieces got {got}")
    launcher.load(shell_job("a", ":"))
    with connect(launcher.path) as client:
        client.sendall(requests("list") + b'{"req":"print","job":"none"}\n\n{"req":"print","job":"a"}\n')
        got = lines_from(client, 4)
        check([reply["code"] for reply in got] == [0, 3, 2, 0], f"four lines got {got}")
        check("a" in got[0]["text"] and "state" in got[3]["text"], f"the replies are {got}")
    with connect(launcher.path) as client:
        client.sendall(requests("list") + b'{"req":"shutdown"}')
        client.shutdown(socket.SHUT_WR)
        got = read_all(client)
        check(got.count(b"\n") == 1 and got.endswith(b"\n"), f"a line and half a one got {got!r}")
    with connect(launcher.path) as client:
        client.sendall(b'{"req":"disable","job":"left"}\n')
    wait_for(lambda: events(stage, "disable"), "the request of a client that left is not done")
    launcher.answers("after a client that left")
    launcher.shut_down()


def lines_of_262144_bytes(stage):
    """A line of 262,144 bytes is answered. At a longer one the lines before it are answered, it is refused once, and the connection
    ends."""
    launcher = stage.serve()
    with connect(launcher.path) as client:
        client.sendall(b"x" * 262144)
        launcher.answers("beside a long line")
        client.sendall(b"\n" + requests("list"))
        got = [reply["code"] for reply in lines_from(client, 2)]
        check(got == [2, 0], f"a line of 262,144 bytes and another one got {got}")
    with connect(launcher.path) as client:
        client.sendall(requests("list", "list"))
        try:
            client.sendall(b"x" * 262145)
        except (BrokenPipeError, ConnectionResetError):
            pass
        got = read_all(client).splitlines()
        check(len(got) == 3 and json.loads(got[2]) == {"code": 2, "text": "bad request\n"}, f"two lines and a longer one got {got}")
    launcher.answers("after a line that is too long")
    launcher.shut_down()


def replies_read_late(stage):
    """A client that reads none of its replies is not answered on and holds up nobody; it gets each of them once it reads, also where it has
    half-closed. What is not sent goes with a client that leaves."""
    launcher = stage.serve(journal="journal")
    before = at_rest(launcher)
    with connect(launcher.path, 3 * BOUND) as client:
        for number in range(200):
            definition = {"Label": f"{number:03d}" + "n" * 240, "Program": "/bin/true"}
            launcher.ask_over(client, {"req": "load", "def": json.dumps(definition)}, 3 * BOUND)
    length = len(json.dumps({"code": 0, "text": launcher.ask({"req": "list"})["text"]}, separators=(",", ":"))) + 1
    check(length > 45000, f"a reply has {length} bytes")
    asked = lambda: len(events(stage, "list"))
    late = []
    for is_closed in (False, True):
        begun = asked()
        client = connect(launcher.path)
        late.append(client)
        client.sendall(requests(*["list"] * 24))
        if is_closed:
            client.shutdown(socket.SHUT_WR)
        wait_for(lambda: asked() > begun, "none of the requests is answered")
        for _ in range(5):
            check(launcher.ask({"req": "print", "job": "none"})["code"] == 3, "another client is not answered")
        check(asked() - begun <= 12, f"of 24 requests {asked() - begun} are answered though nobody reads")
    for number, client in enumerate(late):
        if number == 0:
            client.shutdown(socket.SHUT_WR)
        got = len(read_all(client))
        check(got == 24 * length, f"one who reads late got {got} bytes and not {24 * length}")
        client.close()
    gone = connect(launcher.path)
    gone.sendall(requests(*["list"] * 24))
    wait_for(lambda: descriptors(launcher.pid) > before, "the client is not let in")
    gone.close()
    as_before(launcher, before, "after a client that left")
    launcher.answers("after a client that left")
    launcher.shut_down()


def files_of_the_control_socket(stage):
    """The socket and its lock are for their owner alone, and go at the end; what a killed launcher left is replaced."""
    at = stage.at
    launcher = stage.serve(shell="umask 022")

    def are_private(when):
        modes = (os.stat(at("socket")).st_mode, os.stat(at("socket.lock")).st_mode)
        wanted = (stat.S_IFSOCK | 0o600, stat.S_IFREG | 0o600)
        check(modes == wanted, f"{when} socket and lock have the modes {[oct(mode) for mode in modes]}")

    are_private("at first")
    launcher.kill()
    are_private("after a kill")
    launcher = stage.serve(shell="umask 022")
    are_private("anew")
    launcher.answers("after a launcher that was killed")
    launcher.shut_down()
    check(not os.path.exists(at("socket")) and not os.path.exists(at("socket.lock")), "a file of the control socket is left")


def is_refused(stage, why, line, socket="socket"):
    """A further launcher at the socket, with places of its own beside it."""
    number = stage.count
    os.mkdir(stage.at(f"spool.{number}"), 0o700)
    launcher = stage.start(store=f"store.{number}", spool=f"spool.{number}", socket=socket)
    check(not launcher.is_ready(), f"it serves {why}")
    got = (launcher.ends(), launcher.said())
    wanted = (6, f"jobd: control socket {stage.at(socket)}: {line}\n")
    check(got == wanted, f"{why} it ended with {got}, and not {wanted}")


def a_path_with_one_launcher(stage):
    """The path is the first one's as long as it lives, also if its socket's file or its lock's was removed. What somebody else has there is
    refused and left, as is a folder that is missing, and a path of more than 107 bytes."""
    at = stage.at
    for name in ("socket", "socket.lock"):
        launcher = stage.serve()
        is_refused(stage, "beside a launcher", LOCKED)
        check(os.path.exists(at("socket")) and os.path.exists(at("socket.lock")), "a file of the first launcher is gone")
        # It is stopped: else it makes the file again within a second.
        os.kill(launcher.pid, signal.SIGSTOP)
        os.remove(at(name))
        is_refused(stage, f"beside a launcher whose {name} was removed", LOCKED if name == "socket" else IN_USE)
        check(name == "socket" or not os.path.exists(at(name)), f"{name} was made anew")
        check(os.path.exists(at("socket")) or name == "socket", "the first one's socket is gone")
        check(os.path.exists(at("socket.lock")) or name == "socket.lock", "the first one's lock is gone")
        launcher.kill()
    launcher = stage.serve()
    launcher.shut_down()
    make(at("socket"), "text")
    is_refused(stage, "at a plain file", IN_USE)
    check(text_at(at("socket")) == "text" and not os.path.exists(at("socket.lock")), "a plain file was changed, or a lock is left")
    os.remove(at("socket"))
    other = listening(at("socket"))
    is_refused(stage, "at somebody's socket", IN_USE)
    check(os.path.exists(at("socket")) and not os.path.exists(at("socket.lock")), "somebody's socket is gone, or a lock is left")
    other.close()
    os.remove(at("socket"))
    os.mkdir(at("socket.lock"))
    is_refused(stage, "with a folder at its lock", "its lock is not a plain file")
    check(not os.path.exists(at("socket")) and os.path.isdir(at("socket.lock")), "the folder is gone, or a socket is left")
    is_refused(stage, "in a folder that is missing", ABSENT, "none/socket")
    long = "s" * (108 - len(stage.folder) - 1)
    is_refused(stage, "at a path of 108 bytes", "path must be shorter than SUN_LEN", long)
    check(not os.path.exists(at(long)) and not os.path.exists(at(f"{long}.lock")), "a file is left of a path of 108 bytes")


def files_that_were_put_there(stage):
    """What somebody else put in the place of the launcher's files stays at its end: a file at its socket, a folder at its lock. (A plain file at the lock's
    place is taken for the lock, as at a start.)"""
    at = stage.at
    launcher = stage.serve()
    with connect(launcher.path) as client:
        # It is stopped meanwhile: else it may make them again in between.
        os.kill(launcher.pid, signal.SIGSTOP)
        for name in ("socket", "socket.lock"):
            os.remove(at(name))
        make(at("socket"), "text")
        os.mkdir(at("socket.lock"))
        os.kill(launcher.pid, signal.SIGCONT)
        check(launcher.ask_over(client, {"req": "shutdown"})["code"] == 0, "shutdown refused")
    check(launcher.ends() == 0, "no clean end")
    check(text_at(at("socket")) == "text" and os.path.isdir(at("socket.lock")), "a file of somebody else is gone")
    os.remove(at("socket"))
    os.rmdir(at("socket.lock"))
    launcher = stage.serve()
    with connect(launcher.path) as client:
        for name in ("socket", "socket.lock"):
            os.remove(at(name))
        check(launcher.ask_over(client, {"req": "shutdown"})["code"] == 0, "shutdown refused")
    # If a second is just over, they are made again: each by itself, if it was over between the two.
    told = {f"jobd: control socket: {what} was removed, and is made again" for what in ("its file", "its lock's file")}
    check(launcher.ends() == 0 and set(launcher.said().splitlines()) <= told, f"without its files it ended so: {launcher.said()!r}")


def a_look_that_is_refused(stage):
    """A file gives way to a link to itself: the system refuses the look, so nothing is known of it, and what was seen last stands. The job that
    starts while the file is absent is not started, and the other one is started again. Once the link is gone, the first starts."""
    launcher, path = stage.serve(), make(stage.at("flag"))
    launcher.load(shell_job("gone", "exec sleep 600", KeepAlive={"PathState": {path: False}}))
    launcher.load(shell_job("there", "exec sleep 600", ThrottleInterval=1, KeepAlive={"PathState": {path: True}}))
    launcher.tells("there", "state = running")
    os.symlink("flag", stage.at("link"))
    os.rename(stage.at("link"), path)
    comes_to_say(launcher, f"cannot check {path}: Too many levels of symbolic links (os error 40)")
    reply = launcher.ask({"req": "kickstart", "job": "there", "k": True})
    check(reply["code"] == 0, f"kickstart got {reply}")
    wait_for(lambda: runs_of(launcher, "there") == 2, "a job is not started again whose file was there at the last look")
    # Looks are a second apart, so there are two of them at least.
    time.sleep(2.5)
    check(runs_of(launcher, "gone") == 0, f"a file that may not be looked at is taken for absent: {launcher.print('gone')}")
    check("state = running" in launcher.print("there"), f"and stops a job: {launcher.print('there')}")
    os.unlink(path)
    launcher.tells("gone", "state = running")
    launcher.shut_down()


SCENES = [
    ends_of_children, streams_of_children, words_and_surroundings, refused_starts, a_reason_is_told_once, sights_and_the_clock,
    sights_that_are_refused, a_look_that_is_refused, sockets_of_a_job, places_of_sockets, ports_of_a_job, replies_as_they_grow, names_in_the_spool_are_taken,
    spool_files_that_change, clients_at_the_end, replies_that_nobody_takes, room_for_three, a_socket_that_was_put_there,
    requests_in_pieces, lines_of_262144_bytes, replies_read_late, files_of_the_control_socket, a_path_with_one_launcher,
    files_that_were_put_there,
]
