"""Scenes of replies: that none is lost where all places for clients are taken, and that a standard error which nobody reads holds nobody.

`play.py` plays them; `harness.py` has what all scenes share.
"""
import os
import pty
import re
import threading
import time

from harness import BOUND, TOO_MANY, Deadline, begin, call, check, gated_job, in_time, make, read_all, requests_in, shell_job, socket_job, wait_for
from limits import load_patiently

# How many descriptors, how many jobs, how many clients of each at a time, and how many requests each of them makes. There are 1, 7 and 49 places.
CROWDS = ((35, 1, 3, 10), (64, 8, 6, 7), (256, 30, 6, 6))

# With so many clients of each job they are still more than the places.
FEWEST = 2


def print_of(launcher, label):
    """What `print` tells of the job. One that was answered and left may have its place still, until the next round."""
    return wait_for(lambda: (text := launcher.print(label)) != TOO_MANY and text, "no client of the control socket is let in")


def runs_of(launcher, label):
    found = re.search(r"^\s*runs = (\d+)$", print_of(launcher, label), re.MULTILINE)
    return int(found[1]) if found else 0


def is_idle(launcher, label):
    return "state = running" not in print_of(launcher, label)


def call_patiently(path, text):
    """What the job's socket sends back, after as many tries as it takes to come in: the system refuses who finds its queue full."""
    deadline = Deadline(6 * BOUND)
    while True:
        try:
            return call(path, text, 6 * BOUND)
        except BlockingIOError:
            in_time(not deadline.is_over(), "the socket's queue stays full")
            time.sleep(0.005)


def is_slow(told):
    """Whether the machine took so long for starts that clients went for others, or starts were refused."""
    return "it waited 5 seconds for a place" in told or "no answer" in told


def lost_replies(stage, limit, jobs, clients, requests):
    """Which of the requests got another reply than their own text, where clients of so many jobs ask on and on; how many were made, and what it said."""
    where = f"{limit}.{jobs}.{clients}"
    os.mkdir(stage.at(f"spool.{where}"), 0o700)
    launcher = stage.serve(shell=f"ulimit -n {limit}", socket=f"socket.{where}", store=f"store.{where}", spool=f"spool.{where}")
    labels = [f"j{number}.{where}" for number in range(jobs)]
    for label in labels:
        load_patiently(launcher, socket_job(stage, label, ["/bin/sh", "-c", "sleep 0.01; exec cat"]))
    lost, made = [], []

    def ask_on(label, number):
        for count in range(requests):
            text = f"{label} {number} {count} ".encode() * 40
            try:
                got = call_patiently(stage.at(label), text)
            except OSError as error:
                got = repr(error).encode()
            made.append(text)
            if got != text:
                lost.append((label, number, count, got[:60]))

    askers = [threading.Thread(target=ask_on, args=(label, number)) for label in labels for number in range(clients)]
    for asker in askers:
        asker.start()
    for asker in askers:
        asker.join()
    runs = sum(runs_of(launcher, label) for label in labels)
    told = launcher.said()
    # A start that a slow machine had refused is ordered again, and counts twice.
    check(is_slow(told) or runs <= len(made), f"{runs} runs for {len(made)} requests at {limit} descriptors; it said {told[-300:]!r}")
    launcher.shut_down()
    return lost, len(made), told


def no_reply_is_lost(stage):
    """Clients of 1, 8 and 30 jobs ask on and on at 35, 64 and 256 descriptors, more than there are places for: each gets its own reply."""
    wrong = []
    for limit, jobs, clients, requests in CROWDS:
        lost, made, told = lost_replies(stage, limit, jobs, clients, requests)
        # Who waits for 5 seconds may go for a client of another job: here that is the machine's doing, and fewer clients come again. They are still more
        # than there are places for.
        while is_slow(told) and clients > FEWEST:
            clients = max(FEWEST, clients // 2)
            lost, made, told = lost_replies(stage, limit, jobs, clients, requests)
        in_time(not is_slow(told), f"at {limit} descriptors clients waited for 5 seconds: {told[-200:]!r}")
        if lost or told:
            wrong.append(f"at {limit} descriptors and {jobs} jobs {len(lost)} of {made} were lost, as {lost[:2]}; it said {told[-300:]!r}")
    check(not wrong, "; ".join(wrong))


def a_whole_request_waits_for_a_place(stage):
    """Clients of slow jobs take all places: those of other jobs whose request is whole wait and are served in their turn, none is closed."""
    launcher = stage.serve(shell="ulimit -n 48")
    # (48 - 32 - 3) / 4 + 1 are 4 places. If each of three jobs has one, a fourth client has to wait; if one had two before, the third job has one, too.
    for label in ("slow", "other", "third"):
        launcher.load(gated_job(stage, label))
    clients = [begin(stage.at(label), f"{label} {number}".encode()) for number in range(3) for label in ("slow", "other", "third")]
    wait_for(lambda: len(requests_in(stage)) >= 3, lambda: f"held are {requests_in(stage)}")
    time.sleep(1)
    check(len(requests_in(stage)) in (3, 4), f"held are {requests_in(stage)}")
    check(launcher.said() == "", f"it said {launcher.said()!r}")
    make(stage.at("go"))
    got = [read_all(client) for client in clients]
    asked = [f"{label} {number}".encode() for number in range(3) for label in ("slow", "other", "third")]
    check(got == asked, f"they got {got}")
    check(launcher.said() == "", f"it said {launcher.said()!r}")
    launcher.shut_down()


def one_who_takes_nothing_goes_after_five_seconds(stage):
    """All places are taken by clients that take nothing of a long reply: a newcomer waits, and gets a place after five seconds, not before."""
    launcher = stage.serve(shell="ulimit -n 40")
    # (40 - 32 - 2) / 4 + 1
    launcher.load(socket_job(stage, "big", ["/bin/sh", "-c", "exec head -c 400000 /dev/zero"]))
    launcher.load(socket_job(stage, "other", ["/bin/cat"]))
    still = []
    for count in (1, 2):
        still.append(begin(stage.at("big")))
        wait_for(lambda: runs_of(launcher, "big") == count and is_idle(launcher, "big"), "a client is not served")
    start = time.monotonic()
    got = call(stage.at("other"), b"hello", 3 * BOUND)
    took = time.monotonic() - start
    check(got == b"hello", f"the newcomer got {got!r}")
    check(took > 3.5, f"it had its place after {took:.1f} s already")
    text = "jobd: big: a client was disconnected: it takes nothing, and 2 connections are open\n"
    check(launcher.said() == text, f"it said {launcher.said()!r}")
    check([len(read_all(client)) == 400000 for client in still] == [False, True], "not the first of two went, or both")
    launcher.shut_down()


def a_client_that_reads_slowly_stays(stage):
    """All places are taken by one who takes some of its reply now and then, for longer than five seconds: it gets all of it."""
    launcher = stage.serve(shell="ulimit -n 35")
    launcher.load(socket_job(stage, "big", ["/bin/sh", "-c", "exec head -c 3000000 /dev/zero"]))
    slow = begin(stage.at("big"))
    wait_for(lambda: runs_of(launcher, "big") == 1 and is_idle(launcher, "big"), "a client is not served")
    others = [begin(stage.at("big")) for _ in range(2)]
    count = 0
    for _ in range(8):
        time.sleep(1)
        count += len(slow.recv(300000))
    count += len(read_all(slow))
    check(count == 3000000, f"the slow reader got {count} bytes")
    got = [len(read_all(client)) for client in others]
    check(got == [3000000, 3000000], f"the others got {got}")
    check(launcher.said() == "", f"it said {launcher.said()!r}")
    launcher.shut_down()


def a_terminal_that_nobody_reads(stage):
    """Standard error is a terminal that nobody reads, or whose output is stopped: the launcher serves on, drops lines and counts them as for a
    pipe, tells what is left once somebody reads, and ends in any case."""
    master, slave = pty.openpty()
    launcher = stage.serve(shell=f"exec 2<>{os.ttyname(slave)}", env={"JOBD_LOG": "runs"})
    name = "a.job.of.a.long.name." + "x" * 150
    launcher.load(shell_job(name, ":", ThrottleInterval=0))
    for count in range(1, 161):
        launcher.ask({"req": "start", "job": name})
        is_over = lambda: runs_of(launcher, name) == count and is_idle(launcher, name)
        wait_for(is_over, f"run {count} does not end beside a terminal that nobody reads")
        launcher.answers("with a terminal that nobody reads")
    os.set_blocking(master, False)
    text = b""

    def is_told():
        nonlocal text
        try:
            text += os.read(master, 65536)
        except BlockingIOError:
            pass
        return b"lines were dropped" in text

    wait_for(is_told, lambda: f"the number of lines that were dropped is not told: {text[-400:]!r}")
    lines = text.split(b"\r\n")
    own = [line for line in lines if line.startswith(f"jobd: {name}: run ".encode())]
    check(len(own) > 20, f"{len(own)} whole lines were told")
    check(all(line.startswith(b"jobd: ") for line in lines if line), f"a line is cut: {[line for line in lines if line and not line.startswith(b'jobd: ')][:2]}")
    for _ in range(60):
        launcher.ask({"req": "start", "job": name})
        launcher.tells(name, "last exit = code 0")
    launcher.shut_down()
    os.close(master)
    os.close(slave)


SCENES = [
    no_reply_is_lost, a_whole_request_waits_for_a_place, one_who_takes_nothing_goes_after_five_seconds, a_client_that_reads_slowly_stays,
    a_terminal_that_nobody_reads,
]
