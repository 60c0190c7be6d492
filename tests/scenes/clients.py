"""Scenes of clients, of jobs and of the control socket: those that take nothing, say nothing, come in crowds, or ask on and on.

`play.py` plays them; `harness.py` has what all scenes share.
"""
import json
import os
import re
import signal
import statistics
import threading
import time

from harness import (
    BOUND, TOO_MANY, Deadline, begin, call, check, connect, descriptors, gated_job, in_time, make, read_all, read_line, requests_in, shell_job, socket_job,
    text_at, wait_for,
)


def clients_that_never_read(stage):
    """60 clients of a job take no reply, at 64 descriptors: others are served, jobs start and get TERM all the same."""
    launcher = stage.serve(shell="ulimit -n 64")
    launcher.load(shell_job("lasting", "exec sleep 1000", RunAtLoad=True))
    launcher.load(socket_job(stage, "greedy", ["/bin/sh", "-c", "exec head -c 400000 /dev/zero"]))
    launcher.load(socket_job(stage, "honest", ["/bin/cat"]))
    clients = []
    for _ in range(60):
        clients.append(begin(stage.at("greedy"), b"x"))
    runs = lambda: int(re.search(r"runs = (\d+)", launcher.print("greedy"))[1])
    wait_for(lambda: runs() >= 3, "the greedy clients are not served")
    for number in range(3):
        launcher.answers("beside clients that never read")
        launcher.load(shell_job(f"new{number}", f"echo run > {stage.at(f'new{number}')}", RunAtLoad=True, StandardOutPath=stage.at("out")))
        wait_for(lambda: text_at(stage.at(f"new{number}")), "no job starts beside clients that never read")
    wait_for(lambda: call(stage.at("honest"), b"hello") == b"hello", "another job's client is not served")
    launcher.ask({"req": "stop", "job": "lasting"})
    launcher.tells("lasting", "last exit = signal 15")
    for client in clients:
        client.close()
    wait_for(lambda: len(call(stage.at("greedy"), b"x")) == 400000, "a later client of the same job is not served")
    launcher.shut_down()


def a_client_still_for_a_minute(stage):
    """A client that takes nothing of its reply is let go after a minute, with both files, and not before; one that takes is served meanwhile."""
    launcher = stage.serve()
    launcher.load(socket_job(stage, "big", ["/bin/sh", "-c", "exec head -c 400000 /dev/zero"]))
    begun = time.monotonic()
    with begin(stage.at("big")) as still:
        launcher.tells("big", "runs = 1")
        launcher.tells("big", "last exit = code 0")
        names = sorted(name for name in os.listdir(stage.at("spool")) if name.endswith((".request", ".reply")))
        check(len(names) == 2, f"one client holds the files {names}")
        got = len(call(stage.at("big")))
        check(got == 400000, f"a second client got {got} bytes")
        text = "jobd: big: a client was disconnected: it took nothing of its reply for a minute"
        wait_for(lambda: text in launcher.said().splitlines(), lambda: f"after 70 s it said {launcher.said()!r}", 70)
        took = time.monotonic() - begun
        check(took > 59, f"it is let go after {took:.0f} s")
        check(launcher.said() == text + "\n", f"it said {launcher.said()!r}")
        left = [name for name in os.listdir(stage.at("spool")) if name.endswith((".request", ".reply"))]
        check(not left, f"of a client that was let go are left {left}")
        check(len(read_all(still)) < 400000, "one who took nothing got all")
    launcher.shut_down()


def clients_of_a_slow_job(stage):
    """Many clients wait for a slow job: another job's client is served, as long as there is room for one, and all are answered in the end."""
    launcher = stage.serve(shell="ulimit -n 64")
    for label in ("slow", *"abcdefgh"):
        launcher.load(gated_job(stage, label))
    launcher.load(socket_job(stage, "quick", ["/bin/cat"]))
    clients = [begin(stage.at("slow"), b"%d" % number) for number in range(60)]
    wait_for(lambda: len(requests_in(stage)) == 3, lambda: f"of the slow job are held {requests_in(stage)}")
    got = call(stage.at("quick"), b"hello")
    check(got == b"hello", f"another job's client got {got!r} beside those of a slow one")
    others = [begin(stage.at(label), label.encode()) for label in "abcdefgh"]
    wait_for(lambda: len(requests_in(stage)) == 6, lambda: f"held are {requests_in(stage)}")
    make(stage.at("go"))
    got = [read_all(client) for client in clients]
    check(got == [b"%d" % number for number in range(60)], f"those of the slow job got {got}")
    got = [read_all(client) for client in others]
    check(got == [label.encode() for label in "abcdefgh"], f"those of the others got {got}")
    check(launcher.said() == "", f"it said {launcher.said()!r}")
    launcher.shut_down()


def drip(clients):
    """Each client sends a byte, if it is not let go."""
    for client in clients:
        try:
            client.send(b"x")
        except OSError:
            pass


def slow_clients_of_one_port(stage):
    """64 clients of a job send a byte again and again: another job's client is served, and after five seconds further ones of this job."""
    launcher = stage.serve()
    launcher.load(socket_job(stage, "deaf", ["/bin/cat"]))
    launcher.load(socket_job(stage, "other", ["/bin/cat"]))
    before = descriptors(launcher.pid)
    clients = [connect(stage.at("deaf")) for _ in range(64)]
    wait_for(lambda: descriptors(launcher.pid) >= before + 60, "64 clients are not held")
    got = call(stage.at("other"), b"hello")
    check(got == b"hello", f"another job's client got {got!r} beside 64 slow ones")
    deadline = Deadline(30)
    while call(stage.at("deaf"), b"hello") != b"hello":
        in_time(not deadline.is_over(), "no further client of the job is served")
        drip(clients)
        time.sleep(0.2)
    for client in clients:
        client.close()
    wait_for(lambda: descriptors(launcher.pid) <= before, "descriptors are left")
    launcher.shut_down()


def pipelined_settings(stage):
    """A client sends 300 settings at once: another one, which asks as often, is answered after some of them, and not after all."""
    launcher = stage.serve(journal="journal")
    greedy, honest = connect(launcher.path, 3 * BOUND), connect(launcher.path, 3 * BOUND)
    # It is stopped meanwhile: else it may be done with the settings before the other one asks.
    os.kill(launcher.pid, signal.SIGSTOP)
    greedy.sendall(b'{"req":"disable","job":"x"}\n' * 300)
    honest.sendall(b'{"req":"list"}\n' * 300)
    os.kill(launcher.pid, signal.SIGCONT)
    for client in (greedy, honest):
        left = 300
        while left > 0:
            piece = client.recv(65536)
            check(piece, f"{left} of the requests were not answered")
            left -= piece.count(b"\n")
        client.close()
    launcher.shut_down()
    gaps, run = [], 0
    for event in text_at(stage.at("journal")).splitlines()[1:]:
        if '"ev":"disable"' in event:
            run += 1
        elif '"ev":"list"' in event:
            gaps.append(run)
            run = 0
    gaps = [gap for gap in gaps if gap] or [300]
    check(statistics.median(gaps) <= 60, f"between two answers of another client {statistics.median(gaps):.0f} settings were done (median)")


def silent_clients_of_the_control_socket(stage):
    """64 clients of the control socket say nothing: a further one is answered, and `shutdown` gets in."""
    launcher = stage.serve()
    before = descriptors(launcher.pid)
    clients = [connect(launcher.path) for _ in range(64)]
    wait_for(lambda: descriptors(launcher.pid) >= before + 60, "64 clients are not held")
    launcher.answers("beside 64 silent clients of the control socket")
    for client in clients:
        client.close()
    wait_for(lambda: descriptors(launcher.pid) <= before, "descriptors are left")
    busy = []
    for _ in range(64):
        busy.append(connect(launcher.path))
        busy[-1].sendall(b'{"req":"li')
    wait_for(lambda: descriptors(launcher.pid) >= before + 60, "64 clients are not held")
    with connect(launcher.path) as client:
        reply = launcher.ask_over(client, {"req": "list"})
    check(reply["code"] == 0 or reply == {"code": 2, "text": TOO_MANY}, f"beside 64 half requests one got {reply}")
    for client in busy:
        client.close()
    wait_for(lambda: descriptors(launcher.pid) <= before, "descriptors are left")
    idle = [connect(launcher.path) for _ in range(64)]
    launcher.shut_down()
    for client in idle:
        client.close()


def a_line_sent_while_the_launcher_stands(stage):
    """A launcher stands for a while. A client that came before and sends its line meanwhile is answered, also if 70 others come behind it. Those that said nothing
    go for them, and are told so."""
    launcher = stage.serve()
    before = descriptors(launcher.pid)
    late = connect(launcher.path)
    silent = [connect(launcher.path) for _ in range(63)]
    wait_for(lambda: descriptors(launcher.pid) >= before + 64, "64 clients are not held")
    # A few rounds, in which all are silent.
    time.sleep(0.3)
    os.kill(launcher.pid, signal.SIGSTOP)
    late.sendall(b'{"req":"list"}\n')
    others = [connect(launcher.path) for _ in range(70)]
    os.kill(launcher.pid, signal.SIGCONT)
    reply = read_line(late)
    check(reply and json.loads(reply)["code"] == 0, f"a line that was sent meanwhile got {reply!r}")
    for client in silent:
        told = read_all(client)
        check(told and json.loads(told) == {"code": 2, "text": TOO_MANY}, f"a client that goes for another got {told!r}")
    launcher.answers("beside 70 silent clients of the control socket")
    for client in [late, *silent, *others]:
        client.close()
    wait_for(lambda: descriptors(launcher.pid) <= before, "descriptors are left")
    launcher.shut_down()


def an_end_beside_one_who_asks_on(stage):
    """A client of the control socket asks on and on: the launcher ends all the same once a shutdown was accepted."""
    launcher = stage.serve()
    greedy = connect(launcher.path)

    def ask_on():
        try:
            while True:
                greedy.sendall(b'{"req":"list"}\n' * 1000)
        except OSError:
            return

    def read_on():
        try:
            while greedy.recv(65536):
                pass
        except OSError:
            return

    for part in (ask_on, read_on):
        threading.Thread(target=part, daemon=True).start()
    launcher.answers("beside one who asks on and on")
    launcher.shut_down()
    greedy.close()


SCENES = [
    a_client_still_for_a_minute, clients_that_never_read, clients_of_a_slow_job, slow_clients_of_one_port,
    pipelined_settings, silent_clients_of_the_control_socket, a_line_sent_while_the_launcher_stands,
    an_end_beside_one_who_asks_on,
]
