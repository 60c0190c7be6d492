"""Scenes of limits: descriptors, the size of files, lines that are too long.

`play.py` plays them; `harness.py` has what all scenes share.
"""
import json
import os
import re
import resource
import threading
import time

from harness import (
    BOUND, TOO_MANY, begin, call, check, connect, descriptors, first_free, has_answer, make, requests_in, shell_job,
    socket_job, text_at, wait_for,
)


def no_descriptor_left(stage):
    """No descriptor is left: nobody is let go as long as nobody waits. A silent client of the control socket gives way to the next one,
    and the refusal is told once."""
    launcher = stage.serve()
    told = "jobd: control socket: cannot accept: Too many open files (os error 24)"
    before, limits = descriptors(launcher.pid), resource.prlimit(launcher.pid, resource.RLIMIT_NOFILE)
    for times in (1, 2):
        silent = [connect(launcher.path) for _ in range(8)]
        wait_for(lambda: descriptors(launcher.pid) == before + 8, "8 clients are not held")
        resource.prlimit(launcher.pid, resource.RLIMIT_NOFILE, (first_free(launcher.pid), limits[1]))
        for _ in range(3):
            # A few rounds, in which all are silent.
            time.sleep(0.2)
            for client in silent:
                check(launcher.ask_over(client, {"req": "list"})["code"] == 0, "with no descriptor left list is refused")
        check(launcher.lines("") == [told] * (times - 1), f"nobody waited, and it said {launcher.said()!r}")
        with connect(launcher.path) as client:
            for _ in range(3):
                check(launcher.ask_over(client, {"req": "list"})["code"] == 0, "with no descriptor left list is refused")
            check(launcher.lines("") == [told] * times, f"after {times} such times it said {launcher.said()!r}")
            resource.prlimit(launcher.pid, resource.RLIMIT_NOFILE, limits)
            launcher.answers("with descriptors again")
        for client in silent:
            client.close()
        wait_for(lambda: descriptors(launcher.pid) == before, "descriptors are left")
    launcher.shut_down()


def sockets_job(stage, label, count):
    """A job with as many sockets, which notes each run and answers with its request; and where they are."""
    paths = [stage.at(f"{label}.{number}") for number in range(count)]
    job = socket_job(stage, label, ["/bin/sh", "-c", f"echo run >> {stage.at('runs')}; exec cat"])
    job["Sockets"] = {f"s{number}": {"SockPathName": path} for number, path in enumerate(paths)}
    return job, paths


def leave_early(paths):
    """A client at each of the paths half-closes and leaves."""
    for path in paths:
        try:
            begin(path, b"gone").close()
        except OSError:
            pass


def half_lines_at_a_low_limit(stage):
    """60 clients of the control socket send half a line, at 64 descriptors: others are answered, a job starts and gets TERM."""
    launcher = stage.serve(shell="ulimit -n 64")
    halves = [connect(launcher.path) for _ in range(60)]
    for client in halves:
        try:
            client.sendall(b'{"req":"li')
        except OSError:
            pass
    # They are silent from the next round on. Until then whoever comes may be told that there are too many, and let go before its line is sent.
    wait_for(lambda: has_answer(launcher), "beside 60 half lines list is refused")
    lasting = shell_job("lasting", "exec sleep 1000", RunAtLoad=True, StandardOutPath=stage.at("out"), StandardErrorPath=stage.at("err"))
    load_patiently(launcher, lasting)
    launcher.tells("lasting", "pid = ")
    launcher.ask({"req": "stop", "job": "lasting"})
    launcher.tells("lasting", "last exit = signal 15")
    for client in halves:
        client.close()
    launcher.shut_down()


def load_patiently(launcher, definition, code=0):
    """Loads a job where there is room for few clients: one that was answered and left may have its place still, until the next round."""
    replies = lambda: launcher.ask({"req": "load", "def": json.dumps(definition)})
    reply = wait_for(lambda: (it := replies())["text"] != TOO_MANY and it, "no client of the control socket is let in")
    check(reply["code"] == code, f"load of {definition['Label']} got {reply}")


def many_sockets_at_a_low_limit(stage):
    """20 sockets at 64 descriptors leave room for (64 - 32 - 20) / 4 + 1 = 4 connections. Clients of each half-close and leave, again and
    again: each that was let in is served, jobs start and get TERM. A bind that leaves no room is refused, until another job's sockets are given up."""
    launcher = stage.serve(shell="ulimit -n 64")
    launcher.load(shell_job("lasting", "exec sleep 1000", RunAtLoad=True))
    paths = []
    for label, count in (("a", 8), ("b", 8), ("c", 4)):
        job, places = sockets_job(stage, label, count)
        launcher.load(job)
        paths += places
    for times in range(5):
        leave_early(paths)
    new = shell_job("new", f"echo run > {stage.at('new')}", RunAtLoad=True, StandardOutPath=stage.at("out"), StandardErrorPath=stage.at("err"))
    launcher.load(new)
    wait_for(lambda: text_at(stage.at("new")), "no job starts beside clients that left")
    launcher.ask({"req": "stop", "job": "lasting"})
    launcher.tells("lasting", "last exit = signal 15")
    wait_for(lambda: not requests_in(stage), lambda: f"clients wait for ever: {requests_in(stage)}")
    wait_for(lambda: leave_early(paths) or text_at(stage.at("runs")).count("run") >= 4, "the clients that left are not served")
    wait_for(lambda: not requests_in(stage), lambda: f"clients wait for ever: {requests_in(stage)}")
    for path in paths:
        wait_for(lambda: call(path, b"hello") == b"hello", f"no client is served at {path}")
    check(not launcher.lines("cannot"), f"it was refused {launcher.lines('cannot')}")
    # 32 sockets leave room for one connection, and 33 for none.
    load_patiently(launcher, sockets_job(stage, "d", 8)[0])
    load_patiently(launcher, sockets_job(stage, "e", 4)[0])
    load_patiently(launcher, sockets_job(stage, "f", 1)[0], 11)
    told = "jobd: f: cannot bind its sockets: too few descriptors are left for clients (ulimit -n)"
    wait_for(lambda: told in launcher.said().splitlines(), lambda: f"it said {launcher.said()!r}")
    check(not os.path.exists(stage.at("f.0")), "a socket of a job that was refused is bound")
    wait_for(lambda: call(paths[0], b"hello") == b"hello", "no client is served where there is room for one")
    wait_for(lambda: launcher.ask({"req": "unload", "job": "e"})["code"] == 0, "a job is not unloaded")
    load_patiently(launcher, sockets_job(stage, "f", 1)[0])
    wait_for(lambda: call(stage.at("f.0"), b"hello") == b"hello", "no client of a job that was bound later is served")
    wait_for(lambda: launcher.ask({"req": "shutdown"})["code"] == 0, "shutdown is refused")
    check(launcher.ends(BOUND) == 0, f"the launcher ended otherwise: {launcher.said()!r}")


def take_descriptors(launcher):
    """Silent clients of the control socket, so many that no descriptor is free below the launcher's highest one, which then is the last."""
    clients, most = [], max(map(int, os.listdir(f"/proc/{launcher.pid}/fd"))) + 1
    while first_free(launcher.pid) < most:
        held = first_free(launcher.pid)
        clients.append(connect(launcher.path))
        wait_for(lambda: first_free(launcher.pid) > held, "a client is not held")
    _, hard = resource.prlimit(launcher.pid, resource.RLIMIT_NOFILE)
    resource.prlimit(launcher.pid, resource.RLIMIT_NOFILE, (most, hard))
    return clients


def a_start_with_no_descriptor_left(stage):
    """No descriptor is left: a path is looked at, a job starts with its streams, and gets TERM, by what is held back for them."""
    launcher = stage.serve(journal="journal")
    limits = resource.prlimit(launcher.pid, resource.RLIMIT_NOFILE)
    with connect(launcher.path) as client:
        ask = lambda request: launcher.ask_over(client, request)
        shown = lambda: ask({"req": "print", "job": "lasting"})["text"]
        check(ask({"req": "list"})["code"] == 0, "list refused")
        silent = take_descriptors(launcher)
        watching = shell_job("watching", f"echo run > {stage.at('watched')}", WatchPaths=[stage.at("path")])
        streams = {"StandardInPath": make(stage.at("in"), "text"), "StandardOutPath": stage.at("out"), "StandardErrorPath": stage.at("err")}
        lasting = shell_job("lasting", "cat; echo error >&2; exec sleep 1000", RunAtLoad=True, ThrottleInterval=0, **streams)
        for job in (watching, lasting):
            check(ask({"req": "load", "def": json.dumps(job)})["code"] == 0, f"load of {job['Label']} refused")
        for times in (1, 2):
            wait_for(lambda: text_at(stage.at("err")) == "error\n" * times, lambda: f"the job does not start: {launcher.said()!r}")
            check(text_at(stage.at("out")) == "text" * times, f"its output is {text_at(stage.at('out'))!r}")
            check(ask({"req": "stop", "job": "lasting"})["code"] == 0, "stop refused")
            wait_for(lambda: "pid = -" in shown(), lambda: f"TERM does not come: {launcher.said()!r}")
            check("last exit = signal 15" in shown(), f"it ended otherwise: {shown()!r}")
            check(ask({"req": "start", "job": "lasting"})["code"] == 0, "start refused")
        # The launcher saw it absent before.
        wait_for(lambda: f'"path":"{stage.at("path")}"' in text_at(stage.at("journal")), "a path that is absent is not looked at")
        make(stage.at("path"))
        wait_for(lambda: text_at(stage.at("watched")), lambda: f"a path that comes starts nothing: {launcher.said()!r}")
        check(launcher.said() == "", f"it said {launcher.said()!r}")
        resource.prlimit(launcher.pid, resource.RLIMIT_NOFILE, limits)
    for one in silent:
        one.close()
    launcher.shut_down()


def limits_and_ignored_signals(stage):
    """Limits that the launcher can't live with, and signals that jobs will inherit as ignored, are told at the start."""
    launcher = stage.start(shell="ulimit -n 8")
    if launcher.is_ready():
        wait_for(lambda: re.search(r"jobd: .*(descriptor|open files)", launcher.said()), "8 descriptors, and nothing said of it")
    else:
        status = launcher.ends()
        check(status > 0 and "jobd: " in launcher.said(), f"with 8 descriptors it ended with {status}: {launcher.said()!r}")
    launcher = stage.serve(shell="ulimit -f 2000", socket="socket2", store="store2")
    wait_for(lambda: re.search(r"jobd: .*file size", launcher.said()), f"a limit on file sizes is not told, but {launcher.said()!r}")
    launcher.shut_down()
    launcher = stage.serve(ignored="SIGHUP SIGINT SIGQUIT", socket="socket3", store="store3")
    wait_for(lambda: re.search(r"jobd: .*(ignored|HUP)", launcher.said()), f"ignored signals are not told, but {launcher.said()!r}")
    launcher.shut_down()
    launcher = stage.serve(socket="socket4", store="store4")
    launcher.shut_down()
    check(launcher.said() == "", f"with nothing amiss it said {launcher.said()!r}")


def a_journal_that_may_not_grow(stage):
    """The system refuses the journal more room: that is told once, and the launcher goes on."""
    # The limit counts blocks of 512 bytes or of 1,024, by the shell. The store's log takes some 270,000 bytes when it is made.
    launcher = stage.serve(shell="trap '' XFSZ; ulimit -f 1024", journal="journal")
    with connect(launcher.path) as client:
        for _ in range(8):
            launcher.ask_over(client, {"req": "load", "def": "x" * 200000})
    wait_for(lambda: launcher.lines("journal"), "nothing said of the journal")
    launcher.load(shell_job("beside", f"echo run > {stage.at('beside')}", RunAtLoad=True))
    wait_for(lambda: text_at(stage.at("beside")), "no job starts beside a journal that was refused")
    launcher.shut_down()
    check(len(launcher.lines("journal")) == 1, f"a refused journal is told as {launcher.lines('journal')[:3]}")
    replayed = stage.replay("journal")
    check(replayed.stdout, f"what the journal has replays with {replayed.returncode}")


def long_lines_and_headers(stage):
    """What `jobd replay` could not take is refused by `jobctl`, and told at the start."""
    launcher = stage.serve(journal="journal")
    front, back = '{"Label":"long","ProgramArguments":["/bin/true"]', "}"
    size = len(json.dumps({"req": "load", "def": front + back}, separators=(",", ":")))
    for wanted in (262100, 262120, 262144):
        make(stage.at("long.json"), front + " " * (wanted - size) + back)
        run = stage.jobctl(["load", stage.at("long.json")])
        check(run.returncode in (0, 4, 65), f"a definition of {wanted} bytes: {run.returncode}, {run.stderr!r}")
        check(run.returncode != 65 or "long.json" in run.stderr, f"refused with {run.stderr!r}")
        check(wanted < 262101 or run.returncode == 65, f"jobctl hands in a line of {wanted} bytes, which can't be replayed")
    labels = [f"{number:04d}" + '"' * 251 for number in range(520)]
    with connect(launcher.path, 3 * BOUND) as client:
        lines = [json.dumps({"req": "disable", "job": label}).encode() + b"\n" for label in labels]
        sender = threading.Thread(target=lambda: [client.sendall(line) for line in lines], daemon=True)
        sender.start()
        got = 0
        while got < len(labels):
            piece = client.recv(65536)
            check(piece, "the settings were not answered")
            got += piece.count(b"\n")
    launcher.shut_down()
    replayed = stage.replay("journal")
    check(replayed.returncode == 0, f"the journal replays with {replayed.returncode}")
    launcher = stage.serve(journal="journal2")
    wait_for(lambda: re.search(r"jobd: .*(journal|header|replay)", launcher.said()), "a header that can't be replayed is not told")
    launcher.shut_down()


SCENES = [
    no_descriptor_left, half_lines_at_a_low_limit, many_sockets_at_a_low_limit, a_start_with_no_descriptor_left,
    limits_and_ignored_signals, a_journal_that_may_not_grow, long_lines_and_headers,
]
