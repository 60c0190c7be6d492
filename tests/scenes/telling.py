"""Scenes of what a launcher tells: each reason once, the runs, to a standard error that nobody reads; and of the shell that gives TERM.

`play.py` plays them; `harness.py` has what all scenes share.
"""
import os
import re
import signal

from harness import call, check, end_all, kept_shells, make, shell_job, socket_job, text_at, wait_for


def reasons_are_told(stage):
    """Whatever the system refuses is told once, with the system's reason, and again when the reason changes."""
    launcher = stage.serve()
    absent, barred = "No such file or directory (os error 2)", "Permission denied (os error 13)"
    looping = "Too many levels of symbolic links (os error 40)"
    make(stage.at("plain"), "no program\n")
    os.chmod(stage.at("plain"), 0o644)
    os.symlink("loop", stage.at("loop"))
    keys = {"RunAtLoad": True}
    jobs = [
        ("program", {"ProgramArguments": ["/no/such/program"], **keys}, f"run 1: cannot start /no/such/program: {absent}"),
        ("barred", {"ProgramArguments": [stage.at("plain")], **keys}, f"run 1: cannot start {stage.at('plain')}: {barred}"),
        ("folder", shell_job("", ":", WorkingDirectory=stage.at("gone"), **keys), f"{stage.at('gone')}: {absent}"),
        ("output", shell_job("", ":", StandardOutPath=stage.at("gone/out"), **keys), f"{stage.at('gone/out')} for its output: {absent}"),
        ("errors", shell_job("", ":", StandardErrorPath=stage.at("gone/err"), **keys), f"{stage.at('gone/err')} for its errors: {absent}"),
        ("input", shell_job("", ":", StandardInPath=stage.at("gone/in"), **keys), f"{stage.at('gone/in')} for its input: {absent}"),
    ]
    for label, definition, _ in jobs:
        launcher.load({**definition, "Label": label})
    launcher.load({**socket_job(stage, "bound", ["/bin/cat"]), "Sockets": {"s": {"SockPathName": stage.at("gone/socket")}}}, 11)
    jobs.append(("bound", None, f"{stage.at('gone/socket')}: {absent}"))
    told = lambda label, text: [line for line in launcher.lines(f"jobd: {label}: ") if line.endswith(text)]
    launcher.load(shell_job("watch", ":", WatchPaths=[stage.at("loop/x")]))
    sight = f"jobd: cannot check {stage.at('loop/x')}: {looping}"
    wait_for(lambda: launcher.lines(sight), f"no line {sight!r} in {launcher.said()!r}")
    for label, _, text in jobs:
        wait_for(lambda: told(label, text), lambda: f"no line `jobd: {label}: ..{text}` in {launcher.said()!r}")
    launcher.load({"Label": "often", "ProgramArguments": [stage.at("later")], "KeepAlive": True, "ThrottleInterval": 0})
    wait_for(lambda: int(re.search(r"runs = (\d+)", launcher.print("often"))[1]) >= 3, "the job is not tried again")
    check(len(launcher.lines("jobd: often: ")) == 1, f"a refusal that repeats is told as {launcher.lines('often')[:3]}")
    make(stage.at("later"), "no program\n")
    wait_for(lambda: told("often", barred), "the reason that changed is not told")
    check(len(launcher.lines("jobd: often: ")) == 2, f"two reasons are told as {launcher.lines('often')[:4]}")
    launcher.load(socket_job(stage, "cat", ["/bin/cat"]))
    got = call(stage.at("cat"), b"x" * 65537)
    check(got == b"", f"a request that is too long got {got[:20]!r}")
    wait_for(lambda: launcher.lines("jobd: cat: "), "a request that is too long is not told")
    launcher.shut_down()
    strange = [line for line in launcher.said().splitlines() if not line.startswith("jobd: ")]
    check(not strange, f"lines of another form: {strange[:2]}")


def run_log(stage):
    """JOBD_LOG=runs tells starts, ends, TERM and KILL; JOURNAL_STREAM puts a level before each line."""
    told = []
    for env in ({"JOBD_LOG": "runs"}, {"JOBD_LOG": "runs", "JOURNAL_STREAM": "8:1"}, {"JOURNAL_STREAM": "8:1"}, {}):
        launcher = stage.serve(env=env)
        launcher.load(shell_job("seven", "exit 7", RunAtLoad=True))
        launcher.load(shell_job("mild", "exec sleep 1000", RunAtLoad=True))
        deaf = f"trap '' TERM; : > {stage.at('deaf')}; while :; do sleep 0.05; done"
        launcher.load(shell_job("deaf", deaf, RunAtLoad=True, ExitTimeOut=1))
        launcher.load({"Label": "missing", "ProgramArguments": ["/no/such/program"], "RunAtLoad": True})
        wait_for(lambda: os.path.exists(stage.at("deaf")), "the job does not start")
        pid = re.search(r"pid = (\d+)", launcher.print("mild"))
        for label, end in (("mild", "signal 15"), ("deaf", "signal 9")):
            if "JOBD_LOG" in env:
                launcher.ask({"req": "stop", "job": label})
                launcher.tells(label, f"last exit = {end}")
        launcher.tells("seven", "last exit = code 7")
        end_all(launcher)
        os.remove(stage.at("deaf"))
        told.append((launcher.said(), pid))
    (plain, pid), (leveled, _), (refusals, _), (still, _) = told
    wanted = [
        rf"jobd: mild: run 1 started as {pid[1] if pid else '[0-9]+'}",
        r"jobd: mild: TERM to run 1", r"jobd: mild: run 1 ended by signal 15 after \d+\.\d s",
        r"jobd: seven: run 1 started as \d+", r"jobd: seven: run 1 ended with code 7 after \d+\.\d s",
        r"jobd: deaf: TERM to run 1", r"jobd: deaf: KILL to run 1", r"jobd: deaf: run 1 ended by signal 9 after \d+\.\d s",
    ]
    for line in wanted:
        check(re.search(f"^{line}$", plain, re.M), f"no line {line!r} in {plain!r}")
        check(re.search(f"^<6>{line}$", leveled, re.M) or "started as" in line, f"no line '<6>{line}' in {leveled!r}")
    refusal = "jobd: missing: run 1: cannot start /no/such/program: No such file or directory (os error 2)"
    check(refusal in plain.splitlines() and refusal in still.splitlines(), f"no line {refusal!r} in {still!r}")
    for said in (leveled, refusals):
        check(f"<4>{refusal}" in said.splitlines(), f"no level before the refusal in {said!r}")
    check(len(still.splitlines()) == 1 and len(refusals.splitlines()) == 1, f"without JOBD_LOG it said {still!r}")


def a_standard_error_that_nobody_reads(stage):
    """Standard error is a pipe that is full: the launcher serves on, tells its lines once somebody reads, and ends in any case."""
    os.mkfifo(stage.at("told"))
    told = os.open(stage.at("told"), os.O_RDWR | os.O_NONBLOCK)
    fill(told)
    launcher = stage.serve(shell=f"exec 2<>{stage.at('told')}", env={"JOBD_LOG": "runs"})
    launcher.load(shell_job("first", ":", RunAtLoad=True))
    launcher.tells("first", "last exit = code 0")
    launcher.answers("with a standard error that nobody reads")
    lines = b""

    def are_read():
        nonlocal lines
        try:
            lines += os.read(told, 65536)
        except BlockingIOError:
            pass
        return b"first: run 1 ended with code 0" in lines

    wait_for(are_read, "the lines are not told once somebody reads")
    check(b"jobd: first: run 1 started as " in lines, f"it told {lines[-300:]!r}")
    fill(told)
    launcher.load(shell_job("second", ":", RunAtLoad=True))
    launcher.tells("second", "last exit = code 0")
    launcher.shut_down()
    os.close(told)


def fill(pipe):
    """Writes until the pipe takes nothing more."""
    try:
        while True:
            os.write(pipe, b"." * 4096)
    except BlockingIOError:
        pass


def a_shell_for_one_term(stage):
    """TERM comes also if the kept shell was stopped, and the shell in its place has nothing of the launcher's environment: each program that
    has it tells here which files its loader opens, and a bash would take `kill` from it."""
    around = {"LD_DEBUG": "files", "LD_DEBUG_OUTPUT": stage.at("opened"), "BASH_FUNC_kill%%": "() { return 1; }"}
    launcher = stage.serve(env=around)
    for label in ("first", "second"):
        launcher.load({"Label": label, "ProgramArguments": ["/bin/sleep", "1000"], "RunAtLoad": True, "ThrottleInterval": 0})
        launcher.tells(label, "pid = ")
    kept = lambda: kept_shells(launcher)
    check(not kept(), "a shell is kept before the first TERM")

    def after_a_term():
        launcher.ask({"req": "stop", "job": "first"})
        launcher.tells("first", "last exit = signal 15")
        shells = kept()
        if not shells:
            # Its answer took half a second, so it was given up: the next TERM begins another.
            launcher.ask({"req": "start", "job": "first"})
        return shells

    shells = wait_for(after_a_term, "no shell is kept")
    check(len(shells) == 1, f"kept shells: {shells}")
    opened = lambda: {name for name in os.listdir(stage.folder) if name.startswith("opened.")}
    before = opened()
    os.kill(shells[0], signal.SIGSTOP)
    launcher.ask({"req": "stop", "job": "second"})
    launcher.tells("second", "last exit = signal 15")
    wait_for(lambda: shells[0] not in kept(), "the shell that was stopped is kept")
    end_all(launcher)
    for name in opened() - before:
        check("needed by /bin/sh " not in text_at(stage.at(name)), f"a shell has the launcher's environment: {name}")


SCENES = [
    reasons_are_told, run_log, a_standard_error_that_nobody_reads, a_shell_for_one_term,
]
