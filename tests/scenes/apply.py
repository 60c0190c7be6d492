"""Scenes of `jobctl apply`: a folder of definitions is brought into effect beside a launcher whose jobs run.

`play.py` plays them; `harness.py` has what all scenes share.
"""
import hashlib
import json
import os
import re
import shutil
import socket
import subprocess
import threading
import time

from harness import HERE, check, connect, end_process, make, patience, read_line, shell_job, text_at, wait_for
from status import asked, job_where

# One time of the year: no scene meets it.
NEW_YEAR = {"Month": 1, "Day": 1, "Hour": 0, "Minute": 0}


# ---- a folder beside a launcher

def begin(stage, journal="journal", env=None, is_waited=True, **how):
    """A launcher that keeps a status file, and the folder `jobs`. `jobctl` is told its socket alone."""
    os.umask(0o022)
    for name in ("jobs", "standing"):
        os.makedirs(stage.at(name), mode=0o755 if name == "jobs" else 0o700, exist_ok=True)
    env = {"JOBD_STATUS_FILE": stage.at("standing/status.jsonl"), **(env or {})}
    launcher = stage.serve(env=env, **({"journal": journal} if journal else {}), **how)
    if is_waited:
        wait_for(lambda: all(os.path.exists(stage.at(name)) for name in ("standing/status.jsonl", "socket.places")), "the launcher does not write what it has loaded")
    return launcher


def put(stage, name, definition, mode=0o644):
    """Puts the definition, or the text, in place of the file as a whole."""
    text = definition if isinstance(definition, str) else json.dumps(definition, indent=2)
    path = make(stage.at("next"), text)
    os.chmod(path, mode)
    os.rename(path, stage.at(name if "/" in name else f"jobs/{name}"))


def kept(label, body="one", **keys):
    """A job that is kept alive."""
    return shell_job(label, f": {body}; exec sleep 1000", **{"KeepAlive": True, "ThrottleInterval": 0, **keys})


def nightly(stage, label="backup", **keys):
    """A job that runs until the file `go` is there."""
    script = f"until [ -e {stage.at('go')} ]; do sleep 0.05; done"
    return shell_job(label, script, **{"StartCalendarInterval": NEW_YEAR, "ThrottleInterval": 0, **keys})


def stubborn(stage, label="slow", **keys):
    """A job that is kept alive, says when it minds TERM, and after TERM ends once the file `go` is there."""
    at = stage.at(label)
    script = f"trap ': >{at}.asked; until [ -e {stage.at('go')} ]; do sleep 0.05; done; exit' TERM; : >{at}.minds; while :; do sleep 0.05; done"
    return shell_job(label, script, **{"KeepAlive": True, "ThrottleInterval": 0, "ExitTimeOut": 300, **keys})


class Applied:
    """What came of `jobctl apply`: its status, its lines as word, label and the rest, and what it said on standard error."""

    FORM = re.compile(r"(at boot|\S+)\s+(\S+ -> \S+|\S+)\s+(.*)")

    def __init__(self, status, out, said):
        self.status, self.out, self.said = status, out, said
        self.rows = [row.groups() for row in map(self.FORM.fullmatch, out.splitlines()) if row]

    def __str__(self):
        return f"status {self.status}, {self.out!r}, said {self.said!r}"

    def words(self):
        """Word and label of each line but that of what is the same, in their order."""
        return [row[:2] for row in self.rows if row[0] != "same"]

    def rest(self, word, label=None):
        """The rest of the only line of this word, and of this label if one is given."""
        found = [rest for row, name, rest in self.rows if row == word and label in (None, name)]
        check(len(found) == 1, f"not one line {word} {label}: {self}")
        return found[0]


def apply_words(stage, words, path="socket"):
    return [*stage.given.jobctl, "--socket", stage.at(path), "apply", *words]


def apply(stage, *words, path="socket"):
    """Runs it to its end. Nothing in its environment names a file of the launcher."""
    run = subprocess.run(
        apply_words(stage, words or ("jobs",), path), cwd=stage.folder, stdin=subprocess.DEVNULL, capture_output=True, text=True, timeout=patience(100)
    )
    return Applied(run.returncode, run.stdout, run.stderr)


class Applying:
    """An apply that goes on."""

    def __init__(self, stage, *words, name="applying"):
        self.out_at, self.said_at = stage.at(f"{name}.out"), stage.at(f"{name}.said")
        with open(self.out_at, "wb") as out, open(self.said_at, "wb") as said:
            self.process = subprocess.Popen(apply_words(stage, words or ("jobs",)), cwd=stage.folder, stdin=subprocess.DEVNULL, stdout=out, stderr=said)

    def is_over(self):
        return self.process.poll() is not None

    def told(self):
        return Applied(self.process.returncode, text_at(self.out_at), text_at(self.said_at))

    def ends(self, bound=None):
        wait_for(self.is_over, lambda: f"apply does not end: {self.told()}", bound)
        return self.told()

    def kill(self):
        end_process(self.process.pid)
        self.process.wait()


def in_effect(got, *words):
    check(got.status == 0 and got.words() == list(words), f"wanted {list(words)} and status 0: {got}")


def pid_of(launcher, label):
    """The process of the job's run, or None."""
    found = re.search(r"\tpid = (\d+)\n", launcher.print(label))
    return int(found[1]) if found else None


def running(launcher, label):
    return wait_for(lambda: pid_of(launcher, label), f"{label} does not run")


def state_of(launcher, label):
    found = re.search(r"\tstate = (\w+)\n", launcher.print(label))
    return found[1] if found else None


def loaded(launcher):
    """The labels that are loaded, in order."""
    return [row.split("\t")[2] for row in launcher.ask({"req": "list"})["text"].splitlines()[1:]]


def digest(definition):
    """The SHA-256 of the definition without blanks, its keys in order."""
    return hashlib.sha256(json.dumps(definition, sort_keys=True, separators=(",", ":")).encode()).hexdigest()


def has_loaded(stage, label, definition):
    """The launcher comes to say that this definition is the one that is loaded."""
    job_where(stage.at("standing/status.jsonl"), label, lambda job: job["definition"] == digest(definition))


def unharmed(launcher, label, pid, got):
    check(pid_of(launcher, label) == pid and os.path.exists(f"/proc/{pid}"), f"the run of {label} was ended: {got}; {launcher.print(label)}")


# ---- what was seen of the script before

def a_missing_comma_ends_nothing(stage):
    """A file that can't be read keeps its job, and beside it nothing is pruned."""
    launcher = begin(stage)
    for label in ("db", "gone", "web"):
        put(stage, f"{label}.json", kept(label))
    in_effect(apply(stage), ("new", "db"), ("new", "gone"), ("new", "web"))
    pids = {label: running(launcher, label) for label in ("db", "gone", "web")}
    put(stage, "db.json", '{\n  "Label": "db",\n  "Program": "/bin/sleep"\n  "KeepAlive": true\n}\n')
    os.unlink(stage.at("jobs/gone.json"))
    for words in (["--dry-run", "--prune"], ["--prune", "--strict"], ["--prune"], ["--prune", "--now"]):
        got = apply(stage, *words, "jobs")
        check(got.status == 65 and sorted(word for word, _ in got.words()) == ["orphan", "unread"], f"{words}: {got}")
        rest = got.rest("unread")
        check("line 4, column 3" in rest and "pruned" in rest, f"where it can't be read: {got}")
        check("left" in got.rest("orphan", "gone"), f"the job without a file: {got}")
        for label, pid in pids.items():
            unharmed(launcher, label, pid, got)
    put(stage, "db.json", kept("db"))
    got = apply(stage, "--prune", "jobs")
    in_effect(got, ("orphan", "gone"))
    check(loaded(launcher) == ["db", "web"], f"loaded: {loaded(launcher)}")
    for label in ("db", "web"):
        unharmed(launcher, label, pids[label], got)


def a_change_of_the_calendar_leaves_the_run(stage):
    """A run that goes on is left; --dry-run says so too. Once it has ended the change is brought into effect."""
    launcher = begin(stage)
    old = nightly(stage)
    put(stage, "backup.json", old)
    in_effect(apply(stage), ("new", "backup"))
    launcher.ask({"req": "start", "job": "backup"})
    pid = running(launcher, "backup")
    new = nightly(stage, StartCalendarInterval={**NEW_YEAR, "Minute": 5})
    put(stage, "backup.json", new)
    for words in (["--dry-run"], [], ["--strict"], ["--prune"]):
        got = apply(stage, *words, "jobs")
        check(got.status == 2 and got.words() == [("running", "backup")], f"{words}: {got}")
        rest = got.rest("running", "backup")
        check(rest.startswith("StartCalendarInterval changed; run 1 has run since "), f"{words}: {got}")
        check(rest.endswith(": left (--wait waits until it exits, --now stops it)"), f"{words}: {got}")
        unharmed(launcher, "backup", pid, got)
    has_loaded(stage, "backup", old)
    make(stage.at("go"))
    wait_for(lambda: not pid_of(launcher, "backup"), "the run does not end")
    got = apply(stage)
    in_effect(got, ("changed", "backup"))
    check(got.rest("changed", "backup").startswith("StartCalendarInterval"), f"what changed: {got}")
    has_loaded(stage, "backup", new)


def wait_waits_for_the_end_of_a_run(stage):
    """It says that it waits, takes the rest on meanwhile, and then brings the change into effect."""
    launcher = begin(stage, env={"JOBD_LOG": "runs"})
    put(stage, "backup.json", nightly(stage))
    in_effect(apply(stage), ("new", "backup"))
    launcher.ask({"req": "start", "job": "backup"})
    pid = running(launcher, "backup")
    wait_for(lambda: launcher.lines("backup: run 1 started"), "no line of its start")
    new = nightly(stage, ExitTimeOut=7)
    put(stage, "backup.json", new)
    put(stage, "web.json", kept("web"))
    going = Applying(stage, "--wait", "jobs")
    wait_for(lambda: "web" in loaded(launcher), lambda: f"what has no run is not loaded: {going.told()}")
    wait_for(lambda: "backup" in going.told().out + going.told().said, lambda: f"it does not say whom it waits for: {going.told()}")
    check(not going.is_over(), f"it does not wait: {going.told()}")
    unharmed(launcher, "backup", pid, going.told())
    make(stage.at("go"))
    got = going.ends()
    check(got.status == 0, f"it ended so: {got}")
    has_loaded(stage, "backup", new)
    check("TERM to run" not in launcher.said(), f"a run was ended: {launcher.said()}")


def now_ends_a_run(stage):
    launcher = begin(stage)
    put(stage, "backup.json", nightly(stage))
    in_effect(apply(stage), ("new", "backup"))
    launcher.ask({"req": "start", "job": "backup"})
    pid = running(launcher, "backup")
    new = nightly(stage, ExitTimeOut=7)
    put(stage, "backup.json", new)
    got = apply(stage, "--dry-run", "--now", "jobs")
    check(got.status == 0 and got.words() == [("changed", "backup")], f"what it would do: {got}")
    unharmed(launcher, "backup", pid, got)
    in_effect(apply(stage, "--now", "jobs"), ("changed", "backup"))
    check(not os.path.exists(f"/proc/{pid}"), "the run goes on")
    has_loaded(stage, "backup", new)


def the_file_named_for_a_label_decides(stage):
    """A copy beside it is left out, wherever it stands in byte order. Without such a file none decides, and the job is left."""
    launcher = begin(stage)
    right, copy = kept("nginx", "right"), kept("nginx", "copy")
    put(stage, "nginx.json", right)
    put(stage, "nginx-old.json", copy)
    put(stage, "zz.json", copy)
    got = apply(stage)
    check(("new", "nginx") in got.words(), f"what is named for it is not loaded: {got}")
    told = [rest for word, label, rest in got.rows if (word, label) == ("twice", "nginx")]
    check(told and all(rest.startswith("nginx.json is used; ") for rest in told), f"who decides: {got}")
    check(all(f"{name} is left out" in " ".join(told) or name in " ".join(told) for name in ("nginx-old.json", "zz.json")), f"who is left out: {got}")
    has_loaded(stage, "nginx", right)
    pid = running(launcher, "nginx")
    got = apply(stage)
    check(("changed", "nginx") not in got.words() and "same      1 job" in got.out, f"once more: {got}")
    unharmed(launcher, "nginx", pid, got)

    os.unlink(stage.at("jobs/nginx.json"))
    os.rename(stage.at("jobs/zz.json"), stage.at("jobs/b.json"))
    os.rename(stage.at("jobs/nginx-old.json"), stage.at("jobs/a.json"))
    for words in ([], ["--prune"], ["--now"]):
        got = apply(stage, *words, "jobs")
        check(got.status == 2 and set(got.words()) == {("twice", "nginx")}, f"{words}: {got}")
        check(any("a.json" in rest and "b.json" in rest and "left" in rest for _, _, rest in got.rows), f"{words}: {got}")
        unharmed(launcher, "nginx", pid, got)


def a_label_that_changed_is_moved(stage):
    """The job under the old label is unloaded first. If its run would be ended, neither is done."""
    launcher = begin(stage)
    put(stage, "app.json", kept("app"))
    put(stage, "night.json", nightly(stage, "night"))
    in_effect(apply(stage), ("new", "app"), ("new", "night"))
    launcher.ask({"req": "start", "job": "night"})
    pid, old = running(launcher, "night"), running(launcher, "app")
    put(stage, "app.json", kept("www"))
    got = apply(stage, "--dry-run", "jobs")
    check(got.status == 0 and loaded(launcher) == ["app", "night"], f"--dry-run: {got}")
    got = apply(stage)
    check(got.status == 0 and loaded(launcher) == ["night", "www"], f"{got}; loaded: {loaded(launcher)}")
    check("renamed" in [word for word, _ in got.words()], f"its word: {got}")
    check(not os.path.exists(f"/proc/{old}"), "the job of the old label runs on")
    running(launcher, "www")
    put(stage, "night.json", nightly(stage, "late"))
    got = apply(stage)
    check(got.status == 2 and loaded(launcher) == ["night", "www"], f"a run goes on: {got}; loaded: {loaded(launcher)}")
    unharmed(launcher, "night", pid, got)
    make(stage.at("go"))
    wait_for(lambda: not pid_of(launcher, "night"), "the run does not end")
    got = apply(stage)
    check(got.status == 0 and loaded(launcher) == ["late", "www"], f"the run has ended: {got}; loaded: {loaded(launcher)}")


def what_a_boot_would_leave_out_is_not_loaded(stage):
    launcher = begin(stage)
    put(stage, "deploy.json", kept("deploy"), mode=0o664)
    put(stage, "web.json", kept("web"))
    got = apply(stage)
    check(got.status == 2 and sorted(got.words()) == [("at boot", "deploy"), ("new", "web")], f"{got}")
    check(got.rest("at boot", "deploy").startswith("jobd-run would leave deploy.json out: "), f"its line: {got}")
    check(loaded(launcher) == ["web"], f"loaded: {loaded(launcher)}")
    os.chmod(stage.at("jobs/deploy.json"), 0o644)
    in_effect(apply(stage), ("new", "deploy"))
    # What is loaded is not replaced by a file that the next boot leaves out.
    pid = running(launcher, "deploy")
    put(stage, "deploy.json", kept("deploy", "two"), mode=0o646)
    got = apply(stage, "--now", "--prune", "jobs")
    check(got.status == 2 and got.words() == [("at boot", "deploy")], f"{got}")
    unharmed(launcher, "deploy", pid, got)


def a_replacement_waits_as_long_as_the_old_job_has(stage):
    """By the ExitTimeOut of what is loaded, and not by that of the file."""
    launcher = begin(stage)
    deaf = shell_job("deaf", f"trap '' TERM; : >{stage.at('deaf.minds')}; while :; do sleep 0.1; done", KeepAlive=True, ThrottleInterval=0, ExitTimeOut=9)
    put(stage, "deaf.json", deaf)
    in_effect(apply(stage), ("new", "deaf"))
    wait_for(lambda: os.path.exists(stage.at("deaf.minds")), "the job is not deaf")
    new = kept("deaf", ExitTimeOut=1)
    put(stage, "deaf.json", new)
    in_effect(apply(stage), ("changed", "deaf"))
    check(loaded(launcher) == ["deaf"] and state_of(launcher, "deaf") != "removing", f"down: {launcher.print('deaf')}")
    has_loaded(stage, "deaf", new)


def an_apply_that_was_killed_is_taken_up(stage):
    """What is being removed and a file wants is a step, and waits; the next apply loads it."""
    launcher = begin(stage)
    put(stage, "slow.json", stubborn(stage))
    in_effect(apply(stage), ("new", "slow"))
    wait_for(lambda: os.path.exists(stage.at("slow.minds")), "the job does not mind TERM")
    new = kept("slow", "new")
    put(stage, "slow.json", new)
    first = Applying(stage)
    wait_for(lambda: os.path.exists(stage.at("slow.asked")), lambda: f"the job gets no TERM: {first.told()}")
    first.kill()
    check(state_of(launcher, "slow") == "removing", f"its state: {launcher.print('slow')}")
    got = apply(stage, "--dry-run", "jobs")
    check(got.status == 2 and got.words() == [("waits", "slow")], f"--dry-run: {got}")
    second = Applying(stage)
    wait_for(lambda: "slow" in second.told().out + second.told().said, lambda: f"it does not say that it waits: {second.told()}")
    check(not second.is_over(), f"it does not wait: {second.told()}")
    make(stage.at("go"))
    got = second.ends()
    check(got.status == 0, f"it ended so: {got}")
    has_loaded(stage, "slow", new)
    running(launcher, "slow")


# ---- what a run leaves running

def variable_of(pid, name="JOBD_RUN"):
    """The value of the variable in a process's environment, or None. The first one counts."""
    with open(f"/proc/{pid}/environ", "rb") as file:
        found = [entry.partition(b"=")[2] for entry in file.read().split(b"\0") if entry.startswith(name.encode() + b"=")]
    return found[0].decode() if found else None


def began_of(pid):
    """When the process began, in ticks since the boot."""
    return text_at(f"/proc/{pid}/stat").rpartition(") ")[2].split()[19]


def leaving(stage, label="www"):
    """A job whose shell waits for its program: TERM ends the shell alone."""
    return shell_job(label, f"sleep 1000 & echo $! >{stage.at(label)}.left.new; mv {stage.at(label)}.left.new {stage.at(label)}.left; wait", KeepAlive=True, ThrottleInterval=0)


def left_by(stage, label="www"):
    """The program that the run started, once it is one."""
    left = int(wait_for(lambda: text_at(stage.at(f"{label}.left")).strip(), "the program does not start"))
    wait_for(lambda: text_at(f"/proc/{left}/comm") == "sleep\n", "the program does not run")
    return left


def is_there(pid):
    """Whether the process runs. One that ended stays until this process has waited for it."""
    return text_at(f"/proc/{pid}/stat").rpartition(") ")[2][:1] not in ("", "Z", "X")


def a_run_has_its_name(stage):
    """JOBD_RUN has the launcher's PID and start, the label and the run; what the definition says of the variable wins."""
    launcher = begin(stage)
    launcher.load(kept("org.example.web"))
    launcher.load(kept("own", EnvironmentVariables={"JOBD_RUN": "mine", "OTHER": "1"}))
    name = f"{launcher.pid}.{began_of(launcher.pid)}"

    def named(pid, other="JOBD_RUN"):
        """What it has once it is the job's program, and another variable. While a process becomes another program it has none, and before that the launcher's."""

        def found():
            both = (variable_of(pid), variable_of(pid, other))
            return None not in both and both

        return wait_for(found, "it has no name")

    first = running(launcher, "org.example.web")
    check(named(first)[0] == f"{name}/org.example.web/1", f"its name: {variable_of(first)}")
    own = running(launcher, "own")
    check(named(own, "OTHER") == ("mine", "1"), f"its own value: {variable_of(own)}")
    os.kill(first, 9)
    second = wait_for(lambda: pid_of(launcher, "org.example.web") not in (None, first) and pid_of(launcher, "org.example.web"), "it is not started again")
    check(named(second)[0] == f"{name}/org.example.web/2", f"the name of its second run: {variable_of(second)}")


def what_a_run_left_behind_is_named(stage):
    """A shell that waits for its program is ended alone: the program goes on, and apply names it. What runs rightly is not named."""
    launcher = begin(stage)
    put(stage, "www.json", leaving(stage))
    put(stage, "other.json", kept("other"))
    in_effect(apply(stage), ("new", "other"), ("new", "www"))
    left, first = left_by(stage), pid_of(launcher, "www")
    put(stage, "www.json", kept("www"))
    put(stage, "other.json", kept("other", "two"))
    try:
        got = apply(stage)
        check(got.status == 0 and got.words() == [("changed", "other"), ("changed", "www")], f"{got}")
        check(not is_there(first) and is_there(left), "the shell was not ended alone")
        named = [row for row in got.said.splitlines() if "still runs" in row]
        check(named == [f"jobctl: apply: process {left} (sleep) of run 1 of www still runs"], f"what is left: {got}")
        os.unlink(stage.at("jobs/www.json"))
        got = apply(stage, "--prune", "jobs")
        check(got.status == 0 and f"process {left} (sleep) of run 1 of www still runs" in got.said, f"what is left of a job that is pruned: {got}")
    finally:
        end_process(left)


def what_an_unload_left_is_named(stage):
    """`unload` names it, and `why` does, of a job that is loaded again and of a label that is not."""
    launcher = begin(stage)
    status = stage.at("standing/status.jsonl")
    launcher.load(leaving(stage))
    launcher.load(kept("other"))
    left = left_by(stage)
    try:
        got = stage.jobctl(["unload", "www"])
        check((got.returncode, got.stdout) == (0, ""), f"unload: {got}")
        check(got.stderr == f"jobctl: process {left} (sleep) of run 1 of www still runs\n", f"what unload says: {got}")
        got = stage.jobctl(["unload", "other"])
        check((got.returncode, got.stdout, got.stderr) == (0, "", ""), f"an unload that leaves nothing: {got}")

        def of(label, *words):
            return asked(stage, status, "why", *words, label)

        wait_for(lambda: f"Process {left} (sleep) of run 1 of www, which is not loaded, still runs." in of("www")[1], lambda: f"of a label that is not loaded: {of('www')}")
        launcher.load(kept("www"))
        pid = running(launcher, "www")
        wait_for(lambda: f"  Process {left} (sleep) of its run 1 still runs.\n" in of("www")[1], lambda: f"of a job that is loaded: {of('www')}")
        check(str(pid) not in "".join(row for row in of("www")[1].splitlines(True) if "still runs" in row), f"its own run is named: {of('www')}")
        rows = [row for row in map(json.loads, of("www", "--json")[1].splitlines()) if row.get("state") == "left_running"]
        check([(row["label"], row["pid"], row["program"], row["run"]) for row in rows] == [("www", left, "sleep", 1)], f"as JSON: {of('www', '--json')}")
    finally:
        end_process(left)
    wait_for(lambda: not is_there(left), "the program does not end")
    check("still runs" not in asked(stage, status, "why")[1], "what has ended is named")


def jobd_group_ends_all(stage):
    """Behind jobd-group the TERM of an unload reaches the program that a shell waits for, and the wrapper waits for it. After a KILL of the wrapper it is named."""
    launcher = begin(stage)
    group = os.path.join(HERE, "../../contrib/jobd-group")
    job = leaving(stage)
    job["ProgramArguments"] = ["/bin/sh", group, *job["ProgramArguments"]]
    launcher.load(job)
    left = left_by(stage)
    got = stage.jobctl(["unload", "www"])
    check((got.returncode, got.stdout, got.stderr) == (0, "", ""), f"unload: {got}")
    wait_for(lambda: not is_there(left), "the program is not ended")
    wait_for(lambda: not loaded(launcher), "the job does not go")
    os.unlink(stage.at("www.left"))
    launcher.load(job)
    left = left_by(stage)
    # What began in the hundredth of a second in which the next run begins is not named.
    time.sleep(0.05)
    try:
        os.kill(running(launcher, "www"), 9)
        wait_for(lambda: f"Process {left} (sleep) of its run 1 still runs." in asked(stage, stage.at("standing/status.jsonl"), "why", "www")[1], "what a KILL left is not named")
    finally:
        end_process(left)


def jobd_group_waits_for_all(stage):
    """jobd-group exits only once the last process of its group has ended, though the shell that it started ends at the TERM at once."""
    launcher = begin(stage)
    group, slow = os.path.join(HERE, "../../contrib/jobd-group"), stage.at("slow.says")
    program = f"trap 'sleep 0.7; echo over >{slow}; exit' TERM; echo runs >{slow}.new; mv {slow}.new {slow}; while :; do sleep 0.05; done"
    job = shell_job("slow", "", KeepAlive=True, ThrottleInterval=0)
    job["ProgramArguments"] = ["/bin/sh", group, "/bin/sh", "-c", 'sh -c "$0" & wait', program]
    launcher.load(job)
    wait_for(lambda: text_at(slow), "the slow program does not start")
    got = stage.jobctl(["unload", "slow"])
    check(got.returncode == 0, f"unload: {got}")
    wait_for(lambda: not loaded(launcher), "the job does not go")
    check(text_at(slow) == "over\n", "jobd-group exited before the program of its group")


# ---- one variable, and labels

def one_variable_is_enough(stage):
    """JOBD_SOCKET alone, and a launcher without a journal. The options may stand behind the paths, and `--` ends them."""
    launcher = begin(stage, journal=None)
    put(stage, "web.json", kept("web"))
    around = {key: value for key, value in os.environ.items() if not key.startswith("JOBD_")}

    def run(*words, **env):
        found = subprocess.run(
            [*stage.given.jobctl, "apply", *words], cwd=stage.folder, stdin=subprocess.DEVNULL, capture_output=True, text=True, timeout=patience(), env={**around, **env}
        )
        return Applied(found.returncode, found.stdout, found.stderr)

    only = {"JOBD_SOCKET": stage.at("socket")}
    in_effect(run("jobs", **only), ("new", "web"))
    check(loaded(launcher) == ["web"], f"loaded: {loaded(launcher)}")
    got = run("jobs", "--dry-run", **only)
    check(got.status == 0 and got.out.splitlines() == ["same      1 job"], f"an option behind the path: {got}")
    put(stage, f"{stage.folder}/-f.json", kept("-f"))
    in_effect(run("--", "-f.json", **only), ("new", "-f"))
    got = run("--help")
    check(got.status == 0 and "apply" in got.out and "--prune" in got.out and not got.said, f"--help: {got}")
    for words in ([], ["--no-such", "jobs"], ["--dry-run"]):
        got = run(*words, **only)
        check(got.status == 64 and not got.out, f"{words}: {got}")


def labels_that_nobody_has(stage):
    """A job whose file is gone is unloaded by its label; a label that is not loaded gets those near it named."""
    launcher = begin(stage)
    put(stage, "nginx.json", kept("nginx"))
    in_effect(apply(stage), ("new", "nginx"))
    shutil.rmtree(stage.at("jobs"))
    for word in ("enable", "disable"):
        got = stage.jobctl([word, "ngnix"])
        check(got.returncode == 0 and got.stdout == "" and "nginx" in got.stderr.replace("ngnix", ""), f"{word} of a label that nobody has: {got}")
    for word in ("start", "stop", "kickstart", "print"):
        got = stage.jobctl([word, "ngnix"])
        check(got.returncode == 3 and got.stdout == "" and "nginx" in got.stderr.replace("ngnix", ""), f"{word} of a label that nobody has: {got}")
    got = stage.jobctl(["disable", "nginx"])
    check(got.returncode == 0 and got.stdout == "" and "unload" in got.stderr, f"disable of a job that is loaded: {got}")
    got = stage.jobctl(["unload", "ngnix"])
    check(got.returncode == 65 and loaded(launcher) == ["nginx"], f"unload of what is no file and no job: {got}")
    got = stage.jobctl(["unload", "./nginx"])
    check(got.returncode == 65 and loaded(launcher) == ["nginx"], f"unload of a path that is no file: {got}")
    got = stage.jobctl(["unload", "nginx"])
    check(got.returncode == 0, f"unload by the label: {got}")
    wait_for(lambda: loaded(launcher) == [], "it is not unloaded")


# ---- between the look and the step

class Between:
    """A socket between `jobctl` and the launcher, at `between`: before each request is handed on, the function gets it. The launcher's places are beside it."""

    def __init__(self, stage, launcher, before):
        self.launcher, self.before = launcher, before
        self.listener = socket.socket(socket.AF_UNIX)
        self.listener.bind(stage.at("between"))
        self.listener.listen(16)
        shutil.copy(stage.at("socket.places"), stage.at("between.places"))
        os.chmod(stage.at("between.places"), 0o600)
        threading.Thread(target=self.go, daemon=True).start()

    def go(self):
        while True:
            client, _ = self.listener.accept()
            threading.Thread(target=self.serve, args=(client,), daemon=True).start()

    def serve(self, client):
        with client, connect(self.launcher.path) as on:
            on.settimeout(None)
            while True:
                line = read_line(client)
                if not line:
                    return
                self.before(json.loads(line))
                on.sendall(line + b"\n")
                client.sendall(read_line(on) + b"\n")


def a_start_between_the_look_and_the_step(stage):
    """A run that begins after the plan was made is not ended."""
    launcher = begin(stage)
    old = nightly(stage)
    put(stage, "backup.json", old)
    in_effect(apply(stage), ("new", "backup"))
    put(stage, "backup.json", nightly(stage, ExitTimeOut=7))
    seen = []

    def before(request):
        if request["req"] == "print" and not seen:
            launcher.ask({"req": "start", "job": "backup"})
            seen.append(running(launcher, "backup"))

    Between(stage, launcher, before)
    got = apply(stage, path="between")
    check(seen, f"it does not ask how the job stands before it unloads it: {got}")
    check(got.status == 2 and "backup" in got.out, f"{got}")
    unharmed(launcher, "backup", seen[0], got)
    has_loaded(stage, "backup", old)


def a_file_is_read_once(stage):
    """What was read is what is loaded, also if another file is in its place meanwhile."""
    launcher = begin(stage)
    put(stage, "web.json", kept("web", "one"))
    in_effect(apply(stage), ("new", "web"))
    two, three = kept("web", "two"), kept("web", "three")
    put(stage, "web.json", two)
    seen = []

    def before(request):
        if request["req"] in ("print", "unload") and not seen:
            put(stage, "web.json", three)
            seen.append(request)

    Between(stage, launcher, before)
    got = apply(stage, path="between")
    check(seen, f"it asks nothing before it unloads: {got}")
    check(got.status == 0 and got.words() == [("changed", "web")], f"{got}")
    has_loaded(stage, "web", two)
    in_effect(apply(stage), ("changed", "web"))
    has_loaded(stage, "web", three)


def files_that_are_replaced_all_the_time(stage):
    """Each apply sees a whole one of them, or says that it can't read it."""
    launcher = begin(stage)
    ones = [kept("web", f"n{number}") for number in range(4)]
    put(stage, "web.json", ones[0])
    in_effect(apply(stage), ("new", "web"))
    is_over = []

    def go():
        number = 0
        while not is_over:
            number += 1
            put(stage, "web.json", ones[number % 4])

    thread = threading.Thread(target=go, daemon=True)
    thread.start()
    try:
        for _ in range(10):
            got = apply(stage)
            check(got.status == 0 and got.words() in ([], [("changed", "web")]), f"{got}")
            check(loaded(launcher) == ["web"], f"loaded: {loaded(launcher)}")
    finally:
        is_over.append(True)
        thread.join()
    job_where(stage.at("standing/status.jsonl"), "web", lambda job: job["definition"] in [digest(it) for it in ones])


# ---- loads that are refused

def taken_port():
    """A port of this machine that somebody else listens at, and who."""
    other = socket.socket(socket.AF_INET)
    other.bind(("127.0.0.1", 0))
    other.listen(1)
    return other, other.getsockname()[1]


def at_port(label, port, **keys):
    return {
        "Label": label,
        "ProgramArguments": ["/bin/cat"],
        "inetdCompatibility": {"Wait": False},
        "Sockets": {"s": {"SockNodeName": "127.0.0.1", "SockServiceName": str(port), "SockFamily": "IPv4"}},
        **keys,
    }


def put_back(stage, launcher):
    old = kept("web")
    put(stage, "web.json", old)
    in_effect(apply(stage), ("new", "web"))
    first = running(launcher, "web")
    other, port = taken_port()
    with other:
        put(stage, "web.json", at_port("web", port))
        got = apply(stage)
        check(got.status == 11, f"the code of the refusal: {got}")
        told = got.out + got.said
        check("refused: 11" in told and "its previous definition is loaded again" in told, f"what is said of it: {got}")
        has_loaded(stage, "web", old)
        check(running(launcher, "web") != first, "the run of before goes on, so nothing was unloaded")
    in_effect(apply(stage), ("changed", "web"))
    has_loaded(stage, "web", at_port("web", port))


def a_taken_port(stage):
    """The load is refused after the unload: the definition of before is loaded again, from the journal."""
    put_back(stage, begin(stage))


def a_taken_port_without_a_journal(stage):
    """From the copy that an earlier apply kept."""
    put_back(stage, begin(stage, journal=None))


def a_job_that_stays_down_is_named(stage):
    """No journal, and no apply loaded it: nobody has the definition of before."""
    launcher = begin(stage, journal=None)
    launcher.load(kept("web"))
    running(launcher, "web")
    other, port = taken_port()
    with other:
        put(stage, "web.json", at_port("web", port))
        got = apply(stage)
        check(got.status == 11 and "DOWN" in got.out + got.said, f"{got}")
        check(loaded(launcher) == [], f"loaded: {loaded(launcher)}")
        got = apply(stage)
        check(got.status == 11, f"once more: {got}")
    in_effect(apply(stage), ("new", "web"))


def a_port_that_passes_on(stage):
    """What is unloaded for good is unloaded first."""
    launcher = begin(stage)
    other, port = taken_port()
    other.close()
    put(stage, "zz.json", at_port("zz", port))
    in_effect(apply(stage), ("new", "zz"))
    os.unlink(stage.at("jobs/zz.json"))
    put(stage, "aa.json", at_port("aa", port))
    in_effect(apply(stage, "--prune", "jobs"), ("orphan", "zz"), ("new", "aa"))
    check(loaded(launcher) == ["aa"], f"loaded: {loaded(launcher)}")


def a_disabled_label_is_left(stage):
    launcher = begin(stage)
    put(stage, "web.json", kept("web"))
    in_effect(apply(stage), ("new", "web"))
    pid = running(launcher, "web")
    launcher.ask({"req": "disable", "job": "web"})
    launcher.ask({"req": "disable", "job": "other"})
    put(stage, "web.json", kept("web", "two"))
    put(stage, "other.json", kept("other"))
    # (what --dry-run prints is by the status file alone)
    job_where(stage.at("standing/status.jsonl"), "web", lambda job: job["disabled"] == "override")
    for words in (["--dry-run"], [], ["--now"]):
        got = apply(stage, *words, "jobs")
        # (of a label that is not loaded only the load's refusal says that it is disabled)
        other = "new" if "--dry-run" in words else "disabled"
        check(got.status == 2 and sorted(got.words()) == sorted([(other, "other"), ("disabled", "web")]), f"{words}: {got}")
        unharmed(launcher, "web", pid, got)
    for label in ("web", "other"):
        launcher.ask({"req": "enable", "job": label})
    got = apply(stage)
    check(got.status == 0 and sorted(got.words()) == [("changed", "web"), ("new", "other")], f"enabled again: {got}")


def a_setting_that_the_status_file_lacks(stage):
    """The launcher can't write its status file, or is late with it: it is asked for the label's setting before the job is unloaded."""
    launcher = begin(stage)
    put(stage, "web.json", kept("web"))
    in_effect(apply(stage), ("new", "web"))
    pid = running(launcher, "web")
    has_loaded(stage, "web", kept("web"))
    os.chmod(stage.at("standing"), 0o500)
    try:
        launcher.ask({"req": "disable", "job": "web"})
        put(stage, "web.json", kept("web", "two"))
        # (so that the file counts as what the launcher would not write anew)
        time.sleep(1.5)
        got = apply(stage, "--now", "jobs")
    finally:
        os.chmod(stage.at("standing"), 0o700)
    check(got.status == 2 and got.words() == [("disabled", "web")], f"{got}")
    unharmed(launcher, "web", pid, got)


def a_definition_that_is_refused_leaves_its_job(stage):
    """Also beside others, which go on."""
    launcher = begin(stage)
    for label in ("a", "b"):
        put(stage, f"{label}.json", kept(label))
    in_effect(apply(stage), ("new", "a"), ("new", "b"))
    pid = running(launcher, "a")
    put(stage, "a.json", {**kept("a"), "StartInterval": 0})
    put(stage, "b.json", kept("b", "two"))
    for words in (["--dry-run"], [], ["--now", "--prune"]):
        got = apply(stage, *words, "jobs")
        check(got.status not in (0, 64, 65, 69), f"{words}: {got}")
        check("StartInterval" in got.rest("refused", "a"), f"{words}: {got}")
        unharmed(launcher, "a", pid, got)
    has_loaded(stage, "b", kept("b", "two"))


def a_launcher_that_shuts_down(stage):
    """Nothing is unloaded whose load is sure to be refused."""
    launcher = begin(stage)
    put(stage, "slow.json", stubborn(stage))
    in_effect(apply(stage), ("new", "slow"))
    wait_for(lambda: os.path.exists(stage.at("slow.minds")), "the job does not mind TERM")
    launcher.ask({"req": "shutdown"})
    put(stage, "web.json", kept("web"))
    put(stage, "slow.json", kept("slow", "new"))
    going = Applying(stage)
    got = going.ends()
    check(got.status == 2 and set(got.words()) == {("shutdown", "slow"), ("shutdown", "web")}, f"{got}")
    make(stage.at("go"))
    check(launcher.ends() == 0, "no clean end")


# ---- several applies, folders and launchers

def two_at_once(stage):
    """The second one waits for the first, says so, and then finds nothing to do."""
    launcher = begin(stage)
    put(stage, "slow.json", stubborn(stage))
    in_effect(apply(stage), ("new", "slow"))
    wait_for(lambda: os.path.exists(stage.at("slow.minds")), "the job does not mind TERM")
    new = kept("slow", "new")
    put(stage, "slow.json", new)
    first = Applying(stage, name="first")
    wait_for(lambda: os.path.exists(stage.at("slow.asked")), lambda: f"the job gets no TERM: {first.told()}")
    second = Applying(stage, name="second")
    wait_for(lambda: "waits for another apply" in second.told().said, lambda: f"it does not say that it waits: {second.told()}")
    check(not first.is_over() and not second.is_over(), f"one is over: {first.told()}; {second.told()}")
    make(stage.at("go"))
    in_effect(first.ends(), ("changed", "slow"))
    got = second.ends()
    in_effect(got)
    check(got.out == "same      1 job\n", f"the second one: {got}")
    has_loaded(stage, "slow", new)


def a_file_and_then_its_folder(stage):
    """What a file alone loaded is nobody's until its folder is applied."""
    launcher = begin(stage)
    for label in ("one", "two"):
        put(stage, f"{label}.json", kept(label))
        in_effect(apply(stage, f"jobs/{label}.json"), ("new", label))
    pids = {label: running(launcher, label) for label in ("one", "two")}
    os.unlink(stage.at("jobs/one.json"))
    got = apply(stage, "--prune", "jobs")
    in_effect(got)
    check(got.out == "same      1 job\n", f"{got}")
    for label, pid in pids.items():
        unharmed(launcher, label, pid, got)
    os.unlink(stage.at("jobs/two.json"))
    in_effect(apply(stage, "--prune", "jobs"), ("orphan", "two"))
    check(loaded(launcher) == ["one"], f"loaded: {loaded(launcher)}")


def prune_takes_only_what_the_folder_had(stage):
    """Not what was loaded by hand, nor what another folder has. Without --prune a job whose file is gone is named."""
    launcher = begin(stage)
    os.mkdir(stage.at("others"))
    put(stage, "mine.json", kept("mine"))
    put(stage, "stays.json", kept("stays"))
    put(stage, f"{stage.folder}/others/theirs.json", kept("theirs"))
    in_effect(apply(stage), ("new", "mine"), ("new", "stays"))
    in_effect(apply(stage, "others"), ("new", "theirs"))
    launcher.load(kept("hand"))
    check(not [name for name in os.listdir(stage.at("jobs")) if name not in ("mine.json", "stays.json")], f"something was written into the folder: {os.listdir(stage.at('jobs'))}")
    os.unlink(stage.at("jobs/mine.json"))
    got = apply(stage)
    check(got.status == 2 and got.words() == [("orphan", "mine")], f"without --prune: {got}")
    check(got.rest("orphan", "mine") == "its file was removed after the last apply of this folder: left (--prune unloads it)", f"its line: {got}")
    check(loaded(launcher) == ["hand", "mine", "stays", "theirs"], f"loaded: {loaded(launcher)}")
    got = apply(stage, "--dry-run", "--prune", "jobs")
    check(got.status == 0 and got.words() == [("orphan", "mine")] and "mine" in loaded(launcher), f"--dry-run: {got}")
    in_effect(apply(stage, "--prune", "jobs"), ("orphan", "mine"))
    check(loaded(launcher) == ["hand", "stays", "theirs"], f"loaded: {loaded(launcher)}")
    # The same folder by another name.
    os.symlink("jobs", stage.at("link"))
    os.unlink(stage.at("jobs/stays.json"))
    got = apply(stage, "--prune", f"{stage.folder}/jobs")
    check(loaded(launcher) == ["hand", "theirs"], f"the folder by its whole path: {got}; loaded: {loaded(launcher)}")


def prune_ends_no_run_of_the_calendar(stage):
    launcher = begin(stage)
    put(stage, "backup.json", nightly(stage))
    in_effect(apply(stage), ("new", "backup"))
    launcher.ask({"req": "start", "job": "backup"})
    pid = running(launcher, "backup")
    os.unlink(stage.at("jobs/backup.json"))
    got = apply(stage, "--prune", "jobs")
    check(got.status == 2 and got.words() == [("running", "backup")], f"{got}")
    unharmed(launcher, "backup", pid, got)
    in_effect(apply(stage, "--prune", "--now", "jobs"), ("orphan", "backup"))
    check(loaded(launcher) == [], f"loaded: {loaded(launcher)}")


def a_stale_status_file(stage):
    """That of a launcher that was killed tells nothing of the one that runs now; nor is there anything where no launcher keeps one."""
    launcher = begin(stage)
    put(stage, "web.json", kept("web"))
    in_effect(apply(stage), ("new", "web"))
    stale = shutil.copy(stage.at("standing/status.jsonl"), stage.at("stale.jsonl"))
    launcher.kill()
    got = apply(stage)
    check(got.status == 69 and not got.rows, f"a launcher that was killed: {got}")
    second = stage.serve(store="store2")
    got = apply(stage)
    check(got.status == 69 and "has no status file (JOBD_STATUS_FILE), so it is not known what is loaded" in got.said, f"a launcher without a status file: {got}")
    found = subprocess.run(
        apply_words(stage, ["jobs"]), cwd=stage.folder, stdin=subprocess.DEVNULL, capture_output=True, text=True, timeout=patience(),
        env={**os.environ, "JOBD_STATUS_FILE": stale},
    )
    check(found.returncode == 69 and not found.stdout, f"another launcher's status file: {found}")
    check(loaded(second) == [], f"loaded: {loaded(second)}")


def a_file_of_places_that_is_none(stage):
    """What is not a plain file, is too long or is no JSON is not taken for the launcher's places."""
    launcher = begin(stage)
    put(stage, "web.json", kept("web"))
    places = stage.at("socket.places")
    right = text_at(places)
    check(right.count("\n") == 1 and json.loads(right)["status_file"] == stage.at("standing/status.jsonl"), f"what it holds: {right!r}")
    for text in ("", "{", "[]", right.rstrip("\n") + " " * 5000 + "\n"):
        os.unlink(places)
        make(places, text)
        os.chmod(places, 0o600)
        got = apply(stage)
        check(got.status in (65, 69) and not got.rows and loaded(launcher) == [], f"{text[:20]!r}: {got}")
    os.unlink(places)
    os.mkfifo(places, 0o600)
    got = apply(stage)
    check(got.status in (65, 69) and loaded(launcher) == [], f"a FIFO: {got}")


# ---- its words and its lines

def everything_of(stage):
    """What a dry run leaves as it is: each file of the scene but those of the clock, with its bytes."""
    found = {}
    for at, _, names in os.walk(stage.folder):
        for name in names:
            path = os.path.join(at, name)
            if os.path.isfile(path) and "status.jsonl" not in name and not name.startswith("said"):
                with open(path, "rb") as file:
                    found[path] = file.read()
    # A clock reading is no request.
    journal = found.pop(stage.at("journal"), b"")
    found["requests"] = b"\n".join(line for line in journal.splitlines() if b'"ev":"load"' in line or b'"ev":"unload"' in line)
    found.pop(stage.at("socket.apply"), None)
    return found


def a_dry_run_changes_nothing(stage):
    """Its lines are those of the apply that comes after it."""
    launcher = begin(stage)
    for label in ("app", "gone", "same", "web"):
        put(stage, f"{label}.json", kept(label))
    check(apply(stage).status == 0, "no first apply")
    put(stage, "app.json", kept("www"))
    put(stage, "new.json", kept("new"))
    put(stage, "web.json", kept("web", "two", StandardOutPath=stage.at("out")))
    os.unlink(stage.at("jobs/gone.json"))
    pids = {label: running(launcher, label) for label in ("app", "gone", "same", "web")}
    before = everything_of(stage)
    plan = apply(stage, "--dry-run", "--prune", "jobs")
    check(plan.status == 0 and plan.words(), f"the plan: {plan}")
    check(everything_of(stage) == before, f"something was written: {plan}")
    for label, pid in pids.items():
        unharmed(launcher, label, pid, plan)
    done = apply(stage, "--prune", "jobs")
    check(done.out == plan.out and done.status == 0, f"{done}, and not {plan}")
    check(loaded(launcher) == ["new", "same", "web", "www"], f"loaded: {loaded(launcher)}")
    check("same      1 job\n" == done.out.splitlines(True)[-1], f"the last line: {done}")
    check(done.rest("changed", "web").startswith("ProgramArguments, StandardOutPath"), f"the keys that changed: {done}")
    in_effect(apply(stage, "--prune", "jobs"))


def lines_of_the_plan(stage):
    """The form of each line, and its words."""
    launcher = begin(stage)
    for label in ("app", "gone", "mail", "same"):
        put(stage, f"{label}.json", kept(label))
    check(apply(stage).out.splitlines()[-1] == "same      0 jobs", "the first apply")
    for name in ("a.json", "b.json"):
        put(stage, name, kept("api"))
    put(stage, "app.json", kept("www"))
    put(stage, "db.json", '{\n  "Label": "db"\n  "KeepAlive": true\n}\n')
    put(stage, "deploy.json", kept("deploy"), mode=0o664)
    put(stage, "mail.json", kept("mail", StandardOutPath=stage.at("out"), ThrottleInterval=1))
    put(stage, "new.json", kept("new"))
    put(stage, "same-old.json", kept("same", "old"))
    os.unlink(stage.at("jobs/gone.json"))
    got = apply(stage, "--dry-run", "jobs")
    rows = got.out.splitlines()
    for row in (
        "new       new        load new.json",
        "changed   mail       StandardOutPath, ThrottleInterval: unload, load",
        "renamed   app -> www the same definition under another label: unload app, load www",
        "twice     same       same.json is used; same-old.json is ignored",
        "twice     api        a.json and b.json both name it: left",
        "orphan    gone       its file was removed after the last apply of this folder: left (--prune unloads it)",
    ):
        check(row in rows, f"no line {row!r}: {got}")
    for form in (r"unread    db\.json    line 3, column 3: .*: nothing of this folder is pruned", r"at boot   deploy     jobd-run would leave deploy\.json out: .*"):
        check(any(re.fullmatch(form, row) for row in rows), f"no line {form!r}: {got}")
    check(rows[-1] == "same      1 job" and len(rows) == 9, f"the last line: {got}")
    check(loaded(launcher) == ["app", "gone", "mail", "same"], f"loaded: {loaded(launcher)}")


def an_apply_as_soon_as_the_launcher_is_ready(stage):
    """What it has loaded is known by then, or is waited for."""
    os.umask(0o022)
    os.mkdir(stage.at("jobs"))
    put(stage, "web.json", kept("web"))
    launcher = begin(stage, is_waited=False)
    in_effect(apply(stage), ("new", "web"))
    check(loaded(launcher) == ["web"], f"loaded: {loaded(launcher)}")


def lines_of_json(stage):
    launcher = begin(stage)
    put(stage, "web.json", kept("web"))
    put(stage, "same.json", kept("same"))
    in_effect(apply(stage), ("new", "same"), ("new", "web"))
    put(stage, "web.json", kept("web", "two"))
    put(stage, "bad.json", "{")
    for words, done in ((["--dry-run"], False), ([], True)):
        got = apply(stage, *words, "--json", "jobs")
        check(got.status == 65, f"{words}: {got}")
        rows = [json.loads(line) for line in got.out.splitlines()]
        steps = {(row["step"], row["label"]): row for row in rows[:-1]}
        check(set(steps) == {("changed", "web"), ("unread", "bad")}, f"{words}: {got}")
        check(all(set(row) >= {"step", "label", "file", "keys", "reason", "done"} for row in rows[:-1]), f"the keys of a line: {got}")
        web, bad = steps["changed", "web"], steps["unread", "bad"]
        check(web["file"].endswith("web.json") and web["keys"] == ["ProgramArguments"] and web["done"] is done, f"{words}: {web}")
        check(bad["file"].endswith("bad.json") and bad["done"] is False and bad["reason"], f"{words}: {bad}")
        # Of a dry run: whether something would.
        check(rows[-1] == {"same": 1, "changed": True}, f"the last line: {rows[-1]}")
    put(stage, "bad.json", kept("bad"))
    got = apply(stage, "--json", "jobs")
    check(got.status == 0 and json.loads(got.out.splitlines()[-1]) == {"same": 2, "changed": True}, f"{got}")
    got = apply(stage, "--json", "jobs")
    check(got.status == 0 and [json.loads(line) for line in got.out.splitlines()] == [{"same": 3, "changed": False}], f"{got}")
    check(loaded(launcher) == ["bad", "same", "web"], f"loaded: {loaded(launcher)}")


def strict_heeds_a_warning(stage):
    """A warning of one file keeps all steps from being done; without --strict it is only said."""
    launcher = begin(stage)
    put(stage, "web.json", kept("web"))
    put(stage, "gone.json", kept("gone"))
    in_effect(apply(stage), ("new", "gone"), ("new", "web"))
    pid = running(launcher, "web")
    os.unlink(stage.at("jobs/gone.json"))
    put(stage, "web.json", kept("web", "two"))
    put(stage, "spelt.json", {"Label": "spelt", "Program": "/bin/true", "Keepalive": True})
    for words in (["--strict", "--prune"], ["--strict", "--prune", "--now"], ["--dry-run", "--strict", "--prune"]):
        got = apply(stage, *words, "jobs")
        check(got.status == 2 and {word for word, _ in got.words()} == {"warned"}, f"{words}: {got}")
        check({label for _, label in got.words()} == {"gone", "spelt", "web"}, f"{words}: {got}")
        check("Keepalive" in got.out + got.said, f"{words}: the warning: {got}")
        check(loaded(launcher) == ["gone", "web"], f"{words}: loaded: {loaded(launcher)}")
        unharmed(launcher, "web", pid, got)
    got = apply(stage, "--prune", "jobs")
    check(got.status == 0 and loaded(launcher) == ["spelt", "web"], f"without --strict: {got}")
    check("Keepalive" in got.out + got.said, f"the warning: {got}")
    # What is the same has no step, so its warning keeps nothing back.
    put(stage, "web.json", kept("web", "three"))
    in_effect(apply(stage, "--strict", "jobs"), ("changed", "web"))


def blanks_are_no_change(stage):
    launcher = begin(stage)
    definition = kept("web")
    put(stage, "web.json", json.dumps(definition, indent=4, sort_keys=True))
    in_effect(apply(stage), ("new", "web"))
    pid = running(launcher, "web")
    put(stage, "web.json", json.dumps(dict(reversed(definition.items()))))
    got = apply(stage, "--now", "jobs")
    in_effect(got)
    unharmed(launcher, "web", pid, got)
    has_loaded(stage, "web", definition)


def statuses_of_apply(stage):
    """Each status that it has, from the fault that has it."""
    got = apply(stage)
    check(got.status == 69 and not got.out, f"no launcher: {got}")
    launcher = begin(stage)
    got = apply(stage)
    check(got.status == 0 and not got.words(), f"a folder without a definition: {got}")
    got = apply(stage, "jobs", "nowhere.json")
    check(got.status == 65, f"a file that is not there: {got}")
    put(stage, "web.json", kept("web"))
    in_effect(apply(stage), ("new", "web"))
    other, port = taken_port()
    with other:
        put(stage, "port.json", at_port("port", port))
        got = apply(stage)
        check(got.status == 11 and loaded(launcher) == ["web"], f"a load that is refused: {got}")
    in_effect(apply(stage), ("new", "port"))
    os.mkfifo(stage.at("jobs/fifo.json"))
    got = apply(stage)
    check(got.status == 65 and [word for word, _ in got.words()] == ["unread"], f"a FIFO: {got}")
    os.unlink(stage.at("jobs/fifo.json"))
    with open(os.path.join(stage.at("jobs"), "latin.json"), "wb") as file:
        file.write(b'{"Label":"latin","Program":"\xe9"}')
    got = apply(stage)
    check(got.status == 65 and [word for word, _ in got.words()] == ["unread"], f"what is no UTF-8: {got}")


SCENES = [
    a_missing_comma_ends_nothing,
    a_change_of_the_calendar_leaves_the_run,
    wait_waits_for_the_end_of_a_run,
    now_ends_a_run,
    the_file_named_for_a_label_decides,
    a_label_that_changed_is_moved,
    what_a_boot_would_leave_out_is_not_loaded,
    a_replacement_waits_as_long_as_the_old_job_has,
    an_apply_that_was_killed_is_taken_up,
    a_run_has_its_name,
    what_a_run_left_behind_is_named,
    what_an_unload_left_is_named,
    jobd_group_ends_all, jobd_group_waits_for_all,
    one_variable_is_enough,
    labels_that_nobody_has,
    a_start_between_the_look_and_the_step,
    a_file_is_read_once,
    files_that_are_replaced_all_the_time,
    a_taken_port,
    a_taken_port_without_a_journal,
    a_job_that_stays_down_is_named,
    a_port_that_passes_on,
    a_disabled_label_is_left,
    a_setting_that_the_status_file_lacks,
    a_definition_that_is_refused_leaves_its_job,
    a_launcher_that_shuts_down,
    two_at_once,
    a_file_and_then_its_folder,
    prune_takes_only_what_the_folder_had,
    prune_ends_no_run_of_the_calendar,
    a_stale_status_file,
    a_file_of_places_that_is_none,
    a_dry_run_changes_nothing,
    lines_of_the_plan,
    an_apply_as_soon_as_the_launcher_is_ready,
    lines_of_json,
    strict_heeds_a_warning,
    blanks_are_no_change,
    statuses_of_apply,
]
