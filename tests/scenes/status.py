"""Scenes of the launcher's own file on how it stands (`JOBD_STATUS_FILE`): what it holds, that it is always whole, and where it is refused.

`play.py` plays them; `harness.py` has what all scenes share.
"""
import hashlib
import json
import os
import re
import resource
import shutil
import signal
import stat
import subprocess
import time

from harness import BOUND, bytes_at, check, end_process, make, patience, sees_all, shell_job, text_at, wait_for

MISSING = "cannot start /nonexistent/prog: No such file or directory (os error 2)"


def serve(stage, path=None, **how):
    """A launcher with the variable, and the path of its file."""
    os.makedirs(stage.at("standing"), mode=0o700, exist_ok=True)
    path = path or stage.at("standing/status.jsonl")
    return stage.serve(env={"JOBD_STATUS_FILE": path}, **how), path


def told(path):
    """The launcher's part of the file, and those of the jobs by their labels. Every line has to be whole."""
    text = text_at(path)
    if not text:
        return None
    check(text.endswith("\n"), f"the file ends in the midst of a line: {text[-80:]!r}")
    first, *rest = [json.loads(line) for line in text.splitlines()]
    jobs = [line["job"] for line in rest]
    labels = [job["label"] for job in jobs]
    check(labels == sorted(labels, key=str.encode), f"the labels are not in order: {labels}")
    check(first["launcher"]["jobs"] == len(jobs), f"it counts {first['launcher']['jobs']} jobs: {labels}")
    return first["launcher"], dict(zip(labels, jobs))


def job_where(path, label, fact):
    """The job's part of the file, once the fact holds of it."""
    def found():
        both = told(path)
        job = both and both[1].get(label)
        return job if job and fact(job) else None
    return wait_for(found, lambda: f"of {label} the file does not come to tell what it should: {text_at(path)!r}")


def began(pid):
    """Field 22 of its stat."""
    return int(text_at(f"/proc/{pid}/stat").rpartition(")")[2].split()[19])


def what_a_status_file_holds(stage):
    """A launcher, a job that runs, one that the system refused to start, one that ended, a disabled one, one of the calendar, one that waits for a path,
    and one that is gone."""
    launcher, path = serve(stage, journal="journal")
    first, jobs = wait_for(lambda: told(path), "no file is written at the start")
    check(not jobs, f"jobs before any was loaded: {jobs}")
    check(first["pid"] == launcher.pid and first["began"] == began(launcher.pid), f"another process: {first}")
    check(first["jobs"] == 0, f"its count of jobs: {first}")
    check(first["journal"] == "open" and first["journal_reason"] is None and first["store"] is None, f"its journal and store: {first}")
    check(first["failed_calls"] == 0, f"its failed calls: {first}")
    check(first["shutting_down"] is False, f"it is shutting down: {first}")
    header = json.loads(first["header"])
    check(header["overrides"] == {} and header["zone"] == "UTC0", f"its header: {header}")
    check(abs(first["at"]["wall"] - time.time()) < BOUND, f"its moment: {first['at']}")
    check(stat.S_IMODE(os.stat(path).st_mode) == 0o600, f"its mode: {oct(os.stat(path).st_mode)}")
    beside = set(os.listdir(stage.at("standing")))
    check(beside <= {"status.jsonl", "status.jsonl.lock", "status.jsonl.new"}, f"beside it stand {beside}")

    launcher.load(shell_job("runs", "exec sleep 600", KeepAlive=True))
    job = job_where(path, "runs", lambda job: job["state"] == "running")
    check(job["pid"] == job["reasons"]["child"]["pid"] and os.path.exists(f"/proc/{job['pid']}"), f"its process: {job}")
    check(job["run"] == 1 and job["starts"] == 1 and job["failures"] == 0 and job["last_end"] is None, f"its runs: {job}")
    check(job["reasons"]["wants"]["keep_alive"] is True and job["disabled"] is None, f"what wants it: {job}")
    check(job["since"] == job["started"] and job["started"]["wall"] >= first["at"]["wall"], f"since when: {job}")

    launcher.load({"Label": "refused", "ProgramArguments": ["/nonexistent/prog"], "RunAtLoad": True, "ThrottleInterval": 1})
    job = job_where(path, "refused", lambda job: job["refused"] and job["refused"]["run"] >= 2 and job["refused"]["reason"])
    check(job["refused"]["reason"] == MISSING, f"the system's reason: {job['refused']}")
    check(job["failures"] == job["starts"] == job["run"] == job["refused"]["run"], f"its counts: {job}")
    check(job["demand"] == "load" and job["reasons"]["wants"]["demand"] is True and job["state"] == "idle", f"what wants it: {job}")
    check(job["reasons"]["throttled_until"] == job["moments"]["spawn"] is not None, f"its throttle: {job}")

    launcher.load(shell_job("ended", "exit 3", RunAtLoad=True, ThrottleInterval=1))
    job = job_where(path, "ended", lambda job: job["last_end"])
    end = job["last_end"]
    check(end["run"] == 1 and end["code"] == 3 and "signal" not in end and end["ordered"] is False, f"its end: {end}")
    check(end["began"]["up"] <= end["ended"]["up"] and job["since"] == end["ended"], f"its moments: {job}")
    check(job["failures"] == 1 and job["pid"] is None and job["state"] == "idle", f"its counts: {job}")
    launcher.ask({"req": "kickstart", "job": "ended", "k": False})
    job_where(path, "ended", lambda job: job["starts"] == 2 and job["failures"] == 2)

    launcher.ask({"req": "disable", "job": "runs"})
    job_where(path, "runs", lambda job: job["disabled"] == "override" and job["state"] == "running")
    reply = launcher.ask({"req": "load", "def": json.dumps(shell_job("forced", "exec sleep 600", Disabled=True)), "F": True})
    check(reply["code"] == 0, f"a forced load got {reply}")
    job_where(path, "forced", lambda job: job["disabled"] == "definition" and job["state"] == "idle" and not job["reasons"]["wants"]["demand"])

    launcher.load(shell_job("calendar", "exit 0", StartCalendarInterval=[{"Hour": 3, "Minute": 30, "Weekday": 0}, {"Day": 1}]))
    job = job_where(path, "calendar", lambda job: True)
    check(job["calendar"] == [[30, 3, None, 0, None], [None, None, 1, None, None]], f"its entries: {job['calendar']}")

    flag = stage.at("flag")
    launcher.load(shell_job("kept", "exec sleep 600", KeepAlive={"PathState": {flag: True}}))
    job = job_where(path, "kept", lambda job: True)
    keys = job["keys"]
    check(job["path"] is None and keys["path_state"] == 1 and keys["path_exists"] is None, f"its path: {job}")
    check(keys["first_condition"] == flag and keys["first_exists"] is True and keys["watch_paths"] == 0, f"its condition: {job}")
    make(flag)
    job = job_where(path, "kept", lambda job: job["path"])
    check(job["path"] == flag and job["keys"]["path_exists"] is True and job["reasons"]["wants"]["path_state"], f"its path: {job}")

    launcher.ask({"req": "unload", "job": "ended"})
    wait_for(lambda: "ended" not in told(path)[1], "a job that is gone still stands there")
    launcher.load(shell_job("ended", "exit 0"))
    job = job_where(path, "ended", lambda job: True)
    check(job["starts"] == 0 and job["last_end"] is None, f"what was heard of another load: {job}")

    launcher.ask({"req": "stop", "job": "runs"})
    job = job_where(path, "runs", lambda job: job["last_end"])
    check(job["last_end"].get("signal") == 15, f"its end: {job['last_end']}")
    launcher.shut_down()
    check(told(path)[0]["shutting_down"] is True, f"it does not say that it is shutting down: {told(path)[0]}")
    check(sorted(os.listdir(stage.at("standing"))) == ["status.jsonl"], f"after the end there is {os.listdir(stage.at('standing'))}")


def digest(definition):
    """The SHA-256 of a definition with its keys in the order of their bytes and no blanks."""
    text = json.dumps(definition, sort_keys=True, separators=(",", ":"), ensure_ascii=False)
    return hashlib.sha256(text.encode()).hexdigest()


def which_definition_is_loaded(stage):
    """Its digest is told: blanks and the order of keys don't matter, each value does. A label that is loaded anew has that of its new definition, a setting
    changes none, and a load that is refused leaves it."""
    launcher, path = serve(stage)
    first = {"Label": "a", "ProgramArguments": ["/bin/true", "\u00e9\n"], "ExitTimeOut": 7}
    for text in (json.dumps(first, indent=3), json.dumps(dict(reversed(list(first.items()))), ensure_ascii=False)):
        reply = launcher.ask({"req": "load", "def": text, "w": False, "F": False})
        check(reply["code"] == 0, f"it is not loaded: {reply}")
        job = job_where(path, "a", lambda job: job["definition"])
        check(job["definition"] == digest(first), f"its digest is {job['definition']}, not {digest(first)}")
        refused = launcher.ask({"req": "load", "def": json.dumps({**first, "ExitTimeOut": 8}), "w": False, "F": False})
        check(refused["code"] != 0, f"a label is loaded twice: {refused}")
        launcher.ask({"req": "disable", "job": "a"})
        job = job_where(path, "a", lambda job: job["disabled"] == "override")
        check(job["definition"] == digest(first), f"after a setting its digest is {job['definition']}")
        launcher.ask({"req": "enable", "job": "a"})
        launcher.ask({"req": "unload", "job": "a", "w": False})
    second = {**first, "ExitTimeOut": 8}
    launcher.load(second)
    launcher.load({"Label": "b", "Program": "/bin/true"})
    job = job_where(path, "b", lambda job: job["definition"])
    check(job["definition"] == digest({"Label": "b", "Program": "/bin/true"}), f"that of b is {job['definition']}")
    job = job_where(path, "a", lambda job: job["definition"])
    check(job["definition"] == digest(second), f"that of the second definition is {job['definition']}")


def places_beside(stage):
    text = text_at(stage.at("socket.places"))
    return json.loads(text) if text else None


def what_tells_a_launchers_places(stage):
    """Beside its socket, for its user alone, from before its first answer to its end; it is written again where it was removed. After a KILL it stays, and
    names a process that is gone."""
    os.makedirs(stage.at("jobs"))
    path = stage.at("standing/status.jsonl")
    os.makedirs(stage.at("standing"), mode=0o700)
    launcher = stage.serve(env={"JOBD_STATUS_FILE": path, "JOBD_JOBS": stage.at("jobs")}, journal="journal")
    check(launcher.ask({"req": "list"})["code"] == 0, "no list")
    found = places_beside(stage)
    check(found, "there is no file beside the socket after the first answer")
    real = os.path.realpath(stage.folder)
    wanted = {"pid": launcher.pid, "began": began(launcher.pid), "journal": f"{real}/journal", "status_file": f"{real}/standing/status.jsonl"}
    wanted |= {"store": f"{real}/store", "spool": f"{real}/spool", "jobs": f"{real}/jobs"}
    check(found == wanted, f"it says {found}, not {wanted}")
    check(stat.S_IMODE(os.stat(stage.at("socket.places")).st_mode) == 0o600, "others may read it")
    os.unlink(stage.at("socket.places"))

    def again():
        launcher.ask({"req": "list"})
        return places_beside(stage)
    check(wait_for(again, "it is not written again") == wanted, "it says something else the second time")
    launcher.shut_down()
    check(not os.path.exists(stage.at("socket.places")), "it is left after an end in order")

    launcher = stage.serve(env={"JOBD_STATUS_FILE": "", "JOBD_JOBS": ""})
    check(launcher.ask({"req": "list"})["code"] == 0, "no list")
    found = places_beside(stage)
    check([found[key] for key in ("journal", "status_file", "jobs")] == [None] * 3, f"it names what there is not: {found}")
    launcher.kill()
    check(places_beside(stage)["pid"] == launcher.pid, "it does not name the launcher that was killed")
    launcher = stage.start(journal="socket.places")
    check(launcher.ends() == 8 and "it is where the launcher writes its places" in launcher.said(), f"a journal in its place: {launcher.said()}")


def a_journal_that_is_renamed(stage):
    """It is told once, and written on; a journal that is put back is watched again. Who closes it is told that alone."""
    launcher = stage.serve(journal="journal")
    moved = "it was renamed or removed; the launcher goes on writing to the same file"

    def says(count):
        def said():
            launcher.ask({"req": "list"})
            return len(launcher.lines(f"jobd: journal {stage.at('journal')}: {moved}")) >= count
        wait_for(said, lambda: f"it does not tell it: {launcher.said()!r}")
    launcher.load(shell_job("first", "exec sleep 600"))
    os.rename(stage.at("journal"), stage.at("old"))
    says(1)
    before = os.path.getsize(stage.at("old"))
    launcher.load(shell_job("second", "exec sleep 600"))
    wait_for(lambda: os.path.getsize(stage.at("old")) > before, "nothing more is written to it")
    check(not os.path.exists(stage.at("journal")), "another journal is made")
    os.rename(stage.at("old"), stage.at("journal"))
    # (it is seen there before it goes again: a second passes between two looks)
    end = time.monotonic() + 2.5
    while time.monotonic() < end:
        launcher.ask({"req": "list"})
        time.sleep(0.1)
    os.unlink(stage.at("journal"))
    says(2)
    launcher.shut_down()
    check(len(launcher.lines("jobd: journal ")) == 2, f"it says {launcher.said()!r}")


def a_closed_journal_and_labels_like_lines(stage):
    """A journal that can't be written on is told closed. The reason of a refused start is that of the job's own last one, also if a label reads like a line about
    another job."""
    launcher, path = serve(stage, journal="journal", shell="trap '' XFSZ")
    check(wait_for(lambda: told(path), "no file is written")[0]["journal"] == "open", "the journal is not told open")
    plain = make(stage.at("plain"))
    forged = "b: run 1: cannot start x: forged"
    for label, program in ((forged, "/nonexistent/prog"), ("b", plain)):
        launcher.load({"Label": label, "ProgramArguments": [program], "RunAtLoad": True, "ThrottleInterval": 1})
    denied = f"cannot start {plain}: Permission denied (os error 13)"
    for label, reason in ((forged, MISSING), ("b", denied)):
        job = job_where(path, label, lambda job: job["refused"] and job["refused"]["run"] >= 2)
        check(job["refused"]["reason"] == reason, f"the reason of {label!r}: {job['refused']}")
        check(job["refused"]["run"] == job["run"] and job["since"] == job["refused"]["at"], f"of another start: {job}")
    # What can be written beside a full journal is the status file, which is smaller.
    while os.path.getsize(stage.at("journal")) < 65536:
        launcher.ask({"req": "print", "job": "b"})
    limits = resource.prlimit(launcher.pid, resource.RLIMIT_FSIZE)
    resource.prlimit(launcher.pid, resource.RLIMIT_FSIZE, (os.path.getsize(stage.at("journal")), limits[1]))
    launcher.ask({"req": "list"})
    first = wait_for(lambda: told(path)[0]["journal"] == "closed" and told(path)[0], lambda: f"the journal is not told closed: {text_at(path)[:400]!r}")
    check(first["journal_reason"] and launcher.lines("jobd: journal"), f"why: {first['journal_reason']}; it said {launcher.said()!r}")
    # The status file goes on, so it says how jobs are now.
    around = {key: value for key, value in os.environ.items() if not key.startswith("JOBD_")}
    ran = subprocess.run([*stage.given.jobscope, "why", "b"], env={**around, "JOBD_SOCKET": stage.at("socket")}, capture_output=True, timeout=patience(), text=True)
    check(ran.returncode == 0 and "The launcher is running (PID" in ran.stdout and "Its journal is closed: " in ran.stdout and f": {denied}.\n" in ran.stdout,
          f"why with a closed journal: {ran}")
    launcher.shut_down()


def since_when_idle_jobs_are_as_they_are(stage):
    """A job without a start is as it is since its load, whenever the file is written next, and whatever other job had its number or left meanwhile."""
    launcher, path = serve(stage)
    wait_for(lambda: told(path), "no file is written")
    begun = time.monotonic()
    launcher.load(shell_job("a", "exec sleep 600", RunAtLoad=True))
    launcher.load(shell_job("b", "exec sleep 600"))
    loaded = time.monotonic() - begun
    first = job_where(path, "a", lambda job: job["state"] == "running")["since"]
    other = job_where(path, "b", lambda job: True)
    # (a pass has one clock reading, and the file of both is written a second after that of the first alone)
    most = loaded * 1000 + 150
    check(0 <= other["since"]["up"] - first["up"] <= most, f"loaded within {most:.0f} ms, it is so since {other['since']}, the first since {first}")
    check(other["started"] is None and other["last_end"] is None and other["starts"] == 0, f"what became of it: {other}")
    for _ in range(3):
        launcher.ask({"req": "unload", "job": "a"})
        wait_for(lambda: "a" not in told(path)[1], "it is not removed")
        launcher.load(shell_job("a", "exec sleep 600", RunAtLoad=True))
        job_where(path, "a", lambda job: job["starts"] == 1 and job["last_end"] is None)
    check(job_where(path, "b", lambda job: True)["since"] == other["since"], "it changed while others came and left")
    launcher.shut_down()


def the_first_job_is_there_at_once(stage):
    """The first job is in the file of the pass in which it was loaded, though the empty file is younger than a second."""
    launcher, path = serve(stage)
    wait_for(lambda: told(path), "no file is written")
    launcher.load(shell_job("first", "exec sleep 600"))
    wait_for(lambda: told(path)[1], "the job is not told")
    at, jobs = told(path)
    check(at["at"] == jobs["first"]["since"], f"it was loaded at {jobs['first']['since']}, and told at {at['at']}")
    launcher.shut_down()


def a_store_that_takes_settings_again(stage):
    """What the store refused is told until a later setting is stored; what stores none changes nothing of that."""
    launcher, path = serve(stage, shell="trap '' XFSZ")
    check(launcher.ask({"req": "disable", "job": "one"})["code"] == 0, "a setting of a sound disk is refused")
    limits = resource.prlimit(launcher.pid, resource.RLIMIT_FSIZE)

    def store_where(fact, what):
        return wait_for(lambda: told(path) and fact(told(path)[0]["store"]), lambda: f"{what}: {text_at(path)!r}")
    store_where(lambda store: store is None, "it tells a refusal before there was one")
    resource.prlimit(launcher.pid, resource.RLIMIT_FSIZE, (4096, limits[1]))
    check(launcher.ask({"req": "disable", "job": "two"})["code"] == 9, "a setting is stored on a full disk")
    resource.prlimit(launcher.pid, resource.RLIMIT_FSIZE, limits)
    store_where(lambda store: store, "it tells no refusal")
    launcher.load(shell_job("job", "exec sleep 600"))
    launcher.ask({"req": "start", "job": "job"})
    job_where(path, "job", lambda job: job["state"] == "running")
    check(told(path)[0]["store"], "a load and a start took it for mended")
    check(launcher.ask({"req": "enable", "job": "two"})["code"] == 0, "a mended disk takes no setting")
    store_where(lambda store: store is None, "a refusal stays told once a setting was stored")
    launcher.shut_down()


def a_closing_is_told_by_its_own_pass(stage):
    """The file of the pass in which the journal closes tells it closed: between the file before and that one is none that tells the event and an open journal."""
    launcher, path = serve(stage, journal="journal", shell="trap '' XFSZ")
    wait_for(lambda: told(path), "no file is written")
    launcher.load(shell_job("a", "exec sleep 600"))
    job_where(path, "a", lambda job: True)
    while os.path.getsize(stage.at("journal")) < 65536:
        launcher.ask({"req": "print", "job": "a"})
    for _ in range(2):
        before = told(path)[0]["at"]
        launcher.ask({"req": "list"})
        wait_for(lambda: told(path)[0]["at"] != before, "it is not written again")
    time.sleep(1.2)
    before = told(path)[0]
    check(before["journal"] == "open", f"the journal is {before['journal']}")
    limits = resource.prlimit(launcher.pid, resource.RLIMIT_FSIZE)
    resource.prlimit(launcher.pid, resource.RLIMIT_FSIZE, (os.path.getsize(stage.at("journal")), limits[1]))
    launcher.ask({"req": "start", "job": "a"})
    first = wait_for(lambda: told(path)[0]["at"] != before["at"] and told(path), "it is not written again")
    check(first[0]["journal"] == "closed" and first[1]["a"]["starts"] == 1, f"the file after the event: {first}")
    launcher.shut_down()


def who_may_read_a_status_file(stage):
    """The group that JOBD_STATUS_GROUP names by its number may read it, and what tells the places; the lock nobody else. One that this user may not give a file
    to is told, and the file is written without; a word that is no number names none."""
    groups = [group for group in os.getgroups() if group != os.getgid()]
    own = groups[0] if groups else os.getgid()
    path = stage.at("standing/status.jsonl")
    os.makedirs(stage.at("standing"), mode=0o700)
    launcher = stage.serve(env={"JOBD_STATUS_FILE": path, "JOBD_STATUS_GROUP": str(own)})
    launcher.load(shell_job("a", "exec sleep 600"))
    job_where(path, "a", lambda job: True)
    for name in (path, stage.at("socket.places")):
        data = os.stat(name)
        check(stat.S_IMODE(data.st_mode) == 0o640 and data.st_gid == own, f"{name}: {oct(data.st_mode)}, {data.st_gid}")
    check(stat.S_IMODE(os.stat(path + ".lock").st_mode) == 0o600, "others may read the lock")
    launcher.shut_down()
    for word, told in (("4000000", "Operation not permitted"), ("adm", "it is not the number of a group")):
        if word.isdigit() and os.geteuid() == 0:
            continue
        launcher = stage.serve(env={"JOBD_STATUS_FILE": path, "JOBD_STATUS_GROUP": word})
        launcher.load(shell_job(word, "exec sleep 600"))
        job_where(path, word, lambda job: True)
        data = os.stat(path)
        check(stat.S_IMODE(data.st_mode) == 0o600, f"with {word} its mode is {oct(data.st_mode)}")
        wait_for(lambda: told in launcher.said(), lambda: f"with {word} it says {launcher.said()!r}")
        launcher.shut_down()


def a_status_file_rests(stage):
    """While nothing changes nothing is written, and however much changes, at most once a second."""
    launcher, path = serve(stage)
    launcher.load(shell_job("runs", "exec sleep 600", RunAtLoad=True))
    job_where(path, "runs", lambda job: job["state"] == "running")
    time.sleep(1.5)
    before = os.stat(path).st_ino, text_at(path)
    time.sleep(2.5)
    check((os.stat(path).st_ino, text_at(path)) == before, "it was written although nothing changed")
    seen, begun = set(), time.monotonic()
    while (took := time.monotonic() - begun) < 2.2 or (len(seen) < 2 and took < BOUND):
        launcher.ask({"req": "start", "job": "runs"})
        seen.add(json.dumps(told(path)[0]["at"]))
    check(2 <= len(seen) <= took + 3, f"in {took:.1f} s of questions it was written {len(seen)} times")
    launcher.shut_down()


def a_large_status_file(stage):
    """A file of several pieces is whole whenever it is read, and after the end, while jobs start on and on."""
    launcher, path = serve(stage)
    for at in range(200):
        launcher.load(shell_job(f"job{at:03}", "exit 0", EnvironmentVariables={"NAME": "value"}))
    wait_for(lambda: len(told(path)[1]) == 200, "not all jobs are told")
    check(os.stat(path).st_size > 2 * 65_536, f"the file has {os.stat(path).st_size} bytes")
    seen, begun = set(), time.monotonic()
    while (took := time.monotonic() - begun) < 2.2 or (len(seen) < 2 and took < BOUND):
        launcher.ask({"req": "start", "job": "job199"})
        first, jobs = told(path)
        check(len(jobs) == 200, f"it tells {len(jobs)} jobs")
        seen.add(json.dumps(first["at"]))
    check(2 <= len(seen) <= took + 3, f"in {took:.1f} s of questions it was written {len(seen)} times")
    launcher.shut_down()
    told(path)
    check(not os.path.exists(f"{path}.new"), "a piece of a file is left at the end")


def a_killed_launcher_leaves_a_whole_file(stage):
    """A launcher is killed while it writes on and on: what is there is whole, and the next launcher takes over."""
    for _ in range(3):
        launcher, path = serve(stage)
        for at in range(20):
            launcher.load(shell_job(f"job{at}", "exec sleep 600", RunAtLoad=True))
        wait_for(lambda: len(told(path)[1]) == 20, "not all jobs are told")
        children = [job["pid"] for job in told(path)[1].values() if job["pid"]]
        launcher.kill()
        first, jobs = told(path)
        check(first["pid"] == launcher.pid and len(jobs) == 20, f"what a killed launcher left: {first}, {len(jobs)} jobs")
        for pid in children:
            end_process(pid)
    launcher, path = serve(stage)
    wait_for(lambda: told(path)[0]["pid"] == launcher.pid, "the next launcher does not write it")
    launcher.shut_down()


def status_files_that_are_other_places(stage):
    """A status file that is the file of another place, or is written or locked as one, is refused with that place's status, and that file is left."""
    launcher = stage.serve(store="kept", journal="records")
    for label in ("one", "two"):
        check(launcher.ask({"req": "disable", "job": label})["code"] == 0, "disable refused")
    # It is killed: its store's log has the settings, and the files of its locks are left.
    launcher.kill()
    os.symlink("kept", stage.at("link"))
    os.mkdir(stage.at("real"), 0o700)
    os.symlink("real", stage.at("way"))
    make(stage.at("spool/7-7.reply"))
    for name, status, places in (
        ("kept", 5, {}), ("kept-wal", 5, {}), ("kept-journal", 5, {}), ("kept-shm", 5, {}), ("link", 5, {}), ("./spool/../kept", 5, {}),
        ("records", 8, {}), ("socket", 6, {}), ("socket.lock", 6, {}), ("socket.places", 6, {}), ("spool/jobd.lock", 10, {}), ("spool/7-7.reply", 10, {}), ("spool/8-8.request", 10, {}),
        ("x", 5, {"store": "x.lock"}), ("x", 5, {"store": "x.new"}), ("x", 8, {"journal": "x.lock"}), ("x", 6, {"socket": "x.new"}),
        ("way/new", 5, {"store": "real/new"}), ("real/new-wal", 5, {"store": "way/new"}), ("way/new", 8, {"journal": "real/new"}), ("beside", 5, {}),
    ):
        if name == "beside":
            os.link(stage.at("kept"), stage.at("beside"))
        places = {"store": "kept", "journal": "records", **places}
        before = {it: bytes_at(stage.at(it)) for it in os.listdir(stage.folder) if os.path.isfile(stage.at(it)) and not it.startswith("said")}
        launcher = stage.start(env={"JOBD_STATUS_FILE": stage.at(name)}, **places)
        if launcher.is_ready():
            time.sleep(1.5)
        after = {it: bytes_at(stage.at(it)) for it in before if os.path.exists(stage.at(it))}
        changed = [it for it in before if after.get(it) != before[it]]
        check(not changed, f"with its status file at {name} a launcher changed {changed}; it said {launcher.said()!r}")
        check(not launcher.out, f"it serves with its status file at {name} beside {places}")
        ended = launcher.ends()
        check(ended == status and len(launcher.lines(f"jobd: status file {stage.at(name)}: it is ")) == 1, f"at {name}: {ended}, {launcher.said()!r}")
    os.remove(stage.at("beside"))
    launcher = stage.serve(env={"JOBD_STATUS_FILE": stage.at("real/status")}, store="kept", journal="records")
    launcher.shut_down()
    shown = stage.run(["overrides", "--store", "kept"]).stdout
    check([line.split("\t")[:2] for line in shown.splitlines()] == [["one", "disabled"], ["two", "disabled"]], f"the store has {shown!r}")
    for name in ("link", "way"):
        os.remove(stage.at(name))


def status_files_that_are_refused(stage):
    """A folder in which others may write, one that is not there, a file that can't be written, and a second launcher: each is told once, and the launcher
    goes on."""
    os.mkdir(stage.at("open"))
    os.chmod(stage.at("open"), 0o777)
    for path in (stage.at("open/status"), stage.at("nowhere/status")):
        launcher, _ = serve(stage, path)
        launcher.load(shell_job("runs", "exec sleep 600", RunAtLoad=True))
        launcher.tells("runs", "state = running")
        check(len(launcher.lines(f"jobd: status file {path}: ")) == 1, f"of {path} it said {launcher.said()!r}")
        check(not os.path.exists(path) and not os.path.exists(path + ".lock"), f"something was made at {path}")
        launcher.shut_down()

    status_files_that_are_other_places(stage)
    os.makedirs(stage.at("standing/status.jsonl"), mode=0o700, exist_ok=True)
    os.chmod(stage.at("standing"), 0o700)
    launcher, path = serve(stage)
    wait_for(lambda: launcher.lines(f"jobd: status file {path}: "), f"a folder at its place is not told, but {launcher.said()!r}")
    launcher.load(shell_job("runs", "exec sleep 600", RunAtLoad=True))
    time.sleep(2.5)
    check(len(launcher.lines("status file")) == 1, f"it is told again: {launcher.said()!r}")
    os.rmdir(path)
    wait_for(lambda: told(path), "it is not tried again")

    os.mkdir(stage.at("spool.second"), 0o700)
    second = stage.serve(env={"JOBD_STATUS_FILE": path}, socket="second", store="store.second", spool="spool.second")
    check(len(second.lines(f"jobd: status file {path}: another launcher holds it")) == 1, f"the second said {second.said()!r}")
    second.load(shell_job("other", "exec sleep 600", RunAtLoad=True))
    second.tells("other", "state = running")
    time.sleep(1.5)
    first, jobs = told(path)
    check(first["pid"] == launcher.pid and list(jobs) == ["runs"], f"the second wrote it: {first}, {list(jobs)}")
    second.shut_down()
    check(os.path.exists(path + ".lock"), "the second took the first one's lock away")
    launcher.shut_down()


# The families of a job's samples, by name: their kind, what they tell, and the value by the job's part of the file.
FAMILIES = {
    "jobd_job_running": ("gauge", "Whether a run of the job is running.", lambda job: int(job["pid"] is not None)),
    "jobd_job_starts_total": ("counter", "Starts that were ordered, including refused ones.", lambda job: job["starts"]),
    "jobd_job_failures_total": ("counter", "Runs that failed: they exited with a code above 0, or by a signal that the launcher did not give.", lambda job: job["failures"] - job["refusals"]),
    "jobd_job_refused_total": ("counter", "Starts that the system refused.", lambda job: job["refusals"]),
    "jobd_job_last_end_timestamp_seconds": (
        "gauge", "When the last run of the job exited.", lambda job: job["last_end"] and job["last_end"]["ended"]["wall"]),
}
FAILED_CALLS = "jobd_edge_failures_total"
NEXT = "jobd_job_next_start_timestamp_seconds"
NEXT_HEAD = f"# HELP {NEXT} When the job is scheduled to start next.\n# TYPE {NEXT} gauge\n"
# Those behind the next starts.
LATER = {
    "jobd_job_last_success_timestamp_seconds": (
        "gauge", "When a run of the job last exited with code 0.", lambda job: job["succeeded"] and job["succeeded"]["wall"]),
    "jobd_job_last_exit_code": (
        "gauge", "The exit code of the last run of the job, or 128 plus the signal that killed it.",
        lambda job: job["last_end"] and job["last_end"].get("code", 128 + job["last_end"].get("signal", 0))),
}
TAKEN = {
    "jobd_job_resident_bytes": ("gauge", "The resident memory of the process of the job."),
    "jobd_job_cpu_seconds_total": ("counter", "The processor time that the process of the job has used."),
}
LAST = {"jobd_job_disabled": ("gauge", "Whether the label of the job is disabled.", lambda job: int(job["disabled"] is not None))}


def samples(stage, path, now):
    """What `jobscope metrics` writes, as of this second."""
    command = [*stage.given.jobscope, "metrics", "--status-file", path, "--now", str(now)]
    ran = subprocess.run(command, capture_output=True, timeout=patience())
    check(ran.returncode == 0 and not ran.stderr, f"metrics ends with {ran.returncode}: {ran.stderr!r}")
    return ran.stdout.decode()


def wanted_samples(path, is_up):
    """All that is wanted before the next starts. Of the launcher's calls one failed, the start of `refused`."""
    text = ""
    for name, kind, help_text, value in (
        ("jobd_up", "gauge", "Whether the launcher is running.", int(is_up)),
        ("jobd_journal_open", "gauge", "Whether the journal of the launcher is open.", 1),
        ("jobd_status_timestamp_seconds", "gauge", "When the launcher wrote the status file.", int(os.stat(path).st_mtime)),
        (FAILED_CALLS, "counter", "Calls of the launcher for its jobs that failed since it began, as starts and path checks.", 1),
    ):
        text += f"# HELP {name} {help_text}\n# TYPE {name} {kind}\n{name} {value}\n"
    return text + families_of(FAMILIES, told(path)[1], is_up)


def families_of(families, jobs, is_up=True):
    """The samples of these families."""
    text = ""
    for name, (kind, help_text, value_of) in families.items():
        text += f"# HELP {name} {help_text}\n# TYPE {name} {kind}\n"
        for label, job in jobs.items():
            value = value_of(job) if is_up or name != "jobd_job_running" else 0
            if value is not None:
                quoted = "".join(quoted_char(c) for c in label)
                text += f'{name}{{label="{quoted}"}} {value}\n'
    return text


# Marks of direction: two of them.
HIDDEN = "\u200e\u200f"


def quoted_char(c):
    """A character of a label as a sample has it: by its number, if it is hidden."""
    return f"\\\\u{ord(c):04x}" if ord(c) < 32 or 126 < ord(c) < 160 or c in HIDDEN else "\\" + c if c in '"\\' else c


def check_later(path, text, running, label):
    """Checks what is behind the next starts: of what the process of the one running job takes only that it is there, and is what the kernel could say."""
    jobs = told(path)[1]
    front = families_of(LATER, jobs)
    check(text.startswith(front), f"the samples behind the next starts are {text!r}, wanted first {front!r}")
    text = text[len(front):]
    for name, (kind, help_text) in TAKEN.items():
        head = f"# HELP {name} {help_text}\n# TYPE {name} {kind}\n"
        check(text.startswith(head), f"{text!r} does not begin with {head!r}")
        text = text[len(head):]
        if running:
            row, _, text = text.partition("\n")
            found = re.fullmatch(re.escape(f'{name}{{label="{label}"}} ') + r"(\d+)", row)
            check(found and (int(found[1]) < 2 ** 31), f"{name} is {row!r}")
            check(int(found[1]) > 100_000 if name == "jobd_job_resident_bytes" else int(found[1]) < 60, f"{name} is {row!r}")
    check(text == families_of(LAST, jobs), f"the last samples are {text!r}")


def samples_of_a_status_file(stage):
    """A job that runs, whose label has a quote and a backslash, one that failed, one that is refused, one of the calendar, and two whose labels differ in a
    hidden character, of which one ends well; then the launcher is killed."""
    launcher, path = serve(stage, journal="journal")
    launcher.load(shell_job('a "b" \\c', "exec sleep 600", KeepAlive=True))
    launcher.load(shell_job("failed", "exit 3", RunAtLoad=True))
    launcher.load({"Label": "refused", "ProgramArguments": ["/nonexistent/prog"], "RunAtLoad": True, "ThrottleInterval": 3600})
    launcher.load(shell_job("hourly", "exit 0", StartCalendarInterval={"Minute": 0}))
    launcher.load(shell_job("twin\u200e", "exit 0", RunAtLoad=True))
    launcher.load(shell_job("twin\u200f", "exit 0"))
    job_where(path, 'a "b" \\c', lambda job: job["pid"])
    job_where(path, "twin\u200e", lambda job: job["succeeded"])
    job_where(path, "twin\u200f", lambda job: job["succeeded"] is None)
    job_where(path, "failed", lambda job: job["last_end"])
    job_where(path, "refused", lambda job: job["refused"] and job["refusals"] == job["failures"] == 1)
    job_where(path, "hourly", lambda job: True)

    def compared():
        """A second, the samples as of it, and what is wanted, all by one file: with a calendar it is written at each minute."""
        held, now = text_at(path), int(time.time())
        seen = now, samples(stage, path, now), wanted_samples(path, True)
        return seen if text_at(path) == held else None

    now, text, wanted = wait_for(compared, "the file does not rest")
    front, head, coming = text.partition(NEXT_HEAD)
    check(head and front == wanted, f"the samples are {text!r}, wanted {wanted!r}")
    at = coming.index(f"# HELP {next(iter(LATER))} ")
    check_later(path, coming[at:], True, 'a \\"b\\" \\\\c')
    coming = dict(line.rsplit(" ", 1) for line in coming[:at].splitlines())
    check('jobd_job_starts_total{label="twin\\\\u200e"} 1\n' in text and 'jobd_job_starts_total{label="twin\\\\u200f"} 0\n' in text, f"the twins: {text!r}")
    hourly, refused = (int(coming.pop(f'{NEXT}{{label="{label}"}}', 0)) for label in ("hourly", "refused"))
    check(hourly == (now // 3600 + 1) * 3600, f"the next hour is {hourly} at {now}")
    check(abs(refused - told(path)[1]["refused"]["started"]["wall"] - 3600) <= 1, f"the refused one starts at {refused}")
    check(not coming, f"others start: {coming}")

    launcher.kill()
    pid = told(path)[1]['a "b" \\c']["pid"]
    text = samples(stage, path, int(time.time()))
    front = wanted_samples(path, False) + NEXT_HEAD
    check(text.startswith(front), f"of a killed launcher the samples are {text!r}")
    check_later(path, text[len(front):], False, "")
    end_process(pid)


def failed_calls(stage, path):
    """How many calls of the launcher failed, by the samples of the file; None if they don't say it."""
    found = re.findall(rf"^{FAILED_CALLS} (\d+)$", samples(stage, path, int(time.time())), re.MULTILINE)
    check(len(found) < 2, f"it is counted {len(found)} times")
    return int(found[0]) if found else None


def calls_that_failed(stage):
    """Each start that the system refuses is one failed call, for whatever reason, and a start that goes well is none. The file of a launcher that does
    not write their number gives no sample."""
    launcher, path = serve(stage)
    wait_for(lambda: told(path), "no file is written at the start")
    check(failed_calls(stage, path) == 0, "calls fail before there is a job")
    launcher.load(shell_job("works", "exit 0", RunAtLoad=True))
    job_where(path, "works", lambda job: job["succeeded"])
    check(failed_calls(stage, path) == told(path)[0]["failed_calls"] == 0, f"a start that went well: {told(path)[0]}")
    launcher.load({"Label": "program", "ProgramArguments": ["/nonexistent/prog"], "RunAtLoad": True, "ThrottleInterval": 3600})
    job_where(path, "program", lambda job: job["refused"])
    check(failed_calls(stage, path) == told(path)[0]["failed_calls"] == 1, f"a program that is not there: {told(path)[0]}")
    launcher.load(shell_job("folder", "exit 0", RunAtLoad=True, ThrottleInterval=3600, StandardOutPath=stage.at("nowhere/out")))
    job_where(path, "folder", lambda job: job["refused"])
    check(failed_calls(stage, path) == told(path)[0]["failed_calls"] == 2, f"a folder that is not there: {told(path)[0]}")
    before = stage.at("standing/before.jsonl")
    make(before, text_at(path).replace('"failed_calls":2,"shutting_down":false,', ""))
    check("failed_calls" not in told(before)[0] and failed_calls(stage, before) is None, f"of version 0.3.0: {told(before)[0]}")
    launcher.shut_down()


def asked(stage, path, *words):
    """What `jobscope` writes by the file, and its status."""
    around = {key: value for key, value in os.environ.items() if key not in ("JOBD_JOURNAL", "COLUMNS")}
    command = [*stage.given.jobscope, *words]
    ran = subprocess.run(command, env={**around, "JOBD_STATUS_FILE": path, "COLUMNS": "200"}, capture_output=True, text=True, timeout=patience())
    return ran.returncode, ran.stdout, ran.stderr


def comes_to_say(stage, path, label, *parts):
    """`why` of the label comes to say each of these."""
    def found():
        status, text, _ = asked(stage, path, "why", label)
        return status == 0 and all(part in text for part in parts)
    wait_for(found, lambda: f"of {label} it does not come to say {parts}: {asked(stage, path, 'why', label)}")


def cells(stage, path):
    """The rows of the table by their labels, each as its cells. Lines on refused starts follow them, each with a colon after the label."""
    status, text, _ = asked(stage, path, "status")
    check(status == 0, f"status ended with {status}")
    lines = text.splitlines()
    at = next(place for place, line in enumerate(lines) if line.startswith("LABEL"))
    return {line.split()[0]: line.split() for line in lines[at + 1:] if not line.split()[0].endswith(":")}


def starting(stage, path):
    """The labels of the coming starts, and what is told beside them. Of `refused` there is none in the midst of a start."""
    status, text, error = asked(stage, path, "next")
    check(status == 0 and text.startswith("As of "), f"next ended with {status}: {text!r}, {error!r}")
    return {line.split("  ")[1] for line in text.splitlines() if "  in " in line}, error


def what_a_boot_left_out(stage):
    """What jobd-run writes beside the file: definitions that were not loaded, until they are, and a minute that passed before this launcher, until the job
    is started. That of another launcher says nothing."""
    launcher, path = serve(stage)
    first, _ = wait_for(lambda: told(path), "no file is written at the start")
    minute = (json.loads(first["header"])["wall"] // 60 - 1) * 60
    when = time.gmtime(minute)
    launcher.load(shell_job("missed", "exec sleep 600", StartCalendarInterval={"Hour": when.tm_hour, "Minute": when.tm_min}))
    job_where(path, "missed", lambda job: True)
    files = [{"path": "/etc/jobd/a.json", "label": None, "reason": "bad definition: NotJson -"}, {"path": "/etc/jobd/b.json", "label": "org.b", "reason": "no"}]

    def boot(since, pid=launcher.pid, *more):
        head = {"boot": {"pid": pid, "began": began(launcher.pid), "since": since, "loaded": int(time.time())}}
        make(path + ".boot", "".join(f"{line}\n" for line in [json.dumps(head), *map(json.dumps, files), *more]))

    missed = f"missed: {time.strftime('%H:%M:%S', when)} passed while no launcher ran"
    rows = ["/etc/jobd/a.json: not loaded at the boot: bad definition: NotJson -", "/etc/jobd/b.json: not loaded at the boot: no"]
    boot(minute - 1)
    status, text, error = asked(stage, path, "why", "--failing")
    check(status == 2 and text.splitlines()[1:] == ["Its status file was read.", missed, *rows] and not error, f"failing: {status}, {text!r}, {error!r}")
    status, text, error = asked(stage, path, "why", "--failing", "--json")
    objects = [json.loads(line) for line in text.splitlines()]
    check([it.get("fault") for it in objects] == ["minute_passed", None, None], f"faults: {objects}")
    check([it.get("file_label") for it in objects[1:]] == [None, "org.b"] and objects[1]["file"] == "/etc/jobd/a.json", f"files: {objects}")
    for word, row in (("a", rows[0]), ("/etc/jobd/b.json", rows[1]), ("org.b", rows[1]), ("b", rows[1])):
        status, text, error = asked(stage, path, "why", word)
        check(status == 0 and row in text and not error and (rows + rows)[rows.index(row) + 1] not in text, f"why {word}: {status}, {text!r}, {error!r}")
    check(asked(stage, path, "why", "c")[0] == 65, "a word that nothing has")
    check(asked(stage, path, "status")[1].splitlines()[-2:] == rows, "the table")
    check("\njobd_definitions_not_loaded 2\n" in samples(stage, path, int(time.time())), "the count")
    # The launcher before went on to that minute itself: then it took it.
    boot(minute)
    check(missed not in asked(stage, path, "why", "--failing")[1], "a minute of the launcher before")
    boot(None)
    check(missed not in asked(stage, path, "why", "--failing")[1], "no launcher ran before")
    boot(minute - 1, launcher.pid + 1)
    check(asked(stage, path, "why", "--failing")[0] == 0, "what another launcher's boot left out")
    check("jobd_definitions_not_loaded" not in samples(stage, path, int(time.time())), "the count of another launcher")
    boot(minute - 1, launcher.pid, "no line")
    check("status.jsonl.boot: a line of another form" in asked(stage, path, "why")[2], "a line that is none")
    boot(minute - 1)
    launcher.load(shell_job("org.b", "exec sleep 600"))
    job_where(path, "org.b", lambda job: True)
    text = asked(stage, path, "why", "--failing")[1]
    check(rows[0] in text and rows[1] not in text, f"one that was loaded since: {text!r}")
    launcher.ask({"req": "start", "job": "missed"})
    job_where(path, "missed", lambda job: job["pid"])
    check(missed not in asked(stage, path, "why", "--failing")[1], "a job that was started since")
    launcher.shut_down()


def why_and_status_of_now(stage):
    """A job of each kind, asked of while its launcher lives, and once that was killed."""
    launcher, path = serve(stage, journal="journal")
    flag = stage.at("flag")
    for definition in (
        shell_job("runs", "exec sleep 600", KeepAlive=True),
        {"Label": "refused", "ProgramArguments": ["/nonexistent/prog"], "RunAtLoad": True, "ThrottleInterval": 600},
        shell_job("throttled", "exit 3", KeepAlive=True, ThrottleInterval=600),
        shell_job("waits", "exec sleep 600", KeepAlive={"PathState": {flag: True}}),
        shell_job("crashed", "kill -SEGV $$", RunAtLoad=True),
        shell_job("stopped", "exec sleep 600", RunAtLoad=True),
        shell_job("spent", "exit 0", KeepAlive=True, LaunchOnlyOnce=True),
        shell_job("halted", "exec sleep 600", KeepAlive=True, ThrottleInterval=600),
        shell_job("disabled", "exec sleep 600", RunAtLoad=True),
    ):
        launcher.load(definition)
    comes_to_say(stage, path, "runs", "runs is running.", "It is wanted: KeepAlive is true.\n  When it exits, it starts again")
    comes_to_say(stage, path, "refused", "was refused, at ", f": {MISSING}.", "It is wanted: it starts at its load (RunAtLoad is true).")
    comes_to_say(stage, path, "throttled", "It is throttled until ", "ThrottleInterval is 600.", "Its last run exited with code 3", "It starts at ")
    comes_to_say(stage, path, "waits", f"once {flag} exists (KeepAlive PathState)")
    comes_to_say(stage, path, "crashed", "Its last run was killed by signal 11 (a crash)", "Nothing wants it.")
    comes_to_say(stage, path, "spent", "LaunchOnlyOnce is true, and a start went well.")
    launcher.ask({"req": "disable", "job": "disabled"})
    comes_to_say(stage, path, "disabled", "disabled is running.", "It is disabled since ", ": `jobctl enable disabled`.")
    job_where(path, "stopped", lambda job: job["state"] == "running")
    launcher.ask({"req": "stop", "job": "stopped"})
    comes_to_say(stage, path, "stopped", "Its last run was killed by signal 15, ", "Nothing wants it.")
    job_where(path, "halted", lambda job: job["state"] == "running")
    launcher.ask({"req": "stop", "job": "halted"})
    comes_to_say(stage, path, "halted", "Its last run was killed by signal 15, ", "It is throttled until ", "It is wanted: KeepAlive is true.")

    line = f"refused: its last start was refused, at "
    found = [row for row in asked(stage, path, "status")[1].splitlines() if row.startswith(line)]
    check(len(found) == 1 and found[0].endswith(f": {MISSING}"), f"the table of a refused start: {found}")
    rows = cells(stage, path)
    check(rows["runs"][1:3] == ["running", str(told(path)[1]["runs"]["pid"])] and rows["runs"][-1] == "-", f"of runs: {rows['runs']}")
    check(rows["waits"][1:3] == ["idle", "-"] and rows["waits"][-2:] == ["a", "path"], f"of waits: {rows['waits']}")
    check(rows["spent"][-2:] == ["a", "load"] and rows["crashed"][4:6] == ["signal", "11"], f"{rows['spent']}, {rows['crashed']}")
    check(len(rows) == 9, f"it has {len(rows)} rows")
    # Neither a job that was stopped and waits for its throttle, nor one that was to run once.
    for source in ([], ["--journal", stage.at("journal")]):
        status, text, _ = asked(stage, path, "why", "--failing", *source)
        failing = [line.partition(":")[0] for line in text.splitlines() if ": its last " in line or ": it is wanted" in line]
        check(status == 2 and failing == ["crashed", "refused", "throttled"], f"failing by {source} are {failing}, with status {status}: {text}")
    status, text, error = asked(stage, path, "why", "run")
    check(status == 65 and "nothing here names run; near it: runs" in error, f"of a label that is not there: {status}, {error!r}")
    coming, error = starting(stage, path)
    check(coming - {"refused"} == {"halted", "throttled"} and not error, f"coming starts are {coming}, and told is {error!r}")

    pids = [job["pid"] for job in told(path)[1].values() if job["pid"]]
    launcher.kill()
    if not sees_all():
        return
    status, text, _ = asked(stage, path, "why", "runs")
    check(status == 0 and "exited or was killed" in text and "runs was running when the file was written." in text, f"of a killed launcher: {text}")
    rows = cells(stage, path)
    check({row[1] for row in rows.values()} == {"unknown"} and {row[2] for row in rows.values()} == {"-"}, f"rows of a killed launcher: {rows}")
    check(asked(stage, path, "why", "--failing", "runs")[0] == 2, "a job of a killed launcher does not fail")
    check(starting(stage, path) == (set(), ""), f"of a killed launcher these come: {starting(stage, path)}")
    for pid in pids:
        end_process(pid)


def whose_launcher_is_none(stage):
    """The file of a killed launcher, whose number another process got by chance, and then one that has ended and nobody has waited for. Before, as
    long as it lives: it is told as the living launcher, with the same moment of its start."""
    launcher, path = serve(stage)
    launcher.load(shell_job("waits", "exec sleep 600", KeepAlive={"PathState": {stage.at("flag"): True}}))
    job_where(path, "waits", lambda job: job["state"] == "idle")
    lives = f"The launcher is running (PID {launcher.pid})"
    check(lives in asked(stage, path, "status")[1], f"a living launcher is not told: {asked(stage, path, 'status')}")
    first = told(path)[0]
    launcher.kill()
    text = text_at(path)

    def file_of(pid, start):
        front = f'"pid":{first["pid"]},'
        check(text.count(front) == 1 and f'"began":{first["began"]}' in text, f"its front is not {front}: {text[:200]}")
        named = text.replace(front, f'"pid":{pid},').replace(f'"began":{first["began"]}', f'"began":{start}')
        return make(stage.at("standing/other.jsonl"), named)

    with subprocess.Popen(["sleep", "600"]) as other:
        by_chance = file_of(other.pid, began(other.pid) + 1)
        gone = f"The launcher (PID {other.pid}) {'exited or was killed' if sees_all() else 'is not seen here'}"
        check(gone in asked(stage, by_chance, "status")[1], f"another process with its number: {asked(stage, by_chance, 'status')}")
        its_own = file_of(other.pid, began(other.pid))
        check(f"The launcher is running (PID {other.pid})" in asked(stage, its_own, "status")[1], "the same moment of the start is not told as the launcher")
        other.kill()
        wait_for(lambda: text_at(f"/proc/{other.pid}/stat").rpartition(")")[2].split()[0] == "Z", "it does not end")
        check(gone in asked(stage, its_own, "status")[1], f"a process that has ended: {asked(stage, its_own, 'status')}")
        check("waits was not running when the file was written." in asked(stage, its_own, "why", "waits")[1], f"of its job: {asked(stage, its_own, 'why', 'waits')}")


def what_a_socket_waits_for(stage):
    """A job of a socket waits for a client, and one that only a word starts for a request."""
    launcher, path = serve(stage)
    launcher.load({"Label": "web", "ProgramArguments": ["/bin/true"], "inetdCompatibility": {"Wait": False},
                   "Sockets": {"Listener": {"SockPathName": stage.at("web.sock")}}})
    launcher.load(shell_job("asked", "exit 0"))
    for label in ("web", "asked"):
        job_where(path, label, lambda job: job["state"] == "idle")
    rows = cells(stage, path)
    check(rows["web"][-2:] == ["a", "client"], f"of a socket's job: {rows['web']}")
    check(rows["asked"][-2:] == ["a", "request"], f"of a job that is only asked for: {rows['asked']}")


# What `why` says of a file that root does not read.
NOT_READ = "it can't be read: root does not read what another user may have put there"


def what_root_reads(stage, path, plain):
    """Root's `why` reads no file by a link, and of a file or journal of another user's only what is that user's."""
    def end(*words):
        return asked(stage, path, "why", "plain", *words)[1].splitlines()[-1].partition("; ")[2]

    secret, theirs, journal = stage.at("secret"), stage.at("theirs.jsonl"), stage.at("theirs.journal")
    make(secret, "a secret\n")
    shutil.copyfile(path, theirs)
    shutil.copyfile(stage.at("journal"), journal)
    for source in (["--status-file", theirs], ["--journal", journal]):
        os.chown(source[1], 65534, 65534)
        check(end(*source) == NOT_READ, f"of {source} of another user, of a file of root's: {end(*source)!r}")
        os.chown(plain, 65534, 65534)
        check(end(*source).startswith("the last line is: no "), f"of {source} of another user, of that user's file: {end(*source)!r}")
        os.chown(plain, 0, 0)
    os.rename(plain, plain + ".kept")
    os.symlink(secret, plain)
    check(end() == "it can't be read: no plain file", f"by a symbolic link: {end()!r}")
    os.unlink(plain)
    os.link(secret, plain)
    check(end() == NOT_READ, f"by a hard link: {end()!r}")
    os.rename(plain + ".kept", plain)
    with open(stage.at("journal"), "rb") as given:
        ran = subprocess.run([*stage.given.jobscope, "why", "--journal", "-", "plain"], stdin=given, capture_output=True, timeout=patience(), text=True)
    check(ran.stdout.splitlines()[-1].endswith(NOT_READ), f"by a journal on standard input: {ran.stdout!r}")


def where_errors_went(stage):
    """Of a failed run where its errors went, with the last line of that file if it is a plain one, by the status file and by the journal. Of a job that runs, what its
    process takes."""
    launcher, path = serve(stage, journal="journal")
    plain, fifo, empty = stage.at("plain.err"), stage.at("fifo.err"), stage.at("empty.err")
    launcher.load(shell_job("plain", "echo first >&2; printf 'no \\033[31mhost\\377\\n \\n' >&2; exit 3", RunAtLoad=True, StandardErrorPath=plain))
    launcher.load(shell_job("long", "head -c 3000000 /dev/zero | tr '\\0' x >&2; exit 3", RunAtLoad=True, StandardErrorPath=stage.at("long.err")))
    launcher.load(shell_job("fifo", "exit 4", RunAtLoad=True, StandardErrorPath=fifo))
    launcher.load(shell_job("empty", "exit 4", RunAtLoad=True, StandardErrorPath=empty))
    launcher.load(shell_job("lost", "exit 5", RunAtLoad=True))
    launcher.load(shell_job("well", "echo all is well >&2", RunAtLoad=True, StandardErrorPath=stage.at("well.err")))
    launcher.load(shell_job("eats", "while :; do :; done", RunAtLoad=True))
    for label in ("plain", "long", "fifo", "empty", "lost", "well"):
        job_where(path, label, lambda job: job["last_end"])
    # No one opens it for writing: whoever opened it now would wait.
    os.unlink(fifo)
    os.mkfifo(fifo, 0o600)
    wanted = [
        f"empty: its errors went to {empty}; there is no line in it",
        f"fifo: its errors went to {fifo}; it can't be read: not a plain file",
        f"long: its errors went to {stage.at('long.err')}; the last line is: {'x' * 160}\u2026",
        "lost: its errors are lost: no StandardErrorPath",
        f"plain: its errors went to {plain}; the last line is: no \ufffd[31mhost\ufffd",
    ]
    by_journal = ["--journal", stage.at("journal")]
    for source in ([], by_journal):
        status, text, error = asked(stage, path, "why", "--failing", *source)
        check(status == 2 and text.splitlines()[-5:] == wanted and not error, f"failing by {source}: {status}, {text!r}, {error!r}; wanted {wanted}")
        status, text, error = asked(stage, path, "why", "plain", *source)
        check(status == 0 and text.endswith(f".\n\n{wanted[-1]}\n") and "first" not in text, f"why by {source}: {status}, {text!r}, {error!r}")
        check("errors" not in asked(stage, path, "why", "well", *source)[1], f"of a job that ended well by {source}")
        objects = [json.loads(line) for line in asked(stage, path, "why", "--failing", "--json", *source)[1].splitlines()]
        check([it.get("errors") for it in objects] == [empty, fifo, stage.at("long.err"), None, plain], f"objects by {source}: {objects}")
    if os.geteuid() == 0:
        what_root_reads(stage, path, plain)
    text = asked(stage, path, "why", "plain", *by_journal, "--at", "-0s")[1]
    check(text.endswith(f"plain: its errors went to {plain}\n"), f"of a moment before: {text!r}")

    def eats():
        found = [json.loads(line) for line in asked(stage, path, "status", "--json", "eats")[1].splitlines()]
        return found and found[0].get("cpu_ms", 0) >= 200 and found
    found = wait_for(eats, "no processor time is told of a job that takes it")
    check(100_000 < found[0]["resident_bytes"] < 2 ** 30, f"in memory: {found}")
    row = cells(stage, path)["eats"]
    check(re.fullmatch(r"\d+(\.\d)?[KMG]", row[-3]) and re.fullmatch(r"\d+\.\ds|\d+m\d\ds", row[-2]), f"the row: {row}")
    check(cells(stage, path)["lost"][-4:-2] == ["-", "-"] or cells(stage, path)["lost"][-3:-1] == ["-", "-"], f"of a job that does not run: {cells(stage, path)['lost']}")


def counted(paths, label):
    """Starts, failures and refusals of a label, by the lines of journals."""
    events = [json.loads(line) for path in paths for line in text_at(path).splitlines()[1:]]
    events = [event for event in events if event.get("job") == label]
    refusals = sum(event["ev"] == "spawn_refused" for event in events)
    failures, is_ordered = 0, False
    for event in events:
        if event["ev"] in ("spawned", "spawn_refused"):
            is_ordered = False
        elif event["ev"] in ("termed", "killed"):
            is_ordered = True
        elif event["ev"] == "ended":
            failures += event["code"] > 0 if "code" in event else not (is_ordered and event["signal"] in (0, 9, 15))
    return refusals + sum(event["ev"] == "spawned" for event in events), failures, refusals


def counts(stage, path, label, **around):
    """What `metrics` says of a label: its counts, since when they go on, and when it last succeeded."""
    kept = {key: value for key, value in os.environ.items() if not key.startswith("JOBD_JOURNAL")}
    ran = subprocess.run([*stage.given.jobscope, "metrics", "--status-file", path], env={**kept, **around}, capture_output=True, timeout=patience(), text=True)
    check(ran.returncode == 0 and not ran.stderr, f"metrics: {ran}")
    values = dict(line.rsplit(" ", 1) for line in ran.stdout.splitlines() if not line.startswith("#"))
    of_label = [values.get(f'{name}{{label="{label}"}}') for name in (
        "jobd_job_starts_total", "jobd_job_failures_total", "jobd_job_refused_total", "jobd_job_last_success_timestamp_seconds")]
    numbers = [None if value is None else int(value) for value in of_label]
    since = values.get("jobd_counted_since_timestamp_seconds")
    return tuple(numbers[:3]), None if since is None else int(since), numbers[3]


def begun(path):
    return json.loads(text_at(path).splitlines()[0])["wall"]


def with_begin(path, wall):
    """The journal begins at this second."""
    first, _, rest = text_at(path).partition("\n")
    make(path, json.dumps({**json.loads(first), "wall": wall}, separators=(",", ":"), sort_keys=True) + "\n" + rest)


def month(wall):
    return time.strftime("%Y-%m", time.gmtime(wall))


def counts_over_restarts(stage):
    """Three launchers one after the other, whose journals are kept as jobd-run keeps them, and two loads of a job under one of them. The counts of `metrics` go on; they
    begin again with the launcher if an earlier journal of its month may be gone, and with the load if the journal is another launcher's."""
    path, last = stage.at("standing/status.jsonl"), stage.at("journal")
    fails = shell_job("fails", "exit 3", RunAtLoad=True)
    works = shell_job("works", "exit 0", RunAtLoad=True)
    refused = {"Label": "refused", "ProgramArguments": ["/nonexistent/prog"], "RunAtLoad": True, "ThrottleInterval": 3600}
    for number in (2, 1, 0):
        launcher, _ = serve(stage, journal="journal")
        for definition in (fails, refused, *([works] if number == 2 else [dict(works, RunAtLoad=False)])):
            launcher.load(definition)
        job_where(path, "fails", lambda job: job["last_end"])
        job_where(path, "refused", lambda job: job["refused"])
        job_where(path, "works", lambda job: number < 2 or job["succeeded"])
        if number:
            launcher.shut_down()
            os.rename(last, f"{last}.{number}")
    launcher.ask({"req": "unload", "job": "fails"})
    launcher.load(fails)
    all_three = [f"{last}.2", f"{last}.1", last]
    # The status file says of this load what it said of the one before, so the journal is asked.
    wait_for(lambda: counted(all_three, "fails")[:2] == (4, 4), lambda: f"the fourth run does not end: {counted(all_three, 'fails')}")
    if len({month(begun(it)) for it in all_three}) > 1:
        return
    for label, wanted in (("fails", (4, 4, 0)), ("refused", (3, 0, 3)), ("works", (1, 0, 0))):
        check(counted(all_three, label) == wanted, f"the journals count {counted(all_three, label)} of {label}")
        found = counts(stage, path, label, JOBD_JOURNAL=last)
        check(found[:2] == (wanted, begun(all_three[0])), f"of {label} metrics count {found}, wanted {wanted}")
    check(counts(stage, path, "works", JOBD_JOURNAL=last)[2], "no last success is told of a launcher before")

    # So many journals are kept as there may be: an earlier one may be gone.
    found = counts(stage, path, "fails", JOBD_JOURNAL=last, JOBD_JOURNALS="2")
    check(found[:2] == (counted([last], "fails"), begun(last)), f"with two journals kept: {found}")
    check(counts(stage, path, "works", JOBD_JOURNAL=last, JOBD_JOURNALS="2")[2] is None, "a last success is told of a journal that does not count")
    # With one of the month before, it is known that none of this month is gone.
    with_begin(f"{last}.2", begun(last) - 32 * 86400)
    found = counts(stage, path, "fails", JOBD_JOURNAL=last, JOBD_JOURNALS="2")
    check(found[:2] == (counted([f"{last}.1", last], "fails"), begun(f"{last}.1")), f"with one of the month before: {found}")
    # Another launcher's journal does not count, nor does none, nor one that is a FIFO or torn.
    os.mkfifo(stage.at("fifo"))
    make(stage.at("torn"), text_at(last)[:20])
    since_load = ((1, 1, 0), None)
    for journal in (f"{last}.1", stage.at("fifo"), stage.at("torn"), stage.at("none"), ""):
        found = counts(stage, path, "fails", JOBD_JOURNAL=journal)
        check(found[:2] == since_load, f"by the journal {journal!r}: {found}")
    launcher.shut_down()


def since_when_labels_are_disabled(stage):
    """A job that is disabled while it is loaded: the file has the second. After a restart, journals say it."""
    path, last = stage.at("standing/status.jsonl"), stage.at("journal")
    launcher, _ = serve(stage, journal="journal")
    job = shell_job("off", "exec sleep 600")
    launcher.load(job)
    job_where(path, "off", lambda job: job["disabled"] is None and job["disabled_at"] is None)
    before = int(time.time())
    launcher.ask({"req": "disable", "job": "off"})
    at = job_where(path, "off", lambda job: job["disabled"] == "override")["disabled_at"]["wall"]
    check(before <= at <= int(time.time()) + 1, f"disabled at {at}, and asked at {before}")
    launcher.ask({"req": "disable", "job": "off"})
    launcher.load(shell_job("other", "exit 0"))
    job_where(path, "other", lambda job: True)
    check(told(path)[1]["off"]["disabled_at"]["wall"] == at, "a second request changes since when")
    said = [json.loads(asked(stage, path, word, "--json", "off")[1])["disabled_since_seconds"] for word in ("why", "status")]
    check(said == [at, at], f"since {said}, wanted {at}")
    launcher.ask({"req": "enable", "job": "off"})
    job_where(path, "off", lambda job: job["disabled"] is None and job["disabled_at"] is None)
    launcher.ask({"req": "disable", "job": "off"})
    job_where(path, "off", lambda job: job["disabled"] == "override")
    launcher.shut_down()

    os.rename(last, f"{last}.1")
    launcher, _ = serve(stage, journal="journal")
    launcher.ask({"req": "load", "def": json.dumps(job), "F": True})
    job_where(path, "off", lambda job: job["disabled"] == "override" and job["disabled_at"] is None)
    kept = {key: value for key, value in os.environ.items() if not key.startswith("JOBD_JOURNAL")}
    for word, wanted in (("why", True), ("status", True)):
        for journal in (last, ""):
            ran = subprocess.run([*stage.given.jobscope, word, "--json", "--status-file", path, "off"], env={**kept, "JOBD_JOURNAL": journal}, capture_output=True,
                                 timeout=patience(), text=True)
            found = json.loads(ran.stdout)
            since = found.get("disabled_since_seconds")
            check(found["is_disabled"] is True and (before <= since <= int(time.time()) if journal else since is None), f"{word} by {journal!r}: {found}")
    launcher.shut_down()


# What a launcher's journal and its status file say together, and each alone.
BOTH = "Its journal and its status file were read.\n"
JOURNAL_ALONE = "Its journal alone was read: why starts were refused, what runs left running, and what the boot left out are not known.\n"
FILE_ALONE = "Its status file alone was read: refused loads, who disabled a label, and unsupported conditions are not known.\n"
UNREAD_FILE = "read without its launcher's status file: why starts were refused is not known"
LONG_JOURNAL = "Its status file alone was read, since its journal has more than 32 MiB: refused loads, who disabled a label, and unsupported conditions are not known.\n"


def what_both_sources_say(stage):
    """Why a start and a load were refused, and who disabled a label: `why` says it by both sources of a launcher, whichever it is asked by. By one of them it
    says which, and what is not known."""
    launcher, path = serve(stage, journal="journal")
    journal = stage.at("journal")
    launcher.load({"Label": "refused", "ProgramArguments": ["/nonexistent/prog"], "RunAtLoad": True, "ThrottleInterval": 600})
    launcher.load(shell_job("off", "exec sleep 600", KeepAlive={"Nonesuch": True}))
    launcher.ask({"req": "disable", "job": "off"})
    reply = launcher.ask({"req": "load", "def": json.dumps({"Label": "bad"}), "F": False})
    check(reply["code"] != 0, f"a definition without a program is loaded: {reply}")
    facts = {"refused": f": {MISSING}.\n", "off": " (jobctl disable): `jobctl enable off`.\n", "bad": "bad is not loaded.\n  Its load at "}
    kept = {key: value for key, value in os.environ.items() if not key.startswith("JOBD_")}

    def why(*words, **env):
        ran = subprocess.run([*stage.given.jobscope, "why", *words], env={**kept, **env}, capture_output=True, timeout=patience(), text=True, stdin=subprocess.DEVNULL)
        return ran.returncode, ran.stdout, ran.stderr

    socket, file = {"JOBD_SOCKET": stage.at("socket")}, {"JOBD_STATUS_FILE": path}
    ways = ((), socket), (("--journal", journal), file), (("--status-file", path), socket), ((), {**file, "JOBD_JOURNAL": journal})
    # At once the file may be a second late: the journal then says who disabled the label, and that a load was refused.
    for words, env in ways[:2]:
        for label in ("off", "bad"):
            status, text, error = why(*words, label, **env)
            check(status == 0 and facts[label] in text and not error, f"{label} at once by {words} {env}: {status}, {text!r}, {error!r}")
    job_where(path, "off", lambda job: job["disabled"] == "override")
    job_where(path, "refused", lambda job: job["refused"] and job["refused"]["reason"])
    for words, env in ways:
        for label, fact in facts.items():
            status, text, error = why(*words, label, **env)
            check(status == 0 and BOTH in text and text.count(fact) == 1 and not error, f"{label} by {words} {env}: {status}, {text!r}, {error!r}")
        text = why(*words, **env)[1]
        check(all(text.count(fact) == 1 for fact in facts.values()), f"all by {words} {env}: {text!r}")
        found = {it["label"]: it for it in map(json.loads, why("--json", *words, **env)[1].splitlines())}
        check(found["refused"]["reason"] == MISSING and found["bad"]["load_refusal"] == "bad definition", f"objects by {words} {env}: {found}")
        check(found["off"]["is_disabled"] and "disabled_since" in found["off"], f"objects by {words} {env}: {found}")
        status, text, error = why("--failing", *words, **env)
        check(status == 2 and f"refused: its last start was refused, at " in text and f": {MISSING}\n" in text, f"failing by {words} {env}: {status}, {text!r}")
    # `log` and `runs` have the reason of the last refused start alone, and say if no status file was read.
    seen = subprocess.run([*stage.given.jobscope, "log", "refused"], env={**kept, **socket}, capture_output=True, timeout=patience(), text=True, stdin=subprocess.DEVNULL)
    check(seen.stdout.count(f"refused: run 1 was refused: {MISSING}; it waits until ") == 1 and not seen.stderr, f"the log: {seen}")
    seen = subprocess.run([*stage.given.jobscope, "runs", "refused"], env={**kept, **socket}, capture_output=True, timeout=patience(), text=True, stdin=subprocess.DEVNULL)
    check([it.split("\t")[-1] for it in seen.stdout.splitlines()] == ["reason", MISSING] and not seen.stderr, f"the runs: {seen}")
    seen = subprocess.run([*stage.given.jobscope, "runs", "--json", "--journal", journal, "refused"], env={**kept, **file}, capture_output=True, timeout=patience(), text=True)
    check(json.loads(seen.stdout)["reason"] == MISSING and not seen.stderr, f"the runs as an object: {seen}")
    for word in ("log", "runs"):
        seen = subprocess.run([*stage.given.jobscope, word, "--journal", journal, "refused"], env=kept, capture_output=True, timeout=patience(), text=True)
        check(MISSING not in seen.stdout and seen.stderr == f"jobscope: {journal}: {UNREAD_FILE}\n", f"{word} by the journal alone: {seen}")
    status, text, error = why("--journal", journal, "refused")
    check(status == 0 and JOURNAL_ALONE in text and "was refused, at " in text and MISSING not in text, f"by the journal alone: {status}, {text!r}, {error!r}")
    status, text, error = why("--status-file", path, "off", "refused")
    check(status == 0 and FILE_ALONE in text and facts["refused"] in text and "It is disabled since" in text and "jobctl disable" not in text,
          f"by the file alone: {status}, {text!r}, {error!r}")
    status, text, error = why("--status-file", path, "bad")
    check(status == 65 and "nothing here names bad" in error, f"a refused load by the file alone: {status}, {text!r}, {error!r}")
    # A journal of more than 32 MiB is not read besides the file. What follows its lines in a copy is a hole.
    long = make(stage.at("long"), text_at(journal))
    os.truncate(long, 32 << 20)
    status, text, error = why("--status-file", path, "off", JOBD_JOURNAL=long)
    check(status == 0 and BOTH in text and facts["off"] in text, f"by a journal of 32 MiB: {status}, {text!r}, {error!r}")
    os.truncate(long, (32 << 20) + 1)
    status, text, error = why("--status-file", path, "off", JOBD_JOURNAL=long)
    check(status == 0 and LONG_JOURNAL in text and "It is disabled since" in text and "jobctl disable" not in text,
          f"by a longer journal: {status}, {text!r}, {error!r}")
    os.unlink(long)
    # The file of another launcher says nothing of this one's jobs.
    text = why("--journal", journal, "refused", JOBD_STATUS_FILE=make(stage.at("other"), text_at(path).replace('\\"wall\\":', '\\"wall\\":1', 1)))[1]
    check(JOURNAL_ALONE in text and MISSING not in text, f"by another launcher's file: {text!r}")
    launcher.shut_down()


# What differs between the sources, since one of them does not know it, or since their last clock readings are less than a second apart.
LACKING = (
    (r"\((for|in) [^)]*\)", r"(\1)"), (r"It is being removed( \([^)]*\))?:", "It is being removed:"), (r"It is disabled since \S+?( \(jobctl [^)]*\))?: ", "It is disabled: "),
    (r"(was refused, at [0-9:]+)[:.] .*", r"\1"), (r" at [0-9:]+ \(StartInterval", " at (StartInterval"), (r"follows at [0-9:]+ if", "follows if"),
)


def blocks_of(text):
    """What a text of `why` says of each job, without what differs."""
    for form, other in LACKING:
        text = re.sub(form, other, text)
    return {block.split(" ")[0]: block for block in text.partition("\n\n")[2].rstrip("\n").split("\n\n") if re.match(r"\S+ is ", block)}


def each_reason_by_each_source(stage):
    """Each reason for which a job does not run is said in the same words by the journal alone, by the status file alone, and by both, whichever comes first; at
    once and half a minute later. So are objects, the jobs that fail and the coming starts. `next` says which sources were read, as `why` does."""
    launcher, path = serve(stage, journal="journal")
    journal, deaf = stage.at("journal"), f"trap '' TERM; : > {stage.at('deaf')}; while :; do sleep 0.05; done"
    never = {"StartCalendarInterval": {"Month": 2, "Day": 30}}
    for job in (
        {"Label": "idle", "ProgramArguments": ["/bin/true"]}, {"Label": "watch", "ProgramArguments": ["/bin/true"], "WatchPaths": [stage.at("watched")]},
        {"Label": "night", "ProgramArguments": ["/bin/true"], "StartCalendarInterval": {"Hour": 3}}, {"Label": "never", "ProgramArguments": ["/bin/true"], **never},
        {"Label": "hourly", "ProgramArguments": ["/bin/true"], "StartInterval": 3600}, shell_job("kept", "exec sleep 600", KeepAlive=True),
        shell_job("throttled", "exit 1", KeepAlive=True, ThrottleInterval=600), shell_job("once", "exit 0", RunAtLoad=True, LaunchOnlyOnce=True),
        shell_job("exit", "exit 3", RunAtLoad=True, KeepAlive={"SuccessfulExit": True}), shell_job("off", "exit 0", RunAtLoad=True),
        {"Label": "refused", "ProgramArguments": ["/nonexistent/prog"], "RunAtLoad": True, "ThrottleInterval": 600},
        shell_job("leaving", deaf, RunAtLoad=True, ExitTimeOut=3600),
    ):
        launcher.load(job)
    wait_for(lambda: os.path.exists(stage.at("deaf")), "the job does not run")
    os.unlink(stage.at("deaf"))
    launcher.load(shell_job("stopping", deaf, RunAtLoad=True, ExitTimeOut=3600))
    wait_for(lambda: os.path.exists(stage.at("deaf")), "the other job does not run")
    for request in ({"req": "disable", "job": "off"}, {"req": "stop", "job": "stopping"}, {"req": "unload", "job": "leaving"}):
        launcher.ask(request)
    job_where(path, "leaving", lambda job: job["state"] == "removing")
    job_where(path, "stopping", lambda job: job["state"] == "stopping")
    for label in ("throttled", "once", "exit", "off"):
        job_where(path, label, lambda job: job["last_end"])
    job_where(path, "refused", lambda job: job["refused"])
    job_where(path, "off", lambda job: job["disabled"])
    kept = {key: value for key, value in os.environ.items() if not key.startswith("JOBD_")}
    file, socket = {"JOBD_STATUS_FILE": path}, {"JOBD_SOCKET": stage.at("socket")}
    ways = {"the journal": (("--journal", journal), {}), "the file": (("--status-file", path), {}),
            "the journal and the file": (("--journal", journal), file), "the file and the journal": (("--status-file", path), socket), "the launcher": ((), socket)}

    def said(way, *words):
        named, env = ways[way]
        ran = subprocess.run([*stage.given.jobscope, *words, *named], env={**kept, **env}, capture_output=True, timeout=patience(), text=True, stdin=subprocess.DEVNULL)
        check(ran.stdout, f"{words} by {way} writes nothing: {ran}")
        return ran.stdout

    def objects(way, now):
        found = {it["label"]: it for it in map(json.loads, said(way, "why", "--json", "--now", str(now)).splitlines())}
        keys = ("state", "fault", "starts", "last_code", "last_signal", "is_disabled")
        return {label: ([it.get(key) for key in keys], [cause["kind"] for cause in it["causes"]]) for label, it in found.items()}

    first = int(time.time()) + 1
    for now in (first, first + 30):
        wanted = blocks_of(said("the journal", "why", "--now", str(now)))
        check(len(wanted) == 13, f"jobs by the journal: {list(wanted)}")
        for way in ways:
            got = blocks_of(said(way, "why", "--now", str(now)))
            others = [f"{got.get(label)!r} in place of {block!r}" for label, block in wanted.items() if got.get(label) != block]
            check(not others and len(got) == len(wanted), f"at {now - first} s, by {way}: {others}")
            check(objects(way, now) == objects("the journal", now), f"objects at {now - first} s by {way}: {objects(way, now)} {objects('the journal', now)}")
            lines = [[line for line in said(one, "why", "--failing", "--now", str(now)).splitlines() if ": its last " in line] for one in (way, "the journal")]
            lines = [[line.split(": ")[:2] for line in some] for some in lines]
            check(lines[0] == lines[1] and lines[0], f"failing at {now - first} s by {way}: {lines}")
            starts = [[line.split("  ")[1] for line in said(one, "next", "--from", str(now)).splitlines() if "  in " in line] for one in (way, "the journal")]
            check(starts[0] == starts[1] and starts[0], f"starts at {now - first} s by {way}: {starts}")
    heads = {"the journal": "Its journal alone was read: what the boot left out is not known.\n",
             "the file": "Its status file alone was read: jobs that were loaded in the last two seconds may be missing.\n"}
    for way in ways:
        check(heads.get(way, BOTH) in said(way, "next"), f"the head of next by {way}: {said(way, 'next')!r}")
    launcher.kill()


ENDING = "It is shutting down: it starts no job.\n"


def a_shutdown_by_the_file_alone(stage):
    """While a launcher shuts down, `status`, `why` and `next` say so by its status file. They did not before, and they do not once it has exited."""
    launcher, path = serve(stage)
    deaf = f"trap '' TERM; : > {stage.at('deaf')}; while :; do sleep 0.05; done"
    launcher.load(shell_job("deaf", deaf, RunAtLoad=True, ExitTimeOut=3600))
    wait_for(lambda: os.path.exists(stage.at("deaf")), "the job does not run")
    pid = job_where(path, "deaf", lambda job: job["state"] == "running")["pid"]

    def said():
        """How often each of the three says it."""
        return [asked(stage, path, word)[1].count(ENDING) for word in ("status", "why", "next")]

    check(said() == [0, 0, 0], f"before the shutdown: {said()}")
    check(launcher.ask({"req": "shutdown"})["code"] == 0, "the shutdown is refused")
    wait_for(lambda: told(path)[0]["shutting_down"], "the file does not say that it shuts down")
    check(said() == [1, 1, 1], f"while it shuts down: {said()}")
    end_process(pid)
    check(launcher.ends() == 0, f"it ended otherwise: {launcher.said()!r}")
    check(said() == [0, 0, 0], f"once it has exited: {said()}")


def a_socket_that_is_refused(stage):
    """Why a socket could not be bound is said of its label by the journal with the file, by the file alone, and as objects, until a load of the label is
    accepted. By the journal alone the load is refused, and no reason is known."""
    launcher, path = serve(stage, journal="journal")
    journal, blocked = stage.at("journal"), stage.at("blocked")
    with open(blocked, "w"):
        pass
    job = {"Label": "web", "ProgramArguments": ["/bin/cat"], "Sockets": {"s": {"SockPathName": blocked}}, "inetdCompatibility": {"Wait": False}}
    check(launcher.load(job, code=11)["text"] == "socket refused\n", "the load is not refused")
    (bind,) = wait_for(lambda: told(path)[0]["refused_binds"], "the file does not have the refused load")
    check(bind["label"] == "web" and blocked in bind["reason"], f"the refused load: {bind}")
    kept = {key: value for key, value in os.environ.items() if not key.startswith("JOBD_")}

    def why(*words):
        ran = subprocess.run([*stage.given.jobscope, "why", *words, "web"], env=kept, capture_output=True, timeout=patience(), text=True, stdin=subprocess.DEVNULL)
        check(ran.returncode == 0 and not ran.stderr, f"{words}: {ran}")
        return ran.stdout

    def said(reason):
        return f"\nweb is not loaded.\n  Its load at {time.strftime('%H:%M:%S', time.gmtime(bind['at']['wall']))} was refused: socket refused{reason}.\n"

    both = ("--journal", journal), {"JOBD_STATUS_FILE": path}
    kept.update(both[1])
    check(said(f": {bind['reason']}") in why(*both[0]), f"by both: {why(*both[0])!r}")
    found = json.loads(why("--json", *both[0]))
    check(found["load_refusal"] == "socket refused" and found["load_reason"] == bind["reason"], f"the object: {found}")
    del kept["JOBD_STATUS_FILE"]
    check(said("") in why("--journal", journal), f"by the journal alone: {why('--journal', journal)!r}")
    check(said(f": {bind['reason']}") in why("--status-file", path), f"by the file alone: {why('--status-file', path)!r}")
    os.unlink(blocked)
    launcher.load(job)
    wait_for(lambda: not told(path)[0]["refused_binds"], "the file still has the refused load")
    check("web is not running.\n" in why("--status-file", path), f"once it is loaded: {why('--status-file', path)!r}")
    launcher.kill()


def which_runs_failed(stage):
    """A run that the launcher ends with TERM or KILL has not failed, whatever comes later; one that exits with a code, or that others end with TERM, has. So
    say the file, `status`, `metrics` by the file and by the journal, and `why`."""
    launcher, path = serve(stage, journal="journal")
    launcher.load(shell_job("soft", "exec sleep 600", KeepAlive=True, ThrottleInterval=1))
    launcher.load(shell_job("hard", "trap '' TERM; while :; do sleep 0.05; done", KeepAlive=True, ThrottleInterval=1, ExitTimeOut=1))
    launcher.load(shell_job("code", "trap 'exit 7' TERM; while :; do sleep 0.05; done", KeepAlive=True, ThrottleInterval=1))
    labels = ("soft", "hard", "code")
    for run in (1, 2):
        for label in labels:
            job_where(path, label, lambda job: job["pid"] and job["run"] == run)
        time.sleep(0.2)
        for label in labels:
            launcher.ask({"req": "stop", "job": label})
        for label in labels:
            job_where(path, label, lambda job: job["last_end"] and job["last_end"]["run"] == run)
    ends = {label: job_where(path, label, lambda job: job["pid"] and job["run"] == 3) for label in labels}
    wanted = {"soft": 0, "hard": 0, "code": 2}
    check({label: job["failures"] for label, job in ends.items()} == wanted, f"of runs that the launcher ended: {ends}")
    check(all(job["last_end"]["ordered"] is True for job in ends.values()), f"their ends: {ends}")
    os.kill(ends["soft"]["pid"], signal.SIGTERM)
    killed = job_where(path, "soft", lambda job: job["pid"] and job["run"] == 4)
    check(killed["failures"] == 1 and killed["last_end"]["ordered"] is False, f"of a run that others ended: {killed}")
    wanted["soft"] = 1
    rows = {row["label"]: row["failures"] for row in map(json.loads, asked(stage, path, "status", "--json")[1].splitlines())}
    check(rows == wanted, f"by status: {rows}")
    for label in labels:
        check(counts(stage, path, label)[0][1] == wanted[label], f"by metrics, of {label}: {counts(stage, path, label)}")
        check(counts(stage, path, label)[0] == counted([stage.at("journal")], label), f"by the journal, of {label}: {counts(stage, path, label)}")
        text = asked(stage, path, "why", label)[1]
        check(f" starts since its load, {wanted[label]} failed." in text, f"why {label}: {text!r}")
    for label in labels:
        end_process(told(path)[1][label]["pid"])
    launcher.kill()


SCENES = [
    a_shutdown_by_the_file_alone,
    a_socket_that_is_refused,
    which_runs_failed,
    calls_that_failed,
    each_reason_by_each_source,
    what_both_sources_say,
    counts_over_restarts,
    since_when_labels_are_disabled,
    what_a_status_file_holds,
    which_definition_is_loaded,
    what_tells_a_launchers_places,
    a_closed_journal_and_labels_like_lines,
    since_when_idle_jobs_are_as_they_are,
    the_first_job_is_there_at_once,
    a_store_that_takes_settings_again,
    a_closing_is_told_by_its_own_pass,
    who_may_read_a_status_file,
    a_journal_that_is_renamed,
    a_status_file_rests, a_large_status_file,
    a_killed_launcher_leaves_a_whole_file,
    status_files_that_are_refused,
    why_and_status_of_now,
    samples_of_a_status_file,
    whose_launcher_is_none,
    what_a_socket_waits_for,
    what_a_boot_left_out,
    where_errors_went,
]
