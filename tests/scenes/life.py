"""Scenes of who lives, and how old what is reported is: launchers that run, are stopped, are killed, end in order, hang, or have a journal that is closed, as
`jobscope` reports them by the journal and by the status file.

`play.py` plays them; `harness.py` has what all scenes share.
"""
import fcntl
import json
import os
import resource
import signal
import stat
import subprocess
import time

from harness import check, make, patience, sees_all, shell_job, text_at, wait_for

JOBS = ({"Label": "hourly", "ProgramArguments": ["/bin/true"], "StartInterval": 3600}, shell_job("web", "exec sleep 600", KeepAlive=True))


def serve(stage, **how):
    """A launcher with a journal, a status file, and two jobs of which one runs and one starts each hour."""
    os.makedirs(stage.at("standing"), mode=0o700, exist_ok=True)
    path = stage.at("standing/status.jsonl")
    launcher = stage.serve(env={"JOBD_STATUS_FILE": path}, journal="journal", **how)
    for job in JOBS:
        launcher.load(job)
    launcher.tells("web", "state = running")
    wait_for(lambda: text_at(path).count("\n") == 3 and '"state":"running"' in text_at(path), lambda: f"the file does not have both jobs: {text_at(path)!r}")
    return launcher, path


def scope(stage, *words, status=(0,)):
    """What `jobscope` writes on both streams."""
    ran = subprocess.run([*stage.given.jobscope, *words], stdin=subprocess.DEVNULL, capture_output=True, timeout=patience(), text=True)
    check(ran.returncode in status, f"jobscope {' '.join(words)} ends with {ran.returncode}: {ran.stdout!r} {ran.stderr!r}")
    return ran.stdout + ran.stderr


def says(stage, words, *parts, without=(), status=(0,)):
    """It comes to write each of the parts, and none of the others."""
    def found():
        text = scope(stage, *words, status=status)
        return all(part in text for part in parts) and not any(part in text for part in without)
    wait_for(found, lambda: f"jobscope {' '.join(words)} does not say {parts} without {without}: {scope(stage, *words, status=status)!r}")


def by_both(stage, path):
    return ("--status-file", path), ("--journal", stage.at("journal"))


# What one that was killed is called, its sentences by the file and by the journal, and its `jobd_up`.
GONE = "gone" if sees_all() else "not_seen"
GONE_BY_FILE = "exited or was killed" if sees_all() else "is not seen here"
GONE_BY_JOURNAL = "it was killed, or its journal closed, after" if sees_all() else "is not seen here"
DOWN = "jobd_up 0\n" if sees_all() else "jobd_journal_open 1\n"
LOG_ENDS = "the journal ends without a shutdown" if sees_all() else "the journal ends here"

# What is only foretold of a launcher that runs.
FORETOLD = ("hourly  in", "It starts at", "It will be wanted", '"next_start"', '"start"')


def names_of(stage, words):
    """The values of `launcher` in the objects of `why`."""
    return {json.loads(line)["launcher"] for line in scope(stage, "why", "--json", *words).splitlines() if line.startswith("{")}


def foretells_nothing(stage, path, name):
    """No form has a coming start, a state or a cause, and each says what is known of the launcher."""
    for words in by_both(stage, path):
        for task in (("next",), ("next", "--json"), ("why",), ("why", "--json")):
            text = scope(stage, *task, *words)
            check(not any(part in text for part in FORETOLD), f"{task} {words} foretells: {text!r}")
            check("web is running" not in text and '"state":"running"' not in text, f"{task} {words} reports a run: {text!r}")
        names = names_of(stage, words)
        check(names == {name}, f"{words}: the launcher is {names}")
    text = scope(stage, "status", "--json", "--status-file", path)
    check('"next_start"' not in text and f'"launcher":"{name}"' in text, f"status: {text!r}")
    check("in 5" not in scope(stage, "picture", "--html", "--journal", stage.at("journal")).partition("<svg")[0], "the page foretells")


def a_launcher_that_is_stopped_or_killed(stage):
    """One that runs foretells. One that a signal stopped does not, until it goes on. One that was killed does not, while it is a zombie and after that."""
    launcher, path = serve(stage)
    for words in by_both(stage, path):
        says(stage, ("next", *words), f"is running (PID {launcher.pid})", "hourly  in")
        says(stage, ("why", *words), "web is running")
        check(names_of(stage, words) == {"lives"}, f"{words}: {names_of(stage, words)}")
        for line in scope(stage, "next", "--json", *words).splitlines():
            it = json.loads(line) if line.startswith("{") else {"launcher": "lives", "as_of": ""}
            check(it["launcher"] == "lives" and "as_of" in it, f"next: {it}")
    os.kill(launcher.pid, signal.SIGSTOP)
    for words in by_both(stage, path):
        says(stage, ("why", *words), "is stopped by a signal")
    foretells_nothing(stage, path, "stopped")
    check("jobd_up 1\n" in scope(stage, "metrics", "--status-file", path), "a stopped launcher is down")
    os.kill(launcher.pid, signal.SIGCONT)
    for words in by_both(stage, path):
        says(stage, ("next", *words), f"is running (PID {launcher.pid})", "hourly  in")
    os.kill(launcher.pid, signal.SIGKILL)
    wait_for(lambda: text_at(f"/proc/{launcher.pid}/stat").rpartition(")")[2][:3] == " Z ", "the launcher is no zombie")
    for _ in range(2):
        says(stage, ("why", "--status-file", path), GONE_BY_FILE)
        says(stage, ("why", "--journal", stage.at("journal")), GONE_BY_JOURNAL, "web was running at the journal's end.")
        foretells_nothing(stage, path, GONE)
        check(DOWN in scope(stage, "metrics", "--status-file", path), "a launcher that was killed is up")
        launcher.process.wait()
    says(stage, ("log", "--journal", stage.at("journal")), LOG_ENDS)
    later = str(int(time.time()) + 3600)
    says(stage, ("why", "--at", later, "--journal", stage.at("journal")), "No launcher ran then", without=FORETOLD)


def an_end_in_order(stage):
    """The file has no job after it, its lock is gone, and both sources say that the launcher exited in order. The next one starts as ever."""
    launcher, path = serve(stage)
    launcher.shut_down()
    check(text_at(path).count("\n") == 1 and '"jobs":0' in text_at(path), f"after the end the file has {text_at(path)!r}")
    check(os.listdir(stage.at("standing")) == ["status.jsonl"], f"after the end there is {os.listdir(stage.at('standing'))}")
    says(stage, ("status", "--status-file", path), "exited in order, at")
    says(stage, ("why", "--journal", stage.at("journal")), "it exited in order, at")
    says(stage, ("log", "--journal", stage.at("journal")), "shutdown was asked", without=("without a shutdown",))
    check("jobd_up 0\n" in scope(stage, "metrics", "--status-file", path), "a launcher that exited is up")
    again, path = serve(stage)
    says(stage, ("next", "--status-file", path), f"is running (PID {again.pid})", "hourly  in")
    again.shut_down()


def a_number_that_is_used_again(stage):
    """Another process with the launcher's number, and a zombie, are not the launcher: also if the lock's file is still there."""
    launcher, path = serve(stage)
    launcher.kill()
    other = subprocess.Popen(["sleep", "600"])
    try:
        make(path, text_at(path).replace(f'"pid":{launcher.pid},', f'"pid":{other.pid},', 1))
        check(names_of(stage, ("--status-file", path)) == {GONE}, f"another process is the launcher: {scope(stage, 'why', '--status-file', path)}")
    finally:
        other.kill()
    wait_for(lambda: text_at(f"/proc/{other.pid}/stat").rpartition(")")[2][:3] == " Z ", "the process is no zombie")
    began = text_at(f"/proc/{other.pid}/stat").rpartition(")")[2].split()[19]
    first = json.loads(text_at(path).splitlines()[0])["launcher"]
    make(path, text_at(path).replace(f'"began":{first["began"]},', f'"began":{began},', 1))
    check(names_of(stage, ("--status-file", path)) == {GONE}, f"a zombie is the launcher: {scope(stage, 'why', '--status-file', path)}")
    other.wait()


def a_status_file_that_is_renewed(stage):
    """Its modification time goes on while its text and its file stay; if it can't be renewed the launcher is reported to hang or not to write, until it can again.
    One of a launcher that renews nothing, as of version 0.3.0, is never reported so."""
    launcher, path = serve(stage)
    # The end of the throttle is the last that is written.
    wait_for(lambda: text_at(path).count('"throttled_until":null') == 2, "the throttle does not end", 30)
    before, text = os.stat(path), text_at(path)
    wait_for(lambda: os.stat(path).st_mtime > before.st_mtime + 5, "the file is not renewed", 30)
    check((os.stat(path).st_ino, text_at(path)) == (before.st_ino, text), "its text was written anew")
    metrics = scope(stage, "metrics", "--status-file", path)
    stamp = int(metrics.partition("\njobd_status_timestamp_seconds ")[2].split("\n")[0])
    check(abs(stamp - time.time()) < patience(30), f"its stamp: {stamp}")

    # (others may write in its folder, so the launcher writes nothing there)
    os.chmod(stage.at("standing"), 0o777)
    wait_for(lambda: "status file" in launcher.said(), "it is not logged that the file can't be renewed", 30)
    old = time.time() - 100
    os.utime(path, (old, old))
    says(stage, ("status", "--status-file", path), " has written nothing for 10", "it hangs or can't write")
    check(names_of(stage, ("--status-file", path)) == {"silent"}, "it is not reported as silent")
    check(str(int(old)) in scope(stage, "metrics", "--status-file", path), "its stamp is not that of the file")
    first = os.path.join(stage.at("standing"), "before.jsonl")
    make(first, text_at(path).replace('"renewed_each":10,', ""))
    os.utime(first, (old, old))
    check(names_of(stage, ("--status-file", first)) == {"lives"}, f"of version 0.3.0: {scope(stage, 'status', '--status-file', first)}")
    os.chmod(stage.at("standing"), 0o700)
    says(stage, ("next", "--status-file", path), f"is running (PID {launcher.pid})", "hourly  in")

    # A clock that was set, or a sleep, makes a file old for a moment: it is looked at again before it is called so.
    os.utime(path, (old, old))
    late = subprocess.Popen(["sh", "-c", 'sleep 0.7; touch "$1"', "sh", path])
    check("is running (PID" in scope(stage, "status", "--status-file", path), "a file that is renewed meanwhile is old")
    late.wait()
    launcher.shut_down()


def a_journal_that_closes(stage):
    """Its lock is let go, and no other: the launcher lives by its status file, and the journal says that nobody writes it, and foretells nothing."""
    launcher, path = serve(stage, shell="trap '' XFSZ")
    says(stage, ("why", "--journal", stage.at("journal")), f"is running (PID {launcher.pid})")
    limits = resource.prlimit(launcher.pid, resource.RLIMIT_FSIZE)
    resource.prlimit(launcher.pid, resource.RLIMIT_FSIZE, (os.path.getsize(stage.at("journal")), limits[1]))
    launcher.ask({"req": "start", "job": "hourly"})
    wait_for(lambda: "journal" in launcher.said(), "the journal was not closed")
    resource.prlimit(launcher.pid, resource.RLIMIT_FSIZE, limits)
    says(stage, ("why", "--journal", stage.at("journal")), GONE_BY_JOURNAL, without=("web is running", *FORETOLD))
    says(stage, ("next", "--journal", stage.at("journal")), "its journal closed", without=FORETOLD)
    says(stage, ("next", "--status-file", path), f"is running (PID {launcher.pid})", "hourly  in")
    with open(stage.at("journal"), encoding="utf-8") as journal:
        fcntl.flock(journal, fcntl.LOCK_EX | fcntl.LOCK_NB)
    locks = [path for path in (stage.at("socket.lock"), f"{path}.lock", stage.at("spool/jobd.lock")) if os.path.exists(path)]
    check(len(locks) >= 2, f"the other locks: {locks} {os.listdir(stage.folder)}")
    for lock in locks:
        check(stat.S_IMODE(os.stat(lock).st_mode) == 0o600, f"the mode of {lock}")
        with open(lock, encoding="utf-8") as file:
            try:
                fcntl.flock(file, fcntl.LOCK_EX | fcntl.LOCK_NB)
                check(False, f"{lock} is let go")
            except BlockingIOError:
                pass
    launcher.shut_down()


def no_launcher_for_a_while(stage):
    """`log` has a line for the end of the first journal, `runs` counts the time without a launcher as not up, and a moment within it has no launcher."""
    header = '{{"up":0,"wall":{},"zone":"UTC0"}}\n'
    load = json.dumps({"ev": "load", "def": json.dumps({"Label": "web", "Program": "/bin/web", "KeepAlive": True, "ThrottleInterval": 0})}) + "\n"
    run = '{"ev":"spawned","job":"web","run":1,"pid":5}\n'
    first, second = 1_795_600_000, 1_795_600_400
    older = make(stage.at("older"), header.format(first) + load + run + f'{{"ev":"clock","up":100000,"wall":{first + 100}}}\n')
    newer = make(stage.at("newer"), header.format(second) + load + run + f'{{"ev":"clock","up":100000,"wall":{second + 100}}}\n')
    both = ("--journal", older, "--journal", newer)
    says(stage, ("log", "--utc", *both), "the journal ends without a shutdown")
    row = scope(stage, "runs", *both).splitlines()[1].split("\t")
    # up for 100 s under each launcher, of the 500 s from its first load on; 300 s without one
    check(row[9:11] == ["40.0%", "300.000"], f"the share, and the longest time without a run: {row}")
    says(stage, ("why", "--utc", "--at", str(first + 200), *both), "No launcher ran then", "web was running at the journal's end.", without=("web is running",))
    says(stage, ("why", "--utc", "--at", str(first + 50), *both), "web is running", without=("No launcher ran",))
    says(stage, ("why", "--json", "--at", str(first + 200), *both), '"launcher":"none"', without=('"state":"running"',))

    ahead = make(stage.at("ahead"), header.format(first) + load + run + f'{{"ev":"clock","up":10000,"wall":{first + 3610}}}\n{{"ev":"clock","up":20000,"wall":{first + 20}}}\n')
    lines = scope(stage, "log", "--utc", "--journal", ahead)
    check("the wall clock went ahead by 1 h 0 min: it was set, or the machine slept\n" in lines, f"a clock that was set ahead: {lines!r}")
    check("the wall clock went back by 1 h 0 min: it was set\n" in lines, f"a clock that was set back: {lines!r}")
    even = make(stage.at("even"), header.format(first) + load + run + f'{{"ev":"clock","up":10000,"wall":{first + 11}}}\n{{"ev":"clock","up":3610000,"wall":{first + 3613}}}\n')
    check("the wall clock" not in scope(stage, "log", "--journal", even), "a clock that is corrected slowly counts as set")


SCENES = [a_launcher_that_is_stopped_or_killed, an_end_in_order, a_number_that_is_used_again, a_status_file_that_is_renewed, a_journal_that_closes, no_launcher_for_a_while]
