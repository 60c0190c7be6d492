#!/usr/bin/env python3
"""Plays scenes with the programs as their users run them: real children, files, sockets, clients and other launchers.

    tests/scenes/play.py [--by PROGRAM] [--second PROGRAM] [--at-once N] [--as-me] [--once] [--no-wake] [SCENE..]
    tests/scenes/play.py --jobd WORDS [--jobctl WORDS] [--jobscope WORDS] [--once] [SCENE..]

PROGRAM is the file of the three programs, build/jobd if none is given; with --second a few scenes (SECOND) are played by that one too, which the gate
made by Rattle's own compiler. A jobd-wake that lies beside PROGRAM is used, but with --no-wake; the scenes of waking.py have one in any case, if there is a C compiler. It plays as nobody, if it is started as root, over copies below TMPDIR, outside the repository; --as-me plays as root
there. WORDS start a program, with blanks between; then it plays as it was started. Without a SCENE all are played, N (a process each, as many as there are
processors) at a time. Each has a folder, a process and a limit of its own, and each process that it started is ended.

A scene ends well, or it is wrong, or it is late: a deadline passed (`pace.py`), or a launcher had no answer of a look-out in half a second. A late one is
played once more, alone. If it ends well then, it is listed as late, with what was said and how slow the machine was; if not, it has failed. More than 2 in
100 that are late are a failure too. With --once none is played again. Prints a line for each, and `N passed, M failed` at the end; the status is 1 if
one failed.
"""
import json
import os
import select
import shutil
import subprocess
import sys
import tempfile
import time
import types

sys.dont_write_bytecode = True
sys.path.insert(0, os.path.dirname(os.path.abspath(__file__)))
import apply
import clients
import hung
import jobctl
import jobs
import jobscope
import life
import limits
import places
import replies
import status
import stores
import telling
import users
import waking
import words
from harness import HERE, Stage, adopt_orphans, children_of, chosen, end_children, end_process, heed_signals, program_words
from pace import Deadline, Fault, Late, Pace, Probe

FILES = (clients, places, limits, replies, stores, telling, hung, jobs, jobctl, users, words, jobscope, status, life, apply, waking)
# The longest is begun first.
SCENES = [scene for file in FILES for scene in file.SCENES]
SCENES.sort(key=lambda scene: scene is not clients.a_client_still_for_a_minute)
# Played by the second compiler's program too: each program, and each kind of what it asks of the system.
SECOND = {
    "a_first_job_and_a_client", "two_jobs_at_once", "ends_of_jobs", "callers_of_jobs", "settings_outlive_the_launcher", "a_replay_of_one_clients_lines",
    "streams_of_children", "sights_and_the_clock", "requests_in_pieces", "settings_of_the_first_version", "each_command_makes_its_request",
    "jobscope_check", "jobscope_journal", "what_a_status_file_holds",
}
# How many seconds a scene may last, as the probe counts them; of those that are not here, LIMIT.
LIMIT = 120
LIMITS = {
    "a_client_still_for_a_minute": 240, "a_second_launcher": 240, "replies_that_nobody_takes": 240, "exits_that_the_helper_reports": 240, "no_reply_is_lost": 240,
}
# So many of a hundred may be late.
MAY_BE_LATE = 2
NOBODY = 65534
NAMES = ("jobd", "jobctl", "jobscope")


# ---- one scene, in a process of its own

def outcome_of(scene, given, place):
    """How the scene went in the folder: `ok`, `late` or `failed`, why, and what its launchers said."""
    os.mkdir(place)
    stage = Stage(given, place)
    kind, why, said = "ok", "", []
    try:
        scene(stage)
    except (Late, TimeoutError, subprocess.TimeoutExpired) as late:
        kind, why = "late", str(late)
    except Fault as fault:
        kind, why = "failed", str(fault)
    except Exception as error:  # a client that is cut off, or an answer of another form
        kind, why = "failed", f"{type(error).__name__}: {error} (line {error.__traceback__.tb_next.tb_lineno})"
    finally:
        if kind != "ok":
            said = [launcher.said()[-2000:] for launcher in stage.started]
        stage.clear()
    if kind == "failed" and any(": no answer" in text for text in said):
        # the machine stood, and the launcher refused rightly
        kind = "late"
    return {"kind": kind, "why": why.replace(place, "@"), "said": [text.replace(place, "@") for text in said if text]}


class Playing:
    """A scene that is being played."""

    def __init__(self, task, place, others):
        self.task, self.begun = task, time.monotonic()
        self.deadline = Deadline(LIMITS.get(task.name, LIMIT))
        self.pipe, told = os.pipe()
        self.text = b""
        sys.stdout.flush()
        self.pid = os.fork()
        if self.pid == 0:
            try:
                for other in (self.pipe, *others):
                    os.close(other)
                os.setsid()
                adopt_orphans()
                text = json.dumps(outcome_of(task.scene, task.given, place)).encode()
                with open(told, "wb") as out:
                    out.write(text)
                end_children()
            finally:
                os._exit(0)
        os.close(told)

    def has_ended(self):
        """Reads what there is; whether that was all."""
        piece = os.read(self.pipe, 65536)
        self.text += piece
        return not piece

    def end(self):
        """What came of it. It is ended if it goes on."""
        below = [self.pid, *children_of(self.pid)]
        if self.deadline.is_over() and not self.text:
            for pid in below:
                end_process(pid)
        _, status_of = os.waitpid(self.pid, 0)
        os.close(self.pipe)
        took = time.monotonic() - self.begun
        if self.text:
            got = json.loads(self.text)
        elif self.deadline.is_over():
            got = {"kind": "late", "why": f"it goes on after {self.deadline.bound} s", "said": []}
        else:
            got = {"kind": "failed", "why": f"its process ended with the status {status_of}", "said": []}
        return {**got, "took": took, "beside": Pace.probe.told(self.begun)}


class Task:
    """A scene, and the programs by which it is played."""

    def __init__(self, scene, given, by=""):
        self.scene, self.given, self.name = scene, given, scene.__name__
        self.title = self.name + by


def tell(word, task, got):
    """A line for the scene; if it did not end well, what was said too."""
    why = f": {got['why']}" if got["why"] else ""
    print(f"{word} {task.title}{why}".replace("\n", "\\n") + f" ({got['took']:.1f} s)", flush=True)
    if got["kind"] != "ok":
        print(f"    beside it {got['beside']}")
        for text in got["said"]:
            print("    it said " + repr(text), flush=True)


def play_all(tasks, folder, at_once, is_alone=False):
    """Plays the tasks, and gives those that are late and those that failed, each with what came of it."""
    left, playing, late, failed = list(tasks), [], [], []
    count = 0
    while left or playing:
        while left and len(playing) < at_once:
            place = os.path.join(folder, f"{'again' if is_alone else ''}{count}")
            playing.append(Playing(left.pop(0), place, [it.pipe for it in playing]))
            count += 1
        ready, _, _ = select.select([it.pipe for it in playing], [], [], 0.2)
        for one in list(playing):
            if (one.pipe in ready and one.has_ended()) or (one.deadline.is_over() and not one.text):
                playing.remove(one)
                got = one.end()
                if got["kind"] == "ok":
                    tell("ok", one.task, got)
                elif got["kind"] == "late" and not is_alone:
                    late.append((one.task, got))
                    tell("late, to be played once more:", one.task, got)
                else:
                    failed.append((one.task, got))
                    tell("FAILED", one.task, got)
    return late, failed


def play(tasks, folder, at_once, is_once):
    """Plays all, and those that were late once more. The numbers of those that passed and failed."""
    late, failed = play_all(tasks, folder, at_once, is_alone=is_once)
    if late:
        print(f"{len(late)} were late, and are played once more, each alone", flush=True)
    were_late = []
    for number, (task, got) in enumerate(late):
        place = os.path.join(folder, f"late{number}")
        os.mkdir(place)
        if not (again := play_all([task], place, 1, is_alone=True)[1]):
            were_late.append((task, got))
        failed += again
    for task, got in were_late:
        print(f"late {task.title}: {got['why']}".replace("\n", "\\n") + f"; beside it {got['beside']}")
    print(f"{len(were_late)} of {len(tasks)} scenes were late", flush=True)
    count = len(failed)
    if len(were_late) > max(1, MAY_BE_LATE * len(tasks) // 100):
        print(f"FAILED: more than {MAY_BE_LATE} in 100 were late", flush=True)
        count += 1
    return len(tasks) - len(failed), count


# ---- where they are played

def lay_out(room, by, second, has_wake):
    """Puts copies of the scenes, of the examples and of the programs, each under three names, into the folder."""
    shutil.copytree(HERE, f"{room}/tests/scenes", ignore=shutil.ignore_patterns("__pycache__"))
    shutil.copytree(f"{HERE}/../mistakes", f"{room}/tests/mistakes")
    shutil.copy(f"{HERE}/../mistakes.py", f"{room}/tests/mistakes.py")
    shutil.copytree(f"{HERE}/../../examples", f"{room}/examples")
    os.mkdir(f"{room}/contrib")
    shutil.copy(f"{HERE}/../../contrib/jobd-group", f"{room}/contrib/jobd-group")
    wake = f"{os.path.dirname(by)}/jobd-wake"
    for name, program in (("bin", by), ("second", second)):
        if program:
            os.mkdir(f"{room}/{name}")
            shutil.copyfile(program, f"{room}/{name}/program")
            os.chmod(f"{room}/{name}/program", 0o755)
            if has_wake and os.access(wake, os.X_OK):
                shutil.copyfile(wake, f"{room}/{name}/jobd-wake")
                os.chmod(f"{room}/{name}/jobd-wake", 0o755)
            for link in NAMES:
                os.symlink("program", f"{room}/{name}/{link}")
    os.mkdir(f"{room}/wake")
    if os.access(wake, os.X_OK):
        shutil.copyfile(wake, f"{room}/wake/jobd-wake")
    else:
        subprocess.run(["sh", f"{HERE}/../../packaging/wake.sh", f"{room}/wake"], stdin=subprocess.DEVNULL, stdout=subprocess.DEVNULL, check=True)
    os.mkdir(f"{room}/d", 0o700)


def python():
    """A Python that each user may start: that of the system, if it is there."""
    return "/usr/bin/python3" if os.access("/usr/bin/python3", os.X_OK) else sys.executable


def play_apart(given, words_of_it):
    """Plays over copies, in a folder outside the repository, as nobody if this is root. The status of that."""
    room = tempfile.mkdtemp(prefix="scenes-")
    try:
        os.chmod(room, 0o711)
        lay_out(room, given.by or f"{os.path.dirname(given.jobd[0])}/jobd", given.second, not given.no_wake)
        front = []
        if os.geteuid() == 0 and not given.as_me:
            front = ["setpriv", f"--reuid={NOBODY}", f"--regid={NOBODY}", "--clear-groups", "--no-new-privs"]
            if subprocess.run([*front, "true"], stdin=subprocess.DEVNULL, capture_output=True).returncode != 0:
                print("the scenes are played as nobody alone, and setpriv fails here\n0 passed, 1 failed")
                return 1
            for at, _, files in os.walk(room):
                for it in [at, *(f"{at}/{name}" for name in files)]:
                    os.lchown(it, NOBODY, NOBODY)
        around = {"PATH": "/usr/local/bin:/usr/bin:/bin", "HOME": f"{room}/d", "TMPDIR": f"{room}/d", "LANG": "C.UTF-8"}
        around.update({key: os.environ[key] for key in ("BOUND",) if key in os.environ})
        command = ["sh", "-c", 'ulimit -c 0; exec "$@"', "", *front, python(), f"{room}/tests/scenes/play.py", "--within", room, *words_of_it]
        return subprocess.run(command, cwd=f"{room}/d", env=around, stdin=subprocess.DEVNULL).returncode
    finally:
        shutil.rmtree(room, ignore_errors=True)


def read_words():
    reader = program_words(description="Plays scenes (see the top of this file).")
    reader.add_argument("--by", metavar="PROGRAM")
    reader.add_argument("--second", metavar="PROGRAM")
    reader.add_argument("--at-once", type=int, default=len(os.sched_getaffinity(0)))
    reader.add_argument("--as-me", action="store_true")
    reader.add_argument("--once", action="store_true")
    reader.add_argument("--no-wake", action="store_true", help="the launchers have no jobd-wake")
    reader.add_argument("--within", metavar="FOLDER", help="where all is laid out")
    return reader, reader.parse_args()


def programs_in(folder):
    return types.SimpleNamespace(**{name: [f"{folder}/{name}"] for name in NAMES})


def tasks_of(given, scenes):
    """The scenes by the program, and a few by the second one if there is one."""
    if not given.within:
        return [Task(scene, given) for scene in scenes]
    tasks = [Task(scene, programs_in(f"{given.within}/bin")) for scene in scenes]
    if os.path.isdir(f"{given.within}/second"):
        second = programs_in(f"{given.within}/second")
        tasks += [Task(scene, second, " (by the second compiler's program)") for scene in scenes if scene.__name__ in SECOND]
    return tasks


def main():
    reader, given = read_words()
    scenes = chosen(reader, given, SCENES)
    for path in filter(None, (given.by, given.second)):
        if not os.path.isfile(path):
            reader.error(f"there is no file {path}")
    if not given.within and not any(word.startswith("--jobd") for word in sys.argv[1:]):
        flags = ["--at-once", str(given.at_once), *(["--once"] if given.once else []), *given.names]
        return play_apart(given, flags)
    heed_signals()
    adopt_orphans()
    folder = tempfile.mkdtemp(prefix="s")
    Pace.probe = Probe(folder)
    try:
        passed, failed = play(tasks_of(given, scenes), folder, max(1, given.at_once), given.once)
    finally:
        Pace.probe.end()
        end_children()
        shutil.rmtree(folder, ignore_errors=True)
    print(f"{passed} passed, {failed} failed", flush=True)
    return 1 if failed else 0


if __name__ == "__main__":
    sys.exit(main())
