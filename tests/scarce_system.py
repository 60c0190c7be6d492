#!/usr/bin/env python3
"""A launcher on a system that has nothing left: it goes on, says what it was refused, and works again once there is some.

    tests/scarce_system.py [--jobd PROGRAM] [--jobctl PROGRAM] [--at-once N] [TRIAL..]

It is run by hand, after `make build`; PROGRAM is build/jobd. Each trial has a launcher and a folder of its own.

    few_descriptors        `ulimit -n` of 3 to 64 at the start: refused with a line, or ready, and then asked, told to start a job and ended
    no_descriptors         the limit sinks while it runs, to as many free descriptors as 0 to 8
    no_processes           no further process: starts and TERM are refused and told, KILL is not
    little_memory          the limit of memory sinks while it runs (not with a sanitizer, which has to have it all)
    no_memory              no memory at all is had for a clock reading that crosses a minute: told once, and the jobs start later (needs cc, and a minute)
    a_full_disk_at_start   no room for the journal, the store or the spool
    a_full_disk            the journal, the store or the spool get no room any more, and get it again
    short_files            a limit on the size of files, where SIGXFSZ is ignored

The disks are small file systems in memory, mounted in a private namespace: as root, or where users may have namespaces. Where nobody may,
these two trials are skipped, and it is said. As root the trial of processes runs the launcher as user 65534.

Each prints `ok NAME`, `skipped NAME: why` or `FAILED NAME: why`; the last line counts, and the status is 1 if one failed.
"""
import argparse
import concurrent.futures
import json
import os
import resource
import shutil
import subprocess
import sys
import tempfile
import time

sys.dont_write_bytecode = True
HERE = os.path.dirname(os.path.abspath(__file__))
sys.path.insert(0, os.path.join(HERE, "scenes"))
from harness import (  # noqa: E402
    Fault, Stage, adopt_orphans, call, check, chosen, comes, connect, end_children, first_free, program_words, shell_job, sized,
    socket_job, text_at, wait_for,
)

NOBODY = 65534
# Set where the script runs within a namespace of its own, to the user that it is outside.
WITHIN = "SCARCE_SYSTEM_WITHIN"


class Skipped(Exception):
    """Why a trial can't be made here."""


def runs(launcher, stage, label):
    """A new job writes its file."""
    mark = stage.at(f"{label}.mark")
    launcher.load(shell_job(label, f"echo run > {mark}", RunAtLoad=True))
    check(comes(lambda: text_at(mark) == "run\n"), f"the job {label} does not start: {launcher.said()[-300:]!r}")


def starts_or_tells(launcher, stage, label):
    """A new job writes its file, or why it did not start is said."""
    mark = stage.at(f"{label}.mark")
    launcher.load(shell_job(label, f"echo run > {mark}", RunAtLoad=True))
    fact = lambda: text_at(mark) or launcher.lines(f"jobd: {label}: run 1: ")
    check(comes(fact), f"the job {label} does not start, and nothing is said of it: {launcher.said()[-300:]!r}")


def clean(launcher):
    """Nothing but lines of the launcher's own was said."""
    strange = [line for line in launcher.said().splitlines() if not line.startswith("jobd: ")]
    check(not strange, f"lines of another form: {strange[:2]}")


# ---- descriptors

def few_descriptors(stage):
    told, numbers = [], [*range(3, 24), 28, 32, 40, 48, 64]
    for number in numbers:
        places = {"socket": f"socket{number}", "store": f"store{number}", "spool": f"spool{number}", "journal": f"journal{number}"}
        os.mkdir(stage.at(places["spool"]), 0o700)
        launcher = stage.start(shell=f"ulimit -n {number}", **places)
        if launcher.is_ready():
            told.append(number)
            launcher.answers(f"with {number} descriptors")
            starts_or_tells(launcher, stage, f"job{number}")
            launcher.shut_down()
        else:
            status = launcher.ends()
            check(status > 0, f"with {number} descriptors it ended with {status}: {launcher.said()!r}")
            # The system's own linker speaks where there are too few to load the program.
            check(launcher.said(), f"with {number} descriptors it ended with {status} and said nothing")
            check(not os.path.exists(launcher.path), f"with {number} descriptors it was refused, and left its socket")
    check(told, "it serves with no number of descriptors up to 64")
    check(told == [number for number in numbers if number >= told[0]], f"of these numbers it serves with {told} alone")
    return f"ready from {told[0]} descriptors on"


def no_descriptors(stage):
    launcher = stage.serve(journal="journal")
    launcher.load(shell_job("lasting", "exec sleep 1000", RunAtLoad=True))
    launcher.load(socket_job(stage, "cat", ["/bin/cat"]))
    launcher.tells("lasting", "pid = ")
    limits = resource.prlimit(launcher.pid, resource.RLIMIT_NOFILE)
    for spare in range(9):
        with connect(launcher.path) as client:
            launcher.ask_over(client, {"req": "list"})
            resource.prlimit(launcher.pid, resource.RLIMIT_NOFILE, (first_free(launcher.pid) + spare, limits[1]))
            label = f"job{spare}"
            mark = stage.at(f"{label}.mark")
            job = json.dumps(shell_job(label, f"echo run > {mark}", RunAtLoad=True))
            check(launcher.ask_over(client, {"req": "load", "def": job})["code"] == 0, "a load is refused")
            fact = lambda: text_at(mark) or launcher.lines(f"jobd: {label}: run 1: ")
            check(comes(fact), f"with {spare} free descriptors {label} does not start, and nothing is said: {launcher.said()[-300:]!r}")
            check(launcher.ask_over(client, {"req": "disable", "job": "x"})["code"] in (0, 9), "a setting got another code")
            resource.prlimit(launcher.pid, resource.RLIMIT_NOFILE, limits)
        check(call(stage.at("cat"), b"hello") == b"hello", f"after {spare} free descriptors a client is not served")
        launcher.ask({"req": "kickstart", "job": label})
        wait_for(lambda: text_at(mark), f"after {spare} free descriptors {label} does not start")
    launcher.ask({"req": "stop", "job": "lasting"})
    launcher.tells("lasting", "last exit = signal 15")
    launcher.shut_down()
    clean(launcher)
    check(stage.replay("journal").returncode == 0, "the journal can't be replayed")


# ---- processes

def as_nobody(given, stage):
    """The words that start the launcher as somebody whose processes can be counted."""
    if int(os.environ.get(WITHIN, os.geteuid())) != 0:
        return given.jobd
    for name in ("", "spool"):
        os.chown(stage.at(name), NOBODY, NOBODY)
    program = shutil.copy(given.jobd[0], stage.at("jobd"))
    os.chmod(program, 0o755)
    into = f"import os, sys; os.setgroups([]); os.setgid({NOBODY}); os.setuid({NOBODY}); os.execv(sys.argv[1], sys.argv[1:])"
    return [sys.executable, "-I", "-S", "-c", into, program, *given.jobd[1:]]


def no_processes(stage):
    words = as_nobody(stage.given, stage)
    stage.given = argparse.Namespace(**{**vars(stage.given), "jobd": words})
    launcher = stage.serve()
    deaf = stage.at("spool/deaf")
    launcher.load(shell_job("lasting", "exec sleep 1000", RunAtLoad=True, ExitTimeOut=2))
    launcher.load(shell_job("deaf", f"trap '' TERM; : > {deaf}; exec sleep 1000", RunAtLoad=True, ExitTimeOut=2))
    launcher.tells("lasting", "state = running")
    wait_for(lambda: os.path.exists(deaf), "the job does not start")
    try:
        limits = resource.prlimit(launcher.pid, resource.RLIMIT_NPROC)
        resource.prlimit(launcher.pid, resource.RLIMIT_NPROC, (1, limits[1]))
    except PermissionError:
        launcher.shut_down()
        raise Skipped("nobody here may limit the processes of another user") from None
    launcher.load(shell_job("new", ":", RunAtLoad=True, KeepAlive=True, ThrottleInterval=1))
    told = lambda: [line for line in launcher.lines("jobd: new: run 1: ") if "Resource temporarily unavailable (os error 11)" in line]
    check(comes(told), f"the refused start is not told: {launcher.said()!r}")
    for label in ("lasting", "deaf"):
        launcher.ask({"req": "stop", "job": label})
    check(comes(lambda: launcher.lines("jobd: lasting: ")), f"the refused TERM is not told: {launcher.said()!r}")
    for label in ("lasting", "deaf"):
        launcher.tells(label, "last exit = signal 9")
    launcher.answers("without processes")
    check(len(launcher.lines("jobd: new: ")) == 1, f"a refusal that repeats is told as {launcher.lines('jobd: new: ')[:3]}")
    resource.prlimit(launcher.pid, resource.RLIMIT_NPROC, limits)
    launcher.tells("new", "last exit = code 0")
    launcher.shut_down()
    clean(launcher)


# ---- memory

def little_memory(stage):
    launcher = stage.serve(journal="journal")
    if launcher.has_sanitizer():
        launcher.shut_down()
        raise Skipped("the program was built with a sanitizer")
    launcher.load(socket_job(stage, "cat", ["/bin/cat"]))
    limits, refused = resource.prlimit(launcher.pid, resource.RLIMIT_AS), 0
    for number, spare in enumerate((0, 4, 16, 64, 128, 256, 512, 1024, 2048, 4096, 16384)):
        resource.prlimit(launcher.pid, resource.RLIMIT_AS, (sized(launcher.pid, "VmSize") + 1024 * spare, limits[1]))
        definition = json.dumps({**shell_job(f"job{number}", ":"), "EnvironmentVariables": {f"X{key}": "x" * 4000 for key in range(50)}})
        for request in ({"req": "load", "def": definition}, {"req": "list"}, {"req": "disable", "job": f"x{number}"}):
            try:
                reply = launcher.ask(request)
                check(reply["code"] in (0, 1, 9), f"{request['req']} got {reply}")
                refused += reply["code"] != 0
            except Fault as fault:
                # A client for whose line or reply there is no memory is let go, and that is told.
                check("closed" in str(fault) and launcher.lines("no memory"), str(fault))
                refused += 1
        try:
            call(stage.at("cat"), b"x" * 65000)
        except OSError:
            refused += 1
        resource.prlimit(launcher.pid, resource.RLIMIT_AS, limits)
        launcher.answers(f"after {spare} KiB of memory")
        check(call(stage.at("cat"), b"hello") == b"hello", f"after {spare} KiB of memory a client is not served")
    runs(launcher, stage, "last")
    launcher.shut_down()
    clean(launcher)
    replayed = stage.replay("journal").returncode
    check(replayed == 0, f"the journal replays with {replayed}")
    return f"{refused} calls refused"


def no_memory(stage):
    if not shutil.which("cc"):
        raise Skipped("there is no cc")
    library, absent = stage.at("calls.so"), stage.at("absent")
    subprocess.run(["cc", "-shared", "-fPIC", "-O1", "-o", library, os.path.join(HERE, "broken_calls.c")], check=True)
    launcher = stage.serve(env={"LD_PRELOAD": library, "BREAK": "memory_is_refused", "NO_MEMORY": absent})
    line = "a clock reading was refused: no memory"
    for number in range(20):
        launcher.load({"Label": f"job{number}", "ProgramArguments": ["/bin/true"], "StartCalendarInterval": [{"Minute": minute} for minute in range(60)]})
    time.sleep((57 - time.time()) % 60)
    with open(absent, "w", encoding="ascii"):
        pass
    time.sleep(6)
    os.remove(absent)
    check(comes(lambda: launcher.lines(line)), f"it is not told: {launcher.said()[-600:]!r}")
    launcher.tells("job0", "runs = 1")
    runs(launcher, stage, "last")
    check(len(launcher.lines(line)) == 1, f"it is told again: {launcher.said()[-600:]!r}")
    launcher.shut_down()


# ---- disks

class Disk:
    """A small disk, mounted at a folder of this name."""

    def __init__(self, stage, name, size):
        if WITHIN not in os.environ:
            raise Skipped("nobody here may mount")
        self.path = stage.at(name)
        os.mkdir(self.path, 0o700)
        subprocess.run(["mount", "-t", "tmpfs", "-o", f"size={size},mode=700", "tmpfs", self.path], check=True)

    def fill(self):
        with open(f"{self.path}/fill", "wb", buffering=0) as file:
            size = 4096
            while size:
                try:
                    file.write(b"x" * size)
                except OSError:
                    size //= 2

    def free(self):
        os.remove(f"{self.path}/fill")

    def unmount(self):
        subprocess.run(["umount", "-l", self.path], check=False)


def a_full_disk_at_start(stage):
    disk = Disk(stage, "disk", "64k")
    try:
        os.mkdir(stage.at("disk/spool"), 0o700)
        disk.fill()
        for option, name in (("journal", "disk/journal"), ("store", "disk/store"), ("spool", "disk/spool")):
            launcher = stage.start(**{option: name})
            if launcher.is_ready():
                launcher.answers(f"with no room for the {option}")
                runs(launcher, stage, option)
                launcher.shut_down()
            else:
                status = launcher.ends()
                check(status in (5, 8), f"with no room for the {option} it ended with {status}: {launcher.said()!r}")
            check(option == "spool" or launcher.said(), f"with no room for the {option} nothing is said")
            clean(launcher)
    finally:
        disk.unmount()


def a_full_journal(stage):
    disk = Disk(stage, "journals", "64k")
    try:
        launcher = stage.serve(journal="journals/journal")
        disk.fill()
        for number in range(400):
            launcher.ask({"req": "disable", "job": f"label{number}"})
        check(comes(lambda: launcher.lines("journal")), f"a full journal is not told: {launcher.said()!r}")
        runs(launcher, stage, "beside")
        disk.free()
        launcher.answers("with room again")
        launcher.shut_down()
        check(len(launcher.lines("journal")) == 1, f"a full journal is told as {launcher.lines('journal')[:3]}")
        replayed = stage.replay("journals/journal")
        check(replayed.returncode == 0 and replayed.stdout, f"what the journal has is replayed with {replayed.returncode}")
    finally:
        disk.unmount()


def a_full_store(stage):
    # The store's log takes 256 KiB beforehand.
    disk = Disk(stage, "stores", "512k")
    try:
        launcher = stage.serve(store="stores/store")
        check(launcher.ask({"req": "disable", "job": "kept"})["code"] == 0, "a setting is refused")
        disk.fill()
        codes = [launcher.ask({"req": "disable", "job": "x" * 250 + f"{number:04d}"})["code"] for number in range(200)]
        check(set(codes) <= {0, 9} and codes[-1] == 9, f"with no room for the store settings get the codes {sorted(set(codes))}")
        runs(launcher, stage, "beside")
        disk.free()
        code = launcher.ask({"req": "disable", "job": "later"})["code"]
        check(code == 0, f"with room again a setting gets code {code}")
        launcher.shut_down()
        shown = stage.run(["overrides", "--store", "stores/store"])
        labels = [line.split("\t")[0] for line in shown.stdout.splitlines()]
        wanted = sorted(["kept", "later"] + ["x" * 250 + f"{number:04d}" for number, code in enumerate(codes) if code == 0])
        check(labels == wanted, f"the store has {len(labels)} labels, and {len(wanted)} were acknowledged: {shown.stderr!r}")
    finally:
        disk.unmount()


def a_full_spool(stage):
    disk = Disk(stage, "spools", "64k")
    try:
        launcher = stage.serve(spool="spools")
        launcher.load(socket_job(stage, "cat", ["/bin/cat"]))
        check(call(stage.at("cat"), b"hello") == b"hello", "a client is not served")
        disk.fill()
        got = call(stage.at("cat"), b"x" * 60000)
        check(got != b"x" * 60000, "a reply came from a disk that is full")
        check(comes(lambda: launcher.lines("No space left on device")), f"a full spool is not told: {launcher.said()!r}")
        runs(launcher, stage, "beside")
        disk.free()
        check(call(stage.at("cat"), b"hello") == b"hello", "with room again a client is not served")
        launcher.shut_down()
        check(not os.listdir(stage.at("spools")), f"the spool is left with {os.listdir(stage.at('spools'))}")
        clean(launcher)
    finally:
        disk.unmount()


def a_full_disk(stage):
    for trial in (a_full_journal, a_full_store, a_full_spool):
        trial(stage)


def short_files(stage):
    """512 bytes a unit."""
    limit = "trap '' XFSZ; ulimit -f"
    launcher = stage.serve(shell=f"{limit} 640", journal="journal")
    for number in range(1500):
        launcher.ask({"req": "start", "job": "x" * 250})
    check(comes(lambda: launcher.lines("journal")), f"a journal that may not grow is not told: {launcher.said()!r}")
    runs(launcher, stage, "beside")
    launcher.shut_down()
    launcher = stage.serve(shell=f"{limit} 640", store="store2")
    codes = [launcher.ask({"req": "disable", "job": "x" * 250 + f"{number:04d}"})["code"] for number in range(600)]
    check(set(codes) <= {0, 9}, f"with a store that may not grow settings get the codes {sorted(set(codes))}")
    launcher.shut_down()
    shown = stage.run(["overrides", "--store", "store2"])
    check(len(shown.stdout.splitlines()) == codes.count(0), f"{codes.count(0)} settings were acknowledged: {shown.stderr!r}")
    # No store is opened under so low a limit.
    launcher = stage.serve(shell="trap '' XFSZ", store="store3")
    resource.prlimit(launcher.pid, resource.RLIMIT_FSIZE, (32768, resource.prlimit(launcher.pid, resource.RLIMIT_FSIZE)[1]))
    launcher.load(socket_job(stage, "cat", ["/bin/cat"]))
    call(stage.at("cat"), b"x" * 60000)
    check(comes(lambda: launcher.lines("jobd: cat: ")), f"a request that may not be kept is not told: {launcher.said()!r}")
    check(call(stage.at("cat"), b"hello") == b"hello", "a short request is not served")
    launcher.shut_down()
    clean(launcher)


TRIALS = [few_descriptors, no_descriptors, no_processes, little_memory, no_memory, a_full_disk_at_start, a_full_disk, short_files]


def play(given, folder, trial):
    place = os.path.join(folder, trial.__name__)
    os.mkdir(place)
    os.chmod(place, 0o711)
    stage = Stage(given, place)
    try:
        said = trial(stage)
        line = f"ok {trial.__name__}{': ' + said if said else ''}"
    except Skipped as why:
        line = f"skipped {trial.__name__}: {why}"
    except Fault as fault:
        line = f"FAILED {trial.__name__}: {fault}"
    except Exception as error:
        line = f"FAILED {trial.__name__}: {type(error).__name__}: {error} (line {error.__traceback__.tb_next.tb_lineno})"
    finally:
        stage.clear()
    return line.replace(folder, "@")


def go_within():
    """Starts this script anew in a mount namespace of its own, if that can be had."""
    if WITHIN in os.environ or not shutil.which("unshare"):
        return
    for words in (["--mount"], ["--user", "--map-root-user", "--mount"]):
        words = ["unshare", *words, "--propagation", "private"]
        if (os.geteuid() == 0) == ("--user" not in words) and subprocess.run([*words, "true"], capture_output=True).returncode == 0:
            os.environ[WITHIN] = str(os.geteuid())
            os.execvp("unshare", [*words, sys.executable, os.path.abspath(__file__), *sys.argv[1:]])


def read_words():
    words = program_words(usage="see the head of this script")
    words.add_argument("--at-once", type=int, default=4)
    given = words.parse_args()
    return given, chosen(words, given, TRIALS)


def main():
    given, trials = read_words()
    go_within()
    adopt_orphans()
    folder, failed = tempfile.mkdtemp(prefix="scarce."), 0
    os.chmod(folder, 0o711)
    try:
        with concurrent.futures.ThreadPoolExecutor(given.at_once) as pool:
            for line in pool.map(lambda trial: play(given, folder, trial), trials):
                failed += line.startswith("FAILED")
                print(line, flush=True)
    finally:
        end_children()
        shutil.rmtree(folder, ignore_errors=True)
    print(f"{len(trials)} trials, {failed} failed")
    return 1 if failed else 0


if __name__ == "__main__":
    sys.exit(main())
