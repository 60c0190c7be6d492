"""Scenes of `jobscope`: what it writes over worked inputs, word for word. A scene is a folder of `scope/`, in which the program runs once
for each case of the folder's file `cases`.

A case begins with a line `=== NAME`; its parts follow, each behind a line of its own: `--- words`, a word a line; `--- environment`,
`NAME=VALUE` a line; `--- input`, what is read from standard input; `--- output` and `--- error`, what is wanted on the two streams;
`--- status`, the wanted exit status. A part that is absent is empty, and the status then 0.

`play.py` plays them; `harness.py` has what all scenes share.
"""
import fcntl
import json
import os
import pwd
import re
import shutil
import socket
import subprocess
import sys
import tempfile

from harness import BOUND, HERE, Late, check, in_time, make, patience, seconds, sees_all, text_at, wait_for
from pictures import faults_of

# A case may look through years minute by minute.
LONGEST = 6 * BOUND


class Case:
    """One case of a file: its name, and its parts by the words of the lines before them."""

    def __init__(self, text):
        self.name, _, self.text = text.partition("\n")

    def part(self, name):
        """The part of this name, with the newline of its last line."""
        _, _, rest = self.text.partition(f"--- {name}\n")
        if rest.startswith("--- "):
            return ""
        front, parted, _ = rest.partition("\n--- ")
        return front + "\n" if parted else rest

    def lines(self, name):
        return self.part(name).removesuffix("\n").split("\n") if self.part(name) else []

    def wanted(self):
        """The exit status, and the bytes of both streams."""
        status = self.part("status").strip() or "0"
        return int(status), self.part("output").encode(), self.part("error").encode()


def came(stage, folder, case):
    """What the program ends with and writes, in the folder of the case."""
    around = {key: value for key, value in os.environ.items() if key not in ("JOBD_JOURNAL", "JOBD_SOCKET", "JOBD_STATUS_FILE", "COLUMNS", "NO_COLOR", "HOME", "LOGNAME")}
    around.update(line.split("=", 1) for line in case.lines("environment"))
    command = [*stage.given.jobscope, *case.lines("words")]
    try:
        ran = subprocess.run(command, cwd=folder, env=around, input=case.part("input").encode(), capture_output=True, timeout=patience(LONGEST))
    except subprocess.TimeoutExpired:
        raise Late(f"{case.name}: no end in time") from None
    return ran.returncode, ran.stdout, ran.stderr


def told(case, got):
    """The line for a case that did not come out as wanted: what differs, and what came."""
    names = ("status", "output", "error")
    parts = [f"{name} {seen!r} for {wanted!r}" for name, seen, wanted in zip(names, got, case.wanted()) if seen != wanted]
    return f"{case.name}: {', '.join(parts)}"


def play_cases(stage, name):
    """Each case of this folder comes out as wanted; those that do not are told."""
    folder = os.path.join(HERE, "scope", name)
    play(stage, folder, text_at(os.path.join(folder, "cases")))


def play(stage, folder, text):
    """Each case of the text comes out as wanted in the folder; those that do not are told."""
    cases = [Case(text) for text in text.split("=== ")[1:]]
    check(cases, f"no case for {folder}")
    others = [(case, got) for case in cases if (got := came(stage, folder, case)) != case.wanted()]
    check(not others, f"{len(others)} of {len(cases)} are not as wanted:\n" + "\n".join(told(*other) for other in others))


def the_first_journal_is_told(stage):
    """`jobscope log` says of the journal of `make run` what `make run` shows."""
    examples = os.path.join(HERE, "..", "..", "examples")
    ran = subprocess.run([*stage.given.jobscope, "log", "--journal", f"{examples}/first.jsonl"], capture_output=True, timeout=patience(), text=True)
    # (one of its starts was refused)
    note = f"jobscope: {examples}/first.jsonl: read without its launcher's status file: why starts were refused is not known\n"
    got, wanted = (ran.returncode, ran.stdout, ran.stderr), (0, text_at(f"{examples}/first.log"), note)
    if not sees_all():
        # (that nobody writes the journal is not known there)
        got, wanted = (got[1].splitlines()[:-1], got[2]), (wanted[1].splitlines()[:-1], wanted[2])
    check(got == wanted, f"it says {got}, and {wanted} is kept")


def jobscope_check(stage):
    """`jobscope check` over definitions, folders of them, and files that are none."""
    script = os.path.join(HERE, "scope", "check", "lost.sh")
    if not os.access(script, os.X_OK):
        # (a copy may have lost the mode)
        os.chmod(script, 0o755)
    play_cases(stage, "check")


# ---- mistakes

# The zone and the second in which the mistakes are made: its clock skips an hour on 31 March, and shows one twice on 27 October.
IN_2026 = ("--zone", "XST-1XDT,J90/2,J300/3", "--now", "1795602000")

# `FILE:LINE:COLUMN (KEYS): `
FRONT = re.compile(r"^-(:\d+:\d+)?( \(\S*\))?: ")


def checked(stage, text, folder):
    """What `check -` says of the text, without the places."""
    command = [*stage.given.jobscope, "check", *IN_2026, "-"]
    ran = subprocess.run(command, cwd=folder, input=text.encode(), capture_output=True, timeout=patience(LONGEST))
    return [FRONT.sub("", line) for line in ran.stdout.decode().splitlines()]


def parted(name):
    """The cases of a file of `scope/`: of each the name, the text, and the lines behind `--- told`."""
    for case in text_at(os.path.join(HERE, "scope", name)).split("=== ")[1:]:
        title, _, rest = case.partition("\n")
        text, _, told = rest.partition("\n--- told\n")
        yield title, text, told


def laid_out(folder):
    """What definitions name: scripts that can't be started, a FIFO, and a socket that waits."""
    for name, text in (("bare.sh", "echo\n"), ("crlf.sh", "#!/bin/sh\r\necho\r\n"), ("lost.sh", "#!/nowhere/interpreter\n")):
        path = os.path.join(folder, name)
        with open(path, "w", newline="") as file:
            file.write(text)
        os.chmod(path, 0o755)
    os.mkfifo(os.path.join(folder, "fifo"))
    waits = socket.socket(socket.AF_UNIX)
    waits.bind(os.path.join(folder, "socket"))
    waits.listen()
    return waits


def jobscope_mistakes(stage):
    """`jobscope check` tells each of a hundred mistakes, as it was worded by hand."""
    folder = os.path.join(stage.folder, "named")
    os.mkdir(folder)
    with laid_out(folder), socket.create_server(("127.0.0.1", 0)) as server:
        port = str(server.getsockname()[1])
        silent = []
        for title, text, told in parted("mistakes"):
            text, told = (part.replace("FOLDER", folder).replace("PORT}", f"{port}}}").replace("port PORT", f"port {port}") for part in (text, told))
            lines = checked(stage, text, folder)
            silent += [f"{title}: {line!r} is not among {lines}" for line in told.splitlines() if line not in lines]
    check(not silent, "\n".join(silent))


def jobscope_corpus(stage):
    """Of 356 mistakes that people make `jobscope check` tells nine in ten, and it has no false alarm for 291 files that are right."""
    ran = subprocess.run(
        [sys.executable, os.path.join(HERE, "..", "mistakes.py"), "-v", *stage.given.jobscope], capture_output=True, timeout=patience(LONGEST), text=True
    )
    check(ran.returncode == 0, f"{ran.stdout}{ran.stderr}")


# What may be said of a definition of a package on a machine that has not installed it.
LACKS = re.compile(
    "warning: ((the program|the script|the folder) \\S* is (not there$|in no folder of)|"
    "(WorkingDirectory|StandardInPath|StandardOutPath|StandardErrorPath|QueueDirectories|Sockets): \\S* is not there$)"
)


def jobscope_well(stage):
    """`jobscope check` has no warning for definitions of packages, but of what is not on this machine."""
    faults = []
    for title, text, _ in parted("well"):
        wrong = [line for line in checked(stage, text, stage.folder) if line.startswith(("warning", "error", "also")) and not LACKS.match(line)]
        faults += [f"{title}: {line}" for line in wrong]
    check(not faults, "\n".join(faults))


def jobscope_cron(stage):
    """`jobscope cron` over lines of crontabs."""
    play_cases(stage, "cron")


def a_line_too_long(stage):
    """`why`, `runs` and `picture` tell what stands before a line that is too long, and that it is."""
    lines = [HEADER, load_of("web"), '{"ev":"start","job":"web"}\n', " " * 262145 + "\n", '{"ev":"spawned","job":"web","run":1,"pid":5}\n']
    path = make(stage.at("long"), "".join(lines))
    ran = subprocess.run([*stage.given.jobscope, "why", "--journal", path], capture_output=True, timeout=patience(), text=True)
    told = f"jobscope: {path}: line 4: longer than 262144 bytes; the output covers the lines before it\n"
    awaited = "The start of run 1 was ordered, and the answer is awaited."
    check((ran.returncode, ran.stderr) == (65, told), f"a line too long got {ran.returncode} {ran.stderr!r}")
    check(awaited in ran.stdout, f"before a line too long stood {ran.stdout!r}")
    for word, wanted in (("runs", "\nweb\t1\t0\t"), ("picture", ">web<title>web</title></text>")):
        it = subprocess.run([*stage.given.jobscope, word, "--journal", path], capture_output=True, timeout=patience(), text=True)
        check((it.returncode, it.stderr) == (65, told), f"{word}: a line too long got {it.returncode} {it.stderr!r}")
        check(wanted in it.stdout, f"{word}: before a line too long stood {it.stdout!r}")


def a_journal_put_aside(stage):
    """`log -f` reads a journal that is put aside to its end, and goes on in the one that takes its place."""
    path, shown = make(stage.at("followed"), HEADER + load_of("web")), stage.at("shown")
    with open(shown, "w", encoding="utf-8") as out, open(path, "a", encoding="utf-8") as journal:
        running = subprocess.Popen([*stage.given.jobscope, "log", "-f", "--journal", path], stdout=out, stderr=subprocess.DEVNULL)
        try:
            wait_for(lambda: "web: loaded" in text_at(shown), "the journal was not shown")
            journal.write('{"ev":"start","job":"web"}\n')
            journal.flush()
            os.rename(path, stage.at("aside"))
            make(path, HEADER.replace("1795611777", "1795611877") + load_of("mail"))
            wait_for(lambda: "mail: loaded" in text_at(shown), "the journal that took its place was not shown")
        finally:
            running.kill()
            running.wait()
    check("web: start was asked" in text_at(shown), f"the end of the first journal is not in {text_at(shown)!r}")


# The header of a journal in a zone without daylight saving, and the load of a job that nothing wants.
HEADER = '{"up":0,"wall":1795611777,"zone":"CET-1"}\n'


def load_of(label):
    return json.dumps({"ev": "load", "def": json.dumps({"Label": label, "Program": "/bin/true"})}) + "\n"


def ran(stage, words, given=b""):
    """What the program ends with and writes, with no home folder in its environment."""
    around = {key: value for key, value in os.environ.items() if key not in ("HOME", "LOGNAME")}
    it = subprocess.run([*stage.given.jobscope, *words], env=around, input=given, capture_output=True, timeout=patience(LONGEST))
    return it.returncode, it.stdout.decode(), it.stderr.decode()


# A file of `jobscope cron --into`: each key and member in a line of its own.
LAID_OUT = """{
  "Label": "cron.2.nightly",
  "ProgramArguments": [
    "/bin/sh",
    "-c",
    "tick"
  ],
  "EnvironmentVariables": {
    "SHELL": "/bin/sh"
  },
  "StartCalendarInterval": [
    {
      "Minute": 30,
      "Hour": 3
    }
  ]
}
"""
LOST = "cron:2: note: no --logs: what the jobs write is lost, which cron mailed; --logs FOLDER keeps it\n"


def jobscope_cron_files(stage):
    """`jobscope cron --into` makes a file of each definition and writes over none, and refuses what no load takes."""
    with tempfile.TemporaryDirectory() as folder:
        lines = b"# nightly\n30 3 * * * tick\n@reboot boot\n"
        check((got := ran(stage, ["cron", "--into", folder, "-"], lines)) == (0, "", LOST), f"cron --into: {got}")
        names = sorted(os.listdir(folder))
        check(names == ["cron.2.nightly.json", "cron.3.boot.json"], f"files: {names}")
        check((text := text_at(f"{folder}/{names[0]}")) == LAID_OUT, f"laid out: {text!r}")
        with open(f"{folder}/{names[1]}", "w", encoding="utf-8") as it:
            it.write("mine")
        os.remove(f"{folder}/{names[0]}")
        status, output, error = ran(stage, ["cron", "--into", folder, "-"], lines)
        check((status, output) == (65, "") and f"jobscope: {folder}/{names[1]}: " in error, f"over a file: {status} {output!r} {error!r}")
        check(text_at(f"{folder}/{names[1]}") == "mine", "a file was written over")
        check(os.path.exists(f"{folder}/{names[0]}"), "the others were not written")
    check((got := ran(stage, ["cron", "--into", folder, "@daily tick"]))[0] == 65, f"a folder that is not there: {got}")
    for length, status in ((4096, 0), (4097, 1)):
        check((got := ran(stage, ["cron", "@daily " + "x" * length]))[0] == status, f"a command of {length} bytes: {got[0]}")
        check((got := ran(stage, ["cron", "A=" + "x" * length, "@daily x"]))[0] == status, f"a variable of {length} bytes: {got[0]}")
    check(got[2] == "cron:2: error: no load takes its definition: EnvironmentVariables: TooLong\n", f"a variable that is too long: {got[2]!r}")
    got = ran(stage, ["cron", "-"], b"@daily a\0b\n")
    check(got == (1, "", "cron:1: error: the command has a NUL byte, which no program's argument may have\n"), f"a NUL byte: {got}")
    other = next((it for it in pwd.getpwall() if it.pw_uid and it.pw_dir.startswith("/")), None)
    if other:
        made = json.loads(ran(stage, ["cron", "--system", f"@daily {other.pw_name} tick"])[1])
        check(made["ProgramArguments"][1:3] == [f"--reuid={other.pw_name}", f"--regid={other.pw_gid}"], f"another user: {made}")
        check(made["WorkingDirectory"] == other.pw_dir == made["EnvironmentVariables"]["HOME"], f"another user's home: {made}")


def jobscope_plist(stage):
    """`jobscope plist` over property lists."""
    play_cases(stage, "plist")


def jobscope_plist_files(stage):
    """`jobscope plist --into` makes a file of each list and writes over none; the bound of a list is that of a request."""
    lists = os.path.join(HERE, "scope", "plist")
    with tempfile.TemporaryDirectory() as folder:
        words = ["plist", "--into", folder, f"{lists}/one.plist", f"{lists}/past.plist", f"{lists}/twice.plist"]
        check((got := ran(stage, words))[:2] == (1, ""), f"plist --into: {got}")
        check((names := sorted(os.listdir(folder))) == ["one.json", "twice.json"], f"files: {names}")
        check((text := text_at(f"{folder}/one.json")) == '{\n  "A": "a\\nb\\ncé"\n}\n', f"one.json: {text!r}")
        check((got := ran(stage, words[:4]))[0] == 65 and "one.json: " in got[2], f"over a file: {got}")
        for count, status in ((262_144, 0), (262_145, 1)):
            long = "x" * (count - len("<plist><dict><key>A</key><string></string></dict></plist>"))
            with open(f"{folder}/long.plist", "w", encoding="utf-8") as it:
                it.write(f"<plist><dict><key>A</key><string>{long}</string></dict></plist>")
            check((got := ran(stage, ["plist", f"{folder}/long.plist"]))[0] == status, f"a list of {count} bytes: {got[0]}, {got[2]}")
        deep = json.loads(ran(stage, ["plist", f"{lists}/deep_127.plist"])[1])["A"]
        depth = 1
        while deep is not None:
            deep, depth = (deep[0] if deep else None), depth + 1
        check(depth == 127, f"depth {depth}")


# `web` of HEADER's journal, which lives two days and more after its last event.
HELD = """\
As of 2026-11-25 Wed 14:02:57 +0100, the journal's last event, 2 days 7 h ago.
{writer}
Its journal alone was read: why starts were refused, what runs left running, and what the boot left out are not known.

web is running.
  Run 1 is running, PID 5, since {since} (for {lived}).
  It is wanted: KeepAlive is true.
  When it exits, it starts again.
"""
# The same if its launcher is not known to run.
AT_END = """\
As of 2026-11-25 Wed 14:02:57 +0100, the journal's last event, 2 days 7 h ago.
{writer}
Its journal alone was read: why starts were refused, what runs left running, and what the boot left out are not known.

web was running at the journal's end.
  Run 1 was running (PID 5). Whether that process still does is not known here.
"""
NOT_SEEN = "The launcher that writes this journal is not seen here: it exited, its journal closed after 14:02:57, or it runs in another container."
NOBODY = "No launcher writes this journal now: it was killed, or its journal closed, after 14:02:57."


def a_journal_that_is_held(stage):
    """Spans of `why` are up to now as long as a process holds a lock on the journal's file that excludes all others."""
    load = json.dumps({"ev": "load", "def": json.dumps({"Label": "web", "Program": "/bin/true", "KeepAlive": True})})
    path = make(stage.at("held"), HEADER + load + '\n{"ev":"spawned","job":"web","run":1,"pid":5}\n')
    other = make(stage.at("beside"), "")
    lives = f"The launcher that writes this journal is running (PID {os.getpid()}): durations are measured to the present."
    writes = HELD.format(writer=lives, since="2026-11-25 Wed 14:02:57 +0100", lived="2 days 7 h")
    ended = AT_END.format(writer=NOBODY if sees_all() else NOT_SEEN)
    for file, lock, wanted in ((path, fcntl.LOCK_EX, writes), (path, fcntl.LOCK_SH, ended), (other, fcntl.LOCK_EX, ended)):
        with open(file, encoding="utf-8") as held:
            fcntl.flock(held, lock)
            got = ran(stage, ["why", "--now", "1795811777", "--journal", path])
            check(got == (0, wanted, ""), f"with {lock} on {file}: {got}")
    check((got := ran(stage, ["why", "--now", "1795811777", "--journal", path])) == (0, ended, ""), f"with no lock: {got}")


def a_launcher_that_is_killed(stage):
    """`why` tells that a launcher writes the journal as long as it lives, which a look at it does not hinder."""
    launcher = stage.serve(journal="journal")
    words = ["why", "--journal", stage.at("journal")]
    for _ in range(3):
        got = ran(stage, words)
        check(f"is running (PID {launcher.pid}): durations are measured to the present.\n" in got[1], f"of a launcher that lives: {got}")
    launcher.kill()
    told = "it was killed, or its journal closed, after" if sees_all() else "is not seen here"
    check(told in (got := ran(stage, words))[1], f"of a launcher that was killed: {got}")


# The names of cases over journals that nobody holds begin so.
ALONE = "no launcher: "


def play_journals(stage):
    """The cases over journals. This process holds each journal, as a launcher that runs does, but for the cases of journals that nobody holds."""
    source = os.path.join(HERE, "scope", "journal")
    held, alone = shutil.copytree(source, stage.at("held_journals")), shutil.copytree(source, stage.at("journals"))
    text = text_at(os.path.join(source, "cases")).replace("is running (PID 4711)", f"is running (PID {os.getpid()})")
    cases = text.split("=== ")[1:]
    files = [open(os.path.join(held, name), encoding="utf-8") for name in os.listdir(held) if name.endswith(".jsonl")]
    try:
        for file in files:
            fcntl.flock(file, fcntl.LOCK_EX)
        play(stage, held, "".join(f"=== {case}" for case in cases if not case.startswith(ALONE)))
    finally:
        for file in files:
            file.close()
    if sees_all():
        play(stage, alone, "".join(f"=== {case}" for case in cases if case.startswith(ALONE)))


def jobscope_journal(stage):
    """`jobscope why`, `log`, `runs` and `picture` over journals; a line that is too long, one that is put aside, and who writes one."""
    play_journals(stage)
    a_journal_that_is_held(stage)
    a_launcher_that_is_killed(stage)
    a_line_too_long(stage)
    a_journal_put_aside(stage)


def from_a_pipe(stage, words, given=None, **env):
    """What the program ends with and writes, and in how many seconds, with an open pipe as its standard input to which nobody writes more than this, and
    with no variable but these that names a launcher."""
    around = {key: value for key, value in os.environ.items() if key not in ("JOBD_JOURNAL", "JOBD_SOCKET", "JOBD_STATUS_FILE", "COLUMNS")}
    reading, writing = os.pipe()
    begun = seconds()
    try:
        if given:
            os.write(writing, given)
        it = subprocess.run([*stage.given.jobscope, *words], env={**around, **env}, stdin=reading, capture_output=True, timeout=patience(), text=True)
    except subprocess.TimeoutExpired:
        raise Late(f"jobscope {' '.join(words)} waits for its standard input") from None
    finally:
        os.close(reading)
        os.close(writing)
    in_time(seconds() - begun < 1, f"jobscope {' '.join(words)} took {seconds() - begun:.1f} s")
    return it.returncode, it.stdout, it.stderr


# Each subcommand that reads a launcher, and a part of what it says of a job `web` that is running.
OF_A_LAUNCHER = (
    ("status", "web "), ("metrics", 'jobd_job_running{label="web"} 1'), ("why", "web is running."), ("why --failing", ""), ("next", "hourly"), ("log", "web: loaded"),
    ("runs", "web\t1\t0\t"), ("show", "web was loaded at"), ("picture", "<svg"), ("drift web.json", "same\tweb\t"), ("why --at -0s", "web"),
)
# What is looked for where nothing names a launcher and the package's is not there.
PLACES = ("/run/jobd/jobd.sock.places", "/var/lib/jobd/journal.jsonl", "/run/jobd/status.jsonl")


def jobscope_without_an_option(stage):
    """Without an option and away from a terminal the launcher of `JOBD_SOCKET` is read, which its places file names; without one the fault says what was
    looked for. Standard input is read only for `-`."""
    web, path = {"Label": "web", "ProgramArguments": ["/bin/sleep", "600"], "KeepAlive": True}, stage.at("standing/status.jsonl")
    os.mkdir(stage.at("standing"), 0o700)
    launcher = stage.serve(env={"JOBD_STATUS_FILE": path}, journal="journal")
    for job in (web, {"Label": "hourly", "ProgramArguments": ["/bin/true"], "StartInterval": 3600}):
        launcher.load(job)
    launcher.tells("web", "state = running")
    wait_for(lambda: '"state":"running"' in text_at(path), "the status file does not have the run")
    make(stage.at("web.json"), json.dumps(web))
    named = {"JOBD_SOCKET": stage.at("socket")}
    for line, part in OF_A_LAUNCHER:
        words = [stage.at(word) if word.endswith(".json") else word for word in line.split()]
        status, output, error = from_a_pipe(stage, words, **named)
        # (`next` counts the jobs without a schedule there)
        check(status == (2 if words[0] == "drift" else 0) and part in output and (not error or words[0] == "next"), f"{line}: {status} {output!r} {error!r}")
    # What a variable names comes before the launcher.
    other = make(stage.at("other"), HEADER + load_of("mail"))
    status, output, _ = from_a_pipe(stage, ["runs"], JOBD_JOURNAL=other, **named)
    check(status == 0 and "mail\t" in output and "web\t" not in output, f"with JOBD_JOURNAL: {status} {output!r}")
    status, output, _ = from_a_pipe(stage, ["status", "--json"], JOBD_STATUS_FILE=path)
    check(status == 0 and '"label":"web"' in output, f"with JOBD_STATUS_FILE: {status} {output!r}")
    # By the status file if the journal can't be opened.
    os.rename(stage.at("journal"), stage.at("away"))
    status, output, error = from_a_pipe(stage, ["why", "web"], **named)
    check(status == 0 and "web is running." in output and "The launcher is running (PID" in output, f"without its journal: {status} {output!r} {error!r}")
    status, output, error = from_a_pipe(stage, ["log"], **named)
    check((status, output) == (65, "") and error.startswith(f"jobscope: {stage.at('journal')}: No such file"), f"log without its journal: {status} {output!r} {error!r}")
    os.rename(stage.at("away"), stage.at("journal"))
    launcher.shut_down()
    # Of a launcher that is gone, and of one without a journal and a status file.
    gone = f"jobscope: {stage.at('socket')}.places: not there: does a launcher run at the socket of JOBD_SOCKET?\n"
    for word in ("why", "log", "status"):
        check((got := from_a_pipe(stage, [word], **named)) == (65, "", gone), f"{word} of a launcher that is gone: {got}")
    plain = stage.serve(socket="plain", store="plain.store", spool="spool")
    for word, what in (("why", "no journal and no status file"), ("log", "no journal"), ("status", "no status file")):
        told = f"jobscope: {stage.at('plain')}.places: its launcher writes {what}\n"
        check((got := from_a_pipe(stage, [word], JOBD_SOCKET=stage.at("plain"))) == (65, "", told), f"{word} of a launcher that writes nothing: {got}")
    plain.shut_down()
    # With nothing set, where the package has no launcher.
    if not any(os.path.exists(place) for place in PLACES):
        for word, looked in (("why", PLACES), ("why --failing", PLACES), ("next", PLACES), ("log", PLACES[:2]), ("runs", PLACES[:2]), ("status", PLACES[::2]), ("metrics", PLACES[::2])):
            status, output, error = from_a_pipe(stage, word.split())
            check((status, output) == (65, "") and error.startswith("jobscope: JOBD_SOCKET: not set, and "), f"{word} without a launcher: {status} {output!r} {error!r}")
            check([place for place in PLACES if place in error] == list(looked), f"{word} without a launcher looked for other places: {error!r}")
    # Standard input is read for `-`, to its end.
    it = subprocess.run([*stage.given.jobscope, "runs", "--journal", "-"], input=(HEADER + load_of("mail")).encode(), capture_output=True, timeout=patience())
    check(it.returncode == 0 and b"mail\t" in it.stdout, f"by standard input: {it}")


# Three jobs of which one lives, one is stopped by KILL, and runs that end by a code, by a signal and at once.
DRAWN = ("three_runs", "killed", "live_end")


def a_long_journal(stage):
    """A picture has each of 140,000 runs, from the first to the last: more than could be kept one by one."""
    count, wall = 140_000, 1795611777
    path = stage.at("long_journal")
    with open(path, "w", encoding="utf-8") as journal:
        journal.write(HEADER + json.dumps({"ev": "load", "def": '{"Label": "r", "Program": "/bin/r", "ThrottleInterval": 0}'}) + "\n")
        for run in range(1, count + 1):
            journal.write('{"ev":"start","job":"r"}\n' + f'{{"ev":"spawned","job":"r","run":{run},"pid":5}}\n')
            journal.write(f'{{"ev":"clock","up":{1000 * run},"wall":{wall + run}}}\n' + f'{{"ev":"ended","job":"r","run":{run},"code":0}}\n')
    it = subprocess.run([*stage.given.jobscope, "picture", "--journal", path], capture_output=True, timeout=patience(LONGEST), text=True)
    os.remove(path)
    check((it.returncode, it.stderr) == (0, ""), f"a long journal: {it.returncode} {it.stderr!r}")
    drawn = [int(runs) for runs in re.findall('data-runs="([0-9]+)"', it.stdout)]
    check(sum(drawn) == count, f"{count} runs began, and {sum(drawn)} are drawn")
    check(100 < len(drawn) < 2000, f"they stand in {len(drawn)} bars")
    check("from run 1 on" in it.stdout and "Not drawn" not in it.stdout, "the first run is not drawn, or some are told as not drawn")


def jobscope_pictures(stage):
    """The SVG, the page and the terminal's blocks show each run of a journal, from its begin to its end, and no other. A long one is drawn whole."""
    a_long_journal(stage)
    for name in DRAWN:
        faults = list(faults_of(stage.given.jobscope, os.path.join(HERE, "scope", "journal", f"{name}.jsonl")))
        check(not faults, f"{name}: {'; '.join(faults)}")


# The launcher's files whose launcher lives when they are read: the process that plays.
LIVING = ("living.jsonl", "cut.jsonl", "torn.jsonl", "lacking.jsonl", "waits.jsonl", "well.jsonl", "rounded.jsonl", "others.jsonl", "starts.jsonl", "far.jsonl")


def jobscope_status(stage):
    """`jobscope status`, `why` and `next` over files of launchers, of which some are gone, and some lacking."""
    source, folder = os.path.join(HERE, "scope", "status"), stage.at("status")
    os.mkdir(folder)
    began = text_at("/proc/self/stat").rpartition(")")[2].split()[19]
    for name in os.listdir(source):
        text = text_at(os.path.join(source, name))
        if name in LIVING:
            text = text.replace('"pid":4711,"began":123456', f'"pid":{os.getpid()},"began":{began}', 1)
        with open(os.path.join(folder, name), "w") as file:
            file.write(text)
    # A launcher that was killed leaves the file of its lock.
    make(os.path.join(folder, "gone.jsonl.lock"))
    cases = text_at(os.path.join(source, "cases"))
    if not sees_all():
        cases = "".join(f"=== {case}" for case in cases.split("=== ")[1:] if "gone.jsonl" not in case)
    play(stage, folder, cases.replace("is running (PID 4711)", f"is running (PID {os.getpid()})"))


def jobscope_next(stage):
    """`jobscope next` over definitions."""
    play_cases(stage, "next")


# ---- clocks

# Files of zones, in hexadecimal digits: that of Asia/Pyongyang, as the database of 2025 has it, and one of the shortest kind, with no change.
PYONGYANG = (
    "545a69663200000000000000000000000000000000000000000000000000000000000005000000040000000c8bd7f19c92e616f8d22f617055ce0270"
    "5aec75700102030103000075e4000000007788000400007e90000800007e9000044c4d54004b5354004a535400545a69663200000000000000000000"
    "000000000000000000000000000000000000000005000000040000000cffffffff8bd7f19cffffffff92e616f8ffffffffd22f61700000000055ce02"
    "70000000005aec75700102030103000075e4000000007788000400007e90000800007e9000044c4d54004b5354004a5354000a4b53542d390a"
)
UTC = (
    "545a69663200000000000000000000000000000000000000000000000000000000000000000000010000000400000000000055544300545a69663200"
    "0000000000000000000000000000000000000000000000000000000000000000000100000004000000000000555443000a555443300a"
)

# A zone, seconds of Unix time, and the year, month, day, hour, minute and weekday that its clock shows then. Those of rules were computed by the C
# library's `localtime` (glibc 2.36, by Python's `time.localtime` under `TZ`, and the same by `TZ=.. date -d @SECONDS`), those of the files by
# Python's `zoneinfo`: a clock in Asia/Pyongyang was set back by half an hour on 15 August 2015 and forward again on 5 May 2018. The last ones are
# of an offset: the crossed minute of `offset_of_an_hour` in `data/` of `try_replay`, and the greatest offsets.
SHOWN = """\
UTC0 0 1970 1 1 0 0 4
UTC0 59 1970 1 1 0 0 4
UTC0 68255999 1972 2 29 23 59 2
UTC0 951825600 2000 2 29 12 0 2
UTC0 4107542340 2100 2 28 23 59 0
UTC0 4107542400 2100 3 1 0 0 1
UTC0 13574563200 2400 2 29 0 0 2
UTC0 946684799 1999 12 31 23 59 5
UTC0 1735689540 2024 12 31 23 59 2
UTC0 250000000000 9892 3 8 12 26 2
EST5EDT,M3.2.0,M11.1.0 0 1969 12 31 19 0 3
EST5EDT,M3.2.0,M11.1.0 1699162200 2023 11 5 1 30 0
EST5EDT,M3.2.0,M11.1.0 1699165800 2023 11 5 1 30 0
EST5EDT,M3.2.0,M11.1.0 1710053999 2024 3 10 1 59 0
EST5EDT,M3.2.0,M11.1.0 1710054000 2024 3 10 3 0 0
EST5EDT,M3.2.0,M11.1.0 1709182740 2024 2 28 23 59 3
EST5EDT,M3.2.0,M11.1.0 1709182800 2024 2 29 0 0 4
EST5EDT,M3.2.0,M11.1.0 250000000000 9892 3 8 7 26 2
CET-1CEST,M3.5.0,M10.5.0/3 1711846740 2024 3 31 1 59 0
CET-1CEST,M3.5.0,M10.5.0/3 1711846800 2024 3 31 3 0 0
CET-1CEST,M3.5.0,M10.5.0/3 1729989000 2024 10 27 2 30 0
CET-1CEST,M3.5.0,M10.5.0/3 1729992600 2024 10 27 2 30 0
CET-1CEST,M3.5.0,M10.5.0/3 1735686000 2025 1 1 0 0 3
IST-5:30 1704047340 2023 12 31 23 59 0
IST-5:30 1704047400 2024 1 1 0 0 1
NST3:30NDT,M3.2.0,M11.1.0 1719800940 2024 6 30 23 59 0
NST3:30NDT,M3.2.0,M11.1.0 1704079800 2024 1 1 0 0 1
<+0545>-5:45 1709144100 2024 2 29 0 0 4
AEST-10AEDT,M10.1.0,M4.1.0/3 1712419140 2024 4 7 2 59 0
AEST-10AEDT,M10.1.0,M4.1.0/3 1712419200 2024 4 7 2 0 0
AEST-10AEDT,M10.1.0,M4.1.0/3 1728143940 2024 10 6 1 59 0
AEST-10AEDT,M10.1.0,M4.1.0/3 1728144000 2024 10 6 3 0 0
AEST-10AEDT,M10.1.0,M4.1.0/3 1735650000 2025 1 1 0 0 3
<+1030>-10:30<+11>-11,M10.1.0,M4.1.0 1712415540 2024 4 7 1 59 0
<+1030>-10:30<+11>-11,M10.1.0,M4.1.0 1712415600 2024 4 7 1 30 0
<+1030>-10:30<+11>-11,M10.1.0,M4.1.0 1728142200 2024 10 6 2 30 0
NZST-12NZDT,M9.5.0,M4.1.0/3 1704020340 2023 12 31 23 59 0
NZST-12NZDT,M9.5.0,M4.1.0/3 1719748800 2024 7 1 0 0 1
<+1245>-12:45<+1345>,M9.5.0/2:45,M4.1.0/3:45 1727531940 2024 9 29 2 44 0
<+1245>-12:45<+1345>,M9.5.0/2:45,M4.1.0/3:45 1727532000 2024 9 29 3 45 0
<-04>4<-03>,M9.1.6/24,M4.1.6/24 1712458740 2024 4 6 23 59 6
<-04>4<-03>,M9.1.6/24,M4.1.6/24 1712458800 2024 4 6 23 0 6
<-04>4<-03>,M9.1.6/24,M4.1.6/24 1725767940 2024 9 7 23 59 6
<-04>4<-03>,M9.1.6/24,M4.1.6/24 1725768000 2024 9 8 1 0 0
<-02>2<-01>,M3.5.0/-1,M10.5.0/0 1711846740 2024 3 30 22 59 6
<-02>2<-01>,M3.5.0/-1,M10.5.0/0 1711846800 2024 3 31 0 0 0
PST8PDT,M3.2.0,M11.1.0 1704095940 2023 12 31 23 59 0
<-12>12 1709294340 2024 2 29 23 59 4
<+14>-14 1709200740 2024 2 29 23 59 4
<+14>-14 1709200800 2024 3 1 0 0 5
IST-1GMT0,M10.5.0,M3.5.0/1 1719835200 2024 7 1 13 0 1
IST-1GMT0,M10.5.0,M3.5.0/1 1704110400 2024 1 1 12 0 1
EET-2EEST,M3.4.4/50,M10.4.4/50 1711756800 2024 3 30 3 0 6
EET-2EEST,M3.4.4/50,M10.4.4/50 1711756740 2024 3 30 1 59 6
AAA3BBB,J60/0,J300/0 1709261940 2024 2 29 23 59 4
AAA3BBB,J60/0,J300/0 1709262000 2024 3 1 1 0 5
AAA3BBB,J60/0,J300/0 1677639600 2023 3 1 1 0 3
AAA-3BBB,59/0,300/0 1709153940 2024 2 28 23 59 3
AAA-3BBB,59/0,300/0 1709154000 2024 2 29 1 0 4
AAA-3BBB,59/0,300/0 1677618000 2023 3 1 1 0 3
PYONGYANG 0 1970 1 1 9 0 4
PYONGYANG 1439564340 2015 8 14 23 59 5
PYONGYANG 1439564400 2015 8 14 23 30 5
PYONGYANG 1439566200 2015 8 15 0 0 6
PYONGYANG 1525445940 2018 5 4 23 29 5
PYONGYANG 1525446000 2018 5 5 0 0 6
PYONGYANG 1700000040 2023 11 15 7 14 3
PYONGYANG 250000000000 9892 3 8 21 26 2
UTC 1700000040 2023 11 14 22 14 2
3600 1700000040 2023 11 14 23 14 2
86399 1700000040 2023 11 15 22 13 3
-86399 1700000040 2023 11 13 22 14 1
"""

# Members of a header that give no zone: texts that are no rule, offsets of a day and more, and bytes that are no zone's file.
NO_ZONES = [
    *({"zone": text} for text in (
        "", "UTC", "0", "UTC0 ", " UTC0", ":UTC0", "UT0", "UTC25", "EST5EDT", "EST5EDT,M3.2.0", "EST5EDT,M13.2.0,M11.1.0",
        "EST5EDT,M3.6.0,M11.1.0", "EST5EDT,M3.2.7,M11.1.0", "EST5EDT,J0,J300", "Europe/Paris", "UTC0\u00e9",
    )),
    *({"offset": seconds} for seconds in (-86400, 86400, -(1 << 31), (1 << 31) - 1)),
    *({"zonefile": text} for text in ("", "545a69", PYONGYANG[: 2 * 236], "00" * 65537)),
]


def zone_of(word):
    """The member of a header that a word of a row stands for."""
    if re.fullmatch("-?[0-9]+", word):
        return {"offset": int(word)}
    return {"zonefile": globals()[word]} if word in ("PYONGYANG", "UTC") else {"zone": word}


def log_of(stage, zone, wall):
    """What `jobscope log` says of a journal that has a header alone."""
    make(stage.at("journal"), json.dumps({"up": 0, "wall": wall, **zone}) + "\n")
    words = [*stage.given.jobscope, "log", "--journal", stage.at("journal")]
    return subprocess.run(words, capture_output=True, timeout=patience(), text=True)


def times_as_the_c_library_shows_them(stage):
    """`jobscope log` shows each moment as the C library does, by a zone's rule, its file, or an offset."""
    for row in SHOWN.splitlines():
        word, wall, *numbers = row.split(" ")
        year, month, day, hour, minute, weekday = map(int, numbers)
        name = ("Sun", "Mon", "Tue", "Wed", "Thu", "Fri", "Sat")[weekday]
        run = log_of(stage, zone_of(word), int(wall))
        wanted = f"{year}-{month:02}-{day:02} {name} {hour:02}:{minute:02}:"
        check(run.returncode == 0 and run.stdout.startswith(wanted), f"for {wanted}.. of {row} came {run.stdout!r} {run.stderr!r}")


def zones_that_are_none(stage):
    """A header whose zone is none opens no journal, for `jobscope` and for a replay."""
    for zone in NO_ZONES:
        log = log_of(stage, zone, 0)
        replay = stage.replay("journal")
        check(log.returncode == 65 and "header" in log.stderr and not log.stdout, f"{zone} got {log.returncode} {log.stdout!r} {log.stderr!r}")
        check(replay.returncode == 2 and not replay.stdout, f"a replay with {zone} ended with {replay.returncode}, {replay.stdout!r}")


def zone_file_named(name):
    """The bytes of a zone file (RFC 9636) of a clock that is three hours ahead of UTC, and has this name."""
    block = b"TZif2" + bytes(15) + (0).to_bytes(16, "big") + (1).to_bytes(4, "big") + (len(name) + 1).to_bytes(4, "big")
    block += (10800).to_bytes(4, "big") + bytes(2) + name + b"\0"
    return block + block + b"\n\n"


def a_zone_whose_name_ends_a_text(stage):
    """Times in JSON stay JSON, and the same, whatever a zone file calls its clock."""
    make(stage.at("a.json"), '{"Label":"a","Program":"/bin/true","StartCalendarInterval":{"Minute":5}}')
    for name in (b"XST", b'a"b', b"a\\", b"a\nb", b"\x1b[31m", b'","start":"'):
        with open(stage.at("zone"), "wb") as file:
            file.write(zone_file_named(name))
        words = ["next", "--json", "--zone-file", stage.at("zone"), "--from", "1764500000", "-n", "1", stage.at("a.json")]
        run = subprocess.run([*stage.given.jobscope, *words], capture_output=True, timeout=patience(), text=True)
        wanted = '{"label":"a","start":"2025-11-30T14:05:00+03:00","start_seconds":1764500700,"left_ms":700000}\n'
        check(run.returncode == 0 and run.stdout == wanted, f"{name} got {run.returncode} {run.stdout!r} {run.stderr!r}")


SCENES = [
    a_zone_whose_name_ends_a_text,
    the_first_journal_is_told,
    jobscope_check,
    jobscope_corpus,
    jobscope_cron,
    jobscope_cron_files,
    jobscope_journal,
    jobscope_mistakes,
    jobscope_next,
    jobscope_pictures,
    jobscope_plist,
    jobscope_plist_files,
    jobscope_status,
    jobscope_well,
    jobscope_without_an_option,
    times_as_the_c_library_shows_them,
    zones_that_are_none,
]
