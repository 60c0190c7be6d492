"""Scenes of words: what an administrator's words mean to `jobctl` and to `jobd`. The meanings were written by hand from launchctl(1) and
the programs' own help.

`play.py` plays them; `harness.py` has what all scenes share.
"""
import json
import os
import shutil
import stat
import subprocess

from jobctl import DONE, IS_MISSING, expect, run
from harness import Launcher, check, make, patience, text_at

# A line, the socket and the command that it means: flags as true or false, then labels or paths. Behind `beside` the default socket
# is `@/run_s`, from the environment. `@` is the scene's folder.
COMMANDS = """\
jobctl load -w x.json | jobd.sock | load true false x.json
jobctl load x.json | jobd.sock | load false false x.json
jobctl load -F x.json | jobd.sock | load false true x.json
jobctl load -wF a b c | jobd.sock | load true true a b c
jobctl load -F -w a | jobd.sock | load true true a
jobctl load a -w | jobd.sock | load true false a
jobctl --socket @/run_j load a b | @/run_j | load false false a b
jobctl --socket=@/run_j load a | @/run_j | load false false a
jobctl load -- -w | jobd.sock | load false false -w
jobctl unload x.json | jobd.sock | unload false x.json
jobctl unload -w b a | jobd.sock | unload true b a
jobctl start com.example.a | jobd.sock | start com.example.a
jobctl start -- -a | jobd.sock | start -a
jobctl stop a | jobd.sock | stop a
jobctl --socket s stop a | s | stop a
jobctl enable a | jobd.sock | enable a
jobctl enable gui/501/a | jobd.sock | enable a
jobctl disable system/a | jobd.sock | disable a
jobctl disable user/0/a | jobd.sock | disable a
jobctl kickstart a | jobd.sock | kickstart false a
jobctl kickstart -k a | jobd.sock | kickstart true a
jobctl kickstart a -k | jobd.sock | kickstart true a
jobctl kickstart -k gui/4294967295/a | jobd.sock | kickstart true a
jobctl kickstart -- -a | jobd.sock | kickstart false -a
jobctl print system/a | jobd.sock | print a
jobctl print gui/501/a | jobd.sock | print a
jobctl list | jobd.sock | list
jobctl --socket x list | x | list
jobctl shutdown | jobd.sock | shutdown
jobctl --socket=x shutdown | x | shutdown
beside jobctl list | @/run_s | list
beside jobctl --socket t list | t | list"""

# Lines that are no command of the control program.
MISTAKES = """\
jobctl
jobctl ''
jobctl lis
jobctl LIST
jobctl list x
jobctl list -w
jobctl list list
jobctl shutdown now
jobctl load
jobctl load -w
jobctl load -x a
jobctl load -w -w a
jobctl load --write a
jobctl load --socket y a
jobctl unload
jobctl unload -F a
jobctl start
jobctl start ''
jobctl start a b
jobctl start a/b
jobctl start gui/501/a
jobctl start -a
jobctl stop
jobctl stop -w a
jobctl enable
jobctl enable gui/x/a
jobctl enable gui/501
jobctl enable pid/1/a
jobctl disable user//a
jobctl disable gui/12345678901/a
jobctl kickstart
jobctl kickstart -k
jobctl kickstart -p a
jobctl print a b
jobctl --socket a --socket b list
jobctl --socket
jobctl list --socket a
jobctl -w load a
jobctl lod a
jobctl unlaod a
jobctl unload -w -w a
jobctl strat a
jobctl start -- a b
jobctl sotp a
jobctl stop ''
jobctl stop a b
jobctl stop system/a
jobctl enabel a
jobctl enable ''
jobctl enable a b
jobctl disable
jobctl disabel a
jobctl disable a b
jobctl disable gui/501/
jobctl kickstrat a
jobctl kickstart -k -k a
jobctl kickstart a b
jobctl kickstart gui/x/a
jobctl pritn a
jobctl print
jobctl print user/0
jobctl shutdwon
jobctl shutdown -k"""

# The daemon's lines, and the places that they mean: socket, store, spool, journal and zone.
DAEMON_COMMANDS = """\
jobd serve --socket s --store o --spool d | serve s o d none none
jobd serve --spool d --store o --socket s | serve s o d none none
jobd serve --socket s --store o --spool d --journal j | serve s o d j none
jobd serve --socket s --store o --spool d --zone EST5 | serve s o d none EST5
jobd serve --socket s --store o --spool d --zone-file z | serve s o d none z
jobd serve --socket=s --store=o --spool=d --zone=UTC0 --journal=j | serve s o d j UTC0"""

# Lines that are no command of the daemon.
DAEMON_MISTAKES = """\
jobd
jobd replay x
jobd serve
jobd serve --socket s --store o
jobd serve --socket s --spool d
jobd serve --socket s --store o --spool d --zone a --zone-file b
jobd serve --socket s --store o --spool d --zone a --zone a
jobd overrides
jobd overrides o.db
jobd --socket s serve --store o --spool d
jobd replya
jobd replay replay
jobd replay --zone UTC0
jobd serve --store o --spool d
jobd serve --socket s --store o --spool
jobd serve --socket s --store o --spool d x
jobd serve --socket s --socket t --store o --spool d
jobd serve --socket s --store o --spool d --journal j --journal k
jobd serve --socket s --store o --spool d --zonefile z
jobd overrides --store
jobd overrides --store a --store b
jobd overrides --store a b"""

# A line that is explained, whether it asks for help, and the text: the whole of it but for the newline, or a part.
EXPLAINED = [
    ("jobctl --help", True, False, "kickstart"),
    ("jobctl help load", True, False, "disabled job"),
    ("jobctl load --help", True, False, "-F"),
    ("jobctl --help", True, False, "3 no such job"),
    ("jobctl --help", True, False, "69 no answer"),
    ("jobctl --help", True, False, "74 the reply can't be printed"),
    ("jobctl --help", True, False, "default: JOBD_SOCKET"),
    ("jobctl --help", True, False, "Why a job does not run: jobscope why LABEL. Manual pages: jobctl(1), jobscope(1), jobd.json(5), jobd(8).\n"),
    ("jobctl start --help", True, False, "jobctl --help lists the exit statuses."),
    ("jobctl --help", True, False, "\nKivgrond 0.4.0\n"),
    ("jobctl start", False, False, "LABEL"),
    ("jobctl lis", False, False, "list"),
    ("jobctl list a", False, False, "jobctl: unexpected argument 'a' found"),
    ("jobctl", False, False, "jobctl: "),
    ("jobd --help", True, False, "overrides"),
    ("jobd replay --help", True, False, "4 a line too long"),
    ("jobd serve --help", True, False, "--zone-file"),
    ("jobd help overrides", True, False, "--store"),
    ("jobd --help", True, False, "\nKivgrond 0.4.0\n"),
    ("jobd serve --help", True, False, "10 the spool"),
    ("jobd overrides --help", True, False, "3 output failed"),
    ("jobd serve", False, False, "--spool"),
    ("jobd", False, False, "jobd: "),
    ("jobctl start gui/501/a", False, True, "jobctl: gui/501/a is not a label (start takes a label; kickstart and print take a target)"),
    ("jobctl stop system/a", False, True, "jobctl: system/a is not a label (stop takes a label; kickstart and print take a target)"),
    ("jobctl start ''", False, True, 'jobctl: "" is not a label (a label has 1 to 255 bytes, no / and no control character)'),
    ("jobctl --socket s stop a/b", False, True, "jobctl: a/b is not a label (a label has 1 to 255 bytes, no / and no control character)"),
    ("jobctl enable a/b", False, True, "jobctl: a/b is not a target (a target is LABEL, system/LABEL, user/UID/LABEL or gui/UID/LABEL)"),
    (
        "jobctl enable gui/x/a", False, True,
        "jobctl: gui/x/a is not a target (a target is LABEL, system/LABEL, user/UID/LABEL or gui/UID/LABEL)",
    ),
    (
        "jobctl kickstart -k user/0", False, True,
        "jobctl: user/0 is not a target (a target is LABEL, system/LABEL, user/UID/LABEL or gui/UID/LABEL)",
    ),
    ("jobd serve --socket s --store o --spool d --zone a --zone-file b", False, True, "jobd: --zone and --zone-file can't be given together"),
]

# A zone file of the shortest kind: UTC, with no change.
UTC_FILE = (b"TZif2" + bytes(34) + b"\1\0\0\0\4" + bytes(6) + b"UTC\0") * 2 + b"\nUTC0\n"


def words_of(stage, line):
    """The words behind the program's name; '' is an empty word."""
    return ["" if word == "''" else word.replace("@", stage.folder) for word in line.split(" ")[1:]]


def requests_of(command):
    """What is asked by a command with these flags and labels or paths. Each file holds a definition with its own name as the label."""
    name, *words = command.split(" ")
    flags = [word for word in words if word in ("true", "false")]
    rest = [word for word in words if word not in ("true", "false")]
    if name == "load":
        w, force = flags
        definitions = [json.dumps(json.dumps({"Label": path, "Program": "/bin/true"})) for path in rest]
        return [f'{{"F":{force},"def":{definition},"req":"load","w":{w}}}\n' for definition in definitions]
    if name == "unload":
        return [f'{{"job":"{path}","req":"unload","w":{flags[0]}}}\n' for path in rest]
    if name == "kickstart":
        return [f'{{"job":"{rest[0]}","k":{flags[0]},"req":"kickstart"}}\n']
    return [f'{{"job":"{rest[0]}","req":"{name}"}}\n' if rest else f'{{"req":"{name}"}}\n']


def words_of_jobctl(stage):
    """Each line of words asks what it means, at the socket that it means."""
    for name in ("x.json", "a", "b", "c", "-w"):
        make(stage.at(name), json.dumps({"Label": name, "Program": "/bin/true"}))
    os.mkdir(stage.at("sockets"))
    for case in COMMANDS.splitlines():
        line, name, command = case.split(" | ")
        env = {"JOBD_SOCKET": stage.at("run_s")} if line.startswith("beside ") else None
        asked = requests_of(command)
        words = words_of(stage, line.removeprefix("beside "))
        told = []
        if command.partition(" ")[0] in ("enable", "disable"):
            # (what is loaded is asked, since a setting of another label is kept for later)
            asked = [*asked, '{"req":"list"}\n']
            told = [f"jobctl: {command.partition(' ')[2]} is not loaded: the setting is kept for a later load"]
        expect(stage, words, replies=DONE * len(asked), asked="".join(asked), env=env, name=name.replace("@/", ""), told=told)


def words_that_are_no_command_of_jobctl(stage):
    """Each of these lines gives 64 and tells something, and nothing is printed."""
    for line in MISTAKES.splitlines():
        seen = run(stage, words_of(stage, line), IS_MISSING)
        got = (seen.status, seen.printed, bool(seen.told))
        check(got == (64, "", True), f"{line!r} gives status, text and whether it tells {got}")


def run_in(stage, folder, words):
    return subprocess.run(
        [*stage.given.jobd, *words], cwd=folder, stdin=subprocess.DEVNULL, capture_output=True, timeout=patience(), text=True
    )


def header_of(path):
    return json.loads(text_at(path).partition("\n")[0])


def serve_in(stage, folder, words):
    """Serves by these words in the folder until a shutdown at the socket `s`."""
    os.mkdir(folder)
    os.mkdir(f"{folder}/d", 0o700)
    with open(f"{folder}/z", "wb") as file:
        file.write(UTC_FILE)
    with open(f"{folder}.said", "wb") as errors:
        process = subprocess.Popen([*stage.given.jobd, *words], cwd=folder, stdin=subprocess.DEVNULL, stdout=subprocess.PIPE, stderr=errors)
    launcher = Launcher(process, f"{folder}.said", f"{folder}/s")
    stage.started.append(launcher)
    check(launcher.is_ready(), f"{words} does not serve: {launcher.said()!r}")
    check(stat.S_ISSOCK(os.stat(f"{folder}/s").st_mode), f"{words} serves at another path")
    launcher.ask({"req": "disable", "job": "a"})
    launcher.shut_down()
    check(os.path.isfile(f"{folder}/o"), f"{words} keeps its settings elsewhere")


def words_of_jobd(stage):
    """Each line of words serves at the places that it means, with the zone that it means, which the journal's header tells. Without a path
    there is no journal. `replay` reads a journal, and `overrides` the store."""
    for number, case in enumerate(DAEMON_COMMANDS.splitlines()):
        line, meaning = case.split(" | ")
        check(meaning.startswith("serve s o d "), f"the meaning {meaning!r}")
        journal, zone = meaning.split(" ")[4:]
        folder = stage.at(f"row{number}")
        serve_in(stage, folder, words_of(stage, line))
        check(os.path.exists(f"{folder}/j") == (journal != "none"), f"{line!r} has a journal, or has none")
        if journal == "none":
            folder += ".again"
            serve_in(stage, folder, [*words_of(stage, line), "--journal", "j"])
        header = header_of(f"{folder}/j")
        wanted = {"z": ("zonefile", UTC_FILE.hex()), "none": ("", None)}.get(zone, ("zone", zone))
        check(header.get(wanted[0]) == wanted[1], f"{line!r} has the header {header}")
    make(stage.at("journal"), '{"overrides":{},"up":0,"wall":0,"zone":"UTC0"}\n{"ev":"list"}\n')
    ran = stage.replay("journal")
    wanted = (0, '{"code":0,"orders":[],"text":"PID\\tStatus\\tLabel\\n"}\n')
    check((ran.returncode, ran.stdout) == wanted, f"jobd replay ends with {ran.returncode}: {ran.stdout!r}, {ran.stderr!r}")
    ran = run_in(stage, stage.folder, ["overrides", "--store", "o.db"])
    check(ran.returncode == 5 and ran.stderr.startswith("jobd: store o.db: "), f"jobd overrides ends with {ran.returncode}: {ran.stderr!r}")


def words_that_are_no_command_of_jobd(stage):
    """Each of these lines gives 64 and tells something; nothing is printed or made."""
    os.mkdir(stage.at("empty"))
    for line in DAEMON_MISTAKES.splitlines():
        ran = run_in(stage, stage.at("empty"), words_of(stage, line))
        got = (ran.returncode, ran.stdout, bool(ran.stderr), os.listdir(stage.at("empty")))
        check(got == (64, "", True, []), f"{line!r} gives status, text, whether it tells and what it makes {got}")


def help_and_what_is_wrong(stage):
    """Help is printed. Of words that are no command it is told in one line which is none, and why."""
    for line, is_help, is_whole, part in EXPLAINED:
        if line.startswith("jobctl"):
            seen = run(stage, words_of(stage, line), IS_MISSING)
            got = (seen.status, seen.printed, seen.told)
        else:
            ran = run_in(stage, stage.folder, words_of(stage, line))
            got = (ran.returncode, ran.stdout, ran.stderr)
        text, silent = got[1:] if is_help else (got[2], got[1])
        is_told = text == part + "\n" if is_whole else part in text
        is_one_line = is_help or text.count("\n") == 1
        check(got[0] == (0 if is_help else 64) and is_told and is_one_line and not silent, f"{line!r} gives {got}")


# Lines with a word of another tool, and what is to be typed here: a part of the one line that is told.
FOREIGN = """\
jobctl status | jobscope status
jobctl status a | jobctl print LABEL
jobctl show a | jobctl print LABEL
jobctl --socket s show a | jobctl print LABEL
jobctl cat a | jobscope show LABEL
jobctl logs a | jobscope log
jobctl tail a | jobscope log -f
jobctl reload a | jobctl apply FILE
jobctl restart a | jobctl kickstart -k LABEL
jobctl daemon-reload | jobctl apply FOLDER
jobctl bootstrap system a.plist | jobctl load FILE
jobctl bootout system/a | jobctl unload FILE
jobctl kill TERM a | jobctl stop LABEL
jobctl remove a | jobctl unload FILE
jobctl mask a | jobctl disable LABEL
jobctl unmask a | jobctl enable LABEL
jobctl is-active a | jobctl print LABEL
jobctl list-timers | jobscope next
jobctl ls | jobctl list
jobctl why a | jobscope why LABEL
jobctl check a.json | jobscope check FILE
jobctl list --failed | jobscope why --failing
jobctl --failed | jobscope why --failing
jobscope list | jobscope status
jobscope start a | jobctl start LABEL
jobscope restart a | jobctl kickstart -k LABEL
jobscope load a.json | jobctl load FILE
jobscope reload a.json | jobctl apply FILE
jobscope print a | jobscope show LABEL
jobscope logs | jobscope log
jobscope validate a.json | jobscope check FILE
jobscope diff a | jobscope drift FOLDER
jobscope timers | jobscope next
jobscope --failed | jobscope why --failing
jobscope status --failed | jobscope why --failing
jobscope failed | jobscope why --failing"""

# Words near `shutdown`, of which that is never a tip: it ends all jobs.
NEAR = "show shutdwon shut down shutd shw"


def words_of_other_tools(stage):
    """A word of another tool gives 64 and one line with what to type here; `shutdown` is no tip for any."""
    programs = {"jobctl": stage.given.jobctl, "jobscope": stage.given.jobscope}
    for line, typed in (row.split(" | ") for row in FOREIGN.splitlines()):
        ran = run_alone(stage, [*programs[line.split(" ")[0]], *words_of(stage, line)])
        check(ran[:2] == (64, "") and ran[2].count("\n") == 1 and typed in ran[2] and "shutdown" not in ran[2], f"{line!r} gives {ran}")
    for word in NEAR.split(" "):
        ran = run_alone(stage, [*programs["jobctl"], word, "a"])
        check(ran[:2] == (64, "") and "shutdown" not in ran[2], f"{word!r} gives {ran}")


def run_alone(stage, words):
    ran = subprocess.run(words, cwd=stage.folder, capture_output=True, text=True, timeout=patience())
    return ran.returncode, ran.stdout, ran.stderr


# A first word, and the program that it means.
NAMES = [
    (b"jobd", b"jobd"), (b"jobctl", b"jobctl"), (b"jobscope", b"jobscope"), (b"./jobctl", b"jobctl"), (b"/no/such/folder/jobscope", b"jobscope"),
    (b"x/jobd", b"jobd"), (b"", b"jobd"), (b"jobctl/", b"jobd"), (b"jobctl/x", b"jobd"), (b"ajobctl", b"jobd"), (b"jobctla", b"jobd"),
    (b"job", b"jobd"), (b"JOBCTL", b"jobd"), (b"another", b"jobd"), (b"a/b/ajobscope", b"jobd"),
]

# What each program says of a word that is not UTF-8.
NO_TEXT = {b"jobd": b"jobd: an argument is not UTF-8\n", b"jobctl": b"jobctl: an argument is not UTF-8\n", b"jobscope": b"jobscope: invalid data\n"}

# A subcommand of each program alone, whose help is asked for.
OWN_WORD = {b"jobd": b"replay", b"jobctl": b"kickstart", b"jobscope": b"picture"}


def ran_as(stage, name, words):
    """What the file ends with and writes that is started by these words, its name first."""
    program = os.path.realpath(stage.given.jobd[-1])
    ran = subprocess.run(
        [name, *words], executable=program, cwd=stage.folder, stdin=subprocess.DEVNULL, capture_output=True, timeout=patience()
    )
    return ran.returncode, ran.stdout, ran.stderr


def one_file_under_three_names(stage):
    """The file acts by the name that it is started under, through a link or a copy too, and by the bytes of a name that is not UTF-8."""
    for name, meant in NAMES:
        for program, word in OWN_WORD.items():
            status, printed, told = ran_as(stage, name, [word, b"--help"])
            got = (status, bool(printed), bool(told))
            wanted = (0, True, False) if program == meant else (64, False, True)
            check(got == wanted, f"as {name!r} it gives {got} for the help of {word!r}")
        for front in (b"", b"\xff/"):
            got = ran_as(stage, front + name, [b"\xff"])
            check(got == (64, b"", NO_TEXT[meant]), f"as {front + name!r} it gives {got} for a word that is not UTF-8")
    program = os.path.realpath(stage.given.jobd[-1])
    os.symlink(program, stage.at("jobscope"))
    shutil.copy(program, stage.at("jobctl"))
    shutil.copy(program, stage.at("copy"))
    for name, word in (("jobscope", "cron"), ("jobctl", "unload"), ("copy", "overrides")):
        ran = subprocess.run([stage.at(name), word, "--help"], stdin=subprocess.DEVNULL, capture_output=True, timeout=patience(), text=True)
        got = (ran.returncode, f"Usage: {name} {word} " in ran.stdout, ran.stderr)
        check(got == (0, True, ""), f"{name} gives {got} for the help of {word}: {ran.stdout!r}")


SCENES = [
    words_of_jobctl, words_that_are_no_command_of_jobctl, words_of_jobd, words_that_are_no_command_of_jobd, help_and_what_is_wrong, words_of_other_tools,
    one_file_under_three_names,
]
