#!/usr/bin/env bash
# The completions, asked in real shells: bash and zsh through a terminal, fish by its own call. Two launchers run, whose jobs are to
# be offered: completions.sh [JOBD JOBCTL], or build/jobd and build/jobctl. If these are not there, a stand-in for jobctl answers
# `list`, and a line says so. A stand-in for jobscope tells the labels of a journal. A shell that is not here is skipped, with a line that says so. It is run by hand.
set -euo pipefail

cd "$(dirname "$0")/.."
python3 - "$PWD/completions" "$(realpath -ms "${1:-build/jobd}")" "$(realpath -ms "${2:-build/jobctl}")" <<'END'
import contextlib, os, pty, re, select, shutil, subprocess, sys, tempfile, time

FOLDER, JOBD, CONTROL = sys.argv[1:]
# The labels of the jobs behind each socket.
LABELS = {
    "jobd.sock": ["org.example.web", "org.example.backup", "local.poll", "com:colon:x", "my label", "at@home=x", "-dash.job"],
    "other.sock": ["far.away"],
}
JOBCTL = """#!/bin/sh
socket=jobd.sock
case $1 in
--socket) socket=$2; shift 2 ;;
--socket=*) socket=${1#--socket=}; shift ;;
esac
[ "$1" = list ] || exit 64
printf 'PID\\tStatus\\tLabel\\n'
case $socket in
other.sock) printf -- '-\\t0\\tfar.away\\n' ;;
*) printf -- '-\\t0\\t%s\\n' org.example.web org.example.backup local.poll com:colon:x 'my label' at@home=x -dash.job ;;
esac
"""
# Stands for jobscope: the labels of one journal.
JOBSCOPE = """#!/bin/sh
[ "$*" = "runs --journal night.jsonl" ] || exit 64
printf 'label\\tstarts\\n'
printf '%s\\t1\\n' org.example.backup org.example.web local.poll
"""
# Stands before jobctl: writes down the words of each call but a list.
RECORDER = """#!/bin/sh
case " $* " in
*" list "*) exec "{real}" "$@" ;;
*) printf '%s\\0' "$@" >>"{log}.part" && mv "{log}.part" "{log}" ;;
esac
"""
# A command line that ends where TAB is pressed and then the line is run, and the words that jobctl gets.
RUNS = [
    ("jobctl stop com:c", ["stop", "com:colon:x"]),
    ("jobctl stop com:colon:", ["stop", "com:colon:x"]),
    ("jobctl start at@h", ["start", "at@home=x"]),
    ("jobctl start at@home=", ["start", "at@home=x"]),
    ("jobctl stop my", ["stop", "my label"]),
    ("jobctl stop my\\ l", ["stop", "my label"]),
    ('jobctl stop "my la', ["stop", "my label"]),
    ("jobctl stop 'com:c", ["stop", "com:colon:x"]),
    ("jobctl stop -- -da", ["stop", "--", "-dash.job"]),
    ("jobctl print system/com:c", ["print", "system/com:colon:x"]),
    ("jobctl print gui/501/my", ["print", "gui/501/my label"]),
    ("jobctl disable user/0/-d", ["disable", "user/0/-dash.job"]),
    ("jobctl kickstart -k system/loc", ["kickstart", "-k", "system/local.poll"]),
    ("jobctl --socket other.sock enable system/", ["--socket", "other.sock", "enable", "system/far.away"]),
    ("jobctl --socket=other.sock stop f", ["--socket=other.sock", "stop", "far.away"]),
]
# A command line that ends where TAB is pressed, what is offered, and what is not.
CASES = [
    ("jobctl ", ["load", "unload", "apply", "start", "stop", "enable", "disable", "kickstart", "list", "print", "shutdown"], []),
    ("jobctl st", ["start", "stop"], ["load"]),
    ("jobctl stop ", ["org.example.web", "org.example.backup", "local.poll", "--"], ["far.away", "-dash.job"]),
    ("jobctl kickstart -k org.example.", ["org.example.web", "org.example.backup"], ["local.poll"]),
    ("jobctl --socket other.sock print ", ["far.away"], ["local.poll"]),
    ("jobctl load ", ["web.json", "old.plist", "jobs.d"], []),
    ("jobctl load -", ["-w", "-F"], []),
    ("jobctl unload -", ["-w"], ["-F"]),
    ("jobctl unload org.example.", ["org.example.web", "org.example.backup"], ["local.poll"]),
    ("jobctl apply ", ["web.json", "old.plist", "jobs.d"], []),
    ("jobctl apply --", ["--dry-run", "--prune", "--now", "--strict", "--wait", "--json"], ["--socket"]),
    ("jobctl kickstart -", ["-k"], []),
    ("jobctl --socket ./oth", ["other.sock"], []),
    ("jobd ", ["serve", "replay", "overrides"], []),
    ("jobd serve --", ["--socket", "--store", "--spool", "--journal", "--zone", "--zone-file"], []),
    ("jobd overrides --s", ["--store"], ["--spool"]),
    ("jobscope ", ["check", "next", "why", "log", "runs", "picture", "cron", "plist"], []),
    ("jobscope check ", ["web.json", "old.plist", "jobs.d"], []),
    ("jobscope check --", ["--strict", "--now", "--zone", "--zone-file", "--utc"], ["--from"]),
    ("jobscope next --f", ["--from"], ["--strict"]),
    ("jobscope next --s", ["--status-file"], ["--strict"]),
    ("jobscope cron --", ["--system", "--into"], ["--strict"]),
    ("jobscope plist ", ["old.plist", "jobs.d"], ["web.json"]),
    ("jobscope log --", ["--since", "--journal", "--utc"], ["--strict"]),
    ("jobscope why --journal night.jsonl org.example.", ["org.example.web", "org.example.backup"], ["local.poll"]),
]
faults = []


def words_in(text):
    text = re.sub(r"\x1b\[[0-9;?]*[a-zA-Z]|\x1b[=>]|\r|\x07|[^\n]\x08", " ", text)
    return set(re.findall(r"[\w./-]+", text))


def read_until(fd, quiet, most, marker=None):
    """What comes, until the marker does, or nothing more has come for the quiet seconds."""
    out, end = b"", time.time() + most
    while time.time() < end and not (marker and marker in out):
        if not select.select([fd], [], [], 1.0 if marker else quiet)[0]:
            if marker:
                continue
            break
        try:
            piece = os.read(fd, 65536)
        except OSError:
            break
        if not piece:
            break
        out += piece
    return out.decode(errors="replace")


@contextlib.contextmanager
def shell(program, words, setup, folder, environment):
    """A shell in a terminal, which has done what it is told first. Gives its end of the terminal."""
    pid, fd = pty.fork()
    if pid == 0:
        os.chdir(folder)
        os.execvpe(program, [program, *words], environment)
    try:
        os.write(fd, (setup + "; echo set''up\n").encode())
        read_until(fd, 1.0, 60, b"setup\r\n")
        read_until(fd, 0.5, 5)
        yield fd
    finally:
        os.close(fd)
        os.waitpid(pid, 0)


def ask(line, *started):
    """What the shell shows once TAB is pressed twice behind the line."""
    with shell(*started) as fd:
        os.write(fd, line.encode() + b"\t\t")
        return read_until(fd, 2.5, 20)


def run_by(line, log, *started):
    """The words that jobctl gets once TAB is pressed behind the line and the line is run, or nothing; and what the shell shows."""
    if os.path.exists(log):
        os.unlink(log)
    with shell(*started) as fd:
        os.write(fd, line.encode() + b"\t")
        shown = read_until(fd, 1.0, 10)
        os.write(fd, b"\n")
        end = time.time() + 10
        while time.time() < end and not os.path.exists(log):
            shown += read_until(fd, 0.1, 0.2)
        if not os.path.exists(log):
            return None, shown
        with open(log) as it:
            return it.read().split("\0")[:-1], shown


# How each shell is started, and what it is told first.
SHELLS = {
    "bash": (
        ["--norc", "--noprofile", "-i"],
        f"source {FOLDER}/bash/jobctl; source {FOLDER}/bash/jobd; source {FOLDER}/bash/jobscope; bind 'set page-completions off'; bind 'set completion-query-items 0'",
    ),
    "zsh": (
        ["-f", "-i"],
        f"PS1='> '; fpath=({FOLDER}/zsh $fpath); autoload -Uz compinit; compinit -u -D; zstyle ':completion:*' list-prompt ''; LISTMAX=0",
    ),
    "fish": (["--no-config", "-i"], f"source {FOLDER}/fish/jobctl.fish; source {FOLDER}/fish/jobd.fish; source {FOLDER}/fish/jobscope.fish"),
}


def shown_by(name, line, folder, environment):
    """What the shell offers behind the line."""
    words, setup = SHELLS[name]
    if name != "fish":
        return ask(line, name, words, setup, folder, environment)
    run = subprocess.run(["fish", "-c", f"{setup}; complete -C {line!r}"], cwd=folder, env=environment, capture_output=True, text=True)
    return "\n".join(row.split("\t")[0] for row in run.stdout.splitlines())


def launch(folder, socket, labels):
    """A launcher at the socket, with a job of each label, and jobctl's way to its end."""
    place = f"{folder}/bin/of-{socket}"
    os.mkdir(place)
    words = [JOBD, "serve", "--socket", socket, "--store", f"{place}/store", "--spool", place]
    launcher = subprocess.Popen(words, cwd=folder, stdout=subprocess.PIPE, text=True)
    launcher.stdout.readline()
    for label in labels:
        with open(f"{place}/job.json", "w") as it:
            it.write('{"Label":"%s","Program":"/bin/true"}' % label)
        subprocess.run([CONTROL, "--socket", socket, "load", f"{place}/job.json"], cwd=folder, check=True)
    return launcher


def write_program(path, text):
    with open(path, "w") as program:
        program.write(text)
    os.chmod(path, 0o755)


def record(folder, real):
    """Puts the recorder into the folder's bin, before this jobctl."""
    write_program(f"{folder}/bin/jobctl", RECORDER.format(real=real, log=f"{folder}/log"))


def give_programs(folder):
    """Puts jobctl into the folder's bin: the real one with its launchers, which are returned, or the stand-in."""
    if os.path.isfile(JOBD) and os.path.isfile(CONTROL):
        record(folder, CONTROL)
        return {socket: launch(folder, socket, labels) for socket, labels in LABELS.items()}
    write_program(f"{folder}/bin/stand-in", JOBCTL)
    record(folder, f"{folder}/bin/stand-in")
    open(f"{folder}/other.sock", "w").close()
    return {}


def try_shell(name):
    if shutil.which(name) is None:
        print(f"completions: {name} is not here, so it was not asked")
        return
    with tempfile.TemporaryDirectory() as folder:
        os.mkdir(f"{folder}/bin")
        launchers = give_programs(folder)
        os.mkdir(f"{folder}/jobs.d")
        write_program(f"{folder}/bin/jobscope", JOBSCOPE)
        for file in ("web.json", "old.plist"):
            open(f"{folder}/{file}", "w").close()
        environment = dict(os.environ, PATH=f"{folder}/bin:" + os.environ["PATH"], HOME=folder, TERM="dumb", LC_ALL="C.UTF-8")
        for line, offered, others in CASES:
            shown = shown_by(name, line, folder, environment)
            words = words_in(shown.replace(line, " ", 1)) | {word.rstrip("/") for word in words_in(shown)}
            # A lone candidate is completed on the line itself.
            whole = re.sub(r"[^\w./-]", "", shown)
            for word in offered:
                if not any(word == w or w.endswith("/" + word) for w in words) and not (len(offered) == 1 and word in whole):
                    faults.append(f"{name}: {line!r} does not offer {word}: {shown!r}")
            for word in others:
                if word in words:
                    faults.append(f"{name}: {line!r} offers {word}")
        for line, wanted in RUNS:
            got, shown = run_by(line, f"{folder}/log", name, *SHELLS[name], folder, environment)
            if got != wanted:
                faults.append(f"{name}: {line!r} and TAB runs {got}, not {wanted}: {shown!r}")
        for socket, launcher in launchers.items():
            subprocess.run([CONTROL, "--socket", socket, "shutdown"], cwd=folder, check=True)
            launcher.wait(timeout=30)
    print(f"completions: {name} was asked {len(CASES)} times and ran {len(RUNS)} lines, " + ("beside two launchers" if launchers else "with a stand-in for jobctl"))


for name in SHELLS:
    try_shell(name)
for fault in faults:
    print("completions:", fault, file=sys.stderr)
sys.exit(1 if faults else 0)
END
