"""Scenes of what users do with the launcher: lists of steps, each with what is to come of it, as the launcher, its clients and its jobs
say it.

`play.py` plays them; `harness.py` has what all scenes share. `@` in a text is the scene's folder, and `#` an address of this machine
that no other run of the scenes has.
"""
import json
import os
import socket
import subprocess
import time

from harness import BOUND, call, check, connect, patience, read_all, read_line, text_at, wait_for
from jobs import call_port, node_of

ONCE = (
    '{"Label":"once","ProgramArguments":["/bin/sh","-c","echo $WORD; pwd"],"RunAtLoad":true,"EnvironmentVariables":{"WORD":"ran"},'
    '"WorkingDirectory":"@","StandardOutPath":"@/written"}'
)

CAT = '{"Label":"cat","ProgramArguments":["/bin/cat"],"inetdCompatibility":{"Wait":false},"Sockets":{"s":{"SockPathName":"@/cat"}}}'

# Each of the two ends once the other has begun.
ONE = '{"Label":"one","ProgramArguments":["/bin/sh","-c",": > @/one; until [ -e @/two ]; do sleep 0.01; done"],"RunAtLoad":true}'
TWO = '{"Label":"two","ProgramArguments":["/bin/sh","-c",": > @/two; until [ -e @/one ]; do sleep 0.01; done"],"RunAtLoad":true}'

STREAMS = (
    '{"Label":"streams","ProgramArguments":["/bin/sh","-c","cat; pwd; echo $WORD >&2"],"RunAtLoad":true,'
    '"EnvironmentVariables":{"WORD":"said"},"WorkingDirectory":"@/place","StandardInPath":"@/given","StandardOutPath":"@/written",'
    '"StandardErrorPath":"@/errors"}'
)

# Its second run tells that there is one.
OFTEN = (
    '{"Label":"often","ProgramArguments":["/bin/sh","-c","[ ! -e @/once ] || echo twice > @/twice; : > @/once"],"StartInterval":1,'
    '"ThrottleInterval":0}'
)

WATCH = '{"Label":"watch","ProgramArguments":["/bin/sh","-c","echo seen > @/seen"],"WatchPaths":["@/watched"]}'

QUEUE = '{"Label":"queue","ProgramArguments":["/bin/sh","-c","rm @/items/* && echo emptied > @/emptied"],"QueueDirectories":["@/items"]}'

# Its second run lasts.
KEPT = (
    '{"Label":"kept","ProgramArguments":["/bin/sh","-c","[ ! -e @/begun ] || exec sleep 60; : > @/begun"],"KeepAlive":true,'
    '"ThrottleInterval":0}'
)

SEVEN = '{"Label":"seven","ProgramArguments":["/bin/sh","-c","exit 7"],"RunAtLoad":true}'

MILD = '{"Label":"mild","ProgramArguments":["/bin/sh","-c","while :; do :; done"],"RunAtLoad":true,"ExitTimeOut":0}'

DEAF = (
    '{"Label":"deaf","ProgramArguments":["/bin/sh","-c","trap \'\' TERM; echo $$ > @/deafened; while :; do :; done"],"RunAtLoad":true,'
    '"ExitTimeOut":1}'
)

# Ends by itself, after the scene, however long that takes.
LASTS = '{"Label":"lasts","ProgramArguments":["/bin/sh","-c","echo $$ > @/lasting; exec sleep 60"],"RunAtLoad":true}'

# Kept while the file is there; so it begins once the file was made.
WHILE_THERE = '{"Label":"there","ProgramArguments":["/bin/sh","-c","echo found > @/found"],"KeepAlive":{"PathState":{"@/flag":true}}}'

# Kept while the file is not there.
WHILE_GONE = '{"Label":"gone","ProgramArguments":["/bin/sh","-c","exit 3"],"KeepAlive":{"PathState":{"@/flag":false}}}'

NET = (
    '{"Label":"net","ProgramArguments":["/bin/cat"],"inetdCompatibility":{"Wait":false},'
    '"Sockets":{"s":{"SockNodeName":"#","SockServiceName":17007}}}'
)

IDLE = '{"Label":"idle","ProgramArguments":["/bin/true"]}'

DOG = json.dumps({"req": "load", "def": CAT.replace("cat", "dog").replace("/bin/dog", "/bin/cat")}) + "\n"

# One job leaves, and another one with a socket comes in its place.
CAT_TO_DOG = '{"req":"unload","job":"cat"}\n' + DOG

# One job leaves, and comes again.
DOG_TO_DOG = '{"req":"unload","job":"dog"}\n' + DOG

TWO_DONE = '{"code":0,"text":""}\n' * 2

LISTED = "PID\tStatus\tLabel\n"

LEFT, REMOVED = "left", "removed"

# The requests of these scenes, as a journal tells them.
REQUESTS = ("load", "unload", "stop", "list", "print", "shutdown")


def printed(label, state, runs, last_exit, disabled):
    """What `jobctl print` says of a job without a process."""
    lines = [f"state = {state}", "pid = -", f"runs = {runs}", f"last exit = {last_exit}", "demand = no", "connections = 0"]
    return f"{label} = {{\n" + "".join(f"\t{line}\n" for line in [*lines, f"disabled = {disabled}"]) + "}\n"


# Of one client: what it asks, what `print` of a job comes to show, and what file comes to be there.
ASKS, SHOWS, LIES = "asks", "shows", "lies"


def load_of(label, script, **keys):
    """The line that loads a job of a shell, which is started at once."""
    definition = {"Label": label, "ProgramArguments": ["/bin/sh", "-c", script], "RunAtLoad": True, **keys}
    return ASKS, json.dumps({"req": "load", "def": json.dumps(definition, separators=(",", ":"))}, separators=(",", ":"))


def of_job(request, label):
    return ASKS, json.dumps({"req": request, "job": label}, separators=(",", ":"))


# No child is waited for before the next event: the one ends once a file is there that the other makes. Then a job ends by its code, one by
# TERM (there is no KILL if ExitTimeOut is 0), and one by KILL, which ignores TERM once its file is there.
ONE_CLIENT = [
    load_of("a", "until [ -e @/made ]; do sleep 0.01; done"), load_of("b", ": > @/made"),
    (SHOWS, "a", "last exit = code 0"), (SHOWS, "b", "last exit = code 0"), (ASKS, '{"req":"list"}'),
    load_of("c", "exit 7"), (SHOWS, "c", "last exit = code 7"), of_job("print", "c"),
    load_of("d", "while :; do :; done", ExitTimeOut=0), (SHOWS, "d", "state = running"), of_job("stop", "d"),
    (SHOWS, "d", "last exit = signal 15"), of_job("print", "d"),
    load_of("e", "trap '' TERM; : > @/deaf; while :; do :; done", ExitTimeOut=1), (LIES, "deaf"), of_job("stop", "e"),
    (SHOWS, "e", "last exit = signal 9"), of_job("print", "e"), of_job("stop", "e"),
]

class User:
    """Takes the steps of a scene. Each step that waits is a fault where its fact does not come."""

    def __init__(self, stage):
        self.stage, self.launcher, self.caller, self.node, self.replies = stage, None, None, node_of(), []
        self.began = int(time.time())

    def text(self, text):
        return text.replace("@", self.stage.folder).replace("#", self.node)

    def make(self, name, text=""):
        with open(self.stage.at(name), "w", encoding="utf-8") as file:
            file.write(self.text(text))

    def serve(self, words=""):
        """Starts `jobd serve` on the scene's socket, store and spool with these words more, and waits for its first line."""
        self.launcher = self.stage.serve(words.split())

    def ended(self, status, socket_is, said=""):
        """The launcher ends so, and leaves its socket's file or not."""
        got = (self.launcher.ends(), LEFT if os.path.lexists(self.stage.at("socket")) else REMOVED, self.launcher.said())
        check(got == (status, socket_is, said), f"the launcher ended with {got} and not {(status, socket_is, said)}")

    def kill(self, socket_is):
        """Kills the launcher by signal 9."""
        self.launcher.kill()
        got = LEFT if os.path.lexists(self.stage.at("socket")) else REMOVED
        check(got == socket_is, f"after signal 9 its socket is {got}")

    def jobctl(self, words):
        """Runs `jobctl`, and keeps what it was answered: its status, and its text, which is on standard error at a refusal."""
        command = [*self.stage.given.jobctl, "--socket", "socket", *words.split()]
        ran = subprocess.run(command, cwd=self.stage.folder, stdin=subprocess.DEVNULL, capture_output=True, timeout=patience(3 * BOUND), text=True)
        self.replies.append((ran.returncode, ran.stderr if ran.returncode else ran.stdout))
        return ran

    def ask(self, words, status=0, text="", told=""):
        """`jobctl` with these words ends so, and says this; and told is on standard error beside a reply."""
        ran = self.jobctl(words)
        wanted = (status, "", text) if status else (0, text, told)
        got = (ran.returncode, ran.stdout, ran.stderr)
        check(got == wanted, f"jobctl {words} gave {got} and not {wanted}")

    def tells(self, words, part):
        """`jobctl` comes to answer these words with a text that has this in it."""
        wait_for(lambda: part in self.jobctl(words).stdout, lambda: f"jobctl {words} does not tell {part!r} but {self.replies[-1]}")

    def run(self, words, status, text):
        """`jobd` with these words ends so, and tells this."""
        ran = self.stage.run(words.split())
        got = (ran.returncode, ran.stdout, ran.stderr)
        check(got == (status, "", text), f"jobd {words} gave {got} and not {(status, '', text)}")

    def settings(self, *fronts):
        """The settings of the store, each with the second at which it was made, which is one of this scene."""
        ran = self.stage.run(["overrides", "--store", "store"])
        got = [line.rpartition("\t")[0] for line in ran.stdout.splitlines()]
        check((ran.returncode, got, ran.stderr) == (0, list(fronts), ""), f"the store has {got}: {ran.returncode}, {ran.stderr!r}")
        seconds = [int(line.rpartition("\t")[2]) for line in ran.stdout.splitlines()]
        check(all(self.began <= second <= time.time() for second in seconds), f"the settings have the seconds {seconds}")

    def holds(self, name, text):
        """The file comes to hold the text."""
        wanted = self.text(text)
        held = lambda: text_at(self.stage.at(name))
        wait_for(lambda: held() == wanted, lambda: f"{name} holds {held()!r} and not {wanted!r}")

    def has(self, name, part):
        """The file comes to have this in it."""
        wait_for(lambda: self.text(part) in text_at(self.stage.at(name)), lambda: f"{name} holds {text_at(self.stage.at(name))!r}")

    def call(self, name, text, reply):
        """Calls the Unix socket, sends the text, half-closes, and hears this until the end."""
        got = call(self.stage.at(name), text)
        check(got == reply, f"a client of {name} got {got!r} and not {reply!r}")

    def begin(self, name, text):
        """Calls the Unix socket, and sends the text."""
        self.caller = connect(self.stage.at(name))
        self.caller.sendall(text)

    def finish(self, reply):
        """Half-closes the call that was begun, and hears this until the end. A client that was let go hears nothing."""
        with self.caller as caller:
            try:
                caller.shutdown(socket.SHUT_WR)
            except OSError:
                pass
            got = read_all(caller)
        check(got == reply, f"the client that began got {got!r} and not {reply!r}")

    def send(self, lines, replies):
        """Sends these lines to the control socket at once, half-closes, and hears these replies until the end."""
        got = call(self.stage.at("socket"), self.text(lines).encode()).decode()
        check(got == replies, f"{lines!r} got {got!r}")

    def outcomes(self, journal):
        """The events of the journal's lines, each with the line of its outcome. The first line is the header, which has none."""
        ran = self.stage.replay(journal)
        check(ran.returncode == 0, f"the replay of {journal} ends with {ran.returncode}: {ran.stderr!r}")
        events, outcomes = text_at(self.stage.at(journal)).splitlines()[1:], ran.stdout.splitlines()
        check(len(events) == len(outcomes), f"{journal} has {len(events)} events, and its replay gives {len(outcomes)} outcomes")
        return list(zip(events, outcomes))

    def replays(self, journal, part, *lines):
        """The replay gives these outcomes of the events that have this text in their line."""
        got = [outcome for event, outcome in self.outcomes(journal) if part in event]
        check(got == list(lines), f"of {part!r} the replay of {journal} gives {got} and not {list(lines)}")

    def compare(self, journal):
        """In the replay each request has the outcome that `jobctl` was answered, all of them and in order."""
        got = [json.loads(outcome) for event, outcome in self.outcomes(journal) if json.loads(event).get("ev") in REQUESTS]
        got = [(outcome["code"], outcome["text"]) for outcome in got]
        check(got == self.replies, f"the replay of {journal} gives {got}, and jobctl was answered {self.replies}")

    def is_process(self, name):
        """Whether the process is left whose number the file holds."""
        return os.path.exists(f"/proc/{text_at(self.stage.at(name)).strip()}")


def outcome(text="", code=0, orders="[]"):
    """The line of an outcome."""
    escaped = text.replace("\n", "\\n").replace("\t", "\\t")
    return f'{{"code":{code},"orders":{orders},"text":"{escaped}"}}'


# ---- the scenes

def a_first_job_and_a_client(stage):
    """A job is loaded, runs and ends; a client of another one is served; what is listed, printed and replayed."""
    user = User(stage)
    user.make("once.json", ONCE)
    user.make("cat.json", CAT)
    user.serve("--journal journal")
    user.ask("list", text=LISTED)
    user.ask("start z", 3, "no such job\n")
    user.ask("load once.json")
    user.holds("written", "ran\n@\n")
    user.tells("print once", "last exit = code 0")
    user.ask("list", text=LISTED + "-\t0\tonce\n")
    user.ask("print once", text=printed("once", "idle", 1, "code 0", "false"))
    user.ask("load cat.json")
    user.call("cat", b"hello", b"hello")
    user.tells("print cat", "last exit = code 0")
    user.ask("unload cat.json")
    user.ask("list", text=LISTED + "-\t0\tonce\n")
    user.ask("shutdown")
    user.ended(0, REMOVED)
    once = outcome(LISTED + "-\t0\tonce\n")
    # (after a refused start `jobctl` asks which labels are near)
    user.replays("journal", '"ev":"list"}', outcome(LISTED), outcome(LISTED), once, once)
    user.replays("journal", '"ev":"start"', outcome("no such job\n", 3))
    user.replays("journal", '"ev":"shutdown"', outcome(orders='[{"job":"once","order":"gone"}]'))


def settings_outlive_the_launcher(stage):
    """What `disable`, `enable`, `-w` and `-F` do, and that a setting stands after the launcher's end."""
    user = User(stage)
    user.make("idle.json", IDLE)
    user.serve()
    user.ask("load -w idle.json")
    user.ask("disable system/idle", told="jobctl: idle is loaded, and stays loaded until it is unloaded\n")
    user.ask("load idle.json", 4, "already loaded\n")
    user.ask("shutdown")
    user.ended(0, REMOVED)
    user.settings("idle\tdisabled")
    user.serve("--journal journal")
    user.ask("load idle.json", 5, "disabled\n")
    user.ask("load -F idle.json")
    user.ask("print idle", text=printed("idle", "idle", 0, "never", "true"))
    user.ask("enable idle")
    user.ask("shutdown")
    user.ended(0, REMOVED)
    user.settings("idle\tenabled")
    user.replays("journal", '"ev":"load"', outcome("disabled\n", 5), outcome())


def starts_that_are_refused(stage):
    """Each place that can't be used ends the launcher with a status of its own, and is told with the system's reason."""
    user = User(stage)
    absent = "No such file or directory (os error 2)\n"
    places = "serve --socket socket --store store --spool spool"
    user.run(f"{places} --zone Mars", 7, "jobd: zone Mars: not a POSIX TZ string\n")
    user.run(f"{places} --zone-file nowhere", 7, f"jobd: zone file nowhere: {absent}")
    words = "serve --socket nowhere/socket --store store --spool spool"
    user.run(words, 6, f"jobd: control socket nowhere/socket: {absent}")
    user.run(f"{places} --journal nowhere/journal", 8, f"jobd: journal nowhere/journal: {absent}")
    user.run("serve --socket socket --store spool --spool spool", 5, "jobd: store spool: it is not a plain file\n")
    user.run("overrides --store nowhere", 5, f"jobd: store nowhere: {absent}")
    user.ask("list", 69, f"jobctl: socket: {absent}")
    user.serve()
    words = "serve --socket socket --store other --spool spool"
    user.run(words, 6, "jobd: control socket socket: another launcher holds its lock\n")
    user.run("overrides --store store", 5, "jobd: store store: the database is in use\n")
    user.ask("shutdown")
    user.ended(0, REMOVED)


def two_jobs_at_once(stage):
    """Two jobs run at the same time: each ends once the other has begun."""
    user = User(stage)
    user.make("one.json", ONE)
    user.make("two.json", TWO)
    user.serve("--journal journal")
    user.ask("load one.json")
    user.ask("load two.json")
    user.tells("print one", "last exit = code 0")
    user.tells("print two", "last exit = code 0")
    user.ask("list", text=LISTED + "-\t0\tone\n-\t0\ttwo\n")
    user.ask("shutdown")
    user.ended(0, REMOVED)
    user.compare("journal")


def what_is_around_a_job(stage):
    """A job has its streams, its folder and its environment."""
    user = User(stage)
    user.make("streams.json", STREAMS)
    user.make("given", "given\n")
    os.mkdir(stage.at("place"), 0o700)
    user.serve()
    user.ask("load streams.json")
    user.tells("print streams", "last exit = code 0")
    user.holds("written", "given\n@/place\n")
    user.holds("errors", "said\n")
    user.ask("shutdown")
    user.ended(0, REMOVED)


def demands_of_jobs(stage):
    """An interval, a watched path, a queue folder and KeepAlive start their jobs."""
    user = User(stage)
    for name, definition in (("often", OFTEN), ("watch", WATCH), ("queue", QUEUE), ("kept", KEPT)):
        user.make(f"{name}.json", definition)
    user.make("watched", "old")
    os.mkdir(stage.at("items"), 0o700)
    user.serve("--journal journal")
    for name in ("often", "watch", "queue", "kept"):
        user.ask(f"load {name}.json")
    user.has("journal", '"path":"@/watched"')
    user.make("watched", "new")
    user.holds("seen", "seen\n")
    user.make("items/item")
    user.holds("emptied", "emptied\n")
    user.holds("twice", "twice\n")
    user.tells("print kept", "runs = 2")
    user.ask("shutdown")
    user.ended(0, REMOVED)
    start = '[{"job":"kept","order":"spawn","run":1}]'
    user.replays("journal", '"ev":"load"', outcome(), outcome(), outcome(), outcome(orders=start))


def ends_of_jobs(stage):
    """A job ends by its code, by TERM, and by KILL where it heeds no TERM. The replay says what the launcher did."""
    user = User(stage)
    for name, definition in (("seven", SEVEN), ("mild", MILD), ("deaf", DEAF)):
        user.make(f"{name}.json", definition)
    user.serve("--journal journal")
    for name in ("seven", "mild", "deaf"):
        user.ask(f"load {name}.json")
    user.tells("print seven", "last exit = code 7")
    user.tells("print mild", "state = running")
    user.ask("stop mild")
    user.tells("print mild", "last exit = signal 15")
    user.has("deafened", "\n")
    user.ask("stop deaf")
    user.tells("print deaf", "last exit = signal 9")
    user.ask("stop deaf", 7, "not running\n")
    listed = LISTED + "-\t-9\tdeaf\n-\t-15\tmild\n-\t7\tseven\n"
    user.ask("list", text=listed)
    user.ask("shutdown")
    user.ended(0, REMOVED)
    terms = [outcome(orders=f'[{{"job":"{label}","order":"term","run":1}}]') for label in ("mild", "deaf")]
    user.replays("journal", '"ev":"stop"', *terms, outcome("not running\n", 7))
    user.replays("journal", '"ev":"list"}', outcome(listed))
    user.compare("journal")


def a_replay_of_one_clients_lines(stage):
    """One client asks line by line, over one connection. A replay of the journal gives each line the code and the text of its reply."""
    user = User(stage)
    user.serve("--journal journal")
    replies = []
    with connect(stage.at("socket")) as client:
        def answered(line):
            client.sendall(user.text(line).encode() + b"\n")
            replies.append(read_line(client).decode())
            return replies[-1]

        for kind, word, *part in ONE_CLIENT:
            if kind == ASKS:
                answered(word)
            elif kind == SHOWS:
                line = of_job("print", word)[1]
                wait_for(lambda: part[0] in answered(line), lambda: f"print {word} does not tell {part[0]!r} but {replies[-1]}")
            else:
                wait_for(lambda: os.path.exists(stage.at(word)), f"the file {word} does not come")
        answered('{"req":"shutdown"}')
    user.ended(0, REMOVED)
    got = [outcome for event, outcome in user.outcomes("journal") if json.loads(event)["ev"] in REQUESTS]
    check(len(got) == len(replies), f"the replay answers {len(got)} requests, and the client had {len(replies)} replies")
    for reply, outcome in zip(replies, got):
        code, _, text = reply.partition('"text"')
        is_same = outcome.startswith(code) and outcome.endswith(f'"text"{text}')
        check(text and is_same, f"the client was answered {reply!r}, and the replay gives {outcome!r}")


def a_shutdown_that_kills(stage):
    """A shutdown ends a job that heeds no TERM by KILL."""
    user = User(stage)
    user.make("deaf.json", DEAF)
    user.serve("--journal journal")
    user.ask("load deaf.json")
    user.has("deafened", "\n")
    user.ask("shutdown")
    user.ended(0, REMOVED)
    check(not user.is_process("deafened"), "the job's process is left")
    user.replays("journal", '"ev":"shutdown"', outcome(orders='[{"job":"deaf","order":"term","run":1}]'))
    user.replays("journal", '"ev":"killed"', outcome())
    user.replays("journal", '"ev":"ended"', outcome(orders='[{"job":"deaf","order":"gone"}]'))
    user.compare("journal")


def jobs_kept_while_a_file_is_there(stage):
    """`PathState` starts a job while a file is there, and another while it is not."""
    user = User(stage)
    user.make("there.json", WHILE_THERE)
    user.make("gone.json", WHILE_GONE)
    user.serve("--journal journal")
    user.ask("load there.json")
    user.ask("load gone.json")
    user.tells("print gone", "last exit = code 3")
    user.ask("list", text=LISTED + "-\t3\tgone\n-\t0\tthere\n")
    user.make("flag")
    user.holds("found", "found\n")
    user.tells("print there", "last exit = code 0")
    user.ask("shutdown")
    user.ended(0, REMOVED)
    user.compare("journal")


def a_launcher_that_was_killed(stage):
    """The job of the killed launcher lives on, and is not adopted. Settings stand, and of the spool goes what was an earlier launcher's."""
    user = User(stage)
    user.make("idle.json", IDLE)
    user.make("lasts.json", LASTS)
    user.make("spool/3-1.request", "left by an earlier launcher")
    user.make("spool/notes", "a user's own")
    user.serve("--journal journal")
    check(os.listdir(stage.at("spool")).count("3-1.request") == 0, "a request of an earlier launcher is left in the spool")
    check(os.path.exists(stage.at("spool/notes")), "a user's own file is gone from the spool")
    user.ask("load lasts.json")
    user.has("lasting", "\n")
    user.ask("disable idle", told="jobctl: idle is not loaded: the setting is kept for a later load\n")
    user.ask("enable lasts")
    user.kill(LEFT)
    check(user.is_process("lasting"), "the job's process went with the launcher that was killed")
    user.serve("--journal later")
    user.ask("list", text=LISTED)
    user.ask("load idle.json", 5, "disabled\n")
    user.ask("shutdown")
    user.ended(0, REMOVED)
    user.settings("idle\tdisabled", "lasts\tenabled")
    user.replays("journal", '"ev":"load"', outcome(orders='[{"job":"lasts","order":"spawn","run":1}]'))
    user.replays("journal", '"ev":"disable"', outcome())
    user.replays("journal", '"ev":"enable"', outcome())


def callers_of_jobs(stage):
    """A client calls a port; and a client of a job that leaves, for another one or to come again, is let go, and the next one served."""
    user = User(stage)
    user.make("net.json", NET)
    user.make("cat.json", CAT)
    user.serve()
    user.ask("load net.json")
    got = call_port(user.node, 17007, b"hello")
    check(got == b"hello", f"a client of the port got {got!r}")
    user.tells("print net", "last exit = code 0")
    user.ask("load cat.json")
    user.begin("cat", b"hello")
    user.ask("list", text=LISTED + "-\t0\tcat\n-\t0\tnet\n")
    user.send(CAT_TO_DOG, TWO_DONE)
    user.finish(b"")
    user.call("dog", b"bark", b"bark")
    user.tells("print dog", "last exit = code 0")
    user.begin("dog", b"hello")
    user.ask("list", text=LISTED + "-\t0\tdog\n-\t0\tnet\n")
    user.send(DOG_TO_DOG, TWO_DONE)
    user.finish(b"")
    user.call("dog", b"bark", b"bark")
    user.ask("shutdown")
    user.ended(0, REMOVED)


SCENES = [
    a_first_job_and_a_client, settings_outlive_the_launcher, starts_that_are_refused, two_jobs_at_once, what_is_around_a_job,
    demands_of_jobs, ends_of_jobs, a_replay_of_one_clients_lines, a_shutdown_that_kills, jobs_kept_while_a_file_is_there,
    a_launcher_that_was_killed, callers_of_jobs,
]
