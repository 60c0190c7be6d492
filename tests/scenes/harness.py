"""What all scenes and trials of a real launcher share: a folder, launchers in it, clients, and who asks beside others. `pace.py` has its waits.
"""
import argparse
import ctypes
import json
import os
import select
import shlex
import shutil
import signal
import socket
import subprocess
import sys
import threading
import time

from pace import BOUND, Deadline, Fault, Late, check, comes, in_time, patience, seconds, text_at, wait_for  # noqa: F401

HERE = os.path.dirname(os.path.abspath(__file__))
BUILD = os.path.join(HERE, "..", "..", "build")
# The reply to a client of the control socket for which there is no place.
TOO_MANY = "too many clients\n"


def bytes_at(path):
    with open(path, "rb") as file:
        return file.read()


def make(path, text=""):
    with open(path, "w", encoding="utf-8") as file:
        file.write(text)
    return path


def sees_all():
    """Whether all processes of the machine and all locks are shown here: this is the first PID namespace. Elsewhere nothing is told as gone."""
    return os.readlink("/proc/self/ns/pid") == "pid:[4026531836]"


def children_of(pid):
    """The process ids below this one, the nearest first."""
    found = []
    try:
        tasks = os.listdir(f"/proc/{pid}/task")
    except (FileNotFoundError, ProcessLookupError):
        return found
    for task in tasks:
        for child in text_at(f"/proc/{pid}/task/{task}/children").split():
            found += [int(child), *children_of(int(child))]
    return found


def end_process(pid):
    try:
        os.kill(pid, signal.SIGKILL)
    except OSError:
        pass


def look_outs(pid):
    """The processes that look and open in the launcher's place."""
    return [child for child in children_of(pid) if text_at(f"/proc/{child}/cmdline").startswith("jobd-look-out")]


def kept_shells(launcher):
    """The shell that gives TERM, if one is kept."""
    return [pid for pid in children_of(launcher.pid) if "while read" in text_at(f"/proc/{pid}/cmdline")]


def wakes(pid):
    """The process that reports exits, if there is one."""
    return [child for child in children_of(pid) if text_at(f"/proc/{child}/cmdline").startswith("jobd-wake")]


def descriptors(pid):
    """How many are open, but for those of the launcher's helpers: one each."""
    return len(os.listdir(f"/proc/{pid}/fd")) - len(look_outs(pid)) - len(wakes(pid))


def first_free(pid):
    """The number that the process's next descriptor gets."""
    taken = os.listdir(f"/proc/{pid}/fd")
    return next(number for number in range(len(taken) + 1) if str(number) not in taken)


# ---- clients

def connect(path, bound=None):
    client = socket.socket(socket.AF_UNIX)
    client.settimeout(patience(bound))
    try:
        client.connect(path)
    except BaseException:
        client.close()
        raise
    return client


def read_line(client, text=b""):
    """The bytes up to the first newline, or to the end."""
    while b"\n" not in text:
        try:
            piece = client.recv(65536)
        except ConnectionResetError:
            break
        if not piece:
            break
        text += piece
    return text.partition(b"\n")[0]


def read_all(client):
    text = b""
    while True:
        try:
            piece = client.recv(65536)
        except ConnectionResetError:
            return text
        if not piece:
            return text
        text += piece


def call(path, text=b"", bound=None):
    """What a job's socket sends back to this request."""
    with connect(path, bound) as client:
        try:
            client.sendall(text)
            client.shutdown(socket.SHUT_WR)
        except (BrokenPipeError, ConnectionResetError, OSError):
            pass
        return read_all(client)


def begin(path, text=b""):
    """A client of a job's socket whose request is whole."""
    client = connect(path)
    client.sendall(text)
    client.shutdown(socket.SHUT_WR)
    return client


# ---- a scene's folder and its launchers

IGNORING = """
import json, os, signal, sys
words, ignored = json.loads(sys.argv[1]), sys.argv[2].split()
for name in ignored:
    signal.signal(getattr(signal, name), signal.SIG_IGN)
signal.signal(signal.SIGPIPE, signal.SIG_DFL)
signal.signal(signal.SIGXFSZ, signal.SIG_DFL)
os.execv(words[0], words)
"""


def sized(pid, name):
    """A size of the process, in bytes, by its name in /proc; 0 once it has exited."""
    with open(f"/proc/{pid}/status", encoding="ascii") as file:
        return next((1024 * int(line.split()[1]) for line in file if line.startswith(name)), 0)


class Launcher:
    """A started `jobd serve`."""

    def __init__(self, process, said, path):
        self.process, self.said_at, self.path = process, said, path
        self.pid, self.out, self.stack = process.pid, b"", None

    def has_sanitizer(self):
        """Whether the program was built with a sanitizer, which takes memory and stack by its own rules."""
        return sized(self.pid, "VmSize") > 1 << 40

    def keeps_its_stack(self):
        """It took all the stack that it needs before it was ready. One that has to grow may not be able to, which would kill it."""
        now = sized(self.pid, "VmStk")
        check(self.has_sanitizer() or now == self.stack, f"the stack grew from {self.stack} to {now} bytes")

    def said(self):
        """What it has logged, but for the line that it has no jobd-wake, where there is none, or no descriptor for it."""
        none = ("as no jobd-wake reports them: No such file", "as no jobd-wake reports them: Too many open files")
        return "".join(line for line in text_at(self.said_at).splitlines(True) if not any(it in line for it in none))

    def lines(self, part):
        return [line for line in self.said().splitlines() if part in line]

    def is_ready(self):
        """Reads standard output until the ready line or the end."""
        deadline = Deadline(BOUND)
        while b"\n" not in self.out:
            ready, _, _ = select.select([self.process.stdout], [], [], 0.1)
            if ready:
                piece = os.read(self.process.stdout.fileno(), 4096)
                if not piece:
                    break
                self.out += piece
            in_time(not deadline.is_over(), f"neither a ready line nor an end in {BOUND:.0f} s; it said {self.said()!r}")
        if self.out != b"jobd: ready\n":
            return False
        self.stack = sized(self.pid, "VmStk")
        return True

    def ends(self, bound=None):
        """The status, or a Late if it does not end."""
        wait_for(lambda: self.process.poll() is not None, lambda: f"the launcher does not end; it said {self.said()!r}", bound)
        return self.process.returncode

    def kill(self):
        """Ends it by KILL, and waits until it is gone: what it held is free then."""
        end_process(self.pid)
        self.ends()

    def ask_over(self, client, request, bound=None):
        """The reply to the request, or to a client that is turned away, perhaps before its line is sent."""
        client.settimeout(patience(bound))
        try:
            try:
                client.sendall(json.dumps(request).encode() + b"\n")
            except (BrokenPipeError, ConnectionResetError):
                pass
            line = read_line(client)
        except TimeoutError:
            raise Late(f"no answer to {request['req']} in time") from None
        except OSError as error:
            raise Fault(f"no answer to {request['req']}: {error}") from None
        check(line, f"no answer to {request['req']}: the connection was closed")
        return json.loads(line)

    def ask(self, request, bound=None):
        try:
            client = connect(self.path, bound)
        except TimeoutError:
            raise Late(f"no connection for {request['req']} in time") from None
        except OSError as error:
            raise Fault(f"no connection for {request['req']}: {error}") from None
        with client:
            return self.ask_over(client, request, bound)

    def load(self, definition, code=0):
        reply = self.ask({"req": "load", "def": json.dumps(definition)})
        check(reply["code"] == code, f"load of {definition['Label']} got {reply}")
        return reply

    def print(self, label):
        return self.ask({"req": "print", "job": label})["text"]

    def tells(self, label, part, bound=None):
        wait_for(lambda: part in self.print(label), f"print {label} does not come to say {part!r}", bound)

    def answers(self, why, bound=None):
        """An honest client is answered."""
        try:
            reply = self.ask({"req": "list"}, bound)
        except Fault as fault:
            raise type(fault)(f"{why}: {fault}") from None
        check(reply["code"] == 0, f"{why}: list got {reply}")

    def shut_down(self, bound=None):
        reply = self.ask({"req": "shutdown"})
        check(reply["code"] == 0, f"shutdown got {reply}")
        status = self.ends(bound)
        check(status == 0, f"the launcher ended with {status} after shutdown: {self.said()!r}")


class Stage:
    """A scene's folder, and what was started in it."""

    def __init__(self, given, folder):
        self.given, self.folder, self.started, self.count = given, folder, [], 0
        os.mkdir(self.at("spool"), 0o700)

    def at(self, name):
        return os.path.join(self.folder, name)

    def start(self, words=(), ignored=None, shell=None, env=None, **places):
        """Starts `jobd serve` on the scene's places, or others of these; it is not yet ready."""
        self.count += 1
        said = self.at(f"said{self.count}")
        place = {"socket": "socket", "store": "store", "spool": "spool", **places}
        command = [*self.given.jobd, "serve"]
        for option, name in place.items():
            command += [f"--{option}", self.at(name)]
        command += words
        if shell:
            command = ["/bin/sh", "-c", f'{shell}; exec "$@"', "sh", *command]
        if ignored:
            command = [sys.executable, "-I", "-S", "-c", IGNORING, json.dumps(command), ignored]
        around = {key: value for key, value in os.environ.items() if key not in ("JOURNAL_STREAM", "JOBD_LOG", "JOBD_STATUS_FILE")}
        with open(said, "wb") as errors:
            process = subprocess.Popen(
                command, cwd=self.folder, stdin=subprocess.DEVNULL, stdout=subprocess.PIPE, stderr=errors, env={**around, **(env or {})}
            )
        launcher = Launcher(process, said, self.at(place["socket"]))
        self.started.append(launcher)
        return launcher

    def serve(self, words=(), **how):
        launcher = self.start(words, **how)
        check(launcher.is_ready(), f"no ready line, but {launcher.out!r}; it said {launcher.said()!r}")
        return launcher

    def run(self, words, bound=None):
        """Runs `jobd` with these words to its end."""
        try:
            return subprocess.run(
                [*self.given.jobd, *words], cwd=self.folder, stdin=subprocess.DEVNULL, capture_output=True, timeout=patience(bound), text=True
            )
        except subprocess.TimeoutExpired:
            raise Late(f"jobd {words[0]} does not end in time") from None

    def jobctl(self, words, bound=None):
        command = [*self.given.jobctl, "--socket", self.at("socket"), *words]
        return subprocess.run(command, cwd=self.folder, stdin=subprocess.DEVNULL, capture_output=True, timeout=patience(bound), text=True)

    def replay(self, journal):
        with open(self.at(journal), "rb") as given:
            run = subprocess.run([*self.given.jobd, "replay"], stdin=given, capture_output=True, timeout=patience(3 * BOUND), text=True)
        return run

    def clear(self):
        for launcher in self.started:
            below = children_of(launcher.pid) if launcher.process.poll() is None else []
            for pid in [launcher.pid, *below]:
                end_process(pid)
            launcher.process.wait()
            launcher.process.stdout.close()
        shutil.rmtree(self.folder, ignore_errors=True)


def shell_job(label, script, **keys):
    return {"Label": label, "ProgramArguments": ["/bin/sh", "-c", script], **keys}


def socket_job(stage, label, words, **keys):
    """A job whose socket is at its label in the scene's folder."""
    return {
        "Label": label,
        "ProgramArguments": words,
        "ThrottleInterval": 0,
        "inetdCompatibility": {"Wait": False},
        "Sockets": {"s": {"SockPathName": stage.at(label)}},
        **keys,
    }


def gated_job(stage, label="slow"):
    """A job that answers with its request once the file `go` is there."""
    script = f"until [ -e {stage.at('go')} ]; do sleep 0.02; done; exec cat"
    return socket_job(stage, label, ["/bin/sh", "-c", script])


def requests_in(stage, spool="spool"):
    return sorted(name for name in os.listdir(stage.at(spool)) if name.endswith(".request"))


def has_answer(launcher):
    """Whether an honest client is answered right now."""
    try:
        return launcher.ask({"req": "list"})["code"] == 0
    except Fault:
        return False


def end_all(launcher):
    """A shutdown that may wait for a job that heeds no TERM."""
    launcher.ask({"req": "shutdown"})
    check(launcher.ends() == 0, "no clean end")


# ---- one who asks beside others

class Honest:
    """Asks for a list again and again, and keeps how long each took, by the clock of `pace.py`. One that got no answer in so many seconds counts as `most`,
    and ends it."""

    def __init__(self, launcher, most=None):
        self.launcher, self.most, self.times, self.is_over = launcher, BOUND if most is None else most, [], False
        self.thread = threading.Thread(target=self.go, daemon=True)
        self.thread.start()

    def go(self):
        while not self.is_over:
            begun = seconds()
            try:
                self.launcher.ask({"req": "list"}, self.most)
            except (Fault, OSError):
                self.times.append(self.most)
                return
            self.times.append(seconds() - begun)
            time.sleep(0.005)

    def end(self):
        self.is_over = True
        self.thread.join()
        return sorted(self.times)


# ---- the processes of a script

def adopt_orphans():
    """The children of a launcher that was killed become children of this process, so that they can be ended."""
    try:
        ctypes.CDLL(None).prctl(36, 1, 0, 0, 0)
    except (OSError, AttributeError):
        pass


def end_children():
    """Ends and waits for all that is left below this process."""
    for pid in children_of(os.getpid()):
        end_process(pid)
    end = time.monotonic() + BOUND
    while time.monotonic() < end:
        try:
            if os.waitpid(-1, os.WNOHANG) == (0, 0):
                time.sleep(0.01)
        except ChildProcessError:
            return


def heed_signals():
    """No signal is ignored in what is started from here: whoever started this script may have had it ignore some, as nohup does."""
    for number in signal.valid_signals():
        if signal.getsignal(number) == signal.SIG_IGN and number not in (signal.SIGPIPE, signal.SIGXFSZ):
            signal.signal(number, signal.SIG_DFL)


def program_words(**how):
    """A reader of the words that say over which programs something is played, and what of it."""
    words = argparse.ArgumentParser(**how)
    words.add_argument("--jobd", type=shlex.split, default=[os.path.join(BUILD, "jobd")])
    words.add_argument("--jobctl", type=shlex.split, default=[os.path.join(BUILD, "jobctl")])
    words.add_argument("--jobscope", type=shlex.split, default=[os.path.join(BUILD, "jobscope")])
    words.add_argument("names", nargs="*", metavar="NAME")
    return words


def chosen(words, given, played):
    """Those of the played functions that the words name; all, if they name none. Each program's path is a whole one from here on."""
    for command in (given.jobd, given.jobctl, given.jobscope):
        command[0] = os.path.abspath(command[0])
    unknown = set(given.names) - {it.__name__ for it in played}
    if unknown:
        words.error(f"nothing here is named {min(unknown)}")
    return [it for it in played if not given.names or it.__name__ in given.names]
