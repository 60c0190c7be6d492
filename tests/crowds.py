"""Crowds of clients that misbehave, each in a process of its own, and what is measured beside them. hostile_clients.py plays them."""
import ctypes
import json
import os
import random
import select
import signal
import socket
import statistics
import sys
import threading
import time
import traceback

sys.dont_write_bytecode = True
sys.path.insert(0, os.path.join(os.path.dirname(os.path.abspath(__file__)), "scenes"))
from harness import comes, connect, descriptors, read_all, read_line, shell_job  # noqa: E402

LIST = b'{"req":"list"}\n'
# Of what took as many milliseconds the moment is told too.
SLOW = 50


class Crowd:
    """A process that does this with these words until it is ended."""

    def __init__(self, what, *words):
        self.pid = os.fork()
        if self.pid == 0:
            try:
                # It ends with whoever made it.
                ctypes.CDLL(None).prctl(1, signal.SIGKILL, 0, 0, 0)
                random.seed(os.getpid())
                what(*words)
            except BaseException:
                traceback.print_exc()
            finally:
                os._exit(1)

    def end(self):
        os.kill(self.pid, signal.SIGKILL)
        os.waitpid(self.pid, 0)


# ---- what a crowd does

def again(step, pause):
    """Does the step again and again. That the launcher cuts a client off is its right."""
    while True:
        try:
            step()
        except (OSError, TimeoutError):
            pass
        time.sleep(random.uniform(0, 2 * pause))


def is_held(client):
    """Whether the launcher has not closed its end, whatever waits to be read. One that could not be replaced is held no longer."""
    if client.fileno() < 0:
        return False
    poll = select.poll()
    poll.register(client, select.POLLRDHUP)
    return not poll.poll(0)


def silent(path, count, text=b""):
    """So many clients that send no more than this, each of them replaced as it is let go."""
    held = [connect(path) for _ in range(count)]
    for client in held:
        send(client, text)

    def step():
        for at, client in enumerate(held):
            if not is_held(client):
                client.close()
                held[at] = connect(path)
                held[at].sendall(text)

    again(step, 0.02)


def dripping(path, count, pause):
    """So many clients that send a byte each so many seconds, each of them replaced as it is let go."""
    held = [connect(path) for _ in range(count)]

    def step():
        for at, client in enumerate(held):
            if is_held(client):
                send(client, b"x")
            else:
                client.close()
                held[at] = connect(path)

    again(step, pause / 2)


def vanishing(path, text, half_closes=False):
    """Clients that send this and leave."""

    def step():
        with connect(path) as client:
            client.sendall(text)
            if half_closes:
                client.shutdown(socket.SHUT_WR)

    again(step, 0.01)


def send(client, text):
    """Sends the text as far as it is taken."""
    try:
        client.sendall(text)
    except OSError:
        pass


def pipelining(path, text):
    """A client that sends these lines all at once, and reads each reply."""

    def step():
        with connect(path) as client:
            sender = threading.Thread(target=send, args=(client, text), daemon=True)
            sender.start()
            left = text.count(b"\n")
            while left > 0 and (piece := client.recv(65536)):
                left -= piece.count(b"\n")
            sender.join()

    again(step, 0.01)


def never_reading(path, text, count, stay, half_closes=False):
    """So many clients, 20 milliseconds apart, that send this as long as it is taken, or once and half-close; they read nothing, and
    leave after some seconds, this many on average."""

    def step():
        held = []
        for _ in range(count):
            held.append(connect(path))
            held[-1].setblocking(False)
            try:
                while held[-1].send(text) and not half_closes:
                    pass
                held[-1].shutdown(socket.SHUT_WR)
            except OSError:
                pass
            time.sleep(0.02)
        time.sleep(random.uniform(0.5 * stay, 1.5 * stay))
        for client in held:
            client.close()

    again(step, 0.1)


# ---- what is seen beside them

class Beside:
    """Does the step again and again beside a crowd, in a process of its own, and keeps how long each took. A step that fails says why."""

    def __init__(self, step, pause):
        self.step, self.pause, self.took, self.faults, self.slow = step, pause, [], [], []

    def start(self):
        """To be called before any thread is started: a fork takes no thread along."""
        self.begun = time.monotonic()
        self.until, stop = os.pipe()
        found, told = os.pipe()
        self.pid = os.fork()
        if self.pid == 0:
            try:
                ctypes.CDLL(None).prctl(1, signal.SIGKILL, 0, 0, 0)
                os.close(stop)
                os.close(found)
                self.go_on()
                with open(told, "w", encoding="utf-8") as file:
                    json.dump([self.took, self.faults, self.slow], file)
                os._exit(0)
            except BaseException:
                traceback.print_exc()
            finally:
                os._exit(1)
        os.close(told)
        os.close(self.until)
        self.stop, self.found = stop, found

    def go_on(self):
        while not select.select([self.until], [], [], self.pause)[0]:
            start = time.monotonic()
            try:
                fault = self.step()
            except Exception as error:
                fault = f"{type(error).__name__}: {error}"
            self.took.append(1000 * (time.monotonic() - start))
            if self.took[-1] > SLOW:
                self.slow.append([start, self.took[-1]])
            if fault:
                self.faults.append(f"{fault} after {self.took[-1]:.0f} ms")

    def end(self):
        os.write(self.stop, b"!")
        os.close(self.stop)
        with open(self.found, encoding="utf-8") as file:
            self.took, self.faults, self.slow = json.load(file)
        os.waitpid(self.pid, 0)

    def median(self):
        return statistics.median(self.took)

    def most(self):
        return max(self.took)

    def late(self):
        """The 99th percentile of the worst thousand in a row, or of all if there are fewer."""
        parts = [sorted(self.took[at:at + 1000]) for at in range(0, max(1, len(self.took) - 999), 1000)]
        return max(part[(99 * len(part) - 1) // 100] for part in parts)

    def told(self):
        slow = ", ".join(f"{took:.0f} ms in second {at - self.begun:.1f}" for at, took in self.slow[:4])
        told = f"{len(self.took)} times, median {self.median():.1f} ms, 99 of 100 at most {self.late():.1f} ms, most {self.most():.1f} ms"
        return told + (f" ({slow})" if slow else "")


def asks(path, line=LIST):
    """The step of an honest client: a connection, a request, its reply of code 0."""

    def step():
        with connect(path) as client:
            client.sendall(line)
            reply = read_line(client)
        return None if b'"code":0' in reply else f"an honest client got {reply[:80]!r}"

    return step


def calls(path, text=b"hello"):
    """The step of an honest client of a job that says back what it is sent."""

    def step():
        with connect(path) as client:
            client.sendall(text)
            client.shutdown(socket.SHUT_WR)
            got = read_all(client)
        return None if got == text else f"an honest caller got {got[:80]!r}"

    return step


class Descriptors(threading.Thread):
    """The most descriptors that a process has, from its start to its end."""

    def __init__(self, pid):
        super().__init__(daemon=True)
        self.pid, self.goes_on, self.most = pid, True, 0

    def run(self):
        while self.goes_on:
            self.most = max(self.most, descriptors(self.pid))
            time.sleep(0.01)

    def end(self):
        self.goes_on = False
        self.join()


def resident(pid):
    """The resident memory, in KiB."""
    with open(f"/proc/{pid}/status", encoding="ascii") as file:
        return next(int(line.split()[1]) for line in file if line.startswith("VmRSS"))


def at_rest(pid, bound=10):
    """How many descriptors the process has, once it has as many for 0.3 s: a client that went is not seen before the next round."""
    count, end = descriptors(pid), time.monotonic() + bound
    since = time.monotonic()
    while time.monotonic() - since < 0.3 and time.monotonic() < end:
        time.sleep(0.02)
        now = descriptors(pid)
        if now != count:
            count, since = now, time.monotonic()
    return count


def settles(pid, wanted, bound, begun=None):
    """Waits until the process has at most so many descriptors, and answers how many it has. It gives up if none goes for as long as `bound`, and no run began
    meanwhile, if `begun` counts them: clients that left before they were served are served first, one after another, and the system may hold thousands."""
    least, runs = descriptors(pid), begun() if begun else 0
    while least > wanted and comes(lambda: descriptors(pid) < least or (begun and begun() > runs), bound):
        least, runs = min(least, descriptors(pid)), begun() if begun else 0
    return at_rest(pid)


def is_over(pid):
    """Whether the process ended. Its parent may not have waited for it yet."""
    try:
        with open(f"/proc/{pid}/stat", encoding="utf-8", errors="replace") as file:
            return file.read().rpartition(")")[2].split()[0] == "Z"
    except (FileNotFoundError, ProcessLookupError):
        return True


def zombies(pid):
    """How many children of the process have ended and are not waited for."""
    with open(f"/proc/{pid}/task/{pid}/children", encoding="ascii") as file:
        return sum(is_over(child) for child in file.read().split())


class Deaf:
    """A job that heeds no TERM, so that KILL is due a second after it."""

    def __init__(self, stage, launcher, label):
        self.launcher, self.label, self.ready = launcher, label, stage.at(f"{label}.ready")
        script = f"trap '' TERM; : > {self.ready}; while :; do sleep 0.05; done"
        launcher.load(shell_job(label, script, RunAtLoad=True, ExitTimeOut=1))
        comes(lambda: os.path.exists(self.ready))
        shown = launcher.print(label)
        self.pid = int(next(line.split()[-1] for line in shown.splitlines() if "pid = " in line))

    def lateness(self, bound):
        """How many milliseconds after the second that follows the request the child ended, or None within the bound."""
        start = time.monotonic()
        self.launcher.ask({"req": "stop", "job": self.label}, bound)
        end = start + bound
        while not is_over(self.pid):
            if time.monotonic() > end:
                return None
            time.sleep(0.001)
        return 1000 * (time.monotonic() - start - 1)
