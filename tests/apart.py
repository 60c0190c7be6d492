"""Machines apart: this machine's files with further packages of Debian, in namespaces of their own. Nothing that is done there lasts, and nothing
runs on. Other scripts use it, as root.

    layer = Layer(FOLDER, ["munge", ..])    the packages, installed into FOLDER once; no service is started
    machine = Machine(layer, "head")        its files, network, host name, processes and mounts are its own
    machine.run(["sinfo"]), machine.shell("..")
    machine.end()

A machine's files are an overlay: this machine's below, then the layer's, then its own. Two machines are joined by `wire`.
"""
import os
import re
import shutil
import signal
import subprocess
import sys
import tempfile
import time

OVERLAY = 'mount -t overlay overlay -o "lowerdir=$BELOW,upperdir=$AT/files,workdir=$AT/work" "$AT/root"'
ENTER = f"""
set -e
mount --make-rprivate /
{OVERLAY}
cd "$AT/root"
mount -t proc proc proc; mount -t tmpfs -o mode=755 tmpfs run; mount -t tmpfs tmpfs tmp; mount -t tmpfs -o mode=755 tmpfs dev
cd dev
for node in "null 1 3" "zero 1 5" "full 1 7" "random 1 8" "urandom 1 9" "tty 5 0"; do set -- $node; mknod -m 666 $1 c $2 $3; done
mkdir pts shm; mount -t devpts -o newinstance,ptmxmode=0666 devpts pts; ln -s pts/ptmx ptmx; ln -s /proc/self/fd fd
ln -s fd/0 stdin; ln -s fd/1 stdout; ln -s fd/2 stderr; mount -t tmpfs tmpfs shm; : >console
cd ..
"""
# The first process takes orphans in, and ends with all that runs there.
FIRST = "trap : TERM INT; while :; do sleep 3600 & wait $!; done"
# Or a real systemd, with no more than its basic units and dbus.
SYSTEMD = "exec env -i container=lxc PATH=/usr/sbin:/usr/bin:/sbin:/bin /lib/systemd/systemd --unit=apart.target --log-target=journal --show-status=0"
TARGET = "[Unit]\nRequires=basic.target dbus.service\nAfter=basic.target dbus.service\nAllowIsolate=yes\n"
CLEAN = {"PATH": "/usr/local/sbin:/usr/local/bin:/usr/sbin:/usr/bin:/sbin:/bin", "HOME": "/root", "LC_ALL": "C.UTF-8", "DEBIAN_FRONTEND": "noninteractive"}


def fail(text):
    sys.exit(f"{os.path.basename(sys.argv[0])}: {text}")


def wait_until(what, test, seconds=30, step=0.1):
    """Waits until the test answers something true, and answers that."""
    end = time.monotonic() + seconds
    while time.monotonic() < end:
        found = test()
        if found:
            return found
        time.sleep(step)
    return fail(f"not within {seconds} s: {what}")


class Layer:
    """A folder with further packages over this machine's files. It stays, so that the next run finds it. The script is in a mount namespace of its own,
    where the layer is mounted once, below all machines."""

    def __init__(self, folder, packages):
        self.folder = make_folders(os.path.realpath(folder))
        known = f"{self.folder}/packages"
        have = open(known, encoding="utf-8").read().split() if os.path.exists(known) else []
        wanted = [it for it in packages if it not in have]
        if wanted:
            self.install(wanted)
            with open(known, "w", encoding="utf-8") as it:
                it.write("\n".join([*have, *wanted]) + "\n")
        self.root = f"{self.folder}/root"
        subprocess.run(["sh", "-c", f"mount --make-rprivate /\n{OVERLAY}"], check=True, env={**CLEAN, "BELOW": "/", "AT": self.folder})

    def install(self, packages):
        print(f"apart: apt-get install {' '.join(packages)}", flush=True)
        script = "packages=$*\n" + ENTER + """
        printf '#!/bin/sh\\nexit 101\\n' >usr/sbin/policy-rc.d; chmod 755 usr/sbin/policy-rc.d
        chroot . apt-get -qq update
        exec chroot . apt-get -qq -y -o Dpkg::Use-Pty=0 install --no-install-recommends $packages
        """
        done = subprocess.run(["unshare", "--mount", "--pid", "--fork", "--kill-child", "sh", "-c", script, "sh", *packages], stdin=subprocess.DEVNULL, capture_output=True,
                              text=True, env={**CLEAN, "BELOW": "/", "AT": self.folder}, timeout=1200)
        if done.returncode != 0:
            fail(f"apt-get install {' '.join(packages)}: {done.stdout[-2000:]}{done.stderr[-2000:]}")


def make_folders(folder):
    for part in ("files", "work", "root"):
        os.makedirs(f"{folder}/{part}", exist_ok=True)
    return folder


class Machine:
    def __init__(self, layer, name, shared=(), has_systemd=False):
        """`shared` are folders of this machine that the machine has too, at the same path, or each with another path there."""
        self.name, self.group = name, None
        self.scratch = make_folders(tempfile.mkdtemp(prefix=f"apart-{name}-"))
        script = ENTER + "mount -t sysfs -o ro sysfs sys\n"
        if has_systemd:
            script += "mount -t cgroup2 cgroup2 sys/fs/cgroup; printf '%s' \"$TARGET\" >etc/systemd/system/apart.target\n"
            # These would change the kernel of all.
            script += "for unit in systemd-sysctl systemd-modules-load; do ln -sf /dev/null etc/systemd/system/$unit.service; done\n"
            self.group = self.make_group()
        pairs = [it if isinstance(it, tuple) else (it, it) for it in shared]
        script += "".join(f'mkdir -p ".{goal}"; mount --bind "{source}" ".{goal}"\n' for source, goal in pairs) + """
        mkdir -p mnt/old; pivot_root . mnt/old; umount -l /mnt/old; cd /
        hostname "$NAME"; echo "$NAME" >/etc/hostname; printf '127.0.0.1 localhost\\n' >/etc/hosts; : >/etc/resolv.conf; ip link set lo up
        """ + (SYSTEMD if has_systemd else FIRST)
        environment = {**CLEAN, "BELOW": layer.root, "AT": self.scratch, "NAME": name, "TARGET": TARGET}
        with open(f"{self.scratch}/told", "w", encoding="utf-8") as told:
            self.keeper = subprocess.Popen([*self.in_group(), "unshare", "--mount", "--uts", "--ipc", "--net", "--pid", "--cgroup", "--fork", "--kill-child", "bash", "-c", script],
                                           env=environment, stdin=subprocess.DEVNULL, stdout=told, stderr=told, start_new_session=True)
        self.first = wait_until(f"the machine {name}", self.child)
        wait_until(f"the machine {name}", lambda: self.run(["hostname"], check=False).stdout.strip() == name and not self.run(["test", "-d", "/mnt/old/usr"], check=False).returncode == 0)
        MACHINES.append(self)

    def make_group(self):
        """A control group of its own, which a systemd needs."""
        top = "/sys/fs/cgroup" if os.path.exists("/sys/fs/cgroup/cgroup.procs") else "/sys/fs/cgroup/unified"
        group = f"{top}/apart-{self.name}-{os.getpid()}"
        os.makedirs(group, exist_ok=True)
        return group

    def in_group(self):
        return ["sh", "-c", 'echo $$ >"$0/cgroup.procs"; exec "$@"', self.group] if self.group else []

    def child(self):
        if self.keeper.poll() is not None:
            fail(f"the machine {self.name}: {open(self.scratch + '/told', encoding='utf-8').read()}")
        try:
            with open(f"/proc/{self.keeper.pid}/task/{self.keeper.pid}/children", encoding="utf-8") as it:
                return int((it.read().split() or [0])[0])
        except OSError:
            return 0

    def words(self, command):
        return ["nsenter", "-t", str(self.first), "-m", "-u", "-i", "-n", "-p", "-r", "-w", *command]

    def run(self, command, check=True, seconds=60, **more):
        done = subprocess.run(self.words(command), env={**CLEAN, **more}, stdin=subprocess.DEVNULL, capture_output=True, text=True, timeout=seconds)
        if check and done.returncode != 0:
            fail(f"{self.name}: {' '.join(command)}: status {done.returncode}: {done.stdout}{done.stderr}")
        return done

    def shell(self, script, check=True, **more):
        return self.run(["sh", "-c", script], check=check, **more).stdout.strip()

    def start(self, command, log=None, **more):
        with open(log or os.devnull, "ab") as out:
            return subprocess.Popen(self.words(command), env={**CLEAN, **more}, stdin=subprocess.DEVNULL, stdout=out, stderr=out, start_new_session=True)

    def write(self, path, text, mode=0o644):
        """Writes a file of the machine."""
        done = subprocess.run(self.words(["sh", "-c", f'mkdir -p "$(dirname "$1")"; cat >"$1"; chmod {mode:o} "$1"', "sh", path]), input=text, env=CLEAN, text=True, capture_output=True)
        if done.returncode != 0:
            fail(f"{self.name}: {path}: {done.stderr}")

    def read(self, path):
        return self.run(["cat", path], check=False).stdout

    def end(self):
        """Ends it with all that runs there, at once, as a power cut does."""
        if self.keeper is None:
            return
        for pid in (self.first, self.keeper.pid):
            try:
                os.kill(pid, signal.SIGKILL)
            except OSError:
                pass
        self.keeper.wait(20)
        self.keeper = None
        for _ in range(50 if self.group else 0):
            subprocess.run(["find", self.group, "-depth", "-type", "d", "-exec", "rmdir", "{}", "+"], capture_output=True)
            if not os.path.isdir(self.group):
                break
            time.sleep(0.1)
        shutil.rmtree(self.scratch, ignore_errors=True)
        MACHINES.remove(self)


MACHINES = []


def end_all():
    for machine in list(MACHINES):
        machine.end()


def wire(machines, network="192.0.2"):
    """Joins the machines by a bridge that the first has; the first has the address .1, and so on. Each knows the others' names."""
    first = machines[0]
    hosts = "127.0.0.1 localhost\n" + "".join(f"{network}.{at} {it.name}\n" for at, it in enumerate(machines, 1))
    first.shell(f"ip link add wire type bridge; ip addr add {network}.1/24 dev wire; ip link set wire up")
    first.write("/etc/hosts", hosts)
    for at, it in enumerate(machines[1:], 2):
        name = f"w{at}"
        subprocess.run(["nsenter", "-t", str(first.first), "-n", "ip", "link", "add", name, "type", "veth", "peer", "name", "eth0", "netns", str(it.first)], check=True)
        first.shell(f"ip link set {name} master wire up")
        it.shell(f"ip addr add {network}.{at}/24 dev eth0; ip link set eth0 up")
        it.write("/etc/hosts", hosts)


def words(arguments, usage):
    """The folder of the packages and that of the programs: FOLDER [PROGRAMS]."""
    if os.geteuid() != 0:
        fail("as root alone")
    if os.environ.get("APART") != "1":
        os.execvpe("unshare", ["unshare", "--mount", sys.executable, *sys.argv], {**os.environ, "APART": "1"})
    if not 1 <= len(arguments) <= 2 or arguments[0].startswith("-"):
        print(usage.strip(), file=sys.stderr)
        sys.exit(64)
    programs = os.path.realpath(arguments[1] if len(arguments) == 2 else f"{TOP}/build")
    for name in ("jobd", "jobctl", "jobscope"):
        if not os.access(f"{programs}/{name}", os.X_OK):
            fail(f"no program at {programs}/{name} (make build)")
    return arguments[0], programs


TOP = os.path.dirname(os.path.dirname(os.path.abspath(__file__)))
