#!/usr/bin/env python3
"""Types the lines of docs/BEYOND-ONE-MACHINE.md on a fleet, from nothing, and compares what comes with what the page shows: three machines in namespaces, with
sshd, jobd-run, node_exporter and Prometheus. Then each of the four alerts is brought about and is over again; no other one fires meanwhile.

    tests/fleet.py FOLDER [PROGRAMS]

Run by hand, as root. FOLDER gets Debian's packages that the page names, or has them from a run before; PROGRAMS is build, if absent.
"""
import json
import os
import re
import sys
import time

sys.dont_write_bytecode = True
sys.path.insert(0, os.path.dirname(os.path.abspath(__file__)))
from apart import TOP, Layer, Machine, end_all, fail, wait_until, wire, words
from typed_page import type_page

PAGE = f"{TOP}/docs/BEYOND-ONE-MACHINE.md"
DOC = "/usr/share/doc/jobd"
PROM = "/var/lib/prometheus/node-exporter"


def packages():
    with open(PAGE, encoding="utf-8") as it:
        return re.search(r"<!-- fleet packages -->\s+apt-get install (.*)", it.read())[1].split()


def bring(machine, programs):
    """What the package brings."""
    machine.shell(f"install {programs}/jobd {programs}/jobctl {programs}/jobscope /usr/local/bin; mkdir -p /usr/libexec {DOC}/contrib {DOC}/examples /etc/jobd")
    machine.write("/usr/local/bin/jobd-metrics", read(f"{TOP}/contrib/jobd-metrics"), 0o755)
    machine.write("/usr/libexec/jobd-run", read(f"{TOP}/contrib/jobd-run").replace("@PREFIX@", "/usr/local"), 0o755)
    machine.write(f"{DOC}/contrib/ansible/jobd/tasks/main.yml", read(f"{TOP}/contrib/ansible/jobd/tasks/main.yml"))
    for name in ("jobd.rules.yml", "jobd.rules.test.yml"):
        machine.write(f"{DOC}/examples/alerts/{name}", read(f"{TOP}/examples/alerts/{name}"))


def read(path):
    with open(path, encoding="utf-8") as it:
        return it.read()


def start(machine, key):
    """A machine of the fleet: sshd, a launcher, node_exporter, and what cron would do each minute, here each second."""
    # Of an overlay the kernel names a lock's file otherwise than its own status does, so that the launcher would seem gone.
    machine.shell(f"mkdir -p /var/lib/jobd /run/sshd /root/.ssh {PROM}; mount -t tmpfs -o mode=700 tmpfs /var/lib/jobd; ssh-keygen -A >/dev/null")
    machine.write("/root/.ssh/authorized_keys", key, 0o600)
    machine.shell("chmod 700 /root /root/.ssh; /usr/sbin/sshd -o UsePAM=no")
    launch(machine)
    machine.start(["prometheus-node-exporter", "--collector.disable-defaults", "--collector.textfile", f"--collector.textfile.directory={PROM}"])
    machine.start(["sh", "-c", f"while :; do jobd-metrics {PROM}/jobd.prom; sleep 1; done"])


def launch(machine):
    machine.start(["/usr/libexec/jobd-run"], f"{machine.scratch}/jobd-run.log")
    wait_until(f"the launcher of {machine.name}", lambda: jobctl(machine, "list").returncode == 0)


def jobctl(machine, *command):
    return machine.run(["jobctl", "--socket", "/run/jobd/jobd.sock", *command], check=False)


class Alerts:
    def __init__(self, head):
        self.head = head

    def now(self):
        """The alerts that fire: name, machine and job."""
        found = self.head.run(["python3", "-c", "import urllib.request as u; print(u.urlopen('http://127.0.0.1:9090/api/v1/alerts').read().decode())"], check=False).stdout
        if not found:
            return None
        return {(it["labels"]["alertname"], it["labels"]["instance"].partition(":")[0], it["labels"].get("label", ""))
                for it in json.loads(found)["data"]["alerts"] if it["state"] == "firing"}

    def become(self, *wanted, seconds=240):
        """Exactly these fire at last."""
        wanted = set(wanted)
        end = time.monotonic() + seconds
        while (found := self.now()) != wanted:
            if time.monotonic() > end:
                fail(f"alerts: {found}, not {wanted}")
            time.sleep(0.5)
        return f"{', '.join(sorted(it[0] for it in wanted)) or 'none'}"


def try_alerts(head, one, two):
    alerts = Alerts(head)
    alerts.become()
    one.write("/tmp/bad.json", json.dumps({"Label": "bad", "Program": "/bin/false", "RunAtLoad": True}))
    jobctl(one, "load", "/tmp/bad.json")
    alerts.become(("JobFailing", "one", "bad"))
    jobctl(one, "unload", "/tmp/bad.json")
    alerts.become()
    # A launcher that hangs: it answers nothing, and after three minutes it is silent. Of its jobs nothing is foretold, so none is overdue.
    pid = one.shell("pgrep -x jobd")
    one.shell(f"kill -STOP {pid}")
    alerts.become(("JobdHung", "one", ""), ("JobdSilent", "one", ""), seconds=400)
    one.shell(f"kill -CONT {pid}")
    alerts.become()
    # A launcher that is gone with its keeper; and a machine.
    one.shell("kill -KILL $(pgrep -f '[l]ibexec/jobd-run') $(pgrep -x jobd)")
    alerts.become(("JobdGone", "one", ""))
    launch(one)
    alerts.become()
    two.end()
    alerts.become(("JobdGone", "two", ""))


def main():
    folder, programs = words(sys.argv[1:], __doc__)
    layer = Layer(folder, packages())
    head, one, two = (Machine(layer, name, shared=(programs,)) for name in ("head", "one", "two"))
    try:
        wire([head, one, two])
        head.shell("mkdir -p /root/.ssh /tmp/try; ssh-keygen -q -t ed25519 -N '' -f /root/.ssh/id_ed25519")
        head.write("/root/.ssh/config", "StrictHostKeyChecking no\nLogLevel ERROR\n", 0o600)
        head.shell("chmod 700 /root /root/.ssh")
        for machine in (head, one, two):
            bring(machine, programs)
        for machine in (one, two):
            start(machine, head.read("/root/.ssh/id_ed25519.pub"))
        typed = type_page(PAGE, "fleet", "/usr/local/bin:/usr/sbin:/usr/bin:/sbin:/bin", "/", variables={"HOME": "/root", "LC_ALL": "C.UTF-8", "ANSIBLE_PIPELINING": "1"},
                          shell=head.words(["sh", "-c", "cd /tmp/try && exec bash"]))
        if not typed:
            sys.exit(1)
        print(f"fleet: {typed} lines were typed, and what came is what the page shows", flush=True)
        try_alerts(head, one, two)
        print("fleet: four alerts came and went, each alone where it is alone: passed")
    finally:
        end_all()


main()
