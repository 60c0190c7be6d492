#!/usr/bin/env python3
"""Types the lines of docs/BEYOND-ONE-MACHINE.md on Pacemaker, from nothing, and compares what comes with what the page shows: two machines in namespaces, each with a
real systemd, Corosync and Pacemaker. The power of the first is cut while a job runs there: it is fenced, the launcher starts on the second, and the job
never runs twice. Then the second's launcher is killed, and starts again where it is.

    tests/pacemaker.py FOLDER [PROGRAMS]

Run by hand, as root. FOLDER gets Debian's packages that the page names, or has them from a run before; PROGRAMS is build, if absent. A fence agent of this
script stands for the power switch, and a folder that both machines see for the shared disk.
"""
import json
import os
import re
import shutil
import sys
import tempfile
import threading
import time

sys.dont_write_bytecode = True
sys.path.insert(0, os.path.dirname(os.path.abspath(__file__)))
from apart import TOP, Layer, Machine, end_all, fail, wait_until, wire, words
from typed_page import type_page

PAGE = f"{TOP}/docs/BEYOND-ONE-MACHINE.md"
# Asks the script below to cut the power, and waits until that is done.
AGENT = """#!/bin/sh
action=reboot
while read -r line; do
    case $line in
    action=*) action=${line#*=} ;;
    plug=* | port=* | nodename=*) port=${line#*=} ;;
    esac
done
case $action in
metadata)
    cat <<'XML'
<?xml version="1.0" ?>
<resource-agent name="fence_apart" shortdesc="The power switch of machines in namespaces">
<longdesc>The power switch of machines in namespaces.</longdesc>
<parameters>
<parameter name="action" required="1"><content type="string" default="reboot" /><shortdesc lang="en">Action</shortdesc></parameter>
<parameter name="plug" required="0"><content type="string" /><shortdesc lang="en">Machine</shortdesc></parameter>
</parameters>
<actions><action name="on" automatic="0"/><action name="off" /><action name="reboot" /><action name="status" /><action name="list" /><action name="monitor" /><action name="metadata" /></actions>
</resource-agent>
XML
    ;;
list) printf 'one\\ntwo\\n' ;;
off | reboot)
    echo >"/srv/power/$port"
    for _ in $(seq 200); do
        [ ! -e "/srv/power/$port.off" ] || exit 0
        sleep 0.1
    done
    exit 1
    ;;
esac
"""
# Holds a lock on the shared disk as long as it runs; one that finds it held says so.
WEB = "exec 8>>/srv/shared/web.lock; flock -n 8 || echo twice >>/srv/shared/said; echo begins >>/srv/shared/said; while :; do sleep 0.2 8>&-; done"


def packages():
    with open(PAGE, encoding="utf-8") as it:
        return re.search(r"<!-- pacemaker packages -->\s+apt-get install (.*)", it.read())[1].split()


def read(path):
    with open(path, encoding="utf-8") as it:
        return it.read()


def bring(machine, programs):
    """What the package brings, the job, and the power switch."""
    machine.shell(f"install {programs}/jobd {programs}/jobctl {programs}/jobscope /usr/local/bin; mkdir -p /usr/libexec /etc/jobd /var/lib/jobd")
    machine.write("/usr/libexec/jobd-run", read(f"{TOP}/contrib/jobd-run").replace("@PREFIX@", "/usr/local"), 0o755)
    machine.write("/etc/systemd/system/jobd.service", read(f"{TOP}/contrib/jobd.service").replace("@PREFIX@/libexec", "/usr/libexec"))
    machine.write("/etc/jobd/web.json", json.dumps({"Label": "web", "ProgramArguments": ["/bin/sh", "-c", WEB], "KeepAlive": True}))
    machine.write("/usr/sbin/fence_apart", AGENT, 0o755)
    machine.shell("systemctl daemon-reload")


class Power:
    """The power switch of the two."""

    def __init__(self, folder, machines):
        self.folder, self.machines, self.asked, self.is_over = folder, {it.name: it for it in machines}, [], False
        self.thread = threading.Thread(target=self.serve, daemon=True)
        self.thread.start()

    def serve(self):
        while not self.is_over:
            for name in os.listdir(self.folder):
                if name in self.machines and not os.path.exists(f"{self.folder}/{name}.off"):
                    self.asked.append(name)
                    self.machines[name].end()
                    open(f"{self.folder}/{name}.off", "w", encoding="utf-8").close()
            time.sleep(0.1)


def said(shared):
    path = f"{shared}/said"
    return read(path).split() if os.path.exists(path) else []


def typed(mark, machine):
    count = type_page(PAGE, mark, "/usr/local/bin:/usr/sbin:/usr/bin:/sbin:/bin", "/", variables={"HOME": "/root", "LC_ALL": "C.UTF-8"},
                      shell=machine.words(["sh", "-c", "cd /root && exec bash"]))
    if not count:
        sys.exit(1)
    return count


def main():
    folder, programs = words(sys.argv[1:], __doc__)
    layer = Layer(folder, packages())
    scratch = tempfile.mkdtemp(prefix="apart-shared-")
    binds = [(f"{scratch}/disk", "/srv/shared"), (f"{scratch}/power", "/srv/power")]
    for source, _ in binds:
        os.mkdir(source)
    one, two = (Machine(layer, name, shared=(programs, *binds), has_systemd=True) for name in ("one", "two"))
    power = None
    try:
        wire([one, two])
        for machine in (one, two):
            wait_until(f"systemd of {machine.name}", lambda: machine.run(["systemctl", "is-system-running"], check=False).stdout.strip() in ("running", "degraded"), 120)
            bring(machine, programs)
        power = Power(f"{scratch}/power", [one, two])
        count = typed("pacemaker both", one) + typed("pacemaker both", two) + typed("pacemaker one", one)
        wait_until("the job", lambda: said(f"{scratch}/disk"))
        begin = time.monotonic()
        one.end()
        count += typed("pacemaker two", two)
        took = time.monotonic() - begin
        wait_until("the job on the second machine", lambda: said(f"{scratch}/disk").count("begins") == 2)
        if power.asked != ["one"] or "twice" in said(f"{scratch}/disk"):
            fail(f"fenced: {power.asked}; said: {said(f'{scratch}/disk')}")
        print(f"pacemaker: {count} lines were typed, and what came is what the page shows; the second machine took over in {took:.0f} s", flush=True)
        two.shell("kill -KILL $(pgrep -x jobd)")
        wait_until("the job again", lambda: said(f"{scratch}/disk").count("begins") == 3, 120)
        if power.asked != ["one"] or "twice" in said(f"{scratch}/disk"):
            fail(f"fenced: {power.asked}; said: {said(f'{scratch}/disk')}")
        print("pacemaker: a launcher that was killed started again where it was: passed")
    finally:
        if power:
            power.is_over = True
        end_all()
        shutil.rmtree(scratch, ignore_errors=True)


main()
