#!/usr/bin/env python3
"""Types what the manual pages and the examples show, and compares what comes with what they say. `tests/pages.sh` runs it, if the programs are there.

    tests/page_lines.py PROGRAMS

One line a fault; the status is 1 if there is one.
"""
import glob
import json
import os
import re
import socket
import subprocess
import sys
import tempfile
import time
import types

HERE = os.path.dirname(os.path.dirname(os.path.abspath(__file__)))
sys.dont_write_bytecode = True
sys.path.insert(0, os.path.join(HERE, "tests", "scenes"))
from harness import Stage  # noqa: E402

PROGRAMS = os.path.abspath(sys.argv[1])
faults, counts = [], {"lines": 0, "helps": 0}


def read(path):
    with open(f"{HERE}/{path}", encoding="utf-8") as it:
        return it.read()


def shown(text):
    """A line of a page as a reader sees it."""
    for form, sign in ((r"\(dq", '"'), (r"\&", ""), (r"\e", "\\")):
        text = text.replace(form, sign)
    return text


def block(page, title):
    """The lines of the first block behind a title."""
    part = re.split(rf"^\.S[hs] {title}$", read(page), flags=re.M)[1]
    part = re.split(r"^\.S[hs] ", part, flags=re.M)[0]
    return [shown(row) for row in re.search(r"^\.Bd [^\n]*\n(.*?)^\.Ed", part, re.M | re.S)[1].splitlines()]


def run(*words, given="", folder=None, **more):
    counts["lines"] += 1
    environment = {key: value for key, value in os.environ.items() if not key.startswith("JOBD_")}
    environment.update(more.get("variables", {}), PATH=f"{PROGRAMS}:{environment['PATH']}")
    ran = subprocess.run(words, input=given, cwd=folder, env=environment, capture_output=True, text=True, timeout=60)
    # what programs of `make quick` say of themselves is none of the page's
    ran.stderr = re.sub(r"(?m)^\w+: not proved \(make quick made it; make build proves it\)\n", "", ran.stderr)
    return ran


def want(what, wanted, got):
    if wanted != got:
        faults.append(f"{what}: {got!r}, wanted {wanted!r}")


def the_journal_is_one():
    """The journal of jobd.journal(5) is replayed: each of its lines is an event, and each event of the page is among them."""
    rows = block("man/jobd.journal.5", "EXAMPLES")
    ran = run("jobd", "replay", given="\n".join(rows) + "\n")
    codes = [json.loads(row)["code"] for row in ran.stdout.splitlines()]
    want("the journal of the page", (0, len(rows) - 1, False), (ran.returncode, len(codes), 2 in codes))
    named = re.split(r"^\.Ss ", read("man/jobd.journal.5").split(".Ss Events\n")[1], flags=re.M)[0]
    events = {name for row in re.findall(r"^\.It Va (.*)$", named, re.M) for name in re.findall(r"\w+", row)}
    want("the events of the page", sorted(events), sorted({json.loads(row)["ev"] for row in rows[1:]}))


def the_socket_answers(folder):
    """What jobd.journal(5) asks on the control socket is answered as it says."""
    rows = block("man/jobd.journal.5", "Requests on the control socket")
    client = socket.socket(socket.AF_UNIX)
    client.connect(f"{folder}/s")
    replies = client.makefile()
    for asked, wanted in zip(rows[::2], rows[1::2]):
        client.sendall(asked.encode() + b"\n")
        want(f"the reply to {asked}", wanted + "\n", replies.readline())
        counts["lines"] += 1
    client.close()


def the_definitions_load():
    """Each definition that jobd.json(5) shows is one, and none that is shipped has a warning, but that its program is not here."""
    for row in block("man/jobd.json.5", "EXAMPLES"):
        ran = run("jobscope", "check", "--utc", "-", given=row)
        want(f"the check of {row[:40]}", (0, False), (ran.returncode, " error: " in ran.stdout))
    # What is not here, and what one example is about.
    allowed = re.compile(r"is not there|one of its conditions suffices")
    for path in sorted(glob.glob(f"{HERE}/examples/jobs/*.json")):
        ran = run("jobscope", "check", "--utc", path)
        told = [row for row in ran.stdout.splitlines() if " warning: " in row and not allowed.search(row)]
        want(f"the check of {os.path.basename(path)}", (0, []), (ran.returncode, told))


def the_converter_converts(folder):
    """The line of jobd.json(5) converts a list, and tells in one line why it does not convert another."""
    line = next(row[4:] for row in read("man/jobd.json.5").splitlines() if row.startswith(".Dl jobscope plist"))
    head = '<?xml version="1.0" encoding="UTF-8"?>\n<plist version="1.0"><dict><key>Label</key><string>web</string>'
    for rest, status, told in (("<key>Nice</key><integer>5</integer>", 0, 0), ("<key>When</key><date>2026-11-28T00:00:00Z</date>", 1, 1)):
        with open(f"{folder}/web.plist", "w", encoding="utf-8") as it:
            it.write(f"{head}{rest}</dict></plist>\n")
        ran = run("sh", "-c", line, folder=folder)
        want(f"{line} of {rest}", (status, told), (ran.returncode, ran.stderr.count("\n")))
        if status == 0:
            with open(f"{folder}/web.json", encoding="utf-8") as it:
                want("the list as JSON", {"Label": "web", "Nice": 5}, json.load(it))


def a_fault_is_one_line(folder):
    """Words that are no command, a file that is none, a launcher that is not there: each is told in one line."""
    for words, status in [
        (["jobctl"], 64), (["jobctl", "list", "x"], 64), (["jobctl", "lod", "x"], 64), (["jobctl", "start"], 64), (["jobctl", "start", "a/b"], 64),
        (["jobctl", "--socket", "none", "list"], 69), (["jobctl", "--socket", "s", "load", "none"], 65),
        (["jobd"], 64), (["jobd", "serve"], 64), (["jobd", "replya"], 64), (["jobd", "overrides", "--store", "none"], 5),
        (["jobscope"], 64), (["jobscope", "check"], 64), (["jobscope", "next", "-n", "x", "y"], 64), (["jobscope", "why", "--journal", "none"], 65),
    ]:
        ran = run(*words, folder=folder)
        want(" ".join(words), (status, 1, True), (ran.returncode, ran.stderr.count("\n"), ran.stderr.startswith(f"{words[0]}: ")))


def the_lines_of_jobctl_do(folder):
    """The lines that jobctl(1) shows: lists, and the apply of a folder (here not that of the page). Then the job is unloaded by its label."""
    part = read("man/jobctl.1").split(".Sh EXAMPLES\n")[1].split(".Sh ")[0]
    lines = [shown(row[4:]) for row in part.splitlines() if row.startswith(".Dl ")]
    variables = {"JOBD_SOCKET": f"{folder}/s"}
    os.mkdir(f"{folder}/deployed")
    with open(f"{folder}/deployed/web.json", "w", encoding="utf-8") as it:
        json.dump({"Label": "org.example.web", "ProgramArguments": ["/bin/sleep", "1000"], "KeepAlive": True, "ThrottleInterval": 0}, it)
    run("jobctl", "load", "deployed/web.json", folder=folder, variables=variables)
    time.sleep(0.5)
    for line, wanted in zip([*lines, "jobctl unload org.example.web"], ["org.example.web\n", "", "same      1 job\n", ""], strict=True):
        ran = run("sh", "-c", line.replace("/etc/jobd", "deployed"), folder=folder, variables=variables)
        want(line, (0, wanted, ""), (ran.returncode, ran.stdout, ran.stderr))
        time.sleep(0.5)
    want("what is loaded then", "PID\tStatus\tLabel\n", run("jobctl", "list", folder=folder, variables=variables).stdout)


def a_run_has_so_many_bytes(folder):
    """A start of a job with its end adds about as many bytes to the journal as the pages say."""
    said = {int(number) for number in re.findall(r"adds some (\d+) bytes", read("docs/OPERATING.md"))}
    with open(f"{folder}/org.example.often.json", "w", encoding="utf-8") as it:
        json.dump({"Label": "org.example.often", "Program": "/bin/true", "KeepAlive": True, "ThrottleInterval": 1}, it)
    run("jobctl", "--socket", "s", "load", "org.example.often.json", folder=folder)
    time.sleep(0.5)

    def state():
        with open(f"{folder}/journal", encoding="utf-8") as it:
            text = it.read()
        return len(text), text.count('"ev":"spawned"')

    before, runs = state()
    time.sleep(6)
    after, more = state()
    run("jobctl", "--socket", "s", "unload", "org.example.often.json", folder=folder)
    bytes_each = (after - before) / max(1, more - runs)
    if len(said) != 1 or not 0.85 * min(said) <= bytes_each <= 1.15 * min(said):
        faults.append(f"a run adds {bytes_each:.0f} bytes, and the pages say {said}")


def the_helps_are_printed():
    """Each help is printed, with status 0. Answers how many words they have, as they are printed and each of their lines once."""
    words, lines = 0, set()
    for program in ("jobctl", "jobd", "jobscope"):
        whole = run(program, "--help")
        part = whole.stdout.split("Commands:")[1].split("Options:")[0]
        helps = [whole, *(run(program, name, "--help") for name in re.findall(r"^  ([a-z]+)", part, re.M) if name != "help")]
        for told in helps:
            want(f"a help of {program}", (0, ""), (told.returncode, told.stderr))
            words += len(told.stdout.split())
            lines.update(row.strip() for row in told.stdout.splitlines())
        counts["helps"] += len(helps)
    return words, sum(len(row.split()) for row in lines)


the_journal_is_one()
the_definitions_load()
with tempfile.TemporaryDirectory() as place:
    stage = Stage(types.SimpleNamespace(jobd=[f"{PROGRAMS}/jobd"], jobctl=[f"{PROGRAMS}/jobctl"]), place)
    launcher = stage.serve(socket="s", store="o", journal="journal", env={"JOBD_STATUS_FILE": f"{place}/status.jsonl"})
    the_socket_answers(place)
    the_converter_converts(place)
    a_fault_is_one_line(place)
    the_lines_of_jobctl_do(place)
    a_run_has_so_many_bytes(place)
    launcher.shut_down()
printed, distinct = the_helps_are_printed()
for fault in faults:
    print("pages:", fault, file=sys.stderr)
if faults:
    sys.exit(1)
print(f"pages: {counts['lines']} lines of pages were typed; {counts['helps']} helps have {printed} words as printed, {distinct} with each line once")
