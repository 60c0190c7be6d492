#!/usr/bin/env bash
# Types the lines of docs/MOVING.md in a copy of examples/moving/, and then sees each of its jobs loaded and run once; and that `jobscope check --strict`
# finds nothing in what jobscope cron, from-systemd and from-supervisor wrote. Then it types each row of the page that stands for a restart, a stop or a start
# of another service manager, with a service that saves at TERM. The folder of the programs is the first word, or build. It is run by hand.
set -euo pipefail

cd "$(dirname "$0")/.."
programs=$(realpath "${1:-build}")
for program in jobd jobctl jobscope; do
    [ -x "$programs/$program" ] || { echo "moving: no program at $programs/$program (make build)" >&2; exit 1; }
done
folder=$(mktemp -d)
end() {
    "$programs/jobctl" --socket "$folder/jobd.sock" shutdown > /dev/null 2>&1 || true
    sleep 0.5
    rm -rf "$folder"
}
trap end EXIT
cp -r examples/moving/. "$folder"
python3 - "$programs" "$folder" "$PWD/contrib" <<'END'
import glob, json, os, re, subprocess, sys, time

sys.dont_write_bytecode = True
sys.path.insert(0, "tests")
from typed_page import type_page

programs, folder, contrib = sys.argv[1:]
typed = type_page("docs/MOVING.md", "typed", f"{programs}:{contrib}", folder)
if not typed:
    sys.exit(1)
environment = dict(os.environ, JOBD_SOCKET=f"{folder}/jobd.sock")


def jobctl(*words):
    return subprocess.run([f"{programs}/jobctl", *words], capture_output=True, text=True, env=environment)


def shown(label):
    rows = [row.strip().partition(" = ") for row in jobctl("print", label).stdout.splitlines()[1:-1]]
    return {key: value for key, _, value in rows}


faults, labels = [], []
for path in sorted(glob.glob(f"{folder}/jobs/*.json")):
    with open(path, encoding="utf-8") as it:
        label = json.load(it)["Label"]
    labels.append(label)
    if not shown(label):
        faults.append(f"{label} is not loaded")
        continue
    if shown(label)["runs"] == "0":
        jobctl("start", label)
for label in labels:
    for _ in range(150):
        it = shown(label)
        if it and it["runs"] != "0" and (it["state"] == "running" or it["last exit"] == "code 0"):
            break
        time.sleep(0.1)
    else:
        faults.append(f"{label} did not run: {it}")
if len(labels) != 29:
    faults.append(f"{len(labels)} definitions, of 28 jobs, one of which has two processes")
ours = [path for path in sorted(glob.glob(f"{folder}/jobs/*.json")) if not os.path.basename(path).startswith(("org.example.", "runit."))]
check = subprocess.run([f"{programs}/jobscope", "check", "--strict", *ours], capture_output=True, text=True)
if check.returncode:
    faults.append("check --strict: " + check.stdout + check.stderr)

# What saves at TERM alone, kept alive or not: after the row of a restart it has saved and runs anew; after that of a stop it has saved and stays down.
SAVER = "trap 'echo saved >> saved; exit 0' TERM; echo $$ >> begun; while :; do sleep 0.1; done"
KINDS = [{"KeepAlive": True}, {"KeepAlive": {"SuccessfulExit": False}}, {"RunAtLoad": True}]
ROW = re.compile(r"\| `(systemctl|supervisorctl|sv) (restart|stop|down|start|up|disable --now|enable --now) x` \| (.*) \|")
environment["PATH"] = f"{programs}:{environment['PATH']}"


def lines_in(name):
    path = f"{folder}/saver/{name}"
    return open(path, encoding="utf-8").read().split() if os.path.exists(path) else []


def is_so(test, seconds=8):
    end = time.monotonic() + seconds
    while not test():
        if time.monotonic() > end:
            return False
        time.sleep(0.05)
    return True


def type_row(verb, words):
    """Types the words of a row. Answers what is wrong with what came of it."""
    begun, saved = len(lines_in("begun")), len(lines_in("saved"))
    subprocess.run(["bash", "-c", words], cwd=f"{folder}/saver", env=environment, capture_output=True, check=False, timeout=20)
    if verb in ("restart", "stop", "down", "disable --now") and not is_so(lambda: len(lines_in("saved")) == saved + 1):
        return "it did not save"
    if verb in ("restart", "start", "up", "enable --now"):
        return None if is_so(lambda: len(lines_in("begun")) == begun + 1 and shown("x").get("state") == "running") else "it does not run"
    if verb == "disable --now":
        jobctl("load", f"{folder}/saver/x.json")
    return "it is up again" if is_so(lambda: len(lines_in("begun")) > begun, 2.5) else None


with open("docs/MOVING.md", encoding="utf-8") as it:
    rows = [(f"{found[1]} {found[2]}", found[2], "; ".join(re.findall(r"`(jobctl [^`]*)`", found[3]))) for found in ROW.finditer(it.read())]
if len(rows) != 11:
    faults.append(f"{len(rows)} rows for a restart, a stop or a start")
os.mkdir(f"{folder}/saver")
for kind in KINDS:
    with open(f"{folder}/saver/x.json", "w", encoding="utf-8") as it:
        json.dump({"Label": "x", "ProgramArguments": ["/bin/sh", "-c", SAVER], "WorkingDirectory": f"{folder}/saver", "ThrottleInterval": 1, **kind}, it)
    for named, verb, words in rows:
        is_up = verb in ("restart", "stop", "down", "disable --now")
        jobctl("disable" if verb == "enable --now" else "enable", "x")
        begun = len(lines_in("begun"))
        if is_up:
            jobctl("load", f"{folder}/saver/x.json")
            is_so(lambda: len(lines_in("begun")) > begun)
        why = type_row(verb, words)
        if why:
            faults.append(f"{named}: {words}: {why} ({json.dumps(kind)})")
        jobctl("unload", f"{folder}/saver/x.json")
        if not is_so(lambda: not shown("x")):
            faults.append(f"{named}: x does not leave")
print("\n".join(f"moving: {it}" for it in faults), file=sys.stderr, end="\n" if faults else "")
if faults:
    sys.exit(1)
print(f"moving: {typed} lines were typed, and what came is what the page shows; {len(labels)} jobs were loaded and ran; "
      f"{len(rows)} rows were typed with a service that saves at TERM, kept alive, kept alive on a failure, and not kept alive")
END
