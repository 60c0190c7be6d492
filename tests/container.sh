#!/usr/bin/env bash
# jobd in a container, without a container engine: contrib/Containerfile is done step by step in a copy of a Debian, and jobd-run is the
# first process of namespaces over it. Tried: TERM ends all in order; launcher, jobd-run and a job are killed in each of the six orders,
# one by one and at once, and never do two of a job run; orphans are taken in; a job's output comes out. It is run by hand, as root,
# after `make deb`: container.sh FOLDER, where FOLDER is taken for the Debian, or is one made before. MIRROR names the mirror.
set -euo pipefail

cd "$(dirname "$0")/.."
# shellcheck source=tests/machine.sh
. tests/machine.sh
base=$(realpath -m "${1:?the folder of the scratch system}")
package=$(newest_package)
scratch=$(mktemp -d)
tree=$scratch/tree
box=
fail() {
    echo "container: $*" >&2
    [ ! -s "$scratch/err" ] || sed 's/^/container: told: /' "$scratch/err" >&2
    exit 1
}
clear() {
    [ -z "$box" ] || kill -KILL "$box" 2>/dev/null || true
    umount -q "$tree/proc" || true
    rm -rf "$scratch"
}
trap clear EXIT
machine_make "$base"
machine_copy "$base" "$tree"

# ---- the Containerfile

mkdir -p "$scratch/context/jobs"
cp "$package" "$scratch/context/jobd.deb"
# Holds a lock as long as it lives; one that finds it held while the one before lives says so. The lock alone does not tell: if a job is killed in its first
# milliseconds, its child `flock` still holds it (6 of 400 kills). Its own children begin and end.
worker='at=/var/lib/jobd/worker; exec 8>>$at.lock; flock -n 8 || { grep -qs ") [^ZX]" "/proc/$(cat $at.pid)/stat" && echo twice >>/var/lib/jobd/twice; flock 8; }; echo $$ >$at.pid; trap "echo TERM >>/var/lib/jobd/ends; exit" TERM; while :; do sleep 0.05 8>&-; done'
# Leaves orphans behind: one that ends at once, and one that ends soon in a session of its own.
litter='(sleep 0.01 &); (setsid sleep 0.1 &); (sh -c "sleep 0.05 & exit" &)'
python3 - "$scratch/context/jobs" "$worker" "$litter" <<'PYTHON'
import json, sys

folder, worker, litter = sys.argv[1:]
shell = lambda line: ["/bin/sh", "-c", line]
jobs = [
    {"Label": "worker", "ProgramArguments": shell(worker), "KeepAlive": True, "ThrottleInterval": 0},
    {"Label": "litter", "ProgramArguments": shell(litter), "KeepAlive": True, "ThrottleInterval": 0},
    {"Label": "stdout", "ProgramArguments": shell("echo by /dev/stdout"), "RunAtLoad": True, "StandardOutPath": "/dev/stdout"},
]
for job in jobs:
    with open(f"{folder}/{job['Label']}.json", "w") as it:
        json.dump(job, it)
PYTHON
# The page's recipe, whose program is kept alive too.
page_definition org.example.to-container >"$scratch/context/jobs/container.json" || fail "docs/OPERATING.md has no org.example.to-container"
machine_webd "$tree"
mount -t proc proc "$tree/proc"
words=()
while read -r step rest; do
    case $step in
    '' | '#'*) ;;
    FROM | VOLUME | STOPSIGNAL | HEALTHCHECK) ;;
    COPY)
        read -r source target <<<"$rest"
        if [ -d "$scratch/context/$source" ]; then
            mkdir -p "$tree$target"
            cp -r "$scratch/context/$source/." "$tree$target"
        else
            cp "$scratch/context/$source" "$tree$target"
        fi
        ;;
    RUN) chroot "$tree" env -i "${machine_words[@]}" sh -c "$rest" >"$scratch/log" 2>&1 || fail "RUN $rest: $(cat "$scratch/log")" ;;
    ENV) machine_words+=("$rest") ;;
    ENTRYPOINT) mapfile -t words < <(python3 -c 'import json, sys; print("\n".join(json.loads(sys.argv[1])))' "$rest") ;;
    *) fail "contrib/Containerfile: what is $step?" ;;
    esac
done <contrib/Containerfile
umount "$tree/proc"
[ ${#words[@]} -gt 0 ] || fail "contrib/Containerfile starts nothing"
rm -f "$tree"/var/lib/jobd/*

# ---- the container

# start OUTPUT: the container's first process. Sets box, the process that has it, and machine_first.
start() {
    : >"$scratch/err"
    (first_process "$tree" "${words[@]}") >"$1" 2>>"$scratch/err" </dev/null &
    box=$!
    machine_first=$(machine_child "$box") || true
}
inside() {
    nsenter -t "$machine_first" -m -p -u -i -n -r -w env -i "${machine_words[@]}" "$@"
}
pid_of() {
    inside jobctl list 2>/dev/null | awk -F '\t' -v label="$1" '$3 == label && $1 != "-" { print $1 }'
}
# until_running [OLD]: the worker's process id inside, once it runs and is another than the old one.
until_running() {
    local pid
    for _ in $(seq 300); do
        pid=$(pid_of worker || true)
        [ -z "$pid" ] || [ "$pid" = "${1:-}" ] || { echo "$pid"; return; }
        sleep 0.1
    done
    fail "the worker does not run"
}
launcher() {
    inside pgrep -o -x jobd
}
is_alive() {
    [ -n "$box" ] && kill -0 "$box" 2>/dev/null
}
# ended STATUS..: waits until the container has ended, with one of these.
ended() {
    local status=0
    for _ in $(seq 300); do
        is_alive || break
        sleep 0.1
    done
    ! is_alive || fail "the container does not end"
    wait "$box" || status=$?
    box=
    case " $* " in *" $status "*) ;; *) fail "the container ended with $status, not with $*" ;; esac
}
calm() {
    local terms
    [ ! -e "$tree/var/lib/jobd/twice" ] || fail "two of a job ran at once"
    terms=$(grep -c 'gets TERM' "$scratch/err" || true)
    [ "$terms" -le 40 ] || fail "$terms lines of TERM"
    if grep -q "can't be ended" "$scratch/err"; then fail "something can't be ended"; fi
}

# ---- output, orphans, TERM

start "$scratch/out"
until_running >/dev/null
for _ in $(seq 100); do
    webd=$(pid_of org.example.to-container || true)
    if [ -n "$webd" ] && grep -qx "webd $webd begins" "$scratch/out"; then break; fi
    sleep 0.1
done
grep -qx 'jobd: ready' "$scratch/out" || fail "the launcher's own word did not come out"
grep -qx "webd $webd begins" "$scratch/out" && grep -qx "webd $webd complains" "$scratch/out" || fail "/proc/1/fd/1 is not the container's output: $(cat "$scratch/out")"
grep -qx 'by /dev/stdout' "$scratch/out" || fail "/dev/stdout is not the container's output: $(cat "$scratch/out")"
inside jobctl list >/dev/null || fail "HEALTHCHECK"
# No group is named here, so all is this user's alone.
[ "$(inside stat -c %a /run/jobd)" = 700 ] || fail "the folder: $(inside stat -c '%a %G' /run/jobd)"
[ -z "$(inside find /run/jobd -mindepth 1 -perm /077)" ] || fail "others may read: $(inside find /run/jobd -mindepth 1 -perm /077)"
grep -q 'a job may take 20 seconds to end (ExitTimeOut), and the supervisor gives KILL 10 seconds after TERM: 11 too early' "$scratch/err" ||
    fail "an engine's time to stop that is too short is not told"
sleep 8
zombies=$(inside ps -e -o stat= | grep -c '^Z' || true)
runs=$(inside jobctl print litter | sed -n 's/^.runs = //p')
[ "$runs" -gt 20 ] || fail "only $runs runs left orphans"
[ "$zombies" -le 5 ] || fail "$zombies zombies"
rm -f "$tree/var/lib/jobd/ends"
begin=$(date +%s%N)
kill -TERM "$machine_first"
ended 0
took=$((($(date +%s%N) - begin) / 1000000))
[ "$took" -lt 5000 ] || fail "TERM took $took ms"
[ "$(cat "$tree/var/lib/jobd/ends")" = TERM ] || fail "the worker was not ended in order"
grep -qx "webd $webd got TERM" "$scratch/out" || fail "TERM did not reach the page's program"
calm
echo "container: $runs runs left orphans and $zombies zombies; TERM ended all in $took ms"

# By a pipe, as container engines have it: /dev/stdout is refused and told, and the recipe works.
mkfifo "$scratch/pipe"
cat "$scratch/pipe" >"$scratch/out" &
start "$scratch/pipe"
until_running >/dev/null
for _ in $(seq 100); do
    webd=$(pid_of org.example.to-container || true)
    if [ -n "$webd" ] && grep -qx "webd $webd begins" "$scratch/out"; then break; fi
    sleep 0.1
done
grep -qx "webd $webd begins" "$scratch/out" && grep -qx "webd $webd complains" "$scratch/out" || fail "/proc/1/fd/1 is not the container's output: $(cat "$scratch/out")"
grep -q 'stdout: run 1: .*FIFO' "$scratch/err" || fail "a pipe is neither written nor told"
kill -TERM "$machine_first"
ended 0
calm

# ---- jobd alone, which the page advises against

entry=("${words[@]}")
words=(sh -c 'mkdir -m 700 /run/spool; exec jobd serve --socket /run/alone.sock --store /run/alone.db --spool /run/spool')
start "$scratch/out"
for _ in $(seq 100); do
    if grep -qx 'jobd: ready' "$scratch/out"; then break; fi
    sleep 0.1
done
kill -TERM "$machine_first"
sleep 2
is_alive || fail "jobd alone takes TERM as a first process, and the page says that it does not"
# The end of the first process may end jobctl too, before it has printed its reply.
inside jobctl --socket /run/alone.sock shutdown || [ $? -eq 137 ]
ended 0
words=("${entry[@]}")

# ---- the six orders

# blow WHOM: kills it, if it is there. A container that ended is started again first, as its engine does.
blow() {
    is_alive || { start "$scratch/out"; until_running >/dev/null; }
    case $1 in
    launcher) inside kill -KILL "$(launcher)" ;;
    keeper) kill -KILL "$machine_first" ;;
    job) inside kill -KILL "$(pid_of worker)" ;;
    esac
}
# The status of a container whose first process was killed; the second is that of some versions of unshare.
killed='137 1'
settle() {
    # shellcheck disable=SC2086
    case $1 in
    launcher)
        ended 137
        grep -q 'gets TERM' "$scratch/err" || fail "the job got no TERM"
        ;;
    keeper) ended $killed ;;
    job) until_running "$2" >/dev/null ;;
    esac
    calm
}
orders='launcher keeper job
launcher job keeper
keeper launcher job
keeper job launcher
job launcher keeper
job keeper launcher'
while read -r order; do
    for whom in $order; do
        is_alive || { start "$scratch/out"; until_running >/dev/null; }
        old=$(until_running)
        blow "$whom"
        settle "$whom" "$old"
    done
    # At once: what is gone already is not killed again.
    is_alive || { start "$scratch/out"; until_running >/dev/null; }
    pids="$(launcher) $(until_running)"
    for whom in $order; do
        case $whom in
        launcher) inside kill -KILL "${pids% *}" 2>/dev/null || true ;;
        job) inside kill -KILL "${pids#* }" 2>/dev/null || true ;;
        keeper) kill -KILL "$machine_first" 2>/dev/null || true ;;
        esac
    done
    # shellcheck disable=SC2086
    ended $killed
    calm
    start "$scratch/out"
    until_running >/dev/null
    if grep -q 'left by a launcher' "$scratch/err"; then fail "a container's first processes were taken for what a launcher left"; fi
    kill -TERM "$machine_first"
    ended 0
    calm
    echo "container: killed in the order $order: passed"
done <<<"$orders"
echo "container: passed"
