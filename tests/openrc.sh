#!/usr/bin/env bash
# contrib/jobd.openrc under Debian's OpenRC, whose start-stop-daemon is dpkg's: the service starts, its job runs with HOME and the like, a stop ends it in order,
# a job that takes longer than the service waits is told at its load, and a removal of the package ends all. It is run by hand, as root, after
# `make deb`: openrc.sh FOLDER, where FOLDER is as in units.sh; OpenRC is installed in a copy of it, so the network is needed.
set -euo pipefail

cd "$(dirname "$0")/.."
# shellcheck source=tests/machine.sh
. tests/machine.sh
base=$(realpath -m "${1:?the folder of the scratch system}")
package=$(newest_package)
scratch=$(mktemp -d)
tree=$scratch/tree
box=
fail() {
    echo "openrc: $*" >&2
    [ ! -s "$tree/var/log/jobd.log" ] || sed 's/^/openrc: log: /' "$tree/var/log/jobd.log" >&2
    exit 1
}
clear() {
    [ -z "$box" ] || kill -KILL "$box" 2>/dev/null || true
    umount -q "$tree/proc" || true
    rm -rf "$scratch"
}
trap clear EXIT
machine_make "$base"
machine_copy "$base" "$tree"
if [ ! -x "$tree/sbin/openrc-run" ]; then
    mount -t proc proc "$tree/proc"
    chroot "$tree" env -i "${machine_words[@]}" sh -c 'apt-get -qq update && apt-get -qq install -y --no-install-recommends openrc' >"$scratch/log" 2>&1 ||
        fail "OpenRC can't be installed: $(tail "$scratch/log")"
    umount "$tree/proc"
fi
cp "$package" "$tree/root/jobd.deb"
# bash, as it takes orphans in.
(first_process "$tree" bash -c 'while :; do sleep 1; done') </dev/null >/dev/null 2>&1 &
box=$!
machine_first=$(machine_child "$box")
inside() {
    nsenter -t "$machine_first" -m -p -u -i -n -r -w env -i "${machine_words[@]}" "$@"
}
until_true() {
    for _ in $(seq 300); do
        if "$@" >/dev/null 2>&1; then return; fi
        sleep 0.1
    done
    fail "not within 30 s: $*"
}
entered() { [ "$(stat -Lc %d:%i "/proc/$machine_first/root")" = "$(stat -c %d:%i "$tree")" ] && inside test -f /root/jobd.deb && inside mountpoint -q /run; }
until_true entered
inside dpkg -i /root/jobd.deb >"$scratch/log" 2>&1 || fail "$(cat "$scratch/log")"
# What OpenRC makes at a boot.
inside sh -c 'cd /run && mkdir openrc && cd openrc && mkdir daemons exclusive failed hotplugged inactive init.d options scheduled started starting stopping tmp wasinactive &&
    echo default >softlevel'
machine_words+=(JOBD_SOCKET=/run/jobd/jobd.sock)
cat >"$tree/etc/jobd/web.json" <<'JSON'
{"Label": "web", "KeepAlive": true, "ProgramArguments": ["/bin/sh", "-c", "env >/root/variables; trap 'echo TERM >>/root/ends; exit' TERM; while :; do sleep 0.1; done"]}
JSON
inside cp /usr/share/doc/jobd/contrib/jobd.openrc /etc/init.d/jobd
inside rc-update add jobd default >/dev/null 2>&1 || fail "rc-update"
inside rc-service jobd start >"$scratch/log" 2>&1 || fail "it does not start: $(cat "$scratch/log")"
pid_of() {
    inside jobctl list 2>/dev/null | awk -F '\t' -v label="$1" '$3 == label && $1 != "-" { print $1 }'
}
runs() { [ -n "$(pid_of "$1")" ]; }
until_true runs web
inside rc-service jobd status 2>&1 | grep started >/dev/null || fail "its status: $(inside rc-service jobd status 2>&1)"
grep -q '^jobd-run: 1 jobs loaded, 0 not$' "$tree/var/log/jobd.log" || fail "its words are not in its log"
if grep -q JOBD_STOP_WAIT "$tree/var/log/jobd.log"; then fail "a wait that is long enough is told"; fi
# Its group may read the status file, and pass through the folder to it; other users may not.
oncall() {
    inside setpriv --reuid=games --regid=games --groups="$1" -- env -i PATH=/usr/bin:/bin HOME=/ "${@:2}"
}
machine_list() {
    inside find "$@"
}
until_true inside test -f /run/jobd/jobd.sock.places
[ "$(inside stat -c '%a %U %G' /run/jobd)" = '710 root adm' ] || fail "the folder: $(inside stat -c '%a %U %G' /run/jobd)"
[ "$(readable_by oncall adm -- /run/jobd /var/lib/jobd | tr '\n' ' ')" = '/run/jobd/jobd.sock.places /run/jobd/status.jsonl /run/jobd/status.jsonl.boot ' ] ||
    fail "adm may read: $(readable_by oncall adm -- /run/jobd /var/lib/jobd)"
[ -z "$(readable_by oncall games -- /run/jobd /var/lib/jobd)" ] || fail "others may read: $(readable_by oncall games -- /run/jobd /var/lib/jobd)"
oncall adm jobscope status | grep '^web .*running' >/dev/null || fail "adm: $(oncall adm jobscope status 2>&1)"
if oncall adm jobctl --socket /run/jobd/jobd.sock list >"$scratch/log" 2>&1; then fail "adm may speak to the launcher"; fi
if oncall games jobscope status >"$scratch/log" 2>&1; then fail "others read the status file"; fi
until_true test -s "$tree/root/variables"
for row in HOME=/root USER=root LOGNAME=root SHELL=/bin/bash; do
    grep -qx "$row" "$tree/root/variables" || fail "a job has no $row: $(cat "$tree/root/variables")"
done
echo '{"Label": "late", "KeepAlive": true, "ProgramArguments": ["/bin/sleep", "1000"]}' >"$tree/etc/jobd/late.json"
inside rc-service jobd reload >"$scratch/log" 2>&1 || fail "it does not reload: $(cat "$scratch/log")"
until_true runs late
[ ! -e "$tree/root/ends" ] || fail "a reload ended a job"
rm "$tree/etc/jobd/late.json"
inside rc-service jobd stop >"$scratch/log" 2>&1 || fail "it does not stop: $(cat "$scratch/log")"
[ "$(cat "$tree/root/ends")" = TERM ] || fail "the job was not ended in order"
if inside pgrep -x jobd; then fail "a stop left the launcher"; fi
inside rc-service jobd status >/dev/null 2>&1 && fail "a service that is stopped has the status of one that runs"
# A job that takes longer than the service waits.
mkdir -p "$tree/etc/conf.d"
echo 'JOBD_STOP_WAIT=60' >"$tree/etc/conf.d/jobd"
echo '{"Label": "slow", "ExitTimeOut": 600, "Program": "/bin/true"}' >"$tree/etc/jobd/slow.json"
inside rc-service jobd start >"$scratch/log" 2>&1 || fail "it does not start again: $(cat "$scratch/log")"
until_true runs web
until_true grep -q '^jobd-run: a job may take 600 seconds to end (ExitTimeOut), and the supervisor gives KILL 60 seconds after TERM: 541 too early' "$tree/var/log/jobd.log"
inside timeout 120 dpkg -r jobd >"$scratch/log" 2>&1 || fail "the removal: $(cat "$scratch/log")"
if inside pgrep -x jobd; then fail "a removal left the launcher: $(cat "$scratch/log")"; fi
[ "$(wc -l <"$tree/root/ends")" = 2 ] || fail "the removal did not end the job in order"
echo "openrc: passed"
