#!/usr/bin/env bash
# A job that takes SECONDS to stop has all of them under a real systemd: at `systemctl stop`, at a reboot, and when its definition is replaced while the
# launcher goes on. Beside it a job whose ExitTimeOut is shorter gets KILL, and at a reload a third is not touched. It is run by hand, as root, after `make deb`:
# long_stop.sh FOLDER [SECONDS [stop|reboot|reload]..], where FOLDER is as in units.sh. SECONDS is 20 if absent; 600 is what the pages promise. With less than
# a minute the unit's own times are made shorter. Each part has a machine of its own, and all run side by side.
set -euo pipefail

cd "$(dirname "$0")/.."
# shellcheck source=tests/machine.sh
. tests/machine.sh
base=$(realpath -m "${1:?the folder of the scratch system}")
seconds=${2:-20}
parts=("${@:3}")
case $seconds in *[!0-9]* | ????? | ?) echo "long_stop: $seconds: wanted 10 to 9999 seconds" >&2; exit 64 ;; esac
[ ${#parts[@]} -gt 0 ] || parts=(stop reboot reload)
package=$(newest_package)
if [ ${#parts[@]} -gt 1 ]; then
    machine_make "$base"
    begun=()
    for part in "${parts[@]}"; do
        "$0" "$base" "$seconds" "$part" &
        begun+=($!)
    done
    code=0
    for pid in "${begun[@]}"; do wait "$pid" || code=1; done
    exit $code
fi
part=${parts[0]}
scratch=$(mktemp -d)
tree=$scratch/tree
fail() {
    echo "long_stop: $part: $*" >&2
    exit 1
}
trap 'machine_end; rm -rf "$scratch"' EXIT
machine_make "$base"
machine_copy "$base" "$tree"
cp "$package" "$tree/root/jobd.deb"
machine_words+=(JOBD_SOCKET=/run/jobd/jobd.sock)
until_true() {
    for _ in $(seq 600); do
        if "$@" >/dev/null 2>&1; then return; fi
        sleep 0.1
    done
    fail "not within 60 s: $*"
}
pid_of() {
    machine_in jobctl list | awk -F '\t' -v label="$1" '$3 == label && $1 != "-" { print $1 }'
}
runs() {
    [ -n "$(pid_of "$1")" ]
}
told() {
    machine_in journalctl -u jobd -o cat
}
# define LABEL SECONDS TIMEOUT [WORD]: a job that takes so many seconds after TERM, and writes when each begins and ends.
define() {
    cat >"$tree/etc/jobd/$1.json" <<JSON
{"Label": "$1", "KeepAlive": true, "ThrottleInterval": 0, "ExitTimeOut": $3, "EnvironmentVariables": {"WORD": "${4:-first}"}, "ProgramArguments": ["/bin/sh", "-c",
"trap 'echo \$WORD TERM \$(date +%s) >>/root/$1; sleep $2; echo \$WORD in order \$(date +%s) >>/root/$1; exit' TERM; echo \$WORD begins >>/root/$1; while :; do sleep 0.1; done"]}
JSON
}
# When the job wrote that, in seconds.
wrote() {
    sed -n "s/^first $2 //p" "$tree/root/$1"
}

machine_boot "$tree"
machine_in dpkg -i /root/jobd.deb >"$scratch/log" 2>&1 || fail "$(cat "$scratch/log")"
if [ "$seconds" -lt 60 ]; then
    mkdir -p "$tree/etc/systemd/system/jobd.service.d"
    printf '[Service]\nTimeoutStopSec=8\nTimeoutStartSec=15\n' >"$tree/etc/systemd/system/jobd.service.d/override.conf"
    machine_in systemctl daemon-reload
fi
define slow "$seconds" $((seconds + 60))
define short "$seconds" 5
define other 0 20
machine_in systemctl restart jobd
for label in slow short other; do until_true runs $label; done
for label in slow short other; do until_true grep -q begins "$tree/root/$label"; done
case $part in
stop)
    machine_in systemctl stop jobd
    [ "$(machine_in systemctl show -p Result --value jobd)" = success ] || fail "the unit: $(machine_in systemctl show -p Result --value jobd): $(told | tail)"
    told | grep -F 'waits for slow' >/dev/null || fail "it is not told whom the stop waits for: $(told | tail)"
    ;;
reboot)
    machine_in systemctl reboot --no-wall || true
    # bash says that a child was hung up.
    for _ in $(seq $((seconds + 120))); do
        kill -0 "$machine_keeper" || break
        sleep 1
    done 2>/dev/null
    if kill -0 "$machine_keeper" 2>/dev/null; then fail "the machine does not go down"; fi
    ;;
reload)
    kept=$(pid_of other)
    before=$(machine_in systemctl show -p MainPID --value jobd)
    define slow "$seconds" $((seconds + 60)) second
    define short "$seconds" 5 second
    if [ "$(machine_in systemctl show -p CanReload --value jobd)" = yes ]; then
        machine_in systemctl reload jobd || fail "systemctl reload: $(told | tail)"
        way="systemctl reload"
    else
        machine_in jobctl-reload /etc/jobd/slow.json /etc/jobd/short.json >"$scratch/log" 2>&1 || fail "jobctl-reload: $(cat "$scratch/log")"
        way=jobctl-reload
    fi
    for label in slow short; do
        until_true runs $label
        until_true grep -qx 'second begins' "$tree/root/$label"
    done
    [ "$(pid_of other)" = "$kept" ] || fail "$way touched another job"
    [ "$(machine_in systemctl show -p MainPID --value jobd)" = "$before" ] || fail "$way restarted the launcher"
    ;;
*) fail "wanted stop, reboot or reload" ;;
esac
[ -n "$(wrote slow TERM)" ] && [ -n "$(wrote slow 'in order')" ] || fail "the job did not have $seconds seconds: $(cat "$tree/root/slow")"
took=$(($(wrote slow 'in order') - $(wrote slow TERM)))
[ "$took" -ge "$seconds" ] || fail "the job had $took seconds"
# One that has less time gets KILL: so a job that gets it is seen here.
[ -n "$(wrote short TERM)" ] && [ -z "$(wrote short 'in order')" ] || fail "a job with an ExitTimeOut of 5 had longer: $(cat "$tree/root/short")"
echo "long_stop: ${way:-$part}: the job had $took seconds after TERM, and the unit waits $(sed -n 's/^TimeoutStopSec=//p' "$tree/lib/systemd/system/jobd.service" "$tree"/etc/systemd/system/jobd.service.d/override.conf 2>/dev/null | tail -n 1)"
