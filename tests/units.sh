#!/usr/bin/env bash
# The package under a real systemd, in namespaces over a copy of a Debian, without a network. An upgrade from OLD.deb ends no job and is
# told; start and restart wait for the loads; a watchdog, levels, limits; each recipe of docs/OPERATING.md; a removal and a new install start
# what was enabled; a purge leaves nothing. It is run by hand, as root, after `make deb`: units.sh FOLDER [OLD.deb], where FOLDER is taken
# for the Debian, or is one made before. Without OLD.deb the upgrade is from the package itself, with a lower version.
set -euo pipefail

cd "$(dirname "$0")/.."
# shellcheck source=tests/machine.sh
. tests/machine.sh
base=$(realpath -m "${1:?the folder of the scratch system}")
old=${2:-}
package=$(newest_package)
version=$(dpkg-deb -f "$package" Version)
scratch=$(mktemp -d)
tree=$scratch/tree
fail() {
    echo "units: $*" >&2
    exit 1
}
trap 'machine_end; rm -rf "$scratch"' EXIT
machine_make "$base"
machine_copy "$base" "$tree"
machine_webd "$tree"

# again NAME VERSION [EDIT]: the package with another version, and its postinst edited by sed. That of 0.0.0 has a program that tells so.
again() {
    dpkg-deb -R "$package" "$scratch/$1"
    sed -i "s/^Version: .*/Version: $2/" "$scratch/$1/DEBIAN/control"
    sed -i "${3:-}" "$scratch/$1/DEBIAN/postinst"
    if [ "$2" = 0.0.0 ]; then
        older_program "$scratch/$1/usr/bin/jobd"
        # Version 0.3.0 has its status file there.
        sed -i 's|^status_file=.*|status_file=${JOBD_STATUS_FILE-$state/status.jsonl}|' "$scratch/$1/usr/libexec/jobd-run"
    fi
    dpkg-deb -b "$scratch/$1" "$tree/root/$1.deb" >/dev/null
    rm -rf "${scratch:?}/$1"
}
cp "$package" "$tree/root/new.deb"
if [ -n "$old" ]; then cp "$old" "$tree/root/old.deb"; else again old 0.0.0; fi
again safe 99.0 's/^# Faults of security.*/99.0 anybody may do anything (a test)/; s/^version=.*/version=99.0/'
printf '%s\n' "$(dpkg-deb -f "$tree/root/safe.deb" Version)" | grep -x 99.0 >/dev/null

# files: each file of the machine, but for what apt, dpkg and systemd write down.
files() {
    (cd "$tree" && find . -xdev \( -path ./proc -o -path ./sys -o -path ./dev -o -path ./run -o -path ./tmp -o -path ./root -o -path ./mnt -o \
        -path ./var/cache -o -path ./var/log -o -path ./var/lib/apt -o -path ./var/lib/dpkg -o -path ./var/lib/systemd -o -path ./var/lib/logrotate -o -path ./var/tmp -o \
        -name __pycache__ \) -prune -o -print | sort)
}
# until CMD..: it succeeds within 30 seconds.
until_true() {
    for _ in $(seq 300); do
        if "$@" >/dev/null 2>&1; then return; fi
        sleep 0.1
    done
    fail "not within 30 s: $*"
}
machine_words+=(JOBD_SOCKET=/run/jobd/jobd.sock)
machine_boot "$tree"
files >"$scratch/before"
pid_of() {
    machine_in jobctl list | awk -F '\t' -v label="$1" '$3 == label && $1 != "-" { print $1 }'
}
runs() {
    [ -n "$(pid_of "$1")" ]
}
main_of() {
    machine_in systemctl show -p MainPID --value jobd
}
launcher() {
    machine_in pgrep -P "$(main_of)" -x jobd
}
status_of() {
    machine_in systemctl show -p StatusText --value "${1:-jobd}"
}
apt() {
    machine_in apt-get -qq -o Dpkg::Use-Pty=0 "$@" >"$scratch/log" 2>&1 || fail "apt-get $*: $(cat "$scratch/log")"
}
define() {
    printf '%s\n' "$2" >"$tree/$1"
}

# ---- an upgrade

apt install -y --no-install-recommends /root/old.deb
until_true machine_in jobctl list
body='["/bin/sh", "-c", "trap '"'echo LABEL TERM >>/root/ends; exit'"' TERM; while :; do sleep 0.1; done"]'
define etc/jobd/kept.json "{\"Label\": \"kept\", \"KeepAlive\": true, \"ThrottleInterval\": 0, \"ProgramArguments\": ${body/LABEL/kept}}"
define etc/jobd/asked.json "{\"Label\": \"asked\", \"ProgramArguments\": ${body/LABEL/asked}}"
define root/elsewhere.json "{\"Label\": \"elsewhere\", \"KeepAlive\": true, \"ProgramArguments\": ${body/LABEL/elsewhere}}"
machine_in jobctl load /etc/jobd /root/elsewhere.json
machine_in jobctl start asked
for label in kept asked elsewhere; do until_true runs "$label"; done
state() {
    echo "$(main_of) $(launcher) $(pid_of kept) $(pid_of asked) $(pid_of elsewhere)"
}
before=$(state)
old_version=$(machine_in jobd --help | sed -n 's/^Kivgrond //p')
apt install -y /root/new.deb
[ "$(state)" = "$before" ] || fail "the upgrade ended something: $before, then $(state)"
line=$(grep '^jobd: the launcher goes on' "$scratch/log" || true)
if ! cmp -s <(dpkg-deb --fsys-tarfile "$tree/root/old.deb" | tar -xO ./usr/bin/jobd) <(dpkg-deb --fsys-tarfile "$package" | tar -xO ./usr/bin/jobd); then
    [[ $line == "jobd: the launcher goes on as version $old_version"*"; systemctl restart jobd ends its jobs and starts version $version" ]] ||
        fail "the upgrade is not told: $(cat "$scratch/log")"
    [ "$(grep -c '^jobd: \*\*\* THE LAUNCHER .* RUNS WITHOUT IT until systemctl restart jobd$' "$scratch/log")" = 1 ] || fail "one fault of the old launcher is mended, and this is not told: $(cat "$scratch/log")"
    grep -q "^jobd: \*\*\* SECURITY: version .* mends this: whoever owns the folder of a job's Unix socket" "$scratch/log" || fail "what a restart mends is not told: $(cat "$scratch/log")"
    grep -q '^jobd: \*\*\* SECURITY: version .* mends this: from-systemd wrote .*anew$' "$scratch/log" || fail "what no restart mends is not told: $(cat "$scratch/log")"
    machine_in jobscope why --journal /var/lib/jobd/journal.jsonl kept | grep '^kept is running' >/dev/null || fail "the new jobscope does not read the old journal"
    apt install -y /root/safe.deb
    grep -q '^jobd: \*\*\* SECURITY: version 99.0 mends this: anybody may do anything (a test)$' "$scratch/log" || fail "the fault is not told: $(cat "$scratch/log")"
    [ "$(state)" = "$before" ] || fail "the second upgrade ended something: $before, then $(state)"
    apt install -y --allow-downgrades /root/new.deb
    [ "$(state)" = "$before" ] || fail "going back ended something: $before, then $(state)"
    echo "units: $line"
else
    [ -z "$line" ] || fail "told, though the program is the same: $line"
fi
[ ! -e "$tree/root/ends" ] || fail "a job got TERM: $(cat "$tree/root/ends")"
[ -f "$tree/var/lib/jobd/status.jsonl" ] || fail "the launcher before has its status file elsewhere"
machine_in jobscope status | grep '^elsewhere .*running' >/dev/null || fail "jobscope does not find the file of the launcher before: $(machine_in jobscope status 2>&1)"
machine_in perl -e 'our %nrconf; do "/etc/needrestart/conf.d/jobd.conf" or die; my @k = keys %{$nrconf{override_rc}};
    for my $unit (qw(jobd.service jobd@redis.service)) { die $unit unless grep { $unit =~ /$_/ && $nrconf{override_rc}{$_} == 0 } @k }
    die "another" if grep { "jobdx.service" =~ /$_/ } @k' || fail "needrestart would restart jobd"
if [ -x "$tree/usr/sbin/needrestart" ]; then
    machine_in needrestart -r a >"$scratch/needrestart" 2>&1 || true
    sed -n '/being deferred/,$p' "$scratch/needrestart" | grep 'restart jobd.service' >/dev/null || fail "needrestart: $(cat "$scratch/needrestart")"
    [ "$(state)" = "$before" ] || fail "needrestart ended something: $before, then $(state)"
    echo "units: needrestart -r a leaves jobd"
else
    echo "units: needrestart is not here, so it was not asked itself"
fi
# With a restart all is of the new version: each job ended in order, and the restart waited for the loads.
define etc/jobd/bad.json '{"Label": "bad"}'
define etc/jobd/shared.json '{"Label": "shared", "Program": "/bin/true"}'
chmod 666 "$tree/etc/jobd/shared.json"
define etc/jobd/stdout.json '{"Label": "stdout", "ProgramArguments": ["/bin/echo", "here"], "RunAtLoad": true, "StandardOutPath": "/dev/stdout"}'
machine_in systemctl restart jobd
[ "$(machine_in jobctl list | cut -f 3 | tr '\n' ' ')" = 'Label asked kept stdout ' ] || fail "the restart did not wait for the loads: $(machine_in jobctl list)"
[[ $(status_of) == '3 jobs loaded, 2 not'* ]] || fail "status: $(status_of)"
[ "$(sort "$tree/root/ends" | tr '\n' ' ')" = 'asked TERM elsewhere TERM kept TERM ' ] || fail "not ended in order: $(cat "$tree/root/ends")"
machine_in systemctl is-active -q jobd
[ ! -e "$tree/var/lib/jobd/status.jsonl" ] || fail "the status file of the launcher before is left"
cmp <(machine_in cat "/proc/$(launcher)/exe") <(machine_in cat /usr/bin/jobd) || fail "the restart did not start the new program"

# ---- levels, streams, limits, variables

told() {
    machine_in journalctl -u jobd -o cat "$@"
}
said() {
    told "${@:2}" | grep -F -- "$1" >/dev/null
}
until_true said 'stdout: run 1: ' -p warning
told -p warning | grep 'stdout: run 1: .* is a socket' >/dev/null || fail "a socket as a stream is not told: $(told)"
said 'bad.json: not loaded: bad definition: Missing ProgramArguments' -p warning || fail "a bad definition is no warning"
said 'shared.json: not loaded: another user owns it or may write to it' -p warning || fail "what others may write is not told"
said '3 jobs loaded, 2 not' -p info || fail "the number of jobs is not told"
if said '3 jobs loaded, 2 not' -p warning; then fail "the number of jobs is a warning"; fi
# What was not loaded is named until it is.
seen() { machine_in jobscope "$@" --status-file /run/jobd/status.jsonl; }
code=0
seen why --failing >"$scratch/failing" || code=$?
[ "$code" = 2 ] || fail "jobscope why --failing: status $code"
grep -q '^/etc/jobd/bad.json: not loaded at the boot: bad definition: Missing ProgramArguments$' "$scratch/failing" || fail "bad.json is not named: $(cat "$scratch/failing")"
grep -q '^/etc/jobd/shared.json: not loaded at the boot: another user owns it' "$scratch/failing" || fail "shared.json is not named: $(cat "$scratch/failing")"
seen why bad | grep '^/etc/jobd/bad.json: not loaded' >/dev/null || fail "why bad: $(seen why bad 2>&1)"
seen metrics | grep -x 'jobd_definitions_not_loaded 2' >/dev/null || fail "metrics: $(seen metrics | grep definitions)"
define etc/jobd/bad.json '{"Label": "bad", "Program": "/bin/true"}'
machine_in jobctl load /etc/jobd/bad.json
counts() { seen metrics | grep -x "jobd_definitions_not_loaded $1"; }
until_true counts 1
machine_in jobctl unload /etc/jobd/bad.json
echo "units: what the boot could not load is named until it is loaded"
said 'jobd: ready' || fail "the launcher's output is not the unit's"
rm "$tree"/etc/jobd/{bad,shared,stdout}.json
[ "$(machine_in systemctl show -p OOMPolicy --value jobd)" = continue ] || fail "OOMPolicy"
# The descriptors that process $1 may have: the soft limit and the hard one.
files_of() {
    machine_in cat "/proc/$1/limits" | awk '/^Max open files/ { print $4, $5 }'
}
[ "$(machine_in systemctl show -p LimitNOFILESoft --value jobd) $(machine_in systemctl show -p LimitNOFILE --value jobd)" = '65536 524288' ] ||
    fail "LimitNOFILE"
most=$(files_of 1)
most=${most#* }
if [ "$most" -lt 524288 ] && ! (ulimit -Hn 524288) 2>/dev/null; then
    echo "units: this machine allows no more than $most descriptors, so that is what a job gets"
    wanted="$((most < 65536 ? most : 65536)) $most"
else
    wanted='65536 524288'
fi
[ "$(files_of "$(pid_of kept)")" = "$wanted" ] || fail "descriptors of a job: $(files_of "$(pid_of kept)")"
machine_in cat "/proc/$(pid_of kept)/environ" | tr '\0' '\n' >"$scratch/variables"
grep -q '^JOBD_MARK=' "$scratch/variables" || fail "the job has no mark"
if grep -E '^(NOTIFY_SOCKET|WATCHDOG_)' "$scratch/variables"; then fail "a job may speak to systemd"; fi
# What a login has, and nothing else of systemd's than the search path and the language. The page's table has all of it.
for row in HOME=/root USER=root LOGNAME=root SHELL=/bin/bash; do
    grep -qx "$row" "$scratch/variables" || fail "a job has no $row: $(cat "$scratch/variables")"
done
cut -d = -f 1 "$scratch/variables" | sort >"$scratch/names"
sed -n '/^## What a job has/,/^## Under/p' docs/OPERATING.md | sed -n 's/^| `\([A-Z_`, ]*\)` |.*/\1/p' | tr -d '` ' | tr ',' '\n' | sort >"$scratch/table"
unknown=$(comm -23 "$scratch/names" "$scratch/table" | tr '\n' ' ')
[ -z "$unknown" ] || fail "docs/OPERATING.md does not have these variables of a job: $unknown"
# A run that fails leaves a line, and systemctl status shows how many jobs fail, and those that were loaded since.
define root/fails.json '{"Label": "fails", "ProgramArguments": ["/bin/sh", "-c", "exit 7"], "RunAtLoad": true, "StandardErrorPath": "/root/fails.log"}'
machine_in jobctl load /root/fails.json
until_true said 'jobd: fails: run 1 ended with code 7' -p warning
said '; its errors are in /root/fails.log' -p warning || fail "where errors went is not told: $(told -p warning)"
shows() { [ "$(status_of)" = "$1" ]; }
# The other one's output is refused.
until_true shows '4 jobs loaded, 2 not, 2 failing'
machine_in jobctl unload /root/fails.json
until_true shows '3 jobs loaded, 2 not, 1 failing'

# ---- the recipes of the page

mkdir -p "$tree/var/log/jobd"
# recipe LABEL: loads it, and tells its process id once it runs.
recipe() {
    page_definition "$1" >"$tree/root/$1.json" || fail "docs/OPERATING.md has no $1"
    machine_in jobctl load "/root/$1.json" >&2 || fail "$1 is not loaded"
    until_true runs "$1"
    pid_of "$1"
}
# spoken LABEL PROCESS CMD..: what CMD prints says that this process began; after the unload, that TERM reached it.
spoken() {
    local label=$1 process=$2
    shift 2
    said_so() { "${@:2}" | grep "^webd $process $1" >/dev/null; }
    until_true said_so begins "$@"
    until_true said_so complains "$@"
    machine_in jobctl unload "/root/$label.json"
    until_true said_so 'got TERM' "$@"
    echo "units: $label: its words came, by the process that jobctl knows, and TERM reached it"
}
process=$(recipe org.example.to-journal)
spoken org.example.to-journal "$process" machine_in journalctl -t org.example.to-journal -o cat
process=$(recipe org.example.to-syslog)
spoken org.example.to-syslog "$process" machine_in journalctl -t org.example.to-syslog -o cat
process=$(recipe org.example.to-file)
until_true grep -q works "$tree/var/log/jobd/webd.log"
cp "$tree/usr/share/doc/jobd/contrib/jobd.logrotate" "$tree/etc/logrotate.d/jobd"
machine_in logrotate -f /etc/logrotate.d/jobd
[ -f "$tree/var/log/jobd/webd.log.1" ] || fail "logrotate kept nothing"
grep -q begins "$tree/var/log/jobd/webd.log.1" || fail "logrotate kept another file"
until_true grep -q "^webd $process works" "$tree/var/log/jobd/webd.log"
if grep -q begins "$tree/var/log/jobd/webd.log"; then fail "logrotate did not cut the file"; fi
machine_in jobctl unload /root/org.example.to-file.json
until_true grep -q "^webd $process got TERM" "$tree/var/log/jobd/webd.log"
rm -r "$tree/etc/logrotate.d/jobd" "$tree/var/log/jobd"
echo "units: org.example.to-file: logrotate cut its file, and it went on"
# The words before a program. The program's own process id is seen by its name.
is_webd() {
    machine_in cat "/proc/$1/cmdline" | tr '\0' ' ' | grep '^/bin/sh /usr/local/bin/webd ' >/dev/null
}
for label in org.example.as-user org.example.other-root org.example.few-files org.example.nice; do
    process=$(recipe $label)
    until_true is_webd "$process"
    user=$(machine_in ps -o user= -p "$process")
    case $label in
    *.as-user)
        [ "$user" = www-data ] || fail "$label: $user"
        machine_in cat "/proc/$process/environ" | tr '\0' '\n' | grep -x HOME=/var/www >/dev/null || fail "$label: HOME"
        [ "$(machine_in ps -o group= -p "$process")" = www-data ] || fail "$label: group"
        ;;
    *.other-root) [ "$user" = www-data ] || fail "$label: $user" ;;
    *.few-files)
        [ "$(files_of "$process")" = '1024 4096' ] || fail "$label: limits: $(files_of "$process")"
        ;;
    *.nice) [ "$(machine_in ps -o ni= -p "$process" | tr -d ' ')" = 10 ] || fail "$label: priority" ;;
    esac
    machine_in jobctl unload "/root/$label.json"
    gone() { ! machine_in kill -0 "$process"; }
    until_true gone
    echo "units: $label: passed"
done

# ---- the watchdog

mkdir -p "$tree/etc/systemd/system/jobd.service.d"
printf '[Service]\nWatchdogSec=3\nEnvironment=JOBCTL_TIMEOUT=2\n' >"$tree/etc/systemd/system/jobd.service.d/override.conf"
machine_in systemctl daemon-reload
machine_in systemctl restart jobd
until_true runs kept
said 'the watchdog is on: the launcher is asked each 1.500 s' -p info || fail "the watchdog is not told"
sleep 8
restarts() {
    machine_in systemctl show -p NRestarts --value jobd
}
[ "$(restarts)" = 0 ] || fail "the watchdog ended a launcher that answers: $(told)"
rm -f "$tree/root/ends"
hung=$(launcher)
machine_in kill -STOP "$hung"
anew() { [ "$(restarts)" -ge 1 ] && runs kept; }
until_true anew
grep -qx 'kept TERM' "$tree/root/ends" || fail "the job was not ended in order"
[ "$(launcher)" != "$hung" ] || fail "the hung launcher goes on"
rm -r "$tree/etc/systemd/system/jobd.service.d"
machine_in systemctl daemon-reload
machine_in systemctl restart jobd
echo "units: the watchdog started a launcher that hung anew, and its job got TERM"

# ---- the time to stop

# A job that takes longer than the unit waits, at a stop and at a reboot: jobd-run asks for more time.
mkdir -p "$tree/etc/systemd/system/jobd.service.d"
printf '[Service]\nTimeoutStopSec=8\n' >"$tree/etc/systemd/system/jobd.service.d/override.conf"
machine_in systemctl daemon-reload
define etc/jobd/slow.json '{"Label": "slow", "KeepAlive": true, "ExitTimeOut": 600, "ProgramArguments": ["/bin/sh", "-c", "trap '"'sleep 20; echo in order >>/root/slow; exit'"' TERM; while :; do sleep 0.1; done"]}'
machine_in systemctl restart jobd
until_true runs slow
sleep 1
machine_in systemctl stop jobd
[ "$(cat "$tree/root/slow" 2>/dev/null)" = 'in order' ] || fail "a job that takes 20 seconds to stop did not get them: $(told | tail)"
[ "$(machine_in systemctl show -p Result --value jobd)" = success ] || fail "a stop: $(machine_in systemctl show -p Result --value jobd)"
said 'waits for slow' || fail "it is not told whom the stop waits for"
machine_in systemctl start jobd
until_true runs slow
sleep 1
machine_in systemctl reboot --no-wall || true
for _ in $(seq 600); do
    kill -0 "$machine_keeper" 2>/dev/null || break
    sleep 0.1
done
[ "$(wc -l <"$tree/root/slow")" = 2 ] || fail "a reboot did not give a job its time: $(cat "$tree/root/slow")"
machine_end
rm "$tree/etc/jobd/slow.json"
rm -r "$tree/etc/systemd/system/jobd.service.d"
machine_boot "$tree"
until_true runs kept
echo "units: a job had 20 seconds at a stop and at a reboot, though the unit waits 8"

# ---- a reload, and what is loaded after a reboot

labels() { machine_in jobctl list | sed 1d | cut -f 3 | sort | tr '\n' ' '; }
argument_of() { machine_in cat "/proc/$(pid_of "$1")/cmdline" | tr '\0' ' '; }
sleeps() { define "etc/jobd/$1.json" "{\"Label\": \"$2\", \"KeepAlive\": true, \"ThrottleInterval\": 0, \"ProgramArguments\": [\"/bin/sleep\", \"$3\"]}"; }
before=$(pid_of kept)
sleeps named named 1001
# It stands before the other one in bytes.
sleeps also-named named 1002
machine_in systemctl reload jobd || fail "a reload failed: $(told | tail)"
[ "$(argument_of named)" = '/bin/sleep 1001 ' ] || fail "a reload did not load what is named for the label: $(argument_of named)"
[ "$(pid_of kept)" = "$before" ] || fail "a reload ended a job"
said 'named: new: ' || fail "a reload is not told: $(told | tail)"
sleeps named named 1003
machine_in jobctl apply /etc/jobd >"$scratch/applied" && fail "a file was left out, and the status is 0: $(cat "$scratch/applied")"
grep -q '^changed   named ' "$scratch/applied" || fail "apply: $(cat "$scratch/applied")"
rm "$tree/etc/jobd/also-named.json"
machine_in jobctl apply --prune --strict /etc/jobd >"$scratch/applied" || [ $? = 2 ] || fail "apply: $(cat "$scratch/applied")"
before=$(labels)
machine_in systemctl reboot --no-wall || true
for _ in $(seq 600); do
    kill -0 "$machine_keeper" 2>/dev/null || break
    sleep 0.1
done
machine_end
machine_boot "$tree"
until_true runs named
same_labels() { [ "$(labels)" = "$before" ]; }
until_true same_labels
[ "$(argument_of named)" = '/bin/sleep 1003 ' ] || fail "after a reboot another definition is loaded: $(argument_of named)"
echo '{' >"$tree/etc/jobd/named.json"
machine_in systemctl reload jobd && fail "a file that can't be read, and the reload is well"
[ "$(argument_of named)" = '/bin/sleep 1003 ' ] && [ "$(machine_in systemctl is-active jobd)" = active ] || fail "a reload ended the job or the unit"
rm "$tree/etc/jobd/named.json"
machine_in jobctl unload named
until_true runs kept
echo "units: a reload brought the folder into effect, and after an apply and a reboot the same jobs were loaded"

# ---- a minute that passes while no launcher runs

mkdir -p "$tree/etc/systemd/system/jobd.service.d"
printf '[Service]\nEnvironment=JOBD_MISSED=start\n' >"$tree/etc/systemd/system/jobd.service.d/override.conf"
machine_in systemctl daemon-reload
at=$((($(date +%s) + 5) / 60 * 60 + 60))
define etc/jobd/nightly.json "{\"Label\": \"nightly\", \"ProgramArguments\": [\"/bin/sh\", \"-c\", \"echo ran >>/root/nightly\"], \"StartCalendarInterval\": {\"Hour\": $(machine_in date -d "@$at" +%-H), \"Minute\": $(machine_in date -d "@$at" +%-M)}}"
machine_in systemctl stop jobd
while [ "$(date +%s)" -le "$at" ]; do sleep 0.5; done
machine_in systemctl start jobd
until_true grep -qx ran "$tree/root/nightly"
said 'nightly: a minute of its calendar passed while no launcher ran: started' || fail "it is not told: $(told | tail)"
[ "$(wc -l <"$tree/root/nightly")" = 1 ] || fail "a missed run was made up for more than once"
machine_in jobctl unload /etc/jobd/nightly.json
rm -r "$tree/etc/jobd/nightly.json" "$tree/etc/systemd/system/jobd.service.d"
machine_in systemctl daemon-reload
machine_in systemctl restart jobd
until_true runs kept
echo "units: a minute that passed while no launcher ran was made up for, once"

# ---- who may read the status file

# as USER CMD..: without a variable of a launcher. oncall is in the group adm, and stranger in none.
machine_in sh -c 'useradd -r -M -N -g nogroup -G adm -s /bin/sh oncall && useradd -r -M -N -g nogroup -s /bin/sh stranger'
as() {
    machine_in setpriv --reuid="$1" --regid=nogroup --init-groups -- env -i PATH=/usr/bin:/bin HOME=/ TERM=dumb COLUMNS=200 "${@:2}"
}
# A terminal, as script makes one.
typed() {
    as "$1" script -qec "$2" /dev/null
}
machine_list() {
    machine_in find "$@"
}
# Version 0.3.0 wrote no such file; the package that stands for it does.
[ -n "$old" ] || rm -f "$tree/var/lib/jobd/status.jsonl.boot"
define etc/jobd/bad.json '{"Label": "bad"}'
machine_in systemctl restart jobd
until_true runs kept
shared='/run/jobd/jobd.sock.places /run/jobd/status.jsonl /run/jobd/status.jsonl.boot '
looks() { [ "$(readable_by as oncall -- /run/jobd /var/lib/jobd | tr '\n' ' ')" = "$shared" ]; }
until_true looks
[ -z "$(readable_by as stranger -- /run/jobd /var/lib/jobd)" ] || fail "a stranger may read: $(readable_by as stranger -- /run/jobd /var/lib/jobd)"
# shellcheck disable=SC2086
[ "$(machine_in stat -c '%a %U %G' $shared | sort -u)" = '640 root adm' ] || fail "modes: $(machine_in stat -c '%a %U %G %n' $shared)"
[ "$(machine_in stat -c '%a %U %G' /run/jobd)" = '711 root root' ] || fail "the folder of the users' launchers: $(machine_in stat -c '%a %U %G' /run/jobd)"
# (in the first second the file has the jobs of the first load's pass)
sees() { as oncall jobscope status | grep '^kept .*running'; }
until_true sees
as oncall jobscope metrics | grep -x 'jobd_definitions_not_loaded 1' >/dev/null || fail "oncall: jobscope metrics: $(as oncall jobscope metrics 2>&1 | grep -v '^#')"
typed oncall 'jobscope why kept' | tr -d '\r' >"$scratch/why"
grep -q '^kept is running' "$scratch/why" && grep -q '^jobscope: /run/jobd/status.jsonl: read, since no journal is named' "$scratch/why" || fail "oncall: jobscope why: $(cat "$scratch/why")"
# (its status is 2, since something fails)
{ typed oncall 'jobscope why --failing' || true; } | grep '^/etc/jobd/bad.json: not loaded at the boot' >/dev/null || fail "oncall: jobscope why --failing: $(typed oncall 'jobscope why --failing')"
if as oncall jobctl --socket /run/jobd/jobd.sock list >"$scratch/refused" 2>&1; then fail "oncall may speak to the launcher"; fi
grep -q 'Permission denied' "$scratch/refused" || fail "oncall: jobctl list: $(cat "$scratch/refused")"
if as stranger jobscope status >"$scratch/refused" 2>&1; then fail "a stranger reads the status file"; fi
grep -q 'Permission denied' "$scratch/refused" || fail "stranger: $(cat "$scratch/refused")"
# Another group, none, and one that does not exist.
group_is() {
    mkdir -p "$tree/etc/systemd/system/jobd.service.d"
    printf '[Service]\nEnvironment=JOBD_STATUS_GROUP=%s\n' "$1" >"$tree/etc/systemd/system/jobd.service.d/override.conf"
    machine_in systemctl daemon-reload
    machine_in systemctl restart jobd
    until_true runs kept
    # shellcheck disable=SC2086
    until_true machine_in stat $shared
    # shellcheck disable=SC2086
    [ "$(machine_in stat -c '%a %G' $shared | sort -u)" = "$2" ] || fail "with JOBD_STATUS_GROUP=$1: $(machine_in stat -c '%a %G %n' $shared)"
}
group_is staff '640 staff'
group_is 12 "640 $(machine_in getent group 12 | cut -d : -f 1)"
group_is '' '600 root'
if said 'JOBD_STATUS_GROUP'; then fail "told, though no group is named: $(told | grep JOBD_STATUS_GROUP)"; fi
group_is nobodys '600 root'
group_is 4294967295 '600 root'
said 'JOBD_STATUS_GROUP is nobodys: no such group, so nobody else may read the status file' -p warning || fail "an unknown group is not told: $(told | tail)"
rm -r "$tree/etc/jobd/bad.json" "$tree/etc/systemd/system/jobd.service.d"
machine_in systemctl daemon-reload
machine_in systemctl restart jobd
until_true runs kept
machine_in userdel oncall 2>/dev/null
machine_in userdel stranger 2>/dev/null
echo "units: a user of the group adm reads the status file, and nothing else"

# ---- a user's own systemd

user=$(machine_in sh -c 'useradd -m -s /bin/sh someone && id -u someone')
as_someone() {
    machine_in setpriv --reuid="$user" --regid="$user" --init-groups -- env HOME=/home/someone USER=someone XDG_RUNTIME_DIR="/run/user/$user" "$@"
}
# As user@.service starts it, without a login.
machine_in install -d -o someone -g someone -m 700 "/run/user/$user"
machine_in systemd-run -q --unit=someone --uid=someone -p Delegate=yes -E HOME=/home/someone -E XDG_RUNTIME_DIR="/run/user/$user" /lib/systemd/systemd --user
answers() { as_someone systemctl --user list-units; }
until_true answers
as_someone mkdir -p /home/someone/.config/jobd
define home/someone/.config/jobd/mine.json '{"Label": "mine", "KeepAlive": true, "ProgramArguments": ["/bin/sh", "-c", "env >$HOME/variables; exec sleep 1000"]}'
as_someone systemctl --user enable -q --now jobd
[ "$(as_someone systemctl --user show -p StatusText --value jobd)" = '1 jobs loaded, 0 not' ] || fail "a user's own unit: $(as_someone systemctl --user status jobd)"
as_someone jobctl --socket "/run/user/$user/jobd/jobd.sock" list | grep -w mine >/dev/null || fail "a user's own launcher does not answer"
until_true grep -qx HOME=/home/someone "$tree/home/someone/variables"
[ -f "$tree/home/someone/.local/state/jobd/journal.jsonl" ] || fail "a user's own launcher has no journal"
as_someone systemctl --user stop jobd
machine_in systemctl stop someone
echo "units: systemctl --user enable --now jobd: passed"
machine_in userdel -r someone 2>/dev/null || true
rm -rf "$tree/home/someone"
# What useradd keeps of each file of its own.
rm -f "$tree"/etc/sub?id-

# ---- kills, by systemd's own hand

old_pid=$(pid_of kept)
machine_in kill -KILL "$(launcher)"
anew() { [ -n "$(pid_of kept)" ] && [ "$(pid_of kept)" != "$old_pid" ]; }
until_true anew
until_true shows '2 jobs loaded, 0 not'

# Seven kills one after another: systemd does not give up.
for _ in 1 2 3 4 5 6 7; do
    old_pid=$(launcher)
    machine_in kill -KILL "$old_pid"
    another() { [ -n "$(launcher)" ] && [ "$(launcher)" != "$old_pid" ]; }
    until_true another
done
until_true runs kept
echo "units: seven kills of the launcher: it was started each time"

# ---- what was stopped stays so; a removal and a new install

mkdir "$tree/etc/jobd/www-data"
define etc/jobd/www-data/user.json '{"Label": "user", "KeepAlive": true, "ProgramArguments": ["/bin/sleep", "1000"]}'
machine_in systemctl enable -q --now jobd@www-data
[ "$(status_of jobd@www-data)" = '1 jobs loaded, 0 not' ] || fail "status: $(status_of jobd@www-data)"
machine_in systemctl stop jobd
apt install -y /root/safe.deb
if machine_in systemctl is-active -q jobd; then fail "an upgrade started what an administrator had stopped"; fi
machine_in systemctl is-active -q jobd@www-data || fail "an upgrade ended a user's launcher"
machine_in systemctl start jobd
apt remove -y jobd
if machine_in pgrep -x jobd; then fail "a removal left a launcher"; fi
if machine_in pgrep -x sleep -u www-data; then fail "a removal left a job"; fi
apt install -y /root/new.deb
for unit in jobd jobd@www-data; do
    machine_in systemctl is-active -q $unit || fail "$unit was enabled, and is not started: $(cat "$scratch/log")"
done
until_true runs kept
apt purge -y jobd
for path in kept asked www-data/user; do
    [ -f "$tree/etc/jobd/$path.json" ] || fail "a purge took a definition"
done
grep -q '^jobd: these stay, since the package did not bring them: ' "$scratch/log" || fail "not told: $(cat "$scratch/log")"
rm -r "$tree/etc/jobd"
files >"$scratch/after"
diff "$scratch/before" "$scratch/after" >&2 || fail "a purge leaves something"
echo "units: passed"
