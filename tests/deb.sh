#!/usr/bin/env bash
# The Debian package in a Debian made by debootstrap: it is installed, README's first job is typed there, jobd-run keeps a job of
# /etc/jobd, the units pass systemd-analyze, and after a removal and a purge nothing is left. lintian finds no error. An upgrade from
# OLD.deb, as of the release before, leaves the launcher and its jobs their process ids, and the new jobctl and jobscope are answered by the old
# launcher; the next start is that of the new one, which keeps what was disabled. No systemd
# runs here (units.sh has one): a removal ends the launcher of jobd-run, also one that runit keeps, and tells one that goes on. It is run
# by hand, as root, after `make deb`: deb.sh FOLDER [OLD.deb], where FOLDER is taken for the new system, or is one made before. MIRROR
# names the mirror. Without OLD.deb the upgrade is from the package itself, with a lower version.
set -euo pipefail

cd "$(dirname "$0")/.."
# shellcheck source=tests/machine.sh
. tests/machine.sh
root=$(realpath -m "${1:?the folder of the scratch system}")
old=${2:-}
package=$(newest_package)
version=$(dpkg-deb -f "$package" Version)
fail() {
    echo "deb: $*" >&2
    exit 1
}
enter=(chroot "$root" env -i PATH=/usr/sbin:/usr/bin:/sbin:/bin HOME=/root LC_ALL=C DEBIAN_FRONTEND=noninteractive)
inside() {
    "${enter[@]}" "$@"
}
if command -v lintian >/dev/null; then
    errors=$(lintian --allow-root --tag-display-limit 0 "$package" 2>/dev/null | grep '^E:' || true)
    [ -z "$errors" ] || fail "$errors"
    echo "deb: lintian finds no error"
else
    echo "deb: lintian is not here, so it was not asked"
fi

machine_make "$root"
keeper=
clear() {
    [ -z "$keeper" ] || kill -TERM "$keeper" 2>/dev/null || true
    umount -q "$root/proc" || true
}
trap clear EXIT
mountpoint -q "$root/proc" || mount -t proc proc "$root/proc"
inside apt-get -qq update
inside apt-get -qq install -y --no-install-recommends python3-minimal libpython3-stdlib systemd libgcc-s1 runit >/dev/null 2>&1

# What an earlier run left.
inside dpkg -P jobd >/dev/null 2>&1 || true
rm -rf "$root/etc/jobd"
# Each file of the system, but for what apt and dpkg write down.
files() {
    (cd "$root" && find . -xdev \( -path ./proc -o -path ./sys -o -path ./dev -o -path ./tmp -o -path ./root -o -path ./var/cache -o \
        -path ./var/log -o -path ./var/lib/apt -o -path ./var/lib/dpkg -o -name __pycache__ \) -prune -o -print | sort)
}
rm -rf "$root/root/try"
mkdir -p "$root/root/try/tests" "$root/root/try/contrib"
cp "$package" "$root/root/jobd.deb"
cp README.md "$root/root/try"
cp tests/readme_job.sh tests/typed_page.py tests/jobd_run.py "$root/root/try/tests"
# systemd-analyze leaves a file of its own, which is no part of the package.
inside systemd-analyze verify --man=no /lib/systemd/system/basic.target >/dev/null 2>&1 || true
files >"$root/root/before"

inside apt-get -qq install -y --no-install-recommends /root/jobd.deb >"$root/root/log" 2>&1 || fail "$(cat "$root/root/log")"
inside dpkg --verify jobd
for path in usr/bin/jobd usr/bin/jobctl usr/bin/jobscope usr/bin/jobctl-reload usr/bin/jobd-split-users usr/libexec/jobd-run usr/libexec/jobd-wake; do
    [ -x "$root/$path" ] || fail "no program /$path"
done
for name in jobctl jobscope; do
    inside "$name" --help | grep "^Usage: $name " >/dev/null || fail "$name does not act by its name"
done
[ "$(stat -c %a "$root/etc/jobd")" = 755 ] || fail "/etc/jobd is not there"
inside jobd --help | grep -x "Kivgrond $(cat VERSION)" >/dev/null || fail "the help does not tell the version"
inside systemd-analyze verify --man=no /lib/systemd/system/jobd.service /lib/systemd/system/jobd@.service /usr/lib/systemd/user/jobd.service 2>"$root/root/verified" || true
if grep 'jobd' "$root/root/verified" >&2; then fail "systemd-analyze has a complaint"; fi
grep -qx "Kivgrond $version" "$root/usr/share/doc/jobd/PROVED.txt" || fail "PROVED.txt names another version than $version"
inside sh -c '[ -L /etc/systemd/system/multi-user.target.wants/jobd.service ]' || fail "jobd.service is not enabled"
inside bash /root/try/tests/readme_job.sh /usr/bin
for path in contrib/Containerfile contrib/jobd.runit contrib/jobd.logrotate PROVED.txt SECURITY.md OPERATING.md examples/kept_alive.jsonl copyright; do
    [ -f "$root/usr/share/doc/jobd/$path" ] || fail "no document $path"
done

# jobd-run over /etc/jobd, as the unit starts it.
cp "$root/usr/share/doc/jobd/contrib/jobd.runit" "$root/root/run"
cat >"$root/etc/jobd/hello.json" <<'JSON'
{"Label": "hello", "ProgramArguments": ["/bin/sleep", "1000"], "KeepAlive": true}
JSON
enter+=(JOBD_SOCKET=/run/jobd/jobd.sock)
# until_true CMD..: it succeeds within 60 seconds.
until_true() {
    for _ in $(seq 300); do
        if "$@" >/dev/null 2>&1; then return; fi
        sleep 0.2
    done
    fail "not within 60 s: $*: $(cat "$root/root/told")"
}
start() {
    "${enter[@]}" "$@" </dev/null >>"$root/root/told" 2>&1 &
    keeper=$!
    until_true running
}
running() {
    pid_of hello | grep .
}
pid_of() {
    inside jobctl list 2>/dev/null | awk -F '\t' -v label="$1" '$3 == label && $1 != "-" { print $1 }'
}
: >"$root/root/told"
start /usr/libexec/jobd-run
child=$(running)
sed -i 's/1000/2000/' "$root/etc/jobd/hello.json"
inside jobctl apply /etc/jobd >/dev/null || fail "jobctl apply ended with $?"
[ "$(running)" != "$child" ] || fail "jobctl apply did not replace the job"
kill -TERM "$keeper"
wait "$keeper" || fail "jobd-run ended with $?: $(cat "$root/root/told")"
keeper=
[ "$(stat -c %a "$root/var/lib/jobd/journal.jsonl")" = 600 ] || fail "others may read the journal"

# An upgrade. The program of the package that is made here tells 0.0.0, and is otherwise the same.
if [ -n "$old" ]; then
    cp "$old" "$root/root/old.deb"
else
    dpkg-deb -R "$package" "$root/root/old"
    sed -i "s/^Version: .*/Version: 0.0.0/" "$root/root/old/DEBIAN/control"
    older_program "$root/root/old/usr/bin/jobd"
    dpkg-deb -b "$root/root/old" "$root/root/old.deb" >/dev/null
    rm -rf "$root/root/old"
fi
echo '{"Label": "asked", "ProgramArguments": ["/bin/sleep", "3000"]}' >"$root/root/asked.json"
echo '{"Label": "off", "ProgramArguments": ["/bin/sleep", "3000"]}' >"$root/root/off.json"
old_version=$(dpkg-deb -f "$root/root/old.deb" Version)
asked() {
    pid_of asked | grep .
}
launcher() {
    cut -d ' ' -f 2 "$root/var/lib/jobd/mark"
}
state() {
    echo "$(launcher) $(pid_of hello) $(pid_of asked)"
}
# What the store has of the label: a load is refused.
is_off() {
    local code=0
    inside jobctl load /root/off.json >/dev/null 2>&1 || code=$?
    [ "$code" = 5 ] || fail "a label that was disabled is loaded $1: $code"
}
# The status file, which is found without a variable, says that the job runs.
stands() {
    inside jobscope status | grep "^$1 .*running"
}
# With the older package two jobs run, and a label is disabled; then the newer one is installed.
upgrade() {
    inside apt-get -qq install -y --no-install-recommends --allow-downgrades /root/old.deb >"$root/root/log" 2>&1 || fail "$(cat "$root/root/log")"
    start /usr/libexec/jobd-run
    inside jobctl load /root/asked.json
    inside jobctl start asked
    inside jobctl disable off
    until_true asked
    before=$(state)
    inside apt-get -qq install -y --no-install-recommends /root/jobd.deb >"$root/root/log" 2>&1 || fail "$(cat "$root/root/log")"
    [ "$(state)" = "$before" ] || fail "the upgrade ended something: $before, then $(state)"
    case $before in *' '[0-9]*' '[0-9]*) ;; *) fail "not all ran before the upgrade: $before" ;; esac
    if ! cmp -s "/proc/$(launcher)/exe" "$root/usr/bin/jobd"; then
        grep -q "^jobd: the launcher goes on as version $old_version; a restart by its supervisor ends its jobs and starts version $version" "$root/root/log" ||
            fail "the upgrade is not told: $(cat "$root/root/log")"
    fi
    inside jobctl print asked | grep -x '.state = running' >/dev/null || fail "the new jobctl is not answered"
    inside jobscope why --journal /var/lib/jobd/journal.jsonl asked | grep '^asked is running' >/dev/null || fail "the new jobscope does not read the old journal"
    for label in hello asked; do until_true stands $label; done
    inside jobscope metrics | grep '^jobd_job_running.*asked.* 1$' >/dev/null || fail "jobscope metrics: $(inside jobscope metrics | grep asked)"
    is_off "by the launcher of before"
}
upgrade
# The next start is that of the new program.
kill -TERM "$keeper"
wait "$keeper" || fail "jobd-run of the older package ended with $?: $(cat "$root/root/told")"
for pid in $before; do
    [ ! -d "/proc/$pid" ] || fail "the older jobd-run left $pid: $(tr '\0' ' ' <"/proc/$pid/cmdline")"
done
start /usr/libexec/jobd-run
cmp "/proc/$(launcher)/exe" "$root/usr/bin/jobd" || fail "a start after the upgrade has another program"
until_true stands hello
[ -f "$root/run/jobd/status.jsonl" ] || fail "no status file in /run/jobd"
[ ! -e "$root/var/lib/jobd/status.jsonl" ] || fail "the status file of before is left"
is_off "after an upgrade and a start"
inside jobscope why --journal /var/lib/jobd/journal.jsonl.1 asked | grep '^asked ' >/dev/null || fail "the journal of before is not kept"
kill -TERM "$keeper"
wait "$keeper" || fail "jobd-run ended with $?: $(cat "$root/root/told")"
keeper=
echo "deb: an upgrade from $old_version with running jobs: none was touched"
upgrade

# A removal ends what runs, and tells what goes on.
mkdir -p "$root/root/spool"
"${enter[@]}" setsid jobd serve --socket /root/own.sock --store /root/own.db --spool /root/spool >/dev/null 2>&1 &
own=$!
until_true inside jobctl --socket /root/own.sock list
inside apt-get -qq remove -y jobd >"$root/root/log" 2>&1 || fail "$(cat "$root/root/log")"
keeper_is_gone() {
    ! kill -0 "$keeper"
}
until_true keeper_is_gone
wait "$keeper" || fail "the removal did not end jobd-run in order: $?: $(cat "$root/root/told")"
keeper=
for pid in $before; do
    [ ! -d "/proc/$pid" ] || fail "the removal left $pid: $(tr '\0' ' ' <"/proc/$pid/cmdline")"
done
grep -q "^jobd: the launcher $own goes on, with no jobctl; its socket is /root/own.sock" "$root/root/log" || fail "not told: $(cat "$root/root/log")"
kill -0 "$own" || fail "the removal ended a launcher that is not the package's"
kill -KILL "$own"
wait "$own" 2>/dev/null || true

# The same under runit, which would start it again.
inside apt-get -qq install -y --no-install-recommends /root/jobd.deb >"$root/root/log" 2>&1 || fail "$(cat "$root/root/log")"
mkdir -p "$root/root/sv"
cp "$root/usr/share/doc/jobd/contrib/jobd.runit" "$root/root/sv/run"
start runsv /root/sv
before=$(state)
is_off "after a removal and a new install"
until_true test -f "$root/run/jobd/status.jsonl.boot"
[ "$(stat -c '%a %g' "$root/run/jobd")" = '710 4' ] || fail "the folder is not passable for adm: $(stat -c '%a %G' "$root/run/jobd")"
for file in status.jsonl status.jsonl.boot; do
    [ "$(stat -c '%a %g' "$root/run/jobd/$file")" = '640 4' ] || fail "adm may not read $file: $(stat -c '%a %G' "$root/run/jobd/$file")"
done
inside apt-get -qq remove -y jobd >"$root/root/log" 2>&1 || fail "$(cat "$root/root/log")"
for pid in $before; do
    [ "$pid" = - ] || [ ! -d "/proc/$pid" ] || fail "the removal left $pid: $(tr '\0' ' ' <"/proc/$pid/cmdline")"
done
if grep -q 'goes on' "$root/root/log"; then fail "told, though it ended: $(cat "$root/root/log")"; fi
inside sv status /root/sv | grep '^down:' >/dev/null || fail "runit starts it again: $(inside sv status /root/sv)"
kill -TERM "$keeper"
wait "$keeper" || true
keeper=

[ ! -e "$root/usr/bin/jobd" ] || fail "a removal left the program"
[ -f "$root/etc/jobd/hello.json" ] || fail "a removal took a definition"
inside apt-get -qq purge -y jobd >"$root/root/log" 2>&1 || fail "$(cat "$root/root/log")"
[ -f "$root/etc/jobd/hello.json" ] || fail "a purge took a definition"
grep -q '^jobd: these stay, since the package did not bring them: /etc/jobd/hello.json ' "$root/root/log" || fail "not told: $(cat "$root/root/log")"
rm -r "$root/etc/jobd"
files >"$root/root/after"
diff "$root/root/before" "$root/root/after" >&2 || fail "a purge leaves something"
! inside dpkg -s jobd >/dev/null 2>&1 || fail "dpkg still knows the package"
echo "deb: installed, tried, removed and purged; nothing is left"
