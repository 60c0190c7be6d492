#!/usr/bin/env bash
# What contrib/from-systemd writes for StateDirectory and its like, run as root beside a user who puts links: in each place nothing of root's is
# given away, and what the unit names is there. Units, drop-ins and files of variables that are FIFOs stop nothing. It is run by hand, as root;
# everything is made in a mount namespace of its own.
set -euo pipefail

cd "$(dirname "$0")/.."
if [ "${1:-}" != inside ]; then
    exec unshare --mount "$0" inside
fi
script=$PWD/contrib/from-systemd
mount --make-rprivate /
mkdir -p /tmp/unit_folders.$$
work=/tmp/unit_folders.$$
trap 'cd /; umount -l /etc /run /var/lib /var/cache /var/log 2>/dev/null; rm -rf "$work"' EXIT
cp -a /etc "$work/etc"
for place in /run /var/lib /var/cache /var/log; do mount -t tmpfs -o mode=755 tmpfs $place; done
mount -t tmpfs -o mode=755 tmpfs /etc
cp -a "$work/etc/." /etc
mkdir -m 700 /var/lib/roots
cd "$work"
fail() {
    echo "unit_folders: $*" >&2
    exit 1
}

# make LINE..: runs what goes before the program of a unit of nobody's with these lines.
make() {
    printf '%s\n' '[Service]' "${user-User=nobody}" 'ExecStart=/bin/true' "$@" >app.service
    python3 "$script" app.service >made.json 2>told || return 1
    python3 -c 'import json, os; words = json.load(open("made.json"))["ProgramArguments"]; os.execv(words[0], words)' 2>errors
}
# roots: what is root's stays so.
roots() {
    [ "$(stat -c '%U %a' /var/lib/roots)" = 'root 700' ] || fail "$1: a folder of root's is now $(stat -c '%U %a' /var/lib/roots)"
    chown root:root /var/lib/roots
    chmod 700 /var/lib/roots
}
is() {
    [ "$(stat -c '%U %a' "$1")" = "$2" ] || fail "$1: $(stat -c '%U %a' "$1"), not $2"
}
for pair in RuntimeDirectory:/run StateDirectory:/var/lib CacheDirectory:/var/cache LogsDirectory:/var/log ConfigurationDirectory:/etc; do
    key=${pair%%:*}
    place=${pair#*:}
    owner=nobody
    [ "$key" != ConfigurationDirectory ] || owner=root
    make "$key=app/cache app" "${key}Mode=0750" || fail "$key: not made: $(cat told errors)"
    is "$place/app" "$owner 750"
    is "$place/app/cache" "$owner 750"
    # The user's link within the folder that the unit has, and beside it one that root put.
    chown nobody "$place/app"
    rm -r "$place/app/cache"
    setpriv --reuid=nobody --clear-groups ln -s /var/lib/roots "$place/app/cache"
    make "$key=app app/cache" "${key}Mode=0755" || true
    roots "$key=app app/cache"
    make "$key=app/cache" "${key}Mode=0755" || true
    roots "$key=app/cache"
    make "$key=app/cache/deeper" "${key}Mode=0755" || true
    roots "$key=app/cache/deeper"
    [ ! -e /var/lib/roots/deeper ] || fail "$key: a folder was made within root's"
    rm -r "$place/app"
    ln -s /var/lib/roots "$place/app"
    [ "$owner" = root ] || { make "$key=app" "${key}Mode=0755" || true; }
    roots "$key=app, a link"
    rm "$place/app"
    # A folder of root's that is only above: it stays root's, and what is named in it is the user's.
    mkdir "$place/above"
    make "$key=above/own fresh/a/b" "${key}Mode=0700" || fail "$key: not made: $(cat told errors)"
    is "$place/above" 'root 755'
    is "$place/above/own" "$owner 700"
    is "$place/fresh/a" 'root 755'
    is "$place/fresh/a/b" "$owner 700"
    # A mode is quoted, or refused; so is a path that leads up.
    if make "$key=app" "${key}Mode=0755;touch $work/run"; then fail "$key: a mode that is none"; fi
    [ ! -e run ] || fail "$key: a mode was run"
    if make "$key=../up"; then fail "$key: a path that leads up"; fi
    make "$key=a;touch\${IFS}run" || fail "$key: a name with marks: $(cat told errors)"
    [ ! -e run ] || fail "$key: a name was run"
    echo "unit_folders: $key: passed"
done
user='' make 'StateDirectory=daemon daemon/in' || fail "root's own folders: $(cat told errors)"
is /var/lib/daemon/in 'root 755'

# What never answers.
mkfifo fifo.service
timeout 10 python3 "$script" fifo.service 2>told && fail "a FIFO is a unit"
grep -q 'fifo.service: not a plain file' told || fail "a FIFO: $(cat told)"
mkdir app.service.d
mkfifo app.service.d/a.conf
printf '[Service]\nExecStart=/bin/true\n' >app.service
timeout 10 python3 "$script" app.service >/dev/null 2>told && fail "a FIFO is a drop-in"
grep -q 'a.conf: not a plain file' told || fail "a drop-in: $(cat told)"
rm -r app.service.d
mkfifo variables
printf '[Service]\nEnvironmentFile=%s/variables\nExecStart=/bin/true\n' "$work" >app.service
timeout 10 python3 "$script" app.service >/dev/null 2>told || fail "a FIFO of variables: $(cat told)"
grep -q "it can't be read" told || fail "a FIFO of variables is not told: $(cat told)"
echo "unit_folders: passed"
