#!/usr/bin/env bash
# contrib/jobd-split-users over a folder of property lists in both forms and of JSON: each goes to its user's folder without the key,
# or with --in-place gets a prefix; what is there is not written over, and what can't be converted is told. jobscope, if it is in FOLDER
# (build/ if absent), finds no key that a load refuses in what was made. As root a launcher then runs a job with a prefix: it is its
# user's, writes $HOME and its output, keeps its process id and hears TERM. It is run by hand: split_users.sh [FOLDER].
set -euo pipefail

cd "$(dirname "$0")/.."
script=$PWD/contrib/jobd-split-users
programs=$(realpath -m "${1:-build}")
folder=$(mktemp -d)
chmod 755 "$folder"
trap 'rm -rf "$folder"' EXIT
cd "$folder"
fail() {
    echo "split_users: $*" >&2
    exit 1
}
mkdir in
python3 - <<'PYTHON'
import datetime, plistlib

base = {"Label": "org.example.redis", "UserName": "nobody", "ProgramArguments": ["/usr/bin/redis-server"], "KeepAlive": {"Crashed": True}}
with open("in/redis.plist", "wb") as it:
    plistlib.dump(base, it)
with open("in/binary.plist", "wb") as it:
    more = {"Label": "binary", "GroupName": "nogroup", "Data": b"ab", "Day": datetime.datetime(2026, 1, 2)}
    plistlib.dump({**base, **more}, it, fmt=plistlib.FMT_BINARY)
PYTHON
echo '{"Label": "own", "Program": "/bin/true"}' >in/own.json
echo '{"Label": "root", "UserName": "root", "GroupName": "root", "Program": "/bin/true"}' >in/root.json
echo '{"Label": "group", "UserName": "nobody", "GroupName": "daemon", "Program": "/bin/true"}' >in/group.json
echo '{"Label": "wheel", "GroupName": "daemon", "Program": "/bin/true"}' >in/wheel.json
echo '{"Label": "jail", "UserName": "nobody", "RootDirectory": "/srv/jail", "WorkingDirectory": "/var", "ProgramArguments": ["x", "a b"], "Program": "/bin/x"}' >in/jail.json
echo '{"Label": "é", "UserName": "no.such-user", "Program": "/bin/true"}' >in/other.json
echo '<plist' >in/broken.plist
echo '[]' >in/list.json
echo '{"Label": "e", "UserName": "../up", "Program": "/bin/true"}' >in/up.json
echo 'not read' >in/README
mkdir in/folder.json
cp -r in before

if "$script" in out >told 2>faults; then fail "faults, and the status is 0"; fi
diff -r in before || fail "the folder is not as it was"
(cd out && find . -type f | LC_ALL=C sort) >files
printf '%s\n' ./group.json ./jail.json ./no.such-user/other.json ./nobody/binary.json ./nobody/redis.json ./own.json ./root.json ./wheel.json |
    diff - files || fail "other files"
python3 - <<'PYTHON' || fail "other contents"
import json

wanted = {"Label": "org.example.redis", "ProgramArguments": ["/usr/bin/redis-server"], "KeepAlive": {"Crashed": True}}
assert json.load(open("out/nobody/redis.json")) == wanted
assert json.load(open("out/own.json")) == {"Label": "own", "Program": "/bin/true"}
assert json.load(open("out/root.json")) == {"Label": "root", "Program": "/bin/true"}
assert json.load(open("out/no.such-user/other.json"))["Label"] == "é"
binary = json.load(open("out/nobody/binary.json"))
assert not {"UserName", "GroupName"} & binary.keys() and binary["Data"] == "YWI=" and binary["Day"] == "2026-01-02T00:00:00Z"
assert json.load(open("out/group.json")) == {
    "Label": "group",
    "ProgramArguments": ["/usr/bin/setpriv", "--reuid=nobody", "--regid=daemon", "--init-groups", "--", "/bin/true"],
    "EnvironmentVariables": {"USER": "nobody", "LOGNAME": "nobody", "HOME": "/nonexistent"},
}
assert json.load(open("out/wheel.json")) == {
    "Label": "wheel", "ProgramArguments": ["/usr/bin/setpriv", "--regid=daemon", "--clear-groups", "--", "/bin/true"]
}
jail = json.load(open("out/jail.json"))
assert jail["ProgramArguments"] == ["/usr/sbin/chroot", "--userspec=nobody:nogroup", "/srv/jail", "/bin/x", "a b"], jail
assert not {"RootDirectory", "UserName", "WorkingDirectory", "Program"} & jail.keys()
PYTHON
for row in 'in/redis.plist: out/nobody/redis.json, without UserName nobody' 'in/own.json: out/own.json' 'in/root.json: out/root.json' \
    'there is no user no.such-user on this machine' 'systemctl enable --now jobd@nobody' \
    'in/wheel.json: out/wheel.json, by /usr/bin/setpriv --regid=daemon --clear-groups --' \
    'out/jail.json: its WorkingDirectory is taken out: the job starts in / of its RootDirectory'; do
    grep -qF "$row" told || fail "not said: $row in $(cat told)"
done
for row in 'in/broken.plist: not a property list' 'in/list.json: not ' "in/up.json: UserName '../up' is not the name of a user"; do
    grep -qF "$row" faults || fail "not told: $row in $(cat faults)"
done
[ "$(wc -l <faults)" = 3 ] || fail "other faults: $(cat faults)"
[ "$(stat -c %A out/nobody | cut -c 8-)" = --- ] || fail "others may look into a user's folder"
[ "$(stat -c %A out/nobody/redis.json | cut -c 8-)" = --- ] || fail "others may read a user's definition"
if "$script" in out >told 2>faults; then fail "a second run has no fault"; fi
grep -qF 'out/nobody/redis.json is there already' faults || fail "a file was written over"
if "$script" nowhere out 2>faults; then fail "a folder that is not there"; fi
mkdir empty
"$script" empty out 2>faults
grep -qF 'no definition' faults || fail "an empty folder is not told"

# One file that can't be brought over ends nothing: those behind it are, no file is left half made, and it is named.
mkdir hard
mkfifo hard/a.json
ln -s /proc/kmsg hard/b.json
ln -s nowhere hard/c.plist
printf '{"Label": "d", "Program": "/bin/\\ud800"}' >hard/d.json
python3 -c 'print("{\"Label\": \"e\", \"x\": " + "[" * 100000 + "]" * 100000 + "}")' >hard/e.json
printf '{"Label": "f", "x": NaN}' >hard/f.json
python3 - <<'PYTHON'
import plistlib

with open("hard/g.plist", "wb") as it:
    plistlib.dump({"Label": "g", "x": plistlib.UID(3)}, it, fmt=plistlib.FMT_BINARY)
open(b"hard/h\xff.json", "w").write("[]")
open(b"hard/i\xff.json", "w").write('{"Label": "i", "Program": "/bin/true"}')
PYTHON
printf '{"Label": "j", "UserName": "nobody\\u0000", "Program": "/bin/true"}' >hard/j.json
printf '{"Label": 5, "UserName": ["nobody"], "EnvironmentVariables": 7, "Program": "/bin/true"}' >hard/k.json
echo '{"Label": "z", "Program": "/bin/true"}' >hard/z.json
if timeout 20 "$script" hard soft >told 2>faults; then fail "faults, and the status is 0"; fi
[ "$(find soft -type f | wc -l)" = 2 ] && [ -s soft/z.json ] || fail "other files: $(find soft -type f -exec ls -l {} +) $(cat faults)"
for name in a.json b.json c.plist d.json e.json f.json g.plist j.json k.json; do
    grep -qF "jobd-split-users: hard/$name: " faults || fail "hard/$name is not named: $(cat faults)"
done
[ "$(wc -l <faults)" = 10 ] || fail "other faults: $(cat faults)"
if grep -q Traceback faults; then fail "it ended by itself: $(cat faults)"; fi

# One launcher for all, in another folder and in the same one.
if "$script" --in-place in one >told 2>faults; then fail "faults, and the status is 0"; fi
diff -r in before || fail "the folder is not as it was"
(cd one && find . -type f | LC_ALL=C sort | tr '\n' ' ') >files
grep -qx './binary.json ./group.json ./jail.json ./other.json ./own.json ./redis.json ./root.json ./wheel.json ' files || fail "other files: $(cat files)"
python3 - <<'PYTHON' || fail "other contents"
import json

assert json.load(open("one/redis.json")) == {
    "Label": "org.example.redis", "KeepAlive": {"Crashed": True},
    "ProgramArguments": ["/usr/bin/setpriv", "--reuid=nobody", "--regid=nogroup", "--init-groups", "--", "/usr/bin/redis-server"],
    "EnvironmentVariables": {"USER": "nobody", "LOGNAME": "nobody", "HOME": "/nonexistent"},
}
assert json.load(open("one/root.json")) == {"Label": "root", "Program": "/bin/true"}
assert "HOME" not in json.load(open("one/other.json"))["EnvironmentVariables"]
PYTHON
grep -qF 'one/other.json: there is no user no.such-user on this machine, so HOME is not set' told || fail "an unknown user is not told"
rm in/broken.plist in/list.json in/up.json
"$script" --in-place in >told 2>faults || fail "$(cat faults)"
for name in redis.plist root.json jail.json; do
    cmp "in/$name.before" "before/$name" || fail "in/$name was not kept"
done
cmp in/redis.json one/redis.json || fail "in place it is made otherwise"
cmp in/own.json before/own.json || fail "what needs nothing was changed"
[ ! -e in/redis.plist ] || fail "the property list is loaded still"
"$script" --in-place in >told 2>faults || fail "a second time: $(cat faults)"
grep -qF 'in/redis.json: left as it is' told || fail "a second time it is not left: $(cat told)"
status=0
"$script" --no-word in 2>/dev/null || status=$?
[ "$status" = 64 ] || fail "a word that is none: $status"

# A load refuses none of them for who or where the job is.
if [ -x "$programs/jobscope" ]; then
    for made in out out/*/ one in; do
        "$programs/jobscope" check "$made" >>checked 2>&1 || fail "a load refuses what was made: $(grep 'error' checked)"
    done
    grep -q 'one/redis.json:' checked || fail "jobscope looked at nothing: $(cat checked)"
fi
if [ "$(id -u)" -ne 0 ] || [ ! -x "$programs/jobd" ]; then
    echo "split_users: passed; no job was run (as root, after make build)"
    exit
fi

# A job of root's launcher that becomes nobody.
export PATH=$programs:$PATH JOBD_SOCKET=$folder/jobd.sock
mkdir jobs home spool
chown nobody home
cat >jobs/nobody.json <<JSON
{"Label": "nobody", "UserName": "nobody", "KeepAlive": true, "StandardOutPath": "$folder/out.log",
 "EnvironmentVariables": {"HOME": "$folder/home"},
 "ProgramArguments": ["/bin/sh", "-c", "id -un; id -gn; id -Gn; echo \$USER \$LOGNAME; echo \$\$ >\$HOME/pid; trap 'echo TERM; exit' TERM; while :; do sleep 0.1; done"]}
JSON
"$script" --in-place jobs >told
grep -qF "root opens its StandardOutPath, before the user is changed" told || fail "the streams are not told: $(cat told)"
jobd serve --socket jobd.sock --store overrides.db --spool spool >ready 2>log &
launcher=$!
trap 'jobctl shutdown >/dev/null 2>&1; wait "$launcher"; rm -rf "$folder"' EXIT
for _ in $(seq 900); do
    if jobctl list >/dev/null 2>&1; then break; fi
    sleep 0.1
done
jobctl load jobs
for _ in $(seq 100); do
    [ ! -s home/pid ] || break
    sleep 0.1
done
[ -s home/pid ] || fail "the job did not write its HOME: $(cat log out.log)"
pid=$(jobctl list | awk -F '\t' '$3 == "nobody" { print $1 }')
[ "$(cat home/pid)" = "$pid" ] || fail "the process id is $(cat home/pid), and jobctl knows $pid"
[ "$(stat -c %U home/pid)" = nobody ] || fail "the file in HOME is not the user's"
[ "$(awk '/^Uid:/ { print $2 $3 $4 $5 }' "/proc/$pid/status")" = 65534655346553465534 ] || fail "the job is not nobody"
printf 'nobody\nnogroup\nnogroup\nnobody nobody\n' | diff - <(head -n 4 out.log) || fail "other output"
[ "$(stat -c %U out.log)" = root ] || fail "root did not open the output"
jobctl unload jobs
for _ in $(seq 100); do
    if grep -qx TERM out.log; then break; fi
    sleep 0.1
done
grep -qx TERM out.log || fail "TERM did not reach the job"
jobctl shutdown
wait "$launcher"
trap 'rm -rf "$folder"' EXIT
echo "split_users: passed, with a job of nobody under root's launcher"
