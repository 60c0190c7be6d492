#!/usr/bin/env bash
# What a user of jobd@USER can do to the package's scripts, which root runs: nothing. Under a real systemd: a program at /usr/bin/jobd in the
# user's own namespaces, and marks of every kind, at an upgrade. Without systemd, at a removal: marks that name other processes or folders, or
# that never end; a socket that answers and never ends, and one that is a link to another launcher's; a launcher of the user's by its real
# program ends. It is run by hand, as root, after `make deb`: package_users.sh FOLDER [OLD.deb], where FOLDER is as in units.sh. It needs a C compiler.
set -euo pipefail

cd "$(dirname "$0")/.."
# shellcheck source=tests/machine.sh
. tests/machine.sh
base=$(realpath -m "${1:?the folder of the scratch system}")
old=${2:-}
package=$(newest_package)
version=$(dpkg-deb -f "$package" Version)
scratch=$(mktemp -d)
tree=$scratch/tree
box=
fail() {
    echo "package_users: $*" >&2
    exit 1
}
trap 'machine_end; [ -z "$box" ] || kill -KILL "$box" 2>/dev/null; rm -rf "$scratch"' EXIT
machine_make "$base"
machine_copy "$base" "$tree"
cp "$package" "$tree/root/new.deb"
if [ -n "$old" ]; then
    cp "$old" "$tree/root/old.deb"
else
    dpkg-deb -R "$package" "$scratch/old"
    sed -i "s/^Version: .*/Version: 0.0.0/" "$scratch/old/DEBIAN/control"
    older_program "$scratch/old/usr/bin/jobd"
    dpkg-deb -b "$scratch/old" "$tree/root/old.deb" >/dev/null
fi
# With a word it writes who runs it; else it waits. It is linked to nothing, so it runs in any root.
cat >"$scratch/fake.c" <<'C'
static long call(long n, long a, long b, long c) {
    long r;
    __asm__ volatile("syscall" : "=a"(r) : "a"(n), "D"(a), "S"(b), "d"(c) : "rcx", "r11", "memory");
    return r;
}
__attribute__((force_align_arg_pointer)) void _start(void) {
    long *stack = (long *)__builtin_frame_address(0) + 1;
    if (stack[0] > 1 && call(102, 0, 0, 0) == 0) call(85, (long)"/root/was_run", 0600, 0);
    if (stack[0] > 1) call(60, 0, 0, 0);
    for (;;) call(34, 0, 0, 0);
}
C
cc -static -nostdlib -O1 -fno-stack-protector -o "$tree/usr/local/bin/fake" "$scratch/fake.c"
until_true() {
    for _ in $(seq 300); do
        if "$@" >/dev/null 2>&1; then return; fi
        sleep 0.1
    done
    fail "not within 30 s: $*"
}
as_user=(setpriv --reuid=www-data --regid=www-data --init-groups --)

# ---- an upgrade, under systemd

machine_boot "$tree"
package() {
    machine_in timeout 120 dpkg "$@" >"$scratch/log" 2>&1 || fail "dpkg $*: $? $(cat "$scratch/log")"
}
package -i /root/old.deb
mkdir "$tree/etc/jobd/www-data"
echo '{"Label": "user", "KeepAlive": true, "ProgramArguments": ["/bin/sleep", "1000"]}' >"$tree/etc/jobd/www-data/user.json"
machine_in systemctl enable -q --now jobd@www-data
main_of() {
    machine_in systemctl show -p MainPID --value "$1"
}
# The first is the fake, to see that it tells when it is run by root.
machine_in /usr/local/bin/fake --help
[ -e "$tree/root/was_run" ] || fail "the fake does not tell"
rm "$tree/root/was_run"
if machine_in "${as_user[@]}" unshare -Urm true; then
    machine_in "${as_user[@]}" unshare -Urm sh -c 'mount -t tmpfs tmpfs /mnt && cp /usr/local/bin/fake /mnt/jobd && mount --bind /mnt /usr/bin && exec /usr/bin/jobd' </dev/null >/dev/null 2>&1 &
else
    fail "users have no namespaces here"
fi
fakes() { machine_in pgrep -u www-data -f '^/usr/bin/jobd$'; }
until_true fakes
fake=$(fakes)
state=$tree/var/lib/jobd/www-data
real=$(cat "$state/mark")
for mark in "0123 $fake 1 x" "$(printf '0123 ../..\033[31m 1 x')" "$real"; do
    printf '%s\n' "$mark" >"$state/mark"
    begin=$(date +%s)
    package -i /root/new.deb
    [ ! -e "$tree/root/was_run" ] || fail "root ran the user's program by the mark $mark"
    [ $(($(date +%s) - begin)) -lt 60 ] || fail "the mark $mark held the upgrade"
    if grep -q "$(printf '\033')\[31m" "$scratch/log"; then fail "what the user wrote came to the terminal"; fi
    case $mark in "$real")
        if ! cmp -s <(dpkg-deb --fsys-tarfile "$tree/root/old.deb" | tar -xO ./usr/bin/jobd) <(dpkg-deb --fsys-tarfile "$package" | tar -xO ./usr/bin/jobd); then
            for unit in jobd jobd@www-data; do
                grep -q "^jobd: the launcher goes on as version .*; systemctl restart $unit ends its jobs and starts version $version$" "$scratch/log" ||
                    fail "the launcher of $unit is not told: $(cat "$scratch/log")"
            done
        fi
        ;;
    esac
    package -i /root/old.deb
    [ ! -e "$tree/root/was_run" ] || rm "$tree/root/was_run"
done
rm "$state/mark"
ln -s /proc/kmsg "$state/mark"
package -i /root/new.deb
rm "$state/mark"
mkfifo "$state/mark"
machine_in timeout 60 /var/lib/dpkg/info/jobd.postinst configure 0.0.0 >"$scratch/log" 2>&1 || fail "a mark that is a FIFO: $? $(cat "$scratch/log")"
rm "$state/mark"
echo "$real" >"$state/mark"
# A launcher that was started anew is told no more.
machine_in systemctl restart jobd jobd@www-data
machine_in timeout 60 /var/lib/dpkg/info/jobd.postinst configure 0.0.0 >"$scratch/log" 2>&1
if grep -q 'the launcher' "$scratch/log"; then fail "told, though it runs the installed program: $(cat "$scratch/log")"; fi
machine_in kill -KILL "$fake"
package -r jobd
if machine_in pgrep -x jobd; then fail "a removal left a launcher"; fi
package -i /root/new.deb
machine_end
echo "package_users: an upgrade under systemd: passed"

# ---- a removal, without systemd

(first_process "$tree" sh -c 'while :; do sleep 1; done') </dev/null >/dev/null 2>&1 &
box=$!
machine_first=$(machine_child "$box")
inside() {
    nsenter -t "$machine_first" -m -p -u -i -n -r -w env -i "${machine_words[@]}" "$@"
}
entered() { [ "$(stat -Lc %d:%i "/proc/$machine_first/root")" = "$(stat -c %d:%i "$tree")" ] && inside test -f /root/new.deb && inside mountpoint -q /run; }
until_true entered
inside sh -c 'mkdir -p -m 711 /run/jobd && install -d -o www-data -g www-data -m 700 /run/jobd/www-data && install -d -o games -g games -m 700 /run/jobd/games /run/mine &&
    install -d -o www-data -g www-data -m 700 /var/lib/jobd/www-data'
# Another launcher of root's, which the user's link leads to; one of another user, by jobd-run; a process with a folder that root's sv is led to.
inside sh -c 'mkdir -p -m 700 /run/other /run/other/spool; exec jobd serve --socket /run/other/jobd.sock --store /run/other/db --spool /run/other/spool' >/dev/null 2>&1 &
inside setpriv --reuid=games --regid=games --clear-groups -- env JOBD_JOBS=/run/mine JOBD_RUN=/run/jobd/games JOBD_STATE=/run/mine JOBD_PROGRAMS=/usr/bin /usr/libexec/jobd-run >/dev/null 2>&1 &
until_true inside jobctl --socket /run/other/jobd.sock list
until_true inside jobctl --socket /run/jobd/games/jobd.sock list
inside ln -s /run/other/jobd.sock /run/jobd/www-data/jobd.sock
echo "0 1" >"$state/mark"
removal() {
    local begin
    begin=$(date +%s)
    inside timeout 200 dpkg -r jobd >"$scratch/log" 2>&1 || fail "the removal: $? $(cat "$scratch/log")"
    took=$(($(date +%s) - begin))
    [ "$took" -lt 30 ] || fail "$1 held the removal for $took s: $(cat "$scratch/log")"
}
removal "a link to another launcher's socket, beside the mark 0 1"
kill -0 "$machine_first" || fail "the first process is gone"
inside pgrep -u root -x jobd >/dev/null || fail "the removal ended another launcher, by the user's link"
if inside pgrep -u games -x jobd; then fail "the removal left a user's launcher: $(cat "$scratch/log")"; fi
grep -q '^jobd: the launcher .* goes on, with no jobctl; its socket is /run/other/jobd.sock' "$scratch/log" || fail "not told: $(cat "$scratch/log")"
inside pkill -KILL -u root -x jobd
inside dpkg -i /root/new.deb >"$scratch/log" 2>&1 || fail "$(cat "$scratch/log")"
# A server that answers each line and ends for nobody.
cat >"$tree/root/answers.py" <<'PYTHON'
import os, socket, threading

path = "/run/jobd/www-data/jobd.sock"
server = socket.socket(socket.AF_UNIX)
if os.path.lexists(path):
    os.remove(path)
server.bind(path)
server.listen(64)


def answer(client):
    for _ in client.makefile("rb"):
        client.sendall(b'{"code":0,"text":"PID\\tStatus\\tLabel\\n\\u001b[31m"}\n')


while True:
    threading.Thread(target=answer, args=(server.accept()[0],), daemon=True).start()
PYTHON
chmod 755 "$tree/root"
inside "${as_user[@]}" python3 /root/answers.py &
until_true inside test -S /run/jobd/www-data/jobd.sock
for mark in 'x 1 0' 'x ../../run/jobd/www-data 0'; do
    echo "$mark" >"$state/mark"
    removal "a socket that answers, beside the mark $mark"
    if grep -q "$(printf '\033')" "$scratch/log"; then fail "what the user wrote came to the terminal"; fi
    inside dpkg -i /root/new.deb >"$scratch/log" 2>&1 || fail "$(cat "$scratch/log")"
done
rm "$state/mark"
mkfifo "$state/mark"
removal "a mark that is a FIFO"
inside dpkg -i /root/new.deb >"$scratch/log" 2>&1 || fail "$(cat "$scratch/log")"
rm "$state/mark"
ln -s /proc/kmsg "$state/mark"
removal "a mark that is a link to /proc/kmsg"
echo "package_users: a removal without systemd: passed"

# ---- a purge keeps what somebody wrote

inside dpkg -i /root/new.deb >"$scratch/log" 2>&1 || fail "$(cat "$scratch/log")"
echo '{"Label": "mine", "Program": "/bin/true"}' >"$tree/etc/jobd/mine.json"
: >"$tree/etc/jobd/.jobctl-reload"
inside dpkg -P jobd >"$scratch/log" 2>&1 || fail "$(cat "$scratch/log")"
[ -f "$tree/etc/jobd/mine.json" ] && [ -f "$tree/etc/jobd/www-data/user.json" ] || fail "a purge took a definition: $(cat "$scratch/log")"
[ ! -e "$tree/etc/jobd/.jobctl-reload" ] || fail "a purge left what jobctl-reload wrote"
grep -q '^jobd: these stay, since the package did not bring them: /etc/jobd/mine.json /etc/jobd/www-data/user.json ' "$scratch/log" || fail "not told: $(cat "$scratch/log")"
[ ! -e "$tree/var/lib/jobd" ] || fail "a purge left the state"
rm -r "$tree/etc/jobd"
echo "package_users: passed"
