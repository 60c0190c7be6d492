# shellcheck shell=bash
# A machine of its own, for scripts that try packages and units: a Debian below a folder, in namespaces. It is read by other scripts
# (deb.sh, units.sh, container.sh), as root. A real systemd needs cgroup2 at /sys/fs/cgroup or /sys/fs/cgroup/unified.

machine_words=(PATH=/usr/sbin:/usr/bin:/sbin:/bin HOME=/root LC_ALL=C DEBIAN_FRONTEND=noninteractive)

# newest_package: the package in dist/ that was made last.
newest_package() {
    local package
    package=$(find "$PWD/dist" -maxdepth 1 -name 'jobd_*_amd64.deb' -printf '%T@ %p\n' 2>/dev/null | sort -n | tail -n 1)
    [ -n "$package" ] || { echo "dist/ has no package: make deb first" >&2; return 1; }
    echo "${package#* }"
}

# older_program FILE: makes the program tell 0.0.0, or the like, as its version. The compiler has the text in pieces of eight bytes too.
older_program() {
    local text
    text="Kivgrond $(cat VERSION)"
    text=${text: -8}
    LC_ALL=C sed -i "s/$text/$(tr 1-9 0 <<<"$text")/g" "$1"
}

# machine_make FOLDER: a Debian in this folder, unless one is there. MIRROR names the mirror.
machine_make() {
    [ -d "$1/etc/apt" ] ||
        debootstrap --variant=minbase --include=systemd,systemd-sysv,dbus,procps,python3-minimal,libpython3-stdlib,libgcc-s1,logrotate,bsdutils,runit,needrestart,libmodule-find-perl \
            bookworm "$1" "${MIRROR:-http://deb.debian.org/debian}" >"$1.log" 2>&1
}

# machine_copy FOLDER COPY
machine_copy() {
    rm -rf "$2"
    cp -a --reflink=auto "$1" "$2"
}

# What both kinds of first processes need is mounted, and the folder $tree is the root. /proc/sys is read-only: systemd-sysctl would set the host's own kernel.
machine_enter='
set -e
mount --make-rprivate /; mount --bind "$tree" "$tree"
mount -t proc proc "$tree/proc"; mount --bind "$tree/proc/sys" "$tree/proc/sys"; mount -o remount,bind,ro "$tree/proc/sys"
mount -t tmpfs tmpfs "$tree/run"; mount -t tmpfs tmpfs "$tree/tmp"; mount -t tmpfs -o mode=755 tmpfs "$tree/dev"
mount -t sysfs -o ro sysfs "$tree/sys"
if [ -n "$group" ]; then mount -t cgroup2 cgroup2 "$tree/sys/fs/cgroup"; fi
cd "$tree/dev"
for node in "null 1 3" "zero 1 5" "full 1 7" "random 1 8" "urandom 1 9" "tty 5 0"; do set -- $node; mknod -m 666 $1 c $2 $3; done
mkdir pts shm; mount -t devpts -o newinstance,ptmxmode=0666 devpts pts; ln -s pts/ptmx ptmx; ln -s /proc/self/fd fd
ln -s /proc/self/fd/0 stdin; ln -s /proc/self/fd/1 stdout; ln -s /proc/self/fd/2 stderr
mount -t tmpfs tmpfs shm; : > console
cd "$tree"; mkdir -p mnt/old; pivot_root . mnt/old; umount -l /mnt/old
'

# machine_child PROCESS: its child, once it has one.
machine_child() {
    local child
    for _ in $(seq 200); do
        child=$(pgrep -P "$1" || true)
        [ -z "$child" ] || { echo "$child"; return; }
        kill -0 "$1" 2>/dev/null || return 1
        sleep 0.05
    done
    return 1
}

# machine_boot FOLDER: a real systemd there, of niceness 0 whatever the caller has. Sets machine_keeper, a process that ends all of it, and machine_first, systemd's process id here.
machine_boot() {
    local top=/sys/fs/cgroup
    [ -e $top/cgroup.procs ] || top=$top/unified
    machine_group=$top/jobd-machine-$$
    mkdir -p "$machine_group"
    tree=$1 group=$machine_group setsid bash -c '
        renice -n 0 -p $BASHPID >/dev/null  # Units add to the niceness of systemd.
        echo $BASHPID >"$group/cgroup.procs"
        exec unshare --pid --fork --kill-child --mount --uts --ipc --cgroup --net sh -c "$0
            exec /usr/bin/env -i container=lxc PATH=/usr/sbin:/usr/bin:/sbin:/bin /lib/systemd/systemd --log-target=journal --show-status=0"
    ' "$machine_enter" </dev/null >/dev/null 2>&1 &
    machine_keeper=$!
    machine_first=$(machine_child "$machine_keeper")
    for _ in $(seq 600); do
        case $(machine_in systemctl is-system-running 2>/dev/null) in running | degraded) return ;; esac
        sleep 0.2
    done
    echo "machine: systemd is not up" >&2
    return 1
}

# machine_in CMD..: in the machine.
machine_in() {
    nsenter -t "$machine_first" -m -p -u -i -n -C -r -w env -i "${machine_words[@]}" "$@"
}

# machine_end: ends it, whatever runs in it.
machine_end() {
    [ -z "${machine_keeper:-}" ] || kill -KILL "$machine_keeper" 2>/dev/null || true
    [ -z "${machine_keeper:-}" ] || wait "$machine_keeper" 2>/dev/null || true
    machine_keeper=
    if [ -d "${machine_group:-/nowhere}" ]; then
        for _ in $(seq 50); do
            find "$machine_group" -depth -type d -exec rmdir {} + 2>/dev/null || true
            [ -d "$machine_group" ] || break
            sleep 0.1
        done
    fi
}

# first_process FOLDER CMD..: the command as the first process of a container there, with this standard output. The environment is
# machine_words alone. It stays in the foreground and ends with the command, with its status.
first_process() {
    tree=$1 group='' exec unshare --pid --fork --kill-child --mount --uts --ipc --net sh -c "
        enter() { $machine_enter
        }
        enter
        exec /usr/bin/env -i \"\$@\"" sh "${machine_words[@]}" "${@:2}"
}

# readable_by IN.. -- FOLDER..: which of the files below these folders can be read, sorted, and which can be written, with `write` before it. IN.. is a command that
# runs another one as a user in a machine; root lists the files there by the function machine_list.
readable_by() {
    local command=() path
    while [ "$1" != -- ]; do
        command+=("$1")
        shift
    done
    shift
    for path in $(machine_list "$@" -mindepth 1 ! -name '*.new' | sort); do
        if "${command[@]}" test -r "$path"; then echo "$path"; fi
        if "${command[@]}" test -w "$path"; then echo "write $path"; fi
    done
}

# page_definition LABEL: the definition of this label as docs/OPERATING.md has it.
page_definition() {
    sed -n "s/^    \({\"Label\": \"$1\",.*}\)\$/\1/p" docs/OPERATING.md | grep .
}

# machine_webd FOLDER: the program of the page's definitions: it says its process id, goes on saying something, and says it if TERM comes.
machine_webd() {
    cat >"$1/usr/local/bin/webd" <<'WEBD'
#!/bin/sh
trap 'echo "webd $$ got TERM"; exit' TERM
echo "webd $$ begins"
echo "webd $$ complains" >&2
while :; do
    echo "webd $$ works"
    sleep 0.2
done
WEBD
    chmod 755 "$1/usr/local/bin/webd"
}
