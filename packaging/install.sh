#!/bin/sh
# Puts the program, manual pages, completions and documents below PREFIX (/usr/local), each path behind DESTDIR; with the word
# `uninstall` removes them. The program is one file, jobd; jobctl and jobscope are links to it in the same folder. jobd-wake goes to libexec, if it was made. `make install` runs this
# in the repository, where it is in build/; in an unpacked archive it is in bin/. Nothing is compiled or fetched.
set -eu

case $0 in
packaging/install.sh | */packaging/install.sh) cd "${0%/*}/.." ;;
*/*) cd "${0%/*}" ;;
esac
prefix=${PREFIX:-/usr/local}
root=${DESTDIR:-}$prefix
doc=$root/share/doc/jobd
programs=bin
[ -d bin ] || programs=build
umask 022

fail() {
    echo "install: $*" >&2
    exit 1
}

# The file with the prefix in the place of @PREFIX@, as this mode.
filled() {
    sed "s|@PREFIX@|$prefix|g" "$1" >"$2"
    chmod "$3" "$2"
}

# A page as it reads here: without the parts of README that speak of the repository alone, and with the pages beside one another.
page() {
    sed -e '/^<!-- in the repository -->$/,/^<!-- end -->$/d' -e '/repository/!s|docs/\([A-Z][A-Z-]*\.md\)|\1|g' "$1" >"$doc/${1##*/}"
    chmod 644 "$doc/${1##*/}"
}

put() {
    [ -x "$programs/jobd" ] || fail "$programs/jobd is not there: make build first"
    install -d "$root/bin" "$root/libexec" "$root/share/man/man1" "$root/share/man/man5" "$root/share/man/man8" \
        "$doc/contrib" "$doc/examples" "$root/share/bash-completion/completions" "$root/share/fish/vendor_completions.d" \
        "$root/share/zsh/site-functions"
    install -m 755 "$programs/jobd" contrib/jobctl-reload contrib/jobd-group contrib/jobd-split-users "$root/bin"
    for name in jobctl jobscope; do
        ln -sfn jobd "$root/bin/$name"
    done
    install -m 644 man/jobctl.1 man/jobd-group.1 man/jobscope.1 "$root/share/man/man1"
    # The page of a version before.
    rm -f "$root/share/man/man1/jobctl-reload.1"
    install -m 644 man/jobd.json.5 man/jobd.journal.5 "$root/share/man/man5"
    install -m 644 man/jobd.8 man/jobd-run.8 man/jobd-split-users.8 "$root/share/man/man8"
    install -m 644 completions/bash/jobctl completions/bash/jobd completions/bash/jobscope "$root/share/bash-completion/completions"
    install -m 644 completions/fish/jobctl.fish completions/fish/jobd.fish completions/fish/jobscope.fish "$root/share/fish/vendor_completions.d"
    install -m 644 completions/zsh/_jobctl completions/zsh/_jobd completions/zsh/_jobscope "$root/share/zsh/site-functions"
    install -m 644 LICENSE-MIT LICENSE-APACHE "$doc"
    for name in README SECURITY CHANGELOG docs/TUTORIAL docs/COOKBOOK docs/MOVING docs/OPERATING docs/DAMAGED-STORE docs/WHY-NOT-RUNNING docs/DIFFERENCES docs/JSON docs/BEYOND-ONE-MACHINE; do
        page "$name.md"
    done
    install -d "$doc/docs"
    install -m 644 docs/night.svg "$doc/docs"
    if [ -f PROVED.txt ]; then install -m 644 PROVED.txt "$doc"; fi
    install -d "$doc/examples/night"
    install -m 644 examples/jobs/*.json examples/*.jsonl examples/*.out "$doc/examples"
    install -m 644 examples/night/journal.jsonl "$doc/examples/night"
    install -d "$doc/examples/alerts" "$doc/contrib/ansible/jobd/tasks"
    install -m 644 examples/alerts/*.yml "$doc/examples/alerts"
    install -m 644 contrib/ansible/jobd/tasks/main.yml "$doc/contrib/ansible/jobd/tasks"
    filled contrib/jobd-run "$root/libexec/jobd-run" 755
    # Where it was not made, one of a version before would be started.
    rm -f "$root/libexec/jobd-wake"
    if [ -x "$programs/jobd-wake" ]; then install -m 755 "$programs/jobd-wake" "$root/libexec"; fi
    for file in jobd.service jobd@.service jobd-user.service jobd.logrotate Containerfile moving.py; do
        filled "contrib/$file" "$doc/contrib/$file" 644
    done
    for file in jobd.openrc jobd.runit from-systemd from-supervisor to-kubernetes jobd-on-slurm jobd-metrics; do
        filled "contrib/$file" "$doc/contrib/$file" 755
    done
}

# The folder of documents is this project's own; of the others only those that it left empty go.
remove() {
    rm -f "$root/bin/jobd" "$root/bin/jobctl" "$root/bin/jobscope" "$root/bin/jobctl-reload" "$root/bin/jobd-group" "$root/bin/jobd-split-users" "$root/libexec/jobd-run" \
        "$root/libexec/jobd-wake" \
        "$root/share/man/man1/jobctl.1" "$root/share/man/man1/jobd-group.1" "$root/share/man/man1/jobctl-reload.1" "$root/share/man/man1/jobscope.1" \
        "$root/share/man/man5/jobd.json.5" "$root/share/man/man5/jobd.journal.5" "$root/share/bash-completion/completions/jobscope" \
        "$root/share/fish/vendor_completions.d/jobscope.fish" "$root/share/zsh/site-functions/_jobscope" \
        "$root/share/man/man8/jobd.8" "$root/share/man/man8/jobd-run.8" "$root/share/man/man8/jobd-split-users.8" "$root/share/bash-completion/completions/jobctl" \
        "$root/share/bash-completion/completions/jobd" "$root/share/fish/vendor_completions.d/jobctl.fish" \
        "$root/share/fish/vendor_completions.d/jobd.fish" "$root/share/zsh/site-functions/_jobctl" \
        "$root/share/zsh/site-functions/_jobd"
    rm -rf "$doc"
    cd "$root" 2>/dev/null || return 0
    rmdir -p bin libexec share/man/man1 share/man/man5 share/man/man8 share/doc share/bash-completion/completions \
        share/fish/vendor_completions.d share/zsh/site-functions 2>/dev/null || true
}

case ${1:-install} in
install) put ;;
uninstall) remove ;;
*) fail "usage: install.sh [install | uninstall], with PREFIX and DESTDIR in the environment" ;;
esac
