#!/usr/bin/env bash
# Installs into a scratch DESTDIR and removes again, by `make install` in the tree and by install.sh of the archive: every file that
# has to be there is, with its mode; no place of it still says @PREFIX@; what another package put there stays; and nothing else is
# left. The archive is made twice with the same bytes, and its sums agree. Without a built program, a stand-in is installed from
# a copy of the tree. It is run by hand; of the archive, the part that measures the C library needs a real program.
set -euo pipefail

cd "$(dirname "$0")/.."
scratch=$(mktemp -d)
trap 'rm -rf "$scratch"' EXIT
fail() {
    echo "install: $*" >&2
    exit 1
}

# A copy of what an install reads, so that a stand-in touches no build.
mkdir -p "$scratch/tree/build"
cp -r .gitignore Makefile crates.txt VERSION man completions contrib docs examples packaging README.md SECURITY.md CHANGELOG.md LICENSE-MIT LICENSE-APACHE \
    "$scratch/tree"
stand_ins=0
if [ -x build/jobd ]; then
    cp build/jobd "$scratch/tree/build"
else
    printf '#!/bin/sh\n' >"$scratch/tree/build/jobd"
    chmod +x "$scratch/tree/build/jobd"
    stand_ins=1
fi
# jobd-wake is there or not, as packaging/wake.sh made it; it gives the same bytes twice.
sh packaging/wake.sh "$scratch/tree/build"
mkdir "$scratch/wake"
cp packaging/wake.sh packaging/jobd-wake.c "$scratch/wake"
sh "$scratch/wake/wake.sh" "$scratch/wake"
has_wake=0
if [ -x "$scratch/tree/build/jobd-wake" ]; then
    has_wake=1
    cmp "$scratch/tree/build/jobd-wake" "$scratch/wake/jobd-wake" || fail "jobd-wake is another one each time"
fi
CC=/no/compiler sh "$scratch/wake/wake.sh" "$scratch/wake" | grep -q 'jobd-wake is not made' || fail "that there is no compiler is not said"
[ ! -e "$scratch/wake/jobd-wake" ] || fail "without a compiler an old jobd-wake is left"

# by_make and by_archive WORD PREFIX: install or uninstall.
by_make() {
    make -s -C "$scratch/tree" "$1" "PREFIX=$2" "DESTDIR=$scratch/root"
}
by_archive() {
    (cd / && PREFIX=$2 DESTDIR=$scratch/root "$unpacked/install.sh" "$1")
}

# names_what_is_there ROOT: each page and manual page that is installed names only files that are, but where it says that they are the
# repository's. In the pages that a script types, only pages are looked for: the other names are those of jobs there.
names_what_is_there() {
    python3 - "$1" <<'END'
import glob, os, re, sys

root = sys.argv[1]
doc = f"{root}/share/doc/jobd"
there = {os.path.relpath(f"{at}/{name}", doc) for at, _, names in os.walk(doc) for name in names}
names = {os.path.basename(it) for it in there} | {os.path.basename(it) for it in glob.glob(f"{root}/bin/*") + glob.glob(f"{root}/libexec/*")}
# Files of the machine and of the archive, which has its own installer.
others = {"install.sh"}
faults = []
for path in sorted(glob.glob(f"{doc}/*.md")):
    page = os.path.basename(path)
    with open(path, encoding="utf-8") as it:
        text = it.read()
    for target in re.findall(r"\]\(([^)\s#]+)[^)]*\)", text):
        if os.path.normpath(target) not in there:
            faults.append(f"{page}: the link {target}")
    if page == "CHANGELOG.md":
        continue

    for part in re.split(r"\n\n|\n(?=[-|*])", "\n".join("" if row.startswith("    ") else row for row in text.split("\n"))):
        if "repository" in part:
            continue
        for span in re.findall(r"`([^`\n]+)`", part):
            for name in re.findall(r"(?<![\w/.$*-])((?:docs|tests|bench|crates|tools|packaging|contrib|examples)/[\w./-]*|[A-Z][A-Z-]+\.md|[\w./-]+\.(?:py|sh|rt))(?![\w-])", span):
                bare = name.rstrip("/")
                if bare not in there and os.path.basename(bare) not in names | others and not os.path.isdir(f"{doc}/{bare}"):
                    faults.append(f"{page}: {name}")
for path in sorted(glob.glob(f"{root}/share/man/man?/*")):
    with open(path, encoding="utf-8") as it:
        for name in re.findall(r"^\.Pa ([A-Z-]+\.md|examples\S*)", it.read(), re.M):
            if name not in there and not os.path.isdir(f"{doc}/{name}"):
                faults.append(f"{os.path.basename(path)}: {name}")
print("\n".join(faults), file=sys.stderr, end="\n" if faults else "")
sys.exit(1 if faults else 0)
END
}

# tries WAY PREFIX: one round.
tries() {
    local way=$1
    shift
    local root="$scratch/root$1" path
    mkdir -p "$root/bin" "$root/share/man/man1"
    touch "$root/bin/other" "$root/share/man/man1/other.1"
    find "$scratch/root" | sort >"$scratch/before"
    "$way" install "$1" >"$scratch/log" 2>&1 || fail "$(cat "$scratch/log")"
    for path in bin/jobd bin/jobctl bin/jobscope bin/jobctl-reload bin/jobd-group bin/jobd-split-users libexec/jobd-run share/doc/jobd/contrib/jobd.openrc share/doc/jobd/contrib/jobd.runit; do
        [ -x "$root/$path" ] || fail "$1: no program $path"
    done
    if [ "$has_wake" = 1 ]; then [ -x "$root/libexec/jobd-wake" ] || fail "$1: no program libexec/jobd-wake"; else [ ! -e "$root/libexec/jobd-wake" ] || fail "$1: a jobd-wake that was not made"; fi
    if "$root/bin/jobctl-reload" --all /etc/jobd 2>"$scratch/told"; then fail "$1: jobctl-reload does something"; else [ $? = 64 ] || fail "$1: the status of jobctl-reload"; fi
    grep -q 'jobctl apply' "$scratch/told" || fail "$1: jobctl-reload does not say what took its place: $(cat "$scratch/told")"
    for path in bin/jobctl bin/jobscope; do
        [ "$(readlink "$root/$path")" = jobd ] || fail "$1: $path is no link to jobd"
        [ "$stand_ins" -gt 0 ] || "$root/$path" --help | grep "^Usage: ${path#bin/} " >/dev/null || fail "$1: $path does not act by its name"
    done
    for path in share/man/man1/jobctl.1 share/man/man1/jobd-group.1 share/man/man1/jobscope.1 share/man/man5/jobd.json.5 share/man/man5/jobd.journal.5 share/man/man8/jobd.8 share/man/man8/jobd-run.8 share/man/man8/jobd-split-users.8 \
        share/bash-completion/completions/{jobctl,jobd,jobscope} share/fish/vendor_completions.d/{jobctl,jobd,jobscope}.fish \
        share/zsh/site-functions/{_jobctl,_jobd,_jobscope} share/doc/jobd/contrib/{jobd.service,jobd@.service,jobd-user.service,jobd.logrotate,Containerfile} \
        share/doc/jobd/{README.md,SECURITY.md,CHANGELOG.md,LICENSE-MIT,LICENSE-APACHE,OPERATING.md,WHY-NOT-RUNNING.md,DIFFERENCES.md} \
        share/doc/jobd/{TUTORIAL.md,COOKBOOK.md,DAMAGED-STORE.md,MOVING.md,JSON.md,docs/night.svg} \
        share/doc/jobd/examples/{kept_alive.json,kept_alive.jsonl,kept_alive.out,night/journal.jsonl}; do
        [ -f "$root/$path" ] || fail "$1: no file $path"
        [ "$(stat -c %a "$root/$path")" = 644 ] || fail "$1: $path has mode $(stat -c %a "$root/$path")"
    done
    names_what_is_there "$root" || fail "$1: a page names what is not installed"
    if grep -r '@PREFIX@' "$scratch/root" >&2; then fail "$1: a place is not filled in"; fi
    for path in jobd.service jobd@.service; do
        grep -qx "ExecStart=$1/libexec/jobd-run" "$root/share/doc/jobd/contrib/$path" || fail "$1: $path starts another program"
        grep -qx "ExecReload=$1/libexec/jobd-run reload" "$root/share/doc/jobd/contrib/$path" || fail "$1: $path has no reload"
    done
    "$way" install "$1" >"$scratch/log" 2>&1 || fail "again: $(cat "$scratch/log")"
    "$way" uninstall "$1" >"$scratch/log" 2>&1 || fail "$(cat "$scratch/log")"
    find "$scratch/root" | sort >"$scratch/after"
    diff "$scratch/before" "$scratch/after" >&2 || fail "$1: the folder is not as it was before"
    "$way" uninstall "$1" >"$scratch/log" 2>&1 || fail "removed twice: $(cat "$scratch/log")"
    rm -rf "$scratch/root"
}

tries by_make /usr/local
tries by_make /opt/jobd
mkdir "$scratch/root"
make -s -C "$scratch/tree" install "DESTDIR=$scratch/root" >"$scratch/log" 2>&1 || fail "$(cat "$scratch/log")"
make -s -C "$scratch/tree" uninstall "DESTDIR=$scratch/root" >"$scratch/log" 2>&1 || fail "$(cat "$scratch/log")"
left=$(find "$scratch/root" -mindepth 1 | grep -vx "$scratch/root/usr\|$scratch/root/usr/local" || true)
[ -z "$left" ] || fail "an empty DESTDIR is not empty again: $left"
rm "$scratch/tree/build/jobd"
if make -s -C "$scratch/tree" install "DESTDIR=$scratch/root" >"$scratch/log" 2>&1; then fail "the program was not there, and the install went on"; fi
for script in contrib/jobd-run contrib/jobctl-reload contrib/jobd.runit contrib/jobd.openrc packaging/*.sh packaging/debian/p*; do
    sh -n "$script"
done

# The archive, made twice at different times under another mask.
if [ "$stand_ins" -gt 0 ]; then
    echo "install: passed, with a stand-in for the program; the archive was not tried"
    exit
fi
cp build/jobd "$scratch/tree/build"
git -C "$scratch/tree" init -q
git -C "$scratch/tree" add -A
git -C "$scratch/tree" -c user.name=tests -c user.email=tests@localhost commit -qm "The tree of a test"
make -s -C "$scratch/tree" dist >"$scratch/log" 2>&1 || fail "$(cat "$scratch/log")"
cat "$scratch/log"
mkdir "$scratch/unpacked"
mv "$scratch"/tree/dist/*.tar.gz "$scratch/first.tar.gz"
find "$scratch/tree" -type f ! -path '*/build/*' -exec touch {} +
sleep 1
(umask 077 && make -s -C "$scratch/tree" dist >"$scratch/log" 2>&1) || fail "$(cat "$scratch/log")"
cmp "$scratch/first.tar.gz" "$scratch"/tree/dist/*.tar.gz || fail "two archives of one tree differ"
tar -C "$scratch/unpacked" -xzf "$scratch/first.tar.gz"
unpacked=$(echo "$scratch"/unpacked/kivgrond-*)
(cd "$unpacked" && sha256sum --quiet -c SHA256SUMS) || fail "a sum differs"
[ "$(find "$unpacked" -type f ! -name SHA256SUMS | wc -l)" = "$(wc -l <"$unpacked/SHA256SUMS")" ] ||
    fail "a file has no sum"
grep -q '^Standing: ' "$unpacked/PROVED.txt" || fail "PROVED.txt does not say how the programs stand"
theorems=$(sed -n '/^## The theorems$/,/^## /p' docs/PROVED.md | grep -c '^[0-9]\. ')
[ "$theorems" -gt 4 ] && [ "$(grep -c '^[0-9]\. ' "$unpacked/PROVED.txt")" = "$theorems" ] || fail "PROVED.txt does not have the $theorems theorems of docs/PROVED.md"
tries by_archive /usr/local
tries by_archive /opt/jobd
echo "install: passed, also from the archive"
