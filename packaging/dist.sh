#!/bin/sh
# Makes dist/kivgrond-VERSION-x86_64-linux.tar.gz of the program in build/ and the files beside it. VERSION is that of version.sh, which
# tells a build that is no release from one that is. Two runs over one tree give the same bytes: names are sorted, each file has the
# moment of the commit, and root owns it. Needs git, GNU tar and binutils.
set -eu

cd "${0%/*}/.."
version=$(packaging/version.sh)
name=kivgrond-$version-x86_64-linux
umask 022
LC_ALL=C
export LC_ALL

fail() {
    echo "dist: $*" >&2
    exit 1
}
[ -x build/jobd ] || fail "build/jobd is not there: make build first"
grep -aqF "Kivgrond $(cat VERSION)" build/jobd || fail "build/jobd is not of version $(cat VERSION)"
SOURCE_DATE_EPOCH=${SOURCE_DATE_EPOCH:-$(git log -1 --format=%ct)}

stage=dist/$name
rm -rf "$stage" "dist/$name.tar.gz"
mkdir -p "$stage/bin" "$stage/man" "$stage/contrib" "$stage/docs" "$stage/examples/jobs" "$stage/examples/night" "$stage/examples/alerts"
install -m 755 build/jobd "$stage/bin"
strip "$stage/bin/jobd"
if [ -x build/jobd-wake ]; then install -m 755 build/jobd-wake "$stage/bin"; fi
ln -s jobd "$stage/bin/jobctl"
ln -s jobd "$stage/bin/jobscope"
install -m 644 man/*.[158] "$stage/man"
cp -r completions "$stage"
install -m 644 contrib/jobd.service contrib/jobd@.service contrib/jobd-user.service contrib/jobd.logrotate contrib/Containerfile contrib/moving.py "$stage/contrib"
install -m 755 contrib/jobd-run contrib/jobd.openrc contrib/jobd.runit contrib/jobctl-reload contrib/jobd-group contrib/jobd-split-users contrib/from-systemd contrib/from-supervisor contrib/to-kubernetes \
    contrib/jobd-on-slurm contrib/jobd-metrics "$stage/contrib"
cp -r contrib/ansible "$stage/contrib"
for page in TUTORIAL COOKBOOK MOVING OPERATING DAMAGED-STORE WHY-NOT-RUNNING DIFFERENCES JSON BEYOND-ONE-MACHINE; do
    install -m 644 "docs/$page.md" "$stage/docs"
done
install -m 644 docs/night.svg "$stage/docs"
install -m 644 examples/jobs/*.json "$stage/examples/jobs"
install -m 644 examples/*.jsonl examples/*.out "$stage/examples"
install -m 644 examples/night/journal.jsonl "$stage/examples/night"
install -m 644 examples/alerts/*.yml "$stage/examples/alerts"
sed '/^<!-- in the repository -->$/,/^<!-- end -->$/d' README.md >"$stage/README.md"
chmod 644 "$stage/README.md"
install -m 644 SECURITY.md CHANGELOG.md LICENSE-MIT LICENSE-APACHE "$stage"
echo "$version" >"$stage/VERSION"
chmod 644 "$stage/VERSION"
install -m 755 packaging/install.sh "$stage"

# The newest version of the C library that the programs ask for.
libc=$(for program in "$stage"/bin/jobd "$stage"/bin/jobd-wake; do [ ! -x "$program" ] || objdump -T "$program"; done | grep -o 'GLIBC_[0-9.]*' | sort -V | tail -n 1)
[ -n "$libc" ] || fail "the program asks for no version of the C library"
packaging/proved.sh "$libc" "$stage/bin" >"$stage/PROVED.txt"

(cd "$stage" && find . -type f | sort | sed 's|^\./||' | xargs sha256sum) >"dist/SHA256SUMS"
mv dist/SHA256SUMS "$stage"
tar --sort=name --format=gnu --mtime="@$SOURCE_DATE_EPOCH" --owner=root:0 --group=root:0 --mode='u=rwX,go=rX' -C dist -cf - "$name" |
    gzip -n -9 >"dist/$name.tar.gz"
echo "dist/$name.tar.gz: it needs glibc ${libc#GLIBC_} or newer; $(sed -n 's/^Standing: //p' "$stage/PROVED.txt")"
# The gate of kit 13b stops at a symbolic link in any folder here.
rm -rf "$stage"
