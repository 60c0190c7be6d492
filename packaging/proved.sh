#!/bin/sh
# Prints what stands behind the program in build/: the commit, the kit's line, what the gate said last, and the theorems of docs/PROVED.md. The first
# word is the version of the C library that it asks for, the second the folder that has it without its symbols. `make build` and
# `make test` leave what they proved in build/proved.txt, `make test` also what it passed in build/gate.txt. If these speak of another
# program or of another commit, that is said.
set -eu

commit=$(git rev-parse HEAD)
changed=$(git status --porcelain --untracked-files=no)
line() {
    sed -n "s/^$1: //p" "build/$2" 2>/dev/null || true
}
sum=$(cd build && sha256sum jobd)

echo "Kivgrond $(packaging/version.sh)"
echo
echo "Commit: $commit${changed:+, with changes that are not committed}"
if [ -z "$changed" ] && [ "$(line Commit proved.txt)" = "$commit" ] && [ "$(line Program proved.txt)" = "$sum" ]; then
    echo "Standing: proved at this commit"
    echo "Kit: $(line Kit proved.txt)"
else
    echo "Standing: NOT PROVED; this program was not built by make build or make test at this commit, so nothing below is said of it"
    echo "Kit: none"
fi
if [ -z "$changed" ] && [ "$(line Commit gate.txt)" = "$commit" ]; then
    echo "Gate: $(line Gate gate.txt)"
else
    echo "Gate: not run at this commit on this machine"
fi
echo "C library: ${1#GLIBC_} of glibc, or newer"
echo "The program as built, which is jobctl and jobscope too, by links to it:"
echo "    $sum"
echo "The same without its symbols, as shipped:"
(cd "$2" && sha256sum jobd) | sed 's/^/    /'
if [ -x "$2/jobd-wake" ]; then
    echo "Beside it, in C and not proved, made by the C compiler of the system:"
    (cd "$2" && sha256sum jobd-wake) | sed 's/^/    /'
fi
echo
sed -n '/^## The theorems$/,/^## What has to be believed$/p' docs/PROVED.md | sed -e '/^## /d' -e '1{/^$/d}' -e 's/\*\*//g'
