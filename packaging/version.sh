#!/bin/sh
# Prints the version of what is built here, for the names of the archive and the package. A release is the one commit that writes its
# heading `## VERSION, DATE` into CHANGELOG.md. Any other build bears the date and the number of its commit too, so that no two programs
# have one name: before the release 0.4.0~git20261201.74a18ee1, which every package tool takes for older than 0.4.0; after it
# 0.4.0+git20261201.74a18ee1, which is newer. With changes that are not committed, `.changed` stands behind it.
set -eu

cd "${0%/*}/.."
version=$(cat VERSION)
# Does the CHANGELOG of this commit have the version's heading?
has_heading() {
    git show "$1:CHANGELOG.md" 2>/dev/null | grep -q "^## $version, "
}
mark='~'
released=
if has_heading HEAD; then
    mark=+
    released=1
    for parent in $(git rev-parse HEAD^@); do
        ! has_heading "$parent" || released=
    done
fi
changed=
[ -z "$(git status --porcelain --untracked-files=no)" ] || changed=.changed
if [ "$released$changed" = 1 ]; then
    echo "$version"
else
    echo "$version$mark""git$(TZ=UTC git log -1 --format=%cd --date=format-local:%Y%m%d).$(git rev-parse --short=8 HEAD)$changed"
fi
