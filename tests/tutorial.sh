#!/usr/bin/env bash
# Types the lines of docs/TUTORIAL.md into a shell in an empty folder, and compares what comes with what the page shows. It is run by hand. The folder
# of the programs is the first word, or build.
set -euo pipefail

cd "$(dirname "$0")/.."
programs=$(realpath "${1:-build}")
for program in jobd jobctl jobscope; do
    [ -x "$programs/$program" ] || { echo "tutorial: no program at $programs/$program (make build)" >&2; exit 1; }
done
folder=$(mktemp -d)
trap '"$programs/jobctl" --socket "$folder/jobd.sock" shutdown > /dev/null 2>&1 || true; wait; rm -rf "$folder"' EXIT
python3 tests/typed_page.py docs/TUTORIAL.md typed "$programs:$PWD/contrib" "$folder"
