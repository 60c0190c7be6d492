#!/usr/bin/env bash
# Types the first block of README.md in an empty folder, line by line, and compares what comes with what the page shows. Process ids, dates, times and
# spans may differ. It is run by hand, after `make build`. The folder of the programs is the first word, or build. With the kit on the PATH and
# the second word `make`, what `make run` prints is compared with CONTRIBUTING.md.
set -euo pipefail

cd "$(dirname "$0")/.."
programs=$(realpath "${1:-build}")
for program in jobd jobctl jobscope; do
    [ -x "$programs/$program" ] || { echo "readme_job: no program at $programs/$program (make build)" >&2; exit 1; }
done
folder=$(mktemp -d)
end() {
    "$programs/jobctl" --socket "$folder/job/jobd.sock" shutdown > /dev/null 2>&1 || true
    wait
    rm -rf "$folder"
}
trap end EXIT
mkdir "$folder/job"
python3 - "$programs" "$folder" <<'END'
import os, sys

sys.dont_write_bytecode = True
sys.path.insert(0, "tests")
from typed_page import type_page

programs, folder = sys.argv[1:]
count = type_page("README.md", "first", programs, f"{folder}/job")
if not count:
    sys.exit(1)
left = sorted(os.listdir(f"{folder}/job"))
if "jobd.sock" in left or os.listdir(f"{folder}/job/spool"):
    print(f"readme_job: left over: {left}", file=sys.stderr)
    sys.exit(1)
print(f"readme_job: {count} lines were typed, and what came is what the page shows")
END
if [ "${2:-}" = make ]; then
    sed -n '/^`make run` prints$/,/^Job /p' CONTRIBUTING.md | sed -n 's/^    //p' > "$folder/wanted"
    make -s run 2> "$folder/log" > "$folder/came" || { cat "$folder/log" >&2; exit 1; }
    diff "$folder/wanted" "$folder/came" >&2
    echo "readme_job: make run prints what the page shows"
fi
