#!/usr/bin/env bash
# Types the lines of docs/COOKBOOK.md beside a launcher in a scratch folder, and compares what comes with what the page shows. It is run by hand. The
# folder of the programs is the first word, or build.
set -euo pipefail

cd "$(dirname "$0")/.."
programs=$(realpath "${1:-build}")
for program in jobd jobctl jobscope; do
    [ -x "$programs/$program" ] || { echo "cookbook: no program at $programs/$program (make build)" >&2; exit 1; }
done
folder=$(mktemp -d)
end() {
    "$programs/jobctl" --socket "$folder/jobd.sock" shutdown > /dev/null 2>&1 || true
    wait
    rm -rf "$folder" /tmp/kivgrond-*.log /tmp/kivgrond-backup.tar
}
trap end EXIT
mkdir -m 700 "$folder/spool"
(cd "$folder" && JOBD_STATUS_FILE=$folder/status.jsonl exec "$programs/jobd" serve --socket jobd.sock --store overrides.db --spool spool --journal journal.jsonl > jobd.log 2>&1) &
for _ in $(seq 50); do [ -S "$folder/jobd.sock" ] && break; sleep 0.1; done
python3 - "$programs:$PWD/contrib" "$folder" <<'END'
import os, sys

sys.dont_write_bytecode = True
sys.path.insert(0, "tests")
from typed_page import type_page

count = type_page("docs/COOKBOOK.md", "typed", sys.argv[1], sys.argv[2], variables={"JOBD_SOCKET": f"{sys.argv[2]}/jobd.sock"})
if not count:
    sys.exit(1)
print(f"cookbook: {count} lines were typed, and what came is what the page shows")
END
