#!/usr/bin/env bash
# The examples: each journal examples/NAME.jsonl loads the definition examples/jobs/NAME.json, byte for byte, and
# `jobd replay` answers it as examples/NAME.out says. The gate runs the same journals as inputs of crates/try_replay; this
# script also looks that its copies are the same. It is run by hand. The program is the first word, or build/jobd.
set -euo pipefail

cd "$(dirname "$0")/.."
program=$(realpath "${1:-build/jobd}")
if [ ! -x "$program" ]; then
    echo "examples: no program at $program (make build)" >&2
    exit 1
fi
folder=$(mktemp -d)
trap 'rm -rf "$folder"' EXIT
fail() {
    echo "examples: $*" >&2
    exit 1
}

# loads NAME: the definition stands in its journal as it stands in its file.
loads() {
    python3 - "examples/jobs/$1.json" "examples/$1.jsonl" <<'END' || fail "$1: the journal loads another definition"
import json, sys
text = open(sys.argv[1]).read()
loads = [json.loads(line) for line in open(sys.argv[2]) if '"ev":"load"' in line]
sys.exit(0 if loads and all(load["def"] == text for load in loads) else 1)
END
}

runs=0
for definition in examples/jobs/*.json; do
    name=$(basename "$definition" .json)
    [ -f "examples/$name.jsonl" ] && [ -f "examples/$name.out" ] || fail "$name: no journal, or no outcomes"
    if command -v python3 >/dev/null; then loads "$name"; fi
    "$program" replay <"examples/$name.jsonl" >"$folder/out" || fail "$name: status $?"
    diff "examples/$name.out" "$folder/out" >&2 || fail "$name: other outcomes than wanted"
    cmp "examples/$name.jsonl" "crates/try_replay/data/example_$name.in" >&2 || fail "$name: the gate runs another journal"
    cmp "examples/$name.out" "crates/try_replay/data/example_$name.out" >&2 || fail "$name: the gate wants other outcomes"
    grep -qx "0 example_$name" crates/try_replay/data/rows.txt || fail "$name: not in the gate's list"
    runs=$((runs + 1))
done
echo "examples: $runs examples passed"
