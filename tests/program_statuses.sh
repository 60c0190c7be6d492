#!/usr/bin/env bash
# Runs of the program jobd: what it writes, what it says on standard error, and its exit status. It is run by hand, after
# `make build`; the gate runs the program once, by the files beside its crate. The program is the first word, or build/jobd.
set -euo pipefail

program=$(realpath "${1:-build/jobd}")
if [ ! -x "$program" ]; then
    echo "program_statuses: no program at $program" >&2
    exit 1
fi
folder=$(mktemp -d)
trap 'rm -rf "$folder"' EXIT
cd "$folder"

header='{"up":0,"wall":1700000000,"zone":"UTC0"}'
list='{"ev":"list"}'
listed='{"code":0,"orders":[],"text":"PID\tStatus\tLabel\n"}'
runs=0

# wants NAME STATUS OUT ERR: what the run before left in the files status, out and err.
wants() {
    runs=$((runs + 1))
    if [ "$(cat status)" != "$2" ] || [ "$(cat out)" != "$3" ] || [ "$(cat err)" != "$4" ]; then
        printf 'program_statuses: %s: status %s, wanted %s\nwritten:\n%s\nsaid:\n%s\n' \
            "$1" "$(cat status)" "$2" "$(head -c 2000 out)" "$(head -c 2000 err)" >&2
        exit 1
    fi
}

# run WORD..: the program with these words, on the file in. Its output goes to the file out.
run() {
    local status=0
    "$program" "$@" <in >out 2>err || status=$?
    echo $status >status
}

# run_full WORD..: the same, where the output can't be written.
run_full() {
    local status=0
    : >out
    "$program" "$@" <in >/dev/full 2>err || status=$?
    echo $status >status
}

# with_line PATTERN FILE: what the file holds, if one of its lines is so.
with_line() {
    if grep -q "$1" "$2"; then
        cat "$2"
    else
        echo "a line like $1"
    fi
}

# wants_usage NAME: the run before ended with 64, wrote nothing, and said how the program is used, in one line.
wants_usage() {
    wants "$1" 64 '' "$(with_line '^jobd: .*; Usage: jobd' err | head -n 1)"
}

# words that are no command
printf '%s\n' "$header" "$list" >in
run
wants_usage 'no word'
run replay more
wants_usage 'a second word'
run replay replay
wants_usage 'the word twice'
run serve
wants_usage 'serve without its places'
run serve --socket s --store o --spool p --zone UTC0 --zone-file /usr/share/zoneinfo/UTC
wants 'both zone options' 64 '' "jobd: --zone and --zone-file can't be given together"
run overrides
wants_usage 'overrides without its store'
run other
wants_usage 'another word'
run ''
wants_usage 'an empty word'
run $'\377'
wants 'a word that is not UTF-8' 64 '' 'jobd: an argument is not UTF-8'
run replay $'\377'
wants 'a second word that is not UTF-8' 64 '' 'jobd: an argument is not UTF-8'
run --help
wants 'a call for help' 0 "$(with_line '^Usage: jobd' out)" ''
run_full --help
wants 'help that is not taken' 3 '' ''

# places that the launcher can't use, in the order in which they are looked for
mkdir -m 700 spool
mkdir store
head -c 65537 /dev/zero >long
run serve --socket no/s --store store --spool spool --journal no/j --zone Mars
wants 'a zone that is none' 7 '' 'jobd: zone Mars: not a POSIX TZ string'
run serve --socket s --store o --spool spool --zone-file no
wants 'a zone file that is not there' 7 '' 'jobd: zone file no: No such file or directory (os error 2)'
run serve --socket s --store o --spool spool --zone-file long
wants 'a zone file that is too long' 7 '' 'jobd: zone file long: not a zone file of at most 65536 bytes'
run serve --socket no/s --store store --spool spool --journal no/j
wants 'a control socket in no folder' 6 '' 'jobd: control socket no/s: No such file or directory (os error 2)'
run serve --socket long --store store --spool spool --journal no/j
wants 'a control socket in the place of a file' 6 '' 'jobd: control socket long: address in use'
run serve --socket s --store store --spool spool --journal no/j
wants 'a journal in no folder' 8 '' 'jobd: journal no/j: No such file or directory (os error 2)'
run serve --socket s --store store --spool spool
wants 'a store that is a folder' 5 '' 'jobd: store store: it is not a plain file'
run serve --socket s --store o --spool spool --journal store
wants 'a journal that is a folder' 8 '' 'jobd: journal store: it is not a plain file'
head -c 5000 long >other
run serve --socket s --store other --spool spool
wants 'a store that is another file' 5 '' "$(with_line '^jobd: store other: ' err)"
mkdir -m 770 shared
run serve --socket s --store o --spool shared
wants 'a spool that others may write' 10 '' 'jobd: spool shared: others may write in it; chmod 700 mends it'
if [ -e s ]; then
    echo 'program_statuses: the control socket of a launcher that did not start is left' >&2
    exit 1
fi
run overrides --store no
wants 'overrides of no store' 5 '' 'jobd: store no: No such file or directory (os error 2)'
run overrides --store other
wants 'overrides of another file' 5 '' "$(with_line '^jobd: store other: ' err)"

# journals
run replay
wants 'a journal' 0 "$listed" ''
printf '%s\n%s' "$header" "$list" >in
run replay
wants 'a last line without a newline' 0 "$listed" ''
printf '%s\n' "$header" >in
run replay
wants 'a header alone' 0 '' ''
: >in
run replay
wants 'no header' 2 '' ''
printf '%s\n' '{"up":0}' "$list" >in
run replay
wants 'a bad header' 2 '' ''
{ printf '%s\n%s\n' "$header" "$list"; head -c 262145 /dev/zero | tr '\0' ' '; printf '\n%s\n' "$list"; } >in
run replay
wants 'a line that is too long' 4 "$listed" ''

# an input that can't be read, and outputs that can't be written
status=0
"$program" replay </ >out 2>err || status=$?
echo $status >status
wants 'an input that is a folder' 3 '' ''
printf '%s\n' "$header" "$list" >in
run_full replay
wants 'a flush that fails' 3 '' ''
{ printf '%s\n' "$header"; for _ in $(seq 4000); do printf '%s\n' "$list"; done; } >in
run_full replay
wants 'a write that fails' 3 '' ''

echo "program_statuses: $runs runs passed"
