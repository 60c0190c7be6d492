#!/bin/sh
# The shell of SQLite reads the file that a launcher wrote its settings to, and a launcher opens the file of the first version that the
# shell wrote. The programs are `jobd` and `jobctl` of the folder that is the first word, or of build/.
set -eu

shell=${SQLITE3:-sqlite3}
programs=$(cd "${1:-build}" 2>/dev/null && pwd) || programs=none
tab=$(printf '\t')

if ! command -v "$shell" >/dev/null 2>&1; then
    echo "store_shell: skipped, the shell sqlite3 is not installed"
    exit 0
fi
if [ ! -x "$programs/jobd" ] || [ ! -x "$programs/jobctl" ]; then
    echo "store_shell: no programs in ${1:-build}" >&2
    exit 1
fi

docs=$(cd "$(dirname "$0")/../docs" && pwd)
page=$docs/DAMAGED-STORE.md
folder=$(mktemp -d)
launcher=
trap '[ -z "$launcher" ] || kill "$launcher"; rm -rf "$folder"' EXIT
cd "$folder"
mkdir -m 700 spool

want() {
    if [ "$2" != "$3" ]; then
        printf 'store_shell: %s\nwanted:\n%s\nfound:\n%s\n' "$1" "$2" "$3" >&2
        exit 1
    fi
}

# Sets by a launcher over the store: words of `jobctl`, two for each setting.
set_all() {
    store=$1
    shift
    rm -f ready
    "$programs/jobd" serve --socket socket --store "$store" --spool spool >ready &
    launcher=$!
    until grep -qs ready ready; do sleep 0.1; done
    while [ $# -gt 0 ]; do
        "$programs/jobctl" --socket socket "$1" "$2" || echo "store_shell: refused: $1 $2" >&2
        shift 2
    done
    "$programs/jobctl" --socket socket shutdown
    wait "$launcher"
    launcher=
}

listed() {
    "$programs/jobd" overrides --store "$1"
}

rows() {
    "$shell" -separator "$tab" "$1" "SELECT label, iif(disabled, 'disabled', 'enabled'), changed FROM settings ORDER BY label"
}

# a file that a launcher wrote
before=$(date +%s)
set_all ours.db disable org.example.a enable org.example.b enable org.example.a
want "the launcher lists its settings" "org.example.a${tab}enabled
org.example.b${tab}enabled" "$(listed ours.db | cut -f 1,2)"
for second in $(listed ours.db | cut -f 3); do
    [ "$second" -ge "$before" ] && [ "$second" -le "$(date +%s)" ] || want "the second of a setting" "from $before on" "$second"
done
want "the shell reads them" "$(listed ours.db)" "$(rows ours.db)"
want "the old table is empty" "0" "$("$shell" ours.db 'SELECT count(*) FROM overrides')"
want "the file is sound" "ok" "$("$shell" ours.db 'PRAGMA integrity_check')"

# a file of the first version that the shell wrote
"$shell" first.db "CREATE TABLE overrides (label TEXT NOT NULL PRIMARY KEY, disabled INTEGER NOT NULL CHECK (disabled IN (0, 1))) STRICT;
INSERT INTO overrides VALUES ('a', 1), ('b', 0);"
set_all first.db
want "its settings are moved" "a${tab}disabled${tab}0
b${tab}enabled${tab}0" "$(listed first.db)"
set_all first.db enable a
want "a setting is written" "a${tab}enabled
b${tab}enabled" "$(listed first.db | cut -f 1,2)"
want "the shell reads what was moved" "$(listed first.db)" "$(rows first.db)"

# a store with a damaged page: the block of DAMAGED-STORE, as it is there, saves the settings of all others
block=$(sed -n '/^    sqlite3 damaged\/overrides.db/,/^$/s/^    //p' "$page")
[ "$(printf '%s\n' "$block" | wc -l)" = 3 ] || want "the block of the page" "three lines" "$block"
words=
for number in $(seq 1000 1599); do words="$words disable org.example.$number"; done
# shellcheck disable=SC2086
set_all overrides.db $words
"$shell" overrides.db 'PRAGMA wal_checkpoint(TRUNCATE)' >/dev/null
pages=$("$shell" overrides.db 'PRAGMA page_count')
[ "$pages" -gt 8 ] || want "a store of some pages" "more than 8" "$pages"
mkdir damaged
mv overrides.db damaged/
[ ! -e overrides.db-wal ] || mv overrides.db-wal damaged/
dd if=/dev/zero of=damaged/overrides.db bs=4096 seek=6 count=1 conv=notrunc 2>/dev/null
PATH=$programs:$PATH sh -c "$block" >saved 2>said
count=$(wc -l <saved)
[ "$count" -ge 300 ] && [ "$count" -lt 600 ] || want "settings that the block saves of 600" "most of them" "$count: $(cat said)"
want "a saved setting" "org.example.1599${tab}disabled" "$(cut -f 1,2 saved | tail -n 1)"
set_all mended.db enable org.example.1000
want "a launcher writes in what was saved" "org.example.1000${tab}enabled" "$(listed mended.db | cut -f 1,2 | head -n 1)"

# labels are forgotten by the line of OPERATING, as it stands there, but for the place of the store
line=$(sed -n 's/^    sqlite3 \/var\/lib\/jobd\/overrides.db "DELETE/"$shell" forgotten.db "DELETE/p' "$docs/OPERATING.md")
[ -n "$line" ] || want "the line of the page" "a DELETE" "none"
set_all forgotten.db disable org.example.old.a enable org.example.new disable org.example.old.b
eval "$line"
want "labels are forgotten" "org.example.new${tab}enabled" "$(listed forgotten.db | cut -f 1,2)"
set_all forgotten.db enable org.example.old.a
want "a forgotten label is set" "org.example.new${tab}enabled
org.example.old.a${tab}enabled" "$(listed forgotten.db | cut -f 1,2)"

# a store with more labels than a launcher makes, of more than 64 MiB, is opened; its labels can be set, and no other
set_all large.db
"$shell" large.db "WITH RECURSIVE n(i) AS (SELECT 0 UNION ALL SELECT i + 1 FROM n WHERE i < 122499)
INSERT INTO settings SELECT printf('%06d', i) || printf('%0249d', 0), 1, i FROM n; PRAGMA wal_checkpoint(TRUNCATE)" >/dev/null
[ "$(wc -c <large.db)" -gt 67108864 ] || want "a large store" "more than 64 MiB" "$(wc -c <large.db)"
first=$(printf '%06d%0249d' 0 0)
set_all large.db enable "$first"
want "a large store lists its settings" "122500" "$(listed large.db | wc -l)"
want "a label of a large store is set" "$first${tab}enabled" "$(listed large.db | head -n 1 | cut -f 1,2)"
said=$(set_all large.db enable one.more 2>&1)
case $said in
*"16,384 labels have a setting"*) ;;
*) want "a label too many" "16,384 labels have a setting, and no other may have one" "$said" ;;
esac

echo "store_shell: passed"
