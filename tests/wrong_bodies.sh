#!/usr/bin/env bash
# Tries wrong bodies, each against the contracts of its crate: the prover has to refuse every one.
#
#   tests/wrong_bodies.sh [--gate] [--only-stale] [CRATE..]
#   tests/wrong_bodies.sh --stale
#
# A wrong body is an edit of tests/wrong_bodies/CRATE/, or one part of a joined edit there. With --gate those of crates/CRATE/must-fail/ are tried
# too, each of which is a wrong body of its own. Without CRATE those of each crate are.
# Those of different functions are tried at one go, and by the proofs of these functions alone (tests/try_bodies.py says why that tells of each);
# what is not refused so is tried by the check of the whole crate. RT_JOBS says by how many jobs (as many as there are processors). One line a wrong body:
#
#   refused CRATE/NAME by src/FILE:LINE ..       a goal of the code's own contracts is open
#   refused CRATE/NAME by its goal: ..           the same, and the tactic that answers this goal finds no proof
#   refused CRATE/NAME at its answer: ..         the goal is another one with it, and the answer that is written for the goal proves it no longer
#   refused CRATE/NAME elsewhere: ..             a proof or a definition is refused first: look whether a clause says it
#   NOT REFUSED CRATE/NAME ..                    the contract is too weak, or the edit can't be read
#
# The last line counts them. The status is 1 if one was not refused. What was refused is noted in tests/wrong_bodies/RESULTS.csv, with the
# commit and what refused it; --stale tries nothing, and lists the wrong bodies whose crate has other clauses since; --only-stale tries those.
set -euo pipefail
top=$(cd "$(dirname "$0")/.." && pwd)
[ "${1:-}" != --stale ] || exec python3 "$top/tests/body_results.py" stale
gate=
stale=
while :; do
  case ${1:-} in
    --gate) gate=yes ;;
    --only-stale) stale=yes ;;
    *) break ;;
  esac
  shift
done

# part_edits CRATE TO: lays each wrong body of the crate as an edit of its own into the folder TO.
part_edits() {
  local edit name
  for edit in "$top/tests/wrong_bodies/$1"/*.edit "$top/crates/$1/must-fail"/*.edit; do
    [ -f "$edit" ] || continue
    name=$(basename "$edit" .edit)
    if [ -z "$gate" ] && [ "$(dirname "$edit")" != "$top/tests/wrong_bodies/$1" ]; then
      continue
    elif grep -q '^# part: ' "$edit"; then
      awk -v to="$2/$name." '/^# part: /{ if (out) close(out); out = to substr($0, 9) ".edit"; next } out { print > out }' "$edit"
    else
      cp "$edit" "$2/"
    fi
  done
  [ -z "$stale" ] || for edit in "$2"/*.edit; do
    grep -q "^$1/$(basename "$edit" .edit): " "$room/stale" || rm -f "$edit"
  done
}

# lay_crate CRATE: copies the crate's texts into the room.
lay_crate() {
  local part
  mkdir -p "$room/crates/$1"
  for part in src specs proofs; do
    [ ! -d "$top/crates/$1/$part" ] || cp -r "$top/crates/$1/$part" "$room/crates/$1/"
  done
}

if [ $# = 0 ]; then
  set -- $(sed -nE 's/^([a-z0-9_]+)[ :].*/\1/p' "$top/crates.txt")
fi
room=$(mktemp -d "${TMPDIR:-/tmp}/wrong-bodies-XXXXXX")
trap 'rm -rf "$room"' EXIT
[ -z "$stale" ] || python3 "$top/tests/body_results.py" stale "$@" > "$room/stale" || true
mkdir "$room/tools" "$room/tests"
cp "$top"/{crates.txt,HANDLES} "$room/"
cp "$top"/tools/{kit,lanes,check_crate,proofs_kept}.py "$room/tools/"
cp "$top/tests/try_bodies.py" "$room/tests/"
for crate in "$top"/crates/*/; do
  lay_crate "$(basename "$crate")"
done
tried=()
for crate in "$@"; do
  mkdir -p "$room/crates/$crate/must-fail"
  part_edits "$crate" "$room/crates/$crate/must-fail"
  [ -z "$(ls "$room/crates/$crate/must-fail")" ] || tried+=("$crate")
  [ ! -d "$top/crates/$crate/out/incremental" ] || ln -s "$top/crates/$crate/out/incremental" "$room/begun-$crate"
done
said=$room/said
{ [ ${#tried[@]} = 0 ] || python3 "$room/tests/try_bodies.py" "${tried[@]}" 2>&1 || true; } | sed -unE \
  -e 's,^(rt: )?must-fail ([^:]*)\.edit: refused\, as it must be: (note: )?(\./)?(src/.{0\,140}).*,refused \2 by \5,p;t' \
  -e 's,^(rt: )?must-fail ([^:]*)\.edit: refused\, as it must be: (\./)?(proofs/[^ ]*Answers\.antt:[0-9:]+ error: `[^`]*`: `(search|grind|omega)`(:| found no proof).{0\,80}).*,refused \2 by its goal: \4,p;t' \
  -e 's,^(rt: )?must-fail ([^:]*)\.edit: refused\, as it must be: (\./)?(proofs/[^ ]*Answers\.antt:[0-9:]+ error: `(returns|loop|[a-z0-9_]+-requires)[^`]*`: .*),refused \2 at its answer: \4,p;t' \
  -e 's,^(rt: )?must-fail ([^:]*)\.edit: refused\, as it must be ?:?(.*),refused \2 elsewhere:\3,p;t' \
  -e 's,^(rt: )?must-fail ([^:]*)\.edit: (.*),NOT REFUSED \2: \3,p;t' \
  -e '/NOT PROVED/p' \
  -e '/error:/p' | tee "$said"
python3 "$top/tests/body_results.py" note "$said"
refused=$(grep -c '^refused' "$said" || true)
elsewhere=$(grep -cE '^refused [^ ]+ elsewhere' "$said" || true)
bad=$(grep -vc '^refused' "$said" || true)
echo "$refused refused ($elsewhere of them elsewhere), $bad not refused"
[ "$bad" = 0 ]
