#!/usr/bin/env bash
# Times 576,000 crossed minutes (400 days) in a zone with daylight time, and calendars over them; the next minute of 1,000 jobs
# that never come, each over 400 days; and the next twenty leap days. Proves and builds the program first, runs it ten times,
# prints the least of each time, and fails where the minutes, the jobs or the leap days took over 100 milliseconds.
set -eu
cd "$(dirname "$0")/../crates/try_replay"
rt run < stdin > /dev/null
for _ in 1 2 3 4 5 6 7 8 9 10; do
  out/try_replay time 2>&1 > /dev/null
done | awk -F ': ' '
  { split($2, part, " "); if (!($1 in least) || part[1] < least[$1]) least[$1] = part[1] }
  END {
    for (name in least) print name ": " least[name] " microseconds"
    exit least["minutes"] > 100000 || least["1000 jobs that never come"] > 100000 || least["twenty leap days"] > 100000
  }'
