#!/usr/bin/env bash
# Plans `make 100` by four workers with 200 nodes a hundred times, and has each document judged. It prints how often which answer
# and which verdict came, and ends with 1 where a verdict wasn't yes. Build bin/mdvsp first.
set -u
cd "$(dirname "$0")/.." || exit 1
work=$(mktemp -d)
trap 'rm -rf "$work"' EXIT

bin/mdvsp make 100 > "$work/timetable"
for _ in $(seq 100); do
  bin/mdvsp solve --workers 4 --nodes 200 < "$work/timetable" > "$work/plan"
  cat "$work/timetable" "$work/plan" | bin/mdvsp check
done > "$work/verdicts"
sort "$work/verdicts" | uniq -c
[ "$(grep -c '^yes,' "$work/verdicts")" = 100 ]
