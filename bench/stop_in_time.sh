#!/usr/bin/env bash
# Has searches end after some seconds, and says how long after that they were done: of an instance of the largest size
# (bench/largest_instance.sh) and of the generator's of 1,000 trips, by 1, 4 and 16 workers. Each document has to be
# judged `yes`, and each log has to have lines for half of its seconds at least. While nothing else runs, each run has to
# end within two seconds of its limit.
#
#     bench/stop_in_time.sh [PROGRAM]
#
# It takes some two minutes. It ends with 1 where a run was late or wrong.
set -u
program=$(realpath "${1:-bin/mdvsp}")
cd "$(dirname "$0")/.." || exit 1
work=$(mktemp -d)
trap 'rm -rf "$work"' EXIT
wrong=0

# How much later than its limit a run may end, in milliseconds: it also reads the instance and writes the document.
LATE=2000

milliseconds() {
  date +%s%3N
}

# A search of the instance $1 by $2 workers for $3 seconds.
runs() {
  local start status took row lines reason=
  start=$(milliseconds)
  "$program" solve --log --workers "$2" --seconds "$3" "$work/$1" > "$work/document" 2> "$work/log"
  status=$?
  took=$(($(milliseconds) - start))
  row=$("$program" check "$work/$1" "$work/document")
  lines=$(sed 's/ .*//' "$work/log" | sort -u | wc -l)
  case $status:$row in
    0:yes,optimal,* | 10:yes,infeasible,* | 11:yes,open,*) ;;
    *) reason=", which is wrong" ;;
  esac
  [ "$took" -le $(($3 * 1000 + LATE)) ] || reason="$reason, which is late"
  [ "$status" -ne 11 ] || [ $((2 * lines)) -ge "$3" ] || reason="$reason, and $lines lines are too few"
  [ -z "$reason" ] || wrong=$((wrong + 1))
  echo "stop_in_time: $1, $2 workers, $3 seconds: done after $took ms, $row$reason"
}

bench/largest_instance.sh > "$work/largest"
"$program" make 1000 > "$work/made"
for workers in 1 4 16; do
  for seconds in 1 3 10; do
    runs largest "$workers" "$seconds"
    runs made "$workers" "$seconds"
  done
done
echo "stop_in_time: $wrong wrong"
[ "$wrong" -eq 0 ]
