#!/usr/bin/env bash
# Plans timetables within one node by 1, 2, 3, 4 and 16 workers, who share the work at the root: the document has to be the
# same byte for byte.
#
#     tests/any_workers.sh [PROGRAM [TIMETABLE ..]]
#
# PROGRAM is bin/mdvsp, or what the gate built, where it isn't given. TIMETABLE is a file; where none is given, there are
# some of each kind, up to 300 trips. Nothing of the program is made of this. It ends with 0 where all is as it has to be,
# and with 1 and a line for each run that isn't.
set -u
cd "$(dirname "$0")/.." || exit 1
name=any_workers
. tests/chains.sh

given=("${@:2}")
if [ ${#given[@]} -eq 0 ]; then
  for trips in 20 100 300; do
    "$program" make "$trips" > "$work/make_$trips"
    given+=("$work/make_$trips")
  done
  bench/carpaneto.py 80 8 1 > "$work/by_depots"
  bench/city.py 200 > "$work/city"
  bench/city.py 120 1 3 4 > "$work/city_of_12_layers"
  given+=("$work/by_depots" "$work/city" "$work/city_of_12_layers" examples/*_types.csv examples/*_depots.csv
    examples/split_shift.csv examples/morning_peak.csv)
fi
runs=0
for file in "${given[@]}"; do
  "$program" solve --workers 1 --nodes 1 < "$file" > "$work/one"
  status=$?
  for workers in 2 3 4 16; do
    "$program" solve --workers "$workers" --nodes 1 < "$file" > "$work/several"
    ended=$?
    [ "$ended" -eq "$status" ] || fails "$(basename "$file"), $workers workers: status $ended, not $status"
    cmp -s "$work/one" "$work/several" || fails "$(basename "$file"), $workers workers: another document"
    runs=$((runs + 1))
  done
done

echo "any_workers: $runs runs, $wrong wrong"
[ "$wrong" -eq 0 ]
