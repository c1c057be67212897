#!/usr/bin/env bash
# Solves large timetables of version 3 by `--nodes 1` and four workers, judges each document, and says how long that
# took, how much memory, and the gap. While nothing else runs on four processors, each has to keep its goals.
#
#     bench/large_timetables.sh [--out FILE] [PROGRAM [TIMETABLE..]]
#
# A TIMETABLE is made_5000, made_10000, city_4, city_4_SEED, city_2x2 or city_12. Where none is given it is each of them,
# with the seeds 44 to 46, on which no constant was chosen. That takes some seven minutes. It ends with 1 where a document
# was wrong or a goal was missed. FILE gets a row for each timetable.
# Memory is measured where /usr/bin/time is installed. city_2x2 has the goals of city_4, since both have four layers. It
# misses them: two depots of one type are nearly alike, and plans as near the bound aren't found in that time.
set -u
out=/dev/null
if [ "${1:-}" = --out ]; then
  out=$(realpath "$2")
  shift 2
fi
program=$(realpath "${1:-bin/mdvsp}")
[ $# -eq 0 ] || shift
cd "$(dirname "$0")/.." || exit 1
work=$(mktemp -d)
trap 'rm -rf "$work"' EXIT
wrong=0

# The milliseconds in which `check` has to judge each document.
CHECK=3000

# The timetable $1.
timetable() {
  case $1 in
    made_5000) "$program" --quiet make 5000 ;;
    made_10000) "$program" --quiet make 10000 ;;
    city_4) bench/city.py 5000 41 4 1 ;;
    city_4_*) bench/city.py 5000 "${1##*_}" 4 1 ;;
    city_2x2) bench/city.py 5000 41 2 2 ;;
    city_12) bench/city.py 5000 41 3 4 ;;
  esac
}

# What the timetable $1 is, for a table.
title() {
  case $1 in
    made_5000) echo "make 5000" ;;
    made_10000) echo "make 10000" ;;
    city_4) echo "city 5000, four types at one depot" ;;
    city_4_*) echo "city 5000, four types at one depot, seed ${1##*_}" ;;
    city_2x2) echo "city 5000, two types at two depots" ;;
    city_12) echo "city 5000, three types at four depots" ;;
  esac
}

# The goals of the timetable $1: the milliseconds of the search, and the gap in parts per million of the cost.
goals() {
  case $1 in
    made_5000) echo 40000 1000 ;;
    made_10000) echo 150000 1500 ;;
    city_4 | city_4_*) echo 70000 200 ;;
    city_2x2) echo 70000 200 ;;
    city_12) echo 150000 3000 ;;
  esac
}

# Runs the program with the words behind the first, writes to the file $1, and says how many milliseconds it took, how
# many of CPU time, and how many megabytes it held.
measured() {
  local output=$1
  shift
  if [ -x /usr/bin/time ]; then
    /usr/bin/time -o "$work/time" -f '%e %U %S %M' "$program" --quiet "$@" > "$output"
  else
    TIMEFORMAT='%R %U %S 0'
    { time "$program" --quiet "$@" > "$output" 2> "$work/error"; } 2> "$work/time"
  fi
  tail -n 1 "$work/time" | awk '{ printf "%.0f %.0f %.0f\n", 1000 * $1, 1000 * ($2 + $3), $4 / 1024 }'
}

# The field behind the first of the first row $1 of the document $2.
field() {
  awk -F, -v name="$1" '$1 == name { print $2; exit }' "$2"
}

# The gap of a document in parts per million of its cost, rounded up, or 1000000 where it has no plan.
gap_of() {
  awk -F, '$1 == "cost" { cost = $2 } $1 == "bound" { bound = $2; exit }
    END { if (cost == "none" || cost + 0 == 0) print 1000000
          else { gap = (cost - bound) * 1000000 / cost; print (gap > int(gap) ? int(gap) + 1 : gap) } }' "$1"
}

# Solves and judges the timetable $1.
tries() {
  local most most_gap took cpu megabytes checked gap row reason=
  read -r most most_gap <<< "$(goals "$1")"
  timetable "$1" > "$work/timetable"
  read -r took cpu megabytes <<< "$(measured "$work/document" solve --workers 4 --nodes 1 "$work/timetable")"
  read -r checked _ <<< "$(measured "$work/row" check "$work/timetable" "$work/document")"
  row=$(cat "$work/row")
  gap=$(gap_of "$work/document")
  case $row in
    yes,*) ;;
    *) reason=", which is wrong" ;;
  esac
  [ "$took" -le "$most" ] || reason="$reason, later than $most ms"
  [ "$gap" -le "$most_gap" ] || reason="$reason, above $most_gap parts per million"
  [ "$checked" -le "$CHECK" ] || reason="$reason, judged later than $CHECK ms"
  [ -z "$reason" ] || wrong=$((wrong + 1))
  echo "large_timetables: $1: $took ms, $gap parts per million, $megabytes MB, judged in $checked ms: $row$reason"
  printf '"%s",%s,%s,%s,%s,%s,%s,%s,%s,%s\n' "$(title "$1")" "$(grep -c '^trip,' "$work/timetable")" \
    "$(grep -c '^layer,' "$work/timetable")" "$took" "$cpu" "$megabytes" "$(field cost "$work/document")" \
    "$(field bound "$work/document")" "$checked" "${row%%,*}" >> "$out"
}

[ $# -gt 0 ] || set -- made_5000 made_10000 city_4 city_4_44 city_4_45 city_4_46 city_2x2 city_12
echo "timetable,trips,layers,wall,cpu,megabytes,cost,bound,check,audit" > "$out"
for name in "$@"; do
  [ -n "$(goals "$name")" ] || { echo "large_timetables: there is no timetable $name"; exit 1; }
  tries "$name"
done
echo "large_timetables: $wrong wrong"
[ "$wrong" -eq 0 ]
