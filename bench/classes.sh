#!/usr/bin/env bash
# Solves timetables of several classes by one program after another, and by CBC, each with one worker and the default
# budget, and says what each came to and its CPU time. So two versions of the program are compared in one run.
#
#     bench/classes.sh PROGRAM [OTHER ..]
#
# CBC_SECONDS says for how long CBC may try a timetable, 150 where it isn't set and 0 for no CBC. CLASSES names classes:
# d4 and d8 (five draws of 200 trips in 4 and 8 depots), t4 (three of 300 trips in 4), c4 (six cities of 400 trips),
# m300, m1000 and m2000 (`make N`); all where it isn't set. `--nodes 1` is run too: what a search takes beyond it is the
# time of its further nodes. It takes some forty minutes with CBC, and ends with 1 where a document isn't judged `yes`.
set -u
[ $# -gt 0 ] || { sed -n '2,/^set/s/^# \{0,1\}//p' "$0"; exit 2; }
programs=()
for program in "$@"; do programs+=("$(realpath "$program")"); done
cd "$(dirname "$0")/.." || exit 1
work=$(mktemp -d)
trap 'rm -rf "$work"' EXIT
wrong=0

# The timetables of the class $1, each with the command that writes it.
timetables() {
  local seed
  case $1 in
    d4) for seed in 1 2 3 4 5; do echo "200_4_$seed bench/carpaneto.py 200 4 $seed"; done ;;
    d8) for seed in 1 2 3 4 5; do echo "200_8_$seed bench/carpaneto.py 200 8 $seed"; done ;;
    t4) for seed in 1 2 3; do echo "300_4_$seed bench/carpaneto.py 300 4 $seed"; done ;;
    c4) for seed in 1 2 3 4 5 6; do echo "city_400_$seed bench/city.py 400 $seed"; done ;;
    m*) echo "make_${1#m} ${programs[0]} make ${1#m}" ;;
  esac
}

# Runs the words behind the first two on the file $1 into the file $2, and says how many seconds of CPU time that took.
timed() {
  local input=$1 output=$2
  shift 2
  command time -f '%U %S' -o "$work/time" "$@" < "$input" > "$output" 2> "$work/said"
  tail -n 1 "$work/time" | awk '{ printf "%.2f", $1 + $2 }'
}

# What a document says in its first rows: claim, cost and bound.
claim_of() {
  awk -F, 'NR == 1 { claim = $3 } $1 == "cost" { cost = $2 } $1 == "bound" { print claim "," cost "," $2; exit }' "$1"
}

# Solves the timetable $2 of the class $1 by the program $4, which is the $3rd, with the words behind these.
solves() {
  local class=$1 name=$2 number=$3 program=$4 took row
  shift 4
  took=$(timed "$work/timetable" "$work/document" "$program" --quiet solve --workers 1 "$@")
  row=$("$program" check "$work/timetable" "$work/document")
  case $row in
    yes,*) ;;
    *) wrong=$((wrong + 1)) ;;
  esac
  echo "$class,$name,program $number${*:+ $*},$(claim_of "$work/document"),$(grep -c ^leaf "$work/document"),$took"
}

# Gives the timetable $2 of the class $1 to CBC.
by_cbc() {
  local took
  bench/time_space_model.py < "$work/timetable" > "$work/model.mps"
  took=$(timed /dev/null "$work/log" cbc "$work/model.mps" sec "$cbc" solve)
  awk -v head="$1,$2,cbc" -v took="$took" '
    /Optimal solution found/ { claim = "optimal" } /^Objective value/ { cost = int($3) } /^Lower bound/ { bound = int($3) }
    END { print head "," (claim ? claim : "open") "," cost "," (claim ? cost : bound) ",," took }' "$work/log"
}

# Solves the timetable $2 of the class $1, which the words behind these write, by all.
compares() {
  local class=$1 name=$2 k
  shift 2
  "$@" > "$work/timetable"
  for k in "${!programs[@]}"; do
    solves "$class" "$name" $((k + 1)) "${programs[$k]}" --nodes 1
    solves "$class" "$name" $((k + 1)) "${programs[$k]}"
  done
  [ "$cbc" -eq 0 ] || by_cbc "$class" "$name"
}

cbc=${CBC_SECONDS:-150}
command -v cbc > /dev/null || cbc=0
echo "class,timetable,by,claim,cost,bound,leaves,cpu seconds"
for class in ${CLASSES:-d4 d8 t4 c4 m300 m1000 m2000}; do
  while read -r name words; do
    # shellcheck disable=SC2086
    compares "$class" "$name" $words
  done < <(timetables "$class")
done
[ "$wrong" -eq 0 ]
