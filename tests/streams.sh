#!/usr/bin/env bash
# Runs the program on streams that fail and with little memory, and sees that it ends with the status that it
# promises, with the one sentence on standard error that goes with it or none, and by no signal:
#
#   standard output closed, full, or a pipe that is shut   5
#   standard input closed, or a folder                     4, and nothing written
#   `ulimit -v` in steps                                   6 and nothing written, or the answer with ample memory
#
#     tests/streams.sh [PROGRAM]
#
# PROGRAM is bin/mdvsp, or what the gate built, where it isn't given. Nothing of the program is made of this. It
# prints a line for each run that ends otherwise, and at last how many there were; it ends with 1 where there was one.
# It takes some seconds.
set -u
name=streams
. "$(dirname "$0")/program.sh"
export program work

runs=0
wrong=0

# Counts a run, and prints what is wrong with it: what was run, the status, and those that are promised.
ended() {
  local what=$1 status=$2
  shift 2
  runs=$((runs + 1))
  local reason="" promised=" $* "
  [[ $promised == *" $status "* ]] || reason="status $status, promised is$promised"
  case $status:$(head -c 200 "$work/err") in
    *: | "4:standard input: it can't be read: "* | "5:standard output can't be written" | "6:out of memory") ;;
    *) reason="$reason; it wrote to standard error: $(head -c 200 "$work/err")" ;;
  esac
  if [ -n "$reason" ]; then
    wrong=$((wrong + 1))
    echo "$what: $reason"
  fi
}

# Counts a run, and says where something was written that mustn't be.
nothing_written() {
  if [ -s "$1" ]; then
    wrong=$((wrong + 1))
    echo "$2: it wrote $(head -c 60 "$1")"
  fi
}

# The timetable of one trip that two layers may run, with a document of it.
cp examples/two_depots.csv "$work/timetable"
cat "$work/timetable" examples/two_depots_document.csv > "$work/both"
# And with the trace of a search of it.
"$program" trace --workers 1 < "$work/timetable" | cat "$work/timetable" - > "$work/traced"
# One that is refused, and one whose document doesn't hold.
echo "instance,2,3" > "$work/refused"
sed 's/^cost,500$/cost,499/' "$work/both" > "$work/flawed"
: > "$work/nothing"

# Each command, with the file that it reads. Words that are wrong and input that is refused write a row too.
commands=(
  "solve both" "solve --workers 2 timetable" "check both" "check flawed" "check refused" "network timetable"
  "blocks both" "resume --workers 2 both" "resume flawed" "trace --workers 2 timetable" "replay traced" "replay both"
  "--quiet check both" "make 2 nothing" "make 2000 nothing" "nonsense nothing" "--help nothing" "check --help nothing"
)

for command in "${commands[@]}"; do
  read -r -a words <<< "$command"
  file=$work/${words[-1]}
  unset 'words[-1]'
  what="${words[*]}"

  "$program" "${words[@]}" < "$file" 2> "$work/err" >&-
  status=$?
  ended "$what > closed" "$status" 5

  "$program" "${words[@]}" < "$file" 2> "$work/err" > /dev/full
  status=$?
  ended "$what > /dev/full" "$status" 5

  # `true` shuts its end of the pipe before the program begins to write. Signals for that are at first as a shell's
  # child gets them, then ignored.
  { sleep 0.1; "$program" "${words[@]}" < "$file" 2> "$work/err"; echo "$?" > "$work/status"; } | true
  ended "$what | true" "$(cat "$work/status")" 5
  (trap '' PIPE; { sleep 0.1; "$program" "${words[@]}" < "$file" 2> "$work/err"; echo "$?" > "$work/status"; } | true)
  ended "$what | true, signals of pipes ignored" "$(cat "$work/status")" 5
done

# A pipe that is shut when a part went through: `make 2000` writes more than a pipe holds.
{ "$program" make 2000 2> "$work/err"; echo "$?" > "$work/status"; } | head -c 100 > "$work/part"
ended "make 2000 | head -c 100" "$(cat "$work/status")" 5
"$program" make 2000 < /dev/null > "$work/made"
head -c 100 "$work/made" | cmp -s - "$work/part" || {
  wrong=$((wrong + 1))
  echo "make 2000 | head -c 100: other bytes than make 2000's"
}

for words in solve resume trace replay check network blocks "solve --nodes 0"; do
  read -r -a words <<< "$words"
  what="${words[*]}"
  "$program" "${words[@]}" <&- > "$work/out" 2> "$work/err"
  ended "$what < closed" "$?" 4
  nothing_written "$work/out" "$what < closed"
  "$program" "${words[@]}" < "$work" > "$work/out" 2> "$work/err"
  ended "$what < a folder" "$?" 4
  nothing_written "$work/out" "$what < a folder"
done
# What reads nothing doesn't mind.
"$program" make 2 <&- > "$work/out" 2> "$work/err"
ended "make 2 < closed" "$?" 0
"$program" nonsense < "$work" > "$work/out" 2> /dev/null
ended "nonsense < a folder" "$?" 2

# Runs the words within some KB of address space.
within() {
  local much=$1 file=$2
  shift 2
  (ulimit -v "$much" && exec "$program" "$@" < "$file" > "$work/out") 2> "$work/err"
}

# The least address space, in KB, in which the program begins at all. Below, its loader says that it can't, or the
# system kills it, and it isn't the program that ends.
least=1024
within "$least" /dev/null make 0
status=$?
while [ "$status" -ne 0 ] && [ "$status" -ne 6 ]; do
  least=$((least + 32))
  [ "$least" -gt 65536 ] && { echo "ulimit -v: the program doesn't begin within 64 MB"; exit 1; }
  within "$least" /dev/null make 0
  status=$?
done

"$program" solve --workers 2 < "$work/timetable" > "$work/solved"
head -3 "$work/solved" > "$work/claim"
{ cat "$work/timetable"; "$program" solve --nodes 0 < "$work/made"; } > "$work/null"
for command in "solve --workers 2 timetable" "check both" "network made" "make 2000 nothing" "solve --nodes 0 made"; do
  read -r -a words <<< "$command"
  file=$work/${words[-1]}
  unset 'words[-1]'
  what="${words[*]}"
  "$program" "${words[@]}" < "$file" > "$work/ample" 2> /dev/null
  wanted=$?
  answered=0
  much=$least
  step=16
  # Where a second worker has to start, its thread is refused at first; 40 MB have room for it.
  most=0
  [ "$what" = "solve --workers 2" ] && most=40960
  # Steps of 16 KB that grow by a sixteenth, till four runs one behind the other give the answer.
  while [ "$answered" -lt 4 ] || [ "$much" -lt "$most" ]; do
    [ "$much" -gt 4194304 ] && { echo "$what: no answer within 4 GB"; exit 1; }
    within "$much" "$file" "${words[@]}"
    status=$?
    ended "$what within $much KB" "$status" 6 "$wanted"
    if [ "$status" -eq 6 ]; then
      nothing_written "$work/out" "$what within $much KB"
      answered=0
    elif [ "$status" -eq "$wanted" ]; then
      answered=$((answered + 1))
      if [ "$what" = "solve --workers 2" ]; then
        head -3 "$work/out" | cmp -s - "$work/claim" \
          || { wrong=$((wrong + 1)); echo "$what within $much KB: another claim, cost or bound"; }
      else
        cmp -s "$work/out" "$work/ample" || { wrong=$((wrong + 1)); echo "$what within $much KB: other bytes"; }
      fi
    fi
    much=$((much + step))
    step=$((step + step / 16))
  done
  echo "streams: $what: from $least to $much KB of address space, with status 6 and then with the answer"
done

echo "streams: $runs runs, $wrong wrong"
[ "$wrong" -eq 0 ]
