#!/usr/bin/env bash
# Writes the trace of a search of the generator's instance of 100 trips by 1, 4 and 16 workers, and replays each: `replay` has
# to end with 0, and its document to be judged `yes` behind the instance, with the claim that the search ended with. By one
# worker it has to be the very document that `solve` writes. A trace whose last step is left out, and one that was cut off, may
# not replay.
#
#     tests/replay_chain.sh [PROGRAM]
#
# PROGRAM is bin/mdvsp, or what the gate built, where it isn't given. Nothing of the program is made of this. It ends with 0
# where all is as it has to be, and with 1 and a line for each run that isn't.
set -u
cd "$(dirname "$0")/.." || exit 1
name=replay_chain
. tests/chains.sh

# The document claims what goes with the status of its search.
claims() {
  case "$2 $(field result,1)" in
    "0 optimal" | "10 infeasible" | "11 open") ;;
    *) fails "$1: the search ends with status $2, and its document claims $(field result,1)" ;;
  esac
}

"$program" make 100 > "$work/made"
"$program" solve --workers 1 < "$work/made" > "$work/solved"
for workers in 1 4 16; do
  "$program" trace --workers "$workers" < "$work/made" > "$work/trace"
  status=$?
  cat "$work/made" "$work/trace" | "$program" replay > "$work/document"
  replayed=$?
  [ "$replayed" -eq 0 ] || fails "$workers workers: replay ends with status $replayed: $(head -n 1 "$work/document")"
  judged "$workers workers"
  claims "$workers workers" "$status"
  if [ "$workers" -eq 1 ]; then
    cmp -s "$work/document" "$work/solved" || fails "one worker: the trace replays to another document than solve writes"
  fi
  steps=$(grep -cE '^(took|split|closed|offered|gaveback),' "$work/trace")
  echo "replay_chain: $workers workers, $steps steps; $(field result,1), cost $(field cost), bound $(field bound)"
done

# The rows of the last trace before its last step, and `end`.
last=$(grep -nE '^(took|split|closed|offered|gaveback),' "$work/trace" | tail -n 1 | cut -d: -f1)
{ cat "$work/made"; head -n $((last - 1)) "$work/trace"; echo end; } | "$program" replay > "$work/answer" 2> /dev/null
status=$?
[ "$status $(cat "$work/answer")" = "1 no,7,NotAStep,$steps" ] || fails "without its last step: status $status, $(cat "$work/answer")"
{ cat "$work/made"; head -n -1 "$work/trace"; } | "$program" replay > "$work/answer" 2> /dev/null
status=$?
rows=$(($(wc -l < "$work/made") + $(wc -l < "$work/trace")))
[ "$status $(cat "$work/answer")" = "3 refused,$rows,54,EndsEarly" ] || fails "cut off: status $status, $(cat "$work/answer")"

echo "replay_chain: $wrong wrong"
[ "$wrong" -eq 0 ]
