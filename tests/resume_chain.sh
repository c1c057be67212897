#!/usr/bin/env bash
# Carries a search on ten times, five nodes each, on the generator's instance of 100 trips: each document has to be judged
# `yes` behind the instance, its bound may not be lower than the one before, and its cost not higher.
#
#     tests/resume_chain.sh [PROGRAM]
#
# PROGRAM is bin/mdvsp, or what the gate built, where it isn't given. Nothing of the program is made of this. It ends with 0
# where all is as it has to be, and with 1 and a line for each run that isn't.
set -u
cd "$(dirname "$0")/.." || exit 1
name=resume_chain
. tests/chains.sh

"$program" make 100 > "$work/made"
"$program" solve --workers 1 --nodes 0 < "$work/made" > "$work/document"
runs=0
for run in 1 2 3 4 5 6 7 8 9 10; do
  cost=$(field cost)
  bound=$(field bound)
  cat "$work/made" "$work/document" | "$program" resume --workers 2 --nodes 5 > "$work/next"
  status=$?
  mv "$work/next" "$work/document"
  claim=$(field result,1)
  nodes=$(field nodes)
  case "$status $claim" in
    "0 optimal") ;;
    "11 open") [ "$nodes" -eq 5 ] || fails "run $run is open with nodes,$nodes" ;;
    *) fails "run $run ends with status $status and claims $claim" ;;
  esac
  [ "$nodes" -le 5 ] || fails "run $run has nodes,$nodes"
  [ "$(field bound)" -ge "$bound" ] || fails "run $run: the bound falls from $bound"
  [ "$(field cost)" -le "$cost" ] || fails "run $run: the cost rises from $cost"
  judged "run $run"
  runs=$((runs + 1))
done

echo "resume_chain: $runs runs, $wrong wrong; $claim, cost $(field cost), bound $(field bound)"
[ "$wrong" -eq 0 ]
