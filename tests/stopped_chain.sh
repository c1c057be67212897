#!/usr/bin/env bash
# Has searches of the generator's instances end early, by 1, 4 and 16 workers, after a second and at a gap of a tenth
# of a per cent. Each document has to be judged `yes` behind the instance, with the claim of its status; one that is
# open at a gap has that gap or a smaller one. Each is then resumed: the bound may not fall, and the cost not rise. A
# trace that ended early is replayed and judged. No run has to end in a certain time: bench/stop_in_time.sh looks at
# that.
#
#     tests/stopped_chain.sh [PROGRAM]
#
# PROGRAM is bin/mdvsp, or what the gate built, where it isn't given. Nothing of the program is made of this. It ends
# with 0 where all is as it has to be, and with 1 and a line for each run that isn't.
set -u
cd "$(dirname "$0")/.." || exit 1
name=stopped_chain
. tests/chains.sh

# The gap in parts per million.
GAP=1000

# The document claims what goes with the status of its search. Where it is open, its gap is GAP at most, but if $3 is any.
ended() {
  local cost bound
  cost=$(field cost)
  bound=$(field bound)
  case "$2 $(field result,1)" in
    "0 optimal") ;;
    "11 open") [ "$3" = any ] || [ $(((cost - bound) * 1000000)) -le $((GAP * cost)) ] \
      || fails "$1: it is open at cost $cost and bound $bound" ;;
    *) fails "$1: the search ends with status $2, and its document claims $(field result,1)" ;;
  esac
  judged "$1"
}

# Resumes the document, and compares the costs and bounds of both.
resumed() {
  local cost bound status
  cost=$(field cost)
  bound=$(field bound)
  "$program" resume --workers "$2" --nodes 5 --seconds 1 "$work/made" "$work/document" > "$work/next"
  status=$?
  mv "$work/next" "$work/document"
  ended "$1, resumed" "$status" any
  [ "$(field bound)" -ge "$bound" ] || fails "$1, resumed: the bound falls from $bound"
  [ "$(field cost)" -le "$cost" ] || fails "$1, resumed: the cost rises from $cost"
}

# Searches with an option, and resumes what that comes to. The last line of the log has to say what the document says.
searched() {
  local what="--workers $1 $2 $3" said
  "$program" solve --log --workers "$1" "$2" "$3" "$work/made" > "$work/document" 2> "$work/log"
  ended "solve $what" "$?" "$4"
  said=$(tail -n 1 "$work/log")
  case $said in
    "seconds="*" cases=$(field nodes) open="*" cost=$(field cost) bound=$(field bound) gap="*) ;;
    *) fails "solve $what: the log ends with $said" ;;
  esac
  echo "stopped_chain: $what: $(field result,1), nodes $(field nodes), cost $(field cost), bound $(field bound)"
  resumed "solve $what" "$1"
}

# Writes the trace of a search with an option, and has it replayed.
traced() {
  local what="trace --workers $1 $2 $3" status
  "$program" trace --workers "$1" "$2" "$3" "$work/made" > "$work/trace"
  status=$?
  "$program" replay "$work/made" "$work/trace" > "$work/document" || fails "$what: it doesn't replay"
  ended "$what" "$status" "$4"
}

"$program" make 1000 > "$work/made"
searched 4 --gap "$GAP" gap
"$program" make 300 > "$work/made"
for workers in 1 4 16; do
  searched "$workers" --seconds 1 any
done
"$program" make 100 > "$work/made"
for workers in 1 4 16; do
  searched "$workers" --gap "$GAP" gap
  traced "$workers" --gap "$GAP" gap
  traced "$workers" --seconds 1 any
done

echo "stopped_chain: $wrong wrong"
[ "$wrong" -eq 0 ]
