#!/usr/bin/env bash
# Plans examples/first_hour.csv, compares the plan with the shipped one, byte for byte, says how far it can be from the
# best, and has it audited.
#
#     examples/demo.sh            runs bin/mdvsp; where that isn't built, bin/mdvsp-quick; where neither is, the sources
#                                 are compiled once, without any proof, and both runs are made with checks (`rt try`);
#                                 where the toolchain isn't there, rustc builds bin/mdvsp-quick
#     examples/demo.sh --write    puts what a built program plans into examples/first_hour_plan.csv
set -u
cd "$(dirname "$0")/.." || exit 1
timetable=examples/first_hour.csv
plan=examples/first_hour_plan.csv
solve="solve --workers 1 --nodes 1"
work=$(mktemp -d)
trap 'rm -rf "$work"' EXIT

# Makes both runs by a built program.
run_program() {
  echo "$1 plans $timetable, and then audits $plan .."
  "$1" $solve < "$timetable" > "$work/written"
  local status=$?
  if [ "$status" -ne 0 ] && [ "$status" -ne 11 ]; then
    echo "$1 $solve: it ended with status $status"
    return 1
  fi
  cat "$timetable" "$plan" | "$1" check > "$work/said" || return 1
  cmp "$work/written" "$plan"
}

# Makes both runs without a built program: one build, of the sources as they are, for two inputs.
run_sources() {
  echo "bin/mdvsp isn't built, so this compiles the sources as they are, without any proof, and runs them with checks."
  echo "That takes about a minute and prints nothing meanwhile. \`make quick\` builds a fast program in 40 seconds where"
  echo "rustc is there, and \`make\` the proved one."
  mkdir "$work/cases"
  cp "$timetable" "$work/cases/solve"
  printf '%s\n' $solve > "$work/cases/solve.args"
  cp "$plan" "$work/cases/solve.stdout"
  cat "$timetable" "$plan" > "$work/cases/audit"
  echo check > "$work/cases/audit.args"
  (cd crates/mdvsp_main && rt try --steps 1 --seconds 1800 --cases "$work/cases") > "$work/printed" 2> "$work/log"
  local status=$?
  if [ "$status" -ne 0 ] || ! grep -q '^case=solve .*output=expected' "$work/log"; then
    cat "$work/printed" "$work/log"
    return 1
  fi
  sed '/^== /d' "$work/printed" > "$work/said"
}

if [ -x bin/mdvsp ]; then
  program=bin/mdvsp
else
  program=bin/mdvsp-quick
fi
if [ "${1:-}" = --write ]; then
  "$program" $solve < "$timetable" > "$work/written" && cp "$work/written" "$plan"
  exit
fi
if [ -x "$program" ]; then
  run_program "$program" || exit 1
elif command -v rt > /dev/null; then
  run_sources || exit 1
elif bench/quick.sh --can 2> /dev/null; then
  echo "Neither bin/mdvsp nor the toolchain is here, so this builds bin/mdvsp-quick first, without the proof."
  bench/quick.sh && run_program "$program" || exit 1
else
  echo "Neither bin/mdvsp nor the toolchain (\`rt\`) is here, and no rustc of which \`make quick\` could build a program."
  echo "docs/install.md says how a program is had."
  exit 1
fi
echo "What was planned is the shipped plan, byte for byte. From a depot, trip by trip and back in each block:"
grep -E '^(result|cost|bound|block),' "$plan"
awk -F, '$1 == "cost" { cost = $2 } $1 == "bound" { bound = $2 }
  END { if (cost > 0) printf "Gap of plan and bound: %.3f per cent\n", 100 * (cost - bound) / cost }' "$plan"
echo "The audit says:"
cat "$work/said"
