#!/usr/bin/env bash
# Runs what needs no proof, within five minutes on four processors: the scripts of `make lint`; the tests of the crates as
# plain Rust, with checks of overflow; and, with bin/mdvsp-quick, the stored cases, the Python package, the second checker,
# the page of the judge, chains of searches, the commands of the pages, and the packages.
#
#     tests/unproved.sh
#
# What isn't installed (the toolchain, rustc, node, a browser) is named and skipped. It runs all parts, a part on each
# processor, prints how long each took and what a failed one printed, and ends with 1 where one failed.
cd "$(dirname "$0")/.." || exit 1
export PYTHONDONTWRITEBYTECODE=1 work
work=$(mktemp -d)
trap 'rm -rf "$work"' EXIT
program=$PWD/bin/mdvsp-quick

# Compiles the tests of the crates as plain Rust, and runs them.
tests_of_crates() {
  bench/plain/plain.py --tests "$work/tests" || return
  (cd "$work/tests" && rustc --edition 2024 -C opt-level=1 -C overflow-checks=on --test main.rs -o tests && ./tests)
}
export -f tests_of_crates

# A part: its name and its command. Long ones come first.
parts=()
if ! bench/quick.sh --can; then
  echo "check: so the tests of the crates and all that needs bin/mdvsp-quick are skipped"
else
  make --no-print-directory quick || exit 1
  parts+=(
    "tests of the crates|tests_of_crates"
    "second checker|tools/test_second_check.py $program"
    "Python package|MDVSP=$program python3 -m unittest discover -s python/tests -t python"
    "page of the judge|web/test_page.py"
    "pages|tools/run_pages.py $program"
    "cases|tests/run_cases.py $program"
    "packaging|tests/packaging.sh $program"
    "resumed chain|tests/resume_chain.sh $program"
    "replayed traces|tests/replay_chain.sh $program"
    "searches that end early|tests/stopped_chain.sh $program"
    "documents by more workers|tests/any_workers.sh $program"
  )
fi
if ! command -v rt > /dev/null; then
  echo "check: the toolchain isn't here, so the tests of turns are skipped"
else
  parts+=("tests of turns|cd crates/test_turn && rt try --test")
fi
parts+=("lint|tools/lint.sh")

# Runs a part, and prints its time, and what it printed where it failed.
run_part() {
  local name=${1%%|*} start=$SECONDS log
  log=$(mktemp -p "$work")
  if bash -c "${1#*|}" > "$log" 2>&1; then
    echo "check: $name: ok, $((SECONDS - start)) s"
    grep -h 'skipped' "$log" | sed 's/^/    /'
  else
    echo "check: $name: FAILED, $((SECONDS - start)) s"
    tail -n 60 "$log" | sed 's/^/    /'
    touch "$work/failed"
  fi
  rm -f "$log"
}
export -f run_part
printf '%s\0' "${parts[@]}" | xargs -0 -P "$(nproc)" -I '{}' bash -c 'run_part "$1"' - '{}'
[ ! -e "$work/failed" ]
