#!/usr/bin/env bash
# Runs what judges the sources and the pages without building anything. It runs all, and ends with 1 where one failed.
cd "$(dirname "$0")/.." || exit 1
failed=0

# Runs a command, and shows the last lines that it prints where it fails.
part() {
  local said
  if said=$(PYTHONDONTWRITEBYTECODE=1 "$@" 2>&1); then
    echo "lint: $*: ok"
  else
    failed=1
    tail -n 25 <<< "$said"
    echo "lint: $*: FAILED"
  fi
}

part tools/house.py
part tools/crates.py
part tools/refusals.py
part tools/usage.py
part tools/run_pages.py --links
exit "$failed"
