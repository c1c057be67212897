#!/usr/bin/env bash
# Builds bin/mdvsp-quick, or the file that is given: the program as plain Rust, without its proof. It takes about 40 s.
#
#     bench/quick.sh [FILE]
#     bench/quick.sh --can     says why it can't, and ends with 1 then
set -eu
cd "$(dirname "$0")/.."
# The first version of rustc with the edition 2024.
OLDEST=1.85

# Prints why the program can't be built here, if it can't.
why_not() {
  local version
  if ! version=$(rustc --version 2> /dev/null); then
    echo "rustc isn't here: https://rustup.rs has it"
    return
  fi
  version=$(echo "$version" | cut -d' ' -f2)
  if [ "$(printf '%s\n' "$OLDEST" "$version" | sort -V | head -n 1)" != "$OLDEST" ]; then
    echo "rustc is $version, and $OLDEST or later is needed: https://rustup.rs has it"
  fi
}

reason=$(why_not)
if [ -n "$reason" ]; then
  echo "quick: $reason" >&2
  exit 1
fi
[ "${1:-}" = --can ] && exit
file=${1:-bin/mdvsp-quick}
work=$(mktemp -d)
trap 'rm -rf "$work"' EXIT
echo "quick: writing the sources as plain Rust, without contracts and proofs, and compiling them: about 40 seconds" >&2
bench/plain/plain.py "$work"
rustc --edition 2024 -O --remap-path-prefix "$work=mdvsp" "$work/main.rs" -o "$work/mdvsp-quick"
mkdir -p "$(dirname "$file")"
mv "$work/mdvsp-quick" "$file"
