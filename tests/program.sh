# What tests/packaging.sh and tests/streams.sh begin with: the top of the repository as the current folder, the program
# that was named or the one that was built, and a folder to write in, which is removed at the end. A script that reads
# this sets $name to its own name before.
program=${1:-}
[ -n "$program" ] && program=$(realpath "$program")
cd "$(dirname "$0")/.." || exit 1
for built in bin/mdvsp crates/mdvsp_main/out/mdvsp_main; do
  [ -z "$program" ] && [ -x "$built" ] && program=$PWD/$built
done
[ -x "$program" ] || { echo "$name: no program is built: \`make\` builds bin/mdvsp"; exit 1; }
work=$(mktemp -d)
trap 'rm -rf "$work"' EXIT
