# What the chains of this folder begin with (resume_chain.sh, replay_chain.sh, stopped_chain.sh): the program that was
# named, or the one that was built; a folder for what it writes; and a look at the document there. A script that reads
# this sets $name to its own name before.
program=${1:-bin/mdvsp}
[ -x "$program" ] || program=crates/mdvsp_main/out/mdvsp_main
[ -x "$program" ] || { echo "$name: no program is built: \`make\` builds bin/mdvsp"; exit 1; }
work=$(mktemp -d)
trap 'rm -rf "$work"' EXIT
wrong=0

# Prints what went wrong, and counts it.
fails() {
  wrong=$((wrong + 1))
  echo "$name: $1"
}

# What stands in the row of the document that begins so.
field() {
  sed -n "s/^$1,//p" "$work/document" | head -n 1
}

# The document is judged `yes` behind the instance, and says what its row says.
judged() {
  local row
  row=$(cat "$work/made" "$work/document" | "$program" check)
  [ "$row" = "yes,$(field result,1),$(field cost),$(field bound)" ] || fails "$1: the document is judged $row"
}
