# What deb.sh and release.sh share. They are sourced from the top of the repository.

# The version that the table of commands has, and the day on which CHANGES.md says that it came.
version=$(sed -n 's/^version: //p' packaging/commands.txt)
day=$(sed -n "s/^## $version, \([0-9-]*\).*/\1/p" CHANGES.md)
# All files get the time of that day, so that the same files give the same bytes.
SOURCE_DATE_EPOCH=$(date -u -d "$day" +%s)
export SOURCE_DATE_EPOCH LC_ALL=C TZ=UTC

# Says which program is packed, and ends where there is none.
packed_program() {
  if [ ! -x "$1" ]; then
    echo "there is no $1: \`make\` builds bin/mdvsp" >&2
    exit 1
  fi
  if "$1" --version | grep -q 'built without its proof'; then
    echo "note: $1 was built without its proof, and says so at each start" >&2
  fi
}
