#!/usr/bin/env bash
# Packs a release: dist/mdvsp-VERSION-SYSTEM.tar.gz with the program, the manual page and the completions, the pages,
# the judge for a browser, the second checker and the Python package, and dist/SHA256SUMS. The tar has sums of its files.
# The same files give the same bytes: times are the day of the version, and names are in order.
#
#     packaging/release.sh [PROGRAM [FOLDER]]    PROGRAM is bin/mdvsp, FOLDER is dist
set -eu
cd "$(dirname "$0")/.."
. packaging/common.sh
program=${1:-bin/mdvsp}
folder=${2:-dist}
packed_program "$program"

work=$(mktemp -d)
trap 'rm -rf "$work"' EXIT
name=mdvsp-$version-$(uname -s | tr 'A-Z' 'a-z')-$(uname -m)
tree=$work/$name
packaging/install.sh "$tree" "$program"
mkdir "$tree/python"
(cd python && PYTHONDONTWRITEBYTECODE=1 python3 -c 'import build_backend, sys; build_backend.build_wheel(sys.argv[1])' \
  "$tree/python" > /dev/null)
(cd "$tree" && find . -type f ! -name SHA256SUMS | sort | sed 's|^\./||' | xargs -d '\n' sha256sum > "$work/sums")
mv "$work/sums" "$tree/SHA256SUMS"
chmod 644 "$tree/SHA256SUMS" "$tree"/python/*

mkdir -p "$folder"
tar --create --directory "$work" --sort=name --format=gnu --owner=0 --group=0 --numeric-owner \
  --mode='u+rwX,go+rX,go-w' --mtime="@$SOURCE_DATE_EPOCH" "$name" | gzip -9n > "$folder/$name.tar.gz"
(cd "$folder" && find . -maxdepth 1 -type f \( -name 'mdvsp*.tar.gz' -o -name 'mdvsp*.deb' \) | sort | sed 's|^\./||' \
  | xargs -d '\n' sha256sum > SHA256SUMS)
echo "$folder/$name.tar.gz"
