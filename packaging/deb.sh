#!/usr/bin/env bash
# Makes a Debian package of the built program, without a network: dist/mdvsp_VERSION_ARCHITECTURE.deb.
#
#     packaging/deb.sh [PROGRAM [FOLDER]]    PROGRAM is bin/mdvsp, FOLDER is dist
set -eu
cd "$(dirname "$0")/.."
. packaging/common.sh
program=${1:-bin/mdvsp}
folder=${2:-dist}
if ! command -v dpkg-deb > /dev/null; then
  echo "deb: dpkg-deb isn't here, so no Debian package is made" >&2
  exit 1
fi
packed_program "$program"

work=$(mktemp -d)
trap 'rm -rf "$work"' EXIT
tree=$work/tree
packaging/install.sh "$tree/usr" "$program"

# Debian keeps manual pages and changes compressed, and the licence as `copyright`.
doc=$tree/usr/share/doc/mdvsp
gzip -9n "$tree/usr/share/man/man1/mdvsp.1"
gzip -9nc CHANGES.md > "$doc/changelog.gz"
mkdir -p "$tree/usr/share/zsh/vendor-completions"
mv "$tree/usr/share/zsh/site-functions/_mdvsp" "$tree/usr/share/zsh/vendor-completions/_mdvsp"
rmdir "$tree/usr/share/zsh/site-functions"
{
  printf 'Format: https://www.debian.org/doc/packaging-manuals/copyright-format/1.0/\n\nFiles: *\n'
  sed -n 's/^Copyright (c) /Copyright: /p' LICENSE
  printf 'License: MIT\n'
  sed '1,/^Copyright/d' LICENSE | sed '1{/^$/d}; s/^$/./; s/^/ /'
} > "$doc/copyright"
rm "$doc/LICENSE"

architecture=$(dpkg --print-architecture)
depends=""
if ! LC_ALL=C ldd "$program" 2>&1 | grep -q 'not a dynamic executable\|statically linked'; then
  depends=$'\nDepends: libc6'
fi
mkdir "$tree/DEBIAN"
cat > "$tree/DEBIAN/control" << END
Package: mdvsp
Version: $version-1
Architecture: $architecture
Maintainer: the mdvsp maintainers <mdvsp@localhost>
Installed-Size: $(du -sk --apparent-size "$tree/usr" | cut -f1)
Section: science
Priority: optional$depends
Suggests: python3
Description: plans the vehicles of a bus company, and judges such plans
 mdvsp finds which vehicle runs which trips of a day's timetable at the least
 cost that it can find (the multiple-depot vehicle scheduling problem). A bound
 and prices that prove it stand beside each plan.
END
(cd "$tree" && find usr -type f -print0 | sort -z | xargs -0 md5sum) > "$tree/DEBIAN/md5sums"
find "$tree" -exec touch -hd "@$SOURCE_DATE_EPOCH" {} +
find "$tree" -type d -exec chmod 755 {} +
mkdir -p "$folder"
file=$folder/mdvsp_$version-1_$architecture.deb
dpkg-deb --root-owner-group --threads-max=1 -Zxz --build "$tree" "$file" > "$work/said" || { cat "$work/said"; exit 1; }
echo "$file"
