#!/usr/bin/env bash
# Installs the built program below a folder of its own and looks at what stands there: the program's version, the
# manual page, the completions of three shells, the links of the pages. It packs a release and a Debian package, each
# twice, and compares their bytes; where root may, it installs the package, runs the program and removes it again.
#
#     tests/packaging.sh [PROGRAM]
#
# PROGRAM is bin/mdvsp, or what the gate built, where it isn't given. What isn't installed here (man, a shell, dpkg-deb)
# is named and skipped. It ends with 1 where a part failed, and leaves nothing behind.
set -u
name=packaging
. "$(dirname "$0")/program.sh"
parts=0
failed=0
export PYTHONDONTWRITEBYTECODE=1

# Runs a part, and shows what it prints where it fails.
part() {
  parts=$((parts + 1))
  if ! "$@" > "$work/said" 2>&1; then
    failed=$((failed + 1))
    echo "packaging: $1 failed"
    sed 's/^/    /' "$work/said"
  fi
}

# Runs a part where a command is there, else says that it is skipped.
part_with() {
  local command=$1
  shift
  if command -v "$command" > /dev/null; then
    part "$@"
  else
    echo "packaging: $command isn't here, so $1 is skipped"
  fi
}

installs() {
  make --no-print-directory --old-file="$program" install DESTDIR="$work/root" PREFIX=/usr PROGRAM="$program" || return
  "$work/root/usr/bin/mdvsp" --version | grep -x "mdvsp $(sed -n 's/^version: //p' packaging/commands.txt)" || return
  "$work/root/usr/bin/mdvsp" check < <(cat examples/two_trips.csv examples/two_trips_plan.csv) | grep '^yes,'
}

judges_as_a_second() {
  (cd "$work/root/usr/share/doc/mdvsp" && tools/second_check.py examples/two_trips.csv examples/two_trips_plan.csv) \
    | grep '^yes,'
}

# `man` warns on standard error and ends with 0.
reads_as_a_manual() {
  LC_ALL=C.UTF-8 MANWIDTH=80 man --warnings -l "$work/root/usr/share/man/man1/mdvsp.1" > "$work/page" 2> "$work/warned"
  cat "$work/warned"
  [ ! -s "$work/warned" ] && grep -q -- '--nodes' "$work/page"
}

completes_in_bash() {
  local found
  found=$(bash --norc -c '. "$1"; COMP_WORDS=(mdvsp pe); COMP_CWORD=1; _mdvsp; echo "${COMPREPLY[@]}"
    COMP_WORDS=(mdvsp solve --w); COMP_CWORD=2; _mdvsp; echo "${COMPREPLY[@]}"' - \
    "$work/root/usr/share/bash-completion/completions/mdvsp")
  echo "$found"
  [ "$found" = $'peak peakcheck\n--workers' ]
}

# A shell in a terminal of its own completes what is typed, as a user's would.
completes_in_zsh() {
  zsh -n "$work/root/usr/share/zsh/site-functions/_mdvsp" || return
  cat > "$work/zsh" << 'END'
zmodload zsh/zpty
zpty -b shell 'TERM=dumb zsh -f -i'
zpty -w shell "PS1= PROMPT_EOL_MARK=; fpath=($1 \$fpath); autoload -Uz compinit; compinit -u -D"
zpty -w shell "bindkey '^I' complete-word"
zpty -w shell 'print rea"dy"'
local line found
repeat 200 { zpty -r -t shell line && found+=$line; [[ $found == *ready$'\r'* ]] && break; sleep 0.1 }
zpty -n -w shell $'mdvsp peakc\t'
found=
repeat 100 { zpty -r -t shell line && found+=$line; [[ ${found//[^a-z]/} == *peakcheck* ]] && break; sleep 0.1 }
print -r -- $found
zpty -d shell
[[ ${found//[^a-z]/} == *peakcheck* ]]
END
  zsh -f "$work/zsh" "$work/root/usr/share/zsh/site-functions"
}

completes_in_fish() {
  local found
  found=$(HOME=$work fish --no-config -c 'source $argv[1]; complete -C "mdvsp pe"; complete -C "mdvsp solve --w"' \
    "$work/root/usr/share/fish/vendor_completions.d/mdvsp.fish" | cut -f1)
  echo "$found"
  [ "$found" = $'peak\npeakcheck\n--workers' ]
}

# Each link of a page that leads into the pages' folders leads to a file there.
has_what_pages_link() (
  broken=0
  cd "$work/root/usr/share/doc/mdvsp" || return
  for page in docs/*.md docs/formats/*.md; do
    for link in $(grep -o ']([^)#: ]*[)#]' "$page" | sed 's/^](//; s/[)#]$//'); do
      case $(realpath -m --relative-to=. "$(dirname "$page")/$link") in
        docs/* | web/* | README.md | CHANGES.md)
          [ -e "$(dirname "$page")/$link" ] || { echo "$page: there is no $link"; broken=1; } ;;
      esac
    done
  done
  exit "$broken"
)

leaves_nothing() {
  make --no-print-directory uninstall DESTDIR="$work/root" PREFIX=/usr || return
  local left
  left=$(find "$work/root" -type f)
  echo "$left"
  [ -z "$left" ]
}

packs_the_same_release_twice() {
  packaging/release.sh "$program" "$work/first" && packaging/release.sh "$program" "$work/second" || return
  cmp "$work/first/SHA256SUMS" "$work/second/SHA256SUMS" || return
  (cd "$work/first" && sha256sum --check SHA256SUMS && tar xzf mdvsp-*.tar.gz && cd mdvsp-*/ \
    && sha256sum --check --quiet SHA256SUMS && bin/mdvsp --version)
}

packs_the_same_package_twice() {
  packaging/deb.sh "$program" "$work/first" && packaging/deb.sh "$program" "$work/second" || return
  cmp "$work"/first/*.deb "$work"/second/*.deb
}

installs_as_a_package() {
  dpkg --install "$work"/first/*.deb || return
  local status=0
  /usr/bin/mdvsp --version && /usr/bin/mdvsp make 2 | /usr/bin/mdvsp network || status=1
  dpkg --verify mdvsp || status=1
  dpkg --purge mdvsp || status=1
  [ ! -e /usr/bin/mdvsp ] && [ ! -e /usr/share/doc/mdvsp ] || status=1
  return "$status"
}

part installs
part_with python3 judges_as_a_second
part_with man reads_as_a_manual
part_with bash completes_in_bash
part_with zsh completes_in_zsh
part_with fish completes_in_fish
part has_what_pages_link
part leaves_nothing
part_with python3 packs_the_same_release_twice
part_with dpkg-deb packs_the_same_package_twice
if [ "$(id -u)" -ne 0 ] || ! command -v dpkg > /dev/null; then
  echo "packaging: only root installs a package with dpkg, so that is skipped"
elif [ -e /usr/bin/mdvsp ] || dpkg --status mdvsp > /dev/null 2>&1; then
  echo "packaging: mdvsp is installed on this machine, so its package isn't tried"
else
  part_with dpkg-deb installs_as_a_package
fi
echo "packaging: $parts parts, $failed failed"
[ "$failed" -eq 0 ]
