#!/usr/bin/env bash
# Installs the program, its manual page, the completions of three shells, the pages, the judge for a browser and the
# second checker, or removes them again. `make install` and `make uninstall` call it, and so do the packages.
#
#     packaging/install.sh FOLDER [PROGRAM]    installs below FOLDER, such as /usr/local. PROGRAM is bin/mdvsp
#     packaging/install.sh --remove FOLDER     removes what was installed there
set -eu
umask 022
cd "$(dirname "$0")/.."

# What is installed in places that other programs share.
SHARED="bin/mdvsp share/man/man1/mdvsp.1 share/bash-completion/completions/mdvsp share/zsh/site-functions/_mdvsp
  share/fish/vendor_completions.d/mdvsp.fish"
DOC=share/doc/mdvsp

# The files of the repository that stand in the folder of pages, where their links lead to each other.
pages() {
  printf '%s\n' README.md CHANGES.md LICENSE web/judge.html tools/second_check.py
  find docs -type f | LC_ALL=C sort
  find examples -maxdepth 1 -name '*.csv' | LC_ALL=C sort
  find examples/night -type f | LC_ALL=C sort
}

remove() {
  local file
  for file in $SHARED; do
    rm -f "$1/$file"
  done
  rm -rf "${1:?}/$DOC"
}

install_all() {
  local to=$1 program=$2 file
  if [ ! -x "$program" ]; then
    echo "install: there is no $program: \`make\` builds it" >&2
    exit 1
  fi
  install -Dm755 "$program" "$to/bin/mdvsp"
  install -Dm644 packaging/mdvsp.1 "$to/share/man/man1/mdvsp.1"
  install -Dm644 packaging/completions/mdvsp.bash "$to/share/bash-completion/completions/mdvsp"
  install -Dm644 packaging/completions/_mdvsp "$to/share/zsh/site-functions/_mdvsp"
  install -Dm644 packaging/completions/mdvsp.fish "$to/share/fish/vendor_completions.d/mdvsp.fish"
  # A page that was renamed since isn't left behind.
  rm -rf "${to:?}/$DOC"
  for file in $(pages); do
    install -Dm644 "$file" "$to/$DOC/$file"
  done
  chmod 755 "$to/$DOC/tools/second_check.py" "$to/$DOC/examples/night/plan.sh" "$to/$DOC/examples/night/array.sh"
}

case ${1:-} in
  "") sed -n '2,6s/^# \{0,1\}//p' "$0" >&2; exit 2 ;;
  --remove) remove "${2:?a folder}" ;;
  *) install_all "$1" "${2:-bin/mdvsp}" ;;
esac
