#!/usr/bin/env bash
# Each line number section in the tests of elfutils, binutils and LLVM, which have programs and objects by many compilers: its rows as
# the program prints them, upgraded where they are older, are those that llvm-dwarfdump prints, but for the sections named below.
# usage: tests/suites.sh FOLDER
# FOLDER has source packages, NAME_VERSION.orig.tar.*; where it has none of elfutils, binutils and llvm-toolchain, apt-get downloads them
# (200 MB; a line `deb-src` has to be in its list of sources). Without a FOLDER all is skipped.
cd "$(dirname "$(readlink -f -- "$0")")/.." || exit 1
. tests/check.bash

# Sections whose rows differ, by the name of the file without the package's folder, and why they do.
declare -A differs=()

# The names of packages: LLVM's has its version in it.
names() {
  echo elfutils
  echo binutils
  echo "llvm-toolchain-$(llvm-dwarfdump --version | sed -nE 's/.*LLVM version ([0-9]+).*/\1/p')"
}
download() { # FOLDER
  local name
  for name in $(names); do
    compgen -G "$1/${name%%-*}*.orig.tar.*" >/dev/null || (cd "$1" && apt-get source --download-only "$name") >"$work/said" 2>&1 ||
      skip "apt-get downloads no source package $name: $(grep '^E:' "$work/said" | head -n 1)"
  done
}

# The rows of a section, as both sides have them: without operation indexes, and 16 bits of a column, as llvm-dwarfdump keeps them.
our_rows() { # N ORDER SIZE LEAST
  local big= section=$work/$1.line
  [ "$2" = little ] || big=--big
  if [ "$4" -lt 5 ]; then
    ./linetab upgrade $big --address-size "$3" "$section" >"$work/upgraded" || { cat "$work/upgraded"; return; }
    section=$work/upgraded
  fi
  ./linetab dump --rows $big "$section" |
    awk '$1 == "row" { print $1, $2, $3, $5, $6, $7 % 65536, $8, $9, $10, $11 } $1 == "no" { print }'
}
compare() { # N ORDER SIZE LEAST NAME
  local name=${5#*/}
  is_chosen "$5" || return 0
  our_rows "$1" "$2" "$3" "$4" >"$work/ours" 2>"$work/err"
  llvm-dwarfdump --debug-line "$work/$1" 2>"$work/err" | awk -f tests/peers/llvm_rows.awk >"$work/theirs"
  if cmp -s "$work/ours" "$work/theirs"; then
    [ -z "${differs[$name]}" ] || echo "as llvm-dwarfdump has it, and is named as one that differs: $5"
    pass "$5"
  elif [ -n "${differs[$name]}" ]; then
    echo "differs: $5: ${differs[$name]}"
    pass "$5"
  else
    fail "$5"
    diff "$work/theirs" "$work/ours" | head -n 10
  fi
}

[ $# -le 1 ] || refuse_words tests/suites.sh
[ $# -eq 1 ] || { skip 'the tests of elfutils, binutils and LLVM: no folder for their source packages is named'; finish; }
folder=$(from_there "$1")
[ -d "$folder" ] || { echo "suites.sh: $1 is no folder" >&2; exit 2; }
here 'the tests of elfutils, binutils and LLVM' llvm-dwarfdump python3 || finish
download "$folder"
packages=()
for package in "$folder"/*.orig*.tar.*; do
  [[ $package == *.asc || ! -e $package ]] || packages+=("$package")
done
python3 -B tests/suites.py "$work" "${packages[@]}" >"$work/sections" || fail "the packages aren't read"
sed -n 's/^- /left out: /p' "$work/sections"
while read -r number order size least _ name; do
  compare "$number" "$order" "$size" "$least" "$name"
done < <(grep -v '^- ' "$work/sections")
finish
