#!/usr/bin/env bash
# What linetab-object check says of symbol files that the makers that are here write of two programs in C++, by bench/symbols: of right
# ones, and of those of the stripped program, of another build, from another base, without main, with a line changed, cut and empty.
cd "$(dirname "$(readlink -f -- "$0")")/.." || exit 1
. tests/check.bash

of_program() { # COMMAND TOOL..
  local line
  here "symbol files of $1" "${@:2}" strip readelf || return
  bench/symbols "$1" >"$work/rows" 2>"$work/said"
  while IFS= read -r line; do
    case $line in
      *'**'*) fail "$line" ;;
      *'makes none'*) skip "$line" ;;
      *) pass "$line" ;;
    esac
  done < <(sed 1,2d "$work/rows")
  while IFS= read -r line; do
    case $line in
      'not here: '*) skip "${line#not here: } isn't here: symbol files of $1" ;;
      *) fail "$line" ;;
    esac
  done <"$work/said"
}

of_program 'g++ -O2 -fuse-ld=bfd -fno-pie -no-pie' g++ ld.bfd
of_program 'clang++ -O0 -fuse-ld=lld -fPIE -pie' clang++ ld.lld
# Units of version 4, and in one a compilation directory that is in a supplementary file.
of_program --target=x86_64-linux-android21 clang ld.lld
of_program 'rustc' rustc
of_program dwz g++ dwz
finish
