#!/usr/bin/env bash
# Compares what the program says of a section with what llvm-dwarfdump and readelf say of it, where they are there.
# peers.sh [SECTION LINE_STR little|big DEAD]..: the raw sections, each with the 16 digits of the address at which its
# discarded sequences begin, or - where there are none; with no words, those of examples/.
cd "$(dirname "$(readlink -f -- "$0")")/.." || exit 1
. tests/check.bash

# A program that has the sections and nothing else, for tools that don't read raw ones.
image() { # SECTION LINE_STR ORDER
  local target=elf64-x86-64
  [ "$3" = big ] && target=elf64-powerpc
  llvm-objcopy -I binary -O "$target" --rename-section .data=.debug_line "$1" "$work/image" &&
    llvm-objcopy --add-section ".debug_line_str=$2" "$work/image"
}

# same NAME: whether the texts `ours` and `theirs` are the same, and not empty.
same() {
  if [ -s "$work/ours" ] && cmp -s "$work/ours" "$work/theirs"; then
    pass "$1"
    return
  fi
  fail "$1"
  is_chosen "$1" || return 0
  diff "$work/theirs" "$work/ours" | head -n 10
}

# What `lookup` says at a sample of the table's addresses, always the same, and outside of all its records.
lookups() { # WORD..
  local records low high unit file line column stmt at
  RANDOM=1
  mapfile -t records < <(tail -n +2 "$work/table")
  : >"$work/ours" >"$work/theirs"
  for _ in {1..20}; do
    IFS=, read -r low _ high _ unit file line column stmt <<<"${records[(RANDOM * 32768 + RANDOM) % ${#records[@]}]}"
    at=$(printf '0x%x' $((low + RANDOM % (high - low))))
    ./linetab lookup "$@" "$at" | sed 's/ path .*//' >>"$work/ours"
    echo "$at,0 unit $unit file $file line $line column $column stmt $stmt" >>"$work/theirs"
  done
  IFS=, read -r low _ <<<"${records[0]}"
  IFS=, read -r _ _ high _ <<<"${records[-1]}"
  for at in $(printf '0x%x 0x%x' $((low - 1)) $((high))); do
    ./linetab lookup "$@" "$at" >>"$work/ours"
    echo "$at,0 none" >>"$work/theirs"
  done
}

compare() { # SECTION LINE_STR ORDER DEAD
  local big= dead=()
  [ "$3" = big ] && big=--big
  [ "$4" = - ] || dead=(--dead "$4")
  image "$1" "$2" "$3" || { fail "no image of $1"; return; }
  ./linetab dump $big "$1" | awk -f tests/peers/ours.awk >"$work/headers"
  cp "$work/headers" "$work/ours"
  llvm-dwarfdump --debug-line --verbose "$work/image" | awk -f tests/peers/llvm.awk >"$work/theirs"
  same "headers of $1 by llvm-dwarfdump"
  sed -E 's/^(unit [^ ]*) [^ ]*/\1/; s/^(file .*) [^ ]*$/\1/' "$work/headers" >"$work/ours"
  readelf --debug-dump=rawline "$work/image" 2>"$work/err" | awk -f tests/peers/readelf.awk >"$work/theirs"
  same "headers of $1 by readelf"
  ./linetab dump --ops $big "$1" | grep '^op ' >"$work/ours"
  readelf --debug-dump=rawline "$work/image" 2>"$work/err" | awk -f tests/peers/readelf_ops.awk >"$work/theirs"
  same "operations of $1 by readelf"
  # llvm-dwarfdump keeps 16 bits of a column, and no operation index.
  ./linetab dump --rows $big "$1" | awk '$1 == "row" { print $1, $2, $3, $5, $6, $7 % 65536, $8, $9, $10, $11 }' >"$work/ours"
  llvm-dwarfdump --debug-line "$work/image" | awk -f tests/peers/llvm_rows.awk >"$work/theirs"
  same "rows of $1 by llvm-dwarfdump"
  { echo low,low_op,high,high_op,unit,file,line,column,is_stmt
    llvm-dwarfdump --debug-line "$work/image" | awk -v dead="$4" -f tests/peers/llvm_table.awk | LC_ALL=C sort; } >"$work/table"
  expect "$1 and a table of llvm-dwarfdump's rows" 0 $'yes\n' '' ./linetab check $big "${dead[@]}" "$1" "$work/table" --line-str "$2"
  lookups $big "${dead[@]}" "$1" --line-str "$2"
  same "lookups in $1 by llvm-dwarfdump"
  llvm-dwarfdump --debug-line "$work/image" | ./linetab-table llvm-dwarfdump - "${dead[@]}" >"$work/theirs"
  ./linetab table --paths $big "${dead[@]}" "$1" --line-str "$2" >"$work/ours"
  same "the table by path of $1 by llvm-dwarfdump"
  expect "$1 and its table by path by llvm-dwarfdump" 0 $'yes\n' '' \
    ./linetab check $big "${dead[@]}" "$1" "$work/theirs" --line-str "$2"
}

# What each awk that is here makes of what all say, whether a script is for that or not, is what `awk` makes of it.
by_each_awk() { # SECTION
  local awk script
  { ./linetab dump "$1"
    llvm-dwarfdump --debug-line --verbose "$work/image"
    llvm-dwarfdump --debug-line "$work/image"
    readelf --debug-dump=rawline "$work/image"; } >"$work/said" 2>"$work/err"
  for awk in gawk mawk original-awk 'busybox awk'; do
    command -v "${awk% *}" >/dev/null || continue
    for script in tests/peers/*.awk; do
      awk -f "$script" "$work/said" >"$work/theirs"
      $awk -f "$script" "$work/said" >"$work/ours" 2>&1
      same "$script by $awk"
    done
  done
}

# A program of this machine's compiler, and its table of what addr2line says of each address of its code.
by_addr2line() {
  printf '%s\n' 'static int twice(int x) { return x + x; }' 'int main(int n, char **v) {' '  while (--n)' '    v += twice(n);' \
    '  return v == 0;' '}' >"$work/loop.c"
  (cd "$work" && cc -gdwarf-5 -O1 -o loop loop.c) && ./linetab-object verify "$work/loop" >"$work/err" 2>&1 || { skip "cc makes no DWARF 5"; return; }
  ./linetab-table points addr2line "$work/loop" >"$work/theirs"
  ./linetab-object table "$work/loop" --lines >"$work/ours" 2>"$work/err"
  same "the table of a program's lines by addr2line"
  expect "a program and the table of its lines by addr2line" 0 $'yes\n' '' ./linetab-object check "$work/loop" "$work/theirs"
}

[ $(($# % 4)) -eq 0 ] || { echo 'usage: tests/peers.sh [SECTION LINE_STR little|big DEAD]..' >&2; exit 2; }
here 'what others say of a section' llvm-objcopy llvm-dwarfdump readelf || finish
! here 'a table by addr2line' cc addr2line || by_addr2line
if [ $# -eq 0 ]; then
  for name in hello hello-clang; do
    compare "examples/$name.debug_line" "examples/$name.debug_line_str" little -
  done
  by_each_awk examples/hello-clang.debug_line
  compare examples/gc-sections.debug_line examples/gc-sections.debug_line_str little 0x0000000000000000
  compare examples/powerpc64.debug_line examples/powerpc64.debug_line_str big -
fi
while [ $# -gt 0 ]; do
  compare "$(from_there "$1")" "$(from_there "$2")" "$3" "$4"
  shift 4
done
finish
