#!/usr/bin/env bash
# Tables of the example sections, checked against them, whole and changed; sections converted and back.
cd "$(dirname "$(readlink -f -- "$0")")/.." || exit 1
. tests/check.bash
. tests/unit.bash

# Changes one digit of the last number of a record.
changed() { # RECORD FILE
  awk -F , -v OFS=, -v at="$1" 'NR == at + 1 { $7 = $7 + 1 } { print }' "$2"
}

judge() { # NAME [OPTION..]
  local section=examples/$1.debug_line strings=examples/$1.debug_line_str records
  local words=("${@:2}" --line-str "$strings")
  crates/linetab/out/linetab table "$section" "${words[@]}" >"$work/table"
  crates/linetab/out/linetab table --wide "$section" "${words[@]}" >"$work/wide"
  expect "$1 and its table" 0 $'yes\n' '' crates/linetab/out/linetab check "$section" "$work/table" "${words[@]}"
  expect "$1 and its wide table" 0 $'yes\n' '' crates/linetab/out/linetab check "$section" "$work/wide" "${words[@]}"
  expect "$1 and its table on standard input" 0 $'yes\n' '' crates/linetab/out/linetab check "$section" - "${words[@]}" <"$work/table"
  for flag in --paths --lines; do
    crates/linetab/out/linetab table "$flag" "$section" "${words[@]}" >"$work/other"
    expect "$1 and its table $flag" 0 $'yes\n' '' crates/linetab/out/linetab check "$section" "$work/other" "${words[@]}"
    IFS=, read -r low _ path rest < <(tail -n 1 "$work/other")
    expect "$1 and its table $flag without the last record" 1 "no 40 differs at $low,0 table none section \"$path\",$rest"$'\n' '' \
      crates/linetab/out/linetab check "$section" - "${words[@]}" < <(head -n -1 "$work/other")
    expect "$1 and its table $flag with another path at its end" 1 \
      "no 40 differs at $low,0 table \"$path/\",$rest section \"$path\",$rest"$'\n' '' \
      crates/linetab/out/linetab check "$section" - "${words[@]}" < <(sed "\$s!$path!$path/!" "$work/other")
  done
  records=$(($(wc -l <"$work/table") - 1))
  # Three records, picked by a fixed rule, with another line.
  for record in 1 $((records / 3 + 1)) "$records"; do
    changed "$record" "$work/table" >"$work/other"
    IFS=, read -r low op _ _ unit file line column stmt < <(sed -n "$((record + 1))p" "$work/table")
    expect "$1 and its table with another line in record $record" 1 \
      "no 40 differs at $low,$op table $unit,$file,$((line + 1)),$column,$stmt section $unit,$file,$line,$column,$stmt"$'\n' '' \
      crates/linetab/out/linetab check "$section" "$work/other" "${words[@]}"
  done
  head -n -1 "$work/table" >"$work/other"
  IFS=, read -r low op _ _ rest < <(tail -n 1 "$work/table")
  expect "$1 and its table without the last record" 1 "no 40 differs at $low,$op table none section $rest"$'\n' '' \
    crates/linetab/out/linetab check "$section" "$work/other" "${words[@]}"
}

# A section in both formats and orders has the same operations, and rows, and comes back as it was.
convert() { # NAME [--big]
  local section=examples/$1.debug_line order=little
  [ "${2:-}" = --big ] && order=big
  local format
  format=$(crates/linetab/out/linetab units "${@:2}" "$section" | awk 'NR == 1 { print $2 }')
  crates/linetab/out/linetab convert "${@:2}" "$section" --format 64 --order big >"$work/wide_section"
  crates/linetab/out/linetab convert --big "$work/wide_section" --format "$format" --order "$order" >"$work/again"
  crates/linetab/out/linetab dump --ops --rows "${@:2}" "$section" | grep -v '^unit' >"$work/dump"
  expect "$1 in the 64-bit format, big-endian" 0 "$(cat "$work/dump")"$'\n' '' bash -c "crates/linetab/out/linetab dump --ops --rows --big '$work/wide_section' | grep -v '^unit'"
  expect "$1 and back" 0 '' '' cmp "$section" "$work/again"
}

# A thousand units, each of two rows at an address of its own.
many() {
  local all address k
  all=$(awk -v header="43000000$start$header" 'BEGIN {
    for (k = 0; k < 1000; k++) {
      address = 4096 + 16 * k
      printf "%s000902%02x%02x000000000000144b0202000101", header, address % 256, int(address / 256)
    }
  }')
  bytes "$all" >"$work/many"
  crates/linetab/out/linetab table "$work/many" >"$work/table"
  expect 'a thousand units' 0 $'2001\n' '' bash -c "wc -l <'$work/table'"
  expect 'a thousand units and their table' 0 $'yes\n' '' crates/linetab/out/linetab check "$work/many" "$work/table"
  head -n -2 "$work/table" >"$work/other"
  expect 'a thousand units and a table without the last of them' 1 $'no 40 differs at 0x4e70,0 table none section 70929,1,3,0,1\n' '' crates/linetab/out/linetab check "$work/many" "$work/other"
  for k in 0 1 500 999; do
    address=$(printf '0x%x' $((4096 + 16 * k)))
    expect "the first row of unit $k" 0 "$address,0 unit $((71 * k)) file 1 line 3 column 0 stmt 1 path \"/s/a.c\""$'\n' '' crates/linetab/out/linetab lookup "$work/many" "$address"
  done
}

judge hello
judge hello-clang
judge gc-sections --dead 0x0
judge powerpc64 --big
for name in hello hello-clang gc-sections; do
  convert "$name"
done
convert powerpc64 --big
many
finish
