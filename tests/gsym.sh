#!/usr/bin/env bash
# linetab symbols of GSYM files: what LLVM's own reader answers from odd ones, files that are written by hand and at random, broken ones,
# and their faults.
cd "$(dirname "$(readlink -f -- "$0")")/.." || exit 1
. tests/check.bash
mkdir "$work/files" && tar xJf tests/resolver/gsym.tar.xz -C "$work/files" || exit 1
expect 'odd files' 0 $'10559 passed, 0 failed\n' '' python3 tests/resolver.py "$program" "$work/files"
expect 'files at random, and broken ones' 0 $'20000 passed, 0 failed\n' '' python3 tests/gsym_cases.py "$program" 20000 1

table=$'low,high,path,line\n0x1000,0x1004,/src/a.c,5\n0x1004,0x1008,/src/a.c,7\n0x1008,0x1010,b.h,9\n0x1014,0x1020,/src/a.c,20\n'
table+=$'0x1032,0x1038,/src/a.c,40\n0x1040,0x1050,/src/a.c,50\n0x1050,0x1054,/src/a.c,60\n'
for order in little big; do
  python3 tests/gsym_file.py $order "$work/$order"
  expect_notes "a file, $order-endian" 0 "$table" '' "$program" symbols "$work/$order"
done
expect_notes 'a file by a pipe' 0 "$table" '' bash -c 'cat "$1" | "$0" symbols -' "$program" "$work/little"
note='linetab: note: a GSYM file has a base of its own, so --base is passed over'
expect_notes 'a base' 0 "$table" "$note"$'\n' "$program" symbols "$work/little" --base 0x400000
expect_notes 'a base, quiet' 0 "$table" '' "$program" symbols "$work/little" --base 0x400000 --quiet
expect_notes 'a base of 0' 0 "$table" '' "$program" symbols "$work/little" --base 0x0
head -c 47 "$work/little" >"$work/cut"
expect_notes 'a header that is cut' 1 $'no 45 symbols at 0x0: cut\n' '' "$program" symbols "$work/cut"
head -c -1 "$work/little" >"$work/cut"
expect_notes 'an info that is cut' 1 "no 45 symbols at 0x$(printf %x $(($(stat -c %s "$work/little") - 4))): cut"$'\n' '' "$program" symbols "$work/cut"
finish
