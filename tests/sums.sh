#!/usr/bin/env bash
# The listed sum of a program that clang compiled, where it is here: its source as it was, changed, gone, and no regular file.
cd "$(dirname "$(readlink -f -- "$0")")/.." || exit 1
. tests/check.bash
here 'the sum of a program that clang compiled' clang objcopy || finish
source=$work/sum.c
echo 'int main(void) { return 0; }' >"$source"
(cd "$work" && clang -gdwarf-5 -o sum sum.c && objcopy --dump-section .debug_line=line --dump-section .debug_line_str=line_str sum) || exit 1
sums=(./linetab md5 "$work/line" --line-str "$work/line_str")
expect 'a source as it was' 0 "unit 0 file 0 same \"$source\""$'\n' '' "${sums[@]}"
echo '// changed' >>"$source"
sum=$(md5sum "$source" | cut -d ' ' -f 1)
expect 'a source that was changed' 1 "unit 0 file 0 differs $sum \"$source\""$'\n' '' "${sums[@]}"
# More than is read at a time.
seq 20000 >"$source"
sum=$(md5sum "$source" | cut -d ' ' -f 1)
expect 'a source of 108,894 bytes' 1 "unit 0 file 0 differs $sum \"$source\""$'\n' '' "${sums[@]}"
rm "$source"
expect 'a source that is gone' 1 "unit 0 file 0 unreadable \"$source\""$'\n' '' "${sums[@]}"
mkfifo "$source"
expect 'a pipe in place of a source' 1 "unit 0 file 0 unreadable \"$source\""$'\n' '' timeout 20 "${sums[@]}"
ln -sf /dev/zero "$source"
expect 'a device in place of a source' 1 "unit 0 file 0 unreadable \"$source\""$'\n' '' timeout 20 "${sums[@]}"
finish
