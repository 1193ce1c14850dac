#!/usr/bin/env bash
# linetab-object symbolize: texts of each kind with addresses in them, texts that are made up, and hostile ones.
cd "$(dirname "$(readlink -f -- "$0")")/.." || exit 1
. tests/check.bash
hello=(.debug_line=examples/hello.debug_line .debug_line_str=examples/hello.debug_line_str code=0x1000,0x1000)
says=linetab-object:
at='/w/src/small/a.c:1:50'

# A folder with the script, its modules and the program alone, as they are installed.
mkdir -p "$work/bin" "$work/share/linetab"
cp linetab-object "$work/bin"
cp -r share/scripts "$work/share/linetab"
ln -s "$PWD/crates/linetab/out/linetab" "$work/bin/linetab"
object() { # WORD..
  "$work/bin/linetab-object" "$@"
}
export -f object
export work
python3 tests/images.py elf64 "$work/app" "${hello[@]}"
# texts NAME TEXT WANTED [OPTION..]
texts() {
  printf "$2" >"$work/text"
  expect "$1" 0 "$(printf "$3"; echo .)"$'\n' '' bash -c 'object symbolize "${@:2}" <"$1"; status=$?; echo .; exit $status' . "$work/text" "$work/app" "${@:4}"
}
# The same text, as it is.
kept() { # NAME TEXT
  texts "$1" "$2" "$2" --quiet
}

# ---- what is an address

texts 'an address' '0x1137\n' "0x1137 $at\n"
texts 'a last line without its end' '0x1137' "0x1137 $at"
texts 'a line that ends in a carriage return' '0x1137\r\n1137\r\n' "0x1137 $at\r\n1137 $at\r\n"
texts 'zeros and capitals before it' '0X00001137 0x113E\n' "0X00001137 $at 0x113E /w/src/small/a.c:1:43\n"
texts 'a backtrace of the C library' './app(f+0x1137) [0x1137]\n./app(+0x1137) [0x55d01137]\n' \
  "./app(f+0x1137) [0x1137 $at]\n./app(+0x1137 $at) [0x55d01137]\n"
texts 'one of AddressSanitizer' '    #0 0x55d01137 in f (/tmp/app+0x1137) (BuildId: 00112233)\n' \
  "    #0 0x55d01137 in f (/tmp/app+0x1137 $at) (BuildId: 00112233)\n"
texts 'a program of Windows' 'C:\\tmp\\app.exe+0x1137 app.exe+0x1137\n' "C:\\\\tmp\\\\app.exe+0x1137 $at app.exe+0x1137\n"
texts 'one of gdb' '#1  0x0000000000001137 in f (n=1137) at a.c:1137\n' "#1  0x0000000000001137 $at in f (n=1137) at a.c:1137\n"
texts 'one of the kernel' '[<0000000000001137>] f+0x1137/0x1140\n' "[<0000000000001137 $at>] f+0x1137/0x1140\n"
texts 'a script of perf' '        1137 f+0x1137 (/tmp/app)\n\tffffffff81001137 g ([k])\n' \
  "        1137 $at f+0x1137 (/tmp/app)\n\tffffffff81001137 g ([k])\n"
texts 'a list' '1137\n113e\n\n00001137\n' "1137 $at\n113e /w/src/small/a.c:1:43\n\n00001137 $at\n"
texts 'frames' '#0 1137 f\n#12 0x1137 g\n' "#0 1137 $at f\n#12 0x1137 $at g\n"
kept 'numbers that are none' 'line 1137, 1137: pid=1137 at 12:1137 2026-11-27\n1137.5 1137-1138\n'
kept 'numbers in words' 'x0x1137 0x1137g _0x1137 $0x1137 0x 0x11370000000000000 a1137\n'
kept 'words' 'dead face added 0xdead\n'
kept 'no address' 'abc\n'
kept 'nothing' ''
texts 'bytes of all kinds' '\377\200 0x1137 \033[0m\n' "\377\200 0x1137 $at \033[0m\n"

# ---- what is said

expect 'other options' 0 "0x1137 $at"$'\n' '' bash -c 'echo 0x1137 | object symbolize --quiet "$0" --skip-copies' "$work/app"
texts 'a base' '0x55d000001137 (+0x1137) 0x1137\n' "0x55d000001137 $at (+0x1137 $at) 0x1137\n" --base 0x55d000000000
texts 'a base without 0x' '0x55d000001137\n' "0x55d000001137 $at\n" --base=55d000000000
beyond="no address of the text lies in $work/app, whose code begins at 0x1000 and ends below 0x2000"
expect 'addresses that all lie beyond it' 0 $'0x401137 none 0x1\n' \
  "$says note: $beyond: where it was loaded elsewhere, --base ADDRESS takes away the address of its first byte there"$'\n' \
  bash -c 'echo 0x401137 none 0x1 | object symbolize "$0"' "$work/app"
expect 'the same, quiet' 0 $'0x401137\n' '' bash -c 'echo 0x401137 | object symbolize "$0" --quiet' "$work/app"
expect 'another base' 0 $'0x401137\n' "$says note: $beyond: 0x10000, which --base takes away, isn't where it was loaded"$'\n' \
  bash -c 'echo 0x401137 | object symbolize "$0" --base 0x10000' "$work/app"
python3 tests/images.py pe "$work/exe" "${hello[@]:0:2}" code=0x1000,0x1000
# There the first byte has the address 0x140000000.
expect 'a base of PE' 0 "0x7ff680001137 $at 0x7ff7c0001137"$'\n' '' \
  bash -c 'echo 0x7ff680001137 0x7ff7c0001137 | object symbolize "$0" --base 0x7ff7c0000000 --quiet' "$work/exe"
expect 'an output' 0 '' '' bash -c 'echo 0x1137 | object symbolize "$0" -o "$0.txt"' "$work/app"
expect 'which is the text' 0 "0x1137 $at"$'\n' '' cat "$work/app.txt"
for base in 0x g -1 ' 1' 1_0 0x11111111111111111; do
  expect "a base that is none: $base" 2 '' "error: --base wants 1 to 16 hexadecimal digits, and not $base"$'\n\nUsage: linetab-object symbolize '\
$'[OPTIONS] <FILE> <TEXT\n\nFor more information, try \'--help\'.\n' object symbolize "$work/app" --base="$base" </dev/null
done
expect 'no file' 2 '' $'error: one FILE is wanted\n\nUsage: linetab-object symbolize [OPTIONS] <FILE> <TEXT\n\nFor more information, try \'--help\'.\n' \
  object symbolize
expect 'two files' 2 '' $'error: one FILE is wanted\n\nUsage: linetab-object symbolize [OPTIONS] <FILE> <TEXT\n\nFor more information, try \'--help\'.\n' \
  object symbolize "$work/app" "$work/app" </dev/null
expect 'an option that is none' 2 '' $'error: unexpected argument \'--other\' found\n\n  tip: to pass \'--other\' as a value, use '\
$'\'-- --other\'\n\nUsage: linetab-object symbolize [OPTIONS] <FILE>\n\nFor more information, try \'--help\'.\n' \
  object symbolize "$work/app" --other </dev/null
expect 'standard input as the file' 3 '' "$says -: standard input is read once"$'\n' object symbolize - <"$work/app"
expect 'its help' 0 "$(object symbolize --help)"$'\n' '' object help symbolize
expect 'no addresses among its options' 1 '' '' bash -c 'object symbolize --help | grep -E -- "--(op|addresses)"'

# ---- sections that aren't good, and copies

python3 tests/images.py elf64 "$work/bad" "${hello[0]}"
# The text of a program that is refused is passed through as it is, and the status says why.
refused="$says $work/bad: no 28 string outside unit 0x0 directories entry 0"$'\n'
expect 'a section that is refused' 1 $'at 0x1137\nand 0x113e' \
  "$refused$says note: the file has no .debug_line_str and no .debug_str, in which the text may be"$'\n' \
  bash -c 'printf "at 0x1137\nand 0x113e" | object symbolize "$0"' "$work/bad"
expect 'the same, quiet' 1 $'0x1137\n' "$refused" bash -c 'echo 0x1137 | object symbolize "$0" --quiet' "$work/bad"
expect 'a refused one that ends before its text does' 0 $'1000000\n1\n' "$refused" \
  bash -c '(head -c 1000000 /dev/zero | object symbolize "$0" --quiet; echo "$?" >"$0.status") | wc -c; cat "$0.status"' "$work/bad"
expect 'a section that is refused, and an output' 1 $'0x1137\n' "$refused" \
  bash -c 'echo 0x1137 | object symbolize "$0" --quiet -o "$0.txt"' "$work/bad"
expect 'which is not written' 1 '' '' test -e "$work/bad.txt"
expect 'a section that is refused, and a closed input' 1 '' "$refused$says standard input can't be read: Is a directory"$'\n' \
  bash -c 'object symbolize "$0" --quiet <&-' "$work/bad"
expect 'a section that is refused, and a full device' 3 '' "$refused$says cannot write"$'\n' \
  bash -c 'echo 0x1137 | object symbolize "$0" --quiet >/dev/full' "$work/bad"
expect 'a file that is not there' 3 $'0x1137\n' "$says $work/none: cannot read it: No such file or directory"$'\n' \
  bash -c 'echo 0x1137 | object symbolize "$0"' "$work/none"
python3 tests/images.py elf64 "$work/no" code=0x1000,0x1000
expect 'a program without debug information' 3 $'0x1137\n' \
  "$says $work/no: it has no .debug_line: compile and link it with -gdwarf-5, and don't strip it"$'\n' \
  bash -c 'echo 0x1137 | object symbolize "$0"' "$work/no"
expect 'no room for its sections' 0 "$says $work/app: its sections can't be written to a temporary file: none"$'\n0x1137\n3\n' '' \
  bash -c '{ echo 0x1137 | (ulimit -f 0; object symbolize "$0" 2>&1); echo "$?"; } | sed "s/: File too large$/: none/"' "$work/app"
expect 'wrong words, by which no text is read' 0 $'2\n0x1137\n' '' \
  bash -c '(object symbolize "$0" --dead here 2>"$0.err"; echo $?; cat) < <(echo 0x1137)' "$work/app"
python3 tests/older_program.py elf64 "$work/older" 4,/w code=0x1000,0x1000
expect 'older units' 0 $'0x1004 /w/b.c:4:0\n' '' bash -c 'echo 0x1004 | object symbolize "$0" --quiet' "$work/older"
expect 'older units, which are refused' 1 $'0x1004\n' "$says $work/older: no 25 malformed at 0x4: version 4"$'\n' \
  bash -c 'echo 0x1004 | object symbolize "$0" --quiet --no-older' "$work/older"
python3 tests/older_program.py elf64 "$work/seven" 4,/w 7,/w code=0x1000,0x1000
expect 'units that are refused when they are upgraded' 1 $'0x1004\n' "$says $work/seven: no 25 malformed at 0x4e: version 7"$'\n' \
  bash -c 'echo 0x1004 | object symbolize "$0" --quiet' "$work/seven"
cat examples/hello.debug_line examples/hello.debug_line >"$work/twice"
python3 tests/images.py elf64 "$work/copies" .debug_line="$work/twice" "${hello[1]}"
expect 'copies' 0 "0x1137 $at"$'\n' "$says note: sequences of $work/copies hold the same positions, the first of them 0x1129: the linker \
kept one of several copies of a function, or folded functions into one (--icf); --skip-copies leaves out the others"$'\n' \
  bash -c 'echo 0x1137 | object symbolize "$0"' "$work/copies"
# A path with a byte that is escaped stays between quotes.
LC_ALL=C sed 's,/w/src,/w/\x1b[m,; s,small/a.c,small/a.c,' examples/hello.debug_line_str >"$work/strings"
python3 tests/images.py elf64 "$work/escaped" "${hello[0]}" .debug_line_str="$work/strings"
expect 'a path with an escape' 0 $'"\\x1b[m"\n' '' \
  bash -c 'echo 0x1137 | object symbolize "$0" | grep -oE "\"[^\"]*\"" | sed -E "s,[^\\]*(.x1b\[m).*,\"\1\","' "$work/escaped"

# ---- streams

exec 7> >(exec 8>&-; object symbolize "$work/app" >"$work/told")
for line in 0x1137 none 0x113e; do
  echo "$line" >&7
  for ((i = 0; i < 200; i++)); do
    [ "$(tail -n 1 "$work/told" | cut -d ' ' -f 1)" != "$line" ] || break
    sleep 0.05
  done
  expect "a line that is answered before the next: $line" 0 "$line"$'\n' '' bash -c 'tail -n 1 "$0" | cut -d " " -f 1' "$work/told"
done
exec 7>&-
expect 'a full device' 3 '' "$says cannot write"$'\n' bash -c 'echo 0x1137 | object symbolize "$0" >/dev/full' "$work/app"
expect 'a closed output' 3 '' "$says cannot write"$'\n' bash -c 'echo 0x1137 | object symbolize "$0" >&-' "$work/app"
expect 'a closed input' 3 '' "$says $work/app: standard input can't be read: Is a directory"$'\n' bash -c 'object symbolize "$0" <&-' "$work/app"
expect 'a closed pipe' 0 $'3\n' '' bash -c '{ yes 0x1137 | object symbolize "$0"; echo "$?" >"$0.status"; } | head -n 1 >/dev/null; cat "$0.status"' \
  "$work/app"
mkdir "$work/ends" && cp linetab-object "$work/ends" && mkdir "$work/ends/share" && cp -r share/scripts "$work/ends/share"
printf '#!/bin/sh\n[ "$2" = --help ] && exec "%s" "$@"\nread a; echo "0x0,0 none"; read a; kill -KILL $$\n' "$work/bin/linetab" >"$work/ends/linetab"
chmod +x "$work/ends/linetab"
# What it didn't answer passes through as it is.
expect 'a program that is killed' 0 $'-9\n100000\n' '' bash -c 'yes 0x1137 | head -n 100000 |
  python3 -c "import subprocess, sys; print(subprocess.call(sys.argv[1:]), file=sys.stderr)" "$0/linetab-object" symbolize "$1" 2>"$0.status" |
    grep -c "^0x1137$" >"$0.count"; cat "$0.status" "$0.count"' "$work/ends" "$work/app"

# ---- texts that are made up, and hostile ones

expect 'texts that are made up' 0 $'300 texts\n' '' python3 tests/texts.py 300 "$work/bin/linetab-object" "$work/app"
# In 200 MB and 60 seconds: each file of 2 MB.
within() { (ulimit -v 200000 && timeout 60 "$work/bin/linetab-object" symbolize "$work/app" --quiet); }
hostile() { # NAME PIECE: the piece over and over
  python3 -c 'import sys; piece = sys.argv[1].encode().decode("unicode_escape").encode("latin-1"); sys.stdout.buffer.write((piece * 2000000)[:2000000])' \
    "$2" >"$work/hostile"
  expect "hostile: $1" 0 '' '' bash -c 'within <"$0" | cmp -s - "$0"' "$work/hostile"
}
export -f within
hostile 'one line of zeros' '\0'
hostile 'one line of digits' 0
hostile 'blanks' ' '
hostile 'frames without an end' '#1'
hostile 'offsets' '+0x1'
hostile 'offsets behind names' 'f+0x1137 '
hostile 'beginnings of numbers' '0x'
hostile 'lines' '\n'
hostile 'addresses of nothing' '0xfff0 '
finish
