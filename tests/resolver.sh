#!/usr/bin/env bash
# linetab symbols: the answers of Breakpad's own reader from odd files, files at random, broken ones, faults line by line, and bases.
cd "$(dirname "$(readlink -f -- "$0")")/.." || exit 1
. tests/check.bash
mkdir "$work/files" && tar xJf tests/resolver/files.tar.xz -C "$work/files" || exit 1
expect 'odd files' 0 $'5446 passed, 0 failed\n' '' python3 tests/resolver.py "$program" "$work/files"
expect 'files at random, and broken ones' 0 $'20000 passed, 0 failed\n' '' python3 tests/breakpad_cases.py "$program" 20000 1

header=$'low,high,path,line\n'
# says NAME STATUS STDOUT TEXT WORD..: of a file with MODULE and then this text, in the escapes of printf.
says() {
  printf 'MODULE Linux x86_64 0 app\n%b' "$4" >"$work/file"
  expect "$1" "$2" "$3" '' "$program" symbols "$work/file" "${@:5}"
}
refused() { # NAME LINE REASON TEXT
  says "$1" 1 "no 45 symbols line $2: $3"$'\n' "$4"
}
own='FILE 3 /w/a.c\nFUNC 1000 10 0 f\n1000 4 7 3\n1004 2 8 3\n'
table=${header}$'0x1000,0x1004,/w/a.c,7\n0x1004,0x1006,/w/a.c,8\n'
says 'a file' 0 "$table" "$own"
says 'a base' 0 "${table//0x1/0x401}" "$own" --base 0x400000
says 'a base at the end of the addresses' 0 "$header"$'0xfffffffffffffffc,0xfffffffffffffffe,/w/a.c,7\n0xfffffffffffffffe,0xffffffffffffffff,/w/a.c,8\n' \
  'FILE 3 /w/a.c\nFUNC 0 10 0 f\n0 2 7 3\n2 1 8 3\n3 20 9 3\n' --base 0xfffffffffffffffc
says 'nothing' 0 "$header" ''
says 'ends of lines of Windows, and of old' 0 "$table" 'FILE 3 /w/a.c\r\nFUNC 1000 10 0 f\r1000 4 7 3\r\n\r\n1004 2 8 3'
says 'the first FILE with a number, behind its use' 0 "$header"$'0x1000,0x1004,/w/b.c,7\n' 'FUNC 1000 10 0 f\n1000 4 7 3\nFILE 3 /w/b.c\nFILE 3 /w/c.c\n'
says 'no FILE with a number' 0 "$header"$'0x1000,0x1004,,7\n' 'FUNC 1000 10 0 f\n1000 4 7 3\n'
says 'functions out of order, one of which overlaps one before it' 0 "$header"$'0x1000,0x1004,/w/a.c,7\n0x2000,0x2004,/w/a.c,9\n' \
  'FILE 3 /w/a.c\nFUNC m 2000 10 0 g\n2000 4 9 3\nFUNC 1000 10 0 f\n1000 4 7 3\nFUNC 200f 10 0 h\n2010 4 8 3\n'
says 'a line record beyond its function' 0 "$header"$'0x1002,0x1004,/w/a.c,7\n' 'FILE 3 /w/a.c\nFUNC 1002 2 0 f\n1000 10 7 3\n'
says 'a path with a comma and a quote' 0 "$header"$'0x1000,0x1004,"/w/a, ""b"".c",7\n' 'FILE 3 /w/a, "b".c\nFUNC 1000 10 0 f\n1000 4 7 3\n'
says 'what says nothing' 0 "$table" "INFO x\nMODULE y\nSTACK z\nINLINE_ORIGIN 1 a\n${own}INLINE 0 1 2\nPUBLIC 2000 0 p\n"
refused 'no function' 2 'no function' '1000 4 7 3\n'
refused 'a line record behind PUBLIC' 5 'no function' 'FUNC 1000 10 0 f\n1000 4 7 3\nPUBLIC 10 0 p\n1004 4 7 3\n'
refused 'a word that is none' 3 'not a record' '\nFUNCTION 1000 10 0 f\n'
refused 'a function without a name' 2 'not a record' 'FUNC 1000 10 0 \n'
refused 'two blanks' 2 'not a record' 'FUNC 1000  10 0 f\n'
refused 'too many digits' 2 'number too large' 'FUNC 00000000000001000 10 0 f\n'
refused 'a line of 2^31' 3 'number too large' 'FUNC 1000 10 0 f\n1000 4 2147483648 3\n'
says 'a line of 2^31 - 1' 0 "$header"$'0x1000,0x1004,,2147483647\n' 'FUNC 1000 10 0 f\n1000 4 2147483647 3\n'
refused 'a zero byte before all else' 2 'zero byte' 'FUNCTION\0000 1\n'
printf '' >"$work/file"
expect 'an empty file' 1 $'no 45 symbols line 1: not a symbol file\n' '' "$program" symbols "$work/file"
expect_notes 'a program' 1 $'no 45 symbols line 1: not a symbol file\n' \
  $'linetab: note: this looks like an ELF file; use linetab-object, which extracts the sections itself\n' "$program" symbols "$program"
expect_notes 'a bad base' 2 '' $'linetab: bad word 10\nlinetab: note: ADDRESS of --base is 0x and 1 to 16 hexadecimal digits\n' \
  "$program" symbols "$work/file" --base 10
expect 'standard input' 0 "$table" '' bash -c 'printf "MODULE \n$1" | "$0" symbols -' "$program" "$own"
expect 'no such file' 3 '' $'linetab: cannot read none\n' "$program" symbols none
expect 'one that is compared' 0 $'yes\n' '' bash -c 'printf "MODULE \nFILE 1 /w/src/small/a.c\nFUNC 1129 42 0 main\n1129 42 1 1\n" |
  "$0" symbols - | "$0" check "${@:1}" - --partial | head -n 1' "$program" examples/hello.debug_line --line-str examples/hello.debug_line_str
finish
