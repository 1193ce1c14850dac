#!/usr/bin/env bash
# The notes on standard error: each kind of them, after what is printed without them, and none with --quiet.
cd "$(dirname "$(readlink -f -- "$0")")/.." || exit 1
. tests/check.bash
. tests/unit.bash
hello=(examples/hello.debug_line --line-str examples/hello.debug_line_str)
truncated=$'no 25 malformed at 0x0: truncated\n'

# notes NAME STATUS STDOUT STDERR NOTE WORD..: STDERR and after it the note, and with --quiet STDERR alone. Standard
# input is the file $input.
input=/dev/null
notes() {
  expect_notes "$1" "$2" "$3" "$4linetab: note: $5"$'\n' "$program" "${@:6}" <"$input"
  expect_notes "$1, quiet" "$2" "$3" "$4" "$program" "${@:6}" --quiet <"$input"
}
silent() { # NAME STATUS STDOUT WORD..: no note
  expect_notes "$1" "$2" "$3" '' "$program" "${@:4}"
}
put() { # NAME DIGITS: a file of these bytes
  (bytes "$2") >"$work/$1"
}

# ---- what isn't a raw section

looks() { # NAME DIGITS STDOUT TEXT: what looks so, to words that judge a section and to those that don't
  put section "$2"
  local word
  for word in units dump verify files table md5 'convert --format 32 --order big' 'lookup 0x0' "check examples/hello.csv"; do
    set -- "$1" "$2" "$3" "$4" $word
    case $5 in
      lookup | check) notes "$1: $5" 1 "$3"$'\n' '' "$4" "$5" "$work/section" "$6" ;;
      *) notes "$1: $5" 1 "$3"$'\n' '' "$4" "${@:5}" "$work/section" ;;
    esac
  done
}
zeros=$(printf '%048d' 0)
malformed='no 25 malformed at 0x0: truncated'
looks 'an ELF file' "7f454c4602010100$zeros" "$malformed" \
  'this looks like an ELF file; use linetab-object, which extracts the sections itself'
looks 'a PE file' "4d5a900003000000$zeros" "$malformed" \
  'this looks like a PE file; use linetab-object, which extracts the sections itself'
macho='this looks like a Mach-O file; use linetab-object, which extracts the sections itself'
for magic in feedface feedfacf cefaedfe cffaedfe cafebabe; do
  put section "$magic$zeros"
  notes "a Mach-O file, $magic" 1 "$truncated" '' "$macho" verify "$work/section"
done
looks 'a gzip file' "1f8b080000000000$zeros" "$malformed" \
  'this looks like a file that gzip compressed; decompress it first'
looks 'a zstd file' "28b52ffd2400$zeros" "$malformed" \
  'this looks like a file that zstd compressed; decompress it first'
compressed='this looks like a compressed section; objcopy --decompress-debug-sections, with --dump-section, decompresses it'
looks 'a compressed section' "01000000000000009c0000000000000001000000000000007801$zeros" 'no 25 malformed at 0x4: truncated' "$compressed"
for head in 02000000000000009c00000000000000010000000000000028b52ffd 010000009c00000001000000789c 000000010000009c0000000178da \
  5a4c4942000000000000009c; do
  put section "$head$zeros"
  expect_notes "a compressed section, $head" 1 "$("$program" verify "$work/section" --quiet)"$'\n' "linetab: note: $compressed"$'\n' \
    "$program" verify "$work/section"
done
printf 'void f(void);\n' >"$work/text"
notes 'text' 1 "$truncated" '' 'this looks like text; a section is the raw bytes of .debug_line' verify "$work/text"
symbols='this looks like a symbol file; linetab-object check compares one with a program'
printf 'MODULE Linux x86_64 0 a\n' >"$work/symbols"
notes 'a symbol file of Breakpad' 1 "$truncated" '' "$symbols" verify "$work/symbols"
looks 'a GSYM file' "4d59534701000414$zeros" "$malformed" "$symbols"
looks 'a big-endian GSYM file' "4753594d00010414$zeros" "$malformed" "$symbols"
notes 'a program' 1 "$truncated" '' 'this looks like an ELF file; use linetab-object, which extracts the sections itself' \
  check "$program" examples/hello.csv
input=$program
notes 'a program on standard input' 1 "$truncated" '' \
  'this looks like an ELF file; use linetab-object, which extracts the sections itself' units -
input=/dev/null
notes 'a little-endian section taken as big-endian' 1 "$truncated" '' \
  'its length fits where the section is little-endian; leave out --big' verify "${hello[@]}" --big
head -c 71 <(bytes "00000043$zeros$zeros$zeros") >"$work/big"
notes 'a big-endian section taken as little-endian' 1 "$truncated" '' \
  'its length fits where the section is big-endian; try --big' verify "$work/big"
silent 'a cut section' 1 "$truncated" verify <(head -c 100 examples/hello.debug_line)

# ---- strings

line_strings="its text lies in .debug_line_str, which wasn't given; --line-str FILE names that section's bytes"
for word in verify files table md5 'lookup 0x1137' 'check examples/hello.csv'; do
  set -- $word
  notes "no strings: $1" 1 $'no 28 string outside unit 0x0 directories entry 0\n' '' "$line_strings" "$1" examples/hello.debug_line "${@:2}"
done
silent 'strings that are too few' 1 $'no 28 string outside unit 0x0 directories entry 0\n' verify examples/hello.debug_line --line-str /dev/null
# A unit whose directory is a string.
put strp "4400000005000800 2a000000 $numbers $lengths 01010e 01 00000000 $files 0009020010000000000000 144b0202 000101"
notes 'no general strings' 1 $'no 28 string outside unit 0x0 directories entry 0\n' '' \
  "its text lies in .debug_str, which wasn't given; --str FILE names that section's bytes" verify "$work/strp"
notes 'no general strings, with others' 1 $'no 28 string outside unit 0x0 directories entry 0\n' '' \
  "its text lies in .debug_str, which wasn't given; --str FILE names that section's bytes" verify "$work/strp" --line-str examples/hello.debug_line_str

# ---- discarded code

# Sequences of one size that begin at 0 hold the same positions too.
copies='the two hold the same positions, as where a linker kept one of several copies of some code; --skip-copies leaves out the others'
sections=(examples/gc-sections.debug_line --line-str examples/gc-sections.debug_line_str)
count=$("$program" dump --rows examples/gc-sections.debug_line |
  awk '$1 == "unit" { begins = 1 } $1 == "row" { if (begins && $3 == "0x0") n++; begins = $9 ~ /e/ } END { print n }')
overlap=$("$program" verify "${sections[@]}" --quiet)
notes 'discarded code' 1 "$overlap"$'\n' '' \
  "sequences begin at 0x0, where linkers leave discarded code ($count of them); --dead 0x0 leaves them out"$'\n'"linetab: note: $copies" \
  verify "${sections[@]}"
input=examples/gc-sections.debug_line
notes 'discarded code on standard input' 1 "$overlap"$'\n' '' \
  'sequences begin at 0x0, where linkers leave discarded code; --dead 0x0 leaves them out' verify - "${sections[@]:1}"
input=/dev/null
silent 'discarded code that is left out' 0 $'yes\n' verify "${sections[@]}" --dead 0x0
notes 'no discarded code' 0 $'yes\n' '' 'no sequence begins at 0x0, so --dead leaves nothing out' verify "${hello[@]}" --dead 0x0
notes 'no discarded code, checked' 0 $'yes\n' '' 'no sequence begins at 0x0, so --dead leaves nothing out' \
  check "${hello[@]:0:1}" examples/hello.csv "${hello[@]:1}" --dead 0x0
# One sequence, which begins at 0.
put zero "43000000 $start $header 0009020000000000000000 144b0202 000101"
notes 'a good section with code at 0' 0 $'yes\n' '' \
  'sequences begin at 0x0, where linkers leave discarded code (1 of them); --dead 0x0 leaves them out' verify "$work/zero"
# One of four bytes before the end of the addresses, and one that would pass it.
put last "43000000 $start $header 000902feffffffffffffff 01020113 000101"
notes 'a good section with code at the end' 0 $'yes\n' '' \
  'sequences begin at 0xfffffffffffffffe, where linkers leave discarded code (1 of them); --dead 0xfffffffffffffffe leaves them out' verify "$work/last"
put falls "43000000 $start $header 000902ffffffffffffffff 144b0202 000101"
notes 'code that passes the end' 1 $'no 31 falls unit 0x0 row 1\n' '' \
  'sequences begin at 0xffffffffffffffff, where linkers leave discarded code (1 of them); --dead 0xffffffffffffffff leaves them out' verify "$work/falls"

# ---- units of other versions, and addresses of another size

put old "31000000 0400${start:4} $header"
notes 'an older unit' 1 $'no 25 malformed at 0x4: version 4\n' '' \
  'linetab upgrade SECTION --address-size N writes units of versions 2 to 4 anew in version 5, which the other words read; N is how many bytes an address has: 8 in a 64-bit program, 4 in a 32-bit one' \
  check "$work/old" examples/hello.csv
length=$'no 25 malformed at 0x36: extended length\n'
sets() { # BYTES DIGITS
  notes "an address of $1 bytes" 1 "$length" '' \
    "the operation there sets an address of $1 bytes; if linetab upgrade wrote the section, run it with --address-size $1" verify "$work/$1"
}
put 4 "3f000000 $start $header 00050200000000 144b0202 000101"
sets 4
put 2 "3d000000 $start $header 0003020000 144b0202 000101"
sets 2
put 8 "43000000 050004${start:6} $header 0009020000000000000000 144b0202 000101"
sets 8
# It follows a unit of the right size, whose bytes aren't counted.
(bytes "43000000 $start $header 0009020000000000000000 144b0202 000101 3f000000 $start $header 00050200000000 144b0202 000101") >"$work/second"
notes 'in a second unit' 1 $'no 25 malformed at 0x7d: extended length\n' '' \
  'the operation there sets an address of 4 bytes; if linetab upgrade wrote the section, run it with --address-size 4' \
  check "$work/second" examples/hello.csv
silent 'on standard input' 1 "$length" verify - <"$work/4"
put six "41000000 $start $header 000702000000000000 144b0202 000101"
silent 'an address of 6 bytes' 1 "$length" verify "$work/six"
put end "3b000000 $start $header 00020100 144b0202 000101"
silent 'another operation' 1 "$length" verify "$work/end"

# ---- copies

cat examples/hello.debug_line examples/hello.debug_line >"$work/twice"
twice=("$work/twice" --line-str examples/hello.debug_line_str)
for word in verify files table md5 'lookup 0x1137' 'check examples/hello.csv'; do
  set -- $word
  notes "copies: $1" 1 $'no 32 overlap 0x0:0 0xa0:0 at 0x1129,0\n' '' "$copies" "$1" "${twice[@]:0:1}" "${@:2}" "${twice[@]:1}"
done
silent 'copies that are skipped' 0 $'yes\n' verify "${twice[@]}" --skip-copies
silent 'copies on standard input' 1 $'no 32 overlap 0x0:0 0xa0:0 at 0x1129,0\n' verify - "${twice[@]:1}" <"$work/twice"

# ---- nothing held, no sums

nothing="no sequence holds a position, so the section's table is empty; a relocatable object has to be linked first"
printf 'low,low_op,high,high_op,unit,file,line,column,is_stmt\n' >"$work/table"
notes 'nothing held' 0 $'yes\n' '' "$nothing" verify /dev/null
notes 'nothing held, checked' 0 $'yes\n' '' "$nothing" check /dev/null "$work/table"
notes 'nothing held, looked up' 0 $'0x0,0 none\n' '' "$nothing" lookup /dev/null 0x0
notes 'nothing held, as a table' 0 "$(cat "$work/table")"$'\n' '' "$nothing" table /dev/null
notes 'no sums' 0 '' '' 'the section lists no MD5 sum, so nothing was compared' md5 "${hello[@]}"
silent 'sums' 1 $'unit 0 file 0 unreadable "/w/src/small/a.c"\n' md5 examples/hello-clang.debug_line --line-str examples/hello-clang.debug_line_str

# ---- words

word() { # WORD TEXT WORD..
  notes "bad word: ${*:3}" 2 '' "linetab: bad word $1"$'\n' "${@:2}"
}
word 1137 'ADDRESS is 0x and 1 to 16 hexadecimal digits' lookup "${hello[@]}" 0x1137 1137
word x 'N of --op is 1 to 20 decimal digits, and below 2^64' lookup "${hello[@]}" 0x1137 --op x
word 0 'ADDRESS of --dead is 0x and 1 to 16 hexadecimal digits' verify "${hello[@]}" --dead 0
word 16 '--format is 32 or 64' convert examples/hello.debug_line --format 16 --order big
word x '--order is little or big' convert examples/hello.debug_line --format 32 --order x
word 101 'P of --at-least is 1 to 3 decimal digits, and at most 100' check "${hello[@]}" none --partial --at-least 101

# ---- files that can't be read

unread() { # NAME REASON WORD..
  notes "can't be read: ${*:3}" 3 '' "linetab: cannot read $1"$'\n' "${@:2}"
}
unread none 'No such file or directory (os error 2)' verify none
unread none 'No such file or directory (os error 2)' units none
unread none 'No such file or directory (os error 2)' lookup "${hello[@]}" --addresses none
unread none 'No such file or directory (os error 2)' check "${hello[@]:0:1}" none
unread none 'No such file or directory (os error 2)' verify examples/hello.debug_line --str none
unread tests 'Is a directory (os error 21)' verify tests
unread tests 'Is a directory (os error 21)' files "${hello[@]}" --str tests
expect_notes 'a second standard input' 3 '' $'linetab: cannot read -\n' "$program" lookup - --addresses -

# ---- tables

faulty() { # NAME STDOUT NOTE TEXT
  printf "$4" >"$work/table"
  notes "$1" 1 "$2"$'\n' '' "$3" check "${hello[@]:0:1}" "$work/table" "${hello[@]:1}"
}
names='low,low_op,high,high_op,unit,file,line,column,is_stmt'
first=0x1129,0,0x1130,0,0,1,1,27,1
second=0x1130,0,0x1137,0,0,1,1,36,1
header="the first line has to be $names[,isa,discriminator], or low,high,path,line[,column]"
faulty 'no header' 'no 36 table header' "$header" ''
faulty 'another header' 'no 36 table header' "$header" "$first\n"
rule='each record has as many fields as the header has names'
decimal='1 to 20 decimal digits, and below 2^64'
faulty 'too few fields' 'no 37 table fields record 2' "line 3 of the table: $rule" "$names\n$first\n0x1130,0\n"
many=$(head -c 200000 /dev/zero | tr '\0' ,)
faulty 'very many fields' 'no 37 table fields record 1' "line 2 of the table: $rule" "$names\n$many\n$first\n"
faulty 'very many fields at the end, after one in quotes' 'no 37 table fields record 2' "line 3 of the table: $rule" "$names\n\"0x1129\",${first#*,}\n$many"
faulty 'very many fields after too few' 'no 37 table fields record 1' "line 2 of the table: $rule" "$names\n0x1129,0\n$many\n"
faulty 'very many fields after one with many commas in quotes' 'no 38 table number record 1 column 1' "line 2 of the table: low_op is $decimal" "$names\n0x1129,\"$many\",${first#*,0,}\n$many\n"
faulty 'a low that is no address' 'no 38 table number record 1 column 0' 'line 2 of the table: low is 0x and 1 to 16 hexadecimal digits' "$names\n1129${first#0x1129}\n"
for ((column = 0; column < 9; column++)); do
  IFS=, read -ra fields <<<"$second"
  IFS=, read -ra titles <<<"$names"
  fields[column]=x
  case $column in
    0 | 2) kind='0x and 1 to 16 hexadecimal digits' ;;
    8) kind='0 or 1' ;;
    *) kind=$decimal ;;
  esac
  faulty "a bad ${titles[column]}" "no 38 table number record 2 column $column" "line 3 of the table: ${titles[column]} is $kind" \
    "$names\n$first\n$(IFS=,; echo "${fields[*]}")\n"
done
faulty 'a bad isa' 'no 38 table number record 1 column 9' "line 2 of the table: isa is $decimal" "$names,isa,discriminator\n$first,x,0\n"
faulty 'a bad discriminator' 'no 38 table number record 1 column 10' "line 2 of the table: discriminator is $decimal" "$names,isa,discriminator\n$first,0,x\n"
faulty 'spans in disorder' 'no 39 table order record 2' "line 3 of the table: each span ends above its low, which isn't below the high of the span before" "$names\n$second\n$first\n"
for ((column = 0; column < 5; column++)); do
  fields=(0x1130 0x1137 /w/src/small/a.c 1 36)
  titles=(low high path line column)
  [ "$column" -ne 2 ] || continue
  fields[column]=x
  kind=$decimal
  [ "$column" -gt 1 ] || kind='0x and 1 to 16 hexadecimal digits'
  faulty "by path, a bad ${titles[column]}" "no 38 table number record 1 column $column" "line 2 of the table: ${titles[column]} is $kind" \
    "low,high,path,line,column\n$(IFS=,; echo "${fields[*]}")\n"
done
faulty 'by path, too many fields' 'no 37 table fields record 1' "line 2 of the table: $rule" 'low,high,path,line\n0x1130,0x1137,a,b,1\n'
faulty 'by path, very many fields' 'no 37 table fields record 2' "line 3 of the table: $rule" "low,high,path,line\n0x1129,0x1130,/w/src/small/a.c,1\n$many\n"
faulty 'by path, an empty span' 'no 39 table order record 1' "line 2 of the table: each span ends above its low, which isn't below the high of the span before" 'low,high,path,line\n0x1130,0x1130,a,1\n'
printf 'low,high,path,line\n' >"$work/table"
notes 'by path, nothing held' 0 $'yes\n' '' "$nothing" check /dev/null "$work/table"
notes 'by path, nothing held, all places' 0 $'yes\n' '' "$nothing" check /dev/null "$work/table" --all
printf 'low,high,path,line\n0x1,2,a,1\n' >"$work/table"
notes 'by path, a bad high, all places' 1 $'no 38 table number record 1 column 1\n' '' 'line 2 of the table: high is 0x and 1 to 16 hexadecimal digits' \
  check /dev/null "$work/table" --all
printf 'low,high,path,line\n%s\n' "$many" >"$work/table"
notes 'by path, very many fields, all places' 1 $'no 37 table fields record 1\n' '' "line 2 of the table: $rule" check /dev/null "$work/table" --all
printf 'low,high\n' >"$work/table"
notes 'another header, all places' 1 $'no 36 table header\n' '' "$header" check /dev/null "$work/table" --all
faulty 'a field of two lines' 'no 38 table number record 3 column 1' "line 4 of the table: low_op is $decimal" "$names\n\"0x1129\",0,0x1130,0,0,1,1,27,1\n$second\n0x1137,\"x\n\",0x1139,0,0,1,1,50,1\n"
input=$work/table
notes 'a table on standard input' 1 $'no 38 table number record 3 column 1\n' '' "low_op is $decimal" check "${hello[@]:0:1}" - "${hello[@]:1}"
finish
