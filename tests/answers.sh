#!/usr/bin/env bash
# What the program answers of small sections and tables: verdicts, lookups, tables, sums,
# what is printed of units, and what it says of words that it doesn't take.
cd "$(dirname "$(readlink -f -- "$0")")/.." || exit 1
. tests/check.bash
. tests/unit.bash

# ---- units, as tests/worked.py has them by the names of their operations, in hexadecimal digits

eval "$(python3 tests/worked.py units)"
operations() { # OPERATIONS: the digits of a program
  python3 tests/worked.py programs "$1"
}
plain_program=$(operations "${operations[plain]}")

# A little-endian unit in the 32-bit format of such parts, in digits, with both lengths told as they are: less than 256 bytes.
unit() { # NUMBERS LENGTHS DIRECTORIES FILES PROGRAM
  local header_bytes=$(((${#1} + ${#2} + ${#3} + ${#4}) / 2))
  local rest=$1$2$3$4$5
  printf '%02x00000005000800%02x000000%s' $((8 + ${#rest} / 2)) $header_bytes "$rest"
}
program() { # OPERATIONS: the unit of them
  unit $numbers $lengths $directories $files "$(operations "$1")"
}
with() { # UNIT PLACE DIGITS: other bytes in the place of as many
  printf %s "${1:0:2 * $2}$3${1:2 * $2 + ${#3}}"
}
cut_at() { # UNIT COUNT: its first bytes
  printf %s "${1:0:2 * $2}"
}
later=$(with "$plain" 56 05)

# ---- how the program is asked

names=$'low,low_op,high,high_op,unit,file,line,column,is_stmt\n'
wide_names=$'low,low_op,high,high_op,unit,file,line,column,is_stmt,isa,discriminator\n'
first=$'0x1000,0,0x1004,0,0,1,3,0,1\n'
second=$'0x1004,0,0x1006,0,0,1,4,0,1\n'
table=$names$first$second
truncated=$'no 25 malformed at 0x0: truncated\n'

put() { # NAME DIGITS: a file of these bytes
  (bytes "$2") >"$work/$1"
}
says() { # NAME STATUS STDOUT WORD..: nothing on standard error but notes
  expect "$1" "$2" "$3" '' crates/linetab/out/linetab "${@:4}"
}
reads() { # NAME STATUS STDOUT UNITS WORD..: a word of the command, with options, of these units
  put section "$4"
  says "$1" "$2" "$3" "${@:5}" "$work/section"
}
checks() { # NAME STATUS STDOUT UNITS TABLE [OPTION..]
  put section "$4"
  printf %s "$5" >"$work/table"
  says "$1" "$2" "$3"$'\n' check "$work/section" "$work/table" "${@:6}"
}
agrees() { # NAME UNITS TABLE [OPTION..]
  checks "$1" 0 yes "${@:2}"
}
differs() { # NAME REASON UNITS TABLE [OPTION..]
  checks "$1" 1 "$2" "${@:3}"
}
looks() { # NAME ANSWER UNITS ADDRESS [OPTION..]
  put section "$3"
  says "$1" 0 "$2"$'\n' lookup "$work/section" "${@:4}"
}
writes() { # NAME RECORDS UNITS [OPTION..]
  put section "$3"
  says "$1" 0 "$names$2" table "$work/section" "${@:4}"
}
is_bad() { # NAME REASON UNITS [OPTION..]: each word that judges the section tells this
  checks "$1, checked" 1 "${@:2:2}" "$names" "${@:4}"
  says "$1, looked up" 1 "$2"$'\n' lookup "$work/section" 0x1000 "${@:4}"
  says "$1, as a table" 1 "$2"$'\n' table "$work/section" "${@:4}"
  says "$1, by its sums" 1 "$2"$'\n' md5 "$work/section" "${@:4}"
  says "$1, verified" 1 "$2"$'\n' verify "$work/section" "${@:4}"
  says "$1, by its files" 1 "$2"$'\n' files "$work/section" "${@:4}"
}

put strings 2f7300
put strings_without_end 2f73

# ---- units

reads 'a unit' 0 $'0x0 32 67\n' "$plain" units
says 'no unit' 0 '' units /dev/null
expect 'a unit on standard input' 0 $'0x0 32 67\n' '' bash -c 'crates/linetab/out/linetab units - <"$0"' "$work/section"
reads 'a unit and a reserved length' 1 $'0x0 32 67\nno 25 malformed at 0x47: reserved length\n' "${plain}f0ffffff" units
reads 'a big-endian unit in the 64-bit format' 0 $'0x0 64 71\n' "$wide" units --big
says 'an option after the section' 0 $'0x0 64 71\n' units "$work/section" --big
reads 'one byte of a unit' 1 $'no 25 malformed at 0x4: truncated\n' 0100000005 units
reads 'a reserved length' 1 $'no 25 malformed at 0x0: reserved length\n' f0ffffff units
reads 'version 4' 1 $'no 25 malformed at 0x4: version 4\n' "$(with "$plain" 4 04)" units
reads 'a little-endian unit taken as a big-endian one' 1 "$truncated" "$plain" units --big
reads 'a length of 2^63' 1 "$truncated" ffffffff0000000000000080 units

# Each answer of a word to the section cut after each number of bytes, with how often it comes.
cuts() { # WORD..
  local size count
  size=$(wc -c <"$work/section")
  for ((count = 1; count < size; count++)); do
    head -c "$count" "$work/section" | crates/linetab/out/linetab "$@"
  done | sort | uniq -c | sed 's/^ *//'
}
is_cut() { # NAME UNIT [--big]
  put section "$2"
  printf %s "$names" >"$work/table"
  expect "$1, cut" 0 "$((${#2} / 2 - 1)) $truncated" '' cuts check - "$work/table" "${@:3}"
}
put section "$plain"
expect 'a cut unit' 0 "70 $truncated" '' cuts units -
put section "$wide"
expect 'a cut unit in the 64-bit format' 0 "82 $truncated" '' cuts units - --big

# ---- headers, operations and rows

plain_text=$'unit 0x0 32 67\nheader 8 1 1 1 -5 14 13\ndir 0 1="/s"\nfile 0 1="a.c" 2=0\nfile 1 1="a.c" 2=0\n'
ops=$'op 0 set_address 0x1000\nop 1 special 20\nop 2 special 75\nop 3 advance_pc 2\nop 4 end_sequence\n'
rows=$'row 0 0x1000 0 1 3 0 1 - 0 0\nrow 1 0x1004 0 1 4 0 1 - 0 0\nrow 2 0x1006 0 1 4 0 1 e 0 0\n'
reads 'a header' 0 "$plain_text" "$plain" dump
reads 'operations and rows' 0 "$plain_text$ops$rows" "$plain" dump --ops --rows
reads 'operations' 0 "$plain_text$ops" "$plain" dump --ops
reads 'rows' 0 "$plain_text$rows" "$plain" dump --rows
reads 'a header in the 64-bit format' 0 "unit 0x0 64 71${plain_text#unit 0x0 32 67}" "$wide" dump --big
says 'no header' 0 '' dump /dev/null
pairs=0c0108021f030e040f050b060507060807091e0a0981400a0c04
values=61227f5c7e200010000000200000008001fffeff040302010807060504030201d41d8cd98f00b204e9800998ecf8427e0002aabb01000000cc
reads 'a value of each form' 0 $'unit 0x0 32 112\nheader 8 1 1 1 -5 14 13\ndir 0 1="a\\x22\\x7f\\x5c~ " 2=line_strp:0x10 3=strp:0x20 4=128 5=255 6=65534 7=16909060 8=72623859790382856 9=d41d8cd98f00b204e9800998ecf8427e 10=block: 8193=block:aabb 12=block:cc\n' \
  "$(unit $numbers $lengths ${pairs}01$values 0000 '')" dump
for block in "$vendor_block1" "$vendor_block2" "$vendor_block4"; do
  put section "$block"
  expect 'a directory with a block' 0 $'dir 0 1="/s" 8193=block:aabb\n' '' bash -c 'crates/linetab/out/linetab dump "$0" | grep dir' "$work/section"
done

# A unit of which one byte is another, after a whole one.
is_faulty() { # PLACE DIGITS REASON
  reads "a second unit with $2 at $1" 1 "${plain_text}no 25 malformed at $3"$'\n' "$plain$(with "$plain" "$1" "$2")" dump
}
is_faulty 16 00 '0x57: zero line range'
is_faulty 18 01 '0x59: length 1 of standard opcode 1'
is_faulty 13 00 '0x54: zero operations per instruction'
is_faulty 17 00 '0x58: zero opcode base'
is_faulty 8 3c '0x4f: header length'
is_faulty 6 03 '0x4d: address size 3'
is_faulty 7 01 '0x4e: segment selector size 1'
is_faulty 32 0c '0x67: form 0xc'
is_faulty 32 0a '0x69: truncated'
is_faulty 4 04 '0x4b: version 4'
reads 'entries without a format' 1 $'no 25 malformed at 0x1f: entries without a format\n' "$(unit $numbers $lengths 0001 $files $plain_program)" dump
reads 'more files than bytes' 1 $'no 25 malformed at 0x3e: truncated\n' "$(unit $numbers $lengths $directories 020108020bffffffffffffffffff01${files:12} $plain_program)" dump
reads 'an extended operation of no byte' 1 $'no 25 malformed at 0x45: extended length\n' "$(with "$plain" 69 00)" dump --rows
reads 'an extended operation that is cut' 1 $'no 25 malformed at 0x46: truncated\n' "$(with "$plain" 69 02)" dump
reads 'rows of an open sequence' 1 $'no 26 run unit 0x0: open sequence\n' "$open_sequence" dump --rows
reads 'the header of an open sequence' 0 "unit 0x0 32 64${plain_text#unit 0x0 32 67}" "$open_sequence" dump
reads 'rows of a line below 0' 1 $'no 26 run unit 0x0: line out of range at operation 1\n' "$line_below_zero" dump --ops --rows
put section "$(unit 010101fb0e0f ${lengths}0200 $directories $files "$(operations \
  'unknown_standard 13 128 5;unknown_standard 14;unknown_extended 128 ab;unknown_extended 3;set_prologue_end;set_basic_block' \
  )$(operations 'set_discriminator 7;special 22;advance_line -1;fixed_advance_pc 4;advance_pc 2;end_sequence')")"
expect 'unknown operations, and marks of a row' 0 $'op 0 unknown_standard 13 128 5\nop 1 unknown_standard 14\nop 2 unknown_extended 128 ab\nop 3 unknown_extended 3\nop 4 set_prologue_end\nop 5 set_basic_block\nop 6 set_discriminator 7\nop 7 special 22\nop 8 advance_line -1\nop 9 fixed_advance_pc 4\nop 10 advance_pc 2\nop 11 end_sequence\nrow 0 0x0 0 1 3 0 1 bp 0 7\nrow 1 0x6 0 1 2 0 1 e 0 0\n' '' \
  bash -c 'crates/linetab/out/linetab dump --ops --rows "$0" | grep -E "^(op|row)"' "$work/section"

# ---- conversion

put section "$plain"
put wanted "$wide"
expect 'a unit in the other format and order' 0 '' '' bash -c 'crates/linetab/out/linetab convert "$0" --format 64 --order big | cmp - "$1"' "$work/section" "$work/wanted"
expect 'and back' 0 '' '' bash -c 'crates/linetab/out/linetab convert --big "$1" --format 32 --order little | cmp - "$0"' "$work/section" "$work/wanted"
reads 'an offset of 2^32 in the 32-bit format' 1 $'no 20 too large unit 0x0\n' ffffffff4c00000000000000050008002e00000000000000$numbers${lengths}01011f010000000001000000$files$plain_program convert --format 32 --order little

# ---- help, and words that aren't understood

helps() { # PART WORD..: a part of a text of help
  expect "help: ${*:2}" 0 "$1"$'\n' '' bash -c 'crates/linetab/out/linetab "${@:2}" | grep -Fo -- "$1"' - "$@"
}
refuses() { # STDERR WORD..: nothing on standard output
  expect "words: ${*:2}" 2 '' "$1" crates/linetab/out/linetab "${@:2}"
}
helps '  units    Prints the offset, the format and the length of each unit of a section' --help
helps 'Usage: linetab <COMMAND>' -h
helps '  --big    The section is big-endian; otherwise it is little-endian' units --help
helps '  --quiet  Prints no notes on standard error' units --help
helps 'Usage: linetab units [OPTIONS] <SECTION>' help units
helps 'Usage: linetab dump [OPTIONS] <SECTION>' dump --help
helps 'Usage: linetab check [OPTIONS] <SECTION> <TABLE>' check --help
helps 'Usage: linetab verify [OPTIONS] <SECTION>' verify --help
helps 'Usage: linetab lookup [OPTIONS] <SECTION> [ADDRESS]...' lookup --help
helps 'Usage: linetab files [OPTIONS] <SECTION>' files --help
helps 'Usage: linetab table [OPTIONS] <SECTION>' table --help
helps 'Usage: linetab convert [OPTIONS] --format <32|64> --order <little|big> <SECTION>' convert --help
helps 'Usage: linetab md5 [OPTIONS] <SECTION>' md5 --help
helps "If one isn't the same, the status is 1." md5 --help
for number in 25 26 27 28 29 30 31 32 36 37 38 39 40; do
  expect "help: number $number" 0 $'1\n' '' bash -c 'crates/linetab/out/linetab check --help | grep -Ec "^  $0  .* \(docs/[A-Z]+\.md"' $number
done
more=$'\n\nFor more information, try \'--help\'.\n'
refuses $'error: unrecognized subcommand \'unit\'\n\n  tip: a similar subcommand exists: \'units\'\n\nUsage: linetab <COMMAND>'"$more" unit F
refuses $'error: the following required arguments were not provided:\n  <SECTION>\n\nUsage: linetab units <SECTION>'"$more" units
refuses $'error: \'linetab\' requires a subcommand but one was not provided\n  [subcommands: units, dump, check, verify, lookup, files, table, convert, upgrade, symbols, md5, help]\n\nUsage: linetab <COMMAND>'"$more"
is_bad_word() { # WANTED WORD..: all words are judged before a file is opened
  refuses "linetab: bad word $1"$'\n' "${@:2}"
}
is_bad_word 1005 lookup none 1005
is_bad_word 0X1005 lookup none 0X1005 --op x
is_bad_word 0x7 lookup none 0x1005 --op 0x7 --dead y
is_bad_word 7 check none none --dead 7
is_bad_word 16 convert none --format 16 --order x
is_bad_word x convert none --format 32 --order x
expect 'a section that is not there' 3 '' $'linetab: cannot read none\n' crates/linetab/out/linetab lookup none 0x1005
put section "$(with "$plain" 52 05)"
expect 'a table that is not there' 3 '' $'linetab: cannot read none\n' crates/linetab/out/linetab check "$work/section" none
expect 'strings that are not there' 3 '' $'linetab: cannot read none\n' crates/linetab/out/linetab check nothing none --line-str none
expect 'standard input twice' 3 '' $'linetab: cannot read -\n' bash -c 'crates/linetab/out/linetab check - - <"$0"' "$work/section"

# ---- numbers as words

reads_op() { # WORD [PRINTED]: an operation index, and what is printed of it
  if [ $# -eq 2 ]; then
    says "operation index $1" 0 "0x0,$2 none"$'\n' lookup /dev/null 0x0 --op "$1"
  else
    is_bad_word "$1" lookup /dev/null 0x0 "--op=$1"
  fi
}
reads_op 0 0
reads_op 4096 4096
reads_op 00000000000000000007 7
reads_op 18446744073709551615 18446744073709551615
for word in 000000000000000000007 18446744073709551616 99999999999999999999 '' +1 ' 1' a 1: /1; do
  reads_op "$word"
done
for word in 0x1000 0xffffffffffffffff; do
  says "address $word" 0 "$word,0 none"$'\n' lookup /dev/null "$word"
done
says 'address in letters of either case' 0 $'0xabcdef,0 none\n' lookup /dev/null 0xAbCdEf
for word in 0x0ffffffffffffffff 0X1000 1000 0x 0x1g 0x1G 0x-1; do
  is_bad_word "$word" lookup /dev/null "$word"
done

# ---- a section and a table

agrees 'a unit and its table' "$plain" "$table"
agrees 'no unit and no record' '' "$names"
agrees 'the first record in two parts' "$plain" "${names}0x1000,0,0x1002,0,0,1,3,0,1"$'\n0x1002,0,0x1004,0,0,1,3,0,1\n'"$second"
agrees 'fields in quotes' "$plain" "$names"$'"0x1000","0",0x1004,0,0,1,"3",0,"1"\n'"$second"
agrees 'numbers with leading zeros, and a carriage return' "$plain" "$names"$'0x00001000,000,0x1004,0,0,1,03,0,1\r\n'"$second"
agrees 'an empty sequence in the middle of another' "$empty_sequence" "$table"
agrees 'a marker of dead code in the middle of a sequence' "$plain" "$table" --dead 0x1004
agrees 'rows of file 0, with one file' "$file_zero" "$names"$'0x1000,0,0x1004,0,0,0,3,0,1\n0x1004,0,0x1006,0,0,0,4,0,1\n'
agrees 'an operand with padding' "$padded_operand" "$table"
agrees 'rows that begin no statement' "$two_sequences" "$names"$'0x1000,0,0x1001,0,0,1,3,0,0\n0x2000,0,0x2001,0,0,1,3,0,1\n'
agrees 'rows within an instruction' "$three_operations_per_instruction" "$names"$'0x2000,0,0x2010,1,0,1,3,0,1\n0x2010,1,0x2020,0,0,1,4,0,1\n'
agrees 'strings in their section' "$line_strp_directory" "$table" --line-str "$work/strings"
for block in "$vendor_block1" "$vendor_block2" "$vendor_block4"; do
  agrees 'a directory with a block, and its table' "$block" "$table"
done

differs 'no unit and the table of one' 'no 40 differs at 0x1000,0 table 0,1,3,0,1 section none' '' "$table"
differs 'a unit and no record' 'no 40 differs at 0x1000,0 table none section 0,1,3,0,1' "$plain" "$names"
differs 'no first record' 'no 40 differs at 0x1000,0 table none section 0,1,3,0,1' "$plain" "$names$second"
differs 'no last record' 'no 40 differs at 0x1004,0 table none section 0,1,4,0,1' "$plain" "$names$first"
differs 'a last record that ends late' 'no 40 differs at 0x1006,0 table 0,1,4,0,1 section none' "$plain" "$names$first"$'0x1004,0,0x1007,0,0,1,4,0,1\n'
differs 'a gap' 'no 40 differs at 0x1002,0 table none section 0,1,3,0,1' "$plain" "$names"$'0x1000,0,0x1002,0,0,1,3,0,1\n'"$second"
differs 'a border within an instruction' 'no 40 differs at 0x2010,0 table 0,1,4,0,1 section 0,1,3,0,1' "$three_operations_per_instruction" "$names"$'0x2000,0,0x2010,0,0,1,3,0,1\n0x2010,0,0x2020,0,0,1,4,0,1\n'
differs 'another line' 'no 40 differs at 0x1000,0 table 0,1,9,0,1 section 0,1,3,0,1' "$plain" "$names"$'0x1000,0,0x1004,0,0,1,9,0,1\n'"$second"
differs 'another unit, file, column and flag' 'no 40 differs at 0x1000,0 table 7,2,3,5,0 section 0,1,3,0,1' "$plain" "$names"$'0x1000,0,0x1004,0,7,2,3,5,0\n'"$second"

# ---- tables of the second version

wide_marks=$wide_names$'0x1000,0,0x1004,0,0,1,3,0,1,0,7\n0x1004,0,0x1006,0,0,1,4,0,1,0,0\n'
wide_plain=$wide_names$'0x1000,0,0x1004,0,0,1,3,0,1,0,0\n0x1004,0,0x1006,0,0,1,4,0,1,0,0\n'
agrees 'a discriminator and a narrow table' "$marks_and_discriminator" "$table"
agrees 'a discriminator and a wide table' "$marks_and_discriminator" "$wide_marks"
agrees 'a wide table' "$plain" "$wide_plain"
differs 'another discriminator' 'no 40 differs at 0x1000,0 table 0,1,3,0,1,0,0 section 0,1,3,0,1,0,7' "$marks_and_discriminator" "$wide_plain"
differs 'a discriminator, and another line in a narrow table' 'no 40 differs at 0x1000,0 table 0,1,9,0,1 section 0,1,3,0,1' "$marks_and_discriminator" "$names"$'0x1000,0,0x1004,0,0,1,9,0,1\n'"$second"
differs 'another instruction set' 'no 40 differs at 0x1004,0 table 0,1,4,0,1,6,0 section 0,1,4,0,1,0,0' "$plain" "$wide_names"$'0x1000,0,0x1004,0,0,1,3,0,1,0,0\n0x1004,0,0x1006,0,0,1,4,0,1,6,0\n'

# ---- tables at fault

is_at_fault() { # NAME REASON TABLE: of the plain unit
  differs "$1" "no $2" "$plain" "$3"
}
is_at_fault 'no record' '36 table header' ''
is_at_fault 'a header without its last name' '36 table header' $'low,low_op,high,high_op,unit,file,line,column\n'
is_at_fault 'a wide header without its last name' '36 table header' $'low,low_op,high,high_op,unit,file,line,column,is_stmt,isa\n'"$first$second"
is_at_fault 'no header' '36 table header' "$first$second"
is_at_fault 'a record of eight fields' '37 table fields record 1' "$names"$'0x1000,0,0x1004,0,0,1,3,0\n'"$second"
is_at_fault 'a record of nine fields in a wide table' '37 table fields record 1' "$wide_names$first$second"
is_at_fault 'a record of eleven fields in a narrow table' '37 table fields record 1' "$names"$'0x1000,0,0x1004,0,0,1,3,0,1,0,0\n'"$second"
is_at_fault 'a fault after a difference' '37 table fields record 2' "$names"$'0x1000,0,0x1004,0,0,1,9,0,1\n0x1004,0,0x1006,0,0,1,4,0\n'
is_at_fault 'a flag of 2' '38 table number record 1 column 8' "$names"$'0x1000,0,0x1004,0,0,1,3,0,2\n'"$second"
is_at_fault 'a line of 2^64' '38 table number record 2 column 6' "$names$first"$'0x1004,0,0x1006,0,0,1,18446744073709551616,0,1\n'
is_at_fault 'an instruction set that is no number' '38 table number record 1 column 9' "$wide_names"$'0x1000,0,0x1004,0,0,1,3,0,1,x,0\n'
is_at_fault 'records in the other order' '39 table order record 2' "$names$second$first"
is_at_fault 'an empty record' '39 table order record 1' "$names"$'0x1000,0,0x1000,0,0,1,3,0,1\n'"$second"
is_at_fault 'a record that ends before it begins' '39 table order record 1' "$names"$'0x1004,0,0x1000,0,0,1,3,0,1\n'
for low in 0X1000 0x 0x1g 0x1G 0x1: 0x1@ '0x1`' 0x0ffffffffffffffff 1 ''; do
  is_at_fault "an address $low" '38 table number record 1 column 0' "$names$low"$',0,0x1004,0,0,1,3,0,1\n'"$second"
done
for op in 1a '' ' 1' +1 000000000000000000000 99999999999999999999; do
  is_at_fault "an operation index $op" '38 table number record 1 column 1' "${names}0x1000,$op"$',0x1004,0,0,1,3,0,1\n'"$second"
done
for line in 999999999999999999 1000000000000000000 18446744073709551615; do
  is_at_fault "line $line" "40 differs at 0x1000,0 table 0,1,$line,0,1 section 0,1,3,0,1" "${names}0x1000,0,0x1004,0,0,1,$line"$',0,1\n'"$second"
done
is_at_fault 'an address in letters of either case' '40 differs at 0xabcdef09,0 table 0,1,3,0,1 section none' "$names$first$second"$'0xAbCdEf09,0,0xffffffffffffffff,0,0,1,3,0,1\n'

# ---- sections that aren't good

is_bad 'a cut unit' 'no 25 malformed at 0x0: truncated' "$(cut_at "$plain" 70)"
differs 'a cut unit, and no table' 'no 25 malformed at 0x0: truncated' "$(cut_at "$plain" 70)" "$first"
is_bad 'a reserved length' 'no 25 malformed at 0x0: reserved length' f0ffffff00
is_bad 'a big-endian unit taken as a little-endian one' 'no 25 malformed at 0x0: truncated' "$wide"
is_bad 'a line below 0' 'no 26 run unit 0x0: line out of range at operation 1' "$line_below_zero"
is_bad 'a line below 0, and a byte that begins no unit' 'no 26 run unit 0x0: line out of range at operation 1' "${line_below_zero}00"
is_bad 'a line below 0, and an extended operation of no byte after it' 'no 25 malformed at 0x46: extended length' "$(with "$line_below_zero" 70 00)"
is_bad 'an open sequence' 'no 26 run unit 0x0: open sequence' "$open_sequence"
is_bad 'directories without a path' 'no 27 entry format unit 0x0 directories' "$(with "$plain" 31 03)"
is_bad 'files without a path' 'no 27 entry format unit 0x0 files' "$(with "$plain" 38 03)"
is_bad 'files with a vendor path' 'no 27 entry format unit 0x0 files' "$(with "$plain" 38 09)"
is_bad 'no line strings' 'no 28 string outside unit 0x0 directories entry 0' "$line_strp_directory"
is_bad 'line strings without an end' 'no 28 string outside unit 0x0 directories entry 0' "$line_strp_directory" --line-str "$work/strings_without_end"
is_bad 'a directory that is not there' 'no 29 directory number unit 0x0 file 1' "$(with "$plain" 52 05)"
is_bad 'a file that is not there' 'no 30 file number unit 0x0 row 0 file 1' "$one_file_from_zero"
is_bad 'a file that is set and not there' 'no 30 file number unit 0x0 row 0 file 2' "$(program "${operations[plain]/;/;set_file 2;}")"
is_bad 'an address that wraps' 'no 31 falls unit 0x0 row 1' "$address_wraps"
is_bad 'a unit twice' 'no 32 overlap 0x0:0 0x47:0 at 0x1000,0' "$plain$plain"
is_bad 'a unit twice, and a marker in the middle of its sequence' 'no 32 overlap 0x0:0 0x47:0 at 0x1000,0' "$plain$plain" --dead 0x1004
is_bad 'units that overlap past another' 'no 32 overlap 0x0:0 0x95:0 at 0x1005,0' "$plain$three_operations_per_instruction$later"
agrees 'a unit twice, dead' "$plain$plain" "$names" --dead 0x1000
agrees 'an address that wraps, dead' "$address_wraps" "$names" --dead 0xfffffffffffffff0

# ---- sequences

# A sequence: some operations, a row, and its end so many bytes behind it.
rows_from() { # ADDRESS SIZE [OPERATIONS]
  printf 'set_address %s;%scopy;advance_pc %s;end_sequence;' "$1" "$3" "$2"
}

# Two files are there. End rows name none.
missing='set_address 0x1000;set_file 0;copy;set_address 0x1001;end_sequence;set_address 0x2000;set_file 2;copy;'
missing=$(program "${missing}set_address 0x2004;set_file 1;copy;set_address 0x3000;set_file 7;end_sequence")
is_bad 'a file that is not there in the second sequence' 'no 30 file number unit 0x0 row 2 file 2' "$missing"
agrees 'a file that is not there in a dead sequence' "$missing" "$names"$'0x1000,0,0x1001,0,0,0,1,0,1\n' --dead 0x2000
agrees 'a file that is not there at an end' "$(program 'set_address 0x1000;set_file 0;copy;set_address 0x3000;set_file 7;end_sequence')" "$names"$'0x1000,0,0x3000,0,0,0,1,0,1\n'

falling='set_address 0x1000;copy;set_address 0x1001;end_sequence;set_address 0x3000;copy;set_address 0x2000;copy;copy;'
falling=$(program "${falling}set_address 0x1000;end_sequence")
is_bad 'rows that fall' 'no 31 falls unit 0x0 row 3' "$falling"
is_bad 'rows that fall to a marker' 'no 31 falls unit 0x0 row 3' "$falling" --dead 0x2000
agrees 'rows that fall in a dead sequence' "$falling" "$names"$'0x1000,0,0x1001,0,0,1,1,0,1\n' --dead 0x3000
is_bad 'rows that fall within an instruction' 'no 31 falls unit 0x0 row 1' "$(unit 010301fb0e0d $lengths $directories $files \
  "$(operations 'set_address 0x1000;advance_pc 2;copy;set_address 0x1000;advance_pc 1;copy;set_address 0x2000;end_sequence')")"

is_bad 'sequences that overlap, of which one is not the next' 'no 32 overlap 0x0:0 0x0:2 at 0x1005,0' \
  "$(program "$(rows_from 0x1000 6)$(rows_from 0x2000 1)$(rows_from 0x1005 3)$(rows_from 0x1005 1)")"
row='copy;advance_pc 4;end_sequence;'
same=$(program "${row}advance_pc 2;end_sequence;set_address 0x8;$row$row")
is_bad 'one sequence twice, and two between' 'no 32 overlap 0x0:0 0x0:3 at 0x0,0' "$same"
agrees 'one sequence twice, skipped, and two between' "$same" "$names"$'0x0,0,0x4,0,0,1,1,0,1\n0x8,0,0xc,0,0,1,1,0,1\n' --skip-copies
is_bad 'sequences that overlap, and are no copies' 'no 32 overlap 0x0:0 0x0:1 at 0x1005,0' \
  "$(program "$(rows_from 0x1000 6)$(rows_from 0x1005 1)")" --skip-copies
agrees 'one sequence twice, dead, and two between' "$same" "$names"$'0x8,0,0xc,0,0,1,1,0,1\n' --dead 0x0

# ---- tables written

writes 'a table' "$first$second" "$plain"
writes 'the table of no unit' '' ''
writes 'the table of a unit without a program' '' "$listed"
writes 'a table after a marker in the middle of a sequence' "$first$second" "$plain" --dead 0x1004
writes 'the table of dead code' '' "$plain" --dead 0x1000
writes 'two rows at one address' $'0x1000,0,0x1004,0,0,1,9,0,1\n' "$two_rows_at_one_address"
writes 'rows within an instruction that say the same' $'0x2000,0,0x2010,1,0,1,3,0,1\n0x2010,1,0x2020,0,0,1,4,0,1\n' "$three_operations_per_instruction"
writes 'sequences that touch and say the same' $'0x1000,0,0x1002,0,0,1,3,0,1\n' "$touching_sequences"
writes 'sequences that say the same apart' $'0x1000,0,0x1001,0,0,1,3,0,1\n0x2000,0,0x2001,0,0,1,3,0,1\n' "$parted_sequences"
writes 'sequences in falling order' $'0x1000,0,0x1001,0,0,1,3,0,1\n0x1001,0,0x1002,0,0,1,4,0,1\n0x2000,0,0x2001,0,0,1,5,0,1\n' \
  "$(program "$(rows_from 0x2000 1 'advance_line 4;')$(rows_from 0x1001 1 'advance_line 3;')$(rows_from 0x1000 1 'advance_line 2;')")"
writes 'two rows after a sequence at a greater address' $'0x1000,0,0x1004,0,0,1,1,0,1\n0x1004,0,0x1008,0,0,1,2,0,1\n0x2000,0,0x2004,0,0,1,3,0,1\n' \
  "$(program "$(rows_from 0x2000 4 'advance_line 2;')$(rows_from 0x1000 4 'copy;advance_pc 4;advance_line 1;')")"
writes 'empty sequences after another' "$first$second" "$(program "${operations[plain]};set_address 0x1002;end_sequence;set_address 0x1002;advance_line 6;copy;end_sequence")"
writes 'rows that differ in what is not told' $'0x1000,0,0x1006,0,0,1,1,0,1\n' "$(program "$(rows_from 0x1000 4 'copy;set_discriminator 7;advance_pc 2;')")"
put section "$plain"
says 'a wide table written' 0 "$wide_plain" table --wide "$work/section"
put section "$marks_and_discriminator"
says 'a wide table with a discriminator' 0 "$wide_marks" table --wide "$work/section"
greatest=18446744073709551615
put section "$(program "set_address 0x0;set_column 4096;advance_line 9;set_isa $greatest;set_discriminator $greatest;copy;\
set_address 0xffffffffffffffff;end_sequence")"
says 'the greatest numbers' 0 "$wide_names""0x0,0,0xffffffffffffffff,0,0,1,10,4096,1,$greatest,$greatest"$'\n' table --wide "$work/section"
put section "$plain"
says 'a table by path' 0 $'low,high,path,line,column\n0x1000,0x1004,/s/a.c,3,0\n0x1004,0x1006,/s/a.c,4,0\n' table --paths "$work/section"
says 'a table by path without columns' 0 $'low,high,path,line\n0x1000,0x1004,/s/a.c,3\n0x1004,0x1006,/s/a.c,4\n' table "$work/section" --lines
put section "$three_operations_per_instruction"
says 'a table by path of a part of an instruction' 1 $'no 43 operation index at 0x2010,1\n' table --paths "$work/section"

# A good section, its own table of each version, and the section cut after each number of bytes.
has_tables() { # NAME UNIT [OPTION..]
  put section "$2"
  crates/linetab/out/linetab table "$work/section" "${@:3}" >"$work/own"
  crates/linetab/out/linetab table --wide "$work/section" "${@:3}" >"$work/own_wide"
  says "$1, and its own table" 0 $'yes\n' check "$work/section" "$work/own" "${@:3}"
  says "$1, and its own wide table" 0 $'yes\n' check "$work/section" "$work/own_wide" "${@:3}"
}
for name in plain two_rows_at_one_address empty_sequence three_operations_per_instruction const_add_pc fixed_advance_pc opcode_base_10 opcode_base_15 \
    file_zero marks_and_discriminator two_sequences padded_operand listed vendor_block{1,2,4} touching_sequences parted_sequences; do
  has_tables "$name" "${!name}"
  is_cut "$name" "${!name}"
done
has_tables 'no unit' ''
has_tables 'line strings' "$line_strp_directory" --line-str "$work/strings"
is_cut 'line strings' "$line_strp_directory"
has_tables 'the 64-bit format' "$wide" --big
is_cut 'the 64-bit format' "$wide" --big
has_tables 'an address that wraps, dead' "$address_wraps" --dead 0xfffffffffffffff0
for name in line_below_zero one_file_from_zero address_wraps; do
  is_cut "$name" "${!name}"
done

# A unit that is cut, with the length of what is left.
shorter() {
  local count
  for ((count = 4; count < 71; count++)); do
    put section "$(cut_at "$(with "$plain" 0 "$(printf %02x $((count - 4)))")" "$count")"
    echo "$count: $(crates/linetab/out/linetab check "$work/section" "$work/table")"
  done
}
wanted() {
  local count answer
  for ((count = 4; count < 71; count++)); do
    case $count in
    4 | 5) answer='no 25 malformed at 0x4: truncated' ;;
    6 | 7 | 54 | 67 | 69 | 70) answer="no 25 malformed at $(printf 0x%x "$count"): truncated" ;;
    8 | 9 | 10 | 11) answer='no 25 malformed at 0x8: truncated' ;;
    53 | 64) answer=yes ;;
    55 | 56 | 57 | 58 | 59 | 60 | 61 | 62 | 63) answer='no 25 malformed at 0x37: truncated' ;;
    65 | 66 | 68) answer='no 26 run unit 0x0: open sequence' ;;
    *) answer='no 25 malformed at 0x8: header length' ;;
    esac
    echo "$count: $answer"
  done
}
printf %s "$names" >"$work/table"
expect 'a unit that ends early' 0 "$(wanted)"$'\n' '' shorter

# ---- lookups

a_c='column 0 stmt 1 path "/s/a.c"'
looks 'the last position' "0x1005,0 unit 0 file 1 line 4 $a_c" "$plain" 0x1005
looks 'after the last position' '0x1006,0 none' "$plain" 0x1006
looks 'before the first position' '0xfff,0 none' "$plain" 0xfff
looks 'the first position' "0x1000,0 unit 0 file 1 line 3 $a_c" "$plain" 0x1000
looks 'an operation index' "0x1003,7 unit 0 file 1 line 3 $a_c" "$plain" 0x1003 --op 7
looks 'a marker in the middle of a sequence' "0x1004,0 unit 0 file 1 line 4 $a_c" "$plain" 0x1004 --dead 0x1004
looks 'dead code' '0x1005,0 none' "$plain" 0x1005 --dead 0x1000
looks 'no unit' '0x0,0 none' '' 0x0
looks 'two rows at one address' "0x1000,0 unit 0 file 1 line 9 $a_c" "$two_rows_at_one_address" 0x1000
looks 'before a border within an instruction' "0x2010,0 unit 0 file 1 line 3 $a_c" "$three_operations_per_instruction" 0x2010
looks 'after a border within an instruction' "0x2010,1 unit 0 file 1 line 4 $a_c" "$three_operations_per_instruction" 0x2010 --op 1
looks 'before a row within an instruction' "0x2000,1 unit 0 file 1 line 3 $a_c" "$three_operations_per_instruction" 0x2000 --op 1
looks 'a second unit' "0x2010,1 unit 71 file 1 line 4 $a_c" "$plain$three_operations_per_instruction" 0x2010 --op 1
looks 'a big-endian unit' "0x1005,0 unit 0 file 1 line 4 $a_c" "$wide" 0x1005 --big
looks 'a row that begins no statement' '0x1000,0 unit 0 file 1 line 3 column 0 stmt 0 path "/s/a.c"' "$two_sequences" 0x1000
put section "$plain"
says 'a little-endian unit looked up as a big-endian one' 1 "$truncated" lookup --big "$work/section" 0x1005

# ---- paths

has_path() { # PATH UNIT [OPTION..]: at 0x1000
  put section "$2"
  expect "path $1" 0 "path \"$1\""$'\n' '' bash -c 'crates/linetab/out/linetab lookup "$0" 0x1000 "$@" | grep -Eo "path .*"' "$work/section" "${@:3}"
}
of_file() { # NUMBER DIRECTORIES FILES: rows of that file
  unit $numbers $lengths "$2" "$3" "$(operations "${operations[plain]/;/;set_file $1;}")"
}
a_c_in_0=020108020b01612e630000
below=020108020b02612e630000612e630001
has_path /s/a.c "$(of_file 0 $directories $files)"
has_path /s/a.c "$(of_file 1 $directories $files)"
has_path /s/a.c "$(of_file 0 010108022f73007400 $below)"
has_path /s/t/a.c "$(of_file 1 010108022f73007400 $below)"
has_path //a.c "$(of_file 0 010108012f2f00 $a_c_in_0)"
has_path rs/a.c "$(of_file 0 01010801727300 $a_c_in_0)"
has_path /.c "$(of_file 0 $directories 020108020b012f2e630000)"
has_path /a.c "$(of_file 1 010108022f73002f00 $below)"
has_path //t/a.c "$(of_file 1 010108022f2f007400 $below)"
has_path /.c "$(of_file 1 010108022f73007400 020108020b02612e6300002f2e630001)"
has_path '\x22\xff' "$(of_file 0 0101080100 020108020b0122ff0000)"
has_path /s/a.c "$line_strp_directory" --line-str "$work/strings"
has_path /s/a.c "$(with "$line_strp_directory" 32 0e)" --str "$work/strings"
put section "$line_strp_directory"
outside=$'no 28 string outside unit 0x0 directories entry 0\n'
says 'line strings without an end, looked up' 1 "$outside" lookup "$work/section" 0x1000 --line-str "$work/strings_without_end"
says 'strings in the other section' 1 "$outside" lookup "$work/section" 0x1000 --str "$work/strings"

# ---- sums

sums() { # NAME STATUS STDOUT UNITS: in the folder of the sources, with nothing on standard input
  put section "$4"
  expect "$1" "$2" "$3" '' bash -c 'cd "$0" && "$1/linetab" md5 section </dev/null' "$work" "$top"
}
local_listed=$(with "$listed" 34 2e)
mkdir "$work/.s"
: >"$work/.s/a.c"
sums 'a source as it is listed' 0 $'unit 0 file 0 same ".s/a.c"\n' "$local_listed"
printf abc >"$work/.s/a.c"
sums 'another source' 1 $'unit 0 file 0 differs 900150983cd24fb0d6963f7d28e17f72 ".s/a.c"\n' "$local_listed"
sums 'two units with another source' 1 $'unit 0 file 0 differs 900150983cd24fb0d6963f7d28e17f72 ".s/a.c"\nunit 66 file 0 differs 900150983cd24fb0d6963f7d28e17f72 ".s/a.c"\n' "$local_listed$local_listed"
printf 1234567890%.0s 1 2 3 4 5 6 7 8 >"$work/.s/a.c"
sums 'a source of eighty digits' 1 $'unit 0 file 0 differs 57edf4a22be3c955ac49da2e2107b67a ".s/a.c"\n' "$local_listed"
rm "$work/.s/a.c"
sums 'a source that is gone' 1 $'unit 0 file 0 unreadable ".s/a.c"\n' "$local_listed"
mkdir "$work/.s/a.c"
sums 'a folder in the place of a source' 1 $'unit 0 file 0 unreadable ".s/a.c"\n' "$local_listed"
sums 'no listed sum' 0 '' "$plain"
sums 'a second unit with a sum' 1 $'unit 71 file 0 unreadable "/s/a.c"\n' "$plain$listed"
sum=d41d8cd98f00b204e9800998ecf8427e
sums 'a source that is called -' 1 $'unit 0 file 0 unreadable "-"\n' "$(unit $numbers $lengths 0101080100 030108020b051e012d0000$sum '')"
sums 'a path that is no text' 1 $'unit 0 file 0 unreadable "\\xff"\n' "$(unit $numbers $lengths 0101080100 030108020b051e01ff0000$sum '')"
finish
