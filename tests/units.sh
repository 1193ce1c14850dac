#!/usr/bin/env bash
# Worked units: their headers, operations and rows as the program prints them, the bytes that it writes for them, and
# what it says of units that are cut or at fault.
cd "$(dirname "$(readlink -f -- "$0")")/.." || exit 1
. tests/check.bash
. tests/unit.bash

# The worked units and their operations, by name.
eval "$(python3 tests/worked.py units)"

# Units and their parts are hexadecimal digits here. A number of 4 bytes, low byte first.
number() {
  printf '%02x%02x%02x%02x' $(($1 & 255)) $(($1 >> 8 & 255)) $(($1 >> 16 & 255)) $(($1 >> 24 & 255))
}

# A little-endian unit in the 32-bit format: what header_length counts, a program, and the size of its addresses.
unit() { # HEADER PROGRAM [ADDRESS_SIZE]
  local header=${1// /} program=${2// /}
  printf '%s0500%s00%s%s%s' "$(number $((8 + (${#header} + ${#program}) / 2)))" "${3:-08}" \
    "$(number $((${#header} / 2)))" "$header" "$program"
}

# The same in the 64-bit format.
wide_unit() { # HEADER PROGRAM
  local header=${1// /} program=${2// /}
  printf 'ffffffff%s0000000005000800%s00000000%s%s' "$(number $((12 + (${#header} + ${#program}) / 2)))" \
    "$(number $((${#header} / 2)))" "$header" "$program"
}

# The unit with these bytes in the place of as many others.
with() { # UNIT PLACE BYTES
  printf '%s%s%s' "${1:0:2 * $2}" "$3" "${1:2 * $2 + ${#3}}"
}

# The first bytes of the unit.
prefix() { # UNIT COUNT
  printf '%s' "${1:0:2 * $2}"
}

# A byte so many times.
repeated() { # BYTE COUNT
  local k
  for ((k = 0; k < $2; k++)); do
    printf '%s' "$1"
  done
}

# A header with two opcodes that DWARF 5 doesn't know: 13 has two operands, and 14 has none.
unknown=010101fb0e0f${lengths}0200$directories$files

# Sets the address 0x1000; makes the rows of the plain unit; ends the sequence.
at=0009020010000000000000
rows=144b0202
end=000101

fields=$'header 8 1 1 1 -5 14 13\n'
tables=$'dir 0 1="/s"\nfile 0 1="a.c" 2=0\nfile 1 1="a.c" 2=0\n'

# Adds a line for each of the texts, which semicolons part, to `text`.
listed() { # NAME TEXTS
  local k parts
  IFS=';' read -ra parts <<<"$2"
  for k in "${!parts[@]}"; do
    text+="$1 $k ${parts[k]}"$'\n'
  done
}

# prints NAME STATUS UNIT TEXT WORD..: what the program prints of the unit.
prints() {
  bytes "$3" >"$work/unit"
  expect "$1" "$2" "$4" '' "$program" "${@:5}" "$work/unit"
}

# faulty NAME UNIT PLACE REASON [WORD..]: that the unit is no unit.
faulty() {
  prints "$1" 1 "$2" "no 25 malformed at $3: $4"$'\n' dump "${@:5}"
}

# Converts a file, whose result is a mere status where that isn't 0.
convert() { # FROM TO WORD..
  "$program" convert "$1" "${@:3}" >"$2" || echo "status $?" >"$2"
}

# converts NAME UNIT WANTED FORMAT ORDER [--big]
converts() {
  bytes "$2" >"$work/unit"
  bytes "$3" >"$work/wanted"
  convert "$work/unit" "$work/converted" --format "$4" --order "$5" "${@:6}"
  expect "$1" 0 '' '' cmp "$work/converted" "$work/wanted"
}

# comes_back NAME UNIT: the little-endian unit in the 32-bit format is written as it is, and comes back from the
# 64-bit format and the other order.
comes_back() {
  converts "$1, written" "$2" "$2" 32 little
  convert "$work/unit" "$work/there" --format 64 --order big
  convert "$work/there" "$work/back" --big --format 32 --order little
  expect "$1, there and back" 0 '' '' cmp "$work/back" "$work/unit"
}

# cut NAME UNIT [--big]: each part from its first byte on is cut short at the unit.
cut() {
  local k given name="$1, cut" size=$((${#2} / 2))
  is_chosen "$name" || return 0
  bytes "$2" >"$work/unit"
  for ((k = 1; k < size; k++)); do
    head -c "$k" "$work/unit" >"$work/cut"
    given=$("$program" units "${@:3}" "$work/cut")
    if [ $? -ne 1 ] || [ "$given" != 'no 25 malformed at 0x0: truncated' ]; then
      fail "$name" "after $k bytes: $given"
      return
    fi
  done
  pass "$name"
}

# worked NAME UNIT HEADER OPERATIONS ROWS
worked() {
  text="unit 0x0 32 $((${#2} / 2 - 4))"$'\n'$3
  listed op "$4"
  listed row "$5"
  prints "$1" 0 "$2" "$text" dump --ops --rows
  comes_back "$1" "$2"
  cut "$1" "$2"
}

# works NAME HEADER ROWS: a unit of tests/worked.py.
works() {
  worked "$1" "${!1}" "$2" "${operations[$1]}" "$3"
}

plain_rows='0x1000 0 1 3 0 1 - 0 0;0x1004 0 1 4 0 1 - 0 0;0x1006 0 1 4 0 1 e 0 0'

worked_units() {
  local name
  works plain "$fields$tables" "$plain_rows"
  works two_rows_at_one_address "$fields$tables" '0x1000 0 1 3 0 1 - 0 0;0x1000 0 1 9 0 1 - 0 0;0x1004 0 1 9 0 1 e 0 0'
  works empty_sequence "$fields$tables" "$plain_rows;0x1002 0 1 1 0 1 e 0 0"
  works three_operations_per_instruction $'header 8 16 3 1 -5 14 13\n'"$tables" \
    '0x2000 0 1 3 0 1 - 0 0;0x2000 2 1 3 0 1 - 0 0;0x2010 1 1 4 0 1 - 0 0;0x2020 0 1 4 0 1 e 0 0'
  works const_add_pc "$fields$tables" '0x1000 0 1 3 0 1 - 0 0;0x1011 0 1 3 0 1 - 0 0;0x1012 0 1 3 0 1 e 0 0'
  works fixed_advance_pc $'header 8 4 2 1 -5 14 13\n'"$tables" '0x1000 0 1 3 0 1 - 0 0;0x1005 0 1 3 0 1 - 0 0;0x1009 0 1 3 0 1 e 0 0'
  works opcode_base_10 $'header 8 1 1 1 -5 14 10\n'"$tables" '0x1000 0 1 5 0 1 - 0 0;0x1002 0 1 5 0 1 e 0 0'
  works opcode_base_15 $'header 8 1 1 1 -5 14 15\n'"$tables" '0x1000 0 1 3 0 1 - 0 0;0x1002 0 1 3 0 1 e 0 0'
  local one_file=$'dir 0 1="/s"\nfile 0 1="a.c" 2=0\n'
  works one_file_from_zero "$fields$one_file" "$plain_rows"
  works file_zero "$fields$one_file" '0x1000 0 0 3 0 1 - 0 0;0x1004 0 0 4 0 1 - 0 0;0x1006 0 0 4 0 1 e 0 0'
  works address_wraps "$fields$tables" '0xfffffffffffffff0 0 1 3 0 1 - 0 0;0x0 0 1 3 0 1 e 0 0'
  for name in marks_and_discriminator flags_and_discriminator; do
    works $name "$fields$tables" '0x1000 0 1 3 0 1 bp 0 7;0x1004 0 1 4 0 1 - 0 0;0x1006 0 1 4 0 1 e 0 0'
  done
  works all_marks "$fields$tables" '0x1000 0 1 3 8 1 bpg 5 0;0x1001 0 1 3 8 1 e 5 0'
  works two_sequences "$fields$tables" '0x1000 0 1 3 0 0 - 0 0;0x1001 0 1 3 0 0 e 0 0;0x2000 0 1 3 0 1 - 0 0;0x2001 0 1 3 0 1 e 0 0'
  works touching_sequences "$fields$tables" '0x1000 0 1 3 0 1 - 0 0;0x1001 0 1 3 0 1 e 0 0;0x1001 0 1 3 0 1 - 0 0;0x1002 0 1 3 0 1 e 0 0'
  works parted_sequences "$fields$tables" '0x1000 0 1 3 0 1 - 0 0;0x1001 0 1 3 0 1 e 0 0;0x2000 0 1 3 0 1 - 0 0;0x2001 0 1 3 0 1 e 0 0'
  # Each sequence begins with the registers as they were at the start. Operations without a row may follow the last.
  works second_registers "$fields$tables" '0x1000 0 1 3 9 0 - 0 0;0x1001 0 1 3 9 0 e 0 0;0x1000 0 1 3 0 1 - 0 0;0x1001 0 1 3 0 1 e 0 0'
  works line_strp_directory "$fields"$'dir 0 1=line_strp:0x0\nfile 0 1="a.c" 2=0\nfile 1 1="a.c" 2=0\n' "$plain_rows"
  works listed "$fields"$'dir 0 1="/s"\nfile 0 1="a.c" 2=0 5=d41d8cd98f00b204e9800998ecf8427e\n' ''
  for name in vendor_block{1,2,4}; do
    works $name "$fields"$'dir 0 1="/s" 8193=block:aabb\nfile 0 1="a.c" 2=0\nfile 1 1="a.c" 2=0\n' "$plain_rows"
  done
  worked 'bytes after the files' "$(unit "${header}aabb" "$at $rows $end")" "$fields$tables" "${operations[plain]}" "$plain_rows"

  # What isn't written as it was read, or isn't little-endian.
  text=$'unit 0x0 32 68\n'$fields$tables
  listed op "${operations[plain]}"
  listed row "$plain_rows"
  prints 'a padded operand' 0 "$padded_operand" "$text" dump --ops --rows
  converts 'a padded operand, written' "$padded_operand" "$plain" 32 little
  converts 'a padded count of directories, written' \
    "$(unit "${numbers}${lengths}010108 8100 2f7300 $files" "$at $rows $end")" "$plain" 32 little
  cut 'a padded operand' "$padded_operand"
  text=$'unit 0x0 64 71\n'$fields$tables
  listed op "${operations[plain]}"
  listed row "$plain_rows"
  prints 'the wide unit' 0 "$wide" "$text" dump --ops --rows --big
  cut 'the wide unit' "$wide" --big
  converts 'the wide unit, narrowed' "$wide" "$plain" 32 little --big
  converts 'the plain unit, widened' "$plain" "$wide" 64 big
  prints 'the plain unit by its frame' 0 "$plain" $'0x0 32 67\n' units
  prints 'the wide unit by its frame' 0 "$wide" $'0x0 64 71\n' units --big
}

sections() {
  local base asked
  base=$(unit "$unknown" "$at 0d800105 0e 16 0202 $end")
  text=$'unit 0x0 32 67\n'$fields$tables$'unit 0x47 32 73\nheader 8 1 1 1 -5 14 15\n'$tables$'unit 0x94 32 67\n'$fields$tables
  prints 'three units' 0 "$plain$base$plain" "$text" dump
  comes_back 'three units' "$plain$base$plain"
  comes_back 'bytes after the tables of a header' "$(unit "$header beef" "$at 14 0202 $end")"
  for asked in --ops --rows; do
    prints "no units, $asked" 0 '' '' dump "$asked"
  done
  prints 'no units' 0 '' '' dump
  prints 'no frames' 0 '' '' units
  converts 'no units, converted' '' '' 64 big
  converts 'two wide units, narrowed' "$wide$wide" "$plain$plain" 32 little --big
  prints 'a byte after a unit' 1 "${plain}00" $'0x0 32 67\nno 25 malformed at 0x47: truncated\n' units
  prints 'a byte after a header' 1 "${plain}00" "unit 0x0 32 67"$'\n'"$fields$tables"$'no 25 malformed at 0x47: truncated\n' dump
  bytes "$plain$(prefix "$plain" 70)" >"$work/unit"
  expect 'a cut unit is not converted' 1 $'no 25 malformed at 0x47: truncated\n' '' "$program" convert "$work/unit" --format 64 --order little
  bytes "$plain$(with "$plain" 69 00)" >"$work/unit"
  expect 'a fault of the second unit is told after the first' 1 \
    $'unit 0x0 32 67\n'"$fields$tables"$'no 25 malformed at 0x8c: extended length\n' '' "$program" dump "$work/unit"
  prints 'a fault of the first unit is told alone' 1 "$(with "$plain" 69 00)$plain" $'no 25 malformed at 0x45: extended length\n' dump

  # Offsets of 2^32 in the 64-bit format, which the 32-bit format can't say.
  local large
  large=$(wide_unit "${numbers}${lengths}01011f010000000001000000 0000" '')
  bytes "$large" >"$work/large"
  bytes "$plain" >"$work/plain"
  expect 'a large offset' 0 $'unit 0x0 64 44\n'"$fields"$'dir 0 1=line_strp:0x100000000\n' '' "$program" dump "$work/large"
  converts 'a large offset in its format' "$large" "$large" 64 little
  expect 'a large offset in the other format' 1 $'no 20 too large unit 0x0\n' '' "$program" convert "$work/large" --format 32 --order little
  cat "$work/plain" "$work/plain" >"$work/two"
  convert "$work/two" "$work/units" --format 64 --order little
  cat "$work/large" "$work/large" >>"$work/units"
  expect 'a large offset after two units' 1 $'no 20 too large unit 0xa6\n' '' "$program" convert "$work/units" --format 32 --order little
  cat "$work/plain" "$work/large" "$work/large" >"$work/units"
  expect 'a large offset after a unit of 32 bits' 1 $'no 20 too large unit 0x47\n' '' "$program" convert "$work/units" --format 32 --order little
  convert "$work/units" "$work/converted" --format 64 --order little
  expect 'the same in 64 bits' 0 $'0x0 64 71\n0x53 64 44\n0x8b 64 44\n' '' "$program" units "$work/converted"
}

# frames NAME BYTES TEXT [--big]: with status 1.
frames() {
  prints "$1" 1 "$2" "$3"$'\n' units "${@:4}"
}

faults_of_frames() {
  local short=0400000005000809 narrow=ffffffff0000000000000003000507
  local two=0400000005000809020000000500
  prints 'two short units' 0 "$two" $'0x0 32 4\n0x8 32 2\n' units
  prints 'a short wide unit' 0 "$narrow" $'0x0 64 3\n' units --big
  frames 'a reserved length after two units' "${two}f0ffffff" $'0x0 32 4\n0x8 32 2\nno 25 malformed at 0xe: reserved length'
  frames 'a byte after two units' "${two}f0" $'0x0 32 4\n0x8 32 2\nno 25 malformed at 0xe: truncated'
  frames 'a second unit that is cut' "$(prefix "$two" 13)" $'0x0 32 4\nno 25 malformed at 0x8: truncated'
  frames 'a reserved length' f0ffffff 'no 25 malformed at 0x0: reserved length'
  frames 'the greatest reserved length' feffffff 'no 25 malformed at 0x0: reserved length'
  frames 'a reserved length after the plain unit' "${plain}f0ffffff" $'0x0 32 67\nno 25 malformed at 0x47: reserved length'
  frames 'a wide length that is cut' ffffffff 'no 25 malformed at 0x0: truncated'
  cut 'a short unit' "$short"
  cut 'a short wide unit' "$narrow" --big
  frames 'the other byte order' "$short" 'no 25 malformed at 0x0: truncated' --big
  frames 'the plain unit in the other byte order' "$plain" 'no 25 malformed at 0x0: truncated' --big
  frames 'a unit of no bytes' 0000000005 'no 25 malformed at 0x4: truncated'
  frames 'a unit of one byte' 0100000005 'no 25 malformed at 0x4: truncated'
  frames 'another version' 03000000040009 'no 25 malformed at 0x4: version 4'
  frames 'another version of the plain unit' "$(with "$plain" 4 04)" 'no 25 malformed at 0x4: version 4'
  frames 'another version of a cut unit' 04000000040009 'no 25 malformed at 0x0: truncated'
  frames 'a unit of 2^63 bytes' ffffffff0000000000000080 'no 25 malformed at 0x0: truncated'
  frames 'a unit of 2^64 - 1 bytes' "$(repeated ff 12)" 'no 25 malformed at 0x0: truncated'
}

faults_of_headers() {
  faulty 'an address size of 3' "$(with "$plain" 6 03)" 0x6 'address size 3'
  faulty 'a segment selector size' "$(with "$plain" 7 01)" 0x7 'segment selector size 1'
  faulty 'a header longer than its unit' "$(with "$plain" 8 3c)" 0x8 'header length'
  faulty 'a header that ends in the standard lengths' "$(with "$plain" 8 0a)" 0x16 truncated
  faulty 'no operations per instruction' "$(with "$plain" 13 00)" 0xd 'zero operations per instruction'
  faulty 'no line range' "$(with "$plain" 16 00)" 0x10 'zero line range'
  faulty 'no opcode base' "$(with "$plain" 17 00)" 0x11 'zero opcode base'
  faulty 'neither line range nor opcode base' "$(with "$plain" 16 0000)" 0x10 'zero line range'
  faulty 'a wrong standard length' "$(with "$plain" 18 01)" 0x12 'length 1 of standard opcode 1'
  faulty 'another form' "$(with "$plain" 32 0c)" 0x20 'form 0xc'
  faulty 'a block in the place of a text' "$(with "$plain" 32 0a)" 0x22 truncated
  faulty 'a block longer than its header' \
    "$(unit "${numbers}${lengths}020108 81400a 01 2f7300 ffaabb $files" "$at $rows $end")" 0x28 truncated
  faulty 'directories without a format' "$(unit "${numbers}${lengths}0001 $files" "$at $rows $end")" 0x1f 'entries without a format'
  prints 'no directories and no format' 0 "$(unit "${numbers}${lengths}0000 $files" '')" \
    $'unit 0x0 32 44\n'"$fields"$'file 0 1="a.c" 2=0\nfile 1 1="a.c" 2=0\n' dump
  local most
  most=$(repeated ff 9)
  faulty 'files without end' "$(unit "${numbers}${lengths}${directories}020108020b${most}01${files:12}" "$at $rows $end")" 0x3e truncated
  faulty 'too many files' "$(unit "${numbers}${lengths}${directories}020108020b${most}02${files:12}" "$at $rows $end")" 0x2a 'number too large'
}

# The unit with a directory of this form, and nothing after the value.
of_form() { # FORM VALUE
  unit "${numbers}${lengths}0101${1}01$2" ''
}

forms() {
  local code name
  faulty 'a cut block' "$(of_form 09 05aabb)" 0x22 truncated
  faulty 'a cut text' "$(of_form 08 6162)" 0x22 truncated
  faulty 'a cut block with a length of 1 byte' "$(of_form 0a ffaabb)" 0x22 truncated
  faulty 'a cut block with a length of 2 bytes' "$(of_form 03 0300aabb)" 0x22 truncated
  faulty 'a cut length of 2 bytes' "$(of_form 03 03)" 0x22 truncated
  faulty 'a cut block with a length of 4 bytes' "$(of_form 04 03000080aabb)" 0x22 truncated
  faulty '15 of 16 bytes' "$(of_form 1e "$(repeated 01 15)")" 0x22 truncated
  faulty 'a cut offset' "$(of_form 0e 010101)" 0x22 truncated
  faulty 'a cut number' "$(of_form 0f 80)" 0x22 truncated
  for ((code = 0; code < 300; code++)); do
    name=$(printf '%02x' "$code")
    [ "$code" -lt 128 ] || name=$(printf '%02x%02x' $((code % 128 + 128)) $((code / 128)))
    case $code in
      3 | 4 | 5 | 6 | 7 | 8 | 9 | 10 | 11 | 14 | 15 | 30 | 31)
        prints "form $code" 0 "$(unit "${numbers}${lengths}0101${name}00 0000" '')" $'unit 0x0 32 32\n'"$fields" dump ;;
      *)
        faulty "form $code" "$(unit "${numbers}${lengths}0101${name}00 0000" '')" 0x20 "form 0x$(printf %x "$code")" ;;
    esac
  done
  faulty 'form 2^64 - 1' "$(unit "${numbers}${lengths}0101$(repeated ff 9)0100 0000" '')" 0x20 'form 0xffffffffffffffff'

  # A directory with a component of each form, in both orders: the form's code, and its value.
  local pairs='0108 021f 030e 040f 050b 0605 0706 0807 091e 0a09 0b0a 0c03 0d04'
  local text_value=61227f5c7e2000 sum=d41d8cd98f00b204e9800998ecf8427e little big
  little="$text_value 10000000 20000000 8001 ff feff 04030201 0807060504030201 $sum 02aabb 01cc 0200aabb 01000000cc"
  big="$text_value 0000000000000010 0000000000000020 8001 ff fffe 01020304 0102030405060708 $sum 02aabb 01cc 0002aabb 00000001cc"
  local shown=$'dir 0 1="a\\x22\\x7f\\x5c~ " 2=line_strp:0x10 3=strp:0x20 4=128 5=255 6=65534 7=16909060 8=72623859790382856 9=d41d8cd98f00b204e9800998ecf8427e 10=block:aabb 11=block:cc 12=block:aabb 13=block:cc\n'
  local narrow body
  narrow=$(unit "${numbers}${lengths}0d${pairs}01${little}0000" '')
  body=${numbers}${lengths}0d${pairs}01${big}0000 body=${body// /}
  prints 'a value of each form' 0 "$narrow" "unit 0x0 32 $((${#narrow} / 2 - 4))"$'\n'"$fields$shown" dump
  comes_back 'a value of each form' "$narrow"
  converts 'a value of each form, big-endian in the 64-bit format' "$narrow" \
    "ffffffff00000000000000$(printf %02x $((12 + ${#body} / 2)))0005080000000000000000$(printf %02x $((${#body} / 2)))$body" 64 big
  comes_back 'an empty text, an empty block and a block of 255 bytes' \
    "$(unit "${numbers}${lengths}03 0108 0209 030a 01 00 00 ff$(repeated 07 255) 0000" '')"
}

# leb NAME BYTES UNSIGNED SIGNED: what they are as each kind of number, or the reason for which they are none.
leb() {
  local kind name code
  for kind in advance_pc advance_line; do
    code=02 name=$3
    [ "$kind" = advance_pc ] || { code=03 name=$4; }
    case $name in
      truncated | number*) faulty "$1, by $kind" "$(unit "$header" "$code$2")" 0x36 "$name" ;;
      *)
        text="unit 0x0 32 $((50 + ${#2} / 2))"$'\n'"$fields$tables"
        listed op "$kind $name"
        prints "$1, by $kind" 0 "$(unit "$header" "$code$2")" "$text" dump --ops ;;
    esac
  done
}

numbers_of_any_length() {
  local ones zeros
  ones=$(repeated ff 9)
  zeros=$(repeated 80 9)
  leb '2' 02 2 2
  leb '127' 7f 127 -1
  leb '126' 7e 126 -2
  leb '128' 8001 128 128
  leb '12857' b964 12857 -3527
  leb '2^63' "${zeros}01" 9223372036854775808 'number too large'
  leb '2^64 - 1' "${ones}01" 18446744073709551615 'number too large'
  leb '127, signed' ff00 127 127
  leb '-127' 817f 16257 -127
  leb '-128' 807f 16256 -128
  leb '129' 8101 129 129
  leb '-129' ff7e 16255 -129
  leb '2^63 - 1' "${ones}00" 9223372036854775807 9223372036854775807
  leb '-2^63' "${zeros}7f" 'number too large' -9223372036854775808
  leb 'a padded 0' 80808000 0 0
  leb 'a 0 of two bytes' 8000 0 0
  leb 'a 0 of 41 bytes' "$(repeated 80 40)00" 0 0
  leb 'a -1 of 41 bytes' "$(repeated ff 40)7f" 'number too large' -1
  leb 'no byte' '' truncated truncated
  leb 'no last byte' 80 truncated truncated
  leb 'ten bytes and no last one' "${ones}ff" truncated truncated
  leb 'beyond both' "${ones}02" 'number too large' 'number too large'
  leb 'below both' "${ones}7e" 'number too large' 'number too large'
  # Each is spelled as short as can be, and is written so.
  comes_back 'the shortest unsigned numbers' "$(unit "$header" "0202 027f 028001 02b964 02${zeros}01 02${ones}01")"
  comes_back 'the shortest signed numbers' \
    "$(unit "$header" "0302 037e 03ff00 03817f 038001 03807f 038101 03ff7e 03${ones}00 03${zeros}7f")"
}

# written NAME PROGRAM OPERATIONS: of a header with two unknown opcodes.
written() {
  local made
  made=$(unit "$unknown" "$2")
  text="unit 0x0 32 $((${#made} / 2 - 4))"$'\nheader 8 1 1 1 -5 14 15\n'$tables
  listed op "$3"
  prints "$1" 0 "$made" "$text" dump --ops
  comes_back "$1" "$made"
}

# refused NAME PROGRAM PLACE REASON: the place counts from the program's first byte.
refused() {
  faulty "$1" "$(unit "$unknown" "$2")" "$(printf '0x%x' $((55 + $3)))" "$4"
}

operations() {
  written 'opcodes alone' '14 01 06 07 08 0a 0b' \
    'special 20;copy;negate_stmt;set_basic_block;const_add_pc;set_prologue_end;set_epilogue_begin'
  written 'opcodes with operands' '02ac02 037d 03c000 048001 0507 093412 0c05' \
    'advance_pc 300;advance_line -3;advance_line 64;set_file 128;set_column 7;fixed_advance_pc 4660;set_isa 5'
  written 'unknown operations' '0d800105 0e 000100 000480010203 000103' \
    'unknown_standard 13 128 5;unknown_standard 14;unknown_extended 0;unknown_extended 128 010203;unknown_extended 3'
  written 'an unknown operation of 128 bytes' "00800103$(repeated 07 127)" "unknown_extended 3 $(repeated 07 127)"
  written 'extended operations' "$end $at 00020407 0003048001 000b04$(repeated ff 9)01" \
    'end_sequence;set_address 0x1000;set_discriminator 7;set_discriminator 128;set_discriminator 18446744073709551615'
  written 'no operation' '' ''

  # Addresses of 2 and 4 bytes, in both orders.
  local sized two four
  two=$(unit "$header" '0003020010 093412' 02)
  four=$(unit "$header" '00050200100000 093412' 04)
  for sized in "2 $two" "4 $four"; do
    text="unit 0x0 32 $((${#sized} / 2 - 5))"$'\n'"header ${sized% *} 1 1 1 -5 14 13"$'\n'"$tables"
    listed op 'set_address 0x1000;fixed_advance_pc 4660'
    prints "an address of ${sized% *} bytes" 0 "${sized#* }" "$text" dump --ops
    comes_back "an address of ${sized% *} bytes" "${sized#* }"
  done
  converts 'an address of 2 bytes, big-endian' "$two" "000000390005020000000029${header}0003021000091234" 32 big
  converts 'an address of 4 bytes, big-endian' "$four" "0000003b0005040000000029${header}00050200001000091234" 32 big

  refused 'an operand that is not there' 1602 2 truncated
  refused 'an unsigned operand without its last byte' 0280 1 truncated
  refused 'a signed operand without its last byte' 03ffff 1 truncated
  refused 'half of 2 bytes' 0901 1 truncated
  refused 'one of two unknown operands' 0d01 2 truncated
  refused 'a second unknown operand without its last byte' 0d0180 2 truncated
  refused 'no extended length' 00 1 truncated
  refused 'an extended length without its last byte' 0080 1 truncated
  refused 'fewer bytes than the extended length' 00030100 2 truncated
  refused 'a padded extended length and no code' 008100 3 truncated
  refused 'an address that is cut' 0e00090200 3 truncated
  refused 'an extended length of 0' 0000 1 'extended length'
  refused 'an end with an operand' 00020100 1 'extended length'
  refused 'no address' 000102 1 'extended length'
  refused 'an address of the wrong size' 00050200100000 1 'extended length'
  refused 'no discriminator' 000104 1 'extended length'
  refused 'a discriminator without its last byte' 0003048080 1 'extended length'
  refused 'a discriminator that ends early' 0003040100 1 'extended length'
  local high
  high=$(repeated 80 9)
  refused 'an unsigned operand out of range' "02${high}02" 1 'number too large'
  refused 'a signed operand out of range' "03${high}01" 1 'number too large'
  refused 'an unknown operand out of range' "0d01${high}02" 2 'number too large'
  refused 'an extended length out of range' "00${high}02" 1 'number too large'
  refused 'a discriminator out of range' "000b04${high}02" 3 'number too large'
  refused 'a discriminator out of range that ends early' "000c04${high}0200" 1 'extended length'
  refused 'a fault after other operations' 160002010016 2 'extended length'
  faulty 'the end of the plain unit with a length of 0' "$(with "$plain" 69 00)" 0x45 'extended length' --ops
  faulty 'the end of the plain unit with a length of 2' "$(with "$plain" 69 02)" 0x46 truncated --rows
}

# run NAME PROGRAM FAULT: of a program that doesn't run. Without its rows the unit is printed.
run() {
  prints "$1" 1 "$(unit "$header" "$2")" "no 26 run unit 0x0: $3"$'\n' dump --ops --rows
  text="unit 0x0 32 $((${#header} / 2 + 8 + $(printf '%s' "${2// /}" | wc -c) / 2))"$'\n'"$fields$tables"
  prints "$1, without rows" 0 "$(unit "$header" "$2")" "$text" dump
}

runs() {
  run 'rows after the last end' "$at $rows" 'open sequence'
  run 'one row' 01 'open sequence'
  run 'a line below 0' "$at 037e 01 0202 $end" 'line out of range at operation 1'
  run 'a line below 0 in an open sequence' "$at 01 037e" 'line out of range at operation 2'
  run 'a line below 0 and a row' '01 037e' 'line out of range at operation 1'
  run 'a line of 2^32' "03ffffffff0f $end" 'line out of range at operation 0'
}

# The plain unit cut after each number of bytes, with as many counted by its length.
cut_inside() {
  local k cut
  for ((k = 4; k < 71; k++)); do
    cut=$(with "$(prefix "$plain" "$k")" 0 "$(printf %02x $((k - 4)))")
    text=$'no 25 malformed at 0x'
    case $k in
      4 | 5) text+=$'4: truncated\n' ;;
      8 | 9 | 10 | 11) text+=$'8: truncated\n' ;;
      6 | 7 | 54 | 67 | 69 | 70) text+=$(printf %x "$k")$': truncated\n' ;;
      5[5-9] | 6[0-3]) text+=$'37: truncated\n' ;;
      53 | 64)
        text="unit 0x0 32 $((k - 4))"$'\n'"$fields$tables"
        prints "$k bytes and their length" 0 "$cut" "$text" dump --rows
        continue ;;
      65 | 66 | 68) text=$'no 26 run unit 0x0: open sequence\n' ;;
      *) text+=$'8: header length\n' ;;
    esac
    prints "$k bytes and their length" 1 "$cut" "$text" dump --rows
  done
}

# text_of NAME UNIT STATUS TEXT: the path of the first row, where the line strings are `/s`, nothing and an `a` without
# an end, and the strings are `b`.
text_of() {
  bytes "$2" >"$work/unit"
  bytes 2f730061 >"$work/line"
  bytes 6200 >"$work/general"
  expect "$1" "$3" "$4"$'\n' '' "$program" lookup "$work/unit" 0x1000 --line-str "$work/line" --str "$work/general"
}

# The plain unit with a directory of this form.
in_directory() { # FORM VALUE
  unit "${numbers}${lengths}0101${1}01$2$files" "$at $rows $end"
}

texts() {
  local found='0x1000,0 unit 0 file 1 line 3 column 0 stmt 1 path'
  local outside='no 28 string outside unit 0x0 directories entry 0'
  local other='no 27 entry format unit 0x0 directories'
  text_of 'a line string' "$(in_directory 1f 00000000)" 0 "$found \"/s/a.c\""
  text_of 'an empty line string' "$(in_directory 1f 02000000)" 0 "$found \"a.c\""
  text_of 'a line string without an end' "$(in_directory 1f 03000000)" 1 "$outside"
  text_of 'the end of the line strings' "$(in_directory 1f 04000000)" 1 "$outside"
  text_of 'an offset after the line strings' "$(in_directory 1f ffffffff)" 1 "$outside"
  text_of 'the greatest offset' "$(wide_unit "${numbers}${lengths}01011f01$(repeated ff 8)$files" "$at $rows $end")" 1 "$outside"
  text_of 'a string' "$(in_directory 0e 00000000)" 0 "$found \"b/a.c\""
  text_of 'the end of the strings' "$(in_directory 0e 02000000)" 1 "$outside"
  text_of 'a text' "$(in_directory 08 6f776e00)" 0 "$found \"own/a.c\""
  text_of 'a number' "$(in_directory 0f 00)" 1 "$other"
  text_of 'a block' "$(in_directory 09 036f776e)" 1 "$other"
}

# claim NAME BYTES TEXT COMMAND..: what is printed of the bytes in 64 MiB of memory, with status 1.
claim() {
  bytes "$2" >"$work/unit"
  expect "$1" 1 "$3"$'\n' '' bash -c 'ulimit -v 65536; exec "$@"' - "$program" "${@:4}" "$work/unit"
}

# Nothing is reserved by a length or a count alone.
claims() {
  claim 'a unit of 2^31 bytes' 0000008005000800 'no 25 malformed at 0x0: truncated' units
  claim 'a unit of 2^62 bytes' ffffffff00000000000000400500 'no 25 malformed at 0x0: truncated' units
  claim '2^30 directories' "$(unit "${numbers}${lengths}010108 8080808004 00" '')" 'no 25 malformed at 0x27: truncated' dump
  claim '2^30 directories, converted' "$(unit "${numbers}${lengths}010108 8080808004 00" '')" \
    'no 25 malformed at 0x27: truncated' convert --format 32 --order little
  claim '2^30 files' "$(unit "${numbers}${lengths}${directories}020108020b 8080808004 ${files:12}" '')" 'no 25 malformed at 0x39: truncated' dump
  claim '2^64 - 1 files' "$(unit "${numbers}${lengths}${directories}020108020b $(repeated ff 9)01 ${files:12}" '')" \
    'no 25 malformed at 0x3e: truncated' dump
  claim 'a block of 2^31 bytes' "$(of_form 04 0000008000)" 'no 25 malformed at 0x22: truncated' dump
  claim 'an operation of 2^30 bytes' "$(unit "$header" '00 8080808004 80')" 'no 25 malformed at 0x3b: truncated' \
    convert --format 32 --order little
}

worked_units
sections
faults_of_frames
faults_of_headers
forms
numbers_of_any_length
operations
runs
cut_inside
texts
claims
finish
