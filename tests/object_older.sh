#!/usr/bin/env bash
# linetab-object and units of versions 2 to 4, with --older, --no-older and upgrade: programs with such units, written here and by the
# compilers that are here. Their rows are compared with those that llvm-dwarfdump tells of the program as it is.
cd "$(dirname "$(readlink -f -- "$0")")/.." || exit 1
. tests/check.bash
says=linetab-object:
note="$says note:"
offsets='offsets of units are those of the upgraded section, which linetab-object upgrade prints'
one="$note its unit of version 4 was upgraded to version 5: $offsets"$'\n'
stays="$note no compilation directory is known of its unit, so relative paths stay relative, as src/a.c"$'\n'
anew="compile with -gdwarf-5; with gcc also -Wa,--gdwarf-5, since the assembler writes the section (as: --gdwarf-5)"

# A folder with the script, its modules and the program alone, as they are installed.
mkdir -p "$work/bin" "$work/share/linetab"
cp linetab-object "$work/bin"
cp -r share/scripts "$work/share/linetab"
ln -s "$PWD/crates/linetab/out/linetab" "$work/bin/linetab"
linetab=$work/bin/linetab
object() { # WORD..
  "$work/bin/linetab-object" "$@"
}
export -f object
export work
program() { # FORMAT NAME UNIT.. [WORD..]: a program of that name, in the folder of the test
  python3 tests/older_program.py "$1" "$work/$2" "${@:3}" code=0x1000,0x8000 || exit 1
}
# The table by lines of units that were compiled in these folders; the Kth begins at 0xK000.
lines_of() { # DIRECTORY..
  local k=0 directory
  echo low,high,path,line
  for directory; do
    k=$((k + 1))
    [ "$directory" != - ] || continue
    echo "0x${k}000,0x${k}004,${directory}src/a.c,3"
    echo "0x${k}004,0x${k}006,${directory}b.c,4"
  done
}
# tells NAME FILE ERROR DIRECTORY..: the table, and what is on standard error.
tells() {
  expect "$1" 0 "$(lines_of "${@:4}")"$'\n' "$3" object table --lines "$work/$2"
}

formats() {
  local format version
  for format in elf64 elf64-big elf32 elf32-big pe pe32 macho macho32-big fat wasm; do
    program "$format" app 2,/w 3,/x,wide 5,/v 4,/w/
    tells "$format" app "$note 3 of its 4 units of version 2 and 3 and 4 were upgraded to version 5: $offsets"$'\n' /w/ /x/ /v/ /w/
  done
  for version in 2 3 4; do
    program elf64 app "$version,/w"
    tells "version $version" app "${one/version 4/version $version}" /w/
  done
  program elf32 app 4,/w,size=2 3,/w,size=2
  tells 'addresses of 2 bytes, by .debug_info' app "$note its 2 units of version 3 and 4 were upgraded to version 5: $offsets"$'\n' /w/ /w/
  program elf64 app 4,/w 5,/w,size=4
  tells 'addresses of two sizes in .debug_info' app "$note 1 of its 2 units of version 4 was upgraded to version 5: $offsets"$'\n' /w/ /w/
  program wasm app 4,/w,alone
  tells 'addresses of a file without .debug_info' app "$one$stays" ''
  program elf64 app 5,/w 5,/x
  tells 'no older unit' app '' /w/ /x/
}

directories() {
  local past='its directory lies past the end of a section'
  local broken="$note 1 compilation directory can't be read, and is left empty: that of the unit at 0x0 of .debug_info:"
  local two="$note 2 compilation directories can't be read, and are left empty; the first is that of the unit at 0x13 of .debug_info:"
  local none="$note no compilation directory can be read, so each is left empty:"
  program elf64 app 4,/w,alone
  tells 'no directory' app "$one$stays" ''
  program elf64 app 4,/w 5,/w,alone 3,/w,alone 2,,
  tells 'no directory of two' app "$note 3 of its 4 units of version 2 and 3 and 4 were upgraded to version 5: $offsets"$'\n'\
"${stays/its unit/2 of its 4 units}" /w/ /w/ '' ''
  program elf64 app 4,/w,alone,whole
  expect 'no directory, and whole paths' 0 $'/x/a.c\n/y/src/b.c\n' "$one" \
    bash -c 'object table --lines "$0" | sed 1d | cut -d , -f 3' "$work/app"
  program elf64 app '4,/a%2C "b"%0A'
  expect 'a directory with a comma, quotes and an end of line' 0 $'"/a, ""b""\n/b.c"\n' '' \
    bash -c 'object files --quiet "$0" | tail -n 2 | sed "1s/^[^,]*,[^,]*,//; s/,$//"' "$work/app"
  program elf64 app 4,relative
  tells 'a relative one' app "$one" relative/
  program elf64 app 4,/w,broken
  tells 'one that is broken' app "$one$broken $past"$'\n' ''
  program elf64 app 4,/w 3,/x,broken 4,/w,broken
  tells 'two that are broken' app "$note its 3 units of version 3 and 4 were upgraded to version 5: $offsets"$'\n'"$two $past"$'\n' /w/ '' ''
  program elf64 app 4,/w cut
  tells 'a cut .debug_info' app "$one$broken it is cut"$'\n'"$stays" ''
  program elf64 app 4,/w packed
  tells 'a damaged .debug_info' app \
    "$one$none section .debug_info isn't what its compression header says: the file is damaged"$'\n' ''
  program elf64 app 4,/w twice
  tells 'two of them' app "$one$none it has two sections .debug_info, and nothing says which one is meant"$'\n' ''
}

# The directories of a program that `dwz -m` made stand in another file, which is known by its build id.
supplements() {
  local form id=d5027fdd3273dfc6
  local none="it is in the supplementary file of build id $id" below=/usr/lib/debug/.build-id/d5/027fdd3273dfc6.debug
  local there="$note compilation directories are in the supplementary file"
  local broken="$note 1 compilation directory can't be read, and is left empty: that of the unit at 0x0 of .debug_info:"
  local two="$note 2 compilation directories can't be read, and are left empty; the first is that of the unit at 0x0 of .debug_info:"
  printf '\0/dir\0' >"$work/texts"
  mkdir -p "$work/a" "$work/b"
  python3 tests/images.py elf64 "$work/a/common" .debug_str="$work/texts" id=$id
  python3 tests/images.py elf64-big "$work/a/common5" z:.debug_str="$work/texts" sup=,$id
  for form in alt sup; do
    program elf64 a/app "4,1,$form" "$form=common,$id"
    tells "a supplementary file, $form" a/app "$one$there $work/a/common"$'\n' /dir/
    program elf32-big b/app "4,1,$form" "$form=../a/common5,$id"
    tells "one of DWARF 5, $form" b/app "$one$there $work/a/common5"$'\n' /dir/
    program elf64 b/app "4,1,$form" "$form=$work/a/common,$id"
    tells "one by its whole path, $form" b/app "$one$there $work/a/common"$'\n' /dir/
    program elf64 b/app "4,1,$form" "$form=other,$id"
    tells "one that is not there, $form" b/app \
      "$one$broken $none, which isn't in $work/b/other or /usr/lib/debug/.dwz/other or $below"$'\n' ''
    program elf64 b/app "4,1,$form" "$form=../a/common,${id}00"
    tells "one of another build, $form" b/app "$one$broken ${none}00, and $work/a/common is another one"$'\n' ''
    program elf64 b/app "4,1,$form"
    tells "one that is not named, $form" b/app "$one$broken it is in a supplementary file, and no section names that"$'\n' ''
    program elf64 b/app "4,99,$form" "$form=../a/common,$id"
    tells "a place past its end, $form" b/app \
      "$one$there $work/a/common"$'\n'"$broken its directory lies past the end of a section"$'\n' ''
  done
  program elf64 a/app 4,1,alt alt=common,$id
  ln -s ../a/app "$work/b/link"
  tells 'by a link to the program' b/link "$one$there $work/a/common"$'\n' /dir/
  expect 'of standard input' 0 "$(lines_of /dir/)"$'\n' "$one$there $work/a/common"$'\n' object table --lines - <"$work/a/app"
  expect 'of a pipe' 0 "$(lines_of '')"$'\n' "$one$broken $none, which isn't in /usr/lib/debug/.dwz/common or $below"$'\n' \
    bash -c 'cat "$0" | object table --lines -' "$work/a/app"
  program elf64 a/app 4,1,alt 5,/v 3,5,alt alt=../x/.dwz/y/common,$id
  tells 'below .dwz' a/app "$note 2 of its 3 units of version 3 and 4 were upgraded to version 5: $offsets"$'\n'\
"$two $none, which isn't in $work/x/.dwz/y/common or /usr/lib/debug/.dwz/y/common or $below"$'\n' '' /v/ ''
  mkfifo "$work/a/pipe"
  program elf64 a/app 4,1,alt alt=pipe,$id
  tells 'a pipe in its place' a/app "$one$broken $none, and $work/a/pipe is another one"$'\n' ''
  python3 tests/images.py elf64 "$work/a/torn" z:.debug_str="$work/texts" damaged id=$id
  program elf64 a/app 4,1,alt alt=torn,$id
  tells 'one that is damaged' a/app \
    "$one$broken section .debug_str isn't what its compression header says: the file is damaged"$'\n' ''
  by_dwz
}

by_dwz() {
  local option
  here 'programs by dwz -m' dwz gcc || return
  printf 'struct s { int a, b; long c; };\nint f(struct s *x) { return x->a; }\n' >"$work/a/f.c"
  printf '#include "f.c"\nint main(int n, char **v) { struct s x = {n, 2, 3}; return f(&x); }\n' >"$work/a/main.c"
  for option in -q -5; do
    (cd "$work/a" && gcc -gdwarf-4 -o one main.c && cp one two && cp one three && dwz -q $option -m "shared$option" two three) \
      >"$work/err" 2>&1 || { skip "dwz makes no such files: $option"; continue; }
    object table --lines --quiet "$work/a/one" >"$work/one.csv"
    expect "the same lines, by dwz -m $option" 0 $'yes\n' '' object check --quiet "$work/a/two" "$work/one.csv"
    expect "a path, by dwz -m $option" 0 "$work/a/main.c"$'\n' '' \
      bash -c 'object files --quiet "$0" | cut -d , -f 3 | grep main | uniq' "$work/a/two"
    rm "$work/a/shared$option"
    expect "without the other file, by dwz -m $option" 0 $'main.c\n' '' \
      bash -c 'object files --quiet "$0" | cut -d , -f 3 | grep main | uniq' "$work/a/two"
  done
}

# What the machine can't do is no fault of the file: nothing is answered, where it would be answered without directories.
faults() {
  local words
  program elf64 app 4,/w,long squeezed
  printf '%s\n' "$(lines_of /w/)" >"$work/right.csv"
  expect 'with room for .debug_info' 0 "$(lines_of /w/)"$'\n' '' object table --quiet --lines "$work/app"
  for words in 'table --lines app' 'check app right.csv' 'lookup app 0x1000' 'files app' 'md5 app' 'upgrade app' 'verify app --older'; do
    expect "no room for .debug_info: $words" 3 "$says app: its sections can't be written to a temporary file: none"$'\n' '' \
      bash -c 'cd "$work"; set -o pipefail; (ulimit -f 2; object "$@" 2>&1) | sed "s/: File too large$/: none/"' . $words
  done
  # A unit has fewer bytes than its directory, of which many units have the same.
  program elf64 app $(printf '4,80,alt %.0s' {1..40}) "alt=common,00112233"
  (head -c 80 /dev/zero; printf '/%01000d\0' {1..9}) >"$work/texts"
  python3 tests/images.py elf64 "$work/common" .debug_str="$work/texts" id=00112233
  expect 'with room for directories' 0 $'40\n' '' bash -c 'object files --quiet "$0" | grep -cE ",1,/0+1/src/a.c,"' "$work/app"
  expect 'no room for directories' 3 "$says $work/app: its sections can't be written to a temporary file: none"$'\n' '' \
    bash -c 'set -o pipefail; (ulimit -f 12; object files "$0" 2>&1) | sed "s/: File too large$/: none/"' "$work/app"
  # A program beside it that is ended where it is asked for discarded code.
  mkdir -p "$work/ended/share" && cp -r share/scripts "$work/ended/share" && cp linetab-object "$work/ended"
  printf '#!/bin/sh\n[ "$1" != verify ] || [ "$2" = --help ] || %s\nexec "%s" "$@"\n' 'kill -KILL $$' "$linetab" >"$work/ended/linetab"
  chmod +x "$work/ended/linetab"
  program elf64 app 4,/w 4,/w,at=0 4,/w,at=0xffffffffffffffff
  expect 'a program that ends before it is known what is dead' 3 '' \
    "$says $work/app: the program linetab judged nothing, and ended with -9"$'\n' "$work/ended/linetab-object" table "$work/app"
}

# A size that isn't that of the section's addresses is told by the word that is given it, and by that which meets it.
sizes() {
  local told='in what is printed, operations that set one are refused'
  program elf64 app 4,/w
  expect_notes 'another size' 0 '' "$note addresses have 8 bytes there, and not 4, as --address-size says: $told"$'\n' \
    bash -c 'object upgrade "$0" --address-size 4 >"$0.up"' "$work/app"
  expect_notes 'another size, joined' 0 '' "$note addresses have 8 bytes there, and not 2, as --address-size says: $told"$'\n' \
    bash -c 'object upgrade "$0" --address-size=2 >"$0.up"' "$work/app"
  expect_notes 'another size, quiet' 0 '' '' bash -c 'object upgrade "$0" --quiet --address-size 4 >"$0.up"' "$work/app"
  expect_notes 'the size that it has' 0 '' '' bash -c 'object upgrade "$0" --address-size 8 >"$0.up"' "$work/app"
  program elf32 app 4,/w,alone
  expect_notes 'a size that a file may have' 0 '' "$stays" bash -c 'object upgrade "$0" --address-size 2 >"$0.up"' "$work/app"
  program elf32 app 4,/w,size=8,alone
  expect_notes 'a size that is not known' 1 $'no 25 malformed at 0x47: extended length\n' "$note units were upgraded for addresses of 4 \
bytes, and an operation has an operand of another length: if it sets an address of 2, 4 or 8 bytes, linetab-object upgrade \
--address-size N FILE prints the section for these, which linetab reads"$'\n'"$one$stays" object table "$work/app"
}

# Each word says of an older program what the program says of the section that upgrade prints.
words() {
  local words told
  program elf64 app 2,/w 3,/x,wide 5,/v 4,/y
  object upgrade "$work/app" >"$work/up" 2>"$work/err"
  while read -r words; do
    "$linetab" $words "$work/up" >"$work/wanted" 2>"$work/err"
    expect "$words" 0 '' '' bash -c 'object "$@" --older "$0/app" --quiet | cmp - "$0/wanted"' "$work" $words
    [[ $words == [tfm]* ]] || continue
    expect "$words, unasked" 0 '' '' bash -c 'object "$@" "$0/app" --quiet | cmp - "$0/wanted"' "$work" $words
  done <<'END'
verify
table
table --wide
table --paths
files
md5
units
dump
dump --ops --rows
convert --format 64 --order big
END
  program elf64 app 3,/x 4,/w
  told="$note its 2 units of version 3 and 4 were upgraded to version 5: $offsets"$'\n'
  expect_notes 'lookups' 0 $'0x1000,0 unit 0 file 1 line 3 column 0 stmt 1 path "/x/src/a.c"\n'\
$'0x2005,0 unit 98 file 2 line 4 column 0 stmt 1 path "/w/b.c"\n0x2006,0 none\n' "$told" \
    object lookup "$work/app" 0x1000 0x2005 0x2006
  for words in units verify 'dump --rows' 'convert --format 64 --order big' 'units --no-older'; do
    expect_notes "as they are: $words" 1 $'no 25 malformed at 0x4: version 3\n' \
      "$note its 2 units, the first of src/a.c, are of version 3 and 4; linetab reads DWARF 5 alone: with --older they are upgraded first; \
to build it anew: $anew"$'\n' object $words "$work/app"
  done
  for words in 'check - examples/hello.csv' 'table -' 'lookup - 0x1000' 'files -' 'md5 -'; do
    expect_notes "refused: $words" 1 $'no 25 malformed at 0x4: version 3\n' \
      "$note its 2 units, the first of src/a.c, are of version 3 and 4; linetab reads DWARF 5 alone: without --no-older they are upgraded \
first; to build it anew: $anew"$'\n' object ${words/-/$work/app} --no-older
  done
  expect_notes 'and upgraded' 0 $'0x0 32 94\n0x62 32 94\n' "$told" object units --older "$work/app"
  expect 'a table' 0 '' '' object table "$work/app" --quiet -o "$work/app.csv"
  expect_notes 'a check of it' 0 $'yes\n' "$told" object check "$work/app" "$work/app.csv"
  expect_notes 'the same, asked for' 0 $'yes\n' "$told" object check --older "$work/app" "$work/app.csv"
  expect_notes 'a check of standard input' 0 $'yes\n' "$told" object check "$work/app" - <"$work/app.csv"
  expect_notes 'a difference' 1 $'no 40 differs at 0x2004,0 table "/w/b.c",5 section "/w/b.c",4\n' "$told" \
    bash -c 'object table --lines --quiet "$0" | sed "\$s/4$/5/" | object check "$0" -' "$work/app"
  expect_notes 'a text' 0 $'at 0x1000 /x/src/a.c:3:0 and 0x3000\n' "$told" \
    bash -c 'echo at 0x1000 and 0x3000 | object symbolize "$0"' "$work/app"
  expect_notes 'the same, quiet' 0 $'yes\n' '' object verify --quiet --older "$work/app"
  expect_notes 'standard input' 0 $'yes\n' "$told" object verify --older - <"$work/app"
  expect_notes 'a pipe' 0 $'yes\n' "$told" bash -c 'cat "$0" | object verify --older -' "$work/app"
  expect_notes 'a closed standard error' 0 $'yes\n' '' bash -c 'object verify --older "$0" 2>&-' "$work/app"
  expect_notes 'a full standard error' 0 $'yes\n' '' bash -c 'object verify --older "$0" 2>/dev/full' "$work/app"
  expect 'no room for the section' 3 "$says $work/app: its sections can't be written to a temporary file: none"$'\n' '' \
    bash -c 'set -o pipefail; (ulimit -f 0; object verify --older "$0") 2>&1 | sed "s/: File too large$/: none/"' "$work/app"
}

# The word itself, which linetab-object gives the size of addresses and the directories.
upgrade() {
  # The numbers; the directories; the files; the program.
  local header='010101fb0e0d 000101010100000001000001 010108 02 2f7700 73726300'
  local files='04 0108 020f 030f 040f 03 612e6300010000 612e6300010000 622e6300000000'
  local rows='000902 0010000000000000 030201 0204 0402 0301 01 0202 000101'
  local directory='"$0/bin/linetab" dump - | sed -n "s/^dir 0 1=//p"'
  program elf64 app 4,/w
  (bytes "5e000000 0500 0800 3c000000 $header $files $rows") >"$work/wanted"
  expect_notes 'a section' 0 '' '' bash -c 'object upgrade "$0/app" | cmp - "$0/wanted"' "$work"
  expect_notes 'a section, into a file' 0 '' '' bash -c 'object upgrade "$0/app" -o "$0/up" && cmp "$0/up" "$0/wanted"' "$work"
  printf 'unit,directory\n0,/other\n' >"$work/told.csv"
  expect_notes 'directories of the words' 0 $'"/other"\n' '' \
    bash -c 'object upgrade "$0/app" --directories "$0/told.csv" | '"$directory" "$work"
  program elf64 app 4,/w,broken
  expect_notes 'a directory that is broken' 0 $'""\n' "$note 1 compilation directory can't be read, and is left empty: that of the unit at \
0x0 of .debug_info: its directory lies past the end of a section"$'\n' bash -c 'object upgrade "$0/app" | '"$directory" "$work"
  expect_notes 'one that is broken, and another in its place' 0 $'"/other"\n' '' \
    bash -c 'object upgrade "$0/app" --directories="$0/told.csv" | '"$directory" "$work"
  expect_notes 'a size of the words' 1 $'no 25 malformed at 0x47: extended length\n' '' \
    bash -c 'object upgrade "$0/app" --quiet --address-size 4 | "$0/bin/linetab" verify -' "$work"
  program elf64 app 5,/w 5,/x
  expect_notes 'a section of version 5' 0 "$(object units "$work/app")"$'\n' '' \
    bash -c 'object upgrade "$0" | "$1" units -' "$work/app" "$linetab"
  expect 'its usage' 0 $'Usage: linetab-object upgrade [OPTIONS] <FILE>\n' '' bash -c 'object upgrade --help | grep "^Usage"'
  expect 'no file' 2 '' $'error: the following required arguments were not provided:\n  <FILE>\n\nUsage: linetab-object upgrade <FILE>\n\n'\
$'For more information, try \'--help\'.\n' object upgrade
  expect_notes 'a section, with --older' 0 '' '' bash -c 'object upgrade "$0/app" --older | cmp - <(object upgrade "$0/app")' "$work"
  expect 'the words that take --no-older' 0 $'units\ndump\ncheck\nverify\nlookup\nfiles\ntable\nconvert\nmd5\nsymbolize\n' '' bash -c '
    for word in units dump check verify lookup files table convert md5 symbolize upgrade; do
      object "$word" --help | grep -q -e "^      --older  " || echo "$word takes no --older"
      ! object "$word" --help | grep -q -e "^      --no-older  " || echo "$word"
    done'
  expect 'both' 2 '' $'error: --older and --no-older exclude one another\n\nUsage: linetab-object table [OPTIONS] <FILE>...\n\n'\
$'For more information, try \'--help\'.\n' object table "$work/app" --no-older --older
  expect 'no older units to upgrade' 2 '' $'error: unexpected argument \'--no-older\' found\n' \
    bash -c 'object upgrade "$0" --no-older 2> >(head -n 1 >&2)' "$work/app"
}

refusals() {
  local beyond='linetab reads DWARF 2 to 5 alone: compile with -gdwarf-5'
  program elf64 app 4,/w 7,/w
  expect_notes 'another version' 1 $'no 25 malformed at 0x4e: version 7\n' "$note 1 of its 2 units is of version 7; $beyond"$'\n' \
    object verify --older "$work/app"
  expect_notes 'another version, to upgrade' 1 $'no 25 malformed at 0x4e: version 7\n' \
    "$note 1 of its 2 units is of version 7; $beyond"$'\n' object upgrade "$work/app"
  expect_notes 'one into a file' 1 $'no 25 malformed at 0x4e: version 7\n' '' object upgrade "$work/app" -o "$work/not" --quiet
  expect 'which is not written' 1 '' '' test -e "$work/not"
  program elf64 app 7,/w
  expect_notes 'another version, without --older' 1 $'no 25 malformed at 0x4: version 7\n' \
    "$note its unit is of version 7; linetab reads DWARF 5 alone: compile with -gdwarf-5"$'\n' object verify "$work/app"
  program elf64 app 2,/w 3,/w
  expect_notes 'two older units, without --older' 1 $'no 25 malformed at 0x4: version 2\n' \
    "$note its 2 units, the first of src/a.c, are of version 2 and 3; linetab reads DWARF 5 alone: with --older they are upgraded first; \
to build it anew: $anew"$'\n' object verify "$work/app"
  expect '--older with a value' 2 '' $'error: --older takes no value\n\nUsage: linetab-object verify [OPTIONS] <FILE>...\n\n'\
$'For more information, try \'--help\'.\n' object verify --older=yes "$work/app"
  program elf64 app 4,/w object
  expect_notes 'a relocatable object' 3 '' "$says $work/app: it is a relocatable object, whose relocations aren't applied and whose \
addresses all begin at 0: link it"$'\n' object verify --older "$work/app"
  printf '!<arch>\n' >"$work/archive"
  expect_notes 'an archive' 3 '' "$says $work/archive: it is an archive of relocatable objects: link them"$'\n' \
    object verify --older "$work/archive"
  # What Free Pascal writes as version 4 has no maximum_operations_per_instruction, so a zero stands in the place of opcode_base.
  (bytes "31000000 0400 1a000000 01 01 fb 0e 0d 000101010100000001000001 00 612e6300000000 00 000902 0010000000000000 14 0202 000101") \
    >"$work/pascal"
  echo 'Free Pascal 3.2.2' >"$work/said"
  python3 tests/images.py elf64 "$work/app" .debug_line="$work/pascal" .debug_str="$work/said" code=0x1000,0x8000
  expect_notes 'version 4 by Free Pascal' 1 $'no 25 malformed at 0xf: zero opcode base\n' "$note Free Pascal leaves the field \
maximum_operations_per_instruction out of version 4: compile with -gw3"$'\n' object verify --older "$work/app"
}

# Programs beside linetab-object that don't upgrade.
others() {
  local name
  program elf64 app 4,/w
  for name in old killed; do
    mkdir -p "$work/$name/share" && cp -r share/scripts "$work/$name/share" && cp linetab-object "$work/$name"
    printf '#!/bin/sh\n[ "$1" != upgrade ] || %s\nexec "%s" "$@"\n' \
      "$([ "$name" = old ] && echo 'exit 2' || echo 'kill -KILL $$')" "$linetab" >"$work/$name/linetab"
    chmod +x "$work/$name/linetab"
  done
  expect_notes 'a program without the word' 3 '' \
    "$says $work/app: the program linetab beside this one is of another version, and can't upgrade it"$'\n' \
    "$work/old/linetab-object" verify --older "$work/app"
  expect_notes 'a program that is killed' 0 $'-9\n' '' python3 -c 'import subprocess, sys; print(subprocess.call(sys.argv[1:]))' \
    "$work/killed/linetab-object" verify --older "$work/app"
}

# What is left out of a section is known by the upgraded one.
left_out() {
  local dead="where $work/app has no code: the linker left those of discarded functions there; --dead 0x0 leaves them out"
  local why='the linker kept one of several copies of a function, or folded functions into one (--icf); --skip-copies leaves out the others'
  program elf64 app 4,/w 4,/w,at=0 4,/w,at=0
  expect_notes 'discarded code' 0 "$(lines_of /w/)"$'\n' "$note sequences begin at 0x0, $dead"$'\n'\
"$note its 3 units of version 4 were upgraded to version 5: $offsets"$'\n' \
    object table --lines "$work/app"
  program elf64 app 4,/w 3,/w,at=0x1000
  expect_notes 'copies' 0 "$(lines_of /w/)"$'\n' \
    "$note sequences of $work/app hold the same positions, the first of them 0x1000: $why"$'\n'\
"$note its 2 units of version 3 and 4 were upgraded to version 5: $offsets"$'\n' object table --lines "$work/app"
}

several() {
  local all=$work/tree
  mkdir -p "$all/in"
  program elf64 tree/a 4,/w
  program elf32 tree/in/b 5,/w
  program pe tree/in/c 7,/w
  program elf64 tree/in/d 4,/w object
  expect_notes 'all in a folder' 1 "$all/a: yes"$'\n'"$all/in/b: yes"$'\n'"$all/in/c: no 25 malformed at 0x4: version 7"$'\n'\
$'3 files: 2 yes, 1 no, 0 not judged, 1 passed over\n' "$note $all/a: its unit of version 4 was upgraded to version 5: $offsets"$'\n'\
"$note $all/in/c: its unit is of version 7; linetab reads DWARF 2 to 5 alone: compile with -gdwarf-5"$'\n' object verify --older -r "$all"
  expect_notes 'units of two' 0 "$all/a: 0x0 32 94"$'\n'"$all/in/b: 0x0 32 80"$'\n2 files: 2 done, 0 no, 0 not judged\n' \
    "$note $all/a: its unit of version 4 was upgraded to version 5: $offsets"$'\n' object units --older "$all/a" "$all/in/b"
}

# Programs with other bytes.
changes() {
  local format
  for format in elf64 elf32-big pe macho wasm; do
    program "$format" app 2,/w 3,/x,wide 5,/v 4,/y,broken
    expect "$format, with other bytes" 0 $'1000 files\n' '' python3 tests/changed.py 1000 "$work/app"
  done
}

# Many small units, each of which a unit of .debug_info names, in 400 MB and 120 seconds.
hostile() {
  python3 - "$work" <<'END'
import struct, sys
unit = struct.pack("<IHI", 14, 4, 8) + bytes([1, 1, 1, 251, 14, 1, 0, 0])
info = struct.Struct("<IHIBBI3s")
with open(sys.argv[1] + "/line", "wb") as line, open(sys.argv[1] + "/info", "wb") as told, open(sys.argv[1] + "/abbrev", "wb") as abbrev:
    abbrev.write(b"\1\x11\0\x10\x06\x1b\x08\0\0\0")
    for k in range(50000):
        line.write(unit)
        told.write(info.pack(15, 4, 0, 8, 1, len(unit) * k, b"/w\0"))
END
  python3 tests/images.py elf64 "$work/app" .debug_line="$work/line" .debug_info="$work/info" .debug_abbrev="$work/abbrev"
  expect_notes 'hostile: many small units' 0 $'50000 "/w"\n' '' bash -c '
    (ulimit -v 400000; timeout 120 "$0/bin/linetab-object" upgrade "$0/app") | "$0/bin/linetab" dump - |
      awk "/^dir 0 1=/ { count[substr(\$0, 9)]++ } END { for (it in count) print count[it], it }"' "$work"
}

# The rows that llvm-dwarfdump tells of a program. It keeps 16 bits of a column, and no operation index, and leaves out sequences that
# begin at the highest address.
rows() { # NAME PROGRAM
  local place
  here "$1, its rows" llvm-dwarfdump || return
  # Where the debug information lies, if that is elsewhere.
  place=$(object verify --older "$2" 2>&1 >"$work/out" | sed -n 's/.* note: the debug information of .* is in //p')
  llvm-dwarfdump --debug-line "${place:-$2}" 2>"$work/err" | awk -f tests/peers/llvm_rows.awk | cut -d ' ' -f 3- >"$work/theirs"
  expect "$1, that it has rows" 0 '' '' test -s "$work/theirs"
  object dump --rows --older --quiet "$2" | awk '
    $1 == "unit" { begins = 1 }
    $1 == "row" {
      if (begins) is_left_out = $3 ~ /^0x(ffffffff|ffffffffffffffff)$/
      begins = $9 ~ /e/
      if (!is_left_out) print $3, $5, $6, $7 % 65536, $8, $9, $10, $11
    }' >"$work/ours"
  expect "$1, its rows" 0 '' '' bash -c 'diff "$0/ours" "$0/theirs" | head -n 10' "$work"
}

# A program that a compiler made is refused as it is, and good once it is upgraded; its own table is answered by yes; the path of its
# source is whole; and its rows are those that others tell.
answers() { # NAME PROGRAM SOURCE
  expect "$1, as it is" 0 $'with --older\n' '' bash -c 'object verify "$0" 2>&1 | grep -o "with --older"' "$2"
  expect "$1" 0 $'yes\n' '' object verify --older --quiet "$2"
  object table --quiet "$2" >"$work/made.csv"
  expect "$1, its table" 0 $'yes\n' '' object check --quiet "$2" "$work/made.csv"
  expect "$1, a path" 0 "$3"$'\n' '' bash -c 'object files --quiet "$0" | cut -d , -f 3 | grep -xF "$1" | sort -u' "$2" "$3"
  rows "$1" "$2"
}

compiled() {
  local name tools source command
  mkdir -p "$work/src"
  python3 -B - "$work/src" <<'END'
import importlib.machinery, os, sys
producers = importlib.machinery.SourceFileLoader("producers", "bench/producers").load_module()
for name, text in producers.SOURCES.items():
    with open(os.path.join(sys.argv[1], name), "w") as file:
        file.write(text)
END
  while IFS=: read -r name tools source command; do
    here "$name" $tools || continue
    rm -rf "$work/src/made"*
    (cd "$work/src" && PATH=$PATH:/usr/lib/llvm-14/bin GOCACHE=$work/cache bash -c "$command") >"$work/err" 2>&1 ||
      { skip "$tools can't make it here: $name"; continue; }
    answers "$name" "$work/src/made" "$work/src/$source"
  done <<'END'
gcc, version 2:gcc:main.c:gcc -gdwarf-2 -gstrict-dwarf -o made main.c part.c
gcc, version 3:gcc:part.c:gcc -gdwarf-3 -o made main.c part.c
gcc, version 4:gcc:main.c:gcc -gdwarf-4 -o made main.c part.c
gcc, version 4, optimized:gcc:part.c:gcc -gdwarf-4 -O2 -o made main.c part.c
gcc, version 4, at link time:gcc:part.c:gcc -gdwarf-4 -O2 -flto -o made main.c part.c
gcc, versions 4 and 5:gcc:main.c:gcc -c -gdwarf-4 part.c && gcc -gdwarf-5 -o made main.c part.o
gcc, in the 64-bit format:gcc:main.c:gcc -gdwarf-4 -gdwarf64 -o made main.c part.c
gcc, version 3 in the 64-bit format:gcc:main.c:gcc -gdwarf-3 -gdwarf64 -o made main.c part.c
gcc, compressed:gcc:many.c:gcc -gdwarf-4 -gz -o made main.c part.c many.c
gcc, with units apart:gcc:main.c:gcc -gdwarf-4 -gsplit-dwarf -o made main.c part.c
gcc, of 32 bits:gcc:bare.c:gcc -m32 -gdwarf-4 -nostdlib -ffreestanding -static -o made bare.c
gcc, stripped:gcc strip objcopy:main.c:gcc -gdwarf-4 -o made main.c part.c && objcopy --only-keep-debug made made.debug && objcopy -g --add-gnu-debuglink=made.debug made
gcc and lld:gcc ld.lld:main.c:gcc -gdwarf-4 -fuse-ld=lld -ffunction-sections -Wl,--gc-sections -o made main.c part.c
as:as ld:main.s:as --gdwarf-3 main.s -o main.o && ld main.o -o made
g++:g++:main.cc:g++ -gdwarf-4 -o made main.cc part.cc
g++, optimized:g++:main.cc:g++ -gdwarf-4 -O2 -o made main.cc part.cc
g++ and gold:g++ ld.gold:main.cc:g++ -gdwarf-4 -fuse-ld=gold -o made main.cc part.cc
gfortran:gfortran:main.f90:gfortran -gdwarf-4 -o made main.f90
gnatmake:gnatmake:main.adb:gnatmake -q -gdwarf-4 main.adb -o made
gdc:gdc:main.d:gdc -gdwarf-4 -o made main.d
fpc, version 2:fpc:main.pas:fpc -v0 -gw2 -o./made main.pas
fpc, version 3:fpc:main.pas:fpc -v0 -gw3 -o./made main.pas
rustc:rustc:main.rs:rustc -g -o made main.rs
rustc, version 5, and a library of version 4:rustc:main.rs:rustc -g -C dwarf-version=5 -o made main.rs
go:go:main.go:go build -o made main.go
ldc2:ldc2:main.d:ldc2 -g main.d -of=made
nasm:nasm ld:main.asm:nasm -g -F dwarf -f elf64 main.asm -o main.o && ld main.o -o made
yasm:yasm ld:main.asm:yasm -g dwarf2 -f elf64 main.asm -o main.o && ld main.o -o made
ocamlopt:ocamlopt:main.ml:ocamlopt -g main.ml -o made
ghc:ghc:main.hs:ghc -g main.hs -o made
swiftc:swiftc:main.swift:swiftc -g main.swift -o made
clang, version 2:clang:main.c:clang -gdwarf-2 -o made main.c part.c
clang, version 3:clang:main.c:clang -gdwarf-3 -o made main.c part.c
clang, version 4:clang:main.c:clang -gdwarf-4 -o made main.c part.c
clang, lines alone:clang:main.c:clang -gdwarf-4 -gline-tables-only -o made main.c part.c
clang, in the 64-bit format:clang:main.c:clang -gdwarf-4 -gdwarf64 -o made main.c part.c
clang++:clang++:main.cc:clang++ -gdwarf-4 -o made main.cc part.cc
clang, big-endian:clang ld.lld:bare.c:clang --target=powerpc64-linux-gnu -nostdlib -ffreestanding -fuse-ld=lld -gdwarf-4 -o made bare.c
clang, for Android:clang ld.lld:bare.c:clang --target=aarch64-linux-android21 -nostdlib -ffreestanding -fuse-ld=lld -g -o made bare.c
clang, of 32 bits:clang ld.lld:bare.c:clang --target=i686-linux-gnu -nostdlib -ffreestanding -fuse-ld=lld -gdwarf-2 -o made bare.c
clang, of 16 bits:clang ld.lld:bare.c:clang --target=msp430 -ffreestanding -gdwarf-4 -c bare.c && ld.lld -e _start -Ttext=0x1000 --image-base=0 bare.o -o made
clang, WebAssembly:clang wasm-ld:bare.c:clang --target=wasm32 -nostdlib -gdwarf-4 -Wl,--entry=_start -o made bare.c
clang, WebAssembly of 64 bits:clang wasm-ld:bare.c:clang --target=wasm64 -nostdlib -gdwarf-4 -Wl,-mwasm64 -Wl,--entry=_start -o made bare.c
clang, PE:clang ld.lld:bare.c:clang --target=x86_64-w64-mingw32 -gdwarf-4 -c bare.c && ld.lld -m i386pep -e _start bare.o -o made
clang, Mach-O:clang dsymutil:bare.c:clang --target=x86_64-apple-darwin -gdwarf-4 -c bare.c && ld64.lld -arch x86_64 -platform_version macos 11 11 -e __start -dylib bare.o -o made && dsymutil made
mingw:x86_64-w64-mingw32-gcc:main.c:x86_64-w64-mingw32-gcc -gdwarf-4 -o made.exe main.c part.c && mv made.exe made
arm:arm-linux-gnueabihf-gcc:main.c:arm-linux-gnueabihf-gcc -g -o made main.c part.c
powerpc64:powerpc64-linux-gnu-gcc:main.c:powerpc64-linux-gnu-gcc -g -o made main.c part.c
s390x:s390x-linux-gnu-gcc:main.c:s390x-linux-gnu-gcc -g -o made main.c part.c
END
}

# Tables of what other tools say of an older program, whose paths llvm-dwarfdump and readelf print without the compilation directory.
tables() {
  local tool words
  here 'tables of other tools' gcc || return
  cp linetab-table "$work/bin"
  printf 'int part(int);\nint main(int n, char **v) {\n  return part(n);\n}\nint part(int x) {\n  return 2 * x;\n}\n' >"$work/m.c"
  (cd "$work" && gcc -gdwarf-4 -O1 -o older m.c) >"$work/err" 2>&1 || { skip "gcc can't make it here: tables of other tools"; return; }
  while IFS=: read -r tool words; do
    here "a table by $tool" "$tool" || continue
    expect "a table by $tool" 0 $'yes\n' '' bash -c 'cd "$work" && eval "$0" | object check --quiet older -' "$words"
  done <<'END'
llvm-dwarfdump:llvm-dwarfdump --debug-line older | bin/linetab-table llvm-dwarfdump - --paths-of older 2>err
readelf:readelf --wide --debug-dump=decodedline older | bin/linetab-table readelf - --paths-of older 2>err
addr2line:bin/linetab-table points addr2line older
llvm-symbolizer:bin/linetab-table points llvm-symbolizer older
END
}

# The interpreter itself, where python3 is a script that looks for one.
PATH=$(dirname "$(python3 -c 'import sys; print(sys.executable)')"):$PATH
formats
directories
supplements
faults
sizes
words
upgrade
refusals
others
left_out
several
changes
hostile
compiled
tables
finish
