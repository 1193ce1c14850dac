#!/usr/bin/env bash
# What linetab-object and linetab-table say of a table or a symbol file that is wrong as a whole: all addresses are shifted, paths are
# written otherwise, the header isn't one, or the file is of another kind than is wanted there.
cd "$(dirname "$(readlink -f -- "$0")")/.." || exit 1
. tests/check.bash
says=linetab-object:
# A folder with the scripts, their modules and the program alone, as they are installed: the launcher would take as long as the rest.
mkdir -p "$work/bin" "$work/share/linetab"
cp linetab-object linetab-table "$work/bin"
cp -r share/scripts "$work/share/linetab"
ln -s "$PWD/crates/linetab/out/linetab" "$work/bin/linetab"
check() { # WORD..
  "$work/bin/linetab-object" check "$@"
}
export -f check
export work
cd "$work" || exit 1
python3 "$top/tests/images.py" elf64 app .debug_line="$top/examples/hello.debug_line" .debug_line_str="$top/examples/hello.debug_line_str" \
  code=0x1000,0x1000 id=00112233445566778899aabbccddeeff01234567 load=0x0 || exit 1
cat >app.sym <<'END2'
MODULE Linux x86_64 33221100554477668899AABBCCDDEEFF0 app
FILE 0 /w/src/small/a.c
FUNC 1129 65 0 all
1129 42 1 0
116b 14 2 0
117f f 3 0
END2
sed 's/^FUNC 1/FUNC /; s/^1//' app.sym >low.sym
python3 "$top/tests/images.py" elf64 fixed .debug_line="$top/examples/hello.debug_line" .debug_line_str="$top/examples/hello.debug_line_str" \
  code=0x1000,0x1000 id=00112233445566778899aabbccddeeff01234567 load=0x1000 || exit 1
"$work/bin/linetab-object" table --lines app -o four.csv
"$work/bin/linetab-object" table --paths app -o three.csv
"$work/bin/linetab-object" table app -o one.csv

# A check ends with the status 1, its first line begins so, and there is this note alone, or none.
told() { # NAME LINE NOTE WORD..
  local note=
  [ -z "$3" ] || note="$says note: $3"$'\n'
  expect_notes "$1" 1 "$2"$'\n' "$note" first_line "${@:4}"
}
first_line() { # WORD..
  check "$@" >"$work/lines"
  local status=$?
  head -n 1 "$work/lines" | sed 's/ differs at .*//'
  return $status
}
yes() { # NAME WORD..
  expect_notes "$1" 0 $'yes\nanswers 101 of 101\n' '' check "${@:2}"
}
changed() { # FILE EXPRESSION: the file by sed, as `bad`
  sed "$2" "$1" >bad
}
moved() { # FILE BY: a table, with each address moved
  python3 - "$1" "$2" >bad <<'END2'
import csv, sys
with open(sys.argv[1], newline="") as file:
    header, *records = csv.reader(file)
out = csv.writer(sys.stdout, lineterminator="\n")
out.writerow(header)
for record in records:
    for column in (header.index("low"), header.index("high")):
        record[column] = hex(int(record[column], 16) + int(sys.argv[2], 0))
    out.writerow(record)
END2
}

shifts() {
  local none='which leaves no difference' table
  told 'a base that is too high' 'no 40' "each record of app.sym lies 0x1000 too high: check it without --base, $none" app app.sym --base 0x1000
  told 'a base that is too low' 'no 40' "each record of low.sym lies 0x1000 too low: check it without --base, $none" fixed low.sym --base 0
  told 'a file whose addresses are absolute' 'no 40' "each record of app.sym lies 0x1000 too high: check it with --base 0x0, $none" fixed app.sym
  yes 'which is so' fixed app.sym --base 0x0
  sed 's/^\(FUNC \)\{0,1\}1/\1ff1/' app.sym >high.sym
  told 'a file that no base fits' 'no 40' "each record of high.sym lies 0xff0000 too high: make it of the program as it is linked, $none" \
    app high.sym
  for table in four three one; do
    moved $table.csv 0x400000
    told "a shifted table, $table" 'no 40' "each record of bad lies 0x400000 too high: subtract 0x400000 from each address in it, $none" app bad
    expect "a shifted table, $table, with all differences" 0 \
      "$says note: each record of bad lies 0x400000 too high: subtract 0x400000 from each address in it, $none"$'\n' '' \
      bash -c 'check app bad --all 2>&1 >/dev/null | grep "each record"'
    moved $table.csv -0x100
    told "a table that is too low, $table" 'no 40' "each record of bad lies 0x100 too low: add 0x100 to each address in it, $none" app bad
  done
  sed 's/^117f f 3/117f f 4/' app.sym >line.sym
  told 'a shift and a wrong line' 'no 40' \
    'each record of line.sym lies 0x1000 too high: check it without --base, which leaves 1 of 3 stretches that differ' app line.sym --base 0x1000
  told 'a wrong line alone' 'no 40' '' app line.sym
  told 'no notes' 'no 40' '' app app.sym --base 0x1000 --quiet
  moved four.csv 0x400000 && gzip -c bad >bad.gz
  told 'a table that gzip packed' 'no 40' "each record of bad.gz lies 0x400000 too high: subtract 0x400000 from each address in it, $none" app bad.gz
  told 'standard input' 'no 40' "each record of - lies 0x400000 too high: subtract 0x400000 from each address in it, $none" app - <bad
  moved four.csv 0x1
  told 'a shift by one' 'no 40' "each record of bad lies 0x1 too high: subtract 0x1 from each address in it, $none" app bad
  head -n 2 four.csv >one_span && mv one_span four.one && moved four.one 0x1000
  told 'a table of one span, which could lie anywhere' 'no 40' '' app bad
}

paths() {
  local none='which leaves no difference' lists='write them as linetab-object files app lists them'
  changed app.sym 's#/w/src#/build#'
  told 'another beginning' 'no 40' "paths in bad begin with /build/ in place of /w/src/: check it with --map /build/=/w/src/, $none" app bad
  yes 'which is so' app bad --map /build/=/w/src/
  told 'another beginning, by a wrong --map' 'no 40' "paths in bad begin with /x/ in place of /w/src/: correct --map, $none" app bad --map /build=/x
  changed app.sym 's#/w/src#/my build#'
  told 'a beginning with a blank' 'no 40' "paths in bad begin with /my build/ in place of /w/src/: check it with --map '/my build/=/w/src/', $none" \
    app bad
  changed app.sym 's#/w/src/##'
  told 'relative paths' 'no 40' \
    "paths in bad are relative, as small/a.c in place of /w/src/small/a.c: check it with --map =/w/src/, $none" app bad
  yes 'which is so, for all paths' app bad --map =/w/src/
  changed app.sym 's#/w/src#/build/w/src#'
  told 'a longer beginning' 'no 40' "paths in bad begin with /build/ in place of /: check it with --map /build/=/, $none" app bad
  changed app.sym 's#/w/src/small#./#'
  told 'a dot in place of a folder' 'no 40' "paths in bad are relative, as .//a.c in place of /w/src/small/a.c: check it with --map .//=/w/src/small/, $none" \
    app bad
  changed app.sym '/^FILE/s#/#\\#g'
  told 'backslashes' 'no 40' "paths in bad have backslashes in place of slashes: $lists, $none" app bad
  changed app.sym '/^FILE/s#/w/#C:\\#; /^FILE/s#/#\\#g'
  told 'backslashes, and another beginning' 'no 40' \
    "paths in bad have backslashes in place of slashes and begin with C:/ in place of /w/: $lists, $none" app bad
  changed four.csv 's#/w/src#/build#'
  told 'a table with another beginning' 'no 40' "paths in bad begin with /build/ in place of /w/src/: $lists, $none" app bad
  changed three.csv 's#/w/src/small/a.c#"/my,""b/small/a.c"#'
  told 'a table with columns, and paths in quotes' 'no 40' "paths in bad begin with /my,\"b/ in place of /w/src/: $lists, $none" app bad
  changed three.csv 's#/w/src#/build#; s/,117$/,118/'
  told 'another beginning and a wrong column' 'no 40' "paths in bad begin with /build/ in place of /w/src/: $lists, which leaves 1 of 18 stretches that differ" \
    app bad
  changed four.csv 's#a\.c#b.c#'
  told 'another name' 'no 40' '' app bad
  changed app.sym 's#/w/src#/build#'
  told 'another beginning and a shift' 'no 40' "each record of bad lies 0x10 too high, and its paths begin with /build/ in place of /w/src/: \
check it without --base and with --map /build/=/w/src/, $none" app bad --base 0x10
}

# ---- tables that are refused

headers() {
  local four='low,high,path,line' names
  while IFS='|' read -r name expression text; do
    changed four.csv "$expression"
    told "$name" 'no 36 table header' "bad: $text" app bad
  done <<'END2'
capital letters|1s/.*/Low,High,Path,Line/|its header is "Low,High,Path,Line" in place of low,high,path,line: capital letters
blanks|1s/,/, /g|its header is "low, high, path, line" in place of low,high,path,line: blanks around names
another order|1s/.*/path,line,low,high/|its header is "path,line,low,high" in place of low,high,path,line: another order of columns
semicolons|s/,/;/g|its header is "low;high;path;line" in place of low,high,path,line: semicolons in place of commas
tabs|s/,/\t/g|its header is "low\x09high\x09path\x09line" in place of low,high,path,line: tabs in place of commas
several of these|1s/.*/Path; Line;low;high/|its header is "Path; Line;low;high" in place of low,high,path,line: semicolons in place of commas and blanks around names and capital letters and another order of columns
no header|1d|it has no header, and begins with a span: its first line has to be low,high,path,line
no header and semicolons|1d; s/,/;/g|it has no header, and begins with a span: its first line has to be low,high,path,line, and it has semicolons in place of commas
another name of a column|1s/path/file/|its header is "low,high,file,line" in place of low,high,path,line: path is missing
other names|1s/.*/start,end,name,number/|its header is "start,end,name,number" in place of low,high,path,line
empty lines alone|s/.*//|it has no record
END2
  sed 1d three.csv >bad
  told 'no header, with columns' 'no 36 table header' 'bad: it has no header, and begins with a span: its first line has to be low,high,path,line,column' app bad
  names=low,low_op,high,high_op,unit,file,line,column,is_stmt
  sed 1d one.csv >bad
  told 'no header, of version 1' 'no 36 table header' "bad: it has no header, and begins with a span: its first line has to be $names" app bad
  iconv -f UTF-8 -t UTF-16LE four.csv >bad
  told 'UTF-16' 'no 36 table header' 'bad: it is UTF-16, and has to be UTF-8: iconv -f UTF-16 -t UTF-8 bad' app bad
  iconv -f UTF-8 -t UTF-16 four.csv >bad
  told 'UTF-16 with a mark' 'no 36 table header' 'bad: it is UTF-16, and has to be UTF-8: iconv -f UTF-16 -t UTF-8 bad' app bad
  expect_notes 'a mark of UTF-8, which is none' 0 $'yes\n' '' bash -c "sed '1s/^/\xef\xbb\xbf/' four.csv | check app -"
  printf '\xfd7zXZ\0' >bad
  told 'a packed table' 'no 36 table header' 'bad: it is compressed by xz: unpack it first' app bad
  printf 'some\0thing' >bad
  told 'no text' 'no 36 table header' 'bad: it is no text' app bad
  sed 1d app.sym >bad
  told 'a symbol file without its first line' 'no 36 table header' \
    'bad: it is a symbol file of Breakpad without its first line, which begins with MODULE: it is cut' app bad
  echo 'Contents of the .debug_line section:' >bad
  told 'what readelf prints' 'no 36 table header' \
    'bad: it is what readelf --debug-dump=decodedline prints: linetab-table readelf bad | linetab-object check PROGRAM -' app bad
  head -c 100000 /dev/zero | tr '\0' a >bad
  told 'a long line' 'no 36 table header' "bad: its header is \"$(head -c 100 bad)\" .. in place of $four" app bad
  expect 'a long one, of many lines' 1 $'no 36 table header\n' '' bash -c '(head -c 100000000 /dev/zero | tr "\0" a; echo) | timeout 60 bash -c "check app - --quiet"'
}

records() {
  local kind='in place of 0x and 1 to 16 hexadecimal digits' decimal='in place of 1 to 20 decimal digits of a number below 2^64' line
  line=$(sed -n 3p four.csv)
  while IFS='|' read -r name expression fault text; do
    changed four.csv "$expression"
    told "$name" "$fault" "line 3 of bad: $text" app bad
  done <<END2
a comma in a path|3s#/w/#/w,#|no 37 table fields record 2|it has 5 fields in place of 4: a path with a comma has to be in double quotes
too few fields|3s/,[^,]*\$//|no 37 table fields record 2|it has 3 fields in place of 4
semicolons in a line|3s/,/;/g|no 37 table fields record 2|it has 1 field in place of 4: semicolons in place of commas
an address without 0x|3s/^0x//|no 38 table number record 2 column 0|low is "116b" $kind: 0x116b
a decimal address|3s/^0x116b/4459/|no 38 table number record 2 column 0|low is "4459" $kind: 0x4459, or 0x116b if it is decimal
a line that isn't known|3s/2\$/?/|no 38 table number record 2 column 3|line is "?" $decimal: leave out spans whose line isn't known
a fraction|3s/2\$/2.0/|no 38 table number record 2 column 3|line is "2.0" $decimal
an empty span|3s/0x117f/0x116b/|no 39 table order record 2|its high is 0x116b, which isn't above its low, 0x116b: high is the first address behind the span
spans that overlap|2s/0x116b/0x1170/|no 39 table order record 2|it begins at 0x116b, below the end of the span before, 0x1170: spans may not overlap
another order|2s/0x11/0x21/g|no 39 table order record 2|it begins at 0x116b, below the end of the span before, 0x216b: spans have to be in the order of their addresses
END2
  printf 'low,high,path,line\n0x10,0x12,a,1\n0x9,0xa,a,1\n' >bad
  told 'an order by text' 'no 39 table order record 2' \
    'line 3 of bad: it begins at 0x9, below the end of the span before, 0x12: spans have to be in the order of their addresses as numbers, and not as texts' \
    app bad
  changed one.csv '3s/,0,/,x,/'
  told 'an operation index' 'no 38 table number record 2 column 1' "line 3 of bad: low_op is \"x\" $decimal" app bad
  changed one.csv '3s/0x1137,0/0x1130,0/'
  told 'an empty span of positions' 'no 39 table order record 2' \
    "line 3 of bad: its high is 0x1130,0, which isn't above its low, 0x1130,0: high is the first address behind the span" app bad
  changed four.csv '2s#/w/src/small/a\.c#"a\nc"#; 3s/2$/x/'
  told 'a line behind a path of two' 'no 38 table number record 2 column 3' "line 4 of bad: line is \"x\" $decimal" app bad
  told 'a table by a pipe' 'no 38 table number record 2 column 3' "record 2 of -: line is \"x\" $decimal" app - < <(cat bad)
}

# ---- files in the wrong place

refused() { # NAME FILE REASON WORD..
  expect_notes "$1" 3 '' "$says $2: $3"$'\n' "$work/bin/linetab-object" "${@:4}"
}
misplaced() {
  local first='and the program comes first: linetab-object check app'
  python3 "$top/tests/gsym_file.py" little app.gsym
  refused 'a symbol file first' app.sym "it is a symbol file of Breakpad, $first app.sym" check app.sym app
  refused 'a GSYM file first' app.gsym "it is a GSYM file, $first app.gsym" check app.gsym app
  refused 'a table first' four.csv "it is an address table, $first four.csv" check four.csv app
  cp "$top/examples/hello.debug_line" raw
  refused 'another file first' raw "it is no program, $first raw" check raw app
  : >empty
  refused 'an empty file first' empty "it is empty, $first empty" check empty app
  refused 'the program twice' app "it is a program, and is in the place of its table or symbol file: linetab-object check app SYMBOLS" check app app
  refused 'an empty file' empty 'it is empty: what should have written it failed, or wrote nothing' check app empty
  refused 'an empty file by a pipe' - 'it is empty: what should have written it failed, or wrote nothing' check app - </dev/null
  refused 'no program at all' app.sym \
    'it is a symbol file of Breakpad: linetab-object check PROGRAM FILE compares it with the program that it was made of' check app.sym four.csv
  refused 'a table in another word' four.csv \
    'it is an address table: linetab-object check PROGRAM FILE compares it with the program that it was made of' verify four.csv
  echo 'Contents of the .debug_line section:' >app.readelf
  refused 'what readelf prints' app.readelf \
    'it is what readelf --debug-dump=decodedline prints: take the program that it was printed of' verify app.readelf
  head -c 100 app.sym >cut.sym
  refused 'a symbol file that is cut' cut.sym 'its last line, 3, has no end: it is cut' check app cut.sym
  printf %s "$(cat app.sym)" >cut.sym
  refused 'one without the last end of a line' cut.sym 'its last line, 6, has no end: it is cut' check app cut.sym
  head -c 40 app.gsym >cut.gsym
  expect 'a GSYM file that is cut' 1 $'no 45 symbols at 0x0: cut\n' '' bash -c 'bin/linetab-object check app cut.gsym 2>/dev/null'
}

makers() {
  local maker file
  says=linetab-table:
  printf 'app:\tfile format elf64-x86-64\n\n.debug_line contents:\n' >app.llvm
  declare -A kinds=([app.sym]='it is a symbol file of Breakpad: linetab symbols app.sym' [app.gsym]='it is a GSYM file: linetab symbols app.gsym'
    [app.llvm]='it is what llvm-dwarfdump --debug-line prints: linetab-table llvm-dwarfdump app.llvm'
    [app.readelf]='it is what readelf --debug-dump=decodedline prints: linetab-table readelf app.readelf'
    [four.csv]='it is an address table already: linetab-object check PROGRAM four.csv compares it with a program')
  declare -A own=([gsym-17]=app.gsym [llvm-dwarfdump]=app.llvm [readelf]=app.readelf)
  declare -A of=([gsym-17]='llvm-gsymutil --convert app --out-file FILE makes a GSYM file of it'
    [llvm-dwarfdump]='llvm-dwarfdump --debug-line app | linetab-table llvm-dwarfdump -'
    [readelf]='readelf --wide --debug-dump=decodedline app | linetab-table readelf -')
  for maker in "${!own[@]}"; do
    for file in "${!kinds[@]}"; do
      [ "$file" = "${own[$maker]}" ] ||
        expect_notes "$maker of $file" 3 '' "$says $file: ${kinds[$file]}"$'\n' "$work/bin/linetab-table" "$maker" "$file"
    done
    expect_notes "$maker of a program" 3 '' "$says app: it is a program: ${of[$maker]}"$'\n' "$work/bin/linetab-table" "$maker" app
  done
  for file in "${!kinds[@]}"; do
    expect_notes "points of $file" 3 '' "$says $file: ${kinds[$file]}"$'\n' "$work/bin/linetab-table" points addr2line "$file"
  done
  expect_notes 'another maker by a pipe' 3 '' "$says -: it is a symbol file of Breakpad: linetab symbols -"$'\n' \
    bash -c 'cat app.sym | bin/linetab-table gsym-17 -'
}

shifts
paths
headers
records
misplaced
makers
finish
