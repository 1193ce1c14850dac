#!/usr/bin/env bash
# linetab-table: small files of each maker with the tables that are in them, broken files, and files and answers of the tools that are
# here, for programs of the compilers that are here.
cd "$(dirname "$(readlink -f -- "$0")")/.." || exit 1
. tests/check.bash
says=linetab-table:
three=$'low,high,path,line\n'
four=$'low,high,path,line,column\n'

# A folder with the script and a linetab-object that tells these paths.
mkdir -p "$work/bin" "$work/tools" "$work/share/linetab"
cp linetab-table "$work/bin"
cp -r share/scripts "$work/share/linetab"
table() { # WORD..
  "$work/bin/linetab-table" "$@"
}
export -f table
export work
refuses() { # NAME REASON MAKER FILE
  expect "$1" 3 '' "$says $4: $2"$'\n' table "$3" "$4"
}

gsym() {
  local order cut wrong=0 wanted=$three$'0x1000,0x1004,/src/a.c,5\n0x1004,0x1005,/src/a.c,6\n0x1005,0x1008,/src/a.c,7\n0x1008,0x1010,b.h,9\n0x1014,0x1020,/src/a.c,20\n'
  wanted+=$'0x1032,0x1038,/src/a.c,40\n0x1040,0x1050,/src/a.c,50\n0x1050,0x1054,/src/a.c,60\n'
  for order in little big; do
    python3 tests/gsym_file.py $order "$work/$order"
    expect "a GSYM file, $order-endian" 0 "$wanted" '' table gsym-17 "$work/$order"
  done
  for ((cut = 1; cut < $(stat -c %s "$work/little"); cut += 23)); do
    head -c $cut "$work/little" >"$work/cut"
    table gsym-17 "$work/cut" >"$work/out" 2>"$work/err"
    [ "$?" -eq 3 ] && [ ! -s "$work/out" ] && [ "$(wc -l <"$work/err")" -eq 1 ] || wrong=$((wrong + 1))
  done
  expect 'a GSYM file that is cut anywhere' 0 $'0\n' '' echo $wrong
  refuses 'no GSYM file' "it isn't a GSYM file" gsym-17 tests/units.sh
  (head -c 4 "$work/little"; bytes 02; tail -c +6 "$work/little") >"$work/two"
  refuses 'a GSYM file of another version' 'GSYM version 2 is not supported' gsym-17 "$work/two"
  python3 tests/gsym_file.py little "$work/shared" 20000
  expect 'a line table that many functions share' 3 '' "$says $work/shared: it is cut or damaged"$'\n' \
    timeout 60 "$work/bin/linetab-table" gsym-17 "$work/shared"
}

llvm_dwarfdump() {
  cat >"$work/llvm" <<'END'
app:	file format elf64-x86-64

.debug_line contents:
debug_line[0x00000000]
Line table prologue:
         version: 5
include_directories[  0] = "/w"
include_directories[  1] = "s \"q\"\303\244"
file_names[  0]:
           name: "a.c"
      dir_index: 0
file_names[  1]:
           name: "b.h"
      dir_index: 1

Address            Line   Column File   ISA Discriminator Flags
------------------ ------ ------ ------ --- ------------- -------------
0x0000000000001010      3      1      0   0             0  is_stmt
0x0000000000001014      4      2      1   0             0  is_stmt prologue_end
0x0000000000001014      5      2      1   0             0  is_stmt
0x0000000000001018      5      2      1   0             0 
0x000000000000101c      5      2      1   0             0  is_stmt end_sequence

0x0000000000000000      7      1      0   0             0  is_stmt
0x0000000000000008      7      1      0   0             0  is_stmt end_sequence

0x0000000000001000      8      9      0   0             0  is_stmt
0x0000000000001010      8      9      0   0             0  is_stmt end_sequence

0x0000000000001000     88      9      0   0             0  is_stmt
0x0000000000001010     88      9      0   0             0  is_stmt end_sequence
END
  local lines=$'0x1010,0x1014,/w/a.c,3,1\n0x1014,0x101c,"/w/s ""q""\303\244/b.h",5,2\n'
  expect 'what llvm-dwarfdump prints' 0 "$four"$'0x0,0x8,/w/a.c,7,1\n0x1000,0x1010,/w/a.c,8,9\n'"$lines" '' \
    table llvm-dwarfdump --skip-copies "$work/llvm"
  expect 'without dead code' 0 "$four"$'0x1000,0x1010,/w/a.c,8,9\n'"$lines" '' table llvm-dwarfdump "$work/llvm" --dead 0x0 --skip-copies
  refuses 'sequences that overlap' \
    'sequences overlap in it at 0x1000: --skip-copies leaves out copies, and --dead ADDRESS those that the linker discarded' \
    llvm-dwarfdump "$work/llvm"
  head -n 20 "$work/llvm" >"$work/broken"
  refuses 'what is cut' 'it ends within a sequence: it is cut' llvm-dwarfdump "$work/broken"
  sed 's/^0x0000000000001014      4      2      1/0x0000000000001014      4      2      9/' "$work/llvm" >"$work/broken"
  refuses 'a file that no header has' 'it has no file 9, which a row names, or is of another kind of print' llvm-dwarfdump "$work/broken"
  sed 's/dir_index: 1/dir_index: x/' "$work/llvm" >"$work/broken"
  refuses 'a directory that is no number' 'it is cut or damaged' llvm-dwarfdump "$work/broken"
  refuses 'what is none' "it isn't what llvm-dwarfdump --debug-line prints of a program with a line number section" llvm-dwarfdump /dev/null
}

readelf_text() {
  cat >"$work/readelf" <<'END'
Contents of the .debug_line section:

CU: /w/a.c:
File name                            Line number    Starting address    View    Stmt
a.c                                            3              0x1010               x
a.c                                            4              0x1014       1       x

sub/b 2 0x5.h:
b 2 0x5.h                                      9              0x1018        
b 2 0x5.h                                     10              0x101c       2
b 2 0x5.h                                      -              0x1020
c.h                                            7                   0       1       x
c.h                                            -                 0x8

./d.h:[++]
d.h                                            1              0x2000[0]               x
d.h                                            -              0x2004


END
  local lines=$'0x1010,0x1014,/w/a.c,3\n0x1014,0x1018,/w/a.c,4\n0x1018,0x101c,sub/b 2 0x5.h,9\n0x101c,0x1020,sub/b 2 0x5.h,10\n'
  lines+=$'0x2000,0x2004,./d.h,1\n'
  expect 'what readelf prints' 0 "$three"$'0x0,0x8,c.h,7\n'"$lines" '' table readelf "$work/readelf"
  expect 'without dead code' 0 "$three$lines" '' table readelf "$work/readelf" --dead 0x0
  sed 's/^CU: //' "$work/readelf" >"$work/broken"
  refuses 'what has cut names' 'names are cut in it: let readelf print it with --wide' readelf "$work/broken"
  head -n 9 "$work/readelf" >"$work/broken"
  refuses 'what is cut' 'it ends within a sequence: it is cut' readelf "$work/broken"
  sed 's/0x2000\[0\]/0x101f/' "$work/readelf" >"$work/broken"
  refuses 'sequences that overlap in the text' \
    'sequences overlap in it at 0x101f: --skip-copies leaves out copies, and --dead ADDRESS those that the linker discarded' \
    readelf "$work/broken"
  refuses 'what is none' "it isn't what readelf --wide --debug-dump=decodedline prints of a program with a line number section" \
    readelf /dev/null
}

lines() {
  printf '0x1014 0x101C /w/a.c:4\r\n\n1010 C:/x y:12\n \t1011 C:/x y:12  \n0X1012 ??:0\n0x1013 s.c:?\n101c 1020 /w/a.c:4\n0x1030 /w/"q", c:7 (discriminator 2)\n' \
    >"$work/lines"
  local wanted=$'0x1010,0x1012,C:/x y,12\n0x1014,0x1020,/w/a.c,4\n0x1030,0x1031,"/w/""q"", c",7\n'
  expect 'lines' 0 "$three$wanted" '' table lines "$work/lines"
  expect 'lines from a pipe' 0 "$three$wanted" '' bash -c 'cat "$work/lines" | table lines -'
  (cat "$work/lines"; echo '1014 1018 /w/a.c:4:9') >"$work/more"
  expect 'lines with a column' 0 "$four$(sed 's/$/,0/' <<<"${wanted%$'\n'}")"$'\n' \
    "$says note: left out, since they overlap an earlier one: 1 line"$'\n' table lines "$work/more"
  expect 'lines without answers' 0 "$three" '' table lines - <<<'0x1012 ??:?'
  refuses 'no line' 'it has no line: what should have written it failed, or wrote nothing' lines /dev/null
  printf '0x1010 /w/a.c:4\n0x1014 /w/a.c:1' >"$work/broken"
  refuses 'a line that is cut' 'its last line, 2, has no end: it is cut' lines "$work/broken"
  wrong_line '0x10 /w/a.c' '"/w/a.c" in place of PATH:LINE or PATH:LINE:COLUMN'
  wrong_line '0x10 /w/a.c:-3' '"/w/a.c:-3" in place of PATH:LINE or PATH:LINE:COLUMN'
  wrong_line '0x10' 'nothing in place of PATH:LINE or PATH:LINE:COLUMN'
  wrong_line 'main /w/a.c:3' '"main" in place of an address, which is 1 to 16 hexadecimal digits, with 0x or without'
  wrong_line '0x10 0xf /w/a.c:3' '"0xf" in place of an address that isn'"'"'t below the one before it'
  wrong_line 'ffffffffffffffff /w/a.c:3' '"ffffffffffffffff" in place of an address with another one above'
  iconv -t UTF-16LE "$work/lines" >"$work/broken"
  sed -i '1s/^/\xff\xfe/' "$work/broken"
  refuses 'lines in UTF-16' "it is UTF-16, and has to be UTF-8: iconv -f UTF-16 -t UTF-8 $work/broken" lines "$work/broken"
  refuses 'a section' 'it is no text' lines examples/hello.debug_line
  refuses 'lines for another maker' "it is lines of addresses, paths and line numbers: linetab-table lines $work/lines" gsym-17 "$work/lines"
}
wrong_line() { # LINE REASON
  printf '0x1010 /w/a.c:4\n%s\n' "$1" >"$work/broken"
  refuses "the line $1" "its line 2 has $2" lines "$work/broken"
}

# What standard error is changes neither the table nor the status.
streams() {
  local wanted=$three$'0x1000,0x1004,/w/a.c,3\n0x1004,0x1006,"/w/b, c.h",18446744073709551\n'
  printf '1000 1004 /w/a.c:3\n1004 1006 /w/b, c.h:18446744073709551\n1002 1006 /w/a.c:77\n' >"$work/noted"
  echo nonsense >"$work/broken"
  expect 'a note' 0 "$wanted" "$says note: left out, since they overlap an earlier one: 1 line"$'\n' table lines "$work/noted"
  expect 'no note' 0 "$wanted" '' table lines "$work/noted" --quiet
  expect 'a note on a closed standard error' 0 "$wanted" '' bash -c 'table lines "$work/noted" 2>&-'
  expect 'a note on a full one' 0 "$wanted" '' bash -c 'table lines "$work/noted" 2>/dev/full'
  expect 'a note on a terminal' 0 "$wanted" '' on_terminal "$work/bin/linetab-table" lines "$work/noted"
  expect 'a refusal on a closed standard error' 3 '' '' bash -c 'table lines "$work/broken" 2>&-'
  expect 'a refusal on a full one' 3 '' '' bash -c 'table lines "$work/broken" 2>/dev/full'
  expect 'a refusal on a terminal' 3 '' '' on_terminal "$work/bin/linetab-table" lines "$work/broken"
  expect 'wrong words on a full one' 2 '' '' bash -c 'table lines 2>/dev/full'
  expect 'an answer of points, on a closed one' 0 "$three"$'0x1000,0x1008,/w/a.c,3\n' '' \
    bash -c 'table points "$work/tools/plain-addr2line" "$work/small" 2>&-'
}

# Nothing is written where the table isn't whole, and no status is that of a no.
short_of() {
  local memory file status wrong=0
  expect 'no room for the table' 3 '' "$says the table can't be written to a temporary file: File too large"$'\n' \
    unwritten "$work/bin/linetab-table" lines "$work/noted" --quiet
  # Python itself takes 12 MB to start.
  for ((memory = 13000; memory <= 20000; memory += 500)); do
    (ulimit -v $memory; exec "$work/bin/linetab-table" lines "$work/noted" --quiet) >"$work/out" 2>"$work/err"
    status=$?
    case $status in
      0) cmp -s "$work/out" <(table lines "$work/noted" --quiet) || wrong=$((wrong + 1)) ;;
      4) [ "$(<"$work/err")" = "$says out of memory" ] && [ ! -s "$work/out" ] || wrong=$((wrong + 1)) ;;
      *) wrong=$((wrong + 1)) ;;
    esac
  done
  expect 'little memory' 0 $'0\n' '' echo $wrong
}

# A program that answers each address of its input by ANSWERS, a program of awk.
answerer() { # NAME ANSWERS
  printf '#!/bin/sh\nexec awk %s\n' "'{ print \$1; a = substr(\$1, 3) } $2'" >"$work/tools/$1"
  chmod +x "$work/tools/$1"
}
points() {
  cp linetab-object "$work/bin"
  python3 tests/images.py elf64 "$work/app" .debug_line=examples/hello.debug_line code=0x1000,0x8
  answerer addr2line 'a < "1002" { print "??:0" } a >= "1002" && a < "1005" { print "/w/a:b.c:7 (discriminator 3)" } a == "1005" { print "/w/a.c:?" } a > "1005" { print "crtstuff.c:?" }'
  expect 'points by addr2line' 0 "$three"$'0x1002,0x1005,/w/a:b.c,7\n0x1005,0x1006,/w/a.c,0\n' '' \
    table points "$work/tools/addr2line" "$work/app"
  answerer eu-addr2line 'a < "1004" { print "/w/a.c:3:5" } a >= "1004" { print "/w/a.c:4" }'
  expect 'points by eu-addr2line' 0 "$four"$'0x1000,0x1004,/w/a.c,3,5\n0x1004,0x1008,/w/a.c,4,0\n' '' \
    table points "$work/tools/eu-addr2line" "$work/app"
  answerer llvm-symbolizer-99 'a < "1004" { print "/w/a.c:3:5"; print "" } a >= "1004" { print "??:0:0"; print "" }'
  expect 'points by llvm-symbolizer' 0 "$four"$'0x1000,0x1004,/w/a.c,3,5\n' '' table points "$work/tools/llvm-symbolizer-99" "$work/app"
  answerer mine 'a < "1004" { print "/w/a.c:3:5"; print "" } a >= "1004" { print "??:0:0"; print "" }'
  expect 'points by another command' 0 "$four"$'0x1000,0x1004,/w/a.c,3,5\n' '' \
    table points "$work/tools/mine" "$work/app" --like llvm-symbolizer
  expect 'points by one that is like another' 0 "$three"$'0x1002,0x1005,/w/a:b.c,7\n0x1005,0x1006,/w/a.c,0\n' '' \
    bash -c 'cp "$work/tools/addr2line" "$work/tools/my-symbolizer"; table points "$work/tools/my-symbolizer" "$work/app" --like addr2line'
  answerer bad-addr2line 'a < "1004" { print "/w/a.c:3" } a >= "1004" { print "what?" }'
  refuses_points 'an answer that is none' bad-addr2line "its answer isn't as it should be"
  printf '#!/bin/sh\necho "no such day" >&2\n' >"$work/tools/bad-addr2line"
  refuses_points 'one that ends' bad-addr2line 'no such day'
  expect 'one that is not there' 3 '' "$says $work/app: $work/none-addr2line can't be run: No such file or directory"$'\n' \
    table points "$work/none-addr2line" "$work/app"
  expect 'no program' 3 '' "$says tests/units.sh: it is a script: take the program that it runs"$'\n' \
    table points "$work/tools/addr2line" tests/units.sh
  python3 tests/images.py elf64 "$work/app" .debug_line=examples/hello.debug_line code=0x1000,0x7000000000000000
  expect 'more code than a file has' 3 '' "$says $work/app: it has no code, or more than a file of its size has"$'\n' \
    table points "$work/tools/addr2line" "$work/app"
}
# A program of eight bytes of code, and a command that answers for each of them alike.
plain_points() {
  python3 tests/images.py elf64 "$work/small" .debug_line=examples/hello.debug_line code=0x1000,0x8
  answerer plain-addr2line '{ print "/w/a.c:3" }'
}
refuses_points() { # NAME COMMAND REASON
  expect "$1" 3 '' "$says $work/app: $work/tools/$2 doesn't answer for each address: $3"$'\n' table points "$work/tools/$2" "$work/app"
}

whole_paths() {
  printf '#!/bin/sh\n[ "$1 $2" = "files app" ] && printf "unit,file,path,md5\\n0,0,/w/a.c,\\n0,1,/w/sub/b 2 0x5.h,\\n9,0,/w/./d.h,\\n9,1,/x/c.h,\\n9,2,/y/c.h,\\n"\n' \
    >"$work/bin/linetab-object"
  chmod +x "$work/bin/linetab-object"
  local lines=$'0x0,0x8,c.h,7\n0x1010,0x1014,/w/a.c,3\n0x1014,0x1018,/w/a.c,4\n0x1018,0x101c,/w/sub/b 2 0x5.h,9\n'
  expect 'whole paths' 0 "$three$lines"$'0x101c,0x1020,/w/sub/b 2 0x5.h,10\n0x2000,0x2004,/w/./d.h,1\n' \
    "$says note: c.h stays as it is: more than one path of app ends so"$'\n' table readelf "$work/readelf" --paths-of app
  sed 's,^CU: /w,CU: /build//w,' "$work/readelf" >"$work/other"
  expect 'a directory before a whole path' 0 "$three$lines"$'0x101c,0x1020,/w/sub/b 2 0x5.h,10\n0x2000,0x2004,/w/./d.h,1\n' '' \
    table readelf "$work/other" --paths-of app --quiet
  sed 's/c\.h/e.h/' "$work/readelf" >"$work/other"
  expect 'a path that the program has not' 0 "$says note: e.h stays as it is: no path of app ends so"$'\n' '' \
    bash -c 'table readelf "$work/other" --paths-of app 2>&1 >/dev/null'
  expect 'a program that tells none' 3 '' "$says $work/readelf: linetab-object files none: it lists no paths"$'\n' \
    table readelf "$work/readelf" --paths-of none
}

words() {
  local makers='gsym-17, llvm-dwarfdump, readelf, lines, points' maker text
  expect 'no words' 2 '' "$says one of $makers is wanted first: linetab-table MAKER FILE [OPTIONS..]"$'\n' table
  expect 'another maker' 2 '' "$says one of $makers is wanted first: linetab-table MAKER FILE [OPTIONS..]"$'\n' table gdb file
  expect 'no file' 2 '' "$says linetab-table gsym-17 FILE: no more and no less is wanted"$'\n' table gsym-17
  expect 'a word too many' 2 '' "$says linetab-table readelf FILE: no more and no less is wanted"$'\n' table readelf a b
  expect 'an option of another maker' 2 '' "$says --dead is for llvm-dwarfdump and readelf"$'\n' table gsym-17 a --dead 0x0
  expect 'no address' 2 '' "$says argument --dead: an address is 0x and 1 to 16 hexadecimal digits, and 12 isn't"$'\n' \
    table readelf a --dead 12
  expect 'a bad option with an escape' 2 '' "$says unrecognized arguments: "'--\x1b[31mred'$'\n' table gsym-17 file $'--\e[31mred'
  expect 'another command' 2 '' "$says gdb: COMMAND is an addr2line, eu-addr2line or llvm-symbolizer, and named so, or --like says which"$'\n' \
    table points gdb app
  expect 'a command like none' 2 '' \
    "$says argument --like: COMMAND answers like addr2line, eu-addr2line or llvm-symbolizer, and not like gdb"$'\n' \
    table points gdb app --like gdb
  expect 'like for another maker' 2 '' "$says --like is for points"$'\n' table lines file --like addr2line
  expect 'a file that is not there' 3 '' "$says none: cannot read it: No such file or directory"$'\n' table gsym-17 none
  expect 'a folder' 3 '' "$says tests: cannot read it: Is a directory"$'\n' table lines tests
  expect 'help' 0 $'usage: linetab-table MAKER FILE [OPTIONS..]\n' '' bash -c 'table --help | grep usage'
  for maker in $(tr -d , <<<"$makers"); do
    text="usage: linetab-table $maker FILE [OPTIONS..]"
    [ $maker != points ] || text='usage: linetab-table points COMMAND FILE [OPTIONS..]'
    expect "the help of $maker" 0 "$text"$'\n' '' bash -c 'table "$0" --help | grep usage' $maker
    expect "the help of $maker, behind a file" 0 "$(table $maker --help)"$'\n' '' table $maker file -h
    expect "it begins with $maker" 0 "$maker"$'\n' '' bash -c 'table "$0" --help | sed -nE "1s/^([a-z0-9-]+) .*/\1/p"' $maker
  done
  expect 'the options of gsym-17' 0 $'--help\n--paths-of\n--quiet\n' '' options_of gsym-17
  expect 'the options of readelf' 0 $'--dead\n--help\n--paths-of\n--quiet\n--skip-copies\n' '' options_of readelf
  expect 'the options of points' 0 $'--help\n--like\n--paths-of\n--quiet\n' '' options_of points
  expect 'no version behind a maker' 2 '' "$says unrecognized arguments: --version"$'\n' table gsym-17 file --version
  ln -s "$PWD/crates/linetab/out/linetab" "$work/bin/linetab"
  for text in --version -V; do
    expect "the version, by $text" 0 "$("$work/bin/linetab" --version | sed 's/^linetab /linetab-table /')"$'\n' '' table $text
  done
  rm "$work/bin/linetab"
  expect 'a version without the program' 3 '' "$says the program linetab can't be run: No such file or directory"$'\n' table --version
  expect 'a full device' 3 '' "$says cannot write: No space left on device"$'\n' bash -c 'table gsym-17 "$work/little" >/dev/full'
  expect 'a closed pipe' 3 '' '' bash -c 'mkfifo "$work/pipe"; exec 3<>"$work/pipe" 4>"$work/pipe" 3<&-; table gsym-17 "$work/little" >&4'
}

options_of() { # MAKER
  table "$1" --help | sed -n '/^Options:/,$p' | grep -oE -- '^ +(-[a-z], )?--[a-z-]+' | grep -oE -- '--.*' | LC_ALL=C sort
}

# ---- programs of the compilers that are here, and the tools that are here

programs() {
  cat >"$work/many.cc" <<'END'
#include <algorithm>
#include <map>
#include <string>
#include <vector>
template <class T> T sum(const std::vector<T> &all) { T total{}; for (auto &it : all) total += it; return total; }
int main(int n, char **words) {
  std::vector<int> numbers;
  std::vector<double> halves;
  std::map<std::string, int> counts;
  for (int i = 0; i < n * 10; i++) { numbers.push_back(i); halves.push_back(i * 0.5); counts[words[i % n]] += i; }
  std::sort(numbers.begin(), numbers.end(), [](int a, int b) { return a > b; });
  return sum(numbers) + (int)sum(halves) + (int)counts.size();
}
END
  local compiler level
  for compiler in c++ clang++; do
    here "its programs" $compiler || continue
    for level in O0 O2; do
      "$compiler" -g -gdwarf-5 -$level -o "$work/many-$compiler-$level" "$work/many.cc" 2>"$work/err" &&
        ./linetab-object verify "$work/many-$compiler-$level" --skip-copies >"$work/err" 2>&1 ||
        { skip "$compiler makes no program with DWARF 5"; break; }
      of_program "$work/many-$compiler-$level"
    done
  done
}
of_program() { # PROGRAM
  local tool name=${1##*/} reader
  for tool in $(compgen -c llvm-gsymutil | grep -xE 'llvm-gsymutil(-[0-9]+)?' | sort -u); do
    "$tool" --convert "$1" --out-file "$1.gsym" >/dev/null 2>&1 || { skip "$tool makes no GSYM file of $name"; continue; }
    reader=("$program" symbols)
    [ "$("$tool" --version | sed -nE 's/.*LLVM version ([0-9]+).*/\1/p')" -gt 17 ] || reader=(./linetab-table gsym-17)
    "${reader[@]}" "$1.gsym" >"$1.csv"
    expect "the answers of $tool of $name" 0 '' '' python3 tests/peers/gsym.py "$tool" "$1.gsym" "$1.csv" 1000
  done
  is_right "$name by llvm-dwarfdump" llvm-dwarfdump "$1" 'llvm-dwarfdump --debug-line "$0" | ./linetab-table llvm-dwarfdump - --skip-copies'
  is_right "$name by readelf" readelf "$1" \
    'readelf --wide --debug-dump=decodedline "$0" | ./linetab-table readelf - --skip-copies --paths-of "$0"'
  is_right "$name by llvm-symbolizer" llvm-symbolizer "$1" './linetab-table points llvm-symbolizer "$0"'
}
is_right() { # NAME TOOL PROGRAM COMMAND
  ! here "$1" "$2" || expect "$1" 0 $'yes\n' '' \
    bash -c "$4"' 2>/dev/null | ./linetab-object check "$0" - --skip-copies --quiet' "$3"
}

# A program by mingw, with paths as compilers on Windows write them.
of_windows() {
  local compiler=x86_64-w64-mingw32-gcc app=$work/windows/app.exe at
  here 'a program with paths of Windows' $compiler nm || return
  mkdir -p "$work/windows/inc"
  printf '%s\n' '__attribute__((noinline)) static int count(int n) {' '  return n * n;' '}' >"$work/windows/inc/w.h"
  printf '%s\n' '#include <w.h>' 'int start(int n) { return count(n) + 1; }' >"$work/windows/main.c"
  (cd "$work/windows" && $compiler -g -gdwarf-5 -O1 "-fdebug-prefix-map=$PWD=C:/build" -I"$PWD/inc" -nostdlib -Wl,-e,start -o app.exe main.c) &&
    ./linetab-object verify "$app" >"$work/err" 2>&1 || { skip "$compiler makes no program with DWARF 5"; return; }
  at=0x$(nm "$app" | awk '$3 == "count" { print $1 }')
  expect 'a path of Windows by lookup' 0 $'path "C:/build/inc/w.h"\n' '' \
    bash -c './linetab-object lookup "$@" --quiet | grep -o "path .*"' . "$app" "$at"
  expect 'a path of Windows by symbolize' 0 $'C:\\app.exe+0x1000 C:/build/inc/w.h:2:12\n' '' \
    bash -c 'echo "C:\\app.exe+$1" | ./linetab-object symbolize "$0" --quiet' "$app" 0x1000
  is_right 'paths of Windows by llvm-dwarfdump' llvm-dwarfdump "$app" 'llvm-dwarfdump --debug-line "$0" | ./linetab-table llvm-dwarfdump -'
  is_right 'paths of Windows by llvm-symbolizer' llvm-symbolizer "$app" './linetab-table points llvm-symbolizer "$0"'
  ! here 'a path of Windows by llvm-symbolizer' llvm-symbolizer || expect 'a path of Windows by llvm-symbolizer' 0 $'C:/build/inc/w.h:2:12\n' '' \
    bash -c 'llvm-symbolizer --functions=none --no-inlines --obj="$0" "$1" | head -n 1' "$app" "$at"
}

# Commands of docs/TABLES.md, by their first word: what they print is right.
of_page() { # TOOL NAME
  local command
  here "$2" "$1" || return
  command=$(sed -n '/^### Lines of any tool/,/^## /p' docs/TABLES.md | grep -E "(^|; )$1 ")
  expect "$2" 0 $'yes\n' '' bash -c 'cd "$0" && bash -c "$1" 2>/dev/null </dev/null | "$2/linetab-table" lines - |
    "$2/linetab-object" check app - --partial --at-least 1 --quiet | head -n 1' "$work/page" "$command" "$PWD"
}
lines_of_tools() {
  local folder=$work/page
  here 'lines of tools' cc || return
  mkdir -p "$folder"
  printf '%s\n' 'static int twice(int n) {' '  return n + n;' '}' 'int main(int n, char **words) {' '  while (--n)' '    n -= twice(n);' \
    '  return n;' '}' >"$folder/a b.c"
  (cd "$folder" && cc -g -gdwarf-5 -O0 -o app "a b.c") && ./linetab-object table --lines "$folder/app" --quiet >"$work/out" 2>"$work/err" ||
    { skip 'lines of tools: cc makes no program with DWARF 5'; return; }
  sed '1d; s/,.*//' "$work/out" >"$folder/addresses"
  of_page gdb 'lines of gdb'
  of_page lldb 'lines of lldb'
  of_page objdump 'lines of objdump'
}

gsym
plain_points
streams
short_of
llvm_dwarfdump
readelf_text
lines
points
whole_paths
words
[ -n "$(compgen -c llvm-gsymutil)" ] || skip "llvm-gsymutil isn't here: what it answers of GSYM files"
programs
of_windows
lines_of_tools
finish
