#!/usr/bin/env bash
# The wrong answers of docs/FOUND.md, each made anew by the tools that are here: what a tool says of an address, and what the section
# says there. A tool that says what the section says is left out, as one in which it was mended.
cd "$(dirname "$(readlink -f -- "$0")")/.." || exit 1
. tests/check.bash
linetab=$PWD/crates/linetab/out/linetab
object=$PWD/linetab-object
build=$work/build

# A copy of the sources of one finding, to build in.
sources() { # NAME
  rm -rf "$build"
  cp -r "tests/found/$1" "$build"
}
address() { # SYMBOL [ADDEND]
  printf '0x%x' $((0x$(nm "$build/app" | awk -v name="$1" '$3 == name { print $1 }') + ${2:-0}))
}
# The section's answer, and a line that tells whether a program is what the finding needs; else it is left out.
section_says() { # NAME ADDRESS WANTED
  local said
  said=$("$object" lookup "$build/app" "$2" --quiet 2>&1 | sed -nE 's/^[^ ]* (none)$/\1/p; s/.* line ([0-9]+) .* path "(.*)"$/\2:\1/p')
  if [ "$said" = "$3" ]; then
    pass "$1"
    return 0
  fi
  skip "$1: the compiler here makes another program, whose section says ${said:-nothing}"
  return 1
}
# tool_says NAME WRONG RIGHT COMMAND..: the tool's answer is the wrong one. Where it is the right one, this is told.
tool_says() {
  local name=$1 wrong=$2 right=$3 said
  shift 3
  said=$("$@" 2>/dev/null)
  if [ "$said" = "$wrong" ]; then
    pass "$name"
  elif [ "$said" = "$right" ]; then
    skip "$name: the one here is right"
  else
    fail "$name" "it says ${said:-nothing}"
  fi
}
# Commands of this name, also those with the number of a version behind it.
commands() { # NAME
  compgen -c "$1" | grep -xE "$1(-[0-9]+)?" | sort -u
}

gsym_says() { # COMMAND ADDRESS
  "$1" --address="$2" "$build/app.gsym" 2>/dev/null | sed -nE 's/.* @ (.*:[0-9]+)( \[inlined\])?$/\1/p' | head -n 1
}
gsym_declaration() {
  local tool early
  here 'the line of a declaration by llvm-gsymutil' cc nm || return
  sources gsym-decl
  cc -o "$build/app" "$build/late.s" 2>/dev/null || { skip 'the line of a declaration: late.s is of x86-64'; return; }
  early=$(address early)
  section_says 'the line of a declaration, at its start' "$early" none &&
    section_says 'the line of a declaration, behind' "$(address early 0x17)" /src/late.c:8 || return
  [ -n "$(commands llvm-gsymutil)" ] || skip "llvm-gsymutil isn't here: the line of a declaration"
  for tool in $(commands llvm-gsymutil); do
    "$tool" --convert "$build/app" --out-file "$build/app.gsym" >/dev/null 2>&1 || { skip "$tool makes no GSYM file here"; continue; }
    tool_says "the line of a declaration by $tool, at its start" /src/late.c:4 '' gsym_says "$tool" "$early"
    tool_says "the line of a declaration by $tool, behind" /src/late.c:4 /src/late.c:8 gsym_says "$tool" "$(address early 0x17)"
  done
}

gsym_first() {
  local tool first
  here 'the first of two rows by llvm-gsymutil' cc nm || return
  sources gsym-first
  (cd "$build" && cc -g -gdwarf-5 -O1 -o app f.c)
  first=$(address f 6)
  section_says 'the first of two rows' "$first" "$build/f.c:6" && section_says 'the next byte' "$(address f 7)" "$build/f.c:6" || return
  [ -n "$(commands llvm-gsymutil)" ] || skip "llvm-gsymutil isn't here: the first of two rows"
  for tool in $(commands llvm-gsymutil); do
    "$tool" --convert "$build/app" --out-file "$build/app.gsym" >/dev/null 2>&1 || { skip "$tool makes no GSYM file here"; continue; }
    tool_says "the first of two rows by $tool" "$build/f.c:5" "$build/f.c:6" gsym_says "$tool" "$first"
    expect "the next byte by $tool" 0 "$build/f.c:6"$'\n' '' gsym_says "$tool" "$(address f 7)"
  done
}

# The path at the first row that dwarfdump prints.
first_path() {
  dwarfdump -l "$build/app" | sed -nE 's/^0x.* uri: "(.*)".*/\1/p' | head -n 1
}
file_one() {
  local at
  here 'file 1 by addr2line, objdump and dwarfdump' cc nm || return
  sources addr2line-file1
  (cd "$build" && cc -g -gdwarf-5 -o app main.c)
  at=$(address main)
  section_says 'file 1' "$at" "$build/body.h:5" || return
  ! here 'file 1 by addr2line' addr2line ||
    tool_says 'file 1 by addr2line' "$build/main.c:5" "$build/body.h:5" addr2line -e "$build/app" "$at"
  ! here 'file 1 by objdump' objdump || tool_says 'file 1 by objdump' "$build/main.c:5" "$build/body.h:5" \
    bash -c 'objdump -dl "$0" | sed "1,/<main>:/d" | grep -m 1 -oE "^/.*:[0-9]+"' "$build/app"
  ! here 'file 1 by dwarfdump' dwarfdump || tool_says 'file 1 by dwarfdump' "$build/main.c" "$build/body.h" first_path
}

breakpad_ranges() {
  local at
  here 'a function of several ranges by dump_syms' cc nm || return
  sources breakpad-ranges
  (cd "$build" && cc -O2 -g -gdwarf-5 -o app cold.c)
  at=$(address get)
  section_says 'a function of several ranges' "$at" "$build/cold.c:5" || return
  ! here 'a function of several ranges by dump_syms' dump_syms || tool_says 'a function of several ranges by dump_syms' 0 1 \
    bash -c 'dump_syms "$0" 2>/dev/null | grep -c "^FUNC .* get"' "$build/app"
}

comp_dir() {
  local at tool
  here 'a relative compilation directory' cc nm || return
  sources comp-dir
  (cd "$build/sub" && cc -g -gdwarf-5 -fdebug-prefix-map="$build"=. -o ../app m.c)
  at=$(address main)
  section_says 'a relative compilation directory' "$at" ./sub/m.c:1 || return
  ! here 'a relative compilation directory by addr2line' addr2line ||
    tool_says 'a relative compilation directory by addr2line' ./sub/./sub/m.c:1 ./sub/m.c:1 addr2line -e "$build/app" "$at"
  ! here 'a relative compilation directory by eu-addr2line' eu-addr2line ||
    tool_says 'a relative compilation directory by eu-addr2line' ./sub/./sub/m.c:1:16 ./sub/m.c:1:16 eu-addr2line -e "$build/app" "$at"
  for tool in $(commands llvm-symbolizer); do
    tool_says "a relative compilation directory by $tool" ./sub/./sub/m.c:1:16 ./sub/m.c:1:16 \
      bash -c '"$0" --obj="$1" --functions=none "$2" | head -n 1' "$tool" "$build/app" "$at"
  done
  ! here 'a relative compilation directory by dwarfdump' dwarfdump ||
    tool_says 'a relative compilation directory by dwarfdump' ./sub/./sub/m.c ./sub/m.c first_path
}

dead_code() {
  local at
  here 'discarded code by eu-addr2line' gcc nm || return
  sources eu-dead
  (cd "$build" && gcc -g -gdwarf-5 -O1 -ffunction-sections -Wl,--gc-sections -o app three.c)
  at=$(address _start)
  section_says 'discarded code' "$at" none || return
  ! here 'discarded code by eu-addr2line' eu-addr2line ||
    tool_says 'discarded code by eu-addr2line' "$build/three.c:7:3" '??:0' eu-addr2line -e "$build/app" "$at"
}

by_clang() {
  local at
  here "clang's code by eu-addr2line" clang nm || return
  sources gsym-first
  (cd "$build" && clang -g -gdwarf-5 -o app f.c)
  at=$(address f)
  section_says "clang's code" "$at" "$build/f.c:3" || return
  ! here "clang's code by eu-addr2line" eu-addr2line ||
    tool_says "clang's code by eu-addr2line" '??:0' "$build/f.c:3" eu-addr2line -e "$build/app" "$at"
}

whole_name() {
  local at
  here 'a whole name by readelf' clang nm readelf || return
  sources gsym-first
  (cd "$build" && clang -g -gdwarf-5 -o app "$build/f.c")
  at=$(address f)
  section_says 'a whole name' "$at" "$build/f.c:3" || return
  tool_says 'a whole name by readelf' "$build/$build/f.c" "$build/f.c" \
    bash -c 'readelf --wide --debug-dump=decodedline "$0" | sed -n "s/^CU: \(.*\):$/\1/p"' "$build/app"
}

go_relative() {
  local at
  here 'a relative path by Go' cc nm || return
  sources go-relative
  (cd "$build" && cc -g -gdwarf-5 -o app sub/m.c)
  at=$(address main)
  section_says 'a relative path' "$at" "$build/sub/m.c:1" || return
  here 'a relative path by Go' go || return
  (cd "$build" && GO111MODULE=off GOTOOLCHAIN=local GOCACHE="$build/cache" CGO_ENABLED=0 go build -o lines lines.go) >/dev/null 2>&1 ||
    { skip "a relative path by Go: it builds nothing here"; return; }
  tool_says 'a relative path by Go' sub/m.c:1 "$build/sub/m.c:1" "$build/lines" "$build/app" "$at"
}

asked_before() {
  local at start unit
  here 'what addr2line was asked before' c++ nm addr2line || return
  sources addr2line-before
  (cd "$build" && for unit in main unit{1..20}; do c++ -g -gdwarf-5 -O1 -DUNIT=$unit -c -o $unit.o unit.cc; done && c++ -o app ./*.o)
  at=$(printf '0x%x' $(($(address _Z1fi) | 0xff)))
  start=$(address _start)
  section_says 'code of many units' "$at" "$build/unit.cc:3" && section_says 'the address before it' "$start" none || return
  expect 'code of many units by addr2line, alone' 0 "$build/unit.cc:3"$'\n' '' addr2line -e "$build/app" "$at"
  tool_says 'code of many units by addr2line, after another address' '??:?' "$build/unit.cc:3" \
    bash -c 'addr2line -e "$@" | tail -n 1' . "$build/app" "$start" "$at"
}

verified_directory() {
  local file tool
  here 'a directory that is not there' cc objcopy || return
  sources verify-directory
  cc -nostdlib -o "$build/app" "$build/dir.s" 2>/dev/null || { skip 'a directory that is not there: dir.s is of x86-64'; return; }
  cc -nostdlib -Wa,-defsym,directory=2 -o "$build/named" "$build/dir.s" && objcopy --remove-section .debug_info "$build/named" "$build/unnamed"
  for file in app named unnamed; do
    expect "a directory that is not there: $file" 1 $'no 29 directory number unit 0x0 file 0\n' '' "$object" verify "$build/$file"
  done
  [ -n "$(commands llvm-dwarfdump)" ] || skip "llvm-dwarfdump isn't here: a directory that is not there"
  for tool in $(commands llvm-dwarfdump); do
    tool_says "a directory that is not there by $tool" 'No errors.' 'Errors detected.' verified "$tool" "$build/app"
    expect "the second that is not there by $tool" 0 $'Errors detected.\n' '' verified "$tool" "$build/named"
    tool_says "the same, which no unit names, by $tool" 'No errors.' 'Errors detected.' verified "$tool" "$build/unnamed"
  done
}
verified() { # COMMAND FILE
  "$1" --verify --debug-line "$2" 2>&1 | tail -n 1
}

gsym_declaration
gsym_first
file_one
breakpad_ranges
comp_dir
dead_code
by_clang
whole_name
go_relative
asked_before
verified_directory
finish
