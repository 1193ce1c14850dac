#!/usr/bin/env bash
# linetab-object check with symbol files that are written here by hand, for programs that tests/images.py writes: whether they are of
# this build, from where their addresses count, how much they answer, and what is missing.
cd "$(dirname "$(readlink -f -- "$0")")/.." || exit 1
. tests/check.bash
says=linetab-object:
# A folder with the scripts, their modules and the program alone, as they are installed: the launcher would take as long as the rest.
mkdir -p "$work/bin" "$work/share/linetab"
cp linetab-object linetab-table "$work/bin"
cp -r share/scripts "$work/share/linetab"
ln -s "$PWD/crates/linetab/out/linetab" "$work/bin/linetab"
check() { # WORD..
  "$work/bin/linetab-object" check "$@"
}
export -f check
export work

sections=(.debug_line=examples/hello.debug_line .debug_line_str=examples/hello.debug_line_str code=0x1000,0x1000)
functions=(symbol=main,0x1129,0x42 symbol=twice,0x116b,0x14 symbol=square,0x117f,0xf)
image() { # FORMAT NAME WORD..: a program of that name, in the folder of the test
  python3 tests/images.py "$1" "$work/$2" "${sections[@]}" "${@:3}" || exit 1
}
id=00112233445566778899aabbccddeeff01234567
guid=332211005544776688 # of the first bytes, turned round
image elf64 app load=0x0 id=$id "${functions[@]}"
image elf64 anonymous load=0x0

# A symbol file of Breakpad with this identifier, whose addresses count from BASE, and lines of the functions that are named.
symbols() { # IDENTIFIER BASE NAME..
  local name at=$(($2))
  printf 'MODULE Linux x86_64 %s app\nINFO CODE_ID 00\nFILE 3 /w/src/small/a.c\n' "$1"
  for name in "${@:3}"; do
    case $name in
      main) printf 'FUNC %x 42 0 main\n%x 42 1 3\n' $((0x1129 - at)) $((0x1129 - at)) ;;
      twice) printf 'FUNC %x 14 0 twice\n%x 14 2 3\n' $((0x116b - at)) $((0x116b - at)) ;;
      square) printf 'FUNC m %x f 0 square(int)\n%x f 3 3\n' $((0x117f - at)) $((0x117f - at)) ;;
      wrong) printf 'FUNC %x f 0 square\n%x f 4 3\n' $((0x117f - at)) $((0x117f - at)) ;;
    esac
  done
}
mine=33221100554477668899AABBCCDDEEFF0
symbols $mine 0 main twice square >"$work/app.sym"
all=$'yes\nanswers 101 of 101\n'

builds() {
  local other=${mine/3322/3323} format order
  expect_notes 'a symbol file of this build' 0 "$all" '' check "$work/app" "$work/app.sym"
  symbols "${mine,,}" 0 main twice square >"$work/lower.sym"
  expect_notes 'an identifier in small letters' 0 "$all" '' check "$work/app" "$work/lower.sym"
  symbols $other 0 main twice square >"$work/other.sym"
  expect_notes 'a symbol file of another build' 1 "no other build: $work/other.sym is of $other, $work/app is $mine"$'\n' '' \
    check "$work/app" "$work/other.sym"
  expect_notes 'another build, passed over' 0 "$all" '' check "$work/app" "$work/other.sym" --any-build
  expect_notes 'a program without an identifier' 0 "$all" \
    "$says note: $work/anonymous has no identifier of its build, so whether $work/app.sym was made of $work/anonymous isn't known"$'\n' \
    check "$work/anonymous" "$work/app.sym"
  symbols 000000000000000000000000000000000 0 main twice square >"$work/zero.sym"
  expect_notes 'a symbol file without one' 0 "$all" \
    "$says note: $work/zero.sym has no identifier of its build, so whether $work/zero.sym was made of $work/app isn't known"$'\n' \
    check "$work/app" "$work/zero.sym"
  expect_notes 'the same without notes' 0 "$all" '' check --quiet "$work/app" "$work/zero.sym"
  # A short build id is filled with zeros; a GUID is the same in both byte orders.
  for format in elf32 elf32-big elf64-big; do
    order=
    [ $format = elf32 ] || order=-big
    image "$format" "app-$format" load=0x0 id=0011223344556677
    symbols "3322110055447766$(printf '0%.0s' {1..17})" 0 main >"$work/short.sym"
    if [ -n "$order" ]; then
      expect "the identifier of $format" 1 "no other build: $work/lower.sym is of ${mine,,}, $work/app-$format is 332211005544776600000000000000000"$'\n' '' \
        check "$work/app-$format" "$work/lower.sym"
    else
      expect "a short build id of $format" 0 $'yes\nanswers 66 of 101\n' '' bash -c 'check "$0" "$1" 2>/dev/null' "$work/app-$format" "$work/short.sym"
    fi
  done
  image macho mac id=00112233445566778899aabbccddeeff
  symbols 00112233445566778899AABBCCDDEEFF0 0 main twice square >"$work/mac.sym"
  expect 'the UUID of a Mach-O file' 0 "$all" '' bash -c 'check "$0" "$1" 2>&1' "$work/mac" "$work/mac.sym"
}

bases() {
  image elf64 fixed load=0x1000 load=0x0 id=$id
  symbols $mine 0x1000 main twice square >"$work/fixed.sym"
  expect_notes 'the first segment that is loaded' 0 "$all" '' check "$work/fixed" "$work/fixed.sym"
  expect 'another base' 1 $'no 40 differs at 0x129,0 table "/w/src/small/a.c",1 section none\n' '' \
    bash -c 'check "$@" 2>/dev/null' - "$work/fixed" "$work/fixed.sym" --base 0
  expect_notes 'a base that is given' 0 "$all" '' check "$work/app" "$work/fixed.sym" --base 0x1000
  image pe windows
  expect 'the base of a PE file' 1 $'no 40 differs at 0x140001129,0 table "/w/src/small/a.c",1 section none\n' '' \
    bash -c 'check "$@" 2>/dev/null' - "$work/windows" "$work/app.sym"
  expect 'no base' 2 '' $'error: --base wants 1 to 16 hexadecimal digits, and not 0y\n\nUsage: linetab-object check [OPTIONS] <FILE> <SYMBOLS>\n\nFor more information, try \'--help\'.\n' \
    check "$work/app" "$work/app.sym" --base 0y
}

shares() {
  local missing="$says note: 66 of 101 addresses with lines aren't in $work/some.sym: main 66 bytes"$'\n'
  symbols $mine 0 twice square >"$work/some.sym"
  expect_notes 'a function that is missing' 0 $'yes\nanswers 35 of 101\n' "$missing" check "$work/app" "$work/some.sym"
  expect_notes 'too few for a share' 1 $'no 46 answers 35 of 101\n' "$missing" check "$work/app" "$work/some.sym" --at-least 95
  expect 'a share that is none' 2 '' $'linetab: bad word 101\n' check "$work/app" "$work/some.sym" --at-least 101
  expect_notes 'enough for a share' 0 $'yes\nanswers 35 of 101\n' "$missing" check "$work/app" "$work/some.sym" --at-least 34
  expect_notes 'the whole program' 1 $'no 40 differs at 0x1129,0 table none section "/w/src/small/a.c",1\n' '' check "$work/app" "$work/some.sym" --whole
  expect_notes 'the whole of all' 0 $'yes\n' '' check "$work/app" "$work/app.sym" --whole
  expect 'the whole and a part' 2 '' $'error: --whole and --partial exclude one another\n\nUsage: linetab-object check [OPTIONS] <FILE> <SYMBOLS>\n\nFor more information, try \'--help\'.\n' \
    check "$work/app" "$work/app.sym" --whole --partial
  symbols $mine 0 >"$work/none.sym"
  expect_notes 'a file that answers nothing' 1 $'no 46 answers 0 of 101\n' \
    "$says note: 101 of 101 addresses with lines aren't in $work/none.sym: main 66 bytes, twice 20, square 15"$'\n' check "$work/app" "$work/none.sym"
  expect_notes 'the same for no share' 0 $'yes\nanswers 0 of 101\n' \
    "$says note: 101 of 101 addresses with lines aren't in $work/none.sym: main 66 bytes, twice 20, square 15"$'\n' \
    check "$work/app" "$work/none.sym" --at-least 0
  symbols $mine 0 main >"$work/main.sym"
  expect_notes 'without a table of symbols' 0 $'yes\nanswers 66 of 101\n' \
    "$says note: $work/anonymous has no identifier of its build, so whether $work/main.sym was made of $work/anonymous isn't known
$says note: 35 of 101 addresses with lines aren't in $work/main.sym: 0x116b 20 bytes, 0x117f 15"$'\n' check "$work/anonymous" "$work/main.sym"
  python3 tests/images.py elf64 "$work/empty" .debug_line=/dev/null load=0x0 || exit 1
  expect 'a program without a line' 3 '' "$says $work/empty: no address of it has a line, so there is nothing to compare"$'\n' \
    bash -c 'check "$@" 2>&1 | grep -v note: >&2; exit "${PIPESTATUS[0]}"' - "$work/empty" "$work/none.sym"
  expect 'a table that answers a part' 1 $'no 46 answers 0 of 101\n' '' \
    bash -c 'echo low,high,path,line | check --partial "$0" - 2>/dev/null' "$work/app"
}

wrong() {
  symbols $mine 0 main twice wrong >"$work/wrong.sym"
  expect 'a wrong line' 1 $'no 40 differs at 0x117f,0 table "/w/src/small/a.c",4 section "/w/src/small/a.c",3\n' '' \
    bash -c 'check "$@" 2>/dev/null' - "$work/app" "$work/wrong.sym"
  sed 's#/w/src/small#/build/small#' "$work/app.sym" >"$work/moved.sym"
  expect 'other names' 1 $'no 40 differs at 0x1129,0 table "/build/small/a.c",1 section "/w/src/small/a.c",1\n' '' \
    bash -c 'check "$@" 2>/dev/null' - "$work/app" "$work/moved.sym"
  expect_notes 'names that are changed' 0 "$all" '' check "$work/app" "$work/moved.sym" --map /other=/x --map=/build=/w/src --map /w=/v
  expect 'no change of names' 2 '' $'error: --map wants FROM=TO, and not /build\n\nUsage: linetab-object check [OPTIONS] <FILE> <SYMBOLS>\n\nFor more information, try \'--help\'.\n' \
    check "$work/app" "$work/moved.sym" --map /build
}

kinds() {
  gzip -c "$work/app.sym" >"$work/app.sym.gz"
  expect_notes 'a symbol file that gzip packed' 0 "$all" '' check "$work/app" "$work/app.sym.gz"
  (cat "$work/app.sym.gz"; printf '' | gzip) >"$work/two.gz"
  expect_notes 'two that are packed one behind the other' 0 "$all" '' check "$work/app" "$work/two.gz"
  head -c 60 "$work/app.sym.gz" >"$work/cut.gz"
  expect_notes 'a packed one that is cut' 3 '' "$says $work/cut.gz: it is cut or damaged, as gzip packed it"$'\n' check "$work/app" "$work/cut.gz"
  head -c 100000000 /dev/zero | gzip >"$work/large.gz"
  expect_notes 'a packed one that stands for too much' 3 '' "$says $work/large.gz: it stands for more than 100 times its bytes: gunzip unpacks it"$'\n' \
    check "$work/app" "$work/large.gz"
  gzip -c examples/hello.csv >"$work/table.gz"
  expect_notes 'a table that gzip packed' 0 $'yes\n' '' check "$work/app" "$work/table.gz"
  expect_notes 'standard input' 0 "$all" '' bash -c 'check "$0/app" - <"$0/app.sym"' "$work"
  expect_notes 'a pipe' 0 "$all" '' bash -c 'cat "$0/app.sym" | check "$0/app" -' "$work"
  expect_notes 'a table by a pipe' 0 $'yes\n' '' bash -c 'cat examples/hello.csv | check "$0/app" -' "$work"
  expect_notes 'a pipe with a name' 0 "$all" '' bash -c 'check "$0/app" <(cat "$0/app.sym")' "$work"
  expect_notes 'no such file' 3 '' "linetab: cannot read $work/nothing"$'\n'"linetab: note: No such file or directory (os error 2)"$'\n' \
    check "$work/app" "$work/nothing"
  sed 's/^FUNC .*main$/FUNC what/' "$work/app.sym" >"$work/broken.sym"
  expect_notes 'a broken symbol file' 1 $'no 45 symbols line 4: not a record\n' '' check "$work/app" "$work/broken.sym"
  expect_notes 'a broken one, with --map' 1 $'no 45 symbols line 4: not a record\n' '' check "$work/app" "$work/broken.sym" --map /a=/b
  head -c 40 examples/hello.debug_line >"$work/cut" && python3 tests/images.py elf64 "$work/faulty" .debug_line="$work/cut" || exit 1
  expect 'a broken section first' 1 $'no 25 malformed at 0x0: truncated\n' '' bash -c 'check "$@" --any-build 2>/dev/null' - "$work/faulty" "$work/broken.sym"
}

gsym() {
  local order
  for order in little big; do
    python3 tests/gsym_file.py $order "$work/$order"
    expect "a GSYM file, $order-endian" 1 $'no 40 differs at 0x1000,0 table "/src/a.c",5 section none\n' '' \
      bash -c 'check "$@" 2>/dev/null' - "$work/app" "$work/$order"
  done
  expect 'notes to a GSYM file' 0 \
    "$says note: $work/little has no identifier of its build, so whether $work/little was made of $work/app isn't known
$says note: $work/little has a base of its own, so --base is passed over
$says note: readers of $work/little up to LLVM 17 answer otherwise at 0x1004, where two rows of a function have one address: /src/a.c:6 in place of /src/a.c:7; linetab-table gsym-17 makes the table of their answers"$'\n' '' \
    bash -c 'check "$@" --base 0 2>&1 >/dev/null | grep little' - "$work/app" "$work/little"
  head -c 7 "$work/little" >"$work/short"
  expect 'a GSYM file that is cut' 1 $'no 45 symbols at 0x0: cut\n' '' bash -c 'check "$@" 2>/dev/null' - "$work/app" "$work/short"
  (head -c 4 "$work/little"; bytes 02; tail -c +6 "$work/little") >"$work/two"
  expect 'a GSYM file of another version' 1 $'no 45 symbols at 0x4: version\n' '' bash -c 'check "$@" 2>/dev/null' - "$work/app" "$work/two"
  expect 'names in a GSYM file that are changed' 1 $'no 40 differs at 0x1000,0 table "/w/a.c",5 section none\n' '' \
    bash -c 'check "$@" --map /src=/w 2>/dev/null' - "$work/app" "$work/little"
}

builds
bases
shares
wrong
kinds
gsym
finish
