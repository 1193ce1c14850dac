#!/usr/bin/env bash
# What linetab-object shows of the differences between a program and its table or symbol file: gaps, the summary of a check, the page of
# the word report, and whole folders at a time.
cd "$(dirname "$(readlink -f -- "$0")")/.." || exit 1
. tests/check.bash
. tests/unit.bash
says=linetab-object:
# A folder with the scripts, their modules and the program alone, as they are installed: the launcher would take as long as the rest.
mkdir -p "$work/bin" "$work/share/linetab"
cp linetab-object linetab-table "$work/bin"
cp -r share/scripts "$work/share/linetab"
ln -s "$PWD/crates/linetab/out/linetab" "$work/bin/linetab"
object() { # WORD..
  "$work/bin/linetab-object" "$@"
}
export -f object
export work
cd "$work" || exit 1

hello=(.debug_line="$top/examples/hello.debug_line" .debug_line_str="$top/examples/hello.debug_line_str" code=0x1000,0x1000 load=0x0)
functions=(symbol=main,0x1129,0x42 symbol=twice,0x116b,0x14 symbol=square,0x117f,0xf)
image() { # NAME WORD..
  python3 "$top/tests/images.py" elf64 "$@" || exit 1
}
# A section with a unit for each of LINES: ADDRESS:LINE of each row, and the address at which the sequence ends.
section() { # FILE LINES..
  python3 - "$1" "$start$header" "${@:2}" <<'END'
import struct, sys


def leb(value):
    """A number of few bits, signed or not."""
    out = bytearray()
    while not -64 <= value < 64:
        out.append(value & 127 | 128)
        value >>= 7
    return bytes(out + bytes([value & 127]))


with open(sys.argv[1], "wb") as file:
    for rows in sys.argv[3:]:
        *rows, end = rows.split()
        at, line = int(rows[0].split(":")[0], 16), 1
        program = b"\0\x09\x02" + struct.pack("<Q", at)
        for row in rows:
            low, number = int(row.split(":")[0], 16), int(row.split(":")[1])
            program += b"\x02" + leb(low - at) + b"\x03" + leb(number - line) + b"\1"
            at, line = low, number
        program += b"\x02" + leb(int(end, 16) - at) + b"\0\1\1"
        unit = bytes.fromhex(sys.argv[2]) + program
        file.write(struct.pack("<I", len(unit)) + unit)
END
}
image app "${hello[@]}" id=00112233445566778899aabbccddeeff01234567 "${functions[@]}"
cat >app.sym <<'END'
MODULE Linux x86_64 33221100554477668899AABBCCDDEEFF0 app
FILE 0 /w/src/small/a.c
FUNC 1129 42 0 main
1129 42 1 0
FUNC 116b 14 0 twice
116b 14 2 0
FUNC 117f f 0 square
117f f 3 0
END
object table --lines app -o four.csv
object table --paths app -o three.csv
object table app -o one.csv

# ---- gaps

gaps() {
  local header='low,high,bytes,function,path,line'
  expect_notes 'no gaps' 0 "$header"$'\n' '' object gaps app app.sym
  grep -v '^116b\|^117f' app.sym >some.sym
  expect_notes 'gaps that touch are one' 0 "$header"$'\n0x116b,0x118e,35,twice,/w/src/small/a.c,2\n' '' object gaps app some.sym
  grep -v '^1129' app.sym >some.sym
  expect_notes 'a gap' 0 "$header"$'\n0x1129,0x116b,66,main,/w/src/small/a.c,1\n' '' object gaps app some.sym
  sed -n '1p; 3p' four.csv >some.csv
  expect_notes 'gaps of a table' 0 "$header"$'\n0x1129,0x116b,66,main,/w/src/small/a.c,1\n0x117f,0x118e,15,square,/w/src/small/a.c,3\n' '' \
    object gaps app some.csv
  sed -n '1p; 3p' one.csv >some.csv
  expect_notes 'gaps of a table by number' 0 "$header"$'\n0x1129,0x1130,7,main,/w/src/small/a.c,1\n0x1137,0x118e,87,main,/w/src/small/a.c,1\n' '' \
    object gaps app some.csv
  expect_notes 'another build' 1 $'no other build: other.sym is of 33231100554477668899AABBCCDDEEFF0, app is 33221100554477668899AABBCCDDEEFF0\n' '' \
    bash -c 'sed s/3322/3323/ app.sym >other.sym; object gaps app other.sym'
  expect_notes 'another build, passed over' 0 "$header"$'\n' '' object gaps app other.sym --any-build
  expect 'a table that is none' 1 $'no 36 table header\n' '' bash -c 'echo low | object gaps app - 2>/dev/null'
  expect_notes 'an output' 0 '' '' object gaps app some.sym -o gaps.csv
  expect 'which has it' 0 "$header"$'\n0x1129,0x116b,66,main,/w/src/small/a.c,1\n' '' cat gaps.csv
  expect 'an option of check' 2 '' $'error: gaps takes one FILE and SYMBOLS, and no --partial, which is for check\n\nUsage: linetab-object gaps [OPTIONS] <FILE> <SYMBOLS>\n\nFor more information, try \'--help\'.\n' \
    object gaps app app.sym --partial
  expect 'no file' 2 "" "" bash -c 'object gaps app 2>/dev/null'
}

# ---- the summary

# Behind the answer the summary names one cause, and what settles it, and no note says it again.
cause() { # NAME CAUSE REMEDY WORD..
  expect_notes "$1" 1 "cause: $2"$'\n'"${3:+what settles it: $3$'\n'}" '' causes "${@:4}"
}
causes() { # WORD..
  object check --summary "$@" >lines
  local status=$?
  grep '^cause: \|^what settles it: ' lines
  return $status
}

summaries() {
  expect_notes 'a right one' 0 $'yes\nanswers 101 of 101\n101 right, 0 wrong, 0 missing of 101 addresses with a line, and 0 extra\n' '' \
    object check app app.sym --summary
  sed 's/^117f f 3/117f f 9/; /^1129 42/d' app.sym >bad.sym
  expect_notes 'a wrong one' 1 'no 40 differs at 0x117f,0 table "/w/src/small/a.c",9 section "/w/src/small/a.c",3
20 right, 15 wrong, 66 missing of 101 addresses with a line, and 0 extra
kinds: no answer 66, another line 15
files: /w/src/small/a.c 15 wrong and 66 missing
functions: main 66 missing, square 15 wrong
at 0x117f in square, 15 bytes wrong: /w/src/small/a.c:9 in place of /w/src/small/a.c:3
at 0x1129 in main, 66 bytes missing: none in place of /w/src/small/a.c:1
' '' object check app bad.sym --summary
  expect_notes 'a part of it' 0 'yes
answers 35 of 101
35 right, 0 wrong, 66 missing of 101 addresses with a line, and 0 extra
kinds: no answer 66
files: /w/src/small/a.c 66 missing
functions: main 66 missing
at 0x1129 in main, 66 bytes missing: none in place of /w/src/small/a.c:1
cause: some.sym has no answer for 66 of 101 addresses, and is right elsewhere
' '' bash -c 'sed "/^1129 42/d" app.sym >some.sym; object check app some.sym --summary'
  expect 'in JSON' 0 $'101 right, 0 wrong, 0 missing of 101 addresses with a line, and 0 extra\n' '' \
    bash -c 'object check app app.sym --summary --json | python3 -c "import json, sys; print(*json.loads(sys.stdin.read())[\"summary\"])"'
  expect 'nothing that was compared' 1 $'no 36 table header\n' '' bash -c 'echo low | object check app - --summary 2>/dev/null'
}

# Nine faulty tables, each with its one cause.
faults() {
  local none='which leaves no difference' k
  sed 's#/w/src#/build#' app.sym >bad
  cause 'how paths begin' 'paths in bad begin with /build/ in place of /w/src/' "check it with --map /build/=/w/src/, $none" app bad
  cause 'the base' 'each record of app.sym lies 0x1000 too high' "check it without --base, $none" app app.sym --base 0x1000
  sed 's#/w/src#/w/./src#' app.sym >bad
  cause 'dots in paths' 'paths differ by . and .. alone, which those of bad have: /w/./src/small/a.c in place of /w/src/small/a.c' \
    "check it with --map /w/./=/w/, $none" app bad
  sed '1d; s#/w/src#/w/x/../src#' four.csv | sed '1i low,high,path,line' >bad
  expect 'dots in the paths of a table' 0 $'1\n' '' bash -c 'object check app bad --summary | grep -c "^cause: paths differ by . and .. alone"'
  sed 's#/w/src/##' four.csv >bad
  cause 'relative paths of a table' 'paths in bad are relative, as small/a.c in place of /w/src/small/a.c' \
    "write them as linetab-object files app lists them, as linetab-table --paths-of app does, $none" app bad
  awk -F , -v OFS=, 'NR > 1 { $5 = 0 } { print }' three.csv >bad
  cause 'columns' 'columns alone are wrong: they are 0' 'a table low,high,path,line is compared without them' app bad
  sed 3d four.csv >bad
  cause 'half of it' 'bad has no answer for 20 of 101 addresses, and is right elsewhere' '' app bad
  sed s/3322/3323/ app.sym >bad
  cause 'another build' 'bad is of another build' 'make it of this one; --any-build compares it all the same' app bad
  printf 'low,high,path,line\n' >bad
  for k in {0..19}; do
    printf '0x%x,0x%x,/w/src/small/a.c,%d\n' $((0x1125 + 4 * k)) $((0x1129 + 4 * k)) $((10 + k * k % 7)) >>bad
  done
  cause 'a table of another build' 'more answers are wrong than right, by nothing that they have in common: bad may be of another build' \
    'make it of this one' app bad
  section first '1000:5 1004:6 1004:7 1008:8 1010'
  image app1 .debug_line=first code=0x1000,0x1000 symbol=f,0x1000,0x10
  printf 'low,high,path,line\n0x1000,0x1004,/s/a.c,5\n0x1004,0x1005,/s/a.c,6\n0x1005,0x1008,/s/a.c,7\n0x1008,0x1010,/s/a.c,8\n' >bad
  cause 'the first of two rows' 'bad answers by the first of two rows at an address, as readers of GSYM files up to LLVM 17 do' 'read it with a newer reader' app1 bad
  section late '1008:8 1010:9 1020' '1020:12 1030'
  image app2 .debug_line=late code=0x1000,0x1000 symbol=early,0x1000,0x20 symbol=late,0x1020,0x10
  printf 'low,high,path,line\n0x1000,0x1020,/s/a.c,4\n0x1020,0x1030,/s/a.c,12\n' >bad
  cause 'the line of a declaration' \
    "1 function has one line throughout, though no line is at the start: it is the declaration's, as llvm-gsymutil writes it" '' app2 bad
  section copies '1000:5 1008:6 1010' '1000:15 1008:16 1010'
  image app3 .debug_line=copies code=0x1000,0x1000 symbol=f,0x1000,0x10
  printf 'low,high,path,line\n0x1000,0x1008,/s/a.c,15\n0x1008,0x1010,/s/a.c,16\n' >bad
  local cause='cause: the linker kept one of several copies of a function, and bad answers by another one than the first'
  expect 'copies' 0 "$cause"$'\nwhat settles it: check it with --any-copy\n' '' \
    bash -c 'object check app3 bad --summary 2>/dev/null | grep "^cause: \|settles"'
  expect 'copies that all count' 0 $'yes\n' '' \
    bash -c 'object check app3 bad --any-copy --summary 2>/dev/null | grep "^yes\|^cause: \|settles"'
  expect 'a note of any copy' 0 $'1\n' '' bash -c 'object check app3 bad 2>&1 >/dev/null | grep -c -e "--any-copy takes the answer of each as right$"'
  expect 'copies, and all places' 0 $'yes\n' '' bash -c 'object check app3 bad --any-copy --all 2>/dev/null'
  expect 'their kind' 0 $'kinds: another copy\'s answer 16\n' '' bash -c 'object check app3 bad --summary 2>/dev/null | grep ^kinds:'
  expect 'and what skips them' 0 $'1\n' '' bash -c 'object check app3 bad --summary 2>&1 >/dev/null | grep -c -e "--skip-copies leaves out the others$"'
}

# ---- the page

# A program, a path and a name that are no good for a page or a terminal.
hostile() {
  local script='<script>document.title="x"</script>' name="<svg onload='document.title=1'>"
  image "$name" "${hello[@]}" "symbol=$script,0x1129,0x42" symbol=$'a\e[31mb,0x116b,0x14'
  printf 'low,high,path,line\n0x1129,0x116b,"%s\e[31m.c",1\n0x116b,0x117f,/w/src/small/a.c,7\n' "${script//\"/\"\"}" >hostile.csv
  expect 'a summary without escapes' 1 $'0\n' '' bash -c 'object check "$0" hostile.csv --summary >lines 2>&1; status=$?; grep -c $'"'\\e'"' lines; exit $status' "$name"
  expect_notes 'a page of it' 0 '' '' object report "$name" hostile.csv -o hostile.html
  expect 'without its elements' 0 '' '' bash -c '! grep -F -e "<script" -e "<svg onload" -e $'"'\\e'"' hostile.html'
  printf 'low,high,path,line\n' >none.csv
  expect 'gaps on a terminal' 0 $'0\n' '' bash -c 'python3 -c "import pty, sys; pty.spawn(sys.argv[1:])" bin/linetab-object gaps "$0" none.csv | grep -c "$(printf "\\033")" || :' "$name"
  expect 'gaps elsewhere' 0 "low,high,bytes,function,path,line
0x1129,0x118e,101,\"${script//\"/\"\"}\",/w/src/small/a.c,1
" '' object gaps "$name" none.csv
}

# The counts that stand in a page, as a browser shows it: those of `check --summary`, in its order.
counts_in() { # PAGE
  chromium --headless --no-sandbox --disable-gpu --dump-dom "file://$work/$1" 2>/dev/null >dom
  python3 - <<'END'
import re

with open("dom", encoding="utf-8") as file:
    text = file.read()
for part in text.split("<section ")[1:]:
    of = dict(re.findall(r'data-count="(\w+)">(\d+)<', part))
    print("%(right)s right, %(wrong)s wrong, %(missing)s missing of %(total)s addresses with a line, and %(extra)s extra" % of)
END
}
summed() { # SYMBOLS..
  local each
  for each; do
    object check app "$each" --summary 2>/dev/null | grep ' addresses with a line, '
  done
}
pages() {
  sed 's/^117f f 3/117f f 9/; /^1129 42/d; s/^116b 14/116b 18/; s/^FUNC 116b 14/FUNC 116b 18/' app.sym >bad.sym
  printf 'low,high,path,line\n0x1120,0x1130,/w/src/small/a.c,1\n0x1137,0x1140,/w/src/b.c,1\n' >extra.csv
  expect_notes 'a page about three' 0 '' '' object report app app.sym bad.sym extra.csv -o page.html
  expect 'the same on standard output' 0 '' '' bash -c 'object report app app.sym bad.sym extra.csv | cmp - page.html'
  expect 'with the answers of check' 0 $'1\n' '' grep -c 'no 40 differs at 0x117f,0 table' page.html
  expect 'without an address of elsewhere' 0 $'0\n' '' bash -c 'grep -cE "(src|href)=[^#]*:|https?:|@import|<script" page.html || :'
  expect_notes 'a page about another build' 0 '' '' bash -c 'sed s/3322/3323/ app.sym >other.sym; object report app other.sym -o other.html'
  expect 'which says so' 0 $'1\n' '' grep -c 'no other build: other.sym is of 33231100554477668899AABBCCDDEEFF0' other.html
  expect_notes 'a program without such a page' 3 '' "$says app.sym: it is a symbol file of Breakpad, and the program comes first: linetab-object check app app.sym"$'\n' \
    object report app.sym app
  hostile
  here 'pages in a browser' chromium || return
  expect 'counts in a browser' 0 "$(summed app.sym bad.sym extra.csv)"$'\n' '' counts_in page.html
  expect 'those of a hostile page' 0 "$(object check "<svg onload='document.title=1'>" hostile.csv --summary 2>/dev/null | grep ' addresses with a line, ')"$'\n' '' counts_in hostile.html
  expect 'where nothing of it runs' 0 $'0\n' '' bash -c 'grep -cF -e "<title>x" -e "<title>1" -e "<script" -e "<svg onload" dom || :'
}

# ---- folders

folders() {
  local pairs='4 pairs: 3 yes, 1 no, 0 not judged; 1 without a symbol file, 2 without a program, 2 passed over' answers jobs
  mkdir -p programs/sub symbols/app/id symbols/tables
  image programs/app "${hello[@]}" id=00112233445566778899aabbccddeeff01234567
  image programs/stripped id=00112233445566778899aabbccddeeff01234567 code=0x1000,0x1000
  image programs/sub/lib.so.debug "${hello[@]}" id=ff112233445566778899aabbccddeeff01234567
  image programs/sub/alone "${hello[@]}" id=aa112233445566778899aabbccddeeff01234567
  image programs/sub/object "${hello[@]}" object
  cp app.sym symbols/app/id/app.sym
  sed 's/^117f f 3/117f f 9/' app.sym | gzip >symbols/worse.sym.gz
  cp four.csv symbols/tables/lib.so.csv
  sed "s/ 33221100.* / 33221100554477668899AABBCCDDEEF10 /" app.sym >symbols/lost.sym
  cp four.csv symbols/nobody.csv && cp four.csv symbols/lib.so.debug.csv && echo text >symbols/text
  answers="programs/app: symbols/app/id/app.sym: yes
programs/app: symbols/app/id/app.sym: answers 101 of 101
programs/app: symbols/worse.sym.gz: no 40 differs at 0x117f,0 table \"/w/src/small/a.c\",9 section \"/w/src/small/a.c\",3
programs/sub/alone: no symbol file
programs/sub/lib.so.debug: symbols/lib.so.debug.csv: yes
programs/sub/lib.so.debug: symbols/tables/lib.so.csv: yes
symbols/lost.sym: no program
symbols/nobody.csv: no program
"
  for jobs in -j1 --jobs=4 '-j 16' --; do
    expect "two folders, $jobs" 1 "$answers${pairs/2 passed/3 passed}"$'\n' '' object check -r $jobs programs symbols
  done
  expect 'with a summary' 1 $'2\n' '' bash -c 'object check -r programs symbols --summary >lines 2>&1; status=$?; grep -c "^programs/app: symbols/[^:]*: .* right, " lines; exit $status'
  expect 'in JSON' 1 'programs/app symbols/app/id/app.sym yes
programs/app symbols/worse.sym.gz no 40
programs/sub/alone None no symbol file
programs/sub/lib.so.debug symbols/lib.so.debug.csv yes
programs/sub/lib.so.debug symbols/tables/lib.so.csv yes
None symbols/lost.sym no program
None symbols/nobody.csv no program
' '' bash -c 'object check -r programs symbols --json >lines; status=$?; python3 -c "
import json
for line in open(\"lines\"):
    it = json.loads(line)
    print(it[\"file\"], it[\"symbols\"], it[\"line\"][:5] if it[\"line\"].startswith(\"no 4\") else it[\"line\"])"; exit $status'
  mkdir one two && cp app one && cp app.sym two
  expect_notes 'one pair' 0 $'one/app: yes\none/app: answers 101 of 101\n1 pair: 1 yes, 0 no, 0 not judged; 0 without a symbol file, 0 without a program, 0 passed over\n' '' \
    object check -r one two
  head -c 70 app >one/cut && cp app.sym two/cut.sym
  expect 'one that is cut' 3 $'one/app: two/app.sym: yes\n' "$says one/cut: its headers reach past the end of the file, or aren't whole: it is cut or damaged"$'\n' \
    bash -c 'object check -r one two >lines; status=$?; head -n 1 lines; exit $status'
  expect 'no folder' 3 '' "$says app.sym: it isn't a folder"$'\n' object check -r one app.sym
  expect 'one folder' 2 '' $'error: check -r wants a folder of programs, and one of tables or symbol files\n\nUsage: linetab-object check [OPTIONS] <FILE> <SYMBOLS>\n\nFor more information, try \'--help\'.\n' \
    object check -r one
  expect 'a number that is none' 2 '' $'error: --jobs wants a number from 1 on, and not 0\n\nUsage: linetab-object verify [OPTIONS] <FILE>...\n\nFor more information, try \'--help\'.\n' \
    object verify -j 0 app
  expect 'a full device' 3 '' "$says cannot write"$'\n' bash -c 'object check -r programs symbols >/dev/full'
}

# On a terminal a line says how far it is, and is gone at the end; elsewhere there is none.
progress() {
  expect 'how far it is' 1 $'7\n0\n' '' bash -c 'python3 -c "import os, pty, sys
sys.exit(os.waitstatus_to_exitcode(pty.spawn(sys.argv[1:])))" bash -c "bin/linetab-object check -r -j 2 programs symbols >lines" >seen
    status=$?; grep -oE "[0-9] of 8 done" seen | sort -u | tail -n 1 | cut -c1; tr "\r" "\n" <seen | tail -n 1 | tr -d "\033" | sed "s/^.K//" | wc -c; exit $status'
  expect 'nothing elsewhere' 1 '' '' bash -c 'object check -r programs symbols 2>&1 >/dev/null'
}

others() {
  local word jobs
  for word in verify table files units; do
    object $word -r -j 1 programs >one.out 2>one.err
    for jobs in 2 9; do
      expect "$word, $jobs at a time" 0 '' '' bash -c 'object $0 -r -j $1 programs >more.out 2>more.err; cmp one.out more.out && cmp one.err more.err' $word $jobs
    done
  done
  expect 'a closed pipe' 0 $'programs/app: yes\n' '' bash -c 'object verify -r programs | head -n 1'
}

gaps
summaries
faults
pages
folders
progress
others
finish
