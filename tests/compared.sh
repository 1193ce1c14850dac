#!/usr/bin/env bash
# linetab-object check --all and --max, and answers of check and verify as JSON: on programs, tables and symbol files that are written here.
cd "$(dirname "$(readlink -f -- "$0")")/.." || exit 1
. tests/check.bash
says=linetab-object:
# A folder with the script, its modules and the program alone, as they are installed: the launcher would take as long as the rest.
mkdir -p "$work/bin" "$work/share/linetab"
cp linetab-object "$work/bin"
cp -r share/scripts "$work/share/linetab"
ln -s "$PWD/crates/linetab/out/linetab" "$work/bin/linetab"
object() { # WORD..
  "$work/bin/linetab-object" "$@"
}
export -f object
export work

sections=(.debug_line=examples/hello.debug_line .debug_line_str=examples/hello.debug_line_str code=0x1000,0x1000)
id=00112233445566778899aabbccddeeff01234567
image() { # NAME WORD..: a program of that name, in the folder of the test
  python3 tests/images.py elf64 "$work/$1" "${sections[@]}" "${@:2}" || exit 1
}
image app load=0x0 id=$id symbol=main,0x1129,0x42 symbol=twice,0x116b,0x14 symbol=square,0x117f,0xf
path='"/w/src/small/a.c"'
# A symbol file with the lines of these functions.
symbols() { # NAME..
  echo "MODULE Linux x86_64 ${guid:-33221100554477668899AABBCCDDEEFF0} app"
  echo 'FILE 3 /w/src/small/a.c'
  for name; do
    case $name in
      main) printf 'FUNC 1129 42 0 main\n1129 42 1 3\n' ;;
      twice) printf 'FUNC 116b 14 0 twice\n116b 14 2 3\n' ;;
      square) printf 'FUNC 117f f 0 square\n117f f 3 3\n' ;;
      wrong) printf 'FUNC 116b 23 0 twice\n116b 4 7 3\n116f 10 2 3\n117f 2 8 3\n1181 d 3 3\n' ;;
    esac
  done
}
symbols main twice square >"$work/app.sym"
symbols main square >"$work/some.sym"
symbols main wrong >"$work/wrong.sym"
lines=(
  "no 40 differs at 0x116b,0 table $path,7 section $path,2"
  "no 40 differs at 0x117f,0 table $path,8 section $path,3"
)
ends=("${lines[0]/ table/ up to 0x116f,0 table}" "${lines[1]/ table/ up to 0x1181,0 table}")

stretches() {
  local wrong=$work/wrong.sym note="$says note: $work/wrong.sym differs in"
  expect_notes 'all stretches' 1 "${lines[0]}"$'\n'"${lines[1]}"$'\n' "$note 2 stretches of 6 addresses: twice 4 bytes, square 2"$'\n' \
    object check "$work/app" "$wrong" --all
  expect_notes 'without the note' 1 "${lines[0]}"$'\n'"${lines[1]}"$'\n' '' object check "$work/app" "$wrong" --all --quiet
  expect_notes 'with their ends' 1 "${ends[0]}"$'\n'"${ends[1]}"$'\n' "$note 2 stretches of 6 addresses: twice 4 bytes, square 2"$'\n' \
    object check "$work/app" "$wrong" --all --ends
  expect_notes 'the first one' 1 "${lines[0]}"$'\n' "$note more than 1 stretch, where --max ends; it has 4 addresses: twice 4 bytes"$'\n' \
    object check "$work/app" "$wrong" --all --max 1
  expect_notes 'the first one, in silence' 1 "${lines[0]}"$'\n' '' object check "$work/app" "$wrong" --quiet --max=1 --all
  expect_notes 'as many as there are' 1 "${lines[0]}"$'\n'"${lines[1]}"$'\n' "$note 2 stretches of 6 addresses: twice 4 bytes, square 2"$'\n' \
    object check "$work/app" "$wrong" --all --max 2
  expect_notes 'without a table of symbols' 1 "${lines[0]}"$'\n'"${lines[1]}"$'\n' \
    "${note/wrong.sym/plain.sym} 2 stretches of 6 addresses: 0x116b 4 bytes, 0x117f 2"$'\n' \
    bash -c 'python3 tests/images.py elf64 "$work/plain" "$@" load=0x0 && cp "$work/wrong.sym" "$work/plain.sym" &&
      object check "$work/plain" "$work/plain.sym" --all --any-build' "$0" "${sections[@]}" "id=$id"
  expect_notes 'no stretch' 0 $'yes\nanswers 101 of 101\n' '' object check "$work/app" "$work/app.sym" --all --max 3
  expect_notes 'another no' 1 $'no 36 table header\n' '' bash -c 'object check "$work/app" examples/hello.debug_line --all 2>/dev/null'
  expect 'of an address table' 1 $'no 40 differs at 0x1129,0 table 0,1,9,27,1 section 0,1,1,27,1\n' \
    "$says note: - differs in 1 stretch of 7 addresses: main 7 bytes"$'\n' \
    bash -c 'sed "0,/,1,27,1$/s//,9,27,1/" examples/hello.csv | object check "$0" - --all' "$work/app"
  # A program whose first run about the table doesn't end by itself: what is behind --max is never read.
  mkdir "$work/endless" && cp linetab-object "$work/endless"
  cat >"$work/endless/linetab" <<'END'
#!/bin/sh
[ "$2" != --help ] || exec "$work/bin/linetab" "$@"
[ "$1" = check ] && mkdir "$work/endless/begun" 2>/dev/null || exit 0
for at in 1 2 3 4; do echo "no 40 differs at 0x112$at,0 up to 0x112$at,1 table none section none"; done
exec sleep 1000
END
  chmod +x "$work/endless/linetab"
  expect_notes 'a program that is ended' 1 $'no 40 differs at 0x1121,0 table none section none\nno 40 differs at 0x1122,0 table none section none\n' \
    "$says note: examples/hello.csv differs in more than 2 stretches, where --max ends; these have 2 addresses: 2 bytes between functions"$'\n' \
    timeout 20 "$work/endless/linetab-object" check "$work/app" examples/hello.csv --all --max 2
  local text
  for text in 0 -1 x '' 1.5; do
    expect "as many as $text" 2 $'1\n' '' bash -c 'object check "$work/app" "$work/wrong.sym" --all "--max=$0" 2>"$work/said"; status=$?
      grep -c "^error: --max wants a \(value\|number from 1 on, and not $0\)$" "$work/said"; exit $status' "$text"
  done
  expect 'fewer than all, of one' 2 $'error: --max is for check --all\n' '' bash -c 'object check "$work/app" "$work/wrong.sym" --max 2 2>"$work/said"
    status=$?; head -n 1 "$work/said"; exit $status'
}

# reports NAME STATUS OBJECT WORD..: the words give this one line, and nothing on standard error.
reports() {
  expect_notes "$1" "$2" "$3"$'\n' '' object "${@:4}" --json
}
# What begins each object.
of() { # FILE [SYMBOLS]
  printf '{"file": "%s", ' "$work/$1"
  [ -z "${2-}" ] || printf '"symbols": "%s", ' "$2"
}
mine='"identifier": "33221100554477668899AABBCCDDEEFF0", '
build='"identifier": "'$id'", '
text='\"/w/src/small/a.c\"'
first="no 40 differs at 0x116b,0 table $text,7 section $text,2"
second="no 40 differs at 0x117f,0 table $text,8 section $text,3"
uncounted='"answered": null, "of": null, "missing": {}, '

checks() {
  local note app
  app=$(of app "$work/app.sym")$mine
  reports 'a yes' 0 "$app"'"answer": "yes", "number": null, "line": "yes", "answered": 101, "of": 101, "missing": {}, "notes": []}' \
    check "$work/app" "$work/app.sym"
  note="20 of 101 addresses with lines aren't in $work/some.sym: twice 20 bytes"
  app=$(of app "$work/some.sym")$mine
  reports 'a yes to a part' 0 "$app"'"answer": "yes", "number": null, "line": "yes", "answered": 81, "of": 101, "missing": {"twice": 20}, '\
"\"notes\": [\"$note\"]}" check "$work/app" "$work/some.sym"
  reports 'too few' 1 "$app"'"answer": "no", "number": 46, "line": "no 46 answers 81 of 101", "answered": 81, "of": 101, "missing": {"twice": 20}, '\
"\"notes\": [\"$note\"]}" check "$work/app" "$work/some.sym" --at-least 90
  reports 'what is missing, without notes' 1 \
    "$app"'"answer": "no", "number": 46, "line": "no 46 answers 81 of 101", "answered": 81, "of": 101, "missing": {"twice": 20}, "notes": []}' \
    check "$work/app" "$work/some.sym" --at-least 90 --quiet
  app=$(of app "$work/wrong.sym")$mine'"answer": "no", "number": 40, "line": "'$first'", '$uncounted
  reports 'a no' 1 "$app"'"notes": []}' check "$work/app" "$work/wrong.sym"
  reports 'all stretches' 1 "$app\"notes\": [\"$work/wrong.sym differs in 2 stretches of 6 addresses: twice 4 bytes, square 2\"], "\
"\"differences\": [\"$first\", \"$second\"]}" check "$work/app" "$work/wrong.sym" --all
  reports 'the first stretch' 1 "$app\"notes\": [\"$work/wrong.sym differs in more than 1 stretch, where --max ends; "\
"it has 4 addresses: twice 4 bytes\"], \"differences\": [\"$first\"]}" check "$work/app" "$work/wrong.sym" --all --max 1
  reports 'no stretch' 0 "$(of app "$work/app.sym")$mine"'"answer": "yes", "number": null, "line": "yes", "answered": 101, "of": 101, '\
'"missing": {}, "notes": [], "differences": []}' check "$work/app" "$work/app.sym" --all
  guid=99221100554477668899AABBCCDDEEFF0 symbols main >"$work/other.sym"
  reports 'another build' 1 "$(of app "$work/other.sym")$mine"'"answer": "no", "number": null, '\
"\"line\": \"no other build: $work/other.sym is of 99221100554477668899AABBCCDDEEFF0, $work/app is ${mine:15:33}\", $uncounted\"notes\": []}" \
    check "$work/app" "$work/other.sym"
  reports 'an address table' 0 "$(of app examples/hello.csv)$build"'"answer": "yes", "number": null, "line": "yes", '"$uncounted\"notes\": []}" \
    check "$work/app" examples/hello.csv
  reports 'a table from standard input' 0 "$(of app -)$build"'"answer": "yes", "number": null, "line": "yes", "answered": 101, "of": 101, '\
'"missing": {}, "notes": []}' check "$work/app" - --partial <examples/hello.csv
  reports 'a fault of the section' 1 "$(of app "$work/app.sym")$mine"'"answer": "no", "number": 25, "line": "no 25 malformed at 0x0: truncated", '\
"$uncounted\"notes\": []}" check "$work/app" "$work/app.sym" --big --quiet
}

not_judged() {
  local none='"answer": "none", "number": null, "line": null, '
  local cut="its headers reach past the end of the file, or aren't whole: it is cut or damaged"
  head -c 70 "$work/app" >"$work/cut"
  reports 'a program that is cut' 3 "$(of cut "$work/app.sym")\"identifier\": null, $none$uncounted\"notes\": [], \"reason\": \"$cut\", \"status\": 3}" \
    check "$work/cut" "$work/app.sym"
  reports 'a program that is not there' 3 \
    "$(of none)\"identifier\": null, $none\"notes\": [], \"reason\": \"cannot read it: No such file or directory\", \"status\": 3}" \
    verify "$work/none"
  reports 'a table that is not there' 3 \
    "$(of app "$work/none")$build$none$uncounted\"notes\": [\"No such file or directory (os error 2)\"], \"reason\": \"cannot read $work/none\", \"status\": 3}" \
    check "$work/app" "$work/none"
  (symbols main; echo nonsense) >"$work/broken.sym"
  reports 'a symbol file that is none' 1 \
    "$(of app "$work/broken.sym")$mine"'"answer": "no", "number": 45, "line": "no 45 symbols line 5: not a record", '"$uncounted"'"notes": []}' \
    check "$work/app" "$work/broken.sym"
  mkdir "$work/killed" && cp linetab-object "$work/killed"
  printf '#!/bin/sh\n[ "$2" != --help ] || exec "$work/bin/linetab" "$@"\necho yes\nkill -KILL $$\n' >"$work/killed/linetab"
  chmod +x "$work/killed/linetab"
  expect_notes 'a program that is killed' 0 \
    "$(of app)$build$none\"notes\": [], \"reason\": \"signal 9 ended the program\", \"status\": 3}"$'\n-9\n' '' \
    python3 -c 'import subprocess, sys; print(subprocess.call(sys.argv[1:]))' "$work/killed/linetab-object" verify "$work/app" --json
  expect_notes 'one of several' 3 \
    "$(of app)$build$none\"notes\": [], \"reason\": \"signal 9 ended the program\", \"status\": 3}"$'\n'\
"$(of none)\"identifier\": null, $none\"notes\": [], \"reason\": \"cannot read it: No such file or directory\", \"status\": 3}"$'\n' '' \
    "$work/killed/linetab-object" verify "$work/app" "$work/none" --json
  expect 'a fault of usage' 2 '' "$(object check "$work/app" "$work/app.sym" --nothing 2>&1)"$'\n' \
    object check "$work/app" "$work/app.sym" --nothing --json
}

files() {
  local yes='"answer": "yes", "number": null, "line": "yes", "notes": []}' name object
  local no='"answer": "no", "number": 28, "line": "no 28 string outside unit 0x0 directories entry 0", "notes": ["the file has no '\
'.debug_line_str and no .debug_str, in which the text may be"]}'
  mkdir -p "$work/tree/one"
  cp "$work/app" "$work/tree/a"
  python3 tests/images.py elf64 "$work/tree/one/b" "${sections[0]}"
  cp examples/hello.csv "$work/tree/one/text"
  python3 tests/images.py elf64 "$work/tree/one/stripped" code=0x1000,0x1000
  reports 'a file' 0 "$(of app)$build$yes" verify "$work/app"
  reports 'several files' 1 "$(of tree/a)$build$yes"$'\n'"$(of tree/one/b)\"identifier\": null, $no" verify "$work/tree/a" "$work/tree/one/b"
  reports 'a folder' 1 "$(of tree/a)$build$yes"$'\n'"$(of tree/one/b)\"identifier\": null, $no" verify -r "$work/tree"
  expect_notes 'a folder of nothing' 3 '' '' bash -c 'mkdir "$work/empty" && object verify --json -r "$work/empty"'
  # Names with a byte that isn't UTF-8, with a letter that is, a control character, a quote and a backslash.
  for name in $'\xff/n\\xff' $'\xc3\xa4/n\\u00e4' $'\e/n\\u001b' '"/n\"' '\/n\\'; do
    cp "$work/app" "$work/n${name%%/*}"
    object=${name#*/}
    reports "a name with $object" 0 "{\"file\": \"$work/${object/#n\\xff/n\\\\xff}\", $build$yes" verify "$work/n${name%%/*}"
  done
  expect 'written to a file' 0 '' '' object verify "$work/app" --json -o "$work/report"
  expect 'which has it' 0 "$(of app)$build$yes"$'\n' '' cat "$work/report"
  expect_notes 'a no, which is not written there' 1 "$(of tree/one/b)\"identifier\": null, $no"$'\n' '' object verify "$work/tree/one/b" --json -o "$work/report"
  expect 'which stays' 0 "$(of app)$build$yes"$'\n' '' cat "$work/report"
  expect 'a full device' 3 '' "$says cannot write"$'\n' bash -c 'object verify "$work/app" --json >/dev/full'
  # More stretches than are held in memory.
  python3 - "$work/many.csv" <<'END'
import sys
with open(sys.argv[1], "w") as table:
    table.write("low,high,path,line\n")
    table.writelines("0x%x,0x%x,/a/path/that/is/as/long/as/paths/are,%d\n" % (k, k + 1, k) for k in range(20000))
END
  expect 'many stretches' 1 $'20000 1\n' '' bash -c 'set -o pipefail; object check "$work/app" "$work/many.csv" --all --json | python3 -c "
import json, sys
lines = sys.stdin.read().splitlines()
print(len(json.loads(lines[0])[\"differences\"]), len(lines))"'
}

stretches
checks
not_judged
files
finish
