#!/usr/bin/env bash
# linetab-object on programs of each format: some written here byte by byte by tests/images.py, and some by compilers, where
# they are here.
cd "$(dirname "$(readlink -f -- "$0")")/.." || exit 1
. tests/check.bash
. tests/unit.bash
hello=(.debug_line=examples/hello.debug_line .debug_line_str=examples/hello.debug_line_str)
dead=(.debug_line=examples/gc-sections.debug_line .debug_line_str=examples/gc-sections.debug_line_str)
table=$(cat examples/hello.csv)$'\n'
says=linetab-object:

image() { # FORMAT NAME WORD..: a file of that name, in the folder of the test
  python3 tests/images.py "$1" "$work/$2" "${@:3}" || exit 1
}
# A folder with the script, its modules and the program alone, as they are installed: the launcher would take as long as the rest.
mkdir -p "$work/bin" "$work/share/linetab"
cp linetab-object "$work/bin"
cp -r share/scripts "$work/share/linetab"
ln -s "$PWD/crates/linetab/out/linetab" "$work/bin/linetab"
linetab=$work/bin/linetab
object() { # WORD..
  "$work/bin/linetab-object" "$@"
}
export -f object
export work
# The output is that of linetab with these options on the raw section of an example; ERROR is on standard error.
agrees() { # NAME FILE EXAMPLE ERROR [OPTION..]
  local section=examples/$3.debug_line
  expect "$1" 0 "$("$linetab" table "$section" --line-str "${section}_str" "${@:5}")"$'\n' "$4" object table "$work/$2"
}
refuses() { # NAME FILE REASON
  expect "$1" 3 '' "$says $work/$2: $3"$'\n' object table "$work/$2"
}

formats() {
  local format
  for format in elf64 elf32 pe pe32 macho fat wasm; do
    image "$format" "$format" "${hello[@]}" code=0x1000,0x1000
    agrees "$format" "$format" hello ''
  done
  for format in elf64-big elf32-big macho32-big; do
    image "$format" "$format" .debug_line=examples/powerpc64.debug_line .debug_line_str=examples/powerpc64.debug_line_str
    agrees "$format" "$format" powerpc64 '' --big
  done
  mkdir -p "$work/app.dSYM/Contents/Resources/DWARF" && cp "$work/macho" "$work/app.dSYM/Contents/Resources/DWARF/app"
  agrees 'a folder with a dSYM' app.dSYM hello ''
  (bytes 2f6100) >"$work/strings"
  image elf64 other "${hello[0]}" .debug_str="$work/strings"
  expect 'no line strings, in words that need none' 0 $'0x0 32 156\n' '' object units "$work/other"
  expect 'no line strings, where a path is wanted' 1 $'no 28 string outside unit 0x0 directories entry 0\n' \
    "$says note: the file has no .debug_line_str, in which the text may be"$'\n' object table "$work/other"
}

words() {
  local lookup='0x1137,0 unit 0 file 1 line 1 column 50 stmt 1 path "/w/src/small/a.c"'$'\n'
  expect 'a lookup' 0 "$lookup" '' object lookup "$work/elf64" 0x1137
  expect 'a check' 0 $'yes\n' '' object check "$work/pe" examples/hello.csv
  expect 'a check of standard input' 0 $'yes\n' '' object check "$work/macho" - <examples/hello.csv
  expect 'a table that differs' 1 $'no 40 differs at 0x1129,0 table none section 0,1,1,27,1\n' '' \
    bash -c 'head -n 1 examples/hello.csv | object check "$0" -' "$work/elf64"
  expect 'a conversion' 0 '' '' bash -c 'object convert "$0" --format 32 --order little | cmp - examples/hello.debug_line' "$work/elf32"
  expect 'strings of the words' 0 "$lookup" '' object lookup "$work/other" 0x1137 --line-str examples/hello.debug_line_str
  expect 'an order of the words' 1 $'no 25 malformed at 0x0: truncated\n' '' object units "$work/elf64" --big
  expect 'a link to it' 0 "$table" '' bash -c 'ln -s "$0/bin/linetab-object" "$0/link" && "$0/link" table "$0/elf64"' "$work"
  expect 'no room for its sections' 3 "$says $work/elf64: its sections can't be written to a temporary file: none"$'\n' '' \
    bash -c 'set -o pipefail; (ulimit -f 0; object table "$work/elf64") 2>&1 | sed "s/: File too large$/: none/"'
  expect 'no program beside it' 3 '' "$says the program linetab has to be beside this one, and $work/alone/linetab isn't there"$'\n' \
    bash -c 'mkdir "$0/alone" && cp linetab-object "$0/alone" && "$0/alone/linetab-object" table "$0/elf64"' "$work"
  expect 'a full device' 3 '' "$says cannot write"$'\n' bash -c 'object table "$0" >/dev/full' "$work/elf64"
}

# What the words say of themselves, wherever options stand, by the name that is typed.
usage() {
  local more=$'\n\nFor more information, try \'--help\'.\n' word text
  expect 'an unknown word' 2 '' "$("$linetab" tables 2>&1 | sed 's/^Usage: linetab /Usage: linetab-object /')"$'\n' object tables "$work/elf64"
  expect 'a missing word' 2 '' $'error: the following required arguments were not provided:\n  <ADDRESS>...\n\n'\
"Usage: linetab-object lookup <FILE> <ADDRESS>...$more" object lookup "$work/elf64"
  expect 'no file' 2 '' $'error: the following required arguments were not provided:\n  <FILE>\n\n'"Usage: linetab-object table --lines <FILE>$more" \
    object table --lines
  expect 'an unknown option' 2 '' $'error: unexpected argument \'--line\' found\n\n  tip: a similar argument exists: \'--lines\'\n\n'\
"Usage: linetab-object table --lines <FILE>$more" object table --line "$work/elf64"
  expect 'a bad word' 2 '' $'linetab: bad word here\n' object lookup "$work/elf64" here
  expect 'no word' 2 '' $'linetab-object: a word of linetab and a file are wanted\n\nusage: linetab-object WORD [OPTIONS] FILE..\n' object
  expect 'an option in the place of the word' 2 '' \
    $'linetab-object: a word of linetab and a file are wanted\n\nusage: linetab-object WORD [OPTIONS] FILE..\n' object --lines table
  expect 'an option without its value' 2 '' $'error: -o wants a value\n\nUsage: linetab-object table [OPTIONS] <FILE>...'"$more" \
    object table "$work/elf64" -o
  expect 'one with a value that it has not' 2 '' $'error: --recursive takes no value\n\nUsage: linetab-object table [OPTIONS] <FILE>...'"$more" \
    object table "$work/elf64" --recursive=yes
  expect 'help' 0 $'usage: linetab-object WORD [OPTIONS] FILE..\n' '' bash -c 'object --help | grep usage'
  for word in units dump check verify lookup files table convert md5 upgrade; do
    text=$(object "$word" --help)
    expect "the help of $word" 0 "$text"$'\n' '' object help "$word"
    expect "the help of $word, behind a file" 0 "$text"$'\n' '' object "$word" "$work/elf64" -h
    expect "every option of $word" 0 '' '' bash -c 'grep -oE -- "--[a-z0-9-]+" <("$0" "$1" --help) | grep -vFf <(echo "$2"); [ $? -eq 1 ]' "$linetab" "$word" "$text"
    expect "$word in the help" 0 "  $word"$'\n' '' bash -c 'object --help | grep -oE "^  $0\b"' "$word"
    grep -qE "^Usage: linetab-object $word .*<FILE>" <<<"$text" || expect "the usage of $word" 0 'linetab-object' '' echo "$text"
  done
  expect 'the version' 0 "$("$linetab" --version | sed 's/^linetab /linetab-object /')"$'\n' '' object --version
  expect 'the version, in short' 0 "$(object --version)"$'\n' '' object -V
  expect 'an option before the file' 0 "$(object table "$work/elf64" --lines)"$'\n' '' object table --lines "$work/elf64"
  expect 'options around the file' 0 "$(object lookup "$work/elf64" 0x1137)"$'\n' '' object lookup --op 0 "$work/elf64" --quiet 0x1137
  expect 'an option that is joined to its value' 0 "$(object lookup "$work/elf64" 0x1137)"$'\n' '' object lookup --op=0 "$work/elf64" 0x1137
  cp "$work/elf64" "$work/-v"
  expect 'a name that begins as options do' 0 $'yes\n' '' bash -c 'cd "$0" && object verify -- -v' "$work"
  expect 'its modules are missing' 1 '' "$says its modules have to lie in $work/off/share/linetab/scripts, and aren't there"$'\n' \
    bash -c 'mkdir -p "$0/off/bin" && cp linetab-object "$0/off/bin" && "$0/off/bin/linetab-object" verify x' "$work"
}

# What Python compiles is kept whole or not at all, where files may only be small: else no later start could read it.
kept() {
  local size folder=$work/compiled
  mkdir "$folder" && cp -r "$work/bin" "$work/share" "$folder"
  for size in 0 1 2 4 8 16; do
    find "$folder" -name __pycache__ -exec rm -r {} +
    (ulimit -f $size; PYTHONDONTWRITEBYTECODE= "$folder/bin/linetab-object" --version) >/dev/null 2>&1
    expect "a start where files of $size kB may be written, and one after it" 0 "$(object --version)"$'\n' '' "$folder/bin/linetab-object" --version
    expect "which leaves nothing half" 0 '' '' find "$folder" -path '*__pycache__/*' ! -name '*.pyc'
  done
  expect 'a start that may write keeps what was compiled' 0 $'command.py\n' '' \
    bash -c 'PYTHONDONTWRITEBYTECODE= "$0/bin/linetab-object" --version >/dev/null; cd "$0/share/linetab/scripts/object" &&
      ls __pycache__ | sed -n "s/^\(command\)[.].*pyc$/\1.py/p"' "$folder"
}

# Standard input as a file.
standard_input() {
  expect 'standard input, a file' 0 "$table" '' object table - <"$work/elf64"
  expect 'standard input, a pipe' 0 "$table" '' bash -c 'cat "$0" | object table -' "$work/elf64"
  expect 'a pipe with a Mach-O file' 0 "$table" '' bash -c 'cat "$0" | object table -' "$work/macho"
  expect 'a check of it' 0 $'yes\n' '' object check - examples/hello.csv <"$work/pe"
  expect 'standard input that is no program' 3 '' "$says -: it is a script: take the program that it runs"$'\n' object verify - <linetab
  expect 'an empty standard input' 3 '' "$says -: it is empty"$'\n' \
    object verify - </dev/null
  expect 'a closed one' 3 '' "$says -: standard input can't be read: Is a directory"$'\n' bash -c 'object verify - <&-'
  expect 'standard input twice' 3 '' "$says -: standard input is read once"$'\n' object check - - <"$work/elf64"
  expect 'standard input twice, by an option' 3 '' "$says -: standard input is read once"$'\n' object lookup - --addresses - <"$work/elf64"
  image elf64 app id=00112233445566778899 link=app.debug,/dev/null
  expect 'a pipe with a stripped program' 3 '' "$says -: it has no .debug_line: it is stripped, and its debug information isn't in \
/usr/lib/debug/.build-id/00/112233445566778899.debug; install the package with the debug symbols (Debian: -dbgsym or -dbg), or take the \
file before it was stripped; its build id is 00112233445566778899"$'\n' bash -c 'cat "$0" | object verify -' "$work/app"
}

# Where memory is short the answer is whole or none, and no status is that of a no. Python itself takes 12 MB to start.
little_memory() {
  local memory status wrong=0
  for ((memory = 13000; memory <= 22000; memory += 1000)); do
    (ulimit -v $memory; object table "$work/elf64") >"$work/out" 2>"$work/err"
    status=$?
    case $status in
      0) cmp -s "$work/out" <(object table "$work/elf64") || wrong=$((wrong + 1)) ;;
      4) grep -qx 'linetab\(-object\)\?: out of memory' "$work/err" || wrong=$((wrong + 1)) ;;
      *) wrong=$((wrong + 1)) ;;
    esac
  done
  expect 'little memory' 0 $'0\n' '' echo $wrong
}

# Files that are written whole, or not at all.
outputs() {
  local no=$'no 25 malformed at 0x0: truncated\n'
  mkdir "$work/o"
  image elf64 "o/app" "${hello[@]}"
  expect 'an output' 0 '' '' object table "$work/o/app" -o "$work/o/app.csv"
  expect 'which is the table' 0 "$table" '' cat "$work/o/app.csv"
  expect 'an output, joined' 0 '' '' object units "$work/o/app" -o"$work/o/units" --quiet
  expect 'which is the units' 0 $'0x0 32 156\n' '' cat "$work/o/units"
  expect 'a refused one' 1 "$no" '' object units "$work/o/app" --big --output="$work/o/app.csv"
  expect 'which changes nothing' 0 "$table" '' cat "$work/o/app.csv"
  expect 'a refused one that is new' 1 "$no" '' object units "$work/o/app" --big -o "$work/o/new"
  expect 'one of a file that is not there' 3 '' "$says $work/none: cannot read it: No such file or directory"$'\n' \
    object table "$work/none" -o "$work/o/new"
  expect 'one in a folder that is not there' 3 '' "$says $work/none/x: cannot write it: No such file or directory"$'\n' \
    object table "$work/o/app" -o "$work/none/x"
  expect 'a folder as output' 3 '' "$says $work/o: cannot write it: Is a directory"$'\n' object table "$work/o/app" -o "$work/o"
  expect 'no room for it' 3 '' "$says $work/o/new: cannot write it: File too large"$'\n' \
    bash -c 'ulimit -f 1; object dump --rows --ops "$0/o/app" -o "$0/o/new"' "$work"
  expect 'a full device as output' 3 '' "$says /dev/full: cannot write it: No space left on device"$'\n' object table "$work/o/app" -o /dev/full
  expect 'a device, which stays' 0 $'crw\n' '' bash -c 'object table "$0" -o /dev/null && stat -c %A /dev/null | cut -c 1-3 | tr -d -- -' "$work/o/app"
  chmod 640 "$work/o/units" && ln -s units "$work/o/link"
  expect 'a link to a file, whose mode stays' 0 $'640\nlink\n' '' \
    bash -c 'object units "$0/o/app" -o "$0/o/link" && stat -c %a "$0/o/units" && [ -L "$0/o/link" ] && echo link' "$work"
  expect 'the umask' 0 $'604\n' '' bash -c 'umask 062; object units "$0/o/app" -o "$0/o/mask" && stat -c %a "$0/o/mask"' "$work"
  rm "$work/o/mask"
  expect 'nothing else' 0 $'app\napp.csv\nlink\nunits\n' '' ls "$work/o"
}

# What is read isn't overwritten, whatever it is called.
inputs() {
  local folder=$work/i
  mkdir "$folder" && cp -r "$work/o/app" "$work/o/app.csv" "$folder"
  cp examples/hello.debug_line_str "$folder/strings"
  echo 0x1137 >"$folder/addresses"
  cp "$folder/app" "$folder/debug"
  image elf64 i/stripped code=0x1000,0x1000 link=debug,"$work/i/app"
  ln -s app "$folder/link" && ln "$folder/app" "$folder/other"
  cp -r "$folder" "$work/as_it_was"
  onto() { # NAME OUTPUT WORD..
    expect "$1" 2 '' "$says -o would write onto $2, which is read: give another file"$'\n' object "${@:3}" -o "$2"
  }
  cd "$folder" || exit 1
  onto 'an output onto the program' app table app
  onto 'by another path' "$folder/app" table ./app
  onto 'by a link' link table app
  onto 'by a link that is read' app table link
  onto 'by another name' other table app
  onto 'onto the table' app.csv check app app.csv
  onto 'onto the strings' strings verify app --line-str strings
  onto 'onto the strings, joined' strings verify app --line-str=strings
  onto 'onto addresses' addresses lookup app --addresses addresses
  onto 'onto standard input' app table - <app
  onto 'onto standard input, by its name' /dev/stdin table - <app
  onto 'onto a table from standard input' app.csv check app - <app.csv
  onto 'onto a table from standard input, by its name' app.csv check app /dev/stdin <app.csv
  onto 'onto a text' addresses symbolize app <addresses
  expect 'onto the debug file' 2 '' "$says note: the debug information of stripped is in $folder/debug"$'\n'\
"$says -o would write onto debug, which is read: give another file"$'\n' object table stripped -o debug
  cd "$top" || exit 1
  expect 'all of which is as it was' 0 '' '' diff -r "$folder" "$work/as_it_was"
  expect 'an output beside them' 0 '' '' object table "$folder/app" -o "$folder/new"
  expect 'an output in the place of another file' 0 '' '' object verify "$folder/app" -o "$folder/new"
  expect 'a device twice' 0 '' '' object lookup "$folder/app" --addresses /dev/null -o /dev/null
  # A file whose sum is listed.
  printf 'int x;\n' >"$folder/a.c"
  python3 - "$folder/a.c" "$work/sums" <<'END'
import hashlib, struct, sys
path, out = sys.argv[1:]
with open(path, "rb") as file:
    listed = hashlib.md5(file.read()).digest()
tables = b"\1\1\x08\1/\0" + b"\3\1\x08\2\x0b\5\x1e\1" + path.encode()[1:] + b"\0\0" + listed
numbers = bytes.fromhex("010101fb0e0d000101010100000001000001") + tables
unit = struct.pack("<HBBI", 5, 8, 0, len(numbers)) + numbers
with open(out, "wb") as file:
    file.write(struct.pack("<I", len(unit)) + unit)
END
  image elf64 sums.app .debug_line="$work/sums"
  expect 'a sum' 0 "unit 0 file 0 same \"$folder/a.c\""$'\n' '' object md5 "$work/sums.app"
  expect 'onto a file that was summed' 2 '' "$says -o would write onto $folder/a.c, which is read: give another file"$'\n' \
    object md5 "$work/sums.app" -o "$folder/a.c"
  expect 'which stays' 0 $'int x;\n' '' cat "$folder/a.c"
}

# Words and options that take no folders, or aren't for this word.
elsewhere() {
  local word used
  while IFS='|' read -r word used; do
    expect "folders of $word" 2 '' "error: $used, and no folders, which -r is for"$'\n\n'"$(object "${word%% *}" --help |
      grep '^Usage: ')"$'\n\nFor more information, try \'--help\'.\n' object $word
  done <<END
gaps -r|gaps takes one FILE and SYMBOLS
report $work/elf64 examples/hello.csv --recursive|report takes one FILE and SYMBOLS..
lookup -r $work/elf64 0x0|lookup takes one FILE and ADDRESS..
convert -r|convert takes one FILE
symbolize $work/elf64 -r|symbolize takes one FILE
END
  for word in units dump lookup files table convert md5 upgrade symbolize gaps report; do
    expect "JSON of $word" 2 $'1\n' '' bash -c 'object "$1" "$0" --json 2>"$0.said" </dev/null; status=$?
      grep -c "^error: $1 takes .*, and no --json, which is for check and verify$" "$0.said"; exit $status' "$work/elf64" "$word"
  done
}

# Several files, and all in folders.
several() {
  local all=$work/tree
  mkdir -p "$all/one/two" "$all/empty"
  image elf64 tree/a "${hello[@]}"
  image pe tree/one/b "${hello[@]}"
  image macho tree/one/two/c "${hello[@]}"
  image elf64 tree/one/object "${hello[@]}" object
  image elf64 tree/one/stripped code=0x1000,0x1000
  cp examples/hello.debug_line "$all/one/text"
  ln -s a "$all/link" && mkfifo "$all/pipe"
  expect 'several files' 0 "$all/a: yes"$'\n'"$all/one/b: yes"$'\n2 files: 2 yes, 0 no, 0 not judged\n' '' object verify "$all/a" "$all/one/b"
  expect 'their units' 0 "$all/a: 0x0 32 156"$'\n'"$all/one/b: 0x0 32 156"$'\n2 files: 2 done, 0 no, 0 not judged\n' '' \
    object units "$all/a" "$all/one/b"
  expect 'each line of a longer answer' 3 "$(sed "s,^,$all/a: ," examples/hello.csv)"$'\n2 files: 1 done, 0 no, 1 not judged\n' \
    "$says $all/none: cannot read it: No such file or directory"$'\n' object table "$all/a" "$all/none"
  expect 'one that is not there' 3 "$all/a: yes"$'\n2 files: 1 yes, 0 no, 1 not judged\n' \
    "$says $all/none: cannot read it: No such file or directory"$'\n' object verify "$all/none" "$all/a"
  expect 'one that is named, and has nothing' 3 "$all/a: yes"$'\n2 files: 1 yes, 0 no, 1 not judged\n' \
    "$says $all/one/text: it is none of ELF, PE, Mach-O and WebAssembly; a raw section is for linetab itself"$'\n' \
    object verify "$all/one/text" "$all/a"
  expect 'a folder' 0 "$all/a: yes"$'\n'"$all/one/b: yes"$'\n'"$all/one/two/c: yes"$'\n3 files: 3 yes, 0 no, 0 not judged, 3 passed over\n' '' \
    object verify -r "$all"
  expect 'a folder that is named without -r' 3 "$all/a: yes"$'\n2 files: 1 yes, 0 no, 1 not judged\n' \
    "$says $all: it is a folder, and no .dSYM of one program; -r takes all programs in it"$'\n' object verify "$all/a" "$all"
  expect 'a folder of nothing' 3 $'0 files: 0 yes, 0 no, 0 not judged, 0 passed over\n' '' object verify --recursive "$all/empty"
  expect 'a folder that is not there' 3 $'1 file: 0 yes, 0 no, 1 not judged, 0 passed over\n' \
    "$says $all/none: cannot read it: No such file or directory"$'\n' object verify -r "$all/none"
  image elf64 tree/one/worse .debug_line=examples/hello.debug_line
  head -c 70 "$all/a" >"$all/one/cut"
  expect_notes 'a no' 1 "$all/a: yes"$'\n'"$all/one/b: yes"$'\n'"$all/one/worse: no 28 string outside unit 0x0 directories entry 0"$'\n'\
"$all/one/two/c: yes"$'\n5 files: 3 yes, 1 no, 1 not judged, 3 passed over\n' \
    "$says $all/one/cut: its headers reach past the end of the file, or aren't whole: it is cut or damaged"$'\n'\
"$says note: $all/one/worse: the file has no .debug_line_str and no .debug_str, in which the text may be"$'\n' object verify -r "$all"
  expect 'a usage that is told once' 2 '' "$(object verify --nothing "$all/a" 2>&1)"$'\n' object verify --nothing "$all/a" "$all/one/b"
  expect 'one output of several files' 2 '' $'error: --output takes the answer about one FILE\n\nUsage: linetab-object verify [OPTIONS] <FILE>...\n'\
$'\nFor more information, try \'--help\'.\n' object verify "$all/a" "$all/one/b" -o "$work/out.csv"
  expect 'a full device' 3 '' "$says cannot write"$'\n' bash -c 'object verify "$0" "$0" >/dev/full' "$all/a"
  expect 'a word that takes one' 2 '' "$("$linetab" convert x --format 32 --order big "$all/one/b" 2>&1 |
    sed 's/^Usage: linetab /Usage: linetab-object /; s/<SECTION>/<FILE>/')"$'\n' object convert "$all/a" --format 32 --order big "$all/one/b"
  cp "$all/a" "$all/"$'\e[31m'
  expect 'a name with an escape' 0 "\"$all/\\x1b[31m\": yes"$'\n'"$all/a: yes"$'\n2 files: 2 yes, 0 no, 0 not judged\n' '' \
    object verify "$all/"$'\e[31m' "$all/a"
}

# Files that are of other kinds, and what is said of each.
kinds() {
  local perf='it is a recording of perf: perf buildid-list -i FILE lists the programs in it; take one of them'
  printf 'PERFILE2' >"$work/no" && refuses 'a recording of perf' no "$perf"
  printf 'MDMP\x93\xa7' >"$work/no" && refuses 'a minidump' no 'it is a minidump, which has no line numbers: minidump_stackwalk FILE '\
'lists the programs in it; take one of them, or its debug information'
  printf 'MODULE Linux x86_64 0 a\n' >"$work/no" && refuses 'a file of Breakpad' no 'it is a symbol file of Breakpad: '\
'linetab-object check PROGRAM FILE compares it with the program that it was made of'
  printf 'PK\x03\x04' >"$work/no" && refuses 'a zip archive' no \
    'it is a zip archive, as APK, JAR and wheel files are: unpack it, and take a program in it'
  printf '!<arch>\ndebian-binary   ' >"$work/no" && refuses 'a package of Debian' no 'it is a package of Debian: dpkg-deb -x FILE FOLDER unpacks it'
  printf '\xed\xab\xee\xdb' >"$work/no" && refuses 'an RPM package' no 'it is an RPM package: rpm2cpio FILE | cpio -idm unpacks it'
  python3 tests/gsym_file.py little "$work/no" && refuses 'a GSYM file' no 'it is a GSYM file: linetab-object check '\
'PROGRAM FILE compares it with the program that it was made of'
  image elf64 no "${hello[@]}" object && printf '\xf7' | dd of="$work/no" bs=1 seek=18 conv=notrunc status=none && refuses 'a BPF object' no \
    'it is a BPF object, which is linked when it is loaded: bpftool prog dump xlated id ID linum prints its lines then'
  # A PE file without a table of symbols.
  image pe no code=0x1000,0x1000 && printf '\0\0\0\0' | dd of="$work/no" bs=1 seek=76 conv=notrunc status=none &&
    refuses 'a stripped PE file' no 'it has no .debug_line: it was stripped, or made by a compiler that writes a PDB, which has no DWARF: '\
'take the file before it was stripped, or compile with -gdwarf-5 by gcc or clang for mingw'
}

packed() {
  local note="section .debug_line isn't what its compression header says: the file is damaged"
  image elf64 packed "z:${hello[0]}" "z:${hello[1]}"
  agrees 'compressed sections' packed hello ''
  image elf32-big packed z:.debug_line=examples/powerpc64.debug_line z:.debug_line_str=examples/powerpc64.debug_line_str
  agrees 'compressed sections, big-endian' packed powerpc64 '' --big
  image pe packed "gnu:${hello[0]}" "gnu:${hello[1]}"
  agrees 'sections compressed as .zdebug' packed hello ''
  image elf64 packed "z:${hello[0]}" damaged
  refuses 'a compressed section that is cut' packed "$note"
  image elf64 packed "gnu:${hello[0]}" damaged
  refuses 'one that is cut in .zdebug' packed "$note"
  here 'sections compressed by zstd' objcopy || return
  # Large enough that compressing gains anything.
  image elf64 packed "${dead[@]}"
  objcopy --compress-debug-sections=zstd "$work/packed" 2>/dev/null ||
    { skip 'objcopy compresses nothing by zstd'; return; }
  local units
  units=$("$linetab" units examples/gc-sections.debug_line)$'\n'
  if here 'sections compressed by zstd, by the command' zstd; then
    expect 'sections compressed by zstd' 0 "$units" '' object units "$work/packed"
    # Another byte in the middle of the section.
    python3 - "$work/packed" "$work/torn" <<'END'
import sys
content = bytearray(open(sys.argv[1], "rb").read())
content[content.index(b"\x28\xb5\x2f\xfd") + 40] ^= 0xFF
open(sys.argv[2], "wb").write(content)
END
    refuses 'sections compressed by zstd, and damaged' torn "$note"
  fi
  mkdir -p "$work/few"
  ln -s "$(command -v env)" "$(command -v objcopy)" "$work/few"
  ln -s "$(python3 -c 'import sys; print(sys.executable)')" "$work/few/python3"
  expect 'the same by objcopy' 0 "$units" '' env PATH="$work/few" "$work/bin/linetab-object" units "$work/packed"
  rm "$work/few/objcopy"
  expect 'the same by nothing' 3 '' \
    "$says $work/packed: section .debug_line is compressed by zstd, which nothing here unpacks: install the package zstd"$'\n' \
    env PATH="$work/few" "$work/bin/linetab-object" units "$work/packed"
}

discarded() {
  local note="where $work/dead has no code: the linker left those of discarded functions there;"
  image elf64 dead "${dead[@]}" code=0x1000,0x100000
  agrees 'sequences at 0' dead gc-sections "$says note: sequences begin at 0x0, $note --dead 0x0 leaves them out"$'\n' --dead 0x0
  expect 'sequences at 0, in words that take no marker' 0 "$("$linetab" units examples/gc-sections.debug_line)"$'\n' '' object units \
    "$work/dead"
  expect 'a marker of the words' 1 \
    "$("$linetab" table examples/gc-sections.debug_line --line-str examples/gc-sections.debug_line_str --quiet)"$'\n' \
    "$says note: sequences overlap at 0x0; if the linker left those of discarded functions there, --dead 0x0 leaves them out"$'\n' \
    object table "$work/dead" --dead 0x1
  image elf64 live "${dead[@]}" code=0x0,0x100000
  expect 'sequences at 0, where code is' 1 \
    "$("$linetab" table examples/gc-sections.debug_line --line-str examples/gc-sections.debug_line_str --quiet)"$'\n' \
    "$says note: sequences overlap at 0x0; if the linker left those of discarded functions there, --dead 0x0 leaves them out"$'\n' \
    object table "$work/live"
  python3 -c \
    'import sys; start = b"\0\x09\x02"; section = open(sys.argv[1], "rb").read()
sys.stdout.buffer.write(section.replace(start + bytes(8), start + b"\xff" * 8))' \
    examples/gc-sections.debug_line >"$work/ones"
  image elf64 dead .debug_line="$work/ones" "${dead[1]}" code=0x0,0x100000
  agrees 'sequences at the highest address' dead gc-sections \
    "$says note: sequences begin at 0xffffffffffffffff, $note --dead 0xffffffffffffffff leaves them out"$'\n' --dead 0x0
  # The bytes of an operation that sets address 0, in a block of a directory.
  (bytes 520000000500080038000000 010101fb0e0d 000101010100000001000001 020108 81400a 01 2f7300 0b 0009020000000000000000 \
    020108020b02612e630000612e630000 0009020010000000000000 144b0202 000101) >"$work/none"
  image elf64 dead .debug_line="$work/none"
  local rows=$'low,low_op,high,high_op,unit,file,line,column,is_stmt\n0x1000,0,0x1004,0,0,1,3,0,1\n0x1004,0,0x1006,0,0,1,4,0,1\n'
  expect_notes 'the bytes of address 0 elsewhere' 0 "$rows" '' object table "$work/dead"
  echo names >"$work/names"
  expect_notes 'the bytes of address 0 elsewhere, and a difference' 1 "no 36 table header"$'\n' \
    "$says note: $work/names: its header is \"names\" in place of low,high,path,line"$'\n' object check "$work/dead" "$work/names"
  cat "$work/none" "$work/ones" >"$work/both"
  image elf64 dead .debug_line="$work/both" "${dead[1]}"
  expect_notes 'these bytes, and sequences at the highest address' 0 \
    "$("$linetab" verify "$work/both" --line-str examples/gc-sections.debug_line_str --dead 0xffffffffffffffff)"$'\n' \
    "$says note: sequences begin at 0xffffffffffffffff, $note --dead 0xffffffffffffffff leaves them out"$'\n' object verify "$work/dead"
}

# Of each kind one note is told: the program's own, unless it is told here in other words.
once() {
  local sections=(examples/gc-sections.debug_line --line-str examples/gc-sections.debug_line_str)
  image elf64 live "${dead[@]}" code=0x0,0x100000
  expect_notes 'discarded code' 1 "$("$linetab" verify "${sections[@]}" --quiet)"$'\n' \
    "$says note: sequences overlap at 0x0; if the linker left those of discarded functions there, --dead 0x0 leaves them out"$'\n' \
    object verify "$work/live"
  expect_notes 'discarded code, quiet' 1 "$("$linetab" verify "${sections[@]}" --quiet)"$'\n' '' object verify "$work/live" --quiet
  image elf64 dead "${dead[@]}"
  expect_notes 'discarded code that is left out, quiet' 0 "$("$linetab" verify "${sections[@]}" --dead 0x0 --quiet)"$'\n' '' \
    object verify "$work/dead" --quiet
  image elf64 texts .debug_line=examples/hello.debug_line
  expect_notes 'texts' 1 $'no 28 string outside unit 0x0 directories entry 0\n' \
    "$says note: the file has no .debug_line_str and no .debug_str, in which the text may be"$'\n' object verify "$work/texts"
  # A unit of version 4 after one with a discarded sequence, which names a file that isn't there.
  (bytes "45000000 $start $header 0009020000000000000000 0405 144b0202 000101") >"$work/named"
  (bytes "43000000 $start $header 0009020000000000000000 144b0202 000101") >"$work/unnamed"
  local version="$says note: 1 of its 2 units, of src/a.c, is of version 4; linetab reads DWARF 5 alone: with --older it is upgraded first; to build it anew: compile with -gdwarf-5"$'\n'
  cat "$work/named" "$work/old4" >"$work/mixed" && image elf64 dead .debug_line="$work/mixed"
  expect_notes 'discarded code, without which another fault is told' 1 $'no 25 malformed at 0x4d: version 4\n' "$version" \
    object verify "$work/dead"
  cat "$work/unnamed" "$work/old4" >"$work/mixed" && image elf64 dead .debug_line="$work/mixed"
  expect_notes 'discarded code, without which the same fault is told' 1 $'no 25 malformed at 0x4b: version 4\n' "$version" \
    object verify "$work/dead"
  (echo ldc version) >"$work/said" && image elf64 dead .debug_line="$work/old4" z:.debug_info="$work/said" damaged
  expect_notes 'a note that no damaged section gives' 1 $'no 25 malformed at 0x4: version 4\n' \
    $'linetab: note: linetab upgrade SECTION --address-size N writes units of versions 2 to 4 anew in version 5, which the other words read; N is how many bytes an address has: 8 in a 64-bit program, 4 in a 32-bit one\n' \
    object verify "$work/dead"
}

versions() {
  local hint='linetab reads DWARF 5 alone: without --no-older it is upgraded first; to build it anew:'
  local assembled="compile with -gdwarf-5; with gcc also -Wa,--gdwarf-5, since the assembler writes the section (as: --gdwarf-5)"
  python3 - "$work/old" <<'END'
import struct, sys
name = sys.argv[1]
tables = b"src\0\0" + b"a.c\0\1\0\0\0"
program = b"\0\x09\x02" + struct.pack("<Q", 0x1000) + b"\x14\x02\x02\0\1\1"
for version in (2, 3, 4):
    numbers = bytes([1]) + (bytes([1]) if version >= 4 else b"") + bytes([1, 251, 14, 13]) + bytes([0, 1, 1, 1, 1, 0, 0, 0, 1, 0, 0, 1])
    for order in "<>":
        inner = struct.pack(order + "HI", version, len(numbers + tables)) + numbers + tables + program
        with open("%s%d%s" % (name, version, "big" if order == ">" else ""), "wb") as file:
            file.write(struct.pack(order + "I", len(inner)) + inner)
inner = struct.pack("<HI", 4, len(numbers + tables)) + numbers + tables + program[:11] + b"\4\0" + program[11:]
with open(name + "zero", "wb") as file:
    file.write(struct.pack("<I", len(inner)) + inner)
END
  image elf64 unit .debug_line="$work/oldzero"
  expect 'a row of file 0' 1 $'no 30 file number unit 0x0 row 0 file 0\n' "$says note: the unit is of version 4, where files count from 1: its \
compiler left the file of that row open, and readers answer with none, with the first file or with the name of the unit; \
compile with -gdwarf-5"$'\n' object table "$work/unit"
  local rust='rustc takes -C dwarf-version=5, and -O -C lto=fat for its standard library, which is of version 4'
  local version order
  for order in '' -big; do
    for version in 2 3; do
      image elf64$order unit .debug_line="$work/old$version${order#-}"
      expect "version $version$order" 1 "no 25 malformed at 0x4: version $version"$'\n' \
        "$says note: its unit, of src/a.c, is of version $version; $hint $assembled"$'\n' object table --no-older "$work/unit"
    done
    image elf64$order unit .debug_line="$work/old4${order#-}"
    expect "version 4$order" 1 $'no 25 malformed at 0x4: version 4\n' \
      "$says note: its unit, of src/a.c, is of version 4; $hint compile with -gdwarf-5"$'\n' object table --no-older "$work/unit"
  done
  cat "$work/old2" examples/hello.debug_line "$work/old4" "$work/old4" >"$work/mixed"
  image elf64 unit .debug_line="$work/mixed" "${hello[1]}"
  expect 'versions 2 and 4' 1 $'no 25 malformed at 0x4: version 2\n' \
    "$says note: 3 of its 4 units, the first of src/a.c, are of version 2 and 4; ${hint/it is/they are} $assembled"$'\n' object table --no-older "$work/unit"
  local said advised
  while IFS='|' read -r said advised; do
    echo "$said" >"$work/said"
    image elf64 unit .debug_line="$work/old3" .debug_str="$work/said"
    expect "version 3, by $said" 1 $'no 25 malformed at 0x4: version 3\n' \
      "$says note: its unit, of src/a.c, is of version 3; $hint $advised"$'\n' object table --no-older "$work/unit"
  done <<'END'
NASM 2.16.01|nasm writes none later than 3; GNU as takes --gdwarf-5
yasm 1.3.0|yasm writes none later than 2; GNU as takes --gdwarf-5
The Glorious Glasgow Haskell Compilation System 9.0.2|ghc takes -opta-Wa,--gdwarf-5
camlStd_exit__entry|ocamlopt has no option for version 5
Swift version 6.0.3|swiftc takes -dwarf-version=5
Go cmd/compile go1.19.8|Go writes version 5 from release 1.25 on
GNU AS 2.40|compile with -gdwarf-5; with gcc also -Wa,--gdwarf-5, since the assembler writes the section (as: --gdwarf-5)
END
  cat examples/hello.debug_line "$work/old4" >"$work/mixed"
  echo 'clang LLVM (rustc version 1.95.0)' >"$work/said"
  image elf64 unit .debug_line="$work/mixed" "${hello[1]}" z:.debug_str="$work/said"
  expect 'version 4 after version 5, by rustc' 1 $'no 25 malformed at 0xa4: version 4\n' \
    "$says note: 1 of its 2 units, of src/a.c, is of version 4; $hint $rust"$'\n' object table --no-older "$work/unit"
}

# Sequences that hold the same positions are copies, which are left out; others aren't.
copies() {
  local told="$says note: sequences of $work/unit hold the same positions, the first of them 0x1129: the linker kept one of several \
copies of a function, or folded functions into one (--icf); --skip-copies leaves out the others"$'\n'
  local lookup='0x1137,0 unit 0 file 1 line 1 column 50 stmt 1 path "/w/src/small/a.c"'$'\n'
  cat examples/hello.debug_line examples/hello.debug_line >"$work/twice"
  image elf64 unit .debug_line="$work/twice" "${hello[1]}"
  expect_notes 'two copies' 0 $'yes\n' "$told" object verify "$work/unit"
  expect_notes 'a table of them' 0 "$table" "$told" object table "$work/unit"
  expect_notes 'a lookup in them' 0 "$lookup" "$told" object lookup "$work/unit" 0x1137
  expect_notes 'lookups in them' 0 "$lookup" "$told" bash -c 'echo 0x1137 | object lookup "$0" --addresses -' "$work/unit"
  expect_notes 'a check of standard input' 0 $'yes\n' "$told" bash -c 'cat examples/hello.csv | object check "$0" -' "$work/unit"
  expect_notes 'two copies, quiet' 0 $'yes\n' '' object verify "$work/unit" --quiet
  expect_notes 'copies that are skipped anyway' 0 $'yes\n' '' object verify "$work/unit" --skip-copies
  expect_notes 'words that judge nothing' 0 $'0x0 32 156\n0xa0 32 156\n' '' object units "$work/unit"
  # One sequence of 6 bytes, and one of 4 bytes at the same address.
  (bytes "43000000 $start $header 0009020010000000000000 144b0202 000101" "43000000 $start $header 0009020010000000000000 144b0200 000101") \
    >"$work/sizes"
  image elf64 unit .debug_line="$work/sizes"
  local overlap="two different copies of an inline function overlap at 0x1000: GNU ld and gold point the line numbers of the copy that \
they discard at the one that they keep, and --icf folds functions into one; link with lld or mold and without --icf, or compile with -flto"
  expect_notes 'no copies' 1 $'no 32 overlap 0x0:0 0x47:0 at 0x1000,0\n' "$says note: $overlap"$'\n' object verify "$work/unit"
  expect_notes 'no copies, quiet' 1 $'no 32 overlap 0x0:0 0x47:0 at 0x1000,0\n' '' object verify "$work/unit" --quiet
  # Both, and discarded code.
  cat examples/hello.debug_line "$work/sizes" examples/hello.debug_line >"$work/both"
  image elf64 unit .debug_line="$work/both" "${hello[1]}"
  expect 'copies, and others' 1 "$("$linetab" verify "$work/both" --line-str examples/hello.debug_line_str --skip-copies)"$'\n' \
    "$says note: $overlap"$'\n' object verify "$work/unit"
  cat "$work/twice" examples/gc-sections.debug_line >"$work/both"
  image elf64 unit .debug_line="$work/both" "${dead[1]}" code=0x1000,0x100000
  expect_notes 'copies and discarded code' 0 $'0x10,0 none\n' "$says note: sequences begin at 0x0, where $work/unit has no code: the linker \
left those of discarded functions there; --dead 0x0 leaves them out"$'\n'"$told" object lookup "$work/unit" 0x10
}

apart() {
  local found="$says note: the debug information of $work/app is in"
  local lost='it has no .debug_line: it is stripped, and its debug information'
  local install='install the package with the debug symbols (Debian: -dbgsym or -dbg), or take the file before it was stripped'
  image elf64 app.debug "${hello[@]}" code=0x1000,0x1000
  image elf64 app link=app.debug,"$work/app.debug" code=0x1000,0x1000
  agrees 'a debug link, beside the program' app hello "$found $work/app.debug"$'\n'
  mkdir -p "$work/.debug" && mv "$work/app.debug" "$work/.debug"
  agrees 'a debug link, in .debug' app hello "$found $work/.debug/app.debug"$'\n'
  echo more >>"$work/.debug/app.debug"
  refuses 'a file of another program' app \
    "it has no .debug_line, and $work/.debug/app.debug, where its debug information should be, belongs to another file"
  rm "$work/.debug/app.debug"
  refuses 'a debug link to nothing' app \
    "$lost isn't in $work/app.debug or $work/.debug/app.debug or /usr/lib/debug$work/app.debug; $install"
  image elf64 app.debug "${hello[@]}" id=00112233445566778899
  image elf64 app link=app.debug,/dev/null id=00112233445566778899
  agrees 'a debug link with an old sum, and the same build id' app hello "$found $work/app.debug"$'\n'
  image elf64 app id=00112233445566778899
  refuses 'a build id of nothing' app \
    "$lost isn't in /usr/lib/debug/.build-id/00/112233445566778899.debug; $install; its build id is 00112233445566778899"
  image macho tool id=00112233445566778899aabbccddeeff code=0x1000,0x1000
  refuses 'a Mach-O program without a dSYM' tool 'it has no .debug_line: make its dSYM by dsymutil FILE, and take that'
  mkdir -p "$work/tool.dSYM/Contents/Resources/DWARF"
  image macho tool.dSYM/Contents/Resources/DWARF/tool "${hello[@]}" id=00112233445566778899aabbccddeeff
  agrees 'a Mach-O program with its dSYM' tool hello \
    "$says note: the debug information of $work/tool is in $work/tool.dSYM/Contents/Resources/DWARF/tool"$'\n'
  image macho tool.dSYM/Contents/Resources/DWARF/tool "${hello[@]}" id=ff
  lost=$work/tool.dSYM/Contents/Resources/DWARF/tool
  refuses 'a Mach-O program with a dSYM of another' tool \
    "it has no .debug_line, and $lost, where its debug information should be, belongs to another file"
}

refusals() {
  local loose="it is a relocatable object, whose relocations aren't applied and whose addresses all begin at 0: link it"
  local cut="its headers reach past the end of the file, or aren't whole: it is cut or damaged"
  image elf64 no "${hello[@]}" object && refuses 'a relocatable object' no "$loose"
  image macho no "${hello[@]}" object && refuses 'one of Mach-O' no \
    'it is a relocatable object: take the dSYM of the linked program, which dsymutil makes'
  image wasm no "${hello[@]}" object && refuses 'one of WebAssembly' no \
    "it is a relocatable object, whose relocations aren't applied: link it"
  (bytes 6486 0000) >"$work/no" && refuses 'one of COFF' no "$loose"
  image elf64 no "${hello[@]}" dwo && refuses 'split debug information' no \
    'it is split debug information: the line number section is in the linked program'
  image elf64 no "${hello[@]}" module && refuses 'a kernel module' no \
    "it is a kernel module, whose addresses aren't final before it is loaded: ld -Ttext=ADDRESS --unresolved-symbols=ignore-all \
-e 0 -o LINKED FILE makes a file that has them, with ADDRESS of /sys/module/NAME/sections/.text"
  image elf64 no "${hello[@]}" core && refuses 'a core file' no 'it is a core file: take the program that it came from'
  image elf64 no code=0x1000,0x1000 && refuses 'no debug information' no \
    "it has no .debug_line: compile and link it with -gdwarf-5, and don't strip it"
  image elf64 no .stab=tests/images.py code=0x1000,0x1000 && refuses 'stabs alone' no \
    'it has no .debug_line: its debug information is of the kind stabs; compile it by a compiler that writes DWARF 5'
  image pe no code=0x1000,0x1000 && refuses 'none in PE' no \
    'it has no .debug_line: compile with -gdwarf-5 by gcc or clang for mingw; a PDB has no DWARF'
  image fat no "${hello[@]}" machine machine && refuses 'two machines' no \
    'it is for 2 machines: take one of them out by lipo -thin MACHINE FILE -output ONE'
  (bytes cafebabe00000034) >"$work/no" && refuses 'a class of Java' no 'it is a class of Java, which has no DWARF'
  cp examples/hello.debug_line "$work/no" && refuses 'a raw section' no \
    'it is none of ELF, PE, Mach-O and WebAssembly; a raw section is for linetab itself'
  : >"$work/no" && refuses 'an empty file' no 'it is empty'
  printf '!<arch>\n' >"$work/no" && refuses 'an archive' no 'it is an archive of relocatable objects: link them'
  cp linetab "$work/no" && refuses 'a script' no 'it is a script: take the program that it runs'
  gzip -c linetab >"$work/no" && refuses 'a compressed file' no 'it is compressed by gzip: unpack it first'
  for format in elf64 elf32-big pe macho wasm; do
    image "$format" whole "${hello[@]}"
    head -c 70 "$work/whole" >"$work/no"
    [ "$format" != wasm ] || cut='section .debug_line reaches past the end of the file, which is cut or damaged'
    refuses "a cut file, $format" no "$cut"
  done
  refuses 'a file that is not there' nothing 'cannot read it: No such file or directory'
  refuses 'a folder' .debug 'it is a folder, and no .dSYM of one program; -r takes all programs in it'
  expect 'a name with an escape' 3 '' "$says "'"no\x1b[31m": cannot read it: No such file or directory'$'\n' object table $'no\e[31m'
  image elf64 kept "${hello[@]}" && cp -p "$work/kept" "$work/same" && chmod 400 "$work/kept"
  agrees 'a file that may only be read' kept hello ''
  expect 'which stays as it is' 0 '' '' cmp "$work/kept" "$work/same"
}

# Every cut of a file ends in an answer or a line, and never in a trace of Python.
cuts() {
  local format size count
  for format in elf64 pe macho wasm; do
    image "$format" whole "${hello[@]}" code=0x1000,0x1000
    size=$(wc -c <"$work/whole")
    for ((count = 1; count < size; count += 23)); do
      head -c "$count" "$work/whole" >"$work/cut"
      object units "$work/cut" 2>&1 | sed -E 's/^linetab-object: .*: (it|its|section) .*/told/'
    done | sort | uniq -c | awk '{ print $2, $3, $4 }' >"$work/kinds"
    expect "$format, cut anywhere" 0 '' '' bash -c 'grep -vE "^(told|0x0 32 156|no 25 malformed)" "$0" | head -n 5' "$work/kinds"
  done
}

# Files of which some bytes are others end in an answer or a line as well, each in little time and 64 MB.
changes() {
  local format
  cat "$work/old2" examples/gc-sections.debug_line "$work/old4" "$work/ones" >"$work/mixed"
  for format in elf64 elf32-big pe macho macho32-big fat wasm; do
    image "$format" packed "z:${hello[0]}" "gnu:${hello[1]}" link=app,/dev/null id=0011223344 code=0x1000,0x1000
    image "$format" plain .debug_line="$work/mixed" gnu:.debug_str="$work/said" code=0x1000,0x1000 link=app,/dev/null
    expect "$format, with other bytes" 0 $'2000 files\n' '' python3 tests/changed.py 1000 "$work/packed" "$work/plain"
  done
}

# Files that would cost much more than their bytes, or another file: each is refused in little time and memory.
hostile() {
  local damaged="its headers reach past the end of the file, or aren't whole: it is cut or damaged"
  local torn="section .debug_line isn't what its compression header says: the file is damaged"
  local many='it has more than 65536 headers of sections or commands, which no program has'
  local none='it has no .debug_line: compile'
  local link="it has no .debug_line, and its .gnu_debuglink isn't the name of a file"
  local name number
  mkdir "$work/hostile" && python3 tests/hostile.py "$work/hostile" || exit 1
  # In 200 MB and 20 seconds, with what Python itself takes.
  within() { (ulimit -v 200000 && timeout 20 "$work/bin/linetab-object" "$@"); }
  costs() { # NAME FILE REASON
    expect "$1" 3 '' "$says $work/$2: $3"$'\n' within table "$work/$2"
  }
  costs 'names that reach far' hostile/elf-names "$none and link it with -gdwarf-5, and don't strip it"
  costs 'files within one another, deep' hostile/fat-deep "$damaged"
  costs 'files within one another, long' hostile/fat-long "$damaged"
  costs 'commands that overlap' hostile/macho-commands "$damaged"
  costs 'commands that are too many' hostile/macho-many "$many"
  costs 'names that reach far, WebAssembly' hostile/wasm-names "$damaged"
  costs 'a number without an end' hostile/wasm-number "$damaged"
  costs 'sections that are too many' hostile/wasm-many "$many"
  expect 'units of four bytes' 1 $'no 25 malformed at 0x4: truncated\n' '' within table "$work/hostile/elf-units"
  image pe slash $'/\xb2'=/dev/null && costs 'a name that is a slash and no number' slash "$none with -gdwarf-5 by gcc or clang for mingw; a PDB has no DWARF"
  image elf64 twice "${hello[0]}" "${hello[0]}" && costs 'two sections of a name' twice \
    'it has two sections .debug_line, and nothing says which one is meant'

  head -c 64M /dev/zero >"$work/zeros"
  image elf64 lies z:.debug_line="$work/zeros" claims=100 && costs 'a compressed section that holds more than it says' lies "$torn"
  image elf64 lies gnu:.debug_line="$work/zeros" claims=100 && costs 'one in .zdebug' lies "$torn"
  number=$(python3 -c 'import zlib; print(len(zlib.compress(bytes(64 << 20))))')
  image elf64 lies z:.debug_line="$work/zeros" && costs 'one that holds very much' lies "section .debug_line stands for 67108864 bytes \
by its compression header, and has $number: if that is true, objcopy --decompress-debug-sections unpacks it"
  if here 'a section that zstd made, which holds more than it says' zstd; then
    zstd -qc "$work/zeros" >"$work/zeros.zst"
    image elf64 lies zstd:.debug_line="$work/zeros.zst" claims=100 && costs 'one that zstd made' lies "$torn"
  fi

  mkfifo "$work/pipe" && costs 'a pipe' pipe "it isn't a regular file: write its content into one"
  for name in ../etc/passwd "$work/pipe" /dev/stdin .. '' "$(printf 'n%.0s' {1..300})"; do
    image elf64 leads link="$name",/dev/null && costs "a debug link to ${name:0:20}" leads "$link"
  done
  name=pipe
  image elf64 leads link=$name,/dev/null && costs 'a debug link to a pipe' leads "it has no .debug_line: it is stripped, and its debug \
information isn't in $work/$name or $work/.debug/$name or /usr/lib/debug$work/$name; install the package with the debug symbols (Debian: \
-dbgsym or -dbg), or take the file before it was stripped"
}

# Standard streams that are closed or full, and a program that doesn't end by itself.
streams() {
  local left
  image elf64 elf64 "${hello[@]}" code=0x1000,0x1000
  image elf64 dead "${dead[@]}"
  left=$("$linetab" verify examples/gc-sections.debug_line --line-str examples/gc-sections.debug_line_str --dead 0x0)$'\n'
  expect 'a closed standard error' 0 "$table" '' bash -c 'object table "$0" 2>&-' "$work/elf64"
  expect 'a closed standard error, and a note' 0 "$left" '' bash -c 'object verify "$0" 2>&-' "$work/dead"
  expect 'a full standard error, and a note' 0 "$left" '' bash -c 'object verify "$0" 2>/dev/full' "$work/dead"
  expect 'a terminal as standard error, and a note' 0 "$left" '' on_terminal "$work/bin/linetab-object" verify "$work/dead"
  expect 'a full standard error, and a refusal' 3 '' '' bash -c 'object verify "$0" 2>/dev/full' "$work/nothing"
  expect 'a closed standard error, and a refusal' 3 '' '' bash -c 'object verify "$0" 2>&-' "$work/nothing"
  expect 'a closed standard output' 3 '' "$says cannot write"$'\n' bash -c 'object table "$0" >&-' "$work/elf64"
  expect 'a closed standard input' 0 "$table" '' bash -c 'object table "$0" <&-' "$work/elf64"
  expect 'a table of a closed standard input' 3 '' $'linetab: cannot read -\n' bash -c 'object check "$0" - <&-' "$work/elf64"
  expect 'no standard stream' 3 '' '' bash -c 'object table "$0" <&- >&- 2>&-' "$work/elf64"
  expect 'help on a closed output' 3 '' "$says cannot write"$'\n' bash -c 'object --help >&-'
  expect 'help on a full device' 3 '' "$says cannot write"$'\n' bash -c 'object --help >/dev/full'
  mkdir "$work/killed" && cp linetab-object "$work/killed"
  printf '#!/bin/sh\n[ "$2" = --help ] || kill -KILL $$\n' >"$work/killed/linetab" && chmod +x "$work/killed/linetab"
  expect 'a program that is killed' 0 $'-9\n' '' python3 -c 'import subprocess, sys; print(subprocess.call(sys.argv[1:]))' \
    "$work/killed/linetab-object" table "$work/elf64"
  echo none >"$work/killed/linetab"
  expect 'a program that is none' 3 '' "$says the program linetab can't be run: Exec format error"$'\n' \
    "$work/killed/linetab-object" table "$work/elf64"
  expect 'a closed pipe' 0 $'3\n' '' bash -c '{ sleep 1; object table "$0"; echo $? >"$0.status"; } | true; cat "$0.status"' "$work/elf64"
}

# A program of each compiler: its own table is answered by yes.
compiled() {
  local name tools words
  { printf 'static int twice(int x) { return 2 * x; }\nint main(int n, char **v) { return twice(n); }\n'
    printf 'int f%d(int x) { return x + 1; }\n' {1..50}; } >"$work/main.c"
  while IFS=: read -r name tools words; do
    here "$name" $tools || continue
    (cd "$work" && bash -c "$words") >/dev/null 2>&1 || { skip "$tools can't make it here: $name"; continue; }
    object table "$work/made" >"$work/made.csv" 2>/dev/null
    expect "$name" 0 $'yes\n' '' bash -c 'object check "$0" "$1" 2>/dev/null' "$work/made" "$work/made.csv"
    expect "$name, line 2" 0 $'0\n' '' bash -c 'awk -F , "\$7 == 2" "$0" | grep -q . ; echo $?' "$work/made.csv"
  done <<'END'
gcc:gcc:gcc -gdwarf-5 -o made main.c
gcc, compressed:gcc:gcc -gdwarf-5 -gz -o made main.c
gcc, compressed as before:gcc:gcc -gdwarf-5 -gz=zlib-gnu -o made main.c
gcc, in the 64-bit format:gcc:gcc -gdwarf-5 -gdwarf64 -o made main.c
gcc, its debug information alone:gcc strip:gcc -gdwarf-5 -o made main.c && strip --only-keep-debug made
gcc, stripped:gcc strip objcopy:gcc -gdwarf-5 -o made main.c && objcopy --only-keep-debug made a && objcopy -g --add-gnu-debuglink=a made
gcc and lld:gcc ld.lld:gcc -gdwarf-5 -fuse-ld=lld -ffunction-sections -Wl,--gc-sections -o made main.c
clang:clang:clang -gdwarf-5 -o made main.c
clang, big-endian:clang ld.lld:clang --target=powerpc64-linux-gnu -nostdlib -ffreestanding -fuse-ld=lld -gdwarf-5 -Wl,-e,main -o made main.c
clang, WebAssembly:clang wasm-ld:clang --target=wasm32 -nostdlib -gdwarf-5 -Wl,--no-entry -Wl,--export=main -o made main.c
mingw:x86_64-w64-mingw32-gcc:x86_64-w64-mingw32-gcc -gdwarf-5 -o made.exe main.c && mv made.exe made
arm:arm-linux-gnueabihf-gcc:arm-linux-gnueabihf-gcc -gdwarf-5 -Wa,--gdwarf-5 -o made main.c
END
  here 'gcc, version 4' gcc || return
  gcc -gdwarf-4 -o "$work/made" "$work/main.c" 2>/dev/null || { skip "gcc can't make it here: gcc, version 4"; return; }
  expect 'gcc, version 4' 1 $'no 25 malformed at 0x4: version 4\n' \
    "$says note: its unit, of $work/main.c, is of version 4; linetab reads DWARF 5 alone: with --older it is upgraded first; to build it anew: compile with -gdwarf-5"$'\n' \
    object verify "$work/made"
  gcc -gdwarf-5 -c -o "$work/made" "$work/main.c"
  refuses 'gcc, not linked' made "it is a relocatable object, whose relocations aren't applied and whose addresses all begin at 0: link it"
  gcc -o "$work/made" "$work/main.c"
  refuses 'gcc without debug information' made "it has no .debug_line: compile and link it with -gdwarf-5, and don't strip it"
}

# The C library of this machine, whose debug information lies where its build id says.
installed() {
  local file identity found
  here 'the C library, by its build id' readelf || return
  file=$(ldd "$linetab" | grep -oE '/[^ ]*libc\.so[^ ]*')
  identity=$(readelf -n "$file" 2>/dev/null | sed -n 's/.*Build ID: //p')
  found=/usr/lib/debug/.build-id/${identity:0:2}/${identity:2}.debug
  [ -n "$identity" ] && [ -e "$found" ] || { skip "the debug information of the C library isn't here"; return; }
  expect 'the C library, by its build id' 0 "$(object units "$found")"$'\n' \
    "$says note: the debug information of $file is in $found"$'\n' object units "$file"
}

# The interpreter itself, where python3 is a script that looks for one.
PATH=$(dirname "$(python3 -c 'import sys; print(sys.executable)')"):$PATH
formats
words
usage
kept
standard_input
outputs
little_memory
inputs
elsewhere
several
kinds
packed
discarded
versions
copies
once
apart
refusals
cuts
changes
hostile
streams
compiled
installed
finish
