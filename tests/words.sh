#!/usr/bin/env bash
# The words about sections as a whole, on the examples: verify, lookups of many addresses, files, and the version.
cd "$(dirname "$(readlink -f -- "$0")")/.." || exit 1
. tests/check.bash
hello=(examples/hello.debug_line --line-str examples/hello.debug_line_str)
at_1137=$'0x1137,0 unit 0 file 1 line 1 column 50 stmt 1 path "/w/src/small/a.c"\n'
at_1130=$'0x1130,0 unit 0 file 1 line 1 column 36 stmt 1 path "/w/src/small/a.c"\n'

says() { # NAME STATUS STDOUT WORD..: nothing on standard error
  expect "$1" "$2" "$3" '' "$program" "${@:4}"
}
asks() { # NAME STATUS STDOUT LINES [OPTION..]: lookups of what these lines tell, from a file and from a pipe
  printf "$4" >"$work/addresses"
  says "$1" "$2" "$3" lookup "${hello[@]}" --addresses "$work/addresses" "${@:5}"
  expect "$1, from a pipe" "$2" "$3" '' bash -c 'cat "$0" | "$@"' "$work/addresses" "$program" lookup "${hello[@]}" --addresses - "${@:5}"
}

# ---- the version

# Without the letter of the kit, of which each proves by the same logic.
toolchain=$(rt version 2>/dev/null | sed -E 's/^(rattle-kit-[0-9]+)[a-z]* /\1 /')
[ -n "$toolchain" ] || toolchain=$(sed -n 's/.*toolchain (`\([^`]*\)`.*/\1/p' README.md)
says 'the version' 0 "linetab $(cat VERSION) ($toolchain)"$'\n' --version
says 'the version, in short' 0 "linetab $(cat VERSION) ($toolchain)"$'\n' -V

# ---- verify

says 'a good section' 0 $'yes\n' verify "${hello[@]}"
says 'a section without its strings' 1 $'no 28 string outside unit 0x0 directories entry 0\n' verify examples/hello.debug_line
says 'no unit' 0 $'yes\n' verify /dev/null
says 'a big-endian section' 0 $'yes\n' verify --big examples/powerpc64.debug_line --line-str examples/powerpc64.debug_line_str
says 'dead code' 0 $'yes\n' verify examples/gc-sections.debug_line --line-str examples/gc-sections.debug_line_str --dead 0x0
head -c 100 examples/hello.debug_line >"$work/cut"
says 'a cut section' 1 $'no 25 malformed at 0x0: truncated\n' verify "$work/cut"

# ---- many lookups

says 'one address' 0 "$at_1137" lookup "${hello[@]}" 0x1137
says 'three addresses, in their order' 0 "$at_1137"$'0xfff,0 none\n'"$at_1130" lookup "${hello[@]}" 0x1137 0xfff 0x1130
says 'addresses around an option' 0 "$at_1137"$'0xfff,0 none\n' lookup "${hello[@]}" 0x1137 --op 0 0xfff
expect 'a bad address after an option' 2 '' $'linetab: bad word yes\n' "$program" lookup "${hello[@]}" 0x1137 --skip-copies yes
says 'an operation index for all' 0 $'0x0,7 none\n0xfff,7 none\n' lookup "${hello[@]}" 0x0 0xfff --op 7
asks 'lines' 0 "$at_1137"$'0xfff,0 none\n' '0x1137\n0xfff\n'
asks 'a last line without its end' 0 "$at_1137$at_1130" '0x1137\n0x1130'
asks 'no line' 0 '' ''
asks 'an empty line' 1 $'bad ""\n' '\n'
asks 'operation indexes of lines' 0 $'0xfff,0 none\n0xfff,3 none\n' '0xfff,0\n0xfff,3\n'
asks 'operation indexes of lines and of all' 0 $'0xfff,2 none\n0xfff,9 none\n' '0xfff,2\n0xfff\n' --op 9
asks 'ends of lines with a carriage return' 1 $'0xfff,0 none\nbad "0xfff\\x0d"\n0xfff,1 none\n' '0xfff\r\n0xfff\r\r\n0xfff,1\r\n'
asks 'a carriage return without a line feed' 1 $'0xfff,0 none\nbad "0xfff\\x0d"\n' '0xfff\n0xfff\r'
asks 'lines that tell no position' 1 $'bad "x"\nbad "0xfff,"\nbad "0xfff,1,1"\nbad ",1"\nbad "0xfff,0x1"\nbad " 0xfff"\nbad "\\x22\\xff"\n0xfff,0 none\n' 'x\n0xfff,\n0xfff,1,1\n,1\n0xfff,0x1\n 0xfff\n"\xff\n0xfff\n'
says 'a bad section, and lines that are not read' 1 $'no 25 malformed at 0x0: truncated\n' lookup "$work/cut" --addresses /dev/zero
expect 'lines that are not there' 3 '' $'linetab: cannot read none\n' "$program" lookup "${hello[@]}" --addresses none
expect 'a section that is not there, before lines' 3 '' $'linetab: cannot read nothing\n' "$program" lookup nothing --addresses none
expect 'standard input twice' 3 '' $'linetab: cannot read -\n' "$program" lookup - --addresses -
expect 'a folder as lines' 3 '' $'linetab: cannot read tests\n' "$program" lookup "${hello[@]}" --addresses tests
says 'a line of 200,000 bytes' 1 "bad \"$(printf '%0200000d' 0)\""$'\n' lookup "${hello[@]}" --addresses <(printf '%0200000d\n' 0)

# Two thousand lines at once, more than one read brings of them.
for ((i = 0; i < 20000; i++)); do
  printf '0x%x\n' $((0x1129 + i % 20))
done >"$work/many"
each() { # Each of these addresses by itself, as often as it comes.
  local line
  for ((i = 0; i < 20; i++)); do
    line=$("$program" lookup "${hello[@]}" "$(printf '0x%x' $((0x1129 + i)))")
    lines[i]=$line
  done
  for ((i = 0; i < 20000; i++)); do
    printf '%s\n' "${lines[i % 20]}"
  done
}
each >"$work/each"
expect '20,000 lines' 0 '' '' bash -c '"$@" | cmp - "$0"' "$work/each" "$program" lookup "${hello[@]}" --addresses "$work/many"

# A coprocess: each line is asked only when the answer to the one before has come.
converse() {
  local answer address
  coproc asked { "$program" lookup "${hello[@]}" --addresses - 2>/dev/null; }
  for address in 0x1137 0xfff x 0x1130,0; do
    printf '%s\n' "$address" >&"${asked[1]}"
    read -r -t 10 answer <&"${asked[0]}" || { echo 'no answer'; return 1; }
    printf '%s\n' "$answer"
  done
  printf '0x1137\n0x11' >&"${asked[1]}"
  read -r -t 10 answer <&"${asked[0]}" && printf '%s\n' "$answer"
  printf '30\n' >&"${asked[1]}"
  read -r -t 10 answer <&"${asked[0]}" && printf '%s\n' "$answer"
  exec {asked[1]}>&-
  wait "$asked_PID"
}
expect 'a coprocess' 1 "$at_1137"$'0xfff,0 none\nbad "x"\n'"$at_1130$at_1137$at_1130" '' converse

# ---- files

says 'files' 0 $'unit,file,path,md5\n0,0,/w/src/small/a.c,\n0,1,/w/src/small/a.c,\n' files "${hello[@]}"
says 'files with sums' 0 $'unit,file,path,md5\n0,0,/w/src/small/a.c,064af840fa18335179562313f6ab0b94\n' files examples/hello-clang.debug_line --line-str examples/hello-clang.debug_line_str
says 'files of no unit' 0 $'unit,file,path,md5\n' files /dev/null
says 'files of a bad section' 1 $'no 28 string outside unit 0x0 directories entry 0\n' files examples/hello.debug_line
finish
