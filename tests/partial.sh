#!/usr/bin/env bash
# check of tables that tell a part of a section's answers, and of the ends of stretches, as a slow reference tells of them; and the words
# --at-least and --ends.
cd "$(dirname "$(readlink -f -- "$0")")/.." || exit 1
. tests/check.bash
python3 tests/checks.py make --partial "$work/cases" 500 1 examples/hello*.debug_line || exit 1
expect 'cases' 0 $'500 passed, 0 failed\n' '' env -u ONLY tests/cases/run "$program" "$work/cases"

hello=(examples/hello.debug_line --line-str examples/hello.debug_line_str)
says() { # NAME STATUS STDOUT STDERR WORD..
  expect "$1" "$2" "$3" "$4" "$program" check "${@:5}"
}
"$program" table "${hello[@]}" >"$work/own"
"$program" table --wide "${hello[@]}" >"$work/wide"
"$program" table --paths "${hello[@]}" >"$work/paths"
"$program" table --lines "${hello[@]}" >"$work/lines"
for table in own wide paths lines; do
  head -n 2 "$work/$table" >"$work/part"
  head -n 1 "$work/$table" >"$work/none"
  whole=$("$program" check --partial "${hello[@]}" "$work/$table") && whole=${whole#*of }
  part=$("$program" check --partial "${hello[@]}" "$work/part") && part=${part#*answers } && part=${part% of*}
  least=$((part * 100 / whole))
  says "all of it, $table" 0 $'yes\n'"answers $whole of $whole"$'\n' '' "${hello[@]}" "$work/$table" --partial --at-least 100
  says "a part of it, $table" 0 $'yes\n'"answers $part of $whole"$'\n' '' "${hello[@]}" "$work/part" --partial --at-least $least
  says "less than asked for, $table" 1 "no 46 answers $part of $whole"$'\n' '' "${hello[@]}" "$work/part" --partial --at-least $((least + 1))
  says "less than asked for at all places, $table" 1 "no 46 answers $part of $whole"$'\n' '' \
    "${hello[@]}" "$work/part" --partial --all --ends --at-least=099
  says "nothing of it, $table" 0 $'yes\n'"answers 0 of $whole"$'\n' '' "${hello[@]}" "$work/none" --partial --at-least 0
  says "nothing of it, and one asked for, $table" 1 "no 46 answers 0 of $whole"$'\n' '' "${hello[@]}" "$work/none" --partial --at-least 1
done
says 'nothing of nothing' 0 $'yes\nanswers 0 of 0\n' '' /dev/null "$work/none" --partial --at-least 100
sed 's/,[0-9]*,1$/,77,1/' "$work/own" >"$work/other"
says 'a mistake comes first' 1 "$("$program" check "${hello[@]}" "$work/other" --partial)"$'\n' '' \
  "${hello[@]}" "$work/other" --partial --at-least 100
for word in 101 1000 0100 -1 +1 x 1x '' ' 1' 1.5; do
  says "a bad word: $word" 2 '' "linetab: bad word $(printf '%s\n' "$word")"$'\n' "${hello[@]}" "$work/own" --partial "--at-least=$word"
done
says 'of two bad words that of --dead' 2 '' $'linetab: bad word x\n' "${hello[@]}" "$work/own" --partial --at-least=y --dead=x
refused() { # NAME MISSING WORD..: a word that needs another one
  "$program" check "${hello[@]}" "$work/own" "${@:3}" >"$work/refused.out" 2>"$work/refused.err"
  expect "$1" 0 '' '' bash -c '[ "$0" = 2 ] && [ ! -s "$1" ] && grep -qx "  $2" "$3"' $? "$work/refused.out" "$2" "$work/refused.err"
}
refused 'a part that is asked for without --partial' --partial --at-least 50
refused 'a bad one without --partial' --partial --at-least x
refused 'ends without --all' --all --ends
refused 'ends of a part without --all' --all --ends --partial
finish
