#!/usr/bin/env bash
# check --any-copy, of sections with copies that answer otherwise, as a slow reference tells of them; the words that go with it, and the
# note that names it.
cd "$(dirname "$(readlink -f -- "$0")")/.." || exit 1
. tests/check.bash
. tests/unit.bash
python3 tests/checks.py make --partial --any-copy "$work/cases" 500 1 || exit 1
expect 'cases' 0 $'500 passed, 0 failed\n' '' env -u ONLY tests/cases/run "$program" "$work/cases"

# Units of one sequence each: at 0x1000 lines 3 and 4, lines 5 and 7, and at 0x2000 lines 9 and 10.
unit() { # ADDRESS OPERATIONS [LAST]
  bytes "43000000 $start $header 000902$1 $2 ${3:-0202} 000101"
}
(unit 0010000000000000 144b; unit 0010000000000000 164c; unit 0020000000000000 1a4b) >"$work/section"
table() { # NAME LINES: a table by path
  printf 'low,high,path,line\n%s' "$2" >"$work/$1"
}
numbered() { # NAME LINES
  printf 'low,low_op,high,high_op,unit,file,line,column,is_stmt\n%s' "$2" >"$work/$1"
}
says() { # NAME STATUS STDOUT TABLE WORD..
  expect "$1" "$2" "$3" '' "$program" check "$work/section" "$work/$4" "${@:5}"
}

table mixed $'0x1000,0x1004,/s/a.c,5\n0x1004,0x1006,/s/a.c,4\n0x2000,0x2004,/s/a.c,9\n0x2004,0x2006,/s/a.c,10\n'
says 'one by each copy' 0 $'yes\n' mixed --any-copy
says 'the same, with --skip-copies' 0 $'yes\n' mixed --any-copy --skip-copies
says 'the same, where it answers' 0 $'yes\nanswers 12 of 12\n' mixed --any-copy --partial
says 'the same, of the first copy alone' 1 $'no 40 differs at 0x1000,0 table "/s/a.c",5 section "/s/a.c",3\n' mixed --skip-copies
says 'the same, without copies' 1 $'no 32 overlap 0x0:0 0x47:0 at 0x1000,0\n' mixed
says 'a share' 0 $'yes\nanswers 12 of 12\n' mixed --any-copy --partial --at-least 100
table half $'0x1000,0x1006,/s/a.c,5\n'
says "an answer that only the copy's first half has" 1 $'no 40 differs at 0x1004,0 table "/s/a.c",5 section "/s/a.c",4\n' half --any-copy --partial
table beyond $'0x1004,0x1007,/s/a.c,7\n'
says "a copy's answer beyond it" 1 $'no 40 differs at 0x1006,0 table "/s/a.c",7 section none\n' beyond --any-copy --partial
table other $'0x1000,0x1004,/s/a.c,9\n'
says 'that of another sequence' 1 $'no 40 differs at 0x1000,0 table "/s/a.c",9 section "/s/a.c",3\n' other --any-copy --partial
table gap $'0x1000,0x1004,/s/a.c,5\n'
says 'a gap' 1 $'no 40 differs at 0x1004,0 table none section "/s/a.c",4\n' gap --any-copy
says 'too small a share' 1 $'no 46 answers 4 of 12\n' gap --any-copy --partial --at-least 34
says 'dead code' 1 $'no 40 differs at 0x1000,0 table "/s/a.c",5 section none\n' gap --any-copy --partial --dead 0x1000
numbered own $'0x1000,0,0x1004,0,71,1,5,0,1\n0x1004,0,0x1006,0,0,1,4,0,1\n'
says 'by number' 0 $'yes\nanswers 6 of 12\n' own --any-copy --partial
numbered crossed $'0x1000,0,0x1004,0,0,1,5,0,1\n'
says 'the unit of one and the line of the other' 1 $'no 40 differs at 0x1000,0 table 0,1,5,0,1 section 0,1,3,0,1\n' crossed --any-copy --partial
table faulty $'0x1000,0x1004,/s/a.c\n'
says 'a faulty table' 1 $'no 37 table fields record 1\n' faulty --any-copy
(cat "$work/section"; unit 0010000000000000 144b 0203) >"$work/inside" # it begins where the others do, and ends behind them
expect 'what is no copy' 1 $'no 32 overlap 0x0:0 0xd5:0 at 0x1000,0\n' '' "$program" check "$work/inside" "$work/mixed" --any-copy


# ---- all places

says 'all places of a right table' 0 $'yes\n' mixed --any-copy --all
says 'where it answers' 0 $'yes\nanswers 12 of 12\n' mixed --any-copy --all --partial
table spread $'0x1000,0x1006,/s/a.c,5\n0x2000,0x2004,/s/a.c,8\n0x2004,0x2006,/s/a.c,10\n'
says 'each place at which no copy answers so' 1 $'no 40 differs at 0x1004,0 up to 0x1006,0 table "/s/a.c",5 section "/s/a.c",4
no 40 differs at 0x2000,0 up to 0x2004,0 table "/s/a.c",8 section "/s/a.c",9\n' spread --any-copy --all --ends
table around $'0x0ff0,0x1006,/s/a.c,7\n'
says 'two places before an answer that a copy has' 1 $'no 40 differs at 0xff0,0 table "/s/a.c",7 section none
no 40 differs at 0x1000,0 table "/s/a.c",7 section "/s/a.c",3\n' around --any-copy --all --partial
(unit 0010000000000000 1401 0206 # line 3, and lines 5, 7 and 5
bytes "4c000000 $start $header 000902 0010000000000000 16 0202 0302 01 0202 037e 01 0202 000101") >"$work/thirds"
table sevens $'0x1000,0x1006,/s/a.c,7\n'
expect 'both ends of an answer of which a copy has the middle' 1 $'no 40 differs at 0x1000,0 up to 0x1002,0 table "/s/a.c",7 section "/s/a.c",3
no 40 differs at 0x1004,0 up to 0x1006,0 table "/s/a.c",7 section "/s/a.c",3\n' '' \
  "$program" check "$work/thirds" "$work/sevens" --any-copy --all --ends
says 'what is missing too' 1 $'no 40 differs at 0x1004,0 table none section "/s/a.c",4
no 40 differs at 0x2000,0 table none section "/s/a.c",9
no 40 differs at 0x2004,0 table none section "/s/a.c",10\n' gap --any-copy --all
says 'a share of what is right' 1 $'no 46 answers 4 of 12\n' gap --any-copy --all --partial --at-least 34
says 'all places by number' 1 $'no 40 differs at 0x1000,0 up to 0x1004,0 table 0,1,5,0,1 section 0,1,3,0,1\n' crossed --any-copy --all --ends --partial
says 'all places of a faulty table' 1 $'no 37 table fields record 1\n' faulty --any-copy --all
expect 'all places, and what is no copy' 1 $'no 32 overlap 0x0:0 0xd5:0 at 0x1000,0\n' '' \
  "$program" check "$work/inside" "$work/mixed" --any-copy --all

# ---- the note

note='linetab: note: several sequences hold this position, as where a linker folded functions or kept one of several copies; --any-copy takes the answer of each as right'
differs=$'no 40 differs at 0x1000,0 table "/s/a.c",9 section "/s/a.c",3\n'
expect_notes 'a note at copies' 1 "$differs" "$note"$'\n' "$program" check "$work/section" "$work/other" --skip-copies --partial
expect_notes 'the same, quiet' 1 "$differs" '' "$program" check "$work/section" "$work/other" --skip-copies --partial --quiet
expect_notes 'none with --any-copy' 1 "$differs" '' "$program" check "$work/section" "$work/other" --any-copy --partial
table late $'0x2000,0x2004,/s/a.c,8\n'
expect_notes 'none where no copy is' 1 $'no 40 differs at 0x2000,0 table "/s/a.c",8 section "/s/a.c",9\n' '' \
  "$program" check "$work/section" "$work/late" --skip-copies --partial
expect_notes 'none of a pipe' 1 "$differs" '' bash -c 'cat "$1/section" | "$0" check - "$1/other" --skip-copies --partial' "$program" "$work"
finish
