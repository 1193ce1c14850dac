#!/usr/bin/env bash
# The program as a process: its streams, its texts and its exit statuses.
cd "$(dirname "$(readlink -f -- "$0")")/.." || exit 1
. tests/check.bash
stop() { # NAME STATUS STDERR COMMAND..: nothing on standard output
  expect "$1" "$2" '' "$3" "${@:4}"
}
usage=$'\nUsage: linetab units [OPTIONS] <SECTION>\n\nFor more information, try \'--help\'.\n'

expect 'a name' 0 $'0x0 32 156\n' '' ./linetab units examples/hello.debug_line
expect 'standard input' 0 $'0x0 32 156\n' '' ./linetab units - <examples/hello.debug_line
expect 'a pipe' 0 $'0x0 32 156\n' '' bash -c 'cat examples/hello.debug_line | ./linetab units -'
expect 'another folder' 0 $'0x0 32 156\n' '' bash -c "cd /tmp && '$top/linetab' units '$top/examples/hello.debug_line'"
expect 'a link to the launcher' 0 $'0x0 32 156\n' '' bash -c "ln -s '$top/linetab' '$work/link' && '$work/link' units examples/hello.debug_line"
expect 'an empty section' 0 '' '' ./linetab units /dev/null
expect 'after two dashes' 0 $'0x0 32 156\n' '' ./linetab units -- examples/hello.debug_line

head -c 100 examples/hello.debug_line >"$work/cut"
expect 'a cut section' 1 $'no 25 malformed at 0x0: truncated\n' '' ./linetab units "$work/cut"
cat examples/hello.debug_line "$work/cut" >"$work/second_cut"
expect 'a cut second unit' 1 $'0x0 32 156\nno 25 malformed at 0xa0: truncated\n' '' ./linetab units "$work/second_cut"
(bytes 'f0 ff ff ff') >"$work/reserved"
expect 'a reserved length' 1 $'no 25 malformed at 0x0: reserved length\n' '' ./linetab units "$work/reserved"

stop 'no such file' 3 $'linetab: cannot read no such file\n' ./linetab units 'no such file'
stop 'a name with an escape' 3 $'linetab: cannot read "no\\x1b[31m"\n' ./linetab units $'no\e[31m'
stop 'a bad word with an escape' 2 $'linetab: bad word "0x\\x1b[31m"\n' ./linetab lookup examples/hello.debug_line $'0x\e[31m'
stop 'an unknown option with an escape' 2 $'error: unexpected argument \'--\\x1b[31m\' found\n\n  tip: to pass \'--\\x1b[31m\' as a value, use \'-- --\\x1b[31m\'\n'"$usage" ./linetab units $'--\e[31m' x
stop 'a folder' 3 $'linetab: cannot read tests\n' ./linetab units tests
stop 'closed standard input' 3 $'linetab: cannot read -\n' bash -c './linetab units - <&-'
stop 'closed standard input and a table' 3 $'linetab: cannot read -\n' bash -c './linetab check - examples/hello.csv --line-str examples/hello.debug_line_str <&-'
stop 'closed standard input and strings' 3 $'linetab: cannot read -\n' bash -c './linetab lookup - 0x1137 --line-str examples/hello.debug_line_str <&-'
stop 'closed standard streams' 3 '' bash -c './linetab check - examples/hello.csv --line-str examples/hello.debug_line_str <&- >&- 2>&-'
stop 'a full device' 3 $'linetab: cannot write\n' bash -c './linetab units examples/hello.debug_line >/dev/full'
stop 'a closed standard output' 3 $'linetab: cannot write\n' bash -c './linetab units examples/hello.debug_line >&-'
stop 'a closed pipe' 3 '' bash -c '{ sleep 0.2; ./linetab units examples/hello.debug_line; echo $? >"$0/status"; } | true; exit "$(cat "$0/status")"' "$work"
cp examples/hello.debug_line "$work/many"
for _ in $(seq 14); do
  cat "$work/many" "$work/many" >"$work/more" && mv "$work/more" "$work/many"
done
expect_notes 'what head leaves' 0 $'0x0 32 156\n' '' bash -c './linetab units "$0" | head -n 1' "$work/many"
expect 'a stack of 100 kB' 0 $'yes\n' '' bash -c 'ulimit -s 100; exec crates/linetab/out/linetab check examples/hello.debug_line examples/hello.csv --line-str examples/hello.debug_line_str'
# The limit holds for the file that standard error goes to as well.
stop 'a file size of no bytes' 3 '' bash -c 'trap "" XFSZ; ulimit -f 0; crates/linetab/out/linetab units examples/hello.debug_line >"$0/none"' "$work"
stop 'an option twice' 2 $'error: the argument \'--big\' cannot be used multiple times\n'"$usage" ./linetab units - --big --big
stop 'an unknown option' 2 $'error: unexpected argument \'--bog\' found\n\n  tip: a similar argument exists: \'--big\'\n\nUsage: linetab units --big <SECTION>\n\nFor more information, try \'--help\'.\n' ./linetab units --bog x
stop 'a second section' 2 $'error: unexpected argument \'y\' found\n'"$usage" ./linetab units x y
stop 'a word that is no text' 2 $'error: a word isn\'t UTF-8\n\nFor more information, try \'--help\'.\n' ./linetab units $'\xff'
finish
