#!/usr/bin/env bash
# Each request for memory refused in turn: the program stops for want of memory, or gives its answer where the
# library tried again in another way. It never gives another answer. With ample memory it isn't stopped for want of it.
cd "$(dirname "$(readlink -f -- "$0")")/.." || exit 1
. tests/check.bash
here 'requests for memory that are refused' cc || finish
cc -O1 -shared -fPIC -o "$work/refuse.so" tests/refuse_memory.c -ldl || exit 1

# Whether both outputs are those with ample memory. A note may be missing, for which there was none, but none is another one.
is_wanted() {
  cmp -s "$work/both" "$work/wanted" && return
  ! grep -qvxF -f "$work/wanted" "$work/both" &&
    cmp -s <(grep -v '^linetab: note: ' "$work/both") <(grep -v '^linetab: note: ' "$work/wanted")
}

# in_turn NAME WORD..: what the program does with ample memory, and with the Nth request refused, for each N
# until a run meets no refusal.
in_turn() {
  local name=$1 status n=0 met=0 wanted
  is_chosen "$name" || return 0
  shift
  "$program" "$@" >"$work/wanted" 2>&1
  wanted=$?
  if [ "$wanted" -eq 4 ]; then
    fail "$name" "with no request refused, status 4: $(head -c 200 "$work/wanted")"
    return
  fi
  while [ "$n" -lt 500 ]; do
    n=$((n + 1))
    rm -f "$work/met"
    REFUSE=$n REFUSED=$work/met LD_PRELOAD=$work/refuse.so "$program" "$@" >"$work/out" 2>"$work/err"
    status=$?
    [ -e "$work/met" ] && met=$((met + 1))
    cat "$work/out" "$work/err" >"$work/both"
    if [ "$status" -eq 4 ] && [ "$(cat "$work/err")" = 'linetab: out of memory' ] && [ -e "$work/met" ]; then
      continue
    fi
    if [ "$status" -ne "$wanted" ] || ! is_wanted; then
      fail "$name" "with request $n refused, status $status: $(head -c 200 "$work/both")"
      return
    fi
    [ -e "$work/met" ] || break
  done
  if [ "$met" -lt 10 ] || [ "$n" -eq 500 ]; then
    fail "$name" "$met of $n requests were refused"
    return
  fi
  pass "$name"
}

in_turn 'one unit' units examples/hello.debug_line
in_turn 'eight units' units examples/gc-sections.debug_line
cat examples/gc-sections.debug_line{,,,,,,,,,} examples/README.md >"$work/many"
in_turn 'many units and a fault' units "$work/many"
in_turn 'headers' dump examples/gc-sections.debug_line
in_turn 'headers with sums' dump --big examples/powerpc64.debug_line
in_turn 'operations and rows' dump --ops --rows examples/hello.debug_line
in_turn 'a table' table examples/hello.debug_line --line-str examples/hello.debug_line_str
# Twenty units of version 4 with a file each, and the directories of two.
older='\23\0\0\0\4\0\15\0\0\0\1\1\1\373\16\1\0a\0\0\0\0\0'
for _ in {1..20}; do printf "$older"; done >"$work/older"
printf 'unit,directory\n0,/a\n23,/b\n' >"$work/directories"
in_turn 'older units' upgrade "$work/older" --address-size 8 --directories "$work/directories"
in_turn 'a check' check examples/hello.debug_line examples/hello.csv --line-str examples/hello.debug_line_str
"$program" table --paths examples/hello.debug_line --line-str examples/hello.debug_line_str >"$work/paths"
in_turn 'a check by path' check examples/hello.debug_line "$work/paths" --line-str examples/hello.debug_line_str
sed '$d' "$work/paths" >"$work/shorter"
in_turn 'a difference by path' check examples/hello.debug_line "$work/shorter" --line-str examples/hello.debug_line_str
in_turn 'a lookup' lookup examples/hello.debug_line 0x1137 --line-str examples/hello.debug_line_str
in_turn 'a conversion' convert examples/hello.debug_line --format 64 --order big
in_turn 'sums' md5 examples/hello-clang.debug_line --line-str examples/hello-clang.debug_line_str
# Functions of which one overlaps another, in falling order, line records in order and not, a file twice, and one that no line names.
printf 'MODULE a\nFILE 1 /a,b\nFILE 1 /c\nFUNC 20 10 0 f\n20 4 1 1\n24 4 2 2\nFUNC 28 2 0 g\nFUNC m 0 10 0 h\n8 8 3 1\n0 9 4 1\n0 8 5 1\n' >"$work/symbols"
in_turn 'a symbol file' symbols "$work/symbols" --base 0x1000
printf 'MODULE a\nFUNC 20 10 0 f\n20 4 1 1\n24 4 2\n' >"$work/broken"
in_turn 'a symbol file with a fault' symbols "$work/broken"
in_turn 'help' units --help
in_turn 'no such file' units "$work/none"
in_turn 'usage' units
finish
