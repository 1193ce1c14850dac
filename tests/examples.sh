#!/usr/bin/env bash
# The units of the example sections, as readelf and llvm-dwarfdump list them, and a table of what the latter says.
cd "$(dirname "$(readlink -f -- "$0")")/.." || exit 1
. tests/check.bash
for name in hello hello-clang gc-sections; do
  expect "units of $name" 0 "$(cat tests/expected/$name.units)"$'\n' '' ./linetab units "examples/$name.debug_line"
done
expect "units of powerpc64" 0 "$(cat tests/expected/powerpc64.units)"$'\n' '' ./linetab units --big examples/powerpc64.debug_line
expect "the table of hello" 0 $'yes\n' '' ./linetab check examples/hello.debug_line examples/hello.csv --line-str examples/hello.debug_line_str
expect "the table of hello, written" 0 "$(cat examples/hello.csv)"$'\n' '' ./linetab table examples/hello.debug_line --line-str examples/hello.debug_line_str
finish
