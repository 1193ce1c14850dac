#!/usr/bin/env bash
# The modules of linetab-object and linetab-table, function by function: the tests of tests/scripts/, which run no program of this
# repository. With ONLY=TEXT before it, only those run whose names have this text.
cd "$(dirname "$(readlink -f -- "$0")")/.." || exit 1
. ./sources.bash
tell_help "tests/${0##*/}" "$@"
make_room || exit 1
# A line `Ran N tests`, and then `OK` or `FAILED (failures=N, errors=N)`, possibly with other counts.
PYTHONPATH=share:tests python3 -B -m unittest discover -s tests/scripts ${ONLY:+-k "$ONLY"} </dev/null >"$room/said" 2>&1
status=$?
count=$(sed -nE 's/^Ran ([0-9]+) tests? in .*/\1/p' "$room/said")
failed=$(sed -nE 's/^FAILED \((.*)\)$/\1/p' "$room/said" | grep -oE '(failures|errors)=[0-9]+' | awk -F = '{ all += $2 } END { print all + 0 }')
# Where something isn't as it should be, and is in neither count, that is one failure.
[ "$status" -eq 0 ] || [ "${failed:-0}" -gt 0 ] || failed=1
[ "$status" -eq 0 ] && [ -n "$count" ] || cat "$room/said"
[ -n "$count" ] || failed=1 count=1
echo "$((count - failed)) passed, $failed failed"
[ "$failed" -eq 0 ]
