#!/usr/bin/env bash
# upgrade of sections with units of versions 2 to 5, sound and broken, as a converter of its own writes them.
cd "$(dirname "$(readlink -f -- "$0")")/.." || exit 1
. tests/check.bash
python3 tests/older.py make "$work/cases" 2000 1 || exit 1
tests/cases/run "$program" "$work/cases"
