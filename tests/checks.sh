#!/usr/bin/env bash
# check, with --all and without, of sections and tables that are picked at random, as a slow reference answers.
cd "$(dirname "$(readlink -f -- "$0")")/.." || exit 1
. tests/check.bash
python3 tests/checks.py make "$work/cases" 500 1 examples/hello*.debug_line || exit 1
tests/cases/run "$program" "$work/cases"
