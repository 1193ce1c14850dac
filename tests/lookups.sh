#!/usr/bin/env bash
# Lookups in long sequences: at, between and beyond their rows, in rising order, in falling order and in none; and texts of lines that
# come whole or in pieces.
cd "$(dirname "$(readlink -f -- "$0")")/.." || exit 1
. tests/check.bash
python3 tests/lookups.py
