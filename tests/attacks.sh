#!/usr/bin/env bash
# Sections and other files of shapes that cost a careless reader much, time by their square or memory by many times their bytes. With
# --figures it prints what each took; other words choose some by a part of their names.
cd "$(dirname "$(readlink -f -- "$0")")/.." || exit 1
. tests/check.bash
here 'what shapes cost' cc || finish
python3 -B tests/attacks.py "$@"
