#!/usr/bin/env bash
# docs/TRUSTED.md lists the files of definitions that the contract of lnt_cli::run leads to for a check and for an upgrade, in order, and
# no other; and each file of specs/ begins with a sentence that says what it defines.
cd "$(dirname "$(readlink -f -- "$0")")/.." || exit 1
top=$PWD
. ./sources.bash
tell_help tests/trusted.sh "$@"
exec python3 tests/trusted.py
