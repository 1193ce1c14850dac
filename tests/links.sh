#!/usr/bin/env bash
# Each link of a page leads to a file and an anchor that are there, docs/README.md links each page of docs/, pages that other files
# name are there, and README.md, docs/ and the lines of crates are no longer than they should be.
cd "$(dirname "$(readlink -f -- "$0")")/.." || exit 1
top=$PWD
. ./sources.bash
tell_help tests/links.sh "$@"
exec python3 tests/links.py
