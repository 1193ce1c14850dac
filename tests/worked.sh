#!/usr/bin/env bash
# The worked units are the same in tests/worked.py, from which scripts take them, in the tests in Rattle, and in the proofs.
cd "$(dirname "$(readlink -f -- "$0")")/.." || exit 1
. ./sources.bash
tell_help "tests/${0##*/}" "$@"
exec python3 -B tests/worked.py check
