#!/usr/bin/env bash
# The generated cases of tests/cases: what the program prints, and its exit status.
cd "$(dirname "$(readlink -f -- "$0")")/.." || exit 1
. tests/check.bash
for archive in tests/cases/*.tar.gz; do
  tar xzf "$archive" -C "$work" || exit 1
done
tests/cases/run "$program" "$work"
