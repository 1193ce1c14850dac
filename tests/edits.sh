#!/usr/bin/env bash
# The edits of must-fail/, which the gate doesn't try: each names a file of its crate, and has texts that stand in it exactly once. With
# ONLY=TEXT before it, it looks only at those whose names have this text.
cd "$(dirname "$(readlink -f -- "$0")")/.." || exit 1
top=$PWD
. ./sources.bash
tell_help tests/edits.sh "$@"
exec python3 - must-fail/*/*.edit <<'END'
import os
import sys

passed, failed = 0, 0
for edit in [name for name in sys.argv[1:] if os.environ.get("ONLY", "") in name]:
    crate = edit.split("/")[1]
    with open(edit, encoding="utf-8") as file:
        kind, _, name = next(file).rstrip("\n").partition(": ")
        texts = [line[len("old: "):].rstrip("\n") for line in file if line.startswith("old: ")]
    with open("crates/%s/%s" % (crate, name), encoding="utf-8") as file:
        code = file.read()
    if kind == "file" and texts and all(code.count(text) == 1 for text in texts):
        passed += 1
    else:
        failed += 1
        print("%s: its texts don't stand exactly once in crates/%s/%s" % (edit, crate, name))
print("%d passed, %d failed" % (passed, failed))
sys.exit(failed > 0)
END
