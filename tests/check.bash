# For the scripts of tests/: runs a command and compares what it writes and its exit status with what is wanted. That python3 is
# here is taken for granted, since the toolchain's command `rt` is written in it.
# With ONLY=TEXT before a script, only those cases count whose names have this text. Commands of others run too if later ones may need
# what they make, but nothing is compared.
top=$PWD
. ./sources.bash
tell_help "tests/${0##*/}" "$@"
passed=0
failed=0
skipped=0
tools=(bash awk)
# Else Python keeps what it compiled beside the modules; and cut, where files may only be small.
export PYTHONDONTWRITEBYTECODE=1
make_room || exit 1
work=$room

# Builds the program, where it isn't built.
guarded ./linetab --help >/dev/null || exit 1

# The whole path of a file that a word of the script names, from where the script was called.
from_there() { # NAME
  (cd "$OLDPWD" && readlink -f -- "$1")
}

# The bytes of hexadecimal digits.
bytes() {
  printf '%b' "$(printf '%s' "$*" | tr -d ' \n' | sed 's/../\\x&/g')"
}

# Whether a case of this name counts.
is_chosen() { # NAME
  [[ $1 == *"$ONLY"* ]]
}

# Counts a case as passed.
pass() { # NAME
  ! is_chosen "$1" || passed=$((passed + 1))
}

# Counts a case as failed, and says so.
fail() { # NAME [TEXT]
  is_chosen "$1" || return 0
  failed=$((failed + 1))
  echo "failed: $1${2:+: $2}"
}

# expect NAME STATUS STDOUT STDERR COMMAND..: STDOUT and STDERR as $'..' texts, byte for byte, but for the notes after
# what is wanted on standard error.
expect() {
  local name=$1 status=$2 out=$3 err=$4
  shift 4
  "$@" >"$work/out" 2>"$work/all"
  is_written "$name" "$status" "$?" "$out" "$err" <(sed '/^linetab: note: /d' "$work/all")
}

# expect_notes NAME STATUS STDOUT STDERR COMMAND..: the same with the notes, which are in STDERR too.
expect_notes() {
  local name=$1 status=$2 out=$3 err=$4
  shift 4
  "$@" >"$work/out" 2>"$work/all"
  is_written "$name" "$status" "$?" "$out" "$err" "$work/all"
}

# is_written NAME STATUS GIVEN STDOUT STDERR FILE: what was written, STDERR to the file, and the status that was given.
is_written() {
  local name=$1 status=$2 given=$3 out=$4 err=$5
  is_chosen "$name" || return 0
  cat "$6" >"$work/err"
  printf '%s' "$out" >"$work/out.wanted"
  printf '%s' "$err" >"$work/err.wanted"
  if [ "$given" -eq "$status" ] && cmp -s "$work/out" "$work/out.wanted" && cmp -s "$work/err" "$work/err.wanted"; then
    pass "$name"
    return
  fi
  fail "$name" "status $given, wanted $status"
  diff "$work/out.wanted" "$work/out" | head -n 10
  diff "$work/err.wanted" "$work/err" | head -n 10
}

# Runs a command that can write to no file, but for what it tells on standard error.
unwritten() { # COMMAND..
  (ulimit -f 0; "$@" 2>&1) | cat >&2
  return "${PIPESTATUS[0]}"
}

# Runs a command whose standard error is a terminal.
on_terminal() { # COMMAND..
  python3 -c 'import os, subprocess, sys; sys.exit(subprocess.run(sys.argv[1:], stderr=os.openpty()[1]).returncode)' "$@"
}

# Leaves something out, and says why.
skip() { # TEXT
  skipped=$((skipped + 1))
  echo "skipped: $1"
}

# here NAME TOOL..: whether the tools are here. Else what needs them is left out, and told by its name with the first that is missing.
here() {
  local tool
  for tool in "${@:2}"; do
    command -v "$tool" >/dev/null || { skip "$tool isn't here: $1"; return 1; }
    [[ " ${tools[*]} " == *" $tool "* ]] || tools+=("$tool")
  done
}

# What a tool says of its version.
version_of() { # TOOL
  { "$1" --version || "$1" -W version; } 2>&1 </dev/null | grep -m 1 '[0-9]'
}

# Prints the counts, with what was left out, and ends the script. Where something failed, it tells first by which tools.
finish() {
  local left_out= tool
  [ "$failed" -eq 0 ] || for tool in "${tools[@]}"; do
    echo "with $tool: $(version_of "$tool")"
  done
  [ "$skipped" -eq 0 ] || left_out=", $skipped skipped"
  echo "$passed passed, $failed failed$left_out"
  [ "$failed" -eq 0 ]
  exit
}
