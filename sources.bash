# For the scripts at the top, in share/ and in must-fail/, which set $top, and for tests/check.bash: their help, the built program,
# whether what is built is that of the sources as they are, what a crate stands on, a copy of crates, and what scripts begin, write
# and remove.
program=$top/crates/linetab/out/linetab
built_of=$program.sources
# The sum of the sources that the gate has proved, where all of it passed.
proved_of=$top/crates/lnt_ffi/out/gate.sources
# By it `cd` would go elsewhere, and print where.
unset CDPATH

# Prints the comment that a script begins with, and ends it, where a word asks for help.
tell_help() { # SCRIPT WORD..
  local word
  for word in "${@:2}"; do
    [[ $word != --help && $word != -h ]] || { sed -n '2,/^[^#]/s/^# //p' "$1"; exit 0; }
  done
}

# Ends a script whose words ask for nothing that it does, with the lines of that comment that say how it is called.
refuse_words() { # SCRIPT
  sed -nE '2,/^[^#]/s/^# ((usage:|      ) .*)/\1/p' "$1" >&2
  exit 2
}

# Fails with lines where the toolchain isn't here, the first of which says what isn't built.
need_toolchain() { # NAME TEXT
  command -v rt >/dev/null || {
    echo "$1: $2"
    echo "$1: to prove and build it, put rt on the PATH, the command of the Rattle toolchain (a compiler and prover of Rust with contracts; it is in no package registry: ask whoever gave you these sources)"
    echo "$1: without it, run a release: the archive that ./release makes on a machine with the toolchain"
    return 127
  } >&2
}

# What a script ends and removes when it ends, however it does, where these aren't empty.
group=
room=
new=
clean() {
  if [ -n "$group" ] && kill -- "-$group" 2>/dev/null; then
    # The first process of a group ends when it has ended what it began.
    for _ in {1..100}; do
      kill -0 "$group" 2>/dev/null && sleep 0.1 || break
    done
    ! kill -0 "$group" 2>/dev/null || kill -KILL -- "-$group"
  fi
  [ -z "$new" ] || rm -f "$new"
  # The others, and what `rt` began, end a moment later.
  [ -z "$room" ] || rm -rf "$room" 2>/dev/null || { sleep 1; rm -rf "$room"; }
}

# Begins a command, which may be a function, in a `group` of processes of its own, which ends with the script, also where that is
# ended alone. A terminal may ask that no such group writes to it; these do.
begin() { # COMMAND..
  trap clean EXIT
  set -m
  (trap '' TTOU; group= room= new=; "$@") </dev/null &
  group=$!
  set +m
}

# Runs a command so.
guarded() { # COMMAND..
  local status=0
  begin "$@"
  wait "$group" || status=$?
  group=
  return "$status"
}

# Makes a temporary folder, `room`, by its whole path.
make_room() {
  trap clean EXIT
  room=$(mktemp -d) && room=$(readlink -f -- "$room")
}

# Makes a folder, where it isn't there, and fails with a line where nothing can be written to it.
make_folder() { # FOLDER
  (umask 022; mkdir -p "$1") && [ -w "$1" ] || { echo "${0##*/}: nothing can be written to $1" >&2; return 1; }
}

# The folder in which a prefix lies while a package is made: below DESTDIR, where that is set.
staged() { # PREFIX
  [ -n "${DESTDIR:-}" ] && printf '%s/%s' "${DESTDIR%/}" "${1#/}" || printf '%s' "$1"
}

# How what was put under a prefix is removed again, as a shell reads it.
uninstall_of() { # PREFIX
  printf '%s./install --uninstall %q' "${DESTDIR:+$(printf 'DESTDIR=%q ' "$DESTDIR")}" "$1"
}

# Fails with a line where what is put under a prefix would be in the place of sources, which are read for it.
not_onto_sources() { # PREFIX
  local place
  for place in "$1" "$1/bin" "$1/include" "$1/share" "$1/share/linetab" "$1/share/doc/linetab"; do
    [ "$place" -ef "$top" ] || [ "$place" -ef "$top/include" ] || [ "$place" -ef "$top/share" ] || continue
    echo "${0##*/}: $place has the sources, which would be overwritten: give another prefix than $1" >&2
    return 2
  done
}

# Puts a file of this mode in a place, whatever the umask. What stands there is the file before or the whole new one. (With the top
# of the repository on the PATH, `install` would be the script.)
put() { # MODE FILE PLACE
  trap clean EXIT
  new=$3.$$
  (umask 022; mkdir -p "${3%/*}") && cp "$2" "$new" && chmod "$1" "$new" && mv -fT "$new" "$3" && new=
}

# Puts a file under `prefix`, and adds it to those `placed`.
place() { # MODE FILE PLACE
  put "$1" "$2" "$prefix/$3" && placed+=("$3")
}

# Puts a list of what was placed under `prefix`, with what stood in such a list before, for `./install --uninstall`.
place_list() { # NAME
  local list=share/linetab/$1.files
  { cat "$prefix/$list" 2>/dev/null; printf '%s\n' "${placed[@]}" "$list"; } | LC_ALL=C sort -u >"$room/list" &&
    put 644 "$room/list" "$prefix/$list"
}

# After so many seconds without a word, what takes long says what it does.
silence=30
# When the last word was said, by SECONDS.
said=0

# Says a line on standard error.
say() { # TEXT
  echo "linetab: $1" >&2
  said=$SECONDS
}

# Reads the next line of standard input, in `line`. Meanwhile, and as long as lines come of which nothing is said, it runs a command
# whenever nothing was said for so long.
next_line() { # COMMAND..
  local part status=129
  line=
  while [ "$status" -gt 128 ]; do
    [ $((SECONDS - said)) -lt "$silence" ] || { "$@"; said=$SECONDS; }
    status=0
    IFS= read -r -t "$silence" part || status=$?
    line+=$part
  done
  return "$status"
}

# Takes the lock of descriptor 9, and tells first where another has it.
lock() { # TEXT
  local status=0
  flock -n 9 || status=$?
  [ "$status" -ne 1 ] || { echo "$1" >&2; guarded flock 9; }
}

# What `find` takes of crates.txt and crates/, and of other folders given by their whole paths: the files that the program is proved
# and built from, and all of the others.
sources=(\( -name out -o -name must-fail \) ! -path 'crates/*/*/*' -prune -o -type f
  \( ! -path 'crates/*' -o -path 'crates/*/src/*' -o -path 'crates/*/specs/*' -o -path 'crates/*/proofs/*' \))

# One sum over the names and bytes of all that the program is proved and built from.
sum_of_sources() {
  (set -o pipefail; cd "$top" && find crates.txt crates "${sources[@]}" -print0 | LC_ALL=C sort -z | xargs -0 sha256sum | sha256sum)
}

# For each source, a built file and the sum beside it: its name, its size, when it was written, when it was changed in any way, and its
# number in the file system.
state_of() { # FILE
  (cd "$top" && find "$1" "$1.sources" crates.txt crates "${sources[@]}" -printf '%p %s %T@ %C@ %i\n')
}

# Whether a built file is that of the sources as they are. Their sum says so, and takes most of the time of a start. So where it was
# right, the state of all files is kept beside the built file, and as long as that is the same, no sum is made.
# This relies on one thing: a file that is written, replaced or given other times gets the system's time then, in nanoseconds, as the
# time of its last change, which no program can set. So what keeps the times of writing (tar, cp -p, touch) is seen too, and so are
# files that come and go. A clock that was set back would have to give the same nanosecond once more. Two changes within one tick of
# the clock aren't confused either: a state isn't kept before all of its times are older than that.
is_current() { # FILE
  local state sum now=$EPOCHSECONDS
  [ -r "$1" ] && [ -r "$1.sources" ] || return
  ! (set -o pipefail; state_of "$1" | cmp -s - "$1.state") 2>/dev/null || return 0
  state=$(state_of "$1") && sum=$(sum_of_sources) && [ "$sum" = "$(<"$1.sources")" ] || return
  keep_state "$1" "$state" $((now - 3)) 2>/dev/null || true
}

# Keeps the state of a built file and of its sources, where it is still so, and no file was changed after that time, which is so long
# before the state was taken that a later change has another time: file systems keep times to two seconds at worst.
keep_state() { # FILE STATE TIME
  [ "$(state_of "$1")" = "$2" ] || return
  [ -z "$(cd "$top" && find "$1" "$1.sources" crates.txt crates "${sources[@]}" \( -newermt "@$3" -o -newerct "@$3" \) -print -quit)" ] ||
    return
  put 644 <(printf '%s\n' "$2") "$1.state" || rm -f "$new"
}

# Puts a built file in its place, and beside it the sum of its sources, which are still so. It is written last, so that no other file
# has it. Fails with a line.
keep() { # MODE FILE PLACE SUM
  [ "$(sum_of_sources)" = "$4" ] || { echo "${0##*/}: the sources were changed meanwhile" >&2; return 1; }
  rm -f "$3.sources" && put "$1" "$2" "$3" && echo "$4" >"$3.sources" || { echo "${0##*/}: nothing can be written to ${3%/*}" >&2; return 1; }
}

# Adds to `below` the crates of this repository that one uses, and those that these use, each once, lowest first.
uses() { # NAME
  local name
  for name in $(sed -nE "s/^$1( staticlib)?:([^#]*).*/\2/p" "$top/crates.txt"); do
    [[ -d $top/crates/$name && " ${below[*]} " != *" $name "* ]] || continue
    uses "$name"
    below+=("$name")
  done
}

# Adds to `below` these crates, and those that they use.
with_used() { # NAME..
  local name
  for name; do
    [[ " ${below[*]} " != *" $name "* ]] || continue
    uses "$name"
    below+=("$name")
  done
}

# Copies the crates of `below` to a folder, as a repository of their own, but for the edits that `./test` tries.
copy_crates() { # FOLDER
  local name part
  # By this `rt ci` knows the top of a repository.
  mkdir -p "$1/.git" "$1/crates" && cp "$top/HANDLES" "$1" || return
  for name in "${below[@]}"; do
    mkdir "$1/crates/$name" || return
    for part in "$top/crates/$name"/*; do
      [[ ${part##*/} == @(out|must-fail) ]] || cp -r "$part" "$1/crates/$name" || return
    done
    grep -E "^$name( staticlib)?:" "$top/crates.txt" >>"$1/crates.txt" || return
  done
}
