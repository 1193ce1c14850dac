#!/usr/bin/env bash
# The launcher `linetab` over a copy of the tree, with a toolchain that only pretends: when it builds, what it says, and what it leaves
# where it is ended. So `library`, `install` and `test`, as far as they build.
cd "$(dirname "$(readlink -f -- "$0")")/.." || exit 1
. tests/check.bash
tree=$work/tree
mkdir -p "$tree/crates/linetab/out" "$tree/share" "$tree/include" "$tree/tests" "$tree/.git" "$work/bin" "$work/without" "$work/temporary"
cp linetab library install test sources.bash crates.txt HANDLES VERSION "$tree"
cp include/linetab.h "$tree/include"
cp share/prove share/build share/linetab_heap.c "$tree/share"
for crate in crates/*/; do
  mkdir -p "$tree/$crate/must-fail" && cp -r "$crate/src" "$tree/$crate"
done
for tool in bash sed find sort xargs readlink dirname mktemp mkdir mv rm cat tail grep tee cp cmp env flock sleep touch chmod \
  nproc nice awk; do
  ln -s "$(command -v "$tool")" "$work/without/$tool"
done
# It keeps a line for each time that it is asked for a sum.
printf '#!/usr/bin/env bash\necho >>"%s"\nexec "%s" "$@"\n' "$work/summed" "$(command -v sha256sum)" >"$work/without/sha256sum"
chmod +x "$work/without/sha256sum"

# A toolchain whose gate proves each crate at once, or those whose names it is given, or never ends, and that keeps a line for each time
# that it is asked; and whose prover and linker copy the program, which stands for the library too.
cat >"$work/bin/rt" <<END
#!/usr/bin/env bash
echo "\$*" >>"$work/asked"
[[ \$1 == ci && -d .git && -e HANDLES ]] || exit 2
if [ -e "$work/endless" ]; then
  sleep 60 &
  echo "\$\$ \$!" >>"$work/running"
  wait
fi
for name in \${@:2} \$([ \$# -gt 1 ] || sed -n 's/^\([a-z_]*\)[ a-z]*:.*/\1/p' crates.txt); do
  # As the real one, it refuses a list with a crate that has no folder.
  [[ -d crates/\$name/src && ! -e crates/\$name/must-fail ]] || exit 2
  if [ -e "$work/no_\$name" ]; then
    printf '%s\n' "== \$name" "fn \$name::a: proved" "fn \$name::b: not proved" "rt: \$name NOT PROVED"
    exit 1
  fi
  [ ! -e "$work/slow_\$name" ] || sleep 3
  printf '%s\n' "fn \$name::a: proved" "rt: \$name proved"
done
[ \$# -gt 1 ] || sleep 1
END
cat >"$work/bin/rattle" <<END
#!/usr/bin/env bash
[[ \$1 == build && (-e src/main.rt || \$* == *" --crate-type staticlib src/lib.rt "*) && \${*: -2:1} == -o ]] || exit 2
if [ -e "$work/no_linetab" ]; then
  printf '%s\n' 'fn linetab::a: proved' 'fn linetab::main: not proved'
  echo half >"\${*: -1}"
  exit 1
fi
[ ! -e "$work/meanwhile" ] || echo '// changed' >>"$tree/crates/lnt_wire/src/lib.rt"
echo 'fn linetab::main: proved'
[ ! -e "$work/slow_linetab" ] || sleep 3
cp "$top/crates/linetab/out/linetab" "\${*: -1}"
END
cat >"$work/bin/rattle-link" <<END
#!/usr/bin/env bash
while [ "\$1" != -o ]; do shift; done
cp "\$3" "\$2"
END
chmod +x "$work/bin"/*
with_rt() { env TMPDIR="$work/temporary" PATH="$work/bin:$work/without" "$@"; }
without_rt() { env TMPDIR="$work/temporary" PATH="$work/without" "$@"; }
# The same, with what is said of seconds, of the folder and of a crate's name made plain, and of the crates that are proved the last
# alone: some are proved beside others.
plainly() {
  "$@" 2>"$work/said"
  local status=$?
  sed -E '/^linetab: proved /{/\(([0-9]+) of \1\)/!d; s/lnt_[a-z_]+/NAME/}; s/[0-9]+ s$/N s/; s|'"$work"'|WORK|g' "$work/said" >&2
  return $status
}
# How many crates are below a crate.
below() {
  bash -c 'top=$PWD; . ./sources.bash; below=(); uses "$0"; echo ${#below[@]}' "$1"
}
all=$(below linetab)
section=$top/examples/hello.debug_line
proving=$'linetab: proving and building the program, which takes a quarter of an hour or more the first time
linetab: meanwhile `rt try -- WORD ..` in WORK/tree/crates/linetab answers in one to four minutes, interpreted and unproved, for files by their whole paths\n'

without=$'linetab: to prove and build it, put rt on the PATH, the command of the Rattle toolchain (a compiler and prover of Rust with contracts; it is in no package registry: ask whoever gave you these sources)
linetab: without it, run a release: the archive that ./release makes on a machine with the toolchain\n'

expect 'no program and no toolchain' 127 '' "linetab: the program isn't built from the sources as they are: WORK/tree/crates/linetab/out/linetab"$'\n'"$without" \
  plainly without_rt "$tree/linetab" units "$section"
touch "$work/no_lnt_ops"
expect 'a crate that is not proved' 126 '' "$proving"$'== lnt_ops\nfn lnt_ops::b: not proved\nrt: lnt_ops NOT PROVED\nlinetab: the program isn\'t proved\n' \
  plainly with_rt "$tree/linetab" units "$section"
expect 'no program is left' 1 '' '' test -e "$tree/crates/linetab/out/linetab"
expect 'no temporary folder is left' 0 '' '' find "$work/temporary" -mindepth 1
rm "$work/no_lnt_ops"
touch "$work/no_linetab"
expect 'a program that is not proved' 126 '' "$proving"'linetab: proved NAME ('"$all of $all"$'), N s\nlinetab: proving and compiling the program over them, N s\nfn linetab::main: not proved\nlinetab: the program isn\'t proved\n' \
  plainly with_rt "$tree/linetab" units "$section"
expect 'no program is left of it' 1 '' '' test -e "$tree/crates/linetab/out/linetab"
rm "$work/no_linetab" "$work/asked"
expect 'the first build' 0 $'0x0 32 156\n' "$proving"'linetab: proved NAME ('"$all of $all"$'), N s\nlinetab: proving and compiling the program over them, N s\nlinetab: built in N s\n' \
  plainly with_rt "$tree/linetab" units "$section"
expect 'no temporary folder is left of it' 0 '' '' find "$work/temporary" -mindepth 1
expect 'once built, nothing is asked of the toolchain' 0 $'0x0 32 156\n' '' with_rt "$tree/linetab" units "$section"
expect 'the gate was asked for what all wait for' 0 $'ci lnt_header_bytes\n' '' grep lnt_header "$work/asked"
expect 'and once for all' 0 $'ci\n' '' grep -x ci "$work/asked"
expect 'by a relative path, where CDPATH has such a folder too' 0 $'0x0 32 156\n' '' \
  without_rt bash -c 'mkdir -p "$0/elsewhere/tree" && cd "$0" && CDPATH=$0/elsewhere tree/linetab units "$1"' "$work" "$section"
expect 'it runs without one' 0 $'0x0 32 156\n' '' without_rt "$tree/linetab" units "$section"
cp -r "$tree" "$work/copy"
find "$work/copy" -name '*.rt' -exec touch {} +
expect 'a copied tree, whose sources are younger' 0 $'0x0 32 156\n' '' without_rt "$work/copy/linetab" units "$section"

# ---- how the launcher of the copy knows the program: by the times of files, where these were kept, or by a sum

known() { # STATUS HOW NAME
  rm -f "$work/summed"
  expect "$3" "$1" "$([ "$1" -ne 0 ] || echo 0x0 32 156; echo "$2")"$'\n' '' known_by
}
known_by() {
  local status=0
  without_rt "$work/copy/linetab" units "$section" 2>/dev/null || status=$?
  [ -e "$work/summed" ] && echo 'by a sum' || echo 'by times'
  return "$status"
}
# Files are so old then that their times are kept.
old_enough() {
  sleep 4
  known 0 'by a sum' "$1, by a sum once more"
  known 0 'by times' "$1, by times"
}
source_file=$work/copy/crates/lnt_wire/src/lib.rt
built=$work/copy/crates/linetab/out/linetab
known 0 'by a sum' 'files that are young'
expect 'their times are not kept' 1 '' '' test -e "$built.state"
old_enough 'files that are older'
touch "$source_file"
known 0 'by a sum' 'a source that was touched'
old_enough 'a touched source'
cp -p "$source_file" "$work/before"
sed -i 's/a/b/' "$source_file" && touch -r "$work/before" "$source_file"
known 127 'by a sum' 'a changed source of the same size and time'
cat "$work/before" >"$source_file" && touch -r "$work/before" "$source_file"
known 0 'by a sum' 'the source as it was'
sed 's/a/b/' "$work/before" >"$work/after" && touch -r "$work/before" "$work/after"
old_enough 'the source as it was'
mv "$work/after" "$source_file"
known 127 'by a sum' 'another source of the same size and time in its place'
cp -p "$work/before" "$source_file"
old_enough 'the source put back'
mv "$source_file" "$source_file.away"
known 127 'by a sum' 'a source that is away'
mv "$source_file.away" "$source_file"
known 0 'by a sum' 'the source that was away'
old_enough 'the source that was away'
for more in more.rt out/more.rt; do
  mkdir -p "${source_file%/*}/out"
  : >"${source_file%/*}/$more"
  known 127 'by a sum' "a source more: $more"
  rm -r "${source_file%/*}/$more" "${source_file%/*}/out"
  known 0 'by times' "no source more: $more"
done
cp "$built.sources" "$work/sum" && echo other >"$built.sources"
known 127 'by a sum' 'a program of other sources in its place'
cp "$work/sum" "$built.sources"
rm "$built.state" && mkdir "$built.state"
known 0 'by a sum' 'where no times can be kept'
sleep 4
known 0 'by a sum' 'also later'
expect 'nothing is left of trying' 0 $'linetab\nlinetab.sources\nlinetab.state\nlock\n' '' ls "${built%/*}"
echo '// changed' >>"$tree/crates/lnt_wire/src/lib.rt"
touch -d 2000-01-01 "$tree/crates/lnt_wire/src/lib.rt"
rm "$work/asked"
expect 'a changed source, and two that ask at once' 0 $'0x0 64 172\n' '' \
  with_rt bash -c '"$0" convert "$1" --format 64 --order little 2>>"$2" | "$0" units - 2>>"$2"' "$tree/linetab" "$section" "$work/both"
expect 'are one build' 0 $'ci\n' '' grep -x ci "$work/asked"
expect 'for which one waits' 0 $'linetab: another one proves and builds the program; waiting for it\n' '' grep waiting "$work/both"
change() { # CRATE
  echo '// changed' >>"$tree/crates/$1/src/lib.rt"
}
ln -s "$(python3 -c 'import sys; print(sys.executable)')" "$work/without/python3"
cp linetab-object "$tree"
cp -r share/scripts "$tree/share"
python3 tests/images.py elf64 "$work/app" .debug_line=examples/hello.debug_line .debug_line_str=examples/hello.debug_line_str
change lnt_wire
# What is told meanwhile, once a second here, of the crates that take long.
cp "$tree/sources.bash" "$work/sources_before"
sed -i 's/^silence=.*/silence=1/' "$tree/sources.bash"
touch "$work/slow_lnt_cli" "$work/slow_linetab"
with_rt "$tree/linetab" units "$section" 2>&1 >/dev/null |
  sed -E 's/[0-9]+ s$/N s/; s/( or next)?: lnt_cli \([0-9]+/: lnt_cli (N/' >"$work/told"
expect 'what is under way' 0 "linetab: under way: lnt_cli (N of $all proved), N s"$'\n' '' grep -m 1 'way: lnt_cli' "$work/told"
expect 'and of the program' 0 $'linetab: under way: linetab, N s\n' '' grep -m 1 'way: linetab' "$work/told"
rm "$work/slow_lnt_cli" "$work/slow_linetab"
cp "$work/sources_before" "$tree/sources.bash"
change lnt_wire
expect 'linetab-object, which tells what the launcher tells' 0 $'0x0 32 156\n' "$proving"'linetab: proved NAME ('"$all of $all"$'), N s\nlinetab: proving and compiling the program over them, N s\nlinetab: built in N s\n' \
  plainly with_rt "$tree/linetab-object" units "$work/app"
# The last line that a command says, and its status.
in_short() { # COMMAND..
  with_rt "$@" 2>&1 >/dev/null | tail -n 1 >&2
  return "${PIPESTATUS[0]}"
}
touch "$work/meanwhile"
change lnt_wire
expect 'a source that is changed meanwhile' 126 '' $'linetab: the sources were changed meanwhile\n' in_short "$tree/linetab" units "$section"
rm "$work/meanwhile"
mv "$tree/crates/linetab/out" "$work/out_before" && : >"$tree/crates/linetab/out"
expect 'a file where its folder is wanted' 126 '' "linetab: nothing can be written to $tree/crates/linetab/out"$'\n' in_short "$tree/linetab" units "$section"
rm "$tree/crates/linetab/out" && mv "$work/out_before" "$tree/crates/linetab/out"

# ---- the library

for words in '' "''" -x 'x y'; do
  expect "no prefix for the library: $words" 2 '' $'usage: ./library PREFIX\n' unwritten with_rt bash -c "\"\$0\" $words" "$tree/library"
done
expect 'no library and no toolchain' 127 '' "linetab: the library isn't built from the sources as they are: WORK/tree/crates/lnt_ffi/out/liblnt_ffi.a"$'\n'"$without" \
  plainly without_rt bash -c '"$0" "$1" 2>&1 >/dev/null | sed "s/^library:/linetab:/" >&2; exit "${PIPESTATUS[0]}"' \
  "$tree/library" "$work/prefix"
below=$(below lnt_ffi)
placed="library: under $work/prefix: lib/liblinetab.a, include/linetab.h, share/linetab/linetab_heap.c, lib/pkgconfig/linetab.pc; \`./install --uninstall $work/prefix\` removes them"$'\n'
expect 'the library' 0 "$placed" $'library: proving and building it, which takes a quarter of an hour or more the first time
linetab: proved NAME ('"$below of $below"$'), N s\nlinetab: proving and compiling the library over them, N s\nlinetab: built in N s\n' \
  plainly with_rt "$tree/library" "$work/prefix"
expect 'once built, nothing is asked of the toolchain for it' 0 "$placed" '' without_rt "$tree/library" "$work/prefix"
if here 'what pkg-config says of the library' pkg-config; then
  mv "$work/prefix" "$work/moved"
  expect 'by pkg-config, where it was moved' 0 "-I$work/moved/include -L$work/moved/lib -llinetab"$'\n' '' bash -c 'cd "$0/lib/pkgconfig" &&
    PKG_CONFIG_PATH=. pkg-config --cflags --libs linetab | sed "s, *$,," | while read -ra words; do
      for word in "${words[@]}"; do
        [[ $word != -[IL]* ]] || word=${word:0:2}$(readlink -f -- "${word:2}")
        printf "%s " "$word"
      done
    done | sed "s/ $/\n/"' "$work/moved"
  expect 'its heap' 0 '' '' bash -c 'cd "$0/lib/pkgconfig" && cmp "$(PKG_CONFIG_PATH=. pkg-config --variable=heap linetab)" "$1"' \
    "$work/moved" "$top/share/linetab_heap.c"
  mv "$work/moved" "$work/prefix"
fi
expect 'it is uninstalled' 0 "install: removed 4 files that were put under $work/prefix"$'\n' '' ./install --uninstall "$work/prefix"
expect 'and its folders are empty' 0 $'include\nlib\nshare\n' '' \
  bash -c 'cd "$0" && find . -mindepth 1 -printf "%P\n" | LC_ALL=C sort' "$work/prefix"
change lnt_ffi
echo before >"$tree/crates/lnt_ffi/out/liblnt_ffi.a"
touch "$work/no_linetab"
expect 'one that is not proved' 1 '' $'fn linetab::main: not proved\n' in_short "$tree/library" "$work/prefix"
expect 'leaves that of before' 0 $'before\n' '' cat "$tree/crates/lnt_ffi/out/liblnt_ffi.a"
rm "$work/no_linetab" "$work/asked"
expect 'two that ask for it at once' 0 '' $'library: another one proves and builds it; waiting for it\nlibrary: proving and building it, which takes a quarter of an hour or more the first time\n' \
  with_rt bash -c '{ "$0" "$1" & "$0" "$1"; wait; } 2>&1 >/dev/null | grep ^library: | sort >&2' "$tree/library" "$work/prefix"
expect 'are one build of it' 0 $'ci\n' '' grep -x ci "$work/asked"

# ---- what is ended alone, while so many calls of the toolchain run, which never end

ended_alone() { # COUNT COMMAND..: its status, and which of them run on
  local ended status process
  rm -f "$work/running"
  TMPDIR=$work/temporary PATH=$work/bin:$work/without "${@:2}" >/dev/null 2>&1 &
  ended=$!
  outlast fewer_run_than "$1"
  kill -TERM "$ended"
  wait "$ended" 2>/dev/null
  status=$?
  for process in $(cat "$work/running"); do
    outlast runs "$process" || echo "$process runs on"
  done
  return "$status"
}
# Waits until a command fails, for ten seconds at most.
outlast() { # COMMAND..
  for _ in {1..100}; do
    "$@" || return 0
    sleep 0.1
  done
  return 1
}
fewer_run_than() { # COUNT
  [ "$(cat "$work/running" 2>/dev/null | wc -l)" -lt "$1" ]
}
runs() { # PROCESS
  grep -q '^State:[[:space:]]*[^ZX]' "/proc/$1/status" 2>/dev/null
}
touch "$work/endless"
change lnt_wire
count=$(($(nproc) > 1 ? 2 : 1))
expect 'the launcher, ended alone' 143 '' '' ended_alone "$count" "$tree/linetab" units "$section"
expect 'library, ended alone' 143 '' '' ended_alone "$count" "$tree/library" "$work/prefix"
expect 'install, ended alone' 143 '' '' ended_alone "$count" "$tree/install" "$work/prefix"
expect 'test, ended alone' 143 '' '' ended_alone 1 "$tree/test"
expect 'no temporary folder is left of them' 0 '' '' find "$work/temporary" -mindepth 1
expect 'no file is left that is not whole' 0 $'liblnt_ffi.a\nliblnt_ffi.a.sources\nlinetab\nlinetab.sources\nlock\nlock\n' '' \
  bash -c 'cd "$0/crates" && find linetab/out lnt_ffi/out -type f ! -name "*.state" | sed "s,.*/,," | LC_ALL=C sort' "$tree"
rm "$work/endless"
expect 'test, where the toolchain is not here' 127 '' "linetab: the gate can't be run"$'\n'"$without" \
  without_rt bash -c '"$0" 2>&1 >/dev/null | sed "s/^test:/linetab:/" >&2; exit "${PIPESTATUS[0]}"' "$tree/test"
expect 'test, another word' 2 '' $'usage: ./test [--all] [--anew]\n' "$tree/test" --al
finish
