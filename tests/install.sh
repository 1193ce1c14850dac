#!/usr/bin/env bash
# What install puts under a prefix: programs that run, man pages and completions of each word and option that the program's help
# has, and documents; and the archive and the package of release, which are the same twice, and run where nothing but the C library is,
# and for the scripts Python. What words neither takes, what they leave where something is in the way, and that all is removed again.
cd "$(dirname "$(readlink -f -- "$0")")/.." || exit 1
. tests/check.bash
prefix=$work/prefix
linetab=$prefix/bin/linetab
hello=(examples/hello.debug_line examples/hello.csv --line-str examples/hello.debug_line_str)

# The words of the help, and the options of one of them, or of none, each on a line, in order.
words() {
  "$linetab" --help | sed -n '/^Commands:/,/^$/s/^  \([a-z0-9]*\) .*/\1/p' | sort
}
options() { # [WORD [PROGRAM]]
  "$prefix/bin/${2:-linetab}" $1 --help | sed -nE 's/^ +(-[a-zA-Z], )?(--[a-z0-9-]+).*/\2/p' | sort
}
# Those of linetab-object, which has three more, and no word about symbol files alone.
object_words() {
  { words | grep -vx symbols; printf '%s\n' gaps report symbolize; } | sort
}
# Both are the same, and not empty.
same() { # NAME WANTED GIVEN
  expect "$1" 0 "${2:?}"$'\n' '' echo "$3"
}

# The last line of install.
installed() { # PREFIX [COMMAND]
  local command=${2:-./install --uninstall $1}
  echo "install: linetab $(<VERSION) is under $1: the programs in bin, man pages, completions and documents in share; \`$command\` removes it"
}
expect 'a prefix' 0 "$(installed "$prefix")"$'\n' '' ./install "$prefix"

# The modules of the scripts are compiled where they are installed, and not where they are staged.
modules_in() { # FOLDER NAME
  (cd "$1/scripts" && find . -name "$2" | sed -E 's,__pycache__/,,; s,[.](cpython.*)?pyc?$,,' | LC_ALL=C sort)
}
compiled() {
  expect 'with compiled modules' 0 "$(installed "$work/compiled")"$'\n' '' env PYTHONDONTWRITEBYTECODE= ./install "$work/compiled"
  same 'each module' "$(modules_in share '*.py')" "$(modules_in "$work/compiled/share/linetab" '*.pyc')"
  expect 'which are removed too' 0 '' '' bash -c './install --uninstall "$0" >/dev/null && find "$0" -type f' "$work/compiled"
  expect 'none below DESTDIR' 0 '' '' bash -c 'PYTHONDONTWRITEBYTECODE= DESTDIR=$0 ./install staged >/dev/null && find "$0" -name "*.pyc"' "$work/compiled"
}

# linetab-object asks the program for its help of a word only where the program is newer than what is kept of it.
kept() {
  local word
  for word in $(words | grep -vx help); do
    expect "the help of $word, kept" 0 '' '' cmp <("$linetab" "$word" --help) "$prefix/share/linetab/words/$word"
  done
  cp -r "$prefix" "$work/kept"
  printf '#!/bin/sh\necho "$*" >>"%s"\nexec "%s" "$@"\n' "$work/calls" "$linetab" >"$work/kept/bin/linetab"
  touch -d 2000-01-01 "$work/kept/bin/linetab"
  object() { # WORD..
    : >"$work/calls"
    "$work/kept/bin/linetab-object" "$@"
  }
  expect 'by a word that is kept' 0 $'yes\n' '' object verify "$work/app"
  expect 'the program runs once' 0 $'1\n' '' grep -c '' "$work/calls"
  expect 'an option that it has not' 2 '' $'error: unexpected argument \'--none\' found\n\n  tip: to pass \'--none\' as a value, use \'-- --none\'\n\nUsage: linetab-object verify [OPTIONS] <FILE>\n\nFor more information, try \'--help\'.\n' \
    object verify --none "$work/app"
  expect 'a word that it has not' 2 '' $'error: unrecognized subcommand \'none\'\n\nUsage: linetab-object <COMMAND>\n\nFor more information, try \'--help\'.\n' \
    object none "$work/app"
  expect 'a path in place of a word' 2 '' $'error: unrecognized subcommand \'../words/verify\'\n\nUsage: linetab-object <COMMAND>\n\nFor more information, try \'--help\'.\n' \
    object ../words/verify "$work/app"
  touch "$work/kept/bin/linetab"
  expect 'a word of a newer program' 0 $'yes\n' '' object verify "$work/app"
  expect 'which is asked for its help' 0 $'verify --help\n' '' grep help "$work/calls"
}

# A package is made below DESTDIR, and what is told can be typed.
staged() {
  local stage="$work/a stage" quoted="$work/a\\ stage"
  expect 'below DESTDIR' 0 "$(installed "$stage/a prefix" "DESTDIR=$quoted ./install --uninstall /a\\ prefix")"$'\n' '' \
    env DESTDIR="$stage" ./install '/a prefix'
  expect 'the same as under a prefix' 0 '' '' diff -r "$stage/a prefix" "$prefix"
  expect 'nothing else' 0 $'a prefix\n' '' ls -A "$stage"
  expect 'removed as it was told' 0 '' '' bash -c 'eval "DESTDIR=$0 ./install --uninstall /a\ prefix" >/dev/null && find "$1" -type f' "$quoted" "$stage"
  expect 'a prefix with a blank' 0 "$(installed "$work/a b" "./install --uninstall $work/a\\ b")"$'\n' '' env DESTDIR= ./install "$work/a b"
}
for words in '' "''" --libary '-- x' 'x y' --library --uninstall '--uninstall --library x'; do
  expect "no prefix: $words" 2 '' $'usage: ./install [--library] PREFIX\n       ./install --uninstall PREFIX\n' unwritten bash -c "./install $words"
done
# Where it would be written onto what is read for it.
ln -s "$top" "$work/bin"
for words in install:. library:. install:"$top/share/.." install:"$work" library:"$work"; do
  script=${words%%:*}
  place=${words#*:}
  [ "$place" != "$work" ] || place=$work/bin
  expect "$script onto the sources: $place" 2 '' \
    "$script: $place has the sources, which would be overwritten: give another prefix than ${words#*:}"$'\n' unwritten "./$script" "${words#*:}"
done
expect 'pages onto themselves' 2 '' $'share/pages: . has the pages that are read: give another folder\n' unwritten share/pages . README.md
expect 'a program onto a source' 2 '' $'build: crates.txt is one of the sources that are read: give another file\n' \
  unwritten share/build . linetab crates.txt
expect 'the program' 0 $'yes\n' '' "$linetab" check "${hello[@]}"
python3 tests/images.py elf64 "$work/app" .debug_line=examples/hello.debug_line .debug_line_str=examples/hello.debug_line_str
expect 'linetab-object beside it' 0 $'yes\n' '' "$prefix/bin/linetab-object" check "$work/app" examples/hello.csv
expect 'by a link' 0 $'yes\n' '' \
  bash -c 'ln -s "$0/bin/linetab-object" "$1/link" && "$1/link" check "$1/app" examples/hello.csv' "$prefix" "$work"
expect 'linetab-table beside it' 0 $'low,high,path,line\n0x1000,0x1004,/w/a.c,3\n' '' bash -c '"$0/bin/linetab-table" lines -' "$prefix" \
  <<<'0x1000 0x1004 /w/a.c:3'
documents() {
  local pages=(*.md LICENSE-* docs/*.md docs/*.svg bench/*.md)
  same 'documents' "$(printf '%s\n' "${pages[@]}" | LC_ALL=C sort)" \
    "$(cd "$prefix/share/doc/linetab" && find . -type f -printf '%P\n' | LC_ALL=C sort)"
  expect 'links between them' 0 '' '' python3 - "$prefix/share/doc/linetab" <<'END'
import os, re, sys
for at, _, names in os.walk(sys.argv[1]):
    for name in names:
        with open(os.path.join(at, name)) as page:
            for _, link in re.findall(r"(\]\(|(?:src|srcset|href)=\")([^)\s#\":]+)(?=[)#\"])", page.read() if name.endswith(".md") else ""):
                os.path.exists(os.path.join(at, link)) or print("%s: %s isn't there" % (name, link))
END
  # Sources aren't installed, so a link to one is its text.
  printf '%s\n' '[a](docs/TABLES.md#b), [`c`](crates.txt), ![d](https://e.f/g), [h [i]](docs/../LICENSE-MIT)' >"$work/page.md"
  expect 'a page with links' 0 $'[a](docs/TABLES.md#b), `c`, ![d](https://e.f/g), [h [i]](docs/../LICENSE-MIT)\n' '' python3 -B -c 'import importlib.machinery, sys
pages = importlib.machinery.SourceFileLoader("pages", "share/pages").load_module()
sys.stdout.write(pages.installed("page.md", open(sys.argv[1]).read(), ["docs/TABLES.md", "LICENSE-MIT"]))' "$work/page.md"
}

lists() {
  same 'each file is listed' "$(cd "$prefix" && find . -type f -printf '%P\n' | LC_ALL=C sort)" "$(<"$prefix/share/linetab/programs.files")"
  cp -r "$prefix" "$work/removed"
  echo mine >"$work/removed/share/man/man1/mine.1"
  # Python keeps what it compiled.
  expect 'its linetab-object' 0 $'yes\n' '' env -u PYTHONDONTWRITEBYTECODE "$work/removed/bin/linetab-object" verify "$work/app"
  printf '#!/bin/sh\nexec awk %s\n' "'{ print \$1; print \"/w/a.c:3\" }'" >"$work/addr2line" && chmod +x "$work/addr2line"
  python3 tests/images.py elf64 "$work/code" .debug_line=examples/hello.debug_line code=0x1000,0x8
  expect 'its linetab-table' 0 $'low,high,path,line\n0x1000,0x1008,/w/a.c,3\n' '' \
    env -u PYTHONDONTWRITEBYTECODE "$work/removed/bin/linetab-table" points "$work/addr2line" "$work/code"
  expect 'it is uninstalled' 0 "install: removed $(($(find "$prefix" -type f | wc -l) - 1)) files that were put under $work/removed"$'\n' '' \
    ./install --uninstall "$work/removed"
  expect 'but not what was there before' 0 $'bin\nshare\nshare/man\nshare/man/man1\nshare/man/man1/mine.1\n' '' \
    bash -c 'cd "$0" && find . -mindepth 1 -printf "%P\n" | LC_ALL=C sort' "$work/removed"
  expect 'only once' 1 '' "install: nothing is installed under $work/removed: it has no share/linetab/*.files"$'\n' ./install --uninstall "$work/removed"
  # What an earlier version had put there is removed too; what a list names elsewhere is no file of it.
  mkdir -p "$work/removed/share/linetab"
  printf '%s\n' bin/old share/man/man1/mine.1 >"$work/removed/share/linetab/programs.files"
  : >"$work/removed/bin/old"
  expect 'over an earlier one' 0 "$(installed "$work/removed")"$'\n' '' ./install "$work/removed"
  expect 'the earlier one too' 0 '' '' bash -c './install --uninstall "$0" >/dev/null && find "$0" -type f' "$work/removed"
  mkdir -p "$work/removed/share/linetab"
  for words in ../outside /outside a//b ''; do
    printf '%s\n' bin/old "$words" >"$work/removed/share/linetab/programs.files"
    : >"$work/removed/bin/old"
    expect "a list with '$words'" 1 '' "install: a list names what isn't below $work/removed: $words"$'\n' ./install --uninstall "$work/removed"
    expect 'which removes nothing' 0 '' '' test -e "$work/removed/bin/old"
  done
}

expect 'no file that all may write' 0 '' '' find "$prefix" -perm /022
expect 'licences' 0 '' '' \
  bash -c 'for file in LICENSE-APACHE LICENSE-MIT; do cmp $file "$0/share/doc/linetab/$file" || exit; done' "$prefix"

in_the_way() {
  local there=$work/in\ the\ way before
  mkdir -p "$there/elsewhere/a prefix"
  # The same, by a relative name, where CDPATH has such a folder too; and by two at once.
  expect 'a relative prefix' 0 '' '' \
    bash -c 'cd "$1" && CDPATH=$1/elsewhere "$0/install" "a prefix" >/dev/null && diff -r "a prefix" "$2"' \
    "$top" "$there" "$prefix"
  expect 'two at once' 0 '' '' \
    bash -c '{ ./install "$0/both" & ./install "$0/both" && wait "$!"; } >/dev/null && diff -r "$0/both" "$1"' "$there" "$prefix"
  : >"$there/file"
  for before in "$there/file" "$there/file/within" /proc/none; do
    expect "nothing can be written: $before" 1 '' "install: nothing can be written to $before/bin"$'\n' last_line ./install "$before"
  done
  mkdir -p "$there/folder/bin/linetab"
  expect 'a folder in the place of a file' 1 '' '' bash -c './install "$0" 2>/dev/null' "$there/folder"
  expect 'which is left empty' 0 '' '' find "$there/folder" -mindepth 3
  # Half of the program could be written.
  rm -rf "$there/folder/bin/linetab"
  echo before >"$there/folder/bin/linetab"
  expect 'a full disk' 1 '' '' bash -c 'trap "" XFSZ; ulimit -f $(($(stat -c %s "$1") / 2048)); ./install "$0" 2>/dev/null' "$there/folder" "$program"
  expect 'which leaves what was there' 0 $'before\n' '' cat "$there/folder/bin/linetab"
  expect 'and nothing else' 0 $'linetab\n' '' ls -A "$there/folder/bin"
}
# The last line of a command's standard error, and its status.
last_line() { # COMMAND..
  "$@" 2>&1 >/dev/null | tail -n 1 >&2
  return "${PIPESTATUS[0]}"
}

manual() {
  local page=$prefix/share/man/man1/linetab.1 word
  same 'the words of the man page' "$(words | grep -vx help)" "$(sed -n 's/^\.SS //p' "$page" | sort)"
  for word in $(words | grep -vx help); do
    same "the options of $word in the man page" "$(options "$word")" \
      "$(awk -v word="$word" '/^\.S/ { on = $1 == ".SS" && $2 == word } on && $1 == ".B"' "$page" | sed 's/\\-/-/g' |
        grep -oE -- '--[a-z0-9-]+' | sort)"
  done
  same 'the words of the man page of linetab-object' "$(object_words | grep -vx help)" \
    "$(sed -n 's/^\.SS //p' "$prefix/share/man/man1/linetab-object.1" | sort)"
  same 'the options of check in it' "$(options check linetab-object)" \
    "$(awk '/^\.S/ { on = $1 == ".SS" && $2 == "check" } on && $1 == ".B"' "$prefix/share/man/man1/linetab-object.1" | sed 's/\\-/-/g' |
      grep -oE -- '--[a-z0-9-]+' | sort)"
  expect 'which has those of linetab-object alone' 0 $'--any-build\n--json\n--max\n' '' \
    grep -xE -- '--(any-build|json|max)' <(options check linetab-object)
  same 'the exit statuses are those of README.md' "$(grep '^The exit status is' README.md | tr -d '`')" \
    "$(sed -n 's/\\-/-/g; /^The exit status is/p' "$page")"
  here 'the man page, as mandoc reads it' mandoc || return
  expect 'man pages without faults' 0 '' '' mandoc -T lint -W error "$page" "$prefix/share/man/man1/linetab-object.1" \
    "$prefix/share/man/man1/linetab-table.1"
}

in_bash() {
  local folder=$prefix/share/bash-completion/completions word
  # What is offered after these words.
  offered() { # PROGRAM WORD..
    bash -c 'complete() { :; }; . "$0/$1"; COMP_WORDS=("$@") COMP_CWORD=$(($# - 1)); "_${1//-/_}"
      printf "%s\n" "${COMPREPLY[@]}" | sort' "$folder" "$@"
  }
  same 'words in bash' "$(words)" "$(offered linetab '' | grep -v '^-')"
  for word in $(words | grep -vx help); do
    same "the options of $word in bash" "$(options "$word")" "$(offered linetab "$word" --)"
  done
  same 'options without a word in bash' "$(options)" "$(offered linetab --)"
  same 'the beginning of a word in bash' convert "$(offered linetab con)"
  same 'a choice in bash' $'32\n64' "$(offered linetab convert --format '')"
  made_in_bash
  same 'words of linetab-object in bash' "$(object_words)" "$(offered linetab-object '' | grep -v '^-')"
  for word in $(object_words | grep -vx help); do
    same "the options of linetab-object $word in bash" "$(options "$word" linetab-object)" "$(offered linetab-object "$word" file --)"
  done
}

# Makers and options of linetab-table's help.
makers() {
  "$prefix/bin/linetab-table" --help | sed -nE '/^Makers:/,/^$/s/^  ([a-z0-9-]+) .*/\1/p' | sort
}
made_options() {
  "$prefix/bin/linetab-table" --help | sed -nE 's/^ +(-[a-zA-Z], )?(--[a-z-]+) .*/\2/p' | sort
}
made_in_bash() {
  made() {
    bash -c 'complete() { :; }; . "$0"; COMP_WORDS=("$@") COMP_CWORD=$(($# - 1)); _linetab_table
      printf "%s\n" "${COMPREPLY[@]}" | sort' "$prefix/share/bash-completion/completions/linetab-table" "$@"
  }
  same 'makers in bash' "$(makers)" "$(made linetab-table '' | grep -v '^-')"
  same 'options of makers in bash' "$(made_options)" "$(made linetab-table gsym-17 --)"
  same 'a command in bash' bash "$(made linetab-table points bash | grep -x bash | head -n 1)"
  same 'options of makers in the man page' "$(made_options)" \
    "$(sed -nE 's/\\-/-/g; s/^\.B (-[a-zA-Z], )?(--[a-z-]*).*/\2/p' "$prefix/share/man/man1/linetab-table.1" | sort)"
  same 'makers in the man page' "$(makers)" \
    "$(sed -nE '/^\.SH MAKERS/,/^\.SH OPTIONS/s/^\.B ([a-z0-9\\-]+).*/\1/p' "$prefix/share/man/man1/linetab-table.1" | tr -d '\\' | sort)"
  expect 'makers with a version' 0 $'gsym-17\n' '' grep ^gsym <(makers)
}

in_fish() {
  local word
  here 'completions of fish' fish || return
  # Files of this folder are offered beside; there are none.
  offered() {
    (cd "$work/none" && HOME=$work fish --no-config -c "source '$prefix/share/fish/vendor_completions.d/linetab.fish'
      source '$prefix/share/fish/vendor_completions.d/linetab-object.fish'; complete -C '$1'") | cut -f 1 | sort -u
  }
  mkdir -p "$work/none"
  same 'words in fish' "$(words)" "$(offered 'linetab ')"
  for word in $(words | grep -vx help); do
    same "the options of $word in fish" "$(options "$word")" "$(offered "linetab $word --")"
  done
  same 'options without a word in fish' "$(options)" "$(offered 'linetab --')"
  same 'a choice in fish' $'big\nlittle' "$(offered 'linetab convert --order ')"
  same 'makers in fish' "$(makers)" "$(cd "$work/none" && HOME=$work fish --no-config -c "
    source '$prefix/share/fish/vendor_completions.d/linetab-table.fish'; complete -C 'linetab-table '" | cut -f 1 | sort -u)"
  same 'words of linetab-object in fish' "$(object_words)" "$(offered 'linetab-object ')"
}

in_zsh() {
  local word
  here 'completions of zsh' zsh || return
  # What the completion hands to zsh's own functions, which are other ones here.
  offered() {
    zsh -fc 'file=$1; shift; words=("$@"); CURRENT=$#words
      _describe() { print -l ${${(P)2}%%:*} }
      _arguments() { print -rl -- "$@" | sed -n "s/^\(--[a-z0-9-]*\)\[.*/\1/p" }
      . $file' zsh "$prefix/share/zsh/site-functions/_linetab" "$@" | sort
  }
  same 'words in zsh' "$(words)" "$(offered linetab '')"
  for word in $(words | grep -vx help); do
    same "the options of $word in zsh" "$(options "$word")" "$(offered linetab "$word" '')"
  done
  same 'options without a word in zsh' "$(options)" \
    "$(zsh -fc 'compadd() { shift; print -l -- $@ }; PREFIX=-; words=(linetab -); CURRENT=2; . $1' zsh \
      "$prefix/share/zsh/site-functions/_linetab" | sort)"
  same 'makers in zsh' "$(makers)" "$(zsh -fc '_arguments() { print -rl -- "$@" | sed -n "s/^1:maker:(\(.*\))/\1/p" }; . $1' zsh \
    "$prefix/share/zsh/site-functions/_linetab-table" | tr ' ' '\n' | sort)"
  expect 'its commands in zsh' 0 $'_linetab _linetab-object\n' '' zsh -fc 'fpath=($1 $fpath); autoload -Uz compinit; compinit -D -u
    print $_comps[linetab] $_comps[linetab-object]' zsh "$prefix/share/zsh/site-functions"
}

release() {
  local name made
  name=linetab-$(<VERSION)-x86_64-linux
  made=$name.tar.gz$'\n'
  here 'a package of Debian' dpkg-deb && made+=linetab_$(<VERSION)_amd64.deb$'\n'
  mkdir -p "$work/one" "$work/two" "$work/elsewhere/two" "$work/unpacked"
  expect 'an archive' 0 "$made" '' bash -c './release "$0" | cut -c 67-' "$work/one"
  # GIT_TEST_ASSUME_DIFFERENT_OWNER has git take the folder for another user's.
  expect 'the same by another umask and CDPATH, by options of tar and gzip, and where git refuses the folder' 0 '' '' bash -c 'umask 077
    export CDPATH=$1/elsewhere TAR_OPTIONS=--xattrs GZIP=-1 GIT_TEST_ASSUME_DIFFERENT_OWNER=1
    cd "$1" && "$0/release" two >/dev/null && diff -r one two' "$top" "$work"
  for words in "''" - --libary 'x y'; do
    expect "no folder: $words" 2 '' $'usage: ./release [--library] [FOLDER]\n' unwritten bash -c "./release $words"
  done
  expect 'a file in the place of a folder' 1 '' "release: nothing can be written to $work/one/$name.tar.gz"$'\n' \
    last_line ./release "$work/one/$name.tar.gz"
  expect 'a time that is none' 2 '' $'release: SOURCE_DATE_EPOCH is a number of seconds, and not today\n' \
    env SOURCE_DATE_EPOCH=today ./release "$work/two"
  expect 'its sum' 0 "$name.tar.gz: OK"$'\n' '' bash -c 'cd "$0" && sha256sum -c "$1.tar.gz.sha256"' "$work/one" "$name"
  expect 'the same as under a prefix' 0 '' '' \
    bash -c 'tar xzf "$0" -C "$1/unpacked" && diff -r --exclude README "$1/unpacked/$2" "$1/prefix"' \
    "$work/one/$name.tar.gz" "$work" "$name"
  needs "$work/unpacked/$name"
  # A root of nothing but the program, what it is linked with, and a section.
  local root=$work/root file enter=(chroot)
  [ "$(id -u)" -eq 0 ] || enter=(unshare -r chroot)
  mkdir -p "$root" && cp -r "$work/unpacked/$name" "$root/opt" && cp -r examples "$root"
  for file in $(ldd "$linetab" | grep -oE '/[^ ]+'); do
    mkdir -p "$root${file%/*}" && cp -L "$file" "$root$file"
  done
  expect 'what it is linked with' 0 $'ld-linux-x86-64.so.2\nlibc.so.6\n' '' \
    bash -c 'cd "$0" && find . -name "*.so*" | sed "s,.*/,," | sort' "$root"
  "${enter[@]}" "$root" /opt/bin/linetab --help >"$work/help" 2>&1 || [ -s "$work/help" ] && ! grep -q '^Usage' "$work/help" &&
    { skip "no other root can be entered"; return; }
  expect 'under a bare root' 0 $'yes\n' '' "${enter[@]}" "$root" /opt/bin/linetab check "${hello[@]}"
  [[ $made == *.deb* ]] || return
  debian "$work/one/linetab_$(<VERSION)_amd64.deb" "$work/unpacked/$name"
  expect 'the package under a bare root' 0 $'yes\n' '' bash -c 'dpkg-deb -x "$0" "$1" && shift && "${@:2}"' "$work/one/linetab_$(<VERSION)_amd64.deb" \
    "$root" -- "${enter[@]}" "$root" /usr/bin/linetab check "${hello[@]}"
  scripts_in "$root" "${enter[@]}"
}

# The scripts of the package under a root that also has Python, for which the package asks, and /proc.
scripts_in() { # ROOT ENTER..
  local python modules file enter=(unshare --mount --pid --fork)
  [ "$2" = chroot ] || enter=(unshare --map-root-user --mount --pid --fork)
  enter+=(bash -c 'mount -t proc proc "$0/proc" && exec chroot "$0" "$@"' "$1")
  { read -r python; read -r modules; } < <(python3 -c 'import os, sys, sysconfig
print(os.path.realpath(sys.executable), sysconfig.get_path("stdlib"), sep="\n")')
  mkdir -p "$1/proc" "$1/tmp" "$1${python%/*}" "$1$modules"
  cp "$python" "$1$python"
  tar -C "$modules" --exclude=site-packages --exclude=dist-packages --exclude=test --exclude=__pycache__ -c . | tar -C "$1$modules" -x
  while IFS= read -r file; do
    mkdir -p "$1${file%/*}" && cp -L "$file" "$1$file"
  done < <(ldd "$python" "$modules"/lib-dynload/*.so | grep -oE '/[^ :]+' | sort -u)
  "${enter[@]}" "$python" -c '' 2>/dev/null || { skip "no root with Python and /proc can be entered"; return; }
  python3 tests/images.py elf64 "$1/app" .debug_line=examples/hello.debug_line .debug_line_str=examples/hello.debug_line_str
  echo '0x1000 /w/a.c:3' >"$1/lines"
  expect 'linetab-object of the package under a bare root' 0 $'yes\n' '' "${enter[@]}" "$python" -S /usr/bin/linetab-object check app examples/hello.csv
  expect 'linetab-table of the package under a bare root' 0 $'low,high,path,line\n0x1000,0x1001,/w/a.c,3\n' '' \
    "${enter[@]}" "$python" -S /usr/bin/linetab-table lines lines
}

# The package of Debian has the files of the archive, owned by root, and says what it needs.
debian() { # PACKAGE FOLDER
  expect 'the package' 0 $'linetab\nlibc6 (>= '"$(sed -n 's/.*GNU C library, version \([0-9.]*\).*/\1/p' "$2/README")"$'), python3 (>= 3.9)\n' '' \
    bash -c 'for field in Package Depends; do dpkg-deb -f "$0" "$field"; done' "$1"
  expect 'its files' 0 '' '' bash -c 'dpkg-deb -x "$0" "$1/deb" && diff -r --exclude README "$2" "$1/deb/usr"' "$1" "$work" "$2"
  expect 'their owner' 0 $'root/root\n' '' bash -c 'dpkg-deb -c "$0" | tr -s " " | cut -d " " -f 2 | sort -u' "$1"
}

# What the page at the top of the archive says that it needs, and how it is copied and removed.
needs() { # FOLDER
  local at
  same 'it names linetab, its version and the system' "linetab $(<VERSION) for Linux on x86-64" "$(head -n 1 "$1/README")"
  if here 'the C library that the release needs' readelf; then
    at=$(LC_ALL=C readelf --version-info --wide "$1/bin/linetab" | grep -o 'GLIBC_[0-9.]*' | sort -uV | tail -n 1)
    same 'the C library that it needs' "GNU C library, version ${at#GLIBC_} or later" "$(grep -o 'GNU C library, .* later' "$1/README")"
  fi
  expect 'and python3' 0 '' '' grep -q '^linetab-object and linetab-table need python3' "$1/README"
  mkdir "$work/copied"
  expect 'copied as it says' 0 $'yes\n' '' bash -c 'cd "$1" &&
    eval "$(sed -n "s,^ *\(cp .*\) /usr/local$,\1 \"\$2\",p" README)" && cd "$0" &&
    "$2/bin/linetab" check "${@:3}"' "$top" "$1" "$work/copied" "${hello[@]}"
  expect 'and removed as it says' 0 '' '' \
    bash -c 'cd "$1" && eval "$(sed -n "s,^ *cd /usr/local && ,,p" "$0/README")" && find . -type f' "$1" "$work/copied"
}

# The head of each script, where its help is asked for, also behind other words. It begins with the line that other words get.
helps() {
  local script
  for script in install library release test must-fail/try bench/peers/build share/prove share/build; do
    expect "the help of $script" 0 "$(sed -n '2s/^# usage: /usage: /p' "$script")"$'\n' '' bash -c '"./$0" x --help | head -n 1' "$script"
    expect "the help of $script in short" 0 "$(sed -n '2,/^[^#]/s/^# //p' "$script")"$'\n' '' "./$script" -h
    [[ $script == */try ]] ||
      expect "other words to $script" 2 '' "$(sed -nE '2,/^[^#]/s/^# ((usage:|      ) .*)/\1/p' "$script")"$'\n' "./$script" --other x
  done
  expect 'the help of a test' 0 "$(sed -n '2s/^# //p' tests/install.sh)"$'\n' '' bash -c 'tests/install.sh --help | head -n 1'
}

compiled
kept
staged
in_the_way
documents
lists
helps
manual
in_bash
in_fish
in_zsh
release
finish
