#!/usr/bin/env bash
# The commands of all pages, which stand in blocks without a language. Those with a `$` before them print what stands below them, and
# all others end with status 0, or check a table of another tool and answer. So do those in tables of examples/README.md, and each
# `docs/list ..` that a page names. They run in a folder like the top of the repository, with a program `app` and a folder `store`
# of debug information.
cd "$(dirname "$(readlink -f -- "$0")")/.." || exit 1
. tests/check.bash
there=$work/there

# Commands that aren't run here, and why.
declare -A elsewhere=(
  [./test]='it runs this script'
  ['./library PREFIX']='tests/embedding.sh runs it'
  ["find store -name '*.debug' | parallel --sshlogin one,two --wd . 'linetab-object check --json {} {.}.csv' >answers.json"]='tests/hosts.sh runs it'
  ['cc -IPREFIX/include app.c PREFIX/share/linetab/linetab_heap.c -LPREFIX/lib -llinetab']='tests/embedding.sh compiles so'
)
# The page whose commands aren't: tests/found.sh runs them, each where its sources are, with whatever versions of the tools are here.
not_run=docs/FOUND.md
# Tools that commands need, and the files that they make, which later commands read.
declare -A makes=(
  [parallel]=tables.log [dump_syms]= [llvm-gsymutil]=app.gsym [llvm-dwarfdump]= [eu-addr2line]= [gdb]= [lldb]= [objdump]= [perf]= [go]=
)
# Commands that read what such a tool made under several names.
declare -A reads=(['linetab-object check -r store store']=parallel)

# A tool that a command needs, or that makes the file which it reads, isn't here.
lacks() { # COMMAND
  local tool
  [ -z "${reads[$1]}" ] || here "$1" "${reads[$1]}" || return 0
  for tool in "${!makes[@]}"; do
    [[ " $1" == *" $tool "* || (-n ${makes[$tool]} && $1 == *"${makes[$tool]}"*) ]] || continue
    here "$1" "$tool" || return 0
  done
  return 1
}
# Runs a command. Where it is shown with what it prints, that is compared, as it may end in a no; else its status has to be 0, but that
# a table of another tool may be wrong, and then the answer is where.
runs() { # COMMAND [WANTED]
  local status
  [ -z "${elsewhere[$1]}" ] || { named[$1]=1; return; }
  lacks "$1" && return
  (cd "$there" && bash -c "$1") >"$work/out" 2>"$work/err"
  status=$?
  [ $# -eq 1 ] || { printf '%s' "$2" | cmp -s - "$work/out"; status=$?; }
  if [[ $1 == *linetab-table*' | linetab-object check '* ]] && grep -q '^no 40 differs at ' "$work/out"; then
    status=0
  fi
  if [ "$status" -eq 0 ]; then
    pass "$1"
  else
    fail "$1"
    ! is_chosen "$1" || head -n 5 "$work/err"
  fi
}

# The blocks of a page: commands with what they print, commands alone, and others, which are passed over.
page() { # FILE
  local line inside= command= wanted=
  while IFS= read -r line; do
    case $line in
      '```'*)
        [ -z "$command" ] || runs "$command" "$wanted"
        command= wanted=
        [ -z "$inside" ] && inside=${line#'```'}: || inside= ;;
      *)
        case $inside in
          :)
            if [[ $line == '$ '* ]]; then
              [ -z "$command" ] || runs "$command" "$wanted"
              command=${line#'$ '} wanted=
            elif [ -n "$command" ]; then
              wanted+=$line$'\n'
            else
              runs "$line"
            fi ;;
        esac ;;
    esac
  done <"$1"
}

declare -A named=()
mkdir -p "$there/store/one" "$there/store/two" "$there/bin"
ln -s "$top"/* "$there"
ln -s "$top/linetab-object" "$top/linetab-table" "$top/linetab" "$there/bin"
PATH=$there/bin:$PATH
for file in app store/one/a.debug store/two/b.debug; do
  python3 tests/images.py elf64 "$there/$file" .debug_line=examples/hello.debug_line .debug_line_str=examples/hello.debug_line_str
done
printf 'MODULE Linux x86_64 0 app\nFILE 1 /w/src/small/a.c\nFUNC 1129 42 0 main\n1129 42 1 1\n' >"$there/app.sym"
for file in README.md CONTRIBUTING.md docs/*.md; do
  [[ $file == "$not_run" || $file == docs/TABLES.md ]] || page "$file"
done
rm "$there/app.sym"
makes[dump_syms]=app.sym
# The Python of a page: a table that is the program's own. What other tools say is of a program with code.
sed -n '/^```python$/,/^```$/{/^```/!p}' docs/TABLES.md >"$work/page.py"
expect "a table of one's own" 0 '' '' bash -c 'cd "$0" && python3 "$1"' "$there" "$work/page.py"
expect 'it is the one that is printed' 0 "$(<"$there/mine.csv")"$'\n' '' \
  ./linetab table --lines examples/hello.debug_line --line-str examples/hello.debug_line_str
if here "a table of a database's own" sqlite3; then
  (cd "$there" && { cat "$work/page.py"
    printf '%s\n' 'import sqlite3' 'with sqlite3.connect("spans.db") as base:' \
      '    base.execute("create table spans (low integer primary key, size integer, path text, line integer)")' \
      '    base.executemany("insert into spans values (?, ?, ?, ?)", known)'; } | python3 -)
  expect "a table of a database's own" 0 "$(<"$there/mine.csv")"$'\n' '' \
    bash -c 'cd "$0" && eval "$(grep -o "sqlite3 -csv[^\`]*" "$1")" | tr -d "\r"' "$there" "$top/docs/TABLES.md"
fi
if here 'what other tools say of a program' cc; then
  echo 'int main(int n, char **v) { return n - 1; }' >"$there/app.c"
  expect 'a program with code' 0 '' '' cc -g -gdwarf-5 -o "$there/app" "$there/app.c"
  page docs/TABLES.md
fi
while IFS= read -r command; do
  runs "$command"
done < <((grep -oE '`\./linetab[^`]*`' examples/README.md; grep -ohE '`docs/list [a-z_ ]+`' ./*.md docs/*.md | sort -u) | tr -d '`')
same_names=$(printf '%s\n' "${!named[@]}" | sort)
expect 'what is run elsewhere stands on a page' 0 "$same_names"$'\n' '' bash -c 'printf "%s\n" "$@" | sort' '' "${!elsewhere[@]}"
finish
