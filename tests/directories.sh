#!/usr/bin/env bash
# The directories in which units were compiled, as linetab-object reads them of .debug_info: files that are made up, and programs of the
# compilers that are here, of which readelf tells the same.
cd "$(dirname "$(readlink -f -- "$0")")/.." || exit 1
. tests/check.bash
expect 'files that are made up' 0 $'200 files\n' '' python3 tests/directories.py 200

# The directories of the units of a program that name a unit of .debug_line of another version than 5, as readelf tells them.
read_of() { # FILE
  { echo unit,directory
    readelf --debug-dump=info "$1" 2>/dev/null | awk '
      /Compilation Unit @/ { told(); line = dir = "" }
      /DW_AT_comp_dir/ && dir == "" { sub(/.*: (\(.*\): )?/, ""); sub(/[ \t]*$/, ""); dir = $0 }
      /DW_AT_stmt_list/ && line == "" { line = $NF }
      function told() { if (line != "" && dir != "") print line, dir }
      END { told() }' | while read -r line directory; do
        echo "$((line)),$directory"
      done | sort -t , -k 1n -u
  }
}
programs() {
  local name tools words
  here 'programs' readelf gcc || return
  mkdir -p "$work/a" "$work/b"
  printf 'int g(int x) { return x + 1; }\n' >"$work/a/g.c"
  printf 'int g(int);\nint main(int n, char **v) { return g(n); }\n' >"$work/b/main.c"
  while IFS=: read -r name tools words; do
    here "$name" $tools || continue
    (cd "$work/a" && $words -c g.c && cd ../b && $words -c main.c && $words -o ../app main.o ../a/g.o) >"$work/made" 2>&1 ||
      { skip "$tools can't make it here: $name"; continue; }
    expect "$name" 0 "$(read_of "$work/app")"$'\n' '' python3 tests/directories.py "$work/app"
    expect "$name, and both folders" 0 "$work/a"$'\n'"$work/b"$'\n' '' bash -c 'python3 tests/directories.py "$0" | grep -oE "$1/[ab]$" | sort -u' \
      "$work/app" "$work"
  done <<'END_OF_LIST'
gcc, version 2:gcc:gcc -gdwarf-2 -gstrict-dwarf
gcc, version 3:gcc:gcc -gdwarf-3
gcc, version 4:gcc:gcc -gdwarf-4
gcc, version 4, optimized:gcc:gcc -gdwarf-4 -O2 -flto
gcc, version 4, in the 64-bit format:gcc:gcc -gdwarf-4 -gdwarf64
gcc, version 4, compressed:gcc:gcc -gdwarf-4 -gz
clang, version 2:clang:clang -gdwarf-2
clang, version 4:clang:clang -gdwarf-4
clang, version 4, with units apart:clang:clang -gdwarf-4 -gsplit-dwarf
END_OF_LIST
  # Units of version 5 of .debug_info with line units of version 4, as where an assembler writes these.
  printf '.text\nnop\n' >"$work/a/g.s"
  (cd "$work/a" && as --gdwarf-4 -o s.o g.s && gcc -gdwarf-5 -o ../app ../b/main.c g.c s.o) >"$work/made" 2>&1 || return
  expect 'versions 4 and 5' 0 "$(python3 tests/directories.py "$work/app" | head -n 1; echo "$work/a")"$'\n' '' \
    bash -c 'python3 tests/directories.py "$0" | sed "s/^[0-9]*,//"' "$work/app"
}
programs
finish
