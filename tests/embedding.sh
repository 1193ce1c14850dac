#!/usr/bin/env bash
# embedding.sh [FOLDER..]: the static library, called from C, C++, Rust and Python: what it tells is what the built program prints,
# of the sections in FOLDERs too, as tests/embedding/callers.py names them. Each request for memory is refused in turn, and eight
# threads call at once. What isn't here, as a compiler, is left out and counted.
cd "$(dirname "$(readlink -f -- "$0")")/.." || exit 1
. tests/check.bash
folders=()
for folder; do
  [ -d "$(from_there "$folder")" ] || { echo "tests/embedding.sh: no folder $folder" >&2; exit 2; }
  folders+=("$(from_there "$folder")")
done
prefix=$work/prefix
hello=(examples/hello.debug_line examples/hello.debug_line_str)
callers=()
strict=(-O1 -Wall -Wextra -Werror -Wno-format-nonliteral -I"$prefix/include")

# What the program prints of the example.
lookup() { # ADDRESS..
  ./linetab lookup "${hello[0]}" "$@" --line-str "${hello[1]}" --quiet
}
# paths NAME OPTION..: those of an example, as the program prints them, without its listed sums.
paths() {
  local from=("examples/$1.debug_line" --line-str "examples/$1.debug_line_str" "${@:2}")
  expect "the paths of $1" 0 "$(./linetab files "${from[@]}" --quiet | sed '1d; s/,[^,]*$//')"$'\n' '' "$work/calls" files "${from[@]}"
}

./library "$prefix" >"$work/log" 2>&1 || { cat "$work/log"; exit 1; }
expect 'beside the programs' 0 "install: linetab $(<VERSION) is under $work/installed: the programs in bin, man pages, completions and documents in share, the library in lib, include and share; \`./install --uninstall $work/installed\` removes it"$'\n' '' \
  ./install --library "$work/installed"
expect 'each file is listed' 0 '' '' bash -c 'cd "$0" && cat share/linetab/*.files | sort -u | diff - <(find . -type f -printf "%P\n" | sort)' "$work/installed"
expect 'in a release' 0 "linetab-$(<VERSION)-x86_64-linux/lib/liblinetab.a"$'\n' '' \
  bash -c './release --library "$0" >"$0/sum" && tar --list --file="$(echo "$0"/linetab-*.tar.gz)" | grep "[.]a$"' "$work"
expect 'the same library there' 0 '' '' cmp "$work/installed/lib/liblinetab.a" "$prefix/lib/liblinetab.a"
here 'the library, called from C and others' cc || finish
library=$prefix/lib/liblinetab.a
heap=$prefix/share/linetab/linetab_heap.c
expect 'nothing but its heap and copies of bytes is asked of the host' 0 \
  $'memcpy\nmemmove\nmemset\nrattle_alloc\nrattle_dealloc\nrattle_realloc\n' '' bash -c 'nm -u "$0" | sed -n "s/^ *U //p" | sort' "$library"

# ---- tables by path, each as it is and with another path at its end
tables=()
for flag in --paths --lines; do
  ./linetab table "$flag" "${hello[0]}" --line-str "${hello[1]}" >"$work/by$flag"
  sed '$s!,[^,]*/!,/elsewhere/!' "$work/by$flag" >"$work/other$flag"
  tables+=("$work/by$flag" "$work/other$flag")
done
checked=$(for table in "${tables[@]}"; do ./linetab check "${hello[0]}" "$table" --line-str "${hello[1]}" --quiet; done)$'\n'
expect 'two are right, and two are not' 0 $'yes\nno 40\nyes\nno 40\n' '' cut -d ' ' -f 1,2 <<<"${checked%?}"

# ---- the examples
wanted=$(lookup 0x1129 0x1137 0x1)$'\n'
expect 'C compiles' 0 '' '' cc "${strict[@]}" -std=c11 -o "$work/lookup" examples/c/lookup.c "$heap" "$library"
expect 'C: lookups' 0 "$wanted" '' "$work/lookup" "${hello[@]}" 0x1129 0x1137 0x1
expect 'C: a static program' 0 "$wanted" '' \
  bash -c 'cc -static -I"$1/include" -o "$2/static" examples/c/lookup.c "$1/share/linetab/linetab_heap.c" "$1/lib/liblinetab.a" && "$2/static" "${@:3}"' \
  '' "$prefix" "$work" "${hello[@]}" 0x1129 0x1137 0x1
expect 'C, by the names of folders' 0 "$wanted" '' \
  bash -c 'cc -I"$1/include" -o "$2/by_names" examples/c/lookup.c "$1/share/linetab/linetab_heap.c" -L"$1/lib" -llinetab && "$2/by_names" "${@:3}"' \
  '' "$prefix" "$work" "${hello[@]}" 0x1129 0x1137 0x1
if here 'C, by pkg-config' pkg-config; then
  expect 'C, by pkg-config' 0 "$wanted" '' bash -c 'export PKG_CONFIG_PATH=$1/lib/pkgconfig
    cc $(pkg-config --cflags linetab) -o "$2/by_pkg_config" examples/c/lookup.c "$(pkg-config --variable=heap linetab)" $(pkg-config --libs linetab) &&
    "$2/by_pkg_config" "${@:3}"' '' "$prefix" "$work" "${hello[@]}" 0x1129 0x1137 0x1
fi
sed -n '/^```c$/,/^```$/{/^```/!p}' docs/EMBEDDING.md >"$work/page.h"
expect 'the page compiles' 0 '' '' cc "${strict[@]}" -I"$work" -std=c11 -o "$work/page" tests/embedding/page.c "$heap" "$library"
expect 'what the page prints' 0 $'/w/src/small/a.c:1\n' '' "$work/page" "${hello[@]}" 0x1137
expect 'what the page prints of no section' 25 '' '' "$work/page" docs/EMBEDDING.md "${hello[1]}" 0x1137
callers+=(--caller "$work/lookup")
if here 'the library, called from C++' g++; then
  expect 'C++ compiles' 0 '' '' \
    bash -c 'cc -c -I"$1/include" -o "$2/heap.o" "$1/share/linetab/linetab_heap.c" && g++ -std=c++11 "${@:3}" -o "$2/lookup_cc" examples/cpp/lookup.cc "$2/heap.o" "$1/lib/liblinetab.a"' \
    '' "$prefix" "$work" "${strict[@]}"
  expect 'C++: lookups' 0 "$wanted" '' "$work/lookup_cc" "${hello[@]}" 0x1129 0x1137 0x1
  callers+=(--caller "$work/lookup_cc")
  expect 'C++ compiles checks' 0 '' '' \
    g++ -std=c++11 "${strict[@]}" -o "$work/checks_cc" tests/embedding/checks.cc "$work/heap.o" "$library"
  expect 'C++: tables by path' 0 "$checked" '' "$work/checks_cc" "${hello[@]}" "${tables[@]}"
fi
if here 'the library, called from Rust' cargo; then
  cp -r examples/rust "$work/rust"
  install -D tests/embedding/checks.rs "$work/rust/src/bin/checks.rs"
  expect 'Rust compiles, and looks up' 0 "$wanted" '' \
    bash -c 'LINETAB=$1 cargo run --offline --quiet --manifest-path "$2/rust/Cargo.toml" --bin lookup -- "${@:3}"' \
    '' "$prefix" "$work" "${hello[@]}" 0x1129 0x1137 0x1
  callers+=(--caller "$work/rust/target/debug/lookup")
  expect 'Rust: tables by path' 0 "$checked" '' \
    bash -c 'LINETAB=$1 cargo run --offline --quiet --manifest-path "$2/rust/Cargo.toml" --bin checks -- "${@:3}"' \
    '' "$prefix" "$work" "${hello[@]}" "${tables[@]}"
fi
expect 'a shared object' 0 '' '' cc -shared -fPIC -I"$prefix/include" -o "$work/liblinetab.so" -Wl,--whole-archive "$library" -Wl,--no-whole-archive "$heap"
expect 'Python: lookups' 0 "$wanted" '' python3 examples/python/lookup.py "$work/liblinetab.so" "${hello[@]}" 0x1129 0x1137 0x1
callers+=(--caller "python3 examples/python/lookup.py $work/liblinetab.so")
expect 'Python: tables by path' 0 "$checked" '' \
  python3 tests/embedding/checks.py examples/python "$work/liblinetab.so" "${hello[@]}" "${tables[@]}"

# ---- each call beside the program, on the generated cases
sanitizers=(-fsanitize=address,undefined -fno-sanitize-recover=all)
echo 'int main(void) { return 0; }' >"$work/try.c"
cc "${sanitizers[@]}" -o "$work/try" "$work/try.c" 2>/dev/null && "$work/try" || { sanitizers=(); skip 'the address sanitizer is not here'; }
calls() { # NAME FILE..
  expect "$1 compiles" 0 '' '' cc "${strict[@]}" -std=c11 -g "${sanitizers[@]}" -o "$work/$1" "${@:2}" "$library" -lpthread
}
calls calls tests/embedding/calls.c "$heap"
expect 'C: tables by path' 0 "$checked" '' \
  bash -c 'for table in "${@:4}"; do "$1" check "$table" "$2" --line-str "$3"; done; true' '' "$work/calls" "${hello[@]}" "${tables[@]}"
mkdir "$work/cases"
for archive in tests/cases/{words,copies,checks_by_path}.tar.gz; do
  tar xzf "$archive" -C "$work/cases"
done
python3 tests/checks.py make --partial "$work/cases" 300 2 examples/hello*.debug_line || exit 1
expect 'each call tells what the generated cases want' 0 '' '' python3 tests/embedding/cases.py "$work/calls" "$work/cases"

# ---- each caller beside the program, on each good section
for folder in examples "$work/cases" "${folders[@]}"; do
  expect "each caller answers as the program does, in ${folder##*/}" 0 '' '' \
    python3 tests/embedding/callers.py "$program" "${callers[@]}" "$folder"
done

calls indexes tests/embedding/indexes.c "$heap"
expect 'lookups by an index, whatever it holds' 0 $'all alike\n' '' "$work/indexes" "${hello[@]}"
calls freeze tests/embedding/freeze.c "$heap"
expect 'spans in a file' 0 $'18 spans, 25 lines, 1 unit of 2 files, a table of 669 bytes: 0\n' '' "$work/freeze" "${hello[@]}" "$work/spans"

paths hello-clang
paths gc-sections --dead 0x0
paths powerpc64 --big

# ---- memory and threads
calls refusing tests/embedding/refusing.c
refused=$(printf '%s: each request\n' linetab_{verify,units,path,table,check,check_paths,check_within})$'\n'
expect 'each request refused' 0 "$refused" '' "$work/refusing" "${hello[@]}" examples/hello.csv "$work/other--paths"
# A table of several blocks, each of which is there when memory for the next one is asked for.
large=(examples/powerpc64.debug_line examples/powerpc64.debug_line_str)
./linetab table "${large[0]}" --line-str "${large[1]}" --big --quiet >"$work/large"
./linetab table --paths "${large[0]}" --line-str "${large[1]}" --big --quiet | sed '$s!,[^,]*/!,/elsewhere/!' >"$work/other_large"
expect 'each request refused, of a large table' 0 "$refused" '' "$work/refusing" "${large[@]}" "$work/large" "$work/other_large" --big
calls threads tests/embedding/threads.c "$heap"
expect 'eight threads' 0 $'all alike\n' '' "$work/threads" "${hello[@]}" examples/hello.csv
finish
