#!/usr/bin/env bash
# The scripts of bench/, but for what they measure: their help; that bench/producers can be taken as a module; what bench/makers prints
# of a small program; and that docs/speed.svg is what bench/plot makes of bench/RESULTS.md, with each ratio of its table that is beside
# one of those readers.
cd "$(dirname "$(readlink -f -- "$0")")/.." || exit 1
. tests/check.bash

for script in bench/*; do
  [ -d "$script" ] || [[ $script == *.md || $script == *.py ]] || expect "the help of $script" 0 '' '' bash -c '"$0" --help | grep "$0" >/dev/null' "$script"
done
expect 'what bench/producers tries' 0 $'`gcc -g`\nyes\n' '' python3 -B - <<'END'
import importlib.machinery
producers = importlib.machinery.SourceFileLoader("producers", "bench/producers").load_module()
print(producers.shown("gcc -g main.c part.c"))
assert producers.shown(producers.APART + " && rm app.debug") == "`APART && rm app.debug`"
# Each case has its tools and a command, and advice that is followed gives another command.
assert all(tools and command for _, cases in producers.PARTS for tools, command, *_ in cases)
assert all(tools and command != advised for tools, command, advised in producers.ADVISED)
# Followed advice, of programs that were made elsewhere: as it is, of another option, and of one that doesn't help.
note = "its unit is of version 4; linetab reads DWARF 5 alone: without --no-older it is upgraded first; to build it anew: compile with -g5, or -g6"
upgraded = "its 2 units of version 3 and 4 were upgraded to version 5: offsets of units are others, which linetab-object upgrade prints"
said = {("cc -g",): ("yes", [upgraded]), ("cc -g", "--no-older"): ("no 25 malformed at 0x1f: version 4", [note]), ("cc -g5",): ("yes", [])}
producers.asked = lambda command, target="app", *options: said.get((command, *options), ("no 25", []))
often = {}
assert producers.row(([], "cc -g"), often) == ("`cc -g`", "yes | *version 3 and 4*")
assert often == {"version 3 and 4": upgraded}
assert producers.row(([], "cc -g5"), {}) == ("`cc -g5`", "yes | ")
wrong = []
print(producers.followed(([], "cc -g", "cc -g5"), wrong)[1].rpartition(" | ")[2])
assert not wrong
producers.followed(([], "cc -g", "cc -g6"), wrong)
producers.followed(([], "cc -g", "cc -g7"), wrong)
assert [it.split(": ")[1] for it in wrong] == ["no 25", "-g7 isn't what is advised", "no 25"], wrong
END
expect 'bench/dump_syms onto itself' 64 '' $'bench/dump_syms: bench has this script, which would be overwritten: give another folder\n' \
  unwritten bench/dump_syms bench
if here 'tables by bench/makers' cc objcopy; then
  mkdir "$work/bin"
  # In the place of Breakpad's, which may not be here: a function for each span of the program's own table.
  cat >"$work/bin/dump_syms" <<'END'
#!/usr/bin/env python3
import csv, subprocess, sys
table = subprocess.run(["./linetab-object", "table", "--lines", sys.argv[1]], stdout=subprocess.PIPE, text=True).stdout
print("MODULE Linux x86_64 000000000000000000000000000000000 app")
spans = [(int(row["low"], 16), int(row["high"], 16), row["path"], row["line"]) for row in csv.DictReader(table.splitlines())]
paths = sorted({path for _, _, path, _ in spans})
for number, path in enumerate(paths):
    print("FILE", number, path)
for low, high, path, line in spans:
    print("FUNC %x %x 0 f\n%x %x %s %d" % (low, high - low, low, high - low, line, paths.index(path)))
END
  chmod +x "$work/bin/dump_syms"
  printf 'int main(void) {\n  return 0;\n}\n' >"$work/a.c"
  cc -g -gdwarf-5 -o "$work/app" "$work/a.c"
  expect 'tables by bench/makers' 0 $'1\n' '' bash -c 'PATH=$0/bin:$PATH bench/makers "$0/app" |
    grep -cE "^\| app \| dump_syms \| \`yes\`, answers ([0-9]+) of \1 \| 0 \| 0 \|\$"' "$work"
fi
expect 'the picture of the measured times, by bench/plot' 0 '' '' bash -c 'bench/plot | cmp - docs/speed.svg'
expect 'of another folder' 0 '' '' bash -c 'cd / && "$0/bench/plot" "$0/bench/RESULTS.md" | cmp - "$0/docs/speed.svg"' "$top"
expect 'its figures' 0 '' '' python3 -B - <<'END'
import re, xml.etree.ElementTree as tree
rows = [row.split("|") for row in re.findall(r"^\|(.*)\|$", open("bench/RESULTS.md").read(), re.M)]
beside = [row for row in rows if len(row) == 6 and re.search("gimli|libdw|llvm", row[2])]
assert beside
texts = [it.text for it in tree.parse("docs/speed.svg").iter("{http://www.w3.org/2000/svg}text")]
for section, word, other, ratio, *_ in beside:
    for text in (section.strip(), word.replace("`", "").strip(), "beside " + other.replace("`", "").strip()):
        assert text in texts, text
figures = sorted(ratio.split()[0] for _, _, _, ratio, *_ in beside)
assert figures == sorted(text for text in texts if re.fullmatch(r"\d\.\d\d", text)), figures
END
# A picture of other figures: of a table with one section, and of none.
printf '%s\n' '| s, 1 MB | `lookup` | rows by gimli | 0.50 (0.25 to 1.20) | 1 | 2 |' \
  '| s, 1 MB | `table` | `table` | 3.00 (1.00 to 9.00) | 1 | 2 |' >"$work/one.md"
expect 'a bar' 0 $'0\n0.5\nas long\n1.5\n0.50\n' '' \
  bash -c 'bench/plot "$0" | sed -nE "s/^<text.*>([0-9.]+|as long)<.*/\1/p"' "$work/one.md"
: >"$work/none.md"
expect 'no figures' 1 '' "bench/plot: $work/none.md has a table of 0 sections, and bars are drawn for one or two"$'\n' bench/plot "$work/none.md"
for words in --other 'a b'; do
  expect "words: $words" 2 '' $'usage: bench/plot [RESULTS] >docs/speed.svg\n' bash -c "bench/plot $words"
done
expect 'help' 0 $'usage: bench/plot [RESULTS] >docs/speed.svg\n' '' bash -c 'bench/plot --help | sed -n 1p'
finish
