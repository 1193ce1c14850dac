# The rows that `llvm-dwarfdump --debug-line` prints, as `linetab dump --rows` does, without operation indices.
function hex(text) { sub(/^0x0*/, "", text); return "0x" (text == "" ? "0" : text) }
function flag(name,   i) {
  for (i = 7; i <= NF; i++) if ($i == name) return 1
  return 0
}
/^debug_line\[/ { count = 0 }
/^0x[0-9a-f]+ +[0-9]+ +[0-9]+ +[0-9]+ +[0-9]+ +[0-9]+/ {
  marks = (flag("basic_block") ? "b" : "") (flag("end_sequence") ? "e" : "") (flag("prologue_end") ? "p" : "") (flag("epilogue_begin") ? "g" : "")
  print "row", count++, hex($1), $4, $2, $3, flag("is_stmt"), (marks == "" ? "-" : marks), $5, $6
}
