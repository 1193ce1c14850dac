# The same of what `readelf --debug-dump=rawline` prints, but for formats, which it doesn't say, and sums, which it
# takes for numbers.
function path(   text) {
  text = $0
  if (match(text, /offset: (0x)?[0-9a-f]+\)/)) {
    text = substr(text, RSTART + 8, RLENGTH - 9)
    sub(/^0x/, "", text)
    return "line_strp:0x" text
  }
  sub(/^.*\t/, "", text)
  return "\"" text "\""
}
function column(name,   i) {
  for (i = 1; i <= columns; i++) if (heads[i] == name) return $i
  return ""
}
/^ *Offset: / { offset = $2; sub(/^0x/, "", offset) }
/^ *Length: / { unit_length = $2 }
/^ *Address size/ { address_size = $NF }
/^ *Minimum Instruction Length:/ { minimum = $NF }
/^ *Maximum Ops per Instruction:/ { max_ops = $NF }
/^ *Initial value of 'is_stmt':/ { default_is_stmt = $NF }
/^ *Line Base:/ { line_base = $NF }
/^ *Line Range:/ { line_range = $NF }
/^ *Opcode Base:/ {
  print "unit", "0x" offset, unit_length
  print "header", address_size, minimum, max_ops, default_is_stmt, line_base, line_range, $NF
}
/^ The Directory Table/ { table = "dir" }
/^ The File Name Table/ { table = "file" }
/^ *Entry\t/ { columns = NF; for (i = 1; i <= NF; i++) heads[i] = $i; next }
/^ *Line Number Statements/ || /^ *No Line Number Statements/ { table = "" }
table == "dir" && /^  [0-9]/ { print "dir", $1, path() }
table == "file" && /^  [0-9]/ {
  print "file", $1, path(), column("Dir") + 0
}
