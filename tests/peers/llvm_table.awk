# A table of the rows that `llvm-dwarfdump --debug-line` prints: a span for each two rows that follow one another at
# different addresses, but for sequences that begin at the address `dead`.
function number(text,   i, n) {
  for (i = 3; i <= length(text); i++) n = n * 16 + index("0123456789abcdef", substr(text, i, 1)) - 1
  return n + 0
}
function flag(name,   i) {
  for (i = 7; i <= NF; i++) if ($i == name) return 1
  return 0
}
/^debug_line\[/ { unit = $1; gsub(/^debug_line\[|\]$/, "", unit); unit = number(unit) }
/^0x[0-9a-f]+ +[0-9]+ +[0-9]+ +[0-9]+ +[0-9]+ +[0-9]+/ {
  if (!within) live = $1 != dead
  else if (live && $1 != before) print before ",0," $1 ",0," unit "," answer
  within = !flag("end_sequence")
  before = $1
  answer = $4 "," $2 "," $3 "," flag("is_stmt")
}
