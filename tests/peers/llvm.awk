# The same of what `llvm-dwarfdump --debug-line --verbose` prints.
function hex(text) { sub(/^0x0*/, "", text); return "0x" (text == "" ? "0" : text) }
function number(text,   i, n) {
  sub(/^0x/, "", text)
  for (i = 1; i <= length(text); i++) n = n * 16 + index("0123456789abcdef", substr(text, i, 1)) - 1
  return n + 0
}
function path(   text) {
  text = $0
  if (match(text, /\.debug_line_str\[0x[0-9a-f]*\]/)) {
    return "line_strp:" hex(substr(text, RSTART + 16, RLENGTH - 17))
  }
  sub(/^[^"]*/, "", text)
  return text
}
function end_file() { if (file != "") print "file", file, name, directory, sum; file = "" }
/^debug_line\[/ { end_file(); offset = $1; gsub(/^debug_line\[|\]$/, "", offset); offset = hex(offset) }
$1 == "total_length:" { unit_length = number($2) }
$1 == "format:" { format = substr($2, 6) }
$1 == "address_size:" { address_size = $2 }
$1 == "min_inst_length:" { minimum = $2 }
$1 == "max_ops_per_inst:" { max_ops = $2 }
$1 == "default_is_stmt:" { default_is_stmt = $2 }
$1 == "line_base:" { line_base = $2 }
$1 == "line_range:" { line_range = $2 }
$1 == "opcode_base:" {
  print "unit", offset, format, unit_length
  print "header", address_size, minimum, max_ops, default_is_stmt, line_base, line_range, $2
}
/^include_directories\[/ { k = $0; gsub(/^include_directories\[ *|\].*/, "", k); print "dir", k, path() }
/^file_names\[/ { end_file(); file = $0; gsub(/^file_names\[ *|\].*/, "", file); directory = 0; sum = "-" }
$1 == "name:" { name = path() }
$1 == "dir_index:" { directory = $2 }
$1 == "md5_checksum:" { sum = $2 }
/^ *Address  / { end_file() }
END { end_file() }
