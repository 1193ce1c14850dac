# The headers that `linetab dump` prints, a line each: `unit OFFSET FORMAT LENGTH`, `header` and its seven numbers,
# `dir K PATH`, `file K PATH DIRECTORY SUM`.
function component(content,   i) {
  for (i = 3; i <= NF; i++) if (index($i, content "=") == 1) return substr($i, length(content) + 2)
  return ""
}
function value_or(value, other) { return value == "" ? other : value }
/^unit / { print }
/^header / { print }
/^dir / { print "dir", $2, component("1") }
/^file / { print "file", $2, component("1"), value_or(component("2"), 0), value_or(component("5"), "-") }
