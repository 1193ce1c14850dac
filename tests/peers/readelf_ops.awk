# The operations that `readelf --debug-dump=rawline` prints, as `linetab dump --ops` does. One that it prints as `Set X to N`, or
# `set X to N` after its code, is `set_x N`.
function op(text) { print "op", count++, text }
/^ *Minimum Instruction Length:/ { minimum = $NF }
/^ *Opcode Base:/ { opcode_base = $NF }
/^ *Line Number Statements/ { count = 0 }
!/^  \[0x/ { next }
{ sub(/^  \[0x[0-9a-f]*\]  /, ""); sub(/ *\[reset view\]| \(view [0-9]*\)/, "") }
/^Special opcode / { sub(/:/, "", $3); op("special " ($3 + opcode_base)); next }
/^Extended opcode 1:/ { op("end_sequence"); next }
/^Extended opcode 2:/ { op("set_address " ($NF == "0" ? "0x0" : $NF)); next }
/^Extended opcode [0-9]*: set / { op("set_" tolower($5) " " $NF); next }
/^Copy/ { op("copy"); next }
/^Advance PC by constant / { op("const_add_pc"); next }
/^Advance PC by fixed size amount / { op("fixed_advance_pc " $7); next }
/^Advance PC by / { op("advance_pc " ($4 / minimum)); next }
/^Advance Line by / { op("advance_line " $4); next }
/^Set File Name to entry / { op("set_file " $6); next }
/^Set is_stmt to / { op("negate_stmt"); next }
/^Set basic block/ { op("set_basic_block"); next }
/^Set [a-z_]* to true/ { op("set_" $2); next }
/^Set [A-Za-z_]* to / { op("set_" tolower($2) " " $NF); next }
{ op("? " $0) }
