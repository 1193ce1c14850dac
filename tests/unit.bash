# The parts of the unit from which scripts make others, in hexadecimal digits: what stands in its header after header_length, and is
# the same in both formats and byte orders.
numbers=010101fb0e0d                     # one operation an instruction; lines from -5 on, 14 of them; opcodes from 13 on
lengths=000101010100000001000001         # how many operands each standard opcode has
directories=010108012f7300               # one, /s
files=020108020b02612e630000612e630000   # a.c twice, in directory 0
header=$numbers$lengths$directories$files
# Version 5, addresses of 8 bytes and no segments, and header_length, in the 32-bit format and little-endian.
start=0500080029000000
