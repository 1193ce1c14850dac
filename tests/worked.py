"""The worked units: small sections with one unit each, by the names of what they have. Operations stand as `linetab dump --ops` prints
them, a line for each or with semicolons between them.

worked.py units
        prints them for bash: each unit's bytes in hexadecimal digits, by its name, and its operations in `operations`.
worked.py programs OPERATIONS..
        prints the digits of each program, for the numbers that compilers write, a line for each.
worked.py check
        compares them with the units of crates/lnt_tests/src/samples/worked.rt, and with those of crates/lnt_machine/proofs/Worked.antt,
        whose rows the prover computes from the definitions. The last line is 'N passed, M failed'."""

import os
import re
import sys
from dataclasses import replace

from line_section import (ADVANCE_LINE, ADVANCE_PC, CONST_ADD_PC, COPY, DIRECTORY_INDEX, FIXED_ADVANCE_PC, LINE_STRP, MD5, NEGATE_STMT, PATH,
                          SET_ADDRESS, SET_BASIC_BLOCK, SET_COLUMN, SET_DISCRIMINATOR, SET_EPILOGUE_BEGIN, SET_FILE, SET_ISA,
                          SET_PROLOGUE_END, STANDARD_LENGTHS, STRING, DATA16)
from line_writer import END, PLAIN, extended, leb, sleb

TOP = os.path.dirname(os.path.dirname(os.path.abspath(__file__)))
RUST, PROOF = "crates/lnt_tests/src/samples/", "crates/lnt_machine/proofs/Worked.antt"
DATA1, VENDOR = 0x0B, 0x2001  # a form, and the content type of a vendor

# ---- programs

STANDARD = {
    "copy": COPY, "advance_pc": ADVANCE_PC, "set_file": SET_FILE, "set_column": SET_COLUMN, "negate_stmt": NEGATE_STMT,
    "set_basic_block": SET_BASIC_BLOCK, "const_add_pc": CONST_ADD_PC, "set_prologue_end": SET_PROLOGUE_END,
    "set_epilogue_begin": SET_EPILOGUE_BEGIN, "set_isa": SET_ISA,
}


def operation(text, shape):
    """The bytes of an operation. A number of unsigned LEB128 may end in +N: it has N bytes more than it needs."""
    name, *operands = text.split()
    if name == "unknown_extended":
        return extended(int(operands[0]), bytes.fromhex("".join(operands[1:])))
    numbers = [int(each.partition("+")[0], 0) for each in operands]
    if name == "advance_line":
        return bytes([ADVANCE_LINE]) + sleb(numbers[0])
    lebs = [leb(number, int(each.partition("+")[2] or 0)) for number, each in zip(numbers, operands)]
    if name == "special":
        return bytes(numbers)
    if name == "end_sequence":
        return END
    if name == "set_address":
        return extended(SET_ADDRESS, shape.number(numbers[0], shape.address_size))
    if name == "set_discriminator":
        return extended(SET_DISCRIMINATOR, *lebs)
    if name == "fixed_advance_pc":
        return bytes([FIXED_ADVANCE_PC]) + shape.number(numbers[0], 2)
    if name == "unknown_standard":
        return bytes(numbers[:1]) + b"".join(lebs[1:])
    return bytes([STANDARD[name]]) + b"".join(lebs)


def listed(operations):
    """Operations, one by one."""
    return [each.strip() for each in re.split("[;\n]", operations) if each.strip()]


def program(operations, shape):
    return b"".join(operation(each, shape) for each in listed(operations))


# ---- tables

def table(pairs, *entries):
    """A table of entries, whose values have these content types and forms. An entry is its bytes."""
    return bytes([len(pairs)]) + b"".join(leb(content) + leb(form) for content, form in pairs) + leb(len(entries)) + b"".join(entries)


NAMED = [(PATH, STRING)]
IN_DIRECTORY = [*NAMED, (DIRECTORY_INDEX, DATA1)]
FILE = b"a.c\0" + bytes([0])  # a.c in directory 0
DIRECTORIES = table(NAMED, b"/s\0")
FILES = table(IN_DIRECTORY, FILE, FILE)
ONE_FILE = table(IN_DIRECTORY, FILE)
OF_NOTHING = bytes.fromhex("d41d8cd98f00b204e9800998ecf8427e")  # the MD5 sum of no bytes


def with_block(form, size):
    """A directory with a block of a vendor, in this form, whose length has so many bytes."""
    return table([*NAMED, (VENDOR, form)], b"/s\0" + (2).to_bytes(size, "little") + b"\xaa\xbb")


# ---- units

LITTLE = replace(PLAIN, offset_size=4)
BIG = replace(PLAIN, order="big")
ROWS = "special 20; special 75; advance_pc 2; end_sequence"


class Unit:
    """A unit: its operations, its tables, and how it is written."""

    def __init__(self, operations, directories=DIRECTORIES, files=FILES, shape=LITTLE):
        self.operations, self.directories, self.files, self.shape = operations, directories, files, shape

    def bytes(self):
        return self.shape.unit(self.directories + self.files, program(self.operations, self.shape))


def numbered(**numbers):
    """How units are written with other numbers than compilers write."""
    return replace(LITTLE, numbers=replace(LITTLE.numbers, **numbers))


AT = "set_address 0x1000; "
ONE = "special 20; advance_pc 1; end_sequence; "  # a row, and the end of its sequence one byte behind it
UNITS = {
    "plain": Unit(AT + ROWS),
    "wide": Unit(AT + ROWS, shape=BIG),
    "two_rows_at_one_address": Unit(AT + "special 20; advance_line 6; copy; advance_pc 4; end_sequence"),
    "empty_sequence": Unit(AT + ROWS + "; set_address 0x1002; end_sequence"),
    "three_operations_per_instruction": Unit(
        "set_address 0x2000; special 20; advance_pc 2; copy; advance_pc 2; advance_line 1; copy; advance_pc 2; end_sequence",
        shape=numbered(minimum_length=16, max_ops=3)),
    "const_add_pc": Unit(AT + "special 20; const_add_pc; copy; advance_pc 1; end_sequence"),
    "fixed_advance_pc": Unit(AT + "special 20; advance_pc 1; fixed_advance_pc 5; copy; advance_pc 2; end_sequence",
                             shape=numbered(minimum_length=4, max_ops=2)),
    "opcode_base_10": Unit(AT + "advance_line 9; special 10; advance_pc 2; end_sequence",
                           shape=numbered(opcode_base=10, standard_lengths=bytes(STANDARD_LENGTHS[:9]))),
    "opcode_base_15": Unit(AT + "unknown_standard 13 128 5; unknown_standard 14; special 22; advance_pc 2; end_sequence",
                           shape=numbered(opcode_base=15, standard_lengths=bytes([*STANDARD_LENGTHS, 2, 0]))),
    "line_below_zero": Unit(AT + "advance_line -2; copy; advance_pc 2; end_sequence"),
    "one_file_from_zero": Unit(AT + ROWS, files=ONE_FILE),
    "file_zero": Unit(AT + "set_file 0; " + ROWS, files=ONE_FILE),
    "address_wraps": Unit("set_address 0xfffffffffffffff0; special 20; advance_pc 16; end_sequence"),
    "marks_and_discriminator": Unit(AT + "set_discriminator 7; set_prologue_end; set_basic_block; " + ROWS),
    "two_sequences": Unit(AT + "negate_stmt; " + ONE + "set_address 0x2000; " + ONE),
    "touching_sequences": Unit(AT + ONE + "set_address 0x1001; " + ONE),
    "parted_sequences": Unit(AT + ONE + "set_address 0x2000; " + ONE),
    "line_strp_directory": Unit(AT + ROWS, directories=table([(PATH, LINE_STRP)], bytes(4))),
    "padded_operand": Unit(AT + "special 20; special 75; advance_pc 2+1; end_sequence"),
    "listed": Unit("", files=table([*IN_DIRECTORY, (MD5, DATA16)], FILE + OF_NOTHING)),
    "vendor_block1": Unit(AT + ROWS, directories=with_block(0x0A, 1)),
    "vendor_block2": Unit(AT + ROWS, directories=with_block(0x03, 2)),
    "vendor_block4": Unit(AT + ROWS, directories=with_block(0x04, 4)),
}
# Units that aren't among those of worked.rt.
MORE = {
    "open_sequence": Unit(AT + "special 20; special 75; advance_pc 2"),
    "flags_and_discriminator": Unit(AT + "set_discriminator 7; set_basic_block; set_prologue_end; " + ROWS),
    "all_marks": Unit(AT + "set_isa 5; set_column 8; set_prologue_end; set_epilogue_begin; set_basic_block; " + ONE),
    "second_registers": Unit(AT + "negate_stmt; set_column 9; " + ONE + AT + ONE + "negate_stmt"),
}


def put_units():
    print("declare -A operations")
    for name, unit in {**UNITS, **MORE}.items():
        print("%s=%s" % (name, unit.bytes().hex()))
        print("operations[%s]='%s'" % (name, ";".join(each.partition("+")[0] for each in listed(unit.operations))))


# ---- the same units elsewhere


def read(name):
    with open(os.path.join(TOP, name), encoding="utf-8") as file:
        return re.sub(r"(?m)//.*$", "", file.read())


def in_rust():
    """The bytes of the units of worked.rt, by name."""
    units, worked = read(RUST + "units.rt"), read(RUST + "worked.rt")
    macro = re.search(r"(?s)macro_rules! plain \{.*?=> \{\s*unit!\((.*?)\)\s*\};", worked)[1]
    found = {"wide": bytes(int(each, 0) for each in re.search(r"(?s) WIDE: \[u8; \d+\] = \[(.*?)\]", units)[1].replace(",", " ").split())}
    for name, kind, text in re.findall(r"(?s)const (\w+): (?:&\[u8\]|\[u8; \d+\]) = &?(unit|plain)!\((.*?)\);", units + worked):
        if kind == "plain":
            length, minimum, max_ops, operations = re.fullmatch(r"(?s)\s*(\w+) (\w+) (\w+)\s*\[(.*)\]", text).groups()
            text = macro.replace("$length", length).replace("$minimum", minimum).replace("$max_ops", max_ops)
            text = text.replace("$($program)*", operations)
        length, header, *parts = re.fullmatch(r"(?s)\s*(\w+) (\w+)\s*\[(.*?)\]\s*\[(.*?)\]\s*\[(.*?)\]", text).groups()
        parts = [bytes(int(each, 0) for each in part.split()) for part in parts]
        found[name.lower()] = bytes([int(length, 0), 0, 0, 0, 5, 0, 8, 0, int(header, 0), 0, 0, 0]) + b"".join(parts)
    names = re.findall(r"worked!\(&?(\w+),", worked)
    return {name.lower(): found[name.lower()] for name in names}


def in_proof():
    """Of the units of Worked.antt, by name, the numbers of the header that they give, and the operations."""
    text = re.sub(r"(?m)--.*$", "", read(PROOF))
    for name, head, operations in re.findall(r"(?s)\n(\w+) =\s+(simple|unit_of (?:\w+ ){3}(?:known_lengths|\(.*?\)))\s*\((.*?)\)\n\n", text):
        _, minimum, max_ops, opcode_base, lengths = (head if head != "simple" else "unit_of 1 1 13 known_lengths").split(" ", 4)
        lengths = STANDARD_LENGTHS if lengths == "known_lengths" else tuple(map(int, re.findall(r"\d+", lengths)))
        yield name, (int(minimum), int(max_ops), int(opcode_base), bytes(lengths)), [spelled(each) for each in split(operations)]


def split(operations):
    """Operations of the definitions, one by one: ∷ also stands between the operands of unknown ones, in parentheses."""
    flat = re.sub(r"\(([^()]*)∷ \[\]\)", lambda match: match[1].replace("∷", " "), operations).replace("[]", "")
    return [each for each in flat.split("∷") if each.strip()]


def spelled(text):
    """An operation of the definitions as it is printed."""
    text = re.sub(r"\(negsuc (\d+)\)", lambda match: str(-int(match[1]) - 1), text).replace("pos ", "")
    name, *operands = re.sub(r"[()]", " ", text).split()
    return " ".join([re.sub(r"(?<!^)(?=[A-Z])", "_", name).lower(), *(str(int(each.replace("_", ""), 0)) for each in operands)])


def in_decimal(text):
    """An operation with its operands in decimal."""
    name, *operands = text.split()
    return " ".join([name, *(str(int(each.partition("+")[0], 0)) for each in operands)])


def results():
    """Of each unit elsewhere, what is wrong, or None."""
    there = in_rust()
    yield None if set(there) == set(UNITS) else "%sworked.rt has %s" % (RUST, ", ".join(sorted(set(there) ^ set(UNITS))))
    for name, found in there.items():
        yield None if name in UNITS and found == UNITS[name].bytes() else "%s isn't so in %sworked.rt" % (name, RUST)
    proved, units = list(in_proof()), {**UNITS, **MORE}
    yield None if len(proved) == 13 else "%s has %d units" % (PROOF, len(proved))
    for name, numbers, operations in proved:
        unit = units.get(name)
        ours = unit and unit.shape.numbers
        is_so = unit and (ours.minimum_length, ours.max_ops, ours.opcode_base, ours.standard_lengths) == numbers \
            and [in_decimal(each) for each in listed(unit.operations)] == operations
        yield None if is_so else "%s isn't so in %s" % (name, PROOF)


def check():
    found = list(results())
    wrong = [text for text in found if text]
    for text in wrong:
        print("failed: " + text)
    print("%d passed, %d failed" % (len(found) - len(wrong), len(wrong)))
    return 1 if wrong else 0


def main():
    if sys.argv[1:] == ["units"]:
        return put_units()
    if sys.argv[1:2] == ["programs"]:
        return print("\n".join(program(operations, LITTLE).hex() for operations in sys.argv[2:]))
    if sys.argv[1:] == ["check"]:
        return check()
    sys.exit("usage: worked.py units|check, or worked.py programs OPERATIONS..")


if __name__ == "__main__":
    sys.exit(main())
