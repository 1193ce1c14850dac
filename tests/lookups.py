"""Looks up each address of long sequences, and those around them, in several orders, and compares what is printed with the rows that
were written: where all rows are kept, where a column is too large to be kept, and where there are too many; then texts of good and bad
lines, which come whole or piece by piece. With ONLY=TEXT in the environment only those count whose names have this text. The last line is
'N passed, M failed'."""

import bisect
import os
import random
import subprocess
import sys
import tempfile

from line_writer import PLAIN

PROGRAM = "crates/linetab/out/linetab"

# The bytes that one read asks for.
BLOCK = 1 << 16
# Lines that tell no position.
BAD = [b"", b"0x", b"1000", b"0x1000,", b"0x1000,x", b"0x1000,1,2", b" 0x1000", b"0x1000 ", b"0x10000000000000000", b"0x10g", b",1",
       b"0x1000,18446744073709551616", b"0x1000,000000000000000000001", b'a "word"\\', b"0x1000\r\r", b"0X1000", b"y" * 300]


def tables(name):
    return bytes([1, 1, 8, 1]) + b"/s\0" + bytes([1, 1, 8, 2]) + b"a\0" + name + b"\0"


# A line above all others, and a column that isn't kept.
MOST = 1 << 32
WIDE = b"\5\xf0\xa2\4"


def sequence(picked, address, count, wide):
    """The bytes of a sequence of so many rows, each by a special opcode, and the address, line and column of each row. From the
    row `wide` on the column is 70,000."""
    program, rows, line = bytearray(b"\0\x09\x02" + address.to_bytes(8, "little")), [], 1
    for place in range(count):
        if place == wide:
            program += WIDE
        # Several rows may stand at one address, of which the last one answers.
        step, lines = picked.choice((0, 0, 1, 1, 2, 3)), picked.randrange(0, 8)
        address, line = address + step, line + lines
        program.append(PLAIN.numbers.special(step, lines))
        rows.append((address, line, 70_000 if place >= wide else 0))
    return bytes(program) + b"\2\5\0\1\1", rows, address + 5


def answer(sequences, address, op=0, name="b"):
    for _, rows, end in sequences:
        place = bisect.bisect_right(rows, (address, MOST))
        if place and address < end:
            return '0x%x,%d unit 0 file 1 line %d column %d stmt 1 path "/s/%s"\n' % (address, op, *rows[place - 1][1:], name)
    return "0x%x,%d none\n" % (address, op)


def is_answered(name, sequences, addresses):
    given = "".join("0x%x\n" % address for address in addresses)
    run = subprocess.run([PROGRAM, "lookup", name, "--addresses", "-"], input=given, capture_output=True, text=True)
    return run.returncode == 0 and run.stdout == "".join(answer(sequences, address) for address in addresses)


def in_orders(section, sequences, addresses, picked):
    """Whether the addresses are answered in each of four orders, by the names of their cases."""
    write(section, sequences, "b")
    orders = {
        "rising": sorted(addresses),
        "falling": sorted(addresses, reverse=True),
        "none": picked.sample(addresses, len(addresses)),
        "each twice": [address for address in addresses for _ in range(2)],
    }
    for order, asked in orders.items():
        yield "%d addresses in order: %s" % (len(addresses), order), is_answered(section, sequences, asked)


def quoted(line):
    """A line between quotes, as a bad one is printed."""
    return '"%s"' % "".join(chr(byte) if 32 <= byte < 127 and byte not in b'"\\' else "\\x%02x" % byte for byte in line)


def lines_of(picked, sequences, name, count, bad):
    """A text of so many lines, and what is printed for it."""
    text, printed = bytearray(), []
    for _ in range(count):
        if bad and picked.random() < 0.1:
            line = picked.choice(BAD)
            # One carriage return before the line feed is no part of the line.
            printed.append("bad %s\n" % quoted(line[:-1] if line.endswith(b"\r") else line))
            text += line + b"\n"
            continue
        address, op = picked.randrange(0xff0, 0xd000), picked.choice((0, 1, 7, 2**64 - 1))
        digits = picked.choice(("0x%x", "0x%X", "0x%016x")) % address
        index = picked.choice((",%d", ",%020d")) % op if op else ""
        text += (digits + index).encode() + picked.choice((b"\n", b"\n", b"\r\n"))
        printed.append(answer(sequences, address, op, name))
    return bytes(text), printed


def in_pieces(command, text, pieces):
    """What a command prints, and its status, where its input comes in pieces of these sizes, one after another."""
    with tempfile.TemporaryFile() as out:
        run = subprocess.Popen(command, stdin=subprocess.PIPE, stdout=out, bufsize=0)
        while text:
            size = next(pieces)
            run.stdin.write(text[:size])
            text = text[size:]
        run.stdin.close()
        status = run.wait()
        out.seek(0)
        return status, out.read().decode()


def are_lines_answered(picked, section, sequences, name):
    """Whether texts of lines are answered, by the names of their cases."""
    command = [PROGRAM, "lookup", section, "--addresses", "-"]
    # A long path is made for each line anew.
    count = 4_000 if len(name) < 100 else 40
    good, good_lines = lines_of(picked, sequences, name, count, False)
    mixed, mixed_lines = lines_of(picked, sequences, name, count, True)
    last = answer(sequences, 0x1000, 0, name)
    # A line of which the first block has all bytes but the last ones.
    prefix = b"0x1000\n" * (BLOCK // 7)
    cut = [prefix + b"0" * (BLOCK - len(prefix) - size) + b"0x1001\n0x1002\n" for size in range(1, 8) if len(name) < 100]
    texts = {
        "good lines": (good, good_lines, 0),
        "good and bad lines": (mixed, mixed_lines, 1),
        "a last line without a line feed": (good + b"0x1000", good_lines + [last], 0),
        "a last line that ends with a carriage return": (good + b"0x1000\r", good_lines + ['bad "0x1000\\x0d"\n'], 1),
        "a text without lines": (b"", [], 0),
        "an empty line": (b"\n", ['bad ""\n'], 1),
        "a long line alone": (b"0x" + b"1" * (2 * BLOCK), ['bad "0x%s"\n' % ("1" * (2 * BLOCK))], 1),
    }
    for size, text in enumerate(cut, 1):
        zeros = "0" * (BLOCK - len(prefix) - size)
        texts["a line cut after %d bytes" % size] = (
            text, [last] * (BLOCK // 7) + ['bad "%s0x1001"\n' % zeros if zeros else answer(sequences, 0x1001, 0, name)]
            + [answer(sequences, 0x1002, 0, name)], 1 if zeros else 0)
    sizes = {"at once": lambda: 1 << 30, "in pieces": lambda: picked.choice((1, 2, 3, 5, 70, 4_000))}
    for case, (text, printed, status) in texts.items():
        for how, size in sizes.items():
            yield "%s, %s" % (case, how), in_pieces(command, text, iter(size, None)) == (status, "".join(printed))


def write(section, sequences, name):
    """Writes a section of these sequences, whose second file has this name."""
    with open(section, "wb") as file:
        file.write(PLAIN.unit(tables(name.encode()), b"".join(program for program, _, _ in sequences)))


def cases_of(section, picked):
    """Whether each case is answered, with what it is of."""
    # The second one stands first.
    kept = [sequence(picked, 0x9000, 3_000, MOST), sequence(picked, 0x1000, 5_000, MOST)]
    wide = [sequence(picked, 0x1000, 5_000, 2_000), sequence(picked, 0x9000, 3_000, 0)]
    many = [sequence(picked, start, 140_000, MOST) for start in (0x100000, 0x200000)]
    for sequences, step in ((kept, 1), (wide, 1), (many, 97)):
        yield from in_orders(section, sequences, [at for _, rows, end in sequences for at in range(rows[0][0] - 2, end + 2, step)], picked)
    for name in ("b", "d/" * 2_000 + "e"):
        write(section, kept, name)
        for case, so in are_lines_answered(picked, section, kept, name):
            yield "%s, with a path of %d bytes" % (case, len(name)), so


def main():
    passed = failed = 0
    with tempfile.TemporaryDirectory() as folder:
        for case, so in cases_of(os.path.join(folder, "section"), random.Random(52)):
            if os.environ.get("ONLY", "") not in case:
                continue
            passed, failed = passed + so, failed + (not so)
            if not so:
                print("failed: %s" % case)
    print("%d passed, %d failed" % (passed, failed))
    return 1 if failed else 0


sys.exit(main())
