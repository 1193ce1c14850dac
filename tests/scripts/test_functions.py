import unittest

from scripts.bounded import Refusal
from scripts.object.functions import LONGEST, Functions, Missed, readable, sized
from scripts.object.image import Image


def functions(*symbols, code=((0x1000, 0x2000),)):
    image = Image("ELF", False)
    image.symbols = lambda: symbols
    image.code += code
    return Functions(image)


LISTED = functions((0x1100, 0x10, "b"), (0x1000, 0x20, "a"), (0x1000, 4, "inner"), (0x1200, 0, "last"))


class Places(unittest.TestCase):
    def test_in_a_function_and_between(self):
        self.assertEqual(LISTED.at(0x1000), ("a", 0x1020))
        self.assertEqual(LISTED.at(0x101F), ("a", 0x1020))
        self.assertEqual(LISTED.at(0x1020), (None, 0x1100))
        self.assertEqual(LISTED.at(0xFFF), (None, 0x1000))

    def test_one_without_a_size_goes_up_to_the_end_of_its_code(self):
        self.assertEqual(LISTED.at(0x1FFF), ("last", 0x2000))
        self.assertEqual(LISTED.at(0x2000), (None, 1 << 64))

    def test_one_that_reaches_into_the_next(self):
        self.assertEqual(functions((0x1000, 0x20, "a"), (0x1010, 8, "b")).at(0x1000), ("a", 0x1010))

    def test_pieces(self):
        self.assertEqual(list(LISTED.pieces(0x101E, 0x1102)), [("a", 2), (None, 0xE0), ("b", 2)])
        self.assertEqual(list(LISTED.pieces(0x1000, 0x1000)), [])

    def test_the_symbols_of_the_program_where_its_debug_file_has_none(self):
        debug, program = Image("ELF", False), Image("ELF", False)
        debug.program, program.symbols = program, lambda: [(1, 2, "main")]
        self.assertEqual(Functions(debug).names, ("main",))

    def test_damaged_symbols_are_none(self):
        def symbols():
            raise Refusal("it is cut")

        image = Image("ELF", False)
        image.symbols = symbols
        self.assertEqual(Functions(image).starts, [])


class Counted(unittest.TestCase):
    def test_by_functions_the_largest_first(self):
        missed = Missed(LISTED)
        missed.add(0x1000, 0x1004)
        missed.add(0x1010, 0x1012)
        missed.add(0x10F0, 0x110F)
        self.assertEqual(missed.listed(), [("b", 15), ("a", 6)])
        self.assertEqual((missed.between, missed.total()), (16, 37))
        self.assertEqual(missed.told(), "b 15 bytes, a 6, 16 between functions")

    def test_by_addresses_where_no_function_is_known(self):
        missed = Missed(functions())
        missed.add(0x10, 0x11)
        self.assertEqual(missed.told(), "0x10 1 byte")

    def test_no_more_than_five_are_named(self):
        missed = Missed(functions(*((0x1000 + 16 * k, 16, "f%d" % k) for k in range(8))))
        missed.add(0x1001, 0x1080)
        self.assertEqual(missed.told(), "f1 16 bytes, f2 16, f3 16, f4 16, f5 16, .. and 3 more functions")

    def test_sizes(self):
        self.assertEqual([sized(1, True), sized(2, True), sized(2, False)], ["1 byte", "2 bytes", "2"])

    def test_long_names_are_cut(self):
        self.assertEqual(readable(["x" * 99]), ["x" * (LONGEST - 2) + ".."])
        self.assertEqual(readable(["main"]), ["main"])


if __name__ == "__main__":
    unittest.main()
