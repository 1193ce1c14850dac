import os
import tempfile
import unittest
from types import SimpleNamespace

from made import made
from scripts.bounded import Refusal
from scripts.table.points import Asked, code_of, dialect_of


class Dialects(unittest.TestCase):
    def test_by_the_name(self):
        for name, mark in (("/usr/bin/llvm-symbolizer-19", "symbolizer"), ("eu-addr2line", "eu-addr2line"), ("arm-addr2line", "addr2line")):
            self.assertEqual(dialect_of(name).mark, mark)
        self.assertIsNone(dialect_of("addr2line/gdb"))

    def test_by_what_it_is_like(self):
        for name in ("addr2line", "eu-addr2line", "llvm-symbolizer"):
            self.assertEqual(dialect_of("eu-addr2line", name).name, name)
            self.assertEqual(dialect_of("mine", name).name, name)

    def meant(self, name, text):
        asked = Asked.__new__(Asked)
        asked.dialect = dialect_of(name)
        return asked.meant(text)

    def test_what_answers_mean(self):
        for name, text, answer in (
            ("addr2line", b"/a:b.c:7 (discriminator 3)\n", (b"/a:b.c", 7)), ("addr2line", b"/a.c:?\n", (b"/a.c", 0)),
            ("addr2line", b"crtstuff.c:?\n", None), ("addr2line", b"??:0\n", None),
            ("eu-addr2line", b"/a.c:3:5\n", (b"/a.c", 3, 5)), ("eu-addr2line", b"/a.c:3\n", (b"/a.c", 3, 0)),
            ("llvm-symbolizer", b"/a.c:3:5\n", (b"/a.c", 3, 5)), ("llvm-symbolizer", b"??:0:0\n", None),
        ):
            self.assertEqual(self.meant(name, text), answer)
        with self.assertRaises(ValueError):
            self.meant("addr2line", b"what?\n")


class Code(unittest.TestCase):
    def ranges(self, *words):
        with tempfile.NamedTemporaryFile() as file:
            file.write(made("elf64", *words).whole)
            file.flush()
            return code_of(SimpleNamespace(maker="points", file=file.name))[1]

    def test_ranges_in_order_and_apart(self):
        self.assertEqual(self.ranges("code=0x20,0x10", "code=0x10,0x18"), [(0x10, 0x28), (0x28, 0x30)])

    def test_what_is_refused(self):
        for words in ((), ("code=0x10,0x100000",), ("code=0xffffffffffffffff,2",)):
            with self.assertRaisesRegex(Refusal, "it has no code, or more"):
                self.ranges(*words)
        with self.assertRaisesRegex(Refusal, "relocatable"):
            self.ranges("object", "code=0x10,0x10")


class Runs(unittest.TestCase):
    def test_longest_runs_of_one_answer(self):
        with tempfile.TemporaryDirectory() as folder:
            command = os.path.join(folder, "addr2line")
            with open(command, "w") as file:
                file.write("#!/bin/sh\nwhile read at; do echo $at; case $at in 0x1[01]) echo /a.c:1;; 0x12) echo '??:0';; *) echo /a.c:2;; esac; done\n")
            os.chmod(command, 0o755)
            asked = Asked(command, dialect_of(command), "app", [(0x10, 0x15), (0x20, 0x21)])
            self.assertEqual(list(asked.spans()), [(0x10, 0x12, (b"/a.c", 1)), (0x13, 0x15, (b"/a.c", 2)), (0x20, 0x21, (b"/a.c", 2))])
            self.assertEqual(asked.run.wait(), 0)
            asked.run.stdout.close()
            asked.said.close()


if __name__ == "__main__":
    unittest.main()
