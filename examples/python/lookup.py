#!/usr/bin/env python3
"""Looks addresses up in a section, as `linetab lookup` does: lookup.py LIBRARY SECTION LINE_STR [--str FILE]
[--dead ADDRESS] [--big] [--skip-copies] ADDRESS..

LIBRARY is liblinetab.a as a shared object: cc -shared -fPIC -Iinclude -o liblinetab.so -Wl,--whole-archive liblinetab.a
-Wl,--no-whole-archive linetab_heap.c"""

import argparse
from ctypes import CDLL, POINTER, Structure, byref, c_bool, c_size_t, c_ubyte, c_uint32, c_uint64, sizeof

Bytes = POINTER(c_ubyte)


class Section(Structure):
    _fields_ = [
        ("line", Bytes), ("line_len", c_size_t), ("line_str", Bytes), ("line_str_len", c_size_t), ("str", Bytes), ("str_len", c_size_t),
        ("dead", c_uint64), ("has_dead", c_bool), ("is_big", c_bool), ("skip_copies", c_bool),
    ]


class Answer(Structure):
    _fields_ = [(name, c_uint64) for name in ("unit", "file", "line", "column", "isa", "discriminator")]
    _fields_ += [("is_stmt", c_bool), ("is_wide", c_bool)]


class Span(Structure):
    _fields_ = [("low", c_uint64), ("low_op", c_uint64), ("high", c_uint64), ("high_op", c_uint64), ("answer", Answer)]


class Verdict(Structure):
    _fields_ = [("number", c_uint32), ("detail", c_uint32)]
    _fields_ += [(name, c_uint64) for name in ("offset", "index", "value", "other_offset", "other_index", "address", "op")]
    _fields_ += [("table_answers", c_bool), ("section_answers", c_bool), ("path_version", c_uint32)]
    _fields_ += [("by_table", Answer), ("by_section", Answer)]


assert (sizeof(Section), sizeof(Span), sizeof(Verdict)) == (64, 88, 184)


class NotGood(Exception):
    """The section isn't good, or memory ran out: `verdict` says why."""

    def __init__(self, verdict):
        super().__init__("no %d at 0x%x" % (verdict.number, verdict.offset))
        self.verdict = verdict


class Lines:
    """The lines of a section, whose bytes are kept as long as this is."""

    def __init__(self, library, line, line_str=b"", text=b"", dead=None, is_big=False, skip_copies=False):
        self.library = CDLL(library)
        self.library.linetab_verify.restype = c_size_t
        self.library.linetab_lookup.restype = c_bool
        self.library.linetab_path.restype = c_bool
        self.kept = [(c_ubyte * max(1, len(part))).from_buffer_copy(part or b"\0") for part in (line, line_str, text)]
        sizes = len(line), len(line_str), len(text)
        parts = [field for part in zip(self.kept, sizes) for field in part]
        self.section = Section(*parts, dead or 0, dead is not None, is_big, skip_copies)
        self.spans = (Span * 1)()
        count = self.verify(0)
        self.spans = (Span * max(1, count))()
        self.count = self.verify(count)

    def verify(self, room):
        verdict = Verdict()
        count = self.library.linetab_verify(byref(self.section), self.spans, c_size_t(room), byref(verdict))
        if verdict.number:
            raise NotGood(verdict)
        return count

    def lookup(self, address, op=0):
        """The answer at a position, or none."""
        answer = Answer()
        found = self.library.linetab_lookup(self.spans, c_size_t(self.count), c_uint64(address), c_uint64(op), byref(answer))
        return answer if found else None

    def path(self, unit, file):
        """The path of a file, or none where it isn't there."""
        room, count, verdict = (c_ubyte * 1)(), c_size_t(), Verdict()
        for size in (0, None):
            size = count.value if size is None else size
            room = (c_ubyte * max(1, size))()
            found = self.library.linetab_path(
                byref(self.section), c_uint64(unit), c_uint64(file), room, c_size_t(size), byref(count), byref(verdict)
            )
            if verdict.number:
                raise NotGood(verdict)
        return bytes(room[: count.value]) if found else None


def read(name):
    with open(name, "rb") as file:
        return file.read()


def main():
    words = argparse.ArgumentParser(usage=__doc__)
    for name in ("library", "line", "line_str"):
        words.add_argument(name)
    words.add_argument("--str")
    words.add_argument("--dead", type=lambda word: int(word, 16))
    words.add_argument("--big", action="store_true")
    words.add_argument("--skip-copies", action="store_true")
    words.add_argument("addresses", nargs="*")
    said = words.parse_intermixed_args()
    text = read(said.str) if said.str else b""
    lines = Lines(said.library, read(said.line), read(said.line_str), text, said.dead, said.big, said.skip_copies)
    for word in said.addresses:
        address = int(word, 16)
        answer = lines.lookup(address)
        if answer is None:
            print("0x%x,0 none" % address)
            continue
        path = (lines.path(answer.unit, answer.file) or b"").decode(errors="replace")
        numbers = answer.unit, answer.file, answer.line, answer.column, answer.is_stmt
        print("0x%x,0 unit %d file %d line %d column %d stmt %d" % (address, *numbers), 'path "%s"' % path)


if __name__ == "__main__":
    main()
