"""checks.py EXAMPLE LIBRARY SECTION LINE_STR TABLE..: a section checked against tables by path, and what is told printed as the
program prints it, over the structs of EXAMPLE, the folder of examples/python/lookup.py."""

import sys
from ctypes import byref, c_size_t, c_ubyte

sys.path.insert(0, sys.argv[1])
sys.dont_write_bytecode = True
from lookup import Lines, Verdict


def read(name):
    with open(name, "rb") as file:
        return file.read()


def told(verdict, answers, answer, path):
    if not answers:
        return "none"
    text = '"%s",%d' % (path.decode(), answer.line)
    return "%s,%d" % (text, answer.column) if verdict.path_version == 3 else text


def main():
    lines = Lines(sys.argv[2], read(sys.argv[3]), read(sys.argv[4]))
    for name in sys.argv[5:]:
        table, rooms, verdict = read(name), [(c_ubyte * 1024)() for _ in range(2)], Verdict()
        given = (c_ubyte * len(table)).from_buffer_copy(table)
        lines.library.linetab_check_paths(
            byref(lines.section), given, c_size_t(len(table)), rooms[0], c_size_t(1024), rooms[1], c_size_t(1024), byref(verdict)
        )
        if verdict.number == 0:
            print("yes")
            continue
        table_told = told(verdict, verdict.table_answers, verdict.by_table, bytes(rooms[0][: verdict.index]))
        section_told = told(verdict, verdict.section_answers, verdict.by_section, bytes(rooms[1][: verdict.value]))
        print("no %d differs at 0x%x,%d table %s section %s" % (verdict.number, verdict.address, verdict.op, table_told, section_told))


main()
