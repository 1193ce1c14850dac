"""The makers of symbol files that are here: Breakpad's `dump_syms`, and each `llvm-gsymutil`, also with a version behind its name."""

import os
import re
import subprocess
import tempfile

BREAKPAD, GSYM = "breakpad", "gsym"


def commands(pattern):
    """The commands with names of this form, in the order of their versions."""
    names = {name for folder in os.get_exec_path() if os.path.isdir(folder) for name in os.listdir(folder) if re.fullmatch(pattern, name)}
    return sorted(names, key=lambda name: (len(name), name))


def version_of(tool):
    shown = subprocess.run([tool, "--version"], capture_output=True, text=True, check=True).stdout
    return int(re.search(r"version (\d+)", shown)[1])


class Gsymutil:
    """An `llvm-gsymutil`."""

    kind, ending = GSYM, ".gsym"

    def __init__(self, tool):
        self.tool, self.version = tool, version_of(tool)
        self.name = "llvm-gsymutil %d" % self.version

    def make(self, program, file):
        # Several threads write another file at each run, where a function has several copies.
        convert = [self.tool, "--num-threads=1", "--convert", program, "--out-file", file]
        subprocess.run(convert, check=True, stdout=subprocess.DEVNULL, stderr=subprocess.DEVNULL)

    def answer(self, file, address):
        """What its reader says of an address: the path and the line, or nothing."""
        shown = subprocess.run([self.tool, "--address=" + address, file], capture_output=True, text=True).stdout
        found = re.search(r" @ (.*:\d+)(?: \[inlined\])?$", shown, re.M)
        return found and found[1]


class DumpSyms:
    """Breakpad's `dump_syms`, which doesn't read compressed sections."""

    kind, ending, name = BREAKPAD, ".sym", "dump_syms"

    def __init__(self, tool):
        self.tool = tool

    def make(self, program, file):
        with tempfile.TemporaryDirectory() as folder, open(file, "wb") as out:
            plain = os.path.join(folder, os.path.basename(program))
            done = subprocess.run(["objcopy", "--decompress-debug-sections", program, plain], stderr=subprocess.DEVNULL)
            # It may not know the machine that the program is for.
            made_of = plain if done.returncode == 0 else program
            subprocess.run([self.tool, made_of], check=True, stdout=out, stderr=subprocess.DEVNULL)


def makers():
    """All that are here."""
    return [Gsymutil(tool) for tool in commands(r"llvm-gsymutil(-\d+)?")] + [DumpSyms(tool) for tool in commands("dump_syms")]
