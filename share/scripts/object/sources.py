"""Lines of source files, if these are here."""

import os
import stat

LARGEST = 8 << 20  # bytes of a file that is read
LONGEST = 200  # bytes of a line
FILES = 64  # that are held
# The names of what a compiler reads. A path comes from the program or from what is compared with it, and could name any file.
ENDS = {".c", ".cc", ".cpp", ".cxx", ".c++", ".h", ".hh", ".hpp", ".hxx", ".inc", ".ipp", ".tcc", ".m", ".mm", ".s", ".asm", ".rs", ".go",
        ".f", ".f90", ".f95", ".for", ".ad", ".adb", ".ads", ".pas", ".pp", ".d", ".zig", ".nim", ".swift", ".ml", ".hs", ".v", ".cu",
        ".y", ".l"}


class Sources:
    """Files by their paths, each read once."""

    def __init__(self):
        self.files = {}

    def line(self, path, number):
        """A line of a file, or nothing if it isn't here."""
        if path not in self.files:
            if len(self.files) == FILES:
                self.files.clear()
            self.files[path] = read(path)
        lines = self.files[path]
        return os.fsdecode(lines[number - 1][:LONGEST].strip()) if 0 < number <= len(lines) else ""


def read(path):
    """The lines of a regular file that is named as sources are, and no others."""
    if not os.path.isabs(path) or os.path.splitext(path)[1].lower() not in ENDS:
        return []
    try:
        status = os.stat(path)
        if not stat.S_ISREG(status.st_mode) or status.st_size > LARGEST:
            return []
        with open(path, "rb") as file:
            return file.read(LARGEST).split(b"\n")
    except (OSError, ValueError):
        return []
