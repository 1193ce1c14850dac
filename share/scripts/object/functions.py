"""The functions of a program, by its table of symbols, and addresses that are counted by them."""

import os
import subprocess
from bisect import bisect_right
from collections import Counter

from scripts.bounded import Refusal
from scripts.telling import shown

NAMED = 5  # functions that a note names
LONGEST = 80  # characters of a name in it
BEYOND = 1 << 64


class Functions:
    """The functions of a program in the order of their addresses."""

    def __init__(self, image):
        # Of those that begin at one address, the largest.
        largest = {start: (size, name) for start, size, name in sorted(self.listed(image))}
        self.starts = list(largest)
        self.sizes, self.names = zip(*largest.values()) if largest else ((), ())
        self.code = sorted(image.code) or sorted(image.program.code)
        self.last = 0, 0, None  # a range of addresses, and the name of the function that has all of them

    @staticmethod
    def listed(image):
        """The symbols of the file with the debug information, or else of the program."""
        for one in (image, image.program):
            try:
                found = list(one.symbols())
            except (Refusal, MemoryError):  # the names are only for a note
                continue
            if found:
                return found
        return []

    def at(self, address):
        """The name of the function that has an address, or None; and the address where that may be another one."""
        low, end, name = self.last
        if not low <= address < end:
            name, end = self.found_at(address)
            self.last = address, end, name
        return name, end

    def found_at(self, address):
        k = bisect_right(self.starts, address) - 1
        following = self.starts[k + 1] if k + 1 < len(self.starts) else BEYOND
        if k < 0:
            return None, following
        high = self.starts[k] + self.sizes[k] if self.sizes[k] else self.end_of_code(self.starts[k])
        if address < high:
            return self.names[k], min(high, following)
        return None, following

    def end_of_code(self, address):
        """Where the section of code ends that has an address: a function whose size isn't known reaches no further."""
        return next((high for low, high in self.code if low <= address < high), BEYOND)

    def begins_at(self, address):
        """Whether a function begins at an address."""
        k = bisect_right(self.starts, address) - 1
        return k >= 0 and self.starts[k] == address

    def pieces(self, low, high):
        """A range of addresses in pieces: the name of the function that each is in, or None if it is in none, and its size."""
        while low < high:
            name, end = self.at(low)
            end = min(max(end, low + 1), high)
            yield name, end - low
            low = end


class Missed:
    """Addresses, counted by functions."""

    def __init__(self, functions):
        self.functions, self.sizes, self.between = functions, Counter(), 0

    def add(self, low, high):
        """Counts the addresses from low up to high. If no function is known, each range counts by its own address."""
        for name, size in self.functions.pieces(low, high):
            if name is not None or not self.functions.starts:
                self.sizes[name or "0x%x" % low] += size
            else:
                self.between += size

    def total(self):
        return sum(self.sizes.values()) + self.between

    def listed(self):
        """All functions with their sizes, the largest first."""
        return self.sizes.most_common()

    def told(self):
        """The largest ones with their sizes, and how many others there are."""
        listed = self.listed()
        names = readable([name for name, _ in listed[:NAMED]])
        texts = ["%s %s" % (shown(name), sized(size, k == 0)) for k, (name, (_, size)) in enumerate(zip(names, listed))]
        more = len(listed) - NAMED
        if more > 0:
            texts.append(".. and %d more function%s" % (more, "s" * (more != 1)))
        if self.between:
            texts.append(sized(self.between, not texts) + " between functions")
        return ", ".join(texts)


def sized(size, is_first):
    """A number of bytes, the first with its unit."""
    return "%d%s" % (size, (" byte" if size == 1 else " bytes") if is_first else "")


def readable(names, longest=LONGEST):
    """Names as they are written in C++, if a program is here that knows how, and no longer than that."""
    for program in ("c++filt", "llvm-cxxfilt"):
        try:
            done = subprocess.run([program], input="\n".join(names).encode("utf-8", "surrogateescape"), stdout=subprocess.PIPE, check=True)
        except (OSError, subprocess.CalledProcessError):
            continue
        found = os.fsdecode(done.stdout).splitlines()
        names = found if len(found) == len(names) else names
        break
    return [name if longest is None or len(name) <= longest else name[: longest - 2] + ".." for name in names]
