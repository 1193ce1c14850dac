"""What is asked of a file, whatever its format. Each format has a module of its own, which is read where a file has it."""

import os

from scripts.bounded import Nothing, Refusal

LINE = ".debug_line"
STRINGS = {"--line-str": ".debug_line_str", "--str": ".debug_str"}
JUDGED = (LINE, *STRINGS.values())
OBJECT = "it is a relocatable object, whose relocations aren't applied and whose addresses all begin at 0: link it"
# The sections that are asked for, by the names that ELF has for them.
KNOWN = {*JUDGED, ".debug_info", ".debug_abbrev", ".debug_str_offsets", ".comment", ".note.gnu.build-id", ".gnu_debuglink",
         ".gnu_debugaltlink", ".debug_sup", ".modinfo", ".symtab", ".strtab", ".dynsym", ".dynstr", ".text", ".stab", "linking"}


class Image:
    """What is asked of a file."""

    def __init__(self, kind, big):
        self.kind = kind
        self.big = big
        self.sections = {}  # of KNOWN names: the file, an offset and a size in it, and the function that unpacks the section, if any does
        self.doubled = set()  # the names that two of them have
        self.is_split = False  # whether a section is one of split debug information
        self.is_stripped = False  # whether it has no table of symbols, where the format tells
        self.sizes = (8, 4, 2)  # those that addresses may have
        self.code = []  # half-open ranges of addresses
        self.loose = None  # why the addresses in it aren't final
        self.identity = None  # the build id, or the UUID of a Mach-O file
        self.place = None  # where the file lies, if its debug information was looked for
        self.base = lambda: 0  # the address in it of its first byte when it is loaded
        self.load_address = lambda: self.base()  # the address from which symbol files of Breakpad count
        self.symbols = lambda: ()  # the address, the size, 0 if it isn't known, and the name of each function, by the table of symbols
        self.program = self  # the image of the file that was named, if this is that of its debug information

    @property
    def address_size(self):
        """The bytes of an address, as far as the format tells."""
        return 8 if self.sizes == (8,) else 4

    def add(self, name, data, offset, size, unpack=None):
        """Keeps where a section lies, if it is one that is asked for."""
        if name[:1] == ".":
            self.is_split = self.is_split or name.endswith(".dwo")
            if name.startswith(".zdebug"):
                name, unpack = "." + name[2:], unpack or from_gnu
        if name in self.sections:
            self.doubled.add(name)
        elif name in KNOWN:
            self.sections[name] = data, offset, size, unpack

    def add_code(self, low, size):
        self.code.append((low, low + size))

    def has_code_at(self, address):
        return any(low <= address < high for low, high in self.code)

    def has(self, name):
        return name in self.sections

    def part(self, name):
        """The bytes of a section that is there, as the file has them, and the function that unpacks them, if any does."""
        data, offset, size, unpack = self.sections[name]
        if offset + size > data.size:
            raise Refusal("section %s reaches past the end of the file, which is cut or damaged" % name)
        return data.part(offset, size), unpack

    def pieces(self, name):
        """The bytes of a section that is there, unpacked, in pieces."""
        part, unpack = self.part(name)
        return unpack(name, part) if unpack else part.pieces()

    def head(self, name):
        """The first bytes of a section that is there."""
        return next(iter(self.pieces(name)), b"")


def from_gnu(name, part):
    """Unpacks a section whose name begins with .zdebug."""
    from scripts.object import packed

    return packed.from_gnu(name, part)


# Each format's module is read if a file has it.


def elf(data, path):
    from scripts.object.elf import elf_image

    return elf_image(data, path)


def pe(data, path):
    from scripts.object.pe import pe_image

    return pe_image(data, path)


def wasm(data, path):
    from scripts.object.wasm import wasm_image

    return wasm_image(data, path)


def macho(data, path):
    from scripts.object.macho import macho_image

    return macho_image(data, path)


def fat(data, path):
    from scripts.object.macho import fat_image

    return fat_image(data, path)


MACHO = (b"\xfe\xed\xfa\xce", b"\xfe\xed\xfa\xcf", b"\xce\xfa\xed\xfe", b"\xcf\xfa\xed\xfe")
# The first bytes of each format, and the function that reads a file there.
READERS = [
    (b"\x7fELF", elf),
    (b"MZ", pe),
    (b"\0asm", wasm),
    *((magic, macho) for magic in MACHO),
    *((magic, fat) for magic in (b"\xca\xfe\xba\xbe", b"\xca\xfe\xba\xbf")),
]


def image_of(data, path):
    """The file, by its first bytes."""
    for magic, reader in READERS:
        if data.has(magic):
            image = reader(data, path)
            image.path = path
            return image
    from scripts.object import others

    raise Nothing(others.reason(data))


def inside(path):
    """The one file of a .dSYM folder, or the file itself."""
    if not os.path.isdir(path):
        return path
    import glob

    files = glob.glob(os.path.join(glob.escape(path), "Contents", "Resources", "DWARF", "*"))
    if len(files) != 1:
        raise Refusal("it is a folder, and no .dSYM of one program; -r takes all programs in it")
    return files[0]


def judged(data, path):
    """The image of the file that has the line number section: this one, or that of its debug information."""
    image = image_of(data, path)
    if image.loose:
        raise Nothing(image.loose)
    if not image.has(LINE):
        from scripts.object import apart

        image = apart.apart(path, image)
    for name in JUDGED:
        if name in image.doubled:
            raise Refusal("it has two sections %s, and nothing says which one is meant" % name)
    return image
