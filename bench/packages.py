"""Real programs with debug information, of Debian's packages."""

import glob
import os
import subprocess


def quietly(*command, **how):
    subprocess.run(command, check=True, stdout=subprocess.DEVNULL, **how)


def is_elf(name):
    if os.path.islink(name):
        return False
    with open(name, "rb") as file:
        return file.read(4) == b"\x7fELF"


def largest_of(package, folder):
    """The largest ELF file in a Debian package with debug information, which is fetched into the folder."""
    quietly("apt-get", "download", package, cwd=folder, stderr=subprocess.DEVNULL)
    (archive,) = glob.glob(os.path.join(folder, "*.deb"))
    quietly("dpkg-deb", "-x", archive, os.path.join(folder, "package"))
    names = (os.path.join(at, name) for at, _, names in os.walk(os.path.join(folder, "package")) for name in names)
    return max(filter(is_elf, names), key=os.path.getsize)
