"""Sections that are compressed by zstd."""

import glob
import os
import shutil
import subprocess
import tempfile

from scripts.bounded import PIECE, Failure, Refusal, opened
from scripts.object.packed import TORN, unpacked
from scripts.object.program import unnamed


def from_zstd(name, packed, path):
    """Unpacks zstd's format by what is here: Python from 3.14 on, the program zstd, or an objcopy that knows it."""
    try:
        from compression import zstd
    except ImportError:
        return by_zstd(name, packed) if shutil.which("zstd") else by_objcopy(name, path)
    return unpacked(name, packed, zstd.ZstdDecompressor(), zstd.ZstdError)


def by_zstd(name, packed):
    file = unnamed(packed.pieces())
    try:
        os.lseek(file, 0, os.SEEK_SET)
        # Where no more is read, its output is closed, and it ends.
        with subprocess.Popen(["zstd", "-dcq"], stdin=file, stdout=subprocess.PIPE, stderr=subprocess.DEVNULL) as process:
            yield from iter(lambda: process.stdout.read(PIECE), b"")
    finally:
        os.close(file)
    if process.returncode == 1:  # the status of bytes that it can't read
        raise Refusal(TORN % name)
    if process.returncode != 0:
        raise Failure("section %s can't be unpacked: zstd ended with %d" % (name, process.returncode))


def by_objcopy(name, path):
    folders = os.environ.get("PATH", os.defpath).split(os.pathsep)
    others = [tool for folder in folders for tool in sorted(glob.glob(os.path.join(glob.escape(folder), "*objcopy*")))]
    with tempfile.TemporaryDirectory() as folder:
        section, copy = os.path.join(folder, "section"), os.path.join(folder, "copy")
        for tool in filter(shutil.which, ["objcopy", "llvm-objcopy", *others]):
            words = [tool, "--decompress-debug-sections", "--dump-section", "%s=%s" % (name, section), os.path.abspath(path), copy]
            done = subprocess.run(words, stdin=subprocess.DEVNULL, stdout=subprocess.DEVNULL, stderr=subprocess.DEVNULL, check=False)
            if done.returncode == 0 and os.path.exists(section):
                yield from opened(section).pieces()
                return
    raise Failure("section %s is compressed by zstd, which nothing here unpacks: install the package zstd" % name)
