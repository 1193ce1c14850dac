"""WebAssembly files."""

from scripts.bounded import DAMAGED, LONGEST, Refusal, few
from scripts.object.image import Image


def wasm_sections(data):
    """The kind of each section, and where it begins and ends."""
    at = 8
    while at < data.size:
        (kind,) = data.take(at, 1)
        size, start = data.leb(at + 1)
        at = start + size
        yield kind, start, at


def wasm_image(data, _path):
    image = Image("WebAssembly", False)
    for kind, start, end in few(wasm_sections(data)):
        if kind != 0:
            continue
        length, start = data.leb(start)
        if start + length > end:
            raise Refusal(DAMAGED)
        if length < LONGEST:
            image.add(data.name(start, length), data, start + length, end - start - length)
    if image.has("linking"):
        image.loose = "it is a relocatable object, whose relocations aren't applied: link it"
    return image
