"""Files: checksums of what was read, and outputs that take their names when they are whole."""
import hashlib
import os
import sys

from itftools.refusal import Refusal
from itftools.saying.words import shown


def checksum(name):
    """The SHA-256 of a file, in hexadecimal digits."""
    return sums(name)[1]


def sums(name):
    """The size and the SHA-256 of a file."""
    total, size = hashlib.sha256(), 0
    with open(name, "rb") as file:
        for block in iter(lambda: file.read(1 << 20), b""):
            total.update(block)
            size += len(block)
    return size, total.hexdigest()


def text_in(name):
    """The text of a file, a letter a byte, or that of the standard input for `-`."""
    if name == "-":
        return sys.stdin.buffer.read().decode("latin-1")
    with open(name, encoding="latin-1", newline="") as file:
        return file.read()


def file_facts(role, name):
    """Size and checksum of a file, by which a page can be told to belong to it; none of the standard input."""
    size, total = sums(name) if name != "-" else (None, None)
    return {"role": role, "name": shown(os.path.basename(os.fsencode(name)).decode("latin-1")),
            "bytes": size, "sha256": total}


def apart(outputs, inputs):
    """A Refusal where an output has the name of an input."""
    read = {os.path.realpath(name) for name in inputs if name}
    for name in outputs:
        if name and os.path.realpath(name) in read:
            raise Refusal("an output has the name of an input: " + name)


def written(name, text):
    """A file takes its name when it is whole."""
    written_bytes(name, text.encode("utf-8"))


def written_bytes(name, data):
    with open(name + ".part", "wb") as file:
        file.write(data)
    os.replace(name + ".part", name)
