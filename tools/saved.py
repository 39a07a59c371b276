"""Saved gateways as host/src/saved.rs writes them: a header of 36 bytes, then the node and its two stores. For tools/why and tools/host."""

import os
import struct

NAME = b"pradulins-saved\n"
FORMAT = 3
HEADER = struct.Struct("<16sIQQ")  # name, format, how many bytes follow, their checksum
NODE_SIZE = 12440
LARGEST = NODE_SIZE + 256 * 129 + 64 * 4096


class Unsaved(Exception):
    """Why bytes are no saved gateway, in the crate's words."""


def rest_of(byte):
    for _ in range(8):
        byte = byte >> 1 ^ (0xc96c5795d7870f42 if byte & 1 else 0)
    return byte


TABLE = [rest_of(byte) for byte in range(256)]


def checksum(data):
    """CRC-64/XZ."""
    total = 2**64 - 1
    for byte in data:
        total = total >> 8 ^ TABLE[total & 255 ^ byte]
    return total ^ 2**64 - 1


def sealed(rest, form=FORMAT):
    """A saved gateway: the header and what it stands before."""
    return HEADER.pack(NAME, form, len(rest), checksum(rest)) + rest


def opened(data, length=None):
    """What the header stands before, tested in the crate's order. These are the first bytes of so many: all, or more than the largest has."""
    if len(data) < HEADER.size:
        raise Unsaved("no saved state: it has %d bytes, and the header alone has %d" % (len(data), HEADER.size))
    name, form, said, total = HEADER.unpack_from(data)
    rest, found = data[HEADER.size:], (length or len(data)) - HEADER.size
    if name != NAME:
        raise Unsaved("no saved state: it does not begin with `pradulins-saved`")
    if form != FORMAT:
        raise Unsaved("the state was saved in format %d, and format %d is read" % (form, FORMAT))
    if said != found:
        raise Unsaved("the saved state has %d bytes after its header, which says %d" % (found, said))
    if found > LARGEST:
        raise Unsaved("the saved state has %d bytes after its header, and the largest has %d" % (found, LARGEST))
    if total != checksum(rest):
        raise Unsaved("the saved state was damaged: its checksum is another")
    return rest


def read(path):
    """The node and the stores of a file. Of a longer file no more than the largest is read."""
    try:
        with open(path, "rb") as file:
            data = file.read(HEADER.size + LARGEST + 1)
            told = os.fstat(file.fileno()).st_size
    except (OSError, ValueError) as why:
        raise Unsaved("the saved state cannot be read: %s" % (getattr(why, "strerror", None) or why)) from None
    return opened(data, max(len(data), told) if len(data) > HEADER.size + LARGEST else None)
