#!/usr/bin/env python3
"""image.py FILE: writes a server's image of 128 folders with 127 files of 2,064 bytes each, 16,384 rows and 32 MiB, all at version 1: the
tree that the program b_times makes."""
import struct
import sys

FOLDERS, FILES, SIZE = 128, 127, 2064


def name(number):
    return bytes([97 + number // 16 % 16, 97 + number % 16])


def row(path, node):
    return struct.pack(">H", len(path)) + path + struct.pack(">Q", 1) + node


def rows():
    for folder in range(FOLDERS):
        yield row(name(folder), b"\x01")
        for file in range(FILES):
            content = bytes([folder]) + bytes([file]) * (SIZE - 1)
            yield row(name(folder) + b"/" + name(file), b"\x02" + struct.pack(">I", SIZE) + content)


all_rows = list(rows())
with open(sys.argv[1], "wb") as image:
    # client 1 has sent as much as there is, the others nothing
    image.write(b"OSSI\x02" + struct.pack(">Q", len(all_rows)) + bytes(63 * 8))
    image.write(struct.pack(">I", len(all_rows)) + b"".join(all_rows))
