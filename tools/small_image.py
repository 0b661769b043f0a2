#!/usr/bin/env python3
"""Writes the small UFS2 image that the stored run, the tests and the computed lemmas use.

    python3 tools/small_image.py FILE

The image has 262,144 bytes: a superblock, the root directory and one file `/a` with the content `abc`.
"""
import struct
import sys

image = bytearray(262144)


def put(place, layout, *values):
    struct.pack_into("<" + layout, image, place, *values)


# the superblock at 65536
SUPERBLOCK = 65536
for offset, value in [(12, 17), (16, 18), (44, 1), (48, 4096), (52, 4096), (56, 1), (116, 512), (120, 16), (184, 16), (188, 64)]:
    put(SUPERBLOCK + offset, "I", value)
put(SUPERBLOCK + 1372, "I", 0x19540119)

# the inodes 2 and 3: mode, links, size and first pointer
for place, mode, links, size, pointer in [(74240, 0x41ED, 2, 512, 20), (74496, 0x81A4, 1, 3, 21)]:
    put(place, "HH", mode, links)
    put(place + 16, "Q", size)
    put(place + 112, "q", pointer)

# the root's entries
at = 81920
for inode, length, kind, name in [(2, 12, 4, b"."), (2, 12, 4, b".."), (3, 488, 8, b"a")]:
    put(at, "IHBB", inode, length, kind, len(name))
    image[at + 8 : at + 8 + len(name)] = name
    at += length

image[86016:86019] = b"abc"

with open(sys.argv[1], "wb") as out:
    out.write(image)
