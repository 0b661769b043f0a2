#!/usr/bin/env python3
"""Writes a UFS2 image with many files in its root, or with one file in many pieces, to measure what reading it costs.

    python3 tools/ufs_image.py FILE --files COUNT       files f0, f1, .. of three bytes each, a block apart
    python3 tools/ufs_image.py FILE --files COUNT --scattered      the same, named in no order of their inodes
    python3 tools/ufs_image.py FILE --pieces COUNT      a file `a` whose blocks stand in two places by turns

Blocks are fragments, of 4,096 bytes with --files and of 65,536 with --pieces. The image is a sparse file.
"""
import argparse
import random
import struct

parser = argparse.ArgumentParser(description=__doc__, formatter_class=argparse.RawDescriptionHelpFormatter)
parser.add_argument("file")
parser.add_argument("--files", type=int, default=0)
parser.add_argument("--pieces", type=int, default=0)
parser.add_argument("--scattered", action="store_true")
options = parser.parse_args()

BLOCK = 65536 if options.pieces else 4096
POINTERS = BLOCK // 8
INODES = BLOCK // 256


class Image:
    """A volume that takes its blocks one behind the other."""

    def __init__(self, path, inodes):
        self.out = open(path, "wb")
        self.inode_block = max(2, 81920 // BLOCK)
        self.inodes = (inodes + INODES - 1) // INODES * INODES
        self.next = self.inode_block + self.inodes // INODES

    def put(self, at, layout, *values):
        self.out.seek(at)
        self.out.write(struct.pack("<" + layout, *values))

    def take(self, blocks=1):
        self.next += blocks
        return self.next - blocks

    def inode(self, number, mode, size, pointers):
        at = self.inode_block * BLOCK + number * 256
        direct, indirect = pointers[:12], self.levels(pointers[12:])
        self.put(at, "HH", mode, 1)
        self.put(at + 16, "Q", size)
        self.put(at + 112, "12q", *(direct + [0] * (12 - len(direct))))
        self.put(at + 208, "3q", *indirect)

    def levels(self, pointers):
        """The blocks of pointers of one, two and three levels that lead to these."""
        roots, span = [], 1
        for _ in range(3):
            span *= POINTERS
            part, pointers = pointers[:span], pointers[span:]
            level = part
            while len(level) > 1 or (level and level is part):
                level = [self.pointers(level[i : i + POINTERS]) for i in range(0, len(level), POINTERS)]
            wanted = {POINTERS: 1, POINTERS**2: 2, POINTERS**3: 3}[span]
            depth, count = 0, len(part)
            while part and (count > 1 or depth == 0):
                count, depth = (count + POINTERS - 1) // POINTERS, depth + 1
            while part and depth < wanted:
                level, depth = [self.pointers(level)], depth + 1
            roots.append(level[0] if level else 0)
        return roots

    def pointers(self, values):
        block = self.take()
        self.put(block * BLOCK, f"{len(values)}q", *values)
        return block

    def close(self):
        for offset, value in [
            (12, 1), (16, self.inode_block), (44, 1), (48, BLOCK), (52, BLOCK), (56, 1), (116, POINTERS), (120, INODES),
            (184, self.inodes), (188, self.next),
        ]:
            self.put(65536 + offset, "I", value)
        self.put(65536 + 1372, "I", 0x19540119)
        self.out.truncate(self.next * BLOCK)
        self.out.close()


def directory(names):
    """The blocks of 512 bytes of a directory with these entries."""
    blocks, current = [], []
    used = 0
    for number, kind, name in names:
        length = (8 + len(name) + 1 + 3) // 4 * 4
        if used + length > 512:
            blocks.append(current)
            current, used = [], 0
        current.append((number, length, kind, name))
        used += length
    blocks.append(current)
    content = bytearray()
    for entries in blocks:
        rest = 512 - sum(length for _, length, _, _ in entries)
        for i, (number, length, kind, name) in enumerate(entries):
            length += rest if i + 1 == len(entries) else 0
            content += struct.pack("<IHBB", number, length, kind, len(name)) + name + bytes(length - 8 - len(name))
    return bytes(content)


count = options.files or 1
image = Image(options.file, count + 3)
names = [(2, 4, b"."), (2, 4, b"..")]
if options.pieces:
    names.append((3, 8, b"a"))
    places = [image.take(2), image.take()]  # a block lies between them, so that each block is a piece of its own
    pointers = [places[i % 2] for i in range(options.pieces)]
    image.inode(3, 0x81A4, options.pieces * BLOCK, pointers)
for i in range(options.files):
    names.append((i + 3, 8, b"f%d" % i))
    block = image.take()
    image.put(block * BLOCK, "3s", b"abc")
    image.inode(i + 3, 0x81A4, 3, [block])
if options.scattered:
    files = names[2:]
    random.Random(1).shuffle(files)
    names[2:] = files
content = directory(names)
blocks = (len(content) + BLOCK - 1) // BLOCK
first = image.take(blocks)
image.out.seek(first * BLOCK)
image.out.write(content)
image.inode(2, 0x41ED, len(content), list(range(first, first + blocks)))
image.close()
