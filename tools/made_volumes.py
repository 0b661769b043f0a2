#!/usr/bin/env python3
"""Holds the built program against UFS1 volumes that another program made: NetBSD's makefs (Debian's package `makefs`).

    python3 tools/made_volumes.py PROGRAM

It makes a tree of files with holes, links, directories in one another and sizes around the limits of direct and indirect blocks,
a volume of it for some sizes of blocks, and for each file a plan: the bytes at the plan's ranges are those of the file. Then it
redacts a copy: each byte in the ranges has the fill, and no other byte changed. It ends with status 1 where something differs.
"""
import pathlib
import shutil
import subprocess
import sys
import tempfile

PROGRAM = pathlib.Path(sys.argv[1]).resolve()
FILL = 0x58
checks = failed = 0


def check(holds, what):
    global checks, failed
    checks += 1
    if not holds:
        failed += 1
        print("differs:", what)


def content(size):
    """Bytes without the fill and without zeros, so that a hole and a filled byte show."""
    return bytes(1 + (i * 7 + i // 251) % 80 for i in range(size))


def run(*words):
    return subprocess.run([PROGRAM, *map(str, words)], capture_output=True)


def ranges_of(report):
    lines = [line.split() for line in report.decode().splitlines() if line.startswith("RANGE")]
    return [(int(line[1]), int(line[2])) for line in lines]


with tempfile.TemporaryDirectory() as place:
    top = pathlib.Path(place)
    tree = top / "tree"
    deep = tree.joinpath(*"abcdefgh")
    deep.mkdir(parents=True)
    files = {}
    for size in [1, 511, 512, 4095, 4096, 8192, 12 * 4096, 12 * 4096 + 1, 98304, 98305, 600_000, 5_000_000]:
        files[f"file{size}"] = tree / f"file{size}"
        files[f"file{size}"].write_bytes(content(size))
    files["deep"] = deep / "deep"
    files["deep"].write_bytes(content(3000))
    (tree / "second").hardlink_to(files["file512"])
    (tree / "short").symlink_to("file1")
    (tree / "long").symlink_to("x" * 200)
    for i in range(400):
        (tree / "a" / f"name_{i}").write_bytes(b"")
    for block, fragment in [(4096, 512), (8192, 1024), (16384, 2048), (32768, 4096), (65536, 65536)]:
        image = top / f"{block}.img"
        made = subprocess.run(["makefs", "-t", "ffs", "-B", "le", "-o", f"version=1,bsize={block},fsize={fragment}", image, tree], capture_output=True)
        check(made.returncode == 0, f"makefs {block}: {made.stderr!r}")
        old = image.read_bytes()
        for name, path in files.items():
            rules = top / "rules"
            rules.write_text(f'FILENAME "{name}" FILL 0x58')
            planned = run("plan", image, rules)
            check(planned.returncode == 0, f"{block} {name}: {planned.stderr!r}")
            ranges = ranges_of(planned.stdout)
            held = b"".join(old[at : at + size] for at, size in ranges)
            check(sorted(held) == sorted(path.read_bytes()), f"{block} {name}: other bytes")
            copy, journal = top / "copy.img", top / "journal"
            shutil.copy(image, copy)
            journal.unlink(missing_ok=True)
            check(run("redact", copy, journal, rules).returncode == 0, f"{block} {name}: no redaction")
            want = bytearray(old)
            for at, size in ranges:
                want[at : at + size] = bytes([FILL]) * size
            check(copy.read_bytes() == want, f"{block} {name}: another image")
print(f"{checks} checks, {failed} differ")
sys.exit(1 if failed else 0)
