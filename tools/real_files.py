#!/usr/bin/env python3
"""Runs the built program over real files, and holds what it leaves against values that are worked out by hand.

    python3 tools/real_files.py [PROGRAM]      PROGRAM is crates/dfredact/out/dfredact where none is given

It makes the small image (tools/small_image.py) in a directory of its own and goes through plan, redact, report, resume, a journal
of many windows and the refusals that come of files: a journal that is missing, a directory or the image itself under another name.
Where `strace` is there, it also sees by the system's calls that both files are synced where the order of a redaction says, and how
each command opens its files. Its last line is `N checks, all hold`, and it ends with status 1 where one doesn't.
"""
import os
import pathlib
import re
import shutil
import struct
import subprocess
import sys
import tempfile

TOP = pathlib.Path(__file__).resolve().parent.parent
RULES = b'FILENAME "a" FILL 0x58\n'
LINES = b"image 262144\nranges 1\nbytes 3\nRANGE 86016 3 1 0x58\nFILE 1 /a\n"
# the gate, the header, one range, the listing's one line, the mark of the one group, and the last mark
JOURNAL = bytes.fromhex(
    "4f 44 46 52 4a 20 76 31 00 00 04 00 00 00 00 00 01 00 00 00 01 00 00 00 23 00 00 00 00 00 00 00 09 00 00 00 00 00 00 00"
    "00 50 01 00 00 00 00 00 03 00 00 00 00 00 00 00 01 00 00 00 58 00 00 00 01 01 00 00 00 02 00 2f 61 44 44"
)
# where a byte of that journal is turned over, and the place that is told then
BAD = {1: 1, 14: 8, 19: 16, 24: 24, 32: 32, 47: 40, 55: 48, 59: 56, 61: 61, 64: 64, 68: 65, 69: 69, 71: 71}
failed, held = [], 0


def see(what, holds):
    global held
    if holds:
        held += 1
    else:
        failed.append(what)
        print(f"doesn't hold: {what}")


class Place:
    """A directory with the small image and the rules."""

    def __init__(self, directory, program):
        self.directory, self.program = pathlib.Path(directory), program
        self.image, self.journal, self.rules = (self.directory / name for name in ("image", "journal", "rules"))
        subprocess.run([sys.executable, TOP / "tools/small_image.py", self.image], check=True)
        self.old = self.image.read_bytes()
        self.filled = self.old[:86016] + b"XXX" + self.old[86019:]
        self.rules.write_bytes(RULES)

    def run(self, what, *words, code, out=b"", err=b"", before=()):
        ran = subprocess.run([*before, self.program, *map(str, words)], cwd=self.directory, capture_output=True)
        see(f"{what}: status {code}", ran.returncode == code)
        see(f"{what}: output", ran.stdout == out)
        see(f"{what}: error", ran.stderr == err)

    def holds(self, what, image, journal):
        see(f"{what}: the image", self.image.read_bytes() == image)
        see(f"{what}: the journal", (self.journal.read_bytes() if self.journal.is_file() else None) == journal)


FAILED = b"dfredact: image or journal failed\n"


def commands(at):
    at.run("plan", "plan", "image", "rules", code=0, out=b"redaction planned\n" + LINES)
    at.holds("plan", at.old, None)
    at.run("resume without a journal", "resume", "image", "journal", code=10, err=FAILED)
    at.run("report without a journal", "report", "journal", code=10, err=FAILED)
    at.run("redact", "redact", "image", "journal", "rules", code=0, out=b"redaction done\n" + LINES)
    at.holds("redact", at.filled, JOURNAL)
    at.run("redact again", "redact", "image", "journal", "rules", code=8, err=b"dfredact: journal already holds a plan\n")
    at.run("report", "report", "journal", code=0, out=b"redaction done\n" + LINES)
    at.run("resume", "resume", "image", "journal", code=0, out=b"redaction done\n" + LINES)
    at.holds("all of these", at.filled, JOURNAL)


def stopped(at):
    pending = JOURNAL[:73] + b"\0\0"
    at.image.write_bytes(at.old)
    at.journal.write_bytes(pending)
    at.run("report of a stopped one", "report", "journal", code=0, out=b"redaction pending\n" + LINES)
    at.holds("report of a stopped one", at.old, pending)
    at.run("resume of a stopped one", "resume", "image", "journal", code=0, out=b"redaction done\n" + LINES)
    at.holds("resume of a stopped one", at.filled, JOURNAL)
    at.image.write_bytes(at.old + b"\0")
    at.run("resume on another image", "resume", "image", "journal", code=9, err=b"dfredact: journal is for 262144 bytes, image has 262145\n")
    at.image.write_bytes(at.old)
    for place, told in BAD.items():
        bad = bytearray(JOURNAL)
        bad[place] ^= 0xFF
        at.journal.write_bytes(bad)
        for words in (["resume", "image", "journal"], ["report", "journal"]):
            at.run(f"{words[0]} with byte {place} changed", *words, code=9, err=b"dfredact: journal is bad at %d\n" % told)
        at.holds(f"byte {place} changed", at.old, bytes(bad))
    # 2^32 - 1 ranges, and lengths of 2^64 - 1
    at.journal.write_bytes(JOURNAL[:16] + b"\xff" * 24 + JOURNAL[40:])
    at.run("hostile counts", "report", "journal", code=9, err=b"dfredact: journal is bad at 16\n")
    at.journal.write_bytes(b"")
    at.run("an empty journal", "resume", "image", "journal", code=9, err=b"dfredact: journal holds no plan\n")


def long_journal(at):
    """A journal of many windows of 65,536 bytes, whose ends lie in ranges and in lines, in paths and in front of them."""
    at.image.write_bytes(bytes(20000))
    ranges = b"".join(struct.pack("<QQIB3x", 2 * i, 1, 1, 0x58) for i in range(6000))
    paths = [b"/" + b"x" * (more * 8191 % 65535) for more in range(40)] + [b"/" + b"y" * 65534] * 3 + [b"/%d" % i for i in range(9000)]
    begins, listing = [], b""
    for path in paths:
        begins.append(40 + len(ranges) + len(listing))
        listing += struct.pack("<BIH", 1, 1, len(path)) + path
    body = len(ranges) + len(listing) + 95
    journal = b"ODFRJ v1" + struct.pack("<QIIQQ", 20000, 6000, len(paths), body, len(listing)) + ranges + listing + b"D" * 95
    report = b"redaction done\nimage 20000\nranges 6000\nbytes 6000\n" + b"".join(b"RANGE %d 1 1 0x58\n" % (2 * i) for i in range(6000))
    report += b"".join(b"FILE 1 " + path + b"\n" for path in paths)
    at.journal.write_bytes(journal)
    at.run("report of a long journal", "report", "journal", code=0, out=report)
    for i in (2730, 2731, 5999):
        at.journal.write_bytes(journal[: 40 + 24 * i + 21] + b"\1" + journal[40 + 24 * i + 22 :])
        at.run(f"range {i} is bad", "report", "journal", code=9, err=b"dfredact: journal is bad at %d\n" % (40 + 24 * i + 21))
    for i in (0, 7, 41, 42, 5000, len(paths) - 1):
        for field in (0, 7):
            at.journal.write_bytes(journal[: begins[i] + field] + b"\x7f" + journal[begins[i] + field + 1 :])
            at.run(f"line {i} is bad", "report", "journal", code=9, err=b"dfredact: journal is bad at %d\n" % (begins[i] + field))


def one_file(at):
    at.image.write_bytes(at.old)
    for make in (os.link, os.symlink):
        at.journal.unlink(missing_ok=True)
        make(at.image, at.journal)
        at.run(f"the journal is the image, by {make.__name__}", "redact", "image", "journal", "rules", code=10, err=FAILED)
        see("the image is as it was", at.image.read_bytes() == at.old)
    at.journal.unlink()
    at.journal.mkdir()
    at.run("the journal is a directory", "redact", "image", "journal", "rules", code=10, err=FAILED)
    at.journal.rmdir()
    see("the image is as it was", at.image.read_bytes() == at.old)
    if os.geteuid() != 0:
        at.image.chmod(0o444)
        at.run("an image that may not be written", "redact", "image", "journal", "rules", code=10, err=FAILED)
        at.image.chmod(0o644)
        see("the image is as it was", at.image.read_bytes() == at.old)


# the calls of a redaction: each sync is one of both files
ORDER = ["sync", "cut", "sync", "write journal 0 1", "sync", "write journal 1 74", "sync", "write journal 0 1", "sync", "write image 86016 3",
         "sync", "write journal 73 1", "sync", "write journal 74 1", "sync"]


def calls(log):
    """What the calls on the files named image and journal did, two syncs side by side as one."""
    said, places = [], {}
    for line in log.splitlines():
        call = re.search(r"(\w+)\(\d+<[^>]*/(image|journal)>.*\) += (\d+)$", line)
        if not call:
            continue
        name, file, came = call[1], call[2], int(call[3])
        if name == "lseek":
            places[file] = came
        elif name == "write":
            said.append(f"write {file} {places[file]} {came}")
            places[file] += came
        elif name == "ftruncate":
            said.append("cut")
        else:
            said.append(f"sync {file}")
    both = []
    while said:
        pair = {"sync image", "sync journal"}
        if len(said) > 1 and set(said[:2]) == pair:
            both.append("sync")
            said = said[2:]
        else:
            both.append(said.pop(0))
    return both


# how each command opens its files, in this order; `redact` finds no journal, and makes it
OPENED = {
    "plan image rules": ["image O_RDONLY", "rules O_RDONLY"],
    "redact image journal rules": ["image O_RDWR", "journal O_RDWR", "journal O_RDWR|O_CREAT|O_EXCL", "rules O_RDONLY"],
    "resume image journal": ["image O_RDWR", "journal O_RDWR"],
    "report journal": ["journal O_RDONLY"],
}


def opened(at):
    at.image.write_bytes(at.old)
    at.journal.unlink(missing_ok=True)
    log = at.directory / "log"
    for words, wanted in OPENED.items():
        state = b"planned" if words.startswith("plan") else b"done"
        trace = ["strace", "-f", "-o", str(log), "-e", "trace=?open,openat"]
        at.run(f"{words}, traced", *words.split(), code=0, out=b"redaction " + state + b"\n" + LINES, before=trace)
        calls = re.findall(r'"(image|journal|rules)", ([A-Z_|]+)', log.read_text())
        found = [name + " " + re.sub(r"\|O_(CLOEXEC|NOCTTY)", "", flags) for name, flags in calls]
        see(f"{words}: the files are opened so: {found}", found == wanted)


def traced(at):
    at.image.write_bytes(at.old)
    at.journal.unlink(missing_ok=True)
    log = at.directory / "log"
    trace = ["strace", "-f", "-y", "-o", str(log), "-e", "trace=lseek,write,ftruncate,fsync"]
    at.run("redact, traced", "redact", "image", "journal", "rules", code=0, out=b"redaction done\n" + LINES, before=trace)
    at.holds("redact, traced", at.filled, JOURNAL)
    found = calls(log.read_text())
    see(f"the calls are in order: {found}", found == ORDER)
    see("the journal's directory is synced", re.search(rf"fsync\(\d+<{re.escape(str(at.directory.resolve()))}>\) += 0", log.read_text()) is not None)


def main():
    program = pathlib.Path(sys.argv[1] if len(sys.argv) > 1 else TOP / "crates/dfredact/out/dfredact").resolve()
    with tempfile.TemporaryDirectory() as directory:
        at = Place(directory, program)
        for part in (commands, stopped, long_journal, one_file):
            part(at)
        if shutil.which("strace"):
            opened(at)
            traced(at)
        else:
            print("strace isn't there: the order of the system's calls wasn't seen")
    print(f"{len(failed)} of {held + len(failed)} checks don't hold" if failed else f"{held} checks, all hold")
    return 1 if failed else 0


if __name__ == "__main__":
    sys.exit(main())
