#!/usr/bin/env python3
"""Runs the merge gate and prints its processor seconds by crate and step.

    tools/gate_cost.py [--every SECONDS] [WORD..]      runs `rt ci WORD..` at the top of the repository

It looks at the processes of the gate some times a second (Linux, /proc) and adds up what each used. The steps are: proof
(a crate without its tests), tests (a crate proved with its tests), edits (wrong bodies that must be refused), build (the
compiler and the linker behind them), run (tests and programs that run) and other. What was proved in an earlier run on this
machine isn't proved again: `--anew` measures everything.
"""
import collections
import os
import pathlib
import re
import subprocess
import sys
import time

TOP = pathlib.Path(__file__).resolve().parent.parent
TICK = os.sysconf("SC_CLK_TCK")
STEPS = ["proof", "tests", "edits", "build", "run", "other"]


def stat(pid):
    """The parent of a process, its processor seconds, and when it began."""
    text = pathlib.Path(f"/proc/{pid}/stat").read_text()
    fields = text[text.rindex(")") + 2 :].split()
    return int(fields[1]), (int(fields[11]) + int(fields[12])) / TICK, fields[19]


def label(pid):
    """The crate and the step of a process."""
    words = pathlib.Path(f"/proc/{pid}/cmdline").read_bytes().decode(errors="replace").split("\0")
    place = os.readlink(f"/proc/{pid}/cwd")
    text = " ".join(words)
    named = re.search(r"--crate-name (\w+)", text) or re.search(r"crates/(\w+)", place) or re.search(r"crates/(\w+)", text)
    crate = named.group(1) if named else ""
    if "rattle" not in words[0]:
        return crate, "run" if crate and "python" not in words[0] and "bash" not in words[0] and "rt" != words[0].split("/")[-1] else "other"
    if "/rt-edit-" in place:
        return crate, "edits"
    if "/toolchain/" in words[0]:
        return crate, "build"
    return crate, "tests" if "--test" in words else "proof"


def watch(gate, every):
    used, labels = {}, {}
    while True:
        done = gate.poll() is not None
        parents, now = {}, {}
        for entry in os.listdir("/proc"):
            if entry.isdigit():
                try:
                    parents[int(entry)], seconds, began = stat(entry)
                    now[int(entry)] = (seconds, began)
                except (OSError, ValueError):
                    continue
        ours, grown = {gate.pid}, True
        while grown:
            more = {pid for pid, parent in parents.items() if parent in ours} - ours
            grown = bool(more)
            ours |= more
        for pid in ours & now.keys():
            key = (pid, now[pid][1])
            try:
                labels[key] = label(pid)
            except OSError:
                labels.setdefault(key, ("", "other"))
            used[key] = now[pid][0]
        if done:
            return used, labels
        time.sleep(every)


def main():
    words = sys.argv[1:]
    every = 0.25
    if words[:1] == ["--every"]:
        every, words = float(words[1]), words[2:]
    began = time.time()
    gate = subprocess.Popen(["rt", "ci"] + words, cwd=TOP)
    used, labels = watch(gate, every)
    table = collections.defaultdict(lambda: collections.Counter())
    for key, seconds in used.items():
        crate, step = labels[key]
        table[crate or "(gate)"][step] += seconds
    print(f"\n{'crate':20}" + "".join(f"{step:>9}" for step in STEPS) + f"{'sum':>9}   processor seconds")
    total = collections.Counter()
    for crate, steps in sorted(table.items(), key=lambda row: -sum(row[1].values())):
        total.update(steps)
        print(f"{crate:20}" + "".join(f"{steps[step]:9.0f}" for step in STEPS) + f"{sum(steps.values()):9.0f}")
    print(f"{'all':20}" + "".join(f"{total[step]:9.0f}" for step in STEPS) + f"{sum(total.values()):9.0f}")
    print(f"wall: {(time.time() - began) / 60:.1f} minutes; processor: {sum(total.values()) / 60:.1f} minutes")
    return gate.returncode


if __name__ == "__main__":
    sys.exit(main())
