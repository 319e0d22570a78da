#!/usr/bin/env python3
"""Prints how many processor seconds each function of a crate took to prove: prove_times.py CRATE [--test]

The libraries below the crate are to be built. The crate is checked from nothing by one process, and its work so far is forgotten.
"""
import os
import pathlib
import re
import shutil
import subprocess
import sys

TOP = pathlib.Path(__file__).resolve().parent.parent
TICKS = os.sysconf("SC_CLK_TCK")
MOST = 30


def processes():
    """The parent and the processor seconds of each process."""
    found = {}
    for pid in filter(str.isdigit, os.listdir("/proc")):
        try:
            with open(f"/proc/{pid}/stat", encoding="utf-8") as file:
                fields = file.read().rsplit(")", 1)[1].split()
            found[int(pid)] = int(fields[1]), sum(map(int, fields[11:15])) / TICKS
        except OSError:
            continue
    return found


def seconds_beneath(top):
    found, total, left = processes(), 0.0, [top]
    while left:
        parent = left.pop()
        for pid, (above, seconds) in found.items():
            if above == parent:
                total += seconds
                left.append(pid)
    return total


def main():
    crate, *more = sys.argv[1:]
    folder = TOP / "crates" / crate
    shutil.rmtree(folder / "out/incremental", ignore_errors=True)
    words = ["rt", "check", "--jobs", "1", "--progress", *more]
    checked, before = [], 0.0
    with subprocess.Popen(words, cwd=folder, stdout=subprocess.PIPE, stderr=subprocess.STDOUT, text=True) as child:
        for line in child.stdout:
            found = re.match(r"checked (\S+),? ", line)
            if found:
                now = seconds_beneath(child.pid)
                checked.append((now - before, found[1]))
                before = now
            elif "error" in line or "not proved" in line:
                print(line.rstrip()[:200])
    print(f"{crate}: {sum(seconds for seconds, _ in checked):.0f} seconds, {len(checked)} functions")
    for seconds, name in sorted(checked, reverse=True)[:MOST]:
        print(f"{seconds:7.1f} {name}")
    return child.returncode


if __name__ == "__main__":
    sys.exit(main())
