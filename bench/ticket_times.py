#!/usr/bin/env python3
"""Measures tickets: ticket_times.py PROGRAM [RUNS [OUTPUTS ..]] prints how many bytes a ticket has, and how long `check` takes.

A chain of coinbases makes OUTPUTS (10,000, 100,000 and 1,000,000), of which the first alone is watched, and a hundred blocks more make none.
`follow` stores the state behind them, with 101 levels, and `ticket 0` writes the ticket. RUNS (1,000) times each, by turns, run the program with
no words, `check` of a text of no byte, which reads the state alone, and `check` of the ticket. A time is the processor's, of the whole process;
the median counts. Printed is that of `check` less that of no words, and less that of the text of no byte, which leaves the ticket alone.
"""
import hashlib
import os
import statistics
import struct
import subprocess
import sys
import tempfile
from pathlib import Path

SUBSIDY, AT_ONCE, KEPT = 5_000_000_000, 10_000, 100
WATCHED, OTHER, UNSPENDABLE = b"\x52", b"\x51", b"\x6a"


def sha256d(text):
    return hashlib.sha256(hashlib.sha256(text).digest()).digest()


def compact(value):
    return bytes([value]) if value < 253 else b"\xfd" + struct.pack("<H", value)


def coinbase(height, scripts):
    amount = SUBSIDY // len(scripts)
    outputs = b"".join(struct.pack("<Q", amount) + compact(len(script)) + script for script in scripts)
    front = struct.pack("<I", 1) + b"\1" + bytes(32) + b"\xff" * 4 + b"\4" + struct.pack("<I", height) + b"\xff" * 4
    return front + compact(len(scripts)) + outputs + bytes(4)


def write_feed(path, outputs):
    """The outputs of the first block are no entries, so it has one that can not be spent."""
    lists = [[UNSPENDABLE]]
    for made in range(0, outputs, AT_ONCE):
        lists.append([OTHER] * min(AT_ONCE, outputs - made))
    lists[1][0] = WATCHED
    lists += [[UNSPENDABLE]] * KEPT
    tip = bytes(32)
    with open(path, "wb") as file:
        for height, scripts in enumerate(lists):
            tx = coinbase(height, scripts)
            header = struct.pack("<I", 1) + tip + sha256d(tx) + bytes(12)
            tip, body = sha256d(header), header + b"\1" + tx
            file.write(bytes.fromhex("f9beb4d9") + struct.pack("<I", len(body)) + body)


def run(words, wanted):
    """Seconds of processor time."""
    with open(os.devnull, "wb") as nothing:
        child = subprocess.Popen(words, stdin=subprocess.DEVNULL, stdout=nothing)
        _, status, usage = os.wait4(child.pid, 0)
    child.returncode = os.waitstatus_to_exitcode(status)
    if child.returncode != wanted:
        sys.exit(f"status {child.returncode} of {words}")
    return usage.ru_utime + usage.ru_stime


def measure(program, room, outputs, runs):
    feed, watch, state, ticket, empty = (str(room / name) for name in ("feed", "watch", "state", "ticket", "empty"))
    write_feed(feed, outputs)
    Path(watch).write_text(WATCHED.hex() + "\n")
    Path(empty).write_bytes(b"")
    run([program, "follow", "--feed", feed, "--watch", watch, "--to", state], 0)
    run([program, "ticket", "0", "--from", state, "--to", ticket], 0)
    turns = [([program], 2), ([program, "check", "--from", state, "--feed", empty], 1), ([program, "check", "--from", state, "--feed", ticket], 0)]
    times = [[run(*turn) for turn in turns] for _ in range(runs)]
    bare, read, judged = (1e6 * statistics.median(column) for column in zip(*times))
    print(f"{outputs} outputs: a ticket of {os.path.getsize(ticket)} bytes, a state of {os.path.getsize(state)};", end=" ")
    print(f"check {judged - bare:.0f} microseconds, the ticket alone {judged - read:.1f}, no words {bare:.0f}")


def main(program, runs=1_000, *numbers):
    for outputs in numbers or (10_000, 100_000, 1_000_000):
        with tempfile.TemporaryDirectory() as folder:
            measure(program, Path(folder), outputs, runs)


if __name__ == "__main__":
    if len(sys.argv) < 2:
        sys.exit(__doc__)
    main(sys.argv[1], *map(int, sys.argv[2:]))
