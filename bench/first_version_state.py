#!/usr/bin/env python3
"""Turns a state of version 2 into version 1: first_version_state.py < STATE > STATE.

Both differ in the byte of the version and in the numbers of kept entries' places, which go by how many entries their level has.
"""
import pathlib
import sys

TOP = pathlib.Path(__file__).resolve().parent.parent
sys.path[:0] = [str(TOP / "bench"), str(TOP / "examples")]
sys.dont_write_bytecode = True
from first_version import position_of  # noqa: E402
from follower import NotSo, Reader, read_rest  # noqa: E402

MAGIC, VERSION_1, VERSION_2 = b"UTXS", b"\1", b"\2"


def kept_entry(reader, count):
    """An entry of a level of so many: number, place, outpoint, rest."""
    text = reader.take(8) + position_of(count, reader.number(8)).to_bytes(8, "little")
    return text + reader.take(32 + 4) + read_rest(reader)[0]


def level(reader):
    """Newest block, count of entries, the roots of its slots, kept entries, hashes."""
    start = reader.at
    reader.take(32)
    count = reader.number(8)
    for _ in range(count.bit_count()):
        if reader.take(1) == b"\1":
            reader.take(32)
    kept = reader.compact()
    text = reader.text[start : reader.at] + b"".join(kept_entry(reader, count) for _ in range(kept))
    start = reader.at
    reader.take(32 * reader.compact())
    return text + reader.text[start : reader.at]


def first_version(text):
    reader = Reader(text)
    if reader.take(5) != MAGIC + VERSION_2:
        raise NotSo
    start = reader.at
    # The network, how many blocks there are, and the watched scripts.
    reader.take(1 + 4)
    for _ in range(reader.compact()):
        reader.sized()
    levels = reader.number(1)
    front = MAGIC + VERSION_1 + text[start : reader.at]
    levels = b"".join(level(reader) for _ in range(levels))
    if reader.at != len(text):
        raise NotSo
    return front + levels


if __name__ == "__main__":
    sys.stdout.buffer.write(first_version(sys.stdin.buffer.read()))
