#!/usr/bin/env python3
"""Turns the messages of a feed into version 1: first_version.py [main|regtest] < FEED > FEED.

Version 1 names a place by its position, which goes by how many entries there are before the block. So the entries that each block adds to
those of the block that it extends are counted here, from the blocks alone. A number that names no place becomes 2^64 - 1, which names none
either; a message that is not of version 2, and all else, stays as it is.
"""
import pathlib
import sys

TOP = pathlib.Path(__file__).resolve().parent.parent
sys.path.insert(0, str(TOP / "examples"))
sys.dont_write_bytecode = True
from follower import NotSo, Reader, frames, place_of, read_block, row_start, rows, sha256d, walk  # noqa: E402

MAGIC = {"main": bytes.fromhex("f9beb4d9"), "regtest": bytes.fromhex("fabfb5da")}
NO_PLACE = (1 << 64) - 1


def framed(magic, body):
    return magic + len(body).to_bytes(4, "little") + body


def position_of(count, number):
    """The position, among so many entries, of the place that a number of version 2 names."""
    place = place_of(2, count, number)
    return NO_PLACE if place is None else row_start(rows(count), place[0]) + place[1]


def renumbered(message, count):
    """The message in version 1, beside a block behind so many entries."""
    reader = Reader(message)
    try:
        if reader.take(1) != b"\2":
            return message
        kind = reader.take(1)
        start = reader.at
        spends = reader.compact()
        text = b"\1" + kind + message[start : reader.at]
        numbers = [reader.number(8) for _ in range(spends)]
    except NotSo:
        return message
    return text + b"".join(position_of(count, number).to_bytes(8, "little") for number in numbers) + message[reader.at :]


class Counts:
    """Of each block its height, and how many entries there are behind it. What extends an unknown block is refused before its proof is read."""

    def __init__(self):
        self.behind = {bytes(32): (-1, 0)}

    def before(self, block):
        return self.behind.get(block[4:36], (-1, 0))

    def take(self, block):
        height, count = self.before(block)
        try:
            header, transactions = read_block(block)
        except NotSo:
            return
        hash_ = sha256d(header)
        self.behind[hash_] = height + 1, count + len(walk(transactions, height + 1, hash_)[1])


def first_version(feed, net):
    counts, proof = Counts(), None
    for kind, body in frames(feed, MAGIC[net]):
        if proof is not None:
            yield framed(b"UTXP", renumbered(proof, counts.before(body)[1]) if kind == "block" else proof)
        proof = body if kind == "proof" else None
        if kind == "block":
            yield framed(MAGIC[net], body)
            counts.take(body)
        elif kind == "rollback":
            yield framed(b"UTXR", body)


def main():
    net = sys.argv[1] if len(sys.argv) > 1 else "main"
    for text in first_version(sys.stdin.buffer.read(), net):
        sys.stdout.buffer.write(text)


if __name__ == "__main__":
    main()
