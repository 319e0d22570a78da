#!/usr/bin/env python3
"""Writes a feed of one block again and again, with a witness in each transaction and the coinbase's commitment to all:
witness_feed.py NET TRANSACTIONS TIMES.

The block is the first of its chain, and is refused for want of a proof, behind all rules on the block alone. On regtest these ask for the
commitment, on mainnet they do not at this height: the difference is what the rule takes.
"""
import hashlib
import struct
import sys

MAGIC = {"main": "f9beb4d9", "regtest": "fabfb5da"}


def sha256d(text):
    return hashlib.sha256(hashlib.sha256(text).digest()).digest()


def compact(value):
    return bytes([value]) if value < 253 else b"\xfd" + struct.pack("<H", value)


def merkle(hashes):
    while len(hashes) > 1:
        hashes += hashes[-1:] * (len(hashes) % 2)
        hashes = [sha256d(hashes[at] + hashes[at + 1]) for at in range(0, len(hashes), 2)]
    return hashes[0]


def output(amount, script):
    return struct.pack("<Q", amount) + compact(len(script)) + script


def transaction(inputs, outputs, stack):
    """Its bytes without and with the witness of its one input."""
    front, back = struct.pack("<I", 1), struct.pack("<I", 0)
    body = b"\1" + inputs + compact(len(outputs)) + b"".join(outputs)
    witness = compact(len(stack)) + b"".join(compact(len(item)) + item for item in stack)
    return front + body + back, front + b"\0\1" + body + witness + back


def spend(number):
    point = sha256d(struct.pack("<I", number)) + struct.pack("<I", 0)
    return transaction(point + b"\0" + b"\xff" * 4, [output(1000, b"\0\x14" + bytes(20))], [b"\x30" * 72, b"\2" * 33])


def main():
    net, count, times = sys.argv[1], int(sys.argv[2]), int(sys.argv[3])
    spends = [spend(number) for number in range(count)]
    reserved = bytes(32)
    root = merkle([bytes(32)] + [sha256d(whole) for _, whole in spends])
    commitment = bytes.fromhex("6a24aa21a9ed") + sha256d(root + reserved)
    coinbase = transaction(bytes(32) + b"\xff" * 4 + b"\4" + bytes(4) + b"\xff" * 4, [output(0, commitment)], [reserved])
    txs = [coinbase] + spends
    header = struct.pack("<I", 1) + bytes(32) + merkle([sha256d(plain) for plain, _ in txs]) + bytes(12)
    block = header + compact(len(txs)) + b"".join(whole for _, whole in txs)
    weight = 3 * (80 + len(compact(len(txs))) + sum(len(plain) for plain, _ in txs)) + len(block)
    print(f"{len(block)} bytes, weight {weight}", file=sys.stderr)
    for _ in range(times):
        sys.stdout.buffer.write(bytes.fromhex(MAGIC[net]) + struct.pack("<I", len(block)) + block)


main()
