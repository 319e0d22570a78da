#!/usr/bin/env python3
"""Makes block frames in random order, to measure `utreexo order` on: order_feed.py FILE [MEGABYTES [BYTES [NUMBER]]]

FILE gets a chain of mainnet blocks of BYTES bytes each (1,000,000 where it is not said), MEGABYTES in all (1,000), in an order that is drawn from
NUMBER (1), and a tenth more blocks that stand beside the chain. Printed is the hash of the tip. The blocks are headers with a body of no meaning:
`order` reads headers alone.
"""
import hashlib
import random
import struct
import sys

MAGIC = bytes.fromhex("f9beb4d9")


def sha256d(text):
    return hashlib.sha256(hashlib.sha256(text).digest()).digest()


def header(prev, number):
    return struct.pack("<i32s32sIII", 1, prev, hashlib.sha256(struct.pack("<Q", number)).digest(), number & 0xFFFFFFFF, 0x1D00FFFF, 0)


def headers(count, draw):
    """A chain, and the blocks beside it, each of which names one of the chain."""
    chain, hashes = [], [bytes(32)]
    for number in range(count):
        chain.append(header(hashes[-1], number))
        hashes.append(sha256d(chain[-1]))
    beside = [header(hashes[draw.randrange(count)], count + number) for number in range(count // 10)]
    return chain, beside, hashes[-1]


def main(path, megabytes=1000, size=1_000_000, number=1):
    draw = random.Random(number)
    count = max(1, megabytes * 1_000_000 // size)
    chain, beside, tip = headers(count, draw)
    blocks = chain + beside
    draw.shuffle(blocks)
    body = draw.randbytes(max(0, size - 80))
    with open(path, "wb") as file:
        for text in blocks:
            file.write(MAGIC + struct.pack("<I", len(text) + len(body)) + text + body)
    print(tip[::-1].hex())


if len(sys.argv) < 2:
    sys.exit(__doc__)
main(sys.argv[1], *map(int, sys.argv[2:]))
