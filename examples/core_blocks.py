#!/usr/bin/env python3
"""Reads the block files of a Bitcoin Core node, and writes their blocks as a feed to standard output.

    core_blocks.py FOLDER [--net main|regtest] > FEED               all blocks, in order of arrival, for `utreexo order`
    core_blocks.py FOLDER [--net main|regtest] --tip HASH > FEED    the path from the first block to HASH alone
    core_blocks.py FOLDER [--net main|regtest] --best               no feed: prints the tip with the most blocks behind it, and its height

FOLDER has blk00000.dat and its likes: mainnet's is blocks/ in the data folder. Two things of these files are no feed, and are undone here. Since
version 28 the files of a new node are XORed with the eight bytes of xor.dat, each file from its own start on. And a file that the node may still
write to has zero bytes behind its last block, which are not XORed.

`utreexo order` keeps every block in memory until it knows the path. This program keeps headers alone, and reads the blocks of the path a second
time, so it serves for a whole chain. Nothing of it is proved. What it writes is judged by whatever reads it: a block out of its place is refused
by `utreexo prove` and `utreexo follow` with the line `refused .. link`. Stop the node before, or its files may change meanwhile.
"""
import argparse
import functools
import hashlib
import os
import sys
from dataclasses import dataclass

MAGIC = {"main": bytes.fromhex("f9beb4d9"), "regtest": bytes.fromhex("fabfb5da")}
MOST = 4_000_000
HEADER = 80
PIECE = 1 << 20
NO_HASH = bytes(32)


@functools.lru_cache(maxsize=64)
def opened(path):
    """A file that is open, as long as few others were asked for since: a node has thousands."""
    return open(path, "rb", buffering=PIECE)


class Masked:
    """A file, read as it was before each byte was XORed with the byte of the key at its place."""

    def __init__(self, path, key):
        self.path, self.key, self.size = path, key, os.path.getsize(path)

    def raw(self, at, count):
        file = opened(self.path)
        file.seek(at)
        return file.read(count)

    def read(self, at, count):
        raw = self.raw(at, count)
        if not any(self.key):
            return raw
        turn = at % len(self.key)
        key = self.key[turn:] + self.key[:turn]
        key = (key * (len(raw) // len(key) + 1))[: len(raw)]
        return (int.from_bytes(raw, "little") ^ int.from_bytes(key, "little")).to_bytes(len(raw), "little")


@dataclass
class Place:
    """A block: the hash that it names as the one before it, and where its bytes are."""

    prev: bytes
    file: Masked
    at: int
    size: int


def sha256d(text):
    return hashlib.sha256(hashlib.sha256(text).digest()).digest()


def printed(digest):
    return digest[::-1].hex()


def key_of(folder):
    path = os.path.join(folder, "xor.dat")
    if not os.path.exists(path):
        return bytes(8)
    with open(path, "rb") as file:
        key = file.read()
    if len(key) != 8:
        sys.exit(f"{path} has {len(key)} bytes, and not 8")
    return key


def files_of(folder):
    names = [name for name in os.listdir(folder) if name.startswith("blk") and name.endswith(".dat")]
    if not names:
        sys.exit(f"no blk*.dat in {folder}")
    key = key_of(folder)
    return [Masked(os.path.join(folder, name), key) for name in sorted(names, key=lambda name: int(name[3:-4]))]


def blocks_of(file, magic):
    """Where the blocks of a file begin, and how many bytes they have."""
    at = 0
    while at < file.size:
        head = file.read(at, 8)
        size = int.from_bytes(head[4:], "little")
        if head[:4] == magic and HEADER <= size <= MOST and at + 8 + size <= file.size:
            yield at + 8, size
            at += 8 + size
        else:
            at = next_frame(file, magic, at)


def next_frame(file, magic, begin):
    """Behind bytes that are no block: room that the node has not written to, or what it left when it was killed."""
    at = behind_zeros(file, begin)
    if at == file.size:
        return at
    # A masked frame may itself begin with zero bytes.
    at = max(begin + 1, at - 7)
    while at < file.size:
        found = file.read(at, PIECE + len(magic) - 1).find(magic)
        if found >= 0:
            at += found
            break
        at += PIECE
    at = min(at, file.size)
    print(f"{file.path}: {at - begin} bytes from {begin} on are no block, and are left out", file=sys.stderr)
    return at


def behind_zeros(file, at):
    while at < file.size:
        piece = file.raw(at, PIECE)
        rest = piece.lstrip(b"\0")
        at += len(piece) - len(rest)
        if rest:
            break
    return at


def survey(files, magic):
    """Each block by its hash, the first where there are several."""
    places = {}
    for file in files:
        for at, size in blocks_of(file, magic):
            header = file.read(at, HEADER)
            places.setdefault(sha256d(header), Place(header[4:36], file, at, size))
    return places


def path_to(places, tip):
    """The hashes from the first block to the tip."""
    if tip not in places:
        sys.exit("notip")
    path, met, at = [], set(), tip
    while True:
        if at not in places:
            sys.exit(f"missing {printed(at)}")
        if at in met:
            sys.exit(f"loop {printed(at)}")
        met.add(at)
        path.append(at)
        at = places[at].prev
        if at == NO_HASH:
            return path[::-1]


def heights(places):
    """The height of each block that is linked to a first one."""
    later = {}
    for digest, place in places.items():
        later.setdefault(place.prev, []).append(digest)
    height, linked = {}, [(digest, 0) for digest in later.get(NO_HASH, [])]
    while linked:
        digest, at = linked.pop()
        height[digest] = at
        linked += [(other, at + 1) for other in later.get(digest, [])]
    return height


def main():
    parser = argparse.ArgumentParser(description="Writes the blocks of a Bitcoin Core node as a feed")
    parser.add_argument("folder")
    parser.add_argument("--net", choices=MAGIC, default="main")
    asked = parser.add_mutually_exclusive_group()
    asked.add_argument("--tip")
    asked.add_argument("--best", action="store_true")
    given = parser.parse_args()
    magic, files = MAGIC[given.net], files_of(given.folder)

    def put(file, at, size):
        sys.stdout.buffer.write(magic + size.to_bytes(4, "little") + file.read(at, size))

    if given.best:
        height = heights(survey(files, magic))
        if not height:
            sys.exit("no block is linked to a first one")
        tip = max(height, key=height.get)
        print(f"{printed(tip)} {height[tip]}")
    elif given.tip is not None:
        places = survey(files, magic)
        for digest in path_to(places, bytes.fromhex(given.tip)[::-1]):
            place = places[digest]
            put(place.file, place.at, place.size)
    else:
        for file in files:
            for at, size in blocks_of(file, magic):
                put(file, at, size)


if __name__ == "__main__":
    main()
