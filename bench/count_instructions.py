#!/usr/bin/env python3
"""Counts the instructions that a block takes: count_instructions.py 'PROGRAM WORD..' ['PROGRAM WORD..' ..]
or count_instructions.py versions 'PROGRAM WORD..'

Each command is given `--feed FILE` besides, over feeds of coinbase blocks and of blocks that spend by proofs. The messages of these are of version 2
for the first command, and of version 1 for the others, since the plain follower reads that alone. A block takes the
difference between two feeds of which one begins the other, divided by the blocks between them. Counted by callgrind of valgrind
(a package of Debian's), on one thread and without the system's own work: the same on every run, whatever else the machine does. A
program that asks for the processor's instructions for hashes is told by valgrind that there are none for SHA-256.

Prints a row for each kind of block, as Markdown: the instructions of each command, and those of the first by each other's. With the word
`versions` the rows are those of blocks that spend by messages of version 2, of the same ones by messages of version 1, and the first by the second.
"""
import pathlib
import re
import shlex
import subprocess
import sys
import tempfile

BENCH = pathlib.Path(__file__).resolve().parent
# The words of make_feed behind the number of bytes, the bytes of a frame, and the blocks of the shorter and the longer feed.
MADE = [
    ("285 bytes, no entry", ["285", "unspendable"], 293, 5_000, 15_000),
    ("285 bytes, an entry each", ["285"], 293, 5_000, 15_000),
    ("1 MB, no entry", ["1000000", "unspendable"], 1_000_008, 1, 3),
    ("1 MB, 111,000 entries each", ["1000000"], 1_000_008, 1, 3),
]
# Entries; then spends a block, and so many blocks.
PROVED = [10_000, 100_000, 1_000_000]
SPENT = [(1, 10_000), (20, 1_000), (500, 200)]


def make(file, *command):
    with open(file, "wb") as out:
        subprocess.run(command, stdout=out, stderr=subprocess.DEVNULL, check=True)


def counted(command, feed):
    """The instructions of a whole run."""
    run = subprocess.run(
        ["valgrind", "--tool=callgrind", "--callgrind-out-file=/dev/null", *shlex.split(command), "--feed", str(feed)],
        stdout=subprocess.DEVNULL, stderr=subprocess.PIPE, text=True, check=True,
    )
    return int(re.search(r"Collected : (\d+)", run.stderr)[1])


def feeds(room):
    """The name of each kind of block, a feed and a longer one, the latter with older messages too, and how many such blocks are between them."""
    shorter, longer = room / "shorter", room / "longer"
    for name, words, frame, few, many in MADE:
        for file, blocks in ((shorter, few), (longer, many)):
            make(file, BENCH / "make_feed", str(frame * blocks), *words)
        yield name, shorter, longer, longer, many - few
    older = room / "older"
    for name, shorter, longer, blocks in spending(room):
        write_older(longer, older)
        yield name, shorter, longer, older, blocks


def spending(room):
    """The same of blocks that spend by proofs. The shorter feed has no message."""
    shorter, longer = room / "shorter", room / "longer"
    for entries in PROVED:
        make(shorter, BENCH / "proved_feed.py", str(entries), "0", "0")
        for spends, blocks in SPENT:
            make(longer, BENCH / "proved_feed.py", str(entries), str(blocks), str(spends))
            yield f"{spends} spend{'s' if spends > 1 else ''} over {entries:,}", shorter, longer, blocks


def by_commands(commands, room):
    for name, shorter, longer, older, blocks in feeds(room):
        read = [longer, *[older] * (len(commands) - 1)]
        yield name, [(counted(command, feed) - counted(command, shorter)) / blocks for command, feed in zip(commands, read)]


def write_older(longer, older):
    """The same feed with messages of version 1."""
    with open(longer, "rb") as feed, open(older, "wb") as out:
        subprocess.run([BENCH / "first_version.py"], stdin=feed, stdout=out, check=True)


def by_versions(command, room):
    older = room / "older"
    for name, shorter, longer, blocks in spending(room):
        write_older(longer, older)
        before = counted(command, shorter)
        yield name, [(counted(command, feed) - before) / blocks for feed in (longer, older)]


def main():
    words = sys.argv[1:]
    if not words or words == ["versions"]:
        sys.exit(__doc__)
    with tempfile.TemporaryDirectory() as folder:
        room = pathlib.Path(folder)
        for name, each in by_versions(words[1], room) if words[0] == "versions" else by_commands(words, room):
            ratios = [f"{each[0] / other:.{3 if words[0] == 'versions' else 2}f}" for other in each[1:]]
            print("| " + " | ".join([name, *(f"{count:,.0f}" for count in each), *ratios]) + " |", flush=True)


main()
