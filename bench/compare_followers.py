#!/usr/bin/env python3
"""Sets the program beside examples/follower.py over feeds that are changed at random: compare_followers.py FEEDS [SEED].

Each feed is one of two chains, with the messages of version 2 or the same ones of version 1, and has one to three changes: bits of proofs and
blocks, the last block with other transactions under a merkle root that is right, other versions and kinds, other targets, hashes too many or too
few, proofs left out, rollbacks, other ways on behind a rollback, an end in the middle. Report and status have to be the same.
"""
import collections
import pathlib
import random
import subprocess
import sys

TOP = pathlib.Path(__file__).resolve().parent.parent
sys.path.insert(0, str(TOP / "examples"))
sys.dont_write_bytecode = True
from first_version import first_version, framed  # noqa: E402
from follower import NotSo, Refused, merkle_root, read_block, row_start  # noqa: E402

PROGRAM = [TOP / "utreexo", "follow"]
FOLLOWER = [sys.executable, TOP / "examples/follower.py"]


def output(words, feed=b""):
    return subprocess.run(words, input=feed, stdout=subprocess.PIPE, stderr=subprocess.DEVNULL, check=False)


def split(feed):
    frames = []
    while feed:
        length = 8 + int.from_bytes(feed[4:8], "little")
        frames.append(feed[:length])
        feed = feed[length:]
    return frames


def flipped(draw, bytes_, least):
    text = bytearray(bytes_)
    text[draw.randrange(least, len(text))] ^= 1 << draw.randrange(8)
    return bytes(text)


def reheaded(draw, proof):
    """Another version or kind before the same targets."""
    return framed(b"UTXP", bytes([draw.choice([1, 2, 1, 2, 0, 3, 255]), draw.choice([0, 1, 2])]) + proof[10:])


def retargeted(draw, proof):
    body = proof[8:]
    at = 3 + 8 * draw.randrange(body[2] or 1)
    fixed = row_start(40, draw.randrange(9)) + draw.randrange(4)
    other = draw.choice([0, 1, int.from_bytes(body[3:11], "little"), draw.randrange(300), draw.randrange(3000), fixed])
    return framed(b"UTXP", body[:at] + other.to_bytes(8, "little") + body[at + 8 :])


def remade(draw, block):
    """A block with a bit of a transaction changed, or a transaction told twice, and the merkle root of what is there then."""
    body = flipped(draw, block[8:], 81)
    if draw.random() < 0.2:
        last = body[-61:]
        body = body[:80] + bytes([body[80] + 1]) + body[81:] + last
    try:
        root = merkle_root([one.txid for one in read_block(body)[1]])
    except (NotSo, Refused):
        return framed(block[:4], body)
    return framed(block[:4], body[:36] + root + body[68:])


def rollback(count):
    return framed(b"UTXR", count.to_bytes(4, "little"))


def change(draw, frames):
    proofs = [i for i, one in enumerate(frames) if one[:4] == b"UTXP"]
    kind = draw.randrange(12)
    at = draw.choice(proofs) if proofs and kind < 6 else draw.randrange(len(frames))
    if kind < 3 or kind == 8:
        frames[at] = flipped(draw, frames[at], 0 if kind == 8 else 8)
    elif kind == 3 and proofs:
        frames[at] = draw.choice([reheaded, retargeted])(draw, frames[at])
    elif kind == 4 and proofs:
        frames[at] = framed(b"UTXP", draw.choice([frames[at][8:-32], frames[at][8:] + bytes(32)]))
    elif kind == 5:
        del frames[at]
    elif kind == 6:
        frames.insert(at, rollback(draw.choice([0, 1, 2, 3, 50, 99, 100, 101, 2**32 - 1])))
    elif kind == 7:
        count = draw.randint(1, 4)
        frames += [rollback(count), *frames[-2 * count :]]
    elif kind > 8:
        last = max(i for i, one in enumerate(frames) if one[:4] == bytes.fromhex("f9beb4d9"))
        frames[last] = remade(draw, frames[last])


def main():
    feeds, draw = int(sys.argv[1]), random.Random(int(sys.argv[2]) if len(sys.argv) > 2 else 1)
    chains = [output([TOP / "bench/worked_bytes.py", "feed"]).stdout, output([TOP / "bench/proved_feed.py", "40", "4", "5"]).stdout]
    chains += [b"".join(first_version(chain, "main")) for chain in chains]
    told, wrong = collections.Counter(), 0
    for _ in range(feeds):
        frames = split(draw.choice(chains))
        for _ in range(draw.randint(1, 3)):
            change(draw, frames)
        feed = b"".join(frames)
        feed = feed[: draw.randrange(len(feed))] if draw.random() < 0.1 else feed
        one, other = output(PROGRAM, feed), output(FOLLOWER, feed)
        if (one.stdout, one.returncode) != (other.stdout, other.returncode):
            wrong += 1
            pathlib.Path(f"differs-{wrong}.feed").write_bytes(feed)
            print(f"the two differ over differs-{wrong}.feed")
        for line in one.stdout.decode().splitlines():
            words = line.split()
            told[" ".join([words[0], *words[3:5]]) if words[0] == "refused" else words[0]] += 1
    print(f"{feeds} feeds, {wrong} differ")
    print(*(f"{count:8} {what}" for what, count in sorted(told.items())), sep="\n")
    sys.exit(wrong > 0)


if __name__ == "__main__":
    main()
