#!/usr/bin/env python3
"""Writes a feed whose outputs are spent as on mainnet: live_chain.py BLOCKS OUTPUTS.

Each block makes so many outputs, and spends as many of earlier blocks but six in a hundred, as far as it finds them. Of the outputs that it spends,
half are drawn from those of the 144 blocks before, which is a day, and half from all older ones. So at the end of a long feed about seven in a
hundred of all outputs are live, and half of those that were spent lived for less than a day.

It tells on standard error how many outputs were made and how many are live.
"""
import random
import sys

from made_feed import MAGIC, frame, hash256, little, merkle_root

DAY = 144
RIPE = 100


def counted(number):
    """A number as CompactSize."""
    if number < 253:
        return bytes([number])
    return b"\xfd" + little(number, 2) if number < 65_536 else b"\xfe" + little(number, 4)


def transaction(inputs, outputs):
    """Of inputs that are written, and so many outputs of no amount with the script 51."""
    return little(1, 4) + counted(len(inputs)) + b"".join(inputs) + counted(outputs) + (bytes(8) + b"\x01\x51") * outputs + bytes(4)


def spend(txid, index):
    return txid + little(index, 4) + b"\x00" + b"\xff" * 4


def coinbase(height):
    script = little(height, 4)
    return transaction([bytes(32) + b"\xff" * 4 + bytes([len(script)]) + script + b"\xff" * 4], 1)


class Live:
    """The indices of the outputs of each payment that are live, in any order."""

    def __init__(self):
        self.payments = []

    def add(self, txid, outputs):
        self.payments.append((txid, list(range(outputs))))

    def draw(self, draws, start, end):
        """Takes one of those of the payments from `start` on and before `end`. None where few are left there."""
        for _ in range(64):
            txid, indices = self.payments[draws.randrange(start, end)]
            if indices:
                place = draws.randrange(len(indices))
                indices[place], indices[-1] = indices[-1], indices[place]
                return spend(txid, indices.pop())
        return None

    def count(self):
        return sum(len(indices) for _, indices in self.payments)


def inputs_of(draws, live, count):
    """What a block spends."""
    end = len(live.payments)
    day = max(0, end - DAY)
    drawn = []
    for number in range(count):
        recent = number % 2 == 0 or day == 0
        taken = live.draw(draws, day if recent else 0, end if recent else day)
        if taken is not None:
            drawn.append(taken)
    return drawn


def main(words):
    blocks, outputs = int(words[0]), int(words[1])
    draws, live, tip, first = random.Random(1), Live(), bytes(32), None
    made = 0
    for height in range(blocks):
        paid = coinbase(height)
        texts, ids = [paid], [hash256(paid)]
        first = ids[0] if height == 1 else first
        if height > RIPE:
            spends = inputs_of(draws, live, outputs * 94 // 100) if live.payments else [spend(first, 0)]
            texts.append(transaction(spends, outputs))
            ids.append(hash256(texts[1]))
            live.add(ids[1], outputs)
            made += outputs
        header = little(1, 4) + tip + merkle_root(ids) + little(1_231_006_505 + height, 4) + bytes.fromhex("ffff001d") + bytes(4)
        tip = hash256(header)
        body = header + counted(len(texts)) + b"".join(texts)
        sys.stdout.buffer.write(frame(MAGIC["main"], body))
    print(f"{made} outputs of payments, of which {live.count()} are live", file=sys.stderr)


if __name__ == "__main__":
    main(sys.argv[1:])
