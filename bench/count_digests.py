#!/usr/bin/env python3
"""Counts what a block needs that spends outputs by a proof: count_digests.py ENTRIES SPENDS BLOCKS prints a line of docs/figures/needs.csv.

The blocks are those of bench/proved_feed.py: each spends SPENDS entries, drawn by its rule, and makes as many and one more. Nothing is
hashed here: the forest is kept as the number of live entries in each of its parts.
"""
import sys


class Forest:
    """live[r][i] is how many of the 2^r entries from i * 2^r on are live, for all parts that are whole."""

    def __init__(self):
        self.live = [[]]

    def count(self):
        return len(self.live[0])

    def rows(self):
        return max(self.count() - 1, 0).bit_length()

    def add(self):
        """The digests of joining trees: one where the root that is met is not empty."""
        digests, row = 0, 0
        self.live[0].append(1)
        while len(self.live[row]) % 2 == 0:
            old, new = self.live[row][-2:]
            digests += old > 0
            row += 1
            if row == len(self.live):
                self.live.append([])
            self.live[row].append(old + new)
        return digests

    def spend(self, entries):
        """The digests of checking and deleting these entries, and the hashes that their proof gives."""
        digests = hashes = 0
        named, row = dict.fromkeys(entries, 1), 0
        while named:
            live, above = self.live[row], {}
            for part, count in named.items():
                if part >> 1 < self.count() >> row + 1:
                    above[part >> 1] = above.get(part >> 1, 0) + count
            for part in above:
                spent = [named.get(2 * part + side, 0) for side in (0, 1)]
                there = [live[2 * part + side] for side in (0, 1)]
                if all(there):
                    digests += 1 + (there[0] > spent[0] and there[1] > spent[1])
                    hashes += 0 in spent
            for part, count in named.items():
                live[part] -= count
            named, row = above, row + 1
        return digests, hashes


def compact_length(value):
    return 1 if value < 253 else 3 if value < 1 << 16 else 5


def sha256_blocks(length):
    """Blocks of 64 bytes that SHA-256 of SHA-256 goes over for a text of so many bytes."""
    return (length + 9 + 63) // 64 + 1


def main():
    entries, spends, blocks = map(int, sys.argv[1:4])
    forest = Forest()
    for _ in range(entries + 100):
        forest.add()
    purse, draw = list(range(entries)), 1
    calls = hashes = 0
    for _ in range(blocks):
        spent = []
        for _ in range(spends):
            draw = (draw * 6364136223846793005 + 1442695040888963407) % 2**64
            at = (draw >> 33) % len(purse)
            purse[at], purse[-1] = purse[-1], purse[at]
            spent.append(purse.pop())
        digests, needed = forest.spend(spent)
        made = [(forest.count(), forest.add())[1] for _ in range(spends + 1)]
        purse += range(forest.count() - spends, forest.count())
        calls += digests + sum(made) + len(spent) + len(made)
        hashes += needed
    added, rows = spends + 1, forest.rows()
    payment = 8 + 2 * compact_length(spends) + 51 * spends
    sha512 = calls / blocks + spends + added
    sha256 = sha256_blocks(65) + sha256_blocks(payment) + sha256_blocks(80) + sha256_blocks(64)
    message = 2 + compact_length(spends) + 54 * spends + compact_length(hashes // blocks) + 32 * hashes / blocks
    bound = spends + 2 * spends * rows + 2 * added + 40
    counts = f"{hashes / blocks:.2f},{calls / blocks:.2f},{bound},{sha512:.2f},{sha256}"
    print(f"{entries},{spends},{blocks},{rows},{counts},{message:.0f},{81 + 65 + payment}")


main()
