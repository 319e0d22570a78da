#!/usr/bin/env python3
"""Makes a feed of any length from a number: made_feed.py NUMBER BLOCKS [main|regtest] writes it, made_feed.py counts NUMBER BLOCKS
[main|regtest] prints its blocks, rollbacks, bytes and SHA-256.

It is written from the description of the feed in docs/FORMATS.md alone, to set beside what `chain_gen` writes.
"""
import collections
import hashlib
import sys

Coin = collections.namedtuple("Coin", "txid index amount height coinbase")
HALVING = {"main": 210_000, "regtest": 150}
MAGIC = {"main": bytes.fromhex("f9beb4d9"), "regtest": bytes.fromhex("fabfb5da")}
ROLLBACK = b"UTXR"


def hash256(text):
    return hashlib.sha256(hashlib.sha256(text).digest()).digest()


def little(number, size):
    return number.to_bytes(size, "little")


def frame(magic, body):
    return magic + little(len(body), 4) + body


def output(amount, lock):
    return little(amount, 8) + bytes([2, 0x52, lock])


def transaction(txid, index, script, outputs):
    inputs = b"\x01" + txid + little(index, 4) + bytes([len(script)]) + script + b"\xff" * 4
    return little(1, 4) + inputs + bytes([len(outputs)]) + b"".join(outputs) + bytes(4)


def merkle_root(ids):
    while len(ids) > 1:
        if len(ids) % 2:
            ids = ids + ids[-1:]
        ids = [hash256(ids[i] + ids[i + 1]) for i in range(0, len(ids), 2)]
    return ids[0]


class Draws:
    def __init__(self, word):
        self.word = word

    def draw(self, choices):
        self.word = (self.word * 6_364_136_223_846_793_005 + 1_442_695_040_888_963_407) % 2**64
        return (self.word >> 33) % choices


class Purse:
    """All that can be spent, in the order of addition. The candidates are a front, which holds no others, and some behind it."""

    def __init__(self, front=(), behind=()):
        self.front, self.behind = list(front), list(behind)

    def copy(self):
        return Purse(self.front, self.behind)

    def add(self, coin):
        # One of less than 4 is never spent.
        if coin.amount >= 4:
            self.behind.append(coin)

    def settle(self, height):
        done = 0
        while done < len(self.behind) and ripe(self.behind[done], height):
            done += 1
        self.front += self.behind[:done]
        del self.behind[:done]

    def places(self, height):
        return [place for place, coin in enumerate(self.behind) if ripe(coin, height)]

    def take(self, choice, places):
        if choice < len(self.front):
            return self.front.pop(choice)
        return self.behind.pop(places[choice - len(self.front)])


def ripe(coin, height):
    return not coin.coinbase or coin.height + 100 <= height


def block(draws, purse, number, height, tip, net):
    halvings = height // HALVING[net]
    subsidy = 5_000_000_000 >> halvings if halvings < 64 else 0
    paid = output(subsidy, draws.draw(16))
    coinbase = transaction(bytes(32), 0xFFFF_FFFF, little(number, 4) + little(height, 4), [paid])
    transactions = [coinbase]
    purse.settle(height)
    for _ in range(draws.draw(4)):
        places = purse.places(height)
        count = len(purse.front) + len(places)
        if count == 0:
            break
        coin = purse.take(draws.draw(count), places)
        halves = [coin.amount // 2, coin.amount - coin.amount // 2 - 1]
        spend = transaction(coin.txid, coin.index, b"", [output(half, draws.draw(16)) for half in halves])
        for index, half in enumerate(halves):
            purse.add(Coin(hash256(spend), index, half, height, False))
        transactions.append(spend)
    root = merkle_root([hash256(text) for text in transactions])
    header = little(1, 4) + tip + root + little(1_231_006_505 + number, 4) + bytes.fromhex("ffff001d") + bytes(4)
    if height > 0:
        purse.add(Coin(hash256(coinbase), 0, subsidy, height, True))
    return hash256(header), header + bytes([len(transactions)]) + b"".join(transactions)


def feed(number, blocks, net):
    """The frames, each with whether it is that of a block."""
    draws, chain, purse = Draws(number), [], Purse()
    before = []
    for count in range(blocks):
        if count and count % 50 == 0:
            yield False, frame(ROLLBACK, little(2, 4))
            del chain[-2:]
            purse = before[0]
        before = before[-1:] + [purse.copy()] if count % 50 >= 48 else []
        tip = chain[-1] if chain else bytes(32)
        hash_, body = block(draws, purse, count, len(chain), tip, net)
        chain.append(hash_)
        yield True, frame(MAGIC[net], body)


def main(words):
    only_counts = words[:1] == ["counts"]
    number, blocks, *net = words[1:] if only_counts else words
    digest, counts, size = hashlib.sha256(), [0, 0], 0
    for is_block, text in feed(int(number), int(blocks), *(net or ["main"])):
        if only_counts:
            digest.update(text)
            counts[not is_block] += 1
            size += len(text)
        else:
            sys.stdout.buffer.write(text)
    if only_counts:
        print(*counts, size, digest.hexdigest())


if __name__ == "__main__":
    main(sys.argv[1:])
