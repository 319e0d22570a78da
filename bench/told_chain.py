#!/usr/bin/env python3
"""Chains of blocks as .ci/rows asks for them: the feed, the lines that are wanted of it, and messages with right hashes or others.

It computes the definitions of docs/FORMATS.md by the calls of bench/worked_bytes.py, and knows nothing of the node. The forest is the plain list
of the leaves, of which spent ones are None.
"""
import dataclasses
import pathlib
import struct
import sys

sys.dont_write_bytecode = True
sys.path.insert(0, str(pathlib.Path(__file__).resolve().parent))
import worked_bytes  # noqa: E402
from worked_bytes import SCRIPT, SUBSIDY, compact, content, fixed_position, frame, sha256d, standing  # noqa: E402

MAGIC = {"main": bytes.fromhex("f9beb4d9"), "regtest": bytes.fromhex("fabfb5da")}
HALF = SUBSIDY // 2
FULL, LEAN = 0, 1


@dataclasses.dataclass(frozen=True)
class Coin:
    """An output, by default as one that no block made yet: code is twice the height, and one more for an output of a coinbase."""

    txid: bytes
    index: int = 0
    block: bytes = bytes(32)
    code: int = 0
    amount: int = 0
    script: bytes = SCRIPT

    def rest(self):
        return self.block + struct.pack("<IQ", self.code, self.amount) + compact(len(self.script)) + self.script

    def leaf(self):
        return worked_bytes.leaf(self.txid, self.index, self.rest())


NULL = Coin(bytes(32), 0xFFFFFFFF)


# ---- transactions and blocks


def transaction(inputs, outputs):
    """Inputs are txid, index and script, outputs an amount and a script."""
    text = struct.pack("<I", 1) + compact(len(inputs))
    for txid, index, script in inputs:
        text += txid + struct.pack("<I", index) + compact(len(script)) + script + b"\xff" * 4
    paid = [struct.pack("<Q", amount) + compact(len(script)) + script for amount, script in outputs]
    return text + compact(len(outputs)) + b"".join(paid) + bytes(4)


def coinbase(height, amounts, script=SCRIPT):
    return transaction([(NULL.txid, NULL.index, struct.pack("<I", height))], [(amount, script) for amount in amounts])


def payment(spent, amounts):
    return transaction([(coin.txid, coin.index, b"") for coin in spent], [(amount, SCRIPT) for amount in amounts])


def first_of(tx):
    """The first output of a transaction of the block that is made."""
    return Coin(sha256d(tx))


def block(before, txs):
    root = worked_bytes.merkle_root([sha256d(tx) for tx in txs])
    return struct.pack("<I", 1) + before + root + bytes(12) + compact(len(txs)) + b"".join(txs)


def hash_of(body):
    return sha256d(body[:80])


def printed(hash_):
    return hash_[::-1].hex()


# ---- messages


def message(version, kind, targets, coins, hashes):
    head = bytes([version, kind]) + compact(len(targets))
    shown = b"".join(struct.pack("<Q", target) for target in targets) + b"".join(coin.rest() for coin in coins)
    return head + shown + compact(len(hashes)) + b"".join(hashes)


def proof(body):
    return frame(b"UTXP", body)


def rollback(count):
    return frame(b"UTXR", struct.pack("<I", count))


def above(count, place):
    """A place and those above it, up to the root of its slot."""
    row, offset = place
    while not (count >> row & 1 and offset == (count >> row) - 1):
        yield row, offset
        row, offset = row + 1, offset // 2
    yield row, offset


# ---- chains


class Chain:
    """Blocks on top of each other. `odd` gives the script of what the coinbase of a height pays, where it is another one than `51`."""

    def __init__(self, net="main", odd=None):
        self.net, self.odd, self.feed, self.lines, self.events = net, odd or {}, b"", [], 0
        self.hashes, self.coins, self.leaves, self.past = [], [], [], []

    def tip(self):
        return self.hashes[-1] if self.hashes else bytes(32)

    def copy(self):
        other = Chain(self.net, self.odd)
        other.feed, other.lines, other.events = self.feed, self.lines[:], self.events
        other.hashes, other.coins, other.leaves, other.past = self.hashes[:], self.coins[:], self.leaves[:], self.past[:]
        return other

    def tell(self, line):
        self.lines.append(line)
        self.events += 1

    def put(self, txs, before=None):
        body = block(self.tip() if before is None else before, txs)
        self.feed += frame(MAGIC[self.net], body)
        return hash_of(body)

    def refused(self, txs, why, before=None):
        hash_ = self.put(txs, before)
        self.tell(f"refused {len(self.hashes)} {printed(hash_)} {why}")

    def accepted(self, txs, leaves, spent=(), made=()):
        """A block behind which there are so many entries. It spends entries by number, and makes outputs: transaction, index, amount, script."""
        height, hash_ = len(self.hashes), self.put(txs)
        self.past.append((self.coins[:], self.leaves[:]))
        ids = {tx: sha256d(tx) for tx in txs}
        for number in spent:
            self.leaves[number] = None
        for tx, index, amount, script in made if height else []:
            coin = Coin(ids[tx], index, hash_, 2 * height + (tx == txs[0]), amount, script)
            self.coins.append(coin)
            self.leaves.append(coin.leaf())
        self.hashes.append(hash_)
        self.tell(f"accepted {height} {printed(hash_)} {leaves}")
        assert leaves == len(self.leaves)

    def claim(self, amount=SUBSIDY, height=None):
        """The coinbase of this height, and what it makes."""
        height = len(self.hashes) if height is None else height
        script = self.odd.get(height, SCRIPT)
        tx = coinbase(height, [amount], script)
        return tx, (tx, 0, amount, script)

    def plain(self, count=1, amount=SUBSIDY):
        """Blocks with a coinbase alone, each with one entry but the first."""
        for _ in range(count):
            tx, made = self.claim(amount)
            self.accepted([tx], len(self.leaves) + (len(self.hashes) > 0), made=[made])

    def rich(self):
        """A block that claims more than the subsidy."""
        self.refused([self.claim(SUBSIDY + 1)[0]], "subsidy 5000000001 5000000000")

    def back(self, count, height, leaves):
        """A rollback to this height, or to no block, where there are so many entries."""
        self.feed += rollback(count)
        for _ in range(count):
            self.hashes.pop()
            self.coins, self.leaves = self.past.pop()
        assert (height, leaves) == (len(self.hashes) - 1 if self.hashes else "-", len(self.leaves))
        self.tell(f"rolledback {count} {height} {printed(self.tip()) if self.hashes else '-'} {leaves}")

    def too_deep(self, count, kept):
        self.feed += rollback(count)
        self.tell(f"toodeep {count} {kept}")

    def end(self):
        """The line behind all events."""
        return f"end {self.events} {len(self.hashes) - 1} {printed(self.tip())} {len(self.leaves)}"

    def report(self):
        return "".join(f"{line}\n" for line in [*self.lines, self.end()])

    # messages of one spend

    def node(self, row, offset):
        return content(self.leaves, row, offset << row)

    def known(self, scripts):
        """The places whose hashes one knows who watches these scripts: those at and above live entries, and those beside them."""
        places = set()
        for number, coin in enumerate(self.coins):
            if self.leaves[number] is not None and coin.script in scripts:
                place, beside = standing(self.leaves, number)
                places.update(above(len(self.leaves), place), (other for other, _ in beside))
        return places

    def right(self, kind, number, scripts=()):
        """The message of version 2 that spends this entry: lean, for one who watches the scripts, or in full."""
        place, beside = standing(self.leaves, number)
        known = self.known(scripts) if kind == LEAN else ()
        hashes = [hash_ for other, hash_ in beside if other not in known]
        return message(2, kind, [fixed_position(*place)], [self.coins[number]], hashes)

    def paying(self, number, amounts, claim=SUBSIDY):
        """The transactions of a block that spends an entry for these amounts, and what they make."""
        tx = payment([self.coins[number]], amounts)
        base, made = self.claim(claim)
        return [base, tx], [made, *((tx, index, amount, SCRIPT) for index, amount in enumerate(amounts))]

    def spend(self, number, amounts, leaves, claim=SUBSIDY, kind=FULL, scripts=()):
        """A block that spends an entry, behind its message."""
        self.feed += proof(self.right(kind, number, scripts))
        txs, made = self.paying(number, amounts, claim)
        self.accepted(txs, leaves, [number], made)

    def roots(self):
        """The root of each slot, from the greatest down, as a state has it."""
        count = len(self.leaves)
        slots = [row for row in range(count.bit_length() - 1, -1, -1) if count >> row & 1]
        found = [content(self.leaves, row, ((count >> row) - 1) << row) for row in slots]
        return b"".join(b"\0" if root is None else b"\1" + root for root in found)


class Bridged(Chain):
    """A chain as a bridge is told of it, with no message. `full` and `lean` are what it passes on, for all and for one who watches the scripts;
    `heard` is what a node is told, with the messages in full, and `said` what it says then."""

    def __init__(self, scripts, net="main", odd=None):
        super().__init__(net, odd)
        self.scripts, self.full, self.lean, self.heard, self.said, self.messages = scripts, b"", b"", b"", [], []

    def pass_on(self, start, messages=(b"", b"")):
        """Passes the frames from here on on, behind their messages."""
        full, lean = (proof(one) if one else b"" for one in messages)
        self.messages = messages
        self.full += full + self.feed[start:]
        self.lean += lean + self.feed[start:]
        self.heard += full + self.feed[start:]
        self.said.append(self.lines[-1])

    def keep(self, start, said):
        self.messages = b"", b""
        self.heard += self.feed[start:]
        self.said.append(said)

    def taken(self, txs, leaves, made, spent=()):
        start, messages = len(self.feed), (b"", b"")
        for number in spent:
            messages = self.right(FULL, number), self.right(LEAN, number, self.scripts)
        self.accepted(txs, leaves, spent, made)
        self.pass_on(start, messages)

    def not_taken(self, txs, why, before=None):
        """A block that is refused. Without a message a node lacks the proof of what it spends."""
        start = len(self.feed)
        self.refused(txs, why, before)
        line = self.lines[-1]
        self.keep(start, line if len(txs) == 1 else line[: -len(why)] + "noproof")

    # what comes

    def alone(self, *heights):
        for height in heights:
            tx, made = self.claim(height=height)
            self.taken([tx], len(self.leaves) + (len(self.hashes) > 0), [made])

    def blocks(self, count):
        for _ in range(count):
            self.alone(len(self.hashes))

    def others(self, count):
        """Blocks of other hashes and outputs than those."""
        for _ in range(count):
            self.alone(len(self.hashes) ^ 0x0100_0000)

    def newest(self, height):
        """The newest live output of the coinbase of a block that is, or was, of this height."""
        txid = sha256d(self.claim(height=height)[0])
        return max((number for number, coin in enumerate(self.coins) if coin.txid == txid and self.leaves[number]), default=None)

    def spent(self, height, leaves):
        """Its whole amount is paid on."""
        number = self.newest(height)
        txs, made = self.paying(number, [SUBSIDY])
        self.taken(txs, leaves, made, [number])

    def halved(self, height, leaves):
        """It is paid on in two halves, of which a third transaction spends the first."""
        number = self.newest(height)
        txs, made = self.paying(number, [HALF, HALF])
        third = payment([first_of(txs[1])], [HALF])
        self.taken([*txs, third], leaves, [made[0], made[2], (third, 0, HALF, SCRIPT)], [number])

    def refused_spend(self, height, why):
        txid = sha256d(self.claim(height=height)[0])
        self.not_taken([self.claim()[0], payment([Coin(txid)], [SUBSIDY])], why)

    def unknown(self, why):
        self.not_taken([self.claim()[0], payment([Coin(b"\t" * 32)], [SUBSIDY])], why)

    def stranger(self):
        self.not_taken([self.claim()[0]], "link", b"\t" * 32)

    def returned(self, count, height, leaves, kept):
        """A rollback, behind which so many blocks can be undone."""
        start = len(self.feed)
        self.back(count, height, leaves)
        self.pass_on(start)
        self.deep(2**32 - 1, kept)

    def deep(self, count, kept):
        start = len(self.feed)
        self.too_deep(count, kept)
        self.keep(start, self.lines[-1])

    def passed(self):
        """What is said of what is passed on."""
        lines = [line for line in self.said if line.startswith(("accepted", "rolledback"))]
        return [*lines, self.end().replace(f"end {self.events} ", f"end {len(lines)} ")]
