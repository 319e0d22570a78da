#!/usr/bin/env python3
"""A follower in plain Python, written from docs/FORMATS.md alone: follower.py [main|regtest] < FEED prints what `utreexo follow` prints.

It shows what the page leaves to say, and serves as a second opinion (bench/compare_followers.py). Nothing of it is proved, and it is slow.
"""
import hashlib
import struct
import sys
from dataclasses import dataclass

NULL = (bytes(32), 0xFFFFFFFF)
COMMITS = bytes.fromhex("6a24aa21a9ed")
ALL_MONEY = 2_100_000_000_000_000
TAG = hashlib.sha512(b"UtreexoV1").digest()
FIXED_ROWS = 40  # above row 0, by which fixed positions count


class Refused(Exception):
    """A rule is broken; the argument is the reason."""


class NotSo(Exception):
    """The bytes are not of the form that is read."""


def sha256d(text):
    return hashlib.sha256(hashlib.sha256(text).digest()).digest()


def digest(text):
    return hashlib.new("sha512_256", text).digest()


# ---- reading


class Reader:
    def __init__(self, text):
        self.text, self.at = text, 0

    def take(self, count):
        if self.at + count > len(self.text):
            raise NotSo
        self.at += count
        return self.text[self.at - count : self.at]

    def number(self, size):
        return int.from_bytes(self.take(size), "little")

    def compact(self):
        first = self.number(1)
        if first < 253:
            return first
        size, least = {253: (2, 253), 254: (4, 1 << 16), 255: (8, 1 << 32)}[first]
        value = self.number(size)
        if value < least:
            raise NotSo
        return value

    def sized(self):
        return self.take(self.compact())


@dataclass
class Transaction:
    inputs: list  # of outpoint and script
    outputs: list  # of amount and script
    txid: bytes
    whole_id: bytes
    stacks: list  # of items, for each input; none in the plain form
    witness_size: int


def read_transaction(reader):
    start, version = reader.at, reader.take(4)
    has_stacks = reader.text[reader.at : reader.at + 1] == b"\0"
    if has_stacks and reader.take(2) != b"\0\1":
        raise NotSo
    body = reader.at
    inputs = []
    for _ in range(reader.compact()):
        outpoint = (reader.take(32), reader.number(4))
        inputs.append((outpoint, reader.sized()))
        reader.take(4)
    if not inputs:
        raise NotSo
    outputs = [(reader.number(8), reader.sized()) for _ in range(reader.compact())]
    plain = version + reader.text[body : reader.at]
    stacks = []
    if has_stacks:
        stacks = [[reader.sized() for _ in range(reader.compact())] for _ in inputs]
        if not any(stacks):
            raise NotSo
    plain += reader.take(4)
    whole = reader.text[start : reader.at]
    return Transaction(inputs, outputs, sha256d(plain), sha256d(whole), stacks, len(whole) - len(plain))


def read_block(text):
    reader = Reader(text)
    header = reader.take(80)
    transactions = [read_transaction(reader) for _ in range(reader.compact())]
    if not transactions or reader.at != len(text):
        raise NotSo
    return header, transactions


@dataclass
class Shown:
    number: int  # that names its place
    rest: bytes
    height: int
    is_coinbase: bool
    amount: int


def read_rest(reader):
    start = reader.at
    reader.take(32)
    code, amount, length = reader.number(4), reader.number(8), reader.compact()
    if length > 10_000:
        raise NotSo
    reader.take(length)
    return reader.text[start : reader.at], code >> 1, bool(code & 1), amount


def read_message(text):
    """Its version, what it shows, and its hashes. To one who watches nothing a lean message leaves out no hash."""
    if text and text[0] not in (1, 2):
        raise Refused(f"message version {text[0]}")
    try:
        reader = Reader(text)
        version, kind = reader.take(2)
        if kind > 1:
            raise NotSo
        numbers = [reader.number(8) for _ in range(reader.compact())]
        shown = [Shown(number, *read_rest(reader)) for number in numbers]
        hashes = [reader.take(32) for _ in range(reader.compact())]
        if reader.at != len(text):
            raise NotSo
    except NotSo:
        raise Refused("message form") from None
    return version, shown, hashes


# ---- rules that need no proof


def merkle_root(hashes, may_repeat=False):
    level = 0
    while len(hashes) > 1:
        for place in range(0, len(hashes) - 1, 2):
            if hashes[place] == hashes[place + 1] and not may_repeat:
                raise Refused(f"merkle repeated {level} {place}")
        hashes = hashes + hashes[-1:] * (len(hashes) % 2)
        hashes = [sha256d(left + right) for left, right in zip(hashes[::2], hashes[1::2])]
        level += 1
    return hashes[0]


def check_witnesses(transactions):
    scripts = [script for _, script in transactions[0].outputs]
    committed = [script[6:38] for script in scripts if len(script) >= 38 and script.startswith(COMMITS)]
    if not committed:
        if any(transaction.stacks for transaction in transactions):
            raise Refused("witness unexpected")
        return
    stack = transactions[0].stacks[0] if transactions[0].stacks else []
    if [len(item) for item in stack] != [32]:
        raise Refused("witness form")
    root = merkle_root([bytes(32)] + [transaction.whole_id for transaction in transactions[1:]], may_repeat=True)
    if sha256d(root + stack[0]) != committed[-1]:
        raise Refused("witness root")


def check_transactions(transactions):
    first = transactions[0].inputs
    if len(first) != 1 or first[0][0] != NULL or not 2 <= len(first[0][1]) <= 100:
        raise Refused("coinbase 0")
    for t, transaction in enumerate(transactions[1:], 1):
        if any(outpoint == NULL for outpoint, _ in transaction.inputs):
            raise Refused(f"coinbase {t}")
    for t, transaction in enumerate(transactions):
        amounts = [amount for amount, _ in transaction.outputs]
        if max([*amounts, sum(amounts)]) > ALL_MONEY:
            raise Refused(f"value {t}")
    seen = set()
    for t, transaction in enumerate(transactions):
        for i, (outpoint, _) in enumerate(transaction.inputs):
            if outpoint in seen:
                raise Refused(f"double {t} {i}")
            seen.add(outpoint)


def can_be_spent(script):
    return not script.startswith(b"\x6a") and len(script) <= 10_000


def outputs_of(t, transaction, height, block):
    """The outputs that can be spent: outpoint, and what is known of it; where none of them stands is not known."""
    for index, (amount, script) in enumerate(transaction.outputs):
        if can_be_spent(script):
            length = bytes([len(script)]) if len(script) < 253 else b"\xfd" + struct.pack("<H", len(script))
            rest = block + struct.pack("<IQ", 2 * height + (t == 0), amount) + length + script
            yield (transaction.txid, index), Shown(0, rest, height, t == 0, amount)


def walk(transactions, height, block):
    """The external outpoints, the new entries, and for each transaction what its inputs spend: None for an external one."""
    made, external, bills = {}, [], [[]]
    inside = set()
    for t, transaction in enumerate(transactions):
        if t > 0:
            outpoints = [outpoint for outpoint, _ in transaction.inputs]
            external += [outpoint for outpoint in outpoints if outpoint not in made]
            inside.update(outpoints)
            bills.append([made.get(outpoint) for outpoint in outpoints])
        made.update(outputs_of(t, transaction, height, block))
    new = [(outpoint, shown) for outpoint, shown in made.items() if outpoint not in inside]
    return external, new if height > 0 else [], bills


def check_money(transactions, bills, height, subsidy):
    for t, bill in enumerate(bills):
        for i, spent in enumerate(bill):
            if spent.is_coinbase and height < spent.height + 100:
                raise Refused(f"immature {t} {i}")
    fees = 0
    for t, bill in enumerate(bills[1:], 1):
        spent, made = sum(one.amount for one in bill), sum(amount for amount, _ in transactions[t].outputs)
        if spent < made or spent > ALL_MONEY:
            raise Refused(f"overspend {t}")
        fees += spent - made
    claimed = sum(amount for amount, _ in transactions[0].outputs)
    if claimed > subsidy + fees:
        raise Refused(f"subsidy {claimed} {subsidy + fees}")


# ---- the accumulator


def leaf(outpoint, rest):
    return digest(TAG + TAG + rest[:32] + outpoint[0] + struct.pack("<I", outpoint[1]) + rest[32:])


def rows(count):
    return max(count - 1, 0).bit_length()


def row_start(greatest, row):
    """The number at which a row begins, where rows up to the greatest are numbered one after the other."""
    top = 2 << greatest
    return top - (top >> row)


def place_of(version, count, number):
    """The place of the forest that a number names: by its position in version 1, by its fixed position in version 2."""
    greatest = rows(count) if version == 1 else FIXED_ROWS
    for row in range(rows(count) + 1):
        offset = number - row_start(greatest, row)
        if 0 <= offset < count >> row:
            return row, offset
    return None


def is_root(count, place):
    return count >> place[0] & 1 == 1 and place[1] == (count >> place[0]) - 1


def is_above(high, low):
    return high[0] > low[0] and low[1] >> (high[0] - low[0]) == high[1]


def places_of(version, count, numbers):
    places = []
    for i, number in enumerate(numbers):
        place = place_of(version, count, number)
        if place is None:
            raise Refused(f"proof outside {i}")
        if place in places:
            raise Refused(f"proof repeated {i} {places.index(place)}")
        for j, other in enumerate(places):
            if is_above(place, other) or is_above(other, place):
                raise Refused(f"proof beneath {i} {j}")
        places.append(place)
    return places


def cover(count, places):
    covered = set(places)
    for place in places:
        while not is_root(count, place):
            place = (place[0] + 1, place[1] // 2)
            covered.add(place)
    beside = {(row, offset ^ 1) for row, offset in covered if not is_root(count, (row, offset))}
    return sorted(covered), sorted(beside - covered)


def joined(left, right):
    return digest(left + right) if left and right else left or right


def spend(count, roots, places, leaves, hashes):
    """The roots once these are spent, where the proof comes to the roots that there are."""
    covered, needed = cover(count, places)
    if len(hashes) != len(needed):
        raise Refused(f"proof hashes {len(needed)} {len(hashes)}")
    before = dict(zip(needed, hashes))
    after = {**before, **dict.fromkeys(places)}
    before.update(zip(places, leaves))
    for row, offset in covered:
        if (row, offset) not in before:
            halves = [(row - 1, 2 * offset), (row - 1, 2 * offset + 1)]
            before[row, offset] = joined(*(before[half] for half in halves))
            after[row, offset] = joined(*(after[half] for half in halves))
    tops = [place for place in reversed(covered) if is_root(count, place)]
    for row, _ in tops:
        if roots[row] is None:
            raise Refused(f"proof empty {row}")
    for row, offset in tops:
        if roots[row] != before[row, offset]:
            raise Refused(f"proof root {row}")
    return {**roots, **{row: after[row, offset] for row, offset in tops}}


def add(count, roots, new):
    """The roots with one entry more."""
    roots, row = dict(roots), 0
    while count >> row & 1:
        new = joined(roots.pop(row), new)
        row += 1
    return {**roots, row: new}


# ---- the node


@dataclass
class Level:
    blocks: int
    tip: bytes
    count: int
    roots: dict

    def spelled(self):
        return f"{self.blocks - 1} {self.tip[::-1].hex()} {self.count}" if self.blocks else f"- - {self.count}"


class Node:
    def __init__(self, halving, witness_height):
        self.levels, self.halving, self.witness_height = [Level(0, bytes(32), 0, {})], halving, witness_height

    def take_block(self, text, message):
        now = self.levels[-1]
        try:
            header, transactions = read_block(text)
        except NotSo:
            return f"refused {now.blocks} - block"
        block = sha256d(header)
        try:
            level = self.level_after(now, text, header, block, transactions, message)
        except Refused as reason:
            return f"refused {now.blocks} {block[::-1].hex()} {reason}"
        self.levels = [*self.levels, level][-101:]
        return f"accepted {level.spelled()}"

    def level_after(self, now, text, header, block, transactions, message):
        if header[4:36] != now.tip:
            raise Refused("link")
        if merkle_root([transaction.txid for transaction in transactions]) != header[36:68]:
            raise Refused("merkle root")
        if now.blocks >= self.witness_height:
            check_witnesses(transactions)
        weight = 4 * len(text) - 3 * sum(transaction.witness_size for transaction in transactions)
        if weight > 4_000_000:
            raise Refused(f"weight {weight}")
        check_transactions(transactions)
        external, new, bills = walk(transactions, now.blocks, block)
        if now.count + len(new) >= 1 << 40 or now.blocks == 1 << 31:
            raise Refused("full")
        shown, roots = self.proved(now, external, message)
        found = iter(shown)
        bills = [[spent or next(found) for spent in bill] for bill in bills]
        check_money(transactions, bills, now.blocks, 5_000_000_000 >> now.blocks // self.halving)
        for place, (outpoint, entry) in enumerate(new):
            roots = add(now.count + place, roots, leaf(outpoint, entry.rest))
        return Level(now.blocks + 1, block, now.count + len(new), roots)

    @staticmethod
    def proved(now, external, message):
        if message is None:
            if external:
                raise Refused("noproof")
            return [], now.roots
        version, shown, hashes = read_message(message)
        if len(shown) != len(external):
            raise Refused(f"spends {len(shown)} {len(external)}")
        leaves = [leaf(outpoint, one.rest) for outpoint, one in zip(external, shown)]
        places = places_of(version, now.count, [one.number for one in shown])
        return shown, spend(now.count, now.roots, places, leaves, hashes)

    def go_back(self, count):
        kept = len(self.levels) - 1
        if count > kept:
            return f"toodeep {count} {kept}"
        del self.levels[len(self.levels) - count :]
        return f"rolledback {count} {self.levels[-1].spelled()}"


# ---- the feed


def frames(feed, block_magic):
    """Each frame's kind and body, and then "end" with None, or with the line of a bad frame."""
    kinds = {block_magic: ("block", 4_000_000), b"UTXP": ("proof", 300_000_000), b"UTXR": ("rollback", 4)}
    at = 0
    while True:
        while feed[at : at + 1] == b"\0":
            at += 1
        if at == len(feed):
            break
        head = feed[at : at + 8]
        length = int.from_bytes(head[4:], "little")
        kind, most = kinds.get(head[:4], (None, 0))
        bad = None
        if len(head) >= 4 and kind is None:
            bad = f"frame magic {at} {head[:4].hex()}"
        elif len(head) < 8:
            bad = f"frame cut {at} {8 - len(head)}"
        elif kind == "rollback" and length != 4:
            bad = f"frame rollback {at} {length}"
        elif length > most:
            bad = f"frame long {at} {length}"
        elif at + 8 + length > len(feed):
            bad = f"frame cut {at} {at + 8 + length - len(feed)}"
        if bad:
            yield "end", bad
            return
        yield kind, feed[at + 8 : at + 8 + length]
        at += 8 + length
    yield "end", None


def lines_of(node, feed, block_magic):
    proof, events = None, 0
    for kind, body in frames(feed, block_magic):
        lines = []
        if proof is not None and kind != "block":
            lines.append("stray")
        if kind == "block":
            lines.append(node.take_block(body, proof))
        elif kind == "rollback":
            lines.append(node.go_back(int.from_bytes(body, "little")))
        proof = body if kind == "proof" else None
        yield from lines
        events += len(lines)
        if kind == "end":
            yield body or f"end {events} {node.levels[-1].spelled()}"


def main():
    regtest = sys.argv[1:] == ["regtest"]
    node = Node(150, 0) if regtest else Node(210_000, 481_824)
    status, line = 0, ""
    for line in lines_of(node, sys.stdin.buffer.read(), bytes.fromhex("fabfb5da" if regtest else "f9beb4d9")):
        print(line)
        status |= line.startswith(("refused", "toodeep", "stray"))
    sys.exit(5 if line.startswith("frame") else status)


if __name__ == "__main__":
    main()
