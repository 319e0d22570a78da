#!/usr/bin/env python3
"""Computes the worked bytes of docs/FORMATS.md from the definitions there, by a program of its own that knows nothing of the node.

    worked_bytes.py           prints them
    worked_bytes.py check     says whether docs/FORMATS.md has each of them
    worked_bytes.py feed [1]  writes the whole example as a feed, which `utreexo follow` accepts; with 1, its messages in version 1
    worked_bytes.py stored    writes the feed behind which `utreexo follow` stores the example of a state, where it watches 51
    worked_bytes.py state V   writes that state in version V
    worked_bytes.py ticket    writes the example of a ticket

The chain is a hundred and one blocks with a coinbase each, one of height 101 with two payments, and one with a payment of an output whose
sibling is spent. That of the state has two outputs, of which one is spent, and goes back by a hundred blocks.
"""
import hashlib
import pathlib
import struct
import sys

SUBSIDY = 5_000_000_000
SCRIPT = b"\x51"
UNSPENDABLE = b"\x6a"
TAG = hashlib.sha512(b"UtreexoV1").digest()
GENESIS_TIME = 1_231_006_505


# ---- hashes and counts


def sha256d(text):
    return hashlib.sha256(hashlib.sha256(text).digest()).digest()


def digest(text):
    return hashlib.new("sha512_256", text).digest()


def compact(value):
    for limit, head, form in ((253, b"", "<B"), (1 << 16, b"\xfd", "<H"), (1 << 32, b"\xfe", "<I")):
        if value < limit:
            return head + struct.pack(form, value)
    return b"\xff" + struct.pack("<Q", value)


# ---- transactions and blocks


def transaction(inputs, amounts, script=SCRIPT):
    """Inputs are txid, index and script; each output pays to one script."""
    text = struct.pack("<I", 1) + compact(len(inputs))
    for txid, index, unlocking in inputs:
        text += txid + struct.pack("<I", index) + compact(len(unlocking)) + unlocking + b"\xff" * 4
    text += compact(len(amounts))
    for amount in amounts:
        text += struct.pack("<Q", amount) + compact(len(script)) + script
    return text + bytes(4)


def coinbase(height, script=SCRIPT):
    return transaction([(bytes(32), 0xFFFFFFFF, struct.pack("<I", height))], [SUBSIDY], script)


def merkle_root(ids):
    while len(ids) > 1:
        ids = ids + ids[-1:] * (len(ids) % 2)
        ids = [sha256d(left + right) for left, right in zip(ids[::2], ids[1::2])]
    return ids[0]


def block(height, tip, txs):
    root = merkle_root([sha256d(tx) for tx in txs])
    header = struct.pack("<I", 1) + tip + root + struct.pack("<I", GENESIS_TIME + height) + bytes.fromhex("ffff001d") + bytes(4)
    return header + compact(len(txs)) + b"".join(txs)


def block_hash(text):
    return sha256d(text[:80])


def frame(magic, body):
    return magic + struct.pack("<I", len(body)) + body


def block_frame(text):
    return frame(bytes.fromhex("f9beb4d9"), text)


# ---- leaves and the forest


def rest(maker, height, is_coinbase, amount):
    return maker + struct.pack("<I", 2 * height + is_coinbase) + struct.pack("<Q", amount) + compact(len(SCRIPT)) + SCRIPT


def leaf_text(txid, index, shown):
    """The block's hash comes first in a rest, and before the outpoint in a leaf text."""
    return TAG + TAG + shown[:32] + txid + struct.pack("<I", index) + shown[32:]


def leaf(txid, index, shown):
    return digest(leaf_text(txid, index, shown))


def content(leaves, row, first):
    """The digest of the 2^row entries from `first` on, or None where none of them is live."""
    if row == 0:
        return leaves[first]
    left = content(leaves, row - 1, first)
    right = content(leaves, row - 1, first + (1 << row - 1))
    if left is None or right is None:
        return left or right
    return digest(left + right)


def rows(count):
    return max(count - 1, 0).bit_length()


def position(count, row, offset):
    top = 1 << rows(count) + 1
    return top - (top >> row) + offset


def fixed_position(row, offset):
    return (1 << 41) - (1 << 41 - row) + offset


def number_of(version, count, place):
    return position(count, *place) if version == 1 else fixed_position(*place)


def standing(leaves, number):
    """The place of a live entry, and from the lowest row up the places beside the way to it with what stands there."""
    count = len(leaves)
    slot = max(row for row in range(rows(count) + 1) if number >> row < count >> row)
    place, beside = (slot, number >> slot), []
    for row in range(slot - 1, -1, -1):
        half = number >> row
        other = content(leaves, row, (half ^ 1) << row)
        if other is None:
            continue
        row_below, offset = place[0] - 1, 2 * place[1] + half % 2
        place = (row_below, offset)
        beside.insert(0, ((row_below, offset ^ 1), other))
    return place, beside


def message(version, leaves, number, shown):
    """In full, of one spend."""
    place, beside = standing(leaves, number)
    text = bytes([version, 0]) + compact(1) + struct.pack("<Q", number_of(version, len(leaves), place)) + shown
    return text + compact(len(beside)) + b"".join(hash for _, hash in beside)


# ---- the example


def numbered(count, place):
    """A row's first cells: row and offset, position, fixed position."""
    return f"| {place} | {position(count, *place):,} | {fixed_position(*place):,} |"


def hashes_with_numbers(count, hashes):
    for place, hash in hashes:
        yield f"the row of {place} over {count}", f"{numbered(count, place)} `{hash.hex()}` |"


class Chain:
    """Blocks behind one another with the messages beside them, and the leaves of all entries."""

    def __init__(self, version):
        self.version, self.feed, self.tip, self.height, self.leaves, self.names = version, b"", bytes(32), 0, [], []

    def extend(self, base, payments, added):
        """A block whose coinbase and payments add outputs, each of a transaction and an index there."""
        self.text = block(self.height, self.tip, [base, *payments])
        self.feed += block_frame(self.text)
        self.tip = block_hash(self.text)
        for tx, index, amount in added:
            self.names.append((sha256d(tx), index, rest(self.tip, self.height, tx == base, amount)))
            self.leaves.append(leaf(*self.names[-1]))
        self.height += 1

    def message(self, version, entry):
        return message(version, self.leaves, entry, self.names[entry][2])

    def spend(self, entry, base, payments, added):
        """A block like that which spends an entry besides, behind its message."""
        self.feed += frame(b"UTXP", self.message(self.version, entry))
        self.leaves[entry] = None
        self.extend(base, payments, added)


def paying(spent, amounts, script=SCRIPT):
    txid, index, _ = spent
    return transaction([(txid, index, b"")], amounts, script)


def example(version):
    chain, half = Chain(version), SUBSIDY // 2
    chain.extend(coinbase(0), [], [])
    for height in range(1, 101):
        base = coinbase(height)
        chain.extend(base, [], [(base, 0, SUBSIDY)])
    found = {**first_output(chain), **first_message(chain)}
    base, first = coinbase(101), paying(chain.names[0], [half, half])
    second = transaction([(sha256d(first), 0, b"")], [half])
    chain.spend(0, base, [first, second], [(base, 0, SUBSIDY), (first, 1, half), (second, 0, half)])
    found |= {
        "the first payment": first,
        "the second payment": second,
        "the block of height 101": chain.text,
        "its hash, as it is printed": chain.tip[::-1],
        **second_message(chain),
    }
    base, third = coinbase(102), paying(chain.names[1], [SUBSIDY])
    chain.spend(1, base, [third], [(base, 0, SUBSIDY), (third, 0, SUBSIDY)])
    found |= {
        "the payment of height 102": third,
        "the block of height 102": chain.text,
        "the hash of that block, as it is printed": chain.tip[::-1],
    }
    return found, chain.feed


def first_output(chain):
    txid, index, shown = chain.names[0]
    return {
        "the coinbase of height 1": coinbase(1),
        "its txid": txid,
        "the hash of the block of height 1": shown[:32],
        "the rest of its output": shown,
        "the leaf text of its output": leaf_text(txid, index, shown),
        "the leaf's digest": chain.leaves[0],
    }


def first_message(chain):
    slots = [(row, (100 >> row) - 1) for row in (6, 5, 2)]
    roots = [(slot, content(chain.leaves, slot[0], slot[1] << slot[0])) for slot in slots]
    beside = standing(chain.leaves, 0)[1]
    return {**dict(hashes_with_numbers(100, roots + beside)), "the message": chain.message(2, 0)}


def second_message(chain):
    place, beside = standing(chain.leaves, 1)
    return {
        "the rest of the output of height 2": chain.names[1][2],
        "the numbers of its place": numbered(103, place),
        "the hashes beside it": "".join(hash.hex() for _, hash in beside),
        **{f"the message of version {version} beside it": chain.message(version, 1) for version in (2, 1)},
    }


# ---- the state


def stored():
    """The texts of the state in both versions, and the feed behind which it is stored."""
    chain = Chain(2)
    for height in range(101):
        base = coinbase(height, SCRIPT if height in (1, 2) else UNSPENDABLE)
        chain.extend(base, [], [(base, 0, SUBSIDY)] if height in (1, 2) else [])
    chain.spend(0, coinbase(101, UNSPENDABLE), [paying(chain.names[0], [SUBSIDY], UNSPENDABLE)], [])
    texts = {f"the state in version {version}": state(version, chain) for version in (2, 1)} | {"the ticket": ticket(chain)}
    for height in range(102, 202):
        chain.extend(coinbase(height, UNSPENDABLE), [], [])
    return texts, chain.feed + frame(b"UTXR", struct.pack("<I", 100))


def state(version, chain):
    """With one level, whose only live entry, of two, is watched."""
    place, beside = standing(chain.leaves, 1)
    txid, index, shown = chain.names[1]
    kept = struct.pack("<QQ", 1, number_of(version, 2, place)) + txid + struct.pack("<I", index) + shown
    level = chain.tip + struct.pack("<Q", 2) + b"\1" + content(chain.leaves, 1, 0) + compact(1) + kept + compact(len(beside))
    front = b"UTXS" + bytes([version, 0]) + struct.pack("<I", chain.height)
    return front + compact(1) + compact(len(SCRIPT)) + SCRIPT + bytes([1]) + level


def ticket(chain):
    """Of the one live entry, with the hashes beside its place."""
    place, beside = standing(chain.leaves, 1)
    txid, index, shown = chain.names[1]
    output = struct.pack("<Q", number_of(2, 2, place)) + txid + struct.pack("<I", index) + shown
    return b"UTXT\1" + chain.tip + output + compact(len(beside)) + b"".join(hash_ for _, hash_ in beside)


# ---- what is asked for


def spelled(value):
    return value if isinstance(value, str) else value.hex()


def lacking(found):
    document = pathlib.Path(__file__).parent.parent.joinpath("docs/FORMATS.md").read_text(encoding="utf-8")
    document = "".join(document.split())
    return [what for what, value in found.items() if "".join(spelled(value).split()) not in document]


def main():
    order = sys.argv[1:]
    texts, stored_feed = stored()
    found, feed = example(1 if order == ["feed", "1"] else 2)
    found |= texts
    if order[:1] == ["feed"]:
        sys.stdout.buffer.write(feed)
    elif order == ["stored"]:
        sys.stdout.buffer.write(stored_feed)
    elif order[:1] == ["state"]:
        sys.stdout.buffer.write(texts[f"the state in version {order[1]}"])
    elif order == ["ticket"]:
        sys.stdout.buffer.write(texts["the ticket"])
    elif order == ["check"]:
        missing = lacking(found)
        print(*(f"docs/FORMATS.md does not have {what}" for what in missing), sep="\n", end="\n" if missing else "")
        sys.exit(bool(missing))
    else:
        for what, value in found.items():
            print(f"{what}{'' if isinstance(value, str) else f' ({len(value)} bytes)'}\n  {spelled(value)}")


if __name__ == "__main__":
    main()
