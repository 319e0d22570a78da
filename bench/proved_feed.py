#!/usr/bin/env python3
"""Writes feeds of mainnet blocks with proofs.

proved_feed.py ENTRIES BLOCKS SPENDS
    First come blocks whose coinbases make ENTRIES outputs, then a hundred blocks so that these ripen, then BLOCKS blocks that each
    spend SPENDS of them (drawn by a fixed rule) and make as many. What a node has to digest for the last ones goes to standard
    error, as two numbers: blocks of SHA-512 for the forest (128 bytes each) and of SHA-256 for hashes and ids (64 bytes each).

proved_feed.py example FEED LINES
    The file FEED gets a small feed whose blocks spend with proofs, a proof that is wrong, and rollbacks behind which the same outputs are
    spent again; the file LINES the report that a node that holds every output prints of it.

The forest is kept as explicit trees, by a program of its own that knows nothing of the node.
"""
import hashlib
import struct
import sys

MAGIC = bytes.fromhex("f9beb4d9")
PROOF = b"UTXP"
ROLLBACK = b"UTXR"
TAG = hashlib.sha512(b"UtreexoV1").digest()
SUBSIDY = 5_000_000_000
SCRIPT = b"\x51"
LEAF_BLOCKS = 2  # a pair has one
KEPT = 100  # the most blocks that are taken back


def sha256d(text):
    return hashlib.sha256(hashlib.sha256(text).digest()).digest()


def blocks_of(length):
    """Blocks that SHA-256 of SHA-256 goes over for a text of so many bytes: each text has at least nine bytes more."""
    return (length + 9 + 63) // 64 + 1


def digest(text):
    return hashlib.new("sha512_256", text).digest()


def compact(value):
    if value < 253:
        return bytes([value])
    if value < 1 << 16:
        return b"\xfd" + struct.pack("<H", value)
    if value < 1 << 32:
        return b"\xfe" + struct.pack("<I", value)
    return b"\xff" + struct.pack("<Q", value)


def frame(magic, body):
    return magic + struct.pack("<I", len(body)) + body


class Entry:
    """An output: its name, what made it, and its leaf."""

    def __init__(self, txid, index, block, height, coinbase, amount):
        self.txid, self.index, self.amount = txid, index, amount
        code = 2 * height + coinbase
        self.rest = block + struct.pack("<IQ", code, amount) + compact(len(SCRIPT)) + SCRIPT
        self.leaf = Node(digest(TAG + TAG + block + txid + struct.pack("<IIQ", index, code, amount) + compact(len(SCRIPT)) + SCRIPT))


class Node:
    __slots__ = ("digest", "left", "right", "parent")

    def __init__(self, value, left=None, right=None):
        self.digest, self.left, self.right, self.parent = value, left, right, None
        if left is not None:
            left.parent = right.parent = self


def fixed_position(row, off):
    return (1 << 41) - (1 << 41 - row) + off


def join(left, right):
    return Node(digest(left.digest + right.digest), left, right)


class Forest:
    """All entries that were ever added, as trees: a sibling takes the place of the parent of what is spent."""

    def __init__(self):
        self.count, self.roots, self.made = 0, {}, 0

    def add(self, leaf):
        row = 0
        while self.count >> row & 1:
            root = self.roots.pop(row)
            if root is not None:
                leaf = join(root, leaf)
                self.made += 1
            row += 1
        self.roots[row] = leaf
        self.count += 1

    def root_of(self, node):
        while node.parent is not None:
            node = node.parent
        return node

    def path(self, leaf):
        """The nodes from a leaf up to its root, each with its place."""
        nodes = [leaf]
        while nodes[-1].parent is not None:
            nodes.append(nodes[-1].parent)
        row = next(r for r, root in self.roots.items() if root is nodes[-1])
        off = (self.count >> row) - 1
        places = [(row, off)]
        for above, node in zip(nodes[:0:-1], nodes[-2::-1]):
            row, off = row - 1, 2 * off + (node is above.right)
            places.append((row, off))
        return list(zip(nodes, places[::-1]))

    def prove(self, leaves):
        """The targets' fixed positions, and the digests that are needed beside them, by place in ascending position."""
        covered, targets, beside = {}, [], {}
        for leaf in leaves:
            path = self.path(leaf)
            targets.append(fixed_position(*path[0][1]))
            for node, place in path:
                covered[place] = node
                if node.parent is not None:
                    other = node.parent.right if node is node.parent.left else node.parent.left
                    beside[place[0], place[1] ^ 1] = other.digest
        self.made += self.digests_for(covered)
        return targets, {place: beside[place] for place in sorted(beside) if place not in covered}

    def differing_row(self, leaves, beside):
        """The greatest row whose root is not what these leaves come to with these digests beside them."""
        covered = {place: node for leaf in leaves for node, place in self.path(leaf)}

        def value(row, off):
            if (row, off) in beside:
                return beside[row, off]
            node = covered[row, off]
            return node.digest if node.left is None else digest(value(row - 1, 2 * off) + value(row - 1, 2 * off + 1))

        return max(row for (row, off), node in covered.items() if node.parent is None and value(row, off) != node.digest)

    @staticmethod
    def digests_for(covered):
        """Each covered place above a target is digested once, and once more where both its halves stay."""
        gone, count = {}, 0
        for place in sorted(covered):
            row, off = place
            node = covered[place]
            if node.left is None:
                gone[place] = True
                continue
            halves = [gone.get((row - 1, 2 * off + side), False) for side in (0, 1)]
            gone[place] = all(halves)
            count += 1 + (not any(halves))
        return count

    def spend(self, leaf):
        parent = leaf.parent
        if parent is None:
            row = next(r for r, root in self.roots.items() if root is leaf)
            self.roots[row] = None
            return
        other = parent.right if leaf is parent.left else parent.left
        above = parent.parent
        other.parent = above
        if above is None:
            row = next(r for r, root in self.roots.items() if root is parent)
            self.roots[row] = other
            return
        if above.left is parent:
            above.left = other
        else:
            above.right = other
        while above is not None:
            above.digest = digest(above.left.digest + above.right.digest)
            above = above.parent


def coinbase(height, amounts):
    script = struct.pack("<I", height)
    outputs = b"".join(struct.pack("<Q", amount) + compact(len(SCRIPT)) + SCRIPT for amount in amounts)
    return (
        struct.pack("<I", 1) + b"\x01" + bytes(32) + b"\xff" * 4 + compact(len(script)) + script + b"\xff" * 4
        + compact(len(amounts)) + outputs + bytes(4)
    )


def payment(spent, amounts):
    inputs = b"".join(e.txid + struct.pack("<I", e.index) + b"\x00" + b"\xff" * 4 for e in spent)
    outputs = b"".join(struct.pack("<Q", amount) + compact(len(SCRIPT)) + SCRIPT for amount in amounts)
    return struct.pack("<I", 1) + compact(len(spent)) + inputs + compact(len(amounts)) + outputs + bytes(4)


def merkle(ids):
    while len(ids) > 1:
        ids = [sha256d(ids[i] + ids[min(i + 1, len(ids) - 1)]) for i in range(0, len(ids), 2)]
    return ids[0]


def pairs(count):
    """Pairs that are hashed for the merkle root of so many ids."""
    total = 0
    while count > 1:
        count = (count + 1) // 2
        total += count
    return total


def outputs_of(ids, claims, payments):
    """The outputs of a block: of which transaction, its id, the index, and the amount."""
    lists = [claims] + [amounts for _, amounts in payments]
    return [(t, ids[t], index, amount) for t, amounts in enumerate(lists) for index, amount in enumerate(amounts)]


class Chain:
    """Blocks behind one another, what is written of them, and the report of a node that holds every output."""

    def __init__(self, out):
        self.out, self.forest, self.hashed = out, Forest(), 0
        self.blocks = []  # of each the hash, what it spends and what it makes
        self.lines, self.events, self.kept = [], 0, 0

    def height(self):
        return len(self.blocks)

    def tip(self):
        return self.blocks[-1][0] if self.blocks else bytes(32)

    def named(self, height, block):
        return f"{height} {block[::-1].hex()}"

    def chain_line(self):
        return f"{self.named(self.height() - 1, self.tip()) if self.blocks else '- -'} {self.forest.count}"

    def tell(self, line):
        self.lines.append(line)
        self.events += 1

    def write_block(self, payments, claims):
        """Writes the frame of a block of a coinbase and of payments, each a pair of what it spends and the amounts that it makes."""
        txs = [coinbase(self.height(), claims)] + [payment(spent, amounts) for spent, amounts in payments]
        ids = [sha256d(tx) for tx in txs]
        time = struct.pack("<I", 1231006505 + self.height())
        header = struct.pack("<I", 1) + self.tip() + merkle(ids) + time + bytes.fromhex("ffff001d") + bytes(4)
        self.out.write(frame(MAGIC, header + compact(len(txs)) + b"".join(txs)))
        self.hashed += sum(blocks_of(len(tx)) for tx in txs) + blocks_of(80) + blocks_of(64) * pairs(len(txs))
        return sha256d(header), ids

    def write_message(self, spent, targets, beside):
        self.out.write(frame(PROOF, (
            b"\x02\x00" + compact(len(spent)) + b"".join(struct.pack("<Q", target) for target in targets)
            + b"".join(entry.rest for entry in spent) + compact(len(beside)) + b"".join(beside.values())
        )))

    def keep(self, block, spent, made):
        """The forest behind a block: what it spends goes, and then what it makes comes."""
        for entry in spent:
            self.forest.spend(entry.leaf)
        for entry in made:
            self.forest.add(entry.leaf)
        self.blocks.append((block, spent, made))

    def extend(self, payments, claims):
        """A block that is accepted. Answers what it makes, and how many digests that takes."""
        spent = [entry for entries, _ in payments for entry in entries]
        before, height = self.forest.made, self.height()
        if spent:
            self.write_message(spent, *self.forest.prove([entry.leaf for entry in spent]))
        block, ids = self.write_block(payments, claims)
        made = [Entry(txid, index, block, height, t == 0, amount) for t, txid, index, amount in outputs_of(ids, claims, payments) if height > 0]
        self.keep(block, spent, made)
        self.kept = min(KEPT, self.kept + 1)
        self.tell(f"accepted {self.chain_line()}")
        return made, self.forest.made - before + LEAF_BLOCKS * (len(spent) + len(made))

    def fail(self, payments, claims):
        """A block whose message has one digest that is another's, and which is refused."""
        spent = [entry for entries, _ in payments for entry in entries]
        leaves = [entry.leaf for entry in spent]
        targets, beside = self.forest.prove(leaves)
        beside[min(beside)] = leaves[0].digest
        self.write_message(spent, targets, beside)
        block, _ = self.write_block(payments, claims)
        self.tell(f"refused {self.named(self.height(), block)} proof root {self.forest.differing_row(leaves, beside)}")

    def go_back(self, count):
        """A rollback. The forest before is made anew, from nothing, of the blocks that are left."""
        self.out.write(frame(ROLLBACK, struct.pack("<I", count)))
        if count > self.kept:
            self.tell(f"toodeep {count} {self.kept}")
            return
        left = self.blocks[:self.height() - count]
        self.blocks, self.forest, self.kept = [], Forest(), self.kept - count
        for block, spent, made in left:
            for entry in made:
                entry.leaf.parent = None
            self.keep(block, spent, made)
        self.tell(f"rolledback {count} {self.chain_line()}")

    def report(self):
        return "\n".join(self.lines + [f"end {self.events} {self.chain_line()}", ""])


def example(feed, lines):
    with open(feed, "wb") as out:
        chain = Chain(out)
        coins = []
        for _ in range(102):
            coins += chain.extend([], [SUBSIDY])[0]
        half = SUBSIDY // 2
        _, first, second = chain.extend([(coins[0:2], [SUBSIDY, SUBSIDY])], [SUBSIDY])[0]
        chain.extend([([first, coins[2]], [half]), ([second], [half])], [SUBSIDY])
        chain.fail([(coins[3:4], [half])], [SUBSIDY])
        chain.extend([(coins[3:4], [half])], [SUBSIDY])
        # the other branch, on which the same is spent, and which grows longer
        chain.go_back(2)
        chain.extend([([first], [SUBSIDY])], [SUBSIDY])
        chain.extend([([second, coins[2], coins[3]], [half, half])], [SUBSIDY])
        chain.fail([(coins[4:5], [half])], [SUBSIDY])
        chain.extend([(coins[4:5], [half])], [SUBSIDY])
        # further back than is kept, and before all of it
        chain.go_back(KEPT + 1)
        chain.go_back(4)
        chain.extend([(coins[0:1], [half])], [SUBSIDY])
    with open(lines, "w") as out:
        out.write(chain.report())


def measured(entries, blocks, spends):
    chain = Chain(sys.stdout.buffer)
    chain.extend([], [SUBSIDY])
    purse = []
    while len(purse) < entries:
        count = min(entries - len(purse), 10_000)
        purse += chain.extend([], [SUBSIDY // count] * count)[0]
    for _ in range(100):
        chain.extend([], [SUBSIDY])
    draw, digests, chain.hashed = 1, 0, 0
    for _ in range(blocks):
        spent = []
        for _ in range(spends):
            draw = (draw * 6364136223846793005 + 1442695040888963407) % 2**64
            at = (draw >> 33) % len(purse)
            purse[at], purse[-1] = purse[-1], purse[at]
            spent.append(purse.pop())
        made, count = chain.extend([(spent, [entry.amount for entry in spent])], [0])
        purse += made[1:]
        digests += count
    print(digests, chain.hashed, file=sys.stderr)


if sys.argv[1] == "example":
    example(*sys.argv[2:4])
else:
    measured(*map(int, sys.argv[1:4]))
