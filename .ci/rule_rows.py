"""Rows on the rules of a block, which .ci/rows asks: each limit, one past it, and which of two broken rules is told.

Blocks are made from sketches, and stand on states that no chain has led to: so many blocks, and just the outputs that the block spends. What is
wanted was worked out by hand.
"""
import struct

from follower import NotSo, read_block
from told_chain import FULL, MAGIC, SUBSIDY, Chain, Coin, block, hash_of, message, printed, proof
from worked_bytes import compact, frame, merkle_root, sha256d

ACCEPTED, REFUSED = 0, 1
TIP = bytes([7]) * 32
NULL = (0, 4_294_967_295)
ALL = 2_100_000_000_000_000
MOST_ENTRIES = 2**40 - 1


# ---- blocks from sketches: what a transaction spends, how long the script of each input is, and what it makes


def script_of(first, length):
    return bytes([first, *[0x51] * (length - 1)]) if length else b""


def sketched(sketches):
    """The transactions. An input is one of another block, a byte of its txid and an index, or `own`, a transaction of this block and an index."""
    txs = []
    for number, (spent, size, outs) in enumerate(sketches):
        text = struct.pack("<I", 1) + compact(len(spent))
        for name in spent:
            txid = sha256d(txs[name[1]]) if name[0] == "own" else bytes([name[0]]) * 32
            script = script_of(0, size)
            text += txid + struct.pack("<I", name[-1]) + compact(len(script)) + script + bytes(4)
        text += compact(len(outs))
        for amount, first, length in outs:
            text += struct.pack("<Q", amount) + compact(length) + script_of(first, length)
        txs.append(text + struct.pack("<I", number))
    return txs


def with_stack(tx, items):
    """The form with a stack of a transaction of one input."""
    stack = compact(len(items)) + b"".join(compact(len(item)) + item for item in items)
    return tx[:4] + b"\0\1" + tx[4:-4] + stack + tx[-4:]


def body_of(txs, before=TIP, witnesses=None, flaw=0):
    """A block, some of whose transactions have stacks."""
    plain = block(before, txs)
    header = plain[:36] + bytes([plain[36] ^ flaw]) + plain[37:80]
    whole = [with_stack(tx, witnesses[number]) if witnesses and number in witnesses else tx for number, tx in enumerate(txs)]
    return header + compact(len(txs)) + b"".join(whole)


# ---- states


def level(count, roots):
    return TIP + struct.pack("<Q", count) + roots + bytes(2)


def state(net, blocks, count, roots):
    """One level, where nothing is watched."""
    front = b"UTXS\2" + bytes([net == "regtest"]) + struct.pack("<I", blocks)
    return front + b"\0\1" + level(count, roots)


def roots_of(leaves):
    chain = Chain()
    chain.leaves = leaves
    return chain.roots()


def any_roots(count):
    return b"".join(b"\1" + bytes([17]) * 32 for _ in range(count.bit_count()))


# ---- a block by itself: how many blocks there are, and either why it is refused, or which inputs are external and which outputs new

BASE = ([NULL], 2, [(1, 0x51, 1)])
ONE = [(0, 0)]
FAR = (1, 0)


def passed(external, new):
    return external, new


SHAPES = [
    ("a coinbase", [BASE], passed([], ONE)),
    ("the script of a coinbase has a byte", [([NULL], 1, [])], "coinbase 0"),
    ("two", [([NULL], 2, [])], passed([], [])),
    ("a hundred", [([NULL], 100, [])], passed([], [])),
    ("and one more", [([NULL], 101, [])], "coinbase 0"),
    ("the index before", [([(0, 4_294_967_294)], 2, [])], "coinbase 0"),
    ("another id", [([(1, 4_294_967_295)], 2, [])], "coinbase 0"),
    ("two inputs of a coinbase", [([NULL, FAR], 2, [])], "coinbase 0"),
    ("the null outpoint elsewhere", [BASE, ([FAR], 2, []), ([(2, 0), NULL], 2, [])], "coinbase 2"),
    ("the index before elsewhere", [BASE, ([(0, 4_294_967_294)], 0, [])], passed([(1, 0)], ONE)),
    ("another id elsewhere", [BASE, ([(1, 4_294_967_295)], 101, [])], passed([(1, 0)], ONE)),
    # all money, and one more, in one output and in two
    ("all money", [([NULL], 2, [(ALL, 0x51, 1)])], f"subsidy {ALL} {SUBSIDY}"),
    ("and one more", [([NULL], 2, [(ALL + 1, 0x51, 1)])], "value 0"),
    ("all in two", [BASE, ([FAR], 0, [(ALL, 0x51, 1), (0, 0x51, 1)])], passed([(1, 0)], [(0, 0), (1, 0), (1, 1)])),
    ("and one more in two", [BASE, ([FAR], 0, [(ALL, 0x51, 1), (1, 0x51, 1)])], "value 1"),
    ("a sum that would wrap", [([NULL], 2, [(2**64 - 1, 0x51, 1), (2, 0x51, 1)])], "value 0"),
    # two rules broken, in both orders of place: the first rule tells
    ("a coinbase and a value", [([NULL], 1, []), ([FAR], 0, [(ALL + 1, 0, 0)])], "coinbase 0"),
    ("a value and a coinbase", [([NULL], 2, [(ALL + 1, 0, 0)]), ([NULL], 0, [])], "coinbase 1"),
    ("a double spend and a value", [BASE, ([FAR, FAR], 0, []), ([(2, 0)], 0, [(ALL + 1, 0, 0)])], "value 2"),
    ("a value and a double spend", [BASE, ([(2, 0)], 0, [(ALL + 1, 0, 0)]), ([FAR, FAR], 0, [])], "value 1"),
    ("one outpoint twice in a transaction", [BASE, ([FAR, (1, 1), FAR], 0, [])], "double 1 2"),
    ("in two", [BASE, ([FAR], 0, []), ([(2, 0), FAR], 0, [])], "double 2 1"),
    (
        "its neighbours", [BASE, ([FAR, (1, 1)], 0, []), ([(2, 0), (3, 0)], 0, [])],
        passed([(1, 0), (1, 1), (2, 0), (2, 1)], ONE),
    ),
    # what a block spends of its own, and what it adds
    (
        "a chain of spends",
        [BASE, ([FAR], 0, [(4, 0x51, 1), (5, 0x51, 1)]), ([("own", 1, 0)], 0, [(3, 0x51, 1)]), ([("own", 2, 0), ("own", 1, 1)], 0, [(2, 0x51, 1)])],
        passed([(1, 0)], [(0, 0), (3, 0)]),
    ),
    ("its own twice", [BASE, ([FAR], 0, [(4, 0x51, 1)]), ([("own", 1, 0)], 0, []), ([("own", 1, 0)], 0, [])], "double 3 0"),
    ("its own coinbase", [BASE, ([("own", 0, 0)], 0, [])], "immature 1 0"),
    ("no output of its own", [BASE, ([("own", 0, 1)], 0, [])], passed([(1, 0)], ONE)),
    ("a script of 10,000 bytes", [([NULL], 2, [(1, 0x51, 10_000)]), ([("own", 0, 0)], 0, [])], "immature 1 0"),
    ("a script of 10,001 bytes", [([NULL], 2, [(1, 0x51, 10_001)]), ([("own", 0, 0)], 0, [])], passed([(1, 0)], [])),
    ("what can be spent", [([NULL], 2, [(1, 0x6a, 1), (1, 0x69, 1), (1, 0x51, 0)])], passed([], [(0, 1), (0, 2)])),
    ("what can not", [([NULL], 2, [(1, 0x6a, 5)]), ([("own", 0, 0)], 0, [])], passed([(1, 0)], [])),
]


def outputs(sketch):
    return sum(amount for amount, _, _ in sketch[2])


def coin_of(txs, tx, index, sketches, height, hash_):
    amount, first, length = sketches[tx][2][index]
    return Coin(sha256d(txs[tx]), index, hash_, 2 * height + (tx == 0), amount, script_of(first, length))


def spent_by(txs, sketches, external):
    """The outputs that external inputs spend: the first of a transaction pays for it."""
    coins, seen = [], set()
    for tx, index in external:
        name = sketches[tx][0][index]
        txid = sha256d(txs[name[1]]) if name[0] == "own" else bytes([name[0]]) * 32
        coins.append(Coin(txid, name[-1], bytes([9]) * 32, 200, 0 if tx in seen else outputs(sketches[tx])))
        seen.add(tx)
    return coins


def ask_shapes(room, must):
    for what, sketches, end in SHAPES:
        txs = sketched(sketches)
        body = body_of(txs)
        hash_, feed = hash_of(body), frame(MAGIC["main"], body)
        if isinstance(end, str):
            refused(room, f"a block by itself: {what}", body, end, "main", 200)
            continue
        external, new = end
        coins = spent_by(txs, sketches, external)
        prior = state("main", 200, len(coins), roots_of([coin.leaf() for coin in coins]))
        feed = (proof(message(2, FULL, list(range(len(coins))), coins, [])) if coins else b"") + feed
        made = [coin_of(txs, *name, sketches, 200, hash_) for name in new]
        count = len(coins) + len(made)
        lines = [f"accepted 200 {printed(hash_)} {count}", f"end 1 200 {printed(hash_)} {count}"]
        stored = room.ask(f"a block by itself: {what}", "follow --from s", lines, ACCEPTED, feed, prior)
        front = hash_ + struct.pack("<Q", count) + roots_of([None] * len(coins) + [coin.leaf() for coin in made])
        must(stored[4 + 1 + 1 + 4 + 1 + 1 :].startswith(front), f"a block by itself: {what}: other outputs are added")


def refused(room, what, body, why, net, blocks, prior=None, messages=b""):
    prior = state(net, blocks, 0, b"") if prior is None else prior
    count = struct.unpack("<Q", prior[44:52])[0]
    lines = [f"refused {blocks} {printed(hash_of(body))} {why}", f"end 1 {blocks - 1} {printed(TIP)} {count}"]
    room.ask(what, "follow --from s", lines, REFUSED, messages + frame(MAGIC[net], body), prior)


def ask_places(room):
    """A header that does not fit, two rules broken in it and in the block, room, and the last height."""
    txs = sketched([BASE])
    refused(room, "another block before", body_of(txs, bytes([8]) * 32), "link", "main", 200)
    refused(room, "another root", body_of(txs, flaw=1), "merkle root", "main", 200)
    refused(room, "another root of a bad coinbase", body_of(sketched([([NULL], 1, [])]), flaw=1), "merkle root", "main", 200)
    full = state("main", 200, MOST_ENTRIES, any_roots(MOST_ENTRIES))
    refused(room, "no room", body_of(txs), "full", "main", 200, full)
    double = sketched([BASE, ([FAR], 0, []), ([(2, 0), FAR], 0, [])])
    refused(room, "no room for a double spend", body_of(double), "double 2 1", "main", 200, full)
    least = state("main", 200, MOST_ENTRIES - 1, any_roots(MOST_ENTRIES - 1))
    hash_ = printed(hash_of(body_of(txs)))
    lines = [f"accepted 200 {hash_} {MOST_ENTRIES}", f"end 1 200 {hash_} {MOST_ENTRIES}"]
    room.ask("room for one", "follow --from s", lines, ACCEPTED, frame(MAGIC["main"], body_of(txs)), least)
    # Nothing is issued there any more.
    refused(room, "the last height", body_of(txs), "subsidy 1 0", "main", 2**31 - 1)
    refused(room, "behind the last height", body_of(txs), "full", "main", 2**31)
    twice = sketched([BASE, ([FAR], 0, []), ([(2, 0)], 0, [])])
    refused(room, "a transaction twice", body_of([*twice, twice[2]]), "merkle repeated 0 2", "main", 200)


# ---- money: a network, a height, the block, what its external inputs spend (the amount, the height, and whether a coinbase made it), and why not

SIXTY = ([FAR], 0, [(50, 0x51, 1), (10, 0x6a, 1)])
NO_CLAIM = ([NULL], 2, [])


def claim(*amounts):
    return [NULL], 2, [(amount, first, 1) for amount, first in zip(amounts, (0x51, 0x6a))]


MONEY = [
    ("the subsidy is claimed", "main", 200, [claim(SUBSIDY)], [], None),
    ("one more", "main", 200, [claim(SUBSIDY, 1)], [], "subsidy 5000000001 5000000000"),
    ("subsidy and fee", "main", 200, [claim(5_000_000_040), SIXTY], [(100, 199, False)], None),
    ("one more", "main", 200, [claim(5_000_000_041), SIXTY], [(100, 199, False)], "subsidy 5000000041 5000000040"),
    ("less than it may", "main", 200, [NO_CLAIM, SIXTY], [(100, 199, False)], None),
    ("regtest before it is halved", "regtest", 149, [claim(SUBSIDY)], [], None),
    ("regtest behind", "regtest", 150, [claim(SUBSIDY)], [], "subsidy 5000000000 2500000000"),
    ("a coinbase at a hundred blocks", "main", 200, [NO_CLAIM, SIXTY], [(60, 100, True)], None),
    ("at 99", "main", 200, [NO_CLAIM, SIXTY], [(60, 101, True)], "immature 1 0"),
    ("what no coinbase made", "main", 200, [NO_CLAIM, SIXTY], [(60, 200, False)], None),
    ("the greatest height", "main", 4, [NO_CLAIM, SIXTY], [(60, 2**31 - 1, True)], "immature 1 0"),
    (
        "the block's own coinbase", "main", 200, [([NULL], 2, [(70, 0x51, 1)]), ([FAR, ("own", 0, 0)], 0, [])],
        [(60, 100, False)], "immature 1 1",
    ),
    # one behind another, each paid by the one before
    (
        "a chain", "main", 200, [NO_CLAIM, SIXTY, ([("own", 1, 0)], 0, [(45, 0x51, 1)]), ([(2, 0), ("own", 2, 0)], 0, [(50, 0x51, 1)])],
        [(60, 100, False), (8, 100, False)], None,
    ),
    (
        "a chain with too much", "main", 200, [NO_CLAIM, SIXTY, ([("own", 1, 0)], 0, [(45, 0x51, 1)]), ([(2, 0), ("own", 2, 0)], 0, [(54, 0x51, 1)])],
        [(60, 100, False), (8, 100, False)], "overspend 3",
    ),
    ("as much as it spends", "main", 200, [NO_CLAIM, SIXTY], [(60, 199, False)], None),
    ("one more", "main", 200, [NO_CLAIM, SIXTY], [(59, 199, False)], "overspend 1"),
    ("all money", "main", 200, [NO_CLAIM, SIXTY], [(ALL, 199, False)], None),
    ("one more than all", "main", 200, [NO_CLAIM, SIXTY], [(ALL + 1, 199, False)], "overspend 1"),
    ("a sum that would wrap", "main", 200, [NO_CLAIM, ([FAR, (2, 0)], 0, [(1, 0, 0)])], [(2**64 - 1, 199, False), (2, 199, False)], "overspend 1"),
    ("fees of more than all", "main", 200, [NO_CLAIM, ([FAR], 0, []), ([(2, 0)], 0, [])], [(ALL, 199, False), (ALL, 199, False)], None),
    (
        "fees of more than all, and claimed", "main", 200, [claim(ALL), ([FAR], 0, []), ([(2, 0)], 0, [])],
        [(ALL, 199, False), (ALL, 199, False)], None,
    ),
    # two rules broken, in both orders of place
    ("too much, and not ripe", "main", 200, [NO_CLAIM, SIXTY, ([(2, 0)], 0, [])], [(1, 199, False), (1, 199, True)], "immature 2 0"),
    ("not ripe, and too much", "main", 200, [NO_CLAIM, ([(2, 0)], 0, []), SIXTY], [(1, 199, True), (1, 199, False)], "immature 1 0"),
    ("a claim, and too much", "main", 200, [([NULL], 2, [(ALL, 0x51, 1)]), SIXTY], [(1, 199, False)], "overspend 1"),
]


def ask_money(room):
    for what, net, blocks, sketches, spent, why in MONEY:
        txs = sketched(sketches)
        body = body_of(txs)
        names = [name for inputs, _, _ in sketches[1:] for name in inputs if name[0] != "own"]
        coins = [
            Coin(bytes([name[0]]) * 32, name[1], bytes([9]) * 32, 2 * height + made, amount) for name, (amount, height, made) in zip(names, spent)
        ]
        prior = state(net, blocks, len(coins), roots_of([coin.leaf() for coin in coins]))
        messages = proof(message(2, FULL, list(range(len(coins))), coins, [])) if coins else b""
        if why:
            refused(room, f"money: {what}", body, why, net, blocks, prior, messages)
        else:
            accepted(room, f"money: {what}", body, net, blocks, prior, messages, len(coins) + added(sketches))


def added(sketches):
    """How many outputs are new: those that can be spent, less those that are spent within the block."""
    own = {name[1:] for inputs, _, _ in sketches for name in inputs if name[0] == "own"}
    return sum((tx, index) not in own and out[1] != 0x6a for tx, sketch in enumerate(sketches) for index, out in enumerate(sketch[2]))


def accepted(room, what, body, net, blocks, prior, messages, count):
    hash_ = printed(hash_of(body))
    lines = [f"accepted {blocks} {hash_} {count}", f"end 1 {blocks} {hash_} {count}"]
    room.ask(what, "follow --from s", lines, ACCEPTED, messages + frame(MAGIC[net], body), prior)


# ---- witnesses: the stack of the coinbase, empty for none, the scripts of its outputs, and what is wrong

ITEM = bytes(32)
RIGHT = bytes.fromhex("6a24aa21a9ede2f61c3f71d1defd3fa999dfa36953755c690689799962b48bebd836974e8cf9")
WRONG = RIGHT[:-1] + b"\xf8"
WITNESSES = [
    ([ITEM], [b"\x51", RIGHT], None),
    ([], [b"\x51", RIGHT], "form"),
    ([bytes(31)], [b"\x51", RIGHT], "form"),
    ([bytes(33)], [b"\x51", RIGHT], "form"),
    ([ITEM, ITEM], [b"\x51", RIGHT], "form"),
    ([ITEM], [b"\x51", WRONG], "root"),
    ([bytes([1]) * 32], [RIGHT], "root"),
    # the last one is meant
    ([ITEM], [WRONG, RIGHT], None),
    ([ITEM], [RIGHT, WRONG, b"\x51"], "root"),
    # longer and shorter scripts
    ([ITEM], [RIGHT + bytes(1), RIGHT[:-1]], None),
    ([ITEM], [RIGHT[:-1]], "unexpected"),
    ([ITEM], [b"\x51"], "unexpected"),
    ([], [b"\x51"], None),
]


def paying(scripts, inputs=(NULL,), size=2):
    text = sketched([(list(inputs), size, [])])[0]
    outs = b"".join(bytes(8) + compact(len(script)) + script for script in scripts)
    return text[:-5] + compact(len(scripts)) + outs + text[-4:]


def ask_witnesses(room):
    for number, (stack, scripts, why) in enumerate(WITNESSES):
        tx = paying(scripts)
        body = body_of([tx], witnesses={0: stack} if stack else None)
        made = scripts.count(b"\x51")
        # No rule looks at witnesses below the height. On regtest there is none below.
        for net, blocks, wrong in ("regtest", 1, why), ("main", 481_823, None), ("main", 481_824, why):
            what = f"witnesses {number} at {blocks}"
            if wrong:
                refused(room, what, body, f"witness {wrong}", net, blocks)
            else:
                accepted(room, what, body, net, blocks, state(net, blocks, 0, b""), b"", made)
    one_of_many(room)


def one_of_many(room):
    """A coinbase, and 252 transactions of which the seventh has a witness. The root was made by an independent program."""
    root = bytes.fromhex("4b113363653a4b0d6e6cd87f5d0b43ffc884a17e6225c4c360a4b36211246a1d")
    spends = []
    for number in range(1, 253):
        inputs = bytes([number]) * 32 + bytes(4) + b"\0" + b"\xff" * 4
        spends.append(struct.pack("<I", 1) + b"\1" + inputs + b"\1" + struct.pack("<Q", number) + b"\1\x51" + bytes(4))
    coins = [Coin(bytes([number]) * 32, 0, bytes([9]) * 32, 200, number) for number in range(1, 253)]
    prior = state("regtest", 200, len(coins), roots_of([coin.leaf() for coin in coins]))
    messages = proof(message(2, FULL, list(range(len(coins))), coins, []))
    for item, why in (ITEM, None), (bytes([1]) * 32, "witness root"):
        base = paying([RIGHT[:6] + sha256d(root + ITEM)])
        body = body_of([base, *spends], witnesses={0: [item], 7: [bytes([7])]})
        if why:
            refused(room, "a witness of many, and another item", body, why, "regtest", 200, prior, messages)
        else:
            accepted(room, "a witness of many", body, "regtest", 200, prior, messages, 504)


# ---- weights and trees


def ask_sizes(room, genesis):
    """A coinbase of 64 bytes beside its output's script, 80 of the header, one and five of counts, weigh four times their number; marker, flag and
    stack weigh their number."""
    tx = paying([bytes([0x51]) * 999_852])
    for stack, why in (b"", None), (b"\0", "weight 4000001"), (bytes(4), "weight 4000004"):
        body = body_of([tx], witnesses={0: [stack]})
        if why:
            refused(room, f"the {why}", body, why, "main", 1)
        else:
            accepted(room, "a weight of four million", body, "main", 1, state("main", 1, 0, b""), b"", 0)
    header, tx = genesis[8:88], genesis[89:289]
    ask_trees(room, header, tx)
    # 19,606 transactions, and a last one that is longer by 89 bytes; the root is of an independent program
    txs = [tx + struct.pack("<I", number) for number in range(19_606)]
    txs.append(tx[:41] + bytes([166]) + bytes([0x51]) * 166 + tx[119:] + struct.pack("<I", 19_606))
    root = bytes.fromhex("7ea8e384b7ab7a02581553fec8996d5c690c478b86b2cbcfdd8f4b955d34dbea")
    body = header[:36] + root + header[68:] + compact(len(txs)) + b"".join(txs)
    assert len(body) == 4_000_000
    first_refused(room, "a block of four million bytes", [body], "weight 16000000")


# Lists of transactions, and where the tree over them repeats.
TREES = [
    ([1, 2], None), ([1, 2, 3], None), ([1, 2, 3, 4], None), ([1, 2, 3, 4, 5], None), ([1, 2, 3, 4, 5, 6, 7], None),
    # equal hashes that are not paired
    ([1, 2, 2, 1, 3, 1, 3], None), ([7, 7], (0, 0)), ([1, 2, 3, 3], (0, 2)), ([1, 2, 1, 2, 3], (1, 0)),
    # the list of six with its last two again, which has the root of the list of six
    ([1, 2, 3, 4, 5, 6, 5, 6], (1, 2)),
]


def first_refused(room, what, bodies, *reasons):
    """Blocks that are refused where there is none."""
    lines = [f"refused 0 {printed(hash_of(body)) if why != 'block' else '-'} {why}" for body, why in zip(bodies, reasons)]
    feed = b"".join(frame(MAGIC["main"], body) for body in bodies)
    room.ask(what, "follow", [*lines, f"end {len(lines)} - - 0"], REFUSED, feed)


def ask_trees(room, header, tx):
    """With a right root the next rule tells of the second transaction that it is a coinbase."""
    bodies, reasons = [], []
    for numbers, repeated in TREES:
        txs = [tx + struct.pack("<I", number) for number in numbers]
        root = merkle_root([sha256d(one) for one in txs])
        bodies.append(header[:36] + root + header[68:] + compact(len(txs)) + b"".join(txs))
        reasons.append("coinbase 1" if repeated is None else "merkle repeated {} {}".format(*repeated))
        bodies.append(header[:36] + bytes([root[0] ^ 1]) + root[1:] + bodies[-1][68:])
        reasons.append("merkle root" if repeated is None else reasons[-1])
    first_refused(room, "trees of transactions", bodies, *reasons)


def ask_no_blocks(room, genesis):
    """Texts that begin as the genesis block does and are none: fronts of it, other counts and flags, and a byte more."""
    body = genesis[8:]
    texts = [body[:length] for length in range(len(body))] + [body + b"\0", body[:80] + b"\0"]
    changes = [(80, 1, b"\0", b""), (80, 1, b"\xfd\1\0", b""), (85, 1, b"\xfd\1\0", b""), (85, 0, b"\0\1", b"\0"), (85, 0, b"\0\2", b"\1\1\0")]
    for at, removed, put, witness in changes:
        texts.append(body[:at] + put + body[at + removed : 281] + witness + body[281:])
    first_refused(room, "texts that are no block", texts, *["block"] * len(texts))


def ask_changed(room, genesis):
    """A transaction with stacks of which each byte takes each value in turn: the follower in Python says which texts are a block. Where one is, the
    merkle root is another one, or that of the header, and then the transaction is no coinbase."""
    inputs = b"".join(bytes([7]) * 32 + struct.pack("<I", index) + b"\1\x51" + b"\xff\xff\xff\xfe" for index in range(2))
    plain = b"\2\0\0\0\2" + inputs + b"\1" + struct.pack("<Q", 1) + b"\1\x51" + struct.pack("<I", 17)
    whole = plain[:4] + b"\0\1" + plain[4:-4] + b"\0\2\0\2\xab\xab" + plain[-4:]
    header = genesis[8:44] + sha256d(plain) + genesis[76:88] + b"\1"
    bodies, reasons = [], []
    for at in range(len(whole)):
        for byte in range(256):
            bodies.append(header + whole[:at] + bytes([byte]) + whole[at + 1 :])
            reasons.append(reason_of(bodies[-1]))
    assert set(reasons) == {"block", "merkle root", "coinbase 0"}
    first_refused(room, "each byte of a transaction changed", bodies, *reasons)


def reason_of(body):
    try:
        header, transactions = read_block(body)
    except NotSo:
        return "block"
    return "coinbase 0" if merkle_root([one.txid for one in transactions]) == header[36:68] else "merkle root"


# ---- messages


SHORT = [
    # bytes, and what is said where nothing is spent and where one output is
    ("", "message form", "message form"), ("09", "message version 9", "message version 9"), ("03000000", "message version 3", "message version 3"),
    ("01020000", "message form", "message form"), ("01010000", None, "spends 0 1"), ("01000000", None, "spends 0 1"),
    ("02", "message form", "message form"), ("02020000", "message form", "message form"), ("02010000", None, "spends 0 1"),
    ("02000000", None, "spends 0 1"),
]
# A version, the entries, the numbers of a message, and what is wrong with them. Beside the first of 64 six hashes are needed, beside the last of four
# two. Row 2 begins there by fixed position.
ROW_2 = 1_649_267_441_664
NAMED = [
    (1, 8, [12, 0], "beneath 1 0"), (1, 8, [3, 3], "repeated 1 0"), (1, 8, [15], "outside 0"), (1, 5, [10], "outside 0"),
    (1, 8, [1, 0, 15, 12, 0], "outside 2"), (1, 100, [100], "outside 0"), (1, 100, [252], "hashes 0 6"), (1, 100, [0, 99], "hashes 8 6"),
    (2, 8, [ROW_2, 0], "beneath 1 0"), (2, 8, [3, 3], "repeated 1 0"), (2, 8, [12], "outside 0"), (2, 5, [1_099_511_627_778], "outside 0"),
    (2, 8, [1, 0, 2**64 - 1, ROW_2, 0], "outside 2"), (2, 100, [252], "outside 0"), (2, 100, [0, 99], "hashes 8 6"),
]


def ask_messages(room):
    coin = Coin(bytes([1]) * 32, 0, bytes([7]) * 32, 3, SUBSIDY)
    empty, one = state("main", 200, 0, b""), state("main", 200, 1, roots_of([coin.leaf()]))
    alone, spending = body_of(sketched([BASE])), body_of(sketched([BASE, ([FAR], 0, [])]))
    refused(room, "no message", spending, "noproof", "main", 200, one)
    for text, beside_none, beside_one in SHORT:
        text = bytes.fromhex(text)
        if beside_none:
            refused(room, f"the message {text.hex()!r}", alone, beside_none, "main", 200, empty, proof(text))
        else:
            accepted(room, f"the message {text.hex()!r}", alone, "main", 200, empty, proof(text), 1)
        refused(room, f"the message {text.hex()!r} beside one", spending, beside_one, "main", 200, one, proof(text))
    for version in 1, 2:
        whole = message(version, FULL, [0], [coin], [])
        refused(room, "one spend beside none", alone, "spends 1 0", "main", 200, empty, proof(whole))
        refused(room, "a byte more", spending, "message form", "main", 200, one, proof(whole + b"\0"))
        two = message(version, FULL, [0, 0], [coin, coin], [])
        refused(room, "two spends beside one", spending, "spends 2 1", "main", 200, one, proof(two))
        accepted(room, "one beside one", spending, "main", 200, one, proof(whole), 2)
    for version, count, numbers, why in NAMED:
        names = [(number, 0) for number in range(1, len(numbers) + 1)]
        coins = [Coin(bytes([number]) * 32, 0, bytes([7]) * 32, 3, SUBSIDY) for number, _ in names]
        body = body_of(sketched([BASE, (names, 0, [])]))
        text = message(version, FULL, numbers, coins, [bytes([number]) * 32 for number in range(6)])
        prior = state("main", 200, count, any_roots(count))
        refused(room, f"the numbers {numbers} over {count} in version {version}", body, f"proof {why}", "main", 200, prior, proof(text))


def ask_rules(room, must, genesis):
    ask_shapes(room, must)
    ask_places(room)
    ask_money(room)
    ask_witnesses(room)
    ask_sizes(room, genesis)
    ask_no_blocks(room, genesis)
    ask_changed(room, genesis)
    ask_messages(room)
