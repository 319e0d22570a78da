#!/usr/bin/env python3
"""Runs random relays beside a plain model: relay_random.py PROGRAM [COUNT [NUMBER]]; relay_random.py example FOLDER makes the relay of examples/.

Each of COUNT (1,000) scripts is drawn from NUMBER (1) on, with a feed of its own. The network loses, repeats and reorders: replies come late, twice,
to any follower, or never, and the bridge serves asks of long ago. Its feed goes back by up to a hundred blocks, and sometimes by too many, has blocks
of other branches and old ones once more, and may end in a bad frame. What the program prints, and its status, have to be those of the model below,
which is written from docs/FORMATS.md alone and knows a block by its height, its hash and how many outputs there are behind it.
"""
import random
import subprocess
import sys
import tempfile
from dataclasses import dataclass, field
from pathlib import Path

sys.dont_write_bytecode = True
from made_feed import MAGIC, ROLLBACK, Draws, Purse, block, frame, hash256, little

KEPT = 100
NO_HASH = bytes(32)


@dataclass
class Block:
    height: int
    hash: bytes
    prev: bytes
    body: bytes
    leaves: int
    purse: Purse


def transactions(body):
    """Each transaction's id, with its count of outputs."""
    at = 81
    for _ in range(body[80]):
        outputs = at + 4 + 1 + 36 + 1 + body[at + 41] + 4
        end = outputs + 1 + 11 * body[outputs] + 4
        yield hash256(body[at:end]), body[outputs]
        at = end


def added(height, body):
    """How many outputs a block leaves. Those of the first block can not be spent, and those that it spends itself are none."""
    count = 0
    for number, (txid, outputs) in enumerate(transactions(body)):
        if number or height:
            count += sum(txid + little(index, 4) not in body for index in range(outputs))
    return count


class Maker:
    """Blocks on any block, each of which has a number of its own."""

    def __init__(self, number):
        self.draws, self.number = Draws(number), 0

    def on(self, before):
        height = before.height + 1 if before else 0
        purse = before.purse.copy() if before else Purse()
        prev = before.hash if before else NO_HASH
        hash_, body = block(self.draws, purse, self.number, height, prev, "main")
        self.number += 1
        return Block(height, hash_, prev, body, (before.leaves if before else 0) + added(height, body), purse)


def tip(top):
    return f"{top.height} {top.hash[::-1].hex()} {top.leaves}" if top else "- - 0"


# ---- the model


@dataclass
class World:
    followers: list
    chain: list = field(default_factory=list)  # of serials, from the first block on
    blocks: list = field(default_factory=lambda: [None])  # by serial
    undone: int = 0  # how many blocks can be taken back
    asks: list = field(default_factory=list)
    replies: list = field(default_factory=list)
    refused: bool = False

    def top(self):
        return self.blocks[self.chain[-1]] if self.chain else None

    def take(self, block):
        top = self.top()
        if block.prev != (top.hash if top else NO_HASH):
            self.refused = True
            return f"refused {len(self.chain)} {block.hash[::-1].hex()} link"
        self.blocks.append(block)
        self.chain.append(len(self.blocks) - 1)
        self.undone = min(KEPT, self.undone + 1)
        return f"accepted {tip(block)}"

    def go_back(self, count):
        if count > self.undone:
            self.refused = True
            return f"toodeep {count} {self.undone}"
        self.undone -= count
        del self.chain[len(self.chain) - count :]
        return f"rolledback {count} {tip(self.top())}"

    def ask(self, number):
        if number >= len(self.followers):
            return "unknown"
        self.asks.append(list(self.followers[number]))
        return f"asked {len(self.asks) - 1}"

    def serve(self, number):
        if number >= len(self.asks):
            return "unknown"
        serials = self.asks[number]
        there = [index for index, serial in enumerate(serials) if serial == 0 or serial in self.chain]
        if not there:
            kind = ("lost",)
        elif there[0] > 0:
            kind = ("back", there[0])
        else:
            behind = self.chain.index(serials[0]) + 1 if serials[0] else 0
            kind = ("next", self.chain[behind]) if behind < len(self.chain) else ("same",)
        self.replies.append((serials[0], kind))
        word = " ".join(map(str, kind[:1] if kind[0] == "next" else kind))
        return f"replied {len(self.replies) - 1} {word}"

    def deliver(self, number, reply):
        if number >= len(self.followers) or reply >= len(self.replies):
            return "unknown"
        levels = self.followers[number]
        first, kind = self.replies[reply]
        if levels[0] != first or kind[0] not in ("next", "back"):
            return "stale"
        if kind[0] == "next":
            levels.insert(0, kind[1])
            del levels[KEPT + 1 :]
        elif kind[1] < len(levels):
            del levels[: kind[1]]
        else:
            return "stale"
        return f"moved {levels[0]}"


def lines_of(world, script, events, bad):
    """The lines and the status. Events are blocks, or counts of blocks to go back by; `bad` is the line of a bad frame behind them, or None."""
    events, lines = iter(events), []
    for act, *numbers in script:
        if act != "bridge":
            lines.append(getattr(world, act)(*numbers))
            continue
        event = next(events, None)
        if event is None and bad:
            break
        if event is None:
            lines.append("bridge none")
        elif isinstance(event, int):
            lines.append(world.go_back(event))
        else:
            lines.append(world.take(event))
    if bad:
        return lines + [bad], 5
    for number, levels in enumerate(world.followers):
        lines.append(f"node {number} {levels[0]} {tip(world.blocks[levels[0]])}")
    return lines + [f"end {len(script)} {tip(world.top())}"], int(world.refused)


# ---- what is drawn


def drawn_events(draw, number):
    maker, all_blocks, chain, events = Maker(number), [], [], []

    def grow(before):
        made = maker.on(before)
        all_blocks.append(made)
        events.append(made)
        return made

    for _ in range(draw.choice([0, 3, 30, 130])):
        chain.append(grow(chain[-1] if chain else None))
    for _ in range(draw.randrange(40)):
        kind = draw.random()
        if kind < 0.6:
            chain.append(grow(chain[-1] if chain else None))
        elif kind < 0.85:
            count = draw.choice([0, 1, 1, 2, 3, draw.randrange(101)])
            events.append(count)
            if count <= min(len(chain), KEPT):  # nearly always what the bridge can do
                del chain[len(chain) - count :]
        elif kind < 0.95 and all_blocks:
            events.append(draw.choice(all_blocks))
            top = chain[-1].hash if chain else NO_HASH
            if events[-1].prev == top:
                chain.append(events[-1])
        elif all_blocks:
            grow(draw.choice(all_blocks))
    return events


def drawn_script(draw, followers, events):
    """Acts that mostly name what is there."""
    script, asks, replies = [("bridge",)] * draw.choice([0, 0, 1, events]), 0, 0
    for _ in range(draw.randrange(20, 400)):
        kind = draw.random()
        if kind < 0.2:
            script.append(("bridge",))
        elif kind < 0.45:
            script.append(("ask", draw.randrange(followers)))
            asks += 1
        elif kind < 0.7 and asks:
            late = draw.random() < 0.2
            script.append(("serve", draw.randrange(asks) if late else max(0, asks - 1 - draw.randrange(3))))
            replies += 1
        elif replies:
            late = draw.random() < 0.2
            for _ in range(draw.choice([1, 1, 2])):
                reply = draw.randrange(replies) if late else max(0, replies - 1 - draw.randrange(4))
                script.append(("deliver", draw.randrange(followers), reply))
        else:
            script.append(draw.choice([("serve", 2**64 - 1), ("deliver", 2**32 - 1, 0), ("ask", followers)]))
    return script


def text_of(script):
    return "".join(" ".join(map(str, line)) + "\n" for line in script).encode()


def feed_of(events):
    return b"".join(frame(ROLLBACK, little(event, 4)) if isinstance(event, int) else frame(MAGIC["main"], event.body) for event in events)


def differs(program, room, followers, script, events, tail=b"", bad=None):
    """Where a run and the model differ, in words, or None; and the model's lines."""
    (room / "script").write_bytes(text_of(script))
    lines, status = lines_of(World([[0] for _ in range(followers)]), script, events, bad)
    words = [program, "relay", str(followers), "--from", room / "script"]
    run = subprocess.run(words, input=feed_of(events) + tail, stdout=subprocess.PIPE, check=False)
    said = run.stdout.decode().splitlines()
    if (said, run.returncode) == (lines, status):
        return None, lines
    at = next((index for index, pair in enumerate(zip(said, lines)) if pair[0] != pair[1]), min(len(said), len(lines)))
    return f"line {at + 1} is {said[at:at + 1]} and should be {lines[at:at + 1]}; status {run.returncode} for {status}", lines


def drawn(program, room, number):
    """The same of a script that is drawn."""
    draw = random.Random(number)
    followers = draw.choice([1, 2, 3, 7])
    events = drawn_events(draw, number)
    script = drawn_script(draw, followers, len(events))
    if draw.random() < 0.1:
        return differs(program, room, followers, script, events, b"none", f"frame magic {len(feed_of(events))} {b'none'.hex()}")
    return differs(program, room, followers, script, events)


def generated(number, count):
    """The events of a generated feed."""
    maker, chain, events = Maker(number), [], []
    for turn in range(count):
        if turn and turn % 50 == 0:
            events.append(2)
            del chain[-2:]
        chain.append(maker.on(chain[-1] if chain else None))
        events.append(chain[-1])
    return events


def twice_reversed(followers, events):
    """Behind each event each follower asks and is served, and then each reply comes twice, in reversed order."""
    script = []
    for turn in range(events):
        first = turn * followers
        script += [("bridge",), *(("ask", number) for number in range(followers)), *(("serve", first + number) for number in range(followers))]
        script += [("deliver", number, first + number) for number in reversed(range(followers)) for _ in range(2)]
    return script


def example(folder):
    """Two blocks, a rollback and another block, which one follower gets; and the lines that a relay prints of it."""
    maker = Maker(1)
    first = maker.on(None)
    events = [first, maker.on(first), 1, maker.on(first)]

    def turn(number):
        return [("ask", 0), ("serve", number), ("deliver", 0, number)]

    script = [("bridge",)] * 2 + turn(0) + [("deliver", 0, 0)] + turn(1) + [("bridge",)] * 2 + turn(2) + turn(3) + turn(4) + [("bridge",)]
    lines, _ = lines_of(World([[0]]), script, events, None)
    (folder / "relay.feed").write_bytes(feed_of(events))
    (folder / "relay.script").write_bytes(text_of(script))
    (folder / "relay.lines").write_text("".join(f"{line}\n" for line in lines))


def main(program, count=1000, number=1):
    seen = {}
    with tempfile.TemporaryDirectory() as folder:
        for turn in range(number, number + count):
            difference, lines = drawn(program, Path(folder), turn)
            if difference:
                sys.exit(f"script {turn}: {difference}")
            for line in lines:
                words = line.split()
                kind = f"{words[0]} {words[2]}" if words[0] == "replied" else words[0]
                seen[kind] = seen.get(kind, 0) + 1
    print(f"{count} scripts agree:", ", ".join(f"{kind} {seen[kind]}" for kind in sorted(seen)))


if __name__ == "__main__":
    if len(sys.argv) < 2:
        sys.exit(__doc__)
    if sys.argv[1] == "example":
        example(Path(sys.argv[2]))
    else:
        main(sys.argv[1], *map(int, sys.argv[2:]))
