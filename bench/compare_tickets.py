#!/usr/bin/env python3
"""Tickets of the built program beside a plain judge in Python: compare_tickets.py [BLOCKS].

A generated chain is followed with a watch list, and stopped behind every fifth block. There the ticket of each kept entry begins as the text of the
state says, it is live, and to all outputs too; the states before and behind know another block. Each byte of one ticket a state is changed, and the
program says of that what the judge says, who takes a ticket apart by docs/FORMATS.md alone.
"""
import pathlib
import subprocess
import sys
import tempfile

TOP = pathlib.Path(__file__).resolve().parent.parent
sys.path[:0] = [str(TOP / "bench"), str(TOP / "examples")]
sys.dont_write_bytecode = True
from compare_followers import split  # noqa: E402
from compare_upgrades import Room  # noqa: E402
from follower import NotSo, Reader, Refused, leaf, places_of, read_rest, spend  # noqa: E402

MAGIC, PROOF = b"UTXT", b"UTXP"
LAUNCHER, PROGRAM = TOP / "utreexo", TOP / "crates/utreexo/out/utreexo"


def run(*words):
    """The status and the lines of a run of the program itself, since there are thousands."""
    done = subprocess.run([PROGRAM, *words], stdin=subprocess.DEVNULL, stdout=subprocess.PIPE, check=False)
    return done.returncode, done.stdout.decode().splitlines()


class Newest:
    """The newest level of a state of version 2: its block, how many entries there are, its roots, and what it keeps by number."""

    def __init__(self, text):
        reader = Reader(text)
        if reader.take(5) != b"UTXS\2":
            raise NotSo
        reader.take(1 + 4)
        for _ in range(reader.compact()):
            reader.sized()
        reader.take(1)
        self.tip, self.count = reader.take(32), reader.number(8)
        slots = [row for row in reversed(range(41)) if self.count >> row & 1]
        self.roots = {row: reader.take(32) if reader.take(1) == b"\1" else None for row in slots}
        self.kept = {}
        for _ in range(reader.compact()):
            number, start = reader.number(8), reader.at
            reader.take(8 + 32 + 4)
            read_rest(reader)
            self.kept[number] = text[start : reader.at]


def judged(newest, text):
    """What is to be said of a text that should be a ticket."""
    if text[:4] == MAGIC and len(text) > 4 and text[4] != 1:
        return f"check version {text[4]}"
    reader = Reader(text)
    try:
        if reader.take(5) != MAGIC + b"\1":
            raise NotSo
        tip, number, txid, index = reader.take(32), reader.number(8), reader.take(32), reader.number(4)
        rest, _, _, amount = read_rest(reader)
        hashes = [reader.take(32) for _ in range(reader.compact())]
        if reader.at != len(text):
            raise NotSo
    except NotSo:
        return "check form"
    if tip != newest.tip:
        return "check tip"
    try:
        spend(newest.count, newest.roots, places_of(2, newest.count, [number]), [leaf((txid, index), rest)], hashes)
    except Refused as why:
        return f"check {str(why).removeprefix('proof ')}"
    return f"check live {txid[::-1].hex()} {index} {amount}"


def events_of(feed):
    """A proof and the block behind it are one event."""
    held = b""
    for frame in split(feed):
        held += frame
        if frame[:4] != PROOF:
            yield held
            held = b""


class Chain:
    """The states behind every fifth block, and the feed up to there."""

    def __init__(self, room, blocks):
        self.room, self.watch = room, room.write("watch", b"5203\n5207\n")
        run("gen", "9", str(blocks), "--to", room.path("made"))
        run("prove", "--feed", room.path("made"), "--watch", self.watch, "--to", room.path("proved"))
        events = list(events_of(room.read("proved")))
        self.states = []
        for ends in range(5, len(events) + 1, 5):
            feed = room.write(f"feed{ends}", b"".join(events[:ends]))
            state = room.path(f"state{ends}")
            run("follow", "--feed", feed, "--watch", self.watch, "--to", state)
            self.states.append((feed, state, Newest(room.read(f"state{ends}"))))


def differs(said, wanted):
    """Whether the program answers otherwise than with this line, and with status 0 only where it says that an output is live."""
    return said != (0 if wanted.startswith("check live ") else 1, [wanted])


def faults_of(chain, at):
    """What differs of the tickets of one state."""
    room, (feed, state, newest) = chain.room, chain.states[at]
    room.clear("ticket")
    for number in range(newest.count):
        if number not in newest.kept and run("ticket", str(number), "--from", state, "--to", room.path("ticket")) != (1, ["ticket none"]):
            yield f"an entry {number} that is not kept"
    others = chain.states[max(at - 1, 0) : at] + chain.states[at + 1 : at + 2]
    for turn, (number, shown) in enumerate(newest.kept.items()):
        path = room.path("ticket")
        status, said = run("ticket", str(number), "--from", state, "--to", path)
        text = room.read("ticket")
        if (status, said) != (0, [f"ticket {number} {len(text)}"]) or not text.startswith(MAGIC + b"\1" + newest.tip + shown):
            yield f"the ticket of {number}"
        live = judged(newest, text)
        if not live.startswith("check live ") or differs(run("check", "--from", state, "--feed", path), live):
            yield f"that {number} is live"
        if differs(run("recheck", "--from", path, "--feed", feed, "--watch", chain.watch), live):
            yield f"that {number} is live to all outputs"
        for _, other, level in others:
            if differs(run("check", "--from", other, "--feed", path), judged(level, text)):
                yield f"the ticket of {number} beside another state"
        for place in range(len(text)) if turn == at % len(newest.kept) else ():
            changed = text[:place] + bytes([text[place] ^ 1 << (place + at) % 8]) + text[place + 1 :]
            if differs(run("check", "--from", state, "--feed", room.write("changed", changed)), judged(newest, changed)):
                yield f"the ticket of {number} with byte {place} changed"


def main():
    # It is built where it is not.
    subprocess.run([LAUNCHER, "gen", "1", "0"], stdout=subprocess.DEVNULL, check=True)
    with tempfile.TemporaryDirectory() as folder:
        chain = Chain(Room(folder), int(sys.argv[1]) if len(sys.argv) > 1 else 100)
        found = [f"state {at}: {fault}" for at in range(len(chain.states)) for fault in faults_of(chain, at)]
        tickets = sum(len(newest.kept) for _, _, newest in chain.states)
    print(*found, sep="\n", end="\n" if found else "")
    print(f"{tickets} tickets of {len(chain.states)} states: {len(found)} differ from the plain judge")
    sys.exit(bool(found) or tickets == 0)


if __name__ == "__main__":
    main()
