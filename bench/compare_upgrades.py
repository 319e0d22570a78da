#!/usr/bin/env python3
"""Follows feeds that are changed at random, and what `upgrade feed` writes of them: compare_upgrades.py FEEDS [SEED].

Each feed is a generated chain of 300 blocks with rollbacks, proved in full or lean for a watch list, in version 1 or 2, with up to four changes as
compare_followers.py makes them. Both runs print the same lines, end with the same status and store the same state. Where a feed ends badly, the
lines of its events are the same. What is written holds no message of version 1, and upgraded once more it stays as it is.
"""
import pathlib
import random
import subprocess
import sys
import tempfile

TOP = pathlib.Path(__file__).resolve().parent.parent
sys.path[:0] = [str(TOP / "bench"), str(TOP / "examples")]
sys.dont_write_bytecode = True
from compare_followers import change, split  # noqa: E402
from first_version import first_version  # noqa: E402

PROGRAM = TOP / "utreexo"
BAD_ENDS = (5, 10)


def run(*words):
    done = subprocess.run([PROGRAM, *words], stdin=subprocess.DEVNULL, stdout=subprocess.PIPE, stderr=subprocess.DEVNULL, check=False)
    return done.returncode, done.stdout.decode().splitlines()


class Room:
    """A folder for the files of one comparison."""

    def __init__(self, folder):
        self.folder = pathlib.Path(folder)

    def path(self, name):
        return str(self.folder / name)

    def write(self, name, text):
        (self.folder / name).write_bytes(text)
        return self.path(name)

    def read(self, name):
        file = self.folder / name
        return file.read_bytes() if file.exists() else None

    def clear(self, *names):
        for name in names:
            (self.folder / name).unlink(missing_ok=True)


def chains(room):
    """Each chain with the options by which it is followed."""
    watch = room.write("watch", b"5203\n5207\n")
    made = room.path("made")
    for number in (5, 6):
        run("gen", str(number), "300", "--to", made)
        for options in ((), ("--watch", watch)):
            run("prove", "--feed", made, *options, "--to", room.path("proved"))
            proved = room.read("proved")
            yield options, proved
            yield options, b"".join(first_version(proved, "main"))


def fault(room, options, feed):
    """What differs, if anything does."""
    room.clear("one", "other", "upgraded", "again")
    feed = room.write("feed", feed)
    upgraded, again = room.path("upgraded"), room.path("again")
    status, told = run("upgrade", "feed", "--feed", feed, *options, "--to", upgraded)
    if room.read("upgraded") is None:
        room.write("upgraded", b"")
    first = run("follow", "--feed", feed, *options, "--to", room.path("one"))
    second = run("follow", "--feed", upgraded, *options, "--to", room.path("other"))
    if status in BAD_ENDS:
        return None if first[0] == status and first[1][:-1] == second[1][:-1] and told == first[1][-1:] else "the lines of the events"
    if status != 0 or first != second:
        return "the lines"
    if room.read("one") != room.read("other"):
        return "the states"
    words = told[0].split()
    if words[:2] != ["upgraded", first[1][-1].split()[1]]:
        return "the count of events"
    status, told = run("upgrade", "feed", "--feed", upgraded, *options, "--to", again)
    same = (room.read("again") or b"") == room.read("upgraded")
    return None if status == 0 and same and told == [f"{words[0]} {words[1]} 0"] else "what is upgraded once more"


def main():
    feeds, draw = int(sys.argv[1]), random.Random(int(sys.argv[2]) if len(sys.argv) > 2 else 1)
    with tempfile.TemporaryDirectory() as folder:
        room, wrong = Room(folder), 0
        choices = list(chains(room))
        for _ in range(feeds):
            options, feed = draw.choice(choices)
            frames = split(feed)
            for _ in range(draw.randint(0, 4)):
                change(draw, frames)
            feed = b"".join(frames)
            feed = feed[: draw.randrange(len(feed))] if draw.random() < 0.1 else feed
            found = fault(room, options, feed)
            if found:
                wrong += 1
                pathlib.Path(f"upgrade-differs-{wrong}.feed").write_bytes(feed)
                print(f"{found} differ over upgrade-differs-{wrong}.feed, followed with {' '.join(options) or 'no options'}")
    print(f"{feeds} feeds, {wrong} differ")
    sys.exit(wrong > 0)


if __name__ == "__main__":
    main()
