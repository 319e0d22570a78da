#!/usr/bin/env python3
"""Measures the acts of a relay: relay_times.py PROGRAM [BLOCKS [ACTS]] prints how many microseconds each takes.

A bridge takes BLOCKS (10,000) generated blocks, and behind them come ACTS (100,000) acts of one kind, by 1 and by 100 followers in turn. What an act
takes is the processor time of such a run less that of the run without these acts, over their number; the least of three runs counts. The memory that
a run took is told beside the bytes of its feed.
"""
import os
import subprocess
import sys
import tempfile
from pathlib import Path

RUNS = 3


def run(program, room, followers, script):
    """Seconds of processor time, and bytes of memory."""
    (room / "script").write_text(script)
    words = [program, "relay", str(followers), "--feed", str(room / "feed"), "--from", str(room / "script")]
    with open(os.devnull, "wb") as nothing:
        _, status, usage = os.wait4(subprocess.Popen(words, stdout=nothing).pid, 0)
    if status:
        sys.exit(f"status {status} of {words}")
    return usage.ru_utime + usage.ru_stime, usage.ru_maxrss * 1024


def least(*words):
    return min(run(*words)[0] for _ in range(RUNS))


def caught_up(followers, blocks):
    """Each follower gets every block: an ask, a reply and a delivery for each."""
    turns = [(number, turn * followers + number) for turn in range(blocks) for number in range(followers)]
    return "".join(f"ask {number}\nserve {at}\ndeliver {number} {at}\n" for number, at in turns)


def main(program, blocks=10_000, acts=100_000):
    with tempfile.TemporaryDirectory() as folder:
        room = Path(folder)
        made = subprocess.run([program, "gen", "1", str(blocks), "--to", str(room / "feed")], capture_output=True, check=True)
        _, frames, rollbacks, size = made.stdout.decode().split()
        taken = "bridge\n" * (int(frames) + int(rollbacks))
        print(f"{frames} blocks, {size} bytes; {run(program, room, 1, taken)[1]} bytes of memory")
        for followers in 1, 100:
            asks = "".join(f"ask {number % followers}\n" for number in range(acts))
            serves = "".join(f"serve {number}\n" for number in range(acts))
            stale = "".join(f"deliver {number % followers} 0\n" for number in range(acts))
            one = "ask 0\nserve 0\ndeliver 0 0\n"
            bare, asked = least(program, room, followers, taken), least(program, room, followers, taken + asks)
            served = least(program, room, followers, taken + asks + serves)
            begun = least(program, room, followers, taken + one * followers)
            refused = least(program, room, followers, taken + one * followers + stale)
            times = [("ask", asked - bare), ("serve", served - asked), ("deliver, stale", refused - begun)]
            told = ", ".join(f"{name} {1e6 * seconds / acts:.2f}" for name, seconds in times)
            print(f"{followers} followers, microseconds: {told}")
        moves = min(blocks, 1000)
        behind = least(program, room, 1, taken + caught_up(1, moves)) - least(program, room, 1, taken)
        print(f"ask, serve and deliver of a block: {1e6 * behind / moves:.2f}")


if __name__ == "__main__":
    if len(sys.argv) < 2:
        sys.exit(__doc__)
    main(sys.argv[1], *map(int, sys.argv[2:]))
