#!/usr/bin/env python3
"""Takes over each library that a run of `rt ci` on this machine proved from the same files, so that `rt check` begins with it.

`rt ci` keeps what it proves for later runs of its own; this writes it into the crates' out/, with the stamps that `rt check` asks for.
"""
import importlib.machinery
import importlib.util
import os
import pathlib
import shutil
import sys

sys.dont_write_bytecode = True
TOP = pathlib.Path(__file__).resolve().parent.parent


def kit():
    loader = importlib.machinery.SourceFileLoader("kit", os.path.realpath(shutil.which("rt")))
    made = importlib.util.module_from_spec(importlib.util.spec_from_loader("kit", loader))
    loader.exec_module(made)
    return made


def take(rt, kept, crate):
    """Whether the crate's library is there, or could be taken."""
    key = kept.key(crate)
    if not os.path.isdir(kept.place(crate, False, key)):
        return False
    if not (crate.is_built() and os.path.isdir(crate.rlib)):
        rt.clear(f"{crate.folder}/out/rlib")
        os.makedirs(f"{crate.folder}/out/rlib")
        if not kept.give(crate, False, key):
            return False
        pathlib.Path(crate.folder, "out/rlib/stamp").write_text(crate.stamp(), encoding="utf-8")
    kept.is_built(crate)
    return True


def main():
    os.chdir(TOP)
    rt = kit()
    rt.Crate.cuts_libraries = True
    rt.Crate.allowed = rt.handles_of(str(TOP))
    left = rt.crates_of(str(TOP))
    kept = rt.Kept(left)
    taken, lacking = set(), set()
    while left:
        crate = next(it for it in left if all(dep.name in taken | lacking for dep in it.below()))
        left.remove(crate)
        stands = not crate.is_program and all(dep.name in taken for dep in crate.below())
        (taken if stands and take(rt, kept, crate) else lacking).add(crate.name)
    print("taken:", *sorted(taken))
    print("lacking:", *sorted(lacking))


if __name__ == "__main__":
    main()
