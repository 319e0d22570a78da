#!/usr/bin/env python3
"""Proves some functions of a crate: prove_only.py CRATE FUNCTION..

The libraries below the crate that are built and fit its sources go in as they are built, the others as source, of which nothing is proved that is
not named. So a function of a high crate is checked within a minute of a change in a low one. What is proved is kept in the crate's out/only.
A function is named by its path, as cache_update::start::new_places; a module or a type stands for all of its functions.
"""
import pathlib
import shutil
import subprocess
import sys

TOP = pathlib.Path(__file__).resolve().parent.parent
KIT = pathlib.Path(shutil.which("rt")).resolve().parent.parent


def lines_of_crates():
    for line in (TOP / "crates.txt").read_text(encoding="utf-8").splitlines():
        head, colon, rest = line.partition("#")[0].partition(":")
        if colon:
            yield head.split()[0], rest.split()


def below(crate, uses, found):
    """The repository's libraries that a crate stands on, the lower ones first."""
    for name in uses[crate]:
        if name in uses and name not in found:
            below(name, uses, found)
            found.append(name)
    return found


def words_for(crate, uses):
    libraries = below(crate, uses, [])
    of_kit = {"std"} | {name for it in [*libraries, crate] for name in uses[it] if name not in uses}
    for name in sorted(of_kit):
        yield from ("--extern", f"{name}={KIT}/rlibs/{name}.rlib")
    yield from ("-L", f"dependency={KIT}/rlibs")
    for name in libraries:
        built = TOP / "crates" / name / "out/rlib"
        if (built / "stamp").exists():
            yield from ("--extern", f"{name}={built}/{name}.rlib", "-L", f"dependency={built}")
        else:
            used = ",".join(["std", *uses[name]])
            yield from ("--lib", f"{name}:{used}={TOP}/crates/{name}/src/lib.rt")


def main():
    crate, *functions = sys.argv[1:]
    folder = TOP / "crates" / crate
    kept = folder / "out/only"
    kept.mkdir(parents=True, exist_ok=True)
    root = "src/main.rt" if (folder / "src/main.rt").exists() else "src/lib.rt"
    words = [KIT / "bin/rattle", "check", "--crate-name", crate, root, *words_for(crate, dict(lines_of_crates()))]
    words += ["--antt-project", KIT / "rattle/logic/antt-project.json", "--logic-built", KIT / "logic_built"]
    words += ["--jobs", "2", "--incremental", kept]
    for function in functions:
        words += ["--only", function]
    return subprocess.run(words, cwd=folder).returncode


if __name__ == "__main__":
    sys.exit(main())
