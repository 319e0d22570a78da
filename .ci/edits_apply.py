"""Looks whether each named must-fail edit can be applied: each `old:` text stands once in the file that is named above it, and has its `new:`
text."""
import pathlib
import sys


def faults_of(edit):
    """The faults of an edit, a line each."""
    text, old, changes = None, None, 0
    for line in edit.read_text().splitlines():
        word, _, rest = line.partition(":")
        rest = rest.removeprefix(" ")
        if word == "file":
            text = (edit.parent.parent / rest).read_text()
        elif word == "old":
            found = 0 if text is None else text.count(rest)
            old, changes = rest, changes + 1
            if found != 1:
                yield f"{edit}: what it changes stands {found} times: {rest.strip()}"
        elif word == "new":
            if old is None:
                yield f"{edit}: a second text for one change: {rest.strip()}"
            old = None
    if old is not None:
        yield f"{edit}: nothing comes in place of: {old.strip()}"
    if not changes:
        yield f"{edit}: it changes nothing"


faults = [fault for name in sys.argv[1:] for fault in faults_of(pathlib.Path(name))]
print(*faults, sep="\n", end="\n" if faults else "")
sys.exit(bool(faults))
