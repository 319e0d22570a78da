"""The public calls of each crate, with the names of their conditions and clauses, read off the sources."""
import pathlib
import re

TOP = pathlib.Path(__file__).resolve().parent.parent
ONE = "(one)"


def exported(crate):
    """The names that the crate's root hands out."""
    text = (crate / "src/lib.rt").read_text(encoding="utf-8")
    names = set()
    for path in re.findall(r"^pub use ([^;]*);", text, re.MULTILINE):
        names.update(re.findall(r"\b[A-Za-z]\w*\b(?!::)", path))
    return names


def clauses(head, word):
    """The names of a call's clauses of one kind, in order."""
    return [name or ONE for name in re.findall(rf"\b{word}\*?(?: (\w+))? (?=\{{|after\b)", head)]


def owner(line):
    """The type of an impl block, or the trait of a trait's; none of an impl of a trait."""
    found = re.match(r"(?:pub trait|impl(?:<[^>]*>)?) (\w+)", line)
    return None if found is None or " for " in line else found.group(1)


def calls_of(crate):
    """Each public call of a crate but its laws: its name, its conditions, its clauses."""
    names = exported(crate)
    for file in sorted((crate / "src").rglob("*.rt")):
        if "tests" in file.parts or file.name in ("tests.rt", "laws.rt"):
            continue
        yield from calls_in(file.read_text(encoding="utf-8"), names)


def calls_in(text, names):
    block, is_trait = None, False
    # A comment between clauses may hold anything.
    text = re.sub(r"^ *//[^/!].*$", "", text, flags=re.MULTILINE)
    for found in re.finditer(r"^(?:(impl|pub trait)[^\n]*|\}|( *)(?:pub )?fn (\w+)[^\n]*)", text, re.MULTILINE):
        line = found.group(0)
        if found.group(1):
            block, is_trait = owner(line), line.startswith("pub trait")
        elif line == "}":
            block, is_trait = None, False
        elif line.lstrip().startswith("pub fn") or (is_trait and found.group(2)):
            name, indent = found.group(3), found.group(2)
            rest = text[found.start() :]
            # Where a function of a trait has no body, its head ends with its last line.
            closes = rf"^{indent}\{{|\{{\}}$" + ("|;$" if is_trait else "")
            end = re.search(closes, rest, re.MULTILINE)
            head = rest[: end.start()] if end else rest
            whole = f"{block}::{name}" if indent else name
            is_law = head.split("\n", 1)[0].endswith("()")
            if (block if indent else name) in names and not is_law:
                yield whole, clauses(head, "requires"), clauses(head, "ensures")


def all_calls():
    """The public calls of all crates but those that serve tests and measurements."""
    for crate in sorted((TOP / "crates").iterdir()):
        if (crate / "src/lib.rt").exists() and crate.name not in ("block_samples", "genesis_block", "compact_tests", "bench_parts"):
            found = list(calls_of(crate))
            if found:
                yield crate.name, found
