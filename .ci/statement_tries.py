"""What the check of the statement has to refuse: changes of a small tree of its own, and of the pages that are made of it."""
import pathlib
import tempfile

from statement_pages import Plan, Plans

FILES = {
    "crates.txt": "low:\nhigh: low\n",
    "crates/low/specs/Numbers.antt": """-- Numbers that stand for others.
use Rattle.std.specs.Prelude.{ℕ, ◌+◌}
use Rattle.low.specs.declared.kind.Kind.{Kind}

-- twice a number
abbrev pub twice : ℕ → ℕ
twice n = n + n

-- what is not opened on the first page
abbrev pub later : Kind → ℕ
later kind = twice 1
""",
    "crates/low/src/kind.rt": "/// One of two.\npub enum Kind {\n    One,\n    Other { number: u32 },\n}\n",
    "crates/high/specs/Claims.antt": """-- What is claimed.
use Rattle.std.specs.Prelude.{ℕ, ◌≡◌}
use Rattle.low.specs.declared.kind.Kind.{Kind}
use Rattle.low.specs.Numbers.{twice, later}

-- it is the later number, twice
abbrev pub IsTwice : Kind → ℕ → Type 0
IsTwice kind n = n ≡ twice (later kind)
""",
    "crates/high/src/run.rt": """//! The call.
ghost use Rattle.high.specs.Claims.{IsTwice};

pub fn run(kind: &Kind) -> u32
    ensures { IsTwice kind.now result }
{
    2
}
""",
}
FIRST = Plan("docs/FIRST.md", "# First", ["high.Claims.IsTwice"], closed={"low.Numbers.later": "the second page has it"})
PLANS = Plans([FIRST, Plan("docs/SECOND.md", "# Second", [], [("crates/high/src/run.rt", "run")])], [(1, 8)], {})
NUMBERS, KIND = "crates/low/specs/Numbers.antt", "crates/low/src/kind.rt"
TWICE = "-- twice a number\ntwice : ℕ → ℕ\ntwice n = n + n\n"
SENTENCE = "-- twice a number\n"
# What is tried; the file that is changed, what stands there, and what comes in its place; whether the pages are made anew then.
TRIES = [
    ("a definition that was changed on a page", "docs/FIRST.md", "n + n", "n + 1", False),
    ("a definition that a page leaves out", "docs/FIRST.md", TWICE, "", False),
    ("a definition that stands twice on a page", "docs/FIRST.md", TWICE, TWICE + "\n" + TWICE, False),
    ("a sentence that is gone from a page", "docs/FIRST.md", SENTENCE, "", False),
    ("a reason that is gone from a page", "docs/FIRST.md", ": the second page has it", "", False),
    ("a definition that was changed in its file", NUMBERS, "n + n", "n + 1", False),
    ("a type that was changed in its file", KIND, "u32", "u64", False),
    ("a definition that is gone from its file", NUMBERS, "abbrev pub twice : ℕ → ℕ\ntwice n = n + n\n", "", True),
    ("a definition that stands twice in its file", NUMBERS, "twice n = n + n\n", "twice n = n + n\n\n-- again\nabbrev pub twice : ℕ → ℕ\ntwice n = n\n", True),
    ("a sentence that is gone from its file", NUMBERS, SENTENCE, "", True),
    ("the sentence of a type that is gone", KIND, "/// One of two.\n", "", True),
    ("a page that is too long", NUMBERS, "twice n = n + n\n", "twice 0 = 0\ntwice 1 = 2\ntwice 2 = 4\ntwice n = n + n\n", True),
    ("a definition that is not opened and that nothing names", "crates/high/specs/Claims.antt", "twice (later kind)", "twice 1", True),
]


def lay_out(root):
    """The tree below a folder."""
    for name, text in FILES.items():
        file = root / name
        file.parent.mkdir(parents=True, exist_ok=True)
        file.write_text(text, encoding="utf-8")
    (root / "docs").mkdir()


def faults(write, check):
    """What the check takes of all that it has to refuse, and whether it refuses the tree as it is."""
    found = []
    for what, name, old, new, anew in [("nothing", "crates.txt", "low:", "low:", True), *TRIES]:
        with tempfile.TemporaryDirectory() as folder:
            root = pathlib.Path(folder)
            lay_out(root)
            write(root, PLANS)
            text = (root / name).read_text(encoding="utf-8")
            if text.count(old) != 1:
                found.append(f"{what} can not be tried: {old!r} stands {text.count(old)} times in {name}")
            (root / name).write_text(text.replace(old, new), encoding="utf-8")
            if anew:
                write(root, PLANS)
            if bool(check(root, PLANS)) == (what == "nothing"):
                found.append(f"the check of the statement {'refuses' if what == 'nothing' else 'takes'} {what}")
    return found
