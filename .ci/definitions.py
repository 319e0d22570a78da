"""The definitions of the repository: those of specs/, and the types, traits and models of src/ that they speak of; what each one names; and all
on which some of them stand.

A definition is named by its crate, its module and itself, as in a `use` line: `forest_model.Content.IsDigest`, and of a type
`uo_digest.declared.digest.Digest.Digest`. Names of std, of the kit and of the Prelude are not followed.
"""
import collections
import dataclasses
import pathlib
import re

TOKEN = re.compile(r"[^\s(){}\[\];,λ]+")
HEAD = re.compile(r"^(?:(?:abbrev|unfoldable|opaque) )?(?:pub )?(?:(record|data) )?(\S+)")
USE = re.compile(r"^\s*(?:pub )?(?:ghost )?use Rattle\.(\w+)\.specs\.([\w.]+?)(?:\.\{([^}]*)\}|\s+as\s+(\w+))?;?\s*$", re.MULTILINE)
RUST_USE = re.compile(r"^\s*(?:pub )?use (\w+)::([^;]*);", re.MULTILINE)
RUST_TYPE = re.compile(r"^(?:pub(?:\(\w+\))? )?(struct|enum|trait) (\w+)")
RUST_MODEL = re.compile(r"^(?:unsafe )?impl(?:<[^>]*>)? Model for (\w+)")


@dataclasses.dataclass
class Definition:
    """One definition, with its lines as they stand in its file."""

    crate: str
    module: str
    name: str
    file: str
    line: int
    kind: str
    section: str
    sentence: list
    body: list

    @property
    def key(self):
        return f"{self.crate}.{self.module}.{self.name}"

    @property
    def is_rust(self):
        return self.module.startswith("declared.")

    def code(self):
        """Its lines without comments and attributes; of a type with a model the fields, too."""
        if self.is_rust:
            lines = [re.sub(r" *//.*", "", line) for line in self.body if not line.strip().startswith("#[")]
            return [line for line in lines if line.strip()]
        return [line for line in self.body if line.strip() and not line.strip().startswith("--")]

    def signature(self):
        """Its lines up to what it is defined as."""
        if self.is_rust or self.kind != "def":
            return [self.body[0].split(" where")[0].rstrip(" {")]
        name = self.name.strip("◌")
        ends = (at for at, line in enumerate(self.body) if at and not line.startswith(" ") and name in line.split(" =")[0].split())
        return self.body[: next(ends, len(self.body))]


def imported(text):
    """What the `use` lines of a file name: a definition, or a module where there is no name."""
    found = {}
    for crate, path, items, alias in USE.findall(text):
        if not items:
            found[alias or path.split(".")[-1]] = (crate, path, None)
        for item in filter(None, (item.strip() for item in items.split(","))):
            name, _, local = item.partition(" as ")
            found[local or name] = (crate, path, name)
            found.setdefault((local or name).strip("◌"), (crate, path, name))
    return found


def braced(lines, start):
    """The lines of an item of Rust, from its first to that of its last brace or of its semicolon."""
    depth = 0
    for end, line in enumerate(lines[start:], start):
        code = re.sub(r"//.*", "", line)
        depth += code.count("{") - code.count("}")
        if depth == 0 and ("}" in code or code.rstrip().endswith(";")):
            return lines[start : end + 1]
    return lines[start:]


class Sources:
    """All definitions below a root."""

    def __init__(self, root):
        self.root = pathlib.Path(root)
        self.all, self.members, self.imports, self.rust_uses = {}, {}, {}, {}
        self.needed, self.faults, self.unknown = {}, [], set()
        self.crates = [line.split(":")[0].split()[0] for line in self.text("crates.txt").splitlines() if ":" in line.partition("#")[0]]
        for crate in self.crates:
            for kind, suffix, read in ("specs", "antt", self.read_specs), ("src", "rt", self.read_types):
                folder = self.root / "crates" / crate / kind
                for file in sorted(folder.rglob(f"*.{suffix}")):
                    module = ".".join(file.relative_to(folder).with_suffix("").parts)
                    read(crate, module, str(file.relative_to(self.root)))
        self.types = collections.defaultdict(list)
        for each in self.all.values():
            if each.is_rust:
                self.types[each.name].append(each)

    def text(self, file):
        return (self.root / file).read_text(encoding="utf-8")

    def put(self, definition):
        if definition.key in self.all:
            self.faults.append(f"{definition.file}:{definition.line}: a second {definition.key}")
        self.all[definition.key] = definition

    # ---- what stands in a file

    def read_specs(self, crate, module, file):
        """The definitions of a file of specs, each with the comment above it and the clauses below."""
        text = self.text(file)
        self.imports[crate, module] = imported(text)
        above, section, current, inner = [], "", None, False
        for number, line in enumerate(text.split("\n"), 1):
            # What stands in a module with parameters is cited by no clause of `run`, and is not read.
            inner = line.startswith("module ") or (inner and line[:1] in ("", " "))
            if inner:
                current = None
            elif line.startswith("-- ----"):
                above, section, current = [], line.strip("- "), None
            elif line.startswith("--"):
                above, current = [*above, line[2:].strip()], None
            elif not line.strip() or re.match(r"(pub )?(use|mod) |infix", line):
                above, current = [], (current if not line.strip() else None)
            elif line[0].isspace() or line[0] in ")}" or line.startswith("unfolding"):
                self.go_on(current, line, file, number)
            else:
                current = self.read_head(crate, module, file, number, line, section, above)
                above = []
        for each in [each for each in self.all.values() if each.file == file and each.kind == "data"]:
            for line in each.body[1:]:
                if made := re.match(r"\s+(\S+) :", line):
                    self.members[crate, module, made.group(1)] = each.key

    def go_on(self, current, line, file, number):
        if current is None:
            self.faults.append(f"{file}:{number}: this belongs to no definition: {line}")
        else:
            current.body.append(line)

    def read_head(self, crate, module, file, number, line, section, above):
        """The definition that begins with this line, or of which this is a further clause."""
        kind, name = HEAD.match(line).groups()
        if kind or re.match(r"(abbrev|unfoldable|opaque|pub) ", line) or re.match(r"\S+ :( |$)", line):
            made = Definition(crate, module, name, file, number, kind or "def", section, above, [line])
            self.put(made)
            return made
        names = [name, *(f"◌{word}◌" for word in line.split(" =")[0].split())]
        owner = next((self.all[key] for key in (f"{crate}.{module}.{name}" for name in names) if key in self.all), None)
        self.go_on(owner, line, file, number)
        return owner

    def read_types(self, crate, module, file):
        """The types and traits of a file of Rust, each with its model."""
        text = self.text(file)
        lines, above = text.split("\n"), []
        self.imports[crate, f"declared.{module}"] = imported(text)
        self.rust_uses[file] = RUST_USE.findall(text)
        for at, line in enumerate(lines):
            if made := RUST_TYPE.match(line):
                sentence = [re.sub(r"^///? ?", "", each) for each in above]
                self.put(Definition(crate, f"declared.{module}.{made.group(2)}", made.group(2), file, at + 1, made.group(1), "", sentence,
                                    braced(lines, at)))
            elif modelled := RUST_MODEL.match(line):
                self.add_model(crate, module, modelled.group(1), braced(lines, at))
            above = [*above, line] if line.startswith("///") else above if line.startswith("#[") else []

    def add_model(self, crate, module, name, lines):
        if owner := self.all.get(f"{crate}.declared.{module}.{name}.{name}"):
            owner.body += lines
            owner.kind = "model"

    # ---- what is named

    def resolve(self, crate, path, name):
        """The key of what a `use` line names, if it is one of ours."""
        if crate not in self.crates:
            return None
        if path.startswith("declared."):
            path = path.removesuffix(".TheVariants")
            name = path.split(".")[-1]
        key = f"{crate}.{path}.{name}"
        found = key if key in self.all else self.members.get((crate, path, name))
        handed_on = self.imports.get((crate, path), {}).get(name)
        if found is None and handed_on:
            return self.resolve(*handed_on)
        if found is None:
            self.unknown.add(key)
        return found

    def named_in(self, crate, module, lines):
        """The keys of what these lines of a module name."""
        known, found = self.imports.get((crate, module), {}), set()
        for line in lines:
            for token in TOKEN.findall(re.sub(r"(^|\s)--.*", "", line)):
                head, *rest = token.split(".")
                if head in known:
                    home, path, name = known[head]
                    name = name or (rest[0] if rest else "")
                    found.add(self.resolve(home, path, name) if name else None)
                else:
                    found.update(self.all[key].key for key in (f"{crate}.{module}.{head}", f"{crate}.{module}.◌{head}◌") if key in self.all)
                    found.add(self.members.get((crate, module, head)))
        return found - {None}

    def fields_name(self, each):
        """The types that stand in the fields of a type with no model."""
        words = set(re.findall(r"\b[A-Z]\w*\b", "\n".join(each.code()))) - {each.name}
        for word in sorted(words):
            homes = [each.crate if crate == "crate" else crate for crate, names in self.rust_uses[each.file] if word in re.findall(r"\w+", names)]
            some = [other for other in self.types[word] if other.file == each.file] or [other for other in self.types[word] if other.crate in homes]
            if len(some) == 1:
                yield some[0].key

    def needs(self, key):
        """The keys of what a definition names."""
        if key not in self.needed:
            self.needed[key] = self.named_by(self.all[key]) - {key}
        return self.needed[key]

    def named_by(self, each):
        if not each.is_rust:
            return self.named_in(each.crate, each.module, each.body)
        module = each.module.rpartition(".")[0]
        found = self.named_in(each.crate, module, each.code())
        return found if each.kind == "model" else found | set(self.fields_name(each))

    def named_by_call(self, file, call):
        """The keys of what the clauses of a call name."""
        head = re.search(rf"^pub fn {call}\b.*?^\{{", self.text(file), re.MULTILINE | re.DOTALL).group(0)
        crate, module = file.split("/")[1], "declared." + pathlib.Path(file).stem
        return self.named_in(crate, module, [re.sub(r"//.*", "", line) for line in head.split("\n")])

    def closure(self, seeds, closed):
        """All on which these stand, where those that stay closed are not looked into."""
        found, left = set(), list(seeds)
        while left:
            key = left.pop()
            if key not in found:
                found.add(key)
                left += [] if key in closed else self.needs(key)
        return found

    # ---- in which order they can be read

    def in_order(self, keys, closed):
        """Each behind what it uses, and those of a file together as far as that goes; the crates in the order of crates.txt."""
        rank = {crate: number for number, crate in enumerate(self.crates)}
        place = {key: (rank[self.all[key].crate], self.all[key].file, self.all[key].line) for key in keys}
        needs = {key: set() if key in closed else self.needs(key) & keys for key in keys}
        left = collections.defaultdict(list)
        for key in sorted(keys, key=place.get):
            left[self.all[key].file].append(key)
        outside = {file: set().union(*(needs[key] for key in some)) - set(some) for file, some in left.items()}
        order = {}
        while left:
            file = next((file for file in left if outside[file] <= order.keys()), None)
            file = file or max(left, key=lambda file: len(ready(left[file], needs, order)))
            # Definitions that name each other stand as in their file.
            some = ready(left[file], needs, order) or left[file]
            order.update(dict.fromkeys(some))
            left[file] = [key for key in left[file] if key not in order]
            if not left[file]:
                del left[file]
        return list(order)


def ready(keys, needs, done):
    """Those of a file of which all that they use is done, in the order in which they may stand."""
    found, left = [], list(keys)
    while some := [key for key in left if needs[key] <= {*done, *found}]:
        found.append(some[0])
        left.remove(some[0])
    return found
