"""What tests/definitions, tests/reading and tests/docs share: the definitions of crates/*/specs, the contracts of crates/*/src, and what stands behind these.

A definition is a paragraph of a file of specs with the comment above it. A word counts as the name that it is in its file, also where it is bound: so a list
may have a definition more than a clause needs."""
import re
from collections import namedtuple
from functools import cache
from pathlib import Path

ROOT = Path(__file__).resolve().parent.parent
CRATES = ROOT / "crates"
ORDER = [it.partition(":")[0].split()[0] for it in (ROOT / "crates.txt").read_text().splitlines() if ":" in it.partition("#")[0]]
# A definition, by the file that it stands in (`world/specs/Held`) and its first line; its lines are those of its comment, too.
Definition = namedtuple("Definition", "file line names lines")
# A function with a contract: the head of the block around it, its own head, and the text of each clause by name.
Contract = namedtuple("Contract", "file owner name head clauses")

HEAD = re.compile(r"\s*(?:pub )?(?:abbrev|unfoldable|record|data)\b(?: pub)?(?: record| data)? (\S+)")
USE = re.compile(r"\buse Rattle\.([\w.]+?)(?:\.\{([^}]*)\})?(?: as (\w+))?(?:;|$)", re.M)
CLAUSE = re.compile(r"\b(?:requires|ensures)(?: \*)?(?: (\w+))? \{|[{;]")
WORD = re.compile(r"[^\s(){};,.λ]+(?:\.[^\s(){};,.λ]+)*")


def spoken(name):
    """The word by which a name is used: that of an operator is between its places."""
    return name.replace("◌", " ").split()[0] if "◌" in name else name


def is_comment(line):
    return line.lstrip().startswith("--")


def imports(text):
    """What the names of a text mean, as (crate, path, name); a module under another name has no name."""
    found = {}
    for path, listed, other in USE.findall(text):
        crate, *parts = path.split(".")
        if not listed:
            found[other or parts[-1]] = crate, tuple(parts), None
        for item in filter(None, (it.strip() for it in listed.split(","))):
            name, _, here = item.partition(" as ")
            found[spoken(here or name)] = crate, tuple(parts), name
    return found


def named_in(text, known):
    """What the words of a text mean, where they are known."""
    for word in WORD.findall(text):
        owner, _, rest = word.partition(".")
        if owner in known and known[owner][2] is None and rest:
            yield known[owner][0], known[owner][1], rest.split(".")[0]
        for part in dict.fromkeys((word, owner)):
            if part in known and known[part][2]:
                yield known[part]


class Spec:
    """A file of specs: its definitions, and what its names mean."""

    def __init__(self, file):
        self.file, text = file, (CRATES / f"{file}.antt").read_text()
        crate, _, module = file.partition("/specs/")
        self.definitions, self.by_name, mutual = [], {}, None
        for found in re.finditer(r"(?:^.*\S.*\n?)+", text, re.M):
            lines = found[0].splitlines()
            code = [it for it in lines if not is_comment(it)]
            opened = next((it for it in map(re.compile(r"( *)(?:abbrev |unfoldable )?mutual$").match, code) if it), None)
            if opened:
                mutual = opened[1]
            elif code and not code[0].startswith(f"{mutual}  "):
                mutual = None
            # (those of a mutual block are one definition)
            head = HEAD if mutual is None else re.compile(rf"{mutual}  pub (?:record |data )?(\S+)")
            names = tuple(it[1] for it in map(head.match, code) if it)
            if names and (mutual is None or opened):
                self.definitions.append(Definition(file, text.count("\n", 0, found.start()) + 1, names, tuple(lines)))
            elif code and code[0].startswith(" ") and self.definitions:
                last = self.definitions[-1]
                self.definitions[-1] = last._replace(names=last.names + names, lines=(*last.lines, "", *lines))
        for it in self.definitions:
            made = [name for line in it.lines for name in re.findall(r"^  +([^\s:(]+(?: [^\s:(]+)*) : ", line)] if any("data " in line for line in it.lines) else []
            for name in [*it.names, *" ".join(made).split()]:
                self.by_name[name] = it
        self.known = {**imports(text), **{spoken(name): (crate, ("specs", module), name) for name in self.by_name}}

    def cited(self, definition):
        return named_in("\n".join(it for it in definition.lines if not is_comment(it)), self.known)


@cache
def spec(file):
    return Spec(file)


def specs_of(crate):
    """The files of specs of a crate, in the order of its Lib."""
    lib = CRATES / crate / "specs/Lib.antt"
    return [f"{crate}/specs/{it}" for it in re.findall(r"pub mod (\w+)", lib.read_text())] if lib.is_file() else []


# ---- src


def closing(text, at):
    """The place after the brace that closes the one at `at`."""
    depth = 0
    for place in range(at, len(text)):
        depth += (text[place] == "{") - (text[place] == "}")
        if depth == 0:
            return place + 1
    return len(text)


class Source:
    """A file of src: its contracts, what its names mean, and its ghosts."""

    def __init__(self, file):
        self.file, self.crate = file, file.split("/")[0]
        self.text = re.sub(r"//[^\n]*", "", (CRATES / file).read_text())
        self.known = imports("\n".join(re.findall(r"ghost use[^;]*;", self.text)))
        self.blocks = [(it.start(), closing(self.text, it.end() - 1), it[0]) for it in re.finditer(r"^(?:pub )?(?:impl|trait)\b[^{]*\{", self.text, re.M)]
        self.contracts = list(self.found())

    def found(self):
        # (a semicolon ends a function without a body, but for that of an array's type)
        plain = re.sub(r"\[([^\[\];]+);", r"[\1 ", self.text)
        for it in re.finditer(r"^ *(pub )?fn (\w+)", self.text, re.M):
            owner = next((head for begin, end, head in self.blocks if begin <= it.start() < end), "")
            at, clauses, head = it.end(), {}, ""
            while found := CLAUSE.search(plain, at):
                head = head or self.text[it.start() : found.start()]
                if found[0] in "{;":
                    break
                at = closing(self.text, found.end() - 1)
                clauses[found[1] or str(len(clauses))] = self.text[found.end() : at - 1]
            if it[1] or owner.startswith("pub trait") or " for " in owner:
                yield Contract(self.file, owner, it[2], head, clauses)

    def ghosts(self, kind=""):
        """The text of the ghosts of the blocks for a type, or of all."""
        texts = [self.text[begin:end] for begin, end, head in self.blocks if not kind or re.search(rf"\bfor {kind}\b", head)]
        return "\n".join(it for text in texts for it in re.findall(r"ghost \w+ = \{(.*?)\};", text, re.S))


@cache
def sources(crate):
    return [Source(str(it.relative_to(CRATES))) for it in sorted((CRATES / crate / "src").rglob("*.rt"))]


def contract_of(path):
    """The contract of `crate::Type::function`, or of `crate::module::function`, with its file; that of a trait's method where a type serves it. Last the file of the type."""
    crate, *owner, name = path.split("::")
    there = [(file, it) for file in (sources(crate) if crate in ORDER else []) for it in file.contracts if it.name == name]
    if owner and owner[-1][0].isupper():
        there = [it for it in there if re.search(rf"\b{owner[-1]}\b", it[1].owner.split(" for ")[-1])]
    else:
        there = [it for it in there if not it[1].owner and (not owner or Path(it[0].file).stem == owner[-1])]
    file, found = next(iter(there), (None, None))
    served = found and not found.clauses and re.search(r"(\w+)(?:<[^{]*>)? for ", found.owner)
    for other in ORDER if served else []:
        for home in sources(other):
            for it in home.contracts:
                if it.name == name and re.match(rf"pub trait {served[1]}\b", it.owner):
                    return home, it, file
    return file, found, file


def models_in(file, head):
    """What stands for the values of the types that a function's head names."""
    used = {name: crate for crate, listed, one in re.findall(r"^use (\w+)(?:::\w+)*::(?:\{([^}]*)\}|(\w+));", file.text, re.M) for name in re.findall(r"\w+", listed or one)}
    for kind in dict.fromkeys(re.findall(r"\b[A-Z]\w*", head)):
        crate = used.get(kind, file.crate)
        for home in sources(file.crate if crate == "crate" else crate) if crate in (*ORDER, "crate") else []:
            if re.search(rf"\bModel for {kind}\b", home.text):
                yield from named_in(home.ghosts(kind), home.known)


def cited_by(path, names=()):
    """What some clauses of a function name (all of its clauses, where none is named), and what stands for the values that they speak of."""
    file, found, home = contract_of(path)
    chosen = [text for name, text in found.clauses.items() if not names or name in names]
    yield from named_in("\n".join(chosen), file.known)
    yield from models_in(file, found.owner + found.head)
    if home is not file:
        yield from named_in(home.ghosts(), home.known)


def public(crate):
    """What the public contracts of a crate name."""
    for file in sources(crate):
        for it in file.contracts:
            yield from named_in("\n".join(it.clauses.values()), file.known)
            yield from models_in(file, it.head)
        yield from named_in(file.ghosts(), file.known)


# ---- what stands behind


def definition_of(target):
    """The definition that a name is, of a module that has it or passes it on; None for what is of src or of the kit."""
    crate, path, name = target
    if crate not in ORDER or path[:1] != ("specs",) or len(path) < 2 or path[1] == "declared":
        return None
    if not (CRATES / crate / "specs" / f"{path[1]}.antt").is_file():
        lib = (CRATES / crate / "specs/Lib.antt").read_text()
        passed = re.search(rf"pub use Rattle\.(\w+)\.specs\.{path[1]}\b", lib)
        return passed and definition_of((passed[1], path, name))
    home = spec(f"{crate}/specs/{path[1]}")
    if name in home.by_name:
        return home.by_name[name]
    further = home.known.get(spoken(name or ""))
    return definition_of(further) if further and further != target else None


def behind(targets):
    """All definitions behind some names; the types of src that these name, as (crate, type); and what they take from the kit, as (crate, name)."""
    waiting, seen, found, types, kit = [*targets], set(), set(), set(), set()
    while waiting:
        target = waiting.pop()
        if target in seen or target[2] is None:
            continue
        seen.add(target)
        crate, path, name = target
        if made := definition_of(target):
            if made not in found:
                found.add(made)
                waiting += spec(made.file).cited(made)
        elif crate in ORDER and "declared" in path:
            types.add((crate, next((it for it in path[2:] if it[0].isupper()), name)))
        elif crate not in (*ORDER, "std"):
            kit.add((crate, name))
    return found, types, kit
