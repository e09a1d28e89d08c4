"""items.py: reads the code of crates, as far as a list of their functions and calls needs it.

Of a file it has the imports, the types with their fields, and the functions with their bodies. Comments, contracts and
ghost items are left out, and so are tests.
"""
import re
from pathlib import Path
from typing import Dict, Iterable, List, NamedTuple, Set, Tuple

TOKEN = re.compile(r"""//[^\n]*|b?"(?:\\.|[^"\\])*"|b?'(?:\\[^']+|[^\\'])'|'\w+|\w+|::|->|=>|==|\|\||&&|\S""")
OPEN, CLOSE = "([{", ")]}"
CLAUSES = {"requires", "ensures", "decreases", "invariant"}

Tokens = List[str]


class Name(NamedTuple):
    """A function: its crate, its type or else its module, whether that is a type, and its name."""

    crate: str
    owner: str
    of_type: bool
    name: str


class Function(NamedTuple):
    """A function as it is written."""

    name: Name
    file: "File"
    public: bool
    is_trait: bool
    to_c: bool
    generics: Tokens
    parameters: Tokens
    result: Tokens
    body: Tokens


class File:
    """A file of code: its module, what it imports, and its items."""

    def __init__(self, crate: str, module: str) -> None:
        self.crate = crate
        self.module = module
        self.imports: Dict[str, List[str]] = {}
        self.passed_on: Dict[str, List[str]] = {}
        self.functions: List[Function] = []
        self.types: Dict[str, Tokens] = {}
        self.aliases: Dict[str, Tokens] = {}
        self.fields: Dict[Tuple[str, str], Tokens] = {}


def end_of_group(tokens: Tokens, at: int) -> int:
    """The place behind the group that opens at this place."""
    depth = 0
    for place in range(at, len(tokens)):
        depth += (tokens[place] in OPEN) - (tokens[place] in CLOSE)
        if depth == 0:
            return place + 1
    return len(tokens)


def end_of_angles(tokens: Tokens, at: int) -> int:
    """The place behind the type parameters that begin at this place, if any do."""
    if at >= len(tokens) or tokens[at] != "<":
        return at
    depth = 0
    for place in range(at, len(tokens)):
        depth += (tokens[place] == "<") - (tokens[place] == ">")
        if depth == 0:
            return place + 1
    return len(tokens)


def find(tokens: Tokens, at: int, ends: Iterable[str]) -> int:
    """The first place, from this one on and outside groups, of one of these tokens."""
    wanted = set(ends)
    while at < len(tokens) and tokens[at] not in wanted:
        at = end_of_group(tokens, at) if tokens[at] in OPEN else at + 1
    return min(at, len(tokens))


def split(tokens: Tokens, mark: str) -> List[Tokens]:
    """The parts between these marks, outside groups."""
    parts, at = [], 0
    while at < len(tokens):
        end = find(tokens, at, [mark])
        parts.append(tokens[at:end])
        at = end + 1
    return parts


def code_of(text: str) -> Tokens:
    """The tokens of a file, without comments, contracts and ghost items."""
    tokens = [it for it in TOKEN.findall(text) if not it.startswith("//")]
    kept: Tokens = []
    at = 0
    while at < len(tokens):
        token = tokens[at]
        if token == "ghost" and tokens[at + 1] == "use":
            at = find(tokens, at, [";"]) + 1
        elif token == "ghost":
            at = end_of_group(tokens, find_open(tokens, at))
            at += tokens[at : at + 1] in ([","], [";"])
        elif token in CLAUSES:
            at = end_of_group(tokens, find_open(tokens, at))
        else:
            kept.append(token)
            at += 1
    return kept


def find_open(tokens: Tokens, at: int) -> int:
    """The place of the clause's brace."""
    while at < len(tokens) and tokens[at] != "{":
        at += 1
    return at


def paths_of(tokens: Tokens, before: List[str]) -> Dict[str, List[str]]:
    """The names that a `use` brings, with the path of each."""
    found: Dict[str, List[str]] = {}
    for part in split(tokens, ","):
        if "{" in part:
            brace = part.index("{")
            found.update(paths_of(part[brace + 1 : -1], before + [it for it in part[:brace] if it != "::"]))
        elif part:
            words = before + [it for it in part if it != "::"]
            alias = words[words.index("as") + 1] if "as" in words else words[-1]
            path = words[: words.index("as")] if "as" in words else words
            if path[-1] == "self":
                path = path[:-1]
                alias = path[-1]
            found[alias] = path
    return found


class Place(NamedTuple):
    """Where an item stands: in a type's block or outside, and whether the block is a trait's or of a trait."""

    owner: str
    of_trait: bool


class Marks(NamedTuple):
    """What is said before an item."""

    public: bool
    is_test: bool
    to_c: bool


class Reader:
    """Reads the items of a file."""

    def __init__(self, crate: str, path: Path) -> None:
        self.file = File(crate, "" if path.stem in ("lib", "main") else path.stem)
        self.items(code_of(path.read_text(encoding="utf-8")), Place("", False))

    def items(self, tokens: Tokens, place: Place) -> None:
        """Reads items one after another."""
        at = 0
        while at < len(tokens):
            at, marks = self.marks(tokens, at)
            if at < len(tokens):
                at = self.item(tokens, at, place, marks)

    def marks(self, tokens: Tokens, at: int) -> Tuple[int, Marks]:
        """Reads what is said before an item, and gives the item's place."""
        public = is_test = to_c = False
        while at < len(tokens):
            token = tokens[at]
            if token == "#":
                begin = at + 1 + (tokens[at + 1] == "!")
                at = end_of_group(tokens, begin)
                is_test = is_test or "test" in tokens[begin:at]
            elif token == "pub":
                narrow = tokens[at + 1] == "("
                public, at = not narrow, end_of_group(tokens, at + 1) if narrow else at + 1
            elif token in ("const", "unsafe", "extern") and "fn" in tokens[at + 1 : at + 4]:
                to_c, at = to_c or token == "extern", at + 1
            elif token[0] == '"':
                at += 1
            else:
                break
        return at, Marks(public, is_test, to_c)

    def item(self, tokens: Tokens, at: int, place: Place, marks: Marks) -> int:
        """Reads one item, and gives the place behind it."""
        token = tokens[at]
        if token == "fn":
            return self.function(tokens, at, place, marks)
        if token in ("struct", "enum"):
            return self.type(tokens, at, marks.public)
        if token in ("impl", "trait"):
            return self.block(tokens, at, marks)
        if token == "type" and not place.owner:
            end = find(tokens, at, [";"])
            equals = find(tokens, at, ["="])
            self.file.aliases[tokens[at + 1]] = tokens[equals + 1 : end]
            return end + 1
        if token == "use":
            end = find(tokens, at, [";"])
            found = paths_of(tokens[at + 1 : end], [])
            self.file.imports.update(found)
            self.file.passed_on.update(found if marks.public else {})
            return end + 1
        end = find(tokens, at, [";", "{"] if token == "mod" else [";"])
        return end_of_group(tokens, end) if tokens[end : end + 1] == ["{"] else end + 1

    def function(self, tokens: Tokens, at: int, place: Place, marks: Marks) -> int:
        """Reads a function."""
        opened = end_of_angles(tokens, at + 2)
        closed = end_of_group(tokens, opened)
        brace = find(tokens, closed, ["{", ";"])
        end = end_of_group(tokens, brace) if tokens[brace] == "{" else brace + 1
        name = Name(self.file.crate, place.owner or self.file.module, bool(place.owner), tokens[at + 1])
        if not marks.is_test:
            self.file.functions.append(Function(
                name=name,
                file=self.file,
                public=marks.public and not place.of_trait,
                is_trait=place.of_trait,
                to_c=marks.to_c,
                generics=tokens[at + 2 : opened],
                parameters=tokens[opened + 1 : closed - 1],
                result=tokens[closed:brace],
                body=tokens[brace + 1 : end - 1],
            ))
        return end

    def type(self, tokens: Tokens, at: int, public: bool) -> int:
        """Reads a struct or an enum."""
        name, is_struct = tokens[at + 1], tokens[at] == "struct"
        brace = find(tokens, end_of_angles(tokens, at + 2), ["{", "(", ";"])
        end = end_of_group(tokens, brace) if tokens[brace] != ";" else brace
        body = tokens[brace + 1 : end - 1]
        self.file.types[name] = body
        for place, part in enumerate(split(body, ",")):
            key = part[part.index(":") - 1] if is_struct and ":" in part else str(place)
            self.file.fields[name, key] = part
        return end + (tokens[end : end + 1] == [";"])

    def block(self, tokens: Tokens, at: int, marks: Marks) -> int:
        """Reads an impl or a trait."""
        is_trait = tokens[at] == "trait"
        begin = end_of_angles(tokens, at + 1)
        brace = find(tokens, begin, ["{"])
        head = tokens[begin:brace]
        of_trait = not is_trait and "for" in head
        words = [it for it in (head[head.index("for") :] if of_trait else head) if re.match(r"[A-Z]", it)]
        owner = words[0] if words else "?"
        if is_trait:
            self.file.types[owner] = []
        end = end_of_group(tokens, brace)
        if not marks.is_test:
            self.items(tokens[brace + 1 : end - 1], Place(owner, of_trait or is_trait))
        return end


def read_crate(crates: Path, crate: str) -> List[File]:
    """Reads the files of a crate, without its tests."""
    paths = sorted((crates / crate / "src").rglob("*.rt"))
    return [Reader(crate, it).file for it in paths if it.stem != "tests"]
