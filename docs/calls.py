"""calls.py: follows the calls of crates, from functions on.

Which function a name means is found by its module and its imports, and a method by the types that the value before its
dot may have. Types go through expressions without their shape: a list of jobs, a job that may be there, and a job have
the type job alike. Where no type is known that has such a method, every method of that name counts as called.
"""
import re
from pathlib import Path
from typing import Dict, FrozenSet, Iterable, List, Optional, Set, Tuple

from items import OPEN, File, Function, Name, Tokens, end_of_angles, end_of_group, find, read_crate, split

Types = FrozenSet[str]

# Of values: no type is known; and a type of the language or of another library.
UNKNOWN: Types = frozenset()
OTHER: Types = frozenset(["#"])

# Words that begin no name.
KEYWORDS = set(
    "as break const continue dyn else false fn for if impl in let loop match move mut pub ref return true unsafe use"
    " where while".split()
)


class Program:
    """All crates, and which function a name means."""

    def __init__(self, folder: Path, crates: Dict[str, List[str]]) -> None:
        self.crates = crates
        self.files = {crate: read_crate(folder, crate) for crate in crates}
        self.roots = {crate: next(it for it in files if not it.module) for crate, files in self.files.items()}
        self.functions: Dict[Name, List[Function]] = {}
        self.types: Dict[str, List[File]] = {}
        for file in (it for files in self.files.values() for it in files):
            for function in file.functions:
                self.functions.setdefault(function.name, []).append(function)
            for word in file.types:
                self.types.setdefault(f"{file.crate}::{word}", []).append(file)
        self.aliases = {
            f"{file.crate}::{word}": (file, tokens)
            for files in self.files.values() for file in files for word, tokens in file.aliases.items()
        }
        self.methods: Dict[str, Dict[str, Name]] = {}
        for name, functions in self.functions.items():
            key = self.owner_of(functions[0])
            if key:
                self.methods.setdefault(key, {})[name.name] = name
        self.results: Dict[Name, Types] = {}
        self.below = {crate: self.stands_on(crate) for crate in crates}

    def stands_on(self, crate: str) -> Set[str]:
        """The crates that a crate stands on, itself among them."""
        found, left = {crate}, [crate]
        while left:
            for other in self.crates[left.pop()]:
                if other in self.crates and other not in found:
                    found.add(other)
                    left.append(other)
        return found

    def owner_of(self, function: Function) -> Optional[str]:
        """The type that a function is a method of."""
        return self.type_named(function.file, function.name.owner) if function.name.of_type else None

    def type_named(self, file: File, word: str) -> Optional[str]:
        """The type that a word means in a file: its crate and its name."""
        if word not in file.imports:
            return self.type_by(f"{file.crate}::{word}")
        path = file.imports.get(word)
        return self.type_at(file.crate, path) if path else None

    def type_at(self, crate: str, path: List[str]) -> Optional[str]:
        """The type at the end of a path."""
        owner = crate if path[0] == "crate" else path[0]
        if owner not in self.crates:
            return None
        key = self.type_by(f"{owner}::{path[-1]}")
        if key:
            return key
        further = self.roots[owner].passed_on.get(path[-1])
        known = further and (further[0] in self.crates and further != path)
        return self.type_at(owner, further) if further and known else None

    def type_by(self, key: str) -> Optional[str]:
        """The type of this name, or that for which the name stands."""
        if key in self.aliases:
            file, tokens = self.aliases[key]
            found = (self.type_named(file, it) for it in tokens)
            return next((it for it in found if it), None)
        return key if key in self.types else None

    def types_in(self, file: File, tokens: Tokens) -> Types:
        """The types of the repository that some tokens name."""
        found = (self.type_named(file, it) for it in tokens if re.match(r"[A-Z]", it))
        return frozenset(it for it in found if it)

    def inside(self, key: str) -> Types:
        """The types of what stands in a value of this type."""
        name = key.split("::")[1]
        return UNKNOWN.union(*(self.types_in(file, file.types[name]) for file in self.types.get(key, [])))

    def field(self, key: str, field: str) -> Optional[Types]:
        """The types of a field, or None where the type has no such field."""
        name = key.split("::")[1]
        for file in self.types.get(key, []):
            tokens = file.fields.get((name, field))
            if tokens is not None:
                return self.types_in(file, tokens)
        return None

    def free(self, crate: str, module: str, name: str) -> Optional[Name]:
        """The function of this name in a module."""
        found = Name(crate, module, False, name)
        return found if found in self.functions else None

    def function_at(self, file: File, path: List[str]) -> Optional[Name]:
        """The function, or the method of a type, that a path means in a file."""
        if len(path) > 1:
            key = self.type_named(file, path[-2]) if len(path) == 2 else self.type_at(file.crate, path[:-1])
            if key:
                return self.method(key, path[-1])
        elif self.free(file.crate, file.module, path[0]):
            return self.free(file.crate, file.module, path[0])
        first = file.imports.get(path[0])
        return self.function_by(file.crate, (first or [path[0]]) + path[1:])

    def function_by(self, crate: str, path: List[str]) -> Optional[Name]:
        """The function at the end of a whole path."""
        owner = crate if path[0] in ("crate", "super") else path[0]
        if owner not in self.crates:
            return self.free(crate, path[-2], path[-1]) if len(path) > 1 else None
        module = path[-2] if len(path) > 2 else ""
        found = self.free(owner, module, path[-1])
        further = self.roots[owner].passed_on.get(path[-1])
        if found or not further or len(path) != 2:
            return found
        begin = [owner] if further[0] not in self.crates and further[0] != "crate" else []
        return self.function_by(owner, begin + further)

    def result_of(self, function: Function) -> Types:
        """The types of what a function gives."""
        if function.name not in self.results:
            self.results[function.name] = Scope(self, function).types_of(function.result or ["()"])
        return self.results[function.name]

    def method(self, key: str, name: str) -> Optional[Name]:
        """The method of a type."""
        return self.methods.get(key, {}).get(name)


class Scope:
    """What the names of types mean in a function: its own type, and its type parameters."""

    def __init__(self, program: Program, function: Function) -> None:
        self.program = program
        self.file = function.file
        self.owner = program.owner_of(function) or ""
        self.bounds = self.read_bounds(function.generics)
        self.parameters = set(re.findall(r"\b[A-Z]\w*", " ".join(function.generics)))

    def read_bounds(self, generics: Tokens) -> Dict[str, Types]:
        """The traits of the repository by which each type parameter is bound."""
        bounds = {}
        for part in split(generics[1:-1], ","):
            if len(part) > 2 and part[1] == ":":
                bounds[part[0]] = self.program.types_in(self.file, part[2:]) or OTHER
        return bounds

    def types_of(self, tokens: Tokens) -> Types:
        """The types that a written type names."""
        found = set(self.program.types_in(self.file, tokens))
        for token in tokens:
            found |= self.bounds.get(token, UNKNOWN)
            if token == "Self" and self.owner:
                found.add(self.owner)
        is_open = not tokens or any(it in self.parameters for it in tokens)
        return frozenset(found) if found or is_open else OTHER


class Walk(Scope):
    """Follows one function: what it calls, and the types of its values."""

    def __init__(self, program: Program, function: Function) -> None:
        super().__init__(program, function)
        self.calls: Set[Name] = set()
        self.values: Dict[str, Types] = {"self": frozenset([self.owner]) if self.owner else UNKNOWN}
        for part in split(function.parameters, ","):
            if ":" in part:
                colon = part.index(":")
                self.bind(part[:colon], self.types_of(part[colon + 1 :]))
        # The second time the names are bound that stand before what binds them, as in a loop.
        for _ in range(2):
            self.scan(function.body, UNKNOWN)

    def bind(self, pattern: Tokens, types: Types) -> None:
        """Binds the names of a pattern to the types of the value, and of what stands in it."""
        inside = types.union(*(self.program.inside(it) for it in types - OTHER))
        for at, token in enumerate(pattern):
            after = pattern[at + 1] if at + 1 < len(pattern) else ""
            if re.match(r"[a-z_]\w*$", token) and after not in ("(", "::", "{") and token not in ("mut", "ref"):
                self.values[token] = self.values.get(token, UNKNOWN) | (inside if len(pattern) > 1 else types)

    def scan(self, tokens: Tokens, given: Types) -> Types:
        """Follows what stands in tokens, and gives the types that their value may have."""
        at = 0
        types: Set[str] = set()
        while at < len(tokens):
            at, found = self.step(tokens, at, given)
            types |= found
        return frozenset(types)

    def step(self, tokens: Tokens, at: int, given: Types) -> Tuple[int, Types]:
        """Follows one part of an expression."""
        token = tokens[at]
        if token == "let":
            return self.let(tokens, at)
        if token == "for" and "in" in tokens[at:]:
            middle = find(tokens, at, ["in"])
            end = find(tokens, middle, ["{"])
            self.bind(tokens[at + 1 : middle], self.scan(tokens[middle + 1 : end], UNKNOWN))
            return end, UNKNOWN
        if token == "match":
            return self.match(tokens, at)
        if token == "fn":
            return end_of_group(tokens, find(tokens, at, ["{", ";"])), OTHER
        if token == "||":
            return at + 1, UNKNOWN
        if token[0] in "\"'" or token[0].isdigit() or token[:2] in ("b'", 'b"'):
            return self.postfix(tokens, at + 1, OTHER)
        if token == "|" and (at == 0 or tokens[at - 1] in ("(", ",", "=", "move", "{", "=>", ";")):
            end = find(tokens, at + 1, ["|"])
            for part in split(tokens[at + 1 : end], ","):
                colon = part.index(":") if ":" in part else len(part)
                self.bind(part[:colon] + ["_"], self.types_of(part[colon:]) or given)
            return end + 1, UNKNOWN
        if token in OPEN:
            end = end_of_group(tokens, at)
            return self.postfix(tokens, end, self.group(tokens[at:end], given))
        if re.match(r"[A-Za-z_]\w*$", token) and token not in KEYWORDS:
            return self.chain(tokens, at)
        return at + 1, UNKNOWN

    def group(self, tokens: Tokens, given: Types) -> Types:
        """Follows a group. The value of a block is that of its last statement."""
        if tokens[0] != "{":
            return self.scan(tokens[1:-1], given)
        parts = split(tokens[1:-1], ";")
        types = [self.scan(part, given) for part in parts]
        ends_open = tokens[-2:] and tokens[-2] != ";"
        return types[-1] if types and ends_open else OTHER

    def let(self, tokens: Tokens, at: int) -> Tuple[int, Types]:
        """Follows a `let`."""
        is_test = at > 0 and tokens[at - 1] in ("if", "while", "&&")
        equals = find(tokens, at, ["=", ";"])
        end = find(tokens, equals, ["{", "&&"] if is_test else [";"])
        pattern = tokens[at + 1 : equals]
        colon = find(pattern, 0, [":"])
        types = self.scan(tokens[equals + 1 : end], UNKNOWN) | self.types_of(pattern[colon:])
        self.bind(pattern[:colon], types)
        return end, UNKNOWN

    def match(self, tokens: Tokens, at: int) -> Tuple[int, Types]:
        """Follows a `match`: each arm's names have the types of the value."""
        brace = find(tokens, at, ["{"])
        value = self.scan(tokens[at + 1 : brace], UNKNOWN)
        end = end_of_group(tokens, brace)
        arms = tokens[brace + 1 : end - 1]
        place, types = 0, UNKNOWN
        while place < len(arms):
            arrow = find(arms, place, ["=>"])
            self.bind(arms[place:arrow] + ["_"], value)
            self.scan([it for it in arms[place:arrow]], UNKNOWN)
            block = arrow + 1 < len(arms) and arms[arrow + 1] == "{"
            stop = end_of_group(arms, arrow + 1) if block else find(arms, arrow, [","])
            arm = arms[arrow + 1 : stop]
            types = types | (self.group(arm, UNKNOWN) if block else self.scan(arm, UNKNOWN))
            place = stop + (arms[stop : stop + 1] == [","])
        return self.postfix(tokens, end, types)

    def chain(self, tokens: Tokens, at: int) -> Tuple[int, Types]:
        """Follows a name or a path, and what is done with it."""
        path = [tokens[at]]
        at += 1
        while at + 1 < len(tokens) and tokens[at] == "::":
            if tokens[at + 1] == "<":
                at = end_of_angles(tokens, at + 1)
            else:
                path.append(tokens[at + 1])
                at += 2
        after = tokens[at] if at < len(tokens) else ""
        if after == "!" and tokens[at + 1 : at + 2] and tokens[at + 1] in OPEN:
            end = end_of_group(tokens, at + 1)
            return self.postfix(tokens, end, self.scan(tokens[at + 2 : end - 1], UNKNOWN))
        if after == "(":
            end = end_of_group(tokens, at)
            return self.postfix(tokens, end, self.call(path, self.scan(tokens[at + 1 : end - 1], UNKNOWN)))
        key = self.key_of(path[-1])
        if after == "{" and key and path[-1][0].isupper():
            end = end_of_group(tokens, at)
            self.scan(tokens[at + 1 : end - 1], UNKNOWN)
            return self.postfix(tokens, end, frozenset([key]))
        return self.postfix(tokens, at, self.value(path))

    def key_of(self, word: str) -> Optional[str]:
        """The type that a word means."""
        return self.owner if word == "Self" and self.owner else self.program.type_named(self.file, word)

    def value(self, path: List[str]) -> Types:
        """The types of a name that isn't called there: a function that is handed on counts as called."""
        if len(path) == 1 and path[0] in self.values:
            return self.values[path[0]]
        found = self.resolve(path)
        if found:
            self.calls.add(found)
            return self.result(found)
        if len(path) == 1 and path[0][0].islower():
            return UNKNOWN
        keys = (self.key_of(it) for it in path)
        return frozenset(it for it in keys if it) or OTHER

    def resolve(self, path: List[str]) -> Optional[Name]:
        """The function that a path means."""
        if path[0] == "Self" and self.owner and len(path) == 2:
            return self.program.method(self.owner, path[1])
        if len(path) == 2 and path[0] in self.bounds:
            found = (self.program.method(it, path[1]) for it in self.bounds[path[0]])
            return next((it for it in found if it), None)
        return self.program.function_at(self.file, path)

    def call(self, path: List[str], arguments: Types) -> Types:
        """Follows a call by name."""
        found = self.resolve(path)
        if found:
            self.calls.add(found)
            return self.result(found)
        if len(path) == 1 and path[0] in self.values:
            return UNKNOWN
        keys = (self.key_of(it) for it in path)
        return frozenset(it for it in keys if it) | arguments | OTHER

    def result(self, name: Name) -> Types:
        """The types of what a function gives."""
        return UNKNOWN.union(*(self.program.result_of(it) for it in self.program.functions[name]))

    def postfix(self, tokens: Tokens, at: int, types: Types) -> Tuple[int, Types]:
        """Follows what is done with a value: fields, methods, `?` and places in brackets."""
        while at < len(tokens):
            if tokens[at] == "." and at + 1 < len(tokens) and re.match(r"\w+$", tokens[at + 1]):
                name = tokens[at + 1]
                at += 2
                if tokens[at : at + 2] == ["::", "<"]:
                    at = end_of_angles(tokens, at + 1)
                if at < len(tokens) and tokens[at] == "(":
                    end = end_of_group(tokens, at)
                    arguments = self.scan(tokens[at + 1 : end - 1], types)
                    types = self.method(types, name, arguments)
                    at = end
                else:
                    types = self.field(types, name)
            elif tokens[at] == "[":
                end = end_of_group(tokens, at)
                self.scan(tokens[at + 1 : end - 1], UNKNOWN)
                at = end
            elif tokens[at] == "?":
                at += 1
            else:
                break
        return at, types

    def field(self, types: Types, name: str) -> Types:
        """The types of a field of a value."""
        found = [self.program.field(it, name) for it in types - OTHER]
        known = [it for it in found if it is not None]
        if known:
            return UNKNOWN.union(*known)
        return types if name.isdigit() else UNKNOWN

    def method(self, types: Types, name: str, arguments: Types) -> Types:
        """Follows a call of a method: of the types that the value may have, or of all where they aren't known."""
        found = [it for it in (self.program.method(key, name) for key in types - OTHER) if it]
        self.calls.update(found or self.methods_named(name))
        if found:
            return UNKNOWN.union(*(self.result(it) for it in found))
        return types | arguments if types else UNKNOWN

    def methods_named(self, name: str) -> List[Name]:
        """All methods of this name that the crate may call."""
        below = self.program.below[self.file.crate]
        named = (self.program.method(key, name) for key in self.program.methods)
        return [it for it in named if it and it.crate in below]


class Reach:
    """What can be reached from the roots: functions and types."""

    def __init__(self, program: Program, roots: Iterable[Name]) -> None:
        self.program = program
        self.called: Set[Name] = set()
        self.alive: Set[str] = set()
        self.left: List[Function] = []
        for name in roots:
            self.call(name)
        while self.left:
            self.follow(self.left.pop())

    def call(self, name: Name) -> None:
        """The function is called."""
        if name not in self.called:
            self.called.add(name)
            self.left += self.program.functions[name]

    def follow(self, function: Function) -> None:
        """Follows a function's calls, and the types that it names."""
        walk = Walk(self.program, function)
        for name in walk.calls:
            self.call(name)
        named = walk.types_of(function.parameters + function.result + function.body + function.generics)
        for key in (named | frozenset([walk.owner] if walk.owner else [])) - OTHER:
            self.wake(key)

    def wake(self, key: str) -> None:
        """A type is used: so are the types of what stands in it, and what it does for traits."""
        if key in self.alive:
            return
        self.alive.add(key)
        for inside in self.program.inside(key):
            self.wake(inside)
        for name in self.program.methods.get(key, {}).values():
            if any(it.is_trait for it in self.program.functions[name]):
                self.call(name)
