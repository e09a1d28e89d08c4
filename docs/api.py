"""api.py: makes docs/api.md, the page of the Python package's calls, from their docstrings.

    python3 docs/api.py [FOLDER]            writes the page
    python3 docs/api.py --check [FOLDER]    whether the page is what would be written

It reads the sources of python/yds in the repository, or in FOLDER, and doesn't run them: no library is wanted. The page has what `yds` and its public
modules give to others: the names of `__all__`. Of a class it has the fields and the public methods and properties, also
those of bases that aren't given to others. With --check the last line is 'N passed, M failed', one for each entry and
one for the page as a whole: an entry passes if it is a field or has a docstring, and the page if it is as it would be
written. It needs Python 3.9 or later.
"""

import ast
import builtins
import re
import sys
import textwrap
from pathlib import Path
from typing import Dict, Iterator, List, NamedTuple, Optional, Set, Tuple

WIDTH = 116

Call = (ast.FunctionDef, ast.ClassDef)
Entry = Tuple[str, str, Optional[str]]

HEAD = """# The calls of the Python package

This page is made from the docstrings by `python3 docs/api.py`: what is to be changed here is changed there.
[library.md](library.md) is the introduction, with examples and what is proved. Times, works, speeds, powers and
energies are in the units of your document, with work = speed \\* time and energy = power \\* time.
"""


class Module(NamedTuple):
    """A module of the package: its name, its docstring, what it has at its top, and from where it takes other names."""

    name: str
    doc: str
    body: Dict[str, ast.AST]
    order: List[str]
    given: List[str]
    taken: Dict[str, Tuple[str, str]]


def modules(package: Path) -> Dict[str, Module]:
    """All modules, by name."""
    found = {}
    for path in sorted(package.glob("*.py")):
        tree = ast.parse(path.read_text(encoding="utf-8"))
        name = "yds" if path.stem == "__init__" else f"yds.{path.stem}"
        body: Dict[str, ast.AST] = {}
        given: List[str] = []
        for node, after in zip(tree.body, [*tree.body[1:], None]):
            if isinstance(node, Call) and not is_overload(node):
                body[node.name] = node
            elif isinstance(node, (ast.Assign, ast.AnnAssign)):
                target = node.targets[0] if isinstance(node, ast.Assign) else node.target
                if isinstance(target, ast.Name):
                    if target.id == "__all__" and node.value is not None:
                        given = list(ast.literal_eval(node.value))
                    body[target.id] = ast.Tuple(elts=[node, after or ast.Pass()], ctx=ast.Load())
        found[name] = Module(name, ast.get_docstring(tree) or "", body, list(body), given, dict(imports(tree)))
    return found


def imports(tree: ast.Module) -> Iterator[Tuple[str, Tuple[str, str]]]:
    """Each name that is taken from another module: that module, and the name there."""
    for node in ast.walk(tree):
        if isinstance(node, ast.ImportFrom) and node.module:
            for one in node.names:
                yield one.asname or one.name, (node.module, one.name)


def is_overload(node: ast.AST) -> bool:
    """Whether the function is one of several signatures: the last one, without this mark, has the docstring."""
    marks = getattr(node, "decorator_list", [])
    return any(isinstance(mark, ast.Name) and mark.id == "overload" for mark in marks)


def is_public(name: str) -> bool:
    return not name.startswith("_")


def text_below(node: Optional[ast.AST]) -> Optional[str]:
    """The string that stands below a field."""
    if isinstance(node, ast.Expr) and isinstance(node.value, ast.Constant) and isinstance(node.value.value, str):
        return " ".join(node.value.value.split())
    return None


def entries(name: str, place: Tuple[str, ast.AST], found: Dict[str, Module]) -> Iterator[Entry]:
    """What a name has: its head, its docstring; and of a class its public members."""
    home, node = place
    if isinstance(node, ast.FunctionDef):
        yield head(name, node), "", ast.get_docstring(node)
    elif isinstance(node, ast.ClassDef):
        given = {other for module in found.values() for other in module.given} | {"NamedTuple", "IntEnum"}
        bases = [base for base in map(ast.unparse, node.bases) if base in given or hasattr(builtins, base)]
        yield f"class {name}" + (f"({', '.join(bases)})" if bases else ""), "", ast.get_docstring(node)
        yield from members(home, node, found, given)
    elif isinstance(node, ast.Tuple):
        assignment, after = node.elts
        value = getattr(assignment, "value", None)
        yield f"{name} = {ast.unparse(value)}" if value is not None else name, "", text_below(after)


def members(home: str, node: ast.ClassDef, found: Dict[str, Module], given: Set[str]) -> Iterator[Entry]:
    """The public members, and those of bases that aren't given to others, each once."""
    seen = set()
    for kind in [node, *hidden_bases(home, node, found, given)]:
        for member, after in zip(kind.body, [*kind.body[1:], None]):
            name = getattr(getattr(member, "target", member), "id", getattr(member, "name", "_"))
            if not is_public(name) or name in seen or is_overload(member):
                continue
            seen.add(name)
            if isinstance(member, ast.AnnAssign):
                yield f".{name}: {ast.unparse(member.annotation)}", "field", text_below(after) or ""
            elif isinstance(member, ast.FunctionDef):
                yield head(f".{name}", member), "member", ast.get_docstring(member)


def hidden_bases(home: str, node: ast.ClassDef, found: Dict[str, Module], given: Set[str]) -> Iterator[ast.ClassDef]:
    """The classes on which it stands and that aren't given to others."""
    for base in map(ast.unparse, node.bases):
        place = defined(found, home, base)
        if base not in given and place is not None and isinstance(place[1], ast.ClassDef):
            yield place[1]
            yield from hidden_bases(*place, found, given)


def head(name: str, node: ast.FunctionDef) -> str:
    """The signature; of a property the name and the type."""
    marks = [ast.unparse(mark) for mark in node.decorator_list]
    told = f" -> {ast.unparse(node.returns)}" if node.returns is not None else ""
    if any(mark in ("property", "cached_property") for mark in marks):
        return name + told.replace(" -> ", ": ")
    arguments = ast.unparse(node.args)
    if name.startswith("."):
        arguments = re.sub(r"^(self|cls)(: [^,]*)?(, )?", "", arguments)
    return f"{name}({arguments}){told}"


def markdown(doc: str) -> str:
    """The docstring: what is indented, and examples, as code."""
    parts = []
    for part in doc.split("\n\n"):
        lines = part.split("\n")
        at = next((place for place, line in enumerate(lines) if line.startswith((">>>", "  "))), len(lines))
        if lines[:at]:
            parts.append("\n".join(map(escaped, lines[:at])))
        if lines[at:]:
            code = textwrap.dedent("\n".join(lines[at:]))
            parts.append(textwrap.indent(code, "    "))
    return "\n\n".join(parts)


def escaped(line: str) -> str:
    """A line of text: what isn't code has no signs of Markdown."""
    pieces = re.split(r"(`[^`]*`)", line)
    return "".join(piece if place % 2 else re.sub(r"([*_<])", r"\\\1", piece) for place, piece in enumerate(pieces))


def wrapped(code: str) -> str:
    """A signature as a block of code, broken behind its commas where it is long."""
    lines, room = [], ""
    for piece in re.split(r"(?<=, )", code):
        if room and len(room) + len(piece) > WIDTH - 4:
            lines.append(room.rstrip())
            room = "    "
        room += piece
    return textwrap.indent("\n".join([*lines, room]), "    ")


def defined(found: Dict[str, Module], home: str, name: str) -> Optional[Tuple[str, ast.AST]]:
    """The module that has a module's name, and what it is there. A name that is a module itself is none of these."""
    module = found.get(home)
    if module is None or f"{home}.{name}" in found:
        return None
    if name in module.body:
        return home, module.body[name]
    return defined(found, *module.taken[name]) if name in module.taken else None


def written(found: Dict[str, Module]) -> Tuple[str, List[str]]:
    """The page, and the entries that have no docstring."""
    parts, missing = [HEAD], []
    shown = set()
    names = ["yds", *(f"yds.{name}" for name in found["yds"].given if f"yds.{name}" in found)]
    for module in (found[name] for name in names):
        parts.append(f"## {module.name}\n")
        parts.append(markdown(module.doc) + "\n")
        for name in module.given:
            place = defined(found, module.name, name)
            if place is None or place in shown:
                continue
            shown.add(place)
            for told, kind, doc in entries(f"{module.name}.{name}", place, found):
                if doc is None:
                    missing.append(f"{module.name}.{name} {told}")
                if kind == "":
                    parts.append(f"### {module.name}.{name}\n")
                    parts.append(wrapped(told) + "\n")
                    parts.append(markdown(doc or "") + "\n")
                elif kind == "field":
                    parts.append(f"- `{told}`" + (f"  \n  {escaped(doc)}" if doc else "") + "\n")
                else:
                    parts.append(f"**`{told.split('(')[0].split(':')[0]}`**\n\n{wrapped(told)}\n")
                    parts.append(markdown(doc or "") + "\n")
    return "\n".join(parts).rstrip("\n") + "\n", missing


def main(arguments: List[str]) -> int:
    check = arguments[:1] == ["--check"]
    folders = arguments[1:] if check else arguments
    root = Path(folders[0]) if folders else Path(__file__).resolve().parent.parent
    found, place = modules(root / "python" / "yds"), root / "docs" / "api.md"
    page, missing = written(found)
    if not check:
        place.write_text(page, encoding="utf-8")
        return 0
    for entry in missing:
        print(f"{entry}: no docstring")
    same = place.exists() and place.read_text(encoding="utf-8") == page
    if not same:
        print("docs/api.md isn't what the docstrings say: python3 docs/api.py writes it")
    count = page.count("\n### ") + page.count("\n- `.") + page.count("\n**`.")
    print(f"{count - len(missing) + same} passed, {len(missing) + (not same)} failed")
    return 1 if missing or not same else 0


if __name__ == "__main__":
    sys.exit(main(sys.argv[1:]))
