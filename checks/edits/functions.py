"""functions.py: the functions of Rattle code: where each stands, how the prover names it, its clauses, and its signature.

Code is read as `rt fmt` lays it out, by its braces. Comments, texts and characters in quotes are passed over.
"""

import re
from collections import Counter
from pathlib import Path
from typing import Dict, Iterator, List, NamedTuple, Optional, Sequence, Set, Tuple

BLANKED = re.compile(
    r"//[^\n]*|/\*.*?\*/|b?r(#*)\".*?\"\1|b?\"(?:\\.|[^\"\\])*\"|b?'(?:\\(?:u\{[^}]*\}|x..|.)|[^'\\\n])'", re.S
)
FUNCTION = re.compile(r"(\bpub )?\b((?:const |unsafe |async |extern +)*)fn (\w+)")
PASSED_ON = re.compile(r"^pub use ([^;]+);", re.M)
TYPE = re.compile(r"\b(?:struct|enum|union) (\w+)")
BLOCK = re.compile(r"^([ \t]*)(?:pub(?:\([^)]*\))? )?(?:unsafe )?(impl|trait|mod)\b([^;{]*)\{", re.M)
CLAUSE = re.compile(r"(requires|ensures|ghost)\b\*?[ \t]*(\w*)[^{;]*\{")


class Function(NamedTuple):
    """A function of a file of code.

    `path` is how the prover names it below its crate, as `mixed::MixedOrd::cmp`. `owner` is the type or trait in whose
    block it stands, or '', and `trait` that which an impl gives the type, or ''. `is_public` says that it is marked
    `pub`. `clauses` are the names of what it ensures, '' for one without a name. From `start` to `body` stand its head
    and its contract, from `body` to `end` its body with the braces.
    """

    path: str
    name: str
    owner: str
    trait: str
    is_public: bool
    clauses: List[str]
    start: int
    body: int
    end: int
    is_constant: bool


class Block(NamedTuple):
    """A block of an impl, a trait or a module in a file: how the prover names it, its type, the trait that an impl is of, and where it stands."""

    name: str
    owner: str
    trait: str
    start: int
    end: int


def blanked(text: str) -> str:
    """Gives the text of the same length in which comments, texts and characters in quotes are blanks."""
    return BLANKED.sub(lambda found: re.sub(r"[^\n]", " ", found.group()), text)


def end_of(text: str, at: int) -> int:
    """Gives the place behind the brace that closes the one at this place. A text that ends before has its end there."""
    depth = 0
    for found in re.finditer(r"[{}]", text[at:]):
        depth += 1 if found.group() == "{" else -1
        if depth == 0:
            return at + found.end()
    return len(text)


def without_arguments(text: str) -> str:
    """Gives a type's text without its lifetimes."""
    return re.sub(r"'\w+,?\s*", "", text).replace("<>", "")


def words_of(text: str) -> str:
    """Gives the words of a type, each with a capital, as the prover joins them: `Mul<u32>` is `MulU32`."""
    return "".join(word[0].upper() + word[1:] for word in re.findall(r"\w+", without_arguments(text)))


def parted(text: str) -> Tuple[str, str]:
    """Parts the parameters of an `impl`, as `<T: Ord>`, from what follows."""
    text = text.strip()
    depth = 0
    for at, sign in enumerate(text):
        depth += {"<": 1, ">": -1 if text[at - 1] != "-" else 0}.get(sign, 0)
        if depth == 0:
            return (text[: at + 1], text[at + 1 :]) if at else ("", text)
    return "", text


def block_name(kind: str, head: str) -> Tuple[str, str, str]:
    """Gives how the prover names a block, the type or trait that it is of, and the trait that an impl gives a type, or ''."""
    parameters, head = parted(head)
    for name in re.findall(r"[<,]\s*(\w+)", parameters):
        head = re.sub(rf"\b{name}\b", "", head)
    head = head.partition(" where ")[0]
    trait, is_of, kept = head.partition(" for ")
    first = re.search(r"\w+", without_arguments(kept if is_of else head))
    owner = first.group() if first else ""
    if kind == "impl" and is_of:
        named = trait if "<" in trait else trait.rpartition("::")[2]
        return owner + words_of(named), owner, named.strip().partition("<")[0]
    return owner, "" if kind == "mod" else owner, ""


def blocks_of(text: str) -> List[Block]:
    """Gives the blocks of a file, given as blanked text, in their order."""
    found = []
    for it in BLOCK.finditer(text):
        names = block_name(it.group(2), it.group(3))
        found.append(Block(*names, it.start(), end_of(text, it.end() - 1)))
    return found


def behind_head(text: str, at: int) -> int:
    """Gives the place behind the parameters and the result of a function whose name ends here."""
    depth = 0
    for found in re.finditer(r"[()\[\]]|[{;]|\b(?:requires|ensures|ghost)\b", text[at:]):
        sign = found.group()
        if sign in "([":
            depth += 1
        elif sign in ")]":
            depth -= 1
        elif depth == 0:
            return at + found.start()
    return len(text)


def contract_of(text: str, at: int) -> Tuple[List[str], int]:
    """Reads the clauses that begin here: the names of what is ensured, and the place of the body, or of what ends a head without one."""
    names: List[str] = []
    while True:
        rest = re.match(r"\s*", text[at:])
        at += rest.end() if rest else 0
        clause = CLAUSE.match(text, at)
        if clause is None:
            return names, at
        if clause.group(1) == "ensures":
            names.append(clause.group(2))
        at = end_of(text, clause.end() - 1)


def module_of(path: str) -> str:
    """Gives the module of a file below src/: `row/head.rt` is `row::head`, and the root's is ''."""
    parts = list(Path(path).with_suffix("").parts)
    if parts[-1] == "mod" or parts in (["lib"], ["main"]):
        parts.pop()
    return "::".join(parts)


def homes_of(files: Dict[str, str]) -> Dict[str, str]:
    """Gives the module in which each type of a crate stands, by the files below src/. Of two of one name it gives none."""
    found: Dict[str, List[str]] = {}
    for path, text in files.items():
        for name in TYPE.findall(blanked(text)):
            found.setdefault(name, []).append(module_of(path))
    return {name: modules[0] for name, modules in found.items() if len(modules) == 1}


def module_around(path: str, around: Sequence[Block], homes: Dict[str, str]) -> str:
    """Gives the module of a function: that of its file, but the type's own where it stands in a block of methods of a type."""
    methods = around[-1] if around and around[-1].name == around[-1].owner else None
    return homes.get(methods.owner, module_of(path)) if methods else module_of(path)


def functions_of(path: str, text: str, homes: Optional[Dict[str, str]] = None) -> List[Function]:
    """Gives the functions of a file below src/, in their order. A function within another is one, too.

    `homes` has the modules of the crate's types: the prover names a type's methods by where the type stands.
    """
    plain = blanked(text)
    blocks = blocks_of(plain)
    found: List[Function] = []
    for it in FUNCTION.finditer(plain):
        clauses, body = contract_of(plain, behind_head(plain, it.end()))
        has_body = plain[body : body + 1] == "{"
        around = [one for one in blocks if one.start < it.start() < one.end]
        module = module_around(path, around, homes or {})
        parts = [module, *(one.name for one in around), *outer_names(found, it.start()), it.group(3)]
        owner, trait = (around[-1].owner, around[-1].trait) if around else ("", "")
        end = end_of(plain, body) if has_body else body + 1
        name = "::".join(part for part in parts if part)
        marks = bool(it.group(1)), "const" in it.group(2)
        found.append(Function(name, it.group(3), owner, trait, marks[0], clauses, it.start(), body, end, marks[1]))
    return found


def outer_names(found: List[Function], at: int) -> Iterator[str]:
    """Tells the names of the functions in whose bodies this place is."""
    for one in found:
        if one.body < at < one.end:
            yield one.name


def function_at(functions: List[Function], at: int) -> Optional[Function]:
    """Gives the innermost function in whose body this place is. In its head or its contract none is."""
    within = [one for one in functions if one.body < at < one.end - 1]
    return within[-1] if within else None


def signatures_of(path: str, text: str) -> str:
    """Gives the text of a file of code without the bodies of its functions. Those of constant functions stay."""
    kept, at = [], 0
    for one in functions_of(path, text):
        if one.body >= at and one.end > one.body + 1 and not one.is_constant:
            kept.append(text[at : one.body])
            at = one.end
    return "{}".join([*kept, text[at:]])


def read_code(folder: Path) -> Dict[str, str]:
    """Gives the files of code of a crate's folder: their texts by their paths below src/."""
    root = folder / "src"
    return {str(it.relative_to(root)): it.read_text(encoding="utf-8") for it in sorted(root.rglob("*.rt"))}


def crate_functions(folder: Path) -> Dict[str, List[Function]]:
    """Gives the functions of a crate's folder, by their files below src/."""
    files = read_code(folder)
    homes = homes_of(files)
    return {path: functions_of(path, text, homes) for path, text in files.items()}


def passed_on(folder: Path) -> Set[str]:
    """Gives the names that a crate's root file passes on."""
    roots = [it for it in (folder / "src" / "lib.rt", folder / "src" / "main.rt") if it.is_file()]
    found: Set[str] = set()
    for root in roots:
        for item in PASSED_ON.findall(root.read_text(encoding="utf-8")):
            found.update(re.findall(r"\w+", item.split("::", 1)[-1]))
    return found


def page_names(functions: Dict[str, Function], passed: Set[str]) -> Dict[str, str]:
    """Gives the names of a crate's functions in lines `# breaks:`, by their paths: `Type::method`, or a function's name.

    Where several functions have one name, it is that of the one that the root passes on, and the others' is `module::name`.
    """
    bare = {path: f"{it.owner}::{it.name}" if it.owner else it.name for path, it in functions.items()}
    times = Counter(bare.values())
    found: Dict[str, str] = {}
    for path, name in bare.items():
        one, module = functions[path], path.rpartition("::")[0].rpartition("::")[2]
        is_seen = one.owner or not module or (one.is_public and one.name in passed)
        found[path] = name if times[name] == 1 or is_seen else f"{module}::{name}"
    return found
