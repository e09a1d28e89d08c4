"""citing.py: which definitions, lemmas and functions of a crate cite which, by the words of their texts.

A word can mean what its own file declares, or what a line `use` of the file names. The name of a field or a case can
mean each that has it. So more may be found than the prover sees, and nothing less.
"""

import re
from pathlib import Path
from typing import Dict, Iterator, List, NamedTuple, Optional, Set, Tuple

from functions import crate_functions, read_code

DECLARED = re.compile(r"^((?:(?:pub|abbrev|record|data|unfoldable)\b )*)([^\s:({]+)(\s*:)?")
WORD = re.compile(r"[^\s(){}\[\],.;:λ→×⊎=≡∷+*/<>≤⟦⟧|]+")
USED = re.compile(r"^\s*(?:pub )?use Rattle\.(\w+)\.[^{\n]*?(?:\.\{([^}]*)\})?(?: as (\S+))?$", re.M)
LISTS = re.compile(r"^\s*(?:(?:pub |ghost )?use\b[^;]*;|//.*)$", re.M)
OF_FUNCTION = ("Answers.antt", "Invariants.antt", "Proof.antt")


class Span(NamedTuple):
    """A stretch of a text."""

    start: int
    end: int


class Declaration(NamedTuple):
    """A definition or a lemma: the file in which it stands, its name, where its texts stand, and the words in them.

    A function is one, too: its file is '' and its words are those of its contract and of the files of its proof.
    """

    file: str
    name: str
    spans: List[Span]
    words: Set[str]

    def place(self) -> str:
        """Gives its file and its name."""
        return place_of(self.file, self.name)


def place_of(file: str, name: str) -> str:
    """Gives the place of a declaration in a file. That of a function's proof is the function."""
    parts = file.split("/")
    if parts[0] == "proofs" and parts[-1] in OF_FUNCTION:
        return "fn " + "::".join(part.lstrip("+") for part in parts[1:-1])
    return f"{file} {name}" if file else f"fn {name}"


def parts_of(name: str) -> Set[str]:
    """Gives a name and the words of an operator, as `between` of `◌between◌`."""
    return {name, *(part for part in name.split("◌") if part)}


def name_of(line: str) -> Tuple[str, bool]:
    """Gives the name with which a line begins, and whether it declares it. The others are cases of what was declared before."""
    words = line.split()
    found = DECLARED.match(line)
    if not words or found is None or words[0] in ("unfolding", "infix", "infixl", "infixr"):
        return "", False
    return found.group(2), bool(found.group(1) or found.group(3))


def is_passed_over(line: str) -> bool:
    """Whether a line begins what declares nothing: a comment, or a line `use` or `mod`."""
    words = line.split()
    return not words or words[0].startswith(("--", "{-")) or words[0] in ("use", "mod", "open") or words[:2] in (["pub", "use"], ["pub", "mod"])


def inner_names(text: str) -> Set[str]:
    """Gives the names of the fields and cases in the text of a record or a data type."""
    if not re.match(r" *(?:pub )?(?:record|data)\b", text):
        return set()
    found = re.findall(r"^\s+(?:pub )?([^\s:(){}|]+)\s*:", text, re.M) + re.findall(r"\|\s*([^\s:(){}|]+)", text)
    return set(found)


def stretches(text: str, start: int, end: int, indent: int) -> Iterator[Tuple[Span, str]]:
    """Tells the stretches of a text that each begin with a line of this indent, with the head of the modules around each."""
    begins = [start + it.start() for it in re.finditer(rf"^ {{{indent}}}(?=[^ \n])", text[start:end], re.M)]
    for first, last in zip(begins, [*begins[1:], end]):
        if not re.match(r" *module\b", text[first:last]):
            yield Span(first, last), ""
            continue
        inner = re.search(rf"^ {{{indent + 2}}}(?=[^ \n])", text[first:last], re.M)
        head = text[first : first + inner.start()] if inner else text[first:last]
        for span, around in stretches(text, first + len(head), last, indent + 2):
            yield span, head + around


def declared_in(file: str, text: str, crate: str) -> List[Declaration]:
    """Gives the declarations of a file. Lines of one name, its type and its cases, are one."""
    found: Dict[str, Declaration] = {}
    last, waiting = "", ""
    for span, head in stretches(text, 0, len(text), 0):
        part = text[span.start : span.end].lstrip(" ")
        if is_passed_over(part.split("\n", 1)[0]):
            continue
        name, declares = name_of(part)
        if not name and part.startswith(("unfolding", "infix")):
            waiting += part
            continue
        last = name if declares else last
        for it in {last, name if name in found else last} - {""}:
            one = found.setdefault(it, Declaration(file, it, [], set()))
            one.spans.append(span)
            one.words.update(WORD.findall(waiting + head + part))
        waiting = ""
    own = {part for name in found for part in parts_of(name)}
    known = {f"={word}" for word in own | used_in(text, crate)}
    return [one._replace(words=one.words | ({f"={word}" for word in one.words} & known)) for one in found.values()]


def used_in(text: str, crate: str) -> Set[str]:
    """Gives the words that the lines `use` of a file take from the crate's own files."""
    words: Set[str] = set()
    for of_crate, names, alias in USED.findall(text):
        if of_crate == crate:
            for name in [*re.split(r"[\s,]+", names or ""), alias or ""]:
                words |= parts_of(name)
    return words


def read_declarations(folder: Path) -> List[Declaration]:
    """Gives the declarations of a crate: those of its definitions and lemmas, and its functions."""
    files = [it for part in ("specs", "proofs") for it in sorted((folder / part).rglob("*.antt"))]
    found: List[Declaration] = []
    proofs: Dict[str, Set[str]] = {}
    for it in files:
        name, text = str(it.relative_to(folder)), it.read_text(encoding="utf-8")
        if it.name in OF_FUNCTION:
            proofs.setdefault(place_of(name, ""), set()).update(all_words(text))
        else:
            found += declared_in(name, text, folder.name)
    return found + functions_in(folder, proofs)


def all_words(text: str) -> Set[str]:
    """Gives the words of a text, of which each can mean any declaration of its name."""
    words = set(WORD.findall(text))
    return words | {f"={word}" for word in words}


def functions_in(folder: Path, proofs: Dict[str, Set[str]]) -> List[Declaration]:
    """Gives the functions of a crate, with the words of what stands before their bodies and of their proofs."""
    found: List[Declaration] = []
    code = read_code(folder)
    for path, functions in crate_functions(folder).items():
        text, before = code[path], 0
        for one in functions:
            head = LISTS.sub("", text[before : one.body])
            words = all_words(head) | proofs.get(f"fn {one.path}", set())
            found.append(Declaration("", one.path, [], words))
            before = max(before, one.end)
    return found


def declaration_at(declarations: List[Declaration], file: str, at: int) -> Optional[Declaration]:
    """Gives the declaration in whose text a place of a file is."""
    for one in declarations:
        if one.file == file and any(span.start <= at < span.end for span in one.spans):
            return one
    return None


def touched(edited: Declaration, text: str, start: int, end: int) -> Set[str]:
    """Gives the words by which what a change turns is cited: the declaration's, and the fields and cases in the lines that it touches."""
    names = {f"={part}" for part in parts_of(edited.name)}
    first, last = text.rfind("\n", 0, start) + 1, (text.find("\n", end) + 1 or len(text))
    for span in edited.spans:
        inner = inner_names(text[span.start : span.end])
        if span.start <= start < span.end and inner:
            within = inner & set(WORD.findall(text[first:last]))
            names |= within or inner
    return names


def citing(edited: Declaration, names: Set[str], declarations: List[Declaration]) -> Set[str]:
    """Gives the places of the declarations that cite these words of one, directly or through others, and of that one."""
    names, reached, grows = set(names), {edited.place()}, True
    while grows:
        grows = False
        for one in declarations:
            if one.place() not in reached and one.words & names:
                reached.add(one.place())
                names.update(f"={part}" for part in parts_of(one.name) if one.file)
                grows = True
    return reached
