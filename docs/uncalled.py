#!/usr/bin/env python3
"""Writes the list in docs/proved.md of public functions that the program doesn't call.

    python3 docs/uncalled.py            writes the list into the page
    python3 docs/uncalled.py --check    says whether the page has this list, and then ends with 1 if it hasn't

The list is found in the sources, crates/*/src, and nothing is run. Called is what can be reached: from `main` of a
program, from what a static library gives to C, and from the public functions of a crate on which no other crate stands,
or only one of tests, whose name ends with `_tests`. Tests call nothing, nor does a contract. A law, which has no
parameters and no body, isn't told here, nor are a trait's own methods.

Which function a name means is found by its module and its imports, and a method by the types that the value before its
dot may have. Where none of them has such a method, every method of that name counts as called. So what is listed isn't
called. A function that isn't listed may still be one that nothing calls.

The last line of a check is 'N passed, M failed': one for each function, and one for the page.
"""
import sys
import textwrap
from pathlib import Path
from typing import Dict, List, Set

from calls import Program, Reach
from items import Function, Name

ROOT = Path(__file__).resolve().parent.parent
PAGE = ROOT / "docs" / "proved.md"
WIDTH = 120
BEGIN = "**What the program doesn't call.**"


def crates_of(text: str) -> Dict[str, List[str]]:
    """The crates of crates.txt, in its order, each with those that it stands on."""
    lines = (line for line in text.split("\n") if line.strip() and not line.startswith("#"))
    return {head.split()[0]: rest.split() for head, _, rest in (line.partition(":") for line in lines)}


def is_public(program: Program, function: Function) -> bool:
    """Whether other crates can call it. A law isn't called."""
    root = program.roots[function.name.crate]
    if not function.public or (not function.parameters and not function.body):
        return False
    given = function.name.owner if function.name.of_type else function.name.name
    return given in root.passed_on or function.file is root


def given_out(program: Program) -> Set[Name]:
    """What programs begin with, and what static libraries give to C."""
    return {name for name, all_of in program.functions.items() if name.name == "main" or any(it.to_c for it in all_of)}


def on_top(program: Program) -> Set[Name]:
    """The public functions of the crates on which no other crate stands, but for crates of tests."""
    below = {other for crate, others in program.crates.items() if not crate.endswith("_tests") for other in others}
    named = (name for name in program.functions if name.crate not in below)
    return {name for name in named if any(is_public(program, it) for it in program.functions[name])}


def uncalled(program: Program) -> Dict[str, List[str]]:
    """The public functions that aren't called, by crate.

    Of the crates on which programs and libraries for C stand it is what these don't call. Of the others it is what the
    crates on top don't call either. A type that isn't used stands for its functions.
    """
    roots = given_out(program)
    built = Reach(program, roots)
    whole = Reach(program, roots | on_top(program))
    below = frozenset().union(*(program.below[it.crate] for it in roots))
    found: Dict[str, List[str]] = {}
    for name, functions in program.functions.items():
        reach = built if name.crate in below else whole
        if name not in reach.called and any(is_public(program, it) for it in functions):
            names = found.setdefault(name.crate, [])
            told = told_as(program, reach, functions[0])
            names += [told] if told not in names else []
    return {crate: found[crate] for crate in program.crates if crate in found}


def told_as(program: Program, reach: Reach, function: Function) -> str:
    """How a function is told: by its type alone where that isn't used."""
    name = function.name
    if not name.of_type:
        return name.name
    return f"{name.owner}::{name.name}" if program.owner_of(function) in reach.alive else name.owner


def listed(names: List[str]) -> str:
    """Names in a row, as one writes them."""
    words = [f"`{it}`" for it in names]
    return words[0] if len(words) == 1 else ", ".join(words[:-1]) + f" and {words[-1]}"


def paragraph(found: Dict[str, List[str]]) -> str:
    """The list as the page has it."""
    parts = [f"{listed(names)} of `{crate}`" for crate, names in found.items()]
    text = f"{BEGIN} These are proved for callers of the crates: " + "; ".join(parts) + "."
    return "\n".join(textwrap.wrap(text, WIDTH, break_long_words=False, break_on_hyphens=False))


def with_list(page: str, text: str) -> str:
    """The page with this list in place of the one that it has, or as it is where it has none."""
    before, begin, rest = page.partition(BEGIN)
    return before + text + "\n\n" + rest.partition("\n\n")[2] if begin else page


def main(words: List[str]) -> int:
    """Writes the list, or with --check says whether the page has it."""
    if words not in ([], ["--check"]):
        print("usage: docs/uncalled.py [--check]")
        return 2
    program = Program(ROOT / "crates", crates_of((ROOT / "crates.txt").read_text(encoding="utf-8")))
    found = uncalled(program)
    page = PAGE.read_text(encoding="utf-8")
    made = with_list(page, paragraph(found))
    if BEGIN in page and not words:
        PAGE.write_text(made, encoding="utf-8")
        return 0
    count = sum(len(names) for names in found.values())
    failed = int(made != page or BEGIN not in page)
    if failed:
        print(f"docs/proved.md hasn't the list that docs/uncalled.py writes, in a paragraph that begins with {BEGIN}")
    print(f"{count + 1 - failed} passed, {failed} failed")
    return failed


if __name__ == "__main__":
    sys.exit(main(sys.argv[1:]))
