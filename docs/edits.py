"""Writes docs/edits.md: at which public clause the prover refuses which edit, and which it isn't true for either.

An edit is a file `crates/CRATE/edits/NAME.edit`: a wrong body, one changed line of code, that the check has to refuse.
A line `# breaks:` names a goal that refuses it, which checks/edits/edits.py holds against what the prover says:

    FUNCTION.CLAUSE       a clause of the function that is edited; FUNCTION alone where the clause has no name
    FUNCTION asks CALLEE  what it has to show where it calls CALLEE
    FUNCTION at GOAL      another goal of it, by the prover's name: what a loop or a type keeps, that a sum fits

A goal that has several clauses at once is of each of them. A line `# so: FUNCTION.CLAUSE` names a clause that isn't
true then either, of a function above. A method is `Type::method`. Of functions of one name the one that the root passes
on has it alone, and another is `module::function`. A clause of another crate is `CRATE/FUNCTION.CLAUSE`. A clause in
RECORDS is a record, and each of its fields stands for a clause of its own: `FUNCTION.CLAUSE.FIELD`. A law or an example
that is no function has the name by which it is declared.

    python3 docs/edits.py            writes the page
    python3 docs/edits.py --check    says in a line each what is wrong, and then ends with 1

The last line of a check is 'N passed, M failed': of edits, clauses that need one, and the page.

Wrong are: a page that isn't what would be written; an edit that has no line `# breaks:`, or names a clause that isn't
there, or whose old text doesn't stand in its file once; and a clause of the functions in NEEDED that no edit breaks.
"""
import re
import sys
from pathlib import Path
from typing import Dict, Iterator, List, NamedTuple, Optional, Set, Tuple

ROOT = Path(__file__).resolve().parent.parent
PAGE = ROOT / "docs" / "edits.md"
WIDTH = 120
NEEDED = [
    ("yds_plan", "plan"),
    ("yds_round", "round"),
    ("yds_audit", "audit"),
    ("yds_checker", "check"),
    ("yds_admit", "admit"),
    ("document_reader", "read_document"),
    ("document_text", "print"),
    ("yds_run", "run"),
    ("yds_run", "run_on_bytes"),
    ("yds_c", "yds_answer"),
]
# A clause that is a record, by crate and function, with the file of the record and its name.
RECORDS = {
    ("yds_run", "run", "worth"): ("specs/Worth.antt", "IsWorth"),
    ("yds_trace_run", "run", "worth"): ("specs/Worth.antt", "IsWorth"),
}

FUNCTION = re.compile(r'^(\s*)(pub(?:\([^)]*\))? )?(?:const |unsafe |extern "C" )*fn (\w+)')
OWNER = re.compile(r"^(?:pub(?:\([^)]*\))? )?(impl|trait)\b\s*(.*)$")
ENSURES = re.compile(r"^\s*ensures(?: (\w+))? \{")
FIELD = re.compile(r"^  pub (\w+) :")
OTHER_GOAL = re.compile(r"(\S+) (?:asks|at) \S.*")
DECLARED = re.compile(r"^(?:pub |abbrev |record |data |mutual )*(\w+)\b", re.M)


class Function(NamedTuple):
    """A function of a crate, and the names of its clauses, '' for one without a name."""

    name: str
    public: bool
    clauses: List[str]


class Edit(NamedTuple):
    """An edit, and what its lines say."""

    crate: str
    name: str
    breaks: List[str]
    so: List[str]
    faults: List[str]


class Crate(NamedTuple):
    """A crate: its functions, the names that its specs and proofs declare, and its edits."""

    name: str
    functions: Dict[str, Function]
    declared: Set[str]
    edits: List[Edit]


def exported(root: str) -> Set[str]:
    """Returns the names that a crate's root file passes on."""
    names: Set[str] = set()
    for item in re.findall(r"^pub use ([^;]+);", root, re.M):
        names.update(re.findall(r"\w+", item.split("::", 1)[-1]))
    return names


def owner_of(line: str) -> Optional[Tuple[str, str]]:
    """Returns the kind and the name of what a line begins: 'impl' of a type, 'trait', or 'of' for a trait's impl."""
    found = OWNER.match(line)
    if not found:
        return None
    kind, rest = found.groups()
    while "<" in rest:
        short = re.sub(r"<[^<>]*>", "", rest)
        if short == rest:
            break
        rest = short
    words = re.findall(r"\w+", rest)
    if kind == "impl" and "for" in words:
        return "of", words[words.index("for") + 1]
    return (kind, words[0]) if words else None


def contract(lines: List[str], at: int, indent: str) -> List[str]:
    """Returns the names of the clauses of the function that begins at this line."""
    clauses: List[str] = []
    head = True
    for line in lines[at:]:
        found = ENSURES.match(line)
        if found:
            clauses.append(found.group(1) or "")
        if re.match(r"\s*(requires|ensures)\b", line):
            head = False
        if line in (indent + "{", indent + "{}") or (head and line.endswith(("{", "{}", ";"))):
            break
        if not head and line.endswith("};"):
            break
    return clauses


def is_public(kind: str, owner: str, marked: bool, name: str, passed_on: Set[str], at_root: bool) -> bool:
    """Returns whether a function can be called from outside its crate."""
    if kind == "":
        return marked and (at_root or name in passed_on)
    return owner in passed_on and (marked or kind != "impl")


def functions_of(path: Path, passed_on: Set[str], at_root: bool) -> Iterator[Function]:
    """Tells the functions of a file of code."""
    lines = path.read_text(encoding="utf-8").split("\n")
    kind, owner = "", ""
    for at, line in enumerate(lines):
        begun = owner_of(line)
        if begun and not line.endswith("{}"):
            kind, owner = begun
        elif line == "}":
            kind, owner = "", ""
        found = FUNCTION.match(line)
        if found:
            indent, mark, name = found.groups()
            whole = f"{owner}::{name}" if kind else name
            public = is_public(kind, owner, mark == "pub ", name, passed_on, at_root)
            yield Function(whole, public, contract(lines, at, indent))


def code_of(folder: Path) -> Dict[str, Function]:
    """Returns the functions of a crate by their names. Where two have one name the clauses are those of both."""
    roots = [it for it in (folder / "src" / "lib.rt", folder / "src" / "main.rt") if it.is_file()]
    passed_on = exported("\n".join(it.read_text(encoding="utf-8") for it in roots))
    functions: Dict[str, Function] = {}
    for path in sorted((folder / "src").rglob("*.rt")):
        for it in functions_of(path, passed_on, path in roots):
            earlier = functions.get(it.name)
            if earlier and earlier.public == it.public:
                it = it._replace(clauses=earlier.clauses + [c for c in it.clauses if c not in earlier.clauses])
            if not earlier or it.public or not earlier.public:
                functions[it.name] = it
            if "::" not in it.name:
                functions[f"{path.stem}::{it.name}"] = it._replace(name=f"{path.stem}::{it.name}", public=False)
    return {name: with_fields(folder, it) for name, it in functions.items()}


def fields_of(path: Path, record: str) -> List[str]:
    """Returns the names of a record's fields."""
    text = path.read_text(encoding="utf-8") if path.is_file() else ""
    _, _, rest = text.partition(f"\npub record {record} ")
    lines = rest.split("\n")[1:]
    ends = [at for at, line in enumerate(lines) if not line.startswith("  ")]
    found = [FIELD.match(line) for line in lines[: ends[0] if ends else len(lines)]]
    return [it.group(1) for it in found if it]


def with_fields(folder: Path, function: Function) -> Function:
    """Returns the function with the fields of a clause in place of the clause, where it is a record."""
    clauses: List[str] = []
    for clause in function.clauses:
        record = RECORDS.get((folder.name, function.name, clause))
        fields = fields_of(folder / record[0], record[1]) if record else []
        clauses += [f"{clause}.{it}" for it in fields] or [clause]
    return function._replace(clauses=clauses)


def declared_in(folder: Path) -> Set[str]:
    """Returns the names that begin a line of a crate's specs and proofs."""
    names: Set[str] = set()
    for part in ("specs", "proofs"):
        for path in (folder / part).rglob("*.antt"):
            names.update(DECLARED.findall(path.read_text(encoding="utf-8")))
    return names


def faults_of(folder: Path, text: str) -> List[str]:
    """Returns what is wrong with the pairs of an edit: each old text has to stand once in what earlier pairs made."""
    made: Dict[str, str] = {}
    file, old, pairs = "", "", 0
    for line in text.split("\n"):
        if line.startswith("file: "):
            file = line[len("file: ") :].strip()
            if file not in made and (folder / file).is_file():
                made[file] = (folder / file).read_text(encoding="utf-8")
        elif line.startswith("old: "):
            old = line[len("old: ") :]
        elif line.startswith("new:"):
            times = made.get(file, "").count(old) if old else 0
            if times != 1:
                return [f"its old text stands {times} times in {file or 'no file'}, and not once"]
            made[file] = made[file].replace(old, re.sub("^new: ?", "", line))
            old, pairs = "", pairs + 1
    return [] if pairs else ["it has no old and new text"]


def edit_at(folder: Path, path: Path) -> Edit:
    """Reads an edit."""
    text = path.read_text(encoding="utf-8")
    breaks, so = (re.findall(rf"^# {word}: *(.+?) *$", text, re.M) for word in ("breaks", "so"))
    faults = faults_of(folder, text)
    if not breaks:
        faults.append("it has no line that says what it breaks")
    return Edit(folder.name, path.stem, breaks, so, faults)


def crate_at(folder: Path) -> Crate:
    """Reads a crate."""
    edits = [edit_at(folder, it) for it in sorted((folder / "edits").glob("*.edit"))]
    return Crate(folder.name, code_of(folder), declared_in(folder), edits)


def named(function: str, clause: str) -> str:
    """Returns the name of a clause."""
    return f"{function}.{clause}" if clause else function


def place_of(edit: Edit, said: str) -> Tuple[str, str]:
    """Returns the crate and the name of a clause that an edit breaks."""
    crate, slash, name = said.rpartition("/")
    return (crate, name) if slash else (edit.crate, said)


def is_there(crates: Dict[str, Crate], crate: str, name: str) -> bool:
    """Returns whether a crate has this clause, this function with such a goal, or declares this law or example."""
    if crate not in crates:
        return False
    other = OTHER_GOAL.fullmatch(name)
    if other:
        return other.group(1) in crates[crate].functions
    function, dot, clause = name.partition(".")
    found = crates[crate].functions.get(function)
    if found:
        return clause in found.clauses or (not dot and not found.clauses)
    return not dot and name in crates[crate].declared


class Shown(NamedTuple):
    """The edits that the prover refuses at a clause, and those for which it isn't true either."""

    refused: List[str]
    follows: List[str]


def shown(crates: Dict[str, Crate]) -> Dict[Tuple[str, str], Shown]:
    """Returns the edits beside each clause, by crate and clause."""
    by: Dict[Tuple[str, str], Shown] = {}
    for crate in crates.values():
        for edit in crate.edits:
            for said, is_refused in [*((it, True) for it in edit.breaks), *((it, False) for it in edit.so)]:
                place = place_of(edit, said)
                name = edit.name if place[0] == edit.crate else f"{edit.crate}/{edit.name}"
                one = by.setdefault(place, Shown([], []))
                (one.refused if is_refused else one.follows).append(name)
    return by


def public_clauses(crate: Crate) -> List[str]:
    """Returns the names of the clauses of a crate's public functions."""
    return [named(it.name, c) for it in crate.functions.values() if it.public for c in it.clauses]


def filled(first: str, words: List[str]) -> List[str]:
    """Returns the words as text, in lines that are no longer than the page's width."""
    lines, line = [], first
    for word in words:
        if len(line) + 1 + len(word) > WIDTH:
            lines.append(line)
            line = word
        else:
            line = f"{line} {word}" if line else word
    return lines + [line]


def counted(edits: int, clauses: int, without: int) -> str:
    """Returns the line of the counts."""
    return f"Edits: {edits}. Public clauses: {clauses}. Of these without an edit: {without}."


def in_code(names: List[str]) -> str:
    """Returns the names as code, with commas."""
    return ", ".join(f"`{it}`" for it in names)


def part_of(crate: Crate, by: Dict[Tuple[str, str], Shown]) -> List[str]:
    """Returns a crate's part of the page."""
    public = public_clauses(crate)
    rows = [c for c in public if (crate.name, c) in by]
    rows += sorted(name for place, name in by if place == crate.name and name not in public)
    without = [c for c in public if (crate.name, c) not in by]
    lines = [f"## {crate.name}", ""]
    lines += [counted(len(crate.edits), len(public), len(without))]
    if rows:
        lines += ["", "| clause | refused at it | not true either with |", "| - | - | - |"]
        lines += [f"| `{c}` | {in_code(by[crate.name, c].refused)} | {in_code(by[crate.name, c].follows)} |" for c in rows]
    if without:
        ends = ["," if it is not without[-1] else "." for it in without]
        lines += [""] + filled("Without:", [f"`{it}`{end}" for it, end in zip(without, ends)])
    return lines + [""]


HEAD = """# Edits that have to be refused

An edit is a wrong body: a changed line of code that turns what a function means. The check has to refuse it.
`make edits` tries each; the gate tries those for which something changed that their refusal rests on, and twenty more
(`checks/edits/edits.py`). So the clauses beside an edit say something: a body with this mistake isn't proved. Where a
crate has laws or examples alone, the edit turns what they state.

`docs/edits.py` writes this page from the lines `# breaks:` and `# so:` of the edits. *Refused at it* are those whose
line `# breaks:` names the clause: the prover refuses them by a goal of this clause, and each trial holds the line
against what it says. A row `FUNCTION asks CALLEE` is what the function has to show where it makes that call, and
`FUNCTION at GOAL` another goal of it, by the prover's name: what a loop or a type keeps, or that a sum fits. *Not true
either with* are those whose line `# so:` names it: the clause follows from the one that refuses. Such a line fails
where the trial shows that the function is proved all the same, and else it is a claim. An edit of another crate stands
with its crate's name. Where a clause is a record, each of its fields has a row: `run.worth.headline` is a field of the
clause `worth` of `run`.

A clause without an edit is proved like the others; no mistake is kept for it. Some of these say only what a type keeps,
which no body can make false.
"""


def page(crates: Dict[str, Crate]) -> str:
    """Returns the page."""
    by = shown(crates)
    edits = sum(len(it.edits) for it in crates.values())
    clauses = [(it.name, c) for it in crates.values() for c in public_clauses(it)]
    without = sum(1 for it in clauses if it not in by)
    counts = counted(edits, len(clauses), without)
    parts = [line for it in crates.values() for line in part_of(it, by)]
    return "\n".join([HEAD, counts, ""] + parts).rstrip("\n") + "\n"


def tried_edits(crates: Dict[str, Crate]) -> Iterator[List[str]]:
    """Tells for each edit what is wrong with it."""
    for crate in crates.values():
        for edit in crate.edits:
            at = f"crates/{crate.name}/edits/{edit.name}.edit"
            missing = [it for it in [*edit.breaks, *edit.so] if not is_there(crates, *place_of(edit, it))]
            yield [f"{at}: {it}" for it in edit.faults] + [f"{at}: there is no clause {it}" for it in missing]


def tried_needed(crates: Dict[str, Crate]) -> Iterator[List[str]]:
    """Tells for each clause that needs an edit whether it has none."""
    by = shown(crates)
    for crate, name in NEEDED:
        function = crates[crate].functions.get(name) if crate in crates else None
        if not function or not function.public or not function.clauses:
            yield [f"crates/{crate}: there is no public function {name} with a contract"]
            continue
        for it in (named(name, clause) for clause in function.clauses):
            yield [] if (crate, it) in by else [f"crates/{crate}: no edit breaks {it}"]


def tried_page(text: str) -> List[str]:
    """Tells whether the page isn't what would be written."""
    same = PAGE.is_file() and PAGE.read_text(encoding="utf-8") == text
    return [] if same else ["docs/edits.md isn't what docs/edits.py writes"]


def check(crates: Dict[str, Crate]) -> int:
    """Says what is wrong, and how much was looked at."""
    tried = [*tried_edits(crates), *tried_needed(crates), tried_page(page(crates))]
    for faults in tried:
        for it in faults:
            print(it)
    failed = sum(1 for it in tried if it)
    print(f"{len(tried) - failed} passed, {failed} failed")
    return 1 if failed else 0


def main(words: List[str]) -> int:
    """Writes the page, or with --check says what is wrong."""
    if words not in ([], ["--check"]):
        print("usage: docs/edits.py [--check]")
        return 2
    folders = [it for it in sorted((ROOT / "crates").iterdir()) if (it / "src").is_dir() and not it.name.endswith("_tests")]
    crates = {it.name: crate_at(it) for it in folders}
    if words:
        return check(crates)
    PAGE.write_text(page(crates), encoding="utf-8")
    return 0


if __name__ == "__main__":
    sys.exit(main(sys.argv[1:]))
