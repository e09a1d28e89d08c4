"""answers.py: draws documents, and holds the answers of yds_cli against those of a second program, for each form of command.

    python3 robustness/answers.py [SEED] [DOCUMENTS] [PROGRAM]
    python3 robustness/answers.py one FORM SEED NUMBER [PROGRAM]     one input alone, with both answers
    python3 robustness/answers.py rows                               the second program alone, on each row of examples/rows

Laws say that each form of command has one answer to each input, a text and a status. So two programs that keep to the
definitions write the same bytes. The second program is second_answers.py, which is made from the definitions alone.
It draws DOCUMENTS inputs (200) for each of the fourteen forms by drawn_documents.py, and runs PROGRAM on each, which was
built, as build/yds_cli. With 1,000 or more it also tries inputs at the limits of counts and bytes. Without PROGRAM a
small program over the crate `yds_run` does the same on each drawn input, and `rt try` builds it, unproved. Before the
last line it tells how many answers there were of each kind, by form. The last line is 'N passed, M failed'. The status is
1 where an answer differs, and also where of 2,000 documents or more fewer than 20 had an answer of WANTED.
"""

import os
import re
import subprocess
import sys
import tempfile
from collections import Counter
from concurrent.futures import ThreadPoolExecutor
from functools import partial
from pathlib import Path
from typing import Iterator, NamedTuple

from drawn_documents import FORMS, Drawn, drawn, great
from second_answers import ASKED_WRONG, REFUSED, Answer, answer
from trace import Case, lay_out, try_laid_out

REASONS = [
    "UnknownKind", "Misplaced", "FieldCount", "BadName", "DuplicateName", "UnknownName", "BadNumber", "OutOfRange", "EmptyWindow", "MixedEnds",
    "MixedGrain", "NoIdle", "NotRising", "GapsTooFine",
]
WANTED = [
    *(f"refused {reason}" for reason in REASONS), "refused no-table", "refused TooManyJobs", "usage",
    *(f"{form}: {word}" for form in ("audit", "audit --points") for word in ("feasible", "backward", "overlap", "early", "late", "work")),
    "audit --points: off-point", "check: accepted", *(f"check: K{number}" for number in range(1, 8)),
    "round: done", "round: too-slow", "compare: too-slow", "compare: done", "compare: avr too-slow", "compare: oa too-slow",
    "admit: nothing refused", "admit: refused", "avr: never rounded", "avr: rounded", "oa: never rounded", "oa: rounded",
    "expand: one level", "expand: no level", "plan: no level", "plan: one level", "plan: several levels", "plan: a level in several pieces",
    "plan: a fraction", "round: a fraction", "trial: no level", "trial: levels",
]
LEAST, OF = 20, 2_000
FORM_WORDS = {word.encode() for form in FORMS for word in form.split()}

# # What kind an answer is of


def in_slots(text: str) -> Iterator[str]:
    """What a plan shows, or its rounding."""
    levels = re.findall(r"^level .*\n((?:piece .*\n)*)", text, re.M)
    yield "no level" if not levels else "one level" if len(levels) == 1 else "several levels"
    if any(pieces.count("\n") > 1 for pieces in levels):
        yield "a level in several pieces"
    if re.search(r"^slot .*/", text, re.M):
        yield "a fraction"


def kinds_of(words: "list[bytes]", said: Answer) -> Iterator[str]:
    """Of which kinds an answer to words is."""
    text, form = said.text, b" ".join(word for word in words if word in FORM_WORDS).decode()
    if said.status == ASKED_WRONG:
        yield "usage"
    elif said.status == REFUSED:
        yield f"refused {text.split()[-1]}"
    else:
        yield from (f"{form}: {kind}" for kind in in_answer(form, text))


def in_answer(form: str, text: str) -> Iterator[str]:
    """What the answer of a form shows that isn't refused."""
    first = text.partition(" ")[0].strip()
    if form.startswith(("audit", "check")):
        yield first
    elif form == "plan":
        yield from in_slots(text)
    elif form == "round":
        yield from ["too-slow"] if first == "too-slow" else ["done", *(["a fraction"] if re.search(r"^slot .*/", text, re.M) else [])]
    elif form == "compare":
        yield "too-slow" if first == "too-slow" else "done"
        yield from (f"{side} too-slow" for side in ("avr", "oa") if f"\n{side} too-slow" in text)
    elif form in ("avr", "oa"):
        yield "never rounded" if text.endswith(" 0\n") else "rounded"
    elif form == "admit":
        yield "refused" if "\n# refuse" in "\n" + text else "nothing refused"
    elif form == "expand":
        yield "one level" if "# one level" in text else "no level"
    elif form == "trial":
        yield "no level" if "peak none" in text else "levels"
    else:
        yield "done"


# # Comparing


class Told(NamedTuple):
    """What the program writes, and its status."""

    text: bytes
    status: int


def run(program: str, case: Drawn) -> Told:
    """Runs the program."""
    done = subprocess.run([program.encode(), *case.words], input=case.data, capture_output=True, check=False)
    return Told(done.stdout + done.stderr, done.returncode)


def is_same(case: Drawn, told: Told, said: Answer) -> bool:
    """Whether the program gives this answer. Where it doesn't, both are shown."""
    same = told == (said.text.encode("ascii"), said.status)
    if not same:
        show(case, told, said)
    return same


def show(case: Drawn, told: Told, said: Answer) -> None:
    """Both answers."""
    sys.stdout.flush()
    parts = [repr(case.words).encode(), case.data[:3_000], b"-- the program, status %d" % told.status, told.text[:3_000],
             b"-- the second program, status %d" % said.status, said.text[:3_000].encode(), b"--\n"]
    sys.stdout.buffer.write(b"\n".join(parts))
    sys.stdout.flush()


def tell(form: str, seed: int, numbers: "list[int]", many: int) -> int:
    """Tells of which inputs of a form the answers differ. Gives how many these are."""
    for number in numbers:
        print(f"the answers to number {number} of seed {seed} differ, of the form {form}")
    print(f"{form}: {many - len(numbers)} the same, {len(numbers)} different", flush=True)
    return len(numbers)


def try_built(program: str, seed: int, many: int, counts: "Counter[str]") -> "tuple[int, int]":
    """Compares the built program's answers. Gives how many are tried, and how many differ."""
    tried = failed = 0
    for form in FORMS:
        cases = [drawn(form, seed, number) for number in range(many)]
        wrong: "list[int]" = []
        with ThreadPoolExecutor(2) as pool:
            for number, (case, told) in enumerate(zip(cases, pool.map(partial(run, program), cases))):
                said = answer(*case)
                counts.update(set(kinds_of(case.words, said)))
                wrong += [] if is_same(case, told, said) else [number]
        tried, failed = tried + many, failed + tell(form, seed, wrong, many)
    for case in great() if many >= 1_000 else []:
        tried, failed = tried + 1, failed + (not is_same(case, run(program, case), answer(*case)))
    return tried, failed


def try_unproved(seed: int, many: int, counts: "Counter[str]") -> "tuple[int, int]":
    """Builds the small program, unproved, and compares its answers. Gives how many are tried, and how many differ."""
    drawn_all = [drawn(form, seed, number) for form in FORMS for number in range(many)]
    cases: "list[Case]" = []
    for case in drawn_all:
        said = answer(*case)
        counts.update(set(kinds_of(case.words, said)))
        cases.append(Case([word.decode("ascii") for word in case.words], case.data, said.text, said.status))
    with tempfile.TemporaryDirectory() as folder:
        wrong, told = try_laid_out(lay_out(Path(folder), "yds_run"), cases)
    for at in wrong[:5]:
        show(drawn_all[at], Told(b"another text or status", -1), Answer(cases[at].text, cases[at].status))
    if len(wrong) == len(cases):
        print(told[-3_000:])
    for place, form in enumerate(FORMS):
        tell(form, seed, [at - place * many for at in wrong if at // many == place], many)
    return len(cases), len(wrong)


def try_rows() -> int:
    """Whether the second program gives each stored answer. Gives the status."""
    failed = 0
    rows = sorted(Path("examples/rows").iterdir())
    for row in rows:
        named = row / "document"
        data = (Path("examples") / named.read_text(encoding="utf-8").strip() if named.is_file() else row / "stdin").read_bytes()
        case = Drawn((row / "args").read_bytes().splitlines(), data)
        stored = Told((row / "stdout").read_bytes(), int((row / "status").read_text(encoding="utf-8")))
        failed += not is_same(case, stored, answer(*case))
    print(f"{len(rows) - failed} passed, {failed} failed", flush=True)
    return int(failed > 0)


def show_one(words: "list[str]") -> int:
    """One input alone, with both answers."""
    case = drawn(words[0], int(words[1]), int(words[2]))
    show(case, run(words[3], case) if len(words) > 3 else Told(b"", -1), answer(*case))
    return 0


def main(words: "list[str]") -> int:
    """Draws the documents, compares, and tells the counts. Gives the status."""
    if words[:1] == ["one"]:
        return show_one(words[1:])
    if words == ["rows"]:
        return try_rows()
    seed, many = (int(words[place]) if len(words) > place else default for place, default in ((0, 1), (1, 200)))
    counts: "Counter[str]" = Counter()
    tried, failed = try_built(words[2], seed, many, counts) if len(words) > 2 else try_unproved(seed, many, counts)
    print(", ".join(f"{count} {kind}" for kind, count in sorted(counts.items())))
    few = [kind for kind in WANTED if counts[kind] < LEAST] if many >= OF else []
    if few:
        print(f"too few: {', '.join(f'{counts[kind]} {kind}' for kind in few)}")
    print(f"{tried - failed} passed, {failed + len(few)} failed", flush=True)
    return int(failed + len(few) > 0)


if __name__ == "__main__":
    here = [os.path.abspath(word) if word.endswith("yds_cli") else word for word in sys.argv[1:]]
    os.chdir(Path(__file__).resolve().parent.parent)
    sys.exit(main(here))
