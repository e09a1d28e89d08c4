"""second_answers.py: the answers of yds_cli by a second program, from the definitions alone.

    python3 robustness/second_answers.py WORDS .. < DOCUMENT

It takes the words of a command and an input, and gives the text and the status of each of the fourteen forms: those of
crates/yds_model/specs, docs/definitions.md, docs/format.md and docs/manual.md. It shares no code with the crates nor with
python/yds, counts with fractions, and may be slow. second_documents.py reads and writes documents, second_schedules.py
makes plans and runs, and second_verdicts.py judges slots and levels. answers.py compares it with the built program.
"""

import sys
from fractions import Fraction
from typing import Callable, Iterator, NamedTuple, Optional

from second_documents import Document, Job, Level, MOST_BYTES, MOST_GRID, Refused, document_of, is_number, lowest, tasks_of, value_of
from second_schedules import GridRun, admission, at_top, average_rate, horizon, optimal_available, plan_of, rounded, spent_on, too_fast
from second_verdicts import judgement, verdict

USAGE = (
    "usage: yds_cli plan | round | avr --grid G | oa --grid G | check | audit [--points] | report [--json]"
    " | trial SEED JOBS | expand | admit TOP | curve | compare --grid G\n"
)
MOST_TOP, MOST_SEED, MOST_DRAWN = 1_000_000, 4_294_967_295, 1_000
DONE, NO, ASKED_WRONG, REFUSED = 0, 1, 2, 3


class Answer(NamedTuple):
    """A text and a status."""

    text: str
    status: int = DONE


NO_TABLE = Answer("refused no-table\n", REFUSED)

# # The forms that answer with a document


def planned(document: Document) -> Answer:
    """`plan`: the plan with its levels."""
    plan = plan_of(document.jobs)
    return Answer(Document(document.names, document.jobs, document.points, plan.slots(), plan.levels).text())


def too_slow(document: Document, levels: list[Level]) -> Optional[Answer]:
    """The answer where the top point is slower than the first level."""
    top = document.points[-1].speed
    if not levels or levels[0].speed <= top:
        return None
    return Answer(f"too-slow work {levels[0].work} length {levels[0].length} top {top}\n", NO)


def on_points(document: Document) -> Answer:
    """`round`: the plan on the points, with its energy."""
    if not document.points:
        return NO_TABLE
    plan = plan_of(document.jobs)
    slow = too_slow(document, plan.levels)
    if slow:
        return slow
    found = rounded(plan, document.points)
    return Answer(Document(document.names, document.jobs, document.points, found.slots, energy=lowest(found.energy)).text())


def of_policy(document: Document, run: GridRun) -> Answer:
    """`avr` and `oa`: a policy's run."""
    grid = (run.grid, run.rounded)
    return Answer(Document(document.names, document.jobs, document.points, run.slots(), grid=grid).text())


def admitted(document: Document, top: int) -> Answer:
    """`admit`: the admitted jobs with their slots, and a comment for each other job."""
    taken, refused = admission(document.jobs, top)
    jobs = [document.jobs[number] for number in taken]
    run = at_top(jobs, top)
    assert run is not None
    answer = Document([document.names[number] for number in taken], jobs, document.points, run.slots())
    comments = [
        f"# refuse {document.name(one.job)} from {one.begin} to {one.end} work {one.work} top {top}\n" for one in refused
    ]
    return Answer(answer.text() + "".join(comments))


# # The forms that answer with a verdict


def audited(document: Document) -> Answer:
    """`audit`: whether the slots are feasible."""
    cause = verdict(document, None)
    return Answer(f"{cause}\n", NO) if cause else Answer("feasible\n")


def audited_on_points(document: Document) -> Answer:
    """`audit --points`: whether they also run at the points."""
    if not document.points:
        return NO_TABLE
    cause = verdict(document, document.points)
    return Answer(f"{cause}\n", NO) if cause else Answer("feasible\n")


def checked(document: Document) -> Answer:
    """`check`: whether the levels are a proper certificate of the slots."""
    cause = judgement(document)
    return Answer(f"{cause}\n", NO) if cause else Answer("accepted\n")


# # The forms that answer with numbers


def reported(document: Document) -> Answer:
    """`report`: the plan's levels as a table."""
    levels, time = plan_of(document.jobs).levels, horizon(document.jobs)
    work = sum(job.work for job in document.jobs)
    rows = [f"jobs {len(document.jobs)} work {work} from {time.begin} to {time.end}\n"]
    rows += [
        f"{place:>5} {level.work:>10} {level.length:>10} {lowest(level.speed).text()}\n" for place, level in enumerate(levels, 1)
    ]
    return Answer("".join(rows) + f"idle {idle_beside(document, levels)}\n")


def idle_beside(document: Document, levels: list[Level]) -> int:
    """For how long nothing runs."""
    time = horizon(document.jobs)
    return time.end - time.begin - sum(level.length for level in levels)


def reported_as_json(document: Document) -> Answer:
    """`report --json`: the same as one line of JSON."""
    levels, time = plan_of(document.jobs).levels, horizon(document.jobs)
    objects = ",".join(f'{{"length":{level.length},"speed":"{lowest(level.speed).text()}","work":{level.work}}}' for level in levels)
    return Answer(
        f'{{"from":{time.begin},"idle":{idle_beside(document, levels)},"jobs":{len(document.jobs)},"levels":[{objects}],'
        f'"to":{time.end},"work":{sum(job.work for job in document.jobs)}}}\n'
    )


def curved(document: Document) -> Answer:
    """`curve`: the least excess above the speed 0 and above each level's speed."""
    levels = plan_of(document.jobs).levels
    lines: list[str] = []
    for speed in [Fraction(0), *(level.speed for level in reversed(levels))]:
        excess = sum((level.work - speed * level.length for level in levels if level.speed > speed), Fraction(0))
        lines.append(f"break {lowest(speed).text()} {lowest(excess).text()}\n")
    return Answer("".join(lines))


def compared(document: Document, grid: int) -> Answer:
    """`compare`: what the plan and both policies spend on the points."""
    if not document.points:
        return NO_TABLE
    plan = plan_of(document.jobs)
    slow = too_slow(document, plan.levels)
    if slow:
        return slow
    spent = spent_on(document.jobs, document.points, plan.served)
    lines = [*spent_lines("plan", document, spent.energy, spent.times)]
    for name, run in (("avr", average_rate(document.jobs, grid)), ("oa", optimal_available(document.jobs, grid))):
        lines += [*side_lines(name, document, run), f"{name} rounded {run.rounded}\n"]
    return Answer("".join(lines))


def spent_lines(name: str, document: Document, energy: Fraction, times: list[Fraction]) -> Iterator[str]:
    """An energy, and the time at each point."""
    yield f"{name} energy {lowest(energy).text()}\n"
    for point, time in zip(document.points, times):
        yield f"{name} time {point.speed} {lowest(time).text()}\n"


def side_lines(name: str, document: Document, run: GridRun) -> Iterator[str]:
    """What a policy spends, or the first stretch for which the top point is too slow."""
    fast = too_fast(document.jobs, document.points, run.served)
    if fast is None:
        spent = spent_on(document.jobs, document.points, run.served)
        yield from spent_lines(name, document, spent.energy, spent.times)
    else:
        top = document.points[-1].speed
        yield f"{name} too-slow units {run.units_in(fast)} from {fast.begin} to {fast.end} top {top}\n"


# # The two that read no document


def expanded(data: bytes) -> Answer:
    """`expand`: the jobs of tasks."""
    return Answer("".join(line + "\n" for line in tasks_of(data).lines()))


def drawn_jobs(seed: int, many: int) -> list[Job]:
    """The jobs of a trial."""
    state = seed
    draws: list[int] = []
    for _ in range(3 * many):
        state = (1664525 * state + 1013904223) % 2**32
        draws.append(state // 65536)
    return [Job(10 * x, 10 * x + 1 + y, 1 + z) for x, y, z in zip(draws[::3], draws[1::3], draws[2::3])]


def tried(seed: int, many: int) -> Answer:
    """`trial`: the numbers of the plan of drawn jobs."""
    plan = plan_of(drawn_jobs(seed, many))
    peak = f"{plan.levels[0].work} {plan.levels[0].length}" if plan.levels else "none"
    return Answer(f"jobs {many}\nlevels {len(plan.levels)}\nslots {len(plan.served)}\npeak {peak}\naccepted\n")


# # What the words ask for

ONE: dict[bytes, Callable[[Document], Answer]] = {
    b"plan": planned, b"round": on_points, b"check": checked, b"audit": audited, b"report": reported, b"curve": curved,
}
TWO: dict[tuple[bytes, bytes], Callable[[Document], Answer]] = {
    (b"audit", b"--points"): audited_on_points, (b"report", b"--json"): reported_as_json,
}
GRID: dict[bytes, Callable[[Document, int], Answer]] = {
    b"avr": lambda document, grid: of_policy(document, average_rate(document.jobs, grid)),
    b"oa": lambda document, grid: of_policy(document, optimal_available(document.jobs, grid)),
    b"compare": compared,
}


def number_in(word: bytes, least: int, most: int) -> Optional[int]:
    """The number that a word is, if it is one between these."""
    return value_of(word) if is_number(word) and least <= value_of(word) <= most else None


def of_document(words: list[bytes]) -> Optional[Callable[[Document], Answer]]:
    """What the words ask of a document; None where they ask nothing."""
    if len(words) == 1:
        return ONE.get(words[0])
    if len(words) == 2 and words[0] == b"admit":
        top = number_in(words[1], 1, MOST_TOP)
        return None if top is None else lambda document: admitted(document, top)
    if len(words) == 2:
        return TWO.get((words[0], words[1]))
    if len(words) == 3 and words[0] in GRID and words[1] == b"--grid":
        grid, policy = number_in(words[2], 1, MOST_GRID), GRID[words[0]]
        return None if grid is None else lambda document: policy(document, grid)
    return None


def of_trial(words: list[bytes]) -> Optional[tuple[int, int]]:
    """The seed and the jobs of a trial; None where the words ask for none."""
    if len(words) != 3 or words[0] != b"trial":
        return None
    seed, many = number_in(words[1], 0, MOST_SEED), number_in(words[2], 0, MOST_DRAWN)
    return None if seed is None or many is None else (seed, many)


def answer(words: list[bytes], data: bytes) -> Answer:
    """The one answer to words and an input."""
    trial, asked = of_trial(words), of_document(words)
    if trial is not None:
        return tried(*trial)
    if asked is None and words != [b"expand"]:
        return Answer(USAGE, ASKED_WRONG)
    if len(data) > MOST_BYTES:
        return Answer("refused too-long\n", REFUSED)
    try:
        return asked(document_of(data)) if asked else expanded(data)
    except Refused as refused:
        return Answer(refused.text(), REFUSED)


if __name__ == "__main__":
    said = answer([word.encode() for word in sys.argv[1:]], sys.stdin.buffer.read())
    sys.stdout.write(said.text)
    sys.exit(said.status)
