"""yds-slots: the schedule of another program as a document that `audit` and `check` read."""

from __future__ import annotations

import sys
from fractions import Fraction
from typing import Callable, List, Sequence

from yds._foreign import number
from yds._text import counted, lines
from yds._words import DONE, Command, Files, Given, Option, WordsError, run
from yds.foreign import Foreign, Nearby, nearby, read, spelled, told

COMMAND = Command(
    "yds-slots",
    "the schedule of another program, with decimals or fractions, as a document that `audit` and `check` read",
    """
    yds-slots schedule.txt > exact.txt                  each number at its word: 0.25 is 1/4, 0.333333 is 333333/1000000
    yds-slots --most 0.000001 schedule.txt > near.txt   numbers moved by at most so much

Input: a document whose numbers may be 3, 1.25, 2.5e-3, 10/3 or 3+1/3: `slot NAME FROM TO WORK` lines in any order,
`job` lines with whole values (4 or 4.0), and other lines as a document has them. Output: the other lines, then the
slots in the order of their times, the ends of each over one denominator and the works of each job over one denominator.

Without --most no number is moved: the document says just what the input says, and so does a verdict on it. A schedule
that can't be written so, since a denominator would be above 2^60, is refused. With --most E, below 1/2 and above 0, the
schedule is one near the input:

  - each end becomes the fraction of least denominator within E of it. Whole numbers stay, and the order of any two ends
    stays, so what was in time, after its release and apart is so still. An end that was beyond a bound by at most E, or
    two that overlapped by at most 2 E, may come to lie on it: a comment says how often, by how much, and where first;
  - the works of a job become the fractions of least denominator within E of them, where these add up to the job's work.
    Else they stay where they add up to it already; else all move by one amount of at most E so that they do, and a
    comment says so; where that isn't enough they stay, and the audit will say what is wrong;
  - with point lines, a slot may come to a point's speed, or off it: a comment says how often.

Comments at the top tell the greatest error, a move of a number; with error 0 the document is the input at its word. A
slot without work, or without any once it is moved, is left out, and a number below 0 by at most E becomes 0: comments
say how many.
""",
    [
        Option("most", "how far a number may be moved, in units of time for times and in units of work for works", "E"),
        Option(
            "speeds",
            "the last field of a slot is its speed: its work is speed times time. With --most it is so for the ends as they "
            "are moved, where these works add up to the job's; else for the ends of the input, and then the works are moved "
            "as above",
        ),
    ],
    Files("SCHEDULE", 0, 1),
    "0 done; 1 a fault in the input; 2 a fault of the words. After both faults `failed` is written, which yds_cli refuses.",
    writes_document=True,
)


def main(words: Sequence[str]) -> int:
    """Writes the document of the file's schedule, or of standard input's."""
    return run(COMMAND, words, tell)


def tell(given: Given, write: Callable[[str], None]) -> int:
    """Writes the comments, the other lines, and the slots."""
    most = Fraction(0) if given.most is None else number(given.most)
    if most is None or not 0 <= most < Fraction(1, 2):
        raise WordsError(f"--most {given.most} is no number from 0 to below 1/2")
    schedule = read(lines(given.files), most, given.speeds)
    found = nearby(schedule)
    for line in [*comments(found), *below(schedule), *after(found), *schedule.others]:
        write(line)
    for slot in found.slots:
        ends = f"{spelled(slot.start, slot.per)} {spelled(slot.end, slot.per)}"
        write(f"slot {slot.job} {ends} {spelled(slot.work, slot.grain)}")
    return DONE


def comments(found: Nearby) -> List[str]:
    """How far the document is from the input."""
    error = f"at most {told(found.error)}, the greatest in {found.place}" if found.error else "0"
    lines = [f"# {counted(len(found.slots), 'slot', 'slots')} of another program, error {error}"]
    if found.mends:
        worst = told(max(mend.amount for mend in found.mends))
        how = counted(len(found.mends), "condition fails", "conditions fail")
        holds = "holds" if len(found.mends) == 1 else "hold"
        lines.append(f"# {how} in the input and {holds} here, by at most {worst}; the first: {found.mends[0].told}")
    return lines


def below(schedule: Foreign) -> List[str]:
    """What was a little below 0."""
    if not schedule.below:
        return []
    how = counted(len(schedule.below), "number is", "numbers are")
    return [f"# {how} below 0 in the input and 0 here, by at most {told(max(schedule.below))}"]


def after(found: Nearby) -> List[str]:
    """What became of slots."""
    lines = []
    if found.to_points:
        lines.append(f"# {_slots_are(found.to_points)} at a point's speed here and not in the input")
    if found.off_points:
        where = f"the first in line {found.first_off}"
        lines.append(f"# {_slots_are(found.off_points)} at a point's speed in the input and not here, {where}")
    if found.is_sorted:
        lines.append("# the slots are sorted by time")
    if found.left_out:
        how = counted(found.left_out, "slot", "slots")
        lines.append(f"# left out: {how} without work, the first in line {found.first_left_out}")
    return lines


def _slots_are(number: int) -> str:
    return counted(number, "slot is", "slots are")


if __name__ == "__main__":
    sys.exit(main(sys.argv[1:]))
