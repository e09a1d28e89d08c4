"""What mypy sees of the calls. It checks this file (test.sh), and an error that isn't found fails, too. It isn't run."""

from fractions import Fraction
from typing import Union

import yds


def narrowed(document: yds.Document) -> Fraction:
    """A no is false, and so a true answer of round is no TooSlow."""
    answer = document.round()
    answer.energy  # type: ignore[union-attr]
    if answer:
        return answer.energy
    compared = document.compare()
    if not compared:
        return compared.needed  # type: ignore[union-attr]
    compared.oa.energy + 1  # type: ignore[operator]
    return compared.plan.energy


def energies(plan: yds.Plan) -> Fraction:
    """Exact for a whole exponent and for a table, a float for a float."""
    of_a_float: float = plan.energy_for(2.5)
    not_exact: Fraction = plan.energy_for(2.5)  # type: ignore[assignment]
    any_slots: Fraction = yds.energy.of_slots(plan.slots, [(0, 0), (3, 9)], by="hull")
    plan.energy_for(plan.points, by="hill")  # type: ignore[call-overload]
    return plan.energy_for(3) + plan.energy_for() + any_slots + Fraction(of_a_float) + not_exact


class Index:
    """An integer of another package, as numpy's are."""

    def __index__(self) -> int:
        return 4


def rows(number: Index) -> yds.Document:
    """Integers of other packages are taken, and floats aren't."""
    yds.Document([("a", 0, 4.5, 1)])  # type: ignore[list-item]
    yds.Document([("a", 0, 4)])  # type: ignore[list-item]
    yds.schedule.judge(yds.Document(), [("a", 0, Fraction(9, 2), 1)], points="yes")  # type: ignore[arg-type]
    return yds.Document([("a", 0, number, 1)], [(0, number)])


def shown(answer: Union[yds.Rounded, yds.TooSlow]) -> bytes:
    """Both have a text."""
    return answer.text


def at_the_next_deadline(moment: yds.Moment) -> float:
    """A policy. The numbers that it sees are floats or Fractions, as the caller of simulate says."""
    return float(moment.pending[0].left / (moment.pending[0].deadline - moment.now))


def simulated(document: yds.Document) -> yds.Verdict:
    """A policy is a call from a moment to a number."""
    yds.simulate(document, lambda moment: "2")  # type: ignore[arg-type, return-value]
    return yds.simulate(document, at_the_next_deadline, every=Fraction(1, 2)).verdict
