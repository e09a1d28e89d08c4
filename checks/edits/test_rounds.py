"""test_rounds.py: tries the rounds of refused edits and their record, with a small crate, and with faults that are planted in it.

    python3 checks/edits/test_rounds.py            what the prover says is stored
    python3 checks/edits/test_rounds.py --prover   the prover itself tries the small crate, in some twelve seconds of a processor

The last line is 'N passed, M failed'.
"""

import contextlib
import io
import sys
import tempfile
import unittest
from pathlib import Path
from typing import Callable, Dict, List, Optional, Sequence, Tuple

import citing
import edits
import functions
import record
import rounds
import trials
import verdicts
from edit_files import Change, read_edits

CODE = """//! The smaller and the larger of numbers.
#![tactic(auto)]

ghost use Rattle.std.specs.Prelude.{◌≡◌, ◌≤◌, ◌<◌, ◌+◌};

/// The smaller of two.
pub fn smaller(a: u32, b: u32) -> u32
    ensures first { result ≤ a }
    ensures second { result ≤ b }
{
    if a < b { a } else { b }
}

/// The larger of two.
pub fn larger(a: u32, b: u32) -> u32
    ensures first { a ≤ result }
    ensures second { b ≤ result }
{
    if a < b { b } else { a }
}

/// The next number.
pub fn next(a: u32) -> u32
    requires { a < 4000000000 }
    ensures { result ≡ a + 1 }
{
    a + 1
}

/// The one behind the smaller of two.
pub fn behind(a: u32, b: u32) -> u32
    requires { a < 4000000000 }
    ensures { result ≤ a + 1 }
{
    next(smaller(a, b))
}
"""

EDITS = {
    "larger_given": ("if a < b { a }", "if b < a { a }", "breaks: smaller.first", "breaks: smaller.second"),
    "number_itself": ("    a + 1\n", "    a\n", "breaks: next", "so: behind"),
    "second_number": ("next(smaller(a, b))", "next(b)", "breaks: behind asks next"),
}
"""Edits that are refused: what each replaces, and its lines."""

TRUE = ("if a < b { b }", "if a <= b { b }", "breaks: larger.first")
"""An edit that means the same as before."""

SAID = {
    "larger_given": (
        "note: src/lib.rt:7:1: it is not proved that what the function ensures holds when it returns (`returns-then-b-a-clause-second`)",
        "note: src/lib.rt:7:1: it is not proved that what the function ensures holds when it returns (`returns-else-b-a-clause-first`); the facts"
        " known there allow values at which this goal is false",
        "fn low::smaller: no proof: expected answers in ./proofs/smaller/Answers.antt; `search` did not prove `returns-then-b-a-clause-second`,"
        " `returns-else-b-a-clause-first`",
    ),
    "number_itself": (
        "note: src/lib.rt:23:1: it is not proved that what the function ensures holds when it returns (`returns`)",
        "fn low::next: no proof: expected answers in ./proofs/next/Answers.antt; `search` did not prove `returns`",
    ),
    "second_number": (
        "note: src/lib.rt:35:5: it is not proved that what `next` requires holds at this call (`next-requires`)",
        "fn low::behind: no proof: expected answers in ./proofs/behind/Answers.antt; `search` did not prove `next-requires`; it calls"
        " `low::next`, which is not proved",
    ),
}
"""What the prover says of each."""

FUNCTION_OF = {"larger_given": "smaller", "number_itself": "next", "second_number": "behind"}

HIDDEN = "fn low::behind: no proof: it calls `low::next`, which is not proved"
"""What the prover says of a function with a file of answers, of which a callee isn't proved."""


def edit_text(old: str, new: str, *lines: str) -> str:
    """Gives the text of an edit of the small crate's code."""
    pair = f"file: src/lib.rt\nold: {old.strip(chr(10))}\nnew: {new.strip(chr(10))}\n"
    return pair + "".join(f"# {line}\n" for line in lines)


class Small(unittest.TestCase):
    """Each test has a repository of one crate, or of several that stand on one another."""

    def setUp(self) -> None:
        folder = tempfile.TemporaryDirectory()
        self.addCleanup(folder.cleanup)
        self.top = Path(folder.name)
        self.write("crates.txt", "low:\n")
        self.write("crates/low/src/lib.rt", CODE)
        for name, parts in EDITS.items():
            self.edit(name, *parts)
        self.asked: List[Tuple[List[str], List[str]]] = []

    def write(self, name: str, text: str) -> None:
        path = self.top / name
        path.parent.mkdir(parents=True, exist_ok=True)
        path.write_text(text, encoding="utf-8")

    def edit(self, name: str, *parts: str) -> None:
        self.write(f"crates/low/edits/{name}.edit", edit_text(*parts))

    def run_edits(self, *words: str, prover: Optional[Callable[[Sequence[str], Sequence[Change]], trials.Ran]] = None) -> List[str]:
        """Runs the tool in the repository, and gives the lines that it writes. Its prover is a stored one, unless '--prover' is asked for."""
        test, kept = self, (edits.ROOT, edits.RECORD, edits.Trying.check, trials.identity)

        def check(_: edits.Trying, name: str, only: Sequence[str], changes: Sequence[Change]) -> trials.Ran:
            test.asked.append((list(only), sorted(one.new for one in changes)))
            return (prover or test.stored)(only, changes)

        edits.ROOT, edits.RECORD = self.top, self.top / "checks" / "edits" / "refused.txt"
        edits.RECORD.parent.mkdir(parents=True, exist_ok=True)
        setattr(edits.Trying, "check", check)
        setattr(trials, "identity", lambda: "the kit of the test")
        try:
            with contextlib.redirect_stdout(io.StringIO()) as told:
                self.status = edits.main(words)
        finally:
            edits.ROOT, edits.RECORD = kept[0], kept[1]
            setattr(edits.Trying, "check", kept[2])
            setattr(trials, "identity", kept[3])
        return told.getvalue().splitlines()

    def stored(self, only: Sequence[str], changes: Sequence[Change]) -> trials.Ran:
        """Says what is stored of the functions that are edited, and that the others are proved."""
        code = rounds.read_crate(self.top / "crates" / "low")
        turned = {rounds.function_of_change(it, code.files) for it in changes}
        waits = [HIDDEN] if "next" in turned and "behind" not in turned else []
        hidden = {*FUNCTION_OF.values()} & turned | ({"behind"} if waits else set())
        lines = waits + [f"fn low::{it}: proved" for it in code.functions if it not in hidden]
        lines += [line for name, said in SAID.items() if FUNCTION_OF[name] in turned for line in said]
        return self.ran([*lines, "logic=not-proved" if not turned <= {"larger"} else "logic=proved"])

    def ran(self, lines: Sequence[str]) -> trials.Ran:
        """Gives a check that ended so."""
        return trials.Ran(0 if lines[-1] == "logic=proved" else 1, "\n".join(lines) + "\n", 1.0, 1)

    def fault(self, lines: Sequence[str]) -> List[str]:
        """Gives what is told of edits, without their folder."""
        return [line.replace("crates/low/edits/", "") for line in lines if line.startswith("crates/low/edits/")]


class Rounds(Small):
    """What a round says of its edits."""

    def test_all_are_refused_in_one_round(self) -> None:
        lines = self.run_edits("--all")
        self.assertEqual(lines[-1], "3 passed, 0 failed")
        self.assertEqual(self.asked, [(["smaller", "next", "behind"], ["", "b", "b < a"])])

    def test_a_true_edit_is_not_refused_though_others_are(self) -> None:
        self.edit("means_the_same", *TRUE)
        lines = self.run_edits("--all")
        self.assertEqual(lines[-1], "3 passed, 1 failed")
        self.assertEqual(len(self.asked), 1)
        self.assertIn("means_the_same.edit: NOT REFUSED", self.fault(lines)[0])

    def test_a_wrong_clause(self) -> None:
        self.edit("second_number", *EDITS["second_number"][:2], "breaks: behind")
        lines = self.run_edits("--all")
        self.assertEqual(lines[-1], "2 passed, 1 failed")
        self.assertEqual(
            self.fault(lines),
            ["second_number.edit: it isn't refused at `# breaks: behind`, but at behind asks next"],
        )

    def test_one_true_line_does_not_hide_a_wrong_one(self) -> None:
        self.edit("number_itself", *EDITS["number_itself"][:2], "breaks: next", "breaks: smaller.first")
        lines = self.run_edits("--all")
        self.assertEqual(lines[-1], "2 passed, 1 failed")

    def test_no_line_that_says_what_it_breaks(self) -> None:
        self.edit("number_itself", *EDITS["number_itself"][:2])
        self.assertIn("number_itself.edit: it has no line `# breaks:`", self.fault(self.run_edits("--all")))

    def test_what_is_proved_does_not_follow(self) -> None:
        self.edit("number_itself", *EDITS["number_itself"][:2], "breaks: next", "so: larger.first")
        lines = self.fault(self.run_edits("--all"))
        self.assertEqual(lines, ["number_itself.edit: `# so: larger.first` isn't so: it is still proved"])

    def test_what_is_proved_by_an_invariant_that_is_not_kept_may_follow(self) -> None:
        self.edit("number_itself", *EDITS["number_itself"][:2], "breaks: next at invariant_of-result", "so: larger.first")

        def prover(only: Sequence[str], changes: Sequence[Change]) -> trials.Ran:
            said = self.stored(only, changes).text.replace("prove `returns`", "prove `invariant_of-result`")
            return self.ran([line for line in said.splitlines() if "(`returns`)" not in line])

        self.assertEqual(self.run_edits("--all", prover=prover)[-1], "3 passed, 0 failed")

    def test_a_function_that_is_hidden_by_its_callee_goes_into_a_later_round(self) -> None:
        def prover(only: Sequence[str], changes: Sequence[Change]) -> trials.Ran:
            said = self.stored(only, changes)
            if len(changes) > 1:
                lines = [line for line in said.text.splitlines() if "next-requires" not in line]
                return self.ran([HIDDEN, *lines])
            return said

        lines = self.run_edits("--all", prover=prover)
        self.assertEqual(lines[-1], "3 passed, 0 failed")
        self.assertEqual([only for only, _ in self.asked], [["smaller", "next", "behind"], ["behind"]])

    def test_an_edit_that_shows_no_goal_of_its_own_when_tried_alone(self) -> None:
        def prover(only: Sequence[str], changes: Sequence[Change]) -> trials.Ran:
            lines = [line for line in self.stored(only, changes).text.splitlines() if "next-requires" not in line]
            return self.ran([HIDDEN, *lines])

        lines = self.run_edits("--all", prover=prover)
        self.assertEqual(lines[-1], "2 passed, 1 failed")
        self.assertIn("second_number.edit: NOT TRIED: no goal of its own is refused", self.fault(lines)[0])

    def test_two_edits_of_one_function_are_in_two_rounds(self) -> None:
        self.edit("first_given", "{ a } else { b }", "{ a } else { a }", "breaks: smaller.second")
        self.run_edits("--all")
        self.assertEqual([only for only, _ in self.asked], [["smaller", "next", "behind"], ["smaller"]])

    def test_an_edit_that_cannot_be_applied(self) -> None:
        self.edit("number_itself", "a + 2", "a", "breaks: next")
        lines = self.run_edits("--all")
        self.assertEqual(lines[-1], "2 passed, 1 failed")

    def test_an_edit_that_cannot_be_compiled_takes_no_other_with_it(self) -> None:
        self.edit("number_itself", "    a + 1\n", "    a + one\n", "breaks: next")

        def prover(only: Sequence[str], changes: Sequence[Change]) -> trials.Ran:
            if any("one" in it.new for it in changes):
                return self.ran(["src/lib.rt:27:9: error[unknown-name]: cannot find value `one` in this scope"])
            return self.stored(only, changes)

        lines = self.run_edits("--all", prover=prover)
        self.assertEqual(lines[-1], "2 passed, 1 failed")
        self.assertEqual([only for only, _ in self.asked][1:], [["smaller", "behind"], ["next"]])
        self.assertIn("number_itself.edit: BAD EDIT", self.fault(lines)[0])

    def test_a_check_that_says_nothing(self) -> None:
        def prover(only: Sequence[str], changes: Sequence[Change]) -> trials.Ran:
            return trials.Ran(-9, "", 1.0, 1)

        lines = self.run_edits("--all", prover=prover)
        self.assertEqual(lines[-1], "0 passed, 3 failed")
        self.assertTrue(all("NOT TRIED" in line for line in self.fault(lines)))

    def test_a_name_that_an_edit_took_away_says_little(self) -> None:
        rejected = "./proofs/behind/Answers.antt:4:9: error: `next-requires`: `c.smaller` has no field `result`"

        def prover(only: Sequence[str], changes: Sequence[Change]) -> trials.Ran:
            lines = [line for line in self.stored(only, changes).text.splitlines() if "next-requires" not in line]
            return self.ran([rejected, "fn low::behind: not proved", *lines])

        lines = self.run_edits("--all", prover=prover)
        self.assertEqual(lines[-1], "3 passed, 0 failed")
        self.assertIn("only because a proof names what the edit took away", self.fault(lines)[0])

    def test_another_name_for_a_function(self) -> None:
        def prover(only: Sequence[str], changes: Sequence[Change]) -> trials.Ran:
            if only:
                return trials.Ran(2, "rattle: error: `low` has no function `next`: help: write the name\n", 1.0, 1)
            return self.stored(only, changes)

        self.assertEqual(self.run_edits("--all", prover=prover)[-1], "3 passed, 0 failed")
        self.assertEqual([only for only, _ in self.asked], [["smaller", "next", "behind"], []])


STATEMENTS = """-- Of numbers.
use Rattle.std.specs.Prelude.{◌≡◌, ◌≤◌, ℕ}

abbrev pub IsSmall : ℕ → Type 0
IsSmall n = n ≤ 9

abbrev pub IsLarge : ℕ → Type 0
IsLarge n = 90 ≤ n

abbrev pub SmallAreFew : Type 0
SmallAreFew = (n : ℕ) → IsSmall n → n ≤ 9
"""

LEMMAS = """-- Of small and large numbers.
use Rattle.low.specs.Numbers.{IsSmall, IsLarge, SmallAreFew}

nine : IsSmall 9
nine = search

ninety : IsLarge 90
ninety = search
"""

BOTH = """
both : IsLarge 99
both = grind (nine, ninety)
"""


class Statements(Small):
    """Edits of definitions, in one round."""

    def setUp(self) -> None:
        super().setUp()
        for it in (self.top / "crates/low/edits").iterdir():
            it.unlink()
        self.write("crates/low/specs/Numbers.antt", STATEMENTS)
        self.write("crates/low/proofs/Lemmas.antt", LEMMAS)
        self.write("crates/low/edits/small.edit", "file: specs/Numbers.antt\nold: IsSmall n = n ≤ 9\nnew: IsSmall n = n ≤ 8\n# breaks: nine\n")
        self.write("crates/low/edits/large.edit", "file: specs/Numbers.antt\nold: 90 ≤ n\nnew: 91 ≤ n\n# breaks: ninety\n")

    def refused(self, *names: str) -> Callable[[Sequence[str], Sequence[Change]], trials.Ran]:
        """Gives a prover that refuses these declarations where what they cite is edited."""

        def prover(_: Sequence[str], changes: Sequence[Change]) -> trials.Ran:
            said = {"nine": "8", "ninety": "1", "both": "1", "seventy": "69"}
            lines = [
                f"./proofs/{'Others' if name == 'seventy' else 'Lemmas'}.antt:5:8: error: `{name}`: `search` found no proof"
                for name in names
                if any(said[name] in it.new for it in changes)
            ]
            return self.ran([*lines, "logic=not-proved" if lines else "logic=proved"])

        return prover

    def test_each_is_refused_by_what_cites_it_alone(self) -> None:
        lines = self.run_edits("--all", prover=self.refused("nine", "ninety"))
        self.assertEqual(lines[-1], "2 passed, 0 failed")
        self.assertEqual(len(self.asked), 1)

    def test_of_edits_that_one_declaration_cites_each_has_a_round(self) -> None:
        self.write("crates/low/proofs/Lemmas.antt", LEMMAS + BOTH)
        numbers = "abbrev pub IsNumber : ℕ → Type 0\nIsNumber n = n ≤ 70\n"
        self.write("crates/low/specs/Others.antt", numbers)
        self.write("crates/low/proofs/Others.antt", "use Rattle.low.specs.Others.{IsNumber}\n\nseventy : IsNumber 70\nseventy = search\n")
        self.write("crates/low/edits/other.edit", "file: specs/Others.antt\nold: n ≤ 70\nnew: n ≤ 69\n# breaks: seventy\n")
        lines = self.run_edits("--all", prover=self.refused("nine", "ninety", "seventy"))
        self.assertEqual(lines[-1], "3 passed, 0 failed")
        self.assertEqual([new for _, new in self.asked], [["1", "69"], ["8"]])

    def test_a_wrong_line_of_a_statement_is_tried_alone(self) -> None:
        self.write("crates/low/edits/large.edit", "file: specs/Numbers.antt\nold: 90 ≤ n\nnew: 91 ≤ n\n# breaks: nine\n")
        lines = self.run_edits("--all", prover=self.refused("nine", "ninety"))
        self.assertEqual(lines[-1], "1 passed, 1 failed")
        self.assertEqual(len(self.asked), 2)
        self.assertIn("large.edit: it isn't refused at `# breaks: nine`, but at ninety", self.fault(lines)[0])

    def test_a_true_edit_beside_a_refused_one(self) -> None:
        lines = self.run_edits("--all", prover=self.refused("nine"))
        self.assertEqual(lines[-1], "1 passed, 1 failed")
        self.assertIn("large.edit: NOT REFUSED", self.fault(lines)[0])

    def test_what_cites_none_of_them_shows_that_texts_do_not_tell_all(self) -> None:
        def prover(only: Sequence[str], changes: Sequence[Change]) -> trials.Ran:
            said = self.refused("nine", "ninety")(only, changes).text.splitlines()
            return self.ran(["./proofs/Others.antt:5:8: error: `other`: `search` found no proof", *said])

        self.assertEqual(self.run_edits("--all", prover=prover)[-1], "2 passed, 0 failed")
        self.assertEqual(len(self.asked), 3)

    def test_who_cites_whom(self) -> None:
        folder = self.top / "crates" / "low"
        crate = rounds.read_crate(folder)
        small = rounds.target_of(crate, read_edits(folder)[1])
        self.assertEqual(
            small.reached,
            {"specs/Numbers.antt IsSmall", "specs/Numbers.antt SmallAreFew", "proofs/Lemmas.antt nine"},
        )


class Records(Small):
    """The record: which lines are fresh, and what is held against it."""

    def setUp(self) -> None:
        super().setUp()
        self.write("crates.txt", "low:\nhigh: middle\nmiddle: low\n")
        self.write("crates/middle/src/lib.rt", "pub fn twice(a: u32) -> u32\n    ensures { result ≡ a + a }\n{\n    a + a\n}\n")
        self.write("crates/high/src/lib.rt", "pub fn four(a: u32) -> u32\n    ensures { result ≡ a }\n{\n    twice(a)\n}\n")
        for crate, old in (("middle", "    a + a"), ("high", "twice(a)")):
            self.write(f"crates/{crate}/edits/none.edit", f"file: src/lib.rt\nold: {old}\nnew: 0\n# breaks: it\n")
        known = {label: record.Refusal(sum_, self.goal(label)) for label, sum_ in self.sums().items()}
        self.write("checks/edits/refused.txt", "")
        record.write_record(self.top / "checks/edits/refused.txt", known)

    def goal(self, label: str) -> str:
        return {"low/larger_given": "smaller returns-else-b-a-clause-first", "low/number_itself": "next returns"}.get(
            label, "behind next-requires"
        )

    def sums(self) -> Dict[str, str]:
        lines = trials.read_lines((self.top / "crates.txt").read_text(encoding="utf-8"))
        sums = record.Sums(self.top / "crates", lines, "the kit of the test")
        all_edits = [it for folder in sorted((self.top / "crates").iterdir()) for it in read_edits(folder)]
        return {it.label(): sums.of(it) for it in all_edits}

    def changed(self, name: str, old: str, new: str) -> List[str]:
        """Changes a file, and gives the edits whose lines of the record that makes stale."""
        before = self.sums()
        text = (self.top / name).read_text(encoding="utf-8")
        self.assertIn(old, text)
        self.write(name, text.replace(old, new))
        after = self.sums()
        return sorted(label for label in after if before.get(label) != after[label])

    def test_a_body_of_a_middle_crate_has_its_own_edits_tried_alone(self) -> None:
        self.assertEqual(self.changed("crates/middle/src/lib.rt", "    a + a\n", "    a * 2\n"), ["middle/none"])

    def test_a_contract_of_a_middle_crate_has_those_above_tried_too(self) -> None:
        changed = self.changed("crates/middle/src/lib.rt", "{ result ≡ a + a }", "{ result ≡ a * 2 }")
        self.assertEqual(changed, ["high/none", "middle/none"])

    def test_a_definition_below(self) -> None:
        self.write("crates/low/specs/Numbers.antt", STATEMENTS)
        self.assertEqual(len(self.changed("crates/low/specs/Numbers.antt", "n ≤ 9", "n ≤ 8")), 5)

    def test_a_proof_below(self) -> None:
        self.write("crates/middle/proofs/Lemmas.antt", LEMMAS)
        self.assertEqual(self.changed("crates/middle/proofs/Lemmas.antt", "ninety = search", "ninety = grind"), ["middle/none"])

    def test_the_line_of_crates(self) -> None:
        self.assertEqual(self.changed("crates.txt", "high: middle", "high: middle itoa"), ["high/none"])

    def test_another_toolchain(self) -> None:
        lines = trials.read_lines("low:\n")
        one, other = (record.Sums(self.top / "crates", lines, kit).own("low") for kit in ("one", "other"))
        self.assertNotEqual(one, other)

    def test_nothing_is_stale(self) -> None:
        for crate in ("middle", "high"):
            (self.top / f"crates/{crate}/edits/none.edit").unlink()
        record_ = {label: it for label, it in record.read_record(self.top / "checks/edits/refused.txt").items() if label.startswith("low/")}
        record.write_record(self.top / "checks/edits/refused.txt", record_)
        lines = self.run_edits()
        self.assertEqual(lines[0], "edits: 3; 3 have a fresh line in checks/edits/refused.txt")
        self.assertEqual(lines[1], "edits: the other 0 are tried, and 3 that are drawn of those")
        self.assertEqual(lines[-1], "3 passed, 0 failed")

    def only_low(self, goals: Dict[str, str]) -> None:
        """Leaves the edits of the lowest crate alone, and writes these goals into the record."""
        for crate in ("middle", "high"):
            (self.top / f"crates/{crate}/edits/none.edit").unlink()
        known = {it: record.Refusal(sum_, goals.get(it, self.goal(it))) for it, sum_ in self.sums().items()}
        record.write_record(self.top / "checks/edits/refused.txt", known)

    def test_a_false_line_is_found_by_the_draw(self) -> None:
        self.only_low({"low/number_itself": "smaller returns"})
        lines = self.run_edits()
        self.assertEqual(lines[-1], "2 passed, 1 failed")
        self.assertIn("the record says that smaller returns refuses it, and it was next returns", self.fault(lines)[0])

    def test_a_stale_line_is_told_and_tried(self) -> None:
        self.only_low({})
        self.edit("number_itself", "    a + 1\n", "    a + 2\n", "breaks: next")
        lines = self.run_edits()
        self.assertIn("edits: the other 1 are tried, and 2 that are drawn of those", lines)
        self.assertIn("edits: 1 lines of the record are stale or missing; `make edits` writes them", lines)
        self.assertEqual(lines[-1], "3 passed, 0 failed")

    def test_a_line_whose_edit_is_gone(self) -> None:
        self.only_low({})
        (self.top / "crates/low/edits/number_itself.edit").unlink()
        lines = self.run_edits()
        self.assertIn("checks/edits/refused.txt: there is no edit low/number_itself", lines)
        self.assertEqual(lines[-1], "2 passed, 1 failed")

    def test_all_write_the_record(self) -> None:
        self.only_low({"low/number_itself": "smaller returns"})
        self.run_edits("--all")
        found = record.read_record(self.top / "checks/edits/refused.txt")
        self.assertEqual({label: it.goal for label, it in found.items()}, {label: self.goal(label) for label in found})
        self.assertEqual(len(found), 3)


class Reading(unittest.TestCase):
    """How code and what the prover says are read."""

    def paths(self, text: str, homes: Optional[Dict[str, str]] = None) -> List[str]:
        return [it.path for it in functions.functions_of("row/mixed.rt", text, homes)]

    def test_how_the_prover_names_functions(self) -> None:
        for head, name in [
            ("impl<'a> Row<'a>", "Row"),
            ("impl Mul<u32> for Mixed", "MixedMulU32"),
            ("impl From<Memory> for NoRequest<'_>", "NoRequestFromMemory"),
            ("impl<T: Drop> From<AllocFailed<T>> for Memory", "MemoryFromAllocFailed"),
            ("pub trait Sink", "Sink"),
            ("mod inner", "inner"),
        ]:
            with self.subTest(head):
                self.assertEqual(self.paths(f"{head} {{\n    fn put(&self) {{}}\n}}\n"), [f"row::mixed::{name}::put"])

    def test_methods_are_named_by_the_module_of_their_type(self) -> None:
        text = "impl Draft {\n    fn take(&self) {}\n}\nimpl Sink for Draft {\n    fn put(&self) {}\n}\n"
        self.assertEqual(self.paths(text, {"Draft": "draft"}), ["draft::Draft::take", "row::mixed::DraftSink::put"])

    def test_braces_in_texts_and_comments(self) -> None:
        text = "fn one() -> char\n    ensures { result ≡ 0 }\n{\n    // }\n    '}'\n}\n\nfn two<'a>(it: &'a str) -> &'a str {\n    \"}\"\n}\n"
        self.assertEqual(self.paths(text), ["row::mixed::one", "row::mixed::two"])
        self.assertEqual(
            functions.signatures_of("mixed.rt", text),
            "fn one() -> char\n    ensures { result ≡ 0 }\n{}\n\nfn two<'a>(it: &'a str) -> &'a str {}\n",
        )

    def test_what_is_seen_from_above_stays(self) -> None:
        text = "const fn size() -> usize {\n    3\n}\n\nimpl Model for Row {\n    ghost view = { λ r. r.now };\n}\n\npub const MOST: usize = size();\n"
        self.assertEqual(functions.signatures_of("row.rt", text), text)

    def test_lemmas_of_a_proof_that_are_rejected_refuse_its_goals(self) -> None:
        said = verdicts.read_said(
            "./proofs/reading/read/Answers.antt:9:5: error: `step`: the two types differ\n"
            "./proofs/reading/read/Answers.antt:20:5: error: 1 declaration that depends on `step`, which was rejected, was not checked: returns-in-Ok\n"
            "fn low::reading::read: not proved\nlogic=not-proved\n"
        )
        self.assertEqual(verdicts.own_goals(said, "reading::read"), {"returns-in-Ok": False})

    def test_what_was_not_checked(self) -> None:
        said = verdicts.read_said(
            "./proofs/Above.antt:150:3: error: 5 declarations that depend on `block`, which was rejected, were not checked: jobs, closed (via"
            " jobs), reach (via closed) and 2 more\nlogic=not-proved\n"
        )
        self.assertEqual(said.unchecked, [("block", f"proofs/Above.antt {name}") for name in ("jobs", "closed", "reach")])

    def test_goals_of_closures_are_those_of_their_function(self) -> None:
        said = verdicts.read_said(
            "fn low::shared::fn::is_failing::any: no proof: expected answers in ./x; `search` did not prove `returns`\nlogic=not-proved\n"
        )
        self.assertEqual(verdicts.own_goals(said, "shared::is_failing"), {"any returns": False})

    def crate_of(self, files: Dict[str, str]) -> rounds.Crate:
        """Gives a crate of these files of code."""
        found = {path: functions.functions_of(path, text) for path, text in files.items()}
        known = {it.path: it for some in found.values() for it in some}
        return rounds.Crate(Path(), found, known, functions.page_names(known, {"print"}), [])

    def test_what_a_trait_asks_of_an_impl(self) -> None:
        crate = self.crate_of({"sink.rt": "impl Sink for StdSink {\n    fn flush(&mut self) {\n    }\n}\n"})
        broken = rounds.names_of_goal(crate, "sink::StdSinkSink::flush", "returns-else-eq-clause-flushes")
        for line, is_so in [("Sink::flush.flushes", True), ("port/Sink::flush.flushes", True), ("port/StdSink::flush", False)]:
            with self.subTest(line):
                self.assertEqual(rounds.is_confirmed(line, broken), is_so)

    def test_functions_of_one_name(self) -> None:
        files = {"print.rt": "pub fn print() {\n}\n", "energy.rt": "pub(crate) fn print() {\n}\n\nfn sum() {\n}\n"}
        names = {"print::print": "print", "energy::print": "energy::print", "energy::sum": "sum"}
        self.assertEqual(self.crate_of(files).names, names)

    def test_a_goal_that_has_several_clauses_is_of_each(self) -> None:
        crate = self.crate_of({"row.rt": "fn put()\n    ensures first { a }\n    ensures second { b }\n{\n}\n"})
        for goal, names in [
            ("returns-in-Ok-clause-second", {"put.second"}),
            ("returns-in-Ok", {"put.first", "put.second"}),
            ("push-requires-2-clause-room", {"put asks push"}),
            ("loop-row-preserved", {"put at loop-row-preserved"}),
        ]:
            with self.subTest(goal):
                self.assertEqual(rounds.names_of_goal(crate, "row::put", goal), names)

    def test_the_use_lines_of_a_file_say_what_its_words_mean(self) -> None:
        one = citing.declared_in("proofs/One.antt", "use Rattle.low.specs.Two.{first}\n\nlast : first second\nlast = search\n", "low")
        self.assertIn("=first", one[0].words)
        self.assertNotIn("=second", one[0].words)


class Running(Small):
    """How a check is run."""

    def test_a_killed_check_is_run_once_more_on_the_same_copy(self) -> None:
        script = "ls ../crate; [ -e ../once ] || { touch ../once; kill -9 $$; }; cat src/lib.rt; exit 1"
        folder = self.top / "crates" / "low"
        ran = trials.run(["sh", "-c", script], folder, [Change("src/lib.rt", 0, 3, "//?")])
        self.assertEqual(ran.status, 1)
        self.assertEqual(ran.text.splitlines()[:2], ["src", "//? The smaller and the larger of numbers."])

    def test_the_words_of_a_check(self) -> None:
        lines = trials.read_lines("# all\nlow: itoa\nmiddle: low memchr # three\nhigh staticlib: middle\n")
        self.assertEqual(trials.below(lines, "high"), {"low", "middle"})
        words = trials.words(Path("/all"), lines, "high", ["one::two"])
        self.assertIn("middle=/all/middle/out/rlib/middle.rlib", words)
        self.assertIn("dependency=/all/low/out/rlib", words)
        self.assertEqual(words[-4:], ["--crate-type", "staticlib", "--only", "one::two"])

    def test_a_library_that_is_not_there(self) -> None:
        self.write("crates.txt", "low: below\nbelow:\n")
        lines = self.run_edits("--all")
        self.assertEqual(lines[-1], "0 passed, 3 failed")
        self.assertEqual(self.asked, [])

    def test_room_is_waited_for(self) -> None:
        room = trials.Room(10)
        with room.of(6), room.of(4):
            self.assertEqual(room.taken, 10)
        with room.of(25):
            self.assertEqual(room.taken, 25)


    def test_what_stands_in_a_module_of_a_file(self) -> None:
        text = (
            "use Rattle.low.specs.Two.{first, second, third}\n\n"
            "module _ (n : ℕ) (is : first n) where\n  -- inner\n  inner : second n\n  inner = search\n\n"
            "  module _ (m : ℕ) where\n    deep : ℕ\n    deep = n\n\n"
            "unfolding third\nouter [] = tt\n\n"
            "abbrev ◌>>=◌ : ℕ → ℕ\nNone >>= next = first next\n(Some x) >>= next = second\n"
        )
        found = {it.name: it.words for it in citing.declared_in("proofs/One.antt", text, "low")}
        self.assertEqual(sorted(found), ["deep", "inner", "◌>>=◌"])
        for name, words in [("inner", {"=first", "=second"}), ("deep", {"=first"}), ("◌>>=◌", {"=first", "=second"})]:
            with self.subTest(name):
                self.assertLessEqual(words, found[name])


class WithProver(Small):
    """The prover itself, on the small crate: a true edit and a wrong line are found among edits that it refuses."""

    def test_what_the_prover_says(self) -> None:
        self.edit("means_the_same", *TRUE)
        self.edit("number_itself", *EDITS["number_itself"][:2], "breaks: next asks smaller")
        kept = (edits.ROOT, edits.RECORD)
        edits.ROOT, edits.RECORD = self.top, self.top / "refused.txt"
        try:
            with contextlib.redirect_stdout(io.StringIO()) as told:
                edits.main(["--all"])
        finally:
            edits.ROOT, edits.RECORD = kept
        lines = told.getvalue().splitlines()
        self.assertEqual(lines[-1], "2 passed, 2 failed", "\n".join(lines))
        faults = "\n".join(self.fault(lines))
        self.assertIn("means_the_same.edit: NOT REFUSED", faults)
        self.assertIn("number_itself.edit: it isn't refused at `# breaks: next asks smaller`, but at next", faults)


def main(words: Sequence[str]) -> int:
    """Runs the tests, those with the prover alone where they are asked for. Gives the status."""
    classes = [WithProver] if words else [Rounds, Statements, Records, Reading, Running]
    suite = unittest.TestSuite(unittest.defaultTestLoader.loadTestsFromTestCase(it) for it in classes)
    result = unittest.TextTestRunner(stream=sys.stdout).run(suite)
    failed = len(result.failures) + len(result.errors)
    print(f"{result.testsRun - failed} passed, {failed} failed")
    return 1 if failed else 0


if __name__ == "__main__":
    sys.exit(main(sys.argv[1:]))
