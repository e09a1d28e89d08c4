"""yds-jobs, yds-misses and yds-explain: what became of each job."""

import io
import random
import unittest
from fractions import Fraction
from typing import Dict, List, Sequence, Set, Tuple
from unittest import mock

from called import EXPECTED, broken, call
from yds._text import lines_of
from yds.jobs import Misses, misses

Span = Tuple[str, Fraction, Fraction, Fraction]


def exact(word: str) -> Fraction:
    """The value of W+N/D: a second reading."""
    return sum((Fraction(part) for part in word.split("+")), Fraction(0))


class Document:
    """A second reading of a document's jobs and slots, in Fractions."""

    def __init__(self, text: str) -> None:
        self.jobs: Dict[str, Tuple[int, int, int]] = {}
        self.spans: List[Span] = []
        ticks = 1
        for kind, *rest in (line.split() for line in text.splitlines() if not line.startswith("#")):
            if kind == "job":
                self.jobs[rest[0]] = (int(rest[1]), int(rest[2]), int(rest[3]))
            elif kind == "ticks":
                ticks = int(rest[0])
            elif kind == "slot":
                self.spans.append((rest[0], exact(rest[1]), exact(rest[2]), exact(rest[3])))
            elif kind == "run":
                start, end = Fraction(int(rest[1]), ticks), Fraction(int(rest[2]), ticks)
                self.spans.append((rest[0], start, end, (end - start) * int(rest[3])))

    def of(self, job: str) -> List[Span]:
        return [span for span in self.spans if span[0] == job]

    def given(self, job: str) -> Fraction:
        return sum((span[3] for span in self.of(job)), Fraction(0))

    def end(self, job: str) -> Fraction:
        return max(span[2] for span in self.of(job))


def audit(words: Sequence[str], text: bytes) -> Tuple[int, bytes]:
    """The verdict of a second reading, in audit's words."""
    document = Document(text.decode("latin-1"))
    for number, (job, start, end, _) in enumerate(document.spans, 1):
        release, deadline, _ = document.jobs[job]
        if start < release:
            return 1, f"early slot {number} {job}\n".encode()
        if end > deadline:
            return 1, f"late slot {number} {job} {end} deadline {deadline}\n".encode()
    for job, (_, _, wanted) in document.jobs.items():
        given = document.given(job)
        if given != wanted:
            return 1, f"work {job} given {given.numerator // given.denominator} wanted {wanted}\n".encode()
    return 0, b"feasible\n"


def drawn(seed: int) -> str:
    """A document with slots or runs one after the other. Of four, one has any windows and works, and one is feasible."""
    pick = random.Random(seed)
    names = [f"t{place % 3}.{place}" for place in range(pick.randrange(1, 7))]
    per = pick.choice([1, 1, 3, 7, 10])
    is_run = pick.random() < 0.5
    told, now = [f"ticks {per}"] if is_run else [], 0
    for _ in range(pick.randrange(1, 12)):
        now += pick.choice([0, 0, 1, 6 * per])
        end = now + pick.randrange(1, 9 * per)
        if is_run:
            told.append(f"run {pick.choice(names)} {now} {end} {pick.randrange(9)}")
        else:
            numbers = [spelled(number, per) for number in (now, end, pick.randrange(1, 90))]
            told.append(f"slot {pick.choice(names)} {' '.join(numbers)}")
        now = end
    body = "\n".join(told) + "\n"
    document = Document("".join(f"job {name} 0 1 0\n" for name in names) + body)
    jobs = []
    for name in names:
        given, last = document.given(name), int(max([span[2] for span in document.of(name)], default=Fraction(0))) + 1
        release = pick.randrange(30) if seed % 4 == 0 else 0
        least = last if seed % 4 == 3 else max(1, last - pick.choice([0, 0, 9]))
        work = given.numerator // given.denominator + (0 if seed % 4 == 3 else pick.choice([0, 0, 1, 9]))
        jobs.append(
            f"job {name} {release} {release + least} {pick.choice([0, 4, 20, 60]) if seed % 4 == 0 else work}\n"
        )
    return "".join(jobs) + body


def spelled(number: int, per: int) -> str:
    """number/per as W or W+N/D."""
    return f"{number // per}+{number % per}/{per}" if number % per else str(number // per)


def missed(text: str) -> Misses:
    return misses(lines_of(io.BytesIO(text.encode("latin-1"))), audit)


class JobsTest(unittest.TestCase):
    def test_stored_tables(self) -> None:
        points, late = EXPECTED / "points.txt", EXPECTED / "document-late.txt"
        for words, name in [
            ((points, late), "jobs-late.txt"),
            (("--zero", "trace", "--form", "csv", points, late), "jobs-late.csv"),
            (("--form", "csv", EXPECTED / "document-elsewhere.txt"), "jobs-elsewhere.csv"),
            ((EXPECTED / "document-starving.txt",), "jobs-starving.txt"),
        ]:
            wanted = (EXPECTED / name).read_text(encoding="latin-1")
            self.assertEqual(call("jobs", *words), (0, wanted, ""))

    def test_by_hand(self) -> None:
        """a is done at 2+1/3 and needs nothing more; b got 4+1/2 of 5; c needs nothing."""
        text = b'job a 0 9 4\njob "b,2 0 10 5\njob c 3 4 0\nslot a 1 2+1/3 4\nslot "b,2 3 4 4\nslot "b,2 4 5 0+1/2\n'
        wanted = 'a,0,9,1,2.333333,2.333333,6.666667,0,\n"""b,2",0,10,3,inf,inf,-inf,inf,\nc,3,4,3,3,0,1,0,\n'
        called = call("jobs", "--form", "csv", given=text)
        self.assertEqual(called.out.split("\n", 1)[1], wanted)
        self.assertIn("# 1 job has no work: it needs nothing and is in time, the first c", call("jobs", given=text).out)
        refused = b"job a 0 4 4\nslot a 0 4 4\n# refuse c from 0 to 4 work 9 top 2\n"
        self.assertIn("\nc (left out: refused by admit)", call("jobs", given=refused).out)

    def test_a_late_job_without_its_runs_and_ends_within_a_tick(self) -> None:
        head = b"# time unit 10 us\njob a 0 10 8\njob b 0 10 8\nticks 2\nrun a 0 16 1\nrun b 16 17 16\n"
        told = b"# ends: a 30\n# late, without its runs: b (ran on another processor), at least 0.2 ms after its deadline; window -3 10\n"
        rows = call("jobs", "--form", "csv", given=head + told).out.splitlines()
        self.assertEqual(rows[1:], ["a,0,10,0,15,15,-5,5,", "b,-3,10,8,,,-20,20,"])
        self.assertIn("no comment tells the unit of time", call("jobs", given=(head + told).split(b"\n", 1)[1]).err)

    def test_what_a_job_ran_on_one_of_its_processors(self) -> None:
        """a.0 ran from 10 to 110 here, and ended elsewhere at 200, half a millisecond late."""
        head = "# CPU 1 of a kernel trace; time 0 is 5.000000000 s\n# time unit 10 us, speed unit 10000 kHz, work unit 100 cycles\n"
        text = head + "job a.0@1 0 150 10001\nticks 1\nrun a.0@1 10 110 100\n"
        text += "# late on another processor: a.0@1, 0.500000 ms after its deadline\n# 1 job written, none left out\n"
        rows = call("jobs", "--form", "csv", given=text.encode()).out.splitlines()
        self.assertEqual(rows[1:], ["a.0@1,0,150,10,200,200,-50,50,"])
        moved = call("jobs", "--late-moved", given=text.encode()).out.splitlines()
        self.assertEqual(moved[2:4], ["job a.0@1 0 200 10000", "# deadline moved: a.0@1 by 50"])
        told = "work a.0@1 given 10000 wanted 10001, 0.500000 ms after its deadline # due at 5.001500 s"
        self.assertEqual([miss.text for miss in missed(text).missed], [told])

    def test_faults(self) -> None:
        cases = {
            (): "no job line",
            (
                "job a 0 9 4",
            ): "no slot and no run line; the input is a trace's document, or the answer of plan, round, avr or oa",
            ("job a 0 9 4", "job a 0 9 4"): "line 2, column 5: a second job is named a",
            ("slot a 0 9 4",): "line 1, column 6: no job a stands before this slot",
            ("point 0 0", "point 2 1", "point 2 3"): "line 3, column 7: the points' speeds don't rise",
            ("point 1 0",): "line 1, column 7: the first point has the speed 1; points begin with the power at speed 0",
            (
                "point 0 0",
                "job a 0 9 9",
                "slot a 0 1 1",
            ): "line 3, column 12: the speed 1 of a is above the top point 0; leave the points out, or give those of this processor",
            (
                "point 0 0",
                "point 9 9",
                "job a 0 9 9",
                "slot a 0 1 1",
                "point 10 9",
            ): "line 5, column 1: a point behind a slot; put all points before the slots",
            (
                "# part 1: jobs 1 to 1, from 0 to 9, shift 0",
                "job a 0 9 4",
                "# part 2: jobs 2 to 2, from 20 to 29, shift 20, the last",
                "job b 0 9 4",
            ): "line 3: another part begins here, behind that of line 1, and its times count from another time 0; give one "
            "part at a time: yds-parts --split makes a file of each",
        }
        for text, told in cases.items():
            self.assertEqual(call("jobs", given="\n".join(text).encode()), (1, "", f"yds-jobs: {told}\n"))
        for words in (["--form", "json"], ["--zero", "x"], ["--zero=-1"], ["--us", "0"], ["--us", "1.5"]):
            self.assertEqual(call("jobs", *words)[:2], (2, ""))

    def test_each_broken_field(self) -> None:
        text = ["point 0 0", "point 9 9", "job a 0 9 4", "ticks 2", "run a 2 4 4", "slot a 5 6 2"]
        for place, line in enumerate(text):
            for wrong in broken(line, 2 if line[:3] in ("job", "run", "slo") else 1):
                given = "\n".join([*text[:place], wrong, *text[place + 1 :]]).encode()
                if call("jobs", given="\n".join(text).encode()).out == call("jobs", given=given).out:
                    self.fail(wrong)
                if wrong != "slot a 5 6 1.5":
                    self.assertEqual(call("jobs", given=given)[:2], (1, ""), wrong)

    def test_drawn_documents(self) -> None:
        """Begin, end, response, slack and lateness of 2,000 documents are those of a second reading in Fractions."""
        for seed in range(2000):
            text = drawn(seed)
            document = Document(text)
            rows = [line.split(",") for line in call("jobs", "--form", "csv", given=text.encode()).out.splitlines()[1:]]
            self.assertEqual([row[0] for row in rows], list(document.jobs))
            for row in rows:
                release, deadline, wanted = document.jobs[row[0]]
                spans = document.of(row[0])
                done = document.given(row[0]) >= wanted
                begin = min((span[1] for span in spans), default=Fraction(release))
                end = max((span[2] for span in spans), default=Fraction(release))
                numbers = [begin, end, end - release, deadline - end, max(end - deadline, Fraction(0))]
                for cell, number, endless in zip(
                    row[3:8], numbers, ["inf" if not spans else "", "inf", "inf", "-inf", "inf"]
                ):
                    if not done and endless:
                        self.assertEqual(cell, endless, text)
                    else:
                        self.assertLessEqual(abs(Fraction(cell) - number), Fraction(1, 10**6), text)


class MissesTest(unittest.TestCase):
    def test_drawn_documents(self) -> None:
        """Which jobs miss their deadlines, in 2,000 documents, and by how much, are those of a second reading."""
        kinds = {"late": 0, "work": 0, "feasible": 0, "early": 0}
        for seed in range(2000):
            text = drawn(seed)
            document = Document(text)
            first = audit([], text.encode())[1].decode().split()
            kinds[first[0]] += 1
            late = {
                job
                for job, (_, deadline, _) in document.jobs.items()
                if any(span[2] > deadline for span in document.of(job))
            }
            undone = {job for job, (_, _, wanted) in document.jobs.items() if document.given(job) < wanted}
            is_miss = first[0] == "late" or (first[0] == "work" and first[1] in undone)
            found = missed(text)
            self.assertEqual({miss.job for miss in found.missed}, late | undone if is_miss else set(), text)
            for miss in found.missed:
                self.check_line(miss.text, document, miss.job in late, miss.job in undone)
            self.check_verdict(found, document, undone if is_miss else set())
        self.assertGreater(min(kinds.values()), 20, kinds)

    def check_line(self, text: str, document: Document, late: bool, undone: bool) -> None:
        words = text.replace(",", "").replace(":", "").split()
        if not late:
            self.assertEqual((words[0], exact(words[3])), ("work", document.given(words[1])))
            return
        self.assertEqual(words[:2], ["late", "slot"])
        end, deadline = document.end(words[3]), document.jobs[words[3]][1]
        self.assertEqual(
            (exact(words[4]), words[6], exact(words[-5] if undone else words[-1])),
            (end, str(deadline), end - deadline),
            text,
        )
        self.assertEqual(document.spans[int(words[2]) - 1][:3:2], (words[3], end))

    def check_verdict(self, found: Misses, document: Document, undone: Set[str]) -> None:
        early = any(
            start < document.jobs[job][0]
            for job, start, _, _ in document.spans
            if not (job in undone and document.given(job).denominator > 1)
        )
        surplus = any(document.given(job) > wanted for job, (_, _, wanted) in document.jobs.items())
        self.assertEqual(found.status, int(early or surplus))

    def test_stored_samples(self) -> None:
        for sample, name in [
            ("document-elsewhere", "misses-elsewhere"),
            ("document-short-late", "misses-short-late"),
            ("document-starving", "misses-starving"),
        ]:
            text = (EXPECTED / f"{sample}.txt").read_text()
            wanted = (EXPECTED / f"{name}.txt").read_text().splitlines()
            self.assertEqual([miss.text for miss in missed(text).missed], wanted[:-1])

    def test_words_and_ends(self) -> None:
        with mock.patch("yds.commands.misses.of_environment", lambda: audit):
            for text, status, wanted in [
                (
                    "job a 0 9 0\njob b 0 9 4\nslot b 0 4 4\n",
                    0,
                    "# 1 job has no work: it needs nothing and is in time, the first a\nfeasible\n",
                ),
                ("job b 0 9 4\nslot b 0 10 4\n", 1, "late slot 1 b 10 deadline 9, by 1\n1 missed deadline\n"),
                (
                    "job b 0 9 4\nslot b 0 10 3\n",
                    1,
                    "late slot 1 b 10 deadline 9, by at least 1: given 3 wanted 4\n1 missed deadline\n",
                ),
                ("job b 3 9 4\nslot b 0 10 3\n", 1, "early slot 1 b\n"),
                (
                    "# time 0 is 9.5 s\n# time unit 1000 us\njob a 0 4 2\njob b 0 4 2\n",
                    1,
                    "work a given 0 wanted 2 # due at 9.504000 s\nwork b given 0 wanted 2 # due at 9.504000 s\n2 missed deadlines\n",
                ),
            ]:
                self.assertEqual(call("misses", given=text.encode()), (status, wanted, ""))
            self.assertEqual(
                call("misses", "/dev/null").err,
                "yds-misses: /dev/null has no job, so no deadline was met; look at what wrote it\n",
            )
        refusing = mock.Mock(return_value=(3, b"refused 1 1 UnknownKind\n"))
        with mock.patch("yds.commands.misses.of_environment", lambda: refusing):
            self.assertEqual(call("misses", given=b"job a\n"), (1, "refused 1 1 UnknownKind\n", ""))

    def test_a_document_above_the_limits(self) -> None:
        """5,000 jobs, of which 3 are late and one gets too little: judged in parts."""
        jobs = [f"job j{place} {place * 10} {place * 10 + 9} 4\n" for place in range(5000)]
        ends = {7: 10, 2500: 10, 4999: 10}
        slots = [
            f"slot j{place} {place * 10} {place * 10 + ends.get(place, 8)} {3 if place == 4000 else 4}\n"
            for place in range(5000)
        ]
        found = missed("".join(jobs + slots))
        self.assertEqual([miss.text for miss in found.missed], [
            "late slot 8 j7 80 deadline 79, by 1",
            "late slot 2501 j2500 25010 deadline 25009, by 1",
            "late slot 5000 j4999 50000 deadline 49999, by 1",
            "work j4000 given 3 wanted 4",
        ])  # fmt: skip
        self.assertEqual((found.status, found.verdict, found.jobs), (0, "feasible", 5000))


class ExplainTest(unittest.TestCase):
    HEAD = "job a 0 12 4\njob b 2 10 8\nslot a 0 2 2\nslot b 2 10 8\nlevel 8 8\npiece 2 10\nmember b\nlevel 4 4\npiece 0 2\npiece 10 12\nmember a\n"

    def test_each_condition(self) -> None:
        for verdict, changed, wanted in [
            ("accepted", "", "accepted\n"),
            ("K1 late slot 1 a 3 deadline 2", "", "K1 late slot 1 a 3 deadline 2\n"),
            ("K2 level 2", "piece 0 2\n:piece 0 3\n", "the piece 0 3 of level 2 overlaps the piece 2 10 of level 1\n"),
            ("K2 level 1", "piece 2 10\n:", "level 1 has no piece; expected at least one\n"),
            ("K3 job a", "member a\n:", "the job a needs 4: found in 0 member lines, expected in one\n"),
            (
                "K4 level 1",
                "level 8 8:level 9 8",
                "work: the level's line says 9, and its members b need 8 together\nlength: the level's line says 8, and its pieces are 8 long together\n",
            ),
            (
                "K5 level 2",
                "level 4 4:level 4 3",
                "level 2 has the work 4 and the length 3: found the speed 1.33333333333333\nlevel 1 has the work 8 and the length 8: expected at most the speed 1\n",
            ),
            (
                "K6 job a",
                "piece 10 12\n:",
                "the window of a is 0 to 12, and its level is 2\nno piece of the levels 1 to 2 has the time from 10 to 12\n",
            ),
            (
                "K7 slot 1",
                "slot a 0 2 2:slot a 0 2 3",
                "slot a 0 2 3: found the speed 1.5\nlevel 2 has the work 4 and the length 4: expected the speed 1\n",
            ),
        ]:
            old, _, new = changed.partition(":")
            text = (self.HEAD.replace(old, new) if old else self.HEAD) + verdict + "\n"
            self.assertEqual(call("explain", given=text.encode()), (0, wanted, ""))

    def test_faults(self) -> None:
        for text, told in [
            (self.HEAD, "no answer of check; give the document, and after it the answer"),
            ("K2 level 1\n", "no level or no slot; give the document that was judged, and after it the answer"),
            (self.HEAD + "K2 level 3\n", "there is no 3 in the document: the answer isn't to it"),
            (self.HEAD + "K3 job c\n", "no job c: the answer isn't to this document"),
            (self.HEAD + "K5 level 1\n", "the first level has none before it: the answer isn't to this document"),
            ("piece 1 2\n", "line 1, column 1: a piece before any level"),
        ]:
            self.assertEqual(call("explain", given=text.encode()), (1, "", f"yds-explain: {told}\n"))
        for line in ("level 8 8", "piece 2 10"):
            for wrong in broken(line):
                self.assertEqual(
                    call("explain", given=(self.HEAD.replace(line, wrong) + "K5 level 2\n").encode()).status, 1, wrong
                )


if __name__ == "__main__":
    unittest.main()
