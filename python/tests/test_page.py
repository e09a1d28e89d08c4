"""yds-page: the numbers of a page against a second reading, what it never says, and what can't get into it."""

import hashlib
import random
import tempfile
import unittest
from fractions import Fraction
from math import inf
from pathlib import Path
from typing import Dict, List, NamedTuple, Optional, Sequence, Tuple, Union
from unittest import mock

import second_program
from called import EXPECTED, SAMPLES, call
from page_reading import Page
from yds import page
from yds._look import SCRIPT
from yds._text import Fault

Number = Union[Fraction, float]
HEAD = "# CPU 0 of a kernel trace; time 0 is 100.500000000 s\n# time unit 10 us, speed unit 10000 kHz, work unit 100 cycles\n"


class Told(NamedTuple):
    """A job by a second reading of runs in whole units of time."""

    name: str
    release: int
    deadline: int
    end: Number
    last: int
    """Until when it ran, or was to run."""

    @property
    def late(self) -> Number:
        return max(self.end - self.deadline, 0)


class Reading:
    """A second reading: who ran in each unit of time, and what became of each job."""

    def __init__(self, text: str) -> None:
        document = second_program.Document(text)
        self.jobs = document.jobs
        self.points = document.points
        self.at: Dict[int, Tuple[str, int]] = {}
        for line in text.splitlines():
            fields = line.split()
            if fields[:1] == ["run"]:
                for time in range(int(fields[2]), int(fields[3])):
                    self.at[time] = fields[1], int(fields[4])
        self.others: Dict[int, str] = {}
        for line in text.splitlines():
            if line.startswith("# other ") and " ran for " not in line:
                words = line[len("# other ") :].split(" ")
                for time in range(int(words[-2]), int(words[-1])):
                    self.others[time] = " ".join(words[:-2])
        self.told = {job[0]: self._told(*job) for job in self.jobs}

    def _told(self, name: str, release: int, deadline: int, work: int) -> Told:
        times = [time for time, (job, _) in self.at.items() if job == name]
        given = sum(speed for job, speed in self.at.values() if job == name)
        last = max(times, default=release - 1) + 1
        end: Number = Fraction(last if times else release) if given >= work else inf
        return Told(name, release, deadline, end, last)

    def missed(self) -> List[Told]:
        return [one for one in self.told.values() if one.late > 0]

    def known_late(self, one: Told) -> int:
        """By how much it is known to be late: an unfinished job up to where the last run ends."""
        return int(one.end) - one.deadline if one.end != inf else max(max(self.at, default=-1) + 1 - one.deadline, 0)

    def task(self, name: str) -> List[Told]:
        return [one for one in self.told.values() if one.name.rsplit(".", 1)[0] == name]


def least_of(values: Sequence[Number], share: Fraction) -> Number:
    """The least number that at least such a share of them doesn't exceed."""
    return min(one for one in values if sum(other <= one for other in values) >= share * len(values))


def drawn(seed: int) -> str:
    """A document of some periodic tasks, runs in units of time one after the other, others between them, and points."""
    pick = random.Random(seed)
    jobs: List[List[int]] = []
    names: List[str] = []
    for task in "abc"[: pick.randrange(1, 4)]:
        period, release = pick.randrange(4, 30), pick.randrange(9)
        for number in range(pick.randrange(1, 6)):
            names.append(f"{task}.{number}")
            jobs.append([release, release + pick.choice([period, period // 2 + 1, 3]), 0])
            release += period * pick.choice([1, 1, 1, 2, 3]) + pick.choice([0, 0, 1])
    lines, now = [], 0
    for _ in range(pick.randrange(1, 25)):
        ready = [place for place, job in enumerate(jobs) if job[0] <= now]
        length = pick.randrange(1, 6)
        if ready and pick.random() < 0.75:
            place, speed = pick.choice(ready), pick.choice([1, 2, 4])
            lines.append(f"run {names[place]} {now} {now + length} {speed}")
            jobs[place][2] += length * speed
        elif pick.random() < 0.6:
            lines.append(f"# other {pick.choice(['kworker/0:1-7', 'Web Content-1301'])} {now} {now + length}")
        now += length
    told = [
        f"job {name} {release} {due} {work + (pick.random() < 0.1)}" for name, (release, due, work) in zip(names, jobs)
    ]
    points = ["point 0 1", "point 2 3", "point 4 10"] if pick.random() < 0.8 else []
    head = HEAD.splitlines() if seed % 3 else []
    tail = [f"# {len(jobs)} jobs written, none left out"] if seed % 3 else []
    return "\n".join([*points, *head, *told, "ticks 1", *lines, *tail]) + "\n"


def page_of(text: Union[str, bytes], **named: object) -> Page:
    """The page without pictures, read."""
    with mock.patch("yds._page_pictures.find_spec", return_value=None):
        return Page(page.html(text, answer=second_program.answer, **named))  # type: ignore[arg-type]


def one(cell: "object") -> str:
    values = cell.values  # type: ignore[attr-defined]
    assert len(values) == 1, cell
    return str(values[0])


def spelled(value: Number) -> str:
    """A number as the page has it."""
    if value in (inf, -inf):
        return "inf" if value > 0 else "-inf"
    exact = Fraction(value)
    return f"-{second_program.spelled(-exact)}" if exact < 0 else second_program.spelled(exact)


class DrawnTest(unittest.TestCase):
    """400 drawn documents: each number of the page is that of the second reading."""

    def setUp(self) -> None:
        self.seen: Dict[str, int] = {}

    def test_numbers(self) -> None:
        for seed in range(400):
            text = drawn(seed)
            with self.subTest(seed=seed):
                reading, read = Reading(text), page_of(text)
                self.look_at_verdict(reading, read)
                self.look_at_tasks(reading, read)
                self.look_at_misses(reading, read)
                self.look_at_worst(reading, read)
                self.look_at_energies(text, reading, read)
        for kind in ("feasible", "late", "never", "lost", "others", "untold", "yes", "no", "otherwise", "no points"):
            self.assertGreaterEqual(self.seen.get(kind, 0), 10, (kind, self.seen))

    def see(self, kind: str) -> None:
        self.seen[kind] = self.seen.get(kind, 0) + 1

    def look_at_verdict(self, reading: Reading, read: Page) -> None:
        verdict, missed = read.ids["verdict"], reading.missed()
        self.assertEqual(verdict.attributes["class"], "no" if missed else "yes")
        self.see("late" if missed else "feasible")
        if missed:
            self.assertIn(f"{len(missed)} of {len(reading.jobs)} jobs missed", verdict.text)
        else:
            self.assertIn("Every deadline was met", verdict.text)

    def look_at_tasks(self, reading: Reading, read: Page) -> None:
        rows = {row["task"].text: row for row in read.table("by-task")}
        whole = max([job[2] for job in reading.jobs] + [max(reading.at, default=-1) + 1])
        whole -= min([job[1] for job in reading.jobs] + list(reading.at)[:1])
        for task in {job[0].rsplit(".", 1)[0] for job in reading.jobs}:
            jobs, row = reading.task(task), rows[task]
            responses = [job.end - job.release for job in jobs]
            self.assertEqual(row["jobs"].text, str(len(jobs)))
            self.assertEqual(row["missed"].text, str(sum(job.late > 0 for job in jobs)))
            self.assertEqual(one(row["median response"]), spelled(least_of(responses, Fraction(1, 2))))
            self.assertEqual(one(row["95 in 100"]), spelled(least_of(responses, Fraction(95, 100))))
            self.assertEqual(one(row["greatest"]), spelled(max(responses)))
            self.assertEqual(one(row["least slack"]), spelled(min(job.deadline - job.end for job in jobs)))
            ran = sum(job.rsplit(".", 1)[0] == task for job, _ in reading.at.values())
            self.assertEqual(one(row["ran"]), str(ran))
            self.assertEqual(one(row["of the time"]), spelled(Fraction(ran, whole)))
            lengths = sorted({job.deadline - job.release for job in jobs})
            self.assertEqual(row["deadline as given"].values, [str(length) for length in sorted({lengths[0], lengths[-1]})])
            self.look_at_period(jobs, row)

    def look_at_period(self, jobs: List[Told], row: "Dict[str, object]") -> None:
        gaps = [later.release - job.release for job, later in zip(jobs, jobs[1:])]
        if len(gaps) < 2:
            self.assertEqual(row["period as measured"].values, [])  # type: ignore[attr-defined]
            self.assertEqual(row["frames lost"].text, "\u2013")  # type: ignore[attr-defined]
            return
        period = least_of([Fraction(gap) for gap in gaps], Fraction(1, 2))
        self.assertEqual(one(row["period as measured"]), spelled(period))
        lost = 0
        for job, later in zip(jobs, jobs[1:]):
            begin = job.release + period
            while begin < job.end and begin + period / 2 < later.release:
                lost += 1
                begin += period
        self.assertEqual(row["frames lost"].text, str(lost))  # type: ignore[attr-defined]
        if lost:
            self.see("lost")

    def look_at_misses(self, reading: Reading, read: Page) -> None:
        missed = reading.missed()
        if not missed:
            self.assertNotIn("all-misses", read.ids)
            return
        rows = read.table("all-misses")
        self.assertEqual(sorted(row["job"].text for row in rows), sorted(job.name for job in missed))
        self.assertEqual([int(one(row["due"])) for row in rows], sorted(job.deadline for job in missed))
        for row in rows:
            job = reading.told[row["job"].text]
            self.assertEqual(one(row["released"]), str(job.release))
            self.assertEqual(one(row["ended"]), spelled(job.end))
            self.assertEqual(one(row["late by"]), str(reading.known_late(job)))
            self.assertEqual("at least" in row["late by"].text, job.end == inf)
            if job.end == inf:
                self.see("never")
            elif "s of the trace" in read.ids["all-misses"].text:
                micro = 100_500_000 + job.deadline * 10
                self.assertEqual(row["due"].text, f"{micro // 10**6}.{micro % 10**6:06d}")

    def look_at_worst(self, reading: Reading, read: Page) -> None:
        missed = sorted(reading.missed(), key=lambda job: (reading.known_late(job), job.end == inf), reverse=True)
        if not missed:
            self.assertNotIn("worst", read.ids)
            return
        articles = read.ids["worst"].all("article")
        self.assertEqual(len(articles), min(3, len(missed)))
        told = [article.all("h3")[0].text.split(",")[0] for article in articles]
        lateness = [reading.known_late(reading.told[name]) for name in told]
        self.assertEqual(lateness, [reading.known_late(job) for job in missed[:3]])
        for name, article in zip(told, articles):
            self.look_at_where(reading, reading.told[name], article)

    def look_at_where(self, reading: Reading, job: Told, article: "object") -> None:
        """Each unit of time from release to end is its own run's, a listed job's, another's, or nobody's."""
        end = int(job.end) if job.end != inf else job.deadline + reading.known_late(job)
        wanted: Dict[str, int] = {}

        def add(what: str) -> None:
            wanted[what] = wanted.get(what, 0) + 1

        for time in range(job.release, end):
            if time in reading.at:
                name, speed = reading.at[time]
                for what in ["ran", f"at {speed}"] if name == job.name else ["waited for listed tasks", name.rsplit(".", 1)[0]]:
                    add(what)
            elif time in reading.others:
                add("waited for others")
                add(reading.others[time])
            else:
                add("nobody is told to have run")
        found: Dict[str, int] = {}
        for row in article.all("tbody")[0].all("tr"):  # type: ignore[attr-defined]
            head, time_, _ = row.children
            speeds = head.all("data")
            found[f"at {speeds[0].attributes['value']}" if speeds else head.text] = int(time_.all("data")[0].attributes["value"])
        self.assertEqual({what: time for what, time in found.items() if time}, wanted)
        self.assertEqual(set(found) - set(wanted) - {"ran", "waited for listed tasks", "waited for others", "nobody is told to have run"}, set())
        for kind, what in (("others", "waited for others"), ("untold", "nobody is told to have run")):
            if what in wanted:
                self.see(kind)
        own = [time for time, (name, _) in reading.at.items() if name == job.name]
        paragraphs = [one.text for one in article.all("p")]  # type: ignore[attr-defined]
        first = next(text for text in paragraphs if text.startswith(("From wake-up", "It never ran")))
        if own:
            told = next(one for one in article.all("p") if one.text == first)  # type: ignore[attr-defined]
            self.assertEqual(told.all("data")[0].attributes["value"], str(min(own) - job.release))
        else:
            self.assertEqual(first, "It never ran.")
        self.look_at_top(reading, job, end, paragraphs)

    def look_at_top(self, reading: Reading, job: Told, end: int, paragraphs: List[str]) -> None:
        """With the top speed a unit of time in which a listed job ran takes speed/top, and each other takes 1."""
        told = [text for text in paragraphs if "op speed throughout" in text]
        if not reading.points:
            self.assertEqual(told, [])
            return
        top = reading.points[-1][0]
        at_top = sum((Fraction(reading.at[time][1], top) if time in reading.at else Fraction(1)) for time in range(job.release, end))
        if job.end != inf and job.release + at_top <= job.deadline:
            self.assertIn("it would have been met", told[0])
            return self.see("yes")
        due = [one for one in reading.jobs if one[2] <= job.deadline]
        due.sort(key=lambda one: (one[2], one[0] == job.name))
        admitted: List[second_program.Job] = []
        for one in due:
            tried = [*admitted, one]
            ok = all(
                sum(each[3] for each in tried if low <= each[1] and each[2] <= high) <= top * (high - low)
                for low in {each[1] for each in tried}
                for high in {each[2] for each in tried}
                if low < high
            )
            admitted = tried if ok else admitted
        if due[-1] not in admitted:
            self.assertIn("throughout: no.", told[0])
            self.see("no")
        elif job.end != inf:
            self.assertIn("not with these waits", told[0])
            self.see("otherwise")
        else:
            self.assertIn("isn't known", told[0])

    def look_at_energies(self, text: str, reading: Reading, read: Page) -> None:
        if not reading.points:
            self.assertNotIn("energies", read.ids)
            return self.see("no points")
        bars = {node.text.split(":")[0]: node for node in read.ids["energies"].all("li")}
        power = dict(reading.points)
        mixed = {1: Fraction(power[0] + power[2], 2)}
        first = min([job[1] for job in reading.jobs] + list(reading.at)[:1])
        last = max([job[2] for job in reading.jobs] + [max(reading.at, default=-1) + 1])
        spent = sum((mixed.get(speed, Fraction(power.get(speed, 0))) for _, speed in reading.at.values()), Fraction(0))
        spent += (last - first - len(reading.at)) * power[0]
        if not reading.at:
            return
        self.assertEqual(bars["as it ran"].all("data")[0].attributes["value"], spelled(spent))
        status, told = second_program.answer(["compare"], text.encode())
        if not status:
            least = told.decode().split("\n")[0].split()[2]
            self.assertEqual(bars["least"].all("data")[0].attributes["value"], least)
        speed = told.decode().split()
        if status:
            self.assertIn("No schedule on these points meets all deadlines", read.ids["energy"].text)
            self.assertEqual(speed[0], "too-slow")


class VerdictTest(unittest.TestCase):
    """A page never says yes where something may be missing."""

    def colour(self, text: str) -> Optional[str]:
        """The verdict's colour; None where the document is refused."""
        try:
            return page_of(text).ids["verdict"].attributes["class"]
        except ValueError:
            return None

    def test_what_is_no_yes(self) -> None:
        jobs = "job a.0 0 9 4\njob a.1 9 18 4\n"
        runs = "ticks 1\nrun a.0 0 4 1\nrun a.1 9 13 1\n"
        closing = "# 2 jobs written, none left out\n"
        self.assertEqual(self.colour(HEAD + jobs + runs + closing), "yes")
        self.assertEqual(self.colour(jobs + runs), "yes")
        for text, wanted in [
            ("", None),
            ("failed\n", None),
            ("ticks 1\n", None),
            (jobs, None),
            (jobs + runs + "failed\n", None),
            (HEAD + jobs + "ticks 1\n" + closing, "no"),
            (HEAD + jobs + runs, None),
            (HEAD + jobs + runs + closing[:-6] + "\n", None),
            (HEAD + jobs + runs + closing + HEAD.replace("CPU 0", "CPU 1") + jobs.replace("a.", "b.") + "ticks 1\n" + closing, None),
            (HEAD + "job a.0 0 9 4\nticks 1\nrun a.0 0 4 1\n" + closing, "open"),
            (HEAD + jobs + runs + "# left out: a.2 (its begin isn't in the trace)\n" + closing, "open"),
            (HEAD + jobs + runs + "# left out: 3 jobs of a (events lost), the first a.2, the last a.4\n" + closing, "open"),
            (HEAD + jobs + runs + "# places where events were lost: 1\n" + closing, "open"),
            (HEAD + jobs + runs + "# left out: a.2 (ran on another processor); window 20 29\n" + closing, "yes"),
            (HEAD + jobs + runs + "# left out: a.2 (ran on another processor)\n# places where events were lost: 1\n" + closing, "open"),
            (HEAD + jobs + runs + "# left out: a.2 (ran on another processor), 3.000 ms after its deadline\n" + closing, "no"),
            (HEAD + jobs + runs + "# late by less than a unit of time: a.1, 0.003 ms after its deadline\n" + closing, "no"),
            (jobs + runs + "# refuse a.7 from 0 to 9 work 99 top 2\n", "open"),
            (jobs + runs + "# not due by 18: b, 1 of 2 jobs, work 4\n", "open"),
            (jobs + "ticks 1\nrun a.0 0 4 1\nrun a.1 3 13 1\n", "no"),
            (jobs + "ticks 1\nrun a.0 0 4 1\nrun a.1 9 18 1\n", "no"),
            (HEAD + jobs + runs + "# the deadline of a, 9000.000000 ms, is more than 100 times the mean distance of its jobs' begins, "
             "9.000000 ms: is it in another unit?\n" + closing, "open"),
            (HEAD + jobs + runs + "# 2 stretches within one unit of time, 0.016000 ms together, are in no run\n" + closing, "yes"),
        ]:  # fmt: skip
            with self.subTest(text):
                self.assertEqual(self.colour(text), wanted)

    def test_a_job_that_began_before_the_trace_is_of_its_task(self) -> None:
        told = "# late, without its runs: a.before (its begin isn't in the trace), at least 40.000000 ms after its deadline\n"
        closing = "# 2 jobs written, none left out, 1 late without its runs\n"
        read = page_of(HEAD + "job a.before 0 1 1\njob a.0 0 1000 10000\nticks 1\nrun a.0 0 100 100\n" + told + closing)
        self.assertEqual([(row["task"].text, row["jobs"].text, row["missed"].text) for row in read.table("by-task")], [("a", "2", "1")])

    def test_another_fault_of_the_slots(self) -> None:
        read = page_of("job a 0 9 4\njob b 0 9 4\nticks 1\nrun a 0 4 1\nrun b 3 7 1\n")
        told = "overlap slot 2 b 3 previous 4, and whether deadlines were met isn't told"
        self.assertIn(f"The schedule has a fault: {told}", read.ids["verdict"].text)
        late = page_of("job a 0 2 4\njob b 0 9 4\nticks 1\nrun a 0 4 1\nrun b 3 7 1\n")
        self.assertIn("previous 4; 1 of 2 jobs missed their deadlines, and others may have", late.ids["verdict"].text)
        self.assertNotIn("worst", late.ids)

    def test_what_can_hide_a_miss_is_told_beside_it(self) -> None:
        text = (
            "job a.0 0 9 4\nticks 1\nrun a.0 0 4 1\n# left out: a.1 (ran on another processor)\n# left out: a.2 (its begin isn't in the trace)\n"
            "# left out: a.3 (its begin isn't in the trace)\n# left out: a.4 (after to)\n"
        )
        for lost, wanted in (("", "no"), ("# places where events were lost: 2\n", "yes")):
            rows = {row["What"].text: row for row in page_of(text + lost).table("unjudged")}
            self.assertEqual(rows["left out: a.1 (ran on another processor)"]["Can it hide a miss?"].text, wanted)
            self.assertEqual(rows["left out: 2 jobs of a (its begin isn't in the trace), the first a.2, the last a.3"]["Can it hide a miss?"].text, "yes")
            self.assertEqual(rows["left out: a.4 (after to)"]["Can it hide a miss?"].text, "no")

    def test_a_program_that_says_nothing(self) -> None:
        for answer in (lambda words, text: (0, b""), lambda words, text: (139, b"")):
            with self.assertRaisesRegex(ValueError, "audit has no answer"):
                page.html("job a 0 9 4\nticks 1\nrun a 0 4 1\n", answer=answer)

    def test_a_refusal_names_the_file_and_the_line(self) -> None:
        def refuses(words: Sequence[str], text: bytes) -> Tuple[int, bytes]:
            return 3, b"refused 2 9 EmptyWindow\n"

        with self.assertRaisesRegex(ValueError, "^document, line 2, column 9: EmptyWindow, in job b 4 4 1; "):
            page.html("job a 0 9 4\njob b 4 4 1\nticks 1\n", answer=refuses)

    def test_energies_that_have_no_answer(self) -> None:
        def only_audit(words: Sequence[str], text: bytes) -> Tuple[int, bytes]:
            return second_program.answer(words, text) if words[0] == "audit" else (6, b"")

        text = "point 0 0\npoint 2 3\njob a 0 9 4\nticks 1\nrun a 0 4 1\n"
        with mock.patch("yds._page_pictures.find_spec", return_value=None):
            read = Page(page.html(text, answer=only_audit))
        self.assertIn("compare has no answer: it ended with the status 6", read.ids["energy"].text)
        self.assertEqual(read.ids["verdict"].attributes["class"], "yes")


def _place_of(fault: BaseException) -> str:
    """In which file it was raised."""
    trace = fault.__traceback__
    while trace is not None and trace.tb_next is not None:
        trace = trace.tb_next
    return "" if trace is None else trace.tb_frame.f_code.co_filename


HOSTILE = [
    "<script>alert(1)</script>", "\"><img/src=x>", "</title><b>", "&lt;b&gt;", "]]>", "-->", "a'b\"c", "$\\frac{1}{2}$",
    "<svg/onload=x>.1", "javascript:x", "%s{0}", "=cmd|'x'!A0",
]  # fmt: skip


class HostileTest(unittest.TestCase):
    """No name is read as HTML, and no sign of it is one that a reader can't see."""

    def test_names(self) -> None:
        jobs = [f"job {name} 0 9 4\n" for name in HOSTILE]
        runs = [f"run {name} {place * 4} {place * 4 + 4} 1\n" for place, name in enumerate(HOSTILE)]
        others = [f"# other {name}\x1b[2J\xe2\x80\xae-7 {place * 4} {place * 4 + 1}\n" for place, name in enumerate(HOSTILE)]
        comments = ["# left out: <b>.1 (<i>)\n", "# left out: 4 jobs of <u> (<em>), the first <q>\n", "# \x00\x7f\x9b\xff<hr>\n"]
        text = "".join([*jobs, "ticks 1\n", *runs, *others, *comments]).encode("latin-1")
        read = page_of(text, title="</title><script>x</script>\x1b]0;x\x07\u202e")
        self.assertEqual([node.text for node in read.root.all("script")], [SCRIPT])
        policy = [node.attributes["content"] for node in read.root.all("meta") if "http-equiv" in node.attributes]
        self.assertTrue(policy[0].startswith("default-src 'none'; script-src 'sha256-"))
        for tag in ("img", "svg", "i", "u", "em", "q", "hr"):
            self.assertEqual([node for node in read.root.all(tag) if not node.attributes.get("style")], [], tag)
        told = [cell["job"].text for cell in read.table("all-misses")]
        self.assertEqual(sorted(told), sorted(HOSTILE[2:]))
        self.assertIn("<i>", read.root.text)
        self.assertIn("\\x00\\x7f\\x9b", read.root.text)
        self.assertIn("\\u202e", read.root.text)
        self.assertTrue(all(sign.isprintable() or sign == "\n" for sign in read.root.text))

    def test_broken_bytes(self) -> None:
        """Of 150 broken documents each is refused, or its page says yes only where the second program does."""
        pick, pages = random.Random(7), 0
        for seed in range(150):
            text = bytearray(drawn(seed % 40).encode())
            for _ in range(pick.randrange(1, 6)):
                place = pick.randrange(len(text))
                text[place : place + pick.randrange(3)] = pick.choice([b"", b"9", b"\x00", b"<", b"\xff", b"\n", b" ", b"#", b"-", b"+1/0"])
            with self.subTest(seed=seed):
                try:
                    read = page_of(bytes(text))
                except (ValueError, IndexError, KeyError, ZeroDivisionError) as fault:
                    self.assertTrue(isinstance(fault, Fault) or "second_program" in _place_of(fault), repr(fault))
                    continue
                pages += 1
                if read.ids["verdict"].attributes["class"] == "yes":
                    self.assertEqual(second_program.answer(["audit"], bytes(text))[1], b"feasible\n")
        self.assertGreater(pages, 30)

    def test_4000_jobs_and_many_comments(self) -> None:
        """The page of so many misses has the first 200, and says how many there are."""
        def audit(words: Sequence[str], text: bytes) -> Tuple[int, bytes]:
            late = b"run t.0 0 2 1" in text and b"job t.0 0 1 " in text
            return (1, b"late slot 1 t.0 2 deadline 1\n") if late else (0, b"feasible\n") if words[0] == "audit" else (3, b"")

        lines = [f"job t.{place} {place * 2} {place * 2 + 1} 2\n" for place in range(4000)] + ["ticks 1\n"]
        lines += [f"run t.{place} {place * 2} {place * 2 + 2} 1\n" for place in range(4000)]
        lines += [f"# left out: t{place % 500}.{place} (its begin isn't in the trace)\n" for place in range(10_000)] + ["# " + "x" * 100_000 + "\n"]
        with mock.patch("yds._page_pictures.find_spec", return_value=None):
            text = page.html("".join(lines), answer=audit)
        read = Page(text)
        self.assertLess(len(text), 400_000)
        self.assertEqual(len(read.table("all-misses")), 200)
        self.assertIn("the first 200 of 4,000", read.ids["misses"].text)
        self.assertIn("4,000 of 4,000 jobs missed their deadlines", read.ids["verdict"].text)
        self.assertIn("and 400 more", read.root.text)
        self.assertIn("more lines", read.ids["comments"].text)
        rows = read.table("by-task")
        self.assertEqual((len(rows), rows[-1]["jobs"].text), (101, "4000"))


class ByHandTest(unittest.TestCase):
    """The sample of the manual, in which decode.2 is late."""

    def setUp(self) -> None:
        self.text = (EXPECTED / "points.txt").read_bytes() + (EXPECTED / "document-late.txt").read_bytes()

    def test_the_verdict_and_the_worst(self) -> None:
        read = page_of(self.text)
        self.assertEqual(read.ids["verdict"].text, "\u2717 1 of 8 jobs missed its deadline, the worst decode.2, late by 1.69 ms")
        worst = read.ids["worst"].text
        for text in (
            "Released at 5123.435453, due at 5123.452123, run first at 5123.435463, ended at 5123.453813",
            "From wake-up to first run: 0.01 ms",
            "Top speed throughout: no. Jobs that are due by then have the work 252666 within 16.67 ms",
            "1420 MHz does 236714 there",
        ):
            self.assertIn(text, worst)
        rows = {row["task"].text: row for row in read.table("by-task")}
        self.assertEqual([rows["decode"][name].text for name in ("jobs", "missed", "greatest", "least slack")], ["3", "1", "18.36", "-1.69"])
        self.assertEqual(rows["audio"]["period as measured"].text, "10")

    def test_energies(self) -> None:
        text = read_energy = page_of(self.text).ids["energy"].text
        self.assertIn("The least constant speed that meets every deadline is 1515.69 MHz. The top point, 1420 MHz, is too slow", text)
        self.assertIn("with 1 deadline moved to its job's end", read_energy)
        self.assertIn("It spends 5.4 % more than the least", text)
        self.assertIn("as it ran: 4.574 mJ", text)
        self.assertNotIn("Other threads had the processor", text)
        spans = b"# other kworker/0:1-57 270 290\n# other kworker/0:1-57 2360 2376\n"
        others = page_of(self.text + spans).ids["energy"].text
        self.assertIn("Other threads had the processor for 0.36 ms while a job waited.", others)
        self.assertIn("on a processor that has nothing else to do.", others)

    def test_a_document_with_moved_deadlines(self) -> None:
        """What yds-jobs --late-moved writes has the same misses, and energies that say so."""
        moved = call("jobs", "--late-moved", given=self.text)
        self.assertEqual(moved.status, 0)
        before, after = page_of(self.text), page_of(moved.out)
        for name in ("verdict", "by-task", "all-misses", "worst"):
            self.assertEqual(after.ids[name].text, before.ids[name].text)
        self.assertIn("every deadline, with 1 deadline moved to where late jobs ended, is 1376.18 MHz", after.ids["energy"].text)
        self.assertIn("It spends 5.4 % more than the least", after.ids["energy"].text)
        self.assertIn("with 1 deadline moved to where late jobs ended", after.ids["energy"].text)

    def test_a_deadline_in_another_unit(self) -> None:
        lines = [f"job t.{place} {place * 10} {place * 10 + 10_000} 2\n" for place in range(5)]
        read = page_of("".join([*lines, "ticks 1\n", *(f"run t.{place} {place * 10} {place * 10 + 2} 1\n" for place in range(5))]))
        self.assertIn("The deadline of t is 1e+03 times its period. Is it in another unit?", read.root.text)

    def test_pictures_are_told_to_be_missing(self) -> None:
        told = page_of(self.text).ids["no-pictures"].text
        self.assertIn("matplotlib isn't installed: who runs when around each of the worst misses, ", told)
        self.assertIn("apt-get install python3-matplotlib", told)

    def test_two_calls_give_the_same_bytes(self) -> None:
        self.assertEqual(page.html(self.text, answer=second_program.answer), page.html(self.text, answer=second_program.answer))


class CommandTest(unittest.TestCase):
    def called(self, *words: object, given: bytes = b"") -> Tuple[int, str, str]:
        with mock.patch("yds._page_pictures.find_spec", return_value=None), mock.patch(
            "yds.commands.page.of_environment", return_value=second_program.answer
        ):
            return call("page", *words, given=given)

    def test_files_are_joined_and_summed(self) -> None:
        points, late = EXPECTED / "points.txt", EXPECTED / "document-late.txt"
        status, out, err = self.called("--title", "A <b>governor</b>", points, late)
        self.assertEqual((status, err), (0, ""))
        read = Page(out)
        self.assertEqual(read.root.all("header")[0].all("p")[0].text, "A <b>governor</b>")
        rows = read.table("inputs")
        self.assertEqual([row["name"].text for row in rows], [str(points), str(late)])
        self.assertEqual([row["SHA-256"].text for row in rows], [hashlib.sha256(file.read_bytes()).hexdigest() for file in (points, late)])
        self.assertIn(f"yds-page --title 'A <b>governor</b>' {points} {late}", read.ids["repeat"].text)

    def test_standard_input(self) -> None:
        text = (EXPECTED / "document.txt").read_bytes()
        status, out, err = self.called(given=text)
        self.assertEqual((status, err), (0, ""))
        self.assertIn("no energy is told", Page(out).ids["energy"].text)
        self.assertEqual(Page(out).table("inputs")[0]["SHA-256"].text, hashlib.sha256(text).hexdigest())

    def test_faults(self) -> None:
        late = EXPECTED / "document-late.txt"
        for words, given, told in [
            ((), b"", "standard input has no line of a document; look at what wrote it"),
            ((), b"failed\n", "line 1: the input is an answer of no: failed"),
            ((), b"job a 0 9\nticks 1\n", "line 1, column 10: a job needs NAME RELEASE DEADLINE WORK, in whole numbers"),
            ((), b"job a 0 9 4\n", "no slot and no run line, so there is nothing to judge; give a trace's document, or the answer"),
            ((late, late), b"", "a second line of ticks, so this is of another document; give the texts of one"),
            ((), b"job a 0 9 4\njob a 9 18 4\nticks 1\n", "a second job is named a"),
            ((), "".join(late.read_text().splitlines(True)[:-1]).encode(), "line 1: the document of a trace begins here, and its last line, "),
            ((SAMPLES / "workload.json",), b"", 'is no line of a document'),
            ((late, Path("/nowhere")), b"", "/nowhere can't be read: No such file or directory"),
        ]:  # fmt: skip
            with self.subTest(words=words, given=given):
                status, out, err = self.called(*words, given=given)
                self.assertEqual((status, out), (1, ""))
                self.assertTrue(err.startswith("yds-page: ") and err.count("\n") == 1, err)
                self.assertIn(told, err)

    def test_a_folder_has_a_page_for_each_and_an_index(self) -> None:
        with tempfile.TemporaryDirectory() as held:
            folder = Path(held)
            (folder / "other").mkdir()
            for name, source in (("ok.txt", "document.txt"), ("other/ok.txt", "document-late.txt"), ("index.txt", "document-lost.txt")):
                (folder / name).write_bytes((EXPECTED / source).read_bytes())
            (folder / "a&<b> \u00fc.txt").write_bytes((EXPECTED / "document.txt").read_bytes())
            (folder / "failed.txt").write_bytes(b"failed\n")
            files = [folder / name for name in ("ok.txt", "other/ok.txt", "index.txt", "a&<b> \u00fc.txt", "failed.txt", "none.txt")]
            pages = folder / "pages"
            status, out, err = self.called("--folder", pages, "--points", EXPECTED / "points.txt", *files)
            self.assertEqual((status, out), (1, ""))
            self.assertEqual([line.split(": ")[1].split(",")[0] for line in err.splitlines()], [str(files[4]), f"{files[5]} can't be read"])
            names = sorted(path.name for path in pages.iterdir())
            self.assertEqual(names, ["a&<b> \u00fc.html", "index-2.html", "index.html", "ok-2.html", "ok.html"])
            read = Page((pages / "index.html").read_text(encoding="ascii"), names)
            rows = read.table("documents")
            self.assertEqual([row["document"].text for row in rows], [str(file) for file in files])
            self.assertEqual([row["missed"].text for row in rows], ["0", "1", "0", "0", "\u2013", "\u2013"])
            self.assertEqual(rows[0]["more than the least"].text, "36.1 %")
            self.assertEqual(rows[1]["more than the least"].text, "5.4 %, with 1 deadline moved to its job's end")
            self.assertIn("others may hide a miss", rows[2]["verdict"].text)
            self.assertIn("there is no page: ", rows[5]["verdict"].text)
            self.assertEqual(read.ids["verdict"].text, "2 documents of 6 met every deadline")
            for name in names[:2] + names[3:]:
                Page((pages / name).read_text(encoding="ascii"))
            self.assertEqual(self.called("--folder", pages, files[0])[0], 0)

    def test_words(self) -> None:
        for words, told in [
            (("--points", "x", "y"), "--points is for --folder: without it give the points as the first text"),
            (("--folder", "x"), "--folder needs a file for each document"),
            (("--us", "0"), "--us 0 is no whole number of 1 or more"),
            (("--grid", "x"), "--grid x is no whole number of 1 or more"),
            (("--titles", "x"), "unrecognized arguments: --titles"),
        ]:
            status, out, err = self.called(*words)
            self.assertEqual((status, out), (2, ""))
            self.assertIn(told, err)

    def test_units_of_time_that_no_comment_tells(self) -> None:
        text = b"job a 0 9 4\nticks 1\nrun a 0 4 1\n"
        self.assertIn("median response (ms)", self.called("--us", "1000", given=text)[1])
        self.assertIn("median response (units of time)", self.called(given=text)[1])


if __name__ == "__main__":
    unittest.main()
