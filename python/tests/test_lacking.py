"""What a trace lacks, in the stored texts of yds_trace's comments: no command passes over it, and none says a plain yes."""

import tempfile
import unittest
from pathlib import Path
from typing import List, Sequence
from unittest import mock

import second_program
from called import EXPECTED, Called, broken, call
from page_reading import Page
from yds import page, parts
from yds._lacking import lack_of
from yds.jobs import misses, table
from yds._text import Line, Rows

HOLES = "# places where events were lost: 3"
SWITCHES = "# switches of other threads that are missing: 448"
MARKERS = "# lines that programs wrote into the trace: 12"
CLOCK = "# no line for 60.001000000 s, from 100.001000000 s on: did the clock jump?"
SILENT = "# no line of CPU 1 for 40.000000000 s, from 100.100000000 s on to the end: what it did then isn't known"
ALL = [HOLES, SWITCHES, MARKERS, CLOCK, SILENT]
UP_TO_HERE = [
    "# places where events were lost, up to here: 3",
    "# switches of other threads that are missing, up to here: 448",
    "# lines that programs wrote into the trace, up to here: 12",
    "# up to here, no line for 60.001000000 s, from 100.001000000 s on: did the clock jump?",
    "# up to here, no line of CPU 1 for 40.000000000 s, from 100.100000000 s on: what it did then isn't known",
]
JUMPED = (
    " if it did, times behind it are later than they were; if nothing was recorded, whole jobs may have been there"
)
POINTS = "# power unit 1000 uW\npoint 0 1\npoint 2 3\npoint 4 10\n"
HEAD = "# CPU 0 of a kernel trace; time 0 is 100.500000000 s\n# time unit 10 us, speed unit 10000 kHz, work unit 100 cycles\n"


def document(comments: Sequence[str], closing: int = 2, late: bool = False) -> str:
    """A trace's document of two jobs, with these comments before its last line."""
    end = 20 if late else 13
    jobs = f"job a.0 0 9 12\njob a.1 9 18 {12 if not late else 33}\n"
    told = "".join(f"{text}\n" for text in comments)
    runs = f"ticks 1\nrun a.0 3 6 4\n# other burn-7 0 3\n# other ui-9 9 10\nrun a.1 10 {end} {4 if not late else 3}\n"
    work = jobs.replace(" 33", " 30")
    return HEAD + work + runs + told + f"# {closing} jobs written, none left out\n"


def asked(name: str, *words: object, given: str) -> Called:
    """What the command answers, with a second program's answers."""
    answer = second_program.answer
    with mock.patch("yds._program.of_library", return_value=answer), mock.patch(
        "yds._judged.of_library", return_value=answer
    ), mock.patch("yds._bounds.of_library", return_value=answer, create=True):
        return call(name, *words, given=given.encode("latin-1"))


def page_of(text: str, **named: object) -> Page:
    """The page without pictures, read."""
    with mock.patch("yds._page_pictures.find_spec", return_value=None):
        return Page(page.html(text, answer=second_program.answer, **named))  # type: ignore[arg-type]


class CommentTest(unittest.TestCase):
    """The texts, and what is near them."""

    def test_each_text(self) -> None:
        for text in ALL + UP_TO_HERE:
            lack = lack_of(text)
            assert lack is not None
            self.assertEqual((f"# {lack.told}", lack.is_up_to_here), (text, text in UP_TO_HERE))

    def test_what_is_none(self) -> None:
        for text in [
            HOLES[2:],
            HOLES.replace("events", "jobs"),
            SWITCHES.replace("other", "listed"),
            MARKERS.replace("programs", "a program"),
            CLOCK.replace("no line", "a line"),
            SILENT.replace("no line", "a line"),
        ]:
            self.assertIsNone(lack_of(text), text)

    def test_a_broken_number_hides_no_hole(self) -> None:
        for text in (HOLES, CLOCK, SILENT):
            for wrong in broken(text, 2):
                if wrong.startswith(("# places where events were lost", "# no line for 60", "# no line of CPU 1")):
                    with self.subTest(wrong):
                        self.assertEqual(page_of(document([wrong])).ids["verdict"].attributes["class"], "open")


class VerdictTest(unittest.TestCase):
    """A trace with a hole is told, and its deadlines are met as far as the trace shows."""

    def test_misses(self) -> None:
        rest = ": whole jobs may have been there"
        told = [HOLES + rest, CLOCK + JUMPED, SILENT + rest]
        far = "feasible as far as the trace shows"
        here = [UP_TO_HERE[0] + rest, UP_TO_HERE[3] + JUMPED, UP_TO_HERE[4] + rest]
        for comments, wanted in [
            ([], ["feasible"]),
            ([HOLES], [told[0], far]),
            ([CLOCK], [told[1], far]),
            ([SILENT], [told[2], far]),
            ([SWITCHES, MARKERS], ["feasible"]),
            (ALL, [*told, far]),
            (UP_TO_HERE, [*here, far]),
        ]:
            with self.subTest(comments):
                found = asked("misses", given=document(comments))
                self.assertEqual((found.status, found.out.splitlines()), (8 if wanted[-1] == far else 0, wanted))

    def test_misses_beside_a_miss(self) -> None:
        found = asked("misses", given=document(ALL, late=True))
        self.assertEqual((found.status, found.out.splitlines()[-4][:32], found.out.splitlines()[-1]), (1, HOLES[:32], "1 missed deadline"))

    def test_the_call(self) -> None:
        lines = [Line("-", place, text) for place, text in enumerate(document(ALL).splitlines(), 1)]
        found = misses(iter(lines), second_program.answer)
        self.assertEqual((found.verdict, found.lacking.may_hide, found.lacking.comments()), ("feasible", True, ALL))
        self.assertEqual(table(Rows(iter(lines))).lacking.comments(), ALL)

    def test_its_answer_as_tables(self) -> None:
        answer = asked("misses", given=document([HOLES])).out
        self.assertEqual(call("answer", "--csv", "verdicts", given=answer.encode()).out.split(), ["verdict,as_far_as", "feasible,trace"])

    def test_jobs(self) -> None:
        found = asked("jobs", given=document(ALL))
        rest = ": whole jobs may have been there"
        self.assertEqual(found.out.splitlines()[1:4], [HOLES + rest, CLOCK + JUMPED, SILENT + rest])
        self.assertNotIn("events were lost", asked("jobs", given=document([SWITCHES, MARKERS])).out)

    def test_late_moved_keeps_them(self) -> None:
        found = asked("jobs", "--late-moved", given=document(ALL, late=True))
        self.assertEqual([line for line in found.out.splitlines() if line in ALL], ALL)


class PageTest(unittest.TestCase):
    """The page's verdict, and what it says of what couldn't be judged."""

    def test_verdict(self) -> None:
        for comments, colour, front in [
            ([], "yes", "✓ Every deadline was met"),
            ([SWITCHES, MARKERS], "yes", "✓ Every deadline was met"),
            ([HOLES], "open", "? As far as the trace shows, no deadline was missed by the 2 jobs that could be judged; events were lost"),
            (UP_TO_HERE, "open", "? As far as the trace shows, no deadline was missed"),
            ([CLOCK], "open", "? As far as the trace shows, no deadline was missed by the 2 jobs that could be judged; no line of the trace"),
            ([SILENT], "open", "? As far as the trace shows, no deadline was missed by the 2 jobs that could be judged; a processor tells"),
        ]:
            with self.subTest(comments):
                read = page_of(document(comments)).ids["verdict"]
                self.assertEqual((read.attributes["class"], read.text[: len(front)]), (colour, front))
        self.assertEqual(page_of(document(ALL, late=True)).ids["verdict"].attributes["class"], "no")

    def test_what_could_not_be_judged(self) -> None:
        for comments in (ALL, UP_TO_HERE):
            rows = {row["What"].text: (row["Can it hide a miss?"].text, row["Why"].text) for row in page_of(document(comments)).table("unjudged")}
            told = [text[2:] for text in comments]
            self.assertEqual([rows[text][0] for text in told], ["yes", "no", "no", "yes", "yes"])
            self.assertEqual(rows[told[0]][1], "whole jobs may have been there")
            self.assertEqual(rows[told[1]][1], "the time of others isn't whole; where a switch of a listed task is missing, its job is told")

    def test_beside_who_waited_for_whom(self) -> None:
        told = f"{SWITCHES[2:]}: the time of others isn't whole."
        self.assertIn(told, page_of(document(ALL, late=True)).ids["worst"].text)
        self.assertIn(told, page_of(POINTS + document(ALL)).ids["energy"].text)
        self.assertNotIn(told, page_of(POINTS + document([HOLES], late=True)).root.text)

    def test_several_parts_tell_the_last_number(self) -> None:
        earlier = [text.replace("3", "1").replace("448", "7") for text in UP_TO_HERE[:2]]
        rows = [row["What"].text for row in page_of(document([*earlier, *ALL])).table("unjudged")]
        self.assertEqual(sorted(rows), sorted(text[2:] for text in ALL))


class EnergyTest(unittest.TestCase):
    """Energies say what is in none of them, wherever they go."""

    told = [f"{HOLES}: what ran there is in no line", f"{SWITCHES}: the time of others isn't whole"]

    def test_energy(self) -> None:
        for words in ([], ["--at", "4"]):
            found = asked("energy", *words, given=POINTS + document(ALL))
            self.assertEqual(found.out.splitlines()[-2:], self.told)
            self.assertNotIn("lost", asked("energy", *words, given=POINTS + document([])).out)

    def test_what_reads_energies(self) -> None:
        compared = "plan energy 60\nplan time 0 18\nplan time 2 0\nplan time 4 0\n"
        energies = compared + asked("energy", "--name", "governor", given=POINTS + document(ALL)).out
        with tempfile.TemporaryDirectory() as folder:
            Path(folder, "one.txt").write_text(energies)
            collected = call("collect", Path(folder, "one.txt"))
        self.assertIn(self.told[0][2:], collected.out)
        summed = call("summary", given=collected.out.encode())
        self.assertIn("in 1 of them jobs have energy that is in no line", summed.out)
        drawn = call("plot", "-t", "text", "energy", given=energies.encode())
        self.assertIn("what ran there is in no line", drawn.out)

    def test_gantt(self) -> None:
        drawn = call("plot", "-t", "text", "-s", "170x30", "gantt", given=document(ALL).encode())
        self.assertIn(f"{HOLES[2:]}: whole jobs may have been there", drawn.out)
        self.assertIn(f"{SWITCHES[2:]}: the time of others isn't whole", drawn.out)


class PartsTest(unittest.TestCase):
    """Cut, each part tells them; put together, the last part's numbers hold."""

    def texts(self, comments: Sequence[str]) -> List[bytes]:
        lines = [line.encode() + b"\n" for line in (POINTS + document(comments)).splitlines()]
        return [part.text for part in parts.cut(lines, 1)]

    def test_cut(self) -> None:
        found = self.texts(ALL)
        self.assertEqual(len(found), 2)
        for text in found:
            self.assertEqual([line for line in text.decode().splitlines() if line in ALL], ALL)

    def test_each_part_is_a_document(self) -> None:
        """Its first line tells the clock, its last one how many jobs it has: so that no part is taken for one cut short."""
        comments = ["# left out: a.before (its begin isn't in the trace)", HOLES]
        whole = POINTS + document(comments).replace("none left", "1 left")
        lines = [line.encode() + b"\n" for line in whole.splitlines()]
        for shift, clock in ((False, "100.500000000"), (True, "100.500090000")):
            first, last = (part.text.decode() for part in parts.cut(lines, 1, shift))
            self.assertIn("# CPU 0 of a kernel trace; time 0 is 100.500000000 s\n", first)
            self.assertIn(f"# CPU 0 of a kernel trace; time 0 is {clock} s\n", last)
            ends = [text.splitlines()[-1] for text in (first, last)]
            self.assertEqual(ends, ["# 1 job written, none left out", "# 1 job written, 1 left out"])
            for text in (first, last):
                self.assertEqual((asked("misses", given=text).status, asked("jobs", given=text).status), (8, 0))
            self.assertEqual([page_of(text).ids["verdict"].attributes["class"] for text in (first, last)], ["open", "open"])
        with_one_taken_away = [line for line in lines if b"a.0" not in line]
        self.assertEqual(list(parts.cut(with_one_taken_away, 1))[0].text.decode().splitlines()[-1], "# 2 jobs written, 1 left out")

    def test_whole_of_audit(self) -> None:
        found = self.texts(ALL)
        put = parts.whole(found, [b"feasible\n"] * 2)
        rest = ": whole jobs may have been there"
        wanted = [HOLES + rest, CLOCK + JUMPED, SILENT + rest, "feasible"]
        self.assertEqual([line.decode().rstrip("\n") for line in put.lines], wanted)
        plain = self.texts([])
        self.assertEqual(list(parts.whole(plain, [b"feasible\n"] * 2).lines), [b"feasible\n"])

    def test_the_last_part_holds(self) -> None:
        first, last = self.texts([])
        first += b"# places where events were lost, up to here: 1\n"
        last += b"# places where events were lost, up to here: 4\n"
        told = list(parts.whole([first, last], [b"feasible\n"] * 2).lines)
        self.assertEqual(told[0], b"# places where events were lost: 4: whole jobs may have been there\n")

    def test_whole_of_energies(self) -> None:
        found = self.texts(ALL)
        answers = [asked("energy", given=text.decode()).out.encode() for text in found]
        told = [line.decode().rstrip("\n") for line in parts.whole(found, answers).lines]
        self.assertEqual([line for line in told if "missing" in line or "lost" in line], EnergyTest.told)

    def test_bounds(self) -> None:
        with tempfile.TemporaryDirectory() as folder:
            for number, text in enumerate(self.texts(ALL), 1):
                Path(folder, f"part-{number:05d}.txt").write_bytes(text)
            with mock.patch("yds.commands.whole.of_environment", return_value=second_program.answer):
                found = call("whole", "--bounds", *sorted(Path(folder).iterdir()))
        self.assertEqual(found.out.splitlines()[-2:], EnergyTest.told)

    def test_misses_of_a_long_document(self) -> None:
        with mock.patch("yds._judged.MOST_JOBS", 1):
            found = asked("misses", given=document(ALL))
        self.assertEqual((found.status, found.out.splitlines()[-1]), (8, "feasible as far as the trace shows"))

    def test_split_keeps_them(self) -> None:
        told = "".join(f"{text}\n" for text in UP_TO_HERE)
        one = "# part 1: jobs 1 to 1, from 0 to 9, shift 0\n" + HEAD + "job a.0 0 9 12\nticks 1\nrun a.0 3 6 4\n"
        two = one.replace("part 1: jobs 1 to 1", "part 2: jobs 2 to 2").replace("shift 0", "shift 0, the last").replace("a.0", "a.1")
        text = "".join(part + told + "# 1 job written, none left out\n" for part in (one, two))
        found = list(parts.split([line.encode() + b"\n" for line in text.splitlines()]))
        self.assertEqual([part.text.decode().count("up to here") for part in found], [5, 5])


class KeptTest(unittest.TestCase):
    """What passes documents on keeps the comments."""

    def test_join(self) -> None:
        with tempfile.TemporaryDirectory() as folder:
            Path(folder, "points.txt").write_text(POINTS)
            found = call("join", Path(folder, "points.txt"), "-", given=document(ALL).encode())
        self.assertEqual([line for line in found.out.splitlines() if line in ALL], ALL)

    def test_frames(self) -> None:
        with tempfile.TemporaryDirectory() as folder:
            jobs = "# time unit 10 us, speed unit 10000 kHz\njob a.0 0 9 12\njob a.1 9 18 12\n"
            Path(folder, "frames.txt").write_text(jobs)
            found = call("frames", "--jobs", Path(folder, "frames.txt"), given=document(ALL).encode())
        self.assertEqual((found.status, found.err), (0, ""))
        self.assertEqual([line for line in found.out.splitlines() if line in ALL], ALL)


class IdleTest(unittest.TestCase):
    """--idle: threads of these names don't count as others, and the answer says so."""

    taken = "# taken for idle: burn, which had the processor for 3 ticks while a job waited"

    def test_energy(self) -> None:
        text = POINTS + document([])
        other = "# other threads had the processor for {} while a job waited: what they spent is in no line, and no plan makes room for them"
        self.assertEqual(asked("energy", given=text).out.splitlines()[4:], [other.format("4 ticks")])
        for words in (["--idle", "burn"], ["--idle=burn"], ["--at", "4", "--idle", "burn"]):
            told = [line for line in asked("energy", *words, given=text).out.splitlines() if "idle" in line or "other" in line]
            self.assertEqual(told, [other.format("1 tick"), self.taken])
        told = asked("energy", "--idle", "burn,ui", given=text).out.splitlines()[4:]
        self.assertEqual(told, [self.taken, "# taken for idle: ui, which had the processor for 1 tick while a job waited"])

    def test_a_name_that_is_not_there_and_one_with_a_comma(self) -> None:
        told = asked("energy", "--idle", "burm", given=POINTS + document([])).out.splitlines()
        self.assertEqual(told[-1], "# taken for idle: burm, which no comment names")
        text = POINTS + document([]).replace("burn-7", "b,u-7")
        self.assertIn("# taken for idle: b,u, which had", asked("energy", "--idle", "b\\,u", given=text).out)

    def test_page(self) -> None:
        read = page_of(POINTS + document([], late=True), idle=["burn", "burm"])
        told = "taken for idle: burn, which had the processor for 0.03 ms while a job waited."
        for section in ("energy", "worst"):
            self.assertIn(told, read.ids[section].text)
            self.assertIn("taken for idle: burm, which no comment names.", read.ids[section].text)
        self.assertNotIn("taken for idle", page_of(POINTS + document([], late=True)).root.text)

    def test_gantt(self) -> None:
        text = document([]).encode()
        drawn = call("plot", "-t", "text", "-s", "170x30", "--idle", "burn,burm", "gantt", given=text)
        self.assertIn("others: ui-9 for", drawn.out)
        self.assertNotIn("burn-7", drawn.out)
        told = "taken for idle: burm (no comment names it), burn for 30 µs"
        self.assertIn(told, drawn.out.encode("latin-1").decode("utf-8"))

    def test_words(self) -> None:
        for words in (["energy", "--idle", "a,,b"], ["page", "--idle", ""], ["plot", "--idle", "a", "speed"]):
            found = call(words[0], *words[1:], given=document([]).encode())
            self.assertEqual((found.status, found.out, found.err.count("\n")), (2, "", 1))


class DocumentTest(unittest.TestCase):
    """A stored document without such comments is told as it was."""

    def test_stored(self) -> None:
        text = (EXPECTED / "document.txt").read_text()
        self.assertEqual(asked("misses", given=text).out, "feasible\n")


if __name__ == "__main__":
    unittest.main()
