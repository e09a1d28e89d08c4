"""yds-energy, yds-changes and yds-battery: what schedules spend."""

import random
import unittest
from fractions import Fraction
from itertools import combinations
from typing import Dict, List, Optional, Tuple
from unittest import mock

from called import EXPECTED, SAMPLES, broken, call
from test_jobs import Document, drawn, exact
from yds import energy

POINTS = "point 0 3\npoint 4 10\npoint 9 60\npoint 20 90\npoint 400 9000\n"


def power_at(speed: Fraction, points: List[Tuple[int, int]]) -> Fraction:
    """A point's power, or the least that two points by turns draw for this speed: a second reading."""
    at_point = [Fraction(power) for point, power in points if point == speed]
    mixes = [
        low_power + (high_power - low_power) * (speed - low) / (high - low)
        for (low, low_power), (high, high_power) in combinations(points, 2)
        if low <= speed <= high
    ]
    return at_point[0] if at_point else min(mixes)


def unit_by_unit(document: Document, speed: int) -> Tuple[int, Optional[str]]:
    """How many jobs miss at the speed, one unit of work after another, earliest deadline first; and the first of them."""
    left = {job: work for job, (_, _, work) in document.jobs.items()}
    late: List[str] = []
    now = 0
    while any(left.values()):
        ready = [job for job, work in left.items() if work and document.jobs[job][0] * speed <= now]
        if ready:
            chosen = min(ready, key=lambda job: document.jobs[job][1])
            left[chosen] -= 1
            if not left[chosen] and now + 1 > document.jobs[chosen][1] * speed:
                late.append(chosen)
        now += 1
    order = sorted((document.jobs[job][1], list(document.jobs).index(job), job) for job in late)
    return len(late), order[0][2] if order else None


class EnergyTest(unittest.TestCase):
    def test_stored(self) -> None:
        both = (EXPECTED / "points.txt").read_bytes() + (EXPECTED / "document.txt").read_bytes()
        for words, name in [(("--name", "governor"), "energy.txt"), (("--at", "142"), "energy-at.txt")]:
            self.assertEqual(call("energy", *words, given=both), (0, (EXPECTED / name).read_text(), ""))

    def test_who_else_had_the_processor(self) -> None:
        """For how long others had it while a job waited is told beside the energy, since what they spent is in no line."""
        text = "point 0 0\npoint 10 10\njob a 0 40 100\nticks 1\nrun a 10 20 10\n"
        told = " while a job waited: what they spent is in no line, and no plan makes room for them\n"
        for spans, ticks in [("# other hog-7 0 6\n# other hog-8 6 10\n", "10 ticks"), ("# other hog-7 9 10\n", "1 tick")]:
            called = call("energy", "--name", "x", given=(text + spans).encode())
            self.assertIn(f"\n# other threads had the processor for {ticks}{told}", called.out)
        self.assertNotIn("other threads", call("energy", "--name", "x", given=text.encode()).out)

    def test_jobs_without_work_are_counted(self) -> None:
        text = "point 0 0\npoint 10 10\njob a 0 40 100\njob b 0 9 0\njob c 0 9 0\nticks 1\nrun a 10 20 10\n"
        told = "# 2 jobs have no work: they need nothing and are in time, the first b"
        for words in ([], ["--at", "10"]):
            self.assertIn(told, call("energy", *words, given=text.encode()).out.splitlines())

    def test_drawn_slots(self) -> None:
        """Energies, times and misses of 2,000 documents are those of a second reading."""
        points = [(int(speed), int(power)) for _, speed, power in (line.split() for line in POINTS.splitlines())]
        for seed in range(2000):
            text = drawn(seed)
            document = Document(text)
            called = call("energy", "--name", "x", given=(POINTS + text).encode())
            fast = [span for span in document.spans if span[3] > 400 * (span[2] - span[1])]
            if fast:
                self.assertIn("is above the top point 400", called.err)
                continue
            lines = called.out.splitlines()
            first = min([release for release, _, _ in document.jobs.values()] + [span[1] for span in document.spans])
            last = max([deadline for _, deadline, _ in document.jobs.values()] + [span[2] for span in document.spans])
            busy = sum((end - start for _, start, end, _ in document.spans), Fraction(0))
            spent = sum(
                (power_at(work / (end - start), points) * (end - start) for _, start, end, work in document.spans),
                Fraction(0),
            )
            found = exact(lines[0].split()[2])
            rounded = "# rounded to thousandths" in lines
            self.assertLessEqual(
                abs(found - spent - 3 * (last - first - busy)), Fraction(1, 2000) if rounded else 0, text
            )
            times = [exact(line.split()[3]) for line in lines[1:6]]
            self.assertLessEqual(abs(sum(times) - (last - first)), Fraction(len(times), 2000) if rounded else 0, text)
            self.check_misses(called.out, called.status, document)

    def check_misses(self, out: str, status: int, document: Document) -> None:
        late = [
            (deadline, place, job) for place, (job, (_, deadline, wanted)) in enumerate(document.jobs.items())
            if document.given(job) < wanted or any(span[2] > deadline for span in document.of(job))
        ]  # fmt: skip
        plural = "deadlines" if len(late) > 1 else "deadline"
        self.assertEqual(status, int(bool(late)))
        if late:
            self.assertTrue(out.endswith(f"# x misses {len(late)} {plural}, the first {min(late)[2]}\n"), out)

    def test_drawn_jobs_at_one_speed(self) -> None:
        """What 2,000 documents miss at one speed is what a simulation of one unit of work after another misses."""
        pick = random.Random(3)
        for _ in range(2000):
            speed = pick.choice([1, 3, 5])
            jobs = []
            for place in range(pick.randrange(1, 6)):
                release = pick.randrange(12)
                jobs.append(f"job j{place} {release} {release + pick.randrange(1, 9)} {pick.randrange(0, 16)}\n")
            document = Document("".join(jobs))
            called = call("energy", "--at", speed, given=(f"point 0 2\npoint {speed} 9\n" + "".join(jobs)).encode())
            work = sum(job[2] for job in document.jobs.values())
            window = max(job[1] for job in document.jobs.values()) - min(job[0] for job in document.jobs.values())
            if work > speed * window:
                self.assertIn("is more than the point", called.err)
                continue
            misses, first = unit_by_unit(document, speed)
            told = [line for line in called.out.splitlines() if "misses" in line]
            plural = "deadlines" if misses > 1 else "deadline"
            self.assertEqual(told, [f"# at-{speed} misses {misses} {plural}, the first {first}"] if misses else [])
            times = [exact(line.split()[3]) for line in called.out.splitlines()[1:3]]
            self.assertEqual(times[1], Fraction(work, speed))
            self.assertEqual(exact(called.out.split()[2]), 2 * times[0] + 9 * times[1])

    def test_the_own_misses_of_a_trace_are_none_of_another_speed(self) -> None:
        text = b"point 0 0\npoint 1 1\npoint 10 100\njob a 0 10 10\nticks 1\nrun a 5 15 1\n"
        wanted = "at-10 energy 100\nat-10 time 0 9\nat-10 time 1 0\nat-10 time 10 1\n# at-10 changes 2, wakes 1\n"
        self.assertEqual(call("energy", "--at", "10", given=text), (0, wanted, ""))
        self.assertEqual(call("energy", given=text).out.splitlines()[-1], "# trace misses 1 deadline, the first a")

    def test_most_waste(self) -> None:
        text = b"point 0 0\npoint 10 20\npoint 20 60\njob a 0 10 100\nslot a 0 5 100\n"
        answer = mock.Mock(return_value=(0, b"job a 0 10 100\nslot a 0 10 100\nenergy 200\n"))
        with mock.patch("yds.commands.energy.of_environment", lambda: answer):
            for most, status in (("49.9", 1), ("50", 0), ("60", 0)):
                called = call("energy", "--most-waste", most, given=text)
                self.assertEqual(
                    (called.status, called.out.splitlines()[-1]), (status, "# trace spends 50.0 % more than the least")
                )
            answer.return_value = (1, b"too-slow work 100 length 1 top 5\n")
            self.assertEqual(
                call("energy", "--most-waste", "9", given=text),
                (1, "", "yds-energy: the least isn't known: too-slow work 100 length 1 top 5\n"),
            )
        from yds._least import judged

        self.assertEqual(
            judged(Fraction(15), (Fraction(10), Fraction(12)), Fraction(40)),
            (False, "spends from 25.0 to 50.0 % more than the least, which leaves open whether it is more than 40.0 %"),
        )
        self.assertEqual(judged(Fraction(18), (Fraction(10), Fraction(12)), Fraction(40))[0], True)

    def test_faults(self) -> None:
        for text, told in [
            ("job a 0 9 4\n", "no point line; put the points before the document, as yds-join points.txt trace.txt"),
            (POINTS, "no job line"),
            (
                POINTS + "job a 0 9 4\n",
                "no slot and no run line; the input is a trace's document, or the answer of plan, round, avr or oa",
            ),
            (
                POINTS + "job a 0 9 4\nslot a 0 2 4\nslot a 1 3 4\n",
                "line 8, column 8: it begins before the slot above it has ended; sort them, or see what yds_cli audit says",
            ),
            (
                POINTS + "job a 0 9 4\nslot a 0 1 401\n",
                "line 7, column 12: the speed 401 from 0 to 1 is above the top point 400",
            ),
        ]:
            self.assertEqual(call("energy", given=text.encode()), (1, "", f"yds-energy: {told}\n"))
        for words in (["--at", "x"], ["--name", "a b"], ["--name", "#"], ["--most-waste", "-1"]):
            self.assertEqual(call("energy", *words)[:2], (2, ""))
        self.assertEqual(
            call("energy", "--at", "50", given=(POINTS + "job a 0 9 4\n").encode()).err,
            "yds-energy: no point has the speed 50\n",
        )

    def test_each_broken_field(self) -> None:
        text = ["point 0 0", "point 9 9", "job a 0 9 4", "ticks 2", "run a 2 4 4"]
        right = call("energy", given="\n".join(text).encode()).out
        for place, line in enumerate(text):
            for wrong in broken(line, 2 if line[:3] in ("job", "run") else 1):
                called = call("energy", given="\n".join([*text[:place], wrong, *text[place + 1 :]]).encode())
                self.assertTrue(called.status == 1 and called.out != right, wrong)


class ChangesTest(unittest.TestCase):
    def test_drawn_documents(self) -> None:
        """2,000 documents: the speeds one after the other, with 0 where nothing runs, are counted: a second reading."""
        for seed in range(2000):
            document = Document(drawn(seed))
            speeds = [Fraction(0)]
            now = Fraction(-1)
            for _, start, end, work in document.spans:
                speeds += [Fraction(0)] * (start > now) + [work / (end - start)]
                now = end
            speeds.append(Fraction(0))
            changes = sum(one != other for one, other in zip(speeds, speeds[1:]))
            wakes = sum(one == 0 != other for one, other in zip(speeds, speeds[1:]))
            wanted = f"slots {len(document.spans)}\nchanges {changes}\nwakes {wakes}\n"
            self.assertEqual(call("changes", given=drawn(seed).encode()), (0, wanted, ""))
            rows = [span for span in document.spans if span[3]]
            if len(rows) == len(document.spans):
                self.assertEqual(energy.changes(rows), (len(rows), changes, wakes))

    def test_faults(self) -> None:
        self.assertIn("no slot and no run line", call("changes", given=b"job a 0 9 4\n").err)
        self.assertIn("line 2, column 8: it begins before", call("changes", given=b"slot a 0 2 4\nslot a 1 3 4\n").err)
        for wrong in broken("slot a 0 2 4", 2):
            if not wrong.endswith(" 1+1/1"):
                self.assertEqual(call("changes", given=wrong.encode()).status, 1, wrong)


class BatteryTest(unittest.TestCase):
    LINES = b"plan energy 400\nplan time 0 5\nplan time 10 5\nflat energy 800\nflat time 0 0\nflat time 10 10\n"
    WORDS = ("--mah", "220", "--volts", "3")

    def test_by_hand(self) -> None:
        """400 units of 10 uW in 10 units of time are 0.4 mW, of 660 mWh: 1650 hours. In 20, with 10 units idle at 5: 0.225."""
        head = b"# power unit 10 uW\npoint 0 0\npoint 10 80\n"
        called = call("battery", *self.WORDS, "--period", "10", given=head + self.LINES)
        self.assertEqual(
            called.out, "side\tmilliwatts\thours\tof plan (%)\nplan\t0.400\t1650.0\t100.0\nflat\t0.800\t825.0\t50.0\n"
        )
        idle = b"# power unit 10 uW\n# period 20\npoint 0 5\npoint 10 75\n"
        lines = self.LINES.replace(b"flat energy 800", b"flat energy 750")
        rows = call("battery", *self.WORDS, "--other", "0.1", given=idle + lines).out.splitlines()
        self.assertEqual(rows[1:], ["plan\t0.325\t2030.8\t100.0", "flat\t0.500\t1320.0\t65.0"])
        self.assertEqual(
            call("battery", *self.WORDS, "--uw", "10", "--period", "1000", EXPECTED / "compare-sensor.txt").out,
            (EXPECTED / "battery.tsv").read_text(),
        )

    def test_what_is_refused_or_told(self) -> None:
        points = b"# power unit 10 uW\npoint 0 0\npoint 10 80\n"
        for text, words, status, told in [
            (points + self.LINES, (), 2, "no period is told; give --period"),
            (
                b"# no period: jobs are missing\n" + points + self.LINES,
                (),
                2,
                "no period is told (no period: jobs are missing); give --period",
            ),
            (self.LINES, ("--period", "10"), 2, "no unit of power; give --uw"),
            (points + self.LINES, ("--period", "9"), 1, "the side plan takes 10 units of time, and the period is 9"),
            (
                self.LINES,
                ("--uw", "1", "--period", "20"),
                1,
                "the side plan takes 10 of the 20 units of time of the period",
            ),
            (
                points.replace(b"80", b"81") + self.LINES,
                ("--period", "10"),
                1,
                "the energy of plan isn't power times time on these points",
            ),
            (
                points.replace(b"point 10", b"point 11") + self.LINES,
                ("--period", "10"),
                1,
                "no point has the speed 10 of plan",
            ),
            (
                points + points.replace(b"80", b"70") + self.LINES,
                ("--period", "10"),
                1,
                "line 6: the points differ: point 10 70 here, and point 10 80 before",
            ),
            (points + b"point 0 0\n" + self.LINES, ("--period", "10"), 1, "the points differ: 2 of them and then 1"),
            (points + self.LINES + self.LINES, ("--period", "10"), 1, "line 10, column 1: the side plan stands twice"),
            (points + self.LINES[16:], ("--period", "10"), 1, "no plan among the sides"),
            (b"# period 10\n# period 20\n" + points + self.LINES, (), 1, "the period 20 here and 10 before"),
            (b"# period 20\n" + points + self.LINES, ("--period", "10"), 2, "--period 10, and the document's is 20"),
            (points + self.LINES, ("--period", "10", "--uw", "9"), 2, "--uw 9, and the points' unit of power is 10 uW"),
            (points, ("--period", "10"), 1, "no energy line; is this the answer of compare?"),
        ]:
            called = call("battery", *self.WORDS, *words, given=text)
            self.assertEqual((called.status, called.out), (status, ""), told)
            self.assertIn(told, called.err)
        late = (
            points
            + self.LINES
            + b"# flat misses 3 deadlines, the first a\n# 2 jobs written, 1 left out\n# not due by 9: b\navr too-slow units 1 from 0 to 1 top 1\n"
        )
        self.assertEqual(call("battery", *self.WORDS, "--period", "10", given=late).out.splitlines()[2:], [
            "flat\tmisses 3\t-\t-", "avr\ttoo slow\t-\t-", "# 1 job was left out of the document, with its energy", "# not due by 9: b: this energy is in no line",
        ])  # fmt: skip

    def test_energies_of_some_of_the_jobs(self) -> None:
        """The energies of a part beside the whole document: the rest isn't time in which nothing runs."""
        head = b"# power unit 10 uW\n# period 40\npoint 0 5\npoint 10 75\n"
        lines = self.LINES[:46]
        self.assertEqual(call("battery", *self.WORDS, given=head + b"job a 20 30 50\n" + lines).status, 0)
        for jobs, span in ((b"job a 20 30 50\njob b 0 40 9\n", 40), (b"job a 20 29 50\n", 9)):
            told = f"the side plan takes 10 units of time, and the document's jobs {span}, from the first release to the last"
            called = call("battery", *self.WORDS, given=head + jobs + lines)
            self.assertEqual((called.status, called.out), (1, ""))
            self.assertIn(f"{told} deadline; give the energies of all of these jobs", called.err)
        called = call("battery", *self.WORDS, given=head + b"job a 20 30 51\n" + lines)
        told = "the side plan does 50 units of work, and the document's jobs have 51; give the energies of all of these jobs"
        self.assertEqual((called.status, called.out, called.err), (1, "", f"yds-battery: {told}\n"))

    def test_words(self) -> None:
        for words in (
            ["--mah", "0", "--volts", "3"],
            ["--mah", "9"],
            ["--mah", "x", "--volts", "3"],
            [*self.WORDS, "--other", "-1"],
            [*self.WORDS, "--period", "0"],
        ):
            self.assertEqual(call("battery", *words).status, 2)

    def test_drawn_sides(self) -> None:
        """2,000 comparisons: the hours are the battery's over the mean power, in floats: a second reading."""
        pick = random.Random(4)
        for _ in range(2000):
            idle, power, unit = pick.randrange(9), pick.randrange(10, 900), pick.choice([1, 10, 1000])
            sides: Dict[str, Tuple[int, int]] = {
                name: (pick.randrange(0, 50), pick.randrange(1, 50)) for name in ("plan", "avr", "x")
            }
            period = 100 + pick.randrange(200)
            text = f"# power unit {unit} uW\n# period {period}\npoint 0 {idle}\npoint 7 {power}\n"
            for name, (resting, running) in sides.items():
                text += f"{name} energy {idle * resting + power * running}\n{name} time 0 {resting}\n{name} time 7 {running}\n"
            rows = [line.split("\t") for line in call("battery", *self.WORDS, given=text.encode()).out.splitlines()[1:]]
            for row in rows:
                resting, running = sides[row[0]]
                mean = (power * running + idle * (period - running)) / period * unit / 1000
                self.assertAlmostEqual(float(row[1]), mean, delta=0.00051)
                self.assertAlmostEqual(float(row[2]), 660 / mean, delta=0.051)

    def test_each_broken_field(self) -> None:
        text = ["# power unit 10 uW", "point 0 0", "point 10 80", "plan energy 400", "plan time 0 5", "plan time 10 5"]
        for place, line in enumerate(text[1:], 1):
            for wrong in broken(line, 1 if line.startswith("point") else 2):
                called = call(
                    "battery",
                    *self.WORDS,
                    "--period",
                    "10",
                    given="\n".join([*text[:place], wrong, *text[place + 1 :]]).encode(),
                )
                self.assertEqual((called.status, called.out), (1, ""), wrong)


if __name__ == "__main__":
    unittest.main()
