"""yds-slots: the stored texts, what is refused, and drawn schedules beside a second reading."""

import math
import os
import random
import unittest
from fractions import Fraction
from typing import Dict, List, Optional, Tuple

from called import EXPECTED, SAMPLES, broken, call

CASES = int(os.environ.get("CASES", "200"))
"""How many schedules are drawn."""
LATE = """job a 0 10 10
job b 0 12 2
slot a 0 10.0000004 10.0
slot b 10.0000003 12 2
slot b 12 12 0
slot a 1 2 0.0
"""


class SlotsTest(unittest.TestCase):
    def told(self, text: str, *words: str) -> str:
        status, out, err = call("slots", *words, given=text.encode("latin-1"))
        self.assertEqual((status, err), (0, ""), text)
        return out

    def test_a_linear_program(self) -> None:
        """GLPK's decimals at their word, and within a millionth, told by works and by speeds."""
        sample = SAMPLES / "lp-schedule.txt"
        self.assertIn("\nslot j5 28 57+833333/1000000 179\n", call("slots", sample).out)
        near = call("slots", "--most", "0.000001", sample).out.splitlines()
        self.assertEqual(
            near[:3],
            [
                "# 22 slots of another program, error at most 3.34e-07, the greatest in line 30, TO",
                "# 11 slots are at a point's speed here and not in the input",
                "# the slots are sorted by time",
            ],
        )
        told_by_speed = []
        for line in sample.read_text().splitlines():
            fields = line.split()
            if fields[0] == "slot":
                fields[4] = str(int(float(fields[4]) / (float(fields[3]) - float(fields[2])) + 0.5))
            told_by_speed.append(" ".join(fields))
        by_speed = self.told("\n".join(told_by_speed), "--speeds", "--most=1e-6").splitlines()
        self.assertEqual(by_speed[0], near[0])
        self.assertEqual([line for line in by_speed if line[0] == "s"], [line for line in near if line[0] == "s"])

    def test_a_simulator(self) -> None:
        out = call("slots", "--most", "0.0000001", SAMPLES / "simulator-schedule.txt").out
        self.assertEqual(
            [line for line in out.splitlines() if line.startswith("slot")],
            ["slot a 0 2 2", "slot b 2 4 2+2/3", "slot c 4 6 6", "slot b 6 10 5+1/3", "slot a 10 12 2"],
        )

    def test_what_is_late_by_less_is_told(self) -> None:
        self.assertEqual(
            self.told(LATE, "--most", "0.0000005"),
            """# 2 slots of another program, error at most 4e-07, the greatest in line 3, TO
# 2 conditions fail in the input and hold here, by at most 4e-07; the first: line 3, TO is after the deadline
# the slots are sorted by time
# left out: 2 slots without work, the first in line 5
job a 0 10 10
job b 0 12 2
slot a 0 10 10
slot b 10 12 2
""",
        )
        self.assertIn("slot a 0 10+1/2500000 10\n", self.told(LATE))
        self.assertNotIn("condition", self.told(LATE, "--most", "0.0000001"))

    def test_a_little_below_0(self) -> None:
        self.assertEqual(
            self.told("job a 0 9 4\nslot a -1e-9 9 4\nslot a 9 9 -0.0000003\nslot a 3 4 -0.0\n", "--most", "1e-6"),
            """# 1 slot of another program, error 0
# 2 numbers are below 0 in the input and 0 here, by at most 3e-07
# the slots are sorted by time
# left out: 2 slots without work, the first in line 3
job a 0 9 4
slot a 0 9 4
""",
        )

    def test_sums(self) -> None:
        """A sum that holds is kept, one that is near is shared, and one that is too far off stays."""
        for text, words, out in [
            (
                "job a 0 9 4\nslot a 0 1 0.7071\nslot a 1 2 1.3003\nslot a 2 3 1.9926\n",
                "0.001",
                "# 3 slots of another program, error 0\njob a 0 9 4\n"
                "slot a 0 1 0+7071/10000\nslot a 1 2 1+3003/10000\nslot a 2 3 1+9926/10000\n",
            ),
            (
                "job a 0 9 4\nslot a 0 1 1.41421\nslot a 1 2 2.58570\n",
                "0.00005",
                "# 2 slots of another program, error at most 4.5e-05, the greatest in line 2, WORK\n"
                "# 1 condition fails in the input and holds here, by at most 9e-05; the first: job a was given too little\n"
                "job a 0 9 4\nslot a 0 1 1+82851/200000\nslot a 1 2 2+117149/200000\n",
            ),
            (
                "job a 0 9 4\nslot a 0 1 1.41421\nslot a 1 2 2.58570\n",
                "0.00004",
                "# 2 slots of another program, error 0\njob a 0 9 4\n"
                "slot a 0 1 1+41421/100000\nslot a 1 2 2+58570/100000\n",
            ),
        ]:
            self.assertEqual(self.told(text, "--most", words), out)

    def test_a_point_is_left(self) -> None:
        """0.123456 of time at the speed 2 are 0.246912. Within a thousandth they become 7/57 and 16/65."""
        out = self.told(
            "point 0 0\npoint 2 4\njob a 0 9 1\nslot a 0 0.123456 0.246912\nslot a 1 2 0.753088\n", "--most=0.001"
        )
        self.assertIn("\n# 1 slot is at a point's speed in the input and not here, the first in line 4\n", out)

    def test_the_greatest_denominator(self) -> None:
        """2^60 - 1 is a multiple of 3; 2^60 isn't."""
        text = "job a 0 9 4\nslot a 1/1152921504606846975 1/3 4.0\n"
        self.assertEqual(
            self.told(text).splitlines()[-1],
            "slot a 0+1/1152921504606846975 0+384307168202282325/1152921504606846975 4",
        )
        self.assertEqual(
            call("slots", given=text.replace("6975", "6976").encode()).err,
            "yds-slots: line 2: the two ends have no common denominator up to 2^60; give --most, as 0.000001\n",
        )

    def test_other_lines(self) -> None:
        """They stay as they are; an energy that is no fraction of a document becomes a comment."""
        text = "# \xb5 time unit 10 us\r\n\npoint 0 0\nticks 1\njob a 0 9.0 4\nrun a 0 2 1\nenergy 3.5\nenergy 3\nslot a 2 4 2\n"
        self.assertEqual(
            self.told(text).splitlines()[1:],
            [
                *("# \xb5 time unit 10 us", "", "point 0 0", "ticks 1", "job a 0 9 4", "run a 0 2 1"),
                *("# left out: energy 3.5 (no fraction of a document)", "energy 3", "slot a 2 4 2"),
            ],
        )

    def test_faults(self) -> None:
        for text, told in [
            ("slot a 0 -0.001 4", "line 2, column 10: TO -0.001 is no number of 0 or more"),
            ("slot a 0 nan 4", "line 2, column 10: TO nan is no number, as 3, 1.25, 2.5e-3, 10/3 or 3+1/3"),
            ("slot a 0 1/0 4", "line 2, column 10: TO 1/0 is no number, as 3, 1.25, 2.5e-3, 10/3 or 3+1/3"),
            ("slot a 0 1e41 4", "line 2, column 10: TO 1e41 is no number, as 3, 1.25, 2.5e-3, 10/3 or 3+1/3"),
            ("slot a 0 1e9 1e13", "line 2, column 14: WORK 1e13 is above 1000000000000, the greatest of a document"),
            ("job b 0 9 4.5", "line 2, column 11: 4.5 isn't whole; a job's times and work are, in a finer unit"),
            ("job a 0 9 4", "line 2, column 5: a second job is named a"),
            ("slot b 0 9 4", "line 2, column 6: no job b stands before this slot"),
            ("slot a 0 9", "line 2, column 11: a slot needs NAME FROM TO WORK"),
            ("refused 1 9 EmptyWindow", "line 2: the input is an answer of no: refused 1 9 EmptyWindow"),
            ("", "no slot line; give the schedule as slot NAME FROM TO WORK"),
            (
                "ticks 2\nrun a 0 2 1\nslot a 0 1 4",
                "line 3: runs in ticks and slots in one document; write all as slots",
            ),
            ("run a 0.5 2 1", "line 2: a run has whole ticks and a whole speed; write it as a slot, and give --speeds"),
            (
                "# time unit 10 us\n# time unit 100 us\nslot a 0 1 4",
                "line 3, column 3: a unit of time of 100 us here and 10 us before; give both the same --us",
            ),
            (
                "slot a 0 1 1/1000000007\nslot a 1 2 0.1234567891",
                "line 2: the works of job a have no common denominator up to 2^60; give --most, as 0.000001",
            ),
        ]:
            called = call("slots", given=f"job a 0 9 4\n{text}\n".encode())
            self.assertEqual(called, (1, "failed\n", f"yds-slots: {told}\n"))
        for words, text, told in [
            (
                ["--most=0.01"],
                "slot a 3.33 3.34 4",
                "the slot is so short that both its ends become 3+1/3; give a smaller --most",
            ),
            (["--speeds"], "slot a 3 2 4", "column 10: TO is before FROM"),
            (["--speeds"], "slot a 3 4", "column 11: a slot needs NAME FROM TO SPEED"),
        ]:
            called = call("slots", *words, given=f"job a 0 9 4\n{text}\n".encode())
            self.assertEqual(called[:2], (1, "failed\n"))
            self.assertTrue(called.err.endswith(f"{told}\n"), called.err)

    def test_words(self) -> None:
        for words, told in [
            (["--most", "1"], "--most 1 is no number from 0 to below 1/2"),
            (["--most=-0.1"], "--most -0.1 is no number from 0 to below 1/2"),
            (["most=0.1"], "most=0.1 is no word of this command: write --most 0.1; a file of this name is ./most=0.1"),
            (["speeds=1"], "speeds=1 is no word of this command: write --speeds; a file of this name is ./speeds=1"),
        ]:
            called = call("slots", *words, given=b"job a 0 9 4\nslot a 0 1 4\n")
            self.assertEqual(called, (2, "failed\n", f"yds-slots: {told}; see yds-slots --help\n"))
        self.assertEqual(call("slots", EXPECTED / "compare-refused.txt")[:2], (1, "failed\n"))

    def test_each_broken_field(self) -> None:
        """1.5 is a number here: a field so broken is one of another schedule, and its number is told."""
        for line, good in [("job b 1 9 4", "slot b 1 2 4"), ("slot a 0 2 4", ""), ("slot a 1.25 2+1/3 10/3", "")]:
            for wrong in broken(line, 1):
                status, out, _ = call("slots", given=f"job a 0 9 4\n{wrong}\n{good}\n".encode())
                if status == 0 and "1.5" in wrong.split():
                    self.assertRegex(out, r" 1\+(1/2|2/4|3/6)( |\n)")
                    continue
                self.assertEqual((status, out), (1, "failed\n"), wrong)

    def test_hostile_numbers(self) -> None:
        for number in ("9" * 100000, "0." + "1" * 100000, "1e" + "9" * 900, "1/" + "7" * 5000, "\x1b[31m", "<b>"):
            called = call("slots", given=f"job a 0 9 4\nslot a 0 {number} 4\n".encode())
            self.assertEqual(called[:2], (1, "failed\n"))
            self.assertLess(len(called.err), 200)
            self.assertTrue(called.err[:-1].isprintable())


# --- A second reading, from what the page says.


def value_of(text: str) -> Fraction:
    """3, 1.25, 2.5e-3, 10/3 or 3+1/3."""
    if "e" in text:
        mantissa, exponent = text.split("e")
        power = int(exponent)
        return value_of(mantissa) * (10**power if power >= 0 else Fraction(1, 10**-power))
    if text.startswith("-"):
        return -value_of(text[1:])
    whole, plus, rest = text.partition("+")
    if plus:
        return value_of(whole) + value_of(rest)
    above, slash, below = text.partition("/")
    if slash:
        return Fraction(int(above), int(below))
    before, _, behind = text.partition(".")
    return int(before) + Fraction(int(behind or 0), 10 ** len(behind))


def least_within(value: Fraction, most: Fraction) -> Fraction:
    """The fraction of least denominator that is within most of the value, by trying one denominator after the other."""
    if value.denominator == 1 or not most:
        return value
    low, high = max(value - most, Fraction(0)), value + most
    denominator = 1
    while math.ceil(low * denominator) > math.floor(high * denominator):
        denominator += 1
    return Fraction(math.ceil(low * denominator), denominator)


def written(value: Fraction, denominator: int) -> str:
    above = value * denominator
    whole = int(above) // denominator
    rest = int(above) - whole * denominator
    return f"{whole}+{rest}/{denominator}" if rest else f"{whole}"


def three_digits(value: Fraction) -> str:
    """Rounded up, by trying the exponents of ten."""
    exponent = 3
    while value < Fraction(1, 10**9) * Fraction(10) ** (exponent + 9):
        exponent -= 1
    digits = math.ceil(value / Fraction(10) ** (exponent - 2))
    if digits == 1000:
        digits, exponent = 100, exponent + 1
    text = f"{digits}"
    mantissa = f"{text[0]}.{text[1:]}".rstrip("0").rstrip(".")
    return f"{mantissa}e{'-' if exponent < 0 else '+'}{abs(exponent):02d}"


class Second:
    """What the command writes of a text, or None where it refuses it."""

    def __init__(self, text: str, most: str, by_speed: bool) -> None:
        self.most = value_of(most)
        self.jobs: Dict[str, Tuple[int, int, int]] = {}
        self.slots: List[Tuple[int, str, Fraction, Fraction, Fraction, Fraction]] = []
        self.speeds: List[int] = []
        self.rest: List[str] = []
        self.below: List[Fraction] = []
        self.by_speed = by_speed
        self.is_refused = False
        for number, line in enumerate(text.splitlines(), 1):
            self.read(number, line)

    def read(self, number: int, line: str) -> None:
        kind, *fields = line.split(" ")
        if kind == "job":
            row = [int(value_of(field)) for field in fields[1:]]
            self.jobs[fields[0]] = (row[0], row[1], row[2])
            self.rest.append(f"job {fields[0]} {row[0]} {row[1]} {row[2]}")
        elif kind == "slot":
            values = []
            for field in fields[1:]:
                value = value_of(field)
                self.is_refused |= value < -self.most
                self.below += [-value] if value < 0 else []
                values.append(max(Fraction(0), value))
            start, end, last = values
            self.is_refused |= self.by_speed and end < start
            self.slots.append((number, fields[0], start, end, last * (end - start) if self.by_speed else last, last))
        else:
            self.speeds += [int(fields[0])] if kind == "point" else []
            self.rest.append(line)

    def works(self, name: str, ends: List[Tuple[Fraction, Fraction]]) -> Optional[Tuple[Dict[int, Fraction], bool]]:
        """The works of a job's slots by their places, and whether they are speed times time; None where none are."""
        places = [place for place, slot in enumerate(self.slots) if slot[1] == name and slot[4] > 0]
        given = [self.slots[place][4] for place in places]
        needs = self.jobs[name][2]
        tried = []
        if self.by_speed and self.most:
            tried.append([self.slots[place][5] * (ends[place][1] - ends[place][0]) for place in places])
        tried += [[least_within(work, self.most) for work in given], given]
        if self.most:
            step = next(10**power for power in range(30) if 10**power * self.most >= 4)
            coarse = [x if x.denominator <= step else Fraction(int((2 * x * step + 1) // 2), step) for x in given]
            each = (needs - sum(coarse)) / len(coarse)
            shared = [x + each for x in coarse]
            if all(x > 0 and abs(x - y) <= self.most for x, y in zip(shared, given)):
                tried.append(shared)
        for turn, works in enumerate(tried):
            if sum(works) == needs and math.lcm(*(x.denominator for x in works)) <= 2**60:
                return dict(zip(places, works)), turn == 0 and self.by_speed and self.most > 0
        if math.lcm(*(x.denominator for x in given)) > 2**60:
            return None
        return dict(zip(places, given)), False

    def at_point(self, start: Fraction, end: Fraction, work: Fraction) -> bool:
        return end > start and any(speed * (end - start) == work for speed in self.speeds)

    def answer(self) -> Optional[str]:
        if self.is_refused or not self.slots:
            return None
        ends = [(least_within(slot[2], self.most), least_within(slot[3], self.most)) for slot in self.slots]
        moved = [Fraction(0)] * len(self.slots)
        exact_speed, mends = set(), []
        for name in dict.fromkeys(slot[1] for slot in self.slots if slot[4] > 0):
            found = self.works(name, ends)
            if found is None:
                return None
            for place, work in found[0].items():
                moved[place] = work
            exact_speed |= {name} if found[1] else set()
            was = sum(slot[4] for slot in self.slots if slot[1] == name)
            if was != self.jobs[name][2] == sum(found[0].values()):
                how = "little" if was < self.jobs[name][2] else "much"
                mends.append((abs(was - self.jobs[name][2]), f"job {name} was given too {how}"))
        order = sorted(range(len(self.slots)), key=lambda place: (self.slots[place][2], self.slots[place][3], place))
        kept = [place for place in order if moved[place]]
        return self.text(ends, moved, order, kept, exact_speed, mends)

    def text(self, ends, moved, order, kept, exact_speed, mends) -> Optional[str]:  # type: ignore[no-untyped-def]
        error, where, to, off = Fraction(0), "", 0, []
        for turn, place in enumerate(kept):
            number, name, start, end, work, _ = self.slots[place]
            begin, stop = ends[place]
            if (begin == stop and start != end) or math.lcm(begin.denominator, stop.denominator) > 2**60:
                return None
            for field, gap in (("FROM", begin - start), ("TO", stop - end), ("WORK", moved[place] - work)):
                if abs(gap) > error and not (field == "WORK" and name in exact_speed):
                    error, where = abs(gap), f"line {number}, {field}"
            if start < self.jobs[name][0] <= begin:
                mends.append((self.jobs[name][0] - start, f"line {number}, FROM is before the release"))
            if end > self.jobs[name][1] >= stop:
                mends.append((end - self.jobs[name][1], f"line {number}, TO is after the deadline"))
            earlier = kept[turn - 1] if turn else place
            if turn and start < self.slots[earlier][3] and begin >= ends[earlier][1]:
                told = f"line {number}, FROM is before the end of line {self.slots[earlier][0]}"
                mends.append((self.slots[earlier][3] - start, told))
            was, now = self.at_point(start, end, work), self.at_point(begin, stop, moved[place])
            to += now and not was
            off += [number] if was and not now else []
        gone = [self.slots[place][0] for place in range(len(moved)) if not moved[place]]
        lines = [
            f"# {len(kept)} slot{'' if len(kept) == 1 else 's'} of another program, error "
            + (f"at most {three_digits(error)}, the greatest in {where}" if error else "0")
        ]
        several = len(mends) > 1
        if mends:
            lines.append(
                f"# {len(mends)} condition{'s fail' if several else ' fails'} in the input and hold{'' if several else 's'} here, "
                f"by at most {three_digits(max(mends)[0])}; the first: {mends[0][1]}"
            )
        if self.below:
            are = "numbers are" if len(self.below) > 1 else "number is"
            lines.append(
                f"# {len(self.below)} {are} below 0 in the input and 0 here, by at most {three_digits(max(self.below))}"
            )
        if to:
            lines.append(f"# {to} slot{'s are' if to > 1 else ' is'} at a point's speed here and not in the input")
        if off:
            are = "s are" if len(off) > 1 else " is"
            lines.append(
                f"# {len(off)} slot{are} at a point's speed in the input and not here, the first in line {min(off)}"
            )
        if order != sorted(order):
            lines.append("# the slots are sorted by time")
        if gone:
            lines.append(
                f"# left out: {len(gone)} slot{'s' if len(gone) > 1 else ''} without work, the first in line {gone[0]}"
            )
        lines += self.rest
        for place in kept:
            name = self.slots[place][1]
            per = math.lcm(ends[place][0].denominator, ends[place][1].denominator)
            grain = math.lcm(*(moved[other].denominator for other in kept if self.slots[other][1] == name))
            lines.append(
                f"slot {name} {written(ends[place][0], per)} {written(ends[place][1], per)} {written(moved[place], grain)}"
            )
        return "\n".join(lines) + "\n"


def a_number(pick: random.Random) -> str:
    """A number of any kind."""
    return pick.choice(
        [
            str(pick.randrange(20)),
            f"{pick.random() * 20:.3f}",
            f"{pick.randrange(60)}/{pick.randrange(1, 9)}",
            f"{pick.randrange(20)}+{pick.randrange(9)}/{pick.randrange(1, 9)}",
            f"{pick.randrange(100) / pick.randrange(1, 12):.7f}",
            f"{pick.random() * 10 ** pick.randrange(-3, 2):.4e}",
            f"-0.000{pick.randrange(10)}",
            f"{pick.randrange(40) / 3:.9f}",
        ]
    )


def any_slots(pick: random.Random) -> List[str]:
    """Slots of any numbers."""
    lines = [
        f"job a {pick.randrange(5)} {pick.randrange(6, 20)} {pick.randrange(9)}",
        f"job b 0 20 {pick.randrange(9)}.0",
    ]
    for _ in range(pick.randrange(1, 6)):
        lines.append(f"slot {pick.choice('ab')} {a_number(pick)} {a_number(pick)} {a_number(pick)}")
    return lines


def as_printed(pick: random.Random) -> List[str]:
    """A schedule of small fractions, as a program prints it, with so many decimals and with errors of its own."""
    jobs, slots, now = [], [], Fraction(0)
    digits, noise = pick.choice([2, 3, 6, 9]), pick.choice([0, 0, 0, Fraction(1, 10**4), Fraction(1, 10**6)])
    for number in range(pick.randrange(1, 5)):
        begin, parts, work = now, pick.randrange(1, 4), pick.randrange(1, 12)
        for part in range(parts):
            end = begin + Fraction(pick.randrange(1, 60), 5 * pick.choice([1, 2, 3, 6, 7, 11]))
            share = (
                Fraction(work, parts) if pick.random() < 0.8 else Fraction(work * (part + 1) * 2, parts * (parts + 1))
            )
            values = (begin + pick.choice([0, noise]), end, share)
            slots.append(" ".join([f"slot j{number}", *(f"{float(value):.{digits}f}" for value in values)]))
            begin = end
        jobs.append(f"job j{number} {int(now)} {int(begin) + pick.randrange(3)} {work}")
        now = begin + pick.randrange(2) * Fraction(1, 3)
    if pick.random() < 0.4:
        pick.shuffle(slots)
    speeds = [0, *sorted(pick.sample(range(1, 12), 3))] if pick.random() < 0.5 else []
    return [*(f"point {speed} {speed * speed}" for speed in speeds), *jobs, *slots]


class DrawnTest(unittest.TestCase):
    def test_the_second_reading_by_hand(self) -> None:
        self.assertEqual(
            Second(LATE, "0.0000005", False).answer(), call("slots", "--most=5e-7", given=LATE.encode()).out
        )
        self.assertEqual(least_within(Fraction("57.833333"), Fraction(1, 10**6)), Fraction(347, 6))

    def test_drawn_schedules(self) -> None:
        """Each of CASES schedules is written as the second reading has it, or refused by both."""
        refused = moved = 0
        for seed in range(CASES):
            pick = random.Random(seed)
            text = "\n".join((as_printed if pick.random() < 0.6 else any_slots)(pick)) + "\n"
            most = pick.choice(["0", "0.1", "0.04", "0.001", "1e-5"])
            by_speed = pick.random() < 0.3
            wanted = Second(text, most, by_speed).answer()
            called = call("slots", *(["--speeds"] if by_speed else []), "--most", most, given=text.encode())
            self.assertEqual(called[:2], (1, "failed\n") if wanted is None else (0, wanted), f"{seed}: {text}")
            refused += wanted is None
            moved += wanted is not None and "error at most" in wanted
        self.assertGreater(min(refused, moved), CASES // 20)


if __name__ == "__main__":
    unittest.main()
