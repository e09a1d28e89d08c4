"""yds-points: operating points from what a kernel or a datasheet tells."""

import random
import unittest
from fractions import Fraction
from itertools import combinations
from typing import List, Tuple

from called import EXPECTED, SAMPLES, call
from yds.points import gaps_fit, hull


def told(text: str, *words: str) -> str:
    """The message of a fault."""
    called = call("points", *words, given=text.encode("latin-1"))
    assert called.status and called.out == "failed\n", called
    return called.err[len("yds-points: ") : -1]


class StoredTest(unittest.TestCase):
    def test_each_kind_of_input(self) -> None:
        for words, file, name in [
            (["--domain", "cpu0"], "energy-model.txt", "points"),
            (["--domain", "cpu4", "--khz", "24000", "--idle", "20"], "energy-model.txt", "points-exact-speeds"),
            (["--coefficient", "100"], "opp-debugfs.txt", "points-debugfs"),
            (["--coefficient", "100", "--domain", "cluster0_opp"], "opp.dtsi", "points-tree"),
            (["--khz", "1000", "--uw", "10", "--volts", "3.0"], "microcontroller.csv", "points-microcontroller"),
            (["--top", "2000"], "scaling_available_frequencies", "points-cube"),
        ]:
            wanted = (EXPECTED / f"{name}.txt").read_text()
            self.assertEqual(call("points", *words, SAMPLES / file), (0, wanted, ""))


class TableTest(unittest.TestCase):
    def test_units_and_what_is_moved(self) -> None:
        for text, words, wanted in [
            (
                "MHz,mW\n0,1\n48,20.4\n",
                [],
                "# table: speed unit 48000 kHz, power unit 1000 uW\npoint 0 1\npoint 1 20\n# rounded: 20.4 mW at 48 MHz to 20 mW\n",
            ),
            (
                "MHz,mW\n0,1\n1.005,10\n2.01,30\n",
                [],
                "# table: speed unit 1005 kHz, power unit 1000 uW\npoint 0 1\npoint 1 10\npoint 2 30\n",
            ),
            (
                "kHz,mW\n0,1\n10001,10\n240000,290\n",
                [],
                "# table: speed unit 10000 kHz, power unit 1000 uW\npoint 0 1\npoint 1 10\npoint 24 290\n# rounded: 10.001 MHz to 10 MHz\n",
            ),
            (
                '\xef\xbb\xbf"f (MHz)";"I (\xc2\xb5A/MHz)"\r\n16;100,5\r\n',
                ["--volts", "3", "--idle", "0"],
                "# table: speed unit 16000 kHz, power unit 1000 uW\npoint 0 0\npoint 1 5\n# rounded: 4.824 mW at 16 MHz to 5 mW\n",
            ),
            (
                "48 138\n",
                [],
                "# table: speed unit 48000 kHz, power unit 1000 uW\npoint 0 0\npoint 1 138\n# no idle power is given: idle draws 0\n",
            ),
        ]:
            self.assertEqual(call("points", *words, given=text.encode("latin-1")), (0, wanted, ""))
        above = call("points", given=b"MHz,mW\n0,0\n2,30\n16,100\n26,110\n48,800\n80,900\n").out.splitlines()
        self.assertEqual(
            [line.split(",")[0] for line in above[7:]],
            ["# never used: point 1", "# never used: point 8", "# never used: point 24"],
        )

    def test_a_heading_is_read_whole_or_refused(self) -> None:
        known = "give each column one that is known, as MHz,mW or MHz,mA or MHz,uA/MHz or MHz,mA,V"
        for text, words, message in [
            (
                "MHz;\xb5W\n1;26\n",
                (),
                "line 1: the heading has a sign that isn't known, written here as ?: MHz;?W; write it in plain letters, micro as u",
            ),
            (
                "MHz,micro W\n1,26\n",
                (),
                "line 1: the heading says micro, which isn't known; give each column a name of letters and its unit, as Current (mA)",
            ),
            ("MHz,MW\n1,26\n", (), "line 1: the heading says MW; is that mW?"),
            ("mHz,mW\n1,26\n", (), "line 1: the heading says mHz; is that MHz?"),
            ("MHz,hp\n1,26\n", (), f"line 1: the heading says the units MHz; {known}"),
            ("clock,power\n1,26\n", (), f"line 1: the heading says no unit; {known}"),
            ("MHz,mA\n1,26\n", (), "line 1: the heading says MHz, mA; give --volts"),
            ("MHz,mW\n1,26\n", ("--volts", "3"), "line 1: the heading says MHz, mW; leave --volts out"),
            ("MHz,mA,V\n1,26,3\n", ("--volts", "3"), "line 1: --volts and a column of volts; leave one of them out"),
            ("MHz,mW\nMHz,mW\n", (), "line 2: two headings; give a table with one"),
            ("MHz,mW\n26,-1\n", (), "line 2: -1 is no number; the columns are as in the heading"),
            ("MHz,mW\n26 | 2.6\n", (), "line 2: | is no number; the columns are as in the heading"),
            (
                "4 MHz,0.5\n",
                (),
                "line 1: MHz is no number; a row has numbers alone, and their units stand in a heading, as MHz,mA",
            ),
            ("26,1\n27,1e1\n", (), "line 2: 1e1 is no number; the columns are MHz and mW"),
            ("MHz,mW\n48\n", (), "line 2: 1 columns, and the heading has the units of 2"),
            (
                "MHz\tmW\n26\t2,6\n",
                (),
                "line 2: 3 columns (with decimal commas, write semicolons in place of the tabs: else a comma parts columns), "
                "and the heading has the units of 2",
            ),
            ("MHz,mW\n48,1\n48.0,2\n", (), "line 3: 48 MHz stands on line 2 too; leave one of them out"),
            ("MHz,mA,V\n48,1,0\n", (), "line 2: a current at 0 volts"),
            (
                "MHz,uA/MHz\n0,40\n",
                ("--volts", "3"),
                "line 2: at 0 MHz so much for each MHz is nothing; leave the line out and give --idle",
            ),
            ("0,1\n48,9\n", ("--idle", "1"), "line 1: --idle and a line of 0 MHz; leave one of them out"),
            (
                "",
                (),
                "no operating point was read; the input is an energy model, an opp folder, a device tree, a table of MHz and mW, or frequencies with --top",
            ),
        ]:
            self.assertEqual(told(text, *words), message)

    def test_units_that_do_not_fit(self) -> None:
        for text, words, message in [
            (
                "16,48\n48,138\n80,255\n",
                ("--khz", "10000"),
                "16000 kHz is speed 2 in units of 10000 kHz, more than a twentieth off; give a finer --khz, as --khz 16000",
            ),
            (
                "0.032768,1\n240,300\n",
                (),
                "32.768 kHz is speed 0; and no --khz is fine enough for it and coarse enough for the others, from 0.032768 to 240 MHz, 4000 units at most; leave some out",
            ),
            (
                "48,138\n",
                ("--idle", "0.396"),
                "idle draws 0.396 mW, and 0 units of 1000 uW are more than a twentieth off; give a finer --uw, as --uw 200",
            ),
            (
                "48,138\n",
                ("--idle", "0.0001"),
                "idle draws 0.0001 mW, and 0 units of 1000 uW are more than a twentieth off; and no --uw is fine enough for it and coarse enough for 138 mW, 1000000 units at most; leave one of the two out",
            ),
            ("48,9000000\n", (), "48000 kHz has power 9000000, above 1000000; give a coarser --uw"),
            (
                "803 1\n1604 2\n2404 3\n3203 4\n4000 5\n",
                ("--khz", "1000"),
                "the gaps between the speeds are too fine (their least common multiple is above 2^40); give a coarser --khz",
            ),
        ]:
            self.assertEqual(told(text, *words), message)

    def test_words(self) -> None:
        for words in (
            ["--khz", "0"],
            ["--khz", "1.5"],
            ["--uw", "0"],
            ["--uw", "x"],
            ["--idle", "-1"],
            ["--volts", ""],
            ["--power", "W"],
            ["--top", "a"],
            ["--coefficient", "1e3"],
        ):
            self.assertEqual(call("points", *words)[:2], (2, "failed\n"), words)
        model = SAMPLES / "energy-model.txt"
        for option in ("--top", "--volts", "--coefficient"):
            self.assertIn(option, call("points", "--domain", "cpu0", option, "3", model).err)
        self.assertIn("several domains: cpu4, cpu0; give --domain", call("points", model).err)
        self.assertIn("no domain cpu3; there are cpu4, cpu0", call("points", "--domain", "cpu3", model).err)

    def test_long_lines(self) -> None:
        """A hundred thousand signs, of each kind that a form of input has much of, take no time."""
        for text in ("1", "a", "/", "a/", "a/ps:1/", "/opp:1/", "1,", "a:"):
            for front in ("", "MHz,mW\n1,", "/ { opp-hz = "):
                found = call("points", given=f"{front}{text * (10**5 // len(text))}\n".encode())
                self.assertEqual((found.status, found.err.count("\n")), (1, 1), (front, text))
        found = call("points", given=b"/ { opp-hz = \n" + (b"x" * 99 + b"\n") * 2000)
        self.assertIn("line 1001: more than 100000 signs of a device tree without one of {, } and ;", found.err)

    def test_each_broken_number(self) -> None:
        for wrong in ("", "-1", "9" * 40, "1e3", "1.2.3", "x", "0x10", "1/2"):
            for row in (f"{wrong},138", f"48,{wrong}"):
                self.assertEqual(call("points", given=f"MHz,mW\n26,90\n{row}\n".encode())[:2], (1, "failed\n"), row)


class DrawnTest(unittest.TestCase):
    def test_drawn_tables(self) -> None:
        """2,000 tables in drawn units and orders of columns: the points are those of a second reading, or a fault says why not."""
        pick = random.Random(5)
        read = refused = 0
        for _ in range(2000):
            rows = sorted(
                {
                    pick.randrange(1, 200) * pick.choice([1, 10, 100]): pick.randrange(1, 4000)
                    for _ in range(pick.randrange(1, 6))
                }.items()
            )
            hertz, power = pick.choice([("kHz", 1), ("MHz", 1000)]), pick.choice(
                [("uW", Fraction(1)), ("mW", Fraction(1000)), ("mA", Fraction(3000)), ("uA/MHz", None)]
            )
            khz, uw = pick.choice([None, 1, 100, 1000]), pick.choice([1, 10, 1000])
            turned = pick.random() < 0.5
            heading, lines = [hertz[0], power[0]], [[str(speed), str(value)] for speed, value in rows]
            text = (
                "\n".join(
                    pick.choice([",", ";", "\t"]).join(reversed(line) if turned else line) for line in [heading, *lines]
                )
                + "\n"
            )
            exact = [(Fraction(0), Fraction(0))] + [
                (
                    Fraction(speed * hertz[1]),
                    value * (power[1] if power[1] is not None else Fraction(speed * hertz[1], 1000) * 3),
                )
                for speed, value in rows
            ]
            words = (
                ["--uw", str(uw)] + (["--khz", str(khz)] if khz else []) + (["--volts", "3"] if "A" in power[0] else [])
            )
            called = call("points", *words, given=text.encode())
            if called.status:
                self.assertEqual(called.out, "failed\n")
                refused += 1
                continue
            read += 1
            self.check(called.out, exact, uw)
        self.assertGreater(min(read, refused), 200)

    def check(self, out: str, exact: List[Tuple[Fraction, Fraction]], uw: int) -> None:
        head, *lines = out.splitlines()
        khz = int(head.split("speed unit ")[1].split(" ")[0])
        points = [(int(line.split()[1]), int(line.split()[2])) for line in lines if line.startswith("point")]
        self.assertEqual(len(points), len(exact))
        moved = []
        for (speed, power), (kilohertz, microwatts) in zip(points, exact):
            self.assertLessEqual(abs(speed * khz - kilohertz), Fraction(khz, 2))
            self.assertLessEqual(abs(power * uw - microwatts), Fraction(uw, 2))
            self.assertLessEqual(20 * abs(speed * khz - kilohertz), kilohertz)
            self.assertLessEqual(20 * abs(power * uw - microwatts), microwatts)
            moved += [speed * khz != kilohertz, power * uw != microwatts]
        self.assertEqual(sum(line.startswith("# rounded:") for line in lines), sum(moved))
        unused = {int(line.split()[4].rstrip(",")) for line in lines if line.startswith("# never used: point")}
        above = {
            speed
            for (speed, power) in points
            if any(
                low < speed < high and (power - a) * (high - low) > (b - a) * (speed - low)
                for (low, a), (high, b) in combinations(points, 2)
            )
        }
        self.assertEqual(unused, above)

    def test_the_hull(self) -> None:
        self.assertEqual(hull([(0, 0), (1, 10), (2, 20), (3, 90), (4, 100)]), [(0, 0), (2, 20), (4, 100)])
        self.assertTrue(gaps_fit([(0, 0), (1, 1)]))


if __name__ == "__main__":
    unittest.main()
