"""yds-scale: works times a factor."""

import random
import unittest
from decimal import ROUND_CEILING, Decimal

from called import SAMPLES, broken, call


class ScaleTest(unittest.TestCase):
    def test_tasks_and_jobs(self) -> None:
        wanted = """# work times 1.2, rounded up in 1 of 3 lines, by at most 2/10: the plan's peak is 1.2 times what it was, or a little more
horizon 1000
task sample 0 10 10 29
task filter 0 100 50 1080
task radio 40 500 100 2400
"""
        self.assertEqual(call("scale", "--work", "1.2", SAMPLES / "sensor-tasks.txt"), (0, wanted, ""))
        text = b"# kept \xb5\n\n# not due by 9: b, 1 of 2 jobs, work 8\njob  a 0 9 4\r\npoint 0 1\n"
        wanted = """# work times 3/2, rounded up in 0 of 1 lines: the plan's peak is 3/2 times what it was
# kept \xb5

# not due by 9: b, 1 of 2 jobs
job a 0 9 6
point 0 1
"""
        self.assertEqual(call("scale", "--work=3/2", given=text), (0, wanted, ""))

    def test_faults(self) -> None:
        for text, told in [
            (
                b"job a 0 9 4\nslot a 0 9 4\n",
                'line 2, column 1: "slot" doesn\'t grow with the work; give jobs or tasks alone',
            ),
            (
                b"job a 0 9 900000\n",
                "line 1, column 11: the work becomes 1080000, above 1000000; take a coarser unit of work",
            ),
            (b"# nothing\n", "no job and no task line"),
            (b"failed\n", "line 1: the input is an answer of no: failed"),
        ]:
            self.assertEqual(call("scale", "--work", "1.2", given=text), (1, "failed\n", f"yds-scale: {told}\n"))
        for factor in ("20%", "0", "1001", "-1", "1e3", "1/0", ".", "", "1.2.3", "9" * 30):
            called = call("scale", f"--work={factor}", SAMPLES / "sensor-tasks.txt")
            self.assertEqual(called[:2], (2, "failed\n"), factor)
            self.assertIn(f"--work {factor} is no factor up to 1000, as 1.2 or 6/5", called.err)
        self.assertEqual(call("scale").err, "yds-scale: no --work FACTOR is given; see yds-scale --help\n")

    def test_each_broken_field(self) -> None:
        for line in ("job a 0 9 4", "task t 0 10 10 5"):
            for wrong in broken(line, 2):
                self.assertEqual(call("scale", "--work", "2", given=wrong.encode())[:2], (1, "failed\n"), wrong)

    def test_drawn_works_and_factors(self) -> None:
        """The products are those of Decimal, rounded up: a second reading."""
        drawn = random.Random(1)
        for _ in range(2000):
            places = drawn.randrange(4)
            factor = Decimal(drawn.randrange(1, 1001)).scaleb(-places)
            works = [drawn.randrange(0, 400) for _ in range(3)]
            text = "".join(f"job j{place} 0 9 {work}\n" for place, work in enumerate(works))
            called = call("scale", "--work", f"{factor:f}", given=text.encode())
            exact = [work * factor for work in works]
            wanted = [int(value.to_integral_value(ROUND_CEILING)) for value in exact]
            if max(wanted) > 1_000_000:
                self.assertEqual(called.status, 1)
                continue
            head, *rest = called.out.splitlines()
            self.assertEqual(rest, [f"job j{place} 0 9 {work}" for place, work in enumerate(wanted)])
            self.assertIn(f"rounded up in {sum(value != new for value, new in zip(exact, wanted))} of 3 lines", head)
            most = max(new - value for value, new in zip(exact, wanted))
            self.assertEqual(f"by at most {int(most.scaleb(places))}/{10 ** places}" in head, most > 0)


if __name__ == "__main__":
    unittest.main()
