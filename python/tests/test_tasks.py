"""yds-tasks, yds-draw and yds-rtapp: jobs of tasks, of a generator and of a workload."""

import json
import random
import unittest
from fractions import Fraction
from typing import Dict, List, Sequence, Tuple
from unittest import mock

from called import EXPECTED, SAMPLES, broken, call
from yds.tasks import Task, Tasks, jobs, longer_horizon, lost_by, meant, period


def expand(words: Sequence[str], text: bytes) -> Tuple[int, bytes]:
    """What expand answers, by a second reading: one job after the other until one is due after the horizon."""
    told, horizon = [], 0
    for line in text.decode("latin-1").splitlines():
        kind, *fields = line.split() or ["#"]
        if kind == "horizon":
            horizon = int(fields[0])
        elif kind == "task":
            if len(fields) != 5 or not all(field.isdigit() for field in fields[1:]) or not int(fields[2]):
                return 3, b"refused 2 12 OutOfRange\n"
            release, number = int(fields[1]), 0
            while release + int(fields[3]) <= horizon:
                told.append(f"job {fields[0]}.{number} {release} {release + int(fields[3])} {fields[4]}\n")
                release, number = release + int(fields[2]), number + 1
        elif not kind.startswith("#"):
            return 3, b"refused 1 1 UnknownKind\n"
        if len(told) > 4000:
            return 3, b"refused 2 13 TooManyJobs\n"
    return 0, "".join(told).encode()


def drawn(pick: random.Random) -> str:
    lines = [f"horizon {pick.randrange(20, 120)}"]
    for place in range(pick.randrange(1, 5)):
        lines.append(
            f"task t{place} {pick.randrange(50)} {pick.randrange(1, 21)} {pick.randrange(1, 60)} {pick.randrange(9)}"
        )
    return "\n".join(lines) + "\n"


class TasksTest(unittest.TestCase):
    def setUp(self) -> None:
        patched = mock.patch("yds.commands.tasks.of_environment", lambda: expand)
        patched.start()
        self.addCleanup(patched.stop)

    def test_the_period_and_what_is_lost(self) -> None:
        for text, words, out in [
            ("horizon 1000\ntask sense 0 1000 50 700\n", [], "# period 1000\njob sense.0 0 50 700\n"),
            (
                "# time unit 10 us\n# period 7\n# no period: x\n# not due by 9: x\nhorizon 1000\ntask a 0 1000 50 7\n",
                [],
                "# time unit 10 us\n# period 1000\njob a.0 0 50 7\n",
            ),
            (
                "horizon 1000\ntask small 0 1000 10 24\ntask big 500 1000 600 600000\n",
                ["--lost", "cut"],
                "# not due by 1000: big, 1 of 1 jobs, work 600000\n# no period: jobs are missing\njob small.0 0 10 24\n",
            ),
            (
                "horizon 1000\ntask a 0 900 50 24\n",
                [],
                "# no period: the horizon 1000 is no multiple of 900, the period of a\njob a.0 0 50 24\njob a.1 900 950 24\n",
            ),
            (
                "horizon 2000\ntask b 1500 1000 50 24\n",
                [],
                "# no period: b is released first at 1500, after its period 1000\njob b.0 1500 1550 24\n",
            ),
        ]:
            self.assertEqual(call("tasks", *words, given=text.encode()), (0, out, ""))

    def test_faults(self) -> None:
        for text, told in [
            (
                "horizon 1000\ntask a 0 300 300 24\n",
                "a task has jobs that are not due by the horizon 1000: a, 1 of 4 jobs, work 24; give a horizon that is a multiple of the periods, as 1200, or --lost cut",
            ),
            (
                "horizon 1000\ntask a 0 300 300 24\ntask b 0 10 25 2\n",
                "2 tasks have jobs that are not due by the horizon 1000: a, 1 of 4 jobs, work 24; and more; give a longer horizon, and with --lost cut a document without these jobs",
            ),
            ("horizon 9\n", "no task line"),
            ("", "no horizon and no task line"),
            ("failed\n", "yds_cli expand ended with status 3: refused 1 1 UnknownKind"),
            (
                "horizon 9000\ntask a 0 1 1 1\n",
                "yds_cli expand ended with status 3: refused 2 13 TooManyJobs; give --long, and cut what is written with yds-parts",
            ),
            (
                "# time unit 10 us\n# time unit 100 us\nhorizon 10\ntask a 0 10 10 1\n",
                "line 2, column 3: a unit of time of 100 us here and 10 us before; give both the same --us",
            ),
        ]:
            self.assertEqual(call("tasks", given=text.encode()), (1, "failed\n", f"yds-tasks: {told}\n"))
        self.assertEqual(
            call("tasks", "--lost", "cut", given=b"horizon 1000\ntask big 500 1000 600 6\n").err,
            "yds-tasks: no job is due by the horizon\n",
        )
        self.assertEqual(call("tasks", "--lost", "keep").status, 2)

    def test_the_exact_unit(self) -> None:
        """16.667 and 333.333 ms are whole in thirds of a millisecond; 17 would be later than the deadline."""
        text = b"horizon 7000\ntask a 0 7 7 2\ntask v 0 16.667 16.667 30\ntask w 0 333.333 333.333 4\n"
        self.assertEqual(
            call("tasks", given=text),
            (
                1,
                "failed\n",
                "yds-tasks: line 3, column 10: 16.667 isn't whole; write all times and works 3 times as great, in a unit of "
                "time of 1/3 of this one: it is 50 there, since it is taken for 16+2/3\n",
            ),
        )
        for field, told in [("2.5", "2 times as great"), ("5/3", "3 times"), ("0.125", "8 times"), ("0.1", "10 times")]:
            self.assertIn(told, call("tasks", given=f"horizon 9\ntask a 0 9 9 {field}\n".encode()).err)
        self.assertIn("expand ended with status 3", call("tasks", given=b"horizon 9\ntask a 0 2.5 9 x\n").err)

    def test_drawn_units(self) -> None:
        """Of 2,000 numbers of small denominators, printed with decimals, each is what it was, or the decimals themselves."""
        pick = random.Random(8)
        for _ in range(2000):
            below, places = pick.randrange(1, 40), pick.randrange(1, 7)
            value = Fraction(pick.randrange(1, 2000), below)
            scaled = value * 10**places
            digits = f"{(2 * scaled.numerator + scaled.denominator) // (2 * scaled.denominator):0{places + 1}d}"
            text = f"{digits[:-places]}.{digits[-places:]}"
            exact = Fraction(int(digits), 10**places)
            wanted = value if 2 * value.denominator**2 <= 10**places else None
            found = meant(text)
            assert found is not None
            self.assertLessEqual(abs(found - exact), Fraction(1, 2 * 10**places), text)
            if wanted is not None:
                self.assertEqual(found, wanted, text)
            elif found != exact:
                self.assertLessEqual(2 * found.denominator**2, 10**places, text)

    def test_drawn_tasks(self) -> None:
        """What 2,000 sets of tasks lose is what a longer horizon has: released before the horizon, and due after it."""
        pick = random.Random(6)
        for _ in range(2000):
            text = drawn(pick)
            horizon = int(text.split()[1])
            rows = [
                line.split()
                for line in expand([], text.replace(f"horizon {horizon}", "horizon 400", 1).encode())[1]
                .decode()
                .splitlines()
            ]
            wanted: List[str] = []
            for line in text.splitlines()[1:]:
                name, offset = line.split()[1:3]
                released = [row for row in rows if row[1].rpartition(".")[0] == name and int(row[2]) < horizon]
                lost = [row for row in released if int(row[3]) > horizon]
                if not released:
                    wanted.append(f"# not due by {horizon}: {name}, released first at {offset}")
                elif lost:
                    wanted.append(
                        f"# not due by {horizon}: {name}, {len(lost)} of {len(released)} jobs, work {sum(int(row[4]) for row in lost)}"
                    )
            called = call("tasks", "--lost", "cut", given=text.encode())
            if called.status:
                self.assertEqual(called.err, "yds-tasks: no job is due by the horizon\n")
            else:
                self.assertEqual([line for line in called.out.splitlines() if "not due" in line], wanted, text)
                self.assertEqual(
                    [line for line in called.out.splitlines() if line.startswith("job")],
                    expand([], text.encode())[1].decode().splitlines(),
                )

    def test_any_number_of_jobs(self) -> None:
        text = b"horizon 21000\ntask a 0 3 3 1\ntask b 1 7 5 2\n"
        called = call("tasks", "--long", given=text)
        rows = [line.split() for line in called.out.splitlines() if line.startswith("job")]
        self.assertEqual((called.status, len(rows), called.out.splitlines()[0]), (0, 10000, "# period 21000"))
        self.assertEqual([int(row[2]) for row in rows], sorted(int(row[2]) for row in rows))
        self.assertEqual(
            {row[1] for row in rows}, {f"a.{place}" for place in range(7000)} | {f"b.{place}" for place in range(3000)}
        )

    def test_each_broken_field(self) -> None:
        for wrong in [*broken("task a 0 10 10 5", 2), "task a 0 0 10 5"]:
            self.assertEqual(call("tasks", given=f"horizon 10\n{wrong}\n".encode())[:2], (1, "failed\n"), wrong)

    def test_the_calls(self) -> None:
        tasks = Tasks(1000, [Task("a", 0, 300, 300, 24)], [])
        self.assertEqual((longer_horizon(tasks), period(tasks)[0], lost_by(tasks)[0].jobs), (1200, None, 1))
        self.assertEqual(len(list(jobs(tasks))), 3)


class DrawTest(unittest.TestCase):
    def test_by_hand(self) -> None:
        """The first draws of seed 0 are 15470, 18256 and 53708: 1013904223 / 65536, and so on."""
        self.assertEqual(call("draw", "--jobs", "1").out, "# drawn with seed 0\njob j0 154700 172957 53709\n")
        out = call("draw", "--seed", "7", "--release", "200", "--window", "150", "--work", "400", "--jobs", "1").out
        self.assertEqual(
            out, "# drawn with seed 7, releases below 200, windows up to 150, work up to 400\njob j0 47 185 245\n"
        )

    def test_words(self) -> None:
        for words in (
            ["--seed", "4294967296"],
            ["--jobs", "4001"],
            ["--release", "0"],
            ["--window", "01"],
            ["--work", "1e3"],
            ["--release", "999999999", "--window", "1000000000"],
            ["file"],
        ):
            self.assertEqual(call("draw", *words)[:2], (2, "failed\n"), words)


class RtappTest(unittest.TestCase):
    def test_stored(self) -> None:
        self.assertEqual(
            call("rtapp", "-m", "1416", "-c", "0", SAMPLES / "workload.json").out, (EXPECTED / "tasks.txt").read_text()
        )
        self.assertEqual(
            call("rtapp", "--mhz=1416", "--jobs", SAMPLES / "workload-phases.json").out,
            (EXPECTED / "phases.txt").read_text(),
        )

    def test_faults(self) -> None:
        event = '{{"tasks":{{"a":{{"run":5,"timer":{{"ref":"x","period":1000}},{}}}}},"global":{{"duration":1}}}}'
        for text, told in [
            (
                event.format('"lock":"m"'),
                "a: lock makes jobs depend on more than time; only run, timer, sleep and yield can be read",
            ),
            (event.format('"runtime":5'), "a: runtime is time and not work; give run"),
            (event.format('"timer0":{"period":9}'), "a: two timers"),
            (event.format('"sleep":5'), "a: a timer and a sleep together"),
            (event.format('"loop":3'), "a: it ends after its loops; give -j"),
            (
                event.format('"run":6'),
                "the key tasks.a.run stands twice, and every reader of JSON keeps but one; number the keys, as run0 and run1",
            ),
            (event.format('"run1":-1'), "a: run1 is no number"),
            (event.format('"run1":1e99999'), "1e99999 is no number that is read here"),
            (event.format('"run1":NaN'), "NaN is no number that is read here"),
            (
                event.format('"run1":9000000'),
                "a: a work of 9000005000, above 1000000; give a coarser -u or -k, as -k 1000000",
            ),
            (event.format('"delay":"x"'), "a: the delay is no number"),
            ('{"tasks":{"a":{"run":5}},"global":{"duration":1}}', "a: a run without a timer has no period"),
            ('{"tasks":{}}', "no task"),
            ('{"tasks":1}', "no tasks"),
            ("[1]", "the input is no JSON object"),
            ('{"tasks" : { "a" : {}} } }', "Extra data at line 1, column 26"),
            ("[" * 100000, "the JSON has too many brackets within one another"),
        ]:
            self.assertEqual(
                call("rtapp", "-m", "1000", "-k", "100", given=text.encode()), (1, "failed\n", f"yds-rtapp: {told}\n")
            )
        workload = SAMPLES / "workload.json"
        for words, told in [
            (["-m", "1416"], "the tasks have different cpus; give -c CPU"),
            (
                ["-m", "1416", "-c", "0", "-u", "7"],
                "decode: the period is no multiple of the time unit, 7 microseconds; give -u 10, which divides all times, or -j",
            ),
            (
                ["-m", "1416", "-c", "0", "-H", "0.01"],
                "decode: no job of it is due within the duration; give a longer -H",
            ),
            (["-m", "1416", "-c", "9"], "no task has the cpus [9] alone"),
        ]:
            self.assertEqual(call("rtapp", *words, workload).err, f"yds-rtapp: {told}\n")
        for words in ([], ["-m", "0"], ["-m", "1", "-c", "x"], ["-m", "1", "-H", "."], ["-m", "1", "-u", "1.5"]):
            self.assertEqual(call("rtapp", *words, workload)[:2], (2, "failed\n"))

    def test_the_units_that_are_proposed_can_be_taken(self) -> None:
        """Periods of 16,667 and 10,000 us need units of 1 us, in which 12 ms at 2 GHz are 2,400,000 of 10 MHz."""
        timed = '{{"run":{},"timer":{{"ref":"u","period":{}}}}}'
        tasks = f'"a":{timed.format(12000, 16667)},"b":{timed.format(1000, 10000)}'
        text = f'{{"tasks":{{{tasks}}},"global":{{"duration":1}}}}'.encode()
        told = "give -u 1, which divides all times, and -k 50000, so that no work is too great, or -j"
        refused = call("rtapp", "-m", "2000", given=text)
        whole = "a: the period is no multiple of the time unit, 10 microseconds"
        self.assertEqual(refused, (1, "failed\n", f"yds-rtapp: {whole}; {told}\n"))
        lines = call("rtapp", "-m", "2000", "-u", "1", "-k", "50000", given=text).out.splitlines()[1:]
        self.assertEqual(lines, ["horizon 1000000", "task a 0 16667 16667 480000", "task b 0 10000 10000 40000"])

    def test_comments_and_spare_commas(self) -> None:
        text = b'{ // "x"\n"tasks" : { "a//b" : { "run" : 500, /* , } */ "timer" : { "period" : 10000, }, // , }\n}, }, "global" : { "duration" : 1, } , }\n'
        self.assertEqual(
            call("rtapp", "-m", "100", given=text).out.splitlines()[1:], ["horizon 100000", "task a//b 0 1000 1000 500"]
        )

    def test_drawn_workloads(self) -> None:
        """2,000 workloads: the jobs of -j are those of the tasks, reckoned by hand from the JSON."""
        pick = random.Random(7)
        for _ in range(2000):
            tasks: Dict[str, Dict[str, object]] = {}
            for place in range(pick.randrange(1, 4)):
                when = pick.randrange(1, 40) * 1000
                tasks[f"t{place}"] = {
                    "delay": pick.randrange(5) * 1000,
                    "run": pick.randrange(1, 3000),
                    "timer": {"ref": "u", "period": when},
                }
            text = json.dumps({"tasks": tasks, "global": {"duration": 0.1}})
            called = call("rtapp", "-m", "1000", "-u", "1000", "-k", "1000", "-j", given=text.encode())
            wanted = []
            for name, task in tasks.items():
                delay, run, when = task["delay"], task["run"], task["timer"]["period"]  # type: ignore[index]
                assert isinstance(delay, int) and isinstance(run, int)
                starts = [start for start in range(delay, 100000, when) if start + when <= 100000]
                wanted += [
                    f"job {name}.{number} {start // 1000} {(start + when) // 1000} {run}"
                    for number, start in enumerate(starts)
                ]
            if not wanted:
                self.assertEqual(called.err, "yds-rtapp: no job ends within 0.1 seconds\n")
            else:
                self.assertEqual([line for line in called.out.splitlines() if line.startswith("job")], wanted)


if __name__ == "__main__":
    unittest.main()
