"""yds-jobs --late-moved: the document with each late job's deadline where it ended."""

import io
import os
import random
import tempfile
import unittest
from fractions import Fraction
from math import ceil
from typing import Dict, List, Sequence, Tuple

from called import EXPECTED, broken, call
from yds._text import lines_of
from yds.jobs import misses

CASES = int(os.environ.get("CASES", "200"))
"""How many documents are drawn."""
LATE = "job a 0 10 4\njob b 0 20 3\nslot a 0 12+1/2 4\nslot b 13 16 3\n"
POINTS = "point 0 0\npoint 1 1\npoint 10 20\n"


def feasible(words: Sequence[str], text: bytes) -> Tuple[int, bytes]:
    """The verdict of audit on documents whose slots have no fault but a late end or too little work."""
    due: Dict[str, Tuple[int, int]] = {}
    given: Dict[str, Fraction] = {}
    place = 0
    ticks = 1
    for line in text.decode("latin-1").splitlines():
        kind, *fields = line.split() or ["#"]
        ticks = int(fields[0]) if kind == "ticks" else ticks
        if kind == "job":
            due[fields[0]] = (int(fields[2]), int(fields[3]))
        elif kind in ("run", "slot"):
            place += 1
            start, end = (sum(map(Fraction, field.split("+")), Fraction(0)) for field in fields[1:3])
            start, end = (start / ticks, end / ticks) if kind == "run" else (start, end)
            last = Fraction(fields[3]) * (end - start) if kind == "run" else Fraction(fields[3])
            given[fields[0]] = given.get(fields[0], Fraction(0)) + last
            if end > due[fields[0]][0]:
                return 1, f"late slot {place} {fields[0]} {end} deadline {due[fields[0]][0]}\n".encode()
    for name, (_, work) in due.items():
        if given.get(name, 0) != work:
            return 1, f"work {name} given {int(given.get(name, Fraction(0)))} wanted {work}\n".encode()
    return 0, b"feasible\n"


def missed(text: str) -> List[str]:
    return [miss.text for miss in misses(lines_of(io.BytesIO(text.encode("latin-1"))), feasible).missed]


class MovedTest(unittest.TestCase):
    def moved(self, text: str, *words: str) -> List[str]:
        status, out, err = call("jobs", "--late-moved", *words, given=text.encode("latin-1"))
        self.assertEqual((status, err), (0, ""), text)
        return out.splitlines()

    def test_by_hand(self) -> None:
        told = self.moved(POINTS + "# \xb5\n" + LATE)
        self.assertEqual(
            told,
            [
                *POINTS.splitlines(),
                *("# \xb5", "job a 0 13 4", "# deadline moved: a by 3", "job b 0 20 3"),
                *("slot a 0 12+1/2 4", "slot b 13 16 3"),
                "# 1 deadline is moved to where the job ended, the first that of a",
            ],
        )
        self.assertEqual(self.moved("\n".join(told)), told)
        in_time = self.moved(LATE.replace("12+1/2", "9"))
        self.assertEqual(in_time[-1], "# no deadline is moved: no job is known to be late")
        self.assertEqual(in_time[:-1], LATE.replace("12+1/2", "9").splitlines())

    def test_what_stays_known(self) -> None:
        """yds-misses and yds-jobs tell what they told before; yds-energy says that a deadline was moved."""
        told = "\n".join(self.moved(POINTS + LATE)) + "\n"
        self.assertEqual(missed(told), ["late slot 1 a 12+1/2 deadline 10, by 2+1/2"])
        self.assertEqual(call("jobs", given=told.encode()), call("jobs", given=(POINTS + LATE).encode()))
        before, after = (call("energy", given=text.encode()) for text in (POINTS + LATE, told))
        self.assertEqual((before.status, after.status), (1, 0))
        self.assertEqual(
            after.out.splitlines()[-1],
            "# with 1 deadline moved to where late jobs ended",
        )
        self.assertEqual(after.out.splitlines()[:-1], before.out.splitlines()[:-1])
        at = call("energy", "--at", "10", given=told.encode())
        self.assertIn("# with 1 deadline moved to where late jobs ended", at.out)

    def test_energies_pass_it_on(self) -> None:
        """A table and the hours of energies say it, too."""
        told = "\n".join(self.moved(POINTS + LATE)) + "\n"
        energy = call("energy", "--name", "plan", given=told.encode()).out
        words = "with 1 deadline moved to where late jobs ended"
        hours = call("battery", "--mah=1", "--volts=1", "--period=20", "--uw=1", given=(POINTS + energy).encode())
        self.assertEqual((hours.status, hours.out.splitlines()[-1]), (0, f"# {words}"))
        with tempfile.NamedTemporaryFile() as file:
            file.write(energy.encode())
            file.flush()
            self.assertIn(words, call("collect", file.name).out)

    def test_energies_beside_the_document_say_it_once(self) -> None:
        """The program's answer has no comments: the document with moved deadlines, given with it, has."""
        told = "\n".join(self.moved(POINTS + LATE)) + "\n"
        energy = call("energy", "--name", "plan", given=told.encode()).out
        bare = "\n".join(line for line in energy.splitlines() if not line.startswith("#")) + "\n"
        words = "with 1 deadline moved to where late jobs ended"
        for lines in (energy, bare):
            hours = call("battery", "--mah=1", "--volts=1", "--period=20", "--uw=1", given=(told + lines).encode())
            self.assertEqual((hours.status, hours.out.count(words)), (0, 1))
            with tempfile.NamedTemporaryFile() as file:
                file.write((told + lines).encode())
                file.flush()
                self.assertEqual(call("plot", "energy", "-t", "text", file.name).out.count(words), 1)

    def test_stored_traces(self) -> None:
        """Of jobs that never ended, ended in a run within a tick, or by less than a unit too late."""
        for name, wanted in [
            ("late", ["job decode.2 3483 5319 240596", "# deadline moved: decode.2 by 169"]),
            (
                "starving",
                ["job render.0 100 3000 20001", "# deadline moved: render.0 by 1300", "job audio.1 1000 3000 1"],
            ),
            (
                "short-late",
                ["job audio.0 0 2001 10000", "# deadline moved: audio.0 by 1501", "job audio.1 3000 3501 50000"],
            ),
            ("tick", ["job render.1 1000 3800 95000", "# deadline moved: render.1 by 1900"]),
            ("elsewhere", []),
        ]:
            text = (EXPECTED / f"document-{name}.txt").read_text()
            told = self.moved(text)
            for line in wanted:
                self.assertIn(line, told)
            moved = {"late": 1, "starving": 2, "short-late": 2, "tick": 1, "elsewhere": 0}
            self.assertEqual(sum(line.startswith("# deadline moved: ") for line in told), moved[name])
            self.assertEqual(
                [line.split(" # due")[0].split()[-5:] for line in missed("\n".join(told) + "\n")],
                [line.split(" # due")[0].split()[-5:] for line in missed(text)],
            )
            self.assertEqual(
                call("jobs", given=("\n".join(told) + "\n").encode()).out, call("jobs", given=text.encode()).out
            )
        self.assertIn(
            "# 2 of these jobs hadn't ended: there the deadline is where the last is known of it; the first is render.0",
            self.moved((EXPECTED / "document-starving.txt").read_text()),
        )

    def test_a_job_that_is_not_done(self) -> None:
        self.assertEqual(
            self.moved("job a 0 10 4\njob b 0 10 4\nslot a 0 2 3\nslot b 3 4 4\n")[-2:],
            [
                "# no deadline is moved: no job is known to be late",
                "# 1 job isn't done, and its deadline stays, the first a",
            ],
        )

    def test_words_and_faults(self) -> None:
        for words in (["--form", "csv"], ["--zero", "trace"]):
            called = call("jobs", "--late-moved", *words, given=LATE.encode())
            self.assertEqual(
                called,
                (
                    2,
                    "failed\n",
                    "yds-jobs: --late-moved writes a document: leave --form and --zero out; see yds-jobs --help\n",
                ),
            )
        for line in ("job a 0 10 4", "slot a 0 12+1/2 4"):
            for wrong in broken(line, 1):
                text = LATE.replace(line, wrong)
                status, out, _ = call("jobs", "--late-moved", given=text.encode())
                self.assertEqual((status, out), (1, "failed\n"), wrong)
        self.assertEqual(call("jobs", "--late-moved", given=b"failed\n")[:2], (1, "failed\n"))
        self.assertEqual(call("jobs", given=b"failed\n")[:2], (1, ""))

    def test_drawn_documents(self) -> None:
        """Each late job's window ends at its last end, rounded up; all else stays, and so does what is told of misses."""
        late = 0
        for seed in range(CASES):
            pick = random.Random(seed)
            lines, runs, wanted, now = [], [], [], 0
            ticks = pick.choice([1, 1, 7, 1000])
            for job in range(pick.randrange(1, 7)):
                release = now // ticks
                end, work = now, 0
                for _ in range(pick.randrange(1, 4)):
                    start = end + pick.randrange(3)
                    end, speed = start + pick.randrange(1, 5 * ticks), pick.randrange(1, 5) * ticks
                    runs.append(f"run j{job} {start} {end} {speed}")
                    work += speed // ticks * (end - start)
                due = max(release + 1, end // ticks + pick.randrange(-4, 4))
                lines.append(f"job j{job} {release} {due} {work}")
                until = ceil(Fraction(end, ticks))
                wanted += [f"job j{job} {release} {max(until, due)} {work}"]
                wanted += [f"# deadline moved: j{job} by {until - due}"] if end > due * ticks else []
                now = end
            text = "\n".join([*lines, f"ticks {ticks}", *runs]) + "\n"
            told = self.moved(text)
            self.assertEqual(told[:-1], [*wanted, f"ticks {ticks}", *runs], text)
            self.assertEqual(missed("\n".join(told) + "\n"), missed(text))
            late += len(wanted) - len(lines)
        self.assertGreater(late, CASES // 4)


if __name__ == "__main__":
    unittest.main()
