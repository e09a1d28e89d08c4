"""yds-threads: tasks of the threads whose names begin so."""

import os
import random
import re
import unittest
from fractions import Fraction
from typing import List, Optional, Tuple

from called import ROOT, broken, call
from yds._text import Fault, lines_of
from yds.threads import Thread, Threads, read, tasks

CASES = int(os.environ.get("CASES", "200"))
HEAD = "# pid\tran_ms\twake_ups\tswitches\tname\n"
NAMES = ["worker1", "worker2", "worker2", "ui", "Web Content", "kworker/0:1", "a,b", "x=y", "b*", "\xfcber", "back\\", "w?"]
TABLE = f"threads {len(NAMES)}\n{HEAD}" + "".join(
    f"{10 + place}\t{100 - place}.000000\t{place}\t3\t{name}\n" for place, name in enumerate(NAMES)
)

Task = Tuple[Optional[int], str, List[str]]


def understood(text: str) -> List[Task]:
    """A list of tasks as the definitions of yds_trace read it: number, name, and times."""
    signs = re.findall(r"\\[,:=]|.", text, re.DOTALL)
    found: List[List[str]] = [[""]]
    for sign in signs:
        if sign == ",":
            found.append([""])
        elif sign == ":":
            found[-1].append("")
        else:
            found[-1][-1] += "\0" if sign == "=" else sign[1:] if len(sign) == 2 else sign
    numbered = [(task[0].split("\0"), task[1:]) for task in found]
    return [(int(name[0]) if len(name) > 1 else None, name[-1], times) for name, times in numbered]


class ThreadsTest(unittest.TestCase):
    def listed(self, asked: str, table: str = TABLE) -> str:
        status, out, err = call("threads", "--tasks", asked, given=table.encode("latin-1"))
        self.assertEqual((status, err), (0, ""))
        return out[:-1]

    def test_by_hand(self) -> None:
        for asked, wanted in [
            ("ui:10", "ui:10"),
            ("ui:16.667:20", "ui:16.667:20"),
            ("13=ui:10", "13=ui:10"),
            ("worker1:12", "worker1:12"),
            ("worker2:12", "11=worker2-11:12,12=worker2-12:12"),
            ("worker*:12,ui:8.5", "10=worker1-10:12,11=worker2-11:12,12=worker2-12:12,ui:8.5"),
            ("Web Content:20", "14=Web_Content-14:20"),
            ("kworker/0\\:1:5", "kworker/0\\:1:5"),
            ("kw*:5", "15=kworker/0\\:1-15:5"),
            ("a\\,b:5,x\\=y:6", "a\\,b:5,x\\=y:6"),
            ("b\\*:5", "b*:5"),
            ("b*:5", "18=b*-18:5,20=back\\-20:5"),
            ("back\\:5", None),
            ("back*:5", "20=back\\-20:5"),
            ("w\\?:5", None),
            ("w?:5", "21=w?-21:5"),
        ]:
            with self.subTest(asked):
                if wanted is None:
                    self.assertNotEqual(call("threads", "--tasks", asked, given=TABLE.encode("latin-1")).status, 0)
                else:
                    self.assertEqual(self.listed(asked), wanted)

    def test_a_name_in_no_ascii(self) -> None:
        self.assertEqual(tasks("\xfc*:5", read_text(TABLE)), ["19=_ber-19:5"])

    def test_a_stored_table(self) -> None:
        table = (ROOT / "examples" / "traces" / "table-of-threads" / "stdout").read_text()
        every = read_text(table).threads
        self.assertEqual(len(every), int(table.split()[1]))
        self.assertEqual(self.listed("*:12", table).count(":12"), len(every))

    def test_faults(self) -> None:
        cut = TABLE[: TABLE.rindex("21\t")]
        for asked, table, status, told in [
            ("", TABLE, 2, "no --tasks LIST is given; see yds-threads --help"),
            ("ui", TABLE, 2, "--tasks: ui is no NAME:DEADLINE, as worker*:12 or 57=ui:16.667; see yds-threads --help"),
            ("ui:10,", TABLE, 2, "--tasks: an empty task is no NAME:DEADLINE, as worker*:12 or 57=ui:16.667; see yds-threads --help"),
            ("ui:10ms", TABLE, 2, "--tasks: 10ms of ui:10ms is no deadline: milliseconds with at most six decimals, and perhaps :APART; see yds-threads --help"),
            ("ui:1.0000001", TABLE, 2, "--tasks: 1.0000001 of ui:1.0000001 is no deadline: milliseconds with at most six decimals, and perhaps :APART; see yds-threads --help"),
            ("x=ui:10", TABLE, 2, "--tasks: x of x=ui:10 is no number of a thread; see yds-threads --help"),
            ("work:10", TABLE, 1, "no thread's name is work; similar: worker2, worker1, kworker/0:1"),
            ("UI*:10", TABLE, 1, "no thread's name begins with UI; similar: ui"),
            ("decode:10", TABLE + "# and 3 more threads\n", 1, "no thread's name is decode; the table lacks 3 threads that ran shortest"),
            ("7=ui:10", TABLE, 1, "no thread has the number 7 of 7=ui:10"),
            ("w*:10,worker1:9", TABLE, 1, "worker1, the thread 10, is named by w*:10 and by worker1:9; let one of them name it"),
            ("ui:10", cut, 1, "the table has 11 of 12 threads: it is cut short"),
            ("ui:10", "", 1, "no thread; look at what wrote it"),
            ("ui:10", "# line 3: events were lost before it\nfailed\n", 1,
             'line 1: "# line 3: events were lost before it" begins no table of threads; give what yds_trace --tasks ? writes'),
            ("ui:10", "job a 0 9 4\n", 1, 'line 1: "job a 0 9 4" begins no table of threads; give what yds_trace --tasks ? writes'),
        ]:  # fmt: skip
            with self.subTest(asked, told=told):
                self.assertEqual(call("threads", "--tasks", asked, given=table.encode("latin-1")), (status, "", f"yds-threads: {told}\n"))

    def test_a_broken_row(self) -> None:
        for wrong in broken("10 100.000000 0 3", 0):
            with self.subTest(wrong):
                with self.assertRaises(Fault):
                    read_text(f"threads 1\n{HEAD}" + "\t".join([*wrong.split(" "), "worker1"]) + "\n")

    def test_more_threads_than_the_table_has(self) -> None:
        table = (TABLE + "# and 3 more threads\n").encode("latin-1")
        told = "yds-threads: 3 threads that ran shortest aren't in the table, and a name with * may be theirs, too\n"
        self.assertEqual(call("threads", "--tasks", "u*:10", given=table), (0, "13=ui-13:10\n", told))
        self.assertEqual(call("threads", "--tasks", "ui:10", given=table), (0, "ui:10\n", ""))

    def test_at_most_a_thousand(self) -> None:
        every = [Thread(place, Fraction(1), 1, 1, f"t{place}") for place in range(1, 1002)]
        self.assertEqual(len(tasks("t*:5", Threads(every[:-1], 0))), 1000)
        with self.assertRaisesRegex(Fault, r"^t\*:5 makes 1001 tasks, and yds_trace takes 1000; name fewer threads$"):
            tasks("t*:5", Threads(every, 0))

    def test_drawn(self) -> None:
        """Each thread of the names is one task, by its number or by a name that only it has, and its times are those asked for."""
        for seed in range(CASES):
            pick = random.Random(seed)
            names = ["".join(pick.choices("ab,:=*\\ ?\xe4", k=pick.randrange(1, 16))) for _ in range(pick.randrange(1, 12))]
            every = [Thread(place + 1, Fraction(1), 1, 1, name) for place, name in enumerate(names)]
            one = pick.choice(names)
            begin = one[: pick.randrange(len(one) + 1)]
            is_front = begin != one or pick.random() < 0.5
            # A backslash at the end would take the sign behind it.
            if begin.endswith("\\"):
                begin = begin.rstrip("\\")
                is_front = True
            wanted = [thread for thread in every if (thread.name.startswith(begin) if is_front else thread.name == begin)]
            times = pick.choice(["12", "16.667", "0.000001:5"])
            asked = re.sub(r"[,:=*]", r"\\\g<0>", begin) + ("*" if is_front else "") + ":" + times
            with self.subTest(seed=seed, asked=asked, names=names):
                found = understood(",".join(tasks(asked, Threads(every, 0))))
                self.assertEqual(len(found), len(wanted))
                self.assertEqual(len({name for _, name, _ in found}), len(wanted))
                for (pid, name, told), thread in zip(found, wanted):
                    self.assertEqual(":".join(told), times)
                    self.assertTrue(pid == thread.pid or (pid is None and name == thread.name and names.count(name) == 1))
                    self.assertTrue(len(name) <= 53 and all("!" <= sign <= "~" for sign in name))


def read_text(text: str) -> Threads:
    """The table of a text."""
    from io import BytesIO

    return read(lines_of(BytesIO(text.encode("latin-1"))))


if __name__ == "__main__":
    unittest.main()
