"""yds-threads: tasks for yds_trace, of the threads whose names begin so."""

from __future__ import annotations

import os
import sys
from typing import Callable, Sequence

from yds._progress import beside
from yds._text import Fault, counted, lines
from yds._words import DONE, Command, Files, Given, Option, WordsError, run
from yds.threads import has_front, read, tasks

COMMAND = Command(
    "yds-threads",
    "tasks for yds_trace, of the threads whose names begin so",
    """
Input: the table of threads that yds_trace --tasks ? writes of a trace. Output: one line, the value of --tasks for
yds_trace, with a task for each thread that LIST names.

    yds_trace --tasks '?' < trace.txt > threads.txt
    yds_trace --tasks "$(yds-threads --tasks 'worker*:12,audio:10' threads.txt)" < trace.txt > document.txt

LIST is that of yds_trace, NAME:DEADLINE or PID=NAME:DEADLINE in milliseconds, perhaps with :APART, parted by commas. A
NAME that ends with * is each thread whose name begins so, as worker*:12. The name of one thread stays as it is. Where
there are several, each is a task of its own by its number, as 18094=worker1-18094:12, so its jobs are worker1-18094.0
and so on. In such a name a blank, and what isn't ASCII, is written as _. A backslash before a comma, a colon, an equals
sign or a star makes it a byte of a name.

A name that no thread has is a fault, which tells similar names; and so are more than 1,000 tasks, or a thread that is
named twice. The table has those that ran longest. Where there are more, and a name ends with *, standard error says so.
""",
    [Option("tasks", "the tasks, as worker*:12,audio:10", "LIST")],
    Files("THREADS", 0, 1),
)


def main(words: Sequence[str]) -> int:
    """Writes the tasks of the file's table, or of standard input's."""
    return run(COMMAND, words, tell)


def tell(given: Given, write: Callable[[str], None]) -> int:
    """Writes the line."""
    if not given.tasks:
        raise WordsError("no --tasks LIST is given")
    asked = os.fsencode(given.tasks).decode("latin-1")
    try:
        is_open = has_front(asked)
    except Fault as fault:
        raise WordsError(f"--tasks: {fault.told}") from None
    threads = read(lines(given.files))
    write(",".join(tasks(asked, threads)))
    if threads.more and is_open:
        more = counted(threads.more, "thread that ran shortest isn't", "threads that ran shortest aren't")
        beside(f"yds-threads: {more} in the table, and a name with * may be theirs, too\n")
    return DONE


if __name__ == "__main__":
    sys.exit(main(sys.argv[1:]))
