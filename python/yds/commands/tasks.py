"""yds-tasks: the jobs of periodic tasks, as `yds_cli expand` writes them, and in comments what expand doesn't say."""

from __future__ import annotations

import sys
from typing import Callable, List, Sequence, Tuple

from yds._foreign import number
from yds._program import Answer, of_environment
from yds._text import Fault, Line, lines, printable, spelled
from yds._words import DONE, Command, Files, Given, Option, WordsError, run
from yds.tasks import NotWhole, Tasks, jobs, longer_horizon, lost_by, not_whole, period, read

COMMAND = Command(
    "yds-tasks",
    "the jobs of periodic tasks, as `yds_cli expand` writes them, and in comments what expand doesn't say",
    """
Input: a `horizon` line and `task` lines. Output: the comments of the input, which the program drops, among them those
that tell units; comments of this command; and the answer of `yds_cli expand`.

    yds-tasks tasks.txt > jobs.txt

  # period 1000                                       what happens until the horizon repeats for ever: yds-battery reads
                                                      it
  # no period: the horizon 1000 is no multiple of 300, the period of a        it doesn't, and so on for other reasons
  # not due by 1000: big, 1 of 2 jobs, work 600000    with --lost cut: jobs that aren't in the document

Jobs that are released before the horizon and due after it can't be planned within it, so expand leaves them out. A
document without them may be feasible for a processor that is too slow for the tasks. So that is a fault, unless --lost
cut is given.

Numbers are whole. Where one isn't, the fault tells a unit in which all are: 16.667 is the begin of 16+2/3, and with
all times and works 3 times as great it is 50. (17 would be later than a deadline of 16.667.)

expand writes at most 4,000 jobs. With --long more are written, in the order of their releases, for yds-parts.
""",
    [
        Option("lost", "cut: leave out the jobs that are due after the horizon, and tell them in comments", "cut"),
        Option("long", "write any number of jobs, in the order of their releases"),
    ],
    Files("TASKS", 0, 1),
    "0 done; 1 a fault in the tasks, or jobs that are due after the horizon; 2 a fault of the words. After each fault "
    "`failed` is written, which yds_cli refuses.",
    writes_document=True,
)
_NO_JOB = "no job is due by the horizon"


def main(words: Sequence[str]) -> int:
    """Writes the jobs of the file's tasks, or of standard input's."""
    return run(COMMAND, words, tell)


def tell(given: Given, write: Callable[[str], None]) -> int:
    """Writes the comments, and the jobs."""
    if given.lost not in (None, "cut"):
        raise WordsError(f"--lost {given.lost}: there is only --lost cut")
    source = list(lines(given.files))
    broken = not_whole(source)
    if broken is not None:
        raise broken.line.fault(finer(broken), broken.place)
    written = expanded(source, given.long, of_environment())
    tasks = read(source)
    if not tasks.tasks:
        raise Fault("no horizon and no task line" if tasks.horizon is None else "no task line")
    lost = lost_by(tasks)
    if lost and given.lost is None:
        raise Fault(refusal(tasks))
    if not any(line.startswith("job ") for line in written):
        raise Fault(_NO_JOB)
    for comment in tasks.comments:
        write(comment)
    for one in lost:
        write(f"# not due by {tasks.horizon}: {one.told()}")
    repeats, reason = period(tasks)
    write(f"# no period: {reason}" if repeats is None else f"# period {repeats}")
    for line in written:
        write(line)
    return DONE


def expanded(source: Sequence[Line], is_long: bool, answer: Answer) -> List[str]:
    """The lines of expand; where it has too many jobs, and these are wanted, those that it would write."""
    status, told = expand(source, answer)
    if status and told.endswith(" TooManyJobs") and is_long:
        # With a short horizon expand looks at each line and writes few jobs.
        short = [line._replace(text="horizon 1") if line.fields[:1] == ["horizon"] else line for line in source]
        status, told = expand(short, answer)
        if not status:
            found = sorted(jobs(read(source)), key=lambda job: job.release)
            return [f"job {job.name} {job.release} {job.deadline} {job.work}" for job in found]
    if status:
        advice = "; give --long, and cut what is written with yds-parts" if told.endswith(" TooManyJobs") else ""
        raise Fault(f"yds_cli expand ended with status {status}: {told}{advice}")
    return told.split("\n") if told else []


def expand(source: Sequence[Line], answer: Answer) -> Tuple[int, str]:
    """Status and answer of expand."""
    text = "".join(line.text + "\n" for line in source).encode("latin-1")
    status, told = answer(["expand"], text)
    return int(status), told.decode("latin-1").rstrip("\n")


def finer(broken: NotWhole) -> str:
    """What makes each number whole: a finer unit of time, in which works are as many times as great at the same speeds."""
    text = broken.line.fields[broken.place]
    finer = broken.value * broken.factor
    taken = (
        ""
        if number(text) == broken.value
        else f", since it is taken for {spelled(broken.value.numerator, broken.value.denominator)}"
    )
    all_of_it = (
        f"write all times and works {broken.factor} times as great, in a unit of time of 1/{broken.factor} of this one"
    )
    return f"{printable(text)} isn't whole; {all_of_it}: it is {finer} there{taken}"


def refusal(tasks: Tasks) -> str:
    """Why the horizon is refused, and which would do."""
    lost = lost_by(tasks)
    which = f"{len(lost)} tasks have jobs" if len(lost) > 1 else "a task has jobs"
    more = "; and more" if len(lost) > 1 else ""
    multiple = longer_horizon(tasks)
    if multiple is None:
        advice = "give a longer horizon, and with --lost cut a document without these jobs"
    else:
        advice = f"give a horizon that is a multiple of the periods, as {multiple}, or --lost cut"
    return f"{which} that are not due by the horizon {tasks.horizon}: {lost[0].told()}{more}; {advice}"


if __name__ == "__main__":
    sys.exit(main(sys.argv[1:]))
