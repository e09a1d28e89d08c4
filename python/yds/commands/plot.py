"""yds-plot: pictures of documents and answers."""

from __future__ import annotations

import sys
from typing import Callable, Sequence, Union

from yds._text import Fault, printable
from yds._words import DONE, Command, Files, Given, Option, WordsError, run
from yds.commands._idle import IDLE, names_of

KINDS = ("speed", "gantt", "slack", "curve", "energy", "ratios")

COMMAND = Command(
    "yds-plot",
    "pictures of documents and answers, by matplotlib, or as text",
    """
    yds_cli plan < jobs.txt | yds-plot speed > plan.svg
    yds-plot gantt -r 3000:5400 -o late.png late-on-points.txt

KIND is one of these:

  speed    speed over time: a document with slots or runs. Several files are lines, named after the files: those with
           runs as pale areas behind the others, a plan last
  gantt    who runs when: a row for each job, or for each task where there are more than 12 jobs
  slack    how long before its deadline each job was done: the table of yds-jobs with --form csv
  curve    the lines of `yds_cli curve`: how much work has to be done above each speed
  energy   the lines of `yds_cli compare` and of yds-energy; with `point` lines before them parted by point
  ratios   the table of yds-collect: how many documents cost how much more than the plan

A gantt goes by the table's points in its colours: with the points before the document a speed has one colour in each
picture. A triangle stands over each missed deadline, the row says so at its end, and the jobs are named below the
title. Jobs that a trace had and the document hasn't are counted there, and where a comment tells their window they are
crosses in a row of their own. Who else ran, by comments `# other NAME-PID FROM TO`, is a grey band below the rows.

Where runs are narrower than a pixel, each column of pixels is drawn as a whole: in speed its mean and greatest speed,
in gantt a bar as high as the part of its time that ran. Above 5,000 jobs slack shows the least of each column.

Each picture has its words in it, for who can't see it, and two runs write the same bytes.
""",
    [
        Option(
            "form", "svg, png, pdf, or text for a terminal; svg where neither this nor --output tells it", "FORM", "-t"
        ),
        Option("output", "the file to write, in place of standard output; its ending tells the form", "FILE", "-o"),
        Option("size", "in pixels, of text in characters", "WIDTHxHEIGHT", "-s"),
        Option("title", "the line above the picture", "TITLE", "-T"),
        Option(
            "units",
            "the document's units, as 10us,10MHz,1mW; without it from the comments that the commands write (the program "
            "drops comments), and where there are none, no units are written",
            "TIME,SPEED,POWER",
            "-u",
        ),
        Option(
            "group", "colours and rows by job or by task, the name without its last dot and number", "job|task", "-g"
        ),
        Option("range", "only this time, in the document's units", "FROM:TO", "-r"),
        IDLE._replace(told=f"of gantt: {IDLE.told}"),
    ],
    Files("KIND [FILE]", 1, None, f"the first word is the kind of picture ({', '.join(KINDS)})", KINDS),
)


def main(words: Sequence[str]) -> int:
    """Draws the picture."""
    return run(COMMAND, words, tell)


def tell(given: Given, write: Callable[[Union[str, bytes]], None]) -> int:
    """Writes the picture."""
    # matplotlib and all that draws is loaded here, and not for --help.
    from yds._plotted import Wanted, drawn

    kind, files = given.files[0], given.files[1:]
    if kind not in KINDS:
        raise WordsError(f"{printable(kind)} is no kind of picture; the first word is one of {', '.join(KINDS)}")
    if len(files) > 1 and kind != "speed":
        raise WordsError("only speed draws several files; yds-join puts points, jobs and traces together")
    if given.idle is not None and kind != "gantt":
        raise WordsError("--idle is for gantt, which shows who else ran")
    idle = names_of(given.idle)
    try:
        wanted = Wanted.read(given.form, given.output, given.size, given.title, given.units, given.group, given.range)
    except ValueError as fault:
        raise WordsError(str(fault)) from fault
    made = drawn(kind, files, wanted._replace(idle=idle))
    if given.output is None:
        write(made)
    else:
        deliver(made, given.output)
    return DONE


def deliver(made: bytes, output: str) -> None:
    """Writes the file."""
    try:
        with open(output, "wb") as file:
            file.write(made)
    except OSError as fault:
        raise Fault(f"{output} can't be written: {fault.strerror}") from fault


if __name__ == "__main__":
    sys.exit(main(sys.argv[1:]))
