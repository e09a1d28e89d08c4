"""The missed deadlines of a document of any length, where audit tells the first."""

from __future__ import annotations

import tempfile
from typing import IO, Iterable, Iterator, List, NamedTuple, Optional, Tuple

from yds._heads import MOST_BYTES, MOST_JOBS, MOST_SLOTS, MOST_TIME
from yds._lacking import Lacking
from yds._missed import Mended, Miss, Reading, Told
from yds._program import Answer, of_library
from yds._text import Fault, Line, Rows, UnitsFault
from yds._unknown import Unknown

_NO = 1


class Misses(NamedTuple):
    """The missed deadlines, and what audit says beside them."""

    missed: List[Miss]
    jobs: int
    """How many jobs the document has."""
    workless: List[str]
    """The names of the jobs that have no work."""
    status: int
    """The program's status of the document in which all jobs are in time."""
    verdict: str
    """What audit says of it."""
    lacking: Lacking
    """What the trace lacks: where events were lost, or no line tells of some time, whole jobs may have been."""
    unknown: Unknown
    """The jobs of which it isn't known whether they were in time."""

    @property
    def may_hide(self) -> bool:
        """Whether a deadline may be missed that isn't told."""
        return self.lacking.may_hide or self.unknown.may_hide


def misses(lines: Iterable[Line], answer: Optional[Answer] = None) -> Misses:
    """All missed deadlines of the document of these lines, and audit's verdict on its other faults.

    Audit judges the document first. Where it finds a job late or unfinished, all such jobs are reckoned here. Then the
    document is changed so that they are in time, and audit judges the rest. A document above the program's limits is
    judged in parts. answer is called with words and a document; without it the library answers.
    """
    answer = answer or of_library()
    reading = Reading()
    with tempfile.TemporaryFile() as kept:
        source = _copied(lines, kept)
        try:
            for _ in reading.rows(Rows(source)):
                pass
        except UnitsFault:
            raise
        except Fault as fault:
            return _of_the_faulty(fault, reading, source, kept, answer)
        status, verdict = _audit(reading, kept, answer)
        missed: List[Miss] = []
        told = Told(reading)
        if (status == _NO and _is_miss(verdict)) or (not status and reading.held.late):
            missed = told.by_slots()
            with tempfile.TemporaryFile() as mended:
                _mend(reading, kept, mended)
                status, verdict = _audit(reading, mended, answer)
    missed += told.by_comments(missed)
    held = reading.held
    workless = [job.name for job in held.workless()]
    return Misses(missed, len(held.jobs), workless, status, verdict, reading.lacking, reading.unknown)


def _copied(lines: Iterable[Line], kept: IO[bytes]) -> Iterator[Line]:
    """The lines, each written into the file."""
    for line in lines:
        kept.write(line.text.encode("latin-1") + b"\n")
        yield line


def _of_the_faulty(fault: Fault, reading: Reading, rest: Iterable[Line], kept: IO[bytes], answer: Answer) -> Misses:
    """What audit says of a document in which a line can't be read here: it is the one who says why."""
    for _ in rest:
        pass
    status, verdict = _audit(reading, kept, answer)
    if not status:
        raise fault
    return Misses([], len(reading.held.jobs), [], status, verdict, reading.lacking, reading.unknown)


def _is_miss(verdict: str) -> bool:
    """Whether the verdict says that a job is late, or got less than its work."""
    fields = verdict.split()
    if fields[:2] == ["late", "slot"]:
        return True
    return fields[:1] == ["work"] and int(fields[3].split("+")[0]) < int(fields[5])


def _mend(reading: Reading, kept: IO[bytes], mended: IO[bytes]) -> None:
    """Writes the document in which no job is late or unfinished."""
    changes = Mended(reading)
    kept.seek(0)
    rows = Rows(Line("-", number, line[:-1].decode("latin-1")) for number, line in enumerate(kept, 1))
    for row in rows:
        text = changes.line(row)
        if text is not None:
            mended.write(text.encode("latin-1") + b"\n")


def _audit(reading: Reading, text: IO[bytes], answer: Answer) -> Tuple[int, str]:
    """Status and verdict of audit, in parts where the document is above a limit."""
    size = text.tell()
    held = reading.held
    latest = max((job.deadline for job in held.jobs), default=0)
    if len(held.jobs) <= MOST_JOBS and held.slots <= MOST_SLOTS and size <= MOST_BYTES and latest <= MOST_TIME:
        text.seek(0)
        status, found = answer(["audit"], text.read())
        return int(status), found.decode("latin-1").rstrip("\n")
    return _audit_parts(text, answer, latest > MOST_TIME)


def _audit_parts(text: IO[bytes], answer: Answer, shift: bool) -> Tuple[int, str]:
    """The verdict of the whole, from those of its parts."""
    from yds.parts import cut, whole

    text.seek(0)
    parts, answers = [], []
    for part in cut(iter(text.readline, b""), shift=shift):
        status, found = answer(["audit"], part.text)
        if status not in (0, _NO):
            return int(status), found.decode("latin-1").rstrip("\n")
        parts.append(part.text)
        answers.append(found)
    put = whole(parts, answers)
    *_, verdict = put.lines
    return (0 if put.yes else _NO), verdict.decode("latin-1").rstrip("\n")
