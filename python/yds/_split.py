"""Parts that stand in one text, one behind the other, as yds_trace --parts and --cpu all write them."""

from __future__ import annotations

from typing import Dict, Iterable, Iterator, List, Optional

from yds._heads import MOST_BYTES, MOST_JOBS, Head, Part, PartsError, closing, read_head


class _Begun:
    """The part that is read: its head, where that stands, and its lines so far."""

    def __init__(self, head: Head, line: int, before: List[bytes]) -> None:
        self.head = head
        self.name = f"part {head.number}{_of(head)}"
        self.line = line
        self.lines = [head.spelled(), *before]
        self.size = sum(map(len, self.lines))
        self.jobs = 0

    def take(self, line: bytes, number: int) -> None:
        """Takes a line of the part."""
        self.jobs += line.split(None, 1)[:1] == [b"job"]
        self.size += len(line)
        if self.jobs > MOST_JOBS or self.size > MOST_BYTES:
            told = f"{MOST_JOBS} jobs or {MOST_BYTES} bytes"
            raise PartsError(f"{self.name} has more than {told}, the limits of a document", number)
        self.lines.append(line)

    def ended(self) -> Part:
        """The part, when all its lines are read."""
        if self.jobs != self.head.jobs:
            told = f"{self.name} has {self.jobs} jobs, and its head tells {self.head.jobs}"
            raise PartsError(told, self.line)
        if closing(self.lines[-1].decode("latin-1").rstrip("\r\n")) is None:
            told = f"{self.name} doesn't end with '# {self.jobs} jobs written, ..': the text is cut short"
            raise PartsError(told, self.line)
        return Part(self.head, b"".join(self.lines))


class _Order:
    """The heads so far. Of several processors each counts its own parts and jobs, and all last parts stand at the end."""

    def __init__(self) -> None:
        self._heads: Dict[Optional[int], Head] = {}
        self._ended = 0

    def take(self, head: Head, line: int) -> None:
        """Takes the next head. One that doesn't follow those before it is refused."""
        if self._heads and (head.cpu is None) != (None in self._heads):
            raise PartsError(f"part {head.number}{_of(head)} in a text of another trace: give one trace", line)
        before = self._heads.get(head.cpu)
        number, first = (1, 1) if before is None else (before.number + 1, before.final + 1)
        if before is not None and before.last:
            raise PartsError(f"a part{_of(head)} behind part {before.number}, which is the last one", line)
        if head.number != number:
            raise PartsError(f"part {head.number}{_of(head)} here, where part {number} is missing", line)
        if head.first != first:
            raise PartsError(f"part {number}{_of(head)} begins with job {head.first}, and job {first} is missing", line)
        if head.cpu is not None and (head.cpu if head.last else 0) != self._ended:
            missing = f"the last one of processor {self._ended} is missing"
            raise PartsError(f"part {number}{_of(head)} here, where {missing}", line)
        self._heads[head.cpu] = head
        self._ended += head.last

    def end(self) -> None:
        """Refuses a text in which a last part is missing."""
        alone = self._heads.get(None)
        if alone is None and self._ended <= max(cpu for cpu in self._heads if cpu is not None):
            raise PartsError(f"processor {self._ended} has no last part: the text is cut short")
        if alone is not None and not alone.last:
            raise PartsError(f"part {alone.number} isn't the last one, and none follows: the text is cut short")


def _of(head: Head) -> str:
    """What is said of the processor, where there are documents of several."""
    return "" if head.cpu is None else f" of processor {head.cpu}"


def split(lines: Iterable[bytes]) -> Iterator[Part]:
    """The parts, each with the points and comments that stand before the first."""
    before: List[bytes] = []
    part: Optional[_Begun] = None
    order = _Order()
    told = b""
    for number, line in enumerate(lines, 1):
        line = line if line.endswith(b"\n") else line + b"\n"
        word = line.split(None, 1)[:1]
        head = read_head(line)
        if word == [b"failed"]:
            raise PartsError(_failed(told), number)
        if head is not None:
            order.take(head, number)
            if part is not None:
                yield part.ended()
            part = _Begun(head, number, before)
        elif part is not None:
            part.take(line, number)
        elif word and word != [b"point"] and not line.startswith(b"#"):
            raise PartsError("before the first part only points and comments stand", number)
        else:
            before.append(line)
        told = line if line.startswith(b"#") else b""
    if part is None:
        raise PartsError("there is no part; the first line of one is as '# part 1: jobs 1 to 4000, ..'")
    order.end()
    yield part.ended()


def _failed(told: bytes) -> str:
    """What is said of a text that ends with the line `failed`, behind a comment with the reason."""
    reason = "".join(sign if " " <= sign <= "~" else "?" for sign in told.decode("latin-1").strip("# \r\n"))
    return f"what wrote these parts has failed{': ' if reason else ''}{reason}"
