"""One call on many documents, side by side in processes."""

from __future__ import annotations

import os
import pickle
import sys
import time
from concurrent.futures import FIRST_COMPLETED, Future, ProcessPoolExecutor, wait
from concurrent.futures.process import BrokenProcessPool
from itertools import islice
from typing import Callable, Dict, Iterable, Iterator, List, NamedTuple, Optional, TypeVar

from yds._numbers import integer

Item = TypeVar("Item")
Told = TypeVar("Told")

_PART_SECONDS = 0.1
"""So long a worker is to be busy with what it gets at once."""
_MOST_AT_ONCE = 256
_QUIET_SECONDS = 2.0
"""So long nothing is told of the progress."""


class _Part(NamedTuple):
    """What a worker made of some items, or what one of them raised; and how long one took on the average."""

    results: List[object]
    fault: Optional[BaseException]
    seconds: float


def map(call: Callable[[Item], Told], documents: Iterable[Item], processes: Optional[int] = None) -> List[Told]:
    """What the call makes of each document, in their order, by so many processes side by side.

    The documents may be anything that can be pickled: a seed, or a text, from which the call makes the document itself,
    is quicker to hand over, and so is a number as its answer than a plan. They are taken as they are needed, so they may
    be a generator's. Without `processes` there are as many as this process may use processors. With 1 all is done in
    this process, as a debugger needs it.

    The call is handed over by its name: TypeError is raised where it has none, as a lambda. What it raises is raised
    here, of the earliest document that is known to have failed, and a note says which that is (from Python 3.11 on).
    Where a process is ended by others, BrokenProcessPool is raised.

    What takes more than two seconds tells on standard error how many documents are done, if that is a terminal.

    >>> import yds
    >>> yds.map(yds.Document.report, [yds.Document([("a", 0, 4, work)]) for work in (2, 8)], processes=1)[1].peak
    Fraction(2, 1)
    """
    count = len(os.sched_getaffinity(0)) if processes is None else integer(processes, "the number of processes", 1)
    progress = _Progress(documents)
    try:
        return list(_alone(call, documents, progress) if count == 1 else _by_pool(call, documents, count, progress))
    finally:
        progress.end()


def _alone(call: Callable[[Item], Told], items: Iterable[Item], progress: _Progress) -> Iterator[Told]:
    for place, item in enumerate(items):
        try:
            yield call(item)
        except Exception as fault:
            raise _with_place(fault, place)
        progress.add(1)


def _by_pool(
    call: Callable[[Item], Told], documents: Iterable[Item], processes: int, progress: _Progress
) -> Iterator[Told]:
    """The results. As many parts are under way as keep all processes busy, and each is about as long as it ought to."""
    try:
        pickle.dumps(call)
    except (pickle.PicklingError, AttributeError, TypeError) as fault:
        raise TypeError(
            f"{call!r} can't be handed to other processes ({fault}): define it by `def` at the top of a module, "
            "or say processes=1"
        ) from None
    items, size, begun = iter(documents), 1, 0
    done: Dict[int, List[Told]] = {}
    running: Dict["Future[_Part]", int] = {}
    pool = ProcessPoolExecutor(processes)
    following = 0
    try:
        while True:
            while len(running) < 2 * processes:
                part = list(islice(items, size))
                if not part:
                    break
                running[pool.submit(_part, call, part)] = begun
                begun += len(part)
            if not running:
                return
            finished = wait(running, return_when=FIRST_COMPLETED).done
            for future in sorted(finished, key=running.__getitem__):
                place = running.pop(future)
                results, raised, seconds = future.result()
                if raised is not None:
                    raise _with_place(raised, place + len(results))
                done[place] = results  # type: ignore[assignment]
                size = max(1, min(_MOST_AT_ONCE, int(_PART_SECONDS / max(seconds, 1e-6))))
                progress.add(len(results))
            while following in done:
                ready = done.pop(following)
                following += len(ready)
                yield from ready
    except BrokenProcessPool as broken:
        raise BrokenProcessPool(f"a process was ended by others, or took too much memory ({broken})") from broken
    finally:
        for future in running:
            future.cancel()
        pool.shutdown()


def _part(call: Callable[[Item], object], items: List[Item]) -> _Part:
    """In a worker: what the call makes of the items, up to the first that raises."""
    results: List[object] = []
    began = time.perf_counter()
    try:
        for item in items:
            results.append(call(item))
    except Exception as fault:
        return _Part(results, _picklable(fault), 0.0)
    return _Part(results, None, (time.perf_counter() - began) / len(items))


def _picklable(fault: Exception) -> BaseException:
    """The exception, or what it says where it can't be handed back."""
    try:
        pickle.loads(pickle.dumps(fault))
        return fault
    except Exception:
        return RuntimeError(f"{type(fault).__name__}: {fault}")


def _with_place(fault: BaseException, place: int) -> BaseException:
    if hasattr(fault, "add_note"):
        fault.add_note(f"yds.map: in documents[{place}]")
    return fault


class _Progress:
    """A line on a terminal that tells how much is done, gone at the end."""

    def __init__(self, documents: object) -> None:
        self._of = f" of {len(documents):,}" if hasattr(documents, "__len__") else ""
        self._began = self._told = time.monotonic()
        self._done, self._shown = 0, False

    def add(self, count: int) -> None:
        """So many more are done."""
        self._done += count
        now = time.monotonic()
        if now - self._began > _QUIET_SECONDS and now - self._told > 0.2 and sys.stderr.isatty():
            self._told, self._shown = now, True
            sys.stderr.write(f"\r\x1b[Kyds.map: {self._done:,}{self._of} done, {now - self._began:.0f} s")
            sys.stderr.flush()

    def end(self) -> None:
        """Takes the line away."""
        if self._shown:
            sys.stderr.write("\r\x1b[K")
            sys.stderr.flush()
