"""trace.py: draws small traces of a kernel, and holds the whole text that yds_trace writes against a second reading.

    python3 robustness/trace.py [SEED] [TRACES] [PROGRAM]
    python3 robustness/trace.py one SEED NUMBER [PROGRAM]     the trace of this number alone, with both texts

It draws TRACES traces (1,000) by drawn.py, each with words, with words that have a mistake or name files, and with
lines that are taken out of the order of their times (exchanged.py), and as many of threads that are woken as they go to
sleep, come back without a wake-up, are stopped, or are over, of switches that are missing, and of processors that are
silent at the end: five formats; threads that sleep, are preempted,
wait, starve and move among processors, with odd names; changes of speed at the stamp of a switch; fronts that are cut
off, lost events, missing switches, each fault of a line, of its form, of a whole trace and of a document; `--from` and
`--to`, of the clock and from the first line on; deadlines that are missed by a nanosecond; and one in eight in parts, and one in eight of all processors, of
which such small traces have one part each (long.py and everywhere.py draw those that have more). The second reading is
second.py, and parted.py for parts. It shares no code with the crates.

PROGRAM is the program that was built, as build/yds_trace. Without it a small program over the crate `yds_trace_run`
does the same on each trace, but that it opens no file, and `rt try` builds it, unproved. Before the last line it tells
how many traces had each thing. The status is 1 where a text or a status differs, and also where of 10,000 traces or
more fewer than 200 had a thing of WANTED.
"""

import os
import random
import re
import shutil
import subprocess
import sys
import tempfile
from collections import Counter
from pathlib import Path
from typing import Dict, Iterator, List, NamedTuple, Set, Tuple

from drawn import Drawn, decimal_text, dozing, drawn, every_processor, mistaken
from exchanged import exchanged
from parted import SMALL, told_in_parts
from second import (
    Asked, Asks, CAUSES, Document, FLAGS, FORMS, HELPS, Judged, MOST_OTHER_NAME, MOST_PASSED, MOST_STEP_BACK, MOST_TEXT, MOST_TIME, Placed, Told, VALUES, Wrong, as_bytes,
    asked_by, begun, decimal, files_in, is_stamped, later_before, ordered, whole_document,
)


def told(words: List[str], trace: bytes) -> Told:
    """A run of the program."""
    try:
        asked = asked_by(words)
        if asked.in_parts:
            return told_in_parts(trace, asked)[0]
        document = whole_document(trace, asked)
        document.check()
        text = document.text()
        if len(as_bytes(text)) > MOST_TEXT:
            raise Wrong("the document is longer than 8388608 bytes; choose a shorter time by --from and --to", 3, "document: text")
        return Told(text, 0, "", document)
    except Asks as asks:
        return Told(str(asks), 0, "a text of its own")
    except Wrong as wrong:
        return Told(f"# {wrong.text}\nfailed\n", wrong.status, wrong.kind)


# # What was in the traces

# Each is in at least 200 of 10,000 traces. A fault `document: great speed` can't be: a job with such a run has more work
# than a job may have, which is told before. Nor can the faults of size, and what a line behind a written part is refused for.
REASONS = ["before from", "events lost", "a switch is missing", "its begin isn't in the trace", "due before it begins", "ran on another processor", "frequency not known"]
WANTED = [
    *(f"format {form}" for form in ("kernel", "short", "raw", "perf", "perfetto")),
    *(f"option {word}" for word in VALUES + FLAGS), "option --cpu all", "option --start of processors", "option APART", "option PERIOD", "option PERIOD without APART", "a task by its number", "a value behind an equals sign",
    *(f"form: {reason}" for reason in FORMS),
    *(f"line: {cause}" for cause in CAUSES if cause not in ("none", "part written")),
    *(f"whole: {cause}" for cause in ("none", "lost", "a task unseen")),
    *(f"document: {cause}" for cause in ("times", "work", "coarse speed", "no job", "unsure", "strict")),
    *(f"word: {reason}" for reason in HELPS), "a time that counts from the first line", "no first line",
    *(f"late: {reason}" for reason in REASONS), *(f"left out: {reason}" for reason in REASONS + ["not ended", "after to"]),
    "a wake-up that starts alone", "a wake-up that was done alone", "a wake-up in both halves", "a woken name with a mark inside",
    "a job that begins as its thread goes to sleep, and one half tells", "a job that begins as its thread goes to sleep, and both halves tell",
    "a job that goes on behind a sleep without a wake-up", "a job that is lost behind two such sleeps",
    "a job that is lost behind one such sleep, late", "a job with which its thread was over",
    "a thread is stopped", "a thread is traced", "a thread is dead", "a job that hangs over from", "a job that hangs over from, and isn't ended",
    "comment exited", "comment went on",
    "a job as it is", "a job that moves, in time", "a job that moves, late", "a job that starves", "an overrun", "a job that is preempted",
    "a job that goes on after a sleep", "a job with several wake-ups", "late by nothing", "late by 1 ns", "late by less than a unit",
    "ends at its deadline", "a change of speed in a job", "a change of speed at the stamp of a switch", "equal stamps", "a wake-up and a switch of one stamp",
    "a trace in files",
    "lines end by CR LF", "no line feed at the end", "a marker that looks like a switch", "a wake-up of a new thread", "a wait for a disk", "a thread ends",
    "a share of a job that moves, in time", "a share of a job that moves, late", "a share whose runs don't show that it is late",
    "a name with a byte that isn't shown", "a name that is cut short", "another thread within one unit of time", "another thread at time 0",
    "comment late", "comment late, without its runs", "comment late in a run", "comment late by less", "comment late on another processor", "comment not ended", "comment begins", "comment ends",
    "comment left out", "comment stretch", "comment wake", "comment the deadline of", "comment APART of", "comment part", "comment other",
    "comment places where events were lost", "comment switches of other threads", "comment lines that programs wrote", "comment no line for",
    "comment no line of CPU", "comment begins apart", "a job due by the one before", "a job due by the one before, late", "a switch is missing, gone on",
    "a coming that is missing, in time", "a coming that is missing, late", "a job found as its thread is renamed", "a job that began elsewhere behind a missing switch",
    "a job that is lost behind a sleep, and its thread was never woken",
    "out of order: neighbours of two processors", "out of order: 2 to 63 places", "out of order: 64 places", "out of order: 65 places",
    "out of order: a millisecond", "out of order: a nanosecond more", "out of order: behind one of its stamp", "out of order: over a loss",
    "out of order: beside a loss", "out of order: over --from", "out of order: over --to", "out of order: too far, behind --to",
    "out of order: in parts", "out of order: before another fault", "out of order: the number of the text",
]
LEAST, OF = 200, 10_000


def in_words(words: List[str]) -> Iterator[str]:
    """What is in words."""
    for word in words:
        name = word.partition("=")[0]
        if name in VALUES + FLAGS:
            yield f"option {name}"
        if name in VALUES and "=" in word:
            yield "a value behind an equals sign"
        if re.fullmatch(r"(--from=|--to=)?\+[0-9.]+", word):
            yield "a time that counts from the first line"
    if every_processor(words):
        yield "option --cpu all"
    pairs = [word for word in words if re.fullmatch(r"(--start=)?([0-9]+:[0-9]+,)*[0-9]+:[0-9]+", word)]
    if pairs:
        yield "option --start of processors"
    listed = next((word for word in words if word not in pairs and re.search(r":[0-9.]+(,|$)", word)), "")
    if re.search(r":[0-9.]+:[0-9.]+(:|,|$)", listed):
        yield "option APART"
    if re.search(r":[0-9.]+:[0-9.]*:[0-9.]+(,|$)", listed):
        yield "option PERIOD"
    if re.search(r":[0-9.]+::[0-9.]+(,|$)", listed):
        yield "option PERIOD without APART"
    if re.search(r"(^|[,=])[0-9]+=", listed):
        yield "a task by its number"


def in_trace(trace: bytes) -> Iterator[str]:
    """What is in a trace's text."""
    lines = trace.split(b"\n")
    stamps = [re.search(rb" ([0-9]+\.[0-9]+): (\S*)(?= )", line) for line in lines]
    told_at = [(mark[1], mark[2].replace(b"sched:", b"").replace(b"power:", b"")) for mark in stamps if mark]
    pairs = [{one[1], two[1]} for one, two in zip(told_at, told_at[1:]) if one[0] == two[0]]
    if pairs:
        yield "equal stamps"
    if {b"sched_switch:", b"cpu_frequency:"} in pairs:
        yield "a change of speed at the stamp of a switch"
    if any(b"sched_switch:" in pair and any(name.startswith(b"sched_wak") for name in pair) for pair in pairs):
        yield "a wake-up and a switch of one stamp"
    if trace and not trace.endswith(b"\n"):
        yield "no line feed at the end"
    signs = {
        "lines end by CR LF": rb"\r\n", "a marker that looks like a switch": rb"note \[000\]", "a wake-up of a new thread": rb"wakeup_new",
        "a wait for a disk": rb"(prev_state=|\] )D ", "a thread ends": rb"(prev_state=|\] )X ", "a thread is dead": rb"(prev_state=|\] )[Zx] ",
        "a thread is stopped": rb"(prev_state=|\] )(T|4) ", "a thread is traced": rb"(prev_state=|\] )(t|8) ",
    }
    yield from (name for name, sign in signs.items() if re.search(sign, trace))
    yield from in_wake_ups(lines)


def in_wake_ups(lines: List[bytes]) -> Iterator[str]:
    """What its wake-ups show: of a thread's name, which half is told next to which."""
    woken = [mark for mark in (re.search(rb" sched_(wak\w+): (?:comm=)?(.*?)(?: pid=| ?:)[0-9]+ (?:prio=[0-9]+ t|\[[0-9]+\] C)", line) for line in lines) if mark]
    if any(re.search(rb" pid=[0-9]+ prio=|:[0-9]+ \[[0-9]+\]", mark[2]) for mark in woken):
        yield "a woken name with a mark inside"
    before: Dict[bytes, bytes] = {}
    for mark in woken:
        last = before.get(mark[2])
        if mark[1] == b"wakeup" and last == b"waking":
            yield "a wake-up in both halves"
        elif mark[1] == b"wakeup":
            yield "a wake-up that was done alone"
        elif last == b"waking":
            yield "a wake-up that starts alone"
        before[mark[2]] = mark[1]


def in_job(one: Judged, unit: int) -> Iterator[str]:
    """What a job shows."""
    ran, late, ended = one.job.ran, one.late, one.job.state == "ended"
    if one.reason:
        yield f"{'left out' if late is None else 'late'}: {one.reason}"
    else:
        yield "a job as it is"
    if len({stretch.processor for stretch in ran}) > 1:
        yield "a job that moves, in time" if late is None else "a job that moves, late"
    if one.part is not None:
        yield "a share of a job that moves, in time" if late is None else "a share of a job that moves, late"
    pairs = list(zip(ran, ran[1:]))
    signs = {
        "a job that starves": late is not None and not ran and one.job.known,
        "an overrun": late is not None and ended,
        "a job that is preempted": any(before.end < behind.begin for before, behind in pairs),
        "a job that goes on after a sleep": one.job.again > 0,
        "a job with several wake-ups": one.job.wakes > 0,
        "a job that is followed just APART after its begin": one.job.just_apart,
        f"a job that begins as its thread goes to sleep, {one.job.raced}": one.job.raced.startswith("and"),
        "a job that goes on behind a sleep without a wake-up": one.job.slept is not None and one.job.state != "lost",
        "a job that is lost behind two such sleeps": one.job.raced == "twice",
        "a job that is lost behind a sleep, and its thread was never woken": one.job.raced == "never woken",
        "a job found as its thread is renamed": one.job.raced == "renamed",
        "a job that began elsewhere behind a missing switch": one.job.raced == "elsewhere",
        "a job due by the one before": one.job.due_from < one.job.begin,
        "a job due by the one before, late": one.job.due_from < one.job.begin and late is not None,
        "a coming that is missing, in time": one.job.missing and late is None,
        "a coming that is missing, late": one.job.missing and late is not None,
        "a job that is lost behind one such sleep, late": one.job.state == "lost" and one.job.slept == one.job.at and late is not None,
        "a job with which its thread was over": one.job.exited,
        "late by nothing": late == 0,
        "late by 1 ns": late == 1,
        "late by less than a unit": late is not None and 0 < late < unit,
        "ends at its deadline": ended and one.job.at == one.due and one.job.known,
        "a change of speed in a job": any(before.end == behind.begin and before.khz != behind.khz for before, behind in pairs),
    }
    yield from (name for name, holds in signs.items() if holds)


def over_from(one: Judged, asked: Asked) -> Iterator[str]:
    """Whether a job was due before `from`, and is open behind it."""
    if one.late is not None and asked.begin is not None and one.due <= asked.begin:
        yield "a job that hangs over from" if one.job.state == "ended" else "a job that hangs over from, and isn't ended"


def in_text(text: str) -> Iterator[str]:
    """Which comments a document has."""
    kinds = "part|other|late, without its runs|late on another processor|late by less|late in a run|late|not ended|begins|ends|left out|[0-9]+ stretch|[0-9]+ wake|the deadline of|APART of|places where events were lost|switches of other threads|lines that programs wrote|no line for|no line of CPU|exited|went on"
    for mark in re.finditer(f"^# (?:up to here, )?({kinds})", text, re.M):
        yield "comment " + re.sub("[0-9]+ ", "", mark[1])
    if "a period would tell" in text:
        yield "comment begins apart"


def in_others(document: Document) -> Iterator[str]:
    """What the spans of other threads show, and shares."""
    names = [span.name for span in document.others]
    if any(byte < 32 for name in names for byte in name):
        yield "a name with a byte that isn't shown"
    if any(len(name) == MOST_OTHER_NAME for name in names):
        yield "a name that is cut short"
    if any(document.units(span.begin) == document.units(span.end) for span in document.others):
        yield "another thread within one unit of time"
    if document.others and document.others[0].begin == document.zero:
        yield "another thread at time 0"
    if any(one.part is not None and not one.reason and document.is_hidden(one) for one, _, _, _ in document.rows):
        yield "a share whose runs don't show that it is late"


def in_step_back(one: Placed, later: List[Placed], before: List[Placed], asked: Asked) -> Iterator[str]:
    """What an event shows that stands behind these, which are later, and those before them."""
    back = max(each.line.time for each in later) - one.line.time
    stays = one.stays
    signs = {
        "neighbours of two processors": not stays and len(later) == 1 and later[0].line.processor != one.line.processor,
        "2 to 63 places": not stays and 1 < len(later) < MOST_PASSED,
        "64 places": not stays and len(later) == MOST_PASSED,
        "65 places": len(later) > MOST_PASSED and back <= MOST_STEP_BACK,
        "a millisecond": not stays and back == MOST_STEP_BACK,
        "a nanosecond more": back == MOST_STEP_BACK + 1,
        "behind one of its stamp": not stays and bool(before) and before[-1].line.time == one.line.time,
        "beside a loss": not stays and bool(before) and not is_stamped(before[-1].line),
        "over --from": not stays and asked.begin is not None and one.line.time < asked.begin <= later[0].line.time,
        "over --to": not stays and asked.end is not None and one.line.time <= asked.end < later[0].line.time,
        "too far, behind --to": stays and asked.end is not None and asked.end < one.line.time,
        "in parts": not stays and asked.in_parts,
    }
    yield from (name for name, holds in signs.items() if holds)


def out_of_order(words: List[str], trace: bytes, said: Told) -> Set[str]:
    """What a trace's lines out of order show."""
    found_order = ordered(trace)
    try:
        asked = begun(found_order, asked_by(words))
    except (Asks, Wrong):
        return set()
    past: List[Placed] = []
    found: Set[str] = set()
    order = found_order.placed
    numbers = [one.number for one in order]
    # In the order of the text: what is put before a line comes later.
    for one in sorted(order, key=lambda each: each.number):
        later = later_before(one.line, past)
        place = len(past) - len(later)
        if later:
            found.update(in_step_back(one, later, past[:place], asked))
        elif is_stamped(one.line) and past and not is_stamped(past[-1].line) and any(one.line.time < each.line.time for each in past):
            found.add("over a loss")
        past.insert(len(past) if one.stays else place, one)
    if numbers != sorted(numbers) and said.kind.startswith(("form", "line")) and said.kind != "line: back":
        found.add("before another fault")
        told_at = re.search(r"^# line ([0-9]+): ", said.text, re.M)
        if told_at is not None and numbers[int(told_at[1]) - 1 : int(told_at[1])] != [int(told_at[1])]:
            found.add("the number of the text")
    return {f"out of order: {name}" for name in found}


def things(words: List[str], trace: bytes, said: Told) -> Set[str]:
    """What is in a trace, its words and what is said of it."""
    found = {f"status {said.status}", *in_words(words), *in_trace(trace)}
    if said.kind:
        found.update({said.kind, said.kind.replace("part document", "document")})
    documents = list(said.parts) if said.document is None else [said.document]
    if documents:
        found.update(in_text(said.text))
    for document in documents:
        found.update(in_others(document))
        if document.tally.losses and not re.search(rb"LOST|DROPPED|buffer started", trace):
            found.add("a switch is missing, gone on")
        for one in document.judged:
            found.update(in_job(one, document.asked.unit))
            found.update(over_from(one, document.asked))
    return found


# # Comparing

DRIVER = '''//! Runs yds_trace on each trace in standard input, and writes the text and the status of each, one behind the other.
//! Of each there are a line with the words, with a tab behind each, a line with the length of the trace, and the trace.
#![tactic(auto)]

use std::hash::RandomState;
use std::io::{BufWriter, Read, Write};
use yds_port::{SteadySource, StdSink};
use yds_trace_run::run;

fn main(rt: HostRuntime) -> Result<(), anyhow::Error> {
    let mut input = Vec::new(rt.alloc());
    rt.stdin().read_to_end(&mut input)?;
    let mut out = BufWriter::with_capacity(rt.alloc(), 65_536, rt.stdout())?;
    let mut at = 0;
    while at < input.len() {
        let mut words = Vec::new(rt.alloc());
        let mut word = String::new(rt.alloc());
        while input[at] != b'\\n' {
            if input[at] == b'\\t' {
                words.push(word)?;
                word = String::new(rt.alloc());
            } else {
                word.push(if input[at] == 1 { '\\n' } else { char::from(input[at]) })?;
            }
            at += 1;
        }
        at += 1;
        let mut length = 0;
        while input[at] != b'\\n' {
            length = 10 * length + (input[at] - b'0') as usize;
            at += 1;
        }
        at += 1;
        let mut source = SteadySource::new(Vec::from_slice(rt.alloc(), &input[at..at + length])?);
        at += length;
        let mut text = Vec::new(rt.alloc());
        let keys = RandomState::new(&rt)?;
        let status = {
            let mut sink = StdSink::new(&mut text);
            run(rt.alloc(), keys, &words, &mut source, &mut sink)
        };
        out.write_all(&text)?;
        out.write_all(format!(in rt.alloc(); "status {}\\n", status.code())?.as_bytes())?;
    }
    out.flush()?;
    Ok(())
}
'''


class Case(NamedTuple):
    """Words and a trace, and what the second reading says of them."""

    words: List[str]
    trace: bytes
    text: str
    status: int


def case_of(words: List[str], trace: bytes) -> Case:
    """A case, with what the second reading says."""
    said = told(words, trace)
    return Case(words, trace, said.text, said.status)


def from_first(seed: int, number: int, it: Drawn) -> Drawn:
    """The trace with times that count from its first line, where its words have times, and some with lost events before that line."""
    draw = random.Random(f"first {seed} {number}")
    at = [place for place, word in enumerate(it.words) if word.partition("=")[0] in ("--from", "--to")]
    if it.shows in ("no_speed", "torn") and not at and draw.random() < 0.2:
        return it._replace(words=draw.choice([["--to", "+1"], ["--from=+0.001"]]) + it.words, trace=b"CPU:1 [LOST EVENTS]\n" + it.trace)
    if not at or draw.random() < 0.4:
        return it
    trace = (b"CPU:0 [LOST 2 EVENTS]\n" if draw.random() < 0.1 else b"") + it.trace
    placed = ordered(trace).placed
    first = placed[0].line.time if placed and is_stamped(placed[0].line) else 0
    words = list(it.words)
    for place in at:
        name, equals, value = words[place].partition("=")
        time = decimal(value or words[place + 1], 9, MOST_TIME)
        if time is not None and time >= first and draw.random() < 0.8:
            counted = "+" + decimal_text(time - first, 9)
            words[place : place + (1 if equals else 2)] = [name + equals + counted] if equals else [name, counted]
    return it._replace(words=words, trace=trace)


def drawn_cases(seed: int, number: int, counts: "Counter[str]") -> List[Case]:
    """The trace of this number with its words, with words that have a mistake, and with lines out of order. What is in it is counted."""
    it = from_first(seed, number, drawn(seed, number))
    said = told(it.words, it.trace)
    wrong = mistaken(seed, number, it.words)
    wrong_said = told(wrong, it.trace)
    found = things(it.words, it.trace, said) | {f"format {it.form}"}
    if wrong_said.status == 2 or wrong_said.kind:
        found |= {*in_words(wrong), *([wrong_said.kind] if wrong_said.status in (0, 2) else [])}
    if files_in(wrong):
        found.add("a trace in files")
    doze = dozing(seed, number)
    doze_said = told(doze.words, doze.trace)
    found |= things(doze.words, doze.trace, doze_said)
    other = exchanged(seed, number, it)
    other_said = told(other.words, other.trace)
    counts.update(found | out_of_order(other.words, other.trace, other_said))
    return [Case(it.words, it.trace, said.text, said.status), Case(wrong, it.trace, wrong_said.text, wrong_said.status),
            Case(other.words, other.trace, other_said.text, other_said.status), Case(doze.words, doze.trace, doze_said.text, doze_said.status)]


def lay_out(top: Path, runs: str = "yds_trace_run") -> Path:
    """Puts the crates that the small program stands on, and itself, into a folder of their own. Gives its crate's folder.

    The crate `runs` has the call `run`: answers.py names that of the other program.
    """
    graph: Dict[str, List[str]] = {}
    for line in Path("crates.txt").read_text(encoding="utf-8").splitlines():
        head, colon, rest = line.partition("#")[0].partition(":")
        if colon:
            graph[head.split()[0]] = rest.split()
    needed, left = set(), [runs]
    while left:
        crate = left.pop()
        if crate in graph and crate not in needed:
            needed.add(crate)
            left += graph[crate]
            shutil.copytree(Path("crates") / crate, top / "crates" / crate, ignore=shutil.ignore_patterns("out", "edits"))
    listed = [f"{crate}: {' '.join(graph[crate])}" for crate in needed]
    listed.append(f"trace_said: yds_port {runs} anyhow")
    (top / "crates.txt").write_text("\n".join(listed) + "\n", encoding="utf-8")
    source = top / "crates" / "trace_said" / "src"
    source.mkdir(parents=True)
    (source / "main.rt").write_text(DRIVER.replace("yds_trace_run", runs), encoding="utf-8")
    return source.parent


def shorten(top: Path) -> None:
    """Gives the crates that were laid out the smaller limits of parts."""
    file = top / "crates" / "yds_trace" / "src" / "limits.rt"
    text = file.read_text(encoding="utf-8")
    names = ("LOOK_EVERY", "PART_JOBS", "PART_STRETCHES", "PART_OTHERS", "WAITING_JOBS", "WAITING_STRETCHES", "WAITING_OTHERS")
    for name, value in zip(names, SMALL):
        text, count = re.subn(rf"(pub const {name}: u64 =) [0-9_]+;", rf"\g<1> {value};", text)
        assert count == 1
    file.write_text(text, encoding="utf-8")


# So many cases, and so many bytes of their texts, are a run of the small program: `rt` takes half a second for each run, and
# at most 1 MiB of its output.
BUNDLE, BYTES = 300, 600_000


def bundles(cases: List[Case]) -> List[List[Case]]:
    """The cases, so many at a time."""
    found: List[List[Case]] = []
    size = BYTES
    for case in cases:
        if size + len(case.text) > BYTES or len(found[-1]) == BUNDLE:
            found.append([])
            size = 0
        found[-1].append(case)
        size += len(case.text)
    return found


def write_bundle(cases: List[Case], file: Path) -> None:
    """Writes cases as the small program reads them."""
    with file.open("wb") as out:
        for case in cases:
            words = "".join(word.replace("\n", "\x01") + "\t" for word in case.words).encode()
            out.write(words + b"\n%d\n" % len(case.trace) + case.trace)


def answers_of(cases: List[Case]) -> List[str]:
    """What the small program is to write of each case."""
    return [f"{case.text}status {case.status}\n" for case in cases]


def try_laid_out(crate: Path, cases: List[Case]) -> "Tuple[List[int], str]":
    """Builds the small program unproved, and runs it on the cases. Gives the places of those with another answer, and what `rt` wrote."""
    with tempfile.TemporaryDirectory() as folder:
        parts = bundles(cases)
        for number, part in enumerate(parts):
            write_bundle(part, Path(folder) / f"{number:04d}")
        # The compiled program alone: the other way in which `rt` runs a program goes step by step, and takes seconds a case.
        words = ["rt", "try", "--steps", "1", "--seconds", "300", "--cases", folder]
        done = subprocess.run(words, cwd=crate, check=False, stdout=subprocess.PIPE, stderr=subprocess.PIPE, text=True, encoding="utf-8",
                              errors="surrogateescape")
    told = re.split(r"^== ([0-9]{4})\n", done.stdout, flags=re.M)
    texts = {int(number): text for number, text in zip(told[1::2], told[2::2])}
    wrong: List[int] = []
    before = 0
    for number, part in enumerate(parts):
        written = re.findall(r"(?:.*\n)*?status [0-9]+\n", texts.get(number, ""))
        wanted = answers_of(part)
        wrong += [before + at for at, text in enumerate(wanted) if at >= len(written) or written[at] != text]
        before += len(part)
    return wrong, done.stdout + done.stderr


def try_cases(cases: List[Case]) -> int:
    """Runs the small program, unproved, on each case. Gives 0 where all is the same."""
    with tempfile.TemporaryDirectory() as folder:
        wrong, said = try_laid_out(lay_out(Path(folder)), cases)
    for at in wrong[:5]:
        show(cases[at], b"another text")
    if len(wrong) == len(cases):
        print(said[-3000:])
    return int(bool(wrong))


def can_be_taken(words: List[str]) -> bool:
    """Whether they ask for a trace to be read."""
    try:
        asked_by(words)
    except (Asks, Wrong):
        return False
    return True


def in_two(trace: bytes) -> List[bytes]:
    """The trace in two pieces, the first of which ends with a line, or is empty."""
    at = trace.find(b"\n", len(trace) // 2) + 1
    return [trace[:at], trace[at:]]


def in_files(case: Case, folder: Path) -> "Tuple[bytes, Case]":
    """Standard input of a case, and the case as the program reads files: they hold the trace, in this folder. The empty name is that of none."""
    names = files_in(case.words) if can_be_taken(case.words) else []
    if names in ([], ["-"]):
        return case.trace, case
    if names == [""]:
        return b"", case._replace(text="# file 1 (): it can't be opened; see that it is there and may be read\nfailed\n", status=4)
    for name, piece in zip(names, in_two(case.trace) if len(names) == 2 else [case.trace]):
        (folder / name).write_bytes(piece)
    return b"", case


def run_case(program: str, case: Case) -> bool:
    """Whether the program says the same of a case."""
    with tempfile.TemporaryDirectory() as folder:
        given, wanted = in_files(case, Path(folder))
        done = subprocess.run([program, *case.words], input=given, capture_output=True, check=False, cwd=folder)
    same = (done.stdout, done.returncode) == (as_bytes(wanted.text), wanted.status)
    if not same:
        show(wanted, done.stdout)
    return same


def show(case: Case, written: bytes) -> None:
    """Both texts of a case."""
    sys.stdout.flush()
    sys.stdout.buffer.write(b"\n".join([repr(case.words).encode(), case.trace, b"-- the program", written,
                                        b"-- the second reading", as_bytes(case.text), b"--\n"]))
    sys.stdout.flush()


def show_one(words: List[str]) -> int:
    """One trace alone, with both texts."""
    for case in drawn_cases(int(words[0]), int(words[1]), Counter()):
        done = subprocess.run([words[2], *case.words], input=case.trace, capture_output=True, check=False) if len(words) > 2 else None
        show(case, done.stdout if done else b"")
    return 0


def too_few(counts: "Counter[str]", many: int) -> List[str]:
    """What was in too few traces, where there were enough of them to tell."""
    return [name for name in WANTED if counts[name] < LEAST] if many >= OF else []


def all_same(seed: int, many: int, program: str, counts: "Counter[str]") -> bool:
    """Whether the built program says the same of all traces. It tells the numbers of those of which it doesn't."""
    same = True
    for number in range(many):
        if not all([run_case(program, case) for case in drawn_cases(seed, number, counts)]):
            print(f"the readings of trace {number} of seed {seed} differ")
            same = False
    return same


def main(words: List[str]) -> int:
    """Draws the traces, reads them twice, and tells what was in them."""
    if words[:1] == ["one"]:
        return show_one(words[1:])
    seed = int(words[0]) if words else 1
    many = int(words[1]) if len(words) > 1 else 1_000
    counts: "Counter[str]" = Counter()
    if len(words) > 2:
        same = all_same(seed, many, words[2], counts)
    else:
        same = try_cases([case for number in range(many) for case in drawn_cases(seed, number, counts)]) == 0
    print(", ".join(f"{count} {word}" for word, count in sorted(counts.items())))
    few = too_few(counts, many)
    if few:
        print(f"too few: {', '.join(f'{counts[name]} {name}' for name in few)}")
    print(f"{many} traces of seed {seed}: {'the readings agree' if same else 'the readings differ'}")
    return 0 if same and not few else 1


if __name__ == "__main__":
    here = [os.path.abspath(word) if word.endswith("yds_trace") else word for word in sys.argv[1:]]
    os.chdir(Path(__file__).resolve().parent.parent)
    sys.exit(main(here))
