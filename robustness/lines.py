"""lines.py: draws lines of kernel traces, and holds what the proved reader says of them against a second reading.

    python3 robustness/lines.py [SEED] [LINES]

It draws LINES lines (10,000) of each of five formats: the kernel's `trace` file, trace-cmd's short and raw ones, perf
script's and Perfetto's export. One line in four has a mistake planted: cut, a byte changed, left out or put in, a
number made too great. The second reading is below, by regular expressions, from docs/definitions.md and the
definitions in crates/yds_kernel/specs; it shares no code with the crates. A small program over the crates
`yds_kernel` and `yds_kernel_text` writes what they say, and `rt try` builds it, unproved, and compares. The last line
tells how many lines of each kind there were. The status is 1 where a reading differs.
"""

import random
import re
import shutil
import subprocess
import sys
import tempfile
from collections import Counter
from pathlib import Path
from typing import Callable, Dict, Iterator, List, Optional, Pattern, Tuple

MOST = 4_294_967_295
LONGEST = 65_536
PART = 5_000

PROGRAM = '''//! Writes what each line of standard input says, as a line of a trace.
#![tactic(auto)]

use std::alloc::Global;
use std::io::{BufWriter, Write};
use yds_kernel::{Happening, Said, Thread};
use yds_kernel_text::{Advance, TraceReader};
use yds_port::StdSource;

fn main(rt: HostRuntime) -> Result<(), anyhow::Error> {
    let mut source = StdSource::new(rt.stdin());
    let mut reader = TraceReader::new(rt.alloc())?;
    let mut out = BufWriter::with_capacity(rt.alloc(), 65_536, rt.stdout())?;
    for _ in 0..10_000_000 {
        match reader.advance(&mut source) {
            Advance::Line => {
                let text = told(rt.alloc(), &reader)?;
                out.write_all(&text)?;
            }
            Advance::End => break,
            Advance::Failed | Advance::TooLong => out.write_all(b"failed\\n".as_slice())?,
        }
    }
    out.flush()?;
    Ok(())
}

fn told(alloc: Global, reader: &TraceReader) -> Result<Vec<u8>, anyhow::Error> {
    let number = reader.number();
    let mut text = Vec::new(alloc);
    match reader.said() {
        Ok(Said::Nothing) => add(&mut text, format!(in alloc; "{number} nothing")?)?,
        Ok(Said::Lost { processor, since }) => {
            add(&mut text, format!(in alloc; "{number} lost {processor} {since:?}")?)?
        }
        Err(fault) => add(&mut text, format!(in alloc; "{number} fault {} {:?}", fault.column, fault.reason)?)?,
        Ok(Said::Event(event)) => {
            add(&mut text, format!(in alloc; "{number} event {} {} ", event.processor, event.time)?)?;
            match event.happening {
                Happening::Switch { previous, state, next } => {
                    add(&mut text, format!(in alloc; "switch {state:?} ")?)?;
                    add_thread(alloc, &mut text, previous)?;
                    add_thread(alloc, &mut text, next)?;
                }
                Happening::WakeUp { thread, starts } => {
                    if starts {
                        add(&mut text, format!(in alloc; "waking ")?)?;
                    } else {
                        add(&mut text, format!(in alloc; "woken ")?)?;
                    }
                    add_thread(alloc, &mut text, thread)?;
                }
                Happening::Speed { processor, khz } => {
                    add(&mut text, format!(in alloc; "speed {processor} {khz}")?)?
                }
                Happening::Loss => add(&mut text, format!(in alloc; "loss")?)?,
                Happening::Marker => add(&mut text, format!(in alloc; "marker")?)?,
                Happening::Other => add(&mut text, format!(in alloc; "other")?)?,
            }
        }
    }
    text.push(b'\\n')?;
    Ok(text)
}

fn add(text: &mut Vec<u8>, more: String) -> Result<(), anyhow::Error> {
    text.extend_from_slice(more.as_bytes())?;
    Ok(())
}

fn add_thread(alloc: Global, text: &mut Vec<u8>, thread: Thread<'_>) -> Result<(), anyhow::Error> {
    add(text, format!(in alloc; "{}/{}:", thread.pid, thread.name.len())?)?;
    text.extend_from_slice(thread.name)?;
    text.push(b';')?;
    Ok(())
}
'''

# # The second reading

TIMED = rb"([0-9]+)\.([0-9]+):[ \t]+((?:[A-Za-z0-9_:]*:|PERF_RECORD_LOST))(?![^ \t])"
STAMP = re.compile(rb"\[([0-9]+)\][ \t]+(?:" + TIMED + rb"|[^ \t]+[ \t]+" + TIMED + rb")", re.DOTALL)
LEAVES = re.compile(rb" prev_pid=([0-9]+) prev_prio=-?[0-9]+ prev_state=([^ \t]+)(?: ==>)? next_comm=", re.DOTALL)
COMES = re.compile(rb" next_pid=([0-9]+) next_prio=-?[0-9]+[ \t]*\Z")
WAKES = re.compile(rb" pid=([0-9]+) prio=")
SHORT_LEAVES = re.compile(rb":([0-9]+) \[-?[0-9]+\] ([^ \t]+) ==> ", re.DOTALL)
SHORT_COMES = re.compile(rb":([0-9]+) \[-?[0-9]+\][ \t]*\Z")
SHORT_WAKES = re.compile(rb":([0-9]+) \[-?[0-9]+\]")
SPEED = re.compile(rb"state=([0-9]+)[ \t]+cpu_id=([0-9]+)[ \t]*\Z")
DROPPED = re.compile(rb"[ \t]*CPU:([0-9]+) \[(?:LOST )?(?:[0-9]+ ?)?EVENTS(?:\]| DROPPED\])")
STARTED = re.compile(rb"#+ CPU ([0-9]+) buffer started #")
OPENS = re.compile(rb"\[[0-9]*(?:\]|\Z)")
STATE = re.compile(rb"(?:[RDSTtXxZPIWKN][A-Za-z|+]*|0|1|2|4|8|16|32|64|128|256)\Z")
EXITS = re.compile(rb"(?:[XZx].*|16|32)\Z", re.DOTALL)
GOES_ON = re.compile(rb"(?:[RDTt].*|.*\+|0|2|4|8|256)\Z", re.DOTALL)


Named = Tuple[bytes, "re.Match[bytes]"]


def all_named(pattern: Pattern[bytes], names: bytes) -> Iterator[Named]:
    """The name before each mark whose number is within the limit, and the mark."""
    mark = pattern.search(names)
    while mark is not None:
        if int(mark[1]) <= MOST:
            yield names[: mark.start()], mark
        mark = pattern.search(names, mark.start() + 1)


def named(pattern: Pattern[bytes], names: bytes) -> Optional[Named]:
    """The name before the first such mark."""
    return next(all_named(pattern, names), None)


def last_named(pattern: Pattern[bytes], names: bytes) -> Optional[Named]:
    """The name before the last such mark: behind it no other name stands."""
    return next(reversed(list(all_named(pattern, names))), None)


def thread(name: bytes, mark: "re.Match[bytes]") -> bytes:
    """A thread as the program writes it."""
    return b"%d/%d:%s;" % (int(mark[1]), len(name), name)


def switch(text: bytes) -> Optional[bytes]:
    """What a switch's text says."""
    plain = text.startswith(b"prev_comm=")
    first = named(LEAVES, text[10:]) if plain else named(SHORT_LEAVES, text)
    if first is None:
        return None
    name, mark = first
    second = named(COMES if plain else SHORT_COMES, mark.string[mark.end() :])
    if second is None:
        return None
    return b"switch %s %s%s" % (state_of(mark[2]), thread(name, mark), thread(*second))


def state_of(text: bytes) -> bytes:
    """What a thread's state means for its job."""
    if not STATE.match(text):
        return b"Unknown"
    return b"Exits" if EXITS.match(text) else b"GoesOn" if GOES_ON.match(text) else b"Sleeps"


def who_wakes(text: bytes) -> Optional[bytes]:
    """Whom a wake-up's text names."""
    plain = text.startswith(b"comm=")
    found = last_named(WAKES, text[5:]) if plain else last_named(SHORT_WAKES, text)
    return None if found is None else thread(*found)


def waking(text: bytes) -> Optional[bytes]:
    """What the text of a wake-up that starts says."""
    who = who_wakes(text)
    return None if who is None else b"waking " + who


def woken(text: bytes) -> Optional[bytes]:
    """What the text of a wake-up that was done says."""
    who = who_wakes(text)
    return None if who is None else b"woken " + who


def speed(text: bytes) -> Optional[bytes]:
    """What a speed's text says."""
    found = SPEED.match(text)
    if found is None or int(found[1]) > MOST or int(found[2]) > MOST:
        return None
    return b"speed %d %d" % (int(found[2]), int(found[1]))


READ: Dict[bytes, Tuple[bytes, Callable[[bytes], Optional[bytes]]]] = {
    b"sched_switch:": (b"UnknownSwitch", switch),
    b"sched_waking:": (b"UnknownWakeUp", waking),
    b"sched_wakeup:": (b"UnknownWakeUp", woken),
    b"sched_wakeup_new:": (b"UnknownWakeUp", woken),
    b"cpu_frequency:": (b"UnknownSpeed", speed),
    b"PERF_RECORD_LOST": (b"", lambda text: b"loss"),
}
MARKERS = (b"tracing_mark_write:", b"print:", b"bprint:")


def word_of(stamp: "re.Match[bytes]") -> bytes:
    """The event's name, which has a colon at its end."""
    return stamp[4] if stamp[4] is not None else stamp[7]


def kind(word: bytes) -> bytes:
    """The event's name without the system that perf writes before it."""
    return re.sub(rb"\A(?:sched:|power:|ftrace:)", b"", word)


def event(line: bytes, stamp: "re.Match[bytes]") -> bytes:
    """What a line with this stamp says."""
    group = 2 if stamp[2] is not None else 5
    seconds, fraction, word = stamp[group], stamp[group + 1], stamp[group + 2]
    here = stamp.start(group) + 1
    if int(stamp[1]) > MOST:
        return b"fault %d Processor" % here
    time = int(seconds) * 10**9 + int(fraction.ljust(9, b"0")[:9])
    if len(fraction) > 9 or time >= 2**64:
        return b"fault %d Time" % here
    text = line[stamp.end() :].lstrip(b" \t")
    plain = b"marker" if kind(word) in MARKERS else b"other"
    reason, read = READ.get(kind(word), (b"", lambda text: plain))
    happening = read(text)
    if happening is None:
        return b"fault %d %s" % (len(line) + 1 - len(text), reason)
    return b"event %d %d %s" % (int(stamp[1]), time, happening)


def loss(line: bytes) -> bytes:
    """What a line without a stamp says."""
    for pattern, since in ((DROPPED, b"ItsLastLine"), (STARTED, b"TheBegin")):
        found = pattern.match(line)
        if found is not None:
            return b"lost %d %s" % (int(found[1]), since) if int(found[1]) <= MOST else b"fault 1 Processor"
    return b"nothing"


def reading(line: bytes, ended: bool) -> bytes:
    """What a line says, which a line feed ends or doesn't."""
    if len(line) > LONGEST:
        stamp = STAMP.search(line[:LONGEST])
        if stamp is None:
            return b"nothing"
        return b"fault %d Long" % (LONGEST + 1) if kind(word_of(stamp)) in READ else b"nothing"
    stamp = STAMP.search(line)
    if not ended:
        half = stamp is not None and word_of(stamp) in (b"sched:", b"power:") and stamp.end() == len(line)
        if half or (stamp is None and OPENS.search(line)):
            return b"fault %d Cut" % (len(line) + 1)
    return loss(line) if stamp is None else event(line, stamp)


# # Drawn lines

NAMES = [b"decode", b"Web Content", b"swapper/0", b"a [001] 5.1: print:", b"x ==> y", b"a prev_pid=3", b"b:12 [9]",
         b"c pid=4", b"", b"x pid=100 prio=", b"y:7 [120]", b"kworker/3:1-events", b"n next_pid=7 next_prio=1", b"sched_switch:", b"[3]", b"tab\tname"]
STATES = b"S R R+ D D|K X X|K Z x X+ I I+ T T+ t t|K 0 1 2 4 8 16 32 64 128 256 3 Q S+ P W K N".split()
MARKED = b"note [000] d..2. 7.5: sched_switch: "


def number(draw: random.Random, most: int) -> bytes:
    """A number, seldom beyond its limit or with leading zeros."""
    if draw.random() < 0.02:
        return draw.choice([b"4294967295", b"4294967296", b"18446744073709551616", b"007", b"0"])
    return b"%d" % draw.randrange(most)


def switch_text(draw: random.Random, form: str) -> bytes:
    """The text of a switch."""
    first, second, state = draw.choice(NAMES), draw.choice(NAMES), draw.choice(STATES)
    one, two = number(draw, 99_999), number(draw, 99_999)
    if form == "short":
        return b"%s:%s [%d] %s ==> %s:%s [120]" % (first, one, draw.choice([-1, 98, 120]), state, second, two)
    arrow = b"" if form == "raw" else b" ==>"
    return b"prev_comm=%s prev_pid=%s prev_prio=120 prev_state=%s%s next_comm=%s next_pid=%s next_prio=%d" % (
        first, one, state, arrow, second, two, draw.choice([-1, 98, 120]))


def body(draw: random.Random, form: str) -> Tuple[bytes, bytes]:
    """The name of an event and its text."""
    drawn = draw.random()
    if drawn < 0.5:
        return b"sched_switch:", switch_text(draw, form)
    if drawn < 0.8:
        name = draw.choice([b"sched_waking:", b"sched_wakeup:", b"sched_wakeup_new:"])
        if form == "short":
            return name, b"%s:%s [120] CPU:001" % (draw.choice(NAMES), number(draw, 99_999))
        return name, b"comm=%s pid=%s prio=120 target_cpu=001" % (draw.choice(NAMES), number(draw, 99_999))
    if drawn < 0.9:
        return b"cpu_frequency:", b"state=%s cpu_id=%s" % (number(draw, 3_000_000), number(draw, 8))
    if drawn < 0.95:
        return draw.choice(MARKERS), MARKED + switch_text(draw, form)
    return draw.choice([b"irq_handler_entry:", b"sched:", b"PERF_RECORD_LOST", b"sched_stat_runtime:"]), b"lost 12"


def other_line(draw: random.Random) -> bytes:
    """A line without a stamp."""
    cpu = number(draw, 8)
    losses = [b"CPU:%s [LOST 12 EVENTS]", b"CPU:%s [LOST EVENTS]", b" CPU:%s [3 EVENTS DROPPED]"]
    others = [b"##### CPU %s buffer started ####", b"[%s] 5.", b"# tracer: nop %s", b"%s"]
    return draw.choice(losses + others) % cpu


def drawn_line(draw: random.Random, form: str) -> bytes:
    """A line of a format."""
    if draw.random() < 0.03:
        return other_line(draw)
    name, text = body(draw, form)
    who, cpu = draw.choice(NAMES), number(draw, 8).rjust(3, b"0")
    digits = draw.choice([6, 6, 9, 9, 1, 10])
    time = b"%s.%s" % (number(draw, 99_999), b"".join(b"%d" % draw.randrange(10) for _ in range(digits)))
    if form == "kernel":
        flags = draw.choice([b"d..2.", b".....", b"d.h3"])
        head = b"%16s-%-7s [%s] %s %s: " % (who, number(draw, 9_999), cpu, flags, time)
    elif form == "perf":
        head = b"%16s %5s [%s] %s: " % (who, number(draw, 9_999), cpu, time)
        name = draw.choice([b" sched:", b" power:", b""]) + name
    elif form == "perfetto":
        head = b"%s-%s (-----) [%s] d..3 %s: " % (who, number(draw, 9_999), cpu, time)
    else:
        head = b"%16s-%-5s [%s] %s: " % (who, number(draw, 9_999), cpu, time)
    return head + name + b" " + text


def spoilt(draw: random.Random, line: bytes) -> bytes:
    """The line with a mistake, perhaps."""
    if draw.random() < 0.75 or not line:
        return line
    at = draw.randrange(len(line))
    byte = bytes([draw.choice(b" \t[]:.=0123456789aR+>\r\x00\xff")])
    more = b" " * (70_000 if draw.random() < 0.05 else draw.randrange(3))
    put = [line[:at], line[:at] + byte + line[at + 1 :], line[:at] + line[at + 1 :], line[:at] + byte + line[at:]]
    return draw.choice(put + [line + more])


def without_return(line: bytes) -> bytes:
    """The line without a carriage return at its end."""
    return line[:-1] if line.endswith(b"\r") else line


def write_part(folder: Path, name: str, lines: List[bytes], ended: bool, counts: "Counter[str]") -> None:
    """One input of the program, and what it must write."""
    told: List[bytes] = []
    for index, line in enumerate(lines):
        says = reading(without_return(line), ended or index + 1 < len(lines))
        told.append(b"%d %s\n" % (index + 1, says))
        word = says.split(b" ")
        place = {b"fault": 2, b"event": 3}.get(word[0], 0)
        counts[word[place].decode()] += 1
    (folder / name).write_bytes(b"\n".join(lines) + (b"\n" if ended else b""))
    (folder / (name + ".stdout")).write_bytes(b"".join(told))


def try_program(top: Path, cases: Path) -> int:
    """Builds the program in a copy of the crates, and runs it on each case."""
    copy = top / "copy"
    needed = ["base", "yds_port", "yds_kernel", "yds_kernel_text"]
    for crate in needed:
        left = shutil.ignore_patterns("out", "edits")
        shutil.copytree(Path("crates") / crate, copy / "crates" / crate, ignore=left)
    lines = Path("crates.txt").read_text(encoding="utf-8").splitlines()
    listed = [line for line in lines if line.split(":")[0] in needed]
    listed.append("lines_said: yds_port yds_kernel yds_kernel_text anyhow")
    (copy / "crates.txt").write_text("\n".join(listed) + "\n", encoding="utf-8")
    source = copy / "crates" / "lines_said" / "src"
    source.mkdir(parents=True)
    (source / "main.rt").write_text(PROGRAM, encoding="utf-8")
    return subprocess.run(["rt", "try", "--cases", str(cases)], cwd=source.parent, check=False).returncode


def main(words: List[str]) -> int:
    """Draws the lines, reads them twice, and tells what was in them."""
    draw = random.Random(int(words[0]) if words else 1)
    many = int(words[1]) if len(words) > 1 else 10_000
    counts: "Counter[str]" = Counter()
    with tempfile.TemporaryDirectory() as folder:
        cases = Path(folder) / "cases"
        cases.mkdir()
        for form in ("kernel", "short", "raw", "perf", "perfetto"):
            for part in range(0, many, PART):
                lines = [spoilt(draw, drawn_line(draw, form)) for _ in range(min(PART, many - part))]
                ended = draw.random() < 0.5
                if not ended:
                    lines[-1] = b" " + lines[-1][: draw.randrange(60)]
                write_part(cases, f"{form}-{part}", lines, ended, counts)
        status = try_program(Path(folder), cases)
    print(", ".join(f"{count} {word}" for word, count in sorted(counts.items())))
    print("the readings agree" if status == 0 else "the readings differ")
    return 0 if status == 0 else 1


if __name__ == "__main__":
    sys.exit(main(sys.argv[1:]))
