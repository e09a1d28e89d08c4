"""Documents of tasks that share a processor, run by earliest deadline first, as a trace's document has them."""

import heapq
import random
from typing import List, Tuple

SPEEDS = (41, 60, 82, 101, 142)
POINTS = "point 0 0\npoint 41 28\npoint 60 41\npoint 82 59\npoint 101 86\npoint 142 179\n"
UNITS = "# time unit 10 us, speed unit 10000 kHz, power unit 1000 uW\n"


def names(count: int) -> List[str]:
    """Names of 15 characters."""
    return [f"{'render-decode-'[: 14 - len(str(place))]}-{place}"[:15].ljust(15, "x") for place in range(count)]


def document(jobs: int, tasks: int = 12, seed: int = 1, load: float = 0.9, others: bool = False) -> str:
    """So many jobs of so many tasks, with points, units, and runs at speeds that change now and then."""
    draw = random.Random(seed)
    periods = [draw.choice((500, 1000, 1667, 2000, 3333)) for _ in range(tasks)]
    rows: List[Tuple[int, int, str, int]] = []
    released = sorted((period * k, name, period, k) for name, period in zip(names(tasks), periods) for k in range(jobs))
    total = sum(1 / period for period in periods)
    for release, name, period, k in released[:jobs]:
        length = max(1, int(draw.expovariate(1) * load / total * 0.9))
        rows.append((release, release + period, f"{name}.{k}", min(length, period * 2)))
    lines, runs = [], []
    waiting: List[Tuple[int, int, str, int]] = []
    time, place, speed = 0, 0, SPEEDS[2]
    work = {name: 0 for _, _, name, _ in rows}
    spans = []
    while waiting or place < len(rows):
        if not waiting and rows[place][0] > time:
            if others and draw.random() < 0.5:
                spans.append((draw.choice(("kworker/0:1-38", "Web Content-419", "rcu_sched-12")), time, rows[place][0]))
            time = rows[place][0]
        while place < len(rows) and rows[place][0] <= time:
            release, due, name, length = rows[place]
            heapq.heappush(waiting, (due, place, name, length))
            place += 1
        due, number, name, length = heapq.heappop(waiting)
        until = min(time + length, rows[place][0] if place < len(rows) else time + length)
        if draw.random() < 0.3:
            speed = draw.choice(SPEEDS)
        if until > time:
            runs.append(f"run {name} {time} {until} {speed}")
            work[name] += (until - time) * speed
        if until - time < length:
            heapq.heappush(waiting, (due, number, name, length - (until - time)))
        time = until
    lines += [f"job {name} {release} {due} {work[name]}" for release, due, name, _ in rows]
    told = [f"# other {name} {start} {end}" for name, start, end in spans]
    return "\n".join([UNITS + POINTS + "\n".join(lines), "ticks 1", *runs, *told]) + "\n"
