"""machine.py: a machine of several processors that runs periodic threads by chance and writes its trace, for long.py and everywhere.py."""

import heapq
import random
from typing import Dict, List, Optional, Tuple

NAMES = ["decode", "audio", "ui", "net", "log", "gpu"]
KHZ = [600_000, 1_000_000, 2_000_000]
STRANGERS = [("kworker/0:1", 900), ("rcu_preempt", 901), ("x y=z", 902), ("kworker/0:2", 900)]
"""Threads that are no tasks. The last one is the first under another name."""


class Task:
    """A periodic thread. Times are nanoseconds."""

    def __init__(self, number: int, period: int, share: float, factor: float, home: int = 0) -> None:
        self.name, self.pid, self.period = NAMES[number], 10 + number, period
        self.busy, self.deadline, self.apart = int(period * share), int(period * factor), 0
        self.home = self.place = home
        self.left = self.due = self.begun = 0
        self.starves = self.hangs = self.naps = self.is_over = False

    def is_ready(self, processor: int) -> bool:
        """Whether it would run on this processor."""
        return self.left > 0 and self.place == processor and not self.starves and not self.naps


class Machine:
    """Processors that run these tasks, each the one that is due first before all others of its own; further ones write lines."""

    def __init__(self, draw: random.Random, tasks: List[Task], processors: int = 2) -> None:
        self.draw, self.tasks = draw, tasks
        self.time = 50 * 10**9 + draw.randrange(10**9)
        self.on: List[Optional[Task]] = [None] * processors
        self.places = list(range(processors))
        self.noisy = [1, 2]
        self.lines: List[bytes] = []
        self.wakes = True
        self.burst = 3
        self.odds: Dict[str, float] = {}
        self.events: List[Tuple[int, int, bool]] = [(self.time + 10_000 * (number + 1), number, True) for number in range(len(tasks))]
        heapq.heapify(self.events)
        for processor in range(processors):
            self.write(0, "cpu_frequency", f"state=1000000 cpu_id={processor}")

    def write(self, processor: int, event: str, text: str) -> None:
        """A line."""
        stamp = f"{self.time // 10**9}.{self.time % 10**9:09d}"
        self.lines.append(f" w-5 [{processor:03d}] d..2. {stamp}: {event}: {text}".encode())

    def chance(self, what: str) -> bool:
        """Whether this happens now."""
        odds = self.odds.get(what, 0.0)
        return odds > 0 and self.draw.random() < odds

    def turn(self, processor: int, state: str, after: Optional[Task]) -> None:
        """A processor goes to another thread."""
        before = self.on[processor]
        one = (f"swapper/{processor}", 0) if before is None else (before.name, before.pid)
        two = (f"swapper/{processor}", 0) if after is None else (after.name, after.pid)
        self.on[processor] = after
        self.tell(processor, one, state, two)

    def tell(self, processor: int, one: Tuple[str, int], state: str, two: Tuple[str, int]) -> None:
        """A line of a switch, if it isn't missing."""
        if not self.chance("missing"):
            self.write(processor, "sched_switch", f"prev_comm={one[0]} prev_pid={one[1]} prev_prio=120 prev_state={state} ==>"
                                                  f" next_comm={two[0]} next_pid={two[1]} next_prio=98")

    def dispatch(self, processor: int, state: str = "R") -> None:
        """The ready thread that is due first gets the processor."""
        ready = [task for task in self.tasks if task.is_ready(processor)]
        best = min(ready, key=lambda task: (task.due, task.pid), default=None)
        if best is not self.on[processor]:
            self.turn(processor, state, best)

    def wake(self, task: Task) -> None:
        """A thread is woken: that starts, or was done, or both are told."""
        halves = self.draw.choice([["sched_wakeup"], ["sched_waking", "sched_wakeup"]]) if self.chance("halves") else ["sched_waking"]
        for half in halves if self.wakes and not self.chance("unwoken") else []:
            self.tell_wake(task, half)

    def tell_wake(self, task: Task, half: str) -> None:
        """A line of one half of a wake-up."""
        self.write(task.home, half, f"comm={task.name} pid={task.pid} prio=120 target_cpu={task.place:03d}")

    def release(self, task: Task) -> None:
        """A period begins."""
        if task.is_over:
            return
        if task.left == 0 and task.naps is False:
            task.place = self.draw.choice(self.places) if self.chance("roam") else task.home
            self.begin(task)
            if self.chance("overrun"):
                task.left = int(task.period * self.draw.choice([1.0, 1.5, 2.5]))
            if self.chance("short"):
                task.left = self.draw.choice([1_000, 4_000, 12_000])
            self.wake(task)
        elif self.chance("rewoken"):
            self.wake(task)
        self.dispatch(task.place)

    def begin(self, task: Task) -> None:
        """A job begins."""
        task.left = max(1_000, int(task.busy * self.draw.choice([0.2, 0.8, 1.0, 1.0])))
        task.begun, task.due = self.time, self.time + task.deadline

    def next_period(self, number: int) -> None:
        """When it comes."""
        jitter = self.draw.choice([0, 0, 0, 1_000, 30_000]) if self.chance("jitter") else 0
        heapq.heappush(self.events, (self.time + self.tasks[number].period + jitter, number, True))

    def rouse(self, task: Task) -> None:
        """It is woken from a nap."""
        task.naps = False
        self.wake(task)
        self.dispatch(task.place)

    def step(self) -> None:
        """To the next event."""
        at, number, is_release = self.events[0]
        running = [(task.left, processor) for processor, task in enumerate(self.on) if task is not None and not task.hangs]
        left, processor = min(running, default=(at - self.time + 1, 0))
        ends = self.time + left
        if self.chance("noise"):
            self.write(self.draw.choice(self.noisy), "irq_handler_entry", "irq=1 name=x")
        if self.happens(min(at, ends)):
            return
        if ends <= at:
            self.pass_by(left)
            self.end(processor)
            return
        self.pass_by(max(0, at - self.time))
        heapq.heappop(self.events)
        if is_release:
            self.next_period(number)
            self.release(self.tasks[number])
        else:
            self.rouse(self.tasks[number])

    def end(self, processor: int) -> None:
        """The job of a processor ends."""
        task = self.on[processor]
        if task is not None:
            task.left = 0
            if self.chance("race"):
                self.race(processor, task)
                return
            if self.chance("exit"):
                task.is_over = not self.chance("again")
                self.dispatch(processor, self.draw.choice(["X", "Z", "x"]))
                return
        self.dispatch(processor, self.draw.choice(["S", "S", "S", "I"]))

    def race(self, processor: int, task: Task) -> None:
        """A thread is woken as it goes to sleep: it leaves all the same, and the second half of the wake-up is told behind that, or isn't."""
        self.tell_wake(task, "sched_waking")
        time = self.time
        self.pass_by(self.draw.choice([0, 1_000, 3_000]))
        self.dispatch(processor, "S")
        self.begin(task)
        task.begun, task.due = time, time + task.deadline
        if self.chance("second half"):
            self.pass_by(self.draw.choice([0, 1_000]))
            self.tell_wake(task, "sched_wakeup")
        self.dispatch(task.place)

    def pass_by(self, time: int) -> None:
        """Some time passes, and what has a processor runs."""
        self.time += time
        for task in self.on:
            if task is not None and not task.hangs:
                task.left = max(0, task.left - time)

    def happens(self, until: int) -> bool:
        """Whether something happens to a running thread before this time."""
        busy = [processor for processor, task in enumerate(self.on) if task is not None]
        if not busy or until - self.time <= 20_000:
            return False
        ways = {"speed": self.change_speed, "sleep": self.sleep, "signal": self.come_back, "stop": self.stop, "nap": self.nap, "move": self.move,
                "others": self.intrude}
        way = next((way for what, way in ways.items() if self.chance(what)), None)
        if way is None:
            return False
        self.pass_by((until - self.time) // 3)
        processor = self.draw.choice(busy)
        task = self.on[processor]
        if task is not None:
            way(processor, task)
        return True

    def change_speed(self, processor: int, _: Task) -> None:
        """A processor has another speed."""
        self.write(processor, "cpu_frequency", f"state={self.draw.choice(KHZ)} cpu_id={processor}")

    def sleep(self, processor: int, task: Task) -> None:
        """A thread sleeps for some microseconds."""
        self.turn(processor, "D" if task.hangs else self.draw.choice(["S", "D"]), None)
        self.pass_by(2_000)
        self.wake(task)
        self.pass_by(2_000)
        self.turn(processor, "R", task)

    def come_back(self, processor: int, task: Task) -> None:
        """A thread leaves to sleep, and comes without a wake-up: a signal is pending."""
        self.turn(processor, "D" if task.hangs else "S", None)
        self.pass_by(2_000)
        self.turn(processor, "R", task)

    def stop(self, processor: int, task: Task) -> None:
        """A thread is stopped or traced for some microseconds."""
        self.turn(processor, self.draw.choice(["T", "t"]), None)
        self.pass_by(self.draw.choice([2_000, 90_000]))
        self.wake(task)
        self.turn(processor, "R", task)

    def intrude(self, processor: int, task: Task) -> None:
        """Other threads take the processor for a while, one after another."""
        before, state = (task.name, task.pid), "R"
        self.on[processor] = None
        for _ in range(self.draw.choice([1, 1, 2, self.burst])):
            other = self.draw.choice(STRANGERS)
            if other != before:
                self.tell(processor, before, state, other)
            self.pass_by(self.draw.choice([0, 500, 3_000, 12_000]))
            before, state = other, self.draw.choice(["R", "S"])
        self.tell(processor, before, state, (task.name, task.pid))
        self.on[processor] = task

    def nap(self, processor: int, task: Task) -> None:
        """A thread sleeps in its job, and is woken before APART is over, or just behind."""
        if task.hangs or task.apart == 0:
            return
        task.naps = True
        rest = max(0, task.begun + task.apart - self.time)
        until = self.time + int(rest * self.draw.choice([0.1, 0.5, 0.9, 0.99, 1.0, 1.01]))
        heapq.heappush(self.events, (until, self.tasks.index(task), False))
        self.dispatch(processor, "S")

    def move(self, processor: int, task: Task) -> None:
        """A thread goes to another processor."""
        task.place = self.draw.choice([place for place in self.places if place != processor] or [processor])
        self.dispatch(processor)
        self.dispatch(task.place)

    def run(self, lines: int) -> None:
        """Until there are so many lines."""
        while len(self.lines) < lines:
            self.step()
