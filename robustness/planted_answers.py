"""planted_answers.py: plants mistakes in the second program of the answers, one at a time, and says whether drawn documents find them.

    python3 robustness/planted_answers.py [--documents N] [--seed S] [MISTAKE ..]     all mistakes without one
    python3 robustness/planted_answers.py --check                                     whether each mistake's text stands in its file

Each mistake is a small change of second_answers.py or of a part of it, as of who reads the definitions wrongly. The
changed program answers N documents (200) of seed S (1) by each form of command that the mistake names, those that
answers.py draws. A mistake is found where an answer differs from that of the second program as it is, or where there is
none. So these are mistakes that answers.py would see in yds_cli, too. The last line is 'N found, M not found'; the exit
status is 1 where M isn't 0.
"""

import argparse
import pickle
import shutil
import subprocess
import sys
import tempfile
from pathlib import Path
from typing import NamedTuple, Sequence

from drawn_documents import drawn
from second_answers import answer

HERE = Path(__file__).resolve().parent


class Mistake(NamedTuple):
    """A mistake: its name, the file, the forms of command, what stands there, just once, and what is put in its place."""

    name: str
    file: str
    forms: Sequence[str]
    old: str
    new: str


MISTAKES = [
    Mistake("ties_to_the_later_job", "second_schedules.py", ("plan", "avr", "oa", "admit", "round"),
            "key=lambda number: (self.jobs[number].deadline, number)",
            "key=lambda number: (self.jobs[number].deadline, -number)"),
    Mistake("levels_of_one_speed_apart", "second_schedules.py", ("plan", "report", "curve", "trial"),
            "if levels and levels[-1].speed == level.speed:",
            "if levels and levels[-1].speed < level.speed:"),
    Mistake("pieces_that_touch_stay_two", "second_schedules.py", ("plan",),
            "if found and found[-1].end == piece.begin:",
            "if found and found[-1].end > piece.begin:"),
    Mistake("ends_of_a_plan_in_lowest_terms", "second_schedules.py", ("plan",),
            "found.append(slot_of(one, speed.numerator, speed.denominator))",
            "found.append(Slot(one.job, over(one.begin, one.begin.denominator), over(one.end, one.end.denominator), over(one.work, speed.denominator)))"),
    Mistake("ends_of_a_run_over_all_units", "second_schedules.py", ("avr", "oa", "admit"),
            "units // gcd(units, one.stretch.end - one.stretch.begin), self.grid))",
            "units, self.grid))"),
    Mistake("average_rate_rounds_down", "second_schedules.py", ("avr",),
            "return Wish(sum(map(ceil, parts)),",
            "return Wish(int(sum(parts)),"),
    Mistake("average_rate_counts_the_sum_of_its_parts", "second_schedules.py", ("avr", "compare"),
            "any(part.denominator > 1 for part in parts)",
            "sum(parts, Fraction(0)).denominator > 1"),
    Mistake("optimal_available_by_the_last_deadline", "second_schedules.py", ("oa",),
            "asked = max(asked, grid * work * (stretch.end - stretch.begin) / Fraction(due - stretch.begin))",
            "asked = max(asked, grid * work * (stretch.end - stretch.begin) / Fraction(max(run.jobs[number].deadline for number in pending) - stretch.begin))"),
    Mistake("the_slower_point_first", "second_schedules.py", ("round",),
            "for point, until in ((self.high, self.switch), (self.low, Fraction(self.stretch.end))):",
            "for point, until in ((self.low, self.stretch.begin + self.stretch.end - self.switch), (self.high, Fraction(self.stretch.end))):"),
    Mistake("ends_of_a_split_over_the_product", "second_schedules.py", ("round",),
            "self.speed.denominator * lcm(point.speed, gap)",
            "self.speed.denominator * point.speed * gap"),
    Mistake("a_point_on_the_line_left_out", "second_documents.py", ("round", "compare"),
            "> (high.power - low.power) * (point.speed - low.speed)",
            ">= (high.power - low.power) * (point.speed - low.speed)"),
    Mistake("neighbours_among_all_points", "second_schedules.py", ("round",),
            "    hull = hull_of(points)\n    for stretch",
            "    hull = points\n    for stretch"),
    Mistake("idle_time_costs_nothing", "second_schedules.py", ("round",),
            "return energy + idle * points[0].power",
            "return energy"),
    Mistake("refused_jobs_compete_on", "second_schedules.py", ("admit",),
            "competing = [jobs[each] for each in [*taken, number]]",
            "competing = jobs[: number + 1]"),
    Mistake("the_interval_that_ends_last", "second_schedules.py", ("admit",),
            "for end in sorted({job.deadline for job in jobs if job.deadline > begin}):",
            "for end in sorted({job.deadline for job in jobs if job.deadline > begin}, reverse=True):"),
    Mistake("slots_that_touch_overlap", "second_verdicts.py", ("audit",),
            "slot.begin.value < before.end.value",
            "slot.begin.value <= before.end.value"),
    Mistake("late_before_early", "second_verdicts.py", ("audit", "audit --points", "check"),
            "if slot.begin.value < job.release:",
            "if slot.begin.value < job.release and slot.end.value <= job.deadline:"),
    Mistake("a_sum_in_lowest_terms", "second_verdicts.py", ("audit", "check"),
            "over(given, grain).text()",
            "over(given, given.denominator).text()"),
    Mistake("the_idle_point_is_no_speed", "second_verdicts.py", ("audit --points",),
            "[point.speed for point in table]",
            "[point.speed for point in table if point.speed]"),
    Mistake("a_job_without_work_a_member_twice", "second_verdicts.py", ("check",),
            "counts[number] > 1 or (job.work and not counts[number])",
            "(job.work and counts[number] != 1)"),
    Mistake("levels_of_one_speed_refused", "second_verdicts.py", ("check",),
            "if later.speed > one.speed",
            "if later.speed >= one.speed"),
    Mistake("the_last_earlier_piece_alone", "second_verdicts.py", ("check",),
            "one.end <= other.begin or other.end <= one.begin for one in pieces for other in earlier",
            "one.end <= other.begin or other.end <= one.begin for one in pieces for other in earlier[-1:]"),
    Mistake("windows_covered_by_later_levels", "second_verdicts.py", ("check",),
            "    for level in document.levels:\n        pieces += level.pieces\n        if number",
            "    for level in document.levels:\n        pieces += level.pieces\n    for level in document.levels:\n        if number"),
    Mistake("slower_levels_in_the_excess", "second_answers.py", ("curve",),
            "excess = sum((level.work - speed * level.length for level in levels if level.speed > speed), Fraction(0))",
            "excess = sum((level.work - speed * level.length for level in levels if level.speed > speed or level.speed < speed), Fraction(0))"),
    Mistake("the_last_stretch_that_is_too_fast", "second_schedules.py", ("compare",),
            "return next((stretch for stretch in stretches_of(jobs) if work_in",
            "return next((stretch for stretch in reversed(stretches_of(jobs)) if work_in"),
    Mistake("a_job_due_at_the_horizon_left_out", "second_documents.py", ("expand",),
            "return left // self.period + 1 if left >= 0 else 0",
            "return left // self.period + 1 if left > 0 else 0"),
    Mistake("one_level_without_work", "second_documents.py", ("expand",),
            "if any(task.work for task in self.tasks) and all",
            "if self.tasks and all"),
    Mistake("too_many_jobs_at_the_name", "second_documents.py", ("expand",),
            'period.column, "TooManyJobs"',
            'name.column, "TooManyJobs"'),
    Mistake("the_lower_half_of_the_state", "second_answers.py", ("trial",),
            "draws.append(state // 65536)",
            "draws.append(state % 65536)"),
    Mistake("a_refused_job_by_its_place_among_the_taken", "second_answers.py", ("admit",),
            'f"# refuse {document.name(one.job)} from',
            'f"# refuse {document.name(min(one.job, len(taken)))} from'),
    Mistake("a_level_told_in_lowest_terms", "second_answers.py", ("round", "compare"),
            "f\"too-slow work {levels[0].work} length {levels[0].length} top {top}\\n\"",
            "f\"too-slow work {levels[0].speed.numerator} length {levels[0].speed.denominator} top {top}\\n\""),
    Mistake("the_horizon_from_0_on", "second_schedules.py", ("report", "report --json", "round"),
            "return Piece(min((job.release for job in jobs), default=0), max",
            "return Piece(0, max"),
    Mistake("members_without_work", "second_schedules.py", ("plan",),
            "waiting = [number for number, job in enumerate(jobs) if job.work]",
            "waiting = [number for number, job in enumerate(jobs)]"),
    Mistake("no_event_points_of_jobs_without_work", "second_schedules.py", ("plan", "avr", "oa", "round"),
            "for job in jobs for time in (job.release, job.deadline)})",
            "for job in jobs for time in (job.release, job.deadline) if job.work})"),
    Mistake("a_grid_of_0", "second_answers.py", ("avr", "oa", "compare"),
            "number_in(words[2], 1, MOST_GRID), GRID",
            "number_in(words[2], 0, MOST_GRID), GRID"),
    Mistake("an_interval_just_full", "second_schedules.py", ("admit",),
            "if work > top * (end - begin):",
            "if work >= top * (end - begin):"),
    Mistake("a_missing_field_at_the_last_one", "second_documents.py", ("plan",),
            "fields[-1].column + len(fields[-1].text)",
            "fields[-1].column"),
    Mistake("a_carriage_return_kept", "second_documents.py", ("plan", "audit"),
            "line.removesuffix(b\"\\r\")",
            "line"),
    Mistake("mixed_ends_at_from", "second_documents.py", ("plan", "check", "audit", "audit --points"),
            'end.column, "MixedEnds"',
            'begin.column, "MixedEnds"'),
    Mistake("a_window_of_no_time", "second_documents.py", ("plan", "curve"),
            "job.release < job.deadline, deadline.column",
            "job.release <= job.deadline, deadline.column"),
    Mistake("a_run_in_lowest_terms", "second_documents.py", ("audit", "check"),
            "over(done, ticks)), speed.column)",
            "over(done, done.denominator)), speed.column)"),
    Mistake("the_grain_of_the_last_work_alone", "second_documents.py", ("audit", "check", "audit --points"),
            "earlier.add(slot.work.den)",
            "earlier.clear(); earlier.add(slot.work.den)"),
]

RUN = """
import pickle, sys
from second_answers import answer

def is_same(case):
    try:
        return answer(*case[:2]) == case[2:]
    except Exception:
        return False

print(sum(not is_same(case) for case in pickle.load(sys.stdin.buffer)))
"""
"""What the changed program is run by: it reads words, inputs and the right answers, and tells how many it answers otherwise."""


def planted(mistake: Mistake) -> str:
    """The text of the file with the mistake."""
    text = (HERE / mistake.file).read_text(encoding="utf-8")
    if text.count(mistake.old) != 1:
        raise SystemExit(f"planted_answers.py: {mistake.name}: its text stands {text.count(mistake.old)} times in {mistake.file}, not once")
    return text.replace(mistake.old, mistake.new)


def found_by(mistake: Mistake, cases: bytes) -> int:
    """How many of the cases the changed program answers otherwise."""
    with tempfile.TemporaryDirectory() as name:
        for file in HERE.glob("second_*.py"):
            shutil.copy(file, name)
        (Path(name) / mistake.file).write_text(planted(mistake), encoding="utf-8")
        done = subprocess.run([sys.executable, "-c", RUN], cwd=name, input=cases, stdout=subprocess.PIPE, check=True)
    return int(done.stdout)


def cases_of(form: str, seed: int, many: int) -> "list[tuple[list[bytes], bytes, str, int]]":
    """The drawn inputs of a form, with the right answers."""
    inputs = [drawn(form, seed, number) for number in range(many)]
    return [(*case, *answer(*case)) for case in inputs]


def main(words: Sequence[str]) -> int:
    """Plants each mistake. Gives the exit status."""
    parser = argparse.ArgumentParser(prog="planted_answers.py", allow_abbrev=False)
    parser.add_argument("mistakes", nargs="*", choices=[[], *(mistake.name for mistake in MISTAKES)], metavar="MISTAKE")
    parser.add_argument("--documents", type=int, default=200)
    parser.add_argument("--seed", type=int, default=1)
    parser.add_argument("--check", action="store_true")
    options = parser.parse_args(words)
    if options.check:
        print(f"{sum(bool(planted(mistake)) for mistake in MISTAKES)} passed, 0 failed")
        return 0
    chosen = [mistake for mistake in MISTAKES if not options.mistakes or mistake.name in options.mistakes]
    drawn_by = {form: cases_of(form, options.seed, options.documents) for form in {form for mistake in chosen for form in mistake.forms}}
    found = 0
    for mistake in chosen:
        cases = [case for form in mistake.forms for case in drawn_by[form]]
        wrong = found_by(mistake, pickle.dumps(cases))
        found += wrong > 0
        print(f"{mistake.name}: {f'found by {wrong} of {len(cases)} answers' if wrong else 'NOT FOUND'}", flush=True)
    print(f"{found} found, {len(chosen) - found} not found")
    return int(found < len(chosen))


if __name__ == "__main__":
    sys.exit(main(sys.argv[1:]))
