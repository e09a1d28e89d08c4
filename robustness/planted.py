"""planted.py: plants mistakes in yds_trace, one at a time, and says whether the drawn traces of trace.py find them.

    python3 robustness/planted.py [--traces N] [--seed S] [--jobs J] [MISTAKE ..]     all mistakes without one
    python3 robustness/planted.py --check                                             whether each mistake's text stands in its file

Each mistake is a small change of a crate, of the kind that a programmer makes. The crates are copied into a folder of
their own, changed there, and built unproved by `rt try`: the prover would refuse each. Then the program answers N drawn
traces (480) of seed S (1), which the second reading of trace.py answers too. For a mistake in parts these are N/4 of
long.py, and for one of several processors N/4 of everywhere.py, 32 times shorter than their own, and the crates get
limits of parts that are smaller, too: so each trace has several parts. A mistake is found where an answer differs. J
mistakes are tried side by side (1). The last line is 'N found, M not found'; the exit status is 1 where M isn't 0.
"""

import argparse
import os
import sys
import tempfile
from collections import Counter
from concurrent.futures import ThreadPoolExecutor
from pathlib import Path
from typing import List, NamedTuple, Sequence, Tuple

import everywhere
import long
from parted import SMALL, told_in_parts
from second import asked_by
from trace import Case, drawn_cases, lay_out, shorten, try_laid_out


class Mistake(NamedTuple):
    """A mistake: its name, the file, what stands there, just once, with what is put in its place, and what the traces are asked for that
    find it: `one` document, `parts`, or `all` processors."""

    name: str
    file: str
    edits: Tuple[Tuple[str, str], ...]
    asked: str = "one"


MISTAKES = [
    Mistake("a_marker_read_as_a_switch", "yds_kernel/src/kind.rt", (
        ('if name == b"sched_switch:".as_slice() {', 'if name == b"sched_switch:".as_slice() || is_marker(name) {'),)),
    Mistake("a_wait_for_a_disk_taken_for_a_sleep", "yds_kernel/src/state.rt", (("                || *first == b'D'\n", ""),)),
    Mistake("new_threads_not_woken", "yds_kernel/src/kind.rt", (
        (' || name == b"sched_wakeup_new:".as_slice()\n', "\n"),)),
    Mistake("a_fraction_without_its_places", "yds_kernel/src/find.rt", (
        ("        6 => parts * 1_000,", "        6 => parts,"),)),
    Mistake("a_last_line_cut_short_passed_over", "yds_kernel/src/read.rt", (
        ("bytes.len() <= MAX_LINE && ends_in_stamp(bytes)", "bytes.is_empty() && ends_in_stamp(bytes)"),)),
    Mistake("a_late_buffer_taken_for_a_gap", "yds_kernel/src/read.rt", (
        ("lost_on(processor, Since::TheBegin)", "lost_on(processor, Since::ItsLastLine)"),)),
    Mistake("a_loss_passed_over", "yds_trace/src/counted.rt", (
        ("        lose_each(&mut self.tasks, time);\n        self.past.lose();", "        let _ = time;\n        self.past.lose();"),)),
    Mistake("the_new_speed_for_the_stretch_before_it", "yds_trace/src/counted.rt", (
        ("Happening::Speed { processor, .. } => Step::Speed {", "Happening::Speed { processor, khz } => Step::Speed {"),
        ("                khz: self.past.speed(processor),\n", "                khz: Some(khz),\n"))),
    Mistake("apart_with_its_end", "yds_trace/src/jobs.rt", (("Some(end) => time < end,", "Some(end) => time <= end,"),)),
    Mistake("a_listed_speed_for_all_processors", "yds_trace/src/past.rt", (
        ("Ok(Past::begun(alloc, None, None, first_told", "Ok(Past::begun(alloc, speeds.first().map(|speed| speed.khz), None, first_told"),)),
    Mistake("a_first_switch_forgotten", "yds_trace/src/past.rt", (
        ("                    switched: Some(event.time),\n", "                    switched: before.switched,\n"),)),
    Mistake("to_without_its_own_time", "yds_trace/src/within.rt", (("Some(to) => time <= to,", "Some(to) => time < to,"),)),
    Mistake("a_loss_at_the_end_not_counted", "yds_trace/src/tally.rt", (
        ("        count_if(behind_loss, &mut tally.losses);", "        count_if(behind_loss && !behind_loss, &mut tally.losses);"),)),
    Mistake("a_missing_switch_of_a_task_counted", "yds_trace/src/tally.rt", (
        ("Some(pid) => pid != first.pid && first.number.is_none(),", "Some(pid) => pid != first.pid,"),)),
    Mistake("a_marker_behind_to_counted", "yds_trace/src/tally.rt", (("Happening::Marker => is_asked_for(from, to, event.time),", "Happening::Marker => is_after_from(from, event.time),"),)),
    Mistake("a_pause_of_just_a_second_told", "yds_trace_text/src/tally.rt", (("    pause.lasted > SECOND", "    pause.lasted >= SECOND"),)),
    Mistake("a_missing_switch_passed_over", "yds_trace/src/known.rt", (
        ("        mark_last(&mut self.jobs);\n        Ok(())\n", "        Ok(())\n"),)),
    Mistake("a_wake_up_counted_twice", "yds_trace/src/job.rt", (("        if !again {\n", "        if again || !again {\n"),)),
    Mistake("late_at_its_deadline", "yds_trace_document/src/judge.rt", (("&& (deadline < until ||", "&& (deadline <= until ||"),)),
    Mistake("open_at_its_deadline_in_time", "yds_trace_document/src/judge.rt", (
        ("|| (deadline == until && is_open(end)))", "|| (deadline < until && is_open(end)))"),)),
    Mistake("an_end_at_from_judged", "yds_trace_document/src/judge.rt", (
        ("from < shown && deadline <= last", "from <= shown && deadline <= last"),)),
    Mistake("due_before_from_not_judged", "yds_trace_document/src/judge.rt", (
        ("from < shown && deadline <= last", "from < shown && from < deadline && deadline <= last"),)),
    Mistake("moves_to_greater_processors_passed_over", "yds_trace_document/src/judge.rt", (
        (".any(|stretch| stretch.processor != processor)", ".any(|stretch| stretch.processor < processor)"),)),
    Mistake("times_rounded_up", "yds_trace_document/src/units.rt", (
        ("time.saturating_sub(self.zero) / self.time", "time.saturating_sub(self.zero).div_ceil(self.time)"),)),
    Mistake("a_hidden_late_job_not_owed", "yds_trace_document/src/written.rt", (
        ("is_open(end) || (due < written_end(units, end) && runs_end(runs) <= due)",
         "is_open(end) || (due < written_end(units, end) && runs_end(runs) < due)"),)),
    Mistake("runs_joined_at_two_speeds", "yds_trace_document/src/run.rt", (
        ("if run.to == next.from && run.speed == next.speed {", "if run.to == next.from {"),)),
    Mistake("numbers_behind_the_job_before", "yds_trace_document/src/name.rt", (
        ('put_number(b".", self.number - 1, &mut text)?;', 'put_number(b".", self.number, &mut text)?;'),)),
    Mistake("jobs_in_order_of_deadlines", "yds_trace_document/src/settlement.rt", (
        ("all.sort_by_key(|judged| judged.job.begin)?;", "all.sort_by_key(|judged| judged.due)?;"),)),
    Mistake("the_least_frequent_reason_first", "yds_trace_text/src/left_out.rt", (
        ("groups.sort_by_key(|group| MAX_U64.saturating_sub(group.count))?;", "groups.sort_by_key(|group| group.count)?;"),)),
    Mistake("milliseconds_without_their_places", "yds_trace_words/src/decimal.rt", (
        ("value_of(text) * 10_u64.pow((places - text.len()) as u32)", "value_of(text)"),)),
    Mistake("settled_without_apart", "yds_trace_parts/src/place.rt", (
        ("        && begin <= shown.last\n        && apart_of(asked, judged.task) <= shown.last - begin\n", "        && begin <= shown.last\n"),), "parts"),
    Mistake("an_open_job_taken_for_over", "yds_trace_parts/src/place.rt", (("        End::Open => false,\n", "        End::Open => true,\n"),), "parts"),
    Mistake("a_job_with_a_lost_end_over_before_it_is_due", "yds_trace_parts/src/place.rt", (
        ("        End::Lost(since) => since < last && due <= last,\n", "        End::Lost(since) => since < last,\n"),), "parts"),
    Mistake("a_place_before_a_run_is_over", "yds_trace_parts/src/place.rt", (
        ("        End::Ended(end) => Some(end),\n", "        End::Ended(end) => Some(end / 2),\n"),), "parts"),
    Mistake("a_quiet_place_before_a_closed_one", "yds_trace_parts/src/place.rt", (
        ("    places.closed.or(places.quiet)\n", "    places.quiet.or(places.closed)\n"),), "parts"),
    Mistake("the_boundary_moved_too_far", "yds_trace_parts/src/part.rt", (("        boundary: time,\n", "        boundary: last,\n"),), "parts"),
    Mistake("decided_at_the_place", "yds_trace_parts/src/part.rt", (("        decided: last,\n", "        decided: time,\n"),), "parts"),
    Mistake("jobs_behind_the_place_in_the_part", "yds_trace_parts/src/part.rt", (
        ("settle_part(alloc, asked, shown.first, waiting, Some(time))?;", "settle_part(alloc, asked, shown.first, waiting, None)?;"),), "parts"),
    Mistake("jobs_that_are_left_out_counted", "yds_trace_parts/src/part.rt", (
        ("cut.jobs.saturating_add(written(part))", "cut.jobs.saturating_add(part.len() as u64)"),), "parts"),
    Mistake("windows_of_the_part_before_forgotten", "yds_trace_parts/src/part.rt", (
        ("        due: greatest_due(cut.due, part),\n", "        due: cut.due,\n"),), "parts"),
    Mistake("stretches_that_wait_not_counted", "yds_trace_parts/src/telling.rt", (
        (" && amount.stretches <= PART_STRETCHES", ""),), "parts"),
    Mistake("the_shift_not_told", "yds_trace_document/src/part.rt", (("    Ok(Part { settled, shift })\n", "    Ok(Part { settled, shift: 0 })\n"),), "parts"),
    Mistake("the_shift_not_taken_off", "yds_trace_document/src/part.rt", (
        ("        zero: zero + shift * asked.unit,\n", "        zero,\n"),), "parts"),
    Mistake("a_loss_behind_a_part_passed_over", "yds_trace/src/check.rt", (
        ("lines.past.lost_since(*processor, *since) < cut.decided", "lines.past.lost_since(*processor, *since) < cut.boundary"),), "parts"),
    Mistake("a_thread_that_was_there_passed_over", "yds_trace/src/past.rt", (
        ("told.since.unwrap_or(time) < boundary", "time < boundary"),), "parts"),
    Mistake("belongs_by_the_last_stretch", "yds_trace/src/share.rt", (
        ("    any_on(processor, &job.stretches)\n", "    any_on(processor, &job.stretches[job.stretches.len().saturating_sub(1)..])\n"),), "all"),
    Mistake("jobs_that_ran_nowhere_in_each_document", "yds_trace_document/src/membership.rt", (
        ("(asked.processor == 0 && has_run_nowhere(judged.job))", "has_run_nowhere(judged.job)"),), "all"),
    Mistake("windows_of_jobs_elsewhere_open", "yds_trace_parts/src/place.rt", (
        ("            due: if own {\n", "            due: if own || is_written(judged) {\n"),), "all"),
    Mistake("no_place_behind_jobs_left_out", "yds_trace_parts/src/place.rt", (
        ("self.some || asked.everywhere || is_written(judged)", "self.some || is_written(judged)"),), "all"),
    Mistake("the_cut_of_unseen_processors_not_moved", "yds_trace_parts/src/telling.rt", (
        ("        self.unseen = unseen;\n", "        let _ = unseen;\n"),), "all"),
    Mistake("new_processors_begin_uncut", "yds_trace_parts/src/processors.rt", (
        ("=> grow_to(processors, cut, last),", "=> grow_to(processors, if last == 0 { cut } else { NO_CUT }, last),"),), "all"),
    Mistake("a_line_checked_for_the_first_processor_alone", "yds_trace_parts/src/telling.rt", (
        ("        let latest = latest_of(&pieces.processors, unseen);\n", "        let latest = latest_of(&pieces.processors[..1], None);\n"),), "all"),
    Mistake("forgotten_up_to_the_greatest_boundary", "yds_trace_parts/src/telling.rt", (
        ("        self.pass.forget(least);\n", "        self.pass.forget(least.max(latest.boundary));\n"),), "all"),
    Mistake("a_closed_place_before_any_job_of_its_own", "yds_trace_parts/src/place.rt", (
        ("        own: !has_own(asked, waiting),\n", "        own: has_own(asked, waiting) || !has_own(asked, waiting),\n"),), "all"),
    Mistake("a_closed_place_behind_jobs_of_others_alone", "yds_trace_parts/src/place.rt", (
        ("            own: self.own || own,\n", "            own: self.own || is_written(judged),\n"),), "all"),
    # Sleeps, wake-ups, stops and exits.
    Mistake("a_stopped_thread_taken_for_a_sleeping_one", "yds_kernel/src/state.rt", (("                || *first == b'T'\n", ""),)),
    Mistake("a_traced_thread_taken_for_a_sleeping_one", "yds_kernel/src/state.rt", (("                || *first == b't'\n", ""),)),
    Mistake("an_exit_of_older_kernels_taken_for_a_sleep", "yds_kernel/src/state.rt", (("                || *first == b'x'\n", ""),)),
    Mistake("an_exit_with_a_plus_taken_for_a_preemption", "yds_kernel/src/state.rt", (
        ("        } else if is_over(text) {\n            State::Exits\n        } else if goes_on(text) {\n            State::GoesOn\n",
         "        } else if goes_on(text) {\n            State::GoesOn\n        } else if is_over(text) {\n            State::Exits\n"),)),
    Mistake("the_first_mark_in_a_wake_up", "yds_kernel/src/form.rt", (
        ("    let (place, marked) = last_marked(mark, text)?;\n", "    let (place, marked) = first_marked(mark, text)?;\n"),)),
    Mistake("a_second_half_of_its_own_time", "yds_trace/src/known.rt", (
        ("        Some(before) if !starts => before,\n", "        Some(before) if !starts => before.max(time),\n"),)),
    Mistake("a_first_half_of_the_time_of_the_one_before", "yds_trace/src/known.rt", (
        ("        Some(before) if !starts => before,\n        Some(_) | None => time,\n",
         "        Some(before) if !starts || before < time => before,\n        Some(_) | None => time,\n"),)),
    Mistake("a_wake_up_forgotten_as_its_thread_goes_to_sleep", "yds_trace/src/known.rt", (
        ("        State::Sleeps => started,\n        State::GoesOn | State::Exits |", "        State::Exits => started,\n        State::GoesOn | State::Sleeps |"),)),
    Mistake("a_wake_up_that_was_done_not_forgotten", "yds_trace/src/known.rt", (
        ("            started: (starts && may_run).then_some(time),\n", "            started: may_run.then_some(begin),\n"),)),
    Mistake("a_sleep_without_a_wake_up_ends_its_job", "yds_trace/src/jobs.rt", (
        ("        None if woken.ever && job.slept.is_none() => put(job.went_on(end), jobs),\n",
         "        None if woken.ever && job.slept.is_none() => {\n            put(job, jobs)?;\n            begin(alloc, time, false, jobs)\n        }\n"),)),
    Mistake("a_second_such_sleep_in_a_job_passed_over", "yds_trace/src/counted.rt", (
        ("            Some(number) if needed && self.is_unwoken(number) => Err(Cause::NotWoken),\n",
         "            Some(number) if needed && !needed && self.is_unwoken(number) => Err(Cause::NotWoken),\n"),)),
    Mistake("a_job_lost_behind_such_sleeps_goes_on", "yds_trace/src/job.rt", (
        ("        self.end = End::Lost(self.slept.unwrap_or(time));\n", "        self.end = End::Lost(time.max(self.slept.unwrap_or(time)));\n"),)),
    Mistake("a_thread_that_was_never_woken_passed_over", "yds_trace/src/jobs.rt", (
        ("End::Ended(_) => !ever || job.slept.is_some(),", "End::Ended(_) => ever && job.slept.is_some(),"),)),
    Mistake("a_loss_behind_such_a_sleep_passed_over", "yds_trace/src/job.rt", (
        ("        Some(slept) => time.min(slept),\n", "        Some(slept) => time.min(time.max(slept)),\n"),)),
    Mistake("a_line_of_a_thread_that_was_over_passed_over", "yds_trace/src/counted.rt", (
        ("                Some(_) | None if self.has_exited(number) => Err(Cause::Exited),\n", ""),)),
    Mistake("a_renamed_thread_passed_over", "yds_trace/src/counted.rt", (
        ("        if has_number(&self.tasks, pid) {\n", "        if pid == 0 && has_number(&self.tasks, pid) {\n"),)),
    Mistake("an_exit_that_strict_passes_over", "yds_trace_document/src/limits.rt", (
        ("        None => judged.job.exited,\n", "        None => judged.job.exited && judged.late.is_some(),\n"),)),
    Mistake("an_exit_of_a_late_job_not_told", "yds_trace_text/src/ends.rt", (
        ("    if !judged.job.exited {\n", "    if !judged.job.exited || judged.late.is_some() {\n"),)),
    Mistake("a_thread_seen_elsewhere_taken_for_one_that_was_there", "yds_trace/src/known.rt", (
        ("        if !torn && leaving.switched.is_none() && !self.woken.seen {\n", "        if !torn && leaving.switched.is_none() {\n"),)),
    Mistake("a_thread_that_is_back_behind_a_part_passed_over", "yds_trace/src/check.rt", (
        ("        || comes_back(asked, counted, event, previous, next, cut)\n",
         "        || (event.time == 0 && comes_back(asked, counted, event, previous, next, cut))\n"),), "parts"),
    Mistake("a_thread_that_is_back_as_it_leaves_passed_over", "yds_trace/src/check.rt", (
        ("&& is_back(asked, counted, previous, cut))", "&& event.time == 0 && is_back(asked, counted, previous, cut))"),), "parts"),
    Mistake("a_first_switch_behind_to_shows_no_hole", "yds_trace/src/counted.rt", (
        ("                self.missing(!asked.begin_at_run, first, first, leaving)\n",
         "                self.missing(!asked.begin_at_run, first, first, leaving).and(None)\n"),)),
    # Switches that are missing, periods, one speed throughout, and silence.
    Mistake("a_thread_on_two_processors_passed_over", "yds_trace/src/known.rt", (
        ("                displaced.then_some(", "                (displaced && standing.came == 0).then_some("),)),
    Mistake("missing_since_the_last_switch_alone", "yds_trace/src/known.rt", (
        ("then_some(standing.came.min(leaving.last_told()))", "then_some(leaving.last_told())"),)),
    Mistake("the_coming_of_a_sleeping_thread_missing_and_passed_over", "yds_trace/src/known.rt", (
        ("            || is_awake(self.woken, &self.jobs)\n", "            || is_awake(self.woken, &self.jobs)\n            || leaving.time > 0\n"),)),
    Mistake("a_task_elsewhere_is_lost", "yds_trace/src/known.rt", (
        ("Some(standing) if !left && !came && standing.processor != processor => {", "Some(standing) if !left && !came && standing.processor > processor => {"),)),
    Mistake("a_job_that_began_by_the_first_line_begins_there", "yds_trace/src/job.rt", (
        ("        if time < self.begin {\n", "        if time != self.begin {\n"),)),
    Mistake("a_period_behind_the_begin_of_the_job_before", "yds_trace/src/job.rt", (
        ("            self.due_from.saturating_add(period).min(time)\n", "            self.begin.saturating_add(period).min(time)\n"),)),
    Mistake("a_period_behind_a_begin_that_is_not_known", "yds_trace/src/job.rt", (
        ("        if self.begin_known && period != 0 {\n", "        if period != 0 {\n"),)),
    Mistake("the_fixed_speed_lost_with_events", "yds_trace/src/past.rt", (
        ("Past::begun(alloc, Some(*khz), Some(*khz), Vec::new(alloc))", "Past::begun(alloc, Some(*khz), None, Vec::new(alloc))"),)),
    Mistake("an_idle_processor_taken_for_a_silent_one", "yds_trace/src/past.rt", (
        ("Some(since) if self.came(processor) != Some(0) => Silence {", "Some(since) if since != 0 || self.came(processor) != Some(0) => Silence {"),)),
    Mistake("missing_switches_behind_a_part_passed_over", "yds_trace/src/check.rt", (
        ("        Some(time) => time < cut.decided,\n", "        Some(time) => time < cut.boundary,\n"),), "parts"),
    Mistake("a_wake_up_done_behind_a_part_passed_over", "yds_trace/src/check.rt", (
        ("            !starts && is_woken_back(", "            !starts && event.time == 0 && is_woken_back("),), "parts"),
    # Lines out of order.
    Mistake("lines_of_one_time_exchanged", "yds_kernel_order/src/slot.rt", (
        ("        self.time <= time || self.stays\n", "        self.time < time || self.stays\n"),)),
    Mistake("the_64th_line_not_passed", "yds_kernel_order/src/ring.rt", (
        ("        if count == MAX_PASSED || ", "        if count + 1 == MAX_PASSED || "),)),
    Mistake("a_line_later_by_a_millisecond_not_passed", "yds_kernel_order/src/slot.rt", (
        ("self.time - time > MAX_STEP_BACK", "self.time - time >= MAX_STEP_BACK"),)),
    Mistake("the_last_line_read_told_for_the_one_given", "yds_kernel_order/src/reader.rt", (
        ("            Some(slot) => slot.number(),\n", "            Some(_) => self.lines,\n"),)),
    # Times that count from the first line.
    Mistake("seconds_after_the_first_line_taken_of_the_clock", "yds_trace_words/src/request.rt", (
        ("        Some(Moment::AfterFirst(decimal(others, 9, MAX_TIME)?))\n", "        Some(Moment::Clock(decimal(others, 9, MAX_TIME)?))\n"),)),
    Mistake("the_first_line_taken_at_0", "yds_trace_reading/src/first.rt", (
        ("        Said::Event(event) => Ok(event.time),\n", "        Said::Event(_) => Ok(0),\n"),)),
    Mistake("a_lost_first_line_passed_over", "yds_trace_reading/src/first.rt", (
        ("        Said::Lost { .. } | Said::Nothing => Err(NoBegin::Lost),\n", "        Said::Lost { .. } | Said::Nothing => Ok(0),\n"),)),
    # Shares of jobs that moved.
    Mistake("a_share_of_what_ran_elsewhere_alone", "yds_trace/src/share.rt", (
        ("    has_run_on(processor, job) && any_elsewhere(processor, &job.stretches)\n", "    any_elsewhere(processor, &job.stretches)\n"),)),
    Mistake("a_share_with_all_that_ran_on_greater_processors", "yds_trace/src/share.rt", (
        ("    stretches.retain(|stretch| stretch.processor == processor);\n", "    stretches.retain(|stretch| stretch.processor >= processor);\n"),)),
    Mistake("a_share_called_as_the_job", "yds_trace_document/src/judge.rt", (
        ("            part: job.shared.then_some(within.processor),\n", "            part: None,\n"),)),
    Mistake("a_late_share_in_a_run_within_one_tick", "yds_trace_text/src/late.rt", (("    if name.part.is_some() {\n", "    if name.part.is_none() {\n"),)),
    Mistake("shares_without_the_word", "yds_trace/src/share.rt", (
        ("    if asked.moved_parts && is_shared_by(", "    if is_shared_by("), ("    if !asked.moved_parts {\n        return;\n    }\n", ""))),
    Mistake("no_shares_in_a_part", "yds_trace_parts/src/processors.rt", (
        ("    next_piece(alloc, asked, shares, one.cut", "    let _ = shares;\n    next_piece(alloc, asked, shown, one.cut"),), "all"),
    Mistake("no_shares_in_the_last_part", "yds_trace_parts/src/processors.rt", (
        ("    last_part(alloc, asked, shares, one.cut", "    let _ = shares;\n    last_part(alloc, asked, shown, one.cut"),), "all"),
    # Other threads.
    Mistake("in_the_way_of_nobody", "yds_trace/src/others.rt", (
        ("            Some(holder) if waits => Some(holder.since(alloc, time)?),\n            Some(_) | None => None,\n",
         "            Some(holder) => Some(holder.since(alloc, time)?),\n            None => None,\n"),)),
    Mistake("the_idle_thread_in_the_way", "yds_trace/src/others.rt", (("    if thread.pid == 0 || listed", "    if listed"),)),
    Mistake("a_listed_thread_in_the_way", "yds_trace/src/others.rt", (
        ("    if thread.pid == 0 || listed.number.is_some() {\n", "    let _ = listed;\n    if thread.pid == 0 {\n"),)),
    Mistake("any_processor_that_switches", "yds_trace/src/others.rt", (
        ("        Happening::Switch { next, .. } if event.processor == processor => {\n            *holder = other(alloc, next, second)?;\n        }\n",
         "        Happening::Switch { next, .. } if processor <= event.processor => {\n            *holder = other(alloc, next, second)?;\n        }\n"),)),
    Mistake("who_had_it_before_a_loss", "yds_trace/src/others.rt", (("        self.holder = None;\n        Ok(())\n", "        Ok(())\n"),)),
    Mistake("a_span_within_a_unit_told", "yds_trace_text/src/others.rt", (("    if from >= to {\n", "    if from > to {\n"),)),
    Mistake("a_name_that_moves_the_cursor", "yds_trace_text/src/others.rt", (("    if byte < b' ' || byte == 127 {\n", "    if byte == 127 {\n"),)),
    Mistake("spans_that_go_on_behind_a_part_forgotten", "yds_trace/src/others.rt", (
        ("        if span.to > boundary {\n", "        if span.from >= boundary {\n"),), "parts"),
    Mistake("spans_told_whole_in_each_part", "yds_trace_document/src/other.rt", (
        ("        Some(until) => until.min(other.to),\n", "        Some(until) => until.max(other.to),\n"),), "parts"),
    Mistake("spans_that_wait_not_counted", "yds_trace_parts/src/telling.rt", ((" && amount.others <= PART_OTHERS", ""),), "parts"),
]


def planted(mistake: Mistake, text: str) -> str:
    """The text of the file with the mistake."""
    for old, new in mistake.edits:
        if text.count(old) != 1:
            raise SystemExit(f"planted.py: {mistake.name}: its text stands {text.count(old)} times in crates/{mistake.file}, not once")
        text = text.replace(old, new)
    return text


def plant(mistake: Mistake, top: Path) -> None:
    """Changes the copy of the crates."""
    file = top / "crates" / mistake.file
    file.write_text(planted(mistake, file.read_text(encoding="utf-8")), encoding="utf-8")


def found_by(mistake: Mistake, cases: List[Case]) -> Tuple[int, str]:
    """Of how many cases the changed program says something else, and what `rt` wrote where none was answered."""
    with tempfile.TemporaryDirectory() as folder:
        crate = lay_out(Path(folder))
        if mistake.asked != "one":
            shorten(Path(folder))
        plant(mistake, Path(folder))
        wrong, said = try_laid_out(crate, cases)
    return len(wrong), said[-2000:] if len(wrong) == len(cases) else ""


def cases_of(asked: str, seed: int, many: int) -> List[Case]:
    """The drawn traces that are asked for so, with what the second reading says."""
    if asked == "one":
        return [case for number in range(many) for case in drawn_cases(seed, number, Counter())]
    found: List[Case] = []
    for number in range((many + 3) // 4):
        it = (long.drawn if asked == "parts" else everywhere.drawn)(seed, number, everywhere.SCALE)
        said, _ = told_in_parts(it.trace, asked_by(it.words), SMALL)
        found.append(Case(it.words, it.trace, said.text, said.status))
    return found


def main(words: Sequence[str]) -> int:
    """Plants each mistake. Gives the exit status."""
    parser = argparse.ArgumentParser(prog="planted.py", allow_abbrev=False)
    parser.add_argument("mistakes", nargs="*", choices=[[], *(mistake.name for mistake in MISTAKES)], metavar="MISTAKE")
    parser.add_argument("--traces", type=int, default=480)
    parser.add_argument("--seed", type=int, default=1)
    parser.add_argument("--jobs", type=int, default=1)
    parser.add_argument("--check", action="store_true")
    options = parser.parse_args(words)
    if options.check:
        for mistake in MISTAKES:
            planted(mistake, (Path("crates") / mistake.file).read_text(encoding="utf-8"))
        print(f"{len(MISTAKES)} passed, 0 failed")
        return 0
    chosen = [mistake for mistake in MISTAKES if not options.mistakes or mistake.name in options.mistakes]
    drawn = {asked: cases_of(asked, options.seed, options.traces) for asked in {mistake.asked for mistake in chosen}}
    found = 0
    with ThreadPoolExecutor(options.jobs) as pool:
        for mistake, (wrong, said) in zip(chosen, pool.map(lambda mistake: found_by(mistake, drawn[mistake.asked]), chosen)):
            cases = drawn[mistake.asked]
            if said:
                print(said)
            # A program that answers nothing wasn't tried: it couldn't be built, or ended at once.
            well = 0 < wrong < len(cases)
            found += int(well)
            print(f"{mistake.name}: {f'found by {wrong} of {len(cases)} runs' if well else 'not tried' if said else 'NOT FOUND'}", flush=True)
    print(f"{found} found, {len(chosen) - found} not found")
    return int(found < len(chosen))


if __name__ == "__main__":
    os.chdir(Path(__file__).resolve().parent.parent)
    sys.exit(main(sys.argv[1:]))
