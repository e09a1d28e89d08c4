# traces.sh: read by test.sh. What the document of a trace says of missed deadlines and of other threads, in small traces reckoned by hand.

# says NAME STATUS TEXT COMMAND ..: the status, and each line of TEXT is a line of standard output.
says() {
	name=$1 status=$2 text=$3
	shift 3
	"$@" >"$work/out" 2>"$work/err"
	got=$?
	echo "$text" | while IFS= read -r line; do
		grep -qxF -- "$line" "$work/out" || echo "wanted: $line"
	done >"$work/wanted"
	if [ $got = "$status" ] && [ ! -s "$work/wanted" ]; then pass; return; fi
	fail "$name (status $got)"
	cat "$work/wanted" "$work/err"
}
misses() { tool misses "$1"; }

test_traces() {
	late_traces
	late_without_runs
	ends_in_short_runs
	misses_of_slots
	who_else_ran
	shares_of_a_job
}

# Jobs that starve, that ran elsewhere, and that are late in a short run: audit says no, and yds-misses tells each.
late_traces() {
	answers "traces: starving jobs aren't feasible" 1 "work render.0 given 20000 wanted 20001" from "$expected/document-starving.txt" "$YDS" audit
	same "misses: starving" 1 misses-starving.txt misses "$expected/document-starving.txt"
	answers "traces: late on another processor isn't feasible" 1 "work render.1 given 0 wanted 1" from "$expected/document-elsewhere.txt" "$YDS" audit
	same "misses: on another processor" 1 misses-elsewhere.txt misses "$expected/document-elsewhere.txt"
	answers "traces: late in a short run isn't feasible" 1 "work audio.0 given 10000 wanted 10001" from "$expected/document-short-late.txt" "$YDS" audit
	same "misses: late by little" 1 misses-short-late.txt misses "$expected/document-short-late.txt"
	# A recording of a kernel: two of its jobs ran here, one is late and ran elsewhere.
	from migrated-late.txt trace --tasks t5:15.5 --cpu 1 --start 2000000 >"$work/document"
	answers "traces: recorded, and not feasible" 1 "work t5.3 given 0 wanted 1" from "$work/document" "$YDS" audit
	says "misses: recorded" 1 "late, without its runs: t5.3 (ran on another processor), 5.678000 ms after its deadline; window 4650 6200 # due at 2632.864115 s
1 missed deadline" misses "$work/document"
}

# Reasons for which a job doesn't stand as it is: where it is late, audit says no, and each reader tells it once.
late_without_runs() {
	sed 's/\[001\]\(.*render\)/[000]\1/; s/swapper\/1/swapper\/0/' elsewhere.txt >"$work/here"
	t="--tasks render:16"
	# shellcheck disable=SC2086
	told_once "begun before --from" render.1 "render.1 (before from), 25.000000 ms after its deadline; window -1000 600" from "$work/here" trace $t --from 200.06
	# render.1 is late by less than a unit, and ran elsewhere.
	sed '8s/200.091000/200.066004/' elsewhere.txt >"$work/less"
	# shellcheck disable=SC2086
	told_once "late by less than a unit" render.1 "render.1 (ran on another processor), 0.004000 ms after its deadline; window 5000 6600" from "$work/less" trace $t
	# It is still running on the other processor where the trace ends.
	sed '8,$d' elsewhere.txt >"$work/open"
	echo '          <idle>-0     [000]   200.090000: hrtimer_expire_entry: hrtimer=0 now=1' >>"$work/open"
	# shellcheck disable=SC2086
	told_once "not ended" render.1 "render.1 (ran on another processor), not ended 24.000000 ms after its deadline; window 5000 6600" from "$work/open" trace $t
	# Its thread comes first without a wake-up: its begin isn't known; it was there when it came.
	sed 3,6d elsewhere.txt >"$work/unwoken"
	# shellcheck disable=SC2086
	told_once "no wake-up" render.before "render.before (its begin isn't in the trace), at least 25.000000 ms after its deadline" from "$work/unwoken" trace $t
	# Events are lost after it came, and it was late by then.
	sed '7s/$/\n          <idle>-0     [000]   200.080000: cpu_frequency:        state=1000000 cpu_id=1\nCPU:0 [LOST 3 EVENTS]/' "$work/here" >"$work/gap"
	# shellcheck disable=SC2086
	told_once "lost events" render.1 "render.1 (events lost), not ended 14.000000 ms after its deadline; window 5000 6600" from "$work/gap" trace $t --lost cut
}
# told_once NAME JOB COMMENT COMMAND ..: the document has the job's line with work 1, and the comment; audit says no, yds-misses tells
# the job in one line, yds-jobs has it late, and yds-energy counts it once.
told_once() {
	told=$1 job=$2 comment=$3
	shift 3
	"$@" >"$work/document" 2>"$work/err"
	if grep -q "^job $job [0-9]* [0-9]* 1\$" "$work/document" && grep -qxF "# late, without its runs: $comment" "$work/document"; then pass; else
		fail "traces: $told"
		cat "$work/err" "$work/document"
	fi
	answers "traces: $told, and not feasible" 1 "$(grep -v '^job' "$work/document" | "$YDS" audit >/dev/null; "$YDS" audit <"$work/document")" from "$work/document" "$YDS" audit
	misses "$work/document" >"$work/missed"
	if [ "$(grep -cF " $job " "$work/missed")" = 1 ] && grep -qF "late, without its runs: $comment" "$work/missed"; then pass; else fail "misses: $told"; cat "$work/missed"; fi
	if tool jobs --form csv "$work/document" | grep -qE "^$job,.*,(inf|[0-9.]+),\$"; then pass; else fail "jobs: $told"; fi
	misses=$(tail -n 1 "$work/missed")
	cat "$expected/points.txt" "$work/document" | tool energy 2>/dev/null | grep 'misses' >"$work/told"
	if grep -q "misses ${misses%% *} deadline" "$work/told"; then pass; else fail "energy: $told"; cat "$work/told"; fi
}

# A job that ends in a run within one tick: a comment tells when, and the tools go by it.
ends_in_short_runs() {
	says "jobs: ends in short runs" 0 "render.0        0       900      0   800       800    100     0       -
render.1     1000      1900   1000  3800      2800  -1900  1900       -" tool jobs "$expected/document-tick.txt"
	says "misses: an end in a short run" 1 "late slot 2 render.1 3800 deadline 1900, by 1900 # due at 100.020000 s
1 missed deadline" misses "$expected/document-tick.txt"
}

# All at once, in fractions, and where another fault remains.
misses_of_slots() {
	printf 'job a 0 9 4\njob b 0 5 5\nslot a 1 2+1/3 3\nslot b 3 5+1/2 3+1/2\nslot b 5+1/2 6 0+1/2\n' >"$work/slots"
	says "misses: in fractions" 1 "late slot 3 b 6 deadline 5, by at least 1: given 4 wanted 5
work a given 3 wanted 4
2 missed deadlines" misses "$work/slots"
	says "misses: too much work remains" 1 "late slot 2 audio 21 deadline 20, by 1
work audio given 4800 wanted 3000" misses "$here/../examples/governor-misses-a-deadline.txt"
	$AWK 'BEGIN { for (j = 0; j < 1000; j++) print "job a." j, j * 10, j * 10 + 5, 100; print "ticks 1"; for (j = 0; j < 1000; j++) print "run a." j, j * 10, j * 10 + 8, 10 }' >"$work/slots"
	says "misses: a thousand" 1 "late slot 1000 a.999 9998 deadline 9995, by at least 3: given 80 wanted 100
1000 missed deadlines" misses "$work/slots"
	# The job's end, and not that of its first slot after the deadline.
	printf 'job a 0 10 10\nticks 1\nrun a 5 11 1\nrun a 96 100 1\n' >"$work/slots"
	says "misses: a late job that is interrupted" 1 "late slot 2 a 100 deadline 10, by 90
1 missed deadline" misses "$work/slots"
	printf 'job a 0 5 5\njob b 7 8 2\nticks 10\nrun a 0 49 1\nrun b 70 85 1\nrun a 90 91 1\nrun b 95 100 1\n' >"$work/slots"
	says "misses: ticks" 1 "late slot 3 a 9+1/10 deadline 5, by 4+1/10
late slot 4 b 10 deadline 8, by 2
2 missed deadlines" misses "$work/slots"
	# The job's last run is so short that it is in no line: a comment tells its tick.
	printf 'job a 0 10 10\nticks 10\nrun a 50 110 1\nrun a 960 1000 1\n# ends: a 1234\n' >"$work/slots"
	says "misses: an end that a comment tells" 1 "late slot 2 a 123+4/10 deadline 10, by 113+4/10
1 missed deadline" misses "$work/slots"
	# Denominators beyond what awk reckons exactly stay as they are.
	printf 'job a 0 1 1\nslot a 0 2+1152921504606846973/1152921504606846976 1\n' >"$work/slots"
	says "misses: long numbers" 1 "late slot 1 a 2+1152921504606846973/1152921504606846976 deadline 1, by 1+1152921504606846973/1152921504606846976
1 missed deadline" misses "$work/slots"
}

# Who else had the processor while a job waited: nothing of it stands in the document's lines.
who_else_ran() {
	from trace-late.txt trace --tasks decode:16.667,audio:10 --others spans >"$work/document"
	says "traces: who else ran" 0 "# other kworker/0:1-57 270 290
# other kworker/0:1-57 2360 2376
# other kworker/0:1-57 3650 3656" grep '^# other ' "$work/document"
	grep -v '^# other ' "$work/document" >"$work/rest"
	same "traces: who else ran, in comments alone" 0 document-late.txt cat "$work/rest"
	from starving.txt trace --tasks render:10,audio:10 --others spans >"$work/document"
	says "traces: a hog ran to the end" 0 "# other hog-13 300 3000" grep '^# other ' "$work/document"
	from starving.txt trace --tasks render:5 --from 100.001 --to 100.013 --others spans >"$work/document"
	says "traces: --from and --to cut what others ran" 0 "# other hog-13 200 1200" grep '^# other ' "$work/document"
}

# A job that moved has a share in the documents of both processors, and each tool reads it as a job.
shares_of_a_job() {
	from moved.txt trace --tasks render:1.5 --cpu 1 --moved parts >"$work/document"
	says "traces: a share of a job that moved" 0 "job render.0@1 0 150 10001
# late on another processor: render.0@1, 0.500000 ms after its deadline" cat "$work/document"
	says "misses: a share" 1 "work render.0@1 given 10000 wanted 10001, 0.500000 ms after its deadline # due at 100.002500 s
1 missed deadline" misses "$work/document"
	from moved.txt trace --tasks render:1.5 --cpu 0 --moved parts >"$work/document"
	says "misses: the share in which it ended" 1 "late slot 1 render.0@0 200 deadline 150, by 50 # due at 100.002500 s
1 missed deadline" misses "$work/document"
}
