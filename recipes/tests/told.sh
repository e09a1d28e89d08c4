# told.sh: read by test.sh. What stands beside a verdict, an energy or hours: jobs without work, jobs that aren't there or not whole. Small
# documents reckoned by hand.

# tells NAME STATUS LINE COMMAND ..: the status, and the line is one of standard output.
tells() {
	name=$1 status=$2 line=$3
	shift 3
	"$@" >"$work/out" 2>"$work/err"
	got=$?
	if [ $got = "$status" ] && grep -qxF -- "$line" "$work/out"; then pass; return; fi
	fail "$name (status $got)"
	echo "wanted: $line"
	cat "$work/err" "$work/out"
}
found() { tool misses "$1"; }

test_told() {
	jobs_without_work
	jobs_that_are_not_whole
}

# All runs of audio.0, 4 us, are shorter than a unit of 10 us.
jobs_without_work() {
	cat >"$work/trace" <<-END
	<idle>-0 [000] 100.000000000: cpu_frequency: state=1000000 cpu_id=0
	<idle>-0 [000] 100.001000000: sched_waking: comm=audio pid=12 prio=120 target_cpu=000
	<idle>-0 [000] 100.001000000: sched_switch: swapper/0:0 [120] R ==> audio:12 [120]
	audio-12 [000] 100.001004000: sched_switch: audio:12 [120] S ==> swapper/0:0 [120]
	<idle>-0 [000] 100.011000000: sched_waking: comm=audio pid=12 prio=120 target_cpu=000
	<idle>-0 [000] 100.011000000: sched_switch: swapper/0:0 [120] R ==> audio:12 [120]
	audio-12 [000] 100.012004000: sched_switch: audio:12 [120] S ==> swapper/0:0 [120]
	END
	from "$work/trace" trace --tasks audio:5 >"$work/document"
	one="# 1 job has no work: it needs nothing and is in time, the first audio.0"
	tells "told: a job without work, by yds-misses" 0 "$one" found "$work/document"
	answers "told: and its last line is the verdict" 0 feasible eval "found '$work/document' | tail -n 1"
	tells "told: a job without work, by yds-jobs" 0 "$one" tool jobs "$work/document"
	(printf 'point 0 0\npoint 100 20\n' && cat "$work/document") >"$work/priced"
	tells "told: a job without work, by yds-energy" 0 "$one" energy "$work/priced"
	tells "told: a job without work, at one speed" 0 "$one" energy --at 100 "$work/priced"
	printf 'job a 0 9 0\njob b 0 9 4\njob c 0 9 0\nslot b 8 10 4\n' >"$work/late"
	tells "told: two jobs without work beside a miss" 1 "# 2 jobs have no work: they need nothing and are in time, the first a" found "$work/late"
	answers "told: the miss stands first" 1 "late slot 1 b 10 deadline 9, by 1" found "$work/late"
	grep -v '^job [ac]' "$work/late" >"$work/all"
	found "$work/all" >"$work/out"
	if grep -q 'no work' "$work/out"; then fail "told: no job is without work"; else pass; fi
}

jobs_that_are_not_whole() {
	# render.0 and audio.1 never ended: at any speed they may need more than what is known of them.
	unknown="# the work of 2 jobs isn't known, since they never ended or have no runs: what serves them whole may spend more and be later, the first render.0"
	(printf 'point 0 1\npoint 100 20\npoint 200 90\n' && cat "$expected/document-starving.txt") >"$work/starving"
	tells "told: jobs that never ended" 1 "$unknown" energy "$work/starving"
	tells "told: jobs that never ended, at one speed" 0 "$unknown" energy --at 200 "$work/starving"
	# A job that was late, whose runs can't be written.
	printf 'point 0 1\npoint 10 20\njob a 0 10 30\njob b 10 20 1\nslot a 0 3 30\n# late, without its runs: b (ran on another processor), 25.000 ms after its deadline; window 10 20\n# 2 jobs written, none left out, 1 late without its runs\n' >"$work/without"
	tells "told: a job without its runs is a miss" 1 "# trace misses 1 deadline, the first b" energy "$work/without"
	tells "told: and its energy is in no line" 1 "# 1 job was late and stands in the document without its runs and their energy" energy "$work/without"
	tells "told: and its work isn't known" 0 "# the work of 1 job isn't known, since it never ended or has no runs: what serves them whole may spend more and be later, the first b" energy --at 10 "$work/without"
	missing="# not due by 1000: big, 1 of 1 jobs, work 600000"
	printf 'point 0 0\npoint 10 20\n%s\njob a 0 10 30\nslot a 0 3 30\n' "$missing" >"$work/cut"
	tells "told: jobs after the horizon" 0 "$missing: this energy is in no line" energy "$work/cut"
	tells "told: jobs after the horizon, at one speed" 0 "$missing: this energy is in no line" energy --at 10 "$work/cut"
	printf '%s\njob a 0 10 30\n' "$missing" >"$work/jobs"
	tells "told: with more work that of the others isn't known" 0 "# not due by 1000: big, 1 of 1 jobs" tool scale --work 2 "$work/jobs"
	# Tables and pictures say it too.
	(printf 'plan energy 60\nplan time 0 7\nplan time 10 3\n' && energy "$work/cut" && energy --at 200 "$work/starving") >"$work/side.txt"
	tool collect "$work/side.txt" >"$work/table"
	tells "told: by yds-collect" 0 "# side: not due by 1000: big, 1 of 1 jobs, work 600000: this energy is in no line" cat "$work/table"
	tells "told: by yds-collect, work that isn't known" 0 "# side: ${unknown#\# }" cat "$work/table"
	tells "told: by yds-summary" 0 "# in 1 of them jobs have energy that is in no line, or work that isn't known; see the comments of the table" tool summary "$work/table"
	head -n 7 "$work/side.txt" >"$work/own"
	answers "told: by yds-battery, once" 0 1 eval "tool battery --mah 9 --volts 1 --uw 1 --period 4000 '$work/cut' '$work/own' | grep -c 'not due by 1000'"
	# And where the lines are those of yds-whole, whose parts have the comments.
	(printf 'plan energy 60\nplan time 0 7\nplan time 10 3\n# part 1: 3 jobs were left out of the document, with their energy\n# part 2: 1 job was left out of the document, with its energy\n') >"$work/whole.txt"
	tool collect "$work/whole.txt" >"$work/table"
	tells "told: by yds-collect, of parts" 0 "# whole: part 2: 1 job was left out of the document, with its energy" cat "$work/table"
	tells "told: by yds-summary, of parts" 0 "# in 1 of them jobs have energy that is in no line, or work that isn't known; see the comments of the table" tool summary "$work/table"
	tells "told: by yds-battery, of parts" 0 "# part 1: 3 jobs were left out of the document, with their energy" tool battery --mah 9 --volts 1 --uw 1 --period 10 "$work/whole.txt"
	tool plot energy -t text "$work/side.txt" >"$work/side"
	holds "told: in the picture" "$work/side" 'not due by 1000: big, 1 of 1 jobs, work 600000: this energy is in no line' "the work of 2 jobs isn't known"
}
