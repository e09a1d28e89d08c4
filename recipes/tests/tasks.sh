# tasks.sh: read by test.sh. What a horizon does to tasks. Expected values are counted by hand, or by expand itself with a longer horizon.
tasks() { tool tasks "$@"; }
# written NAME STATUS OUTPUT COMMAND ..: the status, and the whole standard output as a text.
written() {
	name=$1 status=$2 output=$3
	shift 3
	"$@" >"$work/out" 2>"$work/err"
	got=$?
	if [ $got = "$status" ] && [ "$(cat "$work/out")" = "$output" ]; then pass; return; fi
	fail "$name (status $got)"
	echo "wanted: $output"
	head -n 5 "$work/out" "$work/err"
}

test_tasks() {
	want expand || return
	printf 'horizon 1000\ntask sense 0 1000 50 700\n' >"$work/sense"
	written "tasks: the period" 0 "# period 1000
job sense.0 0 50 700" tasks "$work/sense"
	(echo "# period 1000" && "$YDS" expand <sensor-tasks.txt) >"$work/wanted"
	written "tasks: the jobs are expand's" 0 "$(cat "$work/wanted")" tasks sensor-tasks.txt
	jobs_after_the_horizon
	horizons_without_a_period
	printf '# rt-app workload: time unit 10 us, speed unit 10000 kHz, work unit 100 cycles, run at 1416 MHz\n# period 7\n' | cat - "$work/sense" >"$work/units"
	written "tasks: units stay, and a period of before doesn't" 0 "# rt-app workload: time unit 10 us, speed unit 10000 kHz, work unit 100 cycles, run at 1416 MHz
# period 1000
job sense.0 0 50 700" from "$work/units" tasks
	(cat "$work/units" && sed -n '1s/10 us/100 us/p' "$work/units" && echo "task other 0 1000 50 700") >"$work/two"
	refuses "tasks: two units" 1 failed "yds-tasks: $work/two, line 5, column 20: a unit of time of 100 us here and 10 us before; give both the same --us" tasks "$work/two"
	refuses "tasks: what expand refuses" 1 failed "yds-tasks: yds_cli expand ended with status 3: refused 1 1 UnknownKind" tasks bad/failed.txt
	refuses "tasks: nothing" 1 failed "yds-tasks: no horizon and no task line" tasks /dev/null
	echo "horizon 9" >"$work/none"
	refuses "tasks: no task" 1 failed "yds-tasks: no task line" tasks "$work/none"
	refuses "tasks: no such file" 1 failed "yds-tasks: nowhere can't be read: No such file or directory" tasks nowhere
	refuses "tasks: no such option" 2 failed "yds-tasks: more than 1 file; see yds-tasks --help" tasks period=9 sensor-tasks.txt
	refuses "tasks: another word of --lost" 2 failed "yds-tasks: --lost keep: there is only --lost cut; see yds-tasks --help" tasks --lost keep sensor-tasks.txt
	refuses "tasks: no program" 1 failed "yds-tasks: yds_cli expand ended with status 1: " env YDS=false "$here/bin/yds-tasks" sensor-tasks.txt
}

jobs_after_the_horizon() {
	# big needs the speed 1000, and without it 24 are enough.
	printf 'horizon 1000\ntask small 0 100 10 24\ntask big 500 1000 600 600000\n' >"$work/big"
	refuses "tasks: a job that is due after the horizon" 1 failed "yds-tasks: a task has jobs that are not due by the horizon 1000: big, 1 of 1 jobs, work 600000; give a longer horizon, and with --lost cut a document without these jobs" \
		tasks "$work/big"
	tasks --lost cut "$work/big" >"$work/cut"
	written "tasks: and is told" 0 "# not due by 1000: big, 1 of 1 jobs, work 600000
# no period: jobs are missing" grep '^#' "$work/cut"
	printf 'horizon 1000\ntask big 500 1000 600 600000\n' >"$work/alone"
	refuses "tasks: a document without a job" 1 failed "yds-tasks: no job is due by the horizon" tasks --lost cut "$work/alone"
	printf 'horizon 1000\ntask a 0 300 300 24\ntask b 0 10 25 2\n' >"$work/multiple"
	refuses "tasks: the horizon that would do" 1 failed "yds-tasks: 2 tasks have jobs that are not due by the horizon 1000: a, 1 of 4 jobs, work 24; and more; give a longer horizon, and with --lost cut a document without these jobs" \
		tasks "$work/multiple"
	grep -v 'task b' "$work/multiple" >"$work/one"
	refuses "tasks: a multiple of the periods would do" 1 failed "yds-tasks: a task has jobs that are not due by the horizon 1000: a, 1 of 4 jobs, work 24; give a horizon that is a multiple of the periods, as 1200, or --lost cut" \
		tasks "$work/one"
	printf 'horizon 1000\ntask a 0 100 50 24\ntask b 1500 1000 50 24\n' >"$work/later"
	tasks --lost cut "$work/later" >"$work/cut"
	if grep -qx '# not due by 1000: b, released first at 1500' "$work/cut"; then pass; else fail "tasks: a task that isn't released by the horizon"; fi
	# As many jobs and as much work as expand has with a longer horizon, released before this one and due after it.
	seed=1
	while [ $seed -le 40 ]; do
		$AWK -v seed=$seed 'function draw(n) { state = (1664525 * state + 1013904223) % 4294967296; return int(state / 65536) % n }
			BEGIN { state = seed; print "horizon " 40 + draw(60); for (t = 0; t < 4; t++) print "task t" t, draw(50), 1 + draw(20), 1 + draw(60), draw(9) }' >"$work/drawn"
		horizon=$(sed -n 's/^horizon //p' "$work/drawn")
		sed 's/^horizon.*/horizon 400/' "$work/drawn" | "$YDS" expand | $AWK -v horizon="$horizon" '$1 == "job" && $3 < horizon {
			name = $2; sub(/\..*/, "", name); released[name]++; if ($4 > horizon) { lost[name]++; work[name] += $5 } }
			END { for (t = 0; t < 4; t++) if (lost["t" t]) print "# not due by " horizon ": t" t ", " lost["t" t] " of " released["t" t] " jobs, work " work["t" t] }' >"$work/wanted"
		tasks --lost cut "$work/drawn" 2>"$work/err" | grep '^# not due' | grep -v 'released first' >"$work/told"
		if ! cmp -s "$work/wanted" "$work/told" && ! grep -q 'no job is due' "$work/err"; then
			fail "tasks: the lost jobs of seed $seed"
			diff "$work/wanted" "$work/told"
			break
		fi
		seed=$((seed + 1))
	done
	[ $seed -le 40 ] || pass
	rtapp -m 1416 -c 0 workload.json | tasks --lost cut | grep 'not due' >"$work/told"
	rtapp -m 1416 -c 0 -j workload.json | grep 'not due' >"$work/told-jobs"
	written "tasks: of a workload" 0 "# not due by 100000: decode, 1 of 31 jobs, work 92040
# not due by 100000: audio, 1 of 100 jobs, work 12036" cat "$work/told"
	written "rtapp: jobs that are due after the duration" 0 "$(cat "$work/told")" cat "$work/told-jobs"
}

horizons_without_a_period() {
	printf 'horizon 1000\ntask a 0 300 50 24\n' >"$work/odd"
	answers "tasks: a horizon that is no multiple of a period" 0 "# no period: the horizon 1000 is no multiple of 300, the period of a" tasks "$work/odd"
	printf 'horizon 3000\ntask a 0 100 50 24\ntask b 1500 1000 50 24\n' >"$work/late"
	answers "tasks: a task whose first period is without it" 0 "# no period: b is released first at 1500, after its period 1000" tasks "$work/late"
}
