# battery.sh: read by test.sh. Hours on a battery: the period, and whose points they are. Expected values are worked by hand.

# hours NAME SIDE MILLIWATTS HOURS COMMAND ..: the row of a side.
hours() {
	name=$1 side=$2 wanted="$2	$3	$4"
	shift 4
	"$@" >"$work/out" 2>"$work/err"
	if [ "$(grep "^$side	" "$work/out" | cut -f1-3)" = "$wanted" ]; then pass; return; fi
	fail "$name: $(grep "^$side	" "$work/out")"
	cat "$work/err"
}
battery() { tool battery --mah 220 --volts 3 "$@"; }

test_battery() {
	want expand compare || return
	# A sensor that works once a second, and is due after 50 ms. Asleep it draws 6 uW, at 16 MHz 4800: 43.75 ms of each second for 700 units
	# of work, so 210 + 5.7375 uW and 660 mWh / 0.2157375 mW = 3059.27 hours. By turns at 0 and 48 MHz, 14.583 ms at 13800: 207.16 uW.
	printf 'MHz,mA\n0,0.002\n4,0.5\n16,1.6\n48,4.6\n' | points --khz 1000 --uw 1 --volts 3 >"$work/points"
	for horizon in 1000 2000 10000; do
		printf 'horizon %s\ntask sense 0 1000 50 700\n' $horizon >"$work/tasks"
		tool tasks "$work/tasks" >"$work/jobs"
		cat "$work/points" "$work/jobs" >"$work/device"
		"$YDS" compare --grid 1000 <"$work/device" >"$work/energies"
		energy --at 16 "$work/device" >>"$work/energies"
		hours "battery: asleep after the last deadline, horizon $horizon" plan 0.207 3185.9 battery "$work/device" "$work/energies"
		hours "battery: at 16 MHz, horizon $horizon" at-16 0.216 3059.3 battery "$work/device" "$work/energies"
		grep -v '^# period' "$work/device" >"$work/untold"
		refuses "battery: no period, horizon $horizon" 2 "" \
			"yds-battery: no period is told; give --period, after how many units of time all begins again, or the document of yds-tasks, which tells it, before the lines; see yds-battery --help" \
			battery "$work/untold" "$work/energies"
		hours "battery: --period, horizon $horizon" at-16 0.216 3059.3 battery --period $horizon "$work/untold" "$work/energies"
	done
	refuses "battery: another period than the document's" 2 "" "yds-battery: --period 1000, and the document's is 10000; leave the option out; see yds-battery --help" battery --period 1000 "$work/device" "$work/energies"
	refuses "battery: a period that is too short" 1 "" "yds-battery: the side plan takes 9050 units of time, and the period is 9000" battery --period 9000 "$work/points" "$work/energies"
	refuses "battery: without the power of the rest" 1 "" \
		"yds-battery: the side plan takes 9050 of the 10000 units of time of the period; give the points before the lines, whose first has the power of the rest" \
		battery --uw 1 --period=10000 "$work/energies"
	one_period_and_three
	jobs_that_are_missing
	points_of_another_device
	refuses "battery: no energy" 1 "" "yds-battery: no energy line; is this the answer of compare?" battery --period 1000 "$work/device"
	refuses "battery: no number of the period" 2 "" "yds-battery: --period 0 is no number above 0; see yds-battery --help" battery --period 0 "$work/device"
	printf 'job energy 0 5 0\njob time 0 5 0\n' | cat "$work/device" - >"$work/named"
	hours "battery: jobs with the names of lines" plan 0.207 3185.9 battery "$work/named" "$work/energies"
}

# What is least in one period is least for ever: drawn tasks have the same hours with one period as with three, for each side.
one_period_and_three() {
	seed=1
	while [ $seed -le 10 ]; do
		for horizon in 120 360; do
			$AWK -v seed=$seed -v horizon=$horizon 'function draw(n) { state = (1664525 * state + 1013904223) % 4294967296; return int(state / 65536) % n }
				BEGIN { state = seed; print "horizon " horizon
					for (t = 0; t < 3; t++) { period = 10 * (1 + draw(4)); if (120 % period) period = 60; offset = draw(period / 2); print "task t" t, offset, period, 1 + draw(period - offset), 1 + draw(40) } }' >"$work/drawn"
			tool tasks "$work/drawn" >"$work/jobs"
			printf '# table: speed unit 1000 kHz, power unit 10 uW\npoint 0 7\npoint 40 900\npoint 200 9000\n' | cat - "$work/jobs" >"$work/drawn-device"
			"$YDS" compare --grid 720720 <"$work/drawn-device" >"$work/drawn-energies"
			energy --at 200 "$work/drawn-device" >>"$work/drawn-energies"
			battery "$work/drawn-device" "$work/drawn-energies" >"$work/hours-$horizon" 2>&1
		done
		if ! cmp -s "$work/hours-120" "$work/hours-360" || [ "$(wc -l <"$work/hours-120")" != 5 ]; then
			fail "battery: one period and three, seed $seed"
			head -n 3 "$work/hours-120" "$work/hours-360"
			return
		fi
		seed=$((seed + 1))
	done
	pass
}

# fast and slow: in 16 periods of fast, slow is due once, and with a horizon of 1000 never.
jobs_that_are_missing() {
	printf 'horizon 1000\ntask fast 0 10 10 10\ntask slow 500 1000 1000 8000\n' >"$work/tasks"
	tool tasks --lost cut "$work/tasks" >"$work/jobs"
	cat "$work/points" "$work/jobs" >"$work/cut"
	"$YDS" compare --grid 1000 <"$work/cut" >"$work/cut-energies"
	refuses "battery: jobs are missing" 2 "" \
		"yds-battery: no period is told (no period: jobs are missing); give --period, after how many units of time all begins again, or the document of yds-tasks, which tells it, before the lines; see yds-battery --help" \
		battery "$work/cut" "$work/cut-energies"
	answers "battery: jobs are missing, and told" 0 "# not due by 1000: slow, 1 of 1 jobs, work 8000: this energy is in no line" \
		eval "tool battery --mah 220 --volts 3 --period 1000 '$work/cut' '$work/cut-energies' | tail -n 1"
	cat "$expected/points.txt" "$expected/document-starving.txt" >"$work/starving"
	printf 'plan energy 9\nplan time 0 3125+7/100\nplan time 100 2024+93/100\n' >"$work/plan"
	answers "battery: jobs that a trace's document hasn't" 0 "# 3 jobs were left out of the document, with their energy" \
		eval "tool battery --mah 220 --volts 3 --uw 1 --period=5150 '$expected/document-lost.txt' '$work/plan' | tail -n 1"
	printf 'plan energy 9\nplan time 0 1399+49/50\nplan time 100 300+1/50\n' >"$work/plan"
	answers "battery: jobs that never ended" 0 "# the work of 2 jobs isn't known, since they never ended or have no runs: what serves them whole may spend more and be later, the first render.0" \
		eval "tool battery --mah 220 --volts 3 --uw 1 --period=1700 '$expected/document-starving.txt' '$work/plan' | tail -n 1"
}

points_of_another_device() {
	sed 's/^point 16 4800/point 16 4900/' "$work/points" >"$work/other"
	refuses "battery: the points file isn't the document's" 1 "" \
		"yds-battery: $work/other, line 4: the points differ: point 16 4900 here, and point 16 4800 before; give the points of one device" battery "$work/device" "$work/other" "$work/energies"
	refuses "battery: the points aren't those of the energies" 1 "" \
		"yds-battery: the energy of at-16 isn't power times time on these points; give the points with which the energies were made" \
		battery --period 10000 "$work/other" "$work/energies"
	grep -v '^point 4 ' "$work/points" >"$work/other"
	refuses "battery: a speed that the points haven't" 1 "" "yds-battery: no point has the speed 4 of plan; give the points with which the energies were made" \
		battery --period 10000 "$work/other" "$work/energies"
	echo 'point 64 20000' | cat "$work/points" - >"$work/other"
	refuses "battery: a speed that the energies haven't" 1 "" \
		"yds-battery: the energy of plan isn't power times time on these points; give the points with which the energies were made" \
		battery --period 10000 "$work/other" "$work/energies"
	grep -v '^point 48' "$work/points" >"$work/other"
	refuses "battery: fewer points" 1 "" "yds-battery: the points differ: 4 of them and then 3; give the points of one device" battery "$work/device" "$work/other" "$work/energies"
	sed 's/power unit 1 uW/power unit 10 uW/' "$work/points" >"$work/other"
	refuses "battery: two units of power" 1 "" "yds-battery: $work/other, line 1, column 31: a unit of power of 10 uW here and 1 uW before; give the points of one --uw" \
		battery "$work/device" "$work/other" "$work/energies"
	refuses "battery: uw= beside the points" 2 "" "yds-battery: --uw 10, and the points' unit of power is 1 uW; leave the option out; see yds-battery --help" battery --uw 10 "$work/device" "$work/energies"
	(cat "$work/device" && echo "# period 5000") >"$work/other"
	refuses "battery: two periods" 1 "" "yds-battery: $work/other, line 19, column 10: the period 5000 here and 10000 before; give one document" battery "$work/other" "$work/energies"
	hours "battery: the points behind the energies" at-16 0.216 3059.3 battery "$work/energies" "$work/device"
	hours "battery: the points twice" at-16 0.216 3059.3 battery "$work/points" "$work/device" "$work/energies"
}
