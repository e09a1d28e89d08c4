# datasheet.sh: read by test.sh. What the recipes for datasheets, policies and other programs' schedules once passed over in silence:
# idle power, units of a heading, deadlines missed at one speed, means that count a failure as 0, draws that each awk makes anew, decimals.
# Expected values are worked by hand, or come from the program (admit, trial, audit, check), from a simulation unit by unit, from GLPK or from jq.

# text NAME STATUS OUTPUT COMMAND ..: the status, and the whole standard output as a text.
text() {
	name=$1 status=$2 output=$3
	shift 3
	"$@" >"$work/out" 2>"$work/err"
	got=$?
	if [ $got = "$status" ] && [ "$(cat "$work/out")" = "$output" ]; then pass; return; fi
	fail "$name (status $got)"
	echo "wanted: $output"
	head -n 5 "$work/out" "$work/err"
}
test_datasheet() {
	units_of_a_datasheet
	idle_power
	units_of_a_heading
	deadlines_missed
	means
	draws
	more_work
	schedules
	what_check_found
	tables
}

# 48 MHz isn't 50: a job of 490,000 cycles in 10 ms is late at 48.
units_of_a_datasheet() {
	printf 'MHz,mW\n0,1\n48,20.4\n' >"$work/part"
	text "units: what divides all speeds" 0 "# table: speed unit 48000 kHz, power unit 1000 uW
point 0 1
point 1 20
# rounded: 20.4 mW at 48 MHz to 20 mW" points "$work/part"
	text "units: a speed that is moved is told" 0 "# table: speed unit 10000 kHz, power unit 100 uW
point 0 10
point 5 204
# rounded: 48 MHz to 50 MHz" points --khz 10000 --uw 100 "$work/part"
	text "units: an idle power that is moved is told" 0 "# table: speed unit 48000 kHz, power unit 50 uW
point 0 11
point 1 408
# rounded: 0.528 mW idle to 0.55 mW" eval "grep -v '^0' '$work/part' | tool points --idle 0.528 --uw 50"
	printf 'MHz,mW\n0,1\n2.67,10\n5.33,20\n16,90\n' >"$work/part"
	text "units: decimals of a megahertz" 0 "# table: speed unit 10 kHz, power unit 1000 uW
point 0 1
point 267 10
point 533 20
point 1600 90" points "$work/part"
	# 1.005 * 1000 is a little less than 1005 where decimals are rounded to binary places.
	printf 'MHz,mW\n0,1\n1.005,10\n2.01,30\n' >"$work/part"
	text "units: a decimal that is no binary fraction" 0 "# table: speed unit 1005 kHz, power unit 1000 uW
point 0 1
point 1 10
point 2 30" points "$work/part"
	# 240,000 units of 1 kHz are too many, and no greater unit divides both.
	printf 'kHz,mW\n0,1\n10001,10\n240000,290\n' >"$work/part"
	text "units: no unit divides all speeds" 0 "# table: speed unit 10000 kHz, power unit 1000 uW
point 0 1
point 1 10
point 24 290
# rounded: 10.001 MHz to 10 MHz" points "$work/part"
	# In units of 1 MHz the gaps of this table are too fine; in those of 10 MHz its speeds are moved.
	printf 'MHz,mW\n0,1\n803,10\n1604,40\n2404,90\n3203,160\n4000,250\n' >"$work/part"
	text "units: gaps too fine for what divides all speeds" 0 "# table: speed unit 10000 kHz, power unit 1000 uW
point 0 1
point 80 10
point 160 40
point 240 90
point 320 160
point 400 250
# rounded: 803 MHz to 800 MHz
# rounded: 1604 MHz to 1600 MHz
# rounded: 2404 MHz to 2400 MHz
# rounded: 3203 MHz to 3200 MHz" points "$work/part"
	printf 'kHz,uW\n0,1\n32.768,30\n' >"$work/part"
	refuses "units: a clock of a watch" 1 failed "yds-points: 32.768 kHz is speed 0; give a finer --khz, as --khz 1" points --uw 1 "$work/part"
	text "units: a clock of a watch in units of 8 kHz" 0 "# table: speed unit 8 kHz, power unit 1 uW
point 0 1
point 4 30
# rounded: 0.032768 MHz to 0.032 MHz" points --uw 1 --khz 8 "$work/part"
}

idle_power() {
	printf '48,138\n' >"$work/one"
	refuses "idle: rounded away" 1 failed \
		"yds-points: idle draws 0.396 mW, and 0 units of 1000 uW are more than a twentieth off; give a finer --uw, as --uw 200" points --khz 1000 --idle 0.396 "$work/one"
	refuses "idle: doubled" 1 failed \
		"yds-points: idle draws 0.528 mW, and 1 units of 1000 uW are more than a twentieth off; give a finer --uw, as --uw 50" points --khz 1000 --idle 0.528 "$work/one"
	printf 'MHz,mA\n0,0.0003\n48,4.6\n' >"$work/sleep"
	refuses "idle: a line of 0 MHz" 1 failed \
		"yds-points: idle draws 0.0009 mW, and 0 units of 1000 uW are more than a twentieth off; give a finer --uw, as --uw 0.1" points --khz 1000 --volts 3 "$work/sleep"
	text "idle: none is given" 0 "# table: speed unit 48000 kHz, power unit 1000 uW
point 0 0
point 1 138
# no idle power is given: idle draws 0" points "$work/one"
	text "idle: 0 is given" 0 "# table: speed unit 48000 kHz, power unit 1000 uW
point 0 0
point 1 138" points --idle 0 "$work/one"
	# 2, 16 and 48 MHz lie above the lines 0 to 26 and 26 to 80; a plan spends no time there.
	printf 'MHz,mW\n0,0\n2,30\n16,100\n26,110\n48,800\n80,900\n' >"$work/above"
	text "points: what no plan uses" 0 "# table: speed unit 2000 kHz, power unit 1000 uW
point 0 0
point 1 30
point 8 100
point 13 110
point 24 800
point 40 900
# never used: point 1, since 0 and 13 by turns do the same work in the same time for less energy
# never used: point 8, since 0 and 13 by turns do the same work in the same time for less energy
# never used: point 24, since 13 and 40 by turns do the same work in the same time for less energy" points "$work/above"
	# A point on the line isn't above it.
	printf 'MHz,mW\n0,0\n1,10\n2,20\n' | points --khz 1000 >"$work/line"
	if grep -q 'never used' "$work/line"; then fail "points: a point on the line is told as above it"; else pass; fi
	if want compare; then
		(points "$work/above" && printf 'job a 0 10 50\njob b 10 20 150\njob c 20 30 300\n') >"$work/drawn"
		"$YDS" compare --grid 1 <"$work/drawn" | grep '^plan time' >"$work/times"
		text "points: a plan uses all others" 0 "plan time 1 0
plan time 8 0
plan time 24 0" grep ' 0$' "$work/times"
	fi
	text "idle: below a microwatt" 0 "# table: speed unit 1000 kHz, power unit 0.1 uW
point 0 9
point 48 138000" points --khz 1000 --volts 3 --uw 0.1 "$work/sleep"
	refuses "idle: no unit holds both" 1 failed \
		"yds-points: idle draws 0.0001 mW, and 0 units of 1000 uW are more than a twentieth off; and no --uw is fine enough for it and coarse enough for 138 mW, 1000000 units at most; leave one of the two out" \
		points --khz 1000 --idle 0.0001 "$work/one"
	printf '0,1\n48,138\n' >"$work/idle"
	refuses "idle: said twice" 1 failed "yds-points: $work/idle, line 1: --idle and a line of 0 MHz; leave one of them out" points --khz 1000 --idle 1 "$work/idle"
	points --khz 1000 --volts 3 --uw 0.1 "$work/sleep" >"$work/fine"
	printf 'plan energy 9\nplan time 0 1\nplan time 48 0\n' | cat "$work/fine" - >"$work/hours"
	text "battery: a unit below a microwatt" 0 "side	milliwatts	hours	of plan (%)
plan	0.001	666666.7	100.0" tool battery --mah 200 --volts 3 --period 1 "$work/hours"
}

units_of_a_heading() {
	# 1.6 mA at 16 MHz are 100 uA for each MHz, 4.6 mA at 48 MHz 95.8333, 8.5 mA at 80 MHz 106.25.
	printf 'MHz,mA\n16,1.6\n48,4.6\n80,8.5\n' >"$work/mA"
	points --khz 1000 --uw 10 --volts 3.0 "$work/mA" >"$work/wanted"
	printf 'MHz,uA/MHz\n16,100\n48,95.8333\n80,106.25\n' >"$work/each"
	# 95.8333 uA for each MHz are 4599.9984 uA at 48 MHz, and 13.7999952 mW.
	sed '/^point 80/a # rounded: 13.7999952 mW at 48 MHz to 13.8 mW' "$work/wanted" >"$work/wanted-each"
	text "units: uA/MHz" 0 "$(cat "$work/wanted-each")" points --khz 1000 --uw 10 --volts 3.0 "$work/each"
	printf 'Clock (MHz)\tI (\302\265A / MHz)\n16\t100\n48\t95.8333\n80\t106.25\n' >"$work/each"
	text "units: with a mu and spaces" 0 "$(cat "$work/wanted-each")" points --khz 1000 --uw 10 --volts 3.0 "$work/each"
	printf 'MHz,W\n16,0.0048\n48,0.0138\n80,0.0255\n' >"$work/watts"
	text "units: W" 0 "$(cat "$work/wanted")" points --khz 1000 --uw 10 "$work/watts"
	printf 'uA,kHz\n1600,16000\n4600,48000\n8500,80000\n' >"$work/kHz"
	text "units: uA, and kHz in the second column" 0 "$(cat "$work/wanted")" points --khz 1000 --uw 10 --volts 3.0 "$work/kHz"
	printf 'MHz,mA,V\n0,0.04,3\n16,1.6,3.0\n48,5,1.8\n' >"$work/three"
	text "units: three columns" 0 "# table: speed unit 1000 kHz, power unit 10 uW
point 0 12
point 16 480
point 48 900
# never used: point 16, since 0 and 48 by turns do the same work in the same time for less energy" points --khz 1000 --uw 10 "$work/three"
	known="give each column one that is known, as MHz,mW or MHz,mA or MHz,uA/MHz or MHz,mA,V"
	printf 'MHz,hp\n48,138\n' >"$work/bad"
	refuses "units: not known" 1 failed "yds-points: $work/bad, line 1: the heading says the units MHz; $known" points "$work/bad"
	printf 'clock,power\n48,138\n' >"$work/bad"
	refuses "units: none" 1 failed "yds-points: $work/bad, line 1: the heading says no unit; $known" points "$work/bad"
	printf 'MHz,mA,mW\n48,138,9\n' >"$work/bad"
	refuses "units: current and power" 1 failed "yds-points: $work/bad, line 1: the heading says the units MHz, mA, mW; $known" points --volts 3 "$work/bad"
	refuses "units: two voltages" 1 failed "yds-points: $work/three, line 1: --volts and a column of volts; leave one of them out" points --volts 3 "$work/three"
	# A heading is read whole: a sign or a word that may change a unit is refused.
	sign="write it in plain letters, micro as u"
	word="which isn't known; give each column a name of letters and its unit, as Current (mA)"
	printf 'MHz;\265W\r\n1;26\r\n2;96\r\n' >"$work/bad"
	refuses "units: a micro of another encoding" 1 failed "yds-points: $work/bad, line 1: the heading has a sign that isn't known, written here as ?: MHz;?W; $sign" points --khz 1000 "$work/bad"
	printf 'MHz;I (\265A/MHz)\n1;26\n' >"$work/bad"
	refuses "units: a micro of another encoding, for each MHz" 1 failed \
		"yds-points: $work/bad, line 1: the heading has a sign that isn't known, written here as ?: MHz;I (?A/MHz); $sign" points --khz 1000 --volts 3 "$work/bad"
	for try in "micro@MHz,micro W" "x@MHz,W x 10" "10^3@MHz,10^3 W" "100@MHz,100 mW" "thousandths@MHz,W (thousandths)" "u@MHz,u W"; do
		printf '%s\n1,26\n' "${try#*@}" >"$work/bad"
		refuses "units: ${try#*@}" 1 failed "yds-points: $work/bad, line 1: the heading says ${try%@*}, $word" points --khz 1000 "$work/bad"
	done
	printf 'MHz,MW\n1,26\n' >"$work/bad"
	refuses "units: megawatts" 1 failed "yds-points: $work/bad, line 1: the heading says MW; is that mW?" points --khz 1000 "$work/bad"
	printf 'mHz,mW\n1,26\n' >"$work/bad"
	refuses "units: millihertz" 1 failed "yds-points: $work/bad, line 1: the heading says mHz; is that MHz?" points --khz 1000 "$work/bad"
	printf 'f [MHz]\tP_idle (\316\274W)\n0\t2000\n1\t26000\n' >"$work/each"
	text "units: names of columns" 0 "# table: speed unit 1000 kHz, power unit 1000 uW
point 0 2
point 1 26" points --khz 1000 "$work/each"
	printf 'MHz,mA,V\n48,138\n' >"$work/bad"
	refuses "units: a column is missing" 1 failed "yds-points: $work/bad, line 2: 2 columns, and the heading has the units of 3" points "$work/bad"
	printf 'MHz,uA/MHz\n0,40\n48,100\n' >"$work/bad"
	refuses "units: for each MHz at 0 MHz" 1 failed "yds-points: $work/bad, line 2: at 0 MHz so much for each MHz is nothing; leave the line out and give --idle" points --volts 3 "$work/bad"
	printf 'MHz,mW\n48,138\n16,40\n48,140\n' >"$work/bad"
	refuses "points: a frequency twice" 1 failed "yds-points: $work/bad, line 4: 48 MHz stands on line 2 too; leave one of them out" points --khz 1000 "$work/bad"
	awk '{ print } /opp-hz = / && !n++ { again = $0 } /};/ && n == 1 && again != "" { print "\t\topp-again {\n" again "\n\t\t\topp-microvolt = <9>;\n\t\t};"; n++ }' opp.dtsi >"$work/twice.dtsi"
	refuses "points: a state of a device tree twice" 1 failed "yds-points: $work/twice.dtsi, line 16: 408000000 Hz stands twice in cluster0_opp; leave out the one that isn't your chip's" \
		points --coefficient 100 --domain cluster0_opp "$work/twice.dtsi"
	refuses "points: top= beside powers" 1 failed "yds-points: --top is for frequencies alone, and this is an energy model; leave it out" points --domain cpu0 --top 100 energy-model.txt
	refuses "points: coefficient= beside powers" 1 failed "yds-points: --coefficient has no effect: every state of cpu0 has a power; leave it out" \
		points --domain cpu0 --coefficient 100 energy-model.txt
	refuses "points: volts= without currents" 1 failed "yds-points: --volts is for a table of currents, and this is an energy model; leave it out" points --domain cpu0 --volts 3 energy-model.txt
}

# The jobs that miss, each served earliest deadline first at a speed, one unit of work after another.
unit_by_unit='
	$1 == "job" { n++; name[n] = $2; release[n] = $3 * speed; deadline[n] = $4 * speed; left[n] = $5; work += $5; if (release[n] > last) last = release[n] }
	END {
		for (now = 0; now < last + work; now++) {
			next_one = 0
			for (i = 1; i <= n; i++) if (release[i] <= now && left[i] > 0 && (!next_one || deadline[i] < deadline[next_one])) next_one = i
			if (next_one && !--left[next_one] && now + 1 > deadline[next_one]) late[next_one] = 1
		}
		for (i = 1; i <= n; i++) if (i in late) { misses++; if (!first || deadline[i] < deadline[first]) first = i }
		if (misses) print "# at-" speed " misses " misses (misses > 1 ? " deadlines" : " deadline") ", the first " name[first]
	}'

deadlines_missed() {
	# 30 units of a from 0 to 3, 60 of c from 8 to 14, due at 12: energy 20 * 9 running, 1 * 5 idle.
	printf 'point 0 1\npoint 10 20\npoint 20 60\njob a 0 10 30\njob c 8 12 60\n' >"$work/at"
	text "energy: one speed misses a deadline" 1 "at-10 energy 185
at-10 time 0 5
at-10 time 10 9
at-10 time 20 0
# at-10 changes 4, wakes 2
# at-10 misses 1 deadline, the first c" energy --at 10 "$work/at"
	text "energy: one speed meets all" 0 "at-20 energy 277+1/2
at-20 time 0 7+1/2
at-20 time 10 0
at-20 time 20 4+1/2
# at-20 changes 4, wakes 2" energy --at 20 "$work/at"
	# The run that the document has is late. At the speed 10 the job takes one unit of time of its ten: nothing is missed.
	printf 'point 0 0\npoint 1 1\npoint 10 100\njob a 0 10 10\nticks 1\nrun a 5 15 1\n' >"$work/late-run"
	text "energy: one speed doesn't miss what the trace missed" 0 "at-10 energy 100
at-10 time 0 9
at-10 time 1 0
at-10 time 10 1
# at-10 changes 2, wakes 1" energy --at 10 "$work/late-run"
	text "energy: the trace itself missed it" 1 "trace energy 10
trace time 0 5
trace time 1 10
trace time 10 0
# trace misses 1 deadline, the first a" energy "$work/late-run"
	sed 's/^ticks.*/slot a 5 15 10/; /^run/d' "$work/late-run" >"$work/late-slot"
	text "energy: one speed doesn't miss what the slots missed" 0 "at-10 energy 100" eval "energy --at 10 '$work/late-slot' | head -n 1"
	energy --at 10 "$work/late-slot" | grep misses >"$work/told"
	if [ -s "$work/told" ]; then fail "energy: the slots' miss is told of another speed"; else pass; fi
	# At the speed 1 the job takes all of its ten units of time, and misses nothing either.
	answers "energy: one speed meets the deadline just so" 0 "at-1 energy 10" energy --at 1 "$work/late-run"
	# What reads these lines gives that side its energy.
	(printf 'plan energy 50\nplan time 0 5\nplan time 1 0\nplan time 10 5\n' && energy --name flat-out --at 10 "$work/late-run" && energy "$work/late-run") >"$work/lines"
	text "collect: one speed of a late trace has its energy" 0 "document	plan	avr	oa	flat-out	trace	rounded	answer
lines	50.000000	-	-	100.000000	-	-	ok
# lines: trace misses 1 deadline, the first a" tool collect "$work/lines"
	tool collect "$work/lines" >"$work/lines.tsv"
	text "summary: one speed of a late trace misses nothing" 0 "side	documents	too slow	misses	without	mean	median	greatest	in
avr	0	1	0	0	-	-	-	-
oa	0	1	0	0	-	-	-	-
flat-out	1	0	0	0	2.00000	2.00000	2.00000	lines
trace	0	0	1	0	-	-	-	-
# 1 documents, 1 compared" tool summary "$work/lines.tsv"
	seed=1
	while [ $seed -le 40 ]; do
		(printf 'point 0 1\npoint 3 9\n' && tool draw --seed $seed --jobs 12 --release 60 --window 20 --work 9) >"$work/drawn"
		energy --at 3 "$work/drawn" >"$work/out" 2>/dev/null
		got=$?
		told=$(grep misses "$work/out")
		[ "$told" = "$($AWK -v speed=3 "$unit_by_unit" "$work/drawn")" ] && [ $got = "$([ -z "$told" ]; echo $?)" ] || { fail "energy: misses of seed $seed: $told"; break; }
		seed=$((seed + 1))
	done
	[ $seed -le 40 ] || pass
	if want admit; then
		for seed in 1 2 3 4 5 6 7 8 9 10; do
			(printf 'point 0 1\npoint 2 9\n' && tool draw --seed $seed --jobs 100) >"$work/drawn"
			for top in 2 1 3 4; do
				sed "s/^point 2/point $top/" "$work/drawn" >"$work/top"
				energy --at $top "$work/top" >/dev/null 2>&1
				got=$?
				"$YDS" admit $top <"$work/top" | grep -q '^# refuse'
				[ $? != $got ] || { fail "energy: at=$top and admit don't agree on seed $seed"; break 2; }
			done
		done
		[ $got -gt 1 ] || pass
	fi
	cat "$expected/points.txt" "$expected/document-late.txt" >"$work/late"
	energy --name governor "$work/late" >"$work/priced"
	got=$?
	if [ $got = 1 ] && [ "$(tail -n 1 "$work/priced")" = "# governor misses 1 deadline, the first decode.2" ]; then pass; else fail "energy: a trace that misses"; fi
	printf 'point 0 1\npoint 10 20\njob a 0 10 30\njob b 0 9 10\nrun a 0 2 10\n' | sed '/^job b/a ticks 1' >"$work/starved"
	text "energy: jobs that starve" 1 "trace energy 48
trace time 0 8
trace time 10 2
# trace misses 2 deadlines, the first b" energy "$work/starved"
	# What the trace's comments tell: jobs that ran elsewhere, and one late by less than a unit, as yds-misses counts them.
	for sample in elsewhere short-late starving lost; do
		printf 'point 0 1\npoint 100 20\npoint 200 90\n' | cat - "$expected/document-$sample.txt" >"$work/told"
		told=$(energy "$work/told" | sed -n 's/^# trace misses \([0-9]*\) .*/\1/p')
		counted=$(tool misses "$expected/document-$sample.txt" | sed -n 's/^\([0-9]*\) missed deadlines*$/\1/p')
		if [ "$told" = "$counted" ]; then pass; else fail "energy: $sample misses $told, yds-misses says $counted"; fi
	done
	energy "$work/told" >"$work/lost"
	answers "energy: jobs that are left out" 0 "# 3 jobs were left out of the document, with their energy" tail -n 2 "$work/lost"
	answers "energy: events that were lost" 0 "# places where events were lost: 1: what ran there is in no line" tail -n 1 "$work/lost"
	printf 'point 0 1\npoint 10 20\njob a 0 10 30\nslot a 0 2 20\nslot a 1 2 10\n' >"$work/over"
	refuses "energy: slots that overlap" 1 "" "yds-energy: $work/over, line 5, column 8: it begins before the slot above it has ended; sort them, or see what yds_cli audit says" energy "$work/over"
	printf 'point 0 1\npoint 10 20\njob a 0 10 30\nslot b 0 2 20\n' >"$work/over"
	refuses "energy: a slot of no job" 1 "" "yds-energy: $work/over, line 4, column 6: no job b stands before this slot" energy "$work/over"
	printf 'plan energy 100\nplan time 0 10\n' | cat - "$work/priced" >"$work/sides"
	text "battery: a side that misses" 0 "side	milliwatts	hours	of plan (%)
plan	0.100	6600.0	100.0
governor	misses 1	-	-" tool battery --mah 220 --volts 3 --uw 10 --period 10 "$work/sides"
	text "collect: a side that misses" 0 "document	plan	avr	oa	governor	rounded	answer
sides	100.000000	-	-	-	-	ok
# sides: governor misses 1 deadline, the first decode.2" tool collect "$work/sides"
}

means() {
	# avr: 1.5, 1, 1.1 of the three that it serves; own: 1.2, 1.4 of two, one late, one without.
	printf '%s\n' 'document plan avr oa own rounded answer' 'a 10.000000 15.000000 10.000000 12.000000 0 ok' 'b 20.000000 - 21.000000 - 0 ok' \
		'c 4.000000 4.000000 6.000000 - 3 ok' 'd 10.000000 11.000000 10.000000 14.000000 0 ok' 'e - - - - - refused_1_9_EmptyWindow' \
		'f - - - - - too-slow_work_100_length_1_top_5' 'g 0.000000 0.000000 0.000000 0.000000 0 ok' 'h - - - - - no_answer' | tr ' _' '\t ' >"$work/energies"
	printf '# b: own misses 2 deadlines, the first x: y\n# f: own misses 1 deadline, the first z\n' >>"$work/energies"
	text "summary" 0 "side	documents	too slow	misses	without	mean	median	greatest	in
avr	3	1	0	0	1.20000	1.10000	1.50000	a
oa	4	0	0	0	1.13750	1.02500	1.50000	c
own	2	0	1	1	1.30000	1.30000	1.40000	d
# 8 documents, 4 compared, 1 refused, 1 too fast for their points, by any schedule, 1 with a plan that spends nothing, 1 without an answer
# in 1 of them a policy was rounded to the grid, so its energy isn't quite the policy's own; see the column rounded" tool summary "$work/energies"
	text "summary: only what all sides serve" 0 "side	documents	too slow	misses	without	mean	median	greatest	in
avr	2	0	0	0	1.30000	1.30000	1.50000	a
oa	2	0	0	0	1.00000	1.00000	1.00000	a
own	2	0	0	0	1.30000	1.30000	1.40000	d
# 8 documents, 2 compared, 1 refused, 1 too fast for their points, by any schedule, 1 with a plan that spends nothing, 2 in which a side has no energy, 1 without an answer" \
		tool summary --common "$work/energies"
	printf 'flat energy 9\nflat time 0 3\n' >"$work/alone.txt"
	text "collect: no answer of compare beside another side" 0 "document	plan	avr	oa	flat	rounded	answer
alone	-	-	-	9.000000	-	no answer" tool collect "$work/alone.txt"
	refuses "summary: another table" 1 "" "yds-summary: workload.json, line 1: no columns document, plan and answer; is this the table of yds-collect?" tool summary workload.json
	refuses "summary: no table" 1 "" "yds-summary: no table; is this the table of yds-collect?" tool summary /dev/null
	# The mean of many is that of a sum in a loop, and the median that of sort.
	$AWK 'BEGIN { print "document\tplan\tavr\toa\trounded\tanswer"; for (i = 0; i < 501; i++) printf "d%d\t1000\t%d\t1000\t0\tok\n", i, 1000 + (i * 7919) % 501 }' >"$work/many"
	answers "summary: of many" 0 "avr	501	0	0	0	1.25000	1.25000	1.50000" eval "tool summary '$work/many' | sed 1d | cut -f1-8"
}

draws() {
	answers "draw: the first job of the seed 0" 0 "job j0 154700 172957 53709" eval "tool draw --jobs 1 | sed 1d"
	answers "draw: in a range" 0 "job j0 47 185 245" eval "tool draw --seed 7 --release 200 --window 150 --work 400 | sed 1d"
	refuses "draw: no seed" 2 failed "yds-draw: --seed 4294967296 is no whole number up to 4294967295; see yds-draw --help" tool draw --seed 4294967296
	refuses "draw: too many jobs" 2 failed "yds-draw: --jobs 4001 is no whole number up to 4000; see yds-draw --help" tool draw --jobs 4001
	if grep -q 'srand' "$here/../docs/manual.md"; then fail "draw: the manual draws with the awk's own generator"; else pass; fi
	want trial || return
	for try in "0 2" "0 1000" "1 300" "7 20" "4294967295 300"; do
		# shellcheck disable=SC2086
		set -- $try
		tool draw --seed "$1" --jobs "$2" | "$YDS" plan >"$work/plan"
		told=$($AWK '$1 == "level" && !levels++ { peak = $2 " " $3 } { n[$1]++ } END { print "jobs " n["job"] "\nlevels " levels "\nslots " n["slot"] "\npeak " peak "\naccepted" }' "$work/plan")
		text "draw: as trial $try" 0 "$told" "$YDS" trial "$1" "$2"
	done
}

more_work() {
	text "scale: tasks" 0 "# work times 1.2, rounded up in 1 of 3 lines, by at most 2/10: the plan's peak is 1.2 times what it was, or a little more
horizon 1000
task sample 0 10 10 29
task filter 0 100 50 1080
task radio 40 500 100 2400" tool scale --work 1.2 sensor-tasks.txt
	text "scale: jobs" 0 "# work times 3/2, rounded up in 0 of 3 lines: the plan's peak is 3/2 times what it was
# three jobs, each window inside the one before
job a 0 12 6
job b 2 10 12
job c 4 6 9" tool scale --work 3/2 "$here/../examples/three-jobs.txt"
	printf 'job a 0 9 4\nslot a 0 9 4\n' >"$work/slot"
	refuses "scale: slots" 1 failed "yds-scale: $work/slot, line 2, column 1: "'"slot" doesn'"'"'t grow with the work; give jobs or tasks alone' tool scale --work 2 "$work/slot"
	refuses "scale: no factor" 2 failed "yds-scale: --work 20% is no factor up to 1000, as 1.2 or 6/5; see yds-scale --help" tool scale --work 20% sensor-tasks.txt
	printf 'job a 0 9 900000\n' >"$work/much"
	refuses "scale: too much work" 1 failed "yds-scale: $work/much, line 1, column 11: the work becomes 1080000, above 1000000; take a coarser unit of work" tool scale --work 1.2 "$work/much"
	if want report; then
		tool scale --work 3/2 "$here/../examples/three-jobs.txt" | "$YDS" report | $AWK 'NR > 1 { print $4 }' | head -n 3 | tr '\n' ' ' >"$work/speeds"
		if [ "$(cat "$work/speeds")" = "4+1/2 2 1+1/2 " ]; then pass; else fail "scale: the speeds grow with the work: $(cat "$work/speeds")"; fi
	fi
	# 400, 200, 400, 200, 400, 200 and the end; no time without a slot.
	want round || return
	"$YDS" round <"$here/../examples/datasheet.txt" >"$work/slots"
	text "changes: of a rounded plan" 0 "slots 6
changes 7
wakes 1" tool changes "$work/slots"
	printf 'job a 0 9 9\nslot a 0+1/3 1 2\nslot a 1 1+1/3 1\nslot a 2 3 1\nslot a 3 4 1\nslot a 5 6 4\n' >"$work/slots"
	text "changes: gaps" 0 "slots 5
changes 6
wakes 3" tool changes "$work/slots"
	printf 'ticks 10\nrun a 0 5 3\nrun b 5 9 3\nrun a 9 10 4\n' >"$work/slots"
	text "changes: runs" 0 "slots 3
changes 3
wakes 1" tool changes "$work/slots"
	refuses "changes: no slot" 1 "" "yds-changes: no slot and no run line; give a trace's document, or the answer of plan, round, avr or oa" tool changes "$here/../examples/three-jobs.txt"
}

slots() { tool slots "$@"; }
levels_of() { "$YDS" plan <"$1" | grep -E '^(level|piece|member) '; }
schedules() {
	want audit check plan round || return
	# GLPK's decimals, at their word and within a millionth. Its energy is that of round, 4531.
	slots lp-schedule.txt >"$work/word"
	answers "slots: a linear program's decimals at their word" 1 "off-point slot 2 j5 28 57+833333/1000000 179" from "$work/word" "$YDS" audit --points
	answers "slots: and whether in time" 0 feasible from "$work/word" "$YDS" audit
	slots --most 0.000001 lp-schedule.txt >"$work/near"
	answers "slots: the linear program's error" 0 "# 22 slots of another program, error at most 3.34e-07, the greatest in line 30, TO" head -n 1 "$work/near"
	answers "slots: how many of them come to a point's speed" 0 "# 11 slots are at a point's speed here and not in the input" sed -n 2p "$work/near"
	answers "slots: a linear program's schedule on the points" 0 feasible from "$work/near" "$YDS" audit --points
	answers "slots: spends what round does" 0 "$("$YDS" round <folder/a.txt | tail -n 1)" eval "energy '$work/near' | cut -d' ' -f2- | head -n 1"
	# The three jobs with 2.6666667 for 2+2/3: at their word no least schedule, within a ten-millionth the plan.
	slots simulator-schedule.txt >"$work/word"
	levels_of "$work/word" | cat "$work/word" - >"$work/judged"
	answers "slots: a simulator's decimals at their word" 1 "K7 slot 2" from "$work/judged" "$YDS" check
	slots --most 0.0000001 simulator-schedule.txt >"$work/near"
	levels_of "$work/near" | cat "$work/near" - >"$work/judged"
	answers "slots: a simulator's schedule is least" 0 accepted from "$work/judged" "$YDS" check
	text "slots: the simulator's fractions" 0 "slot a 0 2 2
slot b 2 4 2+2/3
slot c 4 6 6
slot b 6 10 5+1/3
slot a 10 12 2" grep '^slot' "$work/near"
	speeds_of_slots
	linear_programs
	lowest_terms
	decimals_of_plans
	bounds_and_rounding
	what_slots_refuses
}
# The same schedule told by speeds: 57.833333 - 28 at the speed 6 are 178.999998, and 179 once the end is 57+5/6.
speeds_of_slots() {
	$AWK '$1 == "slot" { $5 = int($5 / ($4 - $3) + 0.5) } { print }' lp-schedule.txt >"$work/by-speed"
	slots --speeds "$work/by-speed" >"$work/word"
	answers "slots: by speeds, at their word, on the points" 1 work eval "('$YDS' audit --points <'$work/word' | cut -d' ' -f1; exit 1)"
	slots --speeds --most 0.000001 "$work/by-speed" >"$work/near"
	answers "slots: by speeds, the error" 0 "# 22 slots of another program, error at most 3.34e-07, the greatest in line 30, TO" head -n 1 "$work/near"
	answers "slots: by speeds" 0 feasible from "$work/near" "$YDS" audit --points
	slots --most 0.000001 lp-schedule.txt | grep '^slot' >"$work/by-work"
	text "slots: by speeds and by works the same" 0 "$(cat "$work/by-work")" grep '^slot' "$work/near"
	printf 'job a 0 9 4\nslot a 3 2 4\n' >"$work/bad"
	refuses "slots: by speeds, ends exchanged" 1 failed "yds-slots: $work/bad, line 2, column 10: TO is before FROM" slots --speeds "$work/bad"
}
# Where GLPK is installed, its schedules of three documents, within a millionth: on the points, and of round's energy.
linear_programs() {
	has glpsol || return
	for document in a b c; do
		"$PYTHON" "$here/tests/least_energy.py" "folder/$document.txt" >"$work/data"
		glpsol -m least-energy.mod -d "$work/data" -y "$work/lines" >/dev/null
		grep '^point' "folder/$document.txt" | cat - "$work/lines" >"$work/printed"
		slots --most 0.000001 "$work/printed" >"$work/near"
		answers "slots: GLPK on the points, document $document" 0 feasible from "$work/near" "$YDS" audit --points
		told=$(energy "$work/near" | $AWK "$decimal" | head -n 1)
		if [ "$told" = "trace $("$YDS" round <"folder/$document.txt" | sed -n 's/^energy/x energy/p' | $AWK "$decimal" | cut -d' ' -f2)" ]; then pass; else fail "slots: GLPK's energy, document $document: $told"; fi
	done
}
# A plan whose fractions are all in lowest terms, which the program refuses, is the same plan again, with error 0.
lowest_terms() {
	tool draw --seed 5 --jobs 60 >"$work/drawn"
	"$YDS" plan <"$work/drawn" >"$work/plan"
	$AWK 'function divisor(a, b,  r) { while (b) { r = a % b; a = b; b = r } return a }
		$1 == "slot" { for (i = 3; i <= 5; i++) if (split($i, p, /[+\/]/) == 3) { g = divisor(p[2], p[3]); $i = p[2] ? p[1] "+" p[2] / g "/" p[3] / g : p[1] } }
		{ print }' "$work/plan" >"$work/lowest"
	answers "slots: fractions in lowest terms aren't read" 3 "refused 62 0 MixedGrain" eval "('$YDS' check <'$work/lowest' | sed 's/ [0-9]* [0-9]* / 62 0 /'; exit 3)"
	slots "$work/lowest" >"$work/exact"
	answers "slots: fractions in lowest terms, the error" 0 "# $(grep -c '^slot' "$work/plan") slots of another program, error 0" head -n 1 "$work/exact"
	answers "slots: fractions in lowest terms are least" 0 accepted from "$work/exact" "$YDS" check
}
# Plans with nine decimals: within 10^-8 in time and of the right work, though not as written.
decimals_of_plans() {
	for seed in 1 2 3; do
		tool draw --seed $seed --jobs 40 | "$YDS" plan >"$work/plan"
		$AWK '$1 == "job" { print }
			$1 == "slot" { for (i = 3; i <= 5; i++) if (split($i, p, /[+\/]/) == 3) $i = sprintf("%.9f", p[1] + p[2] / p[3]); print }' "$work/plan" >"$work/decimals"
		slots "$work/decimals" >"$work/word"
		answers "slots: nine decimals at their word, seed $seed" 1 work eval "('$YDS' audit <'$work/word' | cut -d' ' -f1; exit 1)"
		slots --most 0.00000001 "$work/decimals" >"$work/near"
		answers "slots: nine decimals, seed $seed" 0 feasible from "$work/near" "$YDS" audit
		if grep -q '^# [0-9]* conditions fail in the input and hold here, by at most' "$work/near"; then pass; else fail "slots: mended in silence, seed $seed"; fi
	done
}
# What is late by less than --most isn't called in time in silence, and what is in time stays so.
bounds_and_rounding() {
	printf 'job a 0 10 10\njob b 0 12 2\nslot a 0 10.0000004 10.0\nslot b 10.0000003 12 2\nslot b 12 12 0\nslot a 1 2 0.0\n' >"$work/late"
	slots "$work/late" >"$work/word"
	answers "slots: late at its word" 1 "late slot 1 a 10+1/2500000 deadline 10" from "$work/word" "$YDS" audit
	text "slots: late by less than --most" 0 "# 2 slots of another program, error at most 4e-07, the greatest in line 3, TO
# 2 conditions fail in the input and hold here, by at most 4e-07; the first: line 3, TO is after the deadline
# the slots are sorted by time
# left out: 2 slots without work, the first in line 5
job a 0 10 10
job b 0 12 2
slot a 0 10 10
slot b 10 12 2" slots --most 0.0000005 "$work/late"
	slots --most 0.0000001 "$work/late" >"$work/near"
	answers "slots: late by more than --most" 1 late eval "('$YDS' audit <'$work/near' | cut -d' ' -f1; exit 1)"
	printf 'job a 0 9 4\nslot a -1e-9 9 4\nslot a 9 9 -0.0000003\nslot a 3 4 -0.0\n' >"$work/below"
	text "slots: a little below 0" 0 "# 1 slot of another program, error 0
# 2 numbers are below 0 in the input and 0 here, by at most 3e-07
# left out: 2 slots without work, the first in line 3
job a 0 9 4
slot a 0 9 4" eval "tool slots --most 0.000001 '$work/below' | grep -v sorted"
	# Each end is a little within its bound, and no simpler fraction may leave it.
	printf 'job a 1 4 2\njob b 3 7 2\nslot a 1.0004 3.3333 2\nslot b 3.3334 6.9996 2\n' >"$work/within"
	slots --most 0.001 "$work/within" >"$work/near"
	answers "slots: in time stays in time" 0 feasible from "$work/near" "$YDS" audit
	answers "slots: no condition was mended" 0 0 eval "grep -c 'fail in the input' '$work/near'; true"
	# 0.7071 + 1.3003 + 1.9926 are 4; the simplest fractions within a thousandth, 29/41, 13/10 and 239/120, aren't.
	printf 'job a 0 9 4\nslot a 0 1 0.7071\nslot a 1 2 1.3003\nslot a 2 3 1.9926\n' >"$work/sum"
	text "slots: a sum that holds is kept" 0 "# 3 slots of another program, error 0
job a 0 9 4
slot a 0 1 0+7071/10000
slot a 1 2 1+3003/10000
slot a 2 3 1+9926/10000" slots --most 0.001 "$work/sum"
	# 1.41421 + 2.58570 miss 4 by 0.00009: more than 2 * 0.00004, and less than 2 * 0.00005.
	printf 'job a 0 9 4\nslot a 0 1 1.41421\nslot a 1 2 2.58570\n' >"$work/short"
	slots --most 0.00004 "$work/short" >"$work/near"
	answers "slots: a sum that is too far off" 1 "work a given 3+99991/100000 wanted 4" from "$work/near" "$YDS" audit
	text "slots: a sum that is near" 0 "# 2 slots of another program, error at most 4.5e-05, the greatest in line 2, WORK
# 1 condition fails in the input and holds here, by at most 9e-05; the first: job a was given too little
job a 0 9 4
slot a 0 1 1+82851/200000
slot a 1 2 2+117149/200000" slots --most 0.00005 "$work/short"
	# 0.123456 of time at the speed 2 are 0.246912. Within a thousandth they become 7/57 and 16/65, of the speed 2+2/455.
	printf 'point 0 0\npoint 2 4\njob a 0 9 1\nslot a 0 0.123456 0.246912\nslot a 1 2 0.753088\n' >"$work/points"
	answers "slots: off a point by rounding" 0 "# 1 slot is at a point's speed in the input and not here, the first in line 4" eval "tool slots --most 0.001 '$work/points' | grep 'point.s speed'"
	# 2^60 - 1 is a multiple of 3; 2^60 isn't.
	printf 'job a 0 9 4\nslot a 1/1152921504606846975 1/3 4.0\n' >"$work/great"
	text "slots: long numbers" 0 "# 1 slot of another program, error 0
job a 0 9 4
slot a 0+1/1152921504606846975 0+384307168202282325/1152921504606846975 4" slots "$work/great"
	sed 's/846975/846976/' "$work/great" >"$work/too-great"
	refuses "slots: no common denominator" 1 failed "yds-slots: $work/too-great, line 2: the two ends have no common denominator up to 2^60; give --most, as 0.000001" slots "$work/too-great"
}
what_slots_refuses() {
	printf 'job a 0 9 4\nslot a 0 -0.001 4\n' >"$work/bad"
	refuses "slots: a number below 0" 1 failed "yds-slots: $work/bad, line 2, column 10: TO -0.001 is no number of 0 or more" slots "$work/bad"
	printf 'job a 0 9 4\nslot a 0 nan 4\n' >"$work/bad"
	refuses "slots: no number" 1 failed "yds-slots: $work/bad, line 2, column 10: TO nan is no number, as 3, 1.25, 2.5e-3, 10/3 or 3+1/3" slots "$work/bad"
	printf 'job a 0 9 4.5\nslot a 0 9 4.5\n' >"$work/bad"
	refuses "slots: a job of half a unit" 1 failed "yds-slots: $work/bad, line 1, column 11: 4.5 isn't whole; a job's times and work are, in a finer unit" slots "$work/bad"
	printf 'job a 0 9 4\nslot a 0 9 4\nslot b 0 9 4\n' >"$work/bad"
	refuses "slots: no such job" 1 failed "yds-slots: $work/bad, line 3, column 6: no job b stands before this slot" slots "$work/bad"
	printf 'job a 0 9 4\nslot a 3.33 3.34 4\n' >"$work/bad"
	refuses "slots: shorter than --most" 1 failed "yds-slots: $work/bad, line 2: the slot is so short that both its ends become 3+1/3; give a smaller --most" slots --most 0.01 "$work/bad"
	refuses "slots: --most too great" 2 failed "yds-slots: --most 1 is no number from 0 to below 1/2; see yds-slots --help" slots --most 1 "$work/bad"
	refuses "slots: none" 1 failed "yds-slots: no slot line; give the schedule as slot NAME FROM TO WORK" slots "$here/../examples/three-jobs.txt"
	refuses "slots: a refusal" 1 failed "yds-slots: $expected/compare-refused.txt, line 1: the input is an answer of no: refused 1 9 EmptyWindow" slots "$expected/compare-refused.txt"
}

# explained NAME VERDICT TEXT: what yds-explain says of the document $work/judged.
explained() {
	"$YDS" check <"$work/judged" >"$work/verdict"
	if [ "$(cat "$work/verdict")" = "$2" ]; then pass; else fail "$1: check says $(cat "$work/verdict")"; fi
	text "$1" 0 "$3" tool explain "$work/judged" "$work/verdict"
}
what_check_found() {
	want check plan || return
	"$YDS" plan <"$here/../examples/three-jobs.txt" >"$work/plan"
	sed 's/^piece 2 4$/piece 2 5/' "$work/plan" >"$work/judged"
	explained "explain: K2" "K2 level 2" "the piece 2 5 of level 2 overlaps the piece 4 6 of level 1"
	sed 's/^piece 2 4$/piece 4 2/' "$work/plan" >"$work/judged"
	explained "explain: K2, ends exchanged" "K2 level 2" "the piece 4 2 of level 2 ends before it has begun"
	sed 's/^member b$/&\n&/' "$work/plan" >"$work/judged"
	explained "explain: K3" "K3 job b" "the job b needs 8: found in 2 member lines, expected in one"
	sed 's/^level 8 6$/level 9 7/' "$work/plan" >"$work/judged"
	explained "explain: K4" "K4 level 2" "work: the level's line says 9, and its members b need 8 together
length: the level's line says 7, and its pieces are 6 long together"
	sed '/^level 6 2/,/^member c/d' "$work/plan" >"$work/judged"
	sed -n '/^level 6 2/,/^member c/p' "$work/plan" >>"$work/judged"
	explained "explain: K5" "K5 level 3" "level 3 has the work 6 and the length 2: found the speed 3
level 2 has the work 4 and the length 4: expected at most the speed 1"
	# b's window from 2 to 10 has one hole, from 3 to 4, where the job d has a level of its own below b's.
	printf 'job b 2 10 14\njob d 3 4 1\nslot b 2 3 2\nslot d 3 4 1\nslot b 4 10 12\nlevel 14 7\npiece 2 3\npiece 4 10\nmember b\nlevel 1 1\npiece 3 4\nmember d\n' >"$work/judged"
	explained "explain: K6" "K6 job b" "the window of b is 2 to 10, and its level is 1
no piece of the levels 1 to 1 has the time from 3 to 4"
	sed 's/^slot b 2 4 2+2.3/slot b 2 4 2+1\/3/; s/^slot b 6 10 5+1.3/slot b 6 10 5+2\/3/' "$work/plan" >"$work/judged"
	explained "explain: K7" "K7 slot 2" "slot b 2 4 2+1/3: found the speed 1.16666666666667
level 2 has the work 8 and the length 6: expected the speed 1.33333333333333"
	sed 's/^slot c 4 6 6/slot c 4 6 5/' "$work/plan" >"$work/judged"
	explained "explain: K1" "K1 work c given 5 wanted 6" "K1 work c given 5 wanted 6"
	refuses "explain: no answer" 1 "" "yds-explain: no answer of check; give the document, and after it the answer" tool explain "$work/plan"
}

answer() { tool answer "$@"; }
tables() {
	text "answer: a verdict" 0 '{"verdicts":[{"verdict":"late","slot":2,"job":"audio","to":21+1/2,"to_exact":"21+1/2","deadline":20}]}' \
		eval "echo 'late slot 2 audio 21+1/2 deadline 20' | tool answer | sed 's/21.5/21+1\/2/'"
	text "answer: misses of a trace" 0 '{"verdicts":[{"verdict":"late","slot":6,"job":"audio.1","to":1294,"to_exact":"1294","deadline":1200,"late":94,"late_exact":"94","due":5123.412623},{"verdict":"late","slot":19,"job":"decode.2","to":5319,"to_exact":"5319","deadline":5150,"late":169,"late_exact":"169","due":5123.452123}],"missed":[{"missed":2}]}' \
		answer "$expected/misses.txt"
	text "answer: misses whose end isn't known" 0 "verdict,job,given,given_exact,wanted,not_ended_ms,due
work,render.0,20000,20000,20001,13.000000,100.017000
work,audio.1,0,0,1,15.000000,100.015000" answer --csv verdicts "$expected/misses-starving.txt"
	text "answer: a job that wasn't done even then" 0 '{"verdicts":[{"verdict":"late","slot":3,"job":"b","to":6,"to_exact":"6","deadline":5,"late_at_least":1.5,"late_at_least_exact":"1+1/2","given":4,"given_exact":"4","wanted":5}]}' \
		eval "echo 'late slot 3 b 6 deadline 5, by at least 1+1/2: given 4 wanted 5' | tool answer"
	refuses "answer: a miss in another form" 1 "" 'yds-answer: line 1: "late slot 2 a b deadline c, by 3" is no line of an answer' eval "echo 'late slot 2 a b deadline c, by 3' | tool answer"
	text "answer: misses of jobs that are there without their runs" 0 "verdict,job,reason,due
\"late, without its runs\",render.1,\"render.1 (ran on another processor), 25.000000 ms after its deadline; window 5000 6600\",200.066000" answer --csv verdicts "$expected/misses-elsewhere.txt"
	text "answer: misses of jobs that were left out" 0 "verdict,job,reason,due
left out,render.1,\"render.1 (ran on another processor), 25.000000 ms after its deadline; window 5000 6600\",200.066000" \
		eval "sed 's/late, without its runs/left out/' '$expected/misses-elsewhere.txt' | tool answer --csv verdicts"
	text "answer: a miss that a comment alone tells" 0 '{"verdicts":[{"verdict":"late in a run within one tick","job":"render.0","reason":"render.0, 1.001 ms after its deadline","due":200.002000}]}' \
		eval "echo 'late in a run within one tick: render.0, 1.001 ms after its deadline # due at 200.002000 s' | tool answer"
	text "answer: misses by less than a unit" 0 "audio.0 work
audio.1 late by less than a unit of time" eval "tool answer '$expected/misses-short-late.txt' | jq -r '.verdicts[] | .job + \" \" + .verdict'"
	text "answer: a refusal" 0 '{"refusals":[{"line":1,"column":9,"reason":"EmptyWindow"}]}' answer "$expected/compare-refused.txt"
	text "answer: too slow" 0 '{"too_slow":[{"work":100,"length":1,"top":5}]}' answer "$expected/compare-too-slow.txt"
	text "answer: energies" 0 "side,energy,energy_exact
plan,4531,4531
avr,4775.17933333333,4775+269/1500
oa,4567.13666666667,4567+41/300" answer --csv energies "$expected/compare-a.txt"
	text "answer: misses" 0 '{"misses":[{"side":"at-64","deadlines":3,"first":"radio.0"}]}' eval "echo '# at-64 misses 3 deadlines, the first radio.0' | tool answer"
	refuses "answer: a table that isn't there" 1 "" "yds-answer: no slots; there are refusals" answer --csv slots "$expected/compare-refused.txt"
	refuses "answer: no such table" 2 "" \
		"yds-answer: --csv slot: there are jobs points slots runs ticks levels pieces members grids energies verdicts refusals too_slow times roundings misses refused_jobs missed one_level report breaks trial comments; see yds-answer --help" \
		answer --csv slot "$expected/compare-refused.txt"
	refuses "answer: another line" 1 "" "yds-answer: $expected/folder.tsv, line 1: "'"document?plan?avr?oa?rounded?answer" is no line of an answer' answer "$expected/folder.tsv"
	cp "$expected/compare-a.txt" "$expected/compare-refused.txt" "$work"
	: >"$work/empty.txt"
	text "answer: files" 1 "file,side,energy,energy_exact
compare-a.txt,plan,4531,4531
compare-a.txt,avr,4775.17933333333,4775+269/1500
compare-a.txt,oa,4567.13666666667,4567+41/300" tool_in "$work" answer --csv energies compare-a.txt compare-refused.txt empty.txt
	cp "$work/err" "$work/notes"
	text "answer: what a file hasn't" 0 "yds-answer: no energies in compare-refused.txt; there are refusals
yds-answer: no energies in empty.txt; there is nothing" cat "$work/notes"
	printf 'job a\\b"c,d 0 4 8\n# a\ttab, "quotes" and \\\n' >"$work/name"
	text "answer: a hostile name" 0 'name,release,deadline,work
"a\b""c,d",0,4,8' answer --csv jobs "$work/name"
	want plan jq || return
	"$YDS" plan <"$here/../examples/three-jobs.txt" >"$work/plan"
	text "answer: slots" 0 "job,from,from_exact,to,to_exact,work,work_exact,speed
a,0,0,2,2,2,2,1
b,2,2,4,4,2.66666666666667,2+2/3,1.33333333333
c,4,4,6,6,6,6,3
b,6,6,10,10,5.33333333333333,5+1/3,1.33333333333
a,10,10,12,12,2,2,1" answer --csv slots "$work/plan"
	answer "$work/name" >"$work/name.json"
	text "answer: a hostile name in JSON" 0 'a\b"c,d
# a	tab, "quotes" and \' jq -r '.jobs[0].name, .comments[0].text' "$work/name.json"
	# Through jq and back, the plan is the same to the byte.
	answer "$work/plan" >"$work/plan.json"
	text "answer: a plan through jq and back" 0 "$(cat "$work/plan")" jq -r '
		(.jobs[] | "job \(.name) \(.release) \(.deadline) \(.work)"), (.slots[] | "slot \(.job) \(.from_exact) \(.to_exact) \(.work_exact)"),
		(. as $a | .levels[] | .level as $l | "level \(.work) \(.length)", ($a.pieces[] | select(.level == $l) | "piece \(.from) \(.to)"), ($a.members[] | select(.level == $l) | "member \(.job)"))' "$work/plan.json"
	# Each stored answer of the program is read, but for those that are JSON already.
	read=0
	for row in "$here"/../examples/rows/*/; do
		[ "$(head -c 1 "$row/stdout")" != "{" ] || continue
		if ! answer <"$row/stdout" >"$work/json" 2>"$work/err" || ! jq -e . "$work/json" >/dev/null 2>&1; then fail "answer: $row"; break; fi
		read=$((read + 1))
	done
	if [ $read -ge 100 ]; then pass; else fail "answer: only $read stored answers"; fi
}
