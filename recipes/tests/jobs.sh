# jobs.sh: read by test.sh. The table of jobs.
jobs() { tool jobs "$@"; }

test_jobs() {
	same "jobs: of a trace" 0 jobs-late.txt jobs "$expected/points.txt" "$expected/document-late.txt"
	same "jobs: on the trace's clock, as CSV" 0 jobs-late.csv jobs --zero trace --form csv "$expected/points.txt" "$expected/document-late.txt"
	same "jobs: left out" 0 jobs-elsewhere.csv jobs --form csv "$expected/document-elsewhere.txt"
	same "jobs: starving" 0 jobs-starving.txt jobs "$expected/document-starving.txt"
	# By hand: a is done at 2+1/3 and needs nothing more; b got 4+1/2 of 5; c needs nothing.
	printf 'job a 0 9 4\njob "b,2 0 10 5\njob c 3 4 0\nslot a 1 2+1/3 4\nslot "b,2 3 4 4\nslot "b,2 4 5 0+1/2\n' >"$work/fractions"
	jobs --form csv "$work/fractions" >"$work/table"
	if [ "$(tail -n +2 "$work/table")" = 'a,0,9,1,2.333333,2.333333,6.666667,0,
"""b,2",0,10,3,inf,inf,-inf,inf,
c,3,4,3,3,0,1,0,' ]; then pass; else fail "jobs: fractions and names"; cat "$work/table"; fi
	# The jobs' energies and the idle time's, here at no power, are the whole.
	cat "$expected/points.txt" "$expected/document.txt" >"$work/both"
	sum=$(jobs --form csv "$work/both" | $AWK -F , 'NR > 1 { sum += $9 } END { print sum }')
	if [ "governor energy $sum" = "$(head -n 1 "$expected/energy.txt")" ]; then pass; else fail "jobs: the sum of the energies, $sum"; fi
	printf 'job a 0 4 4\nslot a 0 4 4\n# refuse c from 0 to 4 work 9 top 2\n' | jobs >"$work/table"
	if grep -q '^c (left out: refused by admit)' "$work/table"; then pass; else fail "jobs: what admit refused"; fi
	if want plan; then
		"$YDS" plan <../../examples/three-jobs.txt | jobs --zero 12.5 --us 1000000 >"$work/table"
		answers "jobs: of a plan, at a given time" 0 "b    14.500000  22.500000  14.500000  22.500000      8000      0     0       -" sed -n 4p "$work/table"
	fi
	refuses "jobs: no slot" 1 "" "yds-jobs: no slot and no run line; the input is a trace's document, or the answer of plan, round, avr or oa" jobs frames.txt
	refuses "jobs: no job" 1 "" "yds-jobs: no job line" jobs "$expected/points.txt"
	refuses "jobs: a refusal" 1 "" "yds-jobs: $expected/compare-refused.txt, line 1: the input is an answer of no: refused 1 9 EmptyWindow" jobs "$expected/compare-refused.txt"
	refuses "jobs: no clock" 1 "" "yds-jobs: no comment tells time 0 of the trace; give --zero SECONDS" jobs --zero trace "$work/fractions"
	refuses "jobs: no unit of time" 1 "" "yds-jobs: no comment tells the unit of time; give --us" jobs --zero 12 "$work/fractions"
	refuses "jobs: a form that isn't there" 2 "" "yds-jobs: --form json: there is --form csv; see yds-jobs --help" jobs --form json "$work/both"
	refuses "jobs: above the top" 1 "" "yds-jobs: bad/slow.txt, line 15, column 19: the speed 60 of audio.0 is above the top point 41; leave the points out, or give those of this processor" jobs bad/slow.txt
	refuses "jobs: no such file" 1 "" "yds-jobs: nowhere can't be read: No such file or directory" jobs nowhere
}
