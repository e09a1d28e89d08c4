# units.sh: read by test.sh. Texts of one document have the same units: yds-join puts them together, and each tool that reads them looks.

join() { tool join "$@"; }

test_units() {
	texts_together
	for try in "time@a unit of time of 100 us here and 10 us before; give both the same --us" \
		"speed@a unit of speed of 1000 kHz here and 10000 kHz before; give points and trace the same --khz" \
		"power@a unit of power of 10 uW here and 1000 uW before; give the points of one --uw"; do
		reads_together "${try%%@*}" "${try#*@}"
	done
}

texts_together() {
	cat "$expected/points.txt" "$expected/document.txt" >"$work/both"
	same "join: points and a trace" 0 document.txt eval "tool join '$expected/points.txt' '$expected/document.txt' | tail -n +$(($(wc -l <"$expected/points.txt") + 1))"
	join "$expected/points.txt" "$expected/document.txt" >"$work/joined"
	if cmp -s "$work/both" "$work/joined"; then pass; else fail "join: the texts one after the other"; fi
	if [ -n "$("$YDS" audit --points <"$work/joined" | grep feasible)" ]; then pass; else fail "join: the program reads it"; fi
	sed 's/speed unit 10000 kHz/speed unit 1000 kHz/' "$expected/points.txt" >"$work/points"
	answers "join: a speed in two units" 1 failed eval "(tool join '$work/points' '$expected/document.txt' | tail -n 1; exit 1)"
	faulty "join: a speed in two units, the message" "yds-join: document.txt, line 2: a unit of speed of 10000 kHz here, and 1000 kHz in points; give both the same --khz" points "$expected/document.txt"
	answers "join: what is refused isn't read" 3 "refused 36 1 UnknownKind" eval "(tool join '$work/points' '$expected/document.txt' 2>/dev/null | '$YDS' audit | sed 's/ [0-9]* / 36 /'; exit 3)"
	sed 's/time unit 10 us/time unit 100 us/' "$expected/document.txt" >"$work/trace"
	faulty "join: a time in two units" "yds-join: trace, line 2: a unit of time of 100 us here, and 10 us in document.txt; give both the same --us" "$expected/document.txt" trace
	faulty "join: points twice" "yds-join: points-tree.txt has points, and points.txt too; give the points of one device" "$expected/points.txt" "$expected/points-tree.txt"
	sed 's/power unit 1000 uW/power unit 100 uW/' "$expected/points.txt" >"$work/points"
	faulty "join: a power in two units" "yds-join: points.txt, line 1: a unit of power of 1000 uW here, and 100 uW in points; give the points of one --uw" points "$expected/points.txt"
	faulty "join: two traces" "yds-join: document-starving.txt, line 1: time 0 at 100.000000000 s here, and 5123.400623456 s in document.txt; give one trace" \
		"$expected/document.txt" "$expected/document-starving.txt"
	printf '# period 10\njob a 0 10 1\n' >"$work/ten"
	printf '# period 20\njob b 0 10 1\n' >"$work/twenty"
	faulty "join: two periods" "yds-join: twenty, line 1: the period 20 here, and 10 in ten; give the jobs of one horizon" ten twenty
	faulty "join: an empty text" "yds-join: empty has no line of a document; look at what wrote it" ten empty
	faulty "join: an answer of no" "yds-join: failed.txt, line 1: the input is an answer of no: failed" ten "$here/samples/bad/failed.txt"
	faulty "join: another text" 'yds-join: microcontroller.csv, line 1: "MHz,mA" is no line of a document' ten "$here/samples/microcontroller.csv"
	faulty "join: no such file" "yds-join: nowhere can't be read: No such file or directory" ten nowhere
	faulty "join: a folder" "yds-join: folder can't be read: Is a directory" ten "$here/samples/folder"
	refuses "join: one text" 2 failed "yds-join: fewer than 2 files: yds-join TEXT TEXT ..; see yds-join --help" join "$expected/document.txt"
	answers "join: a text that tells no units" 0 "# ten tells no units: they are taken to be those of points.txt" \
		eval "tool join '$expected/points.txt' '$work/ten' | tail -n 1"
	printf '# period 10\r\njob c 0 10 1' >"$work/last"
	join "$work/last" "$work/ten" >"$work/joined"
	if [ "$(cat "$work/joined")" = "# period 10
job c 0 10 1
# period 10
job a 0 10 1" ]; then pass; else fail "join: a last line without its end, and ends of Windows"; fi
}
# faulty NAME ERROR TEXT TEXT: the first line of the errors, with the files' bare names; the status is 1, and the last line of the output failed.
faulty() {
	: >"$work/empty"
	(cd "$work" && tool join "$3" "$4" >"$work/out" 2>"$work/err")
	got=$?
	if [ $got = 1 ] && [ "$(tail -n 1 "$work/out")" = failed ] && [ "$(head -n 1 "$work/err" | sed "s|$expected/||g; s|$here/samples/bad/||; s|$here/samples/||")" = "$2" ]; then pass; return; fi
	fail "$1 (status $got)"
	echo "wanted: $2"
	head -n 3 "$work/err"
}

# Each tool that reads a document refuses two units in it.
reads_together() {
	kind=$1 text=$2
	case $kind in time) column=15 ;; speed) column=32 ;; power) column=54 ;; esac
	printf '%s\n' '# table: speed unit 10000 kHz, power unit 1000 uW' 'point 0 0' 'point 10 20' '# time unit 10 us' 'job a 0 10 10' 'slot a 0 1 10' >"$work/one"
	{
		cat "$work/one"
		echo "# told again: time unit 10 us, speed unit 10000 kHz, power unit 1000 uW" | case $kind in
		time) sed 's/10 us/100 us/' ;;
		speed) sed 's/10000 kHz/1000 kHz/' ;;
		power) sed 's/1000 uW/10 uW/' ;;
		esac
	} >"$work/two"
	grep -v '^slot' "$work/two" >"$work/two-jobs"
	refuses "units: energy, $kind" 1 "" "yds-energy: $work/two, line 7, column $column: $text" energy "$work/two"
	refuses "units: jobs, $kind" 1 "" "yds-jobs: $work/two, line 7, column $column: $text" tool jobs "$work/two"
	refuses "units: changes, $kind" 1 "" "yds-changes: $work/two, line 7, column $column: $text" tool changes "$work/two"
	refuses "units: slots, $kind" 1 failed "yds-slots: $work/two, line 7, column $column: $text" tool slots "$work/two"
	refuses "units: scale, $kind" 1 failed "yds-scale: $work/two-jobs, line 6, column $column: $text" tool scale --work 2 "$work/two-jobs"
	refuses "units: battery, $kind" 1 "" "yds-battery: $work/two, line 7, column $column: $text" tool battery --mah 1 --volts 1 --period 1 "$work/two"
	refuses "units: answer, $kind" 1 "" "yds-answer: line 7, column $column: $text" from "$work/two" tool answer
	refuses "units: misses, $kind" 1 "" "yds-misses: $work/two, line 7, column $column: $text" tool misses "$work/two"
	refuses "units: parts, $kind" 1 "" "yds-parts: $work/two, line 7: $text" tool parts --folder "$work/parts" "$work/two"
	text_of_part=$(cat "$work/parts/part-00001.txt" 2>/dev/null)
	if [ "$text_of_part" = failed ]; then pass; else fail "units: parts, $kind: $text_of_part"; fi
	refuses "units: plot, $kind" 1 "" "yds-plot: $work/two, line 7, column $column: $text" tool plot gantt "$work/two"
	refuses "units: plot with units of its own, $kind" 1 "" "yds-plot: $work/two, line 7, column $column: $text" tool plot gantt -u 10us,10MHz,1mW "$work/two"
	if energy "$work/one" >"$work/out" 2>&1 && tool misses "$work/one" >"$work/out" 2>&1; then pass; else fail "units: one unit of $kind"; cat "$work/out"; fi
}
