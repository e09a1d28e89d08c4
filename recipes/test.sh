#!/bin/sh
# test.sh: runs each command on its sample and compares what it writes, byte for byte, with what is stored.
#
#   sh recipes/test.sh [PART ..]      parts: trace points comma energy rtapp folder page manual readme,
#                               and the files of tests/; all without one
#
# Environment: YDS (the program; build/yds_cli beside this folder), YDS_TRACE (build/yds_trace there), AWK (awk), PYTHON (python3), HOUR (with any value the manual's trace of
# an hour is tried too, which takes minutes; without it that section is left out and counted). The last line is
# 'N passed, M failed', and the exit status is 1 where M isn't 0. What needs a missing package, or a command that
# the program doesn't have, is left out and counted on a line of its own.

here=$(cd "$(dirname "$0")" && pwd)
YDS=${YDS:-$here/../build/yds_cli}
case $YDS in /*) ;; *) YDS=$(pwd)/$YDS ;; esac
export YDS
YDS_TRACE=${YDS_TRACE:-$here/../build/yds_trace}
case $YDS_TRACE in /*) ;; *) YDS_TRACE=$(pwd)/$YDS_TRACE ;; esac
AWK=${AWK:-awk}
PYTHON=${PYTHON:-python3}
PYTHONDONTWRITEBYTECODE=1
export PYTHONDONTWRITEBYTECODE
LC_ALL=C
export LC_ALL
work=$(mktemp -d) || exit 1
trap 'rm -rf "$work"' EXIT
cd "$here/samples" || exit 1
expected=$here/expected
passed=0
failed=0
left_out=0

pass() { passed=$((passed + 1)); }
fail() { failed=$((failed + 1)); echo "FAILED: $1"; }
has_matplotlib() { "$PYTHON" -c 'import matplotlib' 2>/dev/null; }
has() { command -v "$1" >/dev/null 2>&1 || [ -x "/usr/sbin/$1" ]; }
# Whether the program has the command: an empty document isn't answered by the usage line.
knows() {
	case $known in *" $1 "*) return 0 ;; *" no-$1 "*) return 1 ;; esac
	case $1 in
	compare) words="compare --grid 1" ;; oa) words="oa --grid 1" ;; avr) words="avr --grid 1" ;;
	json) words="report --json" ;; trial) words="trial 0 0" ;; admit) words="admit 1" ;; *) words=$1 ;;
	esac
	"$YDS" $words </dev/null >"$work/knows" 2>/dev/null
	if [ $? = 2 ] || [ ! -x "$YDS" ]; then known="$known no-$1 "; return 1; fi
	known="$known $1 "
}
known=" "
# want COMMAND ..: goes on where the program or machine has them all; else the test is left out.
want() {
	for word in "$@"; do
		case $word in
		jq | parallel | bash | mandoc | sshd) has "$word" || { left_out=$((left_out + 1)); return 1; } ;;
		matplotlib) has_matplotlib || { left_out=$((left_out + 1)); return 1; } ;;
		*) knows "$word" || { left_out=$((left_out + 1)); return 1; } ;;
		esac
	done
}
# same NAME STATUS FILE COMMAND ..: standard output is expected/FILE (- for none), with this status and no errors.
same() {
	name=$1 status=$2 file=$3
	shift 3
	"$@" >"$work/out" 2>"$work/err"
	got=$?
	[ "$file" = - ] && file=/dev/null || file=$expected/$file
	if [ $got = "$status" ] && cmp -s "$work/out" "$file" && [ ! -s "$work/err" ]; then pass; return; fi
	fail "$name (status $got)"
	cat "$work/err"
	diff "$file" "$work/out" | head -n 20
}
# refuses NAME STATUS OUTPUT ERROR COMMAND ..: the status, the whole standard output, and the first line of the errors.
refuses() {
	name=$1 status=$2 output=$3 error=$4
	shift 4
	"$@" >"$work/out" 2>"$work/err"
	got=$?
	if [ $got = "$status" ] && [ "$(cat "$work/out")" = "$output" ] && [ "$(head -n 1 "$work/err")" = "$error" ]; then pass; return; fi
	fail "$name (status $got)"
	echo "wanted: $error"
	head -n 3 "$work/err"
	head -n 3 "$work/out"
}
# answers NAME STATUS LINE COMMAND ..: the first line of standard output.
answers() {
	name=$1 status=$2 line=$3
	shift 3
	"$@" >"$work/out" 2>"$work/err"
	got=$?
	if [ $got = "$status" ] && [ "$(head -n 1 "$work/out")" = "$line" ]; then pass; return; fi
	fail "$name (status $got)"
	echo "wanted: $line"
	head -n 3 "$work/out" "$work/err"
}
# from FILE COMMAND ..: with FILE as standard input.
from() { input=$1; shift; "$@" <"$input"; }
# tool NAME ..: a command of the package yds, as yds-NAME.
tool() { command=$1; shift; "$PYTHON" "$here/../python/yds/commands/_start.py" "yds-$command" "$@"; }

trace() { "$YDS_TRACE" "$@"; }
points() { tool points "$@"; }

# Each document below is one that yds_trace writes. The stored traces of examples/traces have what it refuses.
test_trace() {
	t="--tasks decode:16.667,audio:10"
	# shellcheck disable=SC2086
	same "trace: in time" 0 document.txt from trace-report.txt trace $t
	# shellcheck disable=SC2086
	same "trace: in microseconds" 0 document-microseconds.txt from trace-report.txt trace $t --us 1 --khz 100000
	# shellcheck disable=SC2086
	same "trace: a late job" 0 document-late.txt from trace-late.txt trace $t
	# shellcheck disable=SC2086
	same "trace: events lost" 0 document-lost.txt from trace-lost.txt trace $t --lost cut
	same "trace: starving" 0 document-starving.txt from starving.txt trace --tasks audio:5,render:16
	same "trace: late on another processor" 0 document-elsewhere.txt from elsewhere.txt trace --tasks render:16
	same "trace: late in a short run" 0 document-short-late.txt from short-late.txt trace --tasks audio:5
	same "trace: ends in short runs" 0 document-tick.txt from tick.txt trace --tasks render:9
	same "trace: the stored document" 0 document.txt cat governor.txt
	answers "trace: feasible" 0 feasible from "$expected/document.txt" "$YDS" audit
	cat "$expected/points.txt" "$expected/document.txt" >"$work/both"
	answers "trace: feasible on the points" 0 feasible from "$work/both" "$YDS" audit --points
	answers "trace: late" 1 "late slot 19 decode.2 5319 deadline 5150" from "$expected/document-late.txt" "$YDS" audit
	same "misses: both of two" 1 misses.txt from /dev/null tool misses late-twice.txt
	answers "misses: none" 0 feasible tool misses "$expected/document.txt"
	answers "misses: another fault" 1 "backward slot 1 a 3 3" tool misses bad/flat.txt
	refuses "misses: no job" 1 "" "yds-misses: /dev/null has no job, so no deadline was met; look at what wrote it" tool misses /dev/null
	refuses "misses: no document" 1 "" "yds-misses: nothing.txt can't be read: No such file or directory" tool misses nothing.txt
	answers "trace: what failed is refused" 3 "refused 1 1 UnknownKind" from bad/failed.txt "$YDS" audit
}

test_points() {
	same "points: energy model" 0 points.txt points --domain cpu0 energy-model.txt
	same "points: exact speeds" 0 points-exact-speeds.txt points --domain cpu4 --khz 24000 --idle 20 energy-model.txt
	same "points: debugfs" 0 points-debugfs.txt points --coefficient 100 opp-debugfs.txt
	same "points: device tree" 0 points-tree.txt points --coefficient 100 --domain cluster0_opp opp.dtsi
	same "points: a datasheet's table" 0 points-microcontroller.txt points --khz 1000 --uw 10 --volts 3.0 microcontroller.csv
	same "points: frequencies alone" 0 points-cube.txt points --top 2000 scaling_available_frequencies
	refuses "points: several domains" 1 failed "yds-points: several domains: cpu4, cpu0; give --domain" points energy-model.txt
	refuses "points: no such domain" 1 failed "yds-points: no domain cpu3; there are cpu4, cpu0" points --domain cpu3 energy-model.txt
	refuses "points: no coefficient" 1 failed "yds-points: cluster0_opp has voltages and no powers; give --coefficient, the CPU's dynamic-power-coefficient" \
		points --domain cluster0_opp opp.dtsi
	refuses "points: frequencies without power" 1 failed "yds-points: scaling_available_frequencies, line 1: 6 columns; give a table of two, MHz and mW, a heading with the units of more, or --top with frequencies in kHz" \
		points scaling_available_frequencies
	refuses "points: two states of one speed" 1 failed "yds-points: 600000 kHz and the state below it are both speed 1; give a finer --khz, as --khz 24000" \
		points --domain cpu0 --khz 450000 energy-model.txt
	refuses "points: too fast for the unit" 1 failed "yds-points: 408000 kHz is speed 4080, above 4000; give a coarser --khz, as --khz 24000" points --domain cpu0 --khz 100 energy-model.txt
	printf '%s\n' 803000 1604000 2404000 3203000 4000000 | tr '\n' ' ' >"$work/fine"
	refuses "points: gaps too fine" 1 failed "yds-points: the gaps between the speeds are too fine (their least common multiple is above 2^40); give a coarser --khz" \
		points --top 4000 --khz 1000 "$work/fine"
	refuses "points: an empty input" 1 failed "yds-points: no operating point was read; the input is an energy model, an opp folder, a device tree, a table of MHz and mW, or frequencies with --top" \
		points /dev/null
	refuses "points: no such file" 1 failed "yds-points: nowhere can't be read: No such file or directory" points nowhere
	printf '\357\273\277"Clock (MHz)";"Current (mA)"\r\n0;0,04\r\n4;0,5\r\n16;1,6\r\n24;2,3\r\n48;4,6\r\n80;8,5\r\n' >"$work/sheet"
	same "points: a spreadsheet's table" 0 points-microcontroller.txt points --khz 1000 --uw 10 --volts 3.0 "$work/sheet"
	refuses "points: milliamperes without volts" 1 failed "yds-points: microcontroller.csv, line 1: the heading says MHz, mA; give --volts" points --khz 1000 microcontroller.csv
	printf 'MHz,mW\n4,0.5\n' >"$work/heading"
	refuses "points: the heading of a power with volts=" 1 failed "yds-points: $work/heading, line 1: the heading says MHz, mW; leave --volts out" points --volts 3.0 "$work/heading"
	printf '4 MHz,0.5\n16,1.6\n' >"$work/heading"
	refuses "points: a heading that isn't one" 1 failed \
		"yds-points: $work/heading, line 1: MHz is no number; a row has numbers alone, and their units stand in a heading, as MHz,mA" points "$work/heading"
	printf '4\n16,1.6\n' >"$work/heading"
	refuses "points: a column is missing" 1 failed \
		"yds-points: $work/heading, line 1: 1 columns; give a table of two, MHz and mW, a heading with the units of more, or --top with frequencies in kHz" points "$work/heading"
	printf '16,48\n48,138\n80,255\n' >"$work/coarse"
	refuses "points: speeds in too coarse a unit" 1 failed \
		"yds-points: 16000 kHz is speed 2 in units of 10000 kHz, more than a twentieth off; give a finer --khz, as --khz 16000" points --khz 10000 "$work/coarse"
	grep -v '^0,' microcontroller.csv >"$work/no-idle"
	refuses "points: powers in too coarse a unit" 1 failed \
		"yds-points: 4000 kHz has 1.5 mW, and 2 units of 1000 uW are more than a twentieth off; give a finer --uw, as --uw 500" points --khz 1000 --volts 3.0 "$work/no-idle"
	sed 's/cpu0\/flags:0x1/cpu0\/flags:0x5/' energy-model.txt >"$work/artificial"
	refuses "points: no watts" 1 failed "yds-points: the powers of cpu0 are no watts (flag 4); give a table of measured powers" points --domain cpu0 "$work/artificial"
}

rtapp() { tool rtapp "$@"; }

test_rtapp() {
	same "rtapp: tasks" 0 tasks.txt rtapp -m 1416 -c 0 workload.json
	same "rtapp: jobs of phases" 0 phases.txt rtapp -m 1416 -j workload-phases.json
	refuses "rtapp: a key twice" 1 failed "yds-rtapp: the key tasks.codec.run stands twice, and every reader of JSON keeps but one; number the keys, as run0 and run1" \
		rtapp -m 1416 workload-twice.json
	refuses "rtapp: several CPUs" 1 failed "yds-rtapp: the tasks have different cpus; give -c CPU" rtapp -m 1416 workload.json
	refuses "rtapp: phases without -j" 1 failed "yds-rtapp: ramp: several phases; give -j" rtapp -m 1416 workload-phases.json
	refuses "rtapp: a period that is no multiple" 1 failed "yds-rtapp: decode: the period is no multiple of the time unit, 7 microseconds; give -u 10, which divides all times, or -j" \
		rtapp -m 1416 -c 0 -u 7 workload.json
	refuses "rtapp: a task without a job" 1 failed "yds-rtapp: decode: no job of it is due within the duration; give a longer -H" \
		rtapp -m 1416 -c 0 -H 0.01 workload.json
	refuses "rtapp: no frequency" 2 failed "yds-rtapp: no -m MHZ, the frequency to which rt-app was calibrated; see yds-rtapp --help" rtapp workload.json
	printf '{\n\t"tasks" : { "a" : {}\n\t} } }\n' >"$work/unmatched"
	refuses "rtapp: no JSON" 1 failed "yds-rtapp: Extra data at line 3, column 6" rtapp -m 1416 "$work/unmatched"
	for event in '"lock":"m"@a: lock makes jobs depend on more than time; only run, timer, sleep and yield can be read' \
		'"runtime":5@a: runtime is time and not work; give run' '"timer0":{"period":9}@a: two timers' \
		'"sleep":5@a: a timer and a sleep together' '"loop":3@a: it ends after its loops; give -j'; do
		printf '{"tasks":{"a":{"run":5,"timer":{"ref":"x","period":1000},%s}},"global":{"duration":1}}\n' "${event%%@*}" >"$work/event"
		refuses "rtapp: ${event%%@*}" 1 failed "yds-rtapp: ${event#*@}" rtapp -m 1000 "$work/event"
	done
	printf '{"tasks":{"a":{"run":5}},"global":{"duration":1}}\n' >"$work/event"
	refuses "rtapp: a run without a timer" 1 failed "yds-rtapp: a: a run without a timer has no period" rtapp -m 1000 "$work/event"
	want expand || return
	rtapp -m 1416 -c 0 workload.json | "$YDS" expand | grep '^job' >"$work/expanded"
	rtapp -m 1416 -c 0 -j workload.json | grep '^job' >"$work/jobs"
	if cmp -s "$work/expanded" "$work/jobs" && [ -s "$work/jobs" ]; then pass; else fail "rtapp: -j and expand give the same jobs"; fi
}

# Where the machine has a locale with a decimal comma: no command reckons with it.
test_comma() {
	comma=$(locale -a 2>/dev/null | grep -iE '^(de|es|fr|it|nl|pl)_.*utf-?8$' | head -n 1)
	[ -n "$comma" ] || return
	same "comma: misses has its own locale" 1 misses.txt from /dev/null env LC_ALL="$comma" "$here/bin/yds-misses" late-twice.txt
	same "comma: trace" 0 document.txt from trace-report.txt env LC_ALL="$comma" "$YDS_TRACE" --tasks decode:16.667,audio:10
}

energy() { tool energy "$@"; }
test_energy() {
	cat "$expected/points.txt" "$expected/document.txt" >"$work/both"
	same "energy: of a trace" 0 energy.txt energy --name governor "$work/both"
	same "energy: flat out" 0 energy-at.txt energy --at 142 "$work/both"
	refuses "energy: no points" 1 "" "yds-energy: no point line; put the points before the document, as yds-join points.txt trace.txt" energy "$expected/document.txt"
	refuses "energy: above the top" 1 "" "yds-energy: bad/slow.txt, line 15, column 19: the speed 60 from 0 to 200 is above the top point 41" energy bad/slow.txt
	refuses "energy: a name of two words" 2 "" "yds-energy: --name my policy isn't one word; see yds-energy --help" energy --name "my policy" "$work/both"
	refuses "energy: no such point" 1 "" "yds-energy: no point has the speed 50" energy --at 50 "$work/both"
	refuses "energy: too much work for a point" 1 "" "yds-energy: the work of all jobs is more than the point 41 does in the whole time" energy --at 41 "$work/both"
	sed 's/speed unit 10000 kHz/speed unit 1000 kHz/' "$expected/points.txt" | cat - "$expected/document.txt" >"$work/units"
	refuses "energy: two units of speed" 1 "" \
		"yds-energy: $work/units, line 20, column 20: a unit of speed of 10000 kHz here and 1000 kHz before; give points and trace the same --khz" energy "$work/units"
	refuses "energy: a refusal" 1 "" "yds-energy: $expected/compare-refused.txt, line 1: the input is an answer of no: refused 1 9 EmptyWindow" energy "$expected/compare-refused.txt"
	same "battery" 0 battery.tsv tool battery --mah 220 --volts 3.0 --uw 10 --period 1000 "$expected/compare-sensor.txt"
	same "battery: the points' unit of power" 0 battery.tsv tool battery --mah 220 --volts 3.0 --period 1000 "$expected/points-microcontroller.txt" "$expected/compare-sensor.txt"
	refuses "battery: no unit of power" 2 "" "yds-battery: no unit of power; give --uw, or the file of points with its comment before the lines; see yds-battery --help" \
		tool battery --mah 220 --volts 3.0 "$expected/compare-sensor.txt"
	refuses "battery: no period" 2 "" "yds-battery: no period is told; give --period, after how many units of time all begins again, or the document of yds-tasks, which tells it, before the lines; see yds-battery --help" \
		tool battery --mah 220 --volts 3.0 --uw 10 "$expected/compare-sensor.txt"
	refuses "battery: a side twice" 1 "" "yds-battery: $expected/compare-sensor.txt, line 1, column 1: the side plan stands twice; write its lines into a new file" \
		tool battery --mah 220 --volts 3.0 --uw 10 "$expected/compare-sensor.txt" "$expected/compare-sensor.txt"
	refuses "battery: a refusal" 1 "" "yds-battery: $expected/compare-refused.txt, line 1: the input is an answer of no: refused 1 9 EmptyWindow" \
		tool battery --mah 220 --volts 3.0 "$expected/compare-refused.txt"
	refuses "battery: no volts" 2 "" "yds-battery: --mah and --volts of the battery are numbers above 0; see yds-battery --help" tool battery --mah 220 "$expected/compare-sensor.txt"
	"$YDS" plan <"$work/both" >"$work/plan"
	if want compare; then
		same "compare: the trace's jobs" 0 compare-governor.txt from "$work/both" "$YDS" compare --grid 100
		ask="$(energy --name plan "$work/plan" | $AWK "$decimal" | head -n 1)"
		if [ "$ask" = "$(head -n 1 "$expected/compare-governor.txt" | $AWK "$decimal")" ]; then pass; else fail "energy: of a plan"; fi
	fi
	if want oa; then
		"$YDS" oa --grid 100 <"$work/both" >"$work/oa"
		ask="$(energy --name oa "$work/oa" | $AWK "$decimal" | head -n 1)"
		if [ "$ask" = "$(grep '^oa energy' "$expected/compare-governor.txt" | $AWK "$decimal")" ]; then pass; else fail "energy: of a policy"; fi
	fi
	if want expand compare; then
		(cat "$expected/points-microcontroller.txt" && "$YDS" expand <sensor-tasks.txt) >"$work/sensor"
		same "compare: the sensor's tasks" 0 compare-sensor.txt from "$work/sensor" "$YDS" compare --grid 1000
	fi
	if want curve; then same "curve: the trace's jobs" 0 curve.txt from "$work/both" "$YDS" curve; fi
}
# An energy line's number with three decimals.
decimal='{ n = split($3, part, /[+\/]/); printf "%s %.3f\n", $1, (n == 3 ? part[1] + part[2] / part[3] : $3) }'

# holds NAME FILE TEXT ..: the file has each of these texts.
holds() {
	name=$1 file=$2
	shift 2
	for text in "$@"; do
		grep -qF -- "$text" "$file" || { fail "$name: no '$text'"; return; }
	done
	pass
}
# counts NAME FILE TEXT NUMBER: so many lines of the file have the text.
counts() {
	got=$(grep -cF -- "$3" "$2")
	if [ "$got" = "$4" ]; then pass; else fail "$1: $got of '$3' and not $4"; fi
}
test_folder() {
	cp "$expected"/compare-a.txt "$expected"/compare-refused.txt "$expected"/compare-too-slow.txt "$work"
	(cd "$work" && tool collect compare-a.txt compare-refused.txt compare-too-slow.txt >energies.tsv)
	same "collect: a table" 0 energies.tsv cat "$work/energies.tsv"
	: >"$work/empty.txt"
	cat "$expected/compare-a.txt" "$expected/energy.txt" >"$work/more.txt"
	same "collect: no answer, and another side" 0 more.tsv tool collect "$work/empty.txt" "$work/more.txt"
	cat "$expected/energy.txt" "$expected/energy.txt" >"$work/twice.txt"
	refuses "collect: a side twice" 1 "" "yds-collect: twice.txt, line 9, column 1: the side governor stands twice; write its lines into a new file" from /dev/null tool_in "$work" collect twice.txt
	refuses "collect: another file" 1 "" "yds-collect: points.txt, line 2: \"point 0 0\" is no line of compare or yds-energy" from /dev/null tool_in "$expected" collect points.txt
	tool_in "$expected" reports report-a.json report-refused.json >"$work/reports.tsv" 2>&1
	same "report: a table" 0 reports.tsv cat "$work/reports.tsv"
	want compare || return
	mkdir "$work/answers"
	printf '%s\0' folder/*.txt | YDS=$YDS OUT=$work/answers xargs -0 -n1 -P4 sh -c '"$YDS" compare --grid 1000 <"$1" >"$OUT/$(basename "$1")"; printf "%s\t%s\n" $? "$1"' sh | sort -k2 >"$work/statuses"
	same "folder: through xargs" 0 statuses.tsv cat "$work/statuses"
	same "folder: its table" 0 folder.tsv tool collect "$work"/answers/*.txt
	want parallel || return
	(YDS=$YDS parallel --will-cite -j4 --joblog "$work/log" --results "$work/para/{/.}.txt" '"$YDS" compare --grid 1000 < {}' ::: folder/*.txt) >/dev/null 2>&1
	if [ $? = 2 ]; then pass; else fail "folder: parallel's status is the number of documents without an answer"; fi
	same "folder: through parallel" 0 folder.tsv tool collect "$work"/para/*.txt
}
tool_in() { (cd "$1" && shift && tool "$@"); }

test_page() {
	if want mandoc; then
		for name in yds_cli yds_trace; do same "the manual page of $name" 0 - mandoc -T lint -W warning "$here/../docs/$name.1"; done
	fi
	if want bash; then
		for try in "c@check curve compare" "compare @--grid" "audit -@--points" "report @--json" "oa --grid 10@100 1000 1000000"; do
			asked=${try%@*}
			got=$(bash -c 'source "$1"; COMP_WORDS=(yds_cli $2); case $2 in *" ") COMP_WORDS+=("") ;; esac
				COMP_CWORD=$((${#COMP_WORDS[@]} - 1)); _yds_cli; echo "${COMPREPLY[*]}"' bash "$here/../completions/yds_cli.bash" "$asked")
			if [ "$got" = "${try#*@}" ]; then pass; else fail "completion of '$asked': $got"; fi
		done
		for try in "--t@--tasks --to" "--begin @run" "--tasks a:1 --l@--lost" "--lost = c@cut" "--moved @parts" "--others = s@spans" "--tasks @" "--cpu 3 --h@--help"; do
			asked=${try%@*}
			got=$(bash -c 'source "$1"; COMP_WORDS=(yds_trace $2); case $2 in *" ") COMP_WORDS+=("") ;; esac
				COMP_CWORD=$((${#COMP_WORDS[@]} - 1)); _yds_trace; echo "${COMPREPLY[*]}"' bash "$here/../completions/yds_trace.bash" "$asked")
			if [ "$got" = "${try#*@}" ]; then pass; else fail "completion of yds_trace '$asked': $got"; fi
		done
	fi
}

# The commands of the manual and of the README, with the output that stands below them. Each section is a session of its
# own in a new folder; one that needs a missing package or command is left out.
test_manual() { commands_of ../../docs/manual.md; }
test_readme() { commands_of ../../README.md; }
commands_of() {
	want bash || return
	for page in "$@"; do
		rm -rf "$work/page"
		mkdir "$work/page"
		$AWK -v out="$work/page" '
			function close_command() { if (wanted != "") { close(wanted); close(command) } wanted = "" }
			/^## / { close_command(); section++; n = 0; block = 0; print substr($0, 4) > (out "/" section ".title") ; close(out "/" section ".title") }
			/^    / {
				line = substr($0, 5)
				if (line ~ /^\$ /) {
					close_command()
					n++
					command = sprintf("%s/%d.%03d.command", out, section, n)
					wanted = sprintf("%s/%d.%03d.wanted", out, section, n)
					print substr(line, 3) > command
					printf "" > wanted
					block = 1
				} else if (block && line ~ /^> / && !told) print substr(line, 3) > command
				else if (block) print line > wanted
				told = block && line !~ /^[$>] /
				next
			}
			{ block = told = 0 }
			END { close_command() }' "$page"
		for title in "$work"/page/*.title; do
			section=${title%.title}
			[ -f "$section.001.command" ] || continue
			case $(cat "$title") in
			"Long traces and many machines" | "A window that is always open") [ -n "${HOUR:-}" ] || { left_out=$((left_out + 1)); echo "tried with HOUR=1 alone: ${page##*/}, $(cat "$title")"; continue; } ;;
			esac
			words=$(cat "$section".*.command | grep -oE 'yds_cli [a-z]+( --json)?|yds-plot|jq |parallel ' |
				sed 's/.*--json/json/; s/yds_cli //; s/^yds-plot/matplotlib/' | sort -u)
			# shellcheck disable=SC2086
			want $words || continue
			mkdir -p "$section.folder/bin" "$section.folder/build"
			ln -s "$YDS" "$section.folder/bin/yds_cli"
			ln -s "$YDS_TRACE" "$section.folder/bin/yds_trace"
			ln -s "$YDS" "$section.folder/build/yds_cli"
			ln -s "$here" "$section.folder/recipes"
			ln -s "$here/../examples" "$section.folder/examples"
			ln -s "$here/../library" "$section.folder/library"
			(cd "$section.folder" && PATH=$section.folder/bin:$here/bin:$PATH bash -c '
				last=0
				for command in "$1".*.command; do
					(exit $last)
					. "$command" >"${command%.command}.got" 2>&1
					last=$?
				done' bash "$section" </dev/null)
			same_pictures "$section.folder"
			for wanted in "$section".*.wanted; do
				sed 's/^.*: line [0-9]*: /bash: /' "${wanted%.wanted}.got" >"$work/got"
				if cmp -s "$wanted" "$work/got"; then pass; continue; fi
				fail "${page##*/}, $(cat "$title"): $(head -n 1 "${wanted%.wanted}.command")"
				diff "$wanted" "$work/got" | head -n 8
			done
		done
	done
}

texts() { grep -o '>[^<]*</text>' "$1"; }
# same_pictures FOLDER: a picture of docs/pictures has the texts of the one of this name that the commands have drawn.
same_pictures() {
	for picture in "$1"/*.svg; do
		stored=$here/../docs/pictures/${picture##*/}
		[ -f "$picture" ] && [ -f "$stored" ] || continue
		if [ "$(texts "$picture")" = "$(texts "$stored")" ]; then pass; else fail "docs/pictures/${picture##*/} isn't what the commands draw; draw it anew with them"; fi
	done
}

# Each file of tests/ has more, as a function test_NAME for the file NAME.sh. It is read just before it runs, so that each
# has its own functions, whatever those of the others are called; and each part has the work folder for itself.
more=
for file in "$here"/tests/*.sh; do
	name=${file##*/}
	more="$more ${name%.sh}"
done

parts=${*:-trace points comma energy rtapp folder page manual readme$more}
for part in $parts; do
	rm -rf "$work"
	mkdir "$work" || exit 1
	[ ! -f "$here/tests/$part.sh" ] || . "$here/tests/$part.sh"
	test_$part
done
missing=
for word in jq parallel mandoc sshd; do
	has $word || case $word in sshd) missing="$missing openssh-server" ;; *) missing="$missing $word" ;; esac
done
has_matplotlib || missing="$missing python3-matplotlib"
[ -z "$missing" ] || echo "missing packages; on Debian: apt-get install$missing"
[ $left_out = 0 ] || echo "$left_out left out"
echo "$passed passed, $failed failed"
[ $failed = 0 ]
