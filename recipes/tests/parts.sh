# parts.sh: yds-parts and yds-whole. Sourced by test.sh.
#
# Environment: DOCUMENTS, how many drawn documents are tried by parts and at once, from 1 on (2; 50 take some minutes).

parts() { tool parts "$@"; }
whole() { tool whole "$@"; }
# answer FOLDER WORD ..: what the program answers to each part, as part-00001.answer beside it.
answer() {
	folder=$1
	shift
	for file in "$folder"/part-*.txt; do "$YDS" "$@" <"$file" >"${file%.txt}.answer"; done
}
# by_parts NAME DOCUMENT FOLDER WORD ..: the whole of the answers to the parts is the program's answer to the document, with its status.
by_parts() {
	name=$1 document=$2 folder=$3
	shift 3
	"$YDS" "$@" <"$document" >"$work/once"
	status=$?
	answer "$folder" "$@"
	whole "$folder"/part-*.answer >"$work/whole" 2>/dev/null
	got=$?
	[ $status = 3 ] && status=1
	if [ $got = $status ] && cmp -s "$work/once" "$work/whole"; then pass; return; fi
	fail "parts: $name by $*: status $got"
	diff "$work/once" "$work/whole" | head -n 8
}

# Two parts that touch have one level, and the idle time after them costs 3: by hand.
test_parts_by_hand() {
	printf '%s\n' 'job a 0 4 8' 'job b 4 6 4' 'job c 9 12 3' 'point 0 1' 'point 2 5' >"$work/long"
	parts --folder "$work/hand" --jobs 1 "$work/long" >"$work/out" 2>&1
	if [ $? = 0 ] && [ ! -s "$work/out" ] && [ "$(ls "$work/hand" | tr '\n' ' ')" = "part-00001.txt part-00002.txt part-00003.txt " ]; then pass; else fail "parts: three parts"; fi
	refuses "parts: the third part" 0 "# part 3: jobs 3 to 3, from 9 to 12, shift 0, the last
job c 9 12 3
point 0 1
point 2 5" "" cat "$work/hand/part-00003.txt"
	answer "$work/hand" plan
	refuses "whole: a plan" 0 "$(printf '%s\n' 'job a 0 4 8' 'job b 4 6 4' 'job c 9 12 3' 'point 0 1' 'point 2 5' 'slot a 0 4 8' 'slot b 4 6 4' 'slot c 9 12 3' \
		'level 12 6' 'piece 0 6' 'member a' 'member b' 'level 3 3' 'piece 9 12' 'member c')" "" whole "$work"/hand/part-*.answer
	for file in "$work"/hand/part-*.answer; do "$YDS" check <"$file" >"${file%.answer}.check"; done
	answers "whole: accepted" 0 accepted whole "$work"/hand/part-*.check
	answer "$work/hand" round
	if [ "$(whole "$work"/hand/part-*.answer | tail -n 1)" = "energy 42" ]; then pass; else fail "whole: the energy of round"; fi
	answer "$work/hand" report
	refuses "whole: a report" 0 "jobs 3 work 15 from 0 to 12
    1         12          6 2
    2          3          3 1
idle 3" "" whole "$work"/hand/part-*.answer
	answer "$work/hand" compare --grid 1
	refuses "whole: a comparison" 0 "plan energy 42
plan time 0 4+1/2
plan time 2 7+1/2
avr energy 42
avr time 0 4+1/2
avr time 2 7+1/2
avr rounded 0
oa energy 42
oa time 0 4+1/2
oa time 2 7+1/2
oa rounded 0" "" whole "$work"/hand/part-*.answer
	mkdir -p "$work/elsewhere" && cp "$work"/hand/part-*.answer "$work/elsewhere"
	refuses "whole: answers elsewhere, and no parts" 1 failed "yds-whole: $work/elsewhere/part-00001.answer: there is no part $work/elsewhere/part-00001.txt; say where the parts are (--folder)" \
		whole "$work"/elsewhere/part-*.answer
	answers "whole: answers elsewhere" 0 "plan energy 42" whole --folder "$work/hand" "$work"/elsewhere/part-*.answer
}

# Sums beyond what a double holds, by another program's fractions.
test_parts_exact() {
	printf '%s\n' 'job a 0 4 1' 'job b 10 14 1' 'point 0 0' 'point 1 1' >"$work/long"
	parts --folder "$work/exact" --jobs 1 "$work/long"
	printf '%s\n' 'plan energy 9007199254740993+1/3' 'plan time 0 3+2/3' 'plan time 1 0+1/3' >"$work/exact/part-00001.answer"
	printf '%s\n' 'plan energy 5+1/1152921504606846975' 'plan time 0 3+1/7' 'plan time 1 0+6/7' >"$work/exact/part-00002.answer"
	refuses "whole: exact sums" 0 "plan energy 9007199254740998+384307168202282326/1152921504606846975
plan time 0 12+17/21
plan time 1 1+4/21" "" whole "$work"/exact/part-*.answer
	printf '%s\n' 'plan energy 1' 'plan time 0 3' 'plan time 1 0+1/3' >"$work/exact/part-00001.answer"
	refuses "whole: times of other parts" 1 failed "yds-whole: $work/exact/part-00001.answer: the times of plan in all parts aren't those of the parts' jobs and slots" \
		whole "$work"/exact/part-*.answer
}

# cut NAME ERROR LINE ..: a document of these lines isn't cut, and what is left is refused.
cut_fails() {
	name=$1 error=$2
	shift 2
	printf '%s\n' "$@" >"$work/long"
	rm -rf "$work/cut"
	refuses "parts: $name" 1 "" "yds-parts: $error" parts --folder "$work/cut" --jobs 2 "$work/long"
	if [ "$(ls -A "$work/cut")" = part-00001.txt ] && [ "$(cat "$work/cut/part-00001.txt")" = failed ]; then pass; else fail "parts: $name leaves no part"; fi
}
test_parts_faults() {
	refuses "parts: no folder" 2 "" "yds-parts: no --folder DIR is given; see yds-parts --help" parts "$work/long"
	refuses "parts: too many jobs for a part" 2 "" "yds-parts: --jobs 4001 is no number from 1 to 4000; see yds-parts --help" parts --folder "$work/cut" --jobs 4001 "$work/long"
	order="the jobs need the order of their releases: (grep '^job' LONG | sort -k3n; grep -v '^job' LONG)"
	cut_fails "out of order" "$work/long, line 3: job c is released at 3, and one above it at 5; $order" 'job a 0 4 8' 'job b 5 6 1' 'job c 3 9 1'
	cut_fails "no place to cut" "there is no place to cut from job a to job b: a window is always open, and a job always has runs on both sides. With the next one these jobs are 3, above 2. The one whose runs reach furthest is a; take it out, or let it be a job for each piece" \
		'job a 0 9 2' 'job b 1 9 1' 'job c 2 9 1' 'ticks 1' 'run a 0 1 1' 'run b 1 2 1' 'run c 2 3 1' 'run a 3 4 1'
	cut_fails "a name twice, in two parts" "$work/long, line 3: a job of the name a is there already, at line 1" 'job a 0 4 8' 'job b 4 6 1' 'job a 6 9 1'
	cut_fails "a slot of no job" "$work/long, line 2: no job of the name b" 'job a 0 4 8' 'slot b 0 4 8'
	cut_fails "a slot before its job" "$work/long, line 2: the line of job b comes after it, as line 3" 'job a 0 4 8' 'slot b 4 5 8' 'job b 4 5 8'
	cut_fails "a run before the ticks" "$work/long, line 2: a run before any line of ticks" 'job a 0 4 8' 'run a 0 4 2' 'ticks 1'
	cut_fails "ticks twice" "$work/long, line 2: a second line of ticks" 'ticks 1' 'ticks 1' 'job a 0 4 8'
	cut_fails "a line cut short" "$work/long, line 2: a job is: job NAME RELEASE DEADLINE WORK, in whole numbers" 'job a 0 4 8' 'job b 4 6'
	cut_fails "a leading zero" "$work/long, line 2: a job is: job NAME RELEASE DEADLINE WORK, in whole numbers" 'job a 0 4 8' 'job b 04 6 1'
	cut_fails "an empty window" "$work/long, line 1: job a has its deadline 4 at or before its release 4" 'job a 4 4 8'
	cut_fails "a late time" "$work/long, line 1: a time above 1000000000; shift the times of each part (--shift)" 'job a 0 1000000001 8'
	cut_fails "an answer of no" "$work/long, line 1: the input is an answer of no: failed" failed
	cut_fails "another kind of line" "$work/long, line 2: jobs is no kind of line" 'job a 0 4 8' 'jobs b 4 6 1'
	cut_fails "points and no job" "no job line; look at what wrote the input" 'point 0 1' '# no job'
	rm -rf "$work/cut"
	refuses "parts: an empty input" 1 "" "yds-parts: the input is empty; look at what wrote it" from /dev/null parts --folder "$work/cut"
	refuses "parts: no such file" 1 "" "yds-parts: $work/nowhere can't be read: No such file or directory" parts --folder "$work/cut" "$work/nowhere"
	answers "parts: what is left where there is no file" 0 failed cat "$work/cut/part-00001.txt"
	printf '%s\n' 'job a 0 4 8' 'slot a 0 4 8' 'level 8 4' 'piece 0 4' 'member a' >"$work/long"
	refuses "parts: levels are left out, and said so" 0 "" "yds-parts: 3 lines of levels, pieces and members are left out; a part has no answer of check" \
		parts --folder "$work/cut" "$work/long"
	# An earlier cut leaves nothing behind.
	$AWK -v seed=3 -f long-document.awk >"$work/long"
	parts --folder "$work/lines" --jobs 20 "$work/long"
	for file in "$work"/lines/part-*.txt; do : >"${file%.txt}.plan"; done
	printf '%s\n' 'job a 0 4 8' | parts --folder "$work/lines"
	if [ "$(ls -A "$work/lines")" = part-00001.txt ]; then pass; else fail "parts: of an earlier cut"; fi
	# Line ends of Windows, tabs and empty lines cut as others; each comment stands in one part, units in each.
	parts --folder "$work/lines" --jobs 20 "$work/long"
	sed 's/ /\t  /g; s/$/\r/; s/^run/ run/' "$work/long" | sed 'G' | parts --folder "$work/windows" --jobs 20
	if diff -r "$work/lines" "$work/windows" >"$work/out"; then pass; else fail "parts: line ends of Windows"; head -n 5 "$work/out"; fi
	(echo '# time unit 10 us, speed unit 10000 kHz'; echo '# first'; cat "$work/long"; echo '# left out: j.7') | parts --folder "$work/comments" --jobs 20
	n=$(ls "$work/comments" | wc -l)
	counts "parts: units in each part" /dev/stdin 'time unit' "$((n))" <<-END
		$(cat "$work"/comments/part-*.txt)
	END
	counts "parts: another comment in one part" /dev/stdin '# left out: j.7' 1 <<-END
		$(cat "$work"/comments/part-*.txt)
	END
}

# no_whole NAME ERROR: the answers of the folder aren't put together.
no_whole() { refuses "whole: $1" 1 failed "yds-whole: $2" whole "$work"/faults/part-*.plan; }
plan_again() { for file in "$work"/faults/part-*.txt; do "$YDS" plan <"$file" >"${file%.txt}.plan"; done; }
test_whole_faults() {
	refuses "whole: no answer" 2 failed "yds-whole: no file: yds-whole [--folder DIR] [--cpu N] [--grid G] [--bounds] [--spent ENERGIES] FILE ..; see yds-whole --help" whole
	printf '%s\n' 'job a 0 4 8' 'job b 4 6 4' 'job c 9 12 3' 'point 0 1' 'point 2 5' >"$work/long"
	rm -rf "$work/faults"
	parts --folder "$work/faults" --jobs 1 "$work/long"
	second=$work/faults/part-00002.plan
	third=$work/faults/part-00003.plan
	plan_again
	: >"$second"
	no_whole "an empty answer" "$second: is empty: lack of memory, or the program didn't run"
	rm "$second"
	no_whole "an answer is missing" "$third: is the answer to part 3, and that to part 2 is missing"
	plan_again
	rm "$third"
	no_whole "the last answer is missing" "$second: is not the last part; the answers to the parts after it aren't among those named"
	plan_again
	printf 'job c 9 12 3\nslot c 9 12 3\nlevel 3' >"$third"
	no_whole "an answer that was cut" "$third: ends without a line feed: it was cut"
	printf 'job c 9 12 3\npoint 0 1\npoint 2 5\nslot c 9 12 3\n' >"$third"
	no_whole "an answer that was cut at a line" "$third: isn't whole: the levels have 0 of the jobs' work of 3"
	echo 'refused 2 9 EmptyWindow' >"$second"
	no_whole "a part is refused" "$second: refused 2 9 EmptyWindow, in $work/faults/part-00002.txt: job b 4 6 4"
	for answer in 'refused too-long' 'usage: yds_cli plan' failed; do
		echo "$answer" >"$second"
		no_whole "a part's answer is $answer" "$second: $answer"
	done
	echo 'break 0 4' >"$second"
	no_whole "a curve" "$second: \"break 0 4\" is no line of an answer that can be put together"
	"$YDS" report <"$work/faults/part-00002.txt" >"$second"
	no_whole "another kind of answer" "$second: another kind of answer than that to part 1"
	"$YDS" avr --grid 1 <"$work/faults/part-00002.txt" >"$second"
	no_whole "another text" "$second: another kind of answer than that to part 1"
	sed 's/^point 2/point 3/' "$work/faults/part-00002.txt" | "$YDS" plan >"$second"
	no_whole "other points" "$second: other points than those of part 1"
	sed 's/^job b 4 6/job b 4 7/' "$work/faults/part-00002.txt" | "$YDS" plan >"$second"
	no_whole "another document's answer" "$second: the jobs aren't those of $work/faults/part-00002.txt"
	refuses "whole: no such file" 1 failed "yds-whole: $work/nowhere.plan: can't be read" whole "$work/nowhere.plan"
	refuses "whole: the parts themselves" 1 failed "yds-whole: $work/faults/part-00001.txt: is the part; the answer to it has another ending, as .plan" \
		whole "$work"/faults/part-*.txt
	# Too slow: the first level of the whole, and the parts that are.
	printf '%s\n' 'job a 0 4 8' 'job b 4 6 10' 'job c 9 12 15' 'job d 20 21 4' 'point 0 1' 'point 2 5' >"$work/long"
	parts --folder "$work/faults" --jobs 1 "$work/long"
	for words in round 'compare --grid 1'; do
		# shellcheck disable=SC2086
		answer "$work/faults" $words
		refuses "whole: $words, too slow" 1 "too-slow work 25 length 5 top 2" "yds-whole: $work/faults/part-00002.answer: too-slow work 10 length 2 top 2" \
			whole "$work"/faults/part-*.answer
	done
	# A verdict has the slot's number in the long document, and the part is told.
	printf '%s\n' 'job a 0 4 8' 'job b 4 6 4' 'job c 9 12 3' 'slot a 0 4 8' 'slot b 4 5 4' 'slot c 11 13 3' >"$work/long"
	parts --folder "$work/faults" --jobs 1 "$work/long"
	answer "$work/faults" audit
	refuses "whole: late" 1 "late slot 3 c 13 deadline 12" "yds-whole: $work/faults/part-00003.answer: late slot 1 c 13 deadline 12" whole "$work"/faults/part-*.answer
	# Each part is feasible, and the slots of the whole overlap.
	printf '%s\n' 'job a 0 4 8' 'job b 4 6 4' 'slot b 4 5 4' 'slot a 0 4 8' >"$work/long"
	parts --folder "$work/faults" --jobs 1 "$work/long"
	answer "$work/faults" audit
	answers "whole: slots that overlap those of another part" 1 "overlap slot 2 a 0 previous 5" whole "$work"/faults/part-*.answer
	printf '%s\n' 'job c 6 9 1' 'slot c 6 7 1' >>"$work/long"
	parts --folder "$work/faults" --jobs 2 "$work/long"
	answer "$work/faults" audit
	answers "whole: slots that overlap within a part" 1 "overlap slot 2 a 0 previous 5" whole "$work"/faults/part-*.answer
	printf 'feasible\nfeasible\n' >"$work/faults/part-00001.answer"
	refuses "whole: two verdicts" 1 failed "yds-whole: $work/faults/part-00001.answer: \"feasible\" stands after the verdict" whole "$work"/faults/part-*.answer
}

# Drawn documents of up to 400 jobs, with at most 20 in a part.
test_parts_drawn() {
	seed=1
	while [ $seed -le "${DOCUMENTS:-2}" ]; do
		$AWK -v seed=$seed -f long-document.awk >"$work/long"
		if parts --folder "$work/drawn" --jobs 20 "$work/long"; then pass; else fail "parts: document $seed"; fi
		for words in plan round 'avr --grid 12' 'oa --grid 7' 'compare --grid 12' audit 'audit --points' report; do
			# shellcheck disable=SC2086
			by_parts "document $seed" "$work/long" "$work/drawn" $words
		done
		# Two billion units later, with the times of each part from 0.
		$AWK -v later=2000000000000 '
			$1 == "job" { $3 = sprintf("%.0f", $3 + later); $4 = sprintf("%.0f", $4 + later) }
			$1 == "ticks" { ticks = $2 }
			$1 == "run" { $3 = sprintf("%.0f", $3 + later * ticks); $4 = sprintf("%.0f", $4 + later * ticks) }
			$1 == "slot" { $3 = sprintf("%.0f", $3 + later); $4 = sprintf("%.0f", $4 + later) }
			{ print }' "$work/long" >"$work/later"
		if parts --folder "$work/drawn" --jobs 20 --shift "$work/later"; then pass; else fail "parts: document $seed, later"; fi
		for words in plan audit; do
			answer "$work/drawn" $words
			whole "$work"/drawn/part-*.answer 2>/dev/null | sed 's/200000000\([0-9]\{4\}\)/\1/g; s/\([ +]\)0*\([1-9][0-9]*\)/\1\2/g' >"$work/whole"
			"$YDS" $words <"$work/long" >"$work/once"
			if cmp -s "$work/once" "$work/whole"; then pass; else fail "parts: document $seed, later, by $words"; diff "$work/once" "$work/whole" | head -n 5; fi
		done
		seed=$((seed + 1))
	done
}

# Half a minute of a simulated trace: its jobs, the verdict, and what its governor spends, by parts, at once and by the simulator's account.
test_parts_trace() {
	$AWK -v seed=2 -v minutes=0.5 -v truth="$work/truth" -f simulate-long.awk >"$work/trace"
	from "$work/trace" trace --tasks decode:50,audio:20 >"$work/document"
	cat "$expected/points.txt" "$work/document" >"$work/long"
	parts --folder "$work/half" --jobs 200 "$work/long"
	if [ "$(ls "$work/half" | wc -l)" -gt 4 ]; then pass; else fail "parts: the parts of a trace"; fi
	cat "$work"/half/part-*.txt | grep '^job' | sort >"$work/jobs"
	if grep '^job' "$work/truth" | sort | cmp -s - "$work/jobs"; then pass; else fail "parts: the jobs of a trace"; fi
	by_parts "a trace" "$work/long" "$work/half" audit --points
	by_parts "a trace" "$work/long" "$work/half" compare --grid 100
	for file in "$work"/half/part-*.txt; do tool energy --name governor "$file" >"${file%.txt}.answer"; done
	tool energy --name governor "$work/long" >"$work/once"
	same_text "whole: the energy of a trace" "$work/once" whole "$work"/half/part-*.answer
	told=$($AWK '$1 == "point" { power[$2] = $3 } $1 == "time" { sum += power[$2] * $3 } END { printf "governor energy %.0f", sum }' "$expected/points.txt" "$work/truth")
	answers "whole: the energy that the simulator tells" 0 "$told" whole "$work"/half/part-*.answer
	# A run that is late by many parts: the time that both parts count is taken away.
	$AWK 'function later(line) { kept[++n] = line } $1 == "run" && !late { late = $2 } $1 == "run" && $2 == late { sub(/^run/, "#"); last = NR } { later($0) }
		END { for (i = 1; i <= n; i++) print kept[i]; print "run " late " 3000000 3000100 60" }' "$work/long" >"$work/late"
	parts --folder "$work/half" --jobs 200 "$work/late"
	by_parts "a late run" "$work/late" "$work/half" audit
	for file in "$work"/half/part-*.txt; do tool energy --name governor "$file" >"${file%.txt}.answer"; done
	tool energy --name governor "$work/late" >"$work/once"
	same_text "whole: the energy with a late run" "$work/once" whole "$work"/half/part-*.answer
}
# same_text NAME FILE COMMAND ..: standard output is the file.
same_text() {
	name=$1 file=$2
	shift 2
	"$@" >"$work/out" 2>"$work/err"
	if cmp -s "$work/out" "$file"; then pass; return; fi
	fail "$name"
	diff "$file" "$work/out" | head -n 8
	head -n 3 "$work/err"
}

test_parts() {
	test_parts_by_hand
	test_parts_trace
	test_parts_exact
	test_parts_faults
	test_whole_faults
	test_parts_drawn
}
