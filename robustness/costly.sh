#!/bin/sh
# costly.sh: times the documents within the limits that cost the built program most, each beside a plain document of its size.
#
#   sh robustness/costly.sh [TIMES]      each is run TIMES times, by turns with the plain one; 7 without it
#
# Environment: YDS (the program; build/yds_cli beside this folder), CC (cc). For each document there is a line: the command, what the
# document is, the least milliseconds of the processor in its runs and in the plain document's, their ratio, and its greatest memory in
# megabytes. The last line is 'N passed, M failed': a document fails where the ratio is above 10, the memory above 200 MB or the status
# isn't as wanted. The exit status is 1 where M isn't 0.

here=$(cd "$(dirname "$0")" && pwd)
YDS=${YDS:-$here/../build/yds_cli}
case $YDS in /*) ;; *) YDS=$(pwd)/$YDS ;; esac
CC=${CC:-cc}
LC_ALL=C
export LC_ALL
times=${1:-7}
work=$(mktemp -d) || exit 1
trap 'rm -rf "$work"' EXIT
[ -x "$YDS" ] || { echo "costly.sh: $YDS isn't there; make builds it" >&2; exit 1; }
for tool in measure names; do
	"$CC" -std=gnu11 -O2 -Wall -o "$work/$tool" "$here/$tool.c" || exit 1
done
passed=0
failed=0
cd "$work" || exit 1

# compare STATUS WORDS COSTLY PLAIN WHAT: of a document that ends with this status.
compare() {
	# shellcheck disable=SC2086
	if "$work/measure" "$times" "$3" "$YDS" $2 -- "$4" "$YDS" $2 | awk -v status="$1" -v words="$2" -v what="$5" '
		NR == 1 { costly = $1; memory = $2; ended = $3 }
		NR == 2 { plain = $1 }
		END {
			printf "%-24s %-60s %8s ms %8s ms %7.2f %6s MB", words, what, costly, plain, costly / plain, memory
			good = costly <= 10 * plain && memory <= 200 && ended == status
			print good ? "" : "  FAILED, status " ended
			exit !good
		}'; then
		passed=$((passed + 1))
	else
		failed=$((failed + 1))
	fi
}

# Jobs. The drawn ones are those of `trial`, and the plain document beside the others.
awk 'function draw() { s = (1664525 * s + 1013904223) % 4294967296; return int(s / 65536) }
	BEGIN { for (i = 0; i < 4000; i++) { x = draw(); y = draw(); print "job j" i, 10 * x, 10 * x + 1 + y, 1 + draw() } }' >drawn
awk '{ $5 = 1; print }' drawn >light
# 64 points, whose gaps are seven primes: their least common multiple is 584,803,025,179.
awk 'BEGIN { split("61 59 53 47 43 41 37", gap, " "); for (i = s = 0; i < 64; i++) { print "point", s, int(s * s / 17) + i; s += gap[i % 7 + 1] } }' >points
# Each window within the one before; all are live in the middle, and each has a level of its own.
awk 'BEGIN { for (i = 0; i < 4000; i++) print "job j" i, 125000 * i, 125000 * (8000 - i), 250 * (i + 1) }' >nested
awk 'BEGIN { for (i = 0; i < 4000; i++) print "job j" i, i, 8000 - i, i + 1 }' >nested-short
# Windows of half of all the time, each a little later.
awk 'BEGIN { for (i = 0; i < 4000; i++) print "job j" i, 100000 * i, 100000 * i + 500000000, 1000000 - i }' >leaning
# One job over all the time, cut by each of the others.
awk 'BEGIN { print "job long 0 1000000000 1000000"; for (i = 0; i < 3999; i++) print "job j" i, 250000 * i, 250000 * i + 125000, 1 + i % 1000 }' >cut
# Every second of two equal jobs is one too many for a top of 1; and short windows, half of which are.
awk 'BEGIN { for (i = 0; i < 4000; i++) print "job j" i, int(i / 2), int(i / 2) + 1, 1 }' >pairs
awk 'BEGIN { for (i = 0; i < 4000; i++) { r = 1237 * i % 4000; print "job j" i, r, r + 1 + 7 * i % 200, 1 + i % 3 } }' >short
awk 'BEGIN { print "job long 0 4000 2000"; for (i = 0; i < 3999; i++) print "job j" i, i % 2001, i % 2001 + 1, 1 }' >covered
awk 'BEGIN { for (i = 0; i < 64; i++) x = x "x" } { $2 = substr($2 x, 1, 64); print }' nested >nested-names
awk '{ $5 = 1 + int($5 / 100); print }' drawn >slow
for jobs in slow nested-short leaning cut; do cat points "$jobs" >"$jobs-on-points"; done
compare 0 plan nested drawn "nested windows over 10^9, a level each"
compare 0 plan nested-names drawn "the same, names of 64 bytes"
compare 0 plan cut drawn "one job cut at each event"
compare 0 plan leaning drawn "windows of half the time, greatest works"
compare 0 round nested-short-on-points slow-on-points "nested windows, levels at all of 64 points of fine gaps"
compare 0 round cut-on-points slow-on-points "one job cut at each event, 64 points of fine gaps"
for command in report "report --json" curve; do compare 0 "$command" nested drawn "nested windows, a level each"; done
for command in avr oa; do
	compare 0 "$command --grid 1000000" nested drawn "nested windows over 10^9"
	compare 0 "$command --grid 1000000" leaning drawn "windows of half the time, greatest works"
done
compare 0 "compare --grid 1000000" nested-short-on-points slow-on-points "nested windows, levels at all of 64 points of fine gaps"
compare 0 "compare --grid 1000000" leaning-on-points slow-on-points "windows of half the time, greatest works, 64 points"
compare 0 "admit 100" drawn light "drawn jobs, some refused"
compare 0 "admit 1" nested light "nested windows over 10^9"
compare 0 "admit 1000" nested-short light "nested windows over 8,000"
compare 0 "admit 1" pairs light "every second job refused"
compare 0 "admit 1" short light "short windows, half refused"
compare 0 "admit 1" covered light "one long job that the others push on"
compare 0 "trial 2 1000" /dev/null /dev/null "no document"

# Slots, pieces, levels and members: 100,000 of each, or as many as 8 MB hold.
slots() { awk -v work="$1" 'BEGIN { for (j = 0; j < 1000; j++) print "job j" j, 0, 1000000, 100 * work; for (i = 0; i < 100000; i++) print "slot j" int(i / 100), i, i + 1, work }'; }
slots 1 >slots
(cat points; slots 3069) >slots-at-the-top
(cat points; slots 61) >slots-at-the-second
awk 'BEGIN { for (j = 0; j < 1000; j++) print "job j" j, 0, 1000000, 70
	for (i = 0; i < 70000; i++) { d = sprintf("11529215046%08d", 6846976 - i); print "slot j" i % 1000, i "+1/" d, i "+2/" d, "0+" (i + 1) "/1152921504606846976" } }' >fine-slots
awk 'BEGIN { for (i = 0; i < 60; i++) x = x "x"; for (j = 0; j < 1000; j++) printf "job %s%04d 0 1000000 90\n", x, j
	for (i = 0; i < 90000; i++) printf "slot %s%04d %d %d 1\n", x, i % 1000, i, i + 1 }' >named-slots
compare 1 audit fine-slots slots "70,000 slots, a denominator near 2^60 each"
compare 0 audit named-slots slots "90,000 slots, names of 64 bytes"
compare 0 "audit --points" slots-at-the-top slots-at-the-second "100,000 slots at the last of 64 points"
awk 'BEGIN { for (j = 0; j < 4000; j++) print "job j" j, 0, 100000, 25; for (i = 0; i < 100000; i++) print "slot j" int(i / 25), i, i + 1, 1 }' >served
(cat served; awk 'BEGIN { print "level 100000 100000\npiece 0 100000"; for (j = 0; j < 4000; j++) print "member j" j }') >one-level
(cat served; awk 'BEGIN { print "level 100000 100000"; for (i = 0; i < 100000; i++) print "piece", i, i + 1; for (j = 0; j < 4000; j++) print "member j" j }') >windows
(echo "job a 0 100000 100000"; echo "slot a 0 100000 100000"; awk 'BEGIN { for (i = 0; i < 100000; i++) { t = 30011 * i % 100000; print "level 1 1\npiece", t, t + 1 } }') >levels
(head -n -1 levels; echo "piece 0 1") >overlap
(cat served; awk 'BEGIN { for (i = 0; i < 100000; i++) { t = 30011 * i % 100000; print "level 1 1\npiece", t, t + 1 "\nmember j" i % 4000 } }') >everything
compare 0 check windows one-level "4,000 windows over all of 100,000 pieces"
compare 1 check levels windows "100,000 levels of one piece, in no order"
compare 1 check overlap windows "the same, and the last overlaps the first"
compare 1 check everything windows "100,000 slots, levels, pieces and members"
compare 0 audit everything windows "the same"

# The most memory: all of these, nested jobs and points, and a comment that fills 8 MB.
fill() { awk -v piece="$1" 'BEGIN { while (length(piece) < 65536) piece = piece piece; for (i = 0; i < 128; i++) printf "%s", piece }'; }
(cat nested-short-on-points; awk 'BEGIN { for (i = 0; i < 100000; i++) print "slot j0", i, i + 1, "0\nlevel 1 1\npiece", i, i + 1 "\nmember j" i % 4000 }'; fill '#') | head -c 8388608 >full
cat points everything >everything-on-points
for command in plan round "report --json" "compare --grid 1000000"; do compare 0 "$command" full everything-on-points "nested windows, 64 points, 100,000 of each, a comment: 8 MB"; done

# The greatest inputs.
awk 'BEGIN { line = "a line of a comment that is as long as the lines of a document"; for (i = 0; i < 129055; i++) print "# " line }' >comments
fill '#' >line
fill 'a ' >fields
fill '
' >empty-lines
fill '#
' >short-comments
for command in plan expand; do
	plain=comments
	[ $command = expand ] || plain=named-slots
	compare 0 $command line $plain "a comment of 8 MB"
	compare 3 $command fields $plain "4,000,000 fields in one line"
	compare 0 $command empty-lines $plain "8,000,000 empty lines"
	compare 0 $command short-comments $plain "4,000,000 comments"
done
long_number() { echo "$1$(fill 1 | head -c 8388500)$2"; }
(echo "job a 0 4 8" && long_number "slot a 0+1/" " 1 1") >denominator
long_number "job a 0 " " 1" >digits
long_number "horizon " "" >horizon
compare 3 plan digits named-slots "a number of 8,000,000 digits"
compare 3 audit denominator named-slots "a denominator of 8,000,000 digits"
compare 3 expand horizon comments "a number of 8,000,000 digits"

# Tasks.
awk 'BEGIN { print "horizon 1000"; for (i = 0; i < 4000; i++) print "task t" i, 0, 1000, 1000, 5 }' >tasks
awk 'BEGIN { for (i = 0; i < 55; i++) x = x "x"; print "horizon 1000000000"; for (i = 0; i < 4000; i++) printf "task %s%04d 0 1000000000 1000000000 1000000\n", x, i }' >named-tasks
awk 'BEGIN { for (i = 0; i < 59; i++) x = x "x"; print "horizon 1000000000"; print "task", x, 0, 250000, 250000, 1000000 }' >one-task
compare 0 expand named-tasks tasks "4,000 tasks, names of 59 bytes"
compare 0 expand one-task tasks "4,000 jobs of one task"

# Names that were chosen to come to one place of the table if its keys were 0, names that weren't chosen, and plain names that end with
# their numbers, all of the same length.
"$work/names" >chosen
"$work/names" any >unnumbered
awk '{ printf "aaaaaaaaaaaa%04d\n", NR - 1 }' chosen >usual
for names in chosen unnumbered usual; do
	awk 'BEGIN { print "horizon 1000" } { print "task", $1, 0, 1000, 1000, 5 }' $names >tasks-$names
	awk '{ print "job", $1, 10 * NR, 10 * NR + 1000, 5 }' $names >jobs-$names
	awk '{ name = $1; print "job", name, 0, 100000, 25 }
		END { for (i = 0; i < 100000; i++) print "slot", name, i, i + 1, 1
			print "level 100000 100000\npiece 0 100000"; for (i = 0; i < 100000; i++) print "member", name }' $names >members-$names
done
for names in chosen unnumbered; do
	what="names chosen for keys of 0"
	[ $names = chosen ] || what="names without numbers"
	compare 0 plan jobs-$names jobs-usual "4,000 jobs, $what"
	compare 1 check members-$names members-usual "100,000 slots and members of the last job, $what"
	compare 0 expand tasks-$names tasks-usual "4,000 tasks, $what"
done

echo "$passed passed, $failed failed"
[ $failed = 0 ]
