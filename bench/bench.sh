#!/bin/sh
# bench.sh: how the time of the built program grows, and how it stands beside a plain program of the textbook's method.
#
#   sh bench/bench.sh [TIMES]      each is run TIMES times, by turns; 21 without it
#
# Environment: YDS (the program; build/yds_cli beside this folder), CC (cc), CXX (c++), PYTHON (python3). Each table's first lines say what it shows. Times
# are milliseconds of the processor, the least of the runs; those of an empty document, which are the start of a process, are taken
# off before growth and ratios are told. The last line is 'N passed, M failed': a document fails where the two programs' plans aren't the
# same text, or where the program asks for more memory than it may. The exit status is 1 where M isn't 0.

here=$(cd "$(dirname "$0")" && pwd)
YDS=${YDS:-$here/../build/yds_cli}
case $YDS in /*) ;; *) YDS=$(pwd)/$YDS ;; esac
LC_ALL=C
export LC_ALL
times=${1:-21}
work=$(mktemp -d) || exit 1
trap 'rm -rf "$work"' EXIT
[ -x "$YDS" ] || { echo "bench.sh: $YDS isn't there; make builds it" >&2; exit 1; }
"${CC:-cc}" -std=gnu11 -O2 -Wall -o "$work/measure" "$here/../robustness/measure.c" || exit 1
"${CXX:-c++}" -std=c++17 -O2 -Wall -o "$work/textbook" "$here/textbook.cpp" || exit 1
cd "$work" || exit 1
most=16384
kinds="drawn short long nested rising together coarse cut"
for kind in $kinds; do
	for jobs in 500 1000 4000; do
		"${PYTHON:-python3}" "$here/documents.py" $kind $jobs >$kind.$jobs
	done
done
printf 'point 0 20\npoint 1 21\npoint 2 24\npoint 5 40\npoint 10 80\npoint 20 200\npoint 40 700\npoint 80 2400\npoint 400 50000\npoint 4000 1000000\n' >points
: >empty

cat <<TEXT
The kinds of documents:
  drawn     jobs as 'trial' draws them              nested    each window in the one before, a level each
  short     windows of a tenth of the time          rising    releases and deadlines that rise together
  long      windows of any length                   together  one release
  coarse    times from 0 to 20                      cut       one long job that each of the others cuts

plan beside the textbook's method, the critical interval again and again (textbook.cpp), on 500 and 1,000 jobs
kind        jobs      plan  textbook     ratio
TEXT
passed=0
failed=0
for kind in $kinds; do
	for jobs in 500 1000; do
		"$YDS" plan <$kind.$jobs >ours
		./textbook <$kind.$jobs >theirs
		if cmp -s ours theirs; then
			passed=$((passed + 1))
		else
			failed=$((failed + 1))
			echo "$kind.$jobs: the two texts differ"
		fi
		./measure "$times" empty "$YDS" plan -- $kind.$jobs "$YDS" plan -- empty ./textbook -- $kind.$jobs ./textbook |
			awk -v kind=$kind -v jobs=$jobs '
				{ ms[NR] = $1 }
				END { printf "%-10s %5d %9.2f %9.2f %9.1f\n", kind, jobs, ms[2], ms[4], (ms[4] - ms[3]) / (ms[2] - ms[1] > 0.01 ? ms[2] - ms[1] : 0.01) }'
	done
done

cat <<TEXT

From 500 to 4,000 jobs (audit and check of what plan writes, round and compare on ten operating points and works of at most 4,000, admit
under a top speed of 100): the exponent is 1 where twice the jobs take twice the time, and 2 where they take four times as long
words                    kind        500 jobs 4,000 jobs  exponent
TEXT
for words in plan audit check round report "report --json" curve "avr --grid 1000" "oa --grid 1000" "compare --grid 1000" "admit 100"; do
	for kind in $kinds; do
		for jobs in 500 4000; do
			cp $kind.$jobs in.$jobs
			case $words in
			round | compare*) awk '$5 > 4000 { $5 = 1 + $5 % 1000 } 1' points $kind.$jobs >in.$jobs ;;
			audit | check) "$YDS" plan <$kind.$jobs >in.$jobs ;;
			esac
		done
		# shellcheck disable=SC2086
		./measure "$times" empty "$YDS" plan -- in.500 "$YDS" $words -- in.4000 "$YDS" $words |
			awk -v kind=$kind -v words="$words" '
				{ ms[NR] = $1; if ($3 != 0) wrong = 1 }
				END {
					few = ms[2] - ms[1] > 0.01 ? ms[2] - ms[1] : 0.01
					printf "%-24s %-10s %9.2f %9.2f %9.2f%s\n", words, kind, ms[2], ms[3], log((ms[3] - ms[1]) / few) / log(8), wrong ? "  not done" : ""
				}'
	done
done

cat <<TEXT

Room for 4,000 jobs: the least kilobytes of memory, its own code among them, in which the program ends well. More than $most are a failure
words                    kind       kilobytes
TEXT
for words in plan round "admit 100"; do
	for kind in $kinds; do
		cp $kind.4000 in.4000
		[ "$words" = round ] && awk '$5 > 4000 { $5 = 1 + $5 % 1000 } 1' points $kind.4000 >in.4000
		few=0
		many=$most
		while [ $((many - few)) -gt 64 ]; do
			middle=$(((few + many) / 2))
			# shellcheck disable=SC2086
			if (ulimit -v $middle && "$YDS" $words <in.4000 >text 2>&1); then many=$middle; else few=$middle; fi
		done
		if [ "$many" = "$most" ]; then
			failed=$((failed + 1))
			many="more than $most"
		else
			passed=$((passed + 1))
		fi
		printf '%-24s %-10s %9s\n' "$words" $kind "$many"
	done
done
echo
echo "$passed passed, $failed failed"
[ $failed = 0 ]
