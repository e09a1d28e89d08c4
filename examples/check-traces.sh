#!/bin/sh
# check-traces.sh: whether yds_trace on this machine answers as stored, byte for byte.
#
#   sh examples/check-traces.sh [PROGRAM]      build/yds_trace without one
#
# Each folder of traces/ has the words in `args` (one a line), the trace in `stdin`, or its place in this repository in `trace`, and
# the answer in `stdout` and `status`. Without either the trace is in the files that the words name. The answers are those of the second reading, robustness/trace.py; where a number was known
# before, as by how much a job of a recording was late, it was compared by hand.
# The last line is 'N passed, M failed'; the exit status is 1 where M isn't 0.

cd "$(dirname "$0")" || exit 1
program=${1:-../build/yds_trace}
work=$(mktemp -d) || exit 1
trap 'rm -rf "$work"' EXIT
passed=0
failed=0
if [ ! -x "$program" ]; then
	echo "check-traces.sh: $program isn't there; make builds it" >&2
	exit 1
fi
for row in traces/*/; do
	row=${row%/}
	set --
	while IFS= read -r word; do set -- "$@" "$word"; done <"$row/args"
	trace=$row/stdin
	[ ! -f "$row/trace" ] || trace=../$(cat "$row/trace")
	[ -f "$row/trace" ] || [ -f "$trace" ] || trace=/dev/null
	"$program" "$@" <"$trace" >"$work/out" 2>"$work/err"
	got=$?
	if [ $got = "$(cat "$row/status")" ] && cmp -s "$row/stdout" "$work/out" && [ ! -s "$work/err" ]; then
		passed=$((passed + 1))
	else
		failed=$((failed + 1))
		echo "FAILED: ${row#traces/}: status $got, stored is $(cat "$row/status")"
		diff "$row/stdout" "$work/out" | head -n 6
	fi
done
echo "$passed passed, $failed failed"
[ $failed = 0 ]
