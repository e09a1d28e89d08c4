#!/bin/sh
# check.sh: whether the program on this machine answers as stored, byte for byte.
#
#   sh examples/check.sh [PROGRAM]      build/yds_cli without one
#
# Each folder of rows/ has the words in `args` (one a line), the document in `stdin`, or its name among the examples in
# `document`, and the answer in `stdout` and `status`. Each example has to be the document of some row. Two more
# documents are made here: one of the greatest size, and one a byte longer.
# The last line is 'N passed, M failed'; the exit status is 1 where M isn't 0.

cd "$(dirname "$0")" || exit 1
program=${1:-../build/yds_cli}
work=$(mktemp -d) || exit 1
trap 'rm -rf "$work"' EXIT
passed=0
failed=0
if [ ! -x "$program" ]; then
	echo "check.sh: $program isn't there; make builds it" >&2
	exit 1
fi

# judge NAME STATUS WANTED GOT: compares the status, the answer in $work/out and the errors.
judge() {
	if [ "$2" = "$4" ] && cmp -s "$3" "$work/out" && [ ! -s "$work/err" ]; then
		passed=$((passed + 1))
		return
	fi
	failed=$((failed + 1))
	echo "FAILED: $1: status $4, stored is $2"
	diff "$3" "$work/out" | head -n 6
}

for row in rows/*/; do
	row=${row%/}
	set --
	while IFS= read -r word; do set -- "$@" "$word"; done <"$row/args"
	document=$row/stdin
	[ ! -f "$row/document" ] || document=$(cat "$row/document")
	"$program" "$@" <"$document" >"$work/out" 2>"$work/err"
	judge "${row#rows/}" "$(cat "$row/status")" "$row/stdout" $?
done
for example in *.txt; do
	if grep -qx "$example" rows/*/document; then continue; fi
	failed=$((failed + 1))
	echo "FAILED: no row has $example"
done

# A comment of 8,388,608 bytes is the longest document; one byte more is too long.
awk 'BEGIN { line = "#"; while (length(line) < 1048576) line = line line; for (i = 0; i < 8; i++) printf "%s", line }' >"$work/longest"
: >"$work/none"
"$program" plan <"$work/longest" >"$work/out" 2>"$work/err"
judge "the longest document" 0 "$work/none" $?
echo >>"$work/longest"
echo "refused too-long" >"$work/long"
"$program" plan <"$work/longest" >"$work/out" 2>"$work/err"
judge "a document that is too long" 3 "$work/long" $?

echo "$passed passed, $failed failed"
[ $failed = 0 ]
