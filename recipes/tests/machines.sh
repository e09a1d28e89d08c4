# machines.sh: the parts of a long document through GNU parallel, on this machine and on two, one of which fails. Sourced by test.sh.
#
# The two machines are two sshd of this one, at 127.0.0.1 (samples/two-machines.sh). What needs parallel or openssh-server is left out
# where it isn't there.

test_machines() {
	want parallel || return
	$AWK -v seed=4 -f long-document.awk >"$work/long"
	tool parts --folder "$work/spread" --jobs 40 "$work/long" || fail "machines: parts"
	"$YDS" compare --grid 12 <"$work/long" >"$work/once"
	number=$(ls "$work/spread" | wc -l)
	export YDS
	(cd "$work/spread" && parallel --will-cite -j4 --retries 3 --joblog ../one.log '"$YDS" compare --grid 12 < {} > {.}.one || test $? -lt 4' ::: part-*.txt) >"$work/out" 2>&1
	same_whole "four processors" one
	want sshd || return
	# Answers one part, in the folder of the parts. Where a machine is to fail, the fourth and later ones wait until it has, so that some are left for it.
	cat >"$work/part" <<'END'
program=$1 ending=$2 part=$3
if [ "$ending" != both ] && [ "$(ls part-*."$ending" 2>/dev/null | wc -l)" -ge 3 ]; then
	for try in $(seq 400); do
		[ ! -e "../failed.$ending" ] || break
		sleep 0.05
	done
fi
sleep 0.1
"$program" compare --grid 12 <"$part" >"${part%.txt}.$ending" || test $? -lt 4
END
	cat >"$work/try" <<'END'
# spread WORDS: answers the parts on both machines, two at a time on each. The parts stand in a folder that both see.
spread() {
	ending=$1
	shift
	timeout 120 parallel --will-cite --ssh "$MACHINES/ssh" -S 2/alpha,2/beta --workdir . --joblog "../$ending.log" "$@" \
		"sh ../part $YDS $ending {}" ::: part-*.txt
}
# Once three answers are there, beta fails. It waits for twenty seconds at most.
fail_soon() {
	for try in $(seq 400); do
		[ "$(ls part-*."$1" 2>/dev/null | wc -l)" -lt 3 ] || break
		sleep 0.05
	done
	"$MACHINES/fail" beta
	: >"../failed.$1"
}
spread both
fail_soon retried &
spread retried --retries 3
echo "retried $?"
wait
"$MACHINES/start" beta
fail_soon resumed &
spread resumed
echo "failed $?"
wait
spread resumed --retries 3 --resume-failed
echo "resumed $?"
END
	(cd "$work/spread" && TMPDIR=$work timeout 300 sh "$here/samples/two-machines.sh" sh "$work/try") >"$work/statuses" 2>"$work/errors"
	same_whole "two machines" both
	if [ "$(tail -n +2 "$work/both.log" | cut -f2 | sort -u | tr '\n' ' ')" = "alpha beta " ]; then pass; else fail "machines: both have work"; fi
	same_whole "a machine fails, and its parts are tried again" retried
	if grep -qx 'retried 0' "$work/statuses"; then pass; else fail "machines: retried"; cat "$work/statuses" "$work/errors"; fi
	failed_parts=$(sed -n 's/^failed //p' "$work/statuses")
	if [ "${failed_parts:-0}" -gt 0 ] && grep -qx 'resumed 0' "$work/statuses"; then pass; else fail "machines: what failed is repeated"; cat "$work/statuses" "$work/errors"; fi
	same_whole "a machine fails, and what failed is repeated" resumed
	again=$(tail -n +2 "$work/resumed.log" | wc -l)
	if [ "$again" = $((number + ${failed_parts:-0})) ]; then pass; else fail "machines: only what failed is repeated: $again lines of $number parts"; fi
	if [ -z "$(ps -A -o args= | grep "[s]shd.*$work")" ]; then pass; else fail "machines: an sshd is left"; fi
}
same_whole() {
	tool whole "$work"/spread/part-*."$2" >"$work/whole" 2>"$work/err"
	if cmp -s "$work/once" "$work/whole"; then pass; return; fi
	fail "machines: $1"
	head -n 5 "$work/err"
}
