#!/bin/sh
# faults.sh: refuses the built programs memory, reads and writes in turn, and random bytes, breaks their standard streams, and looks at
# how they end.
#
#   sh robustness/faults.sh [PART ..]      parts: memory reads writes random streams, of yds_cli; trace-memory trace-reads trace-writes
#                                          trace-streams trace-files, of yds_trace; all without one
#
# Environment: YDS, YDS_TRACE (the programs; build/yds_cli-dynamic and build/yds_trace-dynamic beside this folder, of the same object
# files as build/yds_cli and build/yds_trace: only a dynamic program can be broken so), CC (cc). It needs a C compiler and glibc: preload.c stands between the program and the C library. The last
# line is 'N passed, M failed', with a pass for each run; the exit status is 1 where M isn't 0.

here=$(cd "$(dirname "$0")" && pwd)
YDS=${YDS:-$here/../build/yds_cli-dynamic}
case $YDS in /*) ;; *) YDS=$(pwd)/$YDS ;; esac
YDS_TRACE=${YDS_TRACE:-$here/../build/yds_trace-dynamic}
case $YDS_TRACE in /*) ;; *) YDS_TRACE=$(pwd)/$YDS_TRACE ;; esac
program=$YDS
CC=${CC:-cc}
LC_ALL=C
export LC_ALL
rows=$here/../examples/rows
work=$(mktemp -d) || exit 1
trap 'rm -rf "$work"' EXIT
passed=0
failed=0

pass() { passed=$((passed + 1)); }
fail() {
	failed=$((failed + 1))
	echo "FAILED: $1"
}

# A worked row for each form of command, a refusal, and words that name no command.
worked="plan-frequency-trace round-frequency-trace check-three-levels-accepted audit-work-short-by-the-least audit-points-off-point
report-three-jobs report-json-three-jobs curve-three-jobs avr-capped-by-pending-work oa-fine-grid-rounds-nowhere compare-three-points
admit-third-job-refused trial-two-jobs expand-two-tasks-one-level refused-gaps-too-fine usage-plan-twice"

# row NAME: sets its words, and its document, answer and status as $document, $want and $status.
row() {
	is_large=0
	name=$1
	words=$(tr '\n' ' ' <"$rows/$1/args")
	document=$rows/$1/stdin
	[ ! -f "$rows/$1/document" ] || document=$rows/../$(cat "$rows/$1/document")
	[ -f "$document" ] || document=/dev/null
	want=$rows/$1/stdout
	status=$(cat "$rows/$1/status")
}

# large WORDS: the same of a document that takes more memory and more than one write, as the program answers it. Of its many
# allocations and single bytes some numbers alone are tried.
large() {
	is_large=1
	words=$1
	name="$1 of 1,000 jobs"
	case $1 in
	expand) document=$work/tasks ;;
	check) document=$work/plan ;;
	audit*) document=$work/rounded ;;
	*) document=$work/jobs ;;
	esac
	want=$work/want
	# shellcheck disable=SC2086
	"$YDS" $words <"$document" >"$want"
	status=$?
}
make_large() {
	awk 'BEGIN {
		for (i = 0; i < 1000; i++) printf "job job-number-%d %d %d %d\n", i, 7 * i % 1000, 7 * i % 1000 + 1 + i % 60, 1 + i % 90
		for (i = 0; i < 64; i++) printf "point %d %d\n", 60 * i, i * i
	}' >"$work/jobs"
	awk 'BEGIN { print "horizon 1000"; for (i = 0; i < 100; i++) printf "task task-number-%d 0 100 100 %d\n", i, i }' >"$work/tasks"
	"$YDS" plan <"$work/jobs" >"$work/plan"
	"$YDS" round <"$work/jobs" >"$work/rounded"
}
forms="plan|round|check|audit|audit --points|report|report --json|curve|avr --grid 7|oa --grid 7|compare --grid 7|admit 20|trial 7 1000|expand"
# with FUNCTION: calls it for each worked row, and then for each large document.
with() {
	for name in $worked; do
		row "$name"
		$1
	done
	IFS='|'
	for words in $forms; do
		unset IFS
		large "$words"
		$1
		IFS='|'
	done
	unset IFS
}

# faulty SETTING ..: runs the words over the document with these settings of preload.c, and sets $got and the counts.
faulty() {
	# shellcheck disable=SC2086
	env LD_PRELOAD="$work/preload.so" FAULT_COUNTS="$work/counts" "$@" "$program" $words <"$document" >"$work/out" 2>"$work/err"
	got=$?
	read -r allocations reads writes <"$work/counts"
}
whole() { [ $got = "$status" ] && cmp -s "$work/out" "$want" && [ ! -s "$work/err" ]; }
nothing() { [ $got = "$1" ] && [ ! -s "$work/out" ] && [ ! -s "$work/err" ]; }
# A front of the answer, and not all of it.
front() { [ $got = 5 ] && [ ! -s "$work/err" ] && cmp "$work/out" "$want" 2>&1 | grep -q "EOF on $work/out"; }
# A front, or all of it with the status of a fault: what a failed write left is tried once more as the program ends.
front_or_all() { front || { [ $got = 5 ] && [ ! -s "$work/err" ] && cmp -s "$work/out" "$want"; }; }

refuse_memory() {
	for setting in FAULT_ALLOCATION FAULT_MEMORY_FROM; do
		number=1
		while
			faulty $setting=$number
			[ "$allocations" -ge $number ]
		do
			if nothing 6 || whole; then pass; else fail "$name: $setting=$number (status $got)"; fi
			number=$((number + 1 + (is_large ? number / 20 : 0)))
		done
		if whole; then pass; else fail "$name: with all its memory (status $got)"; fi
	done
}

refuse_reads() {
	for most in 0 1 7; do
		for error in 5 4; do # EIO, EINTR
			number=1
			while
				faulty FAULT_READ=$number FAULT_READ_MOST=$most FAULT_ERROR=$error
				[ "$reads" -ge $number ]
			do
				if nothing 4; then pass; else fail "$name: read $number of at most $most bytes, error $error (status $got)"; fi
				number=$((number + 1 + (is_large && most ? 9999 : 0)))
			done
			if whole; then pass; else fail "$name: reads of at most $most bytes (status $got)"; fi
		done
	done
}

# refuse_each_write JUDGE SETTING ..: of each number in turn, with all of the answer where no write is left to be refused.
refuse_each_write() {
	judge=$1
	shift
	for most in 0 1 7; do
		number=1
		while
			faulty "$1=$number" FAULT_WRITE_MOST=$most "${2:-FAULT_ERROR=5}"
			[ "$writes" -ge $number ]
		do
			if $judge; then pass; else fail "$name: $*, number $number of at most $most bytes (status $got)"; fi
			number=$((number + 1 + (is_large && most ? 9999 : 0)))
		done
		if whole; then pass; else fail "$name: writes of at most $most bytes (status $got)"; fi
	done
}
refuse_writes() {
	refuse_each_write front FAULT_WRITES_FROM
	refuse_each_write front_or_all FAULT_WRITE
	refuse_each_write whole FAULT_WRITE FAULT_ERROR=4 # EINTR: such a write is tried again
}

test_memory() { with refuse_memory; }
test_reads() { with refuse_reads; }
test_writes() { with refuse_writes; }

# Each error of getentropy: ENOSYS, EIO, EFAULT. The answer is that of keys that are drawn.
refuse_random() {
	for error in 38 5 14; do
		faulty FAULT_RANDOM=1 FAULT_ERROR=$error
		if whole; then pass; else fail "$name: no random bytes, error $error (status $got)"; fi
	done
}
test_random() { with refuse_random; }

# stream NAME STATUS OUTPUT COMMAND: what a shell says of the command's status, and what the command wrote into $out.
stream() {
	: >"$work/out"
	out=$work/out YDS=$YDS jobs=$work/jobs document=$rows/plan-one-job/stdin work=$work sh -c "$4" 2>"$work/err"
	got=$?
	printf '%s' "$3" >"$work/wanted"
	if [ $got = "$2" ] && cmp -s "$work/out" "$work/wanted" && [ ! -s "$work/err" ]; then pass; return; fi
	fail "$1: status $got, wanted is $2; $(head -n 2 "$work/err")"
	head -n 3 "$work/out"
}
test_streams() {
	too_long="refused too-long
"
	plan=$(cat "$rows/plan-one-job/stdout")"
"
	stream "input closed" 4 "" '"$YDS" plan <&- >"$out"'
	stream "input closed, no command" 2 "$(cat "$rows/usage-plan-twice/stdout")
" '"$YDS" plan plan <&- >"$out"'
	stream "input closed, a trial" 0 "$(cat "$rows/trial-two-jobs/stdout")
" '"$YDS" trial 0 2 <&- >"$out"'
	stream "a directory as input" 4 "" '"$YDS" plan <"$work" >"$out"'
	stream "input that is open for writing alone" 4 "" '"$YDS" plan 0>"$work/sink" >"$out"'
	stream "output closed" 5 "" '"$YDS" plan <"$document" >&-'
	stream "output closed, usage" 5 "" '"$YDS" >&-'
	stream "output that is open for reading alone" 5 "" '"$YDS" plan <"$document" 1<"$document"'
	stream "input and output closed" 4 "" '"$YDS" plan <&- >&-'
	stream "errors closed" 0 "$plan" '"$YDS" plan <"$document" >"$out" 2>&-'
	stream "a full device" 5 "" '"$YDS" plan <"$document" >/dev/full'
	stream "a full device, a long answer" 5 "" '"$YDS" plan <"$jobs" >/dev/full'
	stream "a full device, an empty answer" 0 "" '"$YDS" plan </dev/null >/dev/full'
	stream "a file at its greatest size" 5 "" 'trap "" XFSZ; ulimit -f 1; "$YDS" plan <"$jobs" >"$work/small"'
	stream "a pipe whose reader leaves" 5 "" '{ sleep 0.2; "$YDS" plan <"$document"; echo $? >"$work/status"; } | :; exit "$(cat "$work/status")"'
	stream "a pipe whose reader leaves, a long answer" 5 "" '{ "$YDS" plan <"$jobs"; echo $? >"$work/status"; } | head -c 1 >/dev/null; exit "$(cat "$work/status")"'
	stream "endless zeros" 3 "$too_long" '"$YDS" plan </dev/zero >"$out"'
	stream "endless lines" 3 "$too_long" 'yes | "$YDS" expand >"$out"'
	stream "an endless line" 3 "$too_long" 'yes job | tr "\\n" " " | "$YDS" audit >"$out"'
	stream "endless input that a trial doesn't read" 0 "$(cat "$rows/trial-two-jobs/stdout")
" '"$YDS" trial 0 2 </dev/zero >"$out"'
	stream "a word that isn't text" 7 "" '"$YDS" "$(printf "\\377")" <"$document" >"$out"'
	stream "a second word that isn't text" 7 "" '"$YDS" plan "$(printf "a\\200")" <"$document" >"$out"'
	stream "a word of 100,000 letters" 2 "$(cat "$rows/usage-plan-twice/stdout")
" '"$YDS" "$(head -c 100000 /dev/zero | tr "\\0" a)" <"$document" >"$out"'
	stream "an input in pieces of one byte" 0 "$plan" 'dd bs=1 status=none <"$document" | "$YDS" plan >"$out"'
	stream "a stack of 64 KB" 0 "" 'ulimit -s 64; "$YDS" compare --grid 7 <"$jobs" >"$work/small"'
	stream "too little memory for a long input" 6 "" 'ulimit -v 8000; head -c 8000000 /dev/zero | "$YDS" plan >"$out"'
}

# yds_trace. What it writes for each status but 0 and 5 ends with the line 'failed': else an empty text, which is a document
# without jobs, would be feasible.
no_memory="# out of memory; ask for fewer tasks, or choose a shorter time by --from and --to
failed"
no_memory_yet="# out of memory
failed"
no_input="# the input couldn't be read to its end; give it anew
failed"

# traced WORDS TRACE: the same as row, of a trace, with the answer that the program gives where nothing is refused.
traced() {
	is_large=0
	words=$1
	name="yds_trace $1 of ${2##*/}"
	document=$2
	want=$work/want
	# shellcheck disable=SC2086
	"$YDS_TRACE" $words <"$document" >"$want"
	status=$?
}
make_traces() {
	cat "$here/../crates/yds_trace_cli/data/front.txt" "$here/../crates/yds_trace_cli/stdin" >"$work/trace"
	head -n 12 "$work/trace" >"$work/short"
	sed '5s/.*/CPU:0 [3 EVENTS DROPPED]/' "$work/short" >"$work/lost"
	sed '7s/==>.*/==>/' "$work/short" >"$work/torn"
	: >"$work/nothing"
	awk 'BEGIN {
		print "who-5 [000] d..2. 0.500000: cpu_frequency: state=1000000 cpu_id=0"
		for (i = 1; i <= 3000; i++) {
			printf "who-5 [000] d..2. %d.000000: sched_waking: comm=decode pid=10 prio=98 target_cpu=000\n", i
			printf "who-5 [000] d..2. %d.000100: sched_switch: prev_comm=swapper/0 prev_pid=0 prev_prio=120 prev_state=R ==> next_comm=decode next_pid=10 next_prio=98\n", i
			printf "who-5 [000] d..2. %d.000900: sched_switch: prev_comm=decode prev_pid=10 prev_prio=98 prev_state=S ==> next_comm=swapper/0 next_pid=0 next_prio=120\n", i
		}
	}' >"$work/long"
	sed '8000s/==>.*/==>/' "$work/long" >"$work/torn-long"
}
# with_traces FUNCTION: calls it for a document, faults of the words, of a line, of its form and of the whole, texts of words alone, for
# a document that takes more memory and more than one read and write, and for traces in parts: of one, of two, and with a fault behind one.
with_traces() {
	program=$YDS_TRACE
	traced "--tasks decode:20,audio:10" "$work/short"
	$1
	traced "--tasks decode:20,audio:10" "$work/lost"
	$1
	traced "--tasks decode:20,audio:10 --lost cut --begin run" "$work/lost"
	$1
	traced "--tasks decode:20,audio:10" "$work/torn"
	$1
	traced "--tasks decode:20" "$work/nothing"
	$1
	traced "--tasks decode" "$work/short"
	$1
	traced --help "$work/short"
	is_large=1
	$1
	traced --version "$work/short"
	$1
	traced "--tasks decode:20,audio:10" "$work/trace"
	is_large=1
	$1
	traced "--tasks decode:20" "$work/long"
	is_large=1
	$1
	traced "--parts --tasks decode:20,audio:10" "$work/short"
	$1
	traced "--parts --tasks decode:20" "$work/long"
	is_large=1
	$1
	traced "--parts --tasks decode:20" "$work/torn-long"
	is_large=1
	$1
	program=$YDS
}
# ended STATUS TEXT: with this status and this text of two lines alone; in parts, behind those that were whole.
ended() { [ $got = "$1" ] && [ "$(tail -n 2 "$work/out")" = "$2" ] && [ ! -s "$work/err" ] && behind_parts; }
# Before the last two lines stands nothing, or a front of the answer that ends where a part does.
behind_parts() {
	head -n -2 "$work/out" >"$work/front"
	[ ! -s "$work/front" ] || {
		size=$(wc -c <"$work/front")
		head -c "$size" "$want" | cmp -s - "$work/front" && tail -c "+$((size + 1))" "$want" | head -n 1 | grep -q "^# part \|^# line "
	}
}
# One that refuses its trace reads on to the end of it, and a read that fails there changes nothing.
refused_already() { [ "$status" = 3 ] && whole; }

refuse_trace_memory() {
	for setting in FAULT_ALLOCATION FAULT_MEMORY_FROM; do
		number=1
		while
			faulty $setting=$number
			[ "$allocations" -ge $number ]
		do
			if ended 6 "$no_memory" || ended 6 "$no_memory_yet" || whole; then pass; else fail "$name: $setting=$number (status $got)"; fi
			number=$((number + 1 + (is_large ? number / 20 : 0)))
		done
		if whole; then pass; else fail "$name: with all its memory (status $got)"; fi
	done
}
refuse_trace_reads() {
	for most in 0 $([ $is_large = 1 ] || echo 1) 7; do
		for error in 5 4; do # EIO, EINTR
			number=1
			while
				faulty FAULT_READ=$number FAULT_READ_MOST=$most FAULT_ERROR=$error
				[ "$reads" -ge $number ]
			do
				if ended 4 "$no_input" || refused_already; then pass; else fail "$name: read $number of at most $most bytes, error $error (status $got)"; fi
				number=$((number + 1 + (most ? number / 20 + (is_large ? 9999 : 0) : 0)))
			done
			if whole; then pass; else fail "$name: reads of at most $most bytes (status $got)"; fi
		done
	done
}
test_trace_memory() { with_traces refuse_trace_memory; }
test_trace_reads() { with_traces refuse_trace_reads; }
refuse_trace_writes() {
	refuse_each_write front FAULT_WRITES_FROM
	refuse_each_write front_or_all FAULT_WRITE
	refuse_each_write whole FAULT_WRITE FAULT_ERROR=4 # EINTR: such a write is tried again
}
test_trace_writes() { with_traces refuse_trace_writes; }

# trace_stream NAME STATUS OUTPUT COMMAND: as stream, of yds_trace.
trace_stream() {
	YDS_TRACE=$YDS_TRACE trace=$work/short long=$work/long stream "yds_trace: $1" "$2" "$3" "$4"
}
test_trace_streams() {
	export YDS_TRACE
	trace=$work/short long=$work/long
	# The first part of two, which is whole before the input has ended.
	first=$("$YDS_TRACE" --parts --tasks decode:20 <"$long" | sed '/^# part .*, the last$/,$d')"
"
	size=${#first}
	export trace long size
	read_fault="$no_input
"
	short=$("$YDS_TRACE" --tasks decode:20,audio:10 <"$work/short")"
"
	no_line="# line 1: no line of a kernel's trace; write it as text, by trace-cmd report or perf script with cpu and time among its fields: a line has a processor as [001] and a time with a point as 12.345678: before its event's name
failed
"
	not_text="# a word isn't text; write the words in UTF-8
failed
"
	trace_stream "input closed" 4 "$read_fault" '"$YDS_TRACE" --tasks decode:20 <&- >"$out"'
	trace_stream "input closed, words with a mistake" 2 "# --nonsense: no such word; --help lists them
failed
" '"$YDS_TRACE" --nonsense <&- >"$out"'
	trace_stream "a directory as input" 4 "$read_fault" '"$YDS_TRACE" --tasks decode:20 <"$work" >"$out"'
	trace_stream "input that is open for writing alone" 4 "$read_fault" '"$YDS_TRACE" --tasks decode:20 0>"$work/sink" >"$out"'
	trace_stream "output closed" 5 "" '"$YDS_TRACE" --tasks decode:20,audio:10 <"$trace" >&-'
	trace_stream "output closed, --help" 5 "" '"$YDS_TRACE" --help <"$trace" >&-'
	trace_stream "output that is open for reading alone" 5 "" '"$YDS_TRACE" --tasks decode:20,audio:10 <"$trace" 1<"$trace"'
	trace_stream "input and output closed" 5 "" '"$YDS_TRACE" --tasks decode:20,audio:10 <&- >&-'
	trace_stream "errors closed" 0 "$short" '"$YDS_TRACE" --tasks decode:20,audio:10 <"$trace" >"$out" 2>&-'
	trace_stream "a full device" 5 "" '"$YDS_TRACE" --tasks decode:20,audio:10 <"$trace" >/dev/full'
	trace_stream "a full device, a long answer" 5 "" '"$YDS_TRACE" --tasks decode:20 <"$long" >/dev/full'
	trace_stream "a full device, in parts" 5 "" '"$YDS_TRACE" --parts --tasks decode:20 <"$long" >/dev/full'
	trace_stream "a part, before the input has ended" 0 "$first" ': >"$work/parts"; { cat "$long"; tries=0
while [ "$(wc -c <"$work/parts")" -lt "$size" ] && [ $tries -lt 100 ]; do sleep 0.1; tries=$((tries + 1)); done
cp "$work/parts" "$out"; } | "$YDS_TRACE" --parts --tasks decode:20 >"$work/parts"'
	trace_stream "input closed, in parts" 4 "$read_fault" '"$YDS_TRACE" --parts --tasks decode:20 <&- >"$out"'
	trace_stream "a file at its greatest size" 5 "" 'trap "" XFSZ; ulimit -f 1; "$YDS_TRACE" --tasks decode:20 <"$long" >"$work/small"'
	trace_stream "a pipe whose reader leaves" 5 "" '{ sleep 0.2; "$YDS_TRACE" --help; echo $? >"$work/status"; } | :; exit "$(cat "$work/status")"'
	trace_stream "a pipe whose reader leaves, a long answer" 5 "" '{ "$YDS_TRACE" --tasks decode:20 <"$long"; echo $? >"$work/status"; } | head -c 1 >/dev/null; exit "$(cat "$work/status")"'
	trace_stream "a writer that isn't stopped by a fault" 3 "whole" '{ "$YDS_TRACE" --tasks nobody:20 >/dev/null; echo $? >"$work/status"; } <<END
$(cat "$long")
END
printf whole >"$out"; exit "$(cat "$work/status")"'
	trace_stream "a line of 100 MB in little memory" 3 "$no_line" 'ulimit -v 40000; head -c 100000000 /dev/zero | "$YDS_TRACE" --tasks decode:20 >"$out"'
	trace_stream "10,000,000 empty lines in little memory" 3 "# line 10000000: ${no_line#*: }" 'ulimit -v 40000; yes "" | head -n 10000000 | "$YDS_TRACE" --tasks decode:20 >"$out"'
	trace_stream "a word that isn't text" 7 "$not_text" '"$YDS_TRACE" "$(printf "\\377")" <"$trace" >"$out"'
	trace_stream "a second word that isn't text" 7 "$not_text" '"$YDS_TRACE" --tasks "$(printf "a\\200")" <"$trace" >"$out"'
	trace_stream "a word of 100,000 letters" 2 "# -$(head -c 63 /dev/zero | tr '\0' a): no such word; --help lists them
failed
" '"$YDS_TRACE" "-$(head -c 100000 /dev/zero | tr "\\0" a)" <"$trace" >"$out"'
	trace_stream "an input in pieces of one byte" 0 "$short" 'dd bs=1 status=none <"$trace" | "$YDS_TRACE" --tasks decode:20,audio:10 >"$out"'
	trace_stream "a stack of 64 KB" 0 "" 'ulimit -s 64; "$YDS_TRACE" --tasks decode:20 <"$long" >"$work/small"'
	trace_stream "too little memory for a long document" 6 "$no_memory
" 'ulimit -v 4000; "$YDS_TRACE" --tasks decode:20 <"$long" >"$out"'
}

# unread NUMBER NAME CAUSE: the two lines on a file that can't be read.
unread() { printf '# file %s (%s): %s\nfailed\n.' "$1" "$2" "$3"; }
# trace_files NAME STATUS LINES COMMAND: as trace_stream, with what stands in two lines, in a folder of files.
trace_files() {
	lines=${3%.}
	(cd "$work/files" && true) && trace_stream "files: $1" "$2" "$lines" "cd \"\$files\" && $4 >\"\$out\""
}
test_trace_files() {
	export YDS_TRACE
	mkdir -p "$work/files/folder"
	files=$work/files
	export files
	head -n 4 "$work/short" >"$files/one"
	tail -n +5 "$work/short" >"$files/two"
	head -c -1 "$files/one" >"$files/cut"
	head -c -1 "$files/two" >"$files/last-cut"
	: >"$files/empty"
	cp "$files/two" "$files/--two"
	cp "$work/long" "$files/long"
	closed="it can't be opened; see that it is there and may be read"
	broken="it couldn't be read to its end; give it anew, or leave it out if it is a folder"
	torn="it ends within a line, and another file stands behind it; give whole files"
	task="--tasks decode:20,audio:10"
	short=$("$YDS_TRACE" --tasks decode:20,audio:10 <"$work/short")"
."
	trace_files "one" 0 "$short" "\"\$YDS_TRACE\" $task \"$work/short\" <&-"
	trace_files "two, the words behind them" 0 "$short" "\"\$YDS_TRACE\" one two $task"
	trace_files "two, the words between them" 0 "$short" "\"\$YDS_TRACE\" one $task two"
	trace_files "empty ones, and a device that gives nothing" 0 "$short" "\"\$YDS_TRACE\" $task empty one /dev/null empty two empty"
	trace_files "standard input for the second" 0 "$short" "\"\$YDS_TRACE\" $task one - <two"
	trace_files "standard input for the first" 0 "$short" "\"\$YDS_TRACE\" - $task two <one"
	trace_files "standard input twice, which is at its end then" 0 "$short" "\"\$YDS_TRACE\" one - - $task <two"
	trace_files "a name that begins with hyphens" 0 "$short" "\"\$YDS_TRACE\" $task -- one --two"
	trace_files "a last one without a line feed" 0 "$short" "\"\$YDS_TRACE\" $task one last-cut"
	trace_files "a pipe in the place of a file" 0 "$short" "cat two | \"\$YDS_TRACE\" $task one /dev/stdin"
	trace_files "one that isn't there" 4 "$(unread 1 none "$closed")" "\"\$YDS_TRACE\" $task none"
	trace_files "a second one that isn't there" 4 "$(unread 2 none "$closed")" "\"\$YDS_TRACE\" $task one none two"
	trace_files "a folder" 4 "$(unread 2 folder "$broken")" "\"\$YDS_TRACE\" $task one folder two"
	trace_files "an empty name" 4 "$(unread 1 "" "$closed")" "\"\$YDS_TRACE\" $task ''"
	trace_files "one that ends within a line" 4 "$(unread 2 cut "$torn")" "\"\$YDS_TRACE\" $task empty cut two"
	trace_files "one that ends within a line, before an empty one" 4 "$(unread 1 last-cut "$torn")" "\"\$YDS_TRACE\" $task last-cut empty"
	trace_files "standard input that ends within a line" 4 "$(unread 1 - "$torn")" "\"\$YDS_TRACE\" $task - two <cut"
	trace_files "standard input that is closed" 4 "$no_input
." "\"\$YDS_TRACE\" $task one - <&-"
	trace_files "a name with a line feed and signs of a terminal" 4 "$(unread 1 'a?failed?[2J?b' "$closed")" "\"\$YDS_TRACE\" $task \"\$(printf 'a\\nfailed\\033[2J\\rb')\""
	trace_files "a name of 1,000 letters" 4 "$(unread 1 "$(head -c 64 /dev/zero | tr '\0' a)" "$closed")" "\"\$YDS_TRACE\" $task \$(head -c 1000 /dev/zero | tr '\\0' a)"
	trace_files "twice the same" 3 "# line 14: its time is before that of an earlier line, by more than a millisecond, behind more than 64 lines, or over lost events; sort the lines by their times
failed
." "\"\$YDS_TRACE\" $task \"$work/short\" \"$work/short\""
	trace_files "words with a mistake" 2 "# --nonsense: no such word; --help lists them
failed
." "\"\$YDS_TRACE\" none --nonsense"
	trace_files "--help, which reads none" 0 "$("$YDS_TRACE" --help)
." "\"\$YDS_TRACE\" none --help"
	trace_files "parts that were whole before one that isn't there" 0 "parts, and the last
." "\"\$YDS_TRACE\" --parts --tasks decode:20 long none >parts; [ \$? = 4 ] && [ \$(grep -c '^# part' parts) -ge 1 ] && tail -n 1 parts | grep -qx failed && echo 'parts, and the last'"
	if [ "$(id -u)" != 0 ]; then
		cp "$files/one" "$files/shut"
		chmod 000 "$files/shut"
		trace_files "one that may not be read" 4 "$(unread 1 shut "$closed")" "\"\$YDS_TRACE\" $task shut two"
	else
		echo "one that may not be read: not tried, since root may read each"
	fi
}

parts=${*:-memory reads writes random streams trace-memory trace-reads trace-writes trace-streams trace-files}
for part in $parts; do
	case $part in
	trace-*) needed=$YDS_TRACE ;;
	*) needed=$YDS ;;
	esac
	[ -x "$needed" ] || { echo "faults.sh: $needed isn't there; make builds it" >&2; exit 1; }
done
"$CC" -O2 -Wall -shared -fPIC -o "$work/preload.so" "$here/preload.c" || exit 1
[ ! -x "$YDS" ] || make_large
make_traces
for part in $parts; do
	before=$passed
	test_$(echo "$part" | tr - _)
	echo "$part: $((passed - before)) passed"
done
echo "$passed passed, $failed failed"
[ $failed = 0 ]
