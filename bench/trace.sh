#!/bin/sh
# trace.sh: how the time and memory of the built yds_trace grow with a trace, beside grep (`make bench-trace`).
#
#   sh bench/trace.sh [TIMES]      each is run TIMES times; 5 without it
#
# Environment: YDS_TRACE (the program; build/yds_trace beside this folder), MOST (the lines of the longest trace, 10000000: 1.4 GB of
# text in TMPDIR), AWK (awk). Traces are generated: eight processors, 139 bytes a line, of each 100 lines some 60 switches, 30
# wake-ups, 7 changes of speed and 3 markers. Times are seconds of the processor (user), the least of the runs, from a file in the
# page cache; memory is the greatest, in MB. Each line tells them for a trace and words:
#
#   few         few lines are of the task
#   periods     two tasks whose deadlines are their periods, woken all the time, on the processor 0
#   hangs       the same, and the first one never sleeps
#   others      few lines are of the task, and 2,000 other threads
#   pipe        `few` through a pipe
#   --cpu 3     `few`, of another processor
#   --tasks ?   `few`, the table of threads
#   .. in parts     the same with --parts; `parts` counts those that were written
#   .. everywhere   the same with --cpu all
#
# A trace may end with status 3 for its size, as `periods` does with more than 4,000 jobs, and `hangs` in parts: it is read to its end
# all the same. The last line is 'N passed, M failed': a run fails that ends with another status than 0 and 3, doesn't read the trace to its
# end, or takes more than 64 MB.
# The line before it tells the machine's load: how many processes ran, or would have, in the last minute at the begin and at the end.

here=$(cd "$(dirname "$0")" && pwd)
YDS_TRACE=${YDS_TRACE:-$here/../build/yds_trace}
case $YDS_TRACE in /*) ;; *) YDS_TRACE=$(pwd)/$YDS_TRACE ;; esac
LC_ALL=C
export LC_ALL
times=${1:-5}
most=${MOST:-10000000}
work=$(mktemp -d) || exit 1
trap 'rm -rf "$work"' EXIT
[ -x "$YDS_TRACE" ] || { echo "trace.sh: $YDS_TRACE isn't there; make builds it" >&2; exit 1; }
[ -x /usr/bin/time ] || { echo "trace.sh: the command 'time' isn't here; on Debian: apt-get install time" >&2; exit 1; }
passed=0
failed=0

# trace KIND LINES: a trace of so many lines.
trace() {
	"${AWK:-awk}" -v kind="$1" -v lines="$2" 'BEGIN {
		srand(1); threads = kind == "others" ? 2000 : 40; busy = kind == "periods" || kind == "hangs"
		for (cpu = 0; cpu < 8; cpu++) on[cpu] = 0
		for (n = 1; n <= lines; n++) {
			time += 0.0000125; cpu = int(8 * rand()); stamp = sprintf("%16s-%-7d [%03d] d..2. %.6f: ", "who", 5, cpu, 100 + time); drawn = 100 * rand()
			if (busy && n % 20 == 1) { name = n % 40 == 1 ? "decode" : "audio"; wake(sprintf("%16s-%-7d [000] d..2. %.6f: ", "who", 5, 100 + time), name); continue }
			if (busy && n % 20 == 3) { turn(sprintf("%16s-%-7d [000] d..2. %.6f: ", "who", 5, 100 + time), 0, name); continue }
			if (busy && n % 20 == 9) { turn(sprintf("%16s-%-7d [000] d..2. %.6f: ", "who", 5, 100 + time), 0, "swapper/0"); continue }
			if (busy && cpu == 0) cpu = 1
			if (drawn < 60) turn_to(drawn < 20 ? "swapper/" cpu : thread())
			else if (drawn < 90) wake(stamp, thread())
			else if (drawn < 97) printf "%scpu_frequency: state=%d cpu_id=%d                                             \n", stamp, 600000 + 100000 * int(10 * rand()), cpu
			else printf "%stracing_mark_write: B|1201|a frame of the application that has some name of its own\n", stamp
		}
	}
	function pid(name) { return name == "decode" ? 10 : name == "audio" ? 11 : name ~ /swapper/ ? 0 : 1000 + substr(name, 7) }
	function thread() { return !busy && rand() < 0.001 ? "decode" : "thread" int(threads * rand()) }
	# The thread of the task is on one processor at a time, and is woken before it comes.
	function turn_to(name) {
		if (name == "decode" && runs) name = "thread0"
		if (name == "decode") { wake(stamp, name); n++; runs = 1 }
		if (on[cpu] == "decode") runs = 0
		turn(stamp, cpu, name)
	}
	function wake(stamp, name) { printf "%ssched_waking: comm=%s pid=%d prio=120 target_cpu=%03d                          \n", stamp, name, pid(name), cpu }
	function turn(stamp, cpu, name, before) {
		before = on[cpu] == "" || on[cpu] == 0 ? "swapper/" cpu : on[cpu]; on[cpu] = name
		printf "%ssched_switch: prev_comm=%s prev_pid=%d prev_prio=120 prev_state=%s ==> next_comm=%s next_pid=%d next_prio=120\n", stamp, before, pid(before), kind == "hangs" && before == "decode" ? "R" : "S", name, pid(name)
	}'
}

# least NAME FILE COMMAND ..: the least time and the greatest memory of the runs over the file, and the most bytes that one left unread.
least() {
	name=$1 file=$2
	shift 2
	for round in $(seq "$times"); do
		{
			/usr/bin/time -f '%U %M' -o "$work/time" "$@" >"$work/out" 2>/dev/null
			echo "$? $(tail -n 1 "$work/time") $(wc -c)"
		} <"$file"
	done | sort -n -k 2 >"$work/times"
	read -r status seconds memory unread <"$work/times"
	memory=$(sort -n -k 3 "$work/times" | tail -n 1 | cut -d ' ' -f 3)
	unread=$(sort -n -k 4 "$work/times" | tail -n 1 | cut -d ' ' -f 4)
}
# row NAME LINES FILE WORD ..: a line of the table.
row() {
	name=$1 lines=$2 trace=$3
	shift 3
	least "$name" "$trace" grep -c sched_switch
	grepped=$seconds
	case $name in
	pipe) least "$name" "$trace" sh -c 'cat | "$@"' sh "$YDS_TRACE" "$@" ;;
	*) least "$name" "$trace" "$YDS_TRACE" "$@" ;;
	esac
	parts=$(grep -c "^# part " "$work/out")
	awk -v name="$name" -v lines="$lines" -v s="$seconds" -v g="$grepped" -v m="$memory" -v status="$status" -v parts="$parts" 'BEGIN {
		printf "%-18s %9d %8.2f %9.3f %7.2f %6s %6.1f %7d %6d\n", name, lines, s, 1e6 * s / lines, g, (g > 0.02 ? sprintf("%.1f", s / g) : "-"), m / 1024, status, parts }'
	if { [ "$status" = 0 ] || [ "$status" = 3 ]; } && [ "$unread" = 0 ] && [ "$memory" -lt 65536 ]; then passed=$((passed + 1)); else failed=$((failed + 1)); fi
}

load() { cut -d ' ' -f 1 /proc/loadavg 2>/dev/null || echo unknown; }
began=$(load)
echo "trace                  lines  seconds   us/line    grep  times     MB  status  parts"
one="--tasks decode:16.667 --start 600000"
two="--tasks decode:16.667,audio:16.667 --start 600000"
lines=100000
# shellcheck disable=SC2086
while [ "$lines" -le "$most" ]; do
	for kind in few periods hangs others; do
		trace $kind $lines >"$work/trace"
		case $kind in periods | hangs) words=$two ;; *) words=$one ;; esac
		row $kind $lines "$work/trace" $words
		row "$kind in parts" $lines "$work/trace" $words --parts
		row "$kind everywhere" $lines "$work/trace" $words --cpu all
		if [ $kind = few ]; then
			row pipe $lines "$work/trace" $words
			row "--cpu 3" $lines "$work/trace" $words --cpu 3
			row "--tasks ?" $lines "$work/trace" --tasks '?'
		fi
	done
	lines=$((10 * lines))
done
echo "load: $began at the begin, $(load) at the end"
echo "$passed passed, $failed failed"
[ $failed = 0 ]
