#!/bin/sh
# library.sh: how often a second the library answers, from C and from Python, beside processes of the program (`make bench-library`).
#
#   sh bench/library.sh
#
# Environment: YDS (the program; build/yds_cli beside this folder), CC (cc), PYTHON (python3). It needs build/libyds.so, which `make library` builds.

here=$(cd "$(dirname "$0")" && pwd)
YDS=${YDS:-$here/../build/yds_cli}
case $YDS in /*) ;; *) YDS=$(pwd)/$YDS ;; esac
LC_ALL=C
export LC_ALL
build=$here/../build
work=$(mktemp -d) || exit 1
trap 'rm -rf "$work"' EXIT
for file in "$YDS" "$build/libyds.so"; do
	[ -f "$file" ] || { echo "library.sh: $file isn't there; make and make library build it" >&2; exit 1; }
done
"${CC:-cc}" -std=gnu11 -O2 -Wall -I"$here/../library" -o "$work/library" "$here/library.c" "$build/libyds.so" || exit 1
ln -s "$build/libyds.so" "$work/libyds.so.1"
LD_LIBRARY_PATH=$work YDS_LIBRARY=$build/libyds.so PYTHONPATH=$here/../python
export LD_LIBRARY_PATH YDS_LIBRARY PYTHONPATH
cat <<TEXT
plan of so many drawn jobs: answers a second, one after another
jobs   processes   calls from C   calls from Python   the same, with rows made and slots read
TEXT
for jobs in 3 20 100 1000 4000; do
	"${PYTHON:-python3}" "$here/documents.py" drawn $jobs >"$work/document"
	processes=$("$work/library" process "$work/document" "$YDS" plan) || exit 1
	calls=$("$work/library" call "$work/document" plan) || exit 1
	python=$("${PYTHON:-python3}" "$here/library.py" "$work/document") || exit 1
	# shellcheck disable=SC2086 # two numbers
	printf '%4d%12d%15d%20d%28d\n' $jobs "$processes" "$calls" $python
done
