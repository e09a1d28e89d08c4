#!/bin/sh
# test.sh: whether the C library answers as the program does (`make library-test`).
#
#   sh library/test/test.sh [PART ..]      parts: names rows words threads memory examples earlier install fuzz; all without one
#
# It needs yds_cli, libyds.a and libyds.so in build, or in the folder that BUILT names, compilers for C and C++, nm, readelf and pkg-config.
# The example in Rust is tried where rustc is. DOCUMENTS drawn documents (20,000 without it) of SEED (1) are answered by the library and by
# the program. CC, CXX and RUSTC name other compilers.
# The last line is 'N passed, M failed'; the exit status is 1 where M isn't 0.

cd "$(dirname "$0")/../.." || exit 1
here=$(pwd)
built=${BUILT:-build}
case $built in /*) ;; *) built=$here/$built ;; esac
export built
CC=${CC:-gcc} CXX=${CXX:-g++} RUSTC=${RUSTC:-rustc}
SEED=${SEED:-1} DOCUMENTS=${DOCUMENTS:-20000}
LC_ALL=C
export LC_ALL
rows=examples/rows
work=$(mktemp -d) || exit 1
trap 'rm -rf "$work"' EXIT
passed=0
failed=0

pass() { passed=$((passed + 1)); }
fail() {
	failed=$((failed + 1))
	echo "FAILED: $1"
}

# try NAME COMMAND ..: it has to end with 0.
try() {
	name=$1
	shift
	if "$@" >"$work/log" 2>&1; then pass; else fail "$name"; tail -n 12 "$work/log"; fi
}

# counted NAME COMMAND ..: its last line tells how many passed and failed.
counted() {
	name=$1
	shift
	"$@" >"$work/log" 2>&1
	last=$(tail -n 1 "$work/log")
	case $last in
	*" passed, "*" failed") passed=$((passed + ${last%% *})) last=${last#* passed, } failed=$((failed + ${last%% *})) ;;
	*) fail "$name: it didn't end" ;;
	esac
	grep -v ' passed, ' "$work/log"
	return 0
}

# A shared object is found by the name that the loader knows.
ln -s "$built/libyds.so" "$work/libyds.so.1"
LD_LIBRARY_PATH=$work
export LD_LIBRARY_PATH

c() { "$CC" -std=c11 -Wall -Wextra -Werror -O2 -Ilibrary "$@"; }
cxx() { "$CXX" -std=c++17 -Wall -Wextra -pedantic-errors -Werror -O2 -Ilibrary "$@"; }

answers() {
	[ -x "$work/shared" ] || try "answers.c with the shared object" c -o "$work/shared" library/test/answers.c "$built/libyds.so" -pthread
	[ -x "$work/static" ] || try "answers.c with the archive" c -DREFUSING -o "$work/static" library/test/answers.c "$built/libyds.a" -pthread \
		-Wl,--wrap=malloc,--wrap=realloc,--wrap=free
}

part_names() {
	try "the archive shows two names" sh -c '[ "$(nm -g --defined-only "$built/libyds.a" | awk "NF == 3 { print \$3 }" | sort | xargs)" = "yds_answer yds_version" ]'
	try "the shared object shows two names" sh -c '[ "$(nm -D --defined-only "$built/libyds.so" | awk "\$2 == \"T\" { print \$3 }" | sort | xargs)" = "yds_answer@@YDS_1 yds_version@@YDS_1.1" ]'
	try "the soname" sh -c 'readelf -d "$built/libyds.so" | grep -q "SONAME.*\[libyds.so.1\]"'
	try "the shared object needs the C library alone" sh -c '[ "$(readelf -d "$built/libyds.so" | grep -c NEEDED)" = 1 ] && readelf -d "$built/libyds.so" | grep -q "NEEDED.*\[libc.so.6\]"'
	try "no relocation of code" sh -c '! readelf -d "$built/libyds.so" | grep -q TEXTREL'
	for standard in c99 c11 c17; do
		try "the header in $standard" "$CC" -std=$standard -Wall -Wextra -pedantic-errors -Werror -fsyntax-only -x c library/yds.h
	done
	for standard in c++98 c++11 c++20; do
		try "the header in $standard" "$CXX" -std=$standard -Wall -Wextra -pedantic-errors -Werror -Wno-long-long -fsyntax-only -x c++ library/yds.h
	done
	for standard in c++17 c++20; do
		try "the header for C++ in $standard" "$CXX" -std=$standard -Wall -Wextra -pedantic-errors -Werror -fsyntax-only -x c++ library/yds.hpp
	done
}

part_rows() {
	answers
	counted "rows of the shared object" "$work/shared" rows $rows
	counted "rows of the archive" "$work/static" rows $rows
}

part_words() {
	answers
	counted "words" "$work/shared" words
}

part_threads() {
	answers
	counted "threads" "$work/shared" threads $rows
}

part_memory() {
	answers
	counted "memory" "$work/static" memory $rows
}

# example NAME WANTED COMMAND ..: what it writes is compared with a file.
example() {
	name=$1 wanted=$2
	shift 2
	"$@" >"$work/out" 2>&1
	if cmp -s "$wanted" "$work/out"; then pass; else fail "$name"; diff "$wanted" "$work/out" | head -n 6; fi
}

part_examples() {
	try "slack.c" c -o "$work/slack" library/examples/slack.c "$built/libyds.so"
	try "answer.cpp" cxx -o "$work/answer" library/examples/answer.cpp "$built/libyds.so"
	example "the example in C" library/examples/slack.txt "$work/slack"
	# The example in C++ is the program again: it answers every row.
	counted "the example in C++" sh examples/check.sh "$work/answer"
	"$work/answer" "$(printf '\377')" </dev/null >"$work/out" 2>/dev/null
	if [ $? -gt 7 ]; then pass; else fail "the example in C++ throws where a word isn't UTF-8"; fi
	try "slots.cpp" cxx -o "$work/slots" library/examples/slots.cpp "$built/libyds.so"
	example "the example of jobs and slots" library/examples/slots.txt "$work/slots"
	try "rows.cpp" cxx -o "$work/typed" library/test/rows.cpp "$built/libyds.so"
	counted "the header for C++" "$work/typed"
	if ! command -v "$RUSTC" >/dev/null 2>&1; then
		echo "the example in Rust is left out; on Debian: apt-get install rustc"
		return
	fi
	try "answer.rs" "$RUSTC" -O -D warnings -o "$work/rust" library/examples/answer.rs -L "$built"
	counted "the example in Rust" sh examples/check.sh "$work/rust"
}

# A program that was linked against an earlier version runs with this one. What it was linked against is an object with the name and the
# symbols of that version, made of the header and the map that it had. Its call does nothing, so this library's has to be the one that answers.
part_earlier() {
	for version in library/test/[0-9]*; do
		stub=$work/${version##*/}
		mkdir -p "$stub"
		echo '#include "yds.h"
uint8_t yds_answer(const struct yds_word *words, size_t word_count, const void *input, size_t input_length, uint64_t first_key, uint64_t second_key,
	void *room, size_t room_length, size_t *needed) {
	(void)words, (void)word_count, (void)input, (void)input_length, (void)first_key, (void)second_key, (void)room, (void)room_length, (void)needed;
	return 255;
}' >"$stub/stub.c"
		try "an object of ${version##*/}" "$CC" -shared -fPIC -I"$version" -o "$stub/libyds.so" "$stub/stub.c" -Wl,-soname,libyds.so.1 -Wl,--version-script,"$version/yds.map"
		try "a program of ${version##*/}" "$CC" -std=c11 -O2 -I"$version" -o "$stub/slack" library/examples/slack.c "$stub/libyds.so"
		if LD_LIBRARY_PATH=$stub "$stub/slack" >/dev/null 2>&1; then fail "the stub of ${version##*/} answers"; else pass; fi
		example "a program of ${version##*/} with this library" library/examples/slack.txt "$stub/slack"
	done
}

# What `make install-library` puts somewhere serves a compiler through pkg-config, and `make uninstall` takes all of it away.
part_install() {
	try "make install-library" make -s install-library DESTDIR="$work/root" PREFIX=/usr
	PKG_CONFIG_PATH=$work/root/usr/lib/pkgconfig PKG_CONFIG_SYSROOT_DIR=$work/root
	export PKG_CONFIG_PATH PKG_CONFIG_SYSROOT_DIR
	# shellcheck disable=SC2046
	try "pkg-config" "$CC" -o "$work/installed" library/examples/slack.c $(PKG_CONFIG_ALLOW_SYSTEM_CFLAGS=1 PKG_CONFIG_ALLOW_SYSTEM_LIBS=1 pkg-config --cflags --libs yds)
	try "the version" sh -c '[ "$(pkg-config --modversion yds)" = "$(cat VERSION)" ]'
	example "the installed shared object" library/examples/slack.txt env LD_LIBRARY_PATH="$work/root/usr/lib" "$work/installed"
	try "make uninstall-library" make -s uninstall-library DESTDIR="$work/root" PREFIX=/usr
	if [ -z "$(find "$work/root" ! -type d)" ]; then pass; else fail "uninstall leaves something"; find "$work/root" ! -type d; fi
}

# Each processor draws a range of the documents.
part_fuzz() {
	try "fuzz.c" "$CC" -std=gnu11 -O2 -Wall -Ilibrary -DLIBRARY -o "$work/fuzz" robustness/fuzz.c "$built/libyds.so"
	jobs=$(nproc) each=$(((DOCUMENTS + jobs - 1) / jobs)) number=0
	while [ $number -lt "$jobs" ]; do
		(cd "$work" && ./fuzz "$built/yds_cli" "$here/$rows" "$SEED" $each $((number * each + 1)) >fuzz.$number 2>&1) &
		number=$((number + 1))
	done
	wait
	number=0
	while [ $number -lt "$jobs" ]; do
		counted "drawn documents" cat "$work/fuzz.$number"
		number=$((number + 1))
	done
}

for file in "$built/yds_cli" "$built/libyds.a" "$built/libyds.so"; do
	[ -f "$file" ] || { echo "test.sh: $file isn't there; make library builds it" >&2; exit 1; }
done
for part in ${*:-names rows words threads memory examples earlier install fuzz}; do
	before=$passed
	"part_$part" || fail "the part $part"
	echo "$part: $((passed - before)) passed"
done
echo "$passed passed, $failed failed"
[ $failed = 0 ]
