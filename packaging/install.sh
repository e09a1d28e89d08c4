#!/bin/sh
# install.sh: puts what is built where it is used, or takes it away (`make install`, `make uninstall`).
#
#   sh packaging/install.sh put PART ..       copies the parts to PREFIX
#   sh packaging/install.sh remove PART ..    removes just these files, and the folders that are the project's own and empty
#
#   programs    each program with its manual page and completion, and the examples of documents
#   tools       the commands yds-..: the Python package, the samples, manual pages and completion
#   library     the shared object
#   headers     what a compiler needs beside it: the headers, the static library and the file for pkg-config
#   pages       the manual, the format, what is proved and the other pages for readers, with their pictures
#
# Environment: PREFIX (/usr/local), DESTDIR (a folder in which all of it is put, for packages; empty), LIBDIR (the folder of
# libraries; PREFIX/lib), INSTALLED (another file for build/yds_cli). PREFIX and DESTDIR may have blanks.

. "$(dirname "$0")/common.sh"
PREFIX=${PREFIX-/usr/local}
LIBDIR=${LIBDIR:-$PREFIX/lib}
start=lib/python3/dist-packages/yds/commands/_start.py
object=libyds.so.1.1
mode=$1
shift
case $mode in put | remove) ;; *) die "give put or remove, and the parts" ;; esac

# file FROM PATH [MODE]: the file, copied; not through a link, and not into a program that runs.
file() {
	if [ "$mode" = remove ]; then rm -f "$DESTDIR$2"; else install -D -m "${3:-644}" "$1" "$DESTDIR$2"; fi || die "$DESTDIR$2 can't be written"
}
# link TARGET PATH: a link.
link() {
	rm -f "$DESTDIR$2"
	[ "$mode" = remove ] || { mkdir -p "$(dirname "$DESTDIR$2")" && ln -s "$1" "$DESTDIR$2"; } || die "$DESTDIR$2 can't be written"
}
# made PATH COMMAND ..: what the command writes.
made() {
	made=$1
	shift
	[ "$mode" = remove ] || "$@" >"$own/text" || die "$* failed"
	file "$own/text" "$made"
}
# gone FOLDER ..: the project's own folders, once nothing is in them.
gone() {
	[ "$mode" = put ] || for folder in "$@"; do
		[ ! -d "$DESTDIR$PREFIX/$folder" ] || find "$DESTDIR$PREFIX/$folder" -depth -type d -empty -delete
	done
}

# built FILE COMMAND: ends where the file isn't there.
built() { [ $mode = remove ] || [ -f "$1" ] || die "$1 isn't there; $2 builds it"; }

programs() {
	for name in $programs; do
		installed=build/$name
		[ $name != yds_cli ] || installed=${INSTALLED:-$installed}
		built "$installed" make
		file "$installed" "$PREFIX/bin/$name" 755
		made "$PREFIX/share/man/man1/$name.1" sed "s/^\.Os\$/.Os $name $version/" "docs/$name.1"
		[ ! -f completions/$name.bash ] || file completions/$name.bash "$PREFIX/share/bash-completion/completions/$name"
	done
	for name in examples/*.txt; do file "$name" "$PREFIX/share/yds_cli/$name"; done
	gone share/yds_cli
}

tools() {
	# The manual page of each command, from its own table.
	# shellcheck disable=SC2086
	[ $mode = remove ] || python3 packaging/man.py "$own" $commands || die "the manual pages couldn't be made"
	for name in $(cd python/yds && find . -name '*.py' -o -name py.typed | sort); do
		file "python/yds/$name" "$PREFIX/lib/python3/dist-packages/yds/${name#./}"
	done
	[ $mode = remove ] || chmod 755 "$DESTDIR$PREFIX/$start"
	for name in $(cd recipes/samples && find . -path ./bad -prune -o -type f -print | sort); do
		file "recipes/samples/$name" "$PREFIX/share/yds_cli/recipes/samples/${name#./}"
	done
	[ $mode = remove ] || chmod 755 "$DESTDIR$PREFIX/share/yds_cli/recipes/samples"/*.sh
	file completions/yds_cli.bash "$PREFIX/share/bash-completion/completions/yds_tools"
	for name in $commands; do
		link ../$start "$PREFIX/bin/$name"
		link yds_tools "$PREFIX/share/bash-completion/completions/$name"
		file "$own/$name.1" "$PREFIX/share/man/man1/$name.1"
	done
	if [ $mode = remove ]; then find "$DESTDIR$PREFIX/lib/python3/dist-packages/yds" -name __pycache__ -prune -exec rm -rf {} + 2>/dev/null; fi
	gone lib/python3/dist-packages/yds share/yds_cli
}

library() {
	built build/libyds.so "make library"
	file build/libyds.so "$LIBDIR/$object"
	link $object "$LIBDIR/libyds.so.1"
}

headers() {
	built build/libyds.a "make library"
	link libyds.so.1 "$LIBDIR/libyds.so"
	file build/libyds.a "$LIBDIR/libyds.a"
	file library/yds.h "$PREFIX/include/yds.h"
	file library/yds.hpp "$PREFIX/include/yds.hpp"
	made "$LIBDIR/pkgconfig/yds.pc" awk -v version="$version" '
		# In a file for pkg-config a blank of a path has a backslash before it.
		BEGIN { prefix = ENVIRON["PREFIX"]; folder = ENVIRON["LIBDIR"]; gsub(/ /, "\\ ", prefix); gsub(/ /, "\\ ", folder) }
		function put(sign, text, at) { if ((at = index($0, sign))) $0 = substr($0, 1, at - 1) text substr($0, at + length(sign)) }
		{ put("@PREFIX@", prefix); put("@LIBDIR@", folder); put("@VERSION@", version); print }' library/yds.pc.in
}

pages() {
	[ $mode = remove ] || python3 packaging/pages.py "$own/pages" || die "the pages couldn't be made"
	for name in $(python3 packaging/pages.py --list); do file "$own/pages/$name" "$PREFIX/share/doc/yds-doc/$name"; done
	gone share/doc/yds-doc
}

export PREFIX LIBDIR
own=$(mktemp -d) || exit 1
trap 'rm -rf "$own"' EXIT
for part in "$@"; do
	case $part in programs | tools | library | headers | pages) $part ;; *) die "there is no part $part" ;; esac
done
