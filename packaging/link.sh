#!/bin/sh
# link.sh: makes build/NAME of what the toolchain has proved and compiled (`make` calls it): link.sh NAME, for yds_cli without one.
#
# Where a C compiler and a static C library are here (Debian: gcc and libc6-dev), they link build/NAME.o, with the toolchain's two
# small archives for the C library, into one static program. It starts soonest, and runs on any Linux, on a processor of x86-64-v2 or
# later. Elsewhere build/NAME is build/NAME-dynamic, which the toolchain's linker made of the same object file: it needs glibc 2.34.
#
#   LINK=dynamic    takes the second in any case
#   CC              names another compiler than cc

. "$(dirname "$0")/common.sh"
CC=${CC:-cc}
name=${1:-yds_cli}

if [ "$LINK" = dynamic ]; then
	why="LINK=dynamic asks for it"
elif ! command -v "$CC" >/dev/null 2>&1; then
	why="the C compiler '$CC' isn't here (Debian: gcc and libc6-dev)"
elif static "$name" "build/$name" 2>build/link.log; then
	echo "Linked build/$name by $("$CC" --version | head -n 1), static."
	exit
else
	why="'$CC' could not link a static one, as build/link.log says (Debian: gcc and libc6-dev)"
fi
cp "build/$name-dynamic" "build/$name" || exit 1
echo "build/$name is the toolchain's dynamic program: $why."
