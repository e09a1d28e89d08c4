#!/bin/sh
# build.sh: makes the C library, in build (`make library`).
#
#   build/libyds.a     one object file, of which two names can be seen: yds_answer and yds_version
#   build/libyds.so    the same as a shared object, with the soname libyds.so.1
#
# packaging/prove.py proves and compiles the crate yds_c, or takes what an earlier check has kept. Its archive needs the
# toolchain's small one for malloc, realloc and free, so both are joined, with version.c: who links the library needs no
# toolchain. Two builds of one object by one compiler are the same bytes.
#
#   sh library/build.sh ARCHIVE FOLDER     takes the crate's archive, which is there already, and makes both files in FOLDER
#
# CC names another compiler.

cd "$(dirname "$0")/.." || exit 1
umask 022
CC=${CC:-gcc}
archive=${1:-crates/yds_c/out/libyds_c.a}
folder=${2:-build}
die() {
	echo "build.sh: $*" >&2
	exit 1
}
command -v rt >/dev/null 2>&1 || die "the command 'rt' of the Rattle toolchain isn't on the PATH; install the kit that README.md names"
for tool in "$CC" ld ar objcopy; do
	command -v "$tool" >/dev/null 2>&1 || die "the command '$tool' isn't here; on Debian: apt-get install gcc libc6-dev"
done
kit=$(dirname "$(dirname "$(readlink -f "$(command -v rt)")")")
mkdir -p "$folder"
[ $# -gt 0 ] || python3 packaging/prove.py library || exit 1

grep -q "^#define YDS_VERSION \"$(cat VERSION)\"\$" library/yds.h || die "library/yds.h doesn't say YDS_VERSION \"$(cat VERSION)\", which VERSION says"
"$CC" -std=c99 -O2 -fPIC -fno-asynchronous-unwind-tables -c -o "$folder/version.o" library/version.c || die "version.c couldn't be compiled"
ld -r -o "$folder/yds.o" --whole-archive "$archive" --no-whole-archive "$folder/version.o" "$kit/c/liblibc_c.a" &&
	objcopy --keep-global-symbol=yds_answer --keep-global-symbol=yds_version "$folder/yds.o" || die "the archives couldn't be joined"
rm -f "$folder/libyds.a"
ar rcD "$folder/libyds.a" "$folder/yds.o" && ar sD "$folder/libyds.a" || die "the archive couldn't be made"
"$CC" -shared -o "$folder/libyds.so" "$folder/yds.o" -Wl,-soname,libyds.so.1 -Wl,--version-script,library/yds.map \
	-Wl,-z,defs -Wl,-z,now -Wl,-z,noexecstack -Wl,--build-id=none -Wl,-s || die "the link failed"
rm -f "$folder/yds.o" "$folder/version.o"
echo "Built $folder/libyds.a and $folder/libyds.so."
