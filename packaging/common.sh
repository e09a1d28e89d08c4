# common.sh: what the scripts of this folder share. Read by them with '.'; the working folder is the repository's root afterwards.

cd "$(dirname "$0")/.." || exit 1
umask 022
LC_ALL=C
export LC_ALL
version=$(cat VERSION) || exit 1
# The programs are those that have a manual page, and the commands around them those of recipes/bin: there is no other list.
programs=$(cd docs && ls ./*.1 | sed 's/^\.\/\(.*\)\.1$/\1/')
commands=$(cd recipes/bin && ls)
out=build/dist

die() {
	echo "${0##*/}: $*" >&2
	exit 1
}

# needs COMMAND PACKAGE ..: ends where a command isn't there, and names Debian's package that has it.
needs() {
	while [ $# -gt 1 ]; do
		command -v "$1" >/dev/null 2>&1 || die "the command '$1' isn't here; on Debian: apt-get install $2"
		shift 2
	done
}

# The time of the commit stands in for the time of the build, so that two builds are the same bytes. In an archive of the
# sources, which has no commits, git has written it into the file commit-time.
set_epoch() {
	if [ -z "$SOURCE_DATE_EPOCH" ]; then
		SOURCE_DATE_EPOCH=$(cat packaging/commit-time)
		case $SOURCE_DATE_EPOCH in
		*[!0-9]*) SOURCE_DATE_EPOCH=$(git log -1 --format=%ct 2>/dev/null) ;;
		esac
	fi
	[ -n "$SOURCE_DATE_EPOCH" ] || die "there is no commit to take the time from; set SOURCE_DATE_EPOCH"
	export SOURCE_DATE_EPOCH
}

# same_times FOLDER: everything in it has the time of the commit.
same_times() { find "$1" -exec touch -h -d "@$SOURCE_DATE_EPOCH" {} +; }

# sums: the sum of each file of this version in $out, in the file SHA256SUMS, and those of the programs as they are unpacked of the
# archive; and where the files are.
sums() {
	(cd "$out" && rm -f SHA256SUMS && { sha256sum -- *"$version"* && unpacked_sums; } >../SHA256SUMS.new && mv ../SHA256SUMS.new SHA256SUMS && cat SHA256SUMS) || return 1
	echo "These files are in $out, and their sums in $out/SHA256SUMS."
}
unpacked_sums() {
	archive=yds_cli-$version-linux-x86_64
	[ ! -f "$archive.tar.gz" ] || for each in $programs; do
		echo "$(tar -xzOf "$archive.tar.gz" "$archive/bin/$each" | sha256sum | cut -d ' ' -f 1)  $archive/bin/$each"
	done
}

# are_built: ends where a program isn't there.
are_built() {
	for each in $programs; do
		[ -x "build/$each" ] || die "build/$each isn't there; make builds it"
	done
}

# static NAME FILE: links the proved object file of the program into a static one, FILE.
static() {
	kit=$(dirname "$(dirname "$(readlink -f "$(command -v rt)")")")
	"${CC:-cc}" -static -s -Wl,--build-id=none -o "$2" "build/$1.o" "$kit/c/libos_c.a" "$kit/c/liblibc_c.a"
}

# are_static: whether each program is another one than the toolchain's dynamic one.
are_static() {
	for each in $programs; do
		! cmp -s "build/$each" "build/$each-dynamic" || return 1
	done
}
