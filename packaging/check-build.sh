#!/bin/sh
# check-build.sh: whether the programs that were built here are the released ones (`make check-build`).
#
#   sh packaging/check-build.sh             compares what was built with the lines of this version in packaging/released
#   sh packaging/check-build.sh --record    writes these lines anew (`make record-build`), before a release
#
# A line of packaging/released: the version, the program, the toolchain, the sum of the sources that are proved and compiled, the sum of
# the object file that they are compiled to, and the sum of the dynamic program, which the toolchain's linker makes of it. The sums
# are SHA-256. A static program depends on the compiler and the C library that linked it, too: it is linked once more of the
# same object file, and has to be the same bytes. Status 0: they are the released programs; 1: one isn't, with the reason.

. "$(dirname "$0")/common.sh"
CC=${CC:-cc}
for name in $programs; do
	for file in build/$name build/$name.o build/$name-dynamic; do
		[ -f "$file" ] || die "$file isn't there; make builds it"
	done
done
sum() { sha256sum | cut -d ' ' -f 1; }

# The sum of all names and contents of what is proved and compiled.
sources_sum() {
	{
		echo crates.txt
		find crates -path '*/out' -prune -o \( -name '*.rt' -o -name '*.antt' \) -print
	} | sort | xargs sha256sum | sum
}

toolchain() {
	rt_path=$(command -v rt) || { echo "unknown"; return; }
	tr -s ' \n' '  ' <"$(dirname "$(dirname "$(readlink -f "$rt_path")")")/KIT-ID" | awk '{ print $1 }'
}

# same_program NAME: whether build/NAME is made of the object file.
same_program() {
	! cmp -s "build/$1" "build/$1-dynamic" || { echo "build/$1 is that program."; return; }
	static "$1" build/again 2>/dev/null && cmp -s "build/$1" build/again
	same=$?
	rm -f build/again
	[ $same = 0 ] || die "build/$1 isn't what $("$CC" --version | head -n 1) links of that object file: did another compiler or C library link it?"
	echo "build/$1 is what $("$CC" --version | head -n 1) links of that object file."
}

# compare NAME: the line of a program, and what was built.
compare() {
	object=$(sum <"build/$1.o")
	dynamic=$(sum <"build/$1-dynamic")
	name=$1
	set -- $(grep "^$version $name " packaging/released)
	[ $# = 6 ] || die "packaging/released has no line of $name of version $version, so there is nothing to compare with"
	if [ "$5" = "$object" ] && [ "$6" = "$dynamic" ]; then
		echo "build/$name.o is the released object file of version $version: $object"
		echo "build/$name-dynamic is the released program: $dynamic"
		same_program "$name"
		return
	fi
	echo "What was built here isn't $name of version $version as it was released."
	echo "released $5 $6"
	echo "built    $object $dynamic"
	if [ "$4" != "$sources" ]; then
		echo "The sources differ from the released ones: take those of the version, and build again."
	elif [ "$3" != "$(toolchain)" ]; then
		echo "The sources are the released ones, but the toolchain isn't: it was $3, and here it is $(toolchain)."
	else
		echo "Sources and toolchain are the released ones. Was build/$name made by 'make', and not copied from elsewhere?"
	fi
	return 1
}

sources=$(sources_sum)
if [ "$1" = --record ]; then
	for page in README.md docs/proved.md; do
		grep -qF "$(toolchain)" "$page" || die "$page doesn't name $(toolchain), the toolchain that built the programs"
	done
	{
		grep -v "^$version " packaging/released
		for name in $programs; do
			echo "$version $name $(toolchain) $sources $(sum <"build/$name.o") $(sum <"build/$name-dynamic")"
		done
	} >build/released.new && mv build/released.new packaging/released
	grep "^$version " packaging/released
	exit
fi
status=0
for name in $programs; do compare "$name" || status=1; done
exit $status
