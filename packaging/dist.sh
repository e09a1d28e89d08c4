#!/bin/sh
# dist.sh: makes the archives of a release, in build/dist (`make dist`).
#
#   yds_cli-VERSION.tar.gz                       the sources of the commit
#   yds_cli-VERSION-linux-x86_64.tar.gz          the static programs and the commands yds-.., with their manual pages, completion, recipes, examples
#                                                and the pages for readers
#   yds-VERSION-py3-none-manylinux2014_x86_64.whl    the Python package, where build/libyds.so is there (`make library`)
#   SHA256SUMS                                   the sums of these, of the programs in the archive, and of the packages where they are there
#
# Two builds of one commit, with the same compiler and C library for the static program, are the same bytes.

. "$(dirname "$0")/common.sh"
needs git git tar tar gzip gzip
are_built
are_static || die "a program isn't static; make links it so where gcc and libc6-dev are"
[ -z "$(git status --porcelain)" ] || die "there are changes that no commit has; a release is made of a commit"
set_epoch
mkdir -p $out
name=yds_cli-$version
git archive --prefix="$name/" HEAD | gzip -9n >"$out/$name.tar.gz"

stage=build/stage
folder=$stage/$name-linux-x86_64
rm -rf $stage
DESTDIR=$PWD/$folder PREFIX='' sh packaging/install.sh put programs tools && python3 packaging/pages.py "$folder" || die "the archive couldn't be filled"
python3 docs/check.py "$folder" >build/dist.log || { cat build/dist.log; die "a page of the archive has a link that leads nowhere"; }
cp LICENSE-MIT LICENSE-APACHE VERSION "$folder"
{
	echo "The programs bin/$(echo "$programs" | paste -s -d , | sed 's|,| and bin/|g') are one file each that needs no library. They run on any"
	echo "Linux, on a processor of x86-64-v2 or later. Each has the object file that was proved and compiled by the"
	echo "toolchain. They are linked by gcc and Debian's C library in place of the toolchain's linker:"
	echo
	"${CC:-cc}" --version | head -n 1
	echo "C library: $(printf '#include <gnu/libc-version.h>\n__GLIBC__.__GLIBC_MINOR__\n' | "${CC:-cc}" -E -P - | tail -n 1 | tr -d ' ')"
} >"$folder/STATIC"
same_times "$folder"
tar --sort=name --owner=0 --group=0 --numeric-owner --format=ustar -C $stage -cf - "$name-linux-x86_64" | gzip -9n >"$out/$name-linux-x86_64.tar.gz"
rm -rf $stage
[ ! -f build/libyds.so ] || sh packaging/wheel.sh >/dev/null || die "the wheel failed"
sums
