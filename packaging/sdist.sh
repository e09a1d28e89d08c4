#!/bin/sh
# sdist.sh: makes the source archive of the Python package yds, in build/dist (`make sdist`).
#
# It has the module without the shared object, and so neither a toolchain nor a compiler is needed to make or to install it. What it needs
# where it runs stands in its README: libyds.so.1 where the loader finds it. Packages of distributions are made of it.
#
# Two builds of one commit, with the same zlib, are the same bytes.

. "$(dirname "$0")/common.sh"
needs python3 python3
set_epoch
mkdir -p $out
python3 packaging/sdist.py "$version" "$SOURCE_DATE_EPOCH" $out || die "the archive couldn't be made"
sums
