#!/bin/sh
# wheel.sh: makes the wheel of the Python package yds, in build/dist (`make wheel`).
#
# It has all that the packages have but the headers: the module with the shared object, build/libyds.so; the static programs; the
# commands yds-..; and in share the samples, the examples, the manual pages, the completion and the pages for readers. It needs no
# toolchain and no compiler where it is installed:
#
#   python3 -m venv folder && folder/bin/pip install --no-index build/dist/yds-*.whl
#
# Two builds of one commit, with the same shared object, the same programs and the same zlib, are the same bytes.

. "$(dirname "$0")/common.sh"
needs python3 python3
[ -f build/libyds.so ] || die "build/libyds.so isn't there; make library builds it"
are_built
are_static || die "a program isn't static, and in a wheel it has to run on any Linux; make links it so where gcc and libc6-dev are"
set_epoch
mkdir -p $out
stage=build/stage-of-wheel
rm -rf $stage
DESTDIR=$PWD/$stage PREFIX='' sh packaging/install.sh put programs tools pages || die "the wheel couldn't be filled"
python3 packaging/wheel.py "$version" "$SOURCE_DATE_EPOCH" $out $stage || die "the wheel couldn't be made"
rm -rf $stage
sums
