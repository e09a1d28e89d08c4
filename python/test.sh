#!/bin/sh
# test.sh: tries the Python package yds over build/libyds.so (a part of `make library-test`).
#
#   sh python/test.sh
#
# The tests and the examples in the texts; the same tests of the wheel, in an empty virtual environment where the toolchain isn't on the PATH; and the types, where
# mypy is there. Environment: YDS (the program; build/yds_cli without it), PYTHON (python3), DOCUMENTS (how many fuzzed documents; 2000) and SEED (1).
# The last line is 'N passed, M failed'; the exit status is 1 where M isn't 0.

cd "$(dirname "$0")/.." || exit 1
YDS=${YDS:-$PWD/build/yds_cli}
case $YDS in /*) ;; *) YDS=$PWD/$YDS ;; esac
PYTHON=${PYTHON:-python3}
PYTHONDONTWRITEBYTECODE=1
export YDS PYTHONDONTWRITEBYTECODE
work=$(mktemp -d) || exit 1
library=$PWD/build/libyds.so
trap 'rm -rf "$work"' EXIT
passed=0
failed=0
# try NAME COMMAND ..: its last line is told.
try() {
	name=$1
	shift
	if "$@" >"$work/log" 2>&1; then passed=$((passed + 1)); else failed=$((failed + 1)); name="FAILED: $name"; cat "$work/log"; fi
	echo "$name: $(grep -v '^OK' "$work/log" | grep . | tail -n 1)"
}

tests() { "$@" -m unittest discover -s python/tests; }
from_here() { YDS_LIBRARY=$PWD/build/libyds.so PYTHONPATH=python tests "$PYTHON"; }

# The wheel, made twice: into the folder of releases and, from a copy of it all, into another.
twice() {
	sh packaging/wheel.sh >"$work/sums" && mkdir "$work/again" || return 1
	cp -r VERSION ./*.md LICENSE-* packaging library python recipes examples completions docs debian "$work/again" && mkdir "$work/again/build" || return 1
	cp -p build/libyds.so build/yds_cli build/yds_trace build/yds_*-dynamic "$work/again/build" || return 1
	SOURCE_DATE_EPOCH=$(git log -1 --format=%ct 2>/dev/null || cat packaging/commit-time) sh "$work/again/packaging/wheel.sh" >"$work/sums" || return 1
	cmp build/dist/yds-*.whl "$work"/again/build/dist/yds-*.whl && echo "the same bytes"
}
installed() {
	"$PYTHON" -m venv "$work/venv" || { echo "no virtual environment; on Debian: apt-get install python3-venv"; return 1; }
	env -i PATH="$work/venv/bin" pip install --quiet --no-index --disable-pip-version-check build/dist/yds-*.whl || return 1
	(PATH=$work/venv/bin:/usr/bin:/bin && ! command -v rt >/dev/null) || { echo "the toolchain is on the PATH"; return 1; }
	tests env -i PATH="$work/venv/bin:/usr/bin:/bin" PYTHONDONTWRITEBYTECODE=1 YDS="$YDS" DOCUMENTS=200 python || return 1
	env -i PATH="$work/venv/bin:/usr/bin:/bin" python -c 'import yds; print("from", yds.__path__[0].split("/venv/")[1])'
}
# The source archive, made twice; and what is installed from it, with the shared object named by the environment.
sources() {
	sh packaging/sdist.sh >/dev/null || return 1
	cp build/dist/yds-"$(cat VERSION)".tar.gz "$work/first.tar.gz" && sh packaging/sdist.sh >/dev/null && cmp "$work/first.tar.gz" build/dist/yds-"$(cat VERSION)".tar.gz || return 1
	"$PYTHON" -c 'import setuptools, wheel' 2>/dev/null || { echo "the same bytes; it isn't installed, since setuptools and wheel aren't here"; return; }
	"$PYTHON" -m pip wheel --quiet --no-build-isolation --no-deps --no-index -w "$work/built" "$work/first.tar.gz" || return 1
	(cd "$work" && YDS_LIBRARY=$library PYTHONPATH=$(ls "$work"/built/yds-*.whl) "$PYTHON" -c 'import yds; yds.Document([("a", 0, 4, 8)]).plan()
print("the same bytes, and installed", yds.__version__)')
}
types() { MYPYPATH=python:packaging mypy --strict --no-incremental python/yds python/tests/seen_by_mypy.py library/examples/governor.py packaging/wheel.py packaging/sdist.py; }

# The picture of docs/library.md has the texts of the one that is drawn here.
texts() { grep -o '>[^<]*</text>' "$1"; }
picture() {
	YDS_LIBRARY=$PWD/build/libyds.so PYTHONPATH=python "$PYTHON" library/examples/ratios.py "$work/library-ratios.svg" || return 1
	texts "$work/library-ratios.svg" >"$work/drawn" && texts docs/pictures/library-ratios.svg >"$work/stored" && diff "$work/stored" "$work/drawn" && echo "as in docs/pictures"
}

[ -f build/libyds.so ] || { echo "test.sh: build/libyds.so isn't there; make library builds it" >&2; exit 1; }
try "tests of the module" from_here
try "the wheel, made twice" twice
try "the source archive" sources
try "tests of the wheel, installed into an empty environment" installed
if command -v mypy >/dev/null 2>&1; then try "types" types; else echo "types are left out; on Debian: apt-get install mypy"; fi
if "$PYTHON" -c 'import matplotlib' 2>/dev/null; then try "the picture" picture; else echo "the picture is left out; on Debian: apt-get install python3-matplotlib"; fi
echo "$passed passed, $failed failed"
[ $failed = 0 ]
