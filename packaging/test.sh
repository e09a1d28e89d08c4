#!/bin/sh
# test.sh: tries what a release has, on systems that know nothing of it (`make packages-test`).
#
#   sh packaging/test.sh [SUITE ..]      Debian's bookworm (12) and trixie (13) without one
#
# For each suite debootstrap makes a root of the base system, with python3 and man-db, in ROOTS, where it is kept for the next time, or
# else in a folder that goes when the test ends. (The toolchain refuses links, so it isn't in build.) All that follows runs there without
# a network and without this repository, by someone who isn't root where that can be:
#
#   text tools  python3-yds alone, as on a processor for which there is no program: debian/tests/text-tools
#   walk        the packages are installed by README's line; the program answers the rows of `make check`; the first example
#               (debian/tests/first-example); the manual pages; README's and the manual's commands are typed as the pages in the package
#               have them (typed.py); a page to send on; then the packages are removed, and every file outside the package
#               manager's own folders has to be as it was
#   manual      the same commands where the packages are installed that the manual names (jq, parallel, python3-matplotlib, ..), and
#               the library's test (debian/tests/library)
#   wheel       the wheel alone, installed by pip as the manual says, by one who isn't root: the rows, the first example, the manual
#               pages, the pages' commands, a page to send on. Once where nothing else is, and once where the manual's packages are
#   archive     the archive of the program, unpacked as README says: the rows, the first example, the pages' commands
#   upgrade     1.0.0 is installed, upgraded, tried and removed. Its packages are made of its commit, but with the program and the
#               library that were built here
#
# Before that come the packages: two builds in two folders have to be the same bytes, and so those of the sources' archive. Last come
# the static programs, in an empty root, which has nothing but themselves. ONLY names the parts that are tried, without the others:
# packages, walk, manual, wheel, archive, upgrade, empty; where packages isn't one of them, they have to be built. Each log is kept in
# build/packages-test.
#
# It needs root, debootstrap, and the network for the roots (MIRROR names another one of Debian). The roots take some 4.5 GB, and the
# one that is tried up to 2 GB more. HOUR=1 types the manual's trace of an hour, too, where the manual's packages are. Each step tells
# its seconds. The last line is 'N passed, M failed'; the exit status is 1 where M isn't 0. What is missing is named, and counts as
# failed.

. "$(dirname "$0")/common.sh"
needs debootstrap debootstrap chroot coreutils unshare util-linux dpkg-deb dpkg git git
[ "$(id -u)" = 0 ] || die "chroot and debootstrap need root"
are_built
MIRROR=${MIRROR:-http://deb.debian.org/debian}
# The release before this one, and the commit that recorded its sums.
OLD=1.0.0
BEFORE=e2fd3074e72d6dd6444b7e195150b4ac04d15974
PIP="python3-venv"
MANUAL="jq parallel python3-matplotlib gcc libc6-dev pkg-config"
logs=build/packages-test
work=$(mktemp -d) || exit 1
trap 'leave; rm -rf "$work"' EXIT
trap 'exit 1' HUP INT TERM
# Logs of other parts and suites stay, where only some are tried.
[ -n "${ONLY:-}" ] || rm -rf $logs
mkdir -p $logs
passed=0
failed=0
pass() { passed=$((passed + 1)); echo "passed: $1"; }
fail() { failed=$((failed + 1)); echo "FAILED: $1"; }
# try NAME COMMAND ..: its seconds and its last line of output are told.
try() {
	tried=$1
	shift
	began=$(date +%s)
	"$@" >"$work/log" 2>&1
	got=$?
	tried="$tried ($(($(date +%s) - began)) s)"
	if [ $got = 0 ]; then pass "$tried: $(tail -n 1 "$work/log")"; else fail "$tried"; tail -n 25 "$work/log"; fi
	{ echo "== $tried"; cat "$work/log"; } >>"$logs/${suite:-all}.log"
	return $got
}
# inside COMMAND ..: in the root of the suite, with a network; alone COMMAND ..: without; user COMMAND ..: without, by nobody, in
# /home/reader, with the commands of $bin.
inside() { env -i PATH=/usr/sbin:/usr/bin:/sbin:/bin LC_ALL=C HOME=/ DEBIAN_FRONTEND=noninteractive chroot "$root" "$@"; }
alone() {
	env -i PATH=/usr/sbin:/usr/bin:/sbin:/bin LC_ALL=C HOME=/ DEBIAN_FRONTEND=noninteractive ROOT="$root" unshare -n -m \
		sh -c 'mount -t proc proc "$ROOT/proc" && exec chroot "$ROOT" "$@"' sh "$@"
}
user() {
	alone env -u DEBIAN_FRONTEND PATH="$bin:/usr/bin:/bin" SHARED="$shared" LC_ALL=C.UTF-8 HOME=/home/reader USER=reader \
		setpriv --reuid 65534 --regid 65534 --clear-groups sh -c 'cd && exec "$@"' sh "$@"
}

# files: each file of the root with its kind, mode and, where it is a file, its sum.
files() {
	(cd "$root" && find . -xdev \( -path ./proc -o -path ./sys -o -path ./dev -o -path ./tmp -o -path ./run -o -path ./srv -o -path ./home \
		-o -path ./var/log -o -path ./var/cache -o -path ./var/lib/dpkg -o -path ./var/lib/apt \) -prune -o -printf '%p %y %m\n' | sort
	find usr etc opt root -xdev -type f -exec sha256sum {} + | sort -k 2)
}

# rows ROOT PROGRAM: the rows of `make check`, answered by the program in that root.
rows() {
	printf '#!/bin/sh\nexec chroot "%s" "%s" "$@"\n' "$1" "$2" >"$work/program"
	chmod 755 "$work/program"
	sh examples/check.sh "$work/program"
}

# stored_trace ROOT PROGRAM: the stored run of the reader of traces, by the program in that root, with the files that its words name.
stored_trace() {
	folder=crates/yds_trace_cli
	cp -R $folder/data/. "$1" || return 1
	xargs -d '\n' -a $folder/args chroot "$1" "$2" <$folder/stdin >"$work/answer" && cmp "$work/answer" $folder/stdout && echo "$(wc -l <"$work/answer") lines as stored"
}

# base SUITE: the root of the suite, made once.
base() {
	base=${ROOTS:-$work/roots}/$1
	if [ ! -f "$base.done" ]; then
		rm -rf "$base"
		mkdir -p "$base"
		debootstrap --variant=minbase --include=python3,man-db "$1" "$base" "$MIRROR" >"$work/log" 2>&1 || { fail "$1: debootstrap"; tail -n 3 "$work/log"; return 1; }
		: >"$base.done"
	fi
	# shellcheck disable=SC2086
	with pip $PIP && with full $PIP $MANUAL
}

# with NAME PACKAGE ..: the suite's root with these packages, made once.
with() {
	root=$base.$1
	[ ! -f "$root.done" ] || return 0
	rm -rf "$root"
	cp -a "$base" "$root"
	shift
	inside sh -c 'apt-get update && apt-get install -y --no-install-recommends "$@"' sh "$@" >"$work/log" 2>&1 || { fail "$suite: $*"; tail -n 3 "$work/log"; return 1; }
	: >"$root.done"
}

# leave: the root that was tried goes. It is unmounted first, where it is a layer over another one.
leave() { while umount "$work/root" 2>/dev/null; do :; done; rm -rf "$work/root" "$work/layer"; }

# fresh FROM: a root of its own, as FROM is, which knows of no mirror; with the packages and this folder's tests in /srv. Where the
# kernel can, it is a layer over FROM, which stays as it is; elsewhere a copy.
fresh() {
	leave
	root=$work/root
	mkdir -p "$root" "$work/layer/above" "$work/layer/work"
	mount -t overlay overlay -o "lowerdir=$1,upperdir=$work/layer/above,workdir=$work/layer/work" "$root" 2>/dev/null || cp -a "$1/." "$root"
	rm -rf "$root"/var/lib/apt/lists/*
	mkdir -p "$root/srv/tests" "$root/home/reader"
	cp build/dist/*_"$version"_*.deb "$root/srv"
	cp build/dist/yds-"$version"-*.whl build/dist/yds_cli-"$version"-*.tar.gz build/dist/SHA256SUMS "$root/srv" 2>/dev/null
	cp debian/tests/first-example debian/tests/text-tools debian/tests/library packaging/typed.py "$root/srv/tests"
	chmod 755 "$root/srv/tests"/*
	places /usr
	chown -R 65534:65534 "$root/home/reader"
}

# places PREFIX: where the reader has the commands, what they share, and the pages.
places() { bin=$1/bin shared=$1/share/yds_cli pages=${2:-$1/share/doc/yds-doc}; }

# as_readme_says: the line of README.md by which the packages are installed, typed where they are.
as_readme_says() {
	line=$(sed -n 's/^    # \(apt install .*\)/\1/p' README.md | head -n 1)
	[ -n "$line" ] || { echo "README.md has no line by which packages are installed"; return 1; }
	echo "# $line"
	alone sh -c "cd /srv && $line -y </dev/null" && echo "$line"
}
library_too() { alone sh -c "cd /srv && apt install -y ./libyds1_${version}_amd64.deb ./libyds-dev_${version}_amd64.deb </dev/null"; }

# type_pages LOG [hour]: the commands of README.md and of the manual as the package has them; those of the trace of an hour where the
# word says so and HOUR is set.
type_pages() {
	log=$1
	hour=$2
	set -- "$pages/README.md" "$pages/docs/manual.md"
	[ -n "$hour" ] && [ -n "${HOUR:-}" ] || set -- "--leave-out=Long traces and many machines" "$@"
	user python3 /srv/tests/typed.py --log "/home/reader/$log" --shared "$shared" "$@"
	got=$?
	cp "$root/home/reader/$log" "$logs/$suite-$log"
	return $got
}

# pages_of_man: each program and command has a page, without a fault, and a line of its own in the list of pages.
pages_of_man() {
	user sh -c '
		cd "$1" && names=$(ls -d yds_* yds-*) && cd || exit 1
		for name in $names; do
			man --warnings "$name" >/dev/null 2>page || { echo "no page of $name"; exit 1; }
			[ ! -s page ] || { echo "$name:"; cat page; exit 1; }
			lexgrog "$(man --where "$name")" | sed "s/^.*: .[^ ]* - //" >>lines
		done
		sort lines | uniq -d | grep . && { echo "one description of two commands"; exit 1; }
		[ "$1" != /usr/bin ] || whatis $names >/dev/null || exit 1
		wc -l <lines | sed "s/$/ pages, each with a description of its own/"' sh "$bin"
}

# a_page: what one sends on, by the three commands of the manual, as a file that fetches nothing.
a_page() {
	user sh -c '
		ln -sfn "$SHARED/recipes" recipes
		awk "/^### /{ its = /^### A page to send on/ } its && /^    \\$ / && ++n <= 3 { print substr(\$0, 7) }" "$1/docs/manual.md" >commands
		[ "$(wc -l <commands)" = 3 ] || { echo "the manual has no three commands of a page to send on"; exit 1; }
		cat commands
		. ./commands && grep -q "decode.2" late.html && ! grep -oE "(src|href)=\"https?:[^\"]*\"" late.html &&
			echo "$(wc -c <late.html) bytes, $(grep -o "<svg" late.html | wc -l) pictures"' sh "$pages"
}

try_walk() {
	fresh "$base"
	alone apt-get --version >/dev/null
	files >"$work/before"
	try "$suite: python3-yds alone" alone sh -c "cd /srv && apt install -y ./python3-yds_${version}_all.deb </dev/null"
	try "$suite: text tools without program and library" user /srv/tests/text-tools
	try "$suite: install as README says" as_readme_says
	try "$suite: rows" rows "$root" /usr/bin/yds_cli
	try "$suite: the first example" user /srv/tests/first-example
	try "$suite: manual pages" pages_of_man
	try "$suite: README's and the manual's commands, nothing else installed" type_pages bare.log
	try "$suite: a page to send on" a_page
	try "$suite: remove" alone apt-get purge -y yds-cli python3-yds yds-doc
	files >"$work/after"
	try "$suite: nothing is left" sh -c 'diff "$1" "$2" && echo "$(wc -l <"$1") lines of files and sums are as before"' sh "$work/before" "$work/after"
}

try_manual() {
	fresh "$base.full"
	try "$suite: install where the manual's packages are" as_readme_says
	try "$suite: README's and the manual's commands" type_pages full.log hour
	try "$suite: a page to send on, with pictures" a_page
	if [ ! -f build/dist/libyds1_"$version"_amd64.deb ]; then fail "$suite: there is no package of the library; make library builds it"; return; fi
	try "$suite: install the library" library_too
	try "$suite: the library" user /srv/tests/library
}

# as_manual_says WORD ..: the line of the manual by which pip installs the wheel, with these words for the environment.
as_manual_says() {
	line=$(sed -n 's/^    # \(python3 -m venv .*\)/\1/p' docs/manual.md | head -n 1)
	[ -n "$line" ] || { echo "the manual has no line by which the wheel is installed"; return 1; }
	line=$(echo "$line" | sed "s/-m venv/& $*/")
	echo "# $line"
	user sh -c "cp /srv/*.whl . && $line" && echo "$line"
}
# no_wheel: pip takes away all that it has brought.
no_wheel() {
	user sh -c 'yds/bin/pip uninstall --yes yds && cd yds && ! find . -type f | grep yds && echo "no file is left"'
}

# try_wheel WITH WORD ..: where the suite's root has these packages.
try_wheel() {
	fresh "$base.$1"
	name="the wheel alone"
	[ "$1" = pip ] || name="the wheel beside the manual's packages"
	places /home/reader/yds
	log=wheel-$1.log
	shift
	try "$suite: $name: install as the manual says" as_manual_says "$@"
	try "$suite: $name: rows" rows "$root" "$bin/yds_cli"
	try "$suite: $name: the first example" user /srv/tests/first-example
	try "$suite: $name: manual pages" pages_of_man
	try "$suite: $name: README's and the manual's commands" type_pages "$log"
	try "$suite: $name: a page to send on" a_page
	try "$suite: $name: remove" no_wheel
}

# unpacked: the archive of the program, by the line of README.md.
unpacked() {
	line=$(sed -n 's/^    # \(tar .*\)/\1/p' README.md | head -n 1)
	[ -n "$line" ] || { echo "README.md has no line by which the archive is unpacked"; return 1; }
	echo "# $line"
	user sh -c "cp /srv/*.tar.gz . && $line" && echo "$line"
}

# summed: the line of the manual by which sums are compared, for the archive and each program in it.
summed() {
	line=$(sed -n 's/^`\(sha256sum --check [^`]*\)`.*/\1/p' docs/manual.md | head -n 1)
	[ -n "$line" ] || { echo "the manual has no line by which sums are compared"; return 1; }
	echo "# $line"
	user sh -c "cp /srv/SHA256SUMS . && $line >compared && cat compared" || return 1
	for each in $programs; do grep -qx "yds_cli-$version-linux-x86_64/bin/$each: OK" "$root/home/reader/compared" || { echo "no sum of $each"; return 1; }; done
	echo "$(wc -l <"$root/home/reader/compared") files have their sums"
}

try_archive() {
	fresh "$base"
	places "/home/reader/yds_cli-$version-linux-x86_64" "/home/reader/yds_cli-$version-linux-x86_64"
	try "$suite: the archive: unpack as README says" unpacked
	try "$suite: the archive: sums" summed
	try "$suite: the archive: rows" rows "$root" "$bin/yds_cli"
	try "$suite: the archive: the first example" user /srv/tests/first-example
	try "$suite: the archive: manual pages" pages_of_man
	try "$suite: the archive: README's and the manual's commands" type_pages archive.log
	try "$suite: the archive: a page to send on" a_page
}

# older: the packages of the release before, made of its commit as it made them, in /srv. They have the program and the library that
# were built here, for those of then would have to be proved.
older() {
	git cat-file -e "$BEFORE^{commit}" 2>/dev/null || { echo "there is no commit $BEFORE here; the packages of $OLD are made in a clone with all commits"; return 1; }
	rm -rf "$work/old"
	git clone -q . "$work/old" && git -C "$work/old" checkout -q "$BEFORE" && mkdir "$work/old/build" || return 1
	cp build/yds_cli build/yds_cli.o build/yds_cli-dynamic build/libyds.so build/libyds.a "$work/old/build" && touch "$work/old"/build/* || return 1
	(cd "$work/old" && sh packaging/deb.sh >/dev/null) && cp "$work/old/build/dist"/*_"$OLD"_*.deb "$root/srv" || return 1
	(cd "$root/srv" && ls ./*_"$OLD"_*.deb)
}
# old_words: what is installed knows the words of the release before.
old_words() {
	user sh -c 'yds-points domain=cpu0 "$SHARED/recipes/samples/energy-model.txt" && printf "job a 0 4 8\n" | yds_cli report | tail -n 1'
}
# new_words: what is installed refuses them, and tells the new ones.
new_words() {
	user sh -c '! yds-points domain=cpu0 "$SHARED/recipes/samples/energy-model.txt" >told 2>&1 && grep -e "--domain" told'
}

# upgraded: each file of the release before is gone, or is one of the new packages'; and these are whole.
upgraded() {
	if alone dpkg -s libyds 2>/dev/null | grep -q '^Status: install ok installed'; then echo "libyds is still there"; return 1; fi
	alone dpkg -L yds-cli python3-yds libyds1 libyds-dev yds-doc >"$work/list" && alone dpkg --verify yds-cli python3-yds libyds1 libyds-dev yds-doc >"$work/altered" || return 1
	if [ -s "$work/altered" ]; then cat "$work/altered"; return 1; fi
	for package in "$work/old/build/dist"/*_"$OLD"_*.deb; do dpkg-deb -c "$package"; done | awk '$1 !~ /^d/ { print substr($6, 2) }' >"$work/before-files"
	while read -r file; do
		[ ! -e "$root$file" ] || grep -qx "$file" "$work/list" || echo "of $OLD is left: $file"
	done <"$work/before-files" >"$work/left"
	if [ -s "$work/left" ]; then cat "$work/left"; return 1; fi
	echo "$(wc -l <"$work/before-files") files of $OLD are gone, or are those of $version"
}

try_upgrade() {
	fresh "$base"
	files >"$work/before"
	try "$suite: the packages of $OLD" older || return
	try "$suite: install $OLD" alone sh -c "cd /srv && apt install -y ./*_${OLD}_*.deb </dev/null"
	try "$suite: words of $OLD" old_words
	rm -f "$root"/srv/*_"$OLD"_*.deb
	try "$suite: upgrade" alone sh -c 'cd /srv && apt install -y ./*.deb </dev/null'
	try "$suite: nothing of $OLD is left" upgraded
	try "$suite: an old word, after the upgrade" new_words
	try "$suite: the first example, after the upgrade" user /srv/tests/first-example
	try "$suite: Python's module, after the upgrade" user python3 -c 'import yds
print(yds.__version__, [str(level.speed) for level in yds.Document(jobs=[("a", 0, 4, 8)]).plan().levels])'
	try "$suite: remove, after the upgrade" alone apt-get purge -y yds-cli python3-yds libyds1 libyds-dev yds-doc
	files >"$work/after"
	try "$suite: nothing is left, after the upgrade" sh -c 'diff "$1" "$2" && echo "$(wc -l <"$1") lines of files and sums are as before"' sh "$work/before" "$work/after"
}

# same_bytes: builds the packages a second time, in a copy of the repository in another folder.
same_bytes() {
	git clone -q . "$work/copy" && mkdir "$work/copy/build" && for file in build/*.o build/*-dynamic build/libyds.*; do
		[ ! -f "$file" ] || cp "$file" "$work/copy/build"
	done || return 1
	(cd "$work/copy" && for name in $programs; do sh packaging/link.sh "$name" || exit 1; done && touch build/* && make -s deb && make -s dist) >/dev/null || return 1
	cat "$work/copy/build/dist/SHA256SUMS"
	diff build/dist/SHA256SUMS "$work/copy/build/dist/SHA256SUMS" && echo "$(wc -l <build/dist/SHA256SUMS) files are the same bytes"
}

# from_archive: the sources of the release, which have no commits, make the same packages.
from_archive() {
	tar -xzf build/dist/yds_cli-"$version".tar.gz -C "$work" || return 1
	folder=$work/yds_cli-$version
	mkdir "$folder/build" && for name in $programs; do cp "build/$name" "build/$name-dynamic" "$folder/build" || return 1; done
	[ ! -f build/libyds.so ] || cp -p build/libyds.* "$folder/build"
	touch "$folder"/build/*
	(cd "$folder" && make -s deb) || return 1
	for package in "$folder"/build/dist/*.deb; do cmp "$package" "build/dist/${package##*/}" || return 1; done
	echo "the same packages"
}

# without_debhelper: dpkg-deb alone makes packages of the same files.
without_debhelper() {
	mkdir "$work/by-debhelper" && cp build/dist/*.deb "$work/by-debhelper" && BY=dpkg-deb sh packaging/deb.sh || return 1
	for package in build/dist/*.deb; do
		contents "$package" >"$work/one" && contents "$work/by-debhelper/${package##*/}" | diff "$work/one" - || return 1
	done
	cp "$work/by-debhelper"/*.deb build/dist
	echo "the same files"
}
contents() { dpkg-deb -c "$1" | awk '{ print $1, $6, $8 }' | sort; }

# lint: no fault and no warning but those that an override answers.
lint() {
	lintian --allow-root --fail-on error,warning build/dist/*.deb && echo "no error and no warning"
}

try_packages() {
	rm -rf build/dist
	try "make deb" make -s deb
	try "make dist" make -s dist
	try "two builds in two folders" same_bytes
	if [ -f build/dist/yds_cli-"$version".tar.gz ]; then try "the sources' archive" from_archive; fi
	if command -v dh >/dev/null; then try "packages by dpkg-deb alone" without_debhelper; else fail "debhelper isn't here; on Debian: apt-get install debhelper dh-python"; fi
	if command -v lintian >/dev/null; then try "lintian" lint; else fail "lintian isn't here; on Debian: apt-get install lintian"; fi
}

try_empty() {
	if ! are_static; then fail "a program isn't static"; return; fi
	mkdir "$work/empty"
	cp build/yds_cli build/yds_trace "$work/empty"
	try "the static program in an empty root: rows" rows "$work/empty" /yds_cli
	try "the static reader of traces in an empty root" stored_trace "$work/empty" /yds_trace
}

# asked PART: whether this part is tried, since all are, or ONLY names it.
asked() { case " ${ONLY:-$1} " in *" $1 "*) ;; *) return 1 ;; esac; }

suite=
if asked packages; then try_packages; fi
for suite in ${*:-bookworm trixie}; do
	base "$suite" || continue
	if asked walk; then try_walk; fi
	if asked manual; then try_manual; fi
	if asked wheel; then try_wheel pip; try_wheel full --system-site-packages; fi
	if asked archive; then try_archive; fi
	if asked upgrade; then try_upgrade; fi
done
suite=
if asked empty; then try_empty; fi
echo "The logs are in $logs."
[ -z "${ONLY:-}" ] || echo "All else than this was left out: $ONLY"
echo "$passed passed, $failed failed"
[ $failed = 0 ]
