#!/bin/sh
# deb.sh: makes the Debian packages of what is built, in build/dist (`make deb`).
#
#   yds-cli        the programs, their manual pages, completion and examples
#   python3-yds    the commands yds-.. and the module yds
#   libyds1        the shared library, and libyds-dev what a compiler needs beside it, where `make library` has built them
#   yds-doc        the manual and the other pages for readers
#
# Where debhelper and dh-python are here, dpkg-buildpackage makes them in a copy, as debian/ says. Elsewhere this script makes
# the same files with the same fields by dpkg-deb alone. Two builds of one commit in one way are the same bytes.
#
#   BY=dpkg-deb    takes the second way in any case

. "$(dirname "$0")/common.sh"
needs dpkg-deb dpkg md5sum coreutils
are_built
set_epoch
stage=build/stage
rm -rf $stage
mkdir -p $out $stage
top=$PWD
packages=$(sed -n 's/^\([a-z0-9-]*\) .*/\1/p' packaging/packages)
if [ ! -f build/libyds.so ]; then
	echo "build/libyds.so isn't there, so libyds1 and libyds-dev are left out; make library builds it"
	packages=$(echo "$packages" | grep -v '^libyds')
	DH_OPTIONS="-Nlibyds1 -Nlibyds-dev"
	export DH_OPTIONS
fi

# by_debhelper: in a copy of what the packages are made of, so that nothing is written here but into build.
by_debhelper() {
	mkdir $stage/source $stage/source/build
	cp -R debian packaging docs python recipes examples completions library Makefile VERSION ./*.md LICENSE-* $stage/source &&
		cp -p build/yds_* build/libyds.* $stage/source/build 2>/dev/null
	rm -rf $stage/source/python/yds/__pycache__
	(cd $stage/source && dpkg-buildpackage -b -us -uc) >build/deb.log 2>&1 || { tail -n 20 build/deb.log; die "dpkg-buildpackage failed; build/deb.log has all of it"; }
	mv $stage/*.deb $out
}

# field NAME PACKAGE: the field of the package in debian/control, or else that of the source, without what debhelper would fill in.
field() {
	awk -v RS= -v name="$1" -v package="$2" '
		function value(text,    lines, n, i, found) {
			n = split(text, lines, "\n")
			for (i = 1; i <= n; i++) {
				if (lines[i] ~ "^" name ":") { found = substr(lines[i], length(name) + 3); while (i < n && lines[i + 1] ~ /^ /) found = found "\n" lines[++i] }
			}
			return found
		}
		/^Source:/ { source = value($0) }
		$0 ~ "^Package: " package "\n" { own = value($0) }
		END { print own == "" ? source : own }' debian/control | sed "s/\${binary:Version}/$version/g; s/\${misc:Depends}//; s/\${python3:Depends}/python3 (>= 3.9)/
			s/\${shlibs:Depends}/$(libc_of "$2")/" | if [ "$1" = Description ]; then cat; else sed 's/, *,/,/g; s/^, *//; s/, *$//'; fi
}
# libc_of PACKAGE: the C library that what it has is linked with.
libc_of() {
	case $1 in
	yds-cli) are_static || echo "libc6 (>= 2.34)" ;;
	libyds1) echo "libc6 (>= 2.14)" ;;
	esac
}

# by_dpkg_deb PACKAGE: the package alone.
by_dpkg_deb() {
	name=$1 tree=$stage/$1
	DESTDIR=$top/$tree PREFIX=/usr LIBDIR=/usr/lib/x86_64-linux-gnu sh packaging/install.sh put "$(sed -n "s/^$name //p" packaging/packages)" || exit 1
	mkdir -p "$tree/DEBIAN" "$tree/usr/share/doc/$name"
	cp debian/copyright "$tree/usr/share/doc/$name"
	gzip -9n <debian/changelog >"$tree/usr/share/doc/$name/changelog.gz"
	[ ! -d "$tree/usr/share/man" ] || find "$tree/usr/share/man" -type f -exec gzip -9n {} +
	if [ -f "debian/$name.lintian-overrides" ]; then
		mkdir -p "$tree/usr/share/lintian/overrides" && cp "debian/$name.lintian-overrides" "$tree/usr/share/lintian/overrides/$name"
	fi
	case $name in
	python3-yds) compiled ;;
	libyds1)
		echo "activate-noawait ldconfig" >"$tree/DEBIAN/triggers"
		echo "libyds 1 libyds1 (>= $version)" >"$tree/DEBIAN/shlibs"
		cp debian/libyds1.symbols "$tree/DEBIAN/symbols"
		;;
	esac
	(cd "$tree" && find usr -type f | sort | xargs md5sum) >"$tree/DEBIAN/md5sums"
	architecture=$(field Architecture "$name")
	{
		echo "Package: $name"
		echo "Source: yds-cli"
		echo "Version: $version"
		echo "Installed-Size: $(find "$tree/usr" -type f -exec cat {} + | wc -c | awk '{ print int(($1 + 1023) / 1024) }')"
		for part in Architecture Maintainer Depends Recommends Suggests Breaks Replaces Section Priority Multi-Arch Description; do
			text=$(field $part "$name")
			[ -z "$text" ] || echo "$part: $text"
		done
	} | grep -v "^Source: $name\$" >"$tree/DEBIAN/control"
	same_times "$tree"
	dpkg-deb --root-owner-group -Zgzip -z9 --build "$tree" "$out/${name}_${version}_$architecture.deb" >/dev/null || die "dpkg-deb failed"
}

# compiled: Python's compiled files come with the package and go with it, as Debian's own packages have it.
compiled() {
	printf '#!/bin/sh\nset -e\nif command -v py3compile >/dev/null; then py3compile -p python3-yds; fi\n' >"$tree/DEBIAN/postinst"
	printf '#!/bin/sh\nset -e\nif command -v py3clean >/dev/null; then py3clean -p python3-yds; fi\n' >"$tree/DEBIAN/prerm"
	chmod 755 "$tree/DEBIAN/postinst" "$tree/DEBIAN/prerm"
}

rm -f $out/*_"$version"_*.deb
if [ "$BY" != dpkg-deb ] && command -v dh >/dev/null && command -v dh_python3 >/dev/null && command -v dpkg-buildpackage >/dev/null; then
	by_debhelper
else
	[ "$BY" = dpkg-deb ] || echo "debhelper isn't here, so the packages are made by dpkg-deb alone; on Debian: apt-get install debhelper dh-python"
	for name in $packages; do by_dpkg_deb "$name"; done
fi
rm -rf $stage
sums
