# install.sh: read by test.sh. `make install` copies everything, with the version in the manual page, and `make uninstall` leaves nothing.
test_install() {
	has make || return
	version=$(cat "$here/../VERSION")
	in_root() { make -s -C "$here/.." -o build/yds_cli -o build/yds_trace -o build/libyds.so "$1" INSTALLED="$YDS" DESTDIR="$work/stage" PREFIX=/usr >"$work/log" 2>&1; }
	in_root install
	if grep -q "^.Os yds_cli $version\$" "$work/stage/usr/share/man/man1/yds_cli.1" 2>/dev/null; then pass; else fail "install: the manual page has no version $version"; head -n 3 "$work/log"; fi
	if grep -q "^## $version\$" "$here/../CHANGELOG.md"; then pass; else fail "install: CHANGELOG.md has nothing of version $version"; fi
	answers "install: debian/changelog has this version" 0 "yds-cli ($version) unstable; urgency=medium" head -n 1 "$here/../debian/changelog"
	answers "install: the installed program" 0 accepted from /dev/null sh -c '"$1" trial 0 9 | tail -n 1' sh "$work/stage/usr/bin/yds_cli"
	for file in share/bash-completion/completions/yds_cli share/bash-completion/completions/yds_trace share/yds_cli/recipes/samples/folder/a.txt share/yds_cli/examples/three-jobs.txt; do
		[ -f "$work/stage/usr/$file" ] || { fail "install: $file isn't there"; return; }
	done
	for link in "$work"/stage/usr/bin/yds-*; do
		[ -x "$link" ] || { fail "install: $link leads nowhere"; return; }
	done
	answers "install: an installed command of the package" 0 "# work times 2, rounded up in 0 of 3 lines: the plan's peak is 2 times what it was" \
		"$work/stage/usr/bin/yds-scale" --work 2 ../../examples/three-jobs.txt
	if [ "$(head -n 1 "$work/stage/usr/share/man/man1/yds-scale.1" | cut -c1-14)" = '.TH YDS-SCALE ' ]; then pass; else fail "install: no page of yds-scale"; fi
	in_root uninstall
	left=$(find "$work/stage" -type f -o -type l | head -n 3)
	if [ -z "$left" ] && [ ! -d "$work/stage/usr/share/yds_cli" ]; then pass; else fail "uninstall: left $left"; fi
	# A PREFIX with a blank; the pages have no link that leads nowhere.
	blank() { make -s -C "$here/.." -o build/yds_cli -o build/yds_trace -o build/libyds.so "$1" INSTALLED="$YDS" PREFIX="$work/my folder" >"$work/log" 2>&1; }
	blank install
	answers "install: into a folder with a blank" 0 accepted from /dev/null sh -c '"$1" trial 0 9 | tail -n 1' sh "$work/my folder/bin/yds_cli"
	answers "install: a command there" 0 "# drawn with seed 0" "$work/my folder/bin/yds-draw" --seed 0 --jobs 2
	if "$PYTHON" "$here/../docs/check.py" "$work/my folder/share/doc/yds-doc" >"$work/log"; then pass; else fail "install: $(head -n 1 "$work/log")"; fi
	blank uninstall
	if [ -z "$(find "$work/my folder" ! -type d)" ]; then pass; else fail "uninstall: of a folder with a blank"; fi
	printf '#!/bin/sh\ncat\n' >"$work/my folder/rt" && chmod 755 "$work/my folder/rt" && echo "job a 0 1 1" >"$work/my folder/a job.txt"
	answers "make try: its own document" 0 "# three jobs, each window inside the one before" env PATH="$work/my folder:$PATH" make -s -C "$here/.." try
	answers "make try: a document elsewhere" 0 "job a 0 1 1" env PATH="$work/my folder:$PATH" make -s -C "$here/.." try DOCUMENT="$work/my folder/a job.txt"
	answers "make help" 0 "Builds, tries, tests and installs yds_cli. \`make help\` writes these lines." make -s -C "$here/.." help
}
