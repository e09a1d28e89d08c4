# commands.sh: read by test.sh. The commands, installed and removed, with their completion and manual page.

# Each file of recipes/bin is a command; the manual page and the manual name them all.
test_commands() {
	for file in "$here"/bin/*; do
		if "$file" --help >"$work/help" && [ -s "$work/help" ]; then pass; else fail "commands: $file is no command"; fi
	done
	ln -s "$here/bin/yds-misses" "$work/yds-misses"
	same "commands: by a link" 1 misses.txt from /dev/null "$work/yds-misses" late-twice.txt
	if want bash; then
		got=$(PATH=$here/bin:$PATH bash -c '. "$1"; compopt() { :; }; COMP_WORDS=(yds-energy ""); COMP_CWORD=1; _yds_command yds-energy; echo "${COMPREPLY[*]}"
			COMP_WORDS=(yds-plot g); _yds_command yds-plot; echo "${COMPREPLY[*]}"
			for command in "$2"/*; do complete -p "${command##*/}" >/dev/null || echo "no completion of $command"; done' bash "$here/../completions/yds_cli.bash" "$here/bin")
		if [ "$got" = "$(printf -- '--help --name= --at= --most-waste= --idle= --help --version\ngantt\n')" ]; then pass; else fail "commands: completion: $got"; fi
	fi
	test_installed_commands
}
# Into a folder, by PREFIX and DESTDIR, and out again: then no file is left.
test_installed_commands() {
	has make || { left_out=$((left_out + 1)); return; }
	touch "$work/program"
	make -s -C "$here/.." install BINARY="$work/program" -o build/yds_trace -o build/libyds.so DESTDIR="$work/stage" PREFIX=/usr/yds >"$work/log" 2>&1 || { fail "install: $(tail -n 1 "$work/log")"; return; }
	(cd "$here/bin" && ls) >"$work/wanted"
	(cd "$work/stage/usr/yds/bin" && ls yds-*) >"$work/got"
	same "install: the commands" 0 - cmp "$work/wanted" "$work/got"
	(cd "$work/stage/usr/yds/share/man/man1" && ls yds-* | sed 's/\.1$//') >"$work/got"
	same "install: their manual pages" 0 - cmp "$work/wanted" "$work/got"
	(cd "$work/stage/usr/yds/share/bash-completion/completions" && ls yds-*) >"$work/got"
	same "install: their completions" 0 - cmp "$work/wanted" "$work/got"
	mv "$work/stage/usr/yds" "$work/stage/usr/elsewhere"
	same "install: a command, also where the folder was moved" 1 misses.txt from /dev/null "$work/stage/usr/elsewhere/bin/yds-misses" late-twice.txt
	mv "$work/stage/usr/elsewhere" "$work/stage/usr/yds"
	make -s -C "$here/.." uninstall BINARY="$work/program" -o build/yds_trace -o build/libyds.so DESTDIR="$work/stage" PREFIX=/usr/yds >"$work/log" 2>&1
	find "$work/stage" ! -type d >"$work/left"
	find "$work/stage" -name 'yds*' ! -path "$work/stage/usr/yds" >>"$work/left"
	same "uninstall: nothing is left" 0 - cat "$work/left"
	for name in $(cat "$work/wanted"); do
		if grep -q "$name" "$here/../docs/yds_cli.1"; then pass; else fail "the manual page doesn't name $name"; fi
		if grep -q "$name" "$here/../docs/manual.md"; then pass; else fail "the manual doesn't name $name"; fi
	done
}
