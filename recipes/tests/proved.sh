# proved.sh: read by test.sh. Each crate has a row in docs/proved.md or is told there, and each name that a row gives for its contract stands
# in that crate's sources. Each crate has a row in docs/architecture.md, and each file of a crate that a page names is there.
test_proved() {
	proved=$here/../docs/proved.md list=$here/../crates.txt
	wrong=
	$AWK -F '|' '/^\| `[a-z_]+` \|/ {
		crate = $2
		gsub(/[` ]/, "", crate)
		n = split($4, part, "`")
		for (i = 2; i <= n; i += 2) { name = part[i]; sub(/.*(::|[.])/, "", name); print crate, name }
	}' "$proved" >"$work/contracts"
	while read -r crate name; do
		grep -rqw -- "$name" "$here/../crates/$crate/src" "$here/../crates/$crate/specs" 2>/dev/null || wrong="$wrong $crate: $name;"
	done <"$work/contracts"
	for crate in $(sed -n 's/^\([a-z_]*\).*/\1/p' "$list"); do
		grep -q "\`$crate\`" "$proved" || wrong="$wrong $crate isn't in docs/proved.md;"
		grep -q "^| \`$crate\` |" "$here/../docs/architecture.md" || wrong="$wrong $crate isn't in docs/architecture.md;"
	done
	# The files of the crates that a page names are there.
	for file in $(grep -ohE '(crates/)?[a-z_]+/(src|specs|proofs)(/[A-Za-z_]+)*\.(antt|rt)' "$here"/../docs/*.md "$here/../README.md" | sort -u); do
		[ -f "$here/../crates/${file#crates/}" ] || wrong="$wrong there is no $file;"
	done
	if [ -s "$work/contracts" ] && [ -z "$wrong" ]; then pass; else fail "proved:$wrong"; fi
}
