# crates.sh: read by test.sh. The stored picture of the crates is the one that crates.txt gives.
test_crates() {
	picture=$here/../docs/pictures/crates.svg list=$here/../crates.txt
	"$PYTHON" "$here/../docs/pictures/crates.py" "$list" >"$work/crates.svg"
	if cmp -s "$picture" "$work/crates.svg"; then pass; else fail "crates: the stored picture isn't that of crates.txt; make map draws it"; fi
	# Each drawn line is in the list, and each crate's name; what the list says is drawn as one line or as several in a row.
	sed -n 's/.*<title>\([a-z_]*\) stands on \([a-z_]*\)<.*/line \1 \2/p; s/.*>\([a-z_]*\)<\/text>.*/box \1/p' "$work/crates.svg" >"$work/drawn"
	$AWK '
		function leads(from, to,   k) {
			if (from == to) return 1
			if ((from, to) in known) return known[from, to]
			for (k = 1; k <= lines[from]; k++) if (leads(line[from, k], to)) return known[from, to] = 1
			return known[from, to] = 0
		}
		FNR == 1 { file++ }
		file == 1 && /^[a-z]/ { crate = $1; sub(/:$/, "", crate); own[crate] = 1 }
		file == 2 && $1 == "line" { line[$2, ++lines[$2]] = $3; count++ }
		file == 2 && $1 == "box" { box[$2] = 1 }
		file == 3 && /^[a-z]/ {
			crate = $1
			sub(/:$/, "", crate)
			if (!(crate in box)) print crate " is not drawn"
			for (k = 2; k <= NF; k++) {
				used = $k
				if (!(used in own)) continue
				if (!leads(crate, used)) print crate " stands on " used ", and no line says so"
				listed[crate, used] = 1
			}
		}
		END {
			for (crate in lines) for (k = 1; k <= lines[crate]; k++)
				if (!((crate, line[crate, k]) in listed)) print crate " does not stand on " line[crate, k]
			if (!count) print "no line is drawn"
		}' "$list" "$work/drawn" "$list" >"$work/wrong"
	if [ -s "$work/wrong" ]; then fail "crates: $(head -n 1 "$work/wrong")"; else pass; fi
	printf 'yds_cli: yds_a\nyds_a: yds_b\nyds_b: yds_cli\n' >"$work/circle"
	refuses "crates: a circle" 1 "" "crates.py: yds_cli stands on itself" "$PYTHON" "$here/../docs/pictures/crates.py" "$work/circle"
}
