# Completion for bash of yds_trace: its words, the values that a word may have, and files: behind a redirection or `--`, and where a
# word begins as none of these.
_yds_trace() {
	local word=${COMP_WORDS[COMP_CWORD]} before=${COMP_WORDS[COMP_CWORD - 1]} words=
	# A word and its value may be one, with an equals sign between them, which bash takes for a word of its own.
	[[ $word != = ]] || word=
	[[ $before != = ]] || before=${COMP_WORDS[COMP_CWORD - 2]}
	case $before in
	--cpu) words="0 1 2 3 all" ;;
	--us) words="1 10 100 1000" ;;
	--khz) words="1000 10000 100000" ;;
	--begin) words=run ;;
	--lost) words=cut ;;
	--moved) words=parts ;;
	--others) words=spans ;;
	--tasks | --start | --fixed | --from | --to) ;;
	--help | --version) ;;
	--) ;;
	*) words="--tasks --cpu --us --khz --start --fixed --from --to --begin --lost --moved --others --parts --strict --help --version" ;;
	esac
	COMPREPLY=($(compgen -W "$words" -- "$word"))
}
complete -o default -F _yds_trace yds_trace
