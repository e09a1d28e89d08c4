# Completion for bash of yds_cli, and of the commands around it (yds-jobs, yds-plot, ..): words, options, and files.
_yds_cli() {
	local word=${COMP_WORDS[COMP_CWORD]} words=
	case $COMP_CWORD:${COMP_WORDS[1]} in
	1:*) words="plan round avr oa check audit report trial expand admit curve compare" ;;
	2:avr | 2:oa | 2:compare) words=--grid ;;
	2:audit) words=--points ;;
	2:report) words=--json ;;
	3:avr | 3:oa | 3:compare) words="1 100 1000 1000000" ;;
	esac
	COMPREPLY=($(compgen -W "$words" -- "$word"))
}
# A command tells its words itself. A word that ends with = waits for its value, which may be a file.
_yds_command() {
	local word=${COMP_WORDS[COMP_CWORD]}
	COMPREPLY=()
	[[ $word == = || ${COMP_WORDS[COMP_CWORD - 1]} == = ]] && return
	COMPREPLY=($(compgen -W "--help $("$1" --options 2>/dev/null)" -- "$word"))
	[[ ${COMPREPLY[0]} != *= ]] || compopt -o nospace
}
complete -o default -F _yds_cli yds_cli
# The commands are those on the PATH that lead to recipes/bin, or to the start of the Python package's commands.
_yds_complete_commands() {
	local command
	for command in $(compgen -c yds- | sort -u); do
		case $(readlink -f "$(type -P "$command")") in
		*/recipes/bin/"$command" | */yds/commands/_start.py) complete -o default -F _yds_command "$command" ;;
		esac
	done
}
_yds_complete_commands
unset -f _yds_complete_commands
