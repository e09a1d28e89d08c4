# The commands of docs/library.md. They need the library, which `make library` builds (or BUILT names its folder), and a C compiler.

test_library() {
	build=${BUILT:-$(cd "$here/../build" && pwd)}
	if [ ! -f "$build/libyds.so" ] || ! has cc || ! has c++ || ! has python3; then left_out=$((left_out + 1)); return; fi
	mkdir "$work/lib"
	ln -s "$build/libyds.so" "$work/lib/libyds.so.1"
	ln -s "$build/libyds.so" "$work/lib/libyds.so"
	CPATH=$here/../library LIBRARY_PATH=$work/lib LD_LIBRARY_PATH=$work/lib PYTHONPATH=$here/../python PYTHONDONTWRITEBYTECODE=1
	export CPATH LIBRARY_PATH LD_LIBRARY_PATH PYTHONPATH PYTHONDONTWRITEBYTECODE
	commands_of ../../docs/library.md
	unset CPATH LIBRARY_PATH LD_LIBRARY_PATH PYTHONPATH PYTHONDONTWRITEBYTECODE
}
