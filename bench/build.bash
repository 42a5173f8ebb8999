# For the scripts that time crates/bench: proves and builds it where that wasn't done yet.
build_once() {
    [ -x "$program" ] && return
    command -v rt >/dev/null || { echo "$0: rt isn't on the PATH" >&2; exit 127; }
    echo "$0: proving and building the program, once; this can take minutes" >&2
    # rt keeps what it built only where it also runs it.
    (cd "$root/crates/bench" && rt run >/dev/null)
    [ -x "$program" ] || { echo "$0: the build failed" >&2; exit 126; }
}
