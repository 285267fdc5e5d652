# What the scripts of bench measure, read by each of them: proved builds. BENCHES may name the program of crates/benches,
# GIOP the program giop, LIBRARY a folder that has the library for C (`./build library --prefix`), and LEMONRUDDER the
# relay; each that a script needs and none names is built.
#
# Where --short is one of its words a script measures builds that are not proved, a second or two for each row, and
# judges no figure: that tells whether it runs, and not what something costs.
#
# It sets `folder`, which is removed at the end, and `short`, which is --short or nothing.
folder=$(mktemp -d)
trap 'rm -rf "$folder"' EXIT
short=
for word in "$@"; do
    [ "$word" != --short ] || short=--short
done
top=$here/..
[ -z "$short" ] || echo "a short run, of builds that are not proved: no figure is judged"

# runs a command, and shows what it prints only where it fails
quietly() {
    "$@" >"$folder/log" || { cat "$folder/log" >&2; exit 1; }
}

needs_benches() {
    [ -z "$BENCHES" ] || return 0
    if [ -n "$short" ]; then
        quietly python3 "$top/scripts/unproved.py" benches
        BENCHES=$top/out/unproved/benches
    else
        (cd "$top/crates/benches" && quietly rt run -- all)
        BENCHES=$top/crates/benches/out/benches
    fi
}

needs_giop() {
    [ -z "$GIOP" ] || return 0
    if [ -n "$short" ]; then
        quietly python3 "$top/scripts/unproved.py" giop_tool
        GIOP=$top/out/unproved/giop_tool
    else
        (cd "$top/crates/giop_tool" && quietly rt run -- --version)
        GIOP=$top/crates/giop_tool/out/giop_tool
    fi
}

needs_library() {
    [ -z "$LIBRARY" ] || return 0
    if [ -n "$short" ]; then
        quietly python3 "$top/scripts/unproved.py" library
        LIBRARY=$top/out/unproved/library
    else
        LIBRARY=$folder/library
        quietly "$top/build" library --prefix "$LIBRARY"
    fi
    export LIBRARY
}

needs_relay() {
    [ -z "$LEMONRUDDER" ] || return 0
    if [ -n "$short" ]; then
        needs_library
        (cd "$top" && quietly python3 -m scripts.relay "$LIBRARY")
        LEMONRUDDER=$LIBRARY/relay/debug/lemonrudder
        [ -x "$LEMONRUDDER" ] || { cat "$folder/log" >&2; exit 1; }
    else
        quietly "$top/build" relay --prefix "$folder/relay"
        LEMONRUDDER=$folder/relay/bin/lemonrudder
    fi
    export LEMONRUDDER
}

# compiles a program in Rust beside which ours is measured, for the same processor and across all of it
compile_plain() {
    best="-C opt-level=3 -C target-cpu=x86-64-v2 -C lto=fat -C codegen-units=1 -C panic=abort"
    [ -z "$short" ] || best=
    rustc --edition 2021 $best -A dead_code "$here/$1.rs" -o "$folder/$1"
}
