# What those scripts of this folder share that prove and build a program of their own. They read it with '.', and then call
# lay_out, put further files beside the program's, and call build.
# That is done in a folder apart from the repository, so that rt ci has no part in it: in ROOM, which may be kept with what was proved
# there, or else in one that goes at the end. RT is the command 'rt'.
here=$(cd "$(dirname "$0")" && pwd)
rt=${RT:-rt}
room=${ROOM:-}
if [ -z "$room" ]; then
    room=$(mktemp -d)
    trap 'rm -rf "$room"' EXIT
fi

# Those of the names that are crates of the repository, and all that they stand on, some more than once.
with_those_below() {
    local name
    for name; do
        if grep -qE "^$name( [^:]*)?:" "$here/../crates.txt"; then
            # shellcheck disable=SC2046
            with_those_below $(sed -nE "s/^$name( [^:]*)?://p" "$here/../crates.txt")
            echo "$name"
        fi
    done
}

# lay_out PROGRAM LIBRARY..: puts into the room a program of this folder, which uses these libraries, and the repository's crates that it
# stands on. The program's folder is then $program.
lay_out() {
    program=$room/crates/$1
    mkdir -p "$program/src"
    cp "$here/$1.rt.txt" "$program/src/main.rt"
    cp "$here/../HANDLES" "$room/HANDLES"
    echo "$1: ${*:2}" >"$room/crates.txt"
    local crate part
    for crate in $(with_those_below "${@:2}" | sort -u); do
        mkdir -p "$room/crates/$crate"
        for part in src specs proofs; do
            rm -rf "$room/crates/$crate/$part"
            if [ -d "$here/../crates/$crate/$part" ]; then
                cp -r "$here/../crates/$crate/$part" "$room/crates/$crate/$part"
            fi
        done
        grep -E "^$crate( [^:]*)?:" "$here/../crates.txt" >>"$room/crates.txt"
    done
}

# Proves and builds the program, and runs it once with these words.
build() {
    (cd "$program" && "$rt" run -- "$@" >"$room/build.log" 2>&1) || {
        tail -40 "$room/build.log"
        exit 1
    }
}

# Builds the programs of plain/, which are then in $room/target/release.
build_plain() {
    (cd "$here/plain" && cargo build --quiet --release --offline --target-dir "$room/target")
}
