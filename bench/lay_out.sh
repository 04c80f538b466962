# For the benchmarks, which source this file: a measuring program is a crate, and crates stand only in crates/, so it
# is laid out in a folder of its own beside copies of the crates that it stands on. The folder is removed at the end.
#
# lay_out PROGRAM SOURCE "LIBRARIES" CRATE..   PROGRAM's main file is SOURCE, it stands on LIBRARIES, and the CRATEs are
# all that it and they need. Sets `work`, the folder, and `program`, the built program, whose own lines go to work/log.
lay_out() {
    name=$1 source=$2 libraries=$3
    shift 3
    work=$(mktemp -d)
    trap 'rm -rf "$work"' EXIT
    program=$work/crates/$name/out/$name
    mkdir -p "$work/crates/$name/src"
    cp "$source" "$work/crates/$name/src/main.rt"
    for crate in "$@"; do
        cp -r "$top/crates/$crate" "$work/crates/"
        grep "^$crate:" "$top/crates.txt" >> "$work/crates.txt"
    done
    echo "$name: $libraries" >> "$work/crates.txt"
    (cd "$work/crates/$name" && rt run > "$work/log" 2>&1) || { tail -60 "$work/log"; exit 1; }
}
