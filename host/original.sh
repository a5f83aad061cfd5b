# The Rust original, to build a tool upon. It is read, unchanged, from the folder in NCW_RUST_SRC that has its
# crates/ncw, or from ../shared/docs/src beside the repository; error.rs of host/definitions stands in for the file that
# was not given.

host=$(cd "$(dirname "${BASH_SOURCE[0]}")" && pwd -P)
root=$(dirname "$host")
rustc=rustc

tell() {
    printf '%s\n' "$*" >&2
}

stop() {
    tell "$@"
    exit 2
}

# The folder with the original's lib.rs.
original() {
    local given=${NCW_RUST_SRC:-$root/../shared/docs/src} folder
    for folder in "$given/crates/ncw/src" "$given/src" "$given"; do
        if [ -f "$folder/lib.rs" ]; then
            printf '%s\n' "$folder"
            return
        fi
    done
    stop "The Rust original is not there. Set NCW_RUST_SRC to the folder that has its crates/ncw."
}

# build_original WORK WORDS..: the original as it is, with an error.rs beside it, as a library in the folder WORK.
# WORDS go to rustc.
build_original() {
    local work=$1 source
    shift
    source=$(original)
    rm -rf "$work/original"
    mkdir -p "$work/original/src"
    cp "$source"/*.rs "$host/definitions/error.rs" "$work/original/src/"
    : >"$work/original/README.md"
    "$rustc" --edition 2021 "$@" --crate-name ncw --crate-type rlib --out-dir "$work" "$work/original/src/lib.rs"
}

# build PROGRAM WORK: a program over the original, both in the folder WORK.
build() {
    local program=$1 work=$2 words=(-C opt-level=1 -C debug-assertions=on)
    build_original "$work" "${words[@]}" || return
    "$rustc" --edition 2021 "${words[@]}" --extern "ncw=$work/libncw.rlib" --out-dir "$work" "$program"
}
