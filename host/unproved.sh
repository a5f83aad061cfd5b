# The archive's code without its proof, so that faults can be planted in it: `rt lib` makes no archive of code
# that is wrong. It is not for callers. host/machine.sh and host/retarget.sh are sourced first.

# The host boundary's functions by name and arguments, as Rattle has them: b are bytes, m bytes that are lent for
# writing, h, w and l numbers of 16, 32 and 64 bits.
boundary=(open:b decode:bm read_frames:bwwm peaks:bm peak:bwwm peaks_all:bm peaks_check:bb encode:bhhwwm reencode:bhhwbm decode_refusal:bl reencode_refusal:bhhwbl)

# The crates that a crate stands on, and itself.
under() {
    local crate
    echo "$1"
    for crate in $(sed -n "s/^$1: *//p" "$root/crates.txt"); do under "$crate"; done
}

# A program that calls each once: only what a program reaches is compiled.
calls() {
    local one letters
    echo 'fn main() { let mut m: [u8; 4] = [0; 4];'
    for one in "${boundary[@]}"; do
        letters=$(sed 's/./&,/g; s/[hwl]/1/g; s/b/\&[]/g; s/m/\&mut m/g' <<<"${one#*:}")
        echo "ncw::ncw_${one%%:*}($letters);"
    done
    echo '}'
}

# Each function in C: a slice is lent to the compiled code as the place of its pointer and length.
in_c() {
    local one name letter k takes gives
    echo 'typedef struct { void *at; unsigned long length; } b, m;'
    echo 'typedef unsigned short h; typedef unsigned w; typedef unsigned long l;'
    for one in "${boundary[@]}"; do
        name=${one%%:*} takes='' gives='' k=0
        for letter in $(fold -w 1 <<<"${one#*:}"); do
            k=$((k + 1))
            case $letter in
            [bm]) takes+=",void *p$k,unsigned long n$k" gives+=",&($letter){p$k,n$k}" ;;
            *) takes+=",$letter a$k" gives+=",a$k" ;;
            esac
        done
        echo "l unproved_$name(); l ncw_$name(${takes:1}) { return unproved_$name(${gives:1}); }"
    done
}

# unproved CRATES FOLDER: libncw.a in FOLDER, of the crates in the folder CRATES. What a proof would rule out, as an
# index out of range, ends the program.
unproved() (
    local crates=$1 folder=$2 tools clang crate words=()
    rm -rf "$folder"
    mkdir -p "$folder"/{kept,calls}
    calls >"$folder/calls/main.rt"
    kit_beside "$folder/kit" "$folder/kept"
    tools=$folder/kit/on/$machine
    words=(--toolchain "$tools/toolchain" "$folder/calls/main.rt" --crate-name calls)
    words+=(--lib "std=$(kit)/libs/std/src/lib.rt")
    for crate in $(under ncw | sort -u); do words+=(--lib "$crate=$crates/$crate/src/lib.rt"); done
    "$tools/bin/rattle-cases" "${words[@]}" >"$folder/log" 2>&1 || stop "The edited code can't be compiled: $folder/log"
    cd "$folder/kept"
    words=("--target=$target" --no-default-config -O2 -fPIC -c)
    "$clang" "--target=$target" --no-default-config -S -emit-llvm -o - -Xclang -disable-llvm-passes -x ir module.bc |
        sed -E -e 's/^define internal (.*@)"ncw::ncw_/define \1"ncw::ncw_/' -e 's/@"ncw::ncw_([a-z_]+)"/@unproved_\1/g' \
            -e 's/@main\(/@unproved_main(/' >module.ll
    "$clang" "${words[@]}" -x ir module.ll -o module.o
    in_c | "$clang" "${words[@]}" -w -x c - -o calls.o
    "${clang%clang}llvm-ar" rcs "$folder/libncw.a" module.o calls.o
)
