# The archive's code for the machine it runs on, to be timed, compared and fuzzed there: on Arm it is the same module by
# another code generator. It is not for callers: they take the archive. host/machine.sh is sourced first.

# kit_beside FOLDER KEPT: the Rattle kit by links, but for its clang: a script that leaves the module and its own words
# in KEPT.
kit_beside() {
    local to=$1 kept=$2 from name
    from=$(kit)
    for name in on "$machine" toolchain bin clang; do
        mkdir -p "$to"
        find "$from" -mindepth 1 -maxdepth 1 ! -name "$name" -exec ln -sfn -t "$to" {} +
        from=$from/$name to=$to/$name
    done
    clang=$from
    cat >"$to" <<END
#!/bin/sh
cp module.bc '$kept/' && printf '%s\n' "\$@" >'$kept/words' && exec '$clang' "\$@"
END
    chmod +x "$to"
}

# The archive's module as text, with another target in place of its own.
module_for() {
    local plain=(--no-default-config -S -emit-llvm -o -)
    "$clang" "--target=$1" "${plain[@]}" -x c /dev/null | grep '^target '
    "$clang" "--target=$target" "${plain[@]}" -Xclang -disable-llvm-passes -x ir module.bc |
        sed -e '/^target /d' -e 's/ "\(target-cpu\|target-features\|tune-cpu\)"="[^"]*"//g'
}

# retarget FOLDER WORDS..: libncw.a in FOLDER, from the module and by the words that the archive for x86-64 is compiled
# by; only the target is another, and WORDS come after them.
retarget() (
    local folder=$1 arm=$machine-unknown-linux-gnu clang words
    rm -rf "$folder"
    mkdir -p "$folder/kept"
    kit_beside "$folder/kit" "$folder/kept"
    RATTLE_HOME=$folder/kit archive
    tell "compiling the archive's module for $machine"
    cd "$folder/kept"
    module_for "$arm" >module.ll
    mapfile -t words < <(sed -e "s/^--target=.*/--target=$arm/" -e '/^-march=/d' -e 's/^module\.bc$/module.ll/' words)
    "$clang" "${words[@]}" "${@:2}"
    "${clang%clang}llvm-ar" rcs "$folder/libncw.a" module.o
)
