# Sourced after common.sh by the scripts that call the library of another commit.

# The hash of a commit that is named in any of git's ways.
hash_of() {
    command -v git >/dev/null || fail "git is not on PATH"
    git -C "$root" rev-parse --verify --quiet "$1^{commit}" || fail "$1 is not a commit"
}

# Sets kept to the folder of a commit's static library: target/against/HASH, of this commit or of
# another one with the same crates, built by the present toolchain. Builds it where there is
# none: library_of HASH
library_of() {
    command -v rt >/dev/null || fail "rt, which builds the library of $1, is not on PATH"
    crates=$(git -C "$root" rev-parse --verify --quiet "$1:crates") || fail "$1 has no crates"
    list=$(git -C "$root" rev-parse --verify --quiet "$1:crates.txt") || fail "$1 has no crates.txt"
    from="$(rt version), $crates, $list"
    for kept in "$root"/target/against/*; do
        [ ! -f "$kept/from" ] || [ "$(cat "$kept/from")" != "$from" ] || return 0
    done
    kept=$root/target/against/$1
    echo "proving and building the library of $1 in target/against, which takes minutes" >&2
    rm -f "$kept/from"
    mkdir -p "$kept/tree"
    git -C "$root" archive -o "$kept/tree.tar" "$1" || fail "no files of $1"
    tar -x -f "$kept/tree.tar" -C "$kept/tree" || fail "no files of $1"
    (cd "$kept/tree" && RT_JOBS=${RT_JOBS:-1} nice .ci/static-library) >"$kept/log" 2>&1 ||
        fail ".ci/static-library failed at $1 (target/against/$1/log)"
    mv "$kept/tree/target/staticlib/libcdef_c.a" "$kept/libcdef_c.a"
    rm -rf "$kept/tree" "$kept/tree.tar"
    echo "$from" >"$kept/from"
}

# The declarations of a commit's C entries.
declarations_of() {
    git -C "$root" ls-tree -r --name-only "$1" -- beside/src/ours | grep '/entries\.rs$' |
        while read -r file; do
            git -C "$root" show "$1:$file"
        done
}

# Compiles what times the library of a commit, the present one and the reference, but for the
# two shared objects: build_against HASH REFERENCE-FOLDER
build_against() {
    "$root/beside/check-sources" "$2"
    build_reference "$2"
    build_timed
    build_program adapter
    build_program against --extern timed
    find "$root/beside/src/ours" -name entries.rs -exec cat {} + >"$out/ours.declared"
    declarations_of "$1" >"$out/before.declared"
    # Before minutes go into building it.
    adapt before >/dev/null
    build_library
    library_of "$1"
}

# Writes the entries of a side: adapt before|ours [ENTRY-TO-PLANT-IN]
adapt() {
    "$out/adapter" "$out/ours.declared" "$out/$1.declared" "$out/$1.rs" ${2:+--plant "$2"} ||
        fail "the library $1 cannot be called"
}

# A library as a shared object that is called as the present one is, by its own declarations.
# Prints where these differ from the present: build_side before|ours [ENTRY-TO-PLANT-IN]
build_side() {
    case $1 in
    before) native=$kept ;;
    *) native=$root/target/staticlib ;;
    esac
    adapt "$@" >"$out/$1.differs"
    ENTRIES=$out/$1.rs crate "side_$1" adapter/lib.rs --crate-type cdylib --extern support \
        -L "native=$native" -C link-arg=-Wl,-Bsymbolic
    sed "s/^/$1 takes /" "$out/$1.differs"
}

# Runs the program: run_against OPTIONS...
run_against() {
    "$out/against" "$out/libside_before.so" "$out/libside_ours.so" "$@"
}
