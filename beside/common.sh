# Sourced by the scripts of this folder.

root=$(cd "$(dirname "$0")/.." && pwd)
out=$root/target/beside

fail() {
    echo "$(basename "$0"): $*" >&2
    exit 2
}

# The reference's folder: the one given, or ../shared/docs/src where that is there.
rust_folder() {
    folder=${1:-$root/../shared/docs/src}
    [ -f "$folder/src/cdef.rs" ] || fail "no src/cdef.rs in the reference's folder; give it as the last argument (beside/README.md)"
    (cd "$folder" && pwd)
}

# Compiles one crate of src/: crate NAME ROOT-FILE ARGUMENTS...
crate() {
    name=$1 file=$2
    shift 2
    (cd "$root" && rustc --edition 2024 -C opt-level=3 --crate-name "$name" \
        -L "$out" "$@" --out-dir "$out" "beside/src/$file") || fail "$name was not compiled"
}

# What compiling needs.
prepare() {
    command -v rustc >/dev/null || fail "rustc is not on PATH"
    mkdir -p "$out"
}

# Compiles the reference in the folder given and what the programs share. The reference's
# functions under cfg(test) are wanted, its tests are not.
build_reference() {
    prepare
    MAROONTREE=$1 crate reference reference/lib.rs --crate-type rlib --cfg test
    crate support support/lib.rs --crate-type rlib --extern reference
}

# Compiles our C entries as a crate, with the library in it.
build_ours() {
    build_library
    crate ours ours/lib.rs --crate-type rlib --extern support -L "native=$root/target/staticlib"
}

# Compiles a program that uses them: build_program NAME ARGUMENTS...
build_program() {
    program=$1
    shift
    crate "$program" "$program/main.rs" --extern reference --extern support "$@"
}

# Compiles what the programs that time calls share.
build_timed() {
    crate timed timed/lib.rs --crate-type rlib --extern reference --extern support
}

# Prints the machine that a measurement runs on, and its load.
machine() {
    echo "machine: $(sed -n 's/^model name[^:]*: //p' /proc/cpuinfo | head -n 1), $(nproc) cores, load $(cut -d ' ' -f 1 /proc/loadavg) at the start"
}

# Our static library, built where it is absent or older than the code.
build_library() {
    library=$root/target/staticlib/libcdef_c.a
    if [ -f "$library" ] && [ -z "$(find "$root/crates" -name '*.rt' -newer "$library" 2>/dev/null)" ]; then
        return
    fi
    command -v rt >/dev/null || fail "target/staticlib/libcdef_c.a is absent or old, and rt, which builds it, is not on PATH"
    "$root/.ci/static-library" || fail ".ci/static-library failed"
}

# The program refusals, which needs none of the reference's files.
build_refusals() {
    prepare
    build_library
    crate refusals refusals/main.rs -L "native=$root/target/staticlib"
}

# Runs it under valgrind, with lists from malloc of exactly the length given to the
# call; a load that is only partly past an end is an error too.
refusals_under_valgrind() {
    valgrind --error-exitcode=1 --partial-loads-ok=no --log-file="$out/valgrind.log" \
        "$out/refusals" exact "$@"
}

# The programs that compare, from sources that have been checked.
build_all() {
    "$root/beside/check-sources" "$1"
    build_reference "$1"
    build_ours
    build_program self_test
    build_program vectors
    build_program made
    build_program compare --extern ours
}

# Compares a stored file with a fresh one line by line, prints the first lines that differ, and
# sets count to how many do: lines_apart NAME STORED FRESH
lines_apart() {
    diff "$2" "$3" >"$out/diff" || true
    grep '^[<>]' "$out/diff" | head -n 10 | sed "s/^</DIFFERENT $1, stored:/; s/^>/expected:/"
    stored=$(grep -c '^<' "$out/diff" || true)
    count=$(grep -c '^>' "$out/diff" || true)
    [ "$count" -ge "$stored" ] || count=$stored
}

# Compares a stored sample with a fresh one: check_sample DATA-FOLDER
check_sample() {
    fresh=$out/fresh
    rm -rf "$fresh"
    mkdir -p "$fresh"
    "$out/vectors" "$fresh" >/dev/null || fail "vectors failed"
    different=0
    for file in "$fresh"/*.txt; do
        name=$(basename "$file")
        [ -f "$1/$name" ] || fail "the stored sample has no $name"
        lines_apart "$name" "$1/$name" "$file"
        echo "stored $name: $(wc -l <"$file") cases, $count different"
        different=$((different + count))
    done
    [ "$different" = 0 ]
}

# The headings of the parts of what the program test_agreement printed.
as_lists='pairs as two lists'
as_slice='pairs as one slice'
not_stated='tried with no damping stated, applied with damping 3'

# Compares the part under a heading with the reference's answers:
# check_agreement STORED-FILE HEADING [--own-map | --unstated]
check_agreement() {
    awk -v heading="$2" '/^(pairs as|tried with|lists of) / { on = $0 == heading; next } on' "$1" >"$out/part"
    shift 2
    "$out/made" "$@" >"$out/made.txt" || fail "made failed"
    lines_apart agreement "$out/part" "$out/made.txt"
    echo "agreement${1:+ $1}: $(wc -l <"$out/made.txt") lines, $count different"
    [ "$count" = 0 ]
}
