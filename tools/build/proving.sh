# Sourced after crates.sh by what needs the toolchain: bindings/c/prove, tools/build/prove-elsewhere, tools/build/renew,
# tools/build/check, tools/test --sources.

if ! command -v rt >/dev/null; then
    echo "$0 needs the toolchain, whose command rt is not on the PATH" >&2
    exit 1
fi
kit=$(dirname -- "$(rt doc)")
kit_name=$(rt version)
toolchain=$kit/toolchain

# Where a library is built: one of the workspace, or else of the toolchain.
rlib_of() {
    if [ -d "$root/crates/$1" ]; then
        echo "$root/crates/$1/out/rlib/$1.rlib"
    else
        echo "$kit/rlibs/$1.rlib"
    fi
}

# By which toolchain a library was made, of what, and what was made.
note_of_library() {
    echo "$kit_name" && sums_of_crates "$1" && sha256sum <"$(rlib_of "$1")/format"
}

# Whether the crates' libraries are as this script noted them: by this toolchain, of these sources, and not made anew since.
are_noted() {
    local name
    for name in "${crates[@]}"; do
        [ -e "$(rlib_of "$name")/format" ] || return 1
        [ "$(note_of_library "$name")" = "$(cat -- "$(rlib_of "$name")/../of" 2>/dev/null)" ] || return 1
    done
}

# Whether the gate left them, after the last change of their sources, and after the toolchain came here. Its libraries have no stamp by which rt lib could
# tell, and their files are as old as the run that proved them first; their folders are of the last run.
are_of_gate() {
    local name rlib
    for name in "${crates[@]}"; do
        rlib=$(rlib_of "$name")
        [ -e "$rlib/format" ] && [ ! -e "$rlib/../stamp" ] && is_newer "$rlib" "$name" || return 1
        [ -z "$(find -H "$kit/bin/rattle" -cnewer "$rlib")" ] || return 1
    done
}

# Proves these crates and those that they stand on, where that wasn't done for these sources.
prove_libraries() {
    local name sums
    list_crates "$@"
    are_noted && return
    sums=$(sums_of_crates "${crates[@]}") || return 1
    if ! are_of_gate; then
        for name in "$@"; do
            [ -z "${named[$name]+here}" ] || (cd -- "$root/crates/$name" && rt lib) || return 1
        done
    fi
    if [ "$sums" != "$(sums_of_crates "${crates[@]}")" ]; then
        echo "sources were changed while they were proved" >&2
        return 1
    fi
    for name in "${crates[@]}"; do
        note_of_library "$name" >"$(rlib_of "$name")/../of" || return 1
    done
}

# Makes `toolchain` a new folder of links, whose clang is a script of tools/build/ that stands for it.
lay_out_toolchain() {
    toolchain=$1
    mkdir -p -- "$toolchain/bin"
    ln -s -- "$kit/toolchain/lib" "$toolchain/lib"
    ln -s -- "$kit/toolchain/bin/"* "$toolchain/bin"
    ln -s -- "$kit/toolchain/bin/clang" "$toolchain/clang"
    rm -- "$toolchain/bin/clang"
    cp -- "$root/tools/build/$2" "$toolchain/bin/clang"
}

# Checks and builds the crate in the current folder, which names these libraries: build_crate NAME ROOT OUT [OPTION ..] --
# LIBRARY .. Of options there are --crate-type, --target, --links and --incremental.
build_crate() {
    local name words=(--crate-name "$1" --jobs 2 --backend llvm --toolchain "$toolchain" -o "$3" "$2")
    shift 3
    while [ "$1" != -- ]; do
        words+=("$1")
        shift
    done
    shift
    words+=(--extern "std=$kit/rlibs/std.rlib" -L "dependency=$kit/rlibs")
    for name in "$@"; do
        words+=(--extern "$name=$(rlib_of "$name")")
    done
    list_crates "$@"
    for name in "${crates[@]}"; do
        words+=(-L "dependency=$(dirname -- "$(rlib_of "$name")")")
    done
    words+=(--antt-project "$kit/rattle/logic/antt-project.json" --logic-built "$kit/logic_built" --empty-contracts)
    rattle build "${words[@]}"
}

# Builds a program for a processor: build_object CRATE PROCESSOR OBJECT [OPTION ..].
build_object() {
    local crate=$1 processor=$2 object=$3
    shift 3
    cd -- "$root/crates/$crate" || return
    build_crate "$crate" src/main.rt "$object" --target "$processor-unknown-linux-gnu" --links "$crate=" "$@" -- \
        ${named[$crate]}
}

# Builds the crate for C, which bindings/c/lay-out laid out in the current folder: build_library PROCESSOR OBJECT [OPTION ..].
# With
# --links it says whether the crate declares functions that are written in C.
build_library() {
    local processor=$1 object=$2
    shift 2
    build_crate jbig2_c src/lib.rt "$object.a" --crate-type staticlib --target "$processor-unknown-linux-gnu" \
        --links jbig2_c=c "$@" -- ${named[jbig2_c]} || return
    "$kit/toolchain/bin/llvm-ar" p "$object.a" jbig2_c.o >"$object"
}

# Links a program as the gate does: link_program OBJECT PROGRAM.
link_program() {
    local output
    output=$("$kit/bin/rattle-link" --target x86_64-unknown-linux-gnu --toolchain "$kit/toolchain" -o "$2" "$1" \
        "$kit/c/libos_c.a" "$kit/c/liblibc_c.a" 2>&1) && return
    echo "$output" >&2
    return 1
}
