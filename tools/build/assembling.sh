# Sourced by tools/build/program, bindings/c/build and the tests, where `dist` is the folder of the texts: what the C compiler
# makes of the texts.

# The processor's name, as the folders of the texts have it. PROCESSOR may name another, for a cross compiler.
read -r system processor < <(uname -sm)
processor=${PROCESSOR:-$processor}
. "${BASH_SOURCE[0]%/*}/level.sh"

# Prints the C compiler: CC, or the first that there is.
compiler() {
    local name names=(cc gcc clang)
    [ -z "${CC:-}" ] || names=("$CC")
    for name in "${names[@]}"; do
        if command -v -- "${name%% *}" >/dev/null; then
            echo "$name"
            return
        fi
    done
    echo "there is no C compiler (${names[*]}): install one, or set CC to its name" >&2
    return 1
}

# The options for the portable C: quick_options COMPILER FOLDER. Intel's processors from Skylake to Comet Lake are slow at a jump
# that lies across 32 bytes, and most of this C's jumps are its comparisons of bounds. clang and GNU's assembler can place them.
quick_options() {
    local option
    for option in -mbranches-within-32B-boundaries -Wa,-mbranches-within-32B-boundaries; do
        if $1 -Werror "$option" -c -x c /dev/null -o "$2/probe" 2>/dev/null; then
            echo "-O2 $option"
            return
        fi
    done
    echo -O2
}

# Whether there is a text of this name for this computer, and HAYRO_JBIG2_PORTABLE=1 doesn't pass it over. With a cross
# compiler, which PROCESSOR stands for, the processor here says nothing.
has_text() {
    local compile
    [ "${HAYRO_JBIG2_PORTABLE:-}" != 1 ] && [ "$system" = Linux ] && [ -e "$dist/$processor/$1.s" ] || return 1
    ! compile=$(compiler 2>/dev/null) || is_for_processor "$compile" || return 1
    [ "$processor" != x86_64 ] || [ -n "${PROCESSOR:-}" ] || has_level
}

# Whether a compiler makes programs for the processor, with pointers of 64 bits. A system of 32 bits may have a kernel of 64.
is_for_processor() {
    [[ $(echo "__${processor}__ __LP64__" | $1 -E -P -x c - 2>/dev/null) = *"1 1" ]]
}

# Whether the programs' text can be linked with the compiler's C library: words.c refuses another one than glibc.
has_library() {
    local said
    said=$($1 -E "$dist/../tools/build/linked/words.c" 2>&1 >/dev/null) || [[ $said != *'needs the GNU C library'* ]]
}

# Whether the text of a program fits, with the compiler that there is.
takes_text() {
    local compile
    has_text "$1" || return 1
    ! compile=$(compiler 2>/dev/null) || has_library "$compile"
}

# The files that a program is made of: its text, or the portable C, of which there is jbig2-decode alone.
of_text() {
    echo "dist/$processor/$1.s" tools/build/linked/words.c tools/build/linked/heap.c tools/build/linked/processor.h
}
of_portable_c() {
    (cd -- "$dist/.." && echo bindings/portable/program/jbig2_decode.c bindings/portable/*.[ch] bindings/c/handles.c \
        bindings/c/texts.c bindings/c/hayro_jbig2.h)
}

# The sums of these files, and of this script, which has the compiler's options.
sums_of_parts() {
    (cd -- "$dist/.." && sha256sum -- "$@" tools/build/assembling.sh)
}

# The computer's system and processor, and its C library where it is glibc. Another computer may have the same folder.
computer() {
    echo "$system $processor $(getconf GNU_LIBC_VERSION 2>/dev/null)"
}

# Whether a program is there that was made of these files by this compiler, for this computer: is_made NAME FOLDER FILE .. Its
# note says so, beside it. Where there is no compiler, any has made it.
is_made() {
    local made=$2/$1 compile
    [ -x "$made" ] && [ -s "$made.of" ] || return 1
    compile=$(compiler 2>/dev/null) || compile=$(head -n 1 -- "$made.of")
    [ "$(echo "$compile" && computer && sums_of_parts "${@:3}" && sha256sum <"$made")" = "$(cat -- "$made.of")" ]
}

is_assembled() {
    is_made "$1" "$2" $(of_text "$1")
}

is_compiled() {
    is_made "$1" "$2" $(of_portable_c)
}

# Whether the program that fits is there.
is_built() {
    if takes_text "$1"; then
        is_assembled "$@"
    else
        [ "$1" = jbig2-decode ] && is_compiled "$@"
    fi
}

# Makes a program of files: make_program NAME FOLDER FILE ..
make_program() {
    local name=$1 folder=$2 compile parts room status=0 compiled
    shift 2
    mapfile -t compiled < <(printf '%s\n' "$@" | grep -v '\.h$')
    compile=$(compiler) && parts=$(sums_of_parts "$@") || return 1
    mkdir -p -- "$folder" && room=$(mktemp -d -- "$folder/room.XXXXXX") || return 1
    (
        # Also where a signal ends it. A caller may have another `room`.
        trap "rm -rf -- ${room@Q}" EXIT
        # A run that begins meanwhile has either program whole. The note has the sum of the program that it is of.
        options=-O2
        [[ " ${compiled[*]}" != *" bindings/portable/"* ]] || options=$(quick_options "$compile" "$room")
        (cd -- "$dist/.." && $compile $options -Ibindings/c -Ibindings/portable "${compiled[@]}" -o "$room/made") &&
            [ "$(sums_of_parts "$@")" = "$parts" ] &&
            { echo "$compile" && computer && echo "$parts" && sha256sum <"$room/made"; } >"$room/of" &&
            mv -- "$room/made" "$folder/$name" && mv -- "$room/of" "$folder/$name.of"
    ) || status=$?
    [ "$status" -eq 0 ] || echo "$compile did not make $name of" "${compiled[@]}" >&2
    return "$status"
}

# Makes a program of its text, where it isn't there: assemble_program NAME [FOLDER]. The folder is dist/out, or another.
assemble_program() {
    local folder=${2:-$dist/out}
    is_assembled "$1" "$folder" || make_program "$1" "$folder" $(of_text "$1")
}

# Why no text is taken: why_portable NAME.
why_portable() {
    local compile
    if [ "${HAYRO_JBIG2_PORTABLE:-}" = 1 ]; then
        echo "HAYRO_JBIG2_PORTABLE is 1"
    elif has_text "$1"; then
        echo "its text in dist/ needs the GNU C library (glibc) 2.33 or later"
    elif [ "$system" != Linux ] || [ ! -e "$dist/$processor/$1.s" ]; then
        echo "dist/ has no text of it for this computer ($system $processor)"
    elif compile=$(compiler 2>/dev/null) && ! is_for_processor "$compile"; then
        echo "$compile makes programs for another processor than $processor, or of 32 bits"
    else
        echo "this processor is below the level x86-64-v2"
    fi
}

# Makes a program of the portable C, where it isn't there.
compile_program() {
    local folder=${2:-$dist/out}
    is_compiled "$1" "$folder" && return
    echo "$1: $(why_portable "$1"), so the C of bindings/portable/ is compiled, which takes a minute" >&2
    make_program "$1" "$folder" $(of_portable_c)
}

# Makes the one that fits: build_program NAME [FOLDER].
build_program() {
    compiler >/dev/null || return 1
    if takes_text "$1"; then
        assemble_program "$@"
    elif [ "$1" = jbig2-decode ]; then
        compile_program "$@"
    else
        echo "$1: $(why_portable "$1")" >&2
        return 1
    fi
}
