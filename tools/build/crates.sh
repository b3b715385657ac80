# Sourced by the scripts of tools/build/ and bindings/: which crates there are, and the sums of their sources.

root=$(cd -- "${BASH_SOURCE[0]%/*}/../.." && pwd -P)
dist=$root/dist

# The programs of which dist/ has texts, and the processors for which it has the library for C. rt ci proves programs for the
# first one.
programs=(jbig2_decode jbig2_bench)
processors=(x86_64 aarch64)

# Prints the programs that have a text for a processor. jbig2-bench runs the worked rows, and with `lists` the coder's round
# trip: it has one for the first alone.
programs_for() {
    if [ "$1" = "${processors[0]}" ]; then
        echo "${programs[@]}"
    else
        echo jbig2_decode
    fi
}

# The libraries that each crate names, those of the toolchain too.
declare -A named=()
read_names() {
    local line name
    while IFS= read -r line; do
        name=${line%%:*}
        case $name in '' | '#'*) continue ;; esac
        named[${name%% *}]=${line#*:}
    done <"$1"
}
read_names "$root/crates.txt"
read_names "$root/bindings/c/crate.txt"

# Sets `crates` to these crates and all that they stand on, each after what it stands on.
list_crates() {
    local -A seen=()
    crates=()
    list_below "$@"
}

list_below() {
    local name
    for name in "$@"; do
        [ -n "${named[$name]+here}" ] && [ -z "${seen[$name]:-}" ] || continue
        seen[$name]=yes
        list_below ${named[$name]}
        crates+=("$name")
    done
}

# The folders and files that these crates are made of.
sources_of() {
    local name part
    echo "$root/crates.txt"
    for name in "$@"; do
        for part in src specs proofs; do
            if [ -d "$root/crates/$name/$part" ]; then
                echo "$root/crates/$name/$part"
            fi
        done
    done
}

# Whether no source of these crates has a later time than a file: is_newer FILE CRATE ..
is_newer() {
    local file=$1 sources
    shift
    [ -e "$file" ] || return 1
    mapfile -t sources < <(sources_of "$@")
    [ -z "$(find "${sources[@]}" -newer "$file" -print -quit)" ]
}

# Whether none came here after a file either, with whatever time of its own.
is_untouched() {
    local file=$1 sources
    is_newer "$@" || return 1
    shift
    mapfile -t sources < <(sources_of "$@")
    [ -z "$(find "${sources[@]}" -cnewer "$file" -print -quit)" ]
}

# The sum of the files below the current folder whose names end so: their names and their bytes.
sum_of_files() {
    find . -type f \( -name "*$1" -o -name "*${2:-$1}" \) -not -path './out/*' -print0 | LC_ALL=C sort -z |
        xargs -0 sha256sum | sha256sum | cut -d ' ' -f 1
}

# The sum of a crate's sources and of its line of crates.txt.
sum_of_crate() {
    local files
    files=$(cd -- "$root/crates/$1" && sum_of_files .rt .antt) || return 1
    echo "$files${named[$1]}" | sha256sum | cut -d ' ' -f 1
}

# A line for each of these crates: the sum of its sources, and its name.
sums_of_crates() {
    local name sum
    for name in "$@"; do
        sum=$(sum_of_crate "$name") || return 1
        echo "$sum  $name"
    done
}

# Such lines for all that the texts are made of.
print_sources() {
    list_crates "${programs[@]}" ${named[jbig2_c]}
    sums_of_crates "${crates[@]}" && sum_of_c
}

# And for what the programs for other processors than the first are made of.
print_sources_elsewhere() {
    list_crates $(for processor in "${processors[@]:1}"; do programs_for "$processor"; done)
    sums_of_crates "${crates[@]}"
}

# And for what the library for C is made of.
print_sources_of_c() {
    list_crates ${named[jbig2_c]}
    sums_of_crates "${crates[@]}" && sum_of_c
}

# Whether a note has these sums, and the name of the toolchain here if there is one: is_note_of SUMS NOTE.
is_note_of() {
    [ -e "$2" ] && [ "$1" = "$(grep -v '^toolchain ' -- "$2")" ] || return 1
    ! command -v rt >/dev/null || grep -qxF -- "toolchain $(rt version)" "$2"
}

# Whether a folder has what was proved of these sources: is_proved_of SOURCES FOLDER. Its note says so.
is_proved_of() {
    is_note_of "$1" "$2/SOURCES"
}

# Its sources, how they are laid out, and the libraries that it names.
sum_of_c() {
    local files
    files=$(cd -- "$root/bindings/c/source" && sum_of_files .txt && cat -- ../lay-out ../from-kit) || return 1
    echo "$(echo "$files${named[jbig2_c]}" | sha256sum | cut -d ' ' -f 1)  bindings/c/source"
}

# The names of those lines of standard input that SOURCES has not: of what was changed since the texts were made.
changed_names() {
    { grep -vxF -f "$dist/SOURCES" || [ "$?" -eq 1 ]; } | cut -d ' ' -f 3
}
