# Sourced by assembling.sh, and by tools/build/program at each start.

# Whether a processor of x86-64 has the level x86-64-v2: has_level [FILE]. The texts don't use all of it, but glibc's loader asks
# for all. The file is /proc/cpuinfo or one like it; where it lists no features, the program itself refuses (processor.h).
has_level() {
    local lines flags name file=${1:-/proc/cpuinfo}
    [ -r "$file" ] || return 0
    # The lines of a processor, read at once: after each line of its own the kernel would list it anew.
    mapfile -t -n 100 lines <"$file"
    for flags in "${lines[@]}"; do
        [[ $flags = flags* ]] || continue
        flags=" ${flags#*:} "
        for name in pni ssse3 sse4_1 sse4_2 popcnt cx16 lahf_lm; do
            [[ $flags = *" $name "* ]] || return 1
        done
        return 0
    done
}
