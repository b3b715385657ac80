# Completion of hayro-jbig2 for bash.
_hayro_jbig2() {
    local word=${COMP_WORDS[COMP_CWORD]} before=${COMP_WORDS[COMP_CWORD - 1]}
    local options="--output --format --force --pages --strict --salvage --globals --password --work --memory --jobs
        --json --quiet --help --version --coding --template --typical --no-typical --embedded --dpi"
    COMPREPLY=()
    # Of --format=png bash makes three words.
    [ "$word" != = ] || word=
    [ "$before" != = ] || before=${COMP_WORDS[COMP_CWORD - 2]}
    case $before in
    -f | --format)
        mapfile -t COMPREPLY < <(compgen -W "png pbm tiff jb2 jb2e pdf" -- "$word")
        return
        ;;
    --work)
        mapfile -t COMPREPLY < <(compgen -W none -- "$word")
        return
        ;;
    --coding)
        mapfile -t COMPREPLY < <(compgen -W "arithmetic mmr" -- "$word")
        return
        ;;
    --template)
        mapfile -t COMPREPLY < <(compgen -W "0 1 2 3" -- "$word")
        return
        ;;
    -p | --pages | --password | --memory | -j | --jobs | --dpi) return ;;
    esac
    if [[ $word == -* ]]; then
        mapfile -t COMPREPLY < <(compgen -W "$options" -- "$word")
        return
    fi
    compopt -o filenames 2>/dev/null
    mapfile -t COMPREPLY < <(compgen -f -- "$word")
    if [ "$COMP_CWORD" -eq 1 ]; then
        local command
        for command in info write; do
            [[ $command != "$word"* ]] || COMPREPLY+=("$command")
        done
    fi
}
complete -F _hayro_jbig2 hayro-jbig2
