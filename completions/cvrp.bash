# Completes the command line of cvrp in bash. Load it by `. completions/cvrp.bash`; `make install` puts it where bash looks.
_cvrp() {
    local word=${COMP_WORDS[COMP_CWORD]} before=${COMP_WORDS[COMP_CWORD - 1]}
    COMPREPLY=()
    # Behind a `=` the shell has cut the word: the option stands one word further back.
    if [ "$word" = = ]; then
        word=
    elif [ "$before" = = ]; then
        before=${COMP_WORDS[COMP_CWORD - 2]}
    fi
    case $before in
        --workers | --pieces | --budget | --seconds | --depot | --trucks)
            return
            ;;
        --start | '<')
            compopt -o filenames
            mapfile -t COMPREPLY < <(compgen -f -- "$word")
            return
            ;;
        --format)
            mapfile -t COMPREPLY < <(compgen -W 'report sol json svg' -- "$word")
            return
            ;;
    esac
    local options='--workers --pieces --budget --seconds --progress --depot --trucks --start --check --strict --format --explain --help --version'
    mapfile -t COMPREPLY < <(compgen -W "$options -h -V" -- "$word")
}
complete -F _cvrp cvrp
