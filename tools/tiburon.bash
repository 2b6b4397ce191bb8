# Bash completion of tiburon's options, modes, operations and files. `make install` puts it where
# bash-completion looks.
_tiburon() {
    local current=${COMP_WORDS[COMP_CWORD]} before=${COMP_WORDS[COMP_CWORD - 1]} operation='' word place skip=0 only_words=0
    local operations='weigh inside normal kbest intersect union difference trim through count runs check invert domain forward backward compose image parse compare determinize prune demo'
    COMPREPLY=()
    # The words before this one: which operation they name, and whether `--` has ended the options.
    for ((place = 1; place < COMP_CWORD; place++)); do
        word=${COMP_WORDS[place]}
        if ((skip)); then
            skip=0
        elif ((only_words)) || [[ $word != -* ]]; then
            operation=${operation:-$word}
        else
            case $word in
                --) only_words=1 ;;
                -m | -k | -w | --limit | --beam) skip=1 ;;
            esac
        fi
    done
    if ((skip)); then
        [[ $before == -m ]] && mapfile -t COMPREPLY < <(compgen -W 'minplus bottleneck widest boolean' -- "$current")
    elif ((!only_words)) && [[ $current == -* ]]; then
        mapfile -t COMPREPLY < <(compgen -W '-m -k -w --limit --beam --' -- "$current")
    elif [[ -z $operation ]]; then
        mapfile -t COMPREPLY < <(compgen -W "$operations" -- "$current")
    else
        mapfile -t COMPREPLY < <(compgen -f -- "$current")
        compopt -o filenames 2>/dev/null
    fi
}
complete -F _tiburon tiburon
