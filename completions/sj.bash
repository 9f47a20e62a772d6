# Completion of sj(1) for bash.

_sj_options() {
    local every='--json --quiet --explain --help -h'
    case $1 in
        check | ls | program | help) echo "$every" ;;
        get | unpack) echo "-o --all --type --force $every" ;;
        put) echo "--name --type --replace --allow-empty-name --force --timeout $every" ;;
        mv) echo "--type --replace --allow-empty-name --force --timeout $every" ;;
        rm) echo "--type --force --timeout $every" ;;
        salvage) echo "-o --in-place --dry-run --force --timeout $every" ;;
        pack) echo "--like -o --name --allow-empty-name --round --clip-loops $every" ;;
    esac
}

_sj() {
    local commands='check ls get put mv rm salvage unpack pack program help'
    local word=${COMP_WORDS[COMP_CWORD]} before=${COMP_WORDS[COMP_CWORD - 1]} command=${COMP_WORDS[1]}
    local choice=()
    if ((COMP_CWORD == 1)); then
        choice=(-W "$commands --help -h --version")
    elif [[ $before == --name || $before == --type || $before == --timeout ]]; then
        COMPREPLY=()
        return
    elif [[ $word == -* && $before != -o && $before != --like && " ${COMP_WORDS[*]:0:COMP_CWORD} " != *' -- '* ]]; then
        choice=(-W "$(_sj_options "$command")")
    elif [[ $command == help ]]; then
        choice=(-W "$commands refusals")
    else
        choice=(-f)
    fi
    mapfile -t COMPREPLY < <(compgen "${choice[@]}" -- "$word")
}

complete -o filenames -F _sj sj
