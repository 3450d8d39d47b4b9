# Completions of rdfkeep for bash; `make install` puts them where bash-completion looks.

_rdfkeep() {
    local commands='run convert query update check' formats='nquads ntriples turtle'
    local word=${COMP_WORDS[COMP_CWORD]} before=${COMP_WORDS[COMP_CWORD - 1]} words=
    # bash takes `--format=turtle` for three words
    if [[ $word == '=' ]]; then
        word=
    elif [[ $before == '=' ]]; then
        before=${COMP_WORDS[COMP_CWORD - 2]}
    fi
    COMPREPLY=()
    if [[ $COMP_CWORD -eq 1 ]]; then
        words="$commands help"
        [[ $word != -* ]] || words='--help --version'
    elif [[ ${COMP_WORDS[1]} == help ]]; then
        words=$commands
    else
        case $before in
            --format) words="$formats state" ;;
            --from) words=$formats ;;
            --results) words='tsv csv json' ;;
            --to) words='nquads state' ;;
            --base | --depth) return ;;
            --data) compopt -o default 2> /dev/null; return ;;
            *)
                if [[ $word != -* ]]; then
                    compopt -o default 2> /dev/null
                    return
                fi
                case ${COMP_WORDS[1]} in
                    run) words='--base --data --depth --format --progress --stop' ;;
                    convert | check) words='--base --from --progress' ;;
                    query) words='--base --data --format --progress --results' ;;
                    update) words='--base --changes --data --format --progress --to' ;;
                    *) return ;;
                esac
                words+=' --help --version'
                ;;
        esac
    fi
    mapfile -t COMPREPLY < <(compgen -W "$words" -- "$word")
}

complete -F _rdfkeep rdfkeep
