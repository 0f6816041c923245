# Made by .ci/manual: completion of h2 in bash. Source it: . docs/h2.bash
_h2() {
    local word=${COMP_WORDS[COMP_CWORD]} before=${COMP_WORDS[COMP_CWORD-1]} words=
    if [ "$COMP_CWORD" -eq 1 ]; then
        words='show replay serve get loop host --help --version'
    else
        case "${COMP_WORDS[1]} $before" in
            'show --from') words='client server' ;;
            'show --max-frame') words='16384 65536 1048576' ;;
            'show --file') words= ;;
            'show --color') words='always never auto' ;;
            'show --client') words= ;;
            'show --server') words= ;;
            'show --page') words= ;;
            'show '*) words='--hex --from --max-frame --follow --file --names --offsets --color --json --client --server --page --help' ;;
            'replay --as') words='client server' ;;
            'replay '*) words='--hex --as --messages --help' ;;
            'serve '*) words='--help' ;;
            'get -o'|'get --output') words= ;;
            'get '*) words='--include --header --request --data --fail --port --output --stream --timeout --verbose --window --help' ;;
            'loop '*) words='--each-way --help' ;;
            'host '*) words='--root --address --connections --idle --log --until-closed --window --help' ;;
        esac
    fi
    COMPREPLY=($(compgen -W "$words" -- "$word"))
}
complete -o default -F _h2 h2
