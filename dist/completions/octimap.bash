# Completion of octimap in bash. Made by dist/commands from the program's help; not to be changed by hand.

# Offers what there is of a kind: folders, files, or files with an ending.
_octimap_offer()
{
    case $1 in
        folder) compopt -o dirnames ;;
        file) compopt -o default ;;
        none | '') ;;
        *)
            compopt -o filenames -o plusdirs -o default
            mapfile -t COMPREPLY < <(compgen -f -X "!*.$1" -- "$2")
            ;;
    esac
}

_octimap()
{
    local current=${COMP_WORDS[COMP_CWORD]} before=${COMP_WORDS[COMP_CWORD - 1]}
    local commands='map make improve check labels geo poster session graph export import stations page trial help' alone='--help --version' options='' kinds=() place=0 at
    COMPREPLY=()
    if ((COMP_CWORD == 1)); then
        mapfile -t COMPREPLY < <(compgen -W "$commands $alone" -- "$current")
        return
    fi
    case ${COMP_WORDS[1]} in
        map) options='--quiet --settings --set --edits --page --help' kinds=(folder svg file) ;;
        make) options='--quiet --settings --set --edits --page --help' kinds=(folder svg file) ;;
        improve) options='--quiet --settings --set --edits --help' kinds=(folder svg file none) ;;
        check) options='--quiet --settings --set --edits --help' kinds=(folder svg file) ;;
        labels) options='--quiet --settings --set --edits --help' kinds=(folder file file) ;;
        geo) options='--quiet --settings --set --edits --help' kinds=(folder file file) ;;
        poster) options='--quiet --settings --set --edits --help' kinds=(folder file file) ;;
        session) options='--quiet --settings --set --help' kinds=(folder file file) ;;
        graph) options='--quiet --settings --set --edits --help' kinds=(folder) ;;
        export) options='--quiet --settings --set --edits --help' kinds=(folder file) ;;
        import) options='--quiet --settings --set --help' kinds=(json svg file) ;;
        stations) options='--quiet --help' kinds=(folder) ;;
        page) options='--quiet --help' kinds=(svg html) ;;
        trial) options='--quiet --help' kinds=(none) ;;
        help)
            ((COMP_CWORD > 2)) || mapfile -t COMPREPLY < <(compgen -W "$commands" -- "$current")
            return
            ;;
        *) return ;;
    esac
    # a value, which bash takes apart at an equals sign
    if [[ $current == = ]]; then
        current=
    elif [[ $before == = ]]; then
        before=${COMP_WORDS[COMP_CWORD - 2]}
    fi
    case $before in
        --edits | --page | --settings)
            compopt -o default
            return
            ;;
    esac
    if [[ $current == -* ]]; then
        mapfile -t COMPREPLY < <(compgen -W "$options" -- "$current")
        return
    fi
    # which operand it is: those before it, without options and their values
    for ((at = 2; at < COMP_CWORD; at++)); do
        case ${COMP_WORDS[at]} in
            --edits | --page | --set | --settings) [[ ${COMP_WORDS[at + 1]} == = ]] || ((at++)) ;;
            =) ((at++)) ;;
            -*) ;;
            *) ((place++)) ;;
        esac
    done
    _octimap_offer "${kinds[place]}" "$current"
}
complete -F _octimap octimap
