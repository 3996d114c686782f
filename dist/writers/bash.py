"""The completion of bash."""
from writers.program_help import options_with_value, quoted


def completion(top, commands, made):
    names = quoted(" ".join([name for name, _ in commands] + ["help"]))
    alone = quoted(" ".join(name for entry in top.options for name in entry.names if name.startswith("--")))
    rows = []
    for name, said in commands:
        options = " ".join(option for entry in said.options for option in entry.names if option.startswith("--"))
        kinds = " ".join(entry.kind for entry in said.operands)
        rows.append(f"        {name}) options={quoted(options)} kinds=({kinds}) ;;")
    rows = "\n".join(rows)
    files = " | ".join(options_with_value(commands, of_files=True))
    valued = " | ".join(options_with_value(commands))
    return f"""\
# Completion of octimap in bash. {made}

# Offers what there is of a kind: folders, files, or files with an ending.
_octimap_offer()
{{
    case $1 in
        folder) compopt -o dirnames ;;
        file) compopt -o default ;;
        none | '') ;;
        *)
            compopt -o filenames -o plusdirs -o default
            mapfile -t COMPREPLY < <(compgen -f -X "!*.$1" -- "$2")
            ;;
    esac
}}

_octimap()
{{
    local current=${{COMP_WORDS[COMP_CWORD]}} before=${{COMP_WORDS[COMP_CWORD - 1]}}
    local commands={names} alone={alone} options='' kinds=() place=0 at
    COMPREPLY=()
    if ((COMP_CWORD == 1)); then
        mapfile -t COMPREPLY < <(compgen -W "$commands $alone" -- "$current")
        return
    fi
    case ${{COMP_WORDS[1]}} in
{rows}
        help)
            ((COMP_CWORD > 2)) || mapfile -t COMPREPLY < <(compgen -W "$commands" -- "$current")
            return
            ;;
        *) return ;;
    esac
    # a value, which bash takes apart at an equals sign
    if [[ $current == = ]]; then
        current=
    elif [[ $before == = ]]; then
        before=${{COMP_WORDS[COMP_CWORD - 2]}}
    fi
    case $before in
        {files})
            compopt -o default
            return
            ;;
    esac
    if [[ $current == -* ]]; then
        mapfile -t COMPREPLY < <(compgen -W "$options" -- "$current")
        return
    fi
    # which operand it is: those before it, without options and their values
    for ((at = 2; at < COMP_CWORD; at++)); do
        case ${{COMP_WORDS[at]}} in
            {valued}) [[ ${{COMP_WORDS[at + 1]}} == = ]] || ((at++)) ;;
            =) ((at++)) ;;
            -*) ;;
            *) ((place++)) ;;
        esac
    done
    _octimap_offer "${{kinds[place]}}" "$current"
}}
complete -F _octimap octimap
"""
