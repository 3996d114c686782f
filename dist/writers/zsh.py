"""The completion of zsh."""
import re

from writers.program_help import quoted


def text(about):
    """A text in which zsh reads no end of a part."""
    return re.sub(r"([\[\]:\\])", r"\\\1", about)


def action(kind):
    """What zsh does to complete something of this kind."""
    return {"folder": "_path_files -/", "file": "_files", "none": " "}.get(kind, f'_files -g "*.{kind}"')


def option(entry):
    """The words by which zsh is told of an option, one for each of its names."""
    before = ""
    if entry.is_common:
        before = "(- *)"
    elif entry.is_repeated:
        before = "*"
    elif len(entry.names) > 1:
        before = f"({' '.join(entry.names)})"
    after = f"[{text(entry.about)}]"
    if entry.value:
        after += f":{entry.value}:{action(entry.kind)}"
    equals = {name: "=" if entry.value and name.startswith("--") else "" for name in entry.names}
    return [quoted(f"{before}{name}{equals[name]}{after}") for name in entry.names]


def row(name, said):
    """The branch for a command."""
    words = [word for entry in said.options for word in option(entry)]
    words += [quoted(f":{entry.value}:{action(entry.kind)}") for entry in said.operands]
    indent = " " * 16
    listed = f" \\\n{indent}        ".join(words)
    return f"{indent}{name})\n{indent}    _arguments {listed}\n{indent}    ;;"


def completion(top, commands, made):
    described = [quoted(f"{name}:{text(said.about)}") for name, said in commands]
    described.append(quoted("help:Print the help of a command"))
    described = "\n        ".join(described)
    rows = "\n".join(row(name, said) for name, said in commands)
    alone = " \\\n        ".join(word for entry in top.options for word in option(entry))
    return f"""\
#compdef octimap
# Completion of octimap in zsh. {made}

_octimap() {{
    local curcontext=$curcontext state line
    local -a commands=(
        {described}
    )
    _arguments -C \\
        {alone} \\
        '1: :->command' \\
        '*:: :->words'
    case $state in
        command) _describe -t commands command commands ;;
        words)
            case $words[1] in
{rows}
                help) (( CURRENT > 2 )) || _describe -t commands command commands ;;
            esac
            ;;
    esac
}}

if [[ $funcstack[1] == _octimap ]]; then
    _octimap "$@"
else
    compdef _octimap octimap
fi
"""
