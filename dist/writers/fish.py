"""The completion of fish."""
from writers.program_help import options_with_value

HELPERS = """\
# Whether the word that is written is operand PLACE of COMMAND: those before it, without options and their values.
function __octimap_at -a command place
    set -l words (commandline -opc)
    __octimap_in $command; or return 1
    set -l here 1
    set -l is_value 0
    set -e words[1..2]
    for word in $words
        if test $is_value = 1
            set is_value 0
        else if contains -- $word {valued}
            set is_value 1
        else if not string match -q -- '-*' $word
            set here (math $here + 1)
        end
    end
    test $is_value = 0 -a $here = $place
end

# Whether it is a word of COMMAND.
function __octimap_in -a command
    set -l words (commandline -opc)
    test (count $words) -ge 2; and test "$words[2]" = $command
end

# The files with an ending and the folders; or all files, where there is none of them.
function __octimap_files -a ending
    set -l files (__fish_complete_path (commandline -ct))
    string match -r -- ".*(?:\\.$ending|/)(?:\\t.*)?\\$" $files
    or printf '%s\\n' $files
end
"""


def text(about):
    return "'" + about.replace("\\", "\\\\").replace("'", "\\'") + "'"


def offer(kind):
    """The words that tell fish to complete something of this kind."""
    return {"folder": "-a '(__fish_complete_directories (commandline -ct))'", "file": "-F", "none": ""}.get(
        kind, f"-a '(__octimap_files {kind})'"
    )


def option(entry):
    words = [f"-{'l' if name.startswith('--') else 's'} {name.lstrip('-')}" for name in entry.names]
    if entry.value:
        words += ["-r", offer(entry.kind)]
    return " ".join(word for word in [*words, "-d", text(entry.about)] if word)


def completion(top, commands, made):
    lines = [f"# Completion of octimap in fish. {made}", ""]
    lines += HELPERS.replace("{valued}", " ".join(options_with_value(commands))).splitlines()
    lines += ["", "complete -c octimap -f"]
    lines += [f"complete -c octimap {option(entry)}" for entry in top.options]
    first = "-n 'test (count (commandline -opc)) -eq 1'"
    for name, said in commands:
        lines.append(f"complete -c octimap {first} -a {name} -d {text(said.about)}")
    lines.append(f"complete -c octimap {first} -a help -d 'Print the help of a command'")
    names = " ".join(name for name, _ in commands)
    lines.append(f"complete -c octimap -n '__octimap_at help 1' -a {text(names)}")
    for name, said in commands:
        for entry in said.options:
            if not entry.is_common:
                lines.append(f"complete -c octimap -n '__octimap_in {name}' {option(entry)}")
        for place, entry in enumerate(said.operands, 1):
            if entry.kind != "none":
                lines.append(f"complete -c octimap -n '__octimap_at {name} {place}' {offer(entry.kind)}")
    return "\n".join(lines) + "\n"
