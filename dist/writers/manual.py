"""The man page, in the macros man(7)."""
import re
import textwrap

DESCRIPTION = """\
A feed (GTFS Schedule) says where the lines of a transit network call. `octimap map` draws them as schematic maps are \
drawn, on a grid whose ways go in eight directions, and lines that run side by side in the order in which crossings, \
splits and separations cost least. Beside the map it writes a certificate: a text by which `octimap check`, or any \
checker, verifies that the map shows this network and that no other line orders cost less.

Where work is refused, the exit status says of which kind that is, and, but for 8, a line on standard output why. \
The same input gives the same bytes with the same octimap, on every machine."""
DOCUMENTS = {
    "USING.md": "From the zip of a feed to a map on paper and on the web, and what to do when there is none.",
    "SETTINGS.md": "Each key of a file of settings.",
    "FORMATS.md": "Every file that is read or written, line by line.",
    "PROVED.md": "What exactly is promised.",
}


def plain(text):
    """A text in which roff reads nothing as a command."""
    return text.replace("\\", "\\e").replace("^", "\\(ha").replace("~", "\\(ti")


def code(text):
    """A text that stands in the page as it is typed."""
    return re.sub(r"^\.", r"\\&.", plain(text).replace("-", "\\-").replace("`", "\\(ga").replace("'", "\\(aq"))


def bold(text):
    return f"\\fB{code(text)}\\fR"


def italic(text):
    return f"\\fI{code(text)}\\fR"


def prose(text, operands=()):
    """A paragraph, a sentence a line: what stands between backquotes is bold, operands are in italics."""
    parts = re.split(r"`([^`]*)`", text)
    for at, part in enumerate(parts):
        if at % 2:
            parts[at] = bold(part).replace(" ", "\0")
            continue
        parts[at] = plain(part)
        for name in operands:
            # (SVG 1.1 and an HTML file are no operands)
            found = rf"(?<![\w./]){re.escape(name)}\b(?! \d| file)(?![./]\w)"
            parts[at] = re.sub(found, lambda it: italic(it.group()), parts[at])
    lines = []
    for sentence in re.split(r"(?<=[.:;!?]) (?=[A-Z]|\\f)", "".join(parts)):
        lines += textwrap.wrap(sentence.replace("\0", " "), 79, break_long_words=False, break_on_hyphens=False)
    return "\n".join(re.sub(r"^([.'])", r"\\&\1", line) for line in lines)


def label(entry):
    """An operand or an option as it stands before its text."""
    names = ", ".join(bold(name) for name in entry.names)
    return " ".join(part for part in (names, italic(entry.value) if entry.value else "") if part)


def listed(entries):
    return [line for entry in entries for line in (".TP", label(entry), prose(f"{entry.about}."))]


def usage(name, said):
    """The words of a command: its options, but those that stand alone, and its operands."""
    words = [bold(f"octimap {name}")]
    for entry in said.options:
        if not entry.is_common:
            value = "\\ " + italic(entry.value) if entry.value else ""
            words.append(f"[{bold(entry.names[-1])}{value}]{' ...' if entry.is_repeated else ''}")
    return [".HP", " ".join(words + [italic(operand.value) for operand in said.operands])]


HELP = [".HP", f"{bold('octimap help')} {italic('COMMAND')}"]


def display(lines):
    return [".EX", *(code(line.removeprefix("  ")) for line in lines), ".EE"]


def section(name, said):
    """The section of a command."""
    operands = [entry.value for entry in said.operands]
    page = [f".SS {code(name)}", *usage(name, said), ".PP", prose(f"{said.about}.", operands)]
    page += listed(said.operands + [entry for entry in said.options if not entry.is_common])
    for note in said.notes:
        page += [".PP", prose(note, operands)]
    for head, lines in said.lists.items():
        page += [".PP", f"{head}:", ".RS", *display(lines), ".RE"]
    return page


def statuses(lines):
    page = []
    for line in lines:
        number, text = line.split(None, 1)
        page += [".TP", bold(number), prose(f"{text[0].upper()}{text[1:]}.")]
    return page


def page(top, commands, made, version, date):
    lines = [
        f'.\\" {made}',
        f'.TH OCTIMAP 1 {date} "octimap {version}" "User Commands"',
        ".nh",
        ".ad l",
        ".SH NAME",
        textwrap.fill(f"octimap \\- {plain(top.about[0].lower() + top.about[1:])}", 79),
        ".SH SYNOPSIS",
    ]
    for name, said in commands:
        lines += usage(name, said)
    lines += [*HELP, ".SH DESCRIPTION", "\n.PP\n".join(prose(part) for part in DESCRIPTION.split("\n\n"))]
    lines += [".SH COMMANDS"]
    for name, said in commands:
        lines += section(name, said)
    lines += [".SS help", *HELP, ".PP", "Says how a command is called, with an example."]
    lines += [".SH OPTIONS", *listed(top.options)]
    for head, rows in top.lists.items():
        # what stands in brackets behind a heading is told below it
        lines += [f".SH {head.partition(' (')[0].upper()}"]
        if head == "Exit status":
            lines += statuses(rows)
        else:
            lines += ["Here", ".I feed", "is the folder of an unpacked feed, and", ".I my.script", "a file of edits and draws."]
            lines += ["Some of both lie in the folder", ".I examples", "of octimap's folder or, where it is installed, in"]
            lines += [".IR /usr/share/octimap .", ".PP", *display(rows)]
    lines += [".SH SEE ALSO", "The documents of octimap, in", ".I docs", "of its folder, or where it is installed in"]
    lines += [".IR /usr/share/doc/octimap/docs :"]
    for name, text in DOCUMENTS.items():
        lines += [".TP", f".I {name}", prose(text)]
    lines += [".PP", "GTFS Schedule reference:", "https://gtfs.org/documentation/schedule/reference/"]
    return "\n".join(lines) + "\n"
