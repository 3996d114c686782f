"""What the program says of itself and of its commands, read from its help."""
import re
import subprocess
from dataclasses import dataclass, field

# operands and values whose name is the ending of their files
ENDINGS = {"SVG": "svg", "HTML": "html", "JSON": "json"}


@dataclass
class Entry:
    """An operand, an option, or a command, with the text behind it."""

    label: str
    about: str

    @property
    def names(self):
        """Those of an option, the short one first."""
        return re.findall(r"(?<![\w-])--?[\w-]+", self.label)

    @property
    def value(self):
        """The name of an operand, or of the value of an option; none where it has none."""
        found = re.search(r"[<\[]([\w=-]+)[>\]]", self.label)
        return found.group(1) if found else ""

    @property
    def is_repeated(self):
        return "..." in self.label

    @property
    def is_common(self):
        """Whether it is an option that stands alone, as that for help."""
        return "--help" in self.names or "--version" in self.names

    @property
    def kind(self):
        """What is to be completed: a folder, a file, files with an ending (by their ending), or nothing."""
        if self.value in ENDINGS:
            return ENDINGS[self.value]
        if re.match(r"(The|A) folder\b", self.about):
            return "folder"
        if re.match(r"(The|A) file\b", self.about):
            return "file"
        return "none"


@dataclass
class Help:
    """What the program says of itself, or of one command."""

    about: str = ""
    operands: list = field(default_factory=list)
    options: list = field(default_factory=list)
    commands: list = field(default_factory=list)
    # what follows: paragraphs, and lines under a heading
    notes: list = field(default_factory=list)
    lists: dict = field(default_factory=dict)


def ask(program, *words):
    """What the program prints."""
    return subprocess.run([program, *words], stdin=subprocess.DEVNULL, capture_output=True, text=True).stdout


def entries(lines):
    """The entries of a list: a label, two spaces or more, and a text, which goes on in lines that stand further in."""
    found = []
    for line in lines:
        if re.match(r" {2,6}\S", line):
            label, _, about = line.strip().partition("  ")
            found.append(Entry(label, about.strip()))
        else:
            found[-1].about = f"{found[-1].about} {line.strip()}".strip()
    return found


def read(text):
    """The help, whose parts stand apart by empty lines."""
    said = Help()
    entered = {"Arguments:": said.operands, "Options:": said.options, "Commands:": said.commands}
    for part in text.strip("\n").split("\n\n"):
        head, *rest = part.splitlines()
        if head in entered:
            entered[head] += entries(rest)
        elif head.endswith(":") and rest and all(line.startswith("  ") for line in rest):
            said.lists[head[:-1]] = rest
        elif not said.about:
            said.about = " ".join([head, *rest])
        elif not head.startswith("Usage: "):
            said.notes.append(" ".join([head, *rest]))
    return said


def read_all(program):
    """What the program says of itself, and of each of its commands but `help`, in its order."""
    top = read(ask(program, "--help"))
    names = [entry.label for entry in top.commands if entry.label != "help"]
    return top, [(name, read(ask(program, name, "--help"))) for name in names]


def options_with_value(commands, of_files=False):
    """The names of the options that take a value, or one that is a file, each once."""
    options = [entry for _, said in commands for entry in said.options if entry.value]
    return sorted({name for entry in options if entry.kind != "none" or not of_files for name in entry.names})


def quoted(text):
    """A text as one word of bash and zsh."""
    return "'" + text.replace("'", "'\\''") + "'"
