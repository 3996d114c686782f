"""Which functions of the crates the program's `main` comes to, by the names in their bodies.

A word of a body is a call of each function of that name in its own crate, in a crate below that its file imports the name
from, or, behind a dot or two colons, in any crate below. What implements a trait counts as called. So a few functions may be
told as reached that are not, and none the other way round.
"""
import re

HEAD = re.compile(r"^( *)(?:pub(?:\(crate\))? )?(?:const )?fn (\w+)", re.M)


def parts_of(code):
    """(name, body, whether it implements a trait) of each function of a file."""
    code = re.sub(r"^\s*(?://|ghost ).*$", "", code, flags=re.M)
    heads = list(HEAD.finditer(code))
    for head, later in zip(heads, [*heads[1:], None]):
        text = code[head.start():later.start() if later else len(code)]
        if re.search(r"^\s*(?:requires|ensures)\b", text, re.M):
            text = text[re.search(r"^\s*\{", text, re.M).start():] if re.search(r"^\s*\{", text, re.M) else ""
        above = re.findall(r"^impl\b[^\n]*", code[:head.start()], re.M) if head[1] else []
        yield head[2], text, bool(above) and " for " in above[-1]


def imports_of(code):
    """The names that a file imports, each with the crate or module that it is of."""
    for home, names in re.findall(r"^(?:pub )?use (\w+)::([^;]+);", code, re.M):
        for name in re.findall(r"\w+", names):
            yield name, home


def reached(files, below):
    """{crate: names of functions that are reached}, by {crate: [text of a file]} and {crate: crates below}."""
    functions, bodies = {crate: {} for crate in files}, {}
    roots = [("map_cli", "main")]
    for crate, texts in files.items():
        for text in texts:
            imported = dict(imports_of(text))
            for name, body, of_trait in parts_of(text):
                functions[crate].setdefault(name, []).append((body, imported))
                if of_trait:
                    roots.append((crate, name))
    found, waiting = set(), [root for root in roots if root[1] in functions.get(root[0], {})]
    while waiting:
        crate, name = waiting.pop()
        if (crate, name) in found:
            continue
        found.add((crate, name))
        for body, imported in functions[crate][name]:
            for sign, word in re.findall(r"(\.|::)?\b([a-z_]\w*)\b", body):
                homes = [crate] if word in functions[crate] else []
                if sign:
                    homes += [home for home in below[crate] if word in functions.get(home, {})]
                elif imported.get(word) in functions and word in functions[imported[word]]:
                    homes.append(imported[word])
                waiting.extend((home, word) for home in homes)
    return found
