#!/usr/bin/env python3
"""Puts the page together, and writes it as the two constants of the crate map_page.

  embed.py            write crates/map_page/src/head.rt and tail.rt
  embed.py --check    end with status 1 where they are not exactly what would be written
  embed.py --page SVG print the page of the file SVG, as the program does
"""
import base64
import hashlib
import pathlib
import sys

HERE = pathlib.Path(__file__).resolve().parent
CRATE = HERE.parent / "crates" / "map_page" / "src"
SCRIPTS = ["picture.js", "ways.js", "measures.js", "colours.js", "elements.js", "words.js", "names.js", "layer.js",
           "view.js", "list.js", "search.js", "address.js", "panel.js", "save.js", "hands.js"]


def source(name):
    text = (HERE / name).read_text(encoding="ascii")
    if "\r" in text or "\t" in text:
        raise SystemExit(f"page/{name}: a tab or a carriage return")
    return text


def hash_of(text):
    return "'sha256-" + base64.b64encode(hashlib.sha256(text.encode()).digest()).decode() + "'"


def put_together():
    """The text before the picture, and the text after it."""
    script = "\n" + "\n".join(source(name) for name in SCRIPTS)
    style = "\n" + source("page.css")
    policy = "; ".join([
        "default-src 'none'",
        "script-src " + hash_of(script),
        "style-src " + hash_of(style),
        "base-uri 'none'",
        "form-action 'none'",
    ])
    page = source("page.html")
    for mark, text in [("policy", policy), ("style", style), ("script", script)]:
        page = page.replace("{{" + mark + "}}", text)
    head, tail = page.split("{{picture}}")
    return head, tail


def constant(name, meaning, text):
    """A file of the crate with one constant. A line of the text is a line of the file."""
    lines = text.replace("\\", "\\\\").replace('"', '\\"').split("\n")
    # after a backslash at a line's end blanks are skipped, so a first one is written by its number
    lines = [("\\x20" + line[1:]) if line.startswith(" ") else line for line in lines]
    body = "\\n\\\n".join(lines)
    return (f"//! {meaning}, as page/embed.py puts it together.\n\n"
            f"/// {meaning}.\npub const {name}: &str = \"\\\n{body}\";\n")


def main(words):
    head, tail = put_together()
    if words[:1] == ["--page"]:
        svg = pathlib.Path(words[1]).read_bytes()
        sys.stdout.buffer.write(head.encode() + svg + tail.encode())
        return 0
    files = {
        CRATE / "head.rt": constant("HEAD", "What stands before the picture in a page", head),
        CRATE / "tail.rt": constant("TAIL", "What stands after the picture in a page", tail),
    }
    for path, text in files.items():
        if words == ["--check"]:
            if not path.is_file() or path.read_text() != text:
                print(f"{path}: not what page/embed.py makes of page/")
                return 1
        else:
            path.write_text(text)
    return 0


if __name__ == "__main__":
    sys.exit(main(sys.argv[1:]))
