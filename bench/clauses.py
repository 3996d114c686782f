#!/usr/bin/env python3
"""Counts what the crates promise: the public functions, and the clauses `ensures` and `requires` of them.

    bench/clauses.py [--each] [REVISION ..]

Reads the sources of each REVISION of git (the working tree where none is named). A function counts as public where it
says `pub` alone; a method of a trait counts with its trait or impl. --each prints the counts of each crate.
"""
import argparse
import collections
import os
import re
import subprocess

FUNCTION = re.compile(r"^\s*pub (?:const )?(?:unsafe )?fn \w+", re.M)
CLAUSE = re.compile(r"^\s*(ensures|requires)\b", re.M)


def sources(revision):
    """Path and text of each source file of a crate."""
    git = lambda *words: subprocess.run(["git", *words], capture_output=True, text=True, check=True).stdout
    if revision is None:
        for path in git("ls-files", "crates/*/src/*.rt").split():
            if os.path.exists(path):
                yield path, open(path).read()
        return
    for path in git("ls-tree", "-r", "--name-only", revision, "crates").split():
        if re.fullmatch(r"crates/\w+/src/.*\.rt", path):
            yield path, git("show", f"{revision}:{path}")


def counts(text):
    """Public functions, and their clauses by kind: those between a function's head and its body."""
    found = collections.Counter()
    for head in FUNCTION.finditer(text):
        end = re.compile(r"^\s*(\{|;)|;\s*$|\)\s*(->.*)?\{\s*$", re.M).search(text, head.end())
        part = text[head.end() : end.start() if end else len(text)]
        found["functions"] += 1
        found.update(it[1] for it in CLAUSE.finditer(part))
    return found


def main():
    parser = argparse.ArgumentParser(description=__doc__, formatter_class=argparse.RawDescriptionHelpFormatter)
    parser.add_argument("--each", action="store_true")
    parser.add_argument("revisions", nargs="*", metavar="REVISION")
    given = parser.parse_args()
    os.chdir(os.path.join(os.path.dirname(os.path.abspath(__file__)), ".."))
    for revision in given.revisions or [None]:
        crates = collections.defaultdict(collections.Counter)
        for path, text in sources(revision):
            crates[path.split("/")[1]].update(counts(text))
        whole = sum(crates.values(), collections.Counter())
        rows = sorted(crates.items()) if given.each else []
        for name, row in [*rows, (revision or "working tree", whole)]:
            print(f"{name}: {row['functions']} public functions, {row['ensures']} ensures, {row['requires']} requires")


if __name__ == "__main__":
    main()
