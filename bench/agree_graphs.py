#!/usr/bin/env python3
"""Compares `export` and `import` with another program on small random feeds and on graph files that are changed.

    bench/agree_graphs.py [--feeds N] [--seed S] [--changes N] [--theirs KEY=VALUE ..] [--work FOLDER] [--ours PROGRAM] PROGRAM

Makes N feeds as bench/agree.py does. Both programs export each, and import what was exported, which must also give the
bytes of `make`. Then they import files that differ from it by some changes: of its structure (a member left out, put
twice or of another kind, a number beside the right one, entries swapped or doubled, a round turned, a line unnamed), or
of its bytes. Status, standard output and the files that are written are compared. A feed on which something differs is
kept, and named. Ends with 1 where there is one.
"""
import argparse
import collections
import copy
import json
import os
import random
import shutil
import sys
import tempfile

from agree import write_feed
from agree_make import run
from measuring import OURS
from agree_settings import settings

ODD = [None, True, -1, 0, 1, 2, 16, 17, 1.5, 2.0, 1e30, 299999999, 300000000, 300000001, 4294967295, 4294967296, "", "A", "0", "#ff0000", "ff0000", "FF00", [], [0], {}, {"a": 1}]


def places(value, path=()):
    """The path of each value within this one."""
    yield path
    if isinstance(value, dict):
        for key in value:
            yield from places(value[key], path + (key,))
    elif isinstance(value, list):
        for index, item in enumerate(value):
            yield from places(item, path + (index,))


def at(value, path):
    for key in path:
        value = value[key]
    return value


def change(graph, chance):
    """The graph with one change of its structure."""
    graph = copy.deepcopy(graph)
    path = chance.choice([path for path in places(graph) if path])
    parent, key = at(graph, path[:-1]), path[-1]
    value = parent[key]
    kinds = ["odd", "leave out"]
    if isinstance(value, int) and not isinstance(value, bool):
        kinds += ["beside", "beside", "beside"]
    if isinstance(value, list) and len(value) > 1:
        kinds += ["swap", "swap", "double", "turn", "drop"]
    if isinstance(value, str):
        kinds += ["longer", "shorter"]
    if isinstance(value, dict):
        kinds += ["further"]
    kind = chance.choice(kinds)
    if kind == "odd":
        parent[key] = copy.deepcopy(chance.choice(ODD))
    elif kind == "leave out":
        del parent[key]
    elif kind == "beside":
        parent[key] = value + chance.choice([-2, -1, 1, 2])
    elif kind == "swap":
        a, b = chance.sample(range(len(value)), 2)
        value[a], value[b] = value[b], value[a]
    elif kind == "double":
        value.insert(chance.randrange(len(value) + 1), copy.deepcopy(chance.choice(value)))
    elif kind == "turn":
        value.append(value.pop(0))
    elif kind == "drop":
        value.pop(chance.randrange(len(value)))
    elif kind == "longer":
        parent[key] = value + chance.choice(["x", "0", "é", "<&>", "\u0000", "\n"])
    elif kind == "shorter":
        parent[key] = value[:-1]
    else:
        value[chance.choice(["kind", "note", "type", "id"])] = copy.deepcopy(chance.choice(ODD))
    return graph


def spoilt(text, chance):
    """The text with one of its bytes changed, left out or put twice, or cut."""
    at = chance.randrange(len(text))
    kind = chance.choice(["other", "gone", "twice", "cut", "space", "deep"])
    if kind == "other":
        return text[:at] + bytes([chance.choice(b'0123456789{}[]",:.eE-+ \\\x00\xff')]) + text[at + 1 :]
    if kind == "gone":
        return text[:at] + text[at + 1 :]
    if kind == "twice":
        return text[:at] + text[at : at + 1] + text[at:]
    if kind == "cut":
        return text[:at]
    if kind == "space":
        return text[:at] + chance.choice([b" ", b"\n", b"\t", b"\xef\xbb\xbf"]) + text[at:]
    depth = chance.choice([1, 100, 127, 128, 129, 5000])
    return text[:at] + b"[" * depth + b"]" * depth + text[at:]


def main():
    parser = argparse.ArgumentParser(description=__doc__, formatter_class=argparse.RawDescriptionHelpFormatter)
    parser.add_argument("--feeds", type=int, default=200)
    parser.add_argument("--changes", type=int, default=12)
    parser.add_argument("--seed", type=int, default=1)
    parser.add_argument("--theirs", action="append", default=[], metavar="KEY=VALUE")
    parser.add_argument("--work", default=os.path.join(tempfile.gettempdir(), "octimap-agree-graphs"))
    parser.add_argument("--ours", default=OURS)
    parser.add_argument("program", metavar="PROGRAM")
    given = parser.parse_args()
    programs = [os.path.abspath(given.ours), os.path.abspath(given.program)]
    statuses = collections.Counter()
    runs = others = 0
    for seed in range(given.seed, given.seed + given.feeds):
        folder = os.path.join(given.work, str(seed))
        os.makedirs(os.path.join(folder, "feed"), exist_ok=True)
        chance = random.Random(seed)
        write_feed(os.path.join(folder, "feed"), chance)
        differs = False

        def compare(words, outputs):
            nonlocal runs, differs
            ours = run(programs[0], words + ["--settings", "settings.toml"], folder, outputs)
            theirs = run(programs[1], words + ["--settings", "theirs.toml"], folder, outputs)
            runs += 1
            statuses[words[0], theirs[0]] += 1
            if ours != theirs:
                differs = True
                print(f"{folder}: {' '.join(words)}: status {ours[0]} and {theirs[0]}: {ours[1][:60]!r} and {theirs[1][:60]!r}")
            return ours

        lines = [f"{key} = {value}\n" for key, value in settings(chance).items()]
        for name, further in [("settings.toml", []), ("theirs.toml", [line.replace("=", " = ", 1) + "\n" for line in given.theirs])]:
            with open(os.path.join(folder, name), "w") as out:
                out.writelines(lines + further)
        status, _, files = compare(["export", "feed", "graph.json"], ["graph.json"])
        if status == 0:
            text = files["graph.json"]
            with open(os.path.join(folder, "graph.json"), "wb") as out:
                out.write(text)
            brought = compare(["import", "graph.json", "svg", "cert"], ["svg", "cert"])
            made = run(programs[0], ["make", "feed", "svg", "cert", "--settings", "settings.toml"], folder, ["svg", "cert"])
            if (brought[0], brought[2]) != (made[0], made[2]):
                differs = True
                print(f"{folder}: import of what was exported: status {brought[0]}, and {made[0]} of make")
            graph = json.loads(text)
            for _ in range(given.changes):
                if chance.random() < 0.25:
                    other = spoilt(text, chance)
                else:
                    other = graph
                    for _ in range(chance.choice([1, 1, 1, 2, 3])):
                        other = change(other, chance)
                    other = json.dumps(other, ensure_ascii=chance.random() < 0.5, indent=chance.choice([None, None, 1])).encode()
                with open(os.path.join(folder, "changed.json"), "wb") as out:
                    out.write(other)
                compare(["import", "changed.json", "svg", "cert"], ["svg", "cert"])
                if differs:
                    break
        if differs:
            others += 1
        else:
            shutil.rmtree(folder)
    print(f"statuses: {dict(sorted(statuses.items()))}")
    print(f"{runs} runs; {given.feeds - others} of {given.feeds} feeds: same status and bytes")
    sys.exit(1 if others else 0)


if __name__ == "__main__":
    main()
