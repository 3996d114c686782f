#!/usr/bin/env python3
"""Compares `make`, `map`, `labels`, `geo`, `poster`, `improve`, `check`, `session` and `import` with another program on
small random feeds under random settings.

    bench/agree_settings.py [--feeds N] [--seed S] [--theirs KEY=VALUE ..] [--work FOLDER] [--ours PROGRAM] PROGRAM

Makes N feeds as bench/agree.py does, and for each a settings file with some of the keys, now and then with a value
that no key takes. The other program's file also has the lines given by --theirs, but for keys that it has. `labels`, `geo` and `poster` also get a certificate of which one word is changed. Runs the commands of both
programs on each and compares status, standard output and the bytes of the files (of words that are not read, status
2, the status alone: each program has its own help); `check` without any settings file must say yes to each map under
the default cell, near distance and weights, where best orders are claimed. A feed on which something differs is kept, and named. Ends with 1 where
there is one.
"""
import argparse
import collections
import os
import random
import shutil
import sys
import tempfile

from agree import write_feed
from agree_make import run
from measuring import OURS

KEYS = {
    "search": ['"dual"', '"dual"', '"live"'],
    "proof": ['"bound"', '"best"'],
    "spread": ['"auto"', "0", "5", "30", "70", "100"],
    "coarsest": ["1", "2", "4"],
    "finest": ["4", "8", "16"],
    "straight": ["0", "1", "2", "5", "20", "1000", "10000"],
    "moves": ["0", "1", "2", "5", "20", "1000", "10000"],
    "budget": ["1", "2", "5", "10", "100", "100000"],
    "cell": ["50", "100", "200", "400", "1000"],
    "near": ["20", "100", "300", "1000", "3000"],
    "method": ['"map"', '"make"'],
}
BAD = {"search": ['"rise"', "1"], "proof": ['"least"', "true"], "spread": ["101", "-1", '"all"'], "coarsest": ["0", "3", "8", '"1"'], "finest": ["2", "32", '"4"'], "method": ['"poster"', "1"], "straight": ["-1", "10001", '"x"', "1.5"], "moves": ["-1", "10001", '"5"', "1.5"]}


def settings(chance):
    """The keys of a settings file with their values."""
    chosen = {key: chance.choice(values) for key, values in KEYS.items() if chance.random() < 0.45}
    if chance.random() < 0.05:
        key = chance.choice(sorted(BAD))
        chosen[key] = chance.choice(BAD[key])
    return chosen


def further_lines(given, chosen):
    """The lines of the other program's file for keys that are not chosen."""
    return [line.replace("=", " = ", 1) + "\n" for line in given if line.split("=")[0] not in chosen]


def changed(certificate, chance):
    """The certificate with one of its words in place of another."""
    words = certificate.split(b" ")
    words[chance.randrange(len(words))] = chance.choice(words)
    return b" ".join(words)


def main():
    parser = argparse.ArgumentParser(description=__doc__, formatter_class=argparse.RawDescriptionHelpFormatter)
    parser.add_argument("--feeds", type=int, default=300)
    parser.add_argument("--seed", type=int, default=1)
    parser.add_argument("--theirs", action="append", default=[], metavar="KEY=VALUE")
    parser.add_argument("--work", default=os.path.join(tempfile.gettempdir(), "octimap-agree-settings"))
    parser.add_argument("--ours", default=OURS)
    parser.add_argument("program", metavar="PROGRAM")
    given = parser.parse_args()
    programs = [os.path.abspath(given.ours), os.path.abspath(given.program)]
    statuses = collections.Counter()
    runs = others = 0
    for seed in range(given.seed, given.seed + given.feeds):
        folder = os.path.join(given.work, str(seed))
        os.makedirs(os.path.join(folder, "feed"), exist_ok=True)
        chance = random.Random(seed)
        write_feed(os.path.join(folder, "feed"), chance)
        differs = False

        def compare(words, outputs):
            nonlocal runs, differs
            ours = run(programs[0], words, folder, outputs)
            theirs = run(programs[1], [word.replace("settings", "theirs") if word == "settings.toml" else word for word in words], folder, outputs)
            runs += 1
            statuses[words[0], theirs[0]] += 1
            if ours != theirs and not ours[0] == theirs[0] == 2:
                differs = True
                print(f"{folder}: {' '.join(words)}: status {ours[0]} and {theirs[0]}: {ours[1][:60]!r} and {theirs[1][:60]!r}")
            return theirs

        graph = compare(["export", "feed", "graph"], ["graph"])[2]
        for name, text in {**graph, "script": b"draw\n"}.items():
            with open(os.path.join(folder, name), "wb") as out:
                out.write(text)
        for command in ["make", "map", "improve", "session", "import"]:
            chosen = settings(chance)
            lines = [f"{key} = {value}\n" for key, value in chosen.items()]
            for name, further in [("settings.toml", []), ("theirs.toml", further_lines(given.theirs, chosen))]:
                with open(os.path.join(folder, name), "w") as out:
                    out.writelines(lines + further)
            words = [command, "feed", "svg", "cert"]
            if command == "session":
                compare([command, "feed", "script", "draws", "--settings", "settings.toml"], ["draws"])
                continue
            if command == "import":
                compare([command, "graph", "svg", "cert", "--settings", "settings.toml"], ["svg", "cert"])
                continue
            if command == "improve":
                words.append(chance.choice(["0", "1", "3", "10", "1000", "10000", "10001", "x"]))
            status, _, files = compare(words + ["--settings", "settings.toml"], ["svg", "cert"])
            if status != 0:
                continue
            for name, text in files.items():
                with open(os.path.join(folder, name), "wb") as out:
                    out.write(text)
            with open(os.path.join(folder, "changed"), "wb") as out:
                out.write(changed(files["cert"], chance))
            for certificate in ["cert", "changed"]:
                for picture in ["labels", "geo", "poster"]:
                    compare([picture, "feed", certificate, picture, "--settings", "settings.toml"], [picture])
            compare(["check", "feed", "svg", "cert", "--settings", "settings.toml"], [])
            if not {"cell", "near"} & set(chosen) and chosen.get("proof") != '"bound"':
                plain = run(programs[0], ["check", "feed", "svg", "cert"], folder, [])
                if plain[0] != 0:
                    differs = True
                    print(f"{folder}: check without settings: status {plain[0]}: {plain[1][:60]!r}")
        if differs:
            others += 1
        else:
            shutil.rmtree(folder)
    print(f"statuses: {dict(sorted(statuses.items()))}")
    print(f"{runs} runs; {given.feeds - others} of {given.feeds} feeds: same status and bytes")
    sys.exit(1 if others else 0)


if __name__ == "__main__":
    main()
