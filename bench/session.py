#!/usr/bin/env python3
"""Compares `octimap session` with another program on small random feeds, and its draws with maps that are made afresh.

    bench/session.py [--feeds N] [--scripts N] [--seed S] [--work FOLDER] [--ours PROGRAM] [PROGRAM]

Makes N feeds as bench/agree.py does, and for each some scripts: edits as bench/edits.py makes them, with draws between
them. Runs both programs on each and compares status, standard output and the bytes of the output. Then cuts the output
into its draws, and compares each with what `octimap make` does for the edits that stand there, in a file: the map and the
certificate, or the line of the refusal. A feed on which something differs is kept, and named. Ends with 1 where there is
one. With no PROGRAM only the draws are compared.
"""
import argparse
import collections
import os
import random
import shutil
import sys
import tempfile

from agree import write_feed
from agree_make import run
from edits import edit, ids_in, spoiled
from measuring import OURS


def script(chance, lines, stations):
    """The lines of a script, each with its end."""
    count = chance.choice([0, 1, 2, 4, 8, 16, 32])
    made = [b"draw" if chance.random() < 0.4 else edit(chance, lines, stations) for _ in range(count)]
    if made and chance.random() < 0.2:
        at = chance.randrange(len(made))
        made[at] = spoiled(chance, made[at])
    ends = [chance.choice([b"\n", b"\n", b"\r\n"]) for _ in made]
    if ends and chance.random() < 0.3:
        ends[-1] = chance.choice([b"", b"\r"])
    return [line + end for line, end in zip(made, ends)]


def standing_at_draws(made):
    """The edits that stand at each draw of a script."""
    standing, draws = [], []
    for line in made:
        word = line.removesuffix(b"\n").removesuffix(b"\r") if line.endswith(b"\n") else line
        if word == b"draw":
            draws.append(list(standing))
        elif word == b"undo":
            standing = standing[:-1]
        else:
            standing.append(line)
    return draws


def draws_in(text):
    """The draws of an output: each a map and a certificate, or the line of its refusal."""
    draws = []
    while text:
        line, text = text.split(b"\n", 1)
        words = line.split(b" ", 3)
        assert words[0] == b"draw" and int(words[1]) == len(draws) + 1, line
        if words[2] == b"refused:":
            draws.append(words[3] + b"\n")
        else:
            svg, certificate = int(words[2]), int(words[3])
            draws.append((text[:svg], text[svg:svg + certificate]))
            text = text[svg + certificate:]
    return draws


def made_afresh(program, folder, standing):
    """What `make` does with these edits in a file: a map and a certificate, or the line of its refusal."""
    with open(os.path.join(folder, "standing"), "wb") as out:
        out.write(b"".join(standing))
    status, said, files = run(program, ["make", "feed", "svg", "cert", "--edits", "standing"], folder, ["svg", "cert"])
    return (files["svg"], files["cert"]) if status == 0 else said


def main():
    parser = argparse.ArgumentParser(description=__doc__, formatter_class=argparse.RawDescriptionHelpFormatter)
    parser.add_argument("--feeds", type=int, default=200)
    parser.add_argument("--scripts", type=int, default=5)
    parser.add_argument("--seed", type=int, default=1)
    parser.add_argument("--work", default=os.path.join(tempfile.gettempdir(), "octimap-session"))
    parser.add_argument("--ours", default=OURS)
    parser.add_argument("program", metavar="PROGRAM", nargs="?")
    given = parser.parse_args()
    ours = os.path.abspath(given.ours)
    statuses = collections.Counter()
    runs = draws = refused = others = 0
    for seed in range(given.seed, given.seed + given.feeds):
        folder = os.path.join(given.work, str(seed))
        os.makedirs(os.path.join(folder, "feed"), exist_ok=True)
        chance = random.Random(seed)
        write_feed(os.path.join(folder, "feed"), chance)
        lines, stations = ids_in(os.path.join(folder, "feed"), "routes"), ids_in(os.path.join(folder, "feed"), "stops")
        differs = False
        for place in range(given.scripts):
            name = f"script{place}"
            made = script(chance, lines, stations)
            with open(os.path.join(folder, name), "wb") as out:
                out.write(b"".join(made))
            words = ["session", "feed", name, "out"]
            status, said, files = run(ours, words, folder, ["out"])
            statuses[status] += 1
            runs += 1
            if given.program:
                theirs = run(os.path.abspath(given.program), words, folder, ["out"])
                if (status, said, files) != theirs:
                    differs = True
                    print(f"{folder}: {' '.join(words)}: status {status} and {theirs[0]}: {said[:60]!r} and {theirs[1][:60]!r}")
            if "out" not in files:
                continue
            for number, (draw, standing) in enumerate(zip(draws_in(files["out"]), standing_at_draws(made)), 1):
                draws += 1
                refused += isinstance(draw, bytes)
                if draw != made_afresh(ours, folder, standing):
                    differs = True
                    print(f"{folder}: {name}: draw {number} is not what make gives")
        if differs:
            others += 1
        else:
            shutil.rmtree(folder)
    print(f"{given.feeds} feeds, {runs} sessions with {draws} draws, {refused} of them refused; ended " + ", ".join(f"{n} times with {s}" for s, n in sorted(statuses.items())))
    print(f"{others} feeds on which something differs")
    return 1 if others else 0


if __name__ == "__main__":
    sys.exit(main())
