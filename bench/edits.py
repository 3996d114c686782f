#!/usr/bin/env python3
"""Compares `octimap graph`, `make` and `check` with edits with another program on small random feeds.

    bench/edits.py [--feeds N] [--scripts N] [--seed S] [--work FOLDER] [--ours PROGRAM] PROGRAM

Makes N feeds as bench/agree.py does, and for each some files of edits: edits of every kind at random, in range and at
the ends of their ranges, of lines and stations that are there or aren't, and now and then a line that is spoiled: a
space for a TAB, a TAB too many, an empty line, a line end of another kind, a byte that is not UTF-8, a `draw`, an undo
with nothing left. Runs both programs on each, `check` on what `make` wrote, and prints on how many runs they agree in
status, standard output and the bytes of the files. A feed on which they don't is kept, and named. Ends with 1 where
there is one.
"""
import argparse
import collections
import os
import random
import shutil
import sys
import tempfile

from agree import write_feed
from agree_make import run
from measuring import OURS


def ids_in(folder, table):
    """The ids of a table's rows, the first field of each."""
    with open(os.path.join(folder, table + ".txt"), encoding="utf-8") as rows:
        return [row.split(",")[0] for row in rows][1:]


def one_of(chance, ids):
    """An id that is there, or now and then one that isn't."""
    return "none" if chance.random() < 0.01 else chance.choice(ids)


def number(chance, least, most):
    """A number in a range, at its ends, or just outside."""
    some = chance.choice([least, most, chance.randint(least, most), chance.randint(least, most)])
    if chance.random() < 0.01:
        some = chance.choice([max(least - 1, 0), most + 1, 2**32 - 1, 2**32])
    return ("0" * chance.choice([0, 0, 0, 2])) + str(some)


def degrees(chance, least, most):
    some = f"{chance.uniform(least, most):.{chance.randrange(8)}f}"
    if chance.random() < 0.02:
        some = chance.choice(["90", "-90", "90.000001", "180", "1e2", "", "x"])
    return " " * chance.choice([0, 0, 0, 1]) + some


def edit(chance, lines, stations):
    """An edit of one of these lines or stations."""
    line, station = one_of(chance, lines), one_of(chance, stations)
    words = chance.choice([
        ["hide", line],
        ["hide", line],
        ["show", line],
        ["show", line],
        ["undo"],
        ["near", number(chance, 20, 20000)],
        ["near", str(chance.randint(200, 900))],
        ["cell", chance.choice(["0", number(chance, 10, 1000000)])],
        ["budget", number(chance, 1, 100000)],
        ["weight", chance.choice(["station", "junction"])] + [number(chance, 0, chance.choice([9, 1000])) for _ in range(3)],
        ["rename", station, chance.choice(["", "Nord", "Süd", "a b", "<&>\"'"])],
        ["move", station, degrees(chance, 48, 48.03), degrees(chance, 16, 16.03)],
        ["colour", line, "%06x" % chance.randrange(2**24)],
        ["colour", line, "%06X" % chance.randrange(2**24)],
        ["importance", line, number(chance, 1, 16)],
    ])
    return "\t".join(words).encode()


def spoiled(chance, line):
    """A line with something wrong, or nearly so."""
    at = chance.randrange(len(line) + 1)
    return chance.choice([
        b"",
        b"draw",
        b"undo",
        b"undo\t",
        line.replace(b"\t", b" ", 1),
        line.replace(b"\t", b"\t\t", 1),
        line + b"\t",
        b" " + line,
        line + b"\r",
        line[:at] + b"\xff" + line[at:],
        line[:at] + line[at + 1:],
        line.upper(),
        b"\xef\xbb\xbf" + line,
    ])


def script(chance, lines, stations):
    """The bytes of a file of edits."""
    lines = [edit(chance, lines, stations) for _ in range(chance.choice([0, 1, 2, 4, 8, 16]))]
    if lines and chance.random() < 0.3:
        at = chance.randrange(len(lines))
        lines[at] = spoiled(chance, lines[at])
    ends = [chance.choice([b"\n", b"\n", b"\r\n"]) for _ in lines]
    if ends and chance.random() < 0.3:
        ends[-1] = chance.choice([b"", b"\r"])
    return b"".join(line + end for line, end in zip(lines, ends))


def main():
    parser = argparse.ArgumentParser(description=__doc__, formatter_class=argparse.RawDescriptionHelpFormatter)
    parser.add_argument("--feeds", type=int, default=200)
    parser.add_argument("--scripts", type=int, default=5)
    parser.add_argument("--seed", type=int, default=1)
    parser.add_argument("--work", default=os.path.join(tempfile.gettempdir(), "octimap-edits"))
    parser.add_argument("--ours", default=OURS)
    parser.add_argument("program", metavar="PROGRAM")
    given = parser.parse_args()
    programs = [os.path.abspath(given.ours), os.path.abspath(given.program)]
    statuses = collections.Counter()
    runs = others = 0
    for seed in range(given.seed, given.seed + given.feeds):
        folder = os.path.join(given.work, str(seed))
        os.makedirs(os.path.join(folder, "feed"), exist_ok=True)
        chance = random.Random(seed)
        write_feed(os.path.join(folder, "feed"), chance)
        lines, stations = ids_in(os.path.join(folder, "feed"), "routes"), ids_in(os.path.join(folder, "feed"), "stops")
        differs = False

        def compare(words, outputs):
            nonlocal runs, differs
            ours, theirs = (run(program, words, folder, outputs) for program in programs)
            runs += 1
            if ours != theirs:
                differs = True
                print(f"{folder}: {' '.join(words)}: status {ours[0]} and {theirs[0]}: {ours[1][:60]!r} and {theirs[1][:60]!r}")
            return theirs

        for place in range(given.scripts):
            name = f"edits{place}"
            with open(os.path.join(folder, name), "wb") as out:
                out.write(script(chance, lines, stations))
            options = ["--edits", name]
            compare(["graph", "feed"] + options, [])
            status, _, files = compare(["make", "feed", "svg", "cert"] + options, ["svg", "cert"])
            statuses[status] += 1
            if status == 0:
                for one, text in files.items():
                    with open(os.path.join(folder, one), "wb") as out:
                        out.write(text)
                compare(["check", "feed", "svg", "cert"] + options, [])
                compare(["check", "feed", "svg", "cert"], [])
        compare(["graph", "feed", "--edits", "none"], [])
        if differs:
            others += 1
        else:
            shutil.rmtree(folder)
    print(f"{given.feeds} feeds, {runs} runs; make ended " + ", ".join(f"{n} times with {s}" for s, n in sorted(statuses.items())))
    print(f"{others} feeds on which the programs differ")
    return 1 if others else 0


if __name__ == "__main__":
    sys.exit(main())
