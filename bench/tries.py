#!/usr/bin/env python3
"""Times drawings that need many tries beside another program.

    bench/tries.py [--runs N] [--ours PROGRAM] FOLDER.. [--program PROGRAM]..

On each feed `make` runs with the default settings, and with finest = 16 and spread = "auto" over cells of several sides,
up to one on which all nodes come to lie side by side: there each of the 55 tries fails. Prints for each program the least
user seconds of so many runs, and whether all end alike and write the same map.
"""
import argparse
import os
import resource
import subprocess
import tempfile

from measuring import OURS

SIDES = [0, 10000, 30000, 100000, 400000]


def once(program, feed, folder, settings):
    """(user seconds, how it ended and what it wrote) of one run."""
    out = os.path.join(folder, "map.svg")
    if os.path.exists(out):
        os.remove(out)
    before = resource.getrusage(resource.RUSAGE_CHILDREN).ru_utime
    words = [program, "make", feed, out, os.path.join(folder, "map.cert"), "--settings", settings]
    done = subprocess.run(words, stdout=subprocess.PIPE, stderr=subprocess.DEVNULL)
    seconds = resource.getrusage(resource.RUSAGE_CHILDREN).ru_utime - before
    drawn = open(out, "rb").read() if os.path.exists(out) else b""
    return seconds, (done.returncode, done.stdout, drawn)


def main():
    parser = argparse.ArgumentParser(description=__doc__, formatter_class=argparse.RawDescriptionHelpFormatter)
    parser.add_argument("feeds", nargs="+", metavar="FOLDER")
    parser.add_argument("--program", action="append", default=[])
    parser.add_argument("--runs", type=int, default=5)
    parser.add_argument("--ours", default=OURS)
    words = parser.parse_args()
    programs = [words.ours] + words.program
    with tempfile.TemporaryDirectory() as folder:
        for feed in words.feeds:
            for side in SIDES:
                settings = os.path.join(folder, "settings.toml")
                with open(settings, "w", encoding="utf-8") as text:
                    text.write('finest = 16\nspread = "auto"\n' + (f"cell = {side}\n" if side else ""))
                runs = {p: [once(p, feed, folder, settings) for _ in range(words.runs)] for p in programs}
                ends = {end for some in runs.values() for _, end in some}
                times = " ".join(f"{min(seconds for seconds, _ in runs[p]):.3f}" for p in programs)
                print(f"{os.path.basename(feed)} cell {side}: {times} {'alike' if len(ends) == 1 else 'DIFFERENT'}")


if __name__ == "__main__":
    main()
