#!/usr/bin/env python3
"""Tries the search by dual prices and its bounds on small feeds on whose line orders a search works.

    bench/bounds.py [--feeds N] [--seed S] [--budget N] [--work FOLDER] [--ours PROGRAM] [PROGRAM]

Each feed is a trunk of a few segments with up to five lines on each. The live search and the search by dual prices have to
find the same least cost, and `check` has to say so. Then, for each budget from 1 to N and under `proof = "bound"`, the bound
that `check` prints may not be above the least cost, nor the printed cost below it; and where best orders are claimed, a
certificate with a lesser bound has to be refused for its total. With PROGRAM, status, output and files of each run are also
compared with its. Ends with 1 where something is wrong.
"""
import argparse
import os
import random
import shutil
import subprocess
import sys
import tempfile

from agree_make import run
from measuring import OURS

BENCH = os.path.dirname(os.path.abspath(__file__))


def bound_of(said):
    """The cost and the bound that `check` prints."""
    words = said.split()
    return (int(words[1]), int(words[1])) if words[:1] == [b"best"] else (int(words[1]), int(words[3]))


class Trial:
    """The runs on one feed, and what is wrong with them."""

    def __init__(self, folder, programs):
        self.folder, self.programs, self.runs, self.faults = folder, programs, 0, []

    def run(self, words, settings):
        """Status, standard output and files of a run under these settings."""
        with open(os.path.join(self.folder, "settings.toml"), "w") as out:
            out.write(settings)
        found = [run(program, words + ["--settings", "settings.toml"], self.folder, ["svg", "cert"] if words[0] == "make" else [])
                 for program in self.programs]
        self.runs += 1
        if any(other != found[0] for other in found[1:]):
            self.faults.append(f"{words[0]} under {settings!r}: status {[each[0] for each in found]}")
        return found[0]

    def made(self, settings):
        """Whether a map is made; and cost and bound of its certificate, as `check` prints them."""
        status, _, files = self.run(["make", "feed", "svg", "cert"], settings)
        if status != 0:
            return status, None
        for name, text in files.items():
            with open(os.path.join(self.folder, name), "wb") as out:
                out.write(text)
        status, said, _ = self.run(["check", "feed", "svg", "cert"], settings)
        if status != 0:
            self.faults.append(f"check under {settings!r}: status {status}: {said[:60]!r}")
            return status, None
        return 0, bound_of(said)

    def bounds(self, budgets):
        """Tries each budget beside the least cost; answers how many certificates had a bound below their cost."""
        status, live = self.made('search = "live"\nbudget = 100000\n')
        if status != 0:
            return 0
        least = live[0]
        if self.made('search = "dual"\nbudget = 100000\n')[1] != (least, least):
            self.faults.append("the two searches find other costs")
        below = 0
        for budget in budgets:
            status, proved = self.made(f'search = "dual"\nproof = "bound"\nbudget = {budget}\n')
            if status != 0 or not proved[1] <= least <= proved[0]:
                self.faults.append(f"budget {budget}: status {status}, {proved}, least {least}")
            elif proved[1] < proved[0]:
                below += 1
                status, said, _ = self.run(["check", "feed", "svg", "cert"], "")
                if (status, said) != (1, b"refuted: total\n"):
                    self.faults.append(f"budget {budget}: best is claimed, and check answers {said[:60]!r}")
        return below


def main():
    parser = argparse.ArgumentParser(description=__doc__, formatter_class=argparse.RawDescriptionHelpFormatter)
    parser.add_argument("--feeds", type=int, default=200)
    parser.add_argument("--seed", type=int, default=1)
    parser.add_argument("--budget", type=int, default=6)
    parser.add_argument("--work", default=os.path.join(tempfile.gettempdir(), "octimap-bounds"))
    parser.add_argument("--ours", default=OURS)
    parser.add_argument("program", metavar="PROGRAM", nargs="*")
    given = parser.parse_args()
    programs = [os.path.abspath(program) for program in [given.ours] + given.program]
    runs = below = wrong = 0
    for seed in range(given.seed, given.seed + given.feeds):
        folder = os.path.join(given.work, str(seed))
        shutil.rmtree(folder, ignore_errors=True)
        os.makedirs(folder)
        chance = random.Random(seed)
        words = ["--segments", str(chance.randrange(3, 12)), "--lines", str(chance.randrange(2, 6)), "--stay", str(chance.randrange(2, 8))]
        subprocess.run([sys.executable, os.path.join(BENCH, "trunk.py"), os.path.join(folder, "feed"), "--seed", str(seed)] + words, check=True)
        trial = Trial(folder, programs)
        below += trial.bounds(range(1, given.budget + 1))
        runs += trial.runs
        if trial.faults:
            wrong += 1
            print(f"{folder}: {trial.faults[:4]}", flush=True)
        else:
            shutil.rmtree(folder)
    print(f"{given.feeds} feeds, {runs} runs, {below} certificates with a bound below their cost; {wrong} feeds with something wrong")
    sys.exit(1 if wrong else 0)


if __name__ == "__main__":
    main()
