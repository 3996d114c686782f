#!/usr/bin/env python3
"""Compares `octimap make` and `octimap check` with another program on small random feeds and changed certificates.

    bench/agree_make.py [--feeds N] [--changes N] [--seed S] [--work FOLDER] [--ours PROGRAM] PROGRAM

Makes N feeds as bench/agree.py does, and runs `make` of both programs on each. Where both draw a map, runs `check` on
it, and on N changes of the certificate each, and of the picture: a digit, a byte or a line changed, dropped, doubled or
exchanged with another. Prints on how many runs the programs agree in status, standard output and the bytes of the
files. A feed on which they don't is kept, and named. Ends with 1 where there is one.
"""
import argparse
import collections
import os
import random
import shutil
import subprocess
import sys
import tempfile

from agree import write_feed
from measuring import OURS


def run(program, words, folder, outputs):
    """Status, standard output and the files that a run wrote into the folder."""
    for name in outputs:
        path = os.path.join(folder, name)
        if os.path.exists(path):
            os.remove(path)
    done = subprocess.run([program] + words, cwd=folder, capture_output=True)
    files = {}
    for name in outputs:
        path = os.path.join(folder, name)
        if os.path.exists(path):
            with open(path, "rb") as file:
                files[name] = file.read()
    return done.returncode, done.stdout, files


def changed_line(chance, lines):
    """Lines of which one is dropped, doubled, or exchanged with another."""
    at, other = chance.randrange(len(lines)), chance.randrange(len(lines))
    way = chance.randrange(3)
    if way == 0:
        return lines[:at] + lines[at + 1:]
    if way == 1:
        return lines[:at] + [lines[at]] + lines[at:]
    lines = list(lines)
    lines[at], lines[other] = lines[other], lines[at]
    return lines


def changed_word(chance, lines):
    """Lines of which one number is a little greater, a little less, or another."""
    lines = list(lines)
    at = chance.randrange(len(lines))
    words = lines[at].split(b" ")
    places = [i for i, word in enumerate(words) if word.lstrip(b"-").isdigit()]
    if not places:
        return changed_line(chance, lines)
    place = chance.choice(places)
    number = int(words[place])
    words[place] = b"%d" % chance.choice([number + 1, number - 1, -number, 0, number * 10, 2**32, chance.randrange(9)])
    lines[at] = b" ".join(words)
    return lines


def changed(chance, text):
    """A text with a change or a few."""
    for _ in range(chance.choice([1, 1, 1, 2, 3])):
        way = chance.choice([0, 1, 2, 2, 2, 2, 3])
        if way == 0 and text:
            at = chance.randrange(len(text))
            text = text[:at] + bytes([chance.choice(b"0123456789 -\nENSWx\r")]) + text[at + chance.randrange(2):]
        elif way == 1 and text:
            text = text[:chance.randrange(len(text))]
        else:
            lines = text.split(b"\n")
            text = b"\n".join(changed_word(chance, lines) if way == 2 else changed_line(chance, lines))
    return text


def main():
    parser = argparse.ArgumentParser(description=__doc__, formatter_class=argparse.RawDescriptionHelpFormatter)
    parser.add_argument("--feeds", type=int, default=500)
    parser.add_argument("--changes", type=int, default=10)
    parser.add_argument("--seed", type=int, default=1)
    parser.add_argument("--work", default=os.path.join(tempfile.gettempdir(), "octimap-agree-make"))
    parser.add_argument("--ours", default=OURS)
    parser.add_argument("program", metavar="PROGRAM")
    given = parser.parse_args()
    programs = [os.path.abspath(given.ours), os.path.abspath(given.program)]
    statuses, answers = collections.Counter(), collections.Counter()
    runs = others = 0
    for seed in range(given.seed, given.seed + given.feeds):
        folder = os.path.join(given.work, str(seed))
        os.makedirs(os.path.join(folder, "feed"), exist_ok=True)
        chance = random.Random(seed)
        write_feed(os.path.join(folder, "feed"), chance)
        differs = False

        def compare(words, outputs):
            nonlocal runs, differs
            ours, theirs = (run(program, words, folder, outputs) for program in programs)
            runs += 1
            if ours != theirs:
                differs = True
                print(f"{folder}: {' '.join(words)}: status {ours[0]} and {theirs[0]}: {ours[1][:60]!r} and {theirs[1][:60]!r}")
            return theirs

        status, _, files = compare(["make", "feed", "svg", "cert"], ["svg", "cert"])
        statuses[status] += 1
        if status == 0:
            compare(["check", "feed", "svg", "cert"], [])
            for name in ["cert"] * given.changes + ["svg"]:
                for one, text in files.items():
                    with open(os.path.join(folder, one), "wb") as out:
                        out.write(changed(chance, text) if one == name else text)
                said = compare(["check", "feed", "svg", "cert"], [])[1]
                answers[said.decode("utf-8", "replace").split("\n")[0].rstrip("0123456789 ").split(" after")[0]] += 1
                if differs:
                    break
        if differs:
            others += 1
        else:
            shutil.rmtree(folder)
    print(f"statuses of make: {dict(sorted(statuses.items()))}")
    print(f"answers of check: {dict(answers.most_common())}")
    print(f"{runs} runs; {given.feeds - others} of {given.feeds} feeds: same status and bytes")
    sys.exit(1 if others else 0)


if __name__ == "__main__":
    main()
