#!/usr/bin/env python3
"""Compares `octimap check` with another program on changed certificates.

    bench/changed_certificates.py [--changes N] [--each N] [--seed S] [--seconds S] [--work FOLDER] [--ours PROGRAM] PROGRAM

Makes small feeds, some at random and some of a trunk on whose line orders a search works, and their maps and certificates by the
other program, by each search, and with a bound where the search is cut off. Then runs `check` of both programs, where best orders
are claimed or a bound, on N changes of these certificates (100,000): lines exchanged, doubled, dropped, moved, or taken from another
certificate; numbers one greater or less, negative, or at a limit; parts of a tree of a search exchanged, doubled, dropped or closed,
forks turned; bytes changed. Prints how often each answer came, and on how many the
programs agree in status and standard output. A certificate on which they don't is kept, and named. Ends with 1 where there is one,
or where a run was ended by a signal or took longer than S seconds (20).
"""
import argparse
import collections
import os
import random
import re
import shutil
import signal
import subprocess
import sys
import tempfile

from agree import write_feed
from measuring import OURS

LIMITS = [0, 1, 2, 3, 7, 8, 9, 16, 17, 255, 256, 1000, 2047, 2048, 2049, 9999, 10000, 19999, 20000, 20000000, 20000001, 2**31 - 1, 2**31,
          2**32 - 1, 2**32, 2**53, 2**63 - 1, 2**63, 2**64 - 1, 2**64, 99999999999999999999]
BENCH = os.path.dirname(os.path.abspath(__file__))


def changed_lines(chance, lines, others):
    """Lines exchanged, doubled, dropped, moved, or taken from another certificate."""
    at, to = chance.randrange(len(lines)), chance.randrange(len(lines))
    way = chance.randrange(6)
    if way == 0:
        lines[at], lines[to] = lines[to], lines[at]
    elif way == 1:
        lines.insert(at, lines[at])
    elif way == 2:
        del lines[at]
    elif way == 3:
        line = lines.pop(at)
        lines.insert(to, line)
    elif way == 4:
        lines[at] = chance.choice(others)
    else:
        # A line of the same word, from elsewhere.
        alike = [line for line in others if line.split(b" ")[0] == lines[at].split(b" ")[0]]
        if alike:
            lines[at] = chance.choice(alike)


def changed_number(chance, lines, others):
    """A number one greater or less, negative, spelt otherwise, at a limit, or exchanged with another one of its line."""
    at = chance.randrange(len(lines))
    spots = [found.span() for found in re.finditer(rb"-?\d+", lines[at])]
    if not spots:
        return changed_lines(chance, lines, others)
    begin, end = chance.choice(spots)
    number = int(lines[at][begin:end])
    other = chance.choice(spots)
    spelt = chance.choice([b"%d" % (number + 1), b"%d" % (number - 1), b"%d" % -number, b"%d" % chance.choice(LIMITS), b"0%d" % number,
                           b"+%d" % number, lines[at][other[0]:other[1]], b"%d" % (number * 2), b""])
    lines[at] = lines[at][:begin] + spelt + lines[at][end:]


def changed_words(chance, lines, others):
    """A word of a line doubled, dropped, or exchanged with the next."""
    at = chance.randrange(len(lines))
    words = lines[at].split(b" ")
    place, way = chance.randrange(len(words)), chance.randrange(3)
    if way == 0:
        words.insert(place, words[place])
    elif way == 1:
        del words[place]
    elif place + 1 < len(words):
        words[place], words[place + 1] = words[place + 1], words[place]
    lines[at] = b" ".join(words)


def block_at(lines, at):
    """The end of the part of a tree that begins at a line: a leaf, a split with all that is taken of it, or a fork with two trees."""
    depth, place = 0, at
    while place < len(lines):
        word = lines[place].split(b" ")[0]
        if word == b"split":
            depth += int(lines[place].split(b" ")[2]) if lines[place].count(b" ") == 2 and lines[place].split(b" ")[2].isdigit() else 1
        elif word == b"fork":
            depth += 1 if depth else 2
        elif word in (b"close", b"stop"):
            depth -= 1
            if depth <= 0:
                return place + 1
        elif word != b"take":
            return place
        place += 1
    return place


def changed_tree(chance, lines, others):
    """Parts of a tree exchanged, doubled, dropped, closed, or put elsewhere."""
    begins = [k for k, line in enumerate(lines) if line.split(b" ")[0] in (b"split", b"take", b"close", b"fork", b"stop")]
    if not begins:
        return changed_number(chance, lines, others)
    at = chance.choice(begins)
    end = block_at(lines, at)
    block, way = lines[at:end], chance.randrange(6)
    if way == 0:
        del lines[at:end]
    elif way == 1:
        lines[at:at] = block
    elif way == 2:
        lines[at:end] = [b"close %d" % chance.randrange(60)]
    elif way == 3:
        del lines[at:end]
        to = chance.choice([k for k in begins if k <= len(lines)])
        lines[to:to] = block
    elif way == 4:
        turns = chance.choice([1, 2, 2047, 2048, 2049])
        chain = [b"split 0 1", b"take 0"] * turns + [b"close 0"], [b"fork 0 0 1"] * turns + [b"stop 0"] * (turns + 1)
        lines[at:end] = chance.choice(chain)
    else:
        stops = [line for line in others if line.startswith(b"stop ")]
        lines[at:end] = [chance.choice(stops)] if stops else []


def changed_byte(chance, lines, others):
    """A byte changed, put in, or taken out, or the text cut."""
    text = b"\n".join(lines)
    at = chance.randrange(len(text))
    if chance.random() < 0.2:
        text = text[:at]
    else:
        text = text[:at] + chance.choice([bytes([chance.randrange(256)]), chance.choice([b"\n", b" ", b"\r\n", b"-", b"0", b"\t", b"\0", b""])]) + text[at + chance.randrange(2):]
    lines[:] = text.split(b"\n")


CHANGES = [changed_lines, changed_number, changed_number, changed_words, changed_tree, changed_tree, changed_byte]


def changed(chance, text, others):
    lines = text.split(b"\n")
    for _ in range(chance.choice([1, 1, 1, 1, 2, 3])):
        chance.choice(CHANGES)(chance, lines, others)
        lines = lines or [b""]
    return b"\n".join(lines)


def make_feed(chance, folder, seed):
    """A small feed: at random, or a trunk."""
    if seed % 3 == 0:
        os.makedirs(folder)
        write_feed(folder, chance)
        return
    words = ["--segments", str(chance.randrange(3, 11)), "--lines", str(chance.randrange(2, 6)), "--stay", str(chance.randrange(2, 7)), "--seed", str(seed)]
    subprocess.run([sys.executable, os.path.join(BENCH, "trunk.py"), folder] + words, check=True)


class Runner:
    """Runs programs in a folder."""

    def __init__(self, folder, seconds):
        self.said, self.seconds = os.path.join(folder, "said"), seconds

    def run(self, program, words):
        """Status and standard output; the status is negative for a signal, and None where it took too long."""
        child = os.posix_spawn(program, [program] + words, {}, file_actions=[
            (os.POSIX_SPAWN_OPEN, 0, "/dev/null", os.O_RDONLY, 0),
            (os.POSIX_SPAWN_OPEN, 1, self.said, os.O_WRONLY | os.O_CREAT | os.O_TRUNC, 0o600),
            (os.POSIX_SPAWN_OPEN, 2, "/dev/null", os.O_WRONLY, 0),
        ])
        signal.signal(signal.SIGALRM, lambda *_: os.kill(child, signal.SIGKILL))
        signal.alarm(self.seconds)
        _, status = os.waitpid(child, 0)
        late = signal.alarm(0) == 0
        with open(self.said, "rb") as said:
            return None if late else os.waitstatus_to_exitcode(status), said.read()


# How the certificates are made that are changed.
WAYS = ['search = "live"\n', 'search = "dual"\n', 'search = "dual"\nproof = "bound"\nbudget = 1\n', 'search = "dual"\nproof = "bound"\nbudget = 4\n']


def certificates_of(chance, seed, program):
    """The certificates of a feed in each way, if it has a map; the map is that of the last."""
    make_feed(chance, "feed", seed)
    found = []
    for way in WAYS:
        with open("settings.toml", "w") as out:
            out.write(way)
        done = subprocess.run([program, "make", "feed", "svg", "cert", "--settings", "settings.toml"], capture_output=True)
        if done.returncode == 0:
            with open("cert", "rb") as file:
                found.append(file.read())
    return found


def kind_of(status, said):
    """An answer without its numbers."""
    return f"{status} " + re.sub(r"[0-9 ]+", " ", said.decode("utf-8", "replace").split("\n")[0]).strip()


def main():
    parser = argparse.ArgumentParser(description=__doc__, formatter_class=argparse.RawDescriptionHelpFormatter)
    parser.add_argument("--changes", type=int, default=100_000)
    parser.add_argument("--each", type=int, default=300, help="changes of the certificates of one feed")
    parser.add_argument("--seed", type=int, default=1)
    parser.add_argument("--seconds", type=int, default=20)
    parser.add_argument("--work", default="/dev/shm" if os.path.isdir("/dev/shm") else None)
    parser.add_argument("--ours", default=OURS)
    parser.add_argument("program", metavar="PROGRAM")
    given = parser.parse_args()
    ours, theirs = os.path.abspath(given.ours), os.path.abspath(given.program)
    top = tempfile.mkdtemp(prefix="octimap-changed-", dir=given.work)
    runner = Runner(top, given.seconds)
    answers, runs, others, seed, kept = collections.Counter(), 0, 0, given.seed, []
    while runs < given.changes:
        folder = os.path.join(top, str(seed))
        os.makedirs(folder)
        os.chdir(folder)
        chance = random.Random(seed)
        found = certificates_of(chance, seed, theirs)
        with open("bound.toml", "w") as out:
            out.write('proof = "bound"\n')
        lines = sorted({line for text in found for line in text.split(b"\n")})
        differs = False
        for _ in range(given.each if found else 0):
            with open("cert", "wb") as out:
                out.write(changed(chance, chance.choice(found), lines))
            words = ["check", "feed", "svg", "cert"] + chance.choice([[], ["--settings", "bound.toml"]])
            first, second = (runner.run(program, words) for program in (ours, theirs))
            runs += 1
            answers[kind_of(*first)] += 1
            if first != second or first[0] is None or first[0] < 0:
                differs, others = True, others + 1
                name = f"cert-{runs}"
                shutil.copy("cert", name)
                kept.append(os.path.join(folder, name))
                print(f"{folder}/{name}: status {first[0]} and {second[0]}: {first[1][:60]!r} and {second[1][:60]!r}", flush=True)
        os.chdir(top)
        if not differs:
            shutil.rmtree(folder)
        seed += 1
    for answer, count in answers.most_common():
        print(f"  {count:7} {answer}")
    print(f"{runs} changed certificates of {seed - given.seed} feeds; {others} with another status or answer")
    if not kept:
        shutil.rmtree(top)
    sys.exit(1 if others else 0)


if __name__ == "__main__":
    main()
