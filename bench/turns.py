#!/usr/bin/env python3
"""Counts the turns of 45 degrees along the lines of maps.

    bench/turns.py [--settings FILE] [--ours PROGRAM] FEED ..

Makes the map of each feed by `map`, and prints how many turns its drawing has: within segments, at nodes where two
segments meet, and at junctions, where more do. A turn by 90 degrees counts twice. At a node a turn counts once for each
two segments that a line joins there, however many lines do. Ends with 1 where a feed has no map.
"""
import argparse
import os
import subprocess
import sys
import tempfile

from measuring import OURS

WAYS = ["N", "NE", "E", "SE", "S", "SW", "W", "NW"]


def turn(way, next_way):
    """How many times 45 degrees there are between two ways."""
    return min((next_way - way) % 8, (way - next_way) % 8)


def ways_of(words):
    """The ways of the runs of a walk: of `E3 NE2` east and northeast."""
    return [WAYS.index(word.rstrip("0123456789")) for word in words]


def lines_of(text, kind):
    """The words behind the first one of the lines that begin with it."""
    return [line.split()[1:] for line in text.splitlines() if line.split()[0] == kind]


def turns(graph, certificate):
    """How many turns there are within segments, at nodes of two segments, and at junctions."""
    lower = [int(words[1]) for words in lines_of(graph, "segment")]
    degree = {int(words[0]): len(words) - 1 for words in lines_of(graph, "round")}
    walks = [ways_of(words[3:]) for words in lines_of(certificate, "walk")]

    def away(segment, node):
        """The way by which a segment leaves a node."""
        walk = walks[segment]
        return walk[0] if lower[segment] == node else (walk[-1] + 4) % 8

    within = sum(turn(*pair) for walk in walks for pair in zip(walk, walk[1:]))
    between = over = 0
    for node, e, f in {tuple(map(int, words[:3])) for words in lines_of(graph, "join")}:
        found = turn((away(e, node) + 4) % 8, away(f, node))
        if degree[node] == 2:
            between += found
        else:
            over += found
    return within, between, over


def main():
    parser = argparse.ArgumentParser(description=__doc__, formatter_class=argparse.RawDescriptionHelpFormatter)
    parser.add_argument("--settings", metavar="FILE")
    parser.add_argument("--ours", default=OURS)
    parser.add_argument("feeds", nargs="+", metavar="FEED")
    given = parser.parse_args()
    further = ["--settings", given.settings] if given.settings else []
    failed = False
    for feed in given.feeds:
        with tempfile.TemporaryDirectory() as folder:
            made = [os.path.join(folder, name) for name in ("map.svg", "map.cert")]
            if subprocess.run([given.ours, "map", feed, *made, *further]).returncode != 0:
                failed = True
                continue
            graph = subprocess.run([given.ours, "graph", feed, *further], capture_output=True, check=True, text=True)
            with open(made[1]) as certificate:
                within, between, over = turns(graph.stdout, certificate.read())
        print(f"{feed}: {within} within segments, {between} where two meet, {over} at junctions: {within + between + over}")
    sys.exit(failed)


if __name__ == "__main__":
    main()
