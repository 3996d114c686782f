#!/usr/bin/env python3
"""Times `octimap graph` on a feed.

    bench/graph.py [--runs K] FEED [PROGRAM ..]

Runs this repository's program and each PROGRAM on the folder FEED in turn, K times each. PROGRAM is called as
`PROGRAM graph FEED`. Prints for each the least time, the greatest peak of memory, the ratio to the first program
named, and whether it wrote the same bytes.
"""
import argparse

from measuring import compare


def main():
    parser = argparse.ArgumentParser(description=__doc__, formatter_class=argparse.RawDescriptionHelpFormatter)
    parser.add_argument("--runs", type=int, default=5)
    parser.add_argument("feed", metavar="FEED")
    parser.add_argument("programs", nargs="*", metavar="PROGRAM")
    given = parser.parse_args()
    compare(given.programs, "graph", given.feed, given.runs)


if __name__ == "__main__":
    main()
