#!/usr/bin/env python3
"""Times `octimap make` on feeds at the limits of the drawing.

    bench/limits.py [--work FOLDER] [--only WORD] [--ours PROGRAM] [PROGRAM ..]

Makes feeds of nearly 10,000 stations on few points, of nearly 20,000 segments, of nodes whose eight ports are all taken,
and of a node of nine segments, which no drawing has. Runs `make` on each, by this repository's program and each PROGRAM,
and prints the status, what was said, the time and the peak of memory, and whether the programs agree.
"""
import argparse
import hashlib
import math
import os
import subprocess
import tempfile
import time

from agree import write_table
from measuring import OURS


def write_feed(folder, places, lines):
    """A feed of stations at these degrees, and of lines, each a list of stations."""
    os.makedirs(folder, exist_ok=True)
    write_table(folder, "stops", "stop_id,stop_name,stop_lat,stop_lon", [f"S{i},S{i},{lat:.6f},{lon:.6f}" for i, (lat, lon) in enumerate(places)])
    write_table(folder, "routes", "route_id,route_type", [f"L{i},1" for i in range(len(lines))])
    write_table(folder, "trips", "route_id,service_id,trip_id", [f"L{i},X,T{i}" for i in range(len(lines))])
    write_table(folder, "stop_times", "trip_id,stop_id,stop_sequence", [f"T{i},S{stop},{k}" for i, line in enumerate(lines) for k, stop in enumerate(line)])


def lattice(side, step=0.001):
    """Stations on a square lattice, a line along each row and each column."""
    places = [(row * step, column * step) for row in range(side) for column in range(side)]
    rows = [[row * side + column for column in range(side)] for row in range(side)]
    columns = [[row * side + column for row in range(side)] for column in range(side)]
    return places, rows + columns


def diagonals(side):
    """Lines along the diagonals through every second node of a lattice."""
    rising = [[(first + k) * side + k for k in range(side) if 0 <= first + k < side] for first in range(-side + 1, side) if first % 2 == 0]
    falling = [[(first - k) * side + k for k in range(side) if 0 <= first - k < side] for first in range(2 * side - 1) if first % 2 == 0]
    return [line for line in rising + falling if len(line) > 1]


def eight_ports(side):
    """A lattice in which every second node has a line to each of its eight neighbours."""
    places, lines = lattice(side)
    return places, lines + diagonals(side)


def few_points(count, points, per_line):
    """Stations on few points; each line visits some that stand on different ones."""
    places = [(0.02 * (i % points), 0.02 * (i * i % points)) for i in range(count)]
    return places, [list(range(i, min(i + per_line, count))) for i in range(0, count - 1, per_line - 1)]


def star(count):
    """A node with this many segments."""
    turns = [2 * math.pi * k / count for k in range(count)]
    places = [(0.0, 0.0)] + [(0.05 * math.cos(turn), 0.05 * math.sin(turn)) for turn in turns]
    return places, [[0, k + 1] for k in range(count)]


def whole_rounds():
    """Four nodes of eight segments in a row, each with all its ports."""
    step = 0.009
    places, lines = [], []
    for k in range(4):
        centre = len(places)
        places.append((0.0, 3 * k * step))
        for dy, dx in [(1, 0), (1, 1), (0, 1), (-1, 1), (-1, 0), (-1, -1), (0, -1), (1, -1)]:
            places.append((dy * step, (3 * k + dx) * step))
            lines.append([centre, len(places) - 1])
    return places, lines + [[9 * k + 3, 9 * k + 16] for k in range(3)]


FEEDS = {
    "20,000 segments": lambda: lattice(100),
    "nodes of eight segments": lambda: eight_ports(70),
    "10,000 stations on 4 points": lambda: few_points(10_000, 4, 15),
    "10,000 stations on 30 points": lambda: few_points(10_000, 30, 15),
    "2,000 stations on 2 points": lambda: few_points(2_000, 2, 3),
    "a node of eight segments": lambda: star(8),
    "a node of nine segments": lambda: star(9),
    "four whole rounds": whole_rounds,
}


def make(program, work):
    """Status, what was said, a digest of the files, seconds and peak in MiB."""
    for name in ["svg", "cert"]:
        if os.path.exists(os.path.join(work, name)):
            os.remove(os.path.join(work, name))
    started = time.monotonic()
    child = subprocess.Popen([program, "make", "feed", "svg", "cert"], cwd=work, stdout=subprocess.PIPE)
    said = child.stdout.read().decode("utf-8", "replace").strip()
    _, status, usage = os.wait4(child.pid, 0)
    seconds = time.monotonic() - started
    digest = hashlib.sha256()
    for name in ["svg", "cert"]:
        if os.path.exists(os.path.join(work, name)):
            with open(os.path.join(work, name), "rb") as file:
                digest.update(file.read())
    return (os.waitstatus_to_exitcode(status), said, digest.hexdigest()), seconds, usage.ru_maxrss / 1024


def main():
    parser = argparse.ArgumentParser(description=__doc__, formatter_class=argparse.RawDescriptionHelpFormatter)
    parser.add_argument("--work", default=os.path.join(tempfile.gettempdir(), "octimap-limits"))
    parser.add_argument("--only", default="")
    parser.add_argument("--ours", default=OURS)
    parser.add_argument("programs", nargs="*", metavar="PROGRAM")
    given = parser.parse_args()
    for name, feed in FEEDS.items():
        if given.only not in name:
            continue
        write_feed(os.path.join(given.work, "feed"), *feed())
        first = None
        for program in [given.ours] + given.programs:
            answer, seconds, peak = make(os.path.abspath(program), given.work)
            first = first or answer
            agrees = "" if program == given.ours else ", the same" if answer == first else ", OTHER"
            print(f"{name}: {os.path.basename(program)}: status {answer[0]}, {answer[1]!r}, {seconds:.2f} s, peak {peak:.0f} MiB{agrees}", flush=True)


if __name__ == "__main__":
    main()
