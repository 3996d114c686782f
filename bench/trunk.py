#!/usr/bin/env python3
"""Writes a feed of one long trunk, on whose line orders a search has to work long.

    bench/trunk.py OUT [--segments N] [--lines N] [--stay N] [--seed S]

The trunk has N segments from west to east, 600 metres each, with about so many lines on each. A line comes onto the
trunk from a station north or south of it, stays for a random number of segments, about `--stay`, and leaves to a
station north or south; where one leaves, another comes. All its segments but the short ends are one part of the
ordering problem. Same words, same bytes.
"""
import argparse
import os
import random

from agree import write_table

STEP = 600 / 111320.0


def courses_of(chance, segments, lines, stay):
    """For each line the first and last node of its way on the trunk, and on which sides it comes and leaves."""
    courses = []
    open_ends = []
    for node in range(segments + 1):
        for course in [c for c in open_ends if c["last"] == node]:
            open_ends.remove(course)
        while len(open_ends) < lines and node < segments:
            last = min(segments, node + 1 + int(chance.expovariate(1 / stay)))
            course = {"first": node, "last": last, "from": chance.choice("NS"), "to": chance.choice("NS")}
            courses.append(course)
            open_ends.append(course)
    return courses


def main():
    words = argparse.ArgumentParser(description=__doc__, formatter_class=argparse.RawDescriptionHelpFormatter)
    words.add_argument("out")
    words.add_argument("--segments", type=int, default=150)
    words.add_argument("--lines", type=int, default=4)
    words.add_argument("--stay", type=int, default=12)
    words.add_argument("--seed", type=int, default=1)
    given = words.parse_args()
    chance = random.Random(given.seed)
    courses = courses_of(chance, given.segments, given.lines, given.stay)
    stations = {f"T{node}": (48.0, 16.0 + node * STEP) for node in range(given.segments + 1)}
    trips, stop_times = [], []
    for line, course in enumerate(courses):
        ends = [(course["first"], course["from"]), (course["last"], course["to"])]
        for node, side in ends:
            stations[f"{side}{node}"] = (48.0 + (STEP if side == "N" else -STEP), 16.0 + node * STEP)
        stops = [f"{ends[0][1]}{ends[0][0]}"]
        stops += [f"T{node}" for node in range(course["first"], course["last"] + 1)]
        stops += [f"{ends[1][1]}{ends[1][0]}"]
        trips.append(f"L{line},R{line}")
        stop_times += [f"R{line},{stop},{place}" for place, stop in enumerate(stops)]
    os.makedirs(given.out, exist_ok=True)
    write_table(given.out, "stops", "stop_id,stop_lat,stop_lon", [f"{name},{lat:.6f},{lon:.6f}" for name, (lat, lon) in stations.items()])
    write_table(given.out, "routes", "route_id,route_type", [f"L{line},1" for line in range(len(courses))])
    write_table(given.out, "trips", "route_id,trip_id", trips)
    write_table(given.out, "stop_times", "trip_id,stop_id,stop_sequence", stop_times)


if __name__ == "__main__":
    main()
