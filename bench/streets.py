#!/usr/bin/env python3
"""Writes a feed of streets that cross, on whose line orders untangling has to work long.

    bench/streets.py OUT [--streets N] [--lines N]

N streets lead from west to east and as many from south to north, a kilometre apart, with a station at each crossing and so
many lines along each street. Each two segments of a street can be merged, so all of the ordering problem is untangled and
nothing is left to search: 55 streets either way with 6 lines each have 5,940 segments, 174,900 terms and 6,380 rules. Same
words, same bytes.
"""
import argparse
import os

from agree import write_table


def main():
    words = argparse.ArgumentParser(description=__doc__, formatter_class=argparse.RawDescriptionHelpFormatter)
    words.add_argument("out")
    words.add_argument("--streets", type=int, default=55)
    words.add_argument("--lines", type=int, default=6)
    given = words.parse_args()
    places = range(given.streets)
    stops = [f"{x}-{y},{48 + 0.01 * y:.6f},{16 + 0.015 * x:.6f}" for y in places for x in places]
    ways = [[f"{x}-{y}" for x in places] for y in places] + [[f"{x}-{y}" for y in places] for x in places]
    courses = [way for way in ways for _ in range(given.lines)]
    os.makedirs(given.out, exist_ok=True)
    write_table(given.out, "stops", "stop_id,stop_lat,stop_lon", stops)
    write_table(given.out, "routes", "route_id,route_type", [f"L{line},1" for line in range(len(courses))])
    write_table(given.out, "trips", "route_id,trip_id", [f"L{line},R{line}" for line in range(len(courses))])
    rows = [f"R{line},{stop},{place}" for line, way in enumerate(courses) for place, stop in enumerate(way)]
    write_table(given.out, "stop_times", "trip_id,stop_id,stop_sequence", rows)


if __name__ == "__main__":
    main()
