#!/usr/bin/env python3
"""Compares `octimap graph` with another program on small random feeds.

    bench/agree.py [--feeds N] [--seed S] [--work FOLDER] [--ours PROGRAM] PROGRAM

Makes N feeds of a few stations and lines, with and without shapes, with stations on one point, stations that a
trip visits twice, and trips that turn back; runs this repository's program and `PROGRAM graph FEED` on each; and
prints on how many they agree in status and bytes. A feed on which they don't is kept, and named. Ends with 1 where
there is one.
"""
import argparse
import os
import random
import shutil
import subprocess
import sys
import tempfile

from measuring import OURS


def places_of(chance):
    """Degrees of the stations: at random, in part on one point, or on a lattice."""
    count = chance.randrange(2, 14)
    extent = chance.choice([0.002, 0.01, 0.03])
    if chance.random() < 0.2:
        return [(48 + (i % 4) * 0.003, 16 + (i // 4) * 0.004) for i in range(count)], extent
    places = [(48 + chance.random() * extent, 16 + chance.random() * extent) for _ in range(count)]
    if chance.random() < 0.3:
        for _ in range(count // 3):
            places[chance.randrange(count)] = places[chance.randrange(count)]
    return places, extent


def stops_of(chance, count):
    """The stations that a trip visits."""
    stops = [chance.randrange(count) for _ in range(chance.randrange(1, 8))]
    if chance.random() < 0.3 and len(stops) > 2:
        stops = stops + stops[::-1]
    if chance.random() < 0.2:
        stops = stops + [stops[0]]
    return stops


def shape_of(chance, places, stops, extent):
    """Points near the stations of a trip, and some others between them."""
    shape = []
    for stop in stops:
        lat, lon = places[stop]
        shape.append((lat + (chance.random() - 0.5) * 0.0006, lon + (chance.random() - 0.5) * 0.0006))
        if chance.random() < 0.4:
            shape.append((48 + chance.random() * extent, 16 + chance.random() * extent))
    return shape


def write_feed(folder, chance):
    places, extent = places_of(chance)
    routes, trips, stop_times, shapes = [], [], [], []
    for line in range(chance.randrange(1, 7)):
        routes.append(f"L{line},{chance.choice([0, 1, 2, 3, 5])}")
        for _ in range(chance.randrange(1, 4)):
            trip = len(trips)
            stops = stops_of(chance, len(places))
            shape = f"H{trip}" if chance.random() < 0.5 else ""
            trips.append(f"L{line},T{trip},{shape}")
            stop_times += [f"T{trip},S{stop},{place}" for place, stop in enumerate(stops)]
            if shape:
                points = shape_of(chance, places, stops, extent)
                shapes += [f"{shape},{lat:.6f},{lon:.6f},{place}" for place, (lat, lon) in enumerate(points)]
    write_table(folder, "stops", "stop_id,stop_lat,stop_lon", [f"S{i},{lat:.6f},{lon:.6f}" for i, (lat, lon) in enumerate(places)])
    write_table(folder, "routes", "route_id,route_type", routes)
    write_table(folder, "trips", "route_id,trip_id,shape_id", trips)
    write_table(folder, "shapes", "shape_id,shape_pt_lat,shape_pt_lon,shape_pt_sequence", shapes)
    write_table(folder, "stop_times", "trip_id,stop_id,stop_sequence", stop_times)


def write_table(folder, name, header, rows):
    with open(os.path.join(folder, name + ".txt"), "w", encoding="utf-8") as out:
        out.write("\n".join([header] + rows) + "\n")


def main():
    parser = argparse.ArgumentParser(description=__doc__, formatter_class=argparse.RawDescriptionHelpFormatter)
    parser.add_argument("--feeds", type=int, default=500)
    parser.add_argument("--seed", type=int, default=1)
    parser.add_argument("--work", default=os.path.join(tempfile.gettempdir(), "octimap-agree"))
    parser.add_argument("--ours", default=OURS)
    parser.add_argument("program", metavar="PROGRAM")
    given = parser.parse_args()
    others = 0
    for seed in range(given.seed, given.seed + given.feeds):
        folder = os.path.join(given.work, str(seed))
        os.makedirs(folder, exist_ok=True)
        write_feed(folder, random.Random(seed))
        ours = subprocess.run([given.ours, "graph", folder], capture_output=True)
        theirs = subprocess.run([given.program, "graph", folder], capture_output=True)
        if (ours.returncode, ours.stdout) == (theirs.returncode, theirs.stdout):
            shutil.rmtree(folder)
        else:
            others += 1
            print(f"{folder}: status {ours.returncode} and {theirs.returncode}")
    print(f"{given.feeds - others} of {given.feeds} feeds: same status and bytes")
    sys.exit(1 if others else 0)


if __name__ == "__main__":
    main()
