#!/usr/bin/env python3
"""Compares `poster` with another program on small random feeds with hostile names and colours.

    bench/agree_posters.py [--feeds N] [--seed S] [--work FOLDER] [--ours PROGRAM] PROGRAM

Makes N feeds as bench/agree.py does, with names of stations and lines that are empty, of one letter, of two hundred, of
common first words, of spaces, markup and characters beyond U+FFFF, and with dark, pale and missing colours; some with up
to two hundred lines beside each other. Each gets a map by this repository's program. The posters of its certificate, and of
the same with one word changed, are made by both programs, and status, standard output and bytes are compared. A feed on
which something differs is kept, and named. Ends with 1 where there is one.
"""
import argparse
import collections
import os
import random
import shutil
import sys
import tempfile

from agree import places_of, shape_of, stops_of, write_table
from agree_make import run
from agree_settings import changed
from measuring import OURS

FIRST = ["U ", "S+U ", "Am ", "U  ", " ", "", "", ""]
PIECES = ["A", "m", "W", "i", "l", "Platz", " ", "  ", "&", "<", ">", "\"\"", "'", "é", "ß", "中央", "駅", "\U0001f687", "\u2e7f", "\u2e80", "\u00a0", "-", "%", "@", "|", "/", "1", "(f)"]
COLOURS = ["", "000000", "FFFFFF", "ffff00", "E6194B", "c0c0c0", "F0E442", "a0a0a0", "b4b4b4", "00ff00"]


def name_of(chance):
    """A name, as a field of a table."""
    kind = chance.random()
    if kind < 0.05:
        return chance.choice(["", "U ", " ", "X" * 200, "m" * 40, "i" * 90])
    text = chance.choice(FIRST) + "".join(chance.choice(PIECES) for _ in range(chance.randrange(0, 9)))
    return f'"{text}"' if '"' in text else text


def write_feed(folder, chance):
    places, extent = places_of(chance)
    many = chance.random() < 0.02
    count = chance.randrange(120, 200) if many else chance.randrange(1, 8)
    routes, trips, stop_times, shapes = [], [], [], []
    for line in range(count):
        short = name_of(chance) if chance.random() < 0.4 else chance.choice(["1", "U2", "S 45", "Ring", "Expres", "中央駅線九", "é"])
        routes.append(f"L{line},{chance.choice([0, 1, 1, 2])},{short},{chance.choice(COLOURS)}")
        for _ in range(chance.randrange(1, 3)):
            trip = len(trips)
            stops = list(range(chance.randrange(2), chance.randrange(2, len(places) + 1))) if many else stops_of(chance, len(places))
            if trip and chance.random() < 0.3:
                stops = stop_times_of_last
                stops = stops if chance.random() < 0.5 else stops[::2] or stops
            stop_times_of_last = stops
            shape = f"H{trip}" if chance.random() < 0.3 and not many else ""
            trips.append(f"L{line},T{trip},{shape}")
            stop_times += [f"T{trip},S{stop},{place}" for place, stop in enumerate(stops)]
            if shape:
                shapes += [f"{shape},{lat:.6f},{lon:.6f},{place}" for place, (lat, lon) in enumerate(shape_of(chance, places, stops, extent))]
    stations = [f"S{i},{name_of(chance)},{lat:.6f},{lon:.6f}" for i, (lat, lon) in enumerate(places)]
    write_table(folder, "stops", "stop_id,stop_name,stop_lat,stop_lon", stations)
    write_table(folder, "routes", "route_id,route_type,route_short_name,route_color", routes)
    write_table(folder, "trips", "route_id,trip_id,shape_id", trips)
    write_table(folder, "shapes", "shape_id,shape_pt_lat,shape_pt_lon,shape_pt_sequence", shapes)
    write_table(folder, "stop_times", "trip_id,stop_id,stop_sequence", stop_times)


def main():
    parser = argparse.ArgumentParser(description=__doc__, formatter_class=argparse.RawDescriptionHelpFormatter)
    parser.add_argument("--feeds", type=int, default=300)
    parser.add_argument("--seed", type=int, default=1)
    parser.add_argument("--work", default=os.path.join(tempfile.gettempdir(), "octimap-agree-posters"))
    parser.add_argument("--ours", default=OURS)
    parser.add_argument("--maker", help="makes the maps, in place of ours")
    parser.add_argument("program", metavar="PROGRAM")
    given = parser.parse_args()
    programs = [os.path.abspath(given.ours), os.path.abspath(given.program)]
    maker = os.path.abspath(given.maker or given.ours)
    statuses = collections.Counter()
    others = 0
    for seed in range(given.seed, given.seed + given.feeds):
        folder = os.path.join(given.work, str(seed))
        os.makedirs(os.path.join(folder, "feed"), exist_ok=True)
        chance = random.Random(seed)
        write_feed(os.path.join(folder, "feed"), chance)
        with open(os.path.join(folder, "settings.toml"), "w") as out:
            out.write('search = "dual"\nproof = "bound"\nfinest = 16\nspread = "auto"\nstraight = 1000\nbudget = 1000\n' + chance.choice(["", "near = 300\n", "cell = 400\n"]))
        made = run(maker, ["make", "feed", "svg", "cert", "--settings", "settings.toml"], folder, ["svg", "cert"])
        statuses["make", made[0]] += 1
        differs = False
        for certificate in ["cert", "changed"] if made[0] == 0 else ["none"]:
            for name, text in [("cert", made[2].get("cert", b"")), ("changed", changed(made[2].get("cert", b""), chance))]:
                with open(os.path.join(folder, name), "wb") as out:
                    out.write(text)
            ours, theirs = (run(program, ["poster", "feed", certificate, "poster", "--settings", "settings.toml"], folder, ["poster"]) for program in programs)
            statuses["poster", theirs[0]] += 1
            if ours != theirs:
                differs = True
                print(f"{folder}: poster of {certificate}: status {ours[0]} and {theirs[0]}: {ours[1][:60]!r} and {theirs[1][:60]!r}")
        if differs:
            others += 1
        else:
            shutil.rmtree(folder)
    print(f"statuses: {dict(sorted(statuses.items()))}")
    print(f"{given.feeds - others} of {given.feeds} feeds: same status and bytes")
    sys.exit(1 if others else 0)


if __name__ == "__main__":
    main()
