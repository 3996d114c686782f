#!/usr/bin/env python3
"""Times `octimap stations` on a stops.txt of a million rows.

    bench/stations.py [--rows N] [--runs K] [--work FOLDER] [PROGRAM ..]

Writes the folder once (outside the repository, by default in the system's folder for passing files) and then
runs this repository's program and each PROGRAM on it in turn, K times each. PROGRAM is called as
`PROGRAM stations FOLDER`. Prints for each the least time, the greatest peak of memory, the ratio to the first
program named, and whether it wrote the same bytes.

The rows are as agencies write them: CR LF, quoted names with commas and doubled quotes, stations with
platforms, and degrees of six places.
"""
import argparse
import os
import tempfile

from measuring import compare

PLATFORMS = 3


def write_stops(path, rows):
    """Stations with their platforms, `rows` rows in all after the header."""
    with open(path, "w", encoding="utf-8", newline="") as out:
        out.write("stop_id,stop_name,stop_lat,stop_lon,location_type,parent_station\r\n")
        for row in range(rows):
            station = row // (PLATFORMS + 1)
            platform = row % (PLATFORMS + 1)
            lat = (station * 7919) % 170000000 - 85000000
            lon = (station * 104729) % 340000000 - 170000000
            name = f'"Halt ""{station % 977}"", Platz {station % 4001}"'
            if platform == 0:
                out.write(f"S{station},{name},{degrees(lat)},{degrees(lon)},1,\r\n")
            else:
                out.write(f"S{station}:{platform},{name},{degrees(lat + platform)},{degrees(lon)},0,S{station}\r\n")


def degrees(micro):
    sign = "-" if micro < 0 else ""
    return f"{sign}{abs(micro) // 1000000}.{abs(micro) % 1000000:06d}"

def main():
    parser = argparse.ArgumentParser(description=__doc__, formatter_class=argparse.RawDescriptionHelpFormatter)
    parser.add_argument("--rows", type=int, default=1000000)
    parser.add_argument("--runs", type=int, default=5)
    parser.add_argument("--work", default=os.path.join(tempfile.gettempdir(), "octimap-bench"))
    parser.add_argument("programs", nargs="*", metavar="PROGRAM")
    given = parser.parse_args()

    folder = os.path.join(given.work, f"stops-{given.rows}")
    os.makedirs(folder, exist_ok=True)
    stops = os.path.join(folder, "stops.txt")
    if not os.path.exists(stops):
        write_stops(stops + ".part", given.rows)
        os.replace(stops + ".part", stops)
    print(f"{stops}: {given.rows} rows, {os.path.getsize(stops)} bytes")
    compare(given.programs, "stations", folder, given.runs)


if __name__ == "__main__":
    main()
