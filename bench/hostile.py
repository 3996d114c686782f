#!/usr/bin/env python3
"""Tries families of hostile inputs below 5 MB against a limit of time.

    bench/hostile.py [--seconds S] [--memory MIB] [--only WORD] [--work FOLDER] [--ours PROGRAM] [PROGRAM ..]

Each family is a feed with a command, and what else the command reads: long trips, courses from pole to pole, courses
that cross in many places, many lines through few stations, many stations on one point, long ids and names, tables of many
columns and of quotes, certificates whose trees place many lines, long scripts and edits, deep settings. Runs the command
with a limit of S seconds (120) and of memory (4096 MiB), by this repository's program and each PROGRAM, and prints the
bytes of the input, the status, what was said, the time and the peak of memory. Ends with 1 where a run of this
repository's program was ended by a signal or by the limit, or printed or wrote other bytes than a PROGRAM.
"""
import argparse
import hashlib
import math
import os
import random
import resource
import shutil
import signal
import subprocess
import sys
import tempfile
import time

from measuring import OURS

OUTPUTS = ["svg", "cert", "out"]


def feed(stations, trips, shapes=None, names=None):
    """The tables of a feed: stations by their degrees, trips each with its line, its stations and its shape, and shapes."""
    shapes = shapes or []
    lines = sorted({line for line, _, _ in trips})
    return {
        "feed/stops.txt": rows("stop_id,stop_name,stop_lat,stop_lon", (f"S{i},{names[i] if names else i},{lat:.6f},{lon:.6f}" for i, (lat, lon) in enumerate(stations))),
        "feed/routes.txt": rows("route_id,route_type", (f"{line},1" for line in lines)),
        "feed/trips.txt": rows("route_id,trip_id,shape_id", (f"{line},T{k},{'' if shape is None else f'H{shape}'}" for k, (line, _, shape) in enumerate(trips))),
        "feed/stop_times.txt": rows("trip_id,stop_id,stop_sequence", (f"T{k},S{stop},{at}" for k, (_, stops, _) in enumerate(trips) for at, stop in enumerate(stops))),
        "feed/shapes.txt": rows("shape_id,shape_pt_lat,shape_pt_lon,shape_pt_sequence", (f"H{k},{lat:.6f},{lon:.6f},{at}" for k, points in enumerate(shapes) for at, (lat, lon) in enumerate(points))),
    }


def rows(header, lines):
    return ("\n".join([header, *lines]) + "\n").encode()


MAKE = "make feed svg cert"


def visits_along_three_points():
    """A trip of 10,000 visits along three points from pole to pole."""
    stations = [(-89.9 + 179.8 * k / 9_999, 0.01) for k in range(10_000)]
    return feed(stations, [("A", range(10_000), 0)], [[(-90, 0), (0, 0), (90, 0)]]), MAKE


def visits_to_and_fro():
    """A trip of 150,000 visits to two stations in turn."""
    return feed([(48, 16), (48.01, 16)], [("A", [k % 2 for k in range(150_000)], None)]), MAKE


def visits_on_one_shape():
    """A trip of 10,000 visits to and fro along a shape that goes to and fro as often."""
    return feed([(48, 16), (48.01, 16)], [("A", [k % 2 for k in range(10_000)], 0)], [[(48 + 0.01 * (k % 2), 16) for k in range(10_000)]]), MAKE


def many_long_shapes():
    """200 trips, each along a shape of its own from pole to pole."""
    stations = [(-80, 0), (80, 0)]
    return feed(stations, [(f"L{k}", [0, 1], k) for k in range(200)], [[(-90, k / 1000), (90, k / 1000)] for k in range(200)]), MAKE


def combs():
    """Two courses like combs, each tooth of one across each tooth of the other."""
    teeth = 1_500
    step = 0.05 / teeth
    across = [(48 + k * step, 16 + 0.05 * ((k + j) % 2)) for k in range(teeth) for j in (0, 1)]
    along = [(48 + 0.05 * ((k + j) % 2), 16 + k * step) for k in range(teeth) for j in (0, 1)]
    stations = [across[0], across[-1], along[0], along[-1]]
    return feed(stations, [("A", [0, 1], 0), ("B", [2, 3], 1)], [across, along]), MAKE


def star_of_courses():
    """400 courses that all cross each other near one place."""
    count = 400
    ends = []
    for k in range(count):
        turn = math.pi * k / count
        ends += [(48 + 0.2 * math.cos(turn), 16 + 0.2 * math.sin(turn)), (48 - 0.2 * math.cos(turn + 0.02), 16 - 0.2 * math.sin(turn + 0.02))]
    return feed(ends, [(f"L{k}", [2 * k, 2 * k + 1], None) for k in range(count)]), MAKE


def noise_courses():
    """A course through 40,000 places at random within some kilometres."""
    chance = random.Random(1)
    points = [(48 + chance.random() * 0.05, 16 + chance.random() * 0.05) for _ in range(40_000)]
    return feed([points[0], points[-1]], [("A", [0, 1], 0)], [points]), MAKE


def lines_on_one_segment():
    """1,000 lines between two stations."""
    return feed([(48, 16), (48.01, 16)], [(f"L{k:04}", [0, 1], None) for k in range(1_000)]), MAKE


def lines_on_a_chain():
    """1,000 lines along a chain of 60 stations, each from a place at random to another."""
    chance = random.Random(2)
    stations = [(48, 16 + 0.01 * k) for k in range(61)]
    trips = []
    for k in range(1_000):
        first, last = sorted(chance.sample(range(61), 2))
        trips.append((f"L{k:04}", range(first, last + 1), None))
    return feed(stations, trips), MAKE


def lines_on_a_star():
    """1,000 lines, each through a middle from one of eight arms to another."""
    arms = [(48 + 0.02 * math.cos(math.pi * k / 4), 16 + 0.03 * math.sin(math.pi * k / 4)) for k in range(8)]
    chance = random.Random(3)
    trips = []
    for k in range(1_000):
        first, last = chance.sample(range(8), 2)
        trips.append((f"L{k:04}", [1 + first, 0, 1 + last], None))
    return feed([(48, 16)] + arms, trips), MAKE


def trunk_of_lines(lines, segments):
    """Lines that all come together from four ends, share a chain, and part to four ends."""
    middle = [(48, 16 + 0.01 * k) for k in range(segments + 1)]
    west = [(48 + 0.01 * (k - 1.5), 15.99) for k in range(4)]
    east = [(48 + 0.01 * (k - 1.5), 16.01 + 0.01 * segments) for k in range(4)]
    chance = random.Random(4)
    chain = list(range(segments + 1))
    trips = [(f"L{k:04}", [segments + 1 + chance.randrange(4)] + chain + [segments + 5 + chance.randrange(4)], None) for k in range(lines)]
    return feed(middle + west + east, trips)


def certificate_of_lines(lines, tree):
    """A certificate over lines that all share two segments, with the text of a tree on the first one's number."""
    files = feed([(48, 16), (48.01, 16.005), (48.02, 16)], [(f"L{k:04}", [0, 1, 2], None) for k in range(lines)])

    def certificate(made):
        front = made[: made.index(b"rules ")]
        segments = [line.split()[1].decode() for line in front.split(b"\n") if line.startswith(b"order ")]
        return front + f"rules 0\nparts 1\npart 0 {' '.join(segments)}\n{tree(segments[0])}".encode()

    return files, "check feed svg cert", certificate


def certificate_of_many_lines(lines):
    """A certificate whose tree places each of many lines on one segment, one after another; they all go on along another one."""
    return certificate_of_lines(lines, lambda seg: f"split {seg} {lines}\n" + "".join(f"take {k}\nclose 0\n" for k in range(lines)))


def certificate_of_a_path(lines, left):
    """A certificate whose tree places one line after another, and tries all orders of the last few."""

    def orders(seg, rest):
        if len(rest) < 2:
            return "close 0\n"
        return f"split {seg} {len(rest)}\n" + "".join(f"take {a}\n{orders(seg, [b for b in rest if b != a])}" for a in rest)

    def tree(seg):
        firsts = [f"split {seg} {lines - a}\ntake {a}\n" for a in range(lines - left)]
        others = ["".join(f"take {b}\nclose 0\n" for b in range(a + 1, lines)) for a in range(lines - left)]
        return "".join(firsts) + orders(seg, list(range(lines - left, lines))) + "".join(reversed(others))

    return certificate_of_lines(lines, tree)


def stations_on_one_point():
    """60,000 stations on one point, and a line through 5,000 of them."""
    return feed([(48, 16)] * 60_000, [("A", range(5_000), None)]), MAKE


def many_patterns():
    """3,000 trips of one line, each with other stations of 30."""
    chance = random.Random(5)
    stations = [(48 + 0.01 * (k % 6), 16 + 0.01 * (k // 6)) for k in range(30)]
    return feed(stations, [("A", chance.sample(range(30), 30), None) for _ in range(3_000)]), MAKE


def long_ids():
    """Stations, a line and a trip with ids and names of a megabyte."""
    text = "x" * 1_000_000
    return {
        "feed/stops.txt": f"stop_id,stop_name,stop_lat,stop_lon\n{text},&{text},48,16\nB,\"{text}\",48.01,16\n".encode(),
        "feed/routes.txt": b"route_id,route_type\nA,1\n",
        "feed/trips.txt": b"route_id,trip_id\nA,T\n",
        "feed/stop_times.txt": f"trip_id,stop_id,stop_sequence\nT,{text},1\nT,B,2\n".encode(),
    }, MAKE


def many_columns():
    """A header of 700,000 columns, and a row of as many."""
    files, words = feed([(48, 16), (48.01, 16)], [("A", [0, 1], None)]), MAKE
    files["feed/stops.txt"] = b"stop_id,stop_name,stop_lat,stop_lon" + b",x" * 700_000 + b"\nS0,a,48,16" + b",y" * 700_000 + b"\nS1,b,48.01,16" + b"," * 700_000 + b"\n"
    return files, words


def quotes():
    """A field of two million doubled quotes, and one that is never closed."""
    files, words = feed([(48, 16), (48.01, 16)], [("A", [0, 1], None)]), MAKE
    files["feed/stops.txt"] = b'stop_id,stop_name,stop_lat,stop_lon\nS0,"' + b'""' * 2_000_000 + b'",48,16\nS1,"b,48.01,16\n'
    return files, words


def bad_row_at_the_end():
    """250,000 good rows of stop times before a bad one."""
    files, words = feed([(48, 16), (48.01, 16)], [("A", [k % 2 for k in range(250_000)], None)]), MAKE
    files["feed/stop_times.txt"] += b"T0,S9,1\n"
    return files, words


def long_script():
    """A script of 400,000 edits and undos, with a draw at its end."""
    files, _ = feed([(48, 16), (48.01, 16)], [("A", [0, 1], None)]), MAKE
    files["script"] = b"hide\tA\nundo\n" * 400_000 + b"draw\n"
    return files, "session feed script out"


def kept_edits():
    """A script of 200,000 edits that all stand, and two draws."""
    files, _ = feed([(48, 16), (48.01, 16)], [("A", [0, 1], None)]), MAKE
    files["script"] = b"draw\n" + b"".join(b"rename\tS0\tname %d\n" % k for k in range(200_000)) + b"draw\n"
    return files, "session feed script out"


def many_draws():
    """A script of 20,000 draws."""
    files, _ = feed([(48, 16), (48.01, 16)], [("A", [0, 1], None)]), MAKE
    files["script"] = b"draw\n" * 20_000
    return files, "session feed script out"


def long_edits():
    """A file of 200,000 edits over 20,000 stations."""
    files, _ = feed([(48 + 0.001 * (k % 140), 16 + 0.001 * (k // 140)) for k in range(20_000)], [("A", range(20), None)]), MAKE
    files["edits"] = b"".join(b"rename\tS%d\tname %d\n" % (19_999 - k % 20_000, k) for k in range(200_000))
    return files, MAKE + " --edits edits"


def deep_settings():
    """Settings of a million brackets, one in another."""
    files, words = feed([(48, 16), (48.01, 16)], [("A", [0, 1], None)]), MAKE
    files["settings"] = b"types = " + b"[" * 1_000_000 + b"]" * 1_000_000 + b"\n"
    return files, words + " --settings settings"


def dotted_settings():
    """Settings of a key of a million parts."""
    files, words = feed([(48, 16), (48.01, 16)], [("A", [0, 1], None)]), MAKE
    files["settings"] = b"a." * 1_000_000 + b"a = 1\n"
    return files, words + " --settings settings"


def many_settings():
    """Settings of 300,000 keys."""
    files, words = feed([(48, 16), (48.01, 16)], [("A", [0, 1], None)]), MAKE
    files["settings"] = b"".join(b"key%d = 1\n" % k for k in range(300_000))
    return files, words + " --settings settings"


def great_grid():
    """A lattice of 70 by 70 stations, by the settings of `map`."""
    side = 70
    stations = [(48 + 0.004 * (k // side), 16 + 0.006 * (k % side)) for k in range(side * side)]
    lines = [(f"R{row}", [row * side + column for column in range(side)], None) for row in range(side)]
    return feed(stations, lines + [(f"C{column}", [row * side + column for row in range(side)], None) for column in range(side)]), "map feed svg cert"


def mesh():
    """A network of 400 nodes at random."""
    chance = random.Random(6)
    stations = [(48 + chance.random() * 0.2, 16 + chance.random() * 0.3) for _ in range(400)]
    trips = []
    for k in range(90):
        at = chance.randrange(400)
        stops = [at]
        for _ in range(8):
            near = sorted(range(400), key=lambda other: (stations[other][0] - stations[at][0]) ** 2 + (stations[other][1] - stations[at][1]) ** 2)
            at = chance.choice(near[1:4])
            stops.append(at)
        trips.append((f"L{k}", stops, None))
    return feed(stations, trips)


def moves_of_a_mesh():
    """10,000 moves on its drawing."""
    return mesh(), "improve feed svg cert 10000"


def straight_mesh():
    """10,000 attempts to straighten it."""
    files = mesh()
    files["settings"] = b"straight = 10000\n"
    return files, "map feed svg cert --settings settings"


FAMILIES = {family.__name__: family for family in [
    visits_along_three_points, visits_to_and_fro, visits_on_one_shape, many_long_shapes, combs, star_of_courses, noise_courses,
    lines_on_one_segment, lines_on_a_chain, lines_on_a_star, stations_on_one_point, many_patterns, long_ids, many_columns, quotes,
    bad_row_at_the_end, long_script, kept_edits, many_draws, long_edits, deep_settings, dotted_settings, many_settings, great_grid,
    moves_of_a_mesh, straight_mesh,
]}
for count in (250, 500, 1_000):
    FAMILIES[f"certificate_of_{count}_lines"] = lambda count=count: certificate_of_many_lines(count)
for count, left in ((250, 2), (600, 2), (100, 8)):
    FAMILIES[f"certificate_of_a_path_of_{count}_lines_{left}"] = lambda count=count, left=left: certificate_of_a_path(count, left)
FAMILIES["trunk_of_1000_lines"] = lambda: (trunk_of_lines(1_000, 10), MAKE)


def run(program, words, given):
    """(status, said), digest of the outputs, seconds, peak in MiB; the status is negative for a signal."""
    for name in OUTPUTS:
        if os.path.exists(name) and f" {name}" in words.replace("check feed svg cert", ""):
            os.remove(name)

    def limit():
        resource.setrlimit(resource.RLIMIT_AS, (given.memory << 20, given.memory << 20))
        resource.setrlimit(resource.RLIMIT_CORE, (0, 0))

    started = time.monotonic()
    child = subprocess.Popen([program] + words.split(), stdout=subprocess.PIPE, stderr=subprocess.DEVNULL, preexec_fn=limit)
    signal.signal(signal.SIGALRM, lambda *_: child.kill())
    signal.alarm(given.seconds)
    said = child.stdout.read().decode("utf-8", "replace").strip()
    _, status, usage = os.wait4(child.pid, 0)
    signal.alarm(0)
    seconds = time.monotonic() - started
    digest = hashlib.sha256()
    for name in OUTPUTS:
        if os.path.exists(name):
            with open(name, "rb") as file:
                digest.update(file.read())
    return (os.waitstatus_to_exitcode(status), said), digest.hexdigest(), seconds, usage.ru_maxrss / 1024


def prepare(files, certificate, programs):
    """Writes the inputs of a family; the bytes of them. A certificate is that of a map that the last program makes, changed."""
    for path, text in files.items():
        os.makedirs(os.path.dirname(path) or ".", exist_ok=True)
        with open(path, "wb") as out:
            out.write(text)
    size = sum(len(text) for text in files.values())
    if certificate:
        subprocess.run([programs[-1], *MAKE.split()], check=True)
        with open("cert", "rb") as file:
            made = file.read()
        with open("cert", "wb") as out:
            out.write(certificate(made))
        size += os.path.getsize("cert")
    return size


def main():
    parser = argparse.ArgumentParser(description=__doc__, formatter_class=argparse.RawDescriptionHelpFormatter)
    parser.add_argument("--seconds", type=int, default=120)
    parser.add_argument("--memory", type=int, default=4096)
    parser.add_argument("--only", default="")
    parser.add_argument("--work")
    parser.add_argument("--ours", default=OURS)
    parser.add_argument("programs", nargs="*", metavar="PROGRAM")
    given = parser.parse_args()
    programs = [os.path.abspath(program) for program in [given.ours] + given.programs]
    top = tempfile.mkdtemp(prefix="octimap-hostile-", dir=given.work)
    wrong = 0
    for name, family in FAMILIES.items():
        if given.only not in name:
            continue
        folder = os.path.join(top, name)
        os.makedirs(folder)
        os.chdir(folder)
        files, words, *certificate = family()
        size = prepare(files, certificate[0] if certificate else None, programs)
        first = None
        for program in programs:
            answer, digest, seconds, peak = run(program, words, given)
            first = first or (answer, digest)
            is_late = seconds >= given.seconds
            agrees = "" if program == programs[0] else ", the same" if (answer, digest) == first else ", not compared" if is_late else ", OTHER"
            wrong += (program == programs[0] and answer[0] < 0) or agrees == ", OTHER"
            print(f"{name}: {size / 1e6:.2f} MB: {os.path.basename(program)}: status {answer[0]}, {answer[1][:50]!r}, {seconds:.2f} s, peak {peak:.0f} MiB{agrees}", flush=True)
        os.chdir(top)
        shutil.rmtree(folder)
    shutil.rmtree(top)
    sys.exit(1 if wrong else 0)


if __name__ == "__main__":
    main()
