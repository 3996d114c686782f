#!/usr/bin/env python3
"""Times `octimap check` on proofs of line orders that somebody else made, and `octimap make` at the limit of a search.

    bench/proofs.py [--work FOLDER] [--only WORD] [--ours PROGRAM] [PROGRAM ..]

Two lines run together through a chain of stations and have to cross once, which costs least between two of its segments.
Each certificate is the one that `make` gives but for its proof: a tree of a million leaves, trees of the greatest depth and
of one more, a split by a million lines, many rules that apply and many that do not, and counts with nothing behind them.
The parts of the last feeds have as many places as a search may have, and two more. Prints the status, what was said, the
time and the peak of memory of each run, by this repository's program and each PROGRAM, and whether the programs agree.
"""
import argparse
import os
import subprocess
import tempfile
import time

from agree import write_table
from measuring import OURS

SETTINGS = "station = [1, 5, 0]\n"
APART = "station = [1, 5, 3]\n"
SIDE = 50


def write_feed(folder, stations, trips):
    """A feed of stations, each with its degrees, and of lines, each with its trips."""
    os.makedirs(folder, exist_ok=True)
    write_table(folder, "stops", "stop_id,stop_name,stop_lat,stop_lon", [f"{name},{name},{lat:.6f},{lon:.6f}" for name, lat, lon in stations])
    write_table(folder, "routes", "route_id,route_type", [f"{line},1" for line in trips])
    write_table(folder, "trips", "route_id,service_id,trip_id", [f"{line},X,{line}{k}" for line, runs in trips.items() for k in range(len(runs))])
    write_table(folder, "stop_times", "trip_id,stop_id,stop_sequence", [f"{line}{k},{stop},{i}" for line, runs in trips.items() for k, run in enumerate(runs) for i, stop in enumerate(run)])


def place(row, column):
    """The degrees of a place on a lattice."""
    return row * 0.004492, column * 0.004492


def chain(count):
    """The stations of a chain of so many segments, row by row there and back, with two more at each end. The last row has to
    run as the first does: so count / SIDE is even."""
    def at(i):
        row, column = divmod(i, SIDE)
        return row, column if row % 2 == 0 else SIDE - 1 - column

    row, column = at(count)
    middle = [(f"T{i:04}", *place(*at(i))) for i in range(count + 1)]
    ends = [("P", 0.5, -1), ("Q", -1, 0), ("R", row + 1, column), ("S", row - 0.5, column + 1)]
    return middle + [(name, *place(*end)) for name, *end in ends]


def crossing(count):
    """Two lines through a chain that have to cross."""
    names = [f"T{i:04}" for i in range(count + 1)]
    return chain(count), {"A": [["P"] + names + ["S"]], "B": [["Q"] + names + ["R"]]}


def braided(count):
    """The same with a line of its own on each segment, so that no two segments are merged: three places a segment, of which
    the last is given."""
    stations, trips = crossing(count)
    for odd, line in enumerate("CD"):
        trips[line] = [[f"T{i:04}", f"T{i + 1:04}"] for i in range(odd, count, 2)]
    return stations, trips


def front(certificate):
    """A certificate up to its proof."""
    return certificate[: certificate.index(b"rules ")]


def wide_segments(certificate):
    """The segments with two lines, in the order of the chain, which is that of their numbers."""
    orders = [line.split() for line in certificate.split(b"\n") if line.startswith(b"order ")]
    return [int(words[1]) for words in orders if len(words) == 4]


def head_of(segments):
    return b"rules 0\nparts 1\npart 1 %s\n" % b" ".join(b"%d" % seg for seg in segments)


def whole_tree(segments):
    """A leaf for all orders of all segments."""
    tree = b"close 0\n"
    for seg in reversed(segments):
        tree = b"split %d 2\ntake 0\n%stake 1\n%s" % (seg, tree, tree)
    yield head_of(segments) + tree


def deep_tree(segments):
    """A tree that goes down by line 0; on all other ways it is closed."""
    yield head_of(segments)
    yield b"".join(b"split %d 2\ntake 0\n" % seg for seg in segments)
    yield b"close 0\n" + b"take 1\nclose 0\n" * len(segments)


def too_deep(segments):
    """One split more than a tree may have on one way."""
    yield head_of(segments)
    yield b"split %d 1\ntake 0\n" % segments[0] * 2049 + b"close 0\n"


def wide_split(segments):
    """A split by more lines than a certificate may have."""
    yield head_of(segments) + b"split %d 1000000\n" % segments[0]
    yield b"".join(b"take %d\nclose 0\n" % line for line in range(1_000_000))


def all_merges(segments):
    """The rules that merge all segments but the last into the first, one by one, and the orders of the two that are left."""
    first, last = segments[0], segments[-1]
    rules = [b"merge %d %d 0\n" % (first, seg) for seg in segments[1:-1]]
    yield b"rules %d\n" % len(rules) + b"".join(rules) + b"parts 1\n"
    yield b"part 1 %d %d\nsplit %d 2\ntake 0\nsplit %d 2\ntake 1\nclose 0\ntake 0\nclose 0\ntake 1\nclose 0\n" % (first, last, first, last)


def own_merges(segments):
    """A million merges of a segment with itself."""
    yield b"rules 1000000\n" + b"merge 1 1 0\n" * 1_000_000 + b"parts 0\n"


def announced(segments):
    """Rules that are announced and not there."""
    yield b"rules 20000000\n"


def foreign_prices(segments):
    """A million prices on terms that there are not."""
    yield head_of(segments) + b"close 1000000" + b"".join(b" %d 1" % (4_294_967_295 - k) for k in reversed(range(1_000_000))) + b"\n"


PROOFS = [(20, whole_tree), (2048, deep_tree), (20, too_deep), (20, wide_split), (2048, all_merges), (20, own_merges), (20, announced), (20, foreign_prices)]


def run(program, words, work):
    """Status and what was said, seconds and peak in MiB."""
    started = time.monotonic()
    child = subprocess.Popen([program] + words, cwd=work, stdout=subprocess.PIPE)
    said = child.stdout.read().decode("utf-8", "replace").strip()
    _, status, usage = os.wait4(child.pid, 0)
    return (os.waitstatus_to_exitcode(status), said), time.monotonic() - started, usage.ru_maxrss / 1024


def compare(name, programs, words, work):
    """Runs each program, and prints a line about it."""
    first = None
    for program in programs:
        answer, seconds, peak = run(program, words, work)
        first = first or answer
        agrees = "" if program == programs[0] else ", the same" if answer == first else ", OTHER"
        print(f"{name}: {os.path.basename(program)}: status {answer[0]}, {answer[1]!r}, {seconds:.2f} s, peak {peak:.0f} MiB{agrees}", flush=True)


def write(path, pieces):
    with open(path, "wb") as out:
        for piece in pieces:
            out.write(piece)


def main():
    parser = argparse.ArgumentParser(description=__doc__, formatter_class=argparse.RawDescriptionHelpFormatter)
    parser.add_argument("--work", default=os.path.join(tempfile.gettempdir(), "octimap-proofs"))
    parser.add_argument("--only", default="")
    parser.add_argument("--ours", default=OURS)
    parser.add_argument("programs", nargs="*", metavar="PROGRAM")
    given = parser.parse_args()
    programs = [os.path.abspath(program) for program in [given.ours] + given.programs]
    work = given.work
    words = ["feed", "svg", "cert", "--settings", "settings.toml"]
    for count, proof in PROOFS:
        if given.only not in proof.__name__:
            continue
        write_feed(os.path.join(work, "feed"), *crossing(count))
        write(os.path.join(work, "settings.toml"), [SETTINGS.encode()])
        subprocess.run([programs[0], "make"] + words, cwd=work, check=True)
        with open(os.path.join(work, "cert"), "rb") as file:
            certificate = file.read()
        write(os.path.join(work, "cert"), [front(certificate), *proof(wide_segments(certificate))])
        compare(proof.__name__, programs, ["check"] + words, work)
    for count in (1024, 1025):
        name = f"search of {2 * count} places"
        if given.only not in name:
            continue
        write_feed(os.path.join(work, "feed"), *braided(count))
        write(os.path.join(work, "settings.toml"), [APART.encode()])
        compare(name, programs, ["make"] + words, work)


if __name__ == "__main__":
    main()
