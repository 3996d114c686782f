#!/usr/bin/env python3
"""Times `octimap check` on long certificates and maps that somebody else made, with its peak of memory.

    bench/certificate.py [--size MIB] [--work FOLDER] [--only WORD] [--ours PROGRAM]

Makes a feed of two stations and its map, and then certificates and maps of about MIB mebibytes each: some are texts of a
certificate (of many walks, of long orders, of many prices, of a deep tree), some only begin as one, some are bytes of any
kind. Runs `check` on each, and prints the status, what was said, the time, the mebibytes a second and the peak of memory.
"""
import argparse
import os
import subprocess
import tempfile
import time

from measuring import OURS

FEED = {
    "routes.txt": "route_id,route_type,route_color\nA,1,\n",
    "stops.txt": "stop_id,stop_name,stop_lat,stop_lon\nX,X,0,0\nY,Y,0,0.010000\n",
    "trips.txt": "route_id,service_id,trip_id\nA,S,A1\n",
    "stop_times.txt": "trip_id,stop_id,stop_sequence\nA1,X,1\nA1,Y,2\n",
}
HEAD = b"octimap 1\ngraph 2 1 1\n"
WALK = b"walk 0 0 0 E50\n"


def repeated(size, piece):
    """About `size` bytes of one piece."""
    block = piece * max(1, (1 << 20) // len(piece))
    for _ in range(max(1, size // len(block))):
        yield block


def counting(size, form, first=0):
    """About `size` bytes of a form with rising numbers."""
    number, written = first, 0
    while written < size:
        block = b"".join(form(k) for k in range(number, number + 50_000))
        number, written = number + 50_000, written + len(block)
        yield block


def counted(size, form):
    """The count, and about `size` bytes of a form with rising numbers."""
    blocks = list(counting(size, form))
    return len(blocks) * 50_000, blocks


def whole(rest):
    """A text up to its cost, and the rest of it."""
    yield HEAD + WALK + b"order 0 0\ncost 0\n"
    yield from rest


def many_walks(size):
    """A certificate of 20,000 long walks."""
    runs = b" E1 W1" * max(1, size // 20_000 // 6)
    yield b"octimap 1\ngraph 10000 20000 1000\n"
    for s in range(20_000):
        yield b"walk %d 0 0%s\n" % (s, runs)
    for s in range(20_000):
        yield b"order %d 0\n" % s
    yield b"cost 0\nrules 0\nparts 0\n"


def long_runs(size):
    """The same with walks of many long runs."""
    runs = b" E10000 W10000" * max(1, size // 20_000 // 14)
    yield b"octimap 1\ngraph 10000 20000 1000\n"
    for s in range(20_000):
        yield b"walk %d 0 0%s\n" % (s, runs)
    for s in range(20_000):
        yield b"order %d 0\n" % s
    yield b"cost 0\nrules 0\nparts 0\n"


def one_walk(size):
    """A walk that turns back again and again."""
    yield HEAD + b"walk 0 0 0 E2"
    yield from repeated(size, b" W10000 E10000")
    yield b"\norder 0 0\ncost 0\nrules 0\nparts 0\n"


def snake(size):
    """A legal walk row by row, over 40,000 grid points for each mebibyte asked for: its text is short."""
    return rows_of_walk(min(20_000, 2 * (size >> 20)))


def whole_grid(size):
    """A legal walk over each point of the greatest grid, whatever size is asked for: its text is short."""
    return rows_of_walk(20_000)


def rows_of_walk(rows):
    """A certificate whose walk goes over so many rows and one more."""
    yield HEAD + b"walk 0 -10000 -10000"
    for row in range(rows):
        yield b" %s20000 N1" % (b"W" if row % 2 else b"E")
    yield b" E20000\norder 0 0\ncost 0\nrules 0\nparts 0\n"


def many_orders(size):
    """A certificate of 20,000 orders."""
    lines = b"".join(b" %d" % k for k in range(max(1, size // 20_000 // 4)))
    yield b"octimap 1\ngraph 10000 20000 1000\n"
    for s in range(20_000):
        yield b"walk %d 0 0 E1\n" % s
    for s in range(20_000):
        yield b"order %d%s\n" % (s, lines)
    yield b"cost 0\nrules 0\nparts 0\n"


def one_order(size):
    """One order of millions of lines."""
    yield HEAD + WALK + b"order 0"
    yield from counting(size, lambda k: b" %d" % k)
    yield b"\ncost 0\nrules 0\nparts 0\n"


def one_order_twice(size):
    """The same, and its first line again at the end."""
    yield HEAD + WALK + b"order 0"
    yield from counting(size, lambda k: b" %d" % k)
    yield b" 0\ncost 0\nrules 0\nparts 0\n"


def prices(size):
    """One node with millions of prices."""
    count, blocks = counted(size, lambda k: b" %d -1000000000" % k)
    yield from whole([b"rules 0\nparts 1\npart 0 0\nclose %d" % count] + blocks + [b"\n"])


def segments(size):
    """A part of millions of segments."""
    yield from whole([b"rules 0\nparts 1\npart 0"])
    yield from counting(size, lambda k: b" %d" % k)
    yield b"\nclose 0\n"


def parts(size):
    """Many parts."""
    count, blocks = counted(size, lambda k: b"part 0 %d\nclose 0\n" % k)
    yield from whole([b"rules 0\nparts %d\n" % count] + blocks)


def rules(size):
    """Many rules."""
    count, blocks = counted(size, lambda k: b"merge %d 1 0\n" % k)
    yield from whole([b"rules %d\n" % count] + blocks + [b"parts 0\n"])


def wide_tree(size):
    """Splits of 1,000 lines each."""
    leaves = b"".join(b"take %d\nclose 0\n" % k for k in range(1_000))
    middle = b"".join(b"take %d\nsplit 1 1000\n%s" % (k, leaves) for k in range(1_000))
    count = max(1, size // len(middle))
    yield from whole([b"rules 0\nparts %d\n" % count])
    for k in range(count):
        yield b"part 0 %d\nsplit 0 1000\n" % k + middle


def deep_trees(size):
    """Trees of depth 2,048."""
    tree = b"split 0 1\ntake 0\n" * 2_048 + b"close 0\n"
    count = max(1, size // len(tree))
    yield from whole([b"rules 0\nparts %d\n" % count])
    for k in range(count):
        yield b"part 0 %d\n" % k + tree


def too_deep(size):
    """A tree of any depth."""
    yield from whole([b"rules 0\nparts 1\npart 0 0\n"])
    yield from repeated(size, b"split 0 1\ntake 0\n")


def great_counts(size):
    """Great numbers with nothing behind them."""
    yield from whole([b"rules 0\nparts 20000000\npart 0 0\nclose 4294967295\n"])


CERTIFICATES = {
    name.__name__: name
    for name in [many_walks, long_runs, one_walk, snake, whole_grid, many_orders, one_order, one_order_twice, prices, segments, parts, rules, wide_tree, deep_trees, too_deep, great_counts]
}
CERTIFICATES["no_line_end"] = lambda size: repeated(size, b"a")
CERTIFICATES["zeros"] = lambda size: repeated(size, b"\0")
CERTIFICATES["one_number"] = lambda size: [b"octimap 1\ngraph "] + list(repeated(size, b"9"))
CERTIFICATES["line_ends"] = lambda size: repeated(size, b"\n")
CERTIFICATES["any_bytes"] = lambda size: (os.urandom(1 << 20) for _ in range(size >> 20))
PICTURES = {
    "zeros": lambda picture, size: repeated(size, b"\0"),
    "map_and_more": lambda picture, size: [picture] + list(repeated(size, b"<")),
    "any_bytes": lambda picture, size: (os.urandom(1 << 20) for _ in range(size >> 20)),
}


def write(path, pieces):
    with open(path, "wb") as out:
        for piece in pieces:
            out.write(piece)
    return os.path.getsize(path)


def check(program, work, size, name):
    """Runs `check`, and prints a line about it."""
    started = time.monotonic()
    child = subprocess.Popen([program, "check", "feed", "svg", "cert"], cwd=work, stdout=subprocess.PIPE)
    said = child.stdout.read()
    _, status, usage = os.wait4(child.pid, 0)
    seconds = time.monotonic() - started
    rate = size / (1 << 20) / seconds
    print(
        f"{name}: {size / (1 << 20):.1f} MiB, status {os.waitstatus_to_exitcode(status)}, {said.decode('utf-8', 'replace').strip()!r}, "
        f"{seconds:.2f} s, {rate:.0f} MiB/s, peak {usage.ru_maxrss / 1024:.0f} MiB",
        flush=True,
    )


def main():
    parser = argparse.ArgumentParser(description=__doc__, formatter_class=argparse.RawDescriptionHelpFormatter)
    parser.add_argument("--size", type=int, default=50)
    parser.add_argument("--work", default=os.path.join(tempfile.gettempdir(), "octimap-certificates"))
    parser.add_argument("--only", default="")
    parser.add_argument("--ours", default=OURS)
    given = parser.parse_args()
    program, work, size = os.path.abspath(given.ours), given.work, given.size << 20
    os.makedirs(os.path.join(work, "feed"), exist_ok=True)
    for table, text in FEED.items():
        with open(os.path.join(work, "feed", table), "w") as out:
            out.write(text)
    svg, cert = os.path.join(work, "svg"), os.path.join(work, "cert")
    subprocess.run([program, "make", "feed", "svg", "cert"], cwd=work, check=True)
    with open(svg, "rb") as file:
        picture = file.read()
    with open(cert, "rb") as file:
        certificate = file.read()
    for name, pieces in CERTIFICATES.items():
        if given.only in name:
            check(program, work, write(cert, pieces(size)), f"certificate {name}")
    write(cert, [certificate])
    for name, pieces in PICTURES.items():
        if given.only in name:
            check(program, work, write(svg, pieces(picture, size)), f"map {name}")


if __name__ == "__main__":
    main()
