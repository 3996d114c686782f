"""Inputs of octimap with one mistake each: the mistake, the words of a command, the statuses that are due, and the files that
are changed: each with its new bytes, or none where it is taken away."""
import csv
import io

from trials import TOP

MAP = "map feed out.svg out.cert"
OF_FEED = [MAP, "check feed in.svg in.cert", "session feed script out", "graph feed"]
OF_CERTIFICATE = ["check feed in.svg in.cert", "labels feed in.cert out.svg", "geo feed in.cert out.svg",
                  "poster feed in.cert out.svg"]

# The columns that each table has to have.
COLUMNS = {
    "routes": ["route_id", "route_type"],
    "stops": ["stop_id", "stop_lat", "stop_lon"],
    "trips": ["route_id", "trip_id"],
    "stop_times": ["trip_id", "stop_id", "stop_sequence"],
    "shapes": ["shape_id", "shape_pt_lat", "shape_pt_lon", "shape_pt_sequence"],
}
SHAPES = [COLUMNS["shapes"], ["H", "0", "0", "1"], ["H", "0", "0.001", "2"]]

# What a further row has in place of what the last row has.
ROWS = {
    "routes": [{}, {"route_id": ""}, {"route_id": "new", "route_type": "x"}, {"route_id": "new", "route_color": "red"}],
    "stops": [{}, {"stop_id": ""}, {"stop_id": "new", "stop_lat": "148.8"}, {"stop_id": "new", "stop_lon": "16,3"},
              {"stop_id": "new", "location_type": "7"}, {"stop_id": "new", "parent_station": "nowhere"}],
    "trips": [{}, {"trip_id": ""}, {"trip_id": "new", "route_id": "nowhere"}],
    "stop_times": [{}, {"stop_sequence": "x"}, {"trip_id": "nowhere"}, {"stop_sequence": "999", "stop_id": "nowhere"}],
    "shapes": [{}, {"shape_pt_lat": "91"}, {"shape_pt_lon": "x"}, {"shape_pt_sequence": "-1"}],
}
SETTINGS = [None, b"\xff", b"near = \n", b"nearr = 1\n", b"near = 1\n", b"types = [\"a\"]\n", b"importance = { A = 17 }\n",
            b"spread = \"full\"\n"]
SETS = ["near", "nearr=1", "near=1", "spread=auto"]
EDITS = [b"\n", b"\xff\n", b"hide A\n", b"hide\tnowhere\n", b"hidden\tA\n", b"rename\tX\n", b"near\t10\n",
         b"move\tnowhere\t0\t0\n", b"undo\n"]
GRAPHS = [b"", b"[]", b"{\"features\":[],\"lines\":0,\"type\":\"FeatureCollection\"}"]
GRAPH_CHANGES = [(b"\"Point\"", b"\"Pint\""), (b"\"LineString\"", b"\"String\""),
                 (b"\"importance\":1", b"\"importance\":17"), (b"\"colour\":\"", b"\"colour\":\"x"),
                 (b"\"ends\":[0,", b"\"ends\":[9999,"), (b"\"round\":[", b"\"round\":[9999,")]

# Words that are wrong by themselves, or of which no map comes.
WORDS = [
    ("map feed", 2),
    ("map feed out.svg out.svg", 2),
    ("map nowhere out.svg out.cert", 3),
    ("map in.svg out.svg out.cert", 3),
    ("map . out.svg out.cert", 3),
    ("map https://example.org/feed.zip out.svg out.cert", 3),
    (f"make {TOP}/examples/stuttgart out.svg out.cert", 4),
    (f"map {TOP}/examples/dc-metro out.svg out.cert --set budget=1", 5),
    ("make feed out.svg out.cert --set cell=10", 6),
    ("check feed feed in.cert", 7),
    ("map feed none/out.svg out.cert", 8),
    ("check feed in.svg none", 1),
    ("page none out.html", 13),
    ("map feed out.svg out.cert --set types=[99]", 0),
]


def rows_of(path):
    with open(path, encoding="latin-1", newline="") as file:
        return list(csv.reader(file))


def text_of(rows):
    out = io.StringIO()
    csv.writer(out, lineterminator="\n").writerows(rows)
    return out.getvalue().encode("latin-1")


def bytes_of(path):
    with open(path, "rb") as file:
        return file.read()


def with_row(rows, fields):
    """A table with a further row: what the last one has, but these fields."""
    header = rows[0] + [column for column in fields if column not in rows[0]]
    row = dict(zip(rows[0], rows[-1]), **fields)
    return [header] + rows[1:] + [[row.get(column, "") for column in header]]


def bad_tables(table, rows):
    """(mistake, bytes) of a table with these rows."""
    yield "an empty file", b""
    for column in COLUMNS[table]:
        yield f"no column {column}", text_of([[f"{name}s" if name == column else name for name in rows[0]]] + rows[1:])
    yield "a row that ends early", text_of(rows + [rows[-1][:1]])
    yield "a field that is no UTF-8", text_of(rows + [["\xff"] * len(rows[0])])
    for fields in ROWS[table]:
        yield f"a further row with {fields}", text_of(with_row(rows, fields))


def of_tables():
    trips = rows_of("feed/trips.txt")
    with_shape = text_of(with_row(trips[:-1], dict(zip(trips[0], trips[-1]), shape_id="H")))
    for table in COLUMNS:
        path = f"feed/{table}.txt"
        is_shapes = table == "shapes"
        bad = bad_tables(table, SHAPES) if is_shapes else [("no file", None), *bad_tables(table, rows_of(path))]
        for name, text in bad:
            for words in OF_FEED:
                yield f"{table}: {name}", words, [3], {path: text, **({"feed/trips.txt": with_shape} if is_shapes else {})}


def of_choices():
    """Settings and edits."""
    for text in SETTINGS:
        for words in (f"{MAP} --settings settings.toml", "graph feed --settings settings.toml"):
            yield f"settings {text}", words, [10], {"settings.toml": text}
    for value in SETS:
        yield "a bad value", f"{MAP} --set {value}", [10], {}
    for text in [None] + EDITS:
        yield f"edits {text}", f"{MAP} --edits edits.txt", [11], {"edits.txt": text}
    for text in EDITS:
        yield f"script {text}", "session feed script out", [11], {"script": text}


def of_graphs():
    graph = bytes_of("in.json")
    texts = [None, graph[:len(graph) // 2]] + GRAPHS + [graph.replace(old, new, 1) for old, new in GRAPH_CHANGES]
    for text in texts:
        yield f"a graph file {text and text[:40]}", "import in.json out.svg out.cert", [12], {"in.json": text}


def of_certificates():
    lines = bytes_of("in.cert").split(b"\n")
    texts = [("nothing", b""), ("half of it", b"\n".join(lines)[:sum(map(len, lines)) // 2])]
    for kind in sorted({line.split()[0] for line in lines if line}):
        at = next(at for at, line in enumerate(lines) if line.split()[:1] == [kind])
        digits = lines[at][-1:]
        changed = lines[at][:-1] + (b"8" if digits == b"9" else b"9")
        texts.append((f"a changed {kind}", b"\n".join(lines[:at] + [changed] + lines[at + 1:])))
    for name, text in texts:
        for words in OF_CERTIFICATE:
            yield f"certificate: {name}", words, [1] if words.startswith("check") else [0, 1], {"in.cert": text}
    picture = bytes_of("in.svg")
    middle = len(picture) // 2
    changed = picture[:middle] + (b"a" if picture[middle:middle + 1] != b"a" else b"b") + picture[middle + 1:]
    yield "picture: a changed byte", OF_CERTIFICATE[0], [1], {"in.svg": changed}


def of_words():
    for words, status in WORDS:
        yield "words", words, [status], {}
    yield "a packed feed", "map in.svg out.svg out.cert", [3], {"in.svg": b"PK\x03\x04"}
    far = with_row(rows_of("feed/stops.txt"), {"stop_id": "far", "stop_lat": "60", "stop_lon": "60"})
    yield "a station far from all others that is not drawn", MAP, [0], {"feed/stops.txt": text_of(far)}
    far[1:2] = with_row([far[0], far[1]], {"stop_lat": "10", "stop_lon": "10"})[2:]
    yield "a station far from all others", MAP, [0, 4, 6], {"feed/stops.txt": text_of(far)}


def mistakes():
    """All of them, over the inputs in the folder that the program is run in."""
    for kind in (of_tables, of_choices, of_graphs, of_certificates, of_words):
        yield from kind()
