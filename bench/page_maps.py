"""Pictures that bench/page.py makes up: small ones, a lattice city of any size, copies of a map."""
import re

HEAD = '<svg xmlns="http://www.w3.org/2000/svg" version="1.1" viewBox="{}">\n'
MAP = (HEAD.format("-200 -200 1400 400") +
       '<path class="s0 l0" d="M 0 0 L 1000 0" fill="none" stroke="#e6194b" stroke-width="12">'
       '<title>{line}</title></path>\n'
       '<circle cx="0" cy="0" r="10" fill="#ffffff" stroke="#000000" stroke-width="4"/>\n'
       '<circle cx="1000" cy="0" r="10" fill="#ffffff" stroke="#000000" stroke-width="4"/>\n'
       '<text x="14" y="-14" font-size="20">{name}</text>\n'
       '<text x="1014" y="-14" font-size="20">Other</text>\n</svg>\n')
COLOURS = ["ffffff", "f0f0f0", "ffe600", "9bd3f0", "f58231", "6cbe45", "e6194b", "808080", "0039a6", "000075", "15181c",
           "000000"]
FIRST = ("Abbey Bridge Castle Duke East Ferry Garden Harbour Iron Jubilee King Lake Market North Orchard Palace "
         "Quarry River South Temple Upper Valley West York Zoo Angel Baker Church Denmark Euston Forest Grange").split()
SECOND = ("Gate Street Square Road Park Hill Green Cross Lane Town Common Heath Wharf Junction Bank Court "
          "Field Mill Quay Rise Side Terrace View Way Works Yard Circus Dock End Fold Grove House").split()


class Network:
    """Lines by name and colour; stations at grid points with the lines that call; segments with their lines."""

    def __init__(self):
        self.lines, self.stations, self.segments = [], [], []

    def calls(self, station):
        return sorted(self.lines[line][0] for line in self.stations[station][2])

    def passes(self, station):
        there = [lines for low, high, lines in self.segments if station in (low, high)]
        return sorted({self.lines[line][0] for lines in there for line in lines})

    def foot(self, station, segment, line, pitch):
        """Where a line ends on a segment: 14 units from the next one of the same segment."""
        low, high, lines = self.segments[segment]
        (x, y), (xx, yy) = self.stations[low][1], self.stations[high][1]
        shift = 7 * (2 * lines.index(line) - len(lines) + 1)
        at = self.stations[station][1]
        return (pitch * at[0] - (shift if xx == x else 0), pitch * at[1] + (shift if yy == y else 0))

    def ways(self, pitch, kind):
        """The lines of all segments, then the joins between two segments of a line at a station."""
        at = {}
        for number, (low, high, lines) in enumerate(self.segments):
            for line in lines:
                ends = [self.foot(end, number, line, pitch) for end in (low, high)]
                yield from kind(f"s{number} l{line}", ends, self.lines[line])
                for end, foot in zip((low, high), ends):
                    at.setdefault((end, line), []).append(foot)
        for (end, line), feet in sorted(at.items()):
            for foot in feet[1:]:
                if foot != feet[0]:
                    yield from kind(f"n{end} l{line}", [feet[0], foot], (None, self.lines[line][1]))
        self.feet = at

    def box(self, pitch):
        xs, ys = ([pitch * place[i] for _, place, _ in self.stations] for i in (0, 1))
        return f"{min(xs) - 200} {min(ys) - 200} {max(xs) - min(xs) + 400} {max(ys) - min(ys) + 400}"

    def map(self, pitch=200):
        def path(name, ends, line):
            title = f"><title>{line[0]}</title></path>" if line[0] else "/>"
            yield f'<path class="{name}" d="{way(ends)}" fill="none" stroke="#{line[1]}" stroke-width="12"{title}'
        rows = list(self.ways(pitch, path))
        for _, (x, y), _ in self.stations:
            rows.append(f'<circle cx="{x * pitch}" cy="{y * pitch}" r="24" fill="#ffffff" stroke="#000000" '
                        'stroke-width="4"/>')
        for name, (x, y), _ in self.stations:
            rows.append(f'<text x="{x * pitch + 28}" y="{y * pitch - 28}" font-size="20">{name}</text>')
        return (HEAD.format(self.box(pitch)) + "\n".join(rows) + "\n</svg>\n").encode()

    def poster(self, pitch=120):
        def path(name, ends, line):
            if line[1] in COLOURS[:5]:
                yield f'<path class="{name}" d="{way(ends)}" stroke="#444444" stroke-width="14"/>'
            title = f"><title>{line[0]}</title></path>" if line[0] else "/>"
            yield f'<path class="{name}" d="{way(ends)}" stroke="#{line[1]}"{title}'
        rows = ['<g id="lines" fill="none" stroke-linejoin="round" stroke-linecap="round" stroke-width="12">',
                *self.ways(pitch, path), '</g>',
                '<g id="stations" fill="none" stroke-linejoin="round" stroke-linecap="round">']
        for number, (name, _, calling) in enumerate(self.stations):
            classes = " ".join([f"n{number}", *(f"l{line}" for line in sorted(calling))])
            rows.append(f'<g class="{classes}"><title>{name}</title>')
            feet = list(dict.fromkeys(self.feet[number, line][0] for line in sorted(calling)))
            if feet:
                marker = way(feet * 2 if len(feet) == 1 else feet)
                rows += [f'<path d="{marker}" stroke="#000000" stroke-width="20"/>',
                         f'<path d="{marker}" stroke="#ffffff" stroke-width="12"/>']
            rows.append("</g>")
        rows += ["</g>", '<g id="names" font-size="30" fill="#000000">']
        for name, (x, y), _ in self.stations[::2]:
            rows.append(f'<text x="{x * pitch + 16}" y="{y * pitch + 9}">{name}'
                        '<tspan dx="9" fill="#444444" font-weight="bold">X</tspan></text>')
        rows += ["</g>", '<g id="legend" font-size="30" fill="#000000">']
        for number, (name, colour) in enumerate(self.lines):
            y = -900 - 45 * number
            rows += [f'<path d="M 0 {y} L 60 {y}" stroke="#{colour}" stroke-width="12"/>',
                     f'<text x="90" y="{y + 9}">Legend {name}</text>']
        return (HEAD.format(self.box(pitch)) + "\n".join([*rows, "</g>", "</svg>", ""])).encode()


def bent():
    """A poster of two lines with a wide bend each, of which one is pale."""
    bend = "M 0 {0} L 600 {0} Q 1200 {0} 1200 {1} L 1200 {2}"
    rows = ['<g id="lines" fill="none" stroke-width="7">']
    for line, (name, colour, y) in enumerate([("A", "e6194b", 0), ("B", "ffe600", 1600)]):
        there = bend.format(y, y + 600, y + 1200)
        if line == 1:
            rows.append(f'<path class="s{line} l{line}" d="{there}" stroke="#444444" stroke-width="9"/>')
        rows.append(f'<path class="s{line} l{line}" d="{there}" stroke="#{colour}"><title>{name}</title></path>')
    rows += ['</g>', '<g id="stations">']
    for line, y in enumerate([0, 1600]):
        for place, (x, down) in enumerate([(0, 0), (1200, 1200)]):
            marker = f'd="M {x} {y + down} L {x} {y + down}" stroke'
            rows += [f'<g class="n{2 * line + place} l{line}"><title>{"AB"[line]}{place}</title>',
                     f'<path {marker}="#000000" stroke-width="15"/>', f'<path {marker}="#ffffff" stroke-width="9"/>',
                     '</g>']
    return (HEAD.format("0 0 1200 2800") + "\n".join([*rows, "</g>", "</svg>", ""])).encode()


def way(places):
    return "M " + " L ".join(f"{x} {y}" for x, y in places)


def city(side):
    """A lattice of side times side stations: a line down each column, and along each row one line or three side by
    side, of which the third is an express that calls at every second station."""
    net = Network()
    for x in range(side):
        net.lines.append((f"{x + 1}", COLOURS[x % len(COLOURS)]))
    bundles = []
    for y in range(side):
        bundles.append(range(len(net.lines), len(net.lines) + (3 if y % 3 == 0 else 1)))
        net.lines += [(f"{chr(65 + y % 26)}{y // 26 or ''}{end}", COLOURS[(5 * y + i) % len(COLOURS)])
                      for i, end in zip(bundles[y], ["", "R", " Express"])]
    for y in range(side):
        for x in range(side):
            number = y * side + x
            calling = {x, *(line for i, line in enumerate(bundles[y]) if i < 2 or x % 2 == 0)}
            net.stations.append((f"{FIRST[number % 32]} {SECOND[number // 32 % 32]}", (x, y), calling))
            if x > 0:
                net.segments.append((number - 1, number, list(bundles[y])))
            if y > 0:
                net.segments.append((number - side, number, [x]))
    return net


def streets():
    """Four stations of one name on three lines, which run by some stations without calling; two lines of one name."""
    net = Network()
    net.lines = [("2", "ee352e"), ("3", "ffffff"), ("A", "000000"), ("S", "808080"), ("S", "808080")]
    rows = [("Wall St", {0, 1}), ("Fulton St", {0, 1}), ("Park Pl", {1}), ("Fulton St", {0}), ("Chambers St", {0, 1}),
            ("Canal St", {2}), ("Fulton St", {2}), ("Broad St", {2}), ("Fulton St", {2}), ("High St", {2})]
    net.stations = [(name, (2 * (i % 5), 4 * (i // 5)), calling) for i, (name, calling) in enumerate(rows)]
    net.segments = [(x, x + 1, [0, 1]) for x in range(4)] + [(x + 5, x + 6, [2]) for x in range(4)]
    for line, names in [(3, ["Times Sq", "Grand Central"]), (4, ["Franklin Av", "Prospect Park"])]:
        first = len(net.stations)
        net.stations += [(name, (2 * x, 2 * line), {line}) for x, name in enumerate(names)]
        net.segments.append((first, first + 1, [line]))
    return net


def free_names():
    """The map of these streets with names at free places: three are left out, one is below to the right."""
    rows = streets().map().decode().split("\n")
    texts = [i for i, row in enumerate(rows) if row.startswith("<text")]
    rows[texts[4]] = '<text x="1628" y="48" font-size="20">Chambers St</text>'
    for i in sorted([texts[0], texts[5], texts[6]], reverse=True):
        del rows[i]
    return "\n".join(rows).encode()


def scaled(svg, times):
    """A map in another unit, of which so many are one of its own."""
    grown = lambda found: re.sub(r"-?\d+", lambda number: str(times * int(number[0])), found[0])
    return re.sub(r' (d|c?x|c?y|r|stroke-width|font-size)="[^"]*"', grown, svg.decode()).encode()


def colours():
    """A line of each colour, and all of them side by side."""
    net = Network()
    net.lines = [(colour, colour) for colour in COLOURS]
    for y in range(len(COLOURS) + 1):
        lines = list(range(len(COLOURS))) if y == len(COLOURS) else [y]
        net.stations += [(f"West {y}", (0, 2 * y), set(lines)), (f"East {y}", (6, 2 * y), set(lines))]
        net.segments.append((2 * y, 2 * y + 1, lines))
    return net


def copies(svg, size):
    """A map of about this many bytes, of copies of a map beside each other."""
    lines = svg.decode().split("\n")
    left, top, width, height = map(int, re.search(r'viewBox="(-?\d+) (-?\d+) (\d+) (\d+)"', lines[0]).groups())
    side = max(1, round((size / len(svg)) ** .5))
    parts = {"path": [], "circle": [], "text": []}
    for k in range(side * side):
        right, down = k % side * width, k // side * height
        numbered = lambda found: f'class="{found[1]}{int(found[2]) + 1000 * k} l{int(found[3]) + 100 * k}"'
        moved = lambda found: f"{int(found[1]) + right} {int(found[2]) + down}"
        for line in lines[1:]:
            kind = re.match(r"<(path|circle|text)", line)
            if kind:
                line = re.sub(r'class="(.)(\d+) l(\d+)"', numbered, line)
                line = re.sub(r"(?<=[ML] )(-?\d+) (-?\d+)", moved, line)
                line = re.sub(r'x="(-?\d+)"', lambda f: f'x="{int(f[1]) + right}"', line)
                line = re.sub(r'y="(-?\d+)"', lambda f: f'y="{int(f[1]) + down}"', line)
                parts[kind[1]].append(line)
    head = HEAD.format(f"{left} {top} {width * side} {height * side}")
    return head.encode() + "\n".join([*parts["path"], *parts["circle"], *parts["text"], "</svg>", ""]).encode()
