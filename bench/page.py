#!/usr/bin/env python3
"""Tries the page of a map in headless Chromium (Debian: chromium chromium-driver python3-selenium).

  /usr/bin/python3 bench/page.py [SVG ..]

Opens the pages of these maps and posters (where none is given those of docs/gallery, on the grid, with names at free
places and over the ground), zooms, moves, points, searches and presses keys; then small pictures of bench/page_maps.py
for each thing that a page does: lists and keys, things of one name, calls, other units, contrast, links, titles, saved
pictures; hostile pictures and odd names; cities of about 300 and 1,000 stations; the last map and all over the ground
on a phone; at last a map of 5 MB, made of many copies of the last one, with its times. Screenshots are left in
bench/work/page, to be looked at.
"""
import base64
import pathlib
import re
import socket
import struct
import sys
import threading
import time
from html import unescape
from urllib.parse import quote
from xml.etree import ElementTree

from selenium.webdriver.common.keys import Keys

import page_maps
from page_browser import TOP, WORK, Browser, comes, middle
from page_maps import MAP

NAMES = ["A&amp;B &lt;i&gt;&quot;", "two\nlines", "\u05e9\u05dc\u05d5\u05dd 12", "", "x" * 200]
PAINTED = 100_000  # bytes of a screenshot that shows the large map, not its empty frame
failed = 0


def hold(what, holds):
    global failed
    failed += not holds
    print(("ok    " if holds else "WRONG ") + what, flush=True)


def names_of(svg):
    """The names of the stations of a map or a poster."""
    groups = re.findall(rb'<g class="n\d+ [^>]*><title>([^<]*)<', svg)
    texts = [text.decode() for text in groups or re.findall(rb"<text[^>]*>([^<]*)<", svg)]
    return [" ".join(unescape(text).split()) for text in texts]


def try_map(page, name, svg):
    page.open(name, svg)
    page.shot(name)
    stations = svg.count(b"<circle") or len(re.findall(rb'<g class="n\d+ l', svg))
    hold(f"{name}: all of it is seen at first", page.seen_whole())
    hold(f"{name}: all {stations} stations are told", page.said("size").endswith(f"stations: {stations}"))
    hold(f"{name}: names are seen at first", page.names_painted())
    hold(f"{name}: names don't cover each other ({page.names_shown()} at first)", page.names_apart())
    first = page.scale()
    page.wheel(-240)
    hold(f"{name}: the wheel zooms", comes(lambda: page.scale() > 1.4 * first))
    page.shot(name + "-near")
    frame = page.one("view")
    for key in ["-", Keys.ARROW_LEFT, "0"]:
        frame.send_keys(key)
    hold(f"{name}: keys zoom, move and show the whole map again", comes(lambda: abs(page.scale() / first - 1) < .01))
    button = page.all("#lines button")[0]
    page.point(button)
    hold(f"{name}: pointing at the legend lifts a line", len(page.all(".dim #lifted .routes path")) == 1)
    button.click()
    page.shot(name + "-line")
    hold(f"{name}: a chosen line lists its stations", len(page.all("#parts button")) > 1)
    frame.send_keys(Keys.ESCAPE)
    told = page.script("""
        return [...document.querySelectorAll('#lines button')].flatMap(button => {
            button.click();
            return [...document.querySelectorAll('#parts bdi')].map(one => one.textContent);
        });""")
    hold(f"{name}: the lists of lines have all names", set(told) - {"No name"} == {name for name in names_of(svg) if name})
    frame.send_keys(Keys.ESCAPE)
    find, last = page.one("find"), [text for text in names_of(svg) if len(text) >= 4][-1]
    find.send_keys(last.upper())
    found = page.texts("#found bdi")
    hold(f"{name}: the search finds {last}", last in found)
    find.send_keys(Keys.ENTER)
    hold(f"{name}: a station that was found is shown", comes(lambda: page.said("chosen") == found[0]))
    hold(f"{name}: it comes to the middle", comes(page.chosen_centred))
    page.shot(name + "-station")
    page.hover(*middle(page.boxes("#view")[0]))
    hold(f"{name}: pointing there tells its name", comes(lambda: page.said("tip").startswith(found[0])))
    hold(f"{name}: no complaint in the browser's log", page.log() == [])


def try_search(page):
    """The search box, and what it finds."""
    page.open("search", page_maps.city(5).map())
    find = page.one("find")
    find.send_keys("xyzzy")
    told = [page.said("count"), *page.texts("#said")]
    hold("search: it is said where nothing is found", told == ["Nothing found"] * 2)
    page.shot("nothing-found")
    find.send_keys(Keys.ESCAPE)
    hold("search: Escape empties the box", find.get_attribute("value") == "" and not page.one("hits").is_displayed())
    find.send_keys("gate")
    names = page.texts("#found bdi")
    hold("search: 20 are shown, and of how many is said", len(names) == 20 and page.said("count") == "20 of 25 found")
    places = []
    for key in ["DOWN", "DOWN", "UP", "UP", "HOME", "END", "DOWN", "DOWN"]:
        find.send_keys(getattr(Keys, "ARROW_" + key, None) or getattr(Keys, key))
        places += [names.index(name) for name in page.texts("#found [aria-selected=true] bdi")]
    hold("search: arrow keys, Home and End go through what is found", places == [0, 1, 0, 19, 0, 19, 0, 1])
    marked = page.all("#found [aria-selected=true]")[0].get_attribute("id")
    hold("search: the box tells which one is marked", find.get_attribute("aria-activedescendant") == marked)
    page.shot("found")
    find.send_keys(Keys.ENTER)
    hold("search: Enter chooses the marked one", page.said("chosen") == names[1])
    hold("search: then the list is gone", not page.one("hits").is_displayed())


def try_lists(page):
    """Keys in the legend and in the list of what was chosen."""
    page.open("lists", page_maps.city(5).map())
    lines = page.all("#lines button")
    lines[0].send_keys(Keys.ARROW_DOWN)
    places = [lines.index(page.active())]
    for key in [Keys.END, Keys.ARROW_DOWN, Keys.ARROW_UP, Keys.HOME]:
        page.press(key)
        places.append(lines.index(page.active()))
    last = len(lines) - 1
    hold("lists: arrow keys, Home and End go through the legend", places == [1, last, 0, last, 0])
    page.press(Keys.ENTER)
    hold("lists: Enter chooses a line of the legend", page.said("chosen") == lines[0].text)
    parts = page.all("#parts button")
    name = page.texts("#parts bdi")[1]
    parts[0].send_keys(Keys.ARROW_DOWN)
    page.press(Keys.ENTER)
    hold("lists: Enter chooses a station of a line", page.said("chosen") == name)
    hold("lists: the focus goes to its card", page.active() == page.one("chosen"))
    page.press(Keys.ESCAPE)
    hold("lists: Escape closes the card", not page.one("card").is_displayed())


def try_alike(page):
    """Four stations and two lines of one name."""
    net = page_maps.streets()
    told = {"poster": ["2, 3", "2", "A, near Canal St", "A, near Broad St"],
            "map": ["2, 3, near Wall St", "2, 3, near Park Pl", "A, near Canal St", "A, near Broad St"]}
    for kind, svg in [("poster", net.poster()), ("map", net.map())]:
        page.open(f"alike-{kind}", svg)
        page.one("find").send_keys("fulton")
        hold(f"alike: four of one name are told apart in words ({kind})", page.texts("#found small") == told[kind])
        page.shot(f"alike-{kind}")
        ways = {" to ".join(sorted(words.split(" to "))) for words in page.texts("#lines small")}
        wanted = {"Grand Central to Times Sq", "Franklin Av to Prospect Park"}
        hold(f"alike: two lines of one name too ({kind})", ways == wanted)


def try_calls(page):
    """Lists of a poster are of the lines that call; those of a map of the lines that run through, and say so."""
    net = page_maps.streets()
    names = [name for name, _, _ in net.stations]
    for kind, svg, lines_at in [("poster", net.poster(), net.calls), ("map", net.map(), net.passes)]:
        page.open(f"calls-{kind}", svg)
        shown = page.texts("#sheet .names text")
        hold(f"calls: names are those of all stations ({kind})", sorted(shown) == sorted(names))
        for number in [0, 2]:
            page.follow("#station/" + quote(names[number]))
            comes(lambda: page.said("chosen") == names[number])
            hold(f"calls: lines at {names[number]} ({kind})", page.texts("#parts bdi") == lines_at(number))
        page.follow("#line/3")
        comes(lambda: page.said("chosen") == "3")
        wanted = sorted(name for i, name in enumerate(names) if "3" in lines_at(i))
        hold(f"calls: stations of line 3 ({kind})", sorted(page.texts("#parts bdi")) == wanted)
        warned = "without calling" in page.said("note")
        hold(f"calls: a map says that lines may pass, a poster doesn't ({kind})", warned == (kind == "map"))
        page.shot(f"calls-{kind}")


def try_free_names(page):
    """A map with names at free places: some are left out, the others are at any side of their station."""
    page.open("free", page_maps.free_names())
    page.follow("#line/A")
    comes(lambda: page.said("chosen") == "A")
    names = page.texts("#parts bdi")
    wanted = ["No name", "No name", "Broad St", "Fulton St", "High St"]
    hold("free names: each is given to its own station", names in [wanted, wanted[::-1]])


def try_units(page):
    """A map is shown the same whatever its unit is."""
    for kind, svg in [("a map", page_maps.streets().map()), ("free names", page_maps.free_names())]:
        told = []
        for times in [1, 5]:
            page.open("units", page_maps.scaled(svg, times))
            boxes = page.boxes("#sheet .routes", "#sheet .markers", "#sheet .names")
            told.append([page.texts("#sheet .names text"), [[round(box[side], 1) for side in box] for box in boxes]])
        hold(f"units: {kind} is the same in units of a fifth", told[0] == told[1])


def try_phone(page, name, svg):
    tell = lambda what, holds: hold(f"phone, {name}: {what}", holds)
    page.sized(390, 800, True)
    page.open("phone", svg)
    page.shot(f"phone-{name}")
    width = lambda: page.one("view").size["width"]
    tell("all of the map is seen", page.seen_whole())
    tell(f"names are seen ({page.names_shown()} at first)", page.names_painted() and page.names_apart())
    page.sized(800, 390, True)
    tell("turned, it is seen whole again", comes(lambda: width() > 390 and page.seen_whole()))
    frame, buttons = page.boxes("#view", "#zoom")
    tell("turned, the buttons lie beside it", buttons["left"] >= frame["right"] and buttons["right"] <= 800)
    page.shot(f"phone-{name}-turned")
    page.sized(390, 800, True)
    tell("turned back, too", comes(lambda: width() == 390 and page.seen_whole()))
    find = page.one("find")
    find.send_keys(names_of(svg)[-1])
    page.shot(f"phone-{name}-found")
    find.send_keys(Keys.ENTER)
    comes(lambda: page.one("card").is_displayed())
    card, frame = page.boxes("#card", "#view")
    tell("the card is below the map, not over it", card["top"] >= frame["bottom"] and card["bottom"] <= 800)
    tell("the map has a third of the screen at least", frame["bottom"] - frame["top"] > 800 / 3)
    tell("the chosen station is in sight", comes(page.chosen_seen))
    time.sleep(1)
    page.shot(f"phone-{name}-card")
    page.sized(800, 390, True)
    tell("turned, it still is", comes(lambda: width() > 390 and page.chosen_seen()))
    page.shot(f"phone-{name}-card-turned")
    page.sized(390, 800, True)
    comes(lambda: width() == 390)
    page.one("close").click()
    tell("what is closed gives its place to the map", comes(lambda: page.boxes("#view")[0]["bottom"] == 800))
    page.all("#legend summary")[0].click()
    page.shot(f"phone-{name}-legend")
    page.all("#lines button")[0].click()
    tell("choosing a line closes the legend", comes(lambda: page.one("card").is_displayed()
                                                    and not page.one("lines").is_displayed()))
    page.shot(f"phone-{name}-line")
    tell("nothing is wider than the screen", page.script("return document.documentElement.scrollWidth") <= 390)
    page.sized()


def light(colour):
    """The relative luminance of a colour as the browser tells it (WCAG 2)."""
    parts = [int(part) / 255 for part in re.findall(r"\d+", colour)[:3]]
    linear = [part / 12.92 if part <= .04045 else ((part + .055) / 1.055) ** 2.4 for part in parts]
    return .2126 * linear[0] + .7152 * linear[1] + .0722 * linear[2]


def contrast(colour, other):
    if colour.startswith("rgba"):  # nothing is seen of it
        return 0
    low, high = sorted([light(colour), light(other)])
    return (high + .05) / (low + .05)


def try_contrast(page):
    """Each line, or its edge, has a contrast of 3 to 1 with the paper, on the map and in the legend."""
    for scheme in ["light", "dark"]:
        page.surroundings(scheme)
        page.open(f"colours-{scheme}", page_maps.colours().map())
        page.shot(f"colours-{scheme}")
        paper, panel, paths, swatches = page.script("""
            const style = one => getComputedStyle(one), all = text => [...document.querySelectorAll(text)];
            const paths = all('#sheet path[color]').filter(one => style(one).display !== 'none');
            return [
                style(document.body).backgroundColor, style(document.getElementById('panel')).backgroundColor,
                paths.map(one => [one.getAttribute('d'), style(one).stroke, parseFloat(style(one).strokeWidth)]),
                all('#lines i').map(one => [style(one).backgroundColor, style(one).borderTopColor]),
            ];""")
        lines, widths = {}, {}
        for way, colour, width in paths:
            lines[way] = max(lines.get(way, 0), contrast(colour, paper))
            widths[way] = max(widths.get(way, 0), width)
        hold(f"contrast: with edges lines are as wide as others on {scheme} paper", len(set(widths.values())) == 1)
        least = min(lines.values())
        hold(f"contrast: each line on {scheme} paper, the least at {least:.1f}", len(lines) == 12 and least >= 3)
        least = min(max(contrast(colour, panel) for colour in colours) for colours in swatches)
        hold(f"contrast: the legend in {scheme} surroundings, the least at {least:.1f}", least >= 3)
    page.surroundings("light")


def try_bends(page):
    """Lines of a poster keep their bends, and are pointed at along these."""
    page.open("bends", page_maps.bent())
    ways = page.script("""
        return [...document.querySelectorAll('#sheet .routes path')].map(one => one.getAttribute('d'));""")
    hold("bends: two lines have one each", [way.count("Q") for way in ways] == [1, 1])
    page.shot("bends")
    left, top, scale = page.script("""
        const box = document.querySelector('#sheet').getBoundingClientRect();
        return [box.left, box.top, box.width / document.querySelector('#sheet').viewBox.baseVal.width];""")
    at = lambda x, y: (left + (x + 200) * scale, top + (y + 200) * scale)  # in the page's units, 12/7 of the poster's
    page.hover(*at(1800, 257))
    hold("bends: pointing at the middle of a bend lifts its line", comes(lambda: page.said("tip").startswith("A")))
    page.hover(*at(2057, 0))
    hold("bends: where it would lie without one it does not", comes(lambda: page.said("tip") == ""))


def try_links(page):
    svg = page_maps.streets().poster()
    page.open("links", svg, "#station/Fulton%20St/2")
    hold("links: a station in the address is chosen", page.said("chosen") == "Fulton St")
    hold("links: of one name it is the one that the address names", page.texts("#parts bdi") == ["2", "3"])
    hold("links: it is in sight", page.chosen_seen())
    page.all("#parts button")[0].click()
    hold("links: the address follows what is chosen", comes(lambda: page.driver.current_url.endswith("#line/2")))
    hold("links: so does the title", page.driver.title == "2 - Transit map")
    page.driver.refresh()
    hold("links: it is restored when loaded again", comes(lambda: page.said("chosen") == "2"))
    page.driver.back()
    hold("links: the way back leads to what was chosen before", comes(lambda: page.said("chosen") == "Fulton St"))
    page.one("close").click()
    hold("links: what is closed leaves the address", comes(lambda: re.search("html#?$", page.driver.current_url)))
    page.open("links", svg, "#station/Fulton%20St/9")
    hold("links: a number that is none leads to the first of the name", page.texts("#parts bdi") == ["2"])
    page.open("links", svg, "#station/Nowhere%20St")
    told = [page.one("find").get_attribute("value"), page.said("count"), page.said("chosen")]
    hold("links: what isn't on the map is not found", told == ["Nowhere St", "Nothing found", ""])
    for link in ["#station/%E0%A4%A", "#<b>", "#", "#line/", "#///"]:
        page.open("links", svg, link)
        hold(f"links: {link} chooses nothing", not page.one("card").is_displayed() and page.names_shown() > 0)
    hold("links: no complaint in the browser's log", page.log() == [])


def try_title(page):
    svg = page_maps.streets().map().decode()
    page.open("title", svg.replace(">\n", "><title>Lower &lt;Manhattan&gt; &amp; Co</title>\n", 1).encode())
    told = [page.driver.title, page.said("name")]
    hold("title: the map's name is that of the picture", told == ["Lower <Manhattan> & Co"] * 2)
    page.open("title", svg.encode())
    hold("title: without one it is a transit map", page.driver.title == "Transit map")


def try_save(page):
    net = page_maps.city(7)
    page.open("save", net.poster().decode().replace(">\n", "><title>Seven &amp; seven</title>\n", 1).encode())
    own = page.saved("svg", "Seven & seven")
    root = ElementTree.fromstring(own or b"<none/>")
    kinds = [part.tag.split("}")[-1] for part in root.iter()]
    names = {part.text for part, kind in zip(root.iter(), kinds) if kind == "text"}
    hold("save: an SVG with the map's name", root[0].text == "Seven & seven")
    hold("save: with its lines", kinds.count("path") > len(net.lines))
    hold(f"save: with {len(names)} names of stations", names <= {name for name, _, _ in net.stations}
         and len(names) >= page.names_shown() > 0)
    hold("save: it has colours of its own, and nothing else", set(kinds) == {"svg", "title", "rect", "path", "text"}
         and b"class=" not in own and b"var(" not in own)
    width, height = int(root.get("width", 0)), int(root.get("height", 0))
    own = page.saved("png", "Seven & seven")
    size = struct.unpack(">II", own[16:24]) if own.startswith(b"\x89PNG\r\n\x1a\n") else (0, 1)
    hold(f"save: a PNG of {size} for {width} by {height}", size[0] >= width >= 1000
         and abs(size[0] / size[1] - width / height) < .01)
    page.follow("#line/A Express")
    comes(lambda: page.said("chosen") == "A Express")
    hold("save: a PNG of a line that is lifted", len(page.saved("png", "A Express - Seven & seven")) > 1000)
    page.wheel(-240)
    time.sleep(2)
    own = page.saved("svg", "A Express - Seven & seven")
    hold("save: an SVG of a line that is lifted, with the map pale below", own.count(b'fill-opacity="0.8"') == 1)
    for name in ["Seven & seven.svg", "A Express - Seven & seven.png", "A Express - Seven & seven.svg"]:
        page.driver.get((WORK / name).as_uri())
        page.shot("saved-" + re.sub(r"\W+", "-", name))
    page.log()


def try_cities(page):
    """Cities of about 300 and 1,000 stations, as maps and as posters."""
    for side in [17, 32]:
        net = page_maps.city(side)
        for kind, svg, lines_at in [("map", net.map(), net.passes), ("poster", net.poster(), net.calls)]:
            name = f"city-{side * side}-{kind}"
            page.open(name, svg)
            spent = page.seconds_spent()
            page.shot(name)
            hold(f"{name}: seen after {spent:.2f} s of the page's own time", spent < 2)
            hold(f"{name}: names don't cover each other ({page.names_shown()} at first)", page.names_apart())
            number = side * side // 2
            station = net.stations[number][0]
            page.one("find").send_keys(station, Keys.ENTER)
            hold(f"{name}: {station} is found, with its lines",
                 comes(lambda: sorted(page.texts("#parts bdi")) == lines_at(number)))
            time.sleep(2)
            page.shot(name + "-station")


def try_hostile(page):
    server = socket.create_server(("127.0.0.1", 0))
    port, calls = server.getsockname()[1], []
    threading.Thread(target=lambda: [calls.append(server.accept()) for _ in iter(int, 1)], daemon=True).start()
    there = f"http://127.0.0.1:{port}/"
    run = "document.title='ran'"
    inside = [f"<script>{run}</script>", f'<g onload="{run}"/><set onbegin="{run}" attributeName="x"/>',
              f'<foreignObject><iframe xmlns="http://www.w3.org/1999/xhtml" src="{there}"/></foreignObject>',
              f'<image href="{there}"/><a href="javascript:{run}"><text>click</text></a>',
              f"<style>@import '{there}';</style>", f"</svg><script>{run}</script>",
              f'</svg></plaintext></main><img src=x onerror="{run}">',
              f'</svg><meta http-equiv="refresh" content="0;url={there}">',
              f'</svg><link rel="preconnect" href="{there}">']
    whole = MAP.format(line="L", name="S")
    for i, words in enumerate(inside):
        for place in ["</svg>", "</title>"]:
            page.open(f"hostile-{i}", whole.replace(place, words + place).encode())
        time.sleep(.2)
        hold(f"hostile: {words[:50]}", page.driver.title == "Transit map"
             and page.driver.current_url.startswith("file:") and not calls)
    named = f'<title>{{}}</title><g class="n0 l0"><title>{{}}</title><path d="M 0 0 L 0 0"/></g></svg>'
    for words in [f"&lt;img src=x onerror={run}&gt;", f"<img src=x onerror={run}>"]:
        text = whole.replace("</svg>", named.format(words, words)).replace(">L<", f">{words}<")
        page.open("hostile-name", text.encode())
        page.one("find").send_keys("img")
        page.press(Keys.ENTER)
        page.script("document.getElementById('svg').click()")
        time.sleep(1)
        hold(f"hostile: names like {words}", page.driver.title != "ran" and not page.all("img"))
    page.log()
    for what, text in [("no map", "<svg/>"), ("empty", ""), ("no XML", "words & <"), ("a list", "<ul><li/></ul>")]:
        page.open("none", text.encode())
        hold(f"{what}: it is said", page.one("trouble").is_displayed())


def try_names(page):
    for i, name in enumerate(NAMES):
        text = MAP.format(line=name, name=name)
        plain = name
        for written, sign in [("&lt;", "<"), ("&gt;", ">"), ("&quot;", '"'), ("&amp;", "&")]:
            plain = plain.replace(written, sign)
        plain = " ".join(plain.split())
        for before in ["", '<?xml version="1.0" encoding="UTF-8"?>\n']:
            page.open(f"name-{i}", (before + text).encode())
            hold(f"name {plain[:20]!r}{' after a declaration' if before else ''}",
                 page.texts("#lines bdi") == [plain or "Line 0"])
        page.shot(f"name-{i}")


def try_large(page, svg):
    large = page_maps.copies(svg, 5_000_000)
    seconds = page.open("large", large)
    spent = page.seconds_spent()
    begun = time.time()
    while len(page.driver.get_screenshot_as_png()) < PAINTED and time.time() < begun + 20:
        time.sleep(.05)
    seconds += time.time() - begun
    page.shot("large")
    hold(f"large: {len(large):,} bytes are seen after {seconds:.2f} s, of which the page itself took {spent:.2f} s",
         spent < 2 and (WORK / "large.png").stat().st_size >= PAINTED)
    hold(f"large: names don't cover each other ({page.names_shown()} at first)", page.names_apart())
    print("      zooming: " + page.frames(lambda step: page.wheel(-60)))
    page.open("large", large)
    page.wheel(-240)
    time.sleep(1.5)
    kinds = {0: "mousePressed", 39: "mouseReleased"}
    drag = lambda step: page.drag(kinds.get(step, "mouseMoved"), 900 - 9 * step, 500 - 4 * step)
    print("      dragging: " + page.frames(drag))
    time.sleep(1)
    page.shot("large-near")


def main(words):
    WORK.mkdir(parents=True, exist_ok=True)
    shown = sorted((TOP / "docs" / "gallery").glob("*.svg"))
    maps = [pathlib.Path(word) for word in words] or [path for path in shown if b'class="s0 ' in path.read_bytes()]
    page = Browser()
    for path in maps:
        try_map(page, path.stem, path.read_bytes())
    printed = page.ask("Page.printToPDF", {"preferCSSPageSize": True})
    (WORK / "printed.pdf").write_bytes(base64.b64decode(printed["data"]))
    last = maps[-1].read_bytes()
    page.surroundings("dark")
    page.open("dark", last)
    page.shot("dark")
    page.surroundings("light")
    for trial in [try_search, try_lists, try_alike, try_calls, try_free_names, try_units, try_contrast, try_bends,
                  try_links, try_title, try_save, try_hostile, try_names, try_cities]:
        trial(page)
    for path in [path for path in maps if path == maps[-1] or path.stem.endswith("-ground")]:
        try_phone(page, path.stem, path.read_bytes())
    texts = (path.read_bytes() for path in [*maps[::-1], *shown[::-1]])
    try_large(page, next(text for text in texts if b"<circle" in text))
    page.driver.quit()
    print(f"{failed} wrong; screenshots in {WORK}")
    return failed > 0


if __name__ == "__main__":
    sys.exit(main(sys.argv[1:]))
