#!/usr/bin/env python3
"""Draws the line graph of a feed as it lies on the ground: what a map is made of, before it is made schematic.

    docs/gallery/ways.py FEED <GRAPH >SVG

GRAPH is what `octimap graph FEED` prints; the colours of lines are those of FEED/routes.txt. Segments are drawn
straight from node to node, their lines side by side in the order of their numbers.
"""
import csv
import math
import pathlib
import sys

TYPES = {"0", "1", "2", "5", "6", "7", "12"}
WIDE = 1000
BESIDE = 4

with open(pathlib.Path(sys.argv[1]) / "routes.txt", encoding="utf-8-sig", newline="") as table:
    colours = [row["route_color"] for row in csv.DictReader(table) if row["route_type"].strip() in TYPES]
nodes, segments = [], []
for words in map(str.split, sys.stdin):
    if words[0] == "node":
        nodes.append((int(words[3]), -int(words[4]), words[2] == "station"))
    elif words[0] == "segment":
        segments.append((int(words[2]), int(words[3]), [int(line) for line in words[4:]]))
left, top = min(x for x, _, _ in nodes), min(y for _, y, _ in nodes)
scale = WIDE / (max(x for x, _, _ in nodes) - left)
points = [((x - left) * scale, (y - top) * scale) for x, y, _ in nodes]
high = max(y for _, y in points)
print(f'<svg xmlns="http://www.w3.org/2000/svg" version="1.1" viewBox="-40 -40 {WIDE + 80} {high + 80:.0f}">')
for lower, upper, lines in segments:
    (x0, y0), (x1, y1) = points[lower], points[upper]
    long = math.hypot(x1 - x0, y1 - y0)
    for place, line in enumerate(lines):
        aside = (place - (len(lines) - 1) / 2) * BESIDE
        dx, dy = -(y1 - y0) / long * aside, (x1 - x0) / long * aside
        way = f"M {x0 + dx:.1f} {y0 + dy:.1f} L {x1 + dx:.1f} {y1 + dy:.1f}"
        print(f'<path d="{way}" stroke="#{colours[line]}" stroke-width="{BESIDE}"/>')
for (x, y), (_, _, station) in zip(points, nodes):
    if station:
        print(f'<circle cx="{x:.1f}" cy="{y:.1f}" r="4" fill="#ffffff" stroke="#000000" stroke-width="1.5"/>')
print("</svg>")
