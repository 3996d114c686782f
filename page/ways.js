const placeOf = (points, i) => `${points[i]},${points[i + 1]}`;

/* The lines of a segment lie evenly about its middle: how far each is shifted from there. Where the segment ends. */
function centreWays(ways) {
  const first = ways[0].points, last = ways[ways.length - 1].points;
  const centre = first.map((value, i) => (value + (last[i] ?? value)) / 2);
  for (const { line, points, bends } of ways) {
    const shift = centre.map((value, i) => (points[i] ?? value) - value);
    line.ways.push({ centre, shift, bends });
    for (const i of [0, centre.length - 2]) {
      line.ends.set(placeOf(points, i), [centre.slice(i, i + 2), shift.slice(i, i + 2)]);
    }
  }
  return [placeOf(centre, 0), placeOf(centre, centre.length - 2)];
}

/* A join leads between ends of a line, shifted with both. */
function linkJoin({ line, points }) {
  const [from, to] = [0, 2].map(i => line.ends.get(placeOf(points, i)) || [points.slice(i, i + 2), [0, 0]]);
  line.ways.push({ centre: [...from[0], ...to[0]], shift: [...from[1], ...to[1]], bends: [0, 0] });
}

/* Lists the stations of a line from an end on, branch by branch: those where it calls, where that is told. */
function listStations(line, stationAt) {
  const next = new Map(), met = new Set();
  for (const { centre } of line.ways) {
    const ends = [placeOf(centre, 0), placeOf(centre, centre.length - 2)];
    ends.forEach((end, i) => next.set(end, [...next.get(end) || [], ends[1 - i]]));
  }
  const waiting = [...next.keys()].sort((a, b) => next.get(b).length - next.get(a).length);
  while (waiting.length > 0) {
    const place = waiting.pop();
    if (!met.has(place)) waiting.push(...next.get(place));
    met.add(place);
  }
  const stations = [...met].flatMap(place => stationAt.get(place) || []);
  line.stations = stations.filter(({ isTold, lines }) => !isTold || lines.has(line));
  for (const station of line.stations) station.lines.add(line);
}
