/* The page's own measures: lines are 12 wide, and what lies beside each other is 200 apart, as on a map on its grid. */
const STROKE = 12, APART = 200, MARGIN = 200;

/* The measures of a picture: what its widths, and what its distances, are multiplied by to be those of the page; from
   which place on; to which part of a unit ways are drawn; and the step of its grid, from 20 to 200. A map over the
   ground has no grid, and lines that are thin for its distances: there the step is what a tenth of the ways from
   station to station fall short of. */
function measuresOf(lines, stations) {
  const widths = STROKE / (lines[0]?.stroke || STROKE), grid = gridOf(lines) * widths;
  const spans = grid < 20 ? spansOf(lines, stations) : [];
  if (spans.length === 0) {
    return { widths, distances: widths, left: 0, top: 0, parts: 1, step: Math.max(20, Math.min(grid || APART, APART)) };
  }
  const { left, top } = boxOf(centresOf(lines), 0);
  return { widths, distances: APART / spans[Math.floor(spans.length / 10)], left, top, parts: 10, step: APART };
}

const centresOf = lines => lines.flatMap(({ ways }) => ways.map(({ centre }) => centre));

/* How far the ends of ways are apart, the least first: of those from station to station, where there are any. */
function spansOf(lines, stations) {
  const places = new Set(stations.map(({ x, y }) => `${x},${y}`)), isStop = (...at) => places.has(placeOf(...at));
  const spanOf = centre => Math.hypot(centre[0] - centre[centre.length - 2], centre[1] - centre[centre.length - 1]);
  const ways = centresOf(lines).filter(centre => spanOf(centre) > 0);
  const runs = ways.filter(centre => isStop(centre, 0) && isStop(centre, centre.length - 2));
  return (runs.length > 0 ? runs : ways).map(spanOf).sort((a, b) => a - b);
}

/* What divides all places of lines, 0 where there is none. */
function gridOf(lines) {
  let step = 0;
  for (const value of new Set(centresOf(lines).flat())) {
    for (let rest = Math.round(Math.abs(value)); rest > 0;) [step, rest] = [rest, step % rest];
  }
  return step;
}

/* Takes lines and stations over into the page's measures. The marker of a map is larger where more lines stop. */
function takeOver(lines, stations, { widths, distances, left, top }) {
  const placed = places => places.map((value, i) => (value - [left, top][i % 2]) * distances);
  const widened = shift => shift.map(value => value * widths);
  for (const line of lines) {
    line.ways = line.ways.map(({ centre, shift, bends }) => (
      { centre: placed(centre), shift: widened(shift), bends: bends.some(bend => bend > 0) ? widened(bends) : null }
    ));
  }
  for (const station of stations) {
    const [x, y] = placed([station.x, station.y]), feet = station.feet.map(widened), radius = station.radius * widths;
    Object.assign(station, { x, y, feet, radius });
    if (!station.isTold) station.radius = Math.max(radius, 3 + 7 * Math.sqrt(station.lines.size));
    station.reach = station.radius + Math.max(...feet.map(([right, down]) => Math.hypot(right, down)));
  }
}

/* The rectangle round all these places, with a margin. */
function boxOf(runs, margin = MARGIN) {
  const least = [Infinity, Infinity], most = [-Infinity, -Infinity];
  for (const run of runs) {
    run.forEach((value, i) => {
      least[i % 2] = Math.min(least[i % 2], value);
      most[i % 2] = Math.max(most[i % 2], value);
    });
  }
  const [left, top] = least.map(value => value - margin), [right, bottom] = most.map(value => value + margin);
  return { left, top, width: right - left, height: bottom - top };
}
