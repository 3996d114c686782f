'use strict';

const NUMBERS = /-?\d+(\.\d+)?/g;
const numbersOf = (element, name) => (element?.getAttribute(name) || '').match(NUMBERS)?.map(Number) || [];
const wordsOf = element => (element?.textContent || '').replace(/\s+/g, ' ').trim();

/* What a map or a poster shows, in the page's measures: lines with their ways over segments, and stations; null where
   it is neither. Only numbers, colours and names are taken from it. */
function readPicture(text) {
  const root = new DOMParser().parseFromString(text, 'text/html');
  const { lines: byNumber, segments, ends } = readLines(root), lines = [...byNumber.values()];
  const groups = [...root.querySelectorAll('g')].filter(({ className }) => /^n\d+( l\d+)*$/.test(className.baseVal));
  const stations = groups.length > 0 ? groups.flatMap(group => posterStation(group, byNumber)) : mapStations(root);
  if (lines.length + stations.length === 0) return null;
  const stationAt = new Map(stations.map(station => [`${station.x},${station.y}`, station]));
  lines.forEach(line => listStations(line, stationAt));
  for (const [place, { length }] of groupsOf(ends, end => end).map(group => [group[0], group])) {
    const station = stationAt.get(place);
    if (station) station.isInterchange = length > 2 && station.lines.size > 1;
  }
  const measures = measuresOf(lines, stations);
  takeOver(lines, stations, measures);
  return {
    name: wordsOf(root.querySelector('svg > title')), tellsCalls: groups.length > 0,
    lines, stations, parts: measures.parts, step: measures.step,
    ...boxOf([...centresOf(lines), ...stations.map(({ x, y }) => [x, y])]),
    widest: [...segments.values()].reduce((most, ways) => Math.max(most, ways.length), 1),
  };
}

/* Lines by number, segments, and where segments end. The wider copy below a pale line of a poster is no line: it has a
   width of its own in a group that has one. */
function readLines(root) {
  const lines = new Map(), segments = new Map(), joins = [];
  for (const element of root.querySelectorAll('path')) {
    const [, kind, place, number] = /^([sn])(\d+) l(\d+)$/.exec(element.getAttribute('class')) || [];
    const { points, bends } = cornersOf(element.getAttribute('d') || '');
    const isCopy = element.hasAttribute('stroke-width') && element.parentElement.closest('[stroke-width]');
    if (!kind || points.length < 4 || points.length % 2 > 0 || isCopy) continue;
    if (!lines.has(number)) lines.set(number, newLine(number, element));
    const way = { line: lines.get(number), points, bends };
    if (kind === 's') segments.set(place, [...segments.get(place) || [], way]);
    else joins.push(way);
  }
  const ends = [...segments.values()].flatMap(centreWays);
  joins.forEach(linkJoin);
  return { lines, segments, ends };
}

/* The corners of a path, and how far from each of them its bend begins, 0 where it is sharp. A bend is a straight piece
   to where it begins, and a curve by its corner to where it ends. */
function cornersOf(way) {
  const points = [], bends = [];
  for (const [, kind, told] of way.matchAll(/([A-Za-z])([^A-Za-z]*)/g)) {
    const numbers = told.match(NUMBERS)?.map(Number) || [];
    if (kind === 'Q' && points.length > 0) {
      const [right, down] = points.splice(-2);
      bends.splice(-1, 1, Math.hypot(numbers[0] - right, numbers[1] - down));
      points.push(...numbers.slice(0, 2));
    } else {
      points.push(...numbers);
      bends.push(...numbers.slice(0, numbers.length / 2).fill(0));
    }
  }
  return { points, bends };
}

function newLine(number, element) {
  const told = element.getAttribute('stroke'), colour = /^#[0-9a-f]{6}$/i.test(told) ? told : '#808080';
  const name = wordsOf(element.querySelector('title')) || `Line ${number}`;
  const [stroke] = numbersOf(element.closest('[stroke-width]'), 'stroke-width');
  return { kind: 'line', colour, edge: edgeOf(colour), name, stroke, ways: [], ends: new Map() };
}

/* A map has a circle for each station, and its name behind; a map with names at free places has left some out. */
function mapStations(root) {
  const stations = [...root.querySelectorAll('circle')].map(circle => {
    const [x, y, radius] = ['cx', 'cy', 'r'].map(name => numbersOf(circle, name)[0]);
    return { kind: 'station', x, y, radius, feet: [[0, 0]], name: '', lines: new Set() };
  }).filter(({ x, y, radius }) => radius >= 0 && Number.isFinite(x + y));
  const texts = [...root.querySelectorAll('text')], isWhole = texts.length === stations.length;
  let last = -1;
  for (const text of texts) {
    let next = last + 1;
    while (next < stations.length && !isWhole && !standsBy(text, stations[next])) next++;
    if (next < stations.length) stations[last = next].name = wordsOf(text);
  }
  return stations;
}

/* Does a name stand at one of the eight places round this station? It is as wide as three fifths of its size for each
   character, and a fifth away. */
function standsBy(text, station) {
  const [x, y, size] = ['x', 'y', 'font-size'].map(name => numbersOf(text, name)[0]);
  const right = x - station.x, down = y - station.y, gap = size / 5;
  const away = station.radius + gap, width = 3 * gap * [...text.textContent].length;
  if (right === away || right === -away - width) return [-away, 2 * gap, away + size].includes(down);
  return right === -width / 2 && [-away - gap, away + size].includes(down);
}

/* A poster tells the lines that call at a station, and has its marker over their feet: their ends there. A station
   where none calls has no marker, and is left out. */
function posterStation(group, lines) {
  const calling = group.className.baseVal.split(' ').slice(1).flatMap(word => lines.get(word.slice(1)) || []);
  const marker = group.querySelector('path'), points = numbersOf(marker, 'd');
  const feet = points.flatMap((_, i) => {
    const line = i % 2 === 0 && calling.find(({ ends }) => ends.has(placeOf(points, i)));
    return line ? [line.ends.get(placeOf(points, i))] : [];
  });
  if (feet.length === 0) return [];
  const [x, y] = feet[0][0], radius = Math.max(4, (numbersOf(marker, 'stroke-width')[0] || 20) / 2 - 2);
  return {
    kind: 'station', x, y, radius, feet: feet.map(([, shift]) => shift),
    name: wordsOf(group.querySelector('title')), lines: new Set(calling), isTold: true,
  };
}
