const collator = new Intl.Collator('en', { numeric: true });
const byName = things => [...things].sort((a, b) => collator.compare(a.name, b.name));
const titleOf = ({ name }) => name || 'No name';
const folded = text => text.normalize('NFD').replace(/\p{M}/gu, '').toLowerCase().replaceAll('\u00df', 'ss').trim();
const linesInWords = lines => byName(lines).map(titleOf).join(', ');
const inWords = thing => [titleOf(thing), thing.word, nearOf(thing)].filter(Boolean).join(', ');

/* Things by their words, in their order. */
function groupsOf(things, wordsOf) {
  const groups = new Map();
  for (const thing of things) {
    const words = wordsOf(thing), group = groups.get(words);
    if (group) group.push(thing);
    else groups.set(words, [thing]);
  }
  return [...groups.values()];
}

/* The things whose words others have too. */
const alike = (things, wordsOf) => groupsOf(things, wordsOf).filter(({ length }) => length > 1).flat();

/* Things of one name are told apart in words: lines by where they begin and end, stations by their lines, and where
   these are the same too by the nearest station of another name. */
function tellApart({ lines, stations }) {
  for (const line of alike(lines, titleOf)) {
    const [first, last] = [line.stations[0], line.stations[line.stations.length - 1]];
    if (first !== last) line.word = `${titleOf(first)} to ${titleOf(last)}`;
  }
  const named = alike(stations, titleOf);
  for (const station of named) station.word = linesInWords(station.lines);
  for (const station of alike(named, inWords)) station.others = stations;
}

function nearOf({ x, y, name, others = [] }) {
  let near = '', least = Infinity;
  for (const one of others) {
    const away = Math.hypot(one.x - x, one.y - y);
    if (one.name && one.name !== name && away < least) [near, least] = [`near ${one.name}`, away];
  }
  return near;
}
