/* A part of the sheet in squares: empty (0), crossed by lines, or taken (Infinity). */
class Squares {
  constructor({ left, top, width, height }, side, courses) {
    Object.assign(this, { left, top, side, columns: Math.ceil(width / side), rows: Math.ceil(height / side) });
    const pen = new OffscreenCanvas(this.columns, this.rows).getContext('2d');
    pen.setTransform(1 / side, 0, 0, 1 / side, -left / side, -top / side);
    pen.lineWidth = side;
    courses.forEach(course => pen.stroke(course));
    const pixels = pen.getImageData(0, 0, this.columns, this.rows).data;
    this.marks = Float32Array.from({ length: pixels.length / 4 }, (_, i) => pixels[4 * i + 3] / 255);
  }

  /* How much of a rectangle is crossed (Infinity: taken, or outside); it may then be taken. */
  crossed(x, y, width, height, isTaken) {
    const [first, last] = [x, x + width].map(value => Math.floor((value - this.left) / this.side));
    const [top, bottom] = [y, y + height].map(value => Math.floor((value - this.top) / this.side));
    if (!(first >= 0 && top >= 0 && last < this.columns && bottom < this.rows)) return Infinity;
    let crossed = 0;
    for (let row = top * this.columns; row <= bottom * this.columns; row += this.columns) {
      if (isTaken) this.marks.fill(Infinity, row + first, row + last + 1);
      for (let i = first; i <= last; i++) crossed += this.marks[row + i];
    }
    return crossed;
  }
}

/* Places of a name, best first: the way from its marker, the parts of it left of there and above. */
const SIDES = [
  [1, 0, 0, .5], [-1, 0, 1, .5], [.7, -.7, 0, 1], [.7, .7, 0, 0],
  [-.7, -.7, 1, 1], [-.7, .7, 1, 0], [0, -1, .5, 1], [0, 1, .5, 0],
];
const pen = Object.assign(new OffscreenCanvas(1, 1).getContext('2d'), { lineCap: 'round', lineJoin: 'round' });

/* Names, those of interchanges first and then those of more lines, where least is crossed and nothing taken; an
   interchange is named over its lines too. Some find none. */
function placeNames(stations, squares, { letters, reachOf, most }) {
  for (const station of stations) {
    const reach = reachOf(station);
    squares.crossed(station.x - reach, station.y - reach, 2 * reach, 2 * reach, true);
  }
  pen.font = '100px system-ui, sans-serif';
  const weightOf = ({ isInterchange, lines }) => (isInterchange ? 1000 : 0) + lines.size;
  return stations.filter(({ name }) => name).sort((a, b) => weightOf(b) - weightOf(a)).flatMap(station => {
    station.ems ??= pen.measureText(station.name).width / 100;
    const away = reachOf(station) + letters / 3, width = station.ems * letters, height = letters * 1.1;
    let best, least = most * weightOf(station);
    SIDES.forEach(([right, down, before, above], side) => {
      const [x, y] = [station.x + right * away - before * width, station.y + down * away - above * height];
      const place = [x, y, width, height];
      const over = squares.crossed(...place) * squares.side / width + side / 20;
      if (over < least) [best, least] = [place, over];
    });
    if (best) squares.crossed(...best, true);
    return best ? [{ station, x: best[0], y: best[1] + letters * .88 }] : [];
  });
}
