/* Where a station's marker lies: over the feet of its lines, each as far from its middle as its line is. */
const feetOf = ({ x, y, feet }, spread) => feet.map(([right, down]) => [x + right * spread, y + down * spread]);
const circleAt = ([x, y], r) => `M${x - r} ${y}a${r} ${r} 0 1 0 ${2 * r} 0a${r} ${r} 0 1 0 ${-2 * r} 0z`;
const rounded = places => 'M' + places.map(place => place.map(Math.round).join(' ')).join('L');

/* A way as it is drawn, its places to a part of a unit. A bend begins at most half way to the corner before it, and ends
   at most half way to that behind it. */
function textOf({ centre, shift, bends }, spread, parts) {
  const to = value => Math.round(value * parts) / parts;
  const at = centre.map((value, i) => to(value + shift[i] * spread));
  if (!bends) return `M${at}`;
  const corner = i => at.slice(2 * i, 2 * i + 2), last = at.length / 2 - 1;
  const towards = ([x, y], [right, down], away) => {
    const part = Math.min(.5, away / (Math.hypot(right - x, down - y) || 1));
    return [to(x + (right - x) * part), to(y + (down - y) * part)];
  };
  let text = `M${corner(0)}`;
  for (let i = 1; i < last; i++) {
    const [before, here, behind] = [i - 1, i, i + 1].map(corner), away = (bends[i] || 0) * spread;
    text += away > 0 ? `L${towards(here, before, away)}Q${here},${towards(here, behind, away)}` : `L${here}`;
  }
  return `${text}L${corner(last)}`;
}

/* Lines and stations as shapes, with names where there is room. */
class Layer {
  constructor(root, { left, top, width, height, parts }) {
    this.parts = parts;
    root.setAttribute('viewBox', `${left} ${top} ${width} ${height}`);
    [this.edges, this.routes, this.markers, this.names] = root.children;
    this.show([], []);
  }

  show(lines, stations) { Object.assign(this, { lines, stations, spread: 0 }); }

  draw(look, part) {
    const { edges, routes, markers, names, radii } = this;
    if (this.spread !== look.spread) { this.spreadOut(look.spread); this.draw(look, part); return; }
    edges.setAttribute('stroke-width', look.stroke);
    routes.setAttribute('stroke-width', look.stroke);
    routes.style.setProperty('--thin', look.thin);
    markers.lastElementChild.setAttribute('stroke-width', look.rim);
    radii.forEach((radius, i) => {
      markers.children[i].setAttribute('stroke-width', look.rimOf(radius));
      markers.children[i + radii.length].setAttribute('stroke-width', look.fillOf(radius));
    });
    names.setAttribute('font-size', look.letters);
    names.setAttribute('stroke-width', look.letters / 3);
    this.placed = placeNames(this.stations, new Squares(part, look.letters / 3, this.courses), look)
      .filter(({ station }) => !this.unnamed?.includes(station));
    names.innerHTML = this.placed.map(({ x, y }) => `<text x="${x}" y="${y}"/>`).join('');
    this.placed.forEach(({ station }, i) => { names.children[i].textContent = station.name; });
  }

  /* The ways of lines, which are thinner over an edge that is seen, the edges below all of them, and the markers: those over several feet by size, all rims below
     all that fills them, then the circles as one. */
  spreadOut(spread) {
    this.spread = spread;
    this.texts = this.lines.map(({ ways }) => ways.map(way => textOf(way, spread, this.parts)).join(''));
    this.courses = this.texts.map(text => new Path2D(text));
    this.routes.innerHTML = this.texts.map((text, i) => {
      const { colour, edge } = this.lines[i];
      return `<path class="${edge ? `thin-${edge.paper}` : ''}" color="${colour}" d="${text}"/>`;
    }).join('');
    this.edges.innerHTML = this.texts.map((text, i) => {
      const { edge } = this.lines[i];
      return edge ? `<path class="${edge.paper}" color="${edge.colour}" d="${text}"/>` : '';
    }).join('');
    const wide = this.stations.filter(({ feet }) => feet.length > 1);
    this.radii = [...new Set(wide.map(({ radius }) => radius))];
    this.marks = this.radii.map(wanted => wide.flatMap(station => (
      station.radius === wanted ? rounded(feetOf(station, spread)) : []
    )).join(''));
    this.circles = this.stations.flatMap(station => (
      station.feet.length > 1 ? [] : circleAt(feetOf(station, spread)[0], station.radius * spread)
    )).join('');
    this.markers.innerHTML = ['rim', 'fill'].map(kind => (
      this.marks.map(text => `<path class="${kind}" d="${text}"/>`).join('')
    )).join('') + `<path class="circle" d="${this.circles}"/>`;
  }
}
