/* The map in its frame: its place and scale (pixels a unit), now and at rest; what it aims at stays in sight where the
   frame changes. */
class View {
  constructor(frame, plane, map) {
    Object.assign(this, { frame, plane, map, isLarge: map.lines.flatMap(line => line.ways).length > 3000 });
    this.layers = [...plane.children].map(root => new Layer(root, map));
    this.layers[0].show(map.lines, map.stations);
    this.aim = () => this.whole();
    this.refit();
    new ResizeObserver(() => this.refit()).observe(frame);
  }

  whole(box = this.map, most = Infinity) {
    const { width, height, map } = this, room = width - Math.min(80, width * .12);
    const scale = Math.min(room / box.width, height / box.height, most);
    return {
      scale, x: (width - box.width * scale) / 2 - (box.left - map.left) * scale,
      y: (height - box.height * scale) / 2 - (box.top - map.top) * scale,
    };
  }

  /* What is aimed at is shown again in a frame of another size; else what was in the middle stays there. */
  refit() {
    const { clientWidth: width, clientHeight: height } = this.frame;
    const isSame = width === this.width && height === this.height;
    if (!width || !height || isSame || this.isPrinting) return;
    const right = (width - this.width) / 2, down = (height - this.height) / 2;
    Object.assign(this, { width, height });
    this.base ??= this.whole().scale;
    for (const { style } of this.plane.children) style.width = `${this.map.width * this.base}px`;
    this.go(this.aim?.() || { scale: this.rest.scale, x: this.rest.x + right, y: this.rest.y + down }, true);
  }

  /* Lines are neither too thin nor too fat, and bundles cover nothing beside them. A line with an edge is as wide with it
     as others are without. */
  lookAt(scale) {
    const { step, widest } = this.map, room = Math.max(1, Math.min(5, 11 / widest * (step / APART)));
    const wanted = Math.max(3.6, Math.min(STROKE * scale, 10)) / (STROKE * scale);
    const spread = Number(Math.min(wanted, room).toPrecision(this.isLarge ? 1 : 3));
    const stroke = Math.max(STROKE * spread, 2.2 / scale), rim = Math.max(4 * spread, 1 / scale);
    const rimOf = radius => 2 * spread * radius + rim;
    return {
      spread, stroke, rim, thin: stroke - Math.min(stroke * .45, Math.max(3 * spread, 1.4 / scale)),
      rimOf, fillOf: radius => Math.max(0, rimOf(radius) - 2 * rim), reachOf: ({ reach }) => rimOf(reach) / 2,
      letters: Math.max(12 / scale, Math.min(20, 16 / scale)), most: scale < 2 * this.whole().scale ? .7 : 9,
    };
  }

  /* Glides there; at once where it is held or motion isn't wanted. */
  go({ scale, x, y }, isHeld = matchMedia('(prefers-reduced-motion: reduce)').matches) {
    const within = (value, frame, size) => Math.max(frame * .3 - size * scale, Math.min(value, frame * .7));
    this.rest = { scale, x: within(x, this.width, this.map.width), y: within(y, this.height, this.map.height) };
    if (isHeld) this.now = this.rest;
    this.asked ||= requestAnimationFrame(now => this.step(now));
  }

  show(aim = () => this.whole(), isHeld) {
    this.aim = aim;
    this.go(aim(), isHeld);
  }

  move(right, down, isHeld) {
    const { scale, x, y } = this.rest;
    this.aim = null;
    this.go({ scale, x: x + right, y: y + down }, isHeld);
  }

  zoom(factor, x = this.width / 2, y = this.height / 2, isHeld) {
    const { rest } = this, least = this.whole().scale * .8;
    const scale = Math.max(least, Math.min(rest.scale * factor, Math.max(2.5, 2 * least))), grown = scale / rest.scale;
    this.aim = null;
    this.go({ scale, x: x - (x - rest.x) * grown, y: y - (y - rest.y) * grown }, isHeld);
  }

  /* A scale at which a step of the grid is well seen, or this one where it is larger. */
  near() { return Math.max(this.rest.scale, Math.min(60 / this.map.step, 6 * this.whole().scale)); }

  /* Shows a station in the middle; a line, where not all of it is in sight, as large as it fits. */
  seek(thing, isHeld) {
    const near = this.near();
    if (thing.kind === 'station') {
      this.show(() => this.whole({ left: thing.x, top: thing.y, width: 0, height: 0 }, near), isHeld);
      return;
    }
    const box = boxOf(thing.ways.map(({ centre }) => centre)), { map, rest: { x, y, scale } } = this;
    const left = x + (box.left - map.left) * scale, top = y + (box.top - map.top) * scale;
    const right = left + box.width * scale, bottom = top + box.height * scale;
    const isSeen = left >= 0 && top >= 0 && right <= this.width && bottom <= this.height;
    if (!isSeen) this.show(() => this.whole(box, near), isHeld);
  }

  /* Lifts a line with its stations, or a station with its lines, out of a fading map. */
  lift(thing) {
    const things = thing ? [thing] : [];
    this.lifted = thing;
    this.plane.classList.toggle('dim', Boolean(thing));
    this.layers[1].show([...thing?.lines || things], this.layers[0].unnamed = thing?.stations || things);
    this.settle();
  }

  /* A small map is drawn in each frame; a large one once it rests. */
  step(time) {
    const { now, rest } = this, part = 1 - Math.exp(((this.time || time - 16) - time) / 70);
    const isThere = Math.abs(rest.scale / now.scale - 1) < .001 && Math.hypot(rest.x - now.x, rest.y - now.y) < .5;
    const between = key => now[key] + (rest[key] - now[key]) * part;
    this.now = isThere ? rest : { scale: between('scale'), x: between('x'), y: between('y') };
    this.plane.style.transform = `translate(${this.now.x}px, ${this.now.y}px) scale(${this.now.scale / this.base})`;
    this.time = isThere ? 0 : time;
    this.asked = isThere ? 0 : requestAnimationFrame(now => this.step(now));
    clearTimeout(this.settling);
    this.plane.classList.toggle('moving', this.isLarge);
    if (this.isLarge) this.settling = setTimeout(() => this.settle(), 150);
    else this.settle();
  }

  /* Draws all for a scale, with names half a frame beyond what is seen. */
  settle({ scale, x, y } = this.now, width = this.width / scale, height = this.height / scale) {
    const { left, top } = this.map, look = this.lookAt(scale), more = look.most > 1 ? .5 : 0, whole = 1 + 2 * more;
    const part = {
      left: left - x / scale - more * width, top: top - y / scale - more * height,
      width: whole * width, height: whole * height,
    };
    for (const layer of this.layers) layer.draw(look, part);
    this.look = look;
    this.plane.classList.remove('moving');
  }

  /* The station or line near a place. */
  at(right, down) {
    const { now, map } = this, { spread, reachOf, rimOf, stroke } = this.lookAt(now.scale), more = 4 / now.scale;
    const x = (right - now.x) / now.scale + map.left, y = (down - now.y) / now.scale + map.top;
    const isOn = (path, width) => {
      pen.lineWidth = width;
      return pen.isPointInStroke(path, x, y);
    };
    const station = map.stations.find(one => Math.hypot(one.x - x, one.y - y) < reachOf(one) + more
      && isOn(new Path2D(`${rounded(feetOf(one, spread))}h.01`), rimOf(one.radius) + 2 * more));
    const lineWithin = width => map.lines.find((_, i) => isOn(this.layers[0].courses[i], width));
    return station || lineWithin(stroke) || lineWithin(stroke + 12 / now.scale);
  }
}
