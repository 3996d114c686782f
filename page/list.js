/* The element of a line's colour. */
const swatchOf = ({ colour, edge }) => (
  make('i', { style: `color: ${colour}; --edge: ${edge?.colour}`, className: edge?.paper || '' })
);

/* A list of lines and stations, a button each: a line with its colour, a station with its lines but one, in words and
   colours. Arrow keys, Home and End go through it. */
class List {
  constructor(root, { choose, point }) {
    this.root = root;
    const thingAt = ({ target }) => target.closest('button')?.thing;
    on(root, 'click', event => thingAt(event) && choose(thingAt(event)));
    for (const name of ['pointerover', 'focusin']) on(root, name, event => point(thingAt(event)));
    for (const name of ['pointerleave', 'focusout']) on(root, name, () => point());
    on(root, 'keydown', event => {
      const buttons = this.buttons(), next = stepBy(event.key, buttons.indexOf(event.target), buttons.length);
      if (next < 0) return;
      stop(event);
      buttons[next].focus();
    });
  }

  buttons() { return [...this.root.querySelectorAll('button')]; }

  show(things, but) {
    this.root.replaceChildren(...things.map(thing => make('li', {}, this.button(thing, but))));
  }

  button(thing, but) {
    const about = { thing, type: 'button' }, name = make('bdi', { textContent: titleOf(thing) });
    if (thing.kind === 'line') {
      return make('button', about, swatchOf(thing), name, ...thing.word ? [' ', make('small', {}, thing.word)] : []);
    }
    const near = nearOf(thing), lines = byName(thing.lines).filter(line => line !== but);
    const count = lines.length + (near ? 1 : 0);
    const words = lines.map((line, i) => make('span', {}, swatchOf(line), titleOf(line), i + 1 < count ? ', ' : ''));
    return make('button', about, name, ...count > 0 ? [' ', make('small', {}, ...words, near)] : []);
  }
}

/* Where a key leads from a place of a list of so many, -1 being none; -1 where the key is not for lists. */
function stepBy(key, i, length) {
  if (length === 0) return -1;
  const before = (Math.max(i, 0) + length - 1) % length;
  return { ArrowDown: (i + 1) % length, ArrowUp: before, Home: 0, End: length - 1 }[key] ?? -1;
}
