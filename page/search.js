const SHOWN = 20;

/* The search box, and the list of what it finds. Arrow keys go through the list while the box is typed into. */
class Search {
  constructor(map, hands) {
    Object.assign(this, { map, box: byId('find'), point: hands.point });
    this.list = new List(byId('found'), hands);
    on(this.box, 'input', () => this.find());
    on(this.box, 'keydown', event => this.press(event));
    on(byId('hits'), 'mousedown', event => event.preventDefault());
    on(byId('search'), 'submit', event => {
      event.preventDefault();
      (this.active() || this.list.buttons()[0])?.click();
    });
  }

  active() { return this.list.root.querySelector('[aria-selected=true]'); }

  ask(words = '') {
    this.box.value = words;
    this.find();
  }

  /* Names that begin so come first. */
  find() {
    const { lines, stations } = this.map, wanted = folded(this.box.value);
    this.things ??= [...byName(lines), ...byName(stations)].map(thing => [thing, folded(thing.name)]);
    const met = this.things.filter(([, name]) => wanted && name.includes(wanted));
    const begun = met.filter(([, name]) => name.startsWith(wanted));
    this.list.show([...new Set([...begun, ...met])].slice(0, SHOWN).map(([thing]) => thing));
    this.list.buttons().forEach((button, i) => {
      Object.assign(button, { id: `found-${i}`, tabIndex: -1 }).setAttribute('role', 'option');
      button.parentElement.setAttribute('role', 'presentation');
    });
    const told = met.length === 0 ? 'Nothing found' : met.length > SHOWN ? `${SHOWN} of ${met.length} found` : '';
    byId('count').textContent = told;
    byId('hits').hidden = !wanted;
    this.box.setAttribute('aria-expanded', met.length > 0);
    this.mark();
    if (wanted) byId('said').textContent = told || `${met.length} found`;
  }

  /* Marks one that was found, and points at it. */
  mark(next) {
    const before = this.active();
    before?.removeAttribute('aria-selected');
    next?.setAttribute('aria-selected', true);
    this.box.setAttribute('aria-activedescendant', next?.id || '');
    next?.scrollIntoView({ block: 'nearest' });
    if (before || next) this.point(next?.thing);
  }

  press(event) {
    if (event.isComposing) return;
    const buttons = this.list.buttons(), active = this.active(), isCaret = /^(Home|End)$/.test(event.key) && !active;
    const next = isCaret ? -1 : stepBy(event.key, buttons.indexOf(active), buttons.length);
    if (next >= 0) this.mark(buttons[next]);
    else if (event.key === 'Escape' && this.box.value) this.ask();
    else return;
    stop(event);
  }
}
