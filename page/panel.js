const isNarrow = () => matchMedia('(max-width: 44rem)').matches;

/* What the list of a line, or of a station, is of: a poster tells where lines call, a map only where they run. */
const NOTES = {
  calls: { line: 'Stations where it calls', station: 'Lines that call here' },
  ways: {
    line: 'Stations on its way. It may pass some without calling.',
    station: 'Lines through here. A circle covers all lines of a bundle: some may pass without calling.',
  },
};

/* A search, what was chosen, the legend. */
class Panel {
  constructor(view) {
    const { map } = view, choose = thing => this.choose(thing), point = thing => this.point(thing);
    this.view = view;
    tellApart(map);
    if (map.name) Object.assign(byId('name'), { textContent: map.name, className: 'own' });
    document.title = byId('name').textContent;
    byId('size').textContent = `Lines: ${map.lines.length}, stations: ${map.stations.length}`;
    this.search = new Search(map, { choose, point });
    this.parts = new List(byId('parts'), { choose, point });
    this.legend = new List(byId('lines'), { point, choose: thing => this.toggle(thing) });
    this.legend.show(byName(map.lines));
    byId('legend').open = !isNarrow();
    on(byId('close'), 'click', () => this.choose());
    this.address = new Address(map);
    on(window, 'hashchange', () => this.follow());
    this.follow(true);
  }

  /* Chooses what the address names; what is not on the map is searched for. */
  follow(isHeld) {
    const { thing, name } = this.address.read();
    if (thing !== this.chosen) this.choose(thing, isHeld);
    if (!thing && name) this.search.ask(name);
  }

  /* Chooses what is not chosen, and no more what is. */
  toggle(thing) { this.choose(thing === this.chosen ? undefined : thing); }

  /* Lifts a line while it is pointed at. */
  point(thing) {
    const line = thing?.kind === 'line' ? thing : undefined;
    if (this.pointed !== line) this.view.lift(line || this.chosen);
    this.pointed = line;
  }

  /* Chooses a line or a station, or none. */
  choose(thing, isHeld) {
    const { view, search, legend } = this, card = byId('card'), isInside = card.contains(document.activeElement);
    if (!isInside) this.opener = document.activeElement;
    this.chosen = thing;
    for (const button of legend.buttons()) button.setAttribute('aria-pressed', button.thing === thing);
    document.title = [thing && inWords(thing), byId('name').textContent].filter(Boolean).join(' - ');
    card.hidden = !thing;
    if (thing) this.tell(thing);
    if (thing && search.box.value) search.ask();
    if (thing && isNarrow()) {
      byId('legend').open = false;
      search.box.blur();
    }
    if (isInside) (thing ? byId('chosen') : isNarrow() ? view.frame : this.opener).focus();
    view.refit();
    view.lift(thing);
    if (thing) view.seek(thing, isHeld);
    this.address.write(thing);
  }

  /* The card of a line with its stations, or of a station with its lines. */
  tell(thing) {
    const isLine = thing.kind === 'line', parts = isLine ? thing.stations : byName(thing.lines);
    byId('chosen').textContent = titleOf(thing);
    byId('note').textContent = NOTES[this.view.map.tellsCalls ? 'calls' : 'ways'][thing.kind];
    this.parts.show(parts, isLine ? thing : undefined);
    byId('said').textContent = `${inWords(thing)}. ${isLine ? 'Stations' : 'Lines'}: ${parts.length}`;
  }
}
