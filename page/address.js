/* The names of lines and stations behind # in the page's address: #line/NAME and #station/NAME, and behind it the place
   among those of one name, from the second on. */
class Address {
  constructor({ lines, stations }) {
    this.things = new Map();
    this.keys = new Map();
    for (const group of groupsOf([...lines, ...stations], ({ kind, name }) => keyOf(kind, name, 1))) {
      group.sort((a, b) => collator.compare(a.word || '', b.word || ''));
      group.forEach((thing, i) => this.keys.set(thing, keyOf(thing.kind, thing.name, i + 1)));
    }
    for (const [thing, key] of this.keys) this.things.set(key, thing);
  }

  /* What the address names, and how: nothing where it names none. */
  read() {
    const [kind, name = '', number = '1'] = location.hash.slice(1).split('/').map(decoded);
    return { name, thing: this.things.get(keyOf(kind, name, Number(number))) || this.things.get(keyOf(kind, name, 1)) };
  }

  /* A step of its own on the way back. The focus stays, which an assignment to the address would take away. */
  write(thing) {
    if (this.read().thing !== thing) history.pushState(null, '', `#${this.keys.get(thing) || ''}`);
  }
}

const keyOf = (kind, name, number) => [kind, encodeURIComponent(name), ...number > 1 ? [number] : []].join('/');

function decoded(text) {
  try { return decodeURIComponent(text); } catch { return text; }
}
