/* Pointer, wheel and keys. */
function takeHold(view, panel) {
  const frame = byId('view'), glass = byId('glass'), tip = byId('tip'), fingers = new Map();
  let travelled = 0, asked = 0;

  function pointAt(thing, x, y) {
    tip.hidden = !thing;
    tip.textContent = thing ? inWords(thing) : '';
    tip.style.transform = `translate(${x}px, ${y}px) translate(${x > view.width / 2 ? -105 : 5}%, .8rem)`;
    panel.point(thing);
  }

  on(glass, 'pointerdown', ({ button, pointerId, offsetX, offsetY }) => {
    if (button !== 0) return;
    frame.focus({ focusVisible: false });
    glass.setPointerCapture(pointerId);
    if (fingers.size === 0) travelled = 0;
    fingers.set(pointerId, [offsetX, offsetY]);
  });
  on(glass, 'pointermove', ({ pointerId, offsetX: x, offsetY: y }) => {
    const from = fingers.get(pointerId), other = [...fingers.values()].find(finger => finger !== from);
    cancelAnimationFrame(asked);
    if (!from) { asked = requestAnimationFrame(() => pointAt(view.at(x, y), x, y)); return; }
    const right = x - from[0], down = y - from[1];
    fingers.set(pointerId, [x, y]);
    travelled += Math.hypot(right, down);
    if (travelled < 4) return;
    pointAt();
    if (!other) { view.move(right, down, true); return; }
    const span = ([left, top]) => Math.hypot(left - other[0], top - other[1]) || 1;
    view.move(right / 2, down / 2, true);
    view.zoom(span([x, y]) / span(from), (x + other[0]) / 2, (y + other[1]) / 2, true);
  });
  on(glass, 'pointerup', ({ pointerId, offsetX, offsetY }) => {
    if (fingers.delete(pointerId) && travelled < 4) panel.toggle(view.at(offsetX, offsetY));
  });
  on(glass, 'pointerleave', ({ pointerId }) => {
    fingers.delete(pointerId);
    cancelAnimationFrame(asked);
    pointAt();
  });
  on(glass, 'wheel', event => {
    event.preventDefault();
    const pixels = Math.max(-240, Math.min(event.deltaY, 240));
    view.zoom(Math.exp(-pixels * (event.ctrlKey ? .01 : .002)), event.offsetX, event.offsetY);
  });

  const acts = { closer: () => view.zoom(1.5), farther: () => view.zoom(1 / 1.5), whole: () => view.show() };
  for (const id in acts) on(byId(id), 'click', acts[id]);
  const keys = {
    '+': acts.closer, '-': acts.farther, 0: acts.whole, Escape: () => panel.choose(),
    ArrowLeft: () => view.move(120, 0), ArrowRight: () => view.move(-120, 0),
    ArrowUp: () => view.move(0, 120), ArrowDown: () => view.move(0, -120),
  };
  on(window, 'keydown', event => {
    const { key, target } = event, isTyped = target.id === 'find' && key !== 'Escape';
    if (isTyped || event.ctrlKey || event.metaKey || event.altKey || !keys[key]) return;
    event.preventDefault();
    keys[key]();
  });
  for (const kind of ['png', 'svg']) on(byId(kind), 'click', () => savePicture(view, kind));

  const legend = byId('legend'), before = {};
  on(window, 'beforeprint', () => {
    Object.assign(before, { isOpen: legend.open, lifted: view.lifted });
    view.isPrinting = legend.open = true;
    view.lift();
    const { width, height } = view.map, scale = Math.min(1000 / width, 620 / height);
    view.settle({ scale, x: 0, y: 0 }, width, height);
  });
  on(window, 'afterprint', () => {
    view.isPrinting = false;
    legend.open = before.isOpen;
    view.lift(before.lifted);
  });
}

/* What follows this script is the picture, as text. */
on(document, 'DOMContentLoaded', () => {
  const source = byId('picture'), map = readPicture(source.textContent);
  source.remove();
  byId('trouble').hidden = map !== null;
  byId('panel').hidden = map === null;
  if (!map) return;
  const view = new View(byId('view'), byId('plane'), map);
  takeHold(view, new Panel(view));
});
