const byId = id => document.getElementById(id);
const on = (target, name, act) => target.addEventListener(name, act, { passive: false });
const stop = event => { event.preventDefault(); event.stopPropagation(); };
const make = (kind, about, ...inside) => {
  const element = Object.assign(document.createElement(kind), about);
  element.append(...inside);
  return element;
};
