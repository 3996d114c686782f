const LIGHT_INK = [236, 239, 244], DARK_INK = [22, 24, 29];
const partsOf = colour => [1, 3, 5].map(i => parseInt(colour.slice(i, i + 2), 16));
const hexOf = parts => `#${parts.map(part => Math.round(part).toString(16).padStart(2, '0')).join('')}`;

/* How light a colour is, from 0 for black to 1 for white: its relative luminance (WCAG 2). */
function lightOf(parts) {
  const [red, green, blue] = parts.map(part => part <= 10 ? part / 255 / 12.92 : ((part / 255 + .055) / 1.055) ** 2.4);
  return .2126 * red + .7152 * green + .0722 * blue;
}

/* The edge of a line that has less than 3 to 1 of contrast with white paper, or with the dark paper of the style, and
   on which of them it is drawn; null where the line is seen well on both. It has the line's colour with as much ink as
   it takes for 4.5 to 1. */
function edgeOf(colour) {
  const parts = partsOf(colour), light = lightOf(parts);
  if (light > .3) return { paper: 'on-white', colour: inked(parts, DARK_INK, mixed => lightOf(mixed) <= .18) };
  if (light < .13) return { paper: 'on-dark', colour: inked(parts, LIGHT_INK, mixed => lightOf(mixed) >= .215) };
  return null;
}

/* A colour with the least ink, by twentieths, with which it is seen. */
function inked(parts, ink, isSeen) {
  const mixed = [...Array(21).keys()].map(k => parts.map((part, i) => part + (ink[i] - part) * k / 20));
  return hexOf(mixed.find(isSeen) || ink);
}
