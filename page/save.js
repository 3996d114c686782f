const PAPER = '#ffffff', INK = '#16181d', LONGEST = 4096;

/* What is seen; or the whole map, where all of it is, at 80 pixels a step of its grid (from 1200 to 4096 in all). */
function frameOf(view) {
  const { map, now, width, height } = view, longest = Math.max(map.width, map.height);
  if (Math.abs(now.scale / view.whole().scale - 1) < .01) {
    const scale = Math.max(1200 / longest, Math.min(80 / map.step, LONGEST / longest));
    return { ...map, scale, settled: { scale, x: 0, y: 0 } };
  }
  return {
    left: map.left - now.x / now.scale, top: map.top - now.y / now.scale,
    width: width / now.scale, height: height / now.scale, scale: now.scale, settled: now,
  };
}

/* All that is to be drawn, in order, on white paper: strokes, names, and a veil over the map below what is lifted. */
function* shapesOf({ layers, look, lifted }) {
  for (const layer of lifted ? layers : [layers[0]]) {
    if (layer !== layers[0]) yield { veil: .8 };
    for (const [i, { edge }] of layer.lines.entries()) {
      if (edge?.paper === 'on-white') yield { d: layer.texts[i], colour: edge.colour, width: look.stroke };
    }
    for (const [i, { colour, edge }] of layer.lines.entries()) {
      yield { d: layer.texts[i], colour, width: edge?.paper === 'on-white' ? look.thin : look.stroke };
    }
    for (const [colour, widthOf] of [[INK, look.rimOf], [PAPER, look.fillOf]]) {
      for (const [i, radius] of layer.radii.entries()) yield { d: layer.marks[i], colour, width: widthOf(radius) };
    }
    if (layer.circles) yield { d: layer.circles, fill: PAPER, colour: INK, width: look.rim };
    const names = layer.placed.map(({ station, x, y }) => ({ name: station.name, x, y }));
    for (const name of names) yield { ...name, colour: PAPER, width: look.letters / 3 };
    for (const name of names) yield { ...name, colour: INK };
  }
}

const escaped = text => text.replace(/[^\t\n\r -\ud7ff\ue000-\ufffd\u{10000}-\u{10ffff}]/gu, '\ufffd')
  .replace(/[&<>"]/g, sign => `&#${sign.charCodeAt()};`);

function asSvg(shapes, { left, top, width, height, scale }, { letters }, title) {
  const box = `x="${left}" y="${top}" width="${width}" height="${height}" fill="${PAPER}"`;
  const rows = [...shapes].map(({ d, fill = 'none', name, veil, x, y, colour, width: wide }) => {
    const stroke = wide === undefined ? '' : ` stroke="${colour}" stroke-width="${wide}"`;
    if (d) return `<path d="${d}" fill="${fill}"${stroke}/>`;
    if (veil) return `<rect ${box} fill-opacity="${veil}"/>`;
    return `<text x="${x}" y="${y}" fill="${colour}"${stroke}>${escaped(name)}</text>`;
  });
  const size = `width="${Math.round(width * scale)}" height="${Math.round(height * scale)}"`;
  return [
    `<svg xmlns="http://www.w3.org/2000/svg" viewBox="${left} ${top} ${width} ${height}" ${size} `
    + `font-family="system-ui, sans-serif" font-size="${letters}" stroke-linecap="round" stroke-linejoin="round">`,
    `<title>${escaped(title)}</title>`, `<rect ${box}/>`, ...rows, '</svg>', '',
  ].join('\n');
}

function asPng(shapes, { left, top, width, height, scale }, { letters }) {
  const most = LONGEST / (Math.max(width, height) * scale), fine = scale * Math.min(2, most);
  const canvas = new OffscreenCanvas(Math.ceil(width * fine), Math.ceil(height * fine)), ink = canvas.getContext('2d');
  const cover = globalAlpha => {
    Object.assign(ink, { fillStyle: PAPER, globalAlpha });
    ink.fillRect(left, top, width, height);
  };
  ink.setTransform(fine, 0, 0, fine, -left * fine, -top * fine);
  cover(1);
  for (const { d, fill, name, veil, x, y, colour, width: wide } of shapes) {
    Object.assign(ink, {
      globalAlpha: 1, strokeStyle: colour, fillStyle: fill || colour, lineWidth: wide || 1,
      lineCap: 'round', lineJoin: 'round', font: `${letters}px system-ui, sans-serif`,
    });
    if (fill) ink.fill(new Path2D(d));
    if (d) ink.stroke(new Path2D(d));
    else if (veil) cover(veil);
    else if (wide) ink.strokeText(name, x, y);
    else ink.fillText(name, x, y);
  }
  return canvas.convertToBlob({ type: 'image/png' });
}

/* Saves a picture under the page's title. */
async function savePicture(view, kind) {
  const { title } = document, frame = frameOf(view);
  view.settle(frame.settled, frame.width, frame.height);
  const shapes = [...shapesOf(view)], { look } = view;
  view.settle();
  const blob = kind === 'png' ? await asPng(shapes, frame, look)
    : new Blob([asSvg(shapes, frame, look, title)], { type: 'image/svg+xml' });
  const link = make('a', { href: URL.createObjectURL(blob) });
  link.download = `${title.replace(/[\\/:*?"<>|]+/g, ' ')}.${kind}`;
  link.click();
  setTimeout(() => URL.revokeObjectURL(link.href), 60000);
}
