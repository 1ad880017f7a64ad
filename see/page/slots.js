// The rows of the slots in the drawing of the line: whose a slot is and how its sink is, as otn-picture draws them.

const SIGNALS = ['AIS', 'LCK', 'OCI'];
const patterns = new Map();

// Stripes for a canvas: the colour, the ground, and whether they are slanting.
function stripes(g, colour, ground, slanting) {
  const key = `${colour} ${ground} ${slanting}`;
  if (!patterns.has(key)) {
    const tile = el('canvas', {width: 8, height: 8}), t = tile.getContext('2d');
    t.fillStyle = ground;
    t.fillRect(0, 0, 8, 8);
    t.strokeStyle = colour;
    t.lineWidth = 2;
    t.beginPath();
    const strokes = slanting ? [[-2, 10, 10, -2], [-2, 2, 2, -2], [6, 10, 10, 6]] : [[0, 4, 8, 4]];
    for (const [x, y, a, b] of strokes) {
      t.moveTo(x, y);
      t.lineTo(a, b);
    }
    t.stroke();
    patterns.set(key, g.createPattern(tile, 'repeat'));
  }
  return patterns.get(key);
}

// What a slot is in a column, at worst: whose, its look, whether packets end in it.
function cellOf(k, column) {
  let best = null;
  for (let i = column.i; i < column.end; i++) {
    const cell = cellOfTurn(k, i);
    if (!best || cell.rank < best.rank)
      best = cell;
    else if (cell.rank === best.rank && cell.packets)
      best.packets = true;
  }
  return best;
}

function cellOfTurn(k, i) {
  if (about.codes.align[alignCode(i)] === 'end') return {owner: -1, look: 'end', rank: 9, packets: false};
  const owner = ownerOf(k, i);
  if (owner < 0) {
    const byte = msiOf(k, i);
    return {owner, look: byte === null ? 'unseen' : byte === NO_PORT ? 'free' : 'other', rank: 8, packets: false};
  }
  const x = heardAt(line.tributaries[owner], i), {heard} = line;
  let rank = heard.code[x] >> 2 & 7;
  if (state.proved && SIGNALS.includes(about.codes.looks[rank]))
    rank = about.codes.looks.indexOf(heard.cm[x] > 0 ? 'up' : 'empty');
  const shown = about.codes.looks[rank];
  return {owner, look: shown, rank, packets: shown === 'up' && !state.proved && heard.packets[x] > 0};
}

// Equal cells that stand side by side.
function runsOf(k) {
  const runs = [];
  for (const column of drawing.columns) {
    const cell = cellOf(k, column), last = runs[runs.length - 1], end = column.x + column.width;
    if (last && last.owner === cell.owner && last.look === cell.look && last.packets === cell.packets)
      last.end = end;
    else
      runs.push({...cell, x: column.x, end});
  }
  return runs;
}

function drawSlots(g, h) {
  for (let k = 1; k <= line.slots; k++) {
    const y = h.slots + (k - 1) * h.slot, tall = h.slot - (line.slots === 8 ? 3 : 1), runs = runsOf(k);
    for (const run of runs) drawRun(g, run, y, tall);
    drawNames(g, k, runs, y, tall);
    drawMarks(g, k, y + tall / 2, line.slots === 8 ? 6 : 4);
  }
}

function drawRun(g, run, y, tall) {
  const x = Math.max(run.x, LEFT - 2), wide = run.end - x;
  if (run.owner < 0) {
    const fills = {free: look.pale, end: look.card, unseen: look.card};
    g.fillStyle = fills[run.look] || stripes(g, look.dim, look.pale, false);
    g.fillRect(x, y, wide, tall);
    return;
  }
  const own = line.tributaries[run.owner].colour;
  if (run.look === 'down') {
    g.fillStyle = stripes(g, look['bad-fill'], look.card, true);
    g.fillRect(x, y, wide, tall);
    g.fillStyle = own;
    g.fillRect(x, y, wide, 3);
  } else if (SIGNALS.includes(run.look)) {
    drawSignal(g, run.look, x, y, wide, tall);
  } else {
    g.globalAlpha = {waiting: .2, empty: .3}[run.look] || (run.packets ? 1 : .58);
    g.fillStyle = own;
    g.fillRect(x, y, wide, tall);
    g.globalAlpha = 1;
  }
}

function drawSignal(g, signal, x, y, wide, tall) {
  const colour = onGround(about.colours.signal[signal]);
  g.fillStyle = stripes(g, colour, look.card, signal === 'AIS');
  g.fillRect(x, y, wide, tall);
  if (wide < 32 || tall < 14) return;
  g.fillStyle = look.card;
  g.fillRect(x + 4, y + 3, 28, tall - 6);
  g.fillStyle = look.ink;
  g.font = `bold ${FONT}`;
  g.textAlign = 'left';
  g.fillText(signal, x + 6, y + tall / 2 + 1);
}

// Names on the rows: where a tributary begins, as much as there is room for.
function drawNames(g, k, runs, y, tall) {
  const shown = new Set();
  g.textAlign = 'left';
  runs.forEach((run, n) => {
    if (run.owner < 0 || shown.has(run.owner) || !['up', 'empty', 'waiting'].includes(run.look)) return;
    const t = line.tributaries[run.owner];
    if (line.slots > 8 && k !== t.slots[0]) return;
    let end = run.end;
    for (const next of runs.slice(n + 1)) {
      if (next.owner !== run.owner || !['up', 'empty', 'waiting'].includes(next.look)) break;
      end = next.end;
    }
    const x = Math.max(run.x, LEFT) + 5, room = end - x - 3;
    g.font = `bold ${line.slots === 8 ? FONT.replace('10px', '11px') : FONT.replace('10px', '9px')}`;
    const words = [`port ${t.port} · ${nameOf(t)}`, nameOf(t), `port ${t.port}`, `${t.port}`];
    const text =
      (t.name || nameOf(t) !== `port ${t.port}` ? words : words.slice(2)).find(w => g.measureText(w).width <= room);
    if (!text) return;
    shown.add(run.owner);
    g.lineWidth = 3;
    g.lineJoin = 'round';
    g.strokeStyle = look.card;
    g.strokeText(text, x, y + tall / 2 + .5);
    g.fillStyle = look.ink;
    g.fillText(text, x, y + tall / 2 + .5);
  });
}

// Damaged messages, and MSI bytes of another port.
function drawMarks(g, k, middle, size) {
  for (const column of drawing.columns) {
    const x = column.x + column.width / 2;
    let message = false, msi = false;
    for (let i = column.i; i < column.end; i++) {
      const owner = ownerOf(k, i), t = owner < 0 ? null : line.tributaries[owner];
      message ||= !state.proved && t !== null && t.message === k && messageWrong(t, i);
      msi ||= msiWrong(k, i);
    }
    if (message) diamond(g, x, middle, size);
    if (msi) {
      g.strokeStyle = look['bad-fill'];
      g.lineWidth = 2;
      g.strokeRect(x - size + 1, middle - size + 1, 2 * size - 2, 2 * size - 2);
    }
  }
}

function diamond(g, x, y, size) {
  g.fillStyle = look['bad-fill'];
  g.strokeStyle = '#fff';
  g.lineWidth = 1;
  g.beginPath();
  g.moveTo(x, y - size);
  g.lineTo(x + size, y);
  g.lineTo(x, y + size);
  g.lineTo(x - size, y);
  g.closePath();
  g.fill();
  g.stroke();
}

// ---- what the colours mean

let other = null;

// Whether the MSI byte of some slot says a port in a turn in which no customer has the slot.
function isOther() {
  if (other === null) {
    other = false;
    for (let i = 0; i < about.turns && !other; i++)
      for (let k = 1; k <= line.slots; k++) other ||= cellOfTurn(k, i).look === 'other';
  }
  return other;
}

function drawLegend() {
  const blue = line.tributaries.length ? line.tributaries[0].colour : '#4878b0', {signal} = about.colours;
  const key = (words, fill, faint = 1, slanting = null) => {
    const tile = el('canvas'), g = tile.getContext('2d');
    tile.width = 40;
    tile.height = 20;
    g.globalAlpha = faint;
    g.fillStyle = slanting === null ? fill : stripes(g, fill, look.card, slanting);
    g.fillRect(0, 0, 40, 20);
    return span('', tile, words);
  };
  const seen = state.proved ? [key('up', blue, .58)] : [key('packets end', blue), key('up, idle', blue, .58)];
  const signals = state.proved ? [] : SIGNALS.map(s => key(s, onGround(signal[s]), 1, s === 'AIS'));
  const marks = state.proved ? [] : [span('', span('bad', '◆'), ' message damaged')];
  const alone = isOther() ? [key('MSI alone', look.dim, 1, false)] : [];
  $('legend').replaceChildren(...seen, key('up, Cm 0', blue, .3), key('waiting', blue, .2),
    key('down', look['bad-fill'], 1, true), ...signals, key('free', look.pale), ...alone, ...marks,
    span('', span('bad', '□'), ' MSI wrong'), span('push'),
    span('hint', 'wheel: zoom · drag: move · click: look · ? for keys'));
}
