// Mouse and touch in the drawing of the line: a click chooses, a drag moves, the wheel zooms; in the whole line the
// window is moved, or one of its edges.

const drag = {
  on: false
};

function pointers() {
  const canvas = $('line');
  canvas.addEventListener('wheel', event => {
    event.preventDefault();
    const x = placeIn(canvas, event)[0];
    zoom(state.from + (x - LEFT) / inner() * (state.to - state.from), event.deltaY > 0 ? 1.25 : .8);
  }, {passive: false});
  canvas.addEventListener('pointerdown', event => startDrag(canvas, event));
  canvas.addEventListener('pointermove', event => (drag.on ? moveDrag(canvas, event) : pointAt(canvas, event)));
  canvas.addEventListener('pointerup', event => endDrag(canvas, event));
  canvas.addEventListener('pointercancel', () => {
    drag.on = false;
  });
  canvas.addEventListener('pointerleave', event => tip(event, ''));
}

function placeIn(canvas, event) {
  const box = canvas.getBoundingClientRect();
  return [event.clientX - box.left, event.clientY - box.top];
}

const inWhole = y => y < heights().align - 3;

function startDrag(canvas, event) {
  if (event.button > 0) return;
  canvas.setPointerCapture(event.pointerId);
  tip(event, '');
  const [x, y] = placeIn(canvas, event), whole = inWhole(y);
  const near = turn => Math.abs(x - wholeX(turn)) < 6;
  const edge = !whole ? null : near(state.from) ? 'from' : near(state.to) ? 'to' : null;
  Object.assign(drag, {on: true, x, moved: false, whole, edge, from: state.from, to: state.to});
  const at = wholeTurn(x);
  if (whole && !edge && (at < state.from || at > state.to)) {
    setPart(at - (state.to - state.from) / 2, state.to - state.from);
    Object.assign(drag, {from: state.from, to: state.to, moved: true});
    drawLine();
  }
}

function moveDrag(canvas, event) {
  const [x] = placeIn(canvas, event);
  if (!drag.moved && Math.abs(x - drag.x) < 4) return;
  drag.moved = true;
  const by = (x - drag.x) / inner() * (drag.whole ? line.turns : drag.from - drag.to);
  if (drag.edge === 'from')
    setPart(Math.min(drag.from + by, drag.to - 1), drag.to - Math.min(drag.from + by, drag.to - 1));
  else if (drag.edge === 'to')
    setPart(drag.from, Math.max(1, drag.to + by - drag.from));
  else
    setPart(drag.from + by, drag.to - drag.from);
  drawLine();
}

function endDrag(canvas, event) {
  if (!drag.on) return;
  drag.on = false;
  if (drag.moved) {
    changed();
    return;
  }
  const [x, y] = placeIn(canvas, event);
  if (drag.whole)
    goTurn(Math.floor(wholeTurn(x)));
  else
    chooseAt(x, y);
}

// The turn that is clicked; its frame too where frames are wide enough, else that of the slot's message.
function chooseAt(x, y) {
  const i = turnAt(x);
  if (x < LEFT || i < 0 || i >= line.turns) return;
  const k = slotAt(y), owner = k ? ownerOf(k, i) : -1, wide = xOf(1) - xOf(0);
  if (owner >= 0) {
    state.tributary = owner;
    state.what = null;
  }
  const slot = owner >= 0 ? line.tributaries[owner].message : k || 1;
  goTurn(i, wide > FRAMES_SEEN ? Math.floor((x - xOf(i)) / wide * line.slots) + 1 : slot);
}

// The slot at a height, from 1, or 0.
function slotAt(y) {
  const h = heights(), k = Math.floor((y - h.slots) / h.slot) + 1;
  return k >= 1 && k <= line.slots ? k : 0;
}

function pointAt(canvas, event) {
  const [x, y] = placeIn(canvas, event), i = inWhole(y) ? Math.floor(wholeTurn(x)) : turnAt(x);
  if (x < LEFT || i < 0 || i >= line.turns)
    tip(event, '');
  else
    tip(event, [turnWords(i), slotAt(y) && !inWhole(y) ? slotWords(slotAt(y), i) : ''].filter(Boolean).join('\n'));
}

const ALIGNED = {
  ok: 'whole multiframe',
  lost: 'lost multiframe',
  hunt: 'no multiframe',
  end: 'the line ends'
};

// A turn in words: its frames, and what is wrong in how many.
function turnWords(i) {
  const turn = turnOf(i), lead = turn.lead && turn.align === 'ok' ? `, ${turn.lead} passed over` : '';
  return `turn ${i + 1}: ${ALIGNED[turn.align]}${framesWords(turn)}${lead}${
    wrongWords(turn).map(w => `, ${w}`).join('')}`;
}

function framesWords(turn) {
  if (turn.used === 0) return '';
  const end = turn.start + turn.used - 1;
  return turn.used === 1 ? `, frame ${grouped(turn.start)}` : `, frames ${grouped(turn.start)} to ${grouped(end)}`;
}

function wrongWords(turn) {
  const kinds = [['FAS', 'fas'], ['MFAS', 'mfas'], ['SM BIP-8', 'sm'], ['PM BIP-8', 'pm']];
  return kinds.filter(([name, key]) => turn[key] && !(state.proved && name === 'MFAS')).map(([name,
    key]) => `${name} wrong in ${turn[key]}`);
}

const turnSpoken = () => turnWords(state.turn);

function slotWords(k, i) {
  const owner = ownerOf(k, i);
  if (owner < 0) return `slot ${k}: ${msiText(msiOf(k, i))}`;
  const t = line.tributaries[owner], h = heardOf(t, i);
  const words = [`slot ${k}: ${nameOf(t)}, port ${t.port}, ${slotsOf(t)}`, heardWords(h)];
  if (msiWrong(k, i)) words.push(`MSI ${hex(msiOf(k, i))} is not that of port ${t.port}`);
  return words.join('\n');
}

// What a tributary was in a turn, in words.
function heardWords(h) {
  const words = [h.state];
  if (!state.proved && h.client && h.client !== 'normal') words.push(h.client);
  if (h.cm !== null) words.push(`Cm ${h.cm}${state.proved ? '' : ` (${HOW[h.how] || 'kept'})`}`, `CnD ${h.cnd}`);
  words.push(`${grouped(h.emitted)} bytes`);
  if (!state.proved && h.packets) words.push(count(h.packets, 'packet'));
  if (!state.proved && h.bad) words.push(`${h.bad} GFP frames bad`);
  return words.join(', ') + (!state.proved && h.why ? `: ${h.why}` : '');
}
