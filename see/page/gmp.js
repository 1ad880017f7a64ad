// Which of the 15,232 groups of a customer are data, which are stuff, and what they were for another Cm (Annex D).

const isData = (j, cm) => j * cm % GROUPS < cm;

function makeGmp() {
  const set = value => setWhat(clamp(Math.round(+value) || 0, 0, GROUPS));
  const number = (id, label, least, more) =>
    el('input', {type: 'number', id, 'aria-label': label, min: least, max: GROUPS, ...more});
  return [
    el('div', {class: 'bar'}, customerChoice('gmp-of', false, goTributary), el('span', {class: 'dim', id: 'gmp-turn'})),
    el('p', {id: 'gmp-sum'}), el('canvas', {id: 'groups', class: 'picture', role: 'img'}),
    el('p', {class: 'dim explained', id: 'group-words', 'aria-live': 'polite'}),
    el('div', {class: 'bar'},
      el('label', {}, 'group ', number('group', 'Group', 1, {on: {input: event => explain(+event.target.value)}})),
      span('push'),
      el('label', {}, 'what if Cm were ',
        number('what', 'What if Cm were', 0, {on: {change: event => set(event.target.value)}})),
      el('button', {type: 'button', id: 'as-sent', on: {click: () => setWhat(null)}}, 'as sent')),
    el('input', {
      type: 'range',
      id: 'what-slider',
      min: 0,
      max: GROUPS,
      'aria-label': 'What if Cm were',
      on: {input: event => set(event.target.value)}
    }),
    el('h3', {}, 'Cm and CnD over the turns'), el('canvas', {id: 'numbers', class: 'picture', role: 'img'})
  ];
}

function setWhat(value) {
  state.what = value;
  changed();
}

// The Cm by which the groups of the chosen turn go: that of the turn before; or the one that is asked for.
function groupsCm(t) {
  if (state.what !== null) return state.what;
  const before = heardOf(t, state.turn - 1);
  return before ? before.cm : null;
}

function drawGmp() {
  const t = line.tributaries[state.tributary];
  $('pane-gmp').classList.toggle('none', !t);
  if (!t) {
    $('gmp-sum').textContent = 'No tributary.';
    return;
  }
  const h = heardOf(t, state.turn), cm = groupsCm(t), m = t.slots.length;
  $('gmp-of').value = t.number;
  $('gmp-turn').textContent = h ? `turn ${state.turn + 1}: ${h.state}${
                                    h.cm === null ? '' : `, says Cm ${h.cm}, CnD ${h.cnd} for turn ${state.turn + 2}`}`
                                : `not there in turn ${state.turn + 1}`;
  const source = state.what === null ? 'of the turn before' : span('wrong', 'what if');
  $('gmp-sum').replaceChildren(...(cm === null ? ['There is no Cm from the turn before: no group is taken.'] : [
    `${grouped(GROUPS)} groups of ${count(m, 'byte')} by `, el('b', {}, `Cm ${cm}`), ' ', source, ': ',
    el('b', {}, grouped(cm)), ' data, ', el('b', {}, grouped(GROUPS - cm)), ' stuff.'
  ]));
  for (const id of ['what', 'what-slider'])
    if (document.activeElement !== $(id) || state.what === null) $(id).value = cm === null ? 15168 : cm;
  $('as-sent').disabled = state.what === null;
  drawGroups(t, cm);
  explain(0);
  drawNumbers(t);
}

// ---- Cm and CnD over the turns

function numbersPlaces(t, width) {
  const from = t.start - 1, left = 42;
  return {left, from, turns: t.turns, x: i => left + (i - from) / t.turns * (width - left - 4)};
}

function drawNumbers(t) {
  const [g, width] = fresh($('numbers'), 124), place = numbersPlaces(t, width);
  const {cm, cnd} = line.heard, all = Array.from(cm.subarray(t.place, t.place + t.turns)).filter(value => value > 0);
  g.font = FONT;
  g.fillStyle = look.dim;
  g.textAlign = 'right';
  g.textBaseline = 'middle';
  g.fillText('CnD', place.left - 6, 106);
  if (all.length) {
    const least = all.reduce((a, b) => Math.min(a, b)), most = all.reduce((a, b) => Math.max(a, b));
    const y = value => (most === least ? 46 : 78 - (value - least) / (most - least) * 62);
    for (const value of new Set([least, most])) {
      g.fillText(`${value}`, place.left - 6, y(value));
      g.fillRect(place.left, y(value), width - place.left - 4, .5);
    }
    drawCm(g, t, place, y);
    $('numbers').setAttribute('aria-label', `Cm of ${nameOf(t)} from ${least} to ${most}`);
  }
  for (let i = place.from; i < place.from + t.turns; i++) {
    const x = t.place + i - place.from, tall = 22 * cnd[x] / Math.max(1, t.slots.length - 1);
    g.fillStyle = t.colour;
    if (cnd[x] > 0) g.fillRect(place.x(i), 118 - tall, Math.max(1, place.x(i + 1) - place.x(i) - .5), tall);
    if (!state.proved && messageWrong(t, i)) diamond(g, (place.x(i) + place.x(i + 1)) / 2, 7, 5);
  }
  g.strokeStyle = look.ink;
  g.lineWidth = 1.5;
  g.strokeRect(place.x(state.turn), 1, Math.max(3, place.x(state.turn + 1) - place.x(state.turn)), 120);
}

// A step of the line for each run of equal numbers.
function drawCm(g, t, place, y) {
  const {cm} = line.heard;
  g.strokeStyle = t.colour;
  g.lineWidth = 2;
  g.beginPath();
  let pen = false;
  for (let n = 0; n < t.turns; n++) {
    const value = cm[t.place + n];
    if (value <= 0) {
      pen = false;
      continue;
    }
    g[pen ? 'lineTo' : 'moveTo'](place.x(place.from + n), y(value));
    g.lineTo(place.x(place.from + n + 1), y(value));
    pen = true;
  }
  g.stroke();
}

function numbersClick(event) {
  const t = line.tributaries[state.tributary], place = numbersPlaces(t, $('numbers').clientWidth);
  const x = placeIn($('numbers'), event)[0];
  const n = Math.floor((x - place.left) / ($('numbers').clientWidth - place.left - 4) * t.turns);
  if (n >= 0 && n < t.turns) goTurn(place.from + n, t.message);
}
