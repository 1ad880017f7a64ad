// The table of fibres by slots, with who has each; and the same as CSV.

const ROW = 8;  // slots in a row: a fibre of 32 takes four

function drawFibres() {
  const was = focusedSlot();
  const heads =
    ['fibre', '', ...Array.from({length: ROW}, (_, x) => `${x + 1}`)].map(text => el('th', {scope: 'col'}, text));
  const rows = net.fibres.flatMap((f, x) => fibreRows(f, x));
  $('fibres').replaceChildren(
    el('caption', {class: 'hidden'}, 'Fibres by slots'), el('thead', {}, el('tr', {}, heads)), el('tbody', {}, rows));
  const first = $('fibres').querySelector('button.slot');
  if (first) first.tabIndex = 0;
  if (was) {
    const now = $('fibres').querySelector(`[data-place="${was}"]`);
    if (now) now.focus({preventScroll: true});
  }
}

function focusedSlot() {
  const here = document.activeElement;
  return here && here.dataset && $('fibres').contains(here) ? here.dataset.place : null;
}

function fibreRows(f, x) {
  const away = belongs(x) ? null : 'away-row', shown = shownSlots(f), many = shown / ROW, free = shown < f.slots;
  const rows = Array.from({length: many}, (_, r) => {
    const cells =
      f.rows.slice(ROW * r, ROW * (r + 1)).map((row, n) => el('td', {}, slotButton(f, x, ROW * r + n + 1, row)));
    const from = el('td', {class: 'more'}, f.slots > ROW ? `${ROW * r + 1}–${ROW * (r + 1)}` : '');
    return el('tr', {class: away}, r ? null : fibreHead(f, x, many + free), from, cells);
  });
  if (free) {
    rows.push(el('tr', {class: away}, el('td', {class: 'more'}, `${shown + 1}–${f.slots}`),
      el('td', {colspan: ROW}, span('slot free', 'all free'))));
  }
  return rows;
}

// The slots that are shown: all rows up to the last one that somebody is in, at least one.
function shownSlots(f) {
  const last = f.rows.reduce((place, row, x) => (row.length ? x : place), 0);
  return ROW * (Math.floor(last / ROW) + 1);
}

function fibreHead(f, x, many) {
  const on = chosen.kind === 'fibre' && chosen.fibre === x;
  return el('th', {scope: 'row', rowspan: many, class: on ? 'on' : null, 'data-fibre': x, tabindex: 0}, f.a,
    span('dim', ` ${f.out} →`), el('br'), `${f.b} `, span('dim', `${f.in}`),
    f.trouble.map(text => [el('br'), span('bad', text)]));
}

function slotButton(f, x, k, row) {
  const entry = row[0], place = `${x}.${k}`;
  if (!entry)
    return el('button',
      {type: 'button', class: 'slot free', 'data-place': place, tabindex: -1, 'aria-label': `slot ${k}: free`}, 'free');
  const more = row.length > 1 ? ` +${row.length - 1}` : '', on = row.some(e => entryBase(e) === chosenBase());
  const title = `${fibreName(f)}, slot ${k}: ${
    row.map(e => `${e.name}${turnsText(e)}${e.meets ? '' : ', does not meet'}`).join('; ')}`;
  const kind = `slot${row.every(e => e.meets) ? '' : ' unmet'}${on ? ' on' : ''}`;
  return tinted(
    el('button', {type: 'button', class: kind, 'data-place': place, tabindex: -1, title, 'aria-label': title},
      `${entry.name}${more}`),
    entryBase(entry));
}

// A click in the table, and the arrow keys from slot to slot.
function fibresKeys() {
  $('fibres').addEventListener('click', event => {
    const slot = event.target.closest('[data-place]'), name = event.target.closest('[data-fibre]');
    if (slot)
      chooseSlot(slot.dataset.place);
    else if (name)
      choose({kind: 'fibre', fibre: +name.dataset.fibre});
  });
  $('fibres').addEventListener('keydown', event => {
    const name = event.target.closest('[data-fibre]'), slot = event.target.closest('[data-place]');
    if (name && (event.key === 'Enter' || event.key === ' ')) {
      event.preventDefault();
      choose({kind: 'fibre', fibre: +name.dataset.fibre});
    }
    if (slot) moveInGrid(event, slot);
  });
}

function moveInGrid(event, slot) {
  const all = [...$('fibres').querySelectorAll('[data-place]')], here = all.indexOf(slot);
  const next = {ArrowRight: here + 1, ArrowLeft: here - 1, ArrowDown: here + ROW, ArrowUp: here - ROW}[event.key];
  if (next === undefined || !all[next]) return;
  event.preventDefault();
  slot.tabIndex = -1;
  all[next].tabIndex = 0;
  all[next].focus();
}

function chooseSlot(place) {
  const [fibre, slot] = place.split('.').map(Number);
  choose({kind: 'slot', fibre, slot});
}

function fibresCsv() {
  const rows =
    [['from node', 'line out', 'to node', 'line in', 'slots', 'slot', 'customer', 'from turn', 'to turn', 'meets']];
  for (const f of net.fibres) {
    f.rows.forEach((row, x) => {
      const head = [f.a, f.out, f.b, f.in, f.slots, x + 1];
      if (!row.length) rows.push([...head, '', '', '', '']);
      for (const e of row) rows.push([...head, e.name, e.start, e.stop, e.meets ? 'yes' : 'no']);
    });
  }
  return csv(rows);
}
