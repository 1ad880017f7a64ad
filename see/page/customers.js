// The customers of the line: the sink over time, Cm and CnD, packets, the rate; and what each is in the chosen turn.

const sums = new Map();

// What a customer was in all: from least to greatest, and sums.
function sumOfCustomer(t) {
  if (sums.has(t.number)) return sums.get(t.number);
  const {heard} = line,
        sum = {up: 0, cm: [], cnd: [], packets: 0, packetBytes: 0, bad: 0, groups: 0, full: 0, last: null};
  const widen = (range, value) => {
    if (!range.length || value < range[0]) range[0] = value;
    if (range.length < 2 || value > range[1]) range[1] = value;
  };
  for (let i = t.start - 1; i < t.start - 1 + t.turns; i++) {
    const x = heardAt(t, i);
    if (about.codes.align[alignCode(i)] !== 'end') sum.last = i;
    sum.packets += heard.packets[x];
    sum.packetBytes += heard.packetBytes[x];
    sum.bad += heard.bad[x];
    if (heard.cm[x] < 0) continue;
    sum.up++;
    widen(sum.cnd, heard.cnd[x]);
    if (heard.cm[x] === 0) continue;
    widen(sum.cm, heard.cm[x]);
    sum.groups += heard.cm[x];
    sum.full++;
  }
  sums.set(t.number, sum);
  return sum;
}

const rangeWords = range => (range.length === 0 ? '–'
    : range[0] === range[1]                     ? `${range[0]}`
                                                : `${range[0]}–${range[1]}`);

// The bits of its groups by the time of a multiframe.
function rateOf(t, sum) {
  if (!sum.full) return '–';
  return `${(8 * t.slots.length * sum.groups / sum.full / time(line.slots) / 1000).toFixed(3)} Gbit/s`;
}

function makeCustomers() {
  return [el('div', {id: 'customers'})];
}

function drawCustomers() {
  keepFocus($('customers'),
    () => $('customers').replaceChildren(...(line.tributaries.length ? line.tributaries.map(customerCard) : [
      el('p', {class: 'dim'}, 'No tributary on this line.')
    ])));
  for (const canvas of $('customers').querySelectorAll('canvas'))
    drawRibbon(canvas, line.tributaries[canvas.dataset.t]);
}

function customerCard(t) {
  const sum = sumOfCustomer(t), h = heardOf(t, state.turn), end = sum.last === null ? null : heardOf(t, sum.last);
  const from = `turns ${t.start} to ${Math.min(t.start + t.turns - 1, line.turns)}`;
  const traffic = state.proved ? '' : ` · ${count(sum.packets, 'packet')}, ${bytesText(sum.packetBytes)}`;
  const bad = !state.proved && sum.bad ? [' · ', span('wrong', `${count(sum.bad, 'GFP frame')} bad`)] : [];
  return el('div', {
    class: `customer${t.number === state.tributary ? ' on' : ''}`,
    'data-i': t.number,
    role: 'button',
    'aria-pressed': t.number === state.tributary
  },
    el('div', {class: 'bar'}, span('', swatch(t.colour), el('b', {}, nameOf(t))),
      span('dim', `${nameOf(t) === `port ${t.port}` ? '' : `port ${t.port} · `}${slotsOf(t)} · ${from}`), span('push'),
      end ? span(
              end.state === 'up' ? 'good' : 'bad', `${end.state}${!state.proved && end.client ? ` ${end.client}` : ''}`)
                                                                                              : null),
    el('canvas', {'data-t': t.number, 'aria-hidden': 'true'}),
    el('p', {}, span('dim', `turn ${state.turn + 1}: `), h ? heardWords(h) : 'not there'),
    el('p', {}, span('dim', 'in all: '),
      `up in ${count(sum.up, 'turn')} · Cm ${rangeWords(sum.cm)} · CnD ${rangeWords(sum.cnd)} · ${rateOf(t, sum)}${
        traffic}`,
      ...bad));
}

// The sink over time, as a ribbon, with the chosen turn.
function drawRibbon(canvas, t) {
  const [g, width] = fresh(canvas, 12), x = i => i / line.turns * width;
  if (width === 0) return;
  const ribbon = drawnOnce(`ribbon ${t.number}`, state.proved, width, 12, sheet => drawSink(sheet, t, width, x));
  g.drawImage(ribbon, 0, 0, width, 12);
  g.strokeStyle = look.ink;
  g.lineWidth = 1.5;
  g.strokeRect(clamp(x(state.turn), 1, width - 4), .75, Math.max(3, x(1)), 10.5);
}

function drawSink(g, t, width, x) {
  const first = t.start - 1, end = first + t.turns;
  g.fillStyle = look.pale;
  g.fillRect(0, 2, width, 8);
  for (const column of columnsOf(first, end, x)) {
    let worst = null;
    for (let i = Math.max(column.i, first); i < Math.min(column.end, end); i++) {
      const cell = cellOfTurn(t.message, i);
      if (cell.owner === t.number && (!worst || cell.rank < worst.rank)) worst = cell;
    }
    if (!worst) continue;
    g.fillStyle = ribbonFill(g, worst);
    g.globalAlpha = worst.look === 'empty' ? .4 : worst.look === 'waiting' ? .5 : 1;
    g.fillRect(column.x, 2, Math.max(1, x(column.end) - column.x), 8);
    g.globalAlpha = 1;
  }
}

function ribbonFill(g, cell) {
  if (cell.look === 'down') return look['bad-fill'];
  if (SIGNALS.includes(cell.look))
    return stripes(g, onGround(about.colours.signal[cell.look]), look.card, cell.look === 'AIS');
  return cell.look === 'waiting' ? look.dim : look['good-fill'];
}
