// The chosen turn: what it was, and its frames as a table.

const FRAME_HEADS = [
  ['frame'], ['MFAS'], ['FAS'], ['TTI', 'Trail trace of the section'], ['SM', 'BIP-8 of the section'],
  ['TTI', 'Trail trace of the path'], ['PM', 'BIP-8 of the path'], ['STAT'], ['PSI'], ['slot'], ['customer'], ['JC1–3'],
  ['JC4–6'], ['Cm', 'Cm of the sink after this turn'], ['said as'], ['CnD', 'CnD of the sink after this turn'],
  ['C8', 'CRC-8 of the message'], ['C5', 'CRC-5 of CnD']
];

const mark = right => {
  if (right === null) return span('dim', '–');
  return right ? el('span', {class: 'good', title: 'right'}, '✓') : el('span', {class: 'wrong', title: 'wrong'}, '✗');
};
const letterOf = byte => (byte > 32 && byte < 127 ? `“${String.fromCharCode(byte)}”` : hex(byte));
const time = frames => frames * (line.slots === 8 ? 12.191 : 3.035);  // the time of frames, in microseconds
const millis = micros => `${(micros / 1000).toFixed(3)} ms`;

function drawTurn() {
  const turn = turnOf(state.turn);
  $('turn-name').textContent = `Turn ${grouped(state.turn + 1)} of ${grouped(line.turns)}`;
  $('turn-place').textContent = turn.used ? `byte ${grouped(turn.start * FRAME)} · ${millis(time(turn.start))}` : '';
  $('turn-told').replaceChildren(...turnTold(turn));
  $('turn-before').disabled = state.turn === 0;
  $('turn-next').disabled = state.turn === line.turns - 1;
  if (state.proved) drawSinks();
  keepFocus($('frames'), drawFrames);
  intoSight($('frames').parentElement, $('frames').querySelector('tr.on'));
}

function turnTold(turn) {
  const wrong = wrongWords(turn);
  const words = [el('b', {class: turn.align === 'ok' ? 'good' : 'bad'}, ALIGNED[turn.align])];
  if (turn.used) words.push(span('', framesWords(turn).slice(2)));
  if (turn.lead) words.push(`, ${turn.lead} of them passed over`);
  if (wrong.length) words.push(' · ', span('bad', wrong.join(', ')));
  return words;
}

// The sinks after this turn, as otn_view tells them.
function drawSinks() {
  const there = line.tributaries.filter(t => heardAt(t, state.turn) >= 0),
        dash = value => (value === null ? '–' : `${value}`);
  const rows = there.map(t => {
    const h = heardOf(t, state.turn), cells = [
      `${t.port}`, t.slotsText, span(h.state === 'down' ? 'bad' : '', h.state), dash(h.cm), dash(h.cnd),
      grouped(h.emitted)
    ];
    return el('tr', {}, el('td', {}, swatch(t.colour), nameOf(t)), cells.map(cell => el('td', {}, cell)));
  });
  fill($('sinks'), `Sinks after turn ${state.turn + 1}`,
    ['customer', 'port', 'slots', 'sink', 'Cm', 'CnD', 'bytes emitted'], rows);
}

function drawFrames() {
  const turn = turnOf(state.turn), rows = [];
  for (let f = turn.start; f < turn.start + turn.used; f++) rows.push(frameRow(f));
  const heads = FRAME_HEADS.map(([name, title]) => el('th', {scope: 'col', title}, name));
  fill($('frames'), `Frames of turn ${state.turn + 1}`, heads, rows);
}

function frameRow(f) {
  const frame = frameOf(f), {mfas, wanted, message} = frame;
  const number = mfas === wanted || wanted === null ? [`${mfas}`] : [span('wrong', `${mfas}`), ` for ${wanted}`];
  const cells = [
    [`${f}`, frame.place < 0 ? span('dim', ' over') : null], number, mark(frame.fas), letterOf(overhead(f, 1, 8)),
    [`${hex(overhead(f, 1, 9))} `, mark(frame.sm)], letterOf(overhead(f, 3, 10)),
    [`${hex(overhead(f, 3, 11))} `, mark(frame.pm)], STATUS[frame.status] || frame.status.toString(2).padStart(3, '0'),
    frame.psi, frame.slot || '', ...messageCells(message, frame.slot)
  ];
  return el('tr',
    {'data-i': f, class: f === state.frame ? 'on' : '', 'aria-current': f === state.frame ? 'true' : null},
    cells.map((cell, x) => el('td', {class: [1, 3, 4, 5, 6, 11, 12].includes(x) ? 'mono' : null}, cell)));
}

function messageCells(message, slot) {
  const bytes = range =>
    (message.some || message.tributary ? message.jc.slice(...range).map(b => hex(b)).join(' ') : '');
  const jc = [bytes([0, 3]), bytes([3, 6])];
  if (!message.tributary) {
    const owner = message.owner ? span('dim', `↳ ${nameOf(message.owner)}`) : span('dim', slot ? 'none' : '');
    return [owner, ...jc.map(text => span('dim', text)), '', '', '', '', ''];
  }
  const {heard} = message, [said, wrong] = saidOf(message), dash = value => (value === null ? '–' : `${value}`);
  const name = [
    swatch(message.tributary.colour), nameOf(message.tributary),
    heard.state === 'up' ? null : span('bad', ` ${heard.state}`)
  ];
  return [
    name, ...jc, dash(heard.cm), wrong ? span('wrong', said) : said, dash(heard.cnd), mark(message.right8),
    mark(message.right5)
  ];
}
