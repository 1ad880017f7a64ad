// All turns in numbers: those that otn_view tells of the line, and of one of its tributaries.

const TURN_HEADS = ['turn', 'multiframe', 'frames', 'lead-in', 'FAS', 'SM', 'PM', 'state', 'Cm', 'CnD', 'bytes'];
const AROUND = 100;
const WORDS = {
  ok: 'whole',
  lost: 'lost',
  hunt: 'none',
  end: 'end'
};

function makeTurns() {
  return [
    el('p', {class: 'dim', id: 'turns-told'}),
    el('div', {class: 'bar'}, customerChoice('turns-of', false, goTributary), span('push'),
      span('dim', el('span', {id: 'turns-shown'}))),
    el('div', {class: 'list'}, el('table', {id: 'turns'})), el('h3', {id: 'msi-name'}), el('p', {id: 'msi'})
  ];
}

function drawTurns() {
  const t = line.tributaries[state.tributary];
  $('turns-told').textContent = about.told ? 'These are the numbers of otn_view, which are proved.'
                                           : `None of these numbers is proved: ${about.complaint}.`;
  if (t) $('turns-of').value = t.number;
  const from = clamp(state.turn - AROUND, 0, Math.max(0, about.turns - 2 * AROUND)),
        to = Math.min(about.turns, from + 2 * AROUND);
  $('turns-shown').textContent = to - from < about.turns
    ? `turns ${grouped(from + 1)} to ${grouped(to)} of ${grouped(about.turns)}`
    : count(about.turns, 'turn');
  const rows = Array.from({length: to - from}, (_, n) => turnRow(from + n, t));
  keepFocus($('turns'), () => fill($('turns'), 'Turns in numbers', TURN_HEADS, rows));
  const box = $('turns').parentElement;
  intoSight(box, box.querySelector('tr.on'));
  $('msi-name').textContent = `MSI bytes that came in turn ${state.turn + 1}`;
  $('msi').replaceChildren(...msiSpans());
}

// The numbers of a turn, as the text of otn_view has them.
function turnNumbers(i, t) {
  const turn = turnOf(i), h = t ? heardOf(t, i) : null, dash = value => (value === null ? '-' : value);
  const sink = h ? [h.state, dash(h.cm), dash(h.cnd), h.emitted] : ['', '', '', ''];
  return [i + 1, WORDS[turn.align], turn.used, turn.lead, turn.fas, turn.sm, turn.pm, ...sink];
}

function turnRow(i, t) {
  const told = i < about.told ? null : 'not told by otn_view';
  return el('tr', {'data-i': i, class: i === state.turn ? 'on' : '', title: told}, turnNumbers(i, t).map((value, x) => {
    const wrong = (x === 1 && value !== 'whole') || ([4, 5, 6].includes(x) && value > 0) || value === 'down';
    return el('td', {class: wrong ? 'bad' : null}, `${value}`);
  }));
}

// The MSI bytes that came in the chosen turn: slot and byte.
function msiNumbers(i) {
  const came = [];
  for (let k = 1; k <= line.slots; k++)
    if (msiCame(k, i)) came.push([k, hex(msiOf(k, i)).toLowerCase()]);
  return came;
}

function msiSpans() {
  const came = msiNumbers(state.turn);
  if (!came.length) return ['none'];
  return came.flatMap(([k, byte]) => [span(msiWrong(k, state.turn) ? 'wrong' : 'mono', `slot ${k}: ${byte}`), '  ']);
}
