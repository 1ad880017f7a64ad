// The head of the page: what the line is, what is wrong on it, and where the numbers come from.

const KINDS_OF_WRONG = [
  {name: 'lost', told: true, of: i => +(about.codes.align[alignCode(i)] === 'lost'), words: 'multiframes lost'},
  {
    name: 'none',
    told: true,
    of: i => +(about.codes.align[alignCode(i)] === 'hunt'),
    words: 'turns without a multiframe'
  },
  ...LANES.map(lane => ({
    ...lane,
    words: lane.name === 'JC' ? 'messages damaged'
      : lane.name === 'MSI'   ? 'MSI bytes of another port'
                              : `${lane.name} wrong`
  })),
];

function drawHead() {
  $('name').textContent = about.file;
  const turns = line.turns - (about.codes.align[alignCode(line.turns - 1)] === 'end' ? 1 : 0);
  const words = [
    `${about.kind}, ${about.scrambled ? 'scrambled' : 'plain'}`,
    `${count(line.frames, 'frame')} in ${count(turns, 'turn')}`, millis(time(line.frames))
  ];
  if (about.trace && !state.proved) words.push(`section trace “${about.trace}”`);
  if (about.rest) words.push(`${count(about.rest, 'byte')} over`);
  $('form').textContent = words.join(' · ');
  $('counts').replaceChildren(...KINDS_OF_WRONG.filter(kind => kind.told || !state.proved).map(countButton));
  $('origin').hidden = about.told > 0;
  $('origin').textContent =
    `No number of this page is proved: ${about.complaint}. rt run in crates/otn_view builds it.`;
  $('sources').replaceChildren(...sourceWords().map(text => el('p', {}, text)));
}

// How much of a kind is wrong on the line; a click goes to the next turn that has some.
function countButton(kind) {
  let sum = 0;
  for (let i = 0; i < line.turns; i++) sum += kind.of(i);
  const next = () => {
    for (let n = 1; n <= line.turns; n++) {
      const i = (state.turn + n) % line.turns;
      if (kind.of(i)) return goTurn(i, wrongPlace(i));
    }
    return undefined;
  };
  return el('button', {
    type: 'button',
    class: `count${sum ? ' some' : ''}`,
    disabled: sum === 0,
    title: `${kind.words}: ${sum}`,
    on: {click: next}
  },
    el('b', {}, grouped(sum)), kind.name);
}

// Where the numbers come from.
function sourceWords() {
  const build = 'rt run in crates/otn_view builds it';
  const told = [
    'Proved, from otn_view: turns and their multiframes, frames, lead-in, FAS, SM and PM counts, MSI bytes,',
    'and of each sink its state, Cm, CnD and bytes emitted.',
  ];
  const rest = [
    'Not proved: each frame and its overhead, how a message was said, MFAS counts, traces, packets,',
    'AIS, LCK and OCI, the drawing, and which groups are data.',
  ];
  const form = about.planned ? 'The tributaries are those of the plan.'
                             : 'Which form and tributaries the line has was told from its bytes, and is not proved.';
  if (!about.told) return [`No number of this page is proved: ${about.complaint}. ${build}.`, rest.join(' '), form];
  const turns = Math.min(line.turns, about.told);
  const later = about.told < line.turns ? [`otn_view tells ${grouped(turns)} turns: later ones are not proved.`] : [];
  const agree =
    `The frames shown here have its FAS, SM and PM counts in ${grouped(agreeing())} of ${grouped(turns)} turns.`;
  return [told.join(' '), ...later, rest.join(' '), form, agree];
}
