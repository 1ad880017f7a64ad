// The chosen frame: its overhead bytes by name, what they say, and its message bit by bit.

const BYTES = [
  'FAS FAS FAS FAS FAS FAS MFAS SM_TTI SM_BIP SM_BEI GCC0 GCC0 RES RES JC4 JC1',
  'RES RES PM&TCM TCM_ACT TCM6 TCM6 TCM6 TCM5 TCM5 TCM5 TCM4 TCM4 TCM4 FTFL JC5 JC2',
  'TCM3 TCM3 TCM3 TCM2 TCM2 TCM2 TCM1 TCM1 TCM1 PM_TTI PM_BIP PM_ST EXP EXP JC6 JC3',
  'GCC1 GCC1 GCC2 GCC2 APS APS APS APS RES RES RES RES RES RES PSI RES',
].map(row => row.split(' ').map(name => name.replace('_', ' ')));
const KINDS =
  [[/FAS/, 'fas'], [/^SM/, 'sm'], [/^PM /, 'pm'], [/^JC/, 'jc'], [/PSI/, 'psi'], [/TCM/, 'tcm'], [/GCC|APS/, 'gcc']];

function drawFrame() {
  const none = line.frames === 0 || turnOf(state.turn).used === 0;
  $('frame-name').textContent = none ? 'No frame' : `Frame ${grouped(state.frame)}`;
  $('frame-place').textContent =
    none ? '' : `overhead: columns 1 to 16 · byte ${grouped(state.frame * FRAME)} · ${time(state.frame).toFixed(1)} µs`;
  if (none) {
    $('overhead').replaceChildren();
    $('message').replaceChildren();
    return;
  }
  const frame = frameOf(state.frame);
  drawOverhead(frame);
  $('message').replaceChildren(...frameWords(frame), ...messageWords(frame.message));
}

function drawOverhead(frame) {
  const columns = Array.from({length: 16}, (_, x) => el('th', {scope: 'col'}, `${x + 1}`));
  const rows = BYTES.map((names, r) => el('tr', {}, el('th', {scope: 'row'}, `row ${r + 1}`),
                           names.map((name, c) => overheadCell(frame, name, r + 1, c + 1))));
  $('overhead')
    .replaceChildren(el('caption', {class: 'hidden'}, `Overhead of frame ${frame.f}`),
      el('thead', {}, el('tr', {}, el('th', {scope: 'col'}, span('hidden', 'row')), columns)), el('tbody', {}, rows));
}

function overheadCell(frame, name, row, column) {
  const byte = overhead(frame.f, row, column), kind = KINDS.find(([words]) => words.test(name));
  const wrong = byteWrong(frame, name, byte, column);
  const place = FRAME * frame.f + 4080 * (row - 1) + column - 1;
  const title =
    `row ${row}, column ${column}: ${name} = ${hex(byte)}, byte ${grouped(place)} of the file${wrong ? ': wrong' : ''}`;
  const kinds = [kind ? kind[1] : '', wrong ? 'is-wrong' : '', byte ? 'set' : ''].filter(Boolean).join(' ');
  return el('td', {class: kinds, title}, hex(byte), el('small', {}, name));
}

function byteWrong(frame, name, byte, column) {
  const {message} = frame;
  if (name === 'FAS') return byte !== FAS[column - 1];
  if (name === 'MFAS') return frame.wanted !== null && byte !== frame.wanted;
  if (name === 'SM BIP') return frame.sm === false;
  if (name === 'PM BIP') return frame.pm === false;
  if (message.tributary && /^JC[123]/.test(name)) return !message.right8;
  return Boolean(message.tributary) && /^JC[456]/.test(name) && !message.right5;
}

// What MFAS, section and path monitoring say.
function frameWords(frame) {
  const {f} = frame, bei = overhead(f, 1, 10), status = STATUS[frame.status] || 'reserved';
  const parity = (byte, right) => {
    if (right === null) return `BIP-8 ${hex(byte)}`;
    return right ? [`BIP-8 ${hex(byte)} `, mark(true)]
                 : [`BIP-8 ${hex(byte)} `, span('wrong', `should be ${hex(line.parity[f - 2])}`)];
  };
  const mfas = frame.wanted === null || frame.wanted === frame.mfas
    ? `MFAS ${frame.mfas}`
    : [`MFAS ${frame.mfas} `, span('wrong', `should be ${frame.wanted}`)];
  return [
    el('p', {}, mfas, ` · PSI ${hex(overhead(f, 4, 15))}${frame.psi ? ` (${frame.psi})` : ''}`),
    el('p', {}, 'Section: ', parity(overhead(f, 1, 9), frame.sm),
      `, BEI ${bei >> 4}, BDI ${bei >> 3 & 1}, IAE ${bei >> 2 & 1}`, ' · path: ', parity(overhead(f, 3, 11), frame.pm),
      `, STAT ${frame.status.toString(2).padStart(3, '0')} ${status}`)
  ];
}

function bitSpans(bits, turned, kind = '') {
  return span('bits', bits.map((bit, x) => span(turned && turned[x] ? 'inverted' : kind, `${bit}`)));
}

// The message of the slot whose turn it is: the bits of Cm, the flags, the checks, and what follows.
function messageWords(message) {
  const owner = message.owner;
  if (!message.tributary) {
    if (owner)
      return [el('p', {class: 'dim'}, `The message of ${nameOf(owner)} is in its last slot, ${owner.message}.`)];
    return [el('p', {class: 'dim'}, 'No tributary has this slot.')];
  }
  const turned = inverted(message), t = message.tributary;
  const check = (name, found, right, wanted) =>
    (right ? [` ${name} ${hex(found)} `, mark(true)]
           : [` ${name} ${hex(found)}, `, span('wrong', `should be ${hex(wanted)}`)]);
  return [
    el('p', {}, el('b', {}, `Message of ${nameOf(t)}`), ` (slot ${t.message})`),
    el('p', {}, 'C1 to C14', bitSpans(bitsOf(message.bits), turned), 'II', bitSpans([message.ii], null, 'flag'), 'DI',
      bitSpans([message.di], null, 'flag'), check('CRC-8', message.jc[2], message.right8, message.crc8)),
    el('p', {}, `CnD ${message.cnd}`, check('CRC-5', message.jc[5] & 31, message.right5, message.crc5)),
    el('p', {}, ...messageMeans(message, turned))
  ];
}

function messageMeans(message, turned) {
  const {heard} = message, next = `It is the Cm of the groups of turn ${state.turn + 2}.`;
  const stands = heard.cm === null ? `The sink is ${heard.state}${heard.why ? `: ${heard.why}` : ''}.`
                                                                            : `Cm ${heard.cm} and CnD ${heard.cnd} of the turn before stand.`;
  if (heard.message === 'damaged') return [span('wrong', 'damaged'), ` ${stands}`];
  if (heard.why === 'base lost') return [span('wrong', 'base lost'), ' The inverted bits fit no number.'];
  if (heard.message === 'base lost') return ['Inverted bits, and the sink has no number that they would be against.'];
  if (heard.cm === null) return [`The sink is ${heard.state}${heard.why ? `: ${heard.why}` : ''}.`];
  if (message.ii === message.di) {
    const how = message.ii ? 'II and DI are 1: a number outright' : 'II and DI are 0: the number of before';
    return [`${how}, `, el('b', {}, `Cm ${heard.cm}`), `. ${next}`];
  }
  if (!turned) return [`The inverted bits say ${HOW[heard.how] || '?'}: `, el('b', {}, `Cm ${heard.cm}`), `. ${next}`];
  return [
    `Inverted bits (marked) against ${message.former} say `, el('b', {}, `${HOW[heard.how] || '?'}: Cm ${heard.cm}`),
    `. ${next}`
  ];
}
