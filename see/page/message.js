// What the overhead of a frame says: alignment, parity, status, the MSI byte, and the message of its slot bit by bit.

const FAS = [0xF6, 0xF6, 0xF6, 0x28, 0x28, 0x28];
const STATUS = {
  1: 'normal',
  5: 'LCK',
  6: 'OCI',
  7: 'AIS'
};
const HOW = {
  outright: 'outright',
  '=': 'as before',
  '+1': '+1',
  '-1': '−1',
  '+2': '+2',
  '-2': '−2'
};

// The remainder of a number of `bits` bits by a generator.
function remainder(value, bits, generator, degree) {
  let rest = value << degree;
  for (let i = bits + degree - 1; i >= degree; i--)
    if (rest >> i & 1) rest ^= generator << i - degree;
  return rest;
}

const crc8 = (jc1, jc2) => remainder(jc1 << 8 | jc2, 16, 0x10D, 8);
const crc5 = cnd => remainder(cnd, 10, 0x23, 5);

// A parity byte against that of the frame two before; null where there is none.
const parityRight = (f, row, column) => (f < 2 ? null : overhead(f, row, column) === line.parity[f - 2]);

const fasRight = f => FAS.every((byte, x) => overhead(f, 1, x + 1) === byte);

function frameOf(f) {
  const i = line.frameTurn[f], place = line.framePlace[f], first = i < 0 ? -1 : turnNumber(i, 'first');
  const mfas = overhead(f, 1, 7), wanted = first < 0 || place < 0 ? null : (first + place) % 256;
  return {
    f,
    turn: i,
    place,
    mfas,
    wanted,
    fas: fasRight(f),
    sm: parityRight(f, 1, 9),
    pm: parityRight(f, 3, 11),
    status: overhead(f, 3, 12) & 7,
    psi: psiText(overhead(f, 4, 15), wanted === null ? mfas : wanted),
    slot: place >= 0 ? place + 1 : null,
    message: messageOf(f, i, place + 1),
  };
}

// What the PSI byte of a multiframe place says.
function psiText(byte, mfas) {
  if (mfas === 0) return `PT ${hex(byte)}`;
  if (mfas >= 2 && mfas < 2 + line.slots) {
    const says = byte === NO_PORT ? 'free' : byte >= 0x80 && byte < 0xC0 ? `port ${byte - 127}` : hex(byte);
    return `MSI ${mfas - 1}: ${says}`;
  }
  return byte ? `PSI ${hex(byte)}` : '';
}

// JC1 to JC6 of a frame: the fields of the message, its checks, whose it is, and what the sink made of it.
function messageOf(f, i, slot) {
  const [jc1, jc2, jc3, jc4, jc5, jc6] = [16, 15].flatMap(column => [1, 2, 3].map(row => overhead(f, row, column)));
  const message = {
    jc: [jc1, jc2, jc3, jc4, jc5, jc6],
    bits: jc1 << 6 | jc2 >> 2,
    ii: jc2 >> 1 & 1,
    di: jc2 & 1,
    cnd: (jc4 & 31) << 5 | jc5 & 31,
    some: Boolean(jc1 | jc2 | jc3 | jc4 | jc5 | jc6),
    tributary: null,
    owner: null,
  };
  Object.assign(message, {crc8: crc8(jc1, jc2), crc5: crc5(message.cnd)});
  message.right8 = message.crc8 === jc3;
  message.right5 = message.crc5 === (jc6 & 31);
  const owner = i < 0 || slot < 1 ? -1 : ownerOf(slot, i);
  if (owner < 0) return message;
  message.owner = line.tributaries[owner];
  if (message.owner.message !== slot) return message;
  message.tributary = message.owner;
  message.heard = heardOf(message.tributary, i);
  const before = i > 0 ? heardOf(message.tributary, i - 1) : null;
  message.former = before ? before.cm : null;
  return message;
}

// How a message was said, in a word, and whether that is wrong.
function saidOf(message) {
  const {heard} = message;
  if (heard.message === 'damaged' || heard.why === 'base lost') return [heard.message, true];
  if (heard.message === 'base lost') return ['no base', false];
  return [heard.how ? HOW[heard.how] : '–', false];
}

// Which bits are inverted against the former number, as 14 truths; null where the bits are the number themselves.
function inverted(message) {
  if (message.ii === message.di || message.former === null) return null;
  return bitsOf(message.bits ^ message.former).map(Boolean);
}

const bitsOf = number => Array.from({length: 14}, (_, x) => number >> 13 - x & 1);

// In how many of the turns that otn_view told the FAS, SM and PM counts of the page's own frames are its counts.
function agreeing() {
  let turns = 0;
  for (let i = 0; i < Math.min(line.turns, about.told); i++) {
    const turn = turnOf(i), sums = [0, 0, 0];
    for (let f = turn.start; f < turn.start + turn.used; f++) {
      sums[0] += !fasRight(f);
      sums[1] += parityRight(f, 1, 9) === false;
      sums[2] += parityRight(f, 3, 11) === false;
    }
    turns += sums[0] === turn.fas && sums[1] === turn.sm && sums[2] === turn.pm;
  }
  return turns;
}
