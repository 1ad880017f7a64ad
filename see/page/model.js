// The line: turns, frames, tributaries and packets. Turns, frames and tributaries are counted from 0 here, and shown as
// the documents have them: turns, slots, ports, rows and columns from 1, frames and bytes from 0.

const FRAME = 16320, GROUPS = 15232, NO_PORT = 0xC0;
const line = {
  slots: about.slots,
  frames: about.frames,
  tributaries: about.tributaries
};
const TURN = ['align', 'start', 'used', 'lead', 'fas', 'mfas', 'sm', 'pm', 'first'];

function readLine(part) {
  line.turnRows = part('turns', Int32Array);
  line.msi = part('msi', Int16Array);
  line.heads = part('heads', Uint8Array);
  line.parity = part('parity', Uint8Array);
  line.heard = {
    code: part('code', Uint16Array),
    cm: part('cm', Int16Array),
    cnd: part('cnd', Int16Array),
    emitted: part('emitted', Int32Array),
    packets: part('packets', Uint16Array),
    packetBytes: part('packetBytes', Int32Array),
    bad: part('bad', Uint16Array),
    why: part('why', Uint16Array),
  };
  line.events = JSON.parse(new TextDecoder().decode(part('events', Uint8Array))).map(([
    turn, who, what, alarm, slot, tributary, told
  ]) => ({turn: turn - 1, who, what, alarm, slot, tributary, told}));
  const last = about.turns - 1;
  line.turns = last > 0 && turnOf(last).used === 0 ? last : about.turns;  // an end without frames is not shown
  readPackets(part);
  placeFrames();
  placeTributaries();
}

function readPackets(part) {
  const kept = part('packetKept', Uint16Array), places = new Uint32Array(kept.length + 1);
  kept.forEach((size, i) => {
    places[i + 1] = places[i] + size;
  });
  line.packets = {
    count: kept.length,
    kept,
    places,
    turn: part('packetTurn', Int32Array),
    of: part('packetOf', Int32Array),
    length: part('packetLength', Int32Array),
    check: part('packetCheck', Uint8Array),
    bytes: part('packetHeads', Uint8Array),
  };
}

// A turn by name of its numbers.
function turnOf(i) {
  const turn = {};
  TURN.forEach((name, x) => {
    turn[name] = line.turnRows[9 * i + x];
  });
  turn.align = about.codes.align[turn.align];
  return turn;
}

const turnNumber = (i, name) => line.turnRows[9 * i + TURN.indexOf(name)];
const alignCode = i => line.turnRows[9 * i];

// The turn of each frame, and its place in the multiframe: below 0 where it was passed over or none was found.
function placeFrames() {
  line.frameTurn = new Int32Array(line.frames).fill(-1);
  line.framePlace = new Int16Array(line.frames).fill(-1);
  for (let i = 0; i < about.turns; i++) {
    const turn = turnOf(i);
    for (let n = 0; n < turn.used; n++) {
      line.frameTurn[turn.start + n] = i;
      line.framePlace[turn.start + n] = turn.first < 0 ? -1 : n - turn.lead;
    }
  }
}

// Where the numbers of a tributary begin, and which tributary has a slot in a turn.
function placeTributaries() {
  let place = 0;
  line.owner = new Int16Array(line.slots * about.turns).fill(-1);
  line.tributaries.forEach((t, number) => {
    t.place = place;
    t.number = number;
    t.message = t.slots[t.slots.length - 1];  // the slot of its message
    place += t.turns;
    for (let i = t.start - 1; i < t.start - 1 + t.turns; i++) {
      for (const k of t.slots) line.owner[(k - 1) * about.turns + i] = number;
    }
  });
}

const ownerOf = (slot, i) => line.owner[(slot - 1) * about.turns + i];
const nameOf = t => t.name || (state.proved ? '' : t.trace) || `port ${t.port}`;
const slotsOf = t => `${t.slots.length > 1 ? 'slots' : 'slot'} ${t.slotsText}`;

// Where the numbers of tributary t in turn i stand in the columns, or -1.
function heardAt(t, i) {
  const x = i - (t.start - 1);
  return x >= 0 && x < t.turns ? t.place + x : -1;
}

// What a tributary was in a turn, or null.
function heardOf(t, i) {
  const x = heardAt(t, i);
  if (x < 0) return null;
  const {heard} = line, {states, looks, clients, messages, hows} = about.codes, code = heard.code[x];
  const none = value => (value < 0 ? null : value);
  return {
    state: states[code & 3],
    look: looks[code >> 2 & 7],
    client: clients[code >> 5 & 7],
    message: messages[code >> 8 & 3],
    how: hows[code >> 10 & 7],
    cm: none(heard.cm[x]),
    cnd: none(heard.cnd[x]),
    emitted: heard.emitted[x],
    packets: heard.packets[x],
    packetBytes: heard.packetBytes[x],
    bad: heard.bad[x],
    why: about.whys[heard.why[x]],
  };
}

// Whether the message of a tributary was damaged in a turn, or ended a stretch because its base was lost.
function messageWrong(t, i) {
  const x = heardAt(t, i), message = x < 0 ? '' : about.codes.messages[line.heard.code[x] >> 8 & 3];
  return message === 'damaged' || (message === 'base lost' && about.whys[line.heard.why[x]] === 'base lost');
}

// The MSI byte of a slot as it stood in a turn, or null; and whether it came in this turn.
const msiOf = (slot, i) => (line.msi[line.slots * i + slot - 1] < 0 ? null : line.msi[line.slots * i + slot - 1] & 255);
const msiCame = (slot, i) => line.msi[line.slots * i + slot - 1] >= 256;

function msiText(byte) {
  if (byte === null) return 'MSI not seen';
  if (byte === NO_PORT) return 'free';
  return byte >= 0x80 && byte < 0xC0 ? `MSI of port ${byte - 127}` : `MSI ${hex(byte)}`;
}

// Whether an MSI byte that came in this turn is not that of the slot's own tributary.
function msiWrong(slot, i) {
  const owner = ownerOf(slot, i);
  return owner >= 0 && msiCame(slot, i) && msiOf(slot, i) !== 127 + line.tributaries[owner].port;
}

// An overhead byte by its frame, row and column.
const overhead = (f, row, column) => line.heads[(16 * (row - 1) + column - 1) * line.frames + f];

// The first bytes of a packet, as many as are kept.
const packetBytes = p => line.packets.bytes.subarray(line.packets.places[p], line.packets.places[p + 1]);
