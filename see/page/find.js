// The search: a turn, a frame, an MFAS, or words of customers, packets and events, one hit after the other.

const search = {
  words: '',
  hits: [],
  at: -1
};

// `way` is 1 for the next hit, -1 for the one before.
function find(text, way = 1) {
  const words = text.trim().toLowerCase();
  if (!words) return say('');
  const number = /^(turn|frame|mfas)\s*(\d+|0x[0-9a-f]+)$/.exec(words);
  if (number) return findNumber(number[1], +number[2], way);
  if (words !== search.words || search.proved !== state.proved) {
    Object.assign(search, {words, proved: state.proved, hits: hitsOf(words), at: way > 0 ? -1 : 0});
  }
  const {hits} = search;
  if (!hits.length) return say(`nothing has “${text.trim()}”`, true);
  search.at = (search.at + way + hits.length) % hits.length;
  const hit = hits[search.at];
  hit.go();
  return say(`${search.at + 1} of ${grouped(hits.length)}: ${hit.what}`);
}

function findNumber(kind, value, way) {
  if (kind === 'turn') {
    if (value < 1 || value > line.turns) return say(`the line has turns 1 to ${grouped(line.turns)}`, true);
    goTurn(value - 1);
    return say(`turn ${grouped(value)}`);
  }
  if (kind === 'frame') {
    if (value >= line.frames) return say(`the line has frames 0 to ${grouped(line.frames - 1)}`, true);
    goFrame(value);
    return say(`frame ${grouped(value)}`);
  }
  for (let n = 1; n <= line.frames; n++) {
    const f = (((state.frame + way * n) % line.frames) + line.frames) % line.frames;
    if (overhead(f, 1, 7) === value) {
      goFrame(f);
      return say(`MFAS ${value}: frame ${grouped(f)}`);
    }
  }
  return say(`no frame has MFAS ${value}`, true);
}

function hitsOf(words) {
  const has = text => text.toLowerCase().includes(words), hits = [];
  for (const t of line.tributaries) {
    if (has(`${nameOf(t)} ${state.proved ? '' : t.trace} port ${t.port}`))
      hits.push({what: `customer ${nameOf(t)}`, go: () => goCustomer(t)});
  }
  if (!state.proved) {
    for (let p = 0; p < line.packets.count; p++) {
      const {from, to, kind, info} = decodedPacket(p);
      if (has(`${from} ${to} ${kind} ${info}`))
        hits.push({what: `packet of turn ${line.packets.turn[p]}`, go: () => openPacket(p)});
    }
  }
  line.events.forEach((event, x) => {
    if (has(`${eventWho(event)} ${eventWords(event)}`) && eventWords(event))
      hits.push({what: `event of turn ${event.turn + 1}`, go: () => openEvent(x)});
  });
  return hits;
}

// A customer: its first turn in which it is up.
function goCustomer(t) {
  state.tributary = t.number;
  state.what = null;
  state.tab = 'customers';
  const first = Array.from({length: t.turns}, (_, n) => t.start - 1 + n).find(i => line.heard.cm[heardAt(t, i)] >= 0);
  goTurn(first === undefined ? t.start - 1 : first, t.message);
}

function openPacket(p) {
  state.tab = 'packets';
  Object.assign(packetView, {customer: -1, only: false});
  $('only').checked = false;
  goPacket(p);
}

function openEvent(x) {
  state.tab = 'events';
  if (!line.events[x].alarm) {
    eventView.alarms = false;
    $('alarms').checked = false;
  }
  goEvent(x);
}

// Says what was found; answers whether something was.
function say(text, none = false) {
  $('found').textContent = text;
  $('found').className = none ? 'bad' : 'dim';
  return !none;
}
