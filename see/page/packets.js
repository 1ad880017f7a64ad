// The packets that the page keeps: those about the chosen turn, of all customers or of one, and the chosen one in full.

const SHOWN = 200, BEFORE = 20, REFUSED_CHECK = 0, RIGHT_CHECK = 2;
const decoded = new Map();
const packetView = {
  customer: -1,
  only: false,
  from: null,
  turn: -1
};

function decodedPacket(p) {
  if (!decoded.has(p)) decoded.set(p, decode(packetBytes(p)));
  return decoded.get(p);
}

function makePackets() {
  const only = el('input',
    {type: 'checkbox', id: 'only', on: {change: event => setPackets({only: event.target.checked, from: null})}});
  return [
    el('div', {class: 'left-out'}, el('p', {}, 'Packets are left out: a script reads them, and this is not proved.')),
    el('div', {class: 'unproved'},
      el('div', {class: 'bar'}, customerChoice('packets-of', true, customer => setPackets({customer, from: null})),
        el('label', {}, only, ' this turn only')),
      el('div', {class: 'bar'}, span('dim', el('span', {id: 'packet-count'})), span('push'),
        el('button', {type: 'button', id: 'packets-before', on: {click: () => pagePackets(-1)}}, '◀ earlier'),
        el('button', {type: 'button', id: 'packets-after', on: {click: () => pagePackets(1)}}, 'later ▶')),
      el('div', {class: 'list short'}, el('table', {id: 'packets'})), el('div', {id: 'packet'}),
      el('p', {class: 'dim', id: 'packets-kept'}, keptWords()))
  ];
}

// Which packets the page has, in words.
function keptWords() {
  const {all, budget, bytes, packets, turns} = about.kept, some = line.packets.count;
  if (all === 0) return 'No packet ended on this line.';
  const whole = bytes >= 65536 ? 'whole' : `the first ${bytes} bytes of each`;
  const room = `Its budget for packets is ${budget / 1000000} MB.`;
  if (some === all) return `All ${grouped(all)} packets are in the page, ${whole}. ${room}`;
  const first = packets >= 65536 ? '' : `of each turn and customer the first${packets > 1 ? ` ${packets}` : ''}`;
  const which = [first, turns > 1 ? `of one turn in ${turns}` : '', whole].filter(Boolean).join(', ');
  return `${grouped(some)} of ${grouped(all)} packets are in the page: ${which}. ${room} All are counted.`;
}

// The packets of the chosen customer and turn.
function packetList() {
  const {count: all, of, turn} = line.packets, list = [];
  for (let p = 0; p < all; p++) {
    if (packetView.customer >= 0 && of[p] !== packetView.customer) continue;
    if (packetView.only && turn[p] !== state.turn + 1) continue;
    list.push(p);
  }
  return list;
}

function setPackets(next) {
  Object.assign(packetView, next);
  changed();
}

function pagePackets(way) {
  packetView.from = Math.max(0, packetView.shown + way * SHOWN);
  changed();
}

function drawPackets() {
  if (state.proved) return;
  if (packetView.turn !== state.turn) Object.assign(packetView, {turn: state.turn, from: null});
  const list = packetList(), here = list.findIndex(p => line.packets.turn[p] >= state.turn + 1);
  const chosen = list.indexOf(state.packet);
  let from = packetView.from;
  if (from === null) from = (chosen >= 0 ? chosen : here < 0 ? list.length : here) - BEFORE;
  packetView.shown = clamp(from, 0, Math.max(0, list.length - 1));
  const shown = list.slice(packetView.shown, packetView.shown + SHOWN);
  $('packets-of').value = packetView.customer;
  $('packet-count').textContent =
    `${count(list.length, 'packet')}${shown.length < list.length ? `, ${shown.length} shown` : ''}`;
  $('packets-before').disabled = packetView.shown === 0;
  $('packets-after').disabled = packetView.shown + SHOWN >= list.length;
  keepFocus($('packets'),
    () => fill($('packets'), 'Packets', ['turn', 'customer', 'packet', 'bytes', 'FCS'], shown.map(packetRow)));
  const box = $('packets').parentElement;
  intoSight(box, box.querySelector('tr.on') || box.querySelector('tr.now'));
  drawPacket();
}

function packetRow(p) {
  const {turn, of, length} = line.packets, t = line.tributaries[of[p]];
  const kind = p === state.packet ? 'on' : turn[p] === state.turn + 1 ? 'now' : '';
  return el('tr', {'data-i': p, class: kind, 'aria-current': p === state.packet ? 'true' : null},
    el('td', {}, `${turn[p]}`), el('td', {}, swatch(t.colour), nameOf(t)), el('td', {class: 'wrap'}, packetCell(p)),
    el('td', {}, grouped(length[p])), el('td', {}, fcsOf(p)));
}

function packetCell(p) {
  if (line.packets.check[p] === REFUSED_CHECK) return span('wrong', 'checks wrong, not delivered');
  const packet = decodedPacket(p);
  if (!packet.from) return packet.info;
  return [el('b', {}, packet.kind), ` ${packet.info}`, el('br'), span('dim', `${packet.from} → ${packet.to}`)];
}

// Whether the frame check sequence is right. Where most packets of a customer have one, one without is wrong.
function fcsOf(p) {
  const {check, of} = line.packets;
  if (check[p] === REFUSED_CHECK) return '';
  if (check[p] === RIGHT_CHECK) return mark(true);
  return hasFcs(of[p]) ? mark(false) : span('dim', 'none');
}

const fcsKnown = new Map();

function hasFcs(customer) {
  if (!fcsKnown.has(customer)) {
    const {check, of} = line.packets;
    let right = 0, all = 0;
    for (let p = 0; p < of.length; p++) {
      if (of[p] === customer && check[p] !== REFUSED_CHECK) {
        all++;
        right += check[p] === RIGHT_CHECK;
      }
    }
    fcsKnown.set(customer, 2 * right > all);
  }
  return fcsKnown.get(customer);
}

// Chooses a packet, and the turn that it ended in; the list stays where it is if `stay` says so.
function goPacket(p, stay = false) {
  state.packet = p;
  packetView.from = stay ? packetView.shown : null;
  const t = line.tributaries[line.packets.of[p]], i = line.packets.turn[p] - 1;
  state.tributary = t.number;
  if (i !== state.turn) {
    packetView.turn = i;
    goTurn(i, t.message);
  } else {
    changed();
  }
}

function drawPacket() {
  const p = state.packet;
  if (p < 0) {
    $('packet').replaceChildren();
    return;
  }
  const {turn, of, length, kept, check} = line.packets, t = line.tributaries[of[p]];
  const part = kept[p] < length[p] && check[p] !== REFUSED_CHECK ? `, the first ${kept[p]} bytes` : '';
  const place = `ended in turn ${turn[p]}, ${nameOf(t)}${part}`;
  const heads = check[p] === REFUSED_CHECK ? [] : decodedPacket(p).heads;
  $('packet').replaceChildren(el('h3', {},
                                check[p] === REFUSED_CHECK ? `GFP frame of ${grouped(length[p])} bytes `
                                                           : `Packet of ${grouped(length[p])} bytes `,
                                span('dim', place)),
    ...heads.map(([name, text]) => el('p', {}, el('b', {}, name), ` ${text}`)),
    ...(kept[p] ? [el('pre', {class: 'mono', tabindex: 0, 'aria-label': 'Bytes of the packet'}, dump(packetBytes(p)))]
                : []));
}
