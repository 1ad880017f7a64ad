// What is chosen: a turn, a frame, a customer, a packet, the part of the line that is shown, and whether only proved
// numbers are. Parts of the page draw themselves anew when it changes; the address of the page keeps it.

const state = {
  turn: 0,
  frame: 0,
  tributary: 0,
  packet: -1,
  from: 0,
  to: 1,
  tab: 'customers',
  what: null,
  proved: false
};
const watchers = [];

// Calls `draw` whenever something is chosen.
const watch = draw => watchers.push(draw);

function changed() {
  watchers.forEach(draw => draw());
  keepAddress();
}

// Chooses a turn; of its frames that of the slot, or its first.
function goTurn(i, slot = 1) {
  state.turn = clamp(i, 0, line.turns - 1);
  const turn = turnOf(state.turn);
  state.frame = turn.start + clamp(turn.lead + slot - 1, 0, Math.max(0, turn.used - 1));
  showTurn();
  changed();
  speak(turnSpoken());
}

function goFrame(f) {
  const frame = clamp(f, 0, line.frames - 1);
  if (line.frames === 0 || line.frameTurn[frame] < 0) return;
  state.frame = frame;
  state.turn = Math.min(line.frameTurn[frame], line.turns - 1);
  const {tributary} = frameOf(frame).message;
  if (tributary) state.tributary = tributary.number;
  showTurn();
  changed();
  speak(`frame ${frame}, MFAS ${overhead(frame, 1, 7)}, turn ${state.turn + 1}`);
}

function goTributary(number) {
  state.tributary = number;
  state.what = null;
  changed();
}

// Moves the part that is shown so that the turn is in it.
function showTurn() {
  const span = state.to - state.from;
  if (state.turn < state.from || state.turn + 1 > state.to) setPart(state.turn + .5 - span / 2, span);
}

// The part of the line that is shown: the first turn, and how many.
function setPart(from, span) {
  const turns = clamp(span, Math.min(1, line.turns), line.turns);
  state.from = clamp(from, 0, line.turns - turns);
  state.to = state.from + turns;
}

// Makes the part larger or smaller about a turn.
function zoom(middle, by) {
  const span = state.to - state.from, next = clamp(span * by, Math.min(1, line.turns), line.turns);
  setPart(middle - (middle - state.from) / span * next, next);
  changed();
}

const alarmTurns = () => [...new Set(line.events.filter(e => e.alarm).map(e => e.turn))].sort((a, b) => a - b);

function goAlarm(way) {
  const turns = alarmTurns();
  const next = way > 0 ? turns.find(i => i > state.turn) : turns.reverse().find(i => i < state.turn);
  if (next !== undefined) goTurn(next);
}

// ---- the address

let waiting = 0;

function keepAddress() {
  clearTimeout(waiting);
  waiting = setTimeout(() => {
    const words = {turn: state.turn + 1, frame: state.frame, tab: state.tab, customer: state.tributary};
    if (state.to - state.from < line.turns)
      Object.assign(words, {from: state.from.toFixed(1), to: state.to.toFixed(1)});
    if (state.packet >= 0) words.packet = state.packet;
    if (state.proved) words.proved = 1;
    history.replaceState(null, '', `#${new URLSearchParams(words)}`);
  }, 200);
}

// What the address says; else the first alarm, or a turn near the beginning.
function begin() {
  const words = new URLSearchParams(location.hash.slice(1)), number = name => +words.get(name);
  setPart(0, line.turns);
  if (words.has('to')) setPart(number('from') || 0, (number('to') || line.turns) - (number('from') || 0));
  if (TABS.some(tab => tab.name === words.get('tab'))) state.tab = words.get('tab');
  state.tributary = clamp(number('customer') || 0, 0, Math.max(0, line.tributaries.length - 1));
  state.packet = words.has('packet') ? clamp(number('packet') || 0, -1, line.packets.count - 1) : -1;
  state.proved = words.has('proved');
  const alarm = line.events.find(e => e.alarm);
  if (words.has('turn'))
    goTurn((number('turn') || 1) - 1);
  else if (alarm)
    goEvent(line.events.indexOf(alarm));
  else
    goTurn(2);
  if (words.has('frame')) goFrame(number('frame') || 0);
}
