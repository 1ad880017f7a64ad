// What happened, in the order of turns; a click goes to the turn, its slot and its customer.

const MOST_ROWS = 400;
const eventView = {
  alarms: true
};

function makeEvents() {
  const box = el(
    'input', {type: 'checkbox', id: 'alarms', checked: true, on: {change: event => setEvents(event.target.checked)}});
  return [
    el('div', {class: 'bar'}, el('label', {}, box, ' alarms alone'), span('push'),
      span('dim', el('span', {id: 'event-count'}))),
    el('div', {class: 'list'}, el('table', {id: 'events'}))
  ];
}

function setEvents(alarms) {
  eventView.alarms = alarms;
  changed();
}

// The words of an event: all of it, or what otn_view tells.
const eventWords = event => (state.proved ? event.told : event.what);
const eventWho = event => (event.tributary < 0 ? event.who : nameOf(line.tributaries[event.tributary]));

// The events that are listed, as numbers in the list of all.
const eventList = () =>
  line.events.map((_, x) => x).filter(x => eventWords(line.events[x]) && (line.events[x].alarm || !eventView.alarms));

function drawEvents() {
  const list = eventList(), here = list.findIndex(x => line.events[x].turn >= state.turn);
  const from = clamp((here < 0 ? list.length : here) - MOST_ROWS / 2, 0, Math.max(0, list.length - MOST_ROWS));
  const shown = list.slice(from, from + MOST_ROWS);
  const words = [count(list.length, eventView.alarms ? 'alarm' : 'event')];
  if (shown.length < list.length) words.push(`${shown.length} about this turn are shown`);
  if (line.events.length < about.events)
    words.push(`the first ${grouped(line.events.length)} of ${grouped(about.events)} events are in the page`);
  $('event-count').textContent = words.join(', ');
  keepFocus($('events'), () => fill($('events'), 'Alarms and events', ['turn', 'who', 'what'], shown.map(eventRow)));
  const box = $('events').parentElement;
  intoSight(box, box.querySelector('tr.on'));
}

function eventRow(x) {
  const event = line.events[x], t = line.tributaries[event.tributary];
  return el('tr', {'data-i': x, class: event.turn === state.turn ? 'on' : ''}, el('td', {}, grouped(event.turn + 1)),
    el('td', {}, t ? swatch(t.colour) : null, eventWho(event)),
    el('td', {class: 'wrap'}, span(event.alarm ? 'bad' : 'good', eventWords(event))));
}

function goEvent(x) {
  const event = line.events[x];
  if (event.tributary >= 0) {
    state.tributary = event.tributary;
    state.what = null;
  }
  goTurn(event.turn, event.slot || wrongPlace(event.turn));
}

// The place in the multiframe of the first frame of a turn in which something is wrong, from 1.
function wrongPlace(i) {
  const turn = turnOf(i);
  for (let f = turn.start + turn.lead; f < turn.start + turn.used; f++) {
    const frame = frameOf(f);
    if (!frame.fas || frame.sm === false || frame.pm === false ||
      (frame.wanted !== null && frame.mfas !== frame.wanted)) {
      return f - turn.start - turn.lead + 1;
    }
  }
  return 1;
}
