// The keys of the page.

const KEYS = [
  [
    '← →', 'turn before, next turn', {ArrowLeft: () => goTurn(state.turn - 1), ArrowRight: () => goTurn(state.turn + 1)}
  ],
  [
    '↑ ↓', 'frame before, next frame',
    {ArrowUp: () => goFrame(state.frame - 1), ArrowDown: () => goFrame(state.frame + 1)}
  ],
  ['Page up, page down', 'ten turns', {PageUp: () => goTurn(state.turn - 10), PageDown: () => goTurn(state.turn + 10)}],
  ['Home, End', 'first turn, last turn', {Home: () => goTurn(0), End: () => goTurn(line.turns - 1)}],
  ['[ ]', 'alarm before, next alarm', {'[': () => goAlarm(-1), ']': () => goAlarm(1)}],
  [
    '+ −', 'larger, smaller',
    {'+': () => zoom(state.turn + .5, .7), '=': () => zoom(state.turn + .5, .7), '-': () => zoom(state.turn + .5, 1.4)}
  ],
  ['0', 'the whole line', {0: showAll}],
  ['/', 'search', {'/': () => $('find').focus()}],
  ['?', 'these keys', {'?': () => $('keys').showModal()}],
];

function showAll() {
  setPart(0, line.turns);
  changed();
}

function keys() {
  $('key-list').replaceChildren(...KEYS.map(([key,
    what]) => el('tr', {}, el('th', {scope: 'row'}, key), el('td', {}, what))));
  window.addEventListener('keydown', event => {
    if (event.ctrlKey || event.altKey || event.metaKey || $('keys').open) return;
    if (/^(INPUT|SELECT|TEXTAREA)$/.test(event.target.tagName)) return;
    const entry = KEYS.find(([, , calls]) => event.key in calls);
    if (!entry) return;
    event.preventDefault();
    entry[2][event.key]();
  });
  $('find').addEventListener('keydown', event => {
    if (event.key === 'Escape') $('find').blur();
  });
  $('search').addEventListener('submit', event => event.preventDefault());
  $('find').addEventListener('keydown', event => {
    if (event.key !== 'Enter') return;
    event.preventDefault();
    find(event.target.value, event.shiftKey ? -1 : 1);
  });
}
