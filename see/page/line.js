// The page of a line: its tabs, its buttons, and its beginning.

tab('customers', 'Customers', makeCustomers, drawCustomers);
tab('packets', 'Packets', makePackets, drawPackets);
tab('events', 'Alarms', makeEvents, drawEvents);
tab('gmp', 'GMP', makeGmp, drawGmp);
tab('turns', 'Numbers', makeTurns, drawTurns);

function redraw() {
  drawLegend();
  changed();
}

function buttons() {
  $('turn-before').addEventListener('click', () => goTurn(state.turn - 1));
  $('turn-next').addEventListener('click', () => goTurn(state.turn + 1));
  $('alarm-before').addEventListener('click', () => goAlarm(-1));
  $('alarm-next').addEventListener('click', () => goAlarm(1));
  $('help').addEventListener('click', () => $('keys').showModal());
  $('proved').addEventListener('change', event => setProved(event.target.checked));
  picking($('frames'), goFrame);
  picking($('packets'), p => goPacket(p, true));
  picking($('events'), goEvent);
  picking($('customers'), goTributary);
  picking($('turns'), i => goTurn(i));
  $('groups').addEventListener('pointermove', pointGroup);
  $('groups').addEventListener('click', pointGroup);
  $('numbers').addEventListener('click', numbersClick);
}

function setProved(on) {
  state.proved = on;
  document.body.classList.toggle('proved', on);
  $('proved').checked = on;
  drawHead();
  redraw();
}

async function start() {
  readLine(await unpack());
  countWrong();
  document.title = `${about.file} - otn`;
  makeTabs();
  themes($('theme'), redraw);
  buttons();
  keys();
  pointers();
  [drawLine, drawTurn, drawFrame, drawTabs].forEach(watch);
  begin();
  setProved(state.proved);
  window.addEventListener('resize', redraw);
  window.otn = {
    ready: performance.now(),
    about,
    line,
    state,
    turnOf,
    turnNumbers,
    msiNumbers,
    heardOf,
    overhead,
    frameOf,
    packetBytes,
    isData,
    find,
    goTurn,
    goFrame,
    setProved
  };
}

start().catch(fault => {
  document.body.prepend(
    el('p', {class: 'notice'}, `The page can't be shown: ${fault.message}. It wants a browser of 2024 or later.`));
  throw fault;
});
