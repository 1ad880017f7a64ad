// The tabs at the right, each with a pane that is drawn while it is shown.

const TABS = [];

// A tab: the word of its address, its name, a pane made once, and what draws it.
function tab(name, title, make, draw) {
  TABS.push({name, title, make, draw});
}

function makeTabs() {
  for (const {name, title, make} of TABS) {
    const button =
      el('button', {type: 'button', role: 'tab', id: `tab-${name}`, 'aria-controls': `pane-${name}`}, title);
    button.addEventListener('click', () => showTab(name));
    $('tabs').append(button);
    $('panes').append(el('div',
      {class: 'pane', id: `pane-${name}`, role: 'tabpanel', 'aria-labelledby': `tab-${name}`, hidden: true}, make()));
  }
  $('tabs').addEventListener('keydown', event => {
    const here = TABS.findIndex(t => t.name === state.tab), last = TABS.length - 1;
    const next = {ArrowRight: here === last ? 0 : here + 1,
      ArrowLeft: here === 0 ? last : here - 1,
      Home: 0,
      End: last}[event.key];
    if (next === undefined) return;
    event.preventDefault();
    event.stopPropagation();
    showTab(TABS[next].name);
    $(`tab-${TABS[next].name}`).focus();
  });
}

function showTab(name) {
  state.tab = name;
  changed();
}

function drawTabs() {
  for (const {name, draw} of TABS) {
    const on = name === state.tab, button = $(`tab-${name}`);
    button.setAttribute('aria-selected', on);
    button.tabIndex = on ? 0 : -1;
    $(`pane-${name}`).hidden = !on;
    if (on) draw();
  }
}

// A choice among customers, for panes; -1 is all of them.
function customerChoice(id, all, choose) {
  const options =
    line.tributaries.map(t => el('option', {value: t.number}, `${nameOf(t)} (port ${t.port}, ${slotsOf(t)})`));
  const select = el('select', {id, 'aria-label': 'Customer', on: {change: event => choose(+event.target.value)}});
  if (all) select.append(el('option', {value: -1}, 'all customers'));
  select.append(...options);
  return select;
}
