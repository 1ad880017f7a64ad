// The page of a network: its head, what is chosen, the search, and its beginning.

function choose(what) {
  for (const key of Object.keys(chosen)) delete chosen[key];
  Object.assign(chosen, what);
  draw();
  const words = new URLSearchParams(chosen.kind ? chosen : {});
  history.replaceState(null, '', `#${words}`);
}

function draw() {
  drawMap();
  drawFibres();
  drawCustomers();
  drawChosen();
}

function drawHead() {
  const taken = net.fibres.reduce((sum, f) => sum + loadOf(f), 0),
        all = net.fibres.reduce((sum, f) => sum + f.slots, 0);
  const nodes = net.sites.reduce((sum, site) => sum + site.nodes.length, 0), bad = troubles();
  $('name').textContent = `${count(net.sites.length, 'site')}, ${count(bases.length, 'customer')}`;
  $('form').textContent =
    `${count(nodes, 'node')}, ${count(net.fibres.length, 'fibre')}, ${taken} of ${all} slots taken` +
    `${all ? ` (${Math.round(100 * taken / all)} %)` : ''}. ${bad.length ? '' : 'All plans meet.'}`;
  $('trouble').hidden = bad.length === 0;
  $('trouble-name').textContent = `What does not meet: ${bad.length}`;
  $('trouble-list')
    .replaceChildren(...bad.slice(0, 50).map(text => el('li', {}, text)),
      ...(bad.length > 50 ? [el('li', {}, `${bad.length - 50} more`)] : []));
  $('sources').replaceChildren(
    ...net.sources.map(source => el('p', {}, source)),
    el('p', {}, 'No line was looked at.'),
    el('p', {}, 'otn check refuses a plan in which two connections have a slot of a line in one turn (rule 11). ',
      'That no customer changes another on a line is proved of each node: docs/PROMISES.md.'));
}

// ---- the search

const search = {
  words: '',
  hits: [],
  at: -1
};

function find(text) {
  const words = text.trim().toLowerCase();
  if (words !== search.words) {
    const has = name => name.toLowerCase().includes(words);
    const customers = bases.filter(has).map(base => ({what: `customer ${base}`, is: {kind: 'customer', base}}));
    const sites = net.sites.map(
      (site, x) =>
        ({what: `site ${site.name}`, is: {kind: 'site', site: x}, has: [site.name, ...site.nodes].some(has)}));
    Object.assign(search, {words, at: -1, hits: words ? [...customers, ...sites.filter(s => s.has)] : []});
  }
  const {hits} = search;
  $('found').className = hits.length || !words ? 'dim' : 'bad';
  $('found').textContent = hits.length || !words ? '' : `nothing has “${text.trim()}”`;
  if (!hits.length) return false;
  search.at = (search.at + 1) % hits.length;
  choose(hits[search.at].is);
  $('found').textContent = `${search.at + 1} of ${hits.length}: ${hits[search.at].what}`;
  return true;
}

// ---- the beginning

function listen() {
  fibresKeys();
  picking($('customers'), x => choose({kind: 'customer', base: net.customers[x].base}));
  $('fibres-csv').addEventListener('click', () => save('fibres.csv', fibresCsv()));
  $('customers-csv').addEventListener('click', () => save('customers.csv', customersCsv()));
  $('search').addEventListener('submit', event => event.preventDefault());
  $('find').addEventListener('keydown', event => {
    if (event.key === 'Enter') find(event.target.value);
    if (event.key === 'Escape') $('find').blur();
  });
  window.addEventListener('keydown', event => {
    if (event.ctrlKey || event.altKey || event.metaKey || event.target.tagName === 'INPUT') return;
    if (event.key === 'Escape') choose({kind: null});
    if (event.key !== '/') return;
    event.preventDefault();
    $('find').focus();
  });
}

// What the address says is chosen.
function fromAddress() {
  const words = new URLSearchParams(location.hash.slice(1)), kind = words.get('kind'), fibre = +words.get('fibre'),
        slot = +words.get('slot');
  const f = net.fibres[fibre];
  if (kind === 'customer' && bases.includes(words.get('base'))) return {kind, base: words.get('base')};
  if (kind === 'site' && net.sites[+words.get('site')]) return {kind, site: +words.get('site')};
  if (kind === 'fibre' && f) return {kind, fibre};
  if (kind === 'slot' && f && f.rows[slot - 1]) return {kind, fibre, slot};
  return {kind: null};
}

drawHead();
drawLegend();
themes($('theme'), draw);
listen();
choose(fromAddress());
window.otn = {
  ready: performance.now(),
  net,
  chosen,
  choose,
  find,
  fibresCsv,
  customersCsv,
  loadOf,
  troubles,
  slotsOn
};
