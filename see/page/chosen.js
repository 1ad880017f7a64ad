// What is chosen, in words: a customer's way and who shares its fibres, a fibre or a slot and who is on it, a site.

function drawChosen() {
  const parts = {
    customer: () => customerWords(chosen.base),
    fibre: () => fibreWords(chosen.fibre),
    slot: () => slotWords(chosen.fibre, chosen.slot),
    site: () => siteWords(chosen.site)
  }[chosen.kind];
  const close = el(
    'button', {type: 'button', class: 'plain', title: 'Key: Escape', on: {click: () => choose({kind: null})}}, 'none');
  $('chosen').replaceChildren(
    ...(parts ? [el('div', {class: 'bar'}, el('h2', {}, chosenTitle()), span('push'), close), ...parts()]
              : [el('p', {class: 'dim'}, 'Click on a customer, a slot, a fibre or a site.')]));
}

function chosenTitle() {
  if (chosen.kind === 'customer') return [tinted(span('swatch hue'), chosen.base), chosen.base];
  if (chosen.kind === 'site') return `Site ${net.sites[chosen.site].name}`;
  const f = net.fibres[chosen.fibre];
  return chosen.kind === 'slot' ? `${fibreName(f)}, slot ${chosen.slot}` : fibreName(f);
}

function table(heads, rows) {
  return el('table', {}, el('thead', {}, el('tr', {}, heads.map(h => el('th', {scope: 'col'}, h)))),
    el('tbody', {}, rows.map(row => el('tr', {}, row.map(cell => el('td', {}, cell))))));
}

const link = (words, what) => el('button', {type: 'button', class: 'plain', on: {click: () => choose(what)}}, words);
const customerLink = base => link(base, {kind: 'customer', base});

// ---- a customer

function customerWords(base) {
  return [...customersOf(base).flatMap(wayWords), ...sharedWords(base)];
}

function wayWords(c) {
  const when = hop => (hop.whole ? '' : ` (turns ${hop.start} to ${hop.stop})`);
  const bad = hop => hop.trouble.map(text => el('div', {class: 'bad'}, text));
  const rows = c.hops.map(hop => [hop.node, hop.from, [`${hop.to}${when(hop)}`, bad(hop)]]);
  return [
    el('h3', {}, c.names.join(' / ')),
    el('p', {}, `${c.kind}, ${count(c.delay, 'turn')} from end to end: `, el('b', {}, wayOf(c).join(' › '))),
    el('details', {open: troubleOf(c).length > 0}, el('summary', {}, 'by nodes'), table(['node', 'from', 'to'], rows))
  ];
}

// Who else is on each of its fibres, and in which slots they are apart.
function sharedWords(base) {
  const fibres = fibresOf(base), others = new Set();
  const rows = fibres.map(x => {
    const f = net.fibres[x], on = othersOn(f, base);
    on.forEach(([other]) => others.add(other));
    const words = on.flatMap(([other, slots]) => [customerLink(other), ` ${slotsText(slots)}; `]);
    return [
      link(`${f.a} → ${f.b}`, {kind: 'fibre', fibre: x}), slotsText(slotsOn(f, base)), words.length ? words : 'none'
    ];
  });
  const apart = fibres.every(x => othersOn(net.fibres[x],
                               base).every(([, slots]) => !slots.some(k => slotsOn(net.fibres[x], base).includes(k))));
  const sum = others.size === 0 ? 'It shares no fibre with another customer.'
                                : `It shares fibres with ${count(others.size, 'other customer')}${
                                    apart ? ', and no slot' : '; a slot of it is also another\'s, in other turns'}.`;
  return [el('h3', {}, sum), table(['fibre', 'its slots', 'slots of others'], rows)];
}

// The other customers on a fibre, each with its slots.
function othersOn(f, base) {
  const on = new Set(f.rows.flatMap(putIn).map(entryBase));
  on.delete(base);
  return [...on].map(other => [other, slotsOn(f, other)]);
}

// ---- a fibre, a slot, a site

function fibreWords(x) {
  const f = net.fibres[x], on = new Set(f.rows.flat().map(entryBase));
  const rows = [...on].map(base => [customerLink(base), slotsText(slotsOn(f, base)) || '–',
                             customersOf(base).map(c => wayOf(c).join(' › ')).join(' · ')]);
  const kind = `OTU${f.slots === 8 ? 2 : 3}${f.scrambled ? ', scrambled' : ''}: ${loadOf(f)} of ${
    f.slots} slots taken, ${f.slots - loadOf(f)} free`;
  return [
    el('p', {}, kind), ...troubleOn(f),
    rows.length ? table(['customer', 'slots', 'way'], rows) : el('p', {}, 'Nobody is on it.')
  ];
}

function troubleOn(f) {
  const unmet =
    f.rows.flatMap((row, x) => row.filter(e => !e.meets)
                                 .map(e => (e.how === 'put' ? `slot ${x + 1}: ${e.name} is put, and not taken so`
                                                            : `slot ${x + 1}: ${e.name} is taken, and not put so`)));
  return [...f.trouble, ...unmet].map(text => el('p', {class: 'bad'}, text));
}

function slotWords(x, k) {
  const row = net.fibres[x].rows[k - 1];
  if (!row.length) return [el('p', {}, 'The slot is free.')];
  const words = row.map(e => el('p', {class: e.meets ? null : 'bad'},
                          `${e.name}${turnsText(e)}${e.meets ? '' : `: ${e.how}, and does not meet`}`));
  return [...words, ...new Set(row.map(entryBase))].flatMap(
    part => (typeof part === 'string' ? customerWords(part) : [part]));
}

function siteWords(x) {
  const site = net.sites[x],
        here = bases.filter(base => customersOf(base).some(c => c.hops.some(hop => siteIndex.get(hop.node) === x)));
  const ends = here.filter(base => customersOf(base).some(c => siteIndex.get(c.hops[0].node) === x ||
                               siteIndex.get(c.hops[c.hops.length - 1].node) === x));
  const list = names => (names.length ? names.map(customerLink) : ['none']);
  return [
    el('p', {}, `Nodes: ${site.nodes.join(', ')}`), el('h3', {}, 'Customers that begin or end here'),
    el('p', {}, list(ends)), el('h3', {}, 'Customers that pass'),
    el('p', {}, list(here.filter(base => !ends.includes(base))))
  ];
}
