// The customers, each with its way from site to site; and the same as CSV.

const HEADS = ['customer', 'kind', 'slots', 'way', 'turns'];

function drawCustomers() {
  keepFocus(
    $('customers'), () => fill($('customers'), 'Customers and their ways', HEADS, net.customers.map(customerRow)));
}

const firstSlots = c => (c.hops.find(hop => hop.slots.length) || {slots: []}).slots;
const troubleOf = c => c.hops.flatMap(hop => hop.trouble.map(text => `${hop.node}: ${text}`));

// The sites of a way, one after the other.
function wayOf(c) {
  return c.hops.map(hop => siteName(hop.node)).filter((site, x, all) => x === 0 || site !== all[x - 1]);
}

function customerRow(c, x) {
  const kind =
    [chosenBase() === c.base ? 'on' : '', customerBelongs(c.base) ? '' : 'away-row'].filter(Boolean).join(' ');
  const name = c.names.join(' / ');
  return el('tr', {'data-i': x, class: kind}, el('td', {}, tinted(span('swatch hue'), c.base), el('b', {}, name)),
    el('td', {}, c.kind), el('td', {}, slotsText(firstSlots(c))),
    el('td', {class: 'wrap'}, wayOf(c).join(' › '), troubleOf(c).map(t => el('div', {class: 'bad'}, t))),
    el('td', {}, `${c.delay}`));
}

function customersCsv() {
  const rows =
    [['customer', 'kind', 'slots of the first fibre', 'way', 'nodes', 'turns from end to end', 'does not meet']];
  for (const c of net.customers) {
    rows.push([
      c.names.join(' / '), c.kind, firstSlots(c).join(' '), wayOf(c).join(' > '),
      c.hops.map(hop => hop.node).join(' > '), c.delay, troubleOf(c).join('; ')
    ]);
  }
  return csv(rows);
}
