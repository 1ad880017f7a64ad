// The network: its sites, fibres and customers as the script gave them, and what belongs together.

const net = JSON.parse($('about').textContent);
const chosen = {
  kind: null
};  // customer (base), fibre (fibre), slot (fibre, slot), site (site)
const bases = [...new Set(net.customers.map(c => c.base))];
const hueOf = base => Math.round(bases.indexOf(base) * 137.508 % 360);
const siteIndex = new Map(net.sites.flatMap((site, x) => site.nodes.map(node => [node, x])));
const siteName = node => net.sites[siteIndex.get(node)].name;

const customersOf = base => net.customers.filter(c => c.base === base);
const fibreName = f => `${f.a} line ${f.out} → ${f.b} line ${f.in}`;
const putIn = row => row.filter(entry => entry.how === 'put');
const loadOf = f => f.rows.filter(row => putIn(row).length > 0).length;

// How full a fibre is, as a word of the drawing.
function loadWord(f) {
  const part = loadOf(f) / f.slots;
  return part === 0 ? 'none' : part === 1 ? 'full' : part > .7 ? 'much' : 'some';
}

const entryBase = entry => net.customers[entry.customer].base;
const turnsText = entry => (entry.whole ? '' : `, turns ${entry.start} to ${entry.stop}`);

// The slots that a customer has on a fibre, by either of its names.
const slotsOn = (f, base) => f.rows.flatMap((row, x) => (putIn(row).some(e => entryBase(e) === base) ? [x + 1] : []));

// Slots in words: 1–3, 5.
function slotsText(slots) {
  const parts = [];
  for (const k of slots) {
    const last = parts[parts.length - 1];
    if (last && last[1] === k - 1)
      last[1] = k;
    else
      parts.push([k, k]);
  }
  return parts.map(([a, b]) => (a === b ? `${a}` : b === a + 1 ? `${a}, ${b}` : `${a}–${b}`)).join(', ');
}

// The fibres that a customer goes over, as numbers.
const fibresOf = base => net.fibres.map((_, x) => x).filter(x => slotsOn(net.fibres[x], base).length > 0);

// All that does not meet, and why.
function troubles() {
  const ways =
    net.customers.flatMap(c => c.hops.flatMap(hop => hop.trouble.map(text => `${hop.node}: ${hop.name}: ${text}`)));
  return [...ways, ...net.fibres.flatMap(f => f.trouble.map(text => `${fibreName(f)}: ${text}`))];
}

const fibreTroubled = f => f.trouble.length > 0 || f.rows.some(row => row.some(entry => !entry.meets));

// The customer that is chosen, also by one of its slots, or null.
function chosenBase() {
  if (chosen.kind === 'customer') return chosen.base;
  if (chosen.kind !== 'slot') return null;
  const entry = net.fibres[chosen.fibre].rows[chosen.slot - 1][0];
  return entry ? entryBase(entry) : null;
}

// Whether a fibre belongs to what is chosen; all do where nothing is.
function belongs(x) {
  const base = chosenBase(), f = net.fibres[x];
  if (base) return slotsOn(f, base).length > 0;
  if (chosen.kind === 'site') return siteIndex.get(f.a) === chosen.site || siteIndex.get(f.b) === chosen.site;
  return chosen.kind === null || chosen.fibre === x;
}

// Whether a customer does.
function customerBelongs(base) {
  const own = chosenBase();
  if (own) return base === own;
  if (chosen.kind === 'site')
    return customersOf(base).some(c => c.hops.some(hop => siteIndex.get(hop.node) === chosen.site));
  return chosen.kind === null || slotsOn(net.fibres[chosen.fibre], base).length > 0;
}

function tinted(node, base) {
  node.style.setProperty('--hue', hueOf(base));
  return node;
}
