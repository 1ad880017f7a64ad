// The map: sites with their names, and each fibre as a line of its load, beside that of the other way.

const MARGIN = 12, TALL = 30, APART = 9;

const siteWidth = site => Math.max(44, 9.5 * site.name.length + 16);
const widest = Math.max(...net.sites.map(siteWidth));
const unit = widest + 46;  // the length of a fibre: room for its load beside the sites
const placeOf = x => [net.sites[x].x * unit, net.sites[x].y * unit];

function drawMap() {
  const map = $('map'), xs = net.sites.map((_, x) => placeOf(x));
  const [left, right] = [Math.min(...xs.map(p => p[0])), Math.max(...xs.map(p => p[0]))];
  const [top, bottom] = [Math.min(...xs.map(p => p[1])), Math.max(...xs.map(p => p[1]))];
  const [aside, above] =
    [widest / 2 + MARGIN, TALL / 2 + MARGIN + (net.fibres.some((f, x) => runOf(f, x).loop) ? 50 : 0)];
  map.setAttribute('viewBox', `${left - aside} ${top - above} ${right - left + 2 * aside} ${bottom - top + 2 * above}`);
  const lines = net.fibres.map((f, x) => drawFibre(f, x));
  map.replaceChildren(
    ...lines.map(l => l[0]), ...lines.map(l => l[1]), ...net.sites.map((site, x) => drawSite(site, x)));
}

// Where a fibre runs: beside the middle line of its two sites, to the right of its way, each further one further out.
function runOf(f, x) {
  const [a, b] = [siteIndex.get(f.a), siteIndex.get(f.b)],
            before = net.fibres.slice(0, x).filter(g => siteIndex.get(g.a) === a && siteIndex.get(g.b) === b).length;
  const [x1, y1] = placeOf(a), [x2, y2] = placeOf(b), long = Math.hypot(x2 - x1, y2 - y1) || 1;
  const aside = APART * (before + .5), nx = -(y2 - y1) / long * aside, ny = (x2 - x1) / long * aside;
  return {x1: x1 + nx, y1: y1 + ny, x2: x2 + nx, y2: y2 + ny, nx: nx / aside, ny: ny / aside, loop: a === b, before};
}

function drawFibre(f, x) {
  const run = runOf(f, x), load = loadOf(f), base = chosenBase(), mine = base && belongs(x);
  const bad = mine ? f.rows.flat().some(e => entryBase(e) === base && !e.meets) : fibreTroubled(f);
  const kind = bad ? 'trouble' : mine ? 'mine' : loadWord(f);
  const d = run.loop ? `M${run.x1 - 12} ${run.y1 - 12}c-30 ${- 44 - 10 * run.before} 54 ${- 44 - 10 * run.before} 24 0`
                     : `M${run.x1} ${run.y1}L${run.x2} ${run.y2}`;
  const away = belongs(x) ? '' : ' away', width = 2.5 + 4 * load / f.slots;
  const line = svg('path', {d, fill: 'none', class: `fibre ${kind}${away}`, 'stroke-width': width});
  if (mine) tinted(line, base);
  const label = svg('text', {
    class: `load${away}`,
    x: run.loop ? run.x1 : run.x1 + (run.x2 - run.x1) * .42 + run.nx * 11,
    y: run.loop ? run.y1 - 48 : run.y1 + (run.y2 - run.y1) * .42 + run.ny * 11
  },
    `${load}/${f.slots}`);
  const hit = svg('path',
    {d, class: 'hit', tabindex: 0, role: 'button', 'aria-label': `${fibreName(f)}: ${load} of ${f.slots} slots taken`});
  hit.append(
    svg('title', {}, `${fibreName(f)}: ${load} of ${f.slots} slots taken${f.trouble.map(t => `; ${t}`).join('')}`));
  pressed(hit, () => choose({kind: 'fibre', fibre: x}));
  return [svg('g', {}, line, hit), label];
}

function drawSite(site, x) {
  const [px, py] = placeOf(x), wide = siteWidth(site);
  const on = chosen.kind === 'site' && chosen.site === x;
  const group = svg('g', {
    class: `site${on ? ' on' : ''}`,
    tabindex: 0,
    role: 'button',
    'aria-label': `Site ${site.name}: ${count(site.nodes.length, 'node')}`
  },
    svg('rect', {x: px - wide / 2, y: py - TALL / 2, width: wide, height: TALL, rx: 9}),
    svg('text', {x: px, y: py + .5}, site.name), svg('title', {}, site.nodes.join(', ')));
  pressed(group, () => choose({kind: 'site', site: x}));
  return group;
}

// A click, Enter or the space bar.
function pressed(node, call) {
  node.addEventListener('click', call);
  node.addEventListener('keydown', event => {
    if (event.key !== 'Enter' && event.key !== ' ') return;
    event.preventDefault();
    call();
  });
}

function drawLegend() {
  const key = (kind, words) => span('', el('i', {class: kind}), words);
  $('legend').replaceChildren(key('none', 'unused'), key('some', 'up to 70 %'), key('much', 'more'),
    key('full', 'full'), key('bad-line', 'does not meet'), span('', '6/8: slots taken'));
}
