// What both pages share: elements, which take text as text, numbers in words, colours, a tip, tables for keys.

const $ = id => document.getElementById(id);

// An element with attributes and children: texts or elements. `on` has its listeners, `paint` its background.
function el(name, attributes = {}, ...children) {
  const node = document.createElement(name);
  for (const [key, value] of Object.entries(attributes)) {
    if (key === 'on')
      Object.entries(value).forEach(([event, call]) => node.addEventListener(event, call));
    else if (key === 'paint')
      node.style.background = value;
    else if (value === true)
      node.setAttribute(key, '');
    else if (value !== false && value !== null && value !== undefined)
      node.setAttribute(key, value);
  }
  node.append(...children.flat(9).filter(child => child !== null && child !== undefined));
  return node;
}

function svg(name, attributes = {}, ...children) {
  const node = document.createElementNS('http://www.w3.org/2000/svg', name);
  for (const [key, value] of Object.entries(attributes)) node.setAttribute(key, value);
  node.append(...children.flat());
  return node;
}

const span = (kind, ...children) => el('span', {class: kind}, ...children);
const swatch = colour => el('span', {class: 'swatch', paint: colour});

// ---- numbers

const hex = (value, digits = 2) => value.toString(16).toUpperCase().padStart(digits, '0');
const grouped = value => value.toLocaleString('en-US');
const count = (value, thing) => `${grouped(value)} ${thing}${value === 1 ? '' : 's'}`;

function bytesText(value) {
  if (value < 10000) return `${grouped(value)} B`;
  return value < 10000000 ? `${Math.floor(value / 1000)} kB` : `${grouped(Math.floor(value / 1000000))} MB`;
}

function clamp(value, least, most) {
  return Math.max(least, Math.min(most, value));
}

// ---- colours

const COLOURS = [
  'ink', 'dim', 'bg', 'card', 'pale', 'paler', 'grid', 'good', 'bad', 'good-fill', 'bad-fill', 'bad-pale', 'warn-fill',
  'blue', 'mark'
];
const look = {};

// Puts the page's colours into `look`, as a canvas takes them.
function readColours() {
  const probe = el('span');
  document.body.append(probe);
  for (const name of COLOURS) {
    probe.style.color = `var(--${name})`;
    look[name] = getComputedStyle(probe).color;
  }
  probe.remove();
}

// A colour as it is seen on this ground: on a dark one with some white in it.
function onGround(colour) {
  const dark = /\d+/g.exec(look.card)[0] < 128, part = dark ? .38 : 0;
  return `#${
      [1, 3, 5]
        .map(x => parseInt(colour.slice(x, x + 2), 16))
        .map(v => hex(Math.round(v + (255 - v) * part)))
        .join('')}`;
}

const THEMES = ['auto', 'light', 'dark'];

// A button goes through the themes; `redraw` is called after each change, and for paper, which is light.
function themes(button, redraw) {
  let theme = 'auto';
  const set = next => {
    document.documentElement.dataset.theme = next;
    readColours();
    redraw();
  };
  const say = () => {
    button.textContent = `colours: ${theme}`;
  };
  button.title = 'Light or dark: as the system has it, light, dark';
  button.addEventListener('click', () => {
    theme = THEMES[(THEMES.indexOf(theme) + 1) % 3];
    set(theme);
    say();
  });
  matchMedia('(prefers-color-scheme: dark)').addEventListener('change', () => set(theme));
  window.addEventListener('beforeprint', () => set('light'));
  window.addEventListener('afterprint', () => set(theme));
  say();
  readColours();
}

// A canvas of this size, clear, for drawing in CSS pixels. Answers its context.
function sheet(canvas, width, height) {
  const scale = window.devicePixelRatio || 1;
  canvas.width = Math.round(width * scale);
  canvas.height = Math.round(height * scale);
  const g = canvas.getContext('2d');
  g.setTransform(scale, 0, 0, scale, 0, 0);
  return g;
}

// The same of a canvas of the page, as wide as it is there. Answers its context and its width.
function fresh(canvas, height) {
  const width = canvas.clientWidth;
  canvas.style.height = `${height}px`;
  return [sheet(canvas, width, height), width];
}

// A drawing that is kept while nothing changes that `key` names: what is drawn once is copied from then on.
const drawings = new Map();

function drawnOnce(name, key, width, height, draw) {
  const all = [key, width, height, look.ink, window.devicePixelRatio].join(' ');
  if (!drawings.has(name) || drawings.get(name).all !== all) {
    const canvas = el('canvas');
    draw(sheet(canvas, width, height));
    drawings.set(name, {all, canvas});
  }
  return drawings.get(name).canvas;
}

// ---- what is said

function tip(event, text) {
  const box = $('tip');
  box.style.display = text ? 'block' : 'none';
  if (!text) return;
  box.textContent = text;
  box.style.left = `${Math.max(4, Math.min(event.clientX + 14, innerWidth - box.offsetWidth - 8))}px`;
  const below = event.clientY + 16;
  box.style.top = `${below + box.offsetHeight > innerHeight ? event.clientY - box.offsetHeight - 10 : below}px`;
}

function speak(text) {
  $('spoken').textContent = text;
}

// ---- tables

// A table: a caption that is read aloud, heads, and rows.
function fill(table, caption, heads, rows) {
  const head = heads.map(h => (typeof h === 'string' ? el('th', {scope: 'col'}, h) : h));
  table.replaceChildren(
    el('caption', {class: 'hidden'}, caption), el('thead', {}, el('tr', {}, head)), el('tbody', {}, rows));
}

// Rows with data-i can be clicked, and gone through by keys: pick(i) is called for each.
function picking(box, pick) {
  box.addEventListener('click', event => {
    const row = event.target.closest('[data-i]');
    if (row && box.contains(row)) pick(+row.dataset.i);
  });
  box.addEventListener('keydown', event => {
    const row = event.target.closest('[data-i]');
    if (!row) return;
    const rows = [...box.querySelectorAll('[data-i]')], here = rows.indexOf(row);
    const next =
      {ArrowDown: here + 1, ArrowUp: here - 1, Home: 0, End: rows.length - 1, Enter: here, ' ': here}[event.key];
    if (next === undefined) return;
    event.preventDefault();
    event.stopPropagation();
    const to = rows[clamp(next, 0, rows.length - 1)].dataset.i;
    pick(+to);
    const now = box.querySelector(`[data-i="${to}"]`);
    if (now) now.focus();
  });
}

// Draws a list anew, and leaves the focus in the row where it was. One row of a list can be reached by the tab key.
function keepFocus(box, redraw) {
  const was = box.contains(document.activeElement) ? document.activeElement.closest('[data-i]') : null;
  redraw();
  const rows = [...box.querySelectorAll('[data-i]')];
  rows.forEach(row => {
    row.tabIndex = -1;
  });
  const first = rows.find(row => row.classList.contains('on')) || rows[0];
  if (first) first.tabIndex = 0;
  const now = was && rows.find(row => row.dataset.i === was.dataset.i);
  if (now) now.focus({preventScroll: true});
}

// Puts the chosen row of a list that scrolls into sight.
function intoSight(list, row) {
  if (!row) return;
  const head = list.querySelector('thead');
  const top = row.offsetTop - (head ? head.offsetHeight : 0), bottom = row.offsetTop + row.offsetHeight;
  if (top < list.scrollTop || bottom > list.scrollTop + list.clientHeight) {
    list.scrollTop = Math.max(0, top - list.clientHeight / 3);
  }
}

// ---- files

// Rows of values as CSV. A value that a table program would take as a formula gets a quotation mark in front.
function csv(rows) {
  return rows
           .map(row => row
                         .map(value => {
                           let text = String(value);
                           if (/^[=+\-@\t\r]/.test(text) && !/^-?\d+(\.\d+)?$/.test(text)) text = `'${text}`;
                           return /[",\n\r]/.test(text) ? `"${text.replace(/"/g, '""')}"` : text;
                         })
                         .join(','))
           .join('\r\n') +
    '\r\n';
}

function save(name, text) {
  const link = el('a', {download: name, href: URL.createObjectURL(new Blob([text], {type: 'text/csv'}))});
  link.click();
  setTimeout(() => URL.revokeObjectURL(link.href), 10000);
}
