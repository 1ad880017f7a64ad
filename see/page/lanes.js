// The drawing of the line by turns: the whole line with its window, the multiframes, a lane for each kind of damage,
// and slots (slots.js). Where turns are narrower than a few pixels a column is of several, and shows the worst of them.

const LEFT = 92, RIGHT = 10, LANE_STEP = 11, NARROWEST = 3, FRAMES_SEEN = 90;
const LANES = [
  {name: 'FAS', told: true, of: i => turnNumber(i, 'fas')},
  {name: 'MFAS', told: false, of: i => turnNumber(i, 'mfas')},
  {name: 'SM BIP-8', told: true, of: i => turnNumber(i, 'sm')},
  {name: 'PM BIP-8', told: true, of: i => turnNumber(i, 'pm')},
  {name: 'JC', told: false, of: i => line.wrongMessages[i]},
  {name: 'MSI', told: true, of: i => line.wrongMsi[i]},
];
const FONT = '10px "DejaVu Sans", "Segoe UI", Helvetica, Arial, sans-serif';
const drawing = {
  width: 1000,
  columns: []
};

// Heights, from the top.
function heights() {
  const slot = line.slots === 8 ? 23 : 12, whole = 4, align = 24, lanes = 43;
  const slots = lanes + LANES.length * LANE_STEP + 6, axis = slots + line.slots * slot + 4;
  return {whole, align, lanes, slots, slot, axis, all: axis + 16};
}

// Of each turn: how many messages are wrong, and how many MSI bytes.
function countWrong() {
  line.wrongMessages = new Uint16Array(about.turns);
  line.wrongMsi = new Uint16Array(about.turns);
  for (let i = 0; i < about.turns; i++) {
    for (let k = 1; k <= line.slots; k++)
      if (msiWrong(k, i)) line.wrongMsi[i]++;
  }
  for (const t of line.tributaries) {
    for (let i = t.start - 1; i < t.start - 1 + t.turns; i++)
      if (messageWrong(t, i)) line.wrongMessages[i]++;
  }
}

// ---- places

const inner = () => drawing.width - LEFT - RIGHT;
const xOf = turn => LEFT + (turn - state.from) / (state.to - state.from) * inner();
const turnAt = x => Math.floor(state.from + (x - LEFT) / inner() * (state.to - state.from));
const wholeX = turn => LEFT + turn / line.turns * inner();
const wholeTurn = x => (x - LEFT) / inner() * line.turns;

// The columns that are seen: turns from one to another, and their places.
function columnsOf(from, to, place) {
  const wide = place(1) - place(0), per = Math.max(1, Math.ceil(NARROWEST / wide)), columns = [];
  for (let i = Math.floor(Math.max(0, from) / per) * per; i < Math.min(line.turns, to); i += per) {
    const end = Math.min(i + per, line.turns), x = place(i);
    columns.push({i, end, x, width: Math.max(1, place(end) - x - (wide > 5 ? 1 : 0))});
  }
  return columns;
}

function worstAlign(column) {
  let worst = 0;
  for (let i = column.i; i < column.end; i++) worst = Math.max(worst, alignCode(i));
  return about.codes.align[worst];
}

function sumOf(column, of) {
  let sum = 0;
  for (let i = column.i; i < column.end; i++) sum += of(i);
  return sum;
}

// ---- drawing

function drawLine() {
  const h = heights(), [g, width] = fresh($('line'), h.all);
  drawing.width = width;
  if (width <= LEFT + RIGHT) return;
  const key = [state.from, state.to, state.proved].join(' ');
  g.drawImage(drawnOnce('line', key, width, h.all, sheet => drawPart(sheet, h)), 0, 0, width, h.all);
  inside(g, h, () => drawChosen(g, h));
  sayChosen();
}

// All but what is chosen.
function drawPart(g, h) {
  drawing.columns = columnsOf(state.from, state.to, xOf);
  g.font = FONT;
  g.textBaseline = 'middle';
  drawWhole(g, h);
  inside(g, h, () => {
    drawAlignment(g, h);
    drawLanes(g, h);
    drawSlots(g, h);
    drawFrameLines(g, h);
  });
  drawWords(g, h);
}

// Draws below the whole line, and not beside the turns.
function inside(g, h, draw) {
  g.save();
  g.beginPath();
  g.rect(LEFT, h.align - 3, inner(), h.all);
  g.clip();
  draw();
  g.restore();
}

// The whole line, and the window of the part that is shown below.
function drawWhole(g, h) {
  g.fillStyle = look.pale;
  g.fillRect(LEFT, h.whole, inner(), 12);
  const lanes = LANES.filter(lane => !state.proved || lane.told);
  for (const column of columnsOf(0, line.turns, wholeX)) {
    const align = worstAlign(column), wrong = align !== 'ok' || lanes.some(lane => sumOf(column, lane.of));
    if (!wrong) continue;
    g.fillStyle = about.colours.align[align === 'ok' ? 'lost' : align];
    g.fillRect(column.x, h.whole, Math.max(2, column.width), 12);
  }
  const x = wholeX(state.from), wide = wholeX(state.to) - x;
  g.strokeStyle = look.ink;
  g.lineWidth = 1.5;
  g.strokeRect(x, h.whole - 1.5, wide, 15);
  g.fillStyle = look.ink;
  for (const edge of [x, x + wide]) g.fillRect(edge - 1.5, h.whole + 1, 3, 10);
}

function drawAlignment(g, h) {
  for (const column of drawing.columns) {
    const align = worstAlign(column);
    g.fillStyle = about.colours.align[align];
    g.fillRect(column.x, h.align, column.width, 14);
    if (align === 'ok' && sumOf(column, i => turnNumber(i, 'lead'))) {
      g.fillStyle = about.colours.align.hunt;
      g.fillRect(column.x, h.align, Math.max(2, column.width / 4), 14);
    }
  }
}

function drawLanes(g, h) {
  LANES.forEach((lane, n) => {
    if (state.proved && !lane.told) return;
    const y = h.lanes + n * LANE_STEP;
    g.fillStyle = look.pale;
    g.fillRect(LEFT, y, inner(), 9);
    for (const column of drawing.columns) {
      const wrong = sumOf(column, lane.of);
      if (!wrong) continue;
      g.globalAlpha = wrong > 2 ? 1 : .7;
      g.fillStyle = look['bad-fill'];
      g.fillRect(column.x, y, Math.max(3, column.width), 9);
      g.globalAlpha = 1;
    }
  });
}

// Where turns are wide, lines between their frames.
function drawFrameLines(g, h) {
  const wide = xOf(1) - xOf(0);
  if (wide <= FRAMES_SEEN) return;
  g.lineWidth = 1;
  g.strokeStyle = look.grid;
  g.beginPath();
  for (const column of drawing.columns) {
    for (let n = 1; n < line.slots; n++) {
      const x = column.x + wide * n / line.slots;
      g.moveTo(x, h.align);
      g.lineTo(x, h.axis - 4);
    }
  }
  g.stroke();
}

// The chosen turn, and its chosen frame where frames are wide enough to be seen.
function drawChosen(g, h) {
  const x = xOf(state.turn), wide = Math.max(3, xOf(1) - xOf(0));
  if (wide > FRAMES_SEEN) {
    const place = Math.max(0, line.framePlace[state.frame] || 0);
    g.globalAlpha = .22;
    g.fillStyle = look.blue;
    g.fillRect(x + wide * place / line.slots, h.align, wide / line.slots, h.axis - h.align - 4);
    g.globalAlpha = 1;
  }
  g.strokeStyle = look.ink;
  g.lineWidth = 2;
  g.strokeRect(x, h.align - 2, wide, h.axis - h.align);
}

// The words at the left, and the numbers of turns below.
function drawWords(g, h) {
  g.fillStyle = look.dim;
  g.font = FONT;
  g.textAlign = 'right';
  g.fillText('whole line', LEFT - 8, h.whole + 6);
  g.fillText('multiframe', LEFT - 8, h.align + 7);
  LANES.forEach((lane, n) => {
    if (!state.proved || lane.told) g.fillText(lane.name, LEFT - 8, h.lanes + n * LANE_STEP + 5);
  });
  for (let k = 1; k <= line.slots; k++) {
    if (line.slots === 8 || k % 4 === 1) {
      g.fillText(line.slots === 8 || k === 1 ? `slot ${k}` : k, LEFT - 8, h.slots + (k - 1) * h.slot + h.slot / 2);
    }
  }
  g.fillText('turn', LEFT - 8, h.axis + 7);
  g.textAlign = 'center';
  const wide = xOf(1) - xOf(0);
  const step = [1, 2, 5, 10, 20, 50, 100, 200, 500, 1000, 2000, 5000, 10000].find(s => s * wide >= 54) || 20000;
  for (let i = Math.floor(state.from); i < Math.min(line.turns, state.to); i++) {
    const x = xOf(i) + wide / 2;
    if ((i === 0 || (i + 1) % step === 0) && x > LEFT && x < drawing.width - RIGHT)
      g.fillText(grouped(i + 1), x, h.axis + 7);
  }
}

// What one hears who does not see the drawing.
function sayChosen() {
  const canvas = $('line');
  canvas.setAttribute('aria-valuemax', line.turns);
  canvas.setAttribute('aria-valuenow', state.turn + 1);
  canvas.setAttribute('aria-valuetext', turnSpoken());
}
