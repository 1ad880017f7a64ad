// The picture of the groups of a multiframe: rows are those of its frames, data has colour, stuff is left out.

// Where groups stand: rows of the multiframe, groups in a row, the height of a row.
const groupPlaces = () => ({rows: 4 * line.slots, across: 3808 / line.slots, tall: line.slots === 8 ? 7 : 2});

function drawGroups(t, cm) {
  const {rows, across, tall} = groupPlaces(), canvas = $('groups'), [g, width] = fresh(canvas, rows * tall);
  const wide = width / across;
  g.fillStyle = look.card;
  g.fillRect(0, 0, width, rows * tall);
  canvas.setAttribute('aria-label', cm === null ? 'No groups' : `${cm} of ${GROUPS} groups are data`);
  if (cm === null) return;
  g.fillStyle = t.colour;
  for (let row = 0; row < rows; row++) {
    const y = row * tall, high = tall - (row % 4 === 3 ? (tall > 2 ? 2 : .5) : tall > 2 ? .5 : 0);
    let from = -1;
    for (let x = 0; x <= across; x++) {
      const data = x < across && isData(row * across + x + 1, cm);
      if (data && from < 0) from = x;
      if (!data && from >= 0) {
        g.fillRect(from * wide, y, (x - from) * wide, high);
        from = -1;
      }
    }
  }
}

// What a group is and why; 0 is none.
function explain(j) {
  const t = line.tributaries[state.tributary], {rows, across} = groupPlaces(), cm = t ? groupsCm(t) : null;
  if (j < 1 || j > GROUPS || cm === null) {
    $('group-words').textContent =
      `Rows are those of the ${line.slots} frames of the multiframe (${rows}), with ${across} groups in each. ` +
      'Colour is data, gaps are stuff. Point at a group, or say its number.';
    return;
  }
  const row = Math.floor((j - 1) / across), column = 17 + line.slots * ((j - 1) % across), rest = j * cm % GROUPS;
  const columns = t.slots.map(k => column + k - 1).join(', ');
  $('group-words')
    .replaceChildren(`Group ${grouped(j)}: frame ${row >> 2} of the multiframe, row ${row % 4 + 1}, ${
                       t.slots.length > 1 ? 'columns' : 'column'} ${columns}. `,
      `${j} × ${cm} mod ${GROUPS} = ${rest} ${rest < cm ? '<' : '≥'} ${cm}: `,
      el('b', {}, rest < cm ? 'data' : 'stuff'), `. Data groups up to here: ${grouped(Math.floor(j * cm / GROUPS))}.`);
}

function pointGroup(event) {
  const {rows, across, tall} = groupPlaces(), canvas = $('groups'), [x, y] = placeIn(canvas, event);
  const column = clamp(Math.floor(x / canvas.clientWidth * across), 0, across - 1),
        row = clamp(Math.floor(y / tall), 0, rows - 1);
  const j = row * across + column + 1;
  $('group').value = j;
  explain(j);
}
