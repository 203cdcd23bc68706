// Rows and columns in their order, and all of the page drawn anew.

// The rows that are shown, sorted where that is asked, those that are alike by their numbers.
const drawRows = () => {
  const places = new Set(shown);
  const key = ({ up }) => (up[sorted.relay.k] === sorted.isUpFirst ? 0 : 1);
  const sequence = sorted ? [...rows].sort((one, other) => key(one) - key(other) || one.number - other.number) : rows;
  shown = sequence.filter((entry) => places.has(entry));
  if (sequence.some(({ row }, place) => body.rows[place] !== row)) body.append(...sequence.map(({ row }) => row));
  rows.forEach((entry) => { if (entry.row.hidden === places.has(entry)) entry.row.hidden = !places.has(entry); });
  relays.forEach((relay) => {
    if (sorted && sorted.relay === relay) relay.head.setAttribute('aria-sort', sorted.isUpFirst ? 'descending' : 'ascending');
    else relay.head.removeAttribute('aria-sort');
  });
  rove(rows.map(({ link }) => link), (link) => !link.closest('tr').hidden);
};

// The columns in their order, without those that are hidden, under their units where that is asked.
const drawColumns = () => {
  const sequence = isByUnit ? [...relays].sort((one, other) => one.place - other.place || one.k - other.k) : relays;
  if (sequence.some((relay, place) => columns[place] !== relay)) {
    for (const row of [head, foot]) sequence.forEach((relay) => row.insertBefore(row === head ? relay.head : relay.foot, row.lastElementChild));
    for (const { row, cells } of rows) sequence.forEach((relay) => row.insertBefore(cells[relay.k], row.lastElementChild));
    columns = sequence;
  }
  for (const relay of relays) {
    const isHidden = hidden.has(relay);
    if (relay.head.hidden !== isHidden) [relay.head, relay.foot, ...rows.map(({ cells }) => cells[relay.k])].forEach((cell) => { cell.hidden = isHidden; });
  }
  drawUnits();
  rove(relays.map(({ button }) => button), (button) => !button.closest('th').hidden);
};

const drawUnits = () => {
  grid.tHead.querySelectorAll('.units').forEach((row) => row.remove());
  grid.tHead.className = isByUnit ? 'two' : '';
  const visible = columns.filter((relay) => !hidden.has(relay));
  relays.forEach((relay) => relay.head.classList.remove('start'));
  if (!isByUnit) return;
  const start = made('td'), end = made('td'), row = made('tr', start);
  start.colSpan = first;
  start.className = 'n';
  end.className = 'w';
  visible.forEach((relay, place) => {
    if (!place || visible[place - 1].unit !== relay.unit) {
      const cell = made('th', made('span', relay.unit || 'no unit'));
      cell.scope = 'colgroup';
      cell.title = relay.unit || 'no unit';
      cell.colSpan = 0;
      row.append(cell);
      relay.head.classList.add('start');
    }
    row.lastElementChild.colSpan = visible.filter((other) => other.unit === relay.unit).length;
  });
  row.className = 'units';
  row.append(end);
  grid.tHead.prepend(row);
};

// What is sorted and hidden, in words, with the way back.
const drawOrder = () => {
  const button = (text, work) => { const node = made('button', text); node.type = 'button'; node.addEventListener('click', work); return node; };
  const nodes = [];
  if (sorted) {
    const told = 'Sorted by ' + sorted.relay.label + ', ' + (sorted.isUpFirst ? 'up' : 'dropped') + ' first. ';
    nodes.push(made('p', told, button('In the list\u2019s order', () => { sorted = null; drawTable(); })));
  }
  if (hidden.size) {
    const back = columns.filter((relay) => hidden.has(relay)).map((relay) => button(relay.label, () => { hidden.delete(relay); drawTable(); }));
    const all = button('All columns', () => { hidden.clear(); drawTable(); });
    nodes.push(made('p', counted(hidden.size, 'column', 'columns') + ' hidden: ', ...back.flatMap((node) => [node, ' ']), all));
  }
  order.replaceChildren(...nodes);
  order.hidden = nodes.length === 0;
};

const drawTable = () => {
  drawRows();
  drawColumns();
  drawOrder();
  drawFoot();
  drawReading();
  mark.hidden = true;
  csv.textContent = shown.length === rows.length && !hidden.size ? 'Save the list as CSV' : 'Save what is shown as CSV';
};

const draw = () => {
  const text = inAddress(), numbers = positions(text);
  compare.hidden = pair.hidden = true;
  rows.forEach(({ row }) => { row.classList.remove('here'); row.removeAttribute('aria-current'); });
  relays.forEach((relay) => relay.head.classList.remove('differs'));
  if (numbers) drawPositions(text, numbers); else drawQuestion(text);
  drawTable();
  lead();
};

// To the position of the address: its row in the middle of the table, and the table in the window, so that the heads are seen. The browser takes the
// focus away when it goes to a row.
const lead = () => {
  const here = body.querySelector('.here');
  if (!here) return;
  const row = here.getBoundingClientRect(), frame = scroll.getBoundingClientRect();
  scroll.scrollTop += row.top - frame.top - (scroll.clientHeight - row.height) / 2;
  scroll.scrollIntoView({ block: 'nearest' });
  if (document.activeElement === document.body) here.querySelector('a').focus({ preventScroll: true });
};
