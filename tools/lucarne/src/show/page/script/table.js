// The table as the page has it: its relays and its rows, and what of them is shown.

const by = (id) => document.getElementById(id);
const made = (name, ...children) => { const node = document.createElement(name); node.append(...children); return node; };
const grid = by('grid'), scroll = grid.parentElement, form = by('ask'), input = by('question'), list = by('suggestions'), answer = by('answer');
const clear = by('clear'), view = by('view'), order = by('order'), compare = by('compare'), pair = by('pair'), mark = by('column'), csv = by('csv');
const first = Number(grid.dataset.first);
const body = grid.tBodies[0], head = grid.tHead.rows[0], foot = grid.tFoot.rows[0];
const relays = [...head.querySelectorAll('button')].map((button, k) => ({
  k, button, head: head.cells[first + k], foot: foot.cells[first + k],
  name: button.dataset.name, label: button.querySelector('.l').textContent, unit: button.dataset.unit, place: Number(button.dataset.place),
}));
const rows = [...body.rows].map((row, place) => {
  const cells = relays.map((_, k) => row.cells[first + k]);
  return { row, number: place + 1, link: row.querySelector('a'), cells, up: cells.map((cell) => cell.className === 'u') };
});
const counted = (count, one, many) => count + ' ' + (count === 1 ? one : many);

// What is shown: the rows in their order, and the columns in theirs.
let shown = rows, columns = relays, sorted = null, isByUnit = false;
const hidden = new Set();
