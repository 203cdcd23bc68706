// The table as CSV and as what is copied.

// The table as lines of cells, heads first, as `lucarne list --as csv` writes it.
const heading = (text) => (/^[-=+@]/.test(text) ? "'" : '') + text;
const lines = (some) => {
  const visible = columns.filter((relay) => !hidden.has(relay));
  const tenths = (row) => (reading(row) === undefined ? '' : (Number(reading(row)) / 10).toFixed(1));
  const top = ['position', ...(first > 1 ? ['milliseconds'] : []), ...visible.map(({ name, label }) => heading(label.trim() === label ? label : name))];
  return [top, ...some.map((row) => [String(row.number), ...(first > 1 ? [tenths(row)] : []), ...visible.map(({ k }) => (row.up[k] ? '1' : '0'))])];
};
const quoted = (text, when) => (when.test(text) ? '"' + text.replace(/"/g, '""') + '"' : text);
const toCsv = () => lines(shown).map((line) => line.map((cell) => quoted(cell, /[",;\t \r\n]/)).join(',') + '\r\n').join('');
csv.addEventListener('click', () => { csv.href = 'data:text/csv;charset=utf-8,' + encodeURIComponent(toCsv()); });

// What is copied of the table is a table: the rows that are selected, or by the button all that are shown.
let isCopying = false;
const selectedRows = () => {
  const selection = getSelection();
  if (isCopying) return shown;
  if (selection.isCollapsed || !selection.rangeCount) return [];
  const within = selection.getRangeAt(0).commonAncestorContainer, node = within.nodeType === Node.ELEMENT_NODE ? within : within.parentElement;
  return grid.contains(node) && !node.closest('th, td') ? shown.filter(({ row }) => selection.containsNode(row, true)) : [];
};
document.addEventListener('copy', (event) => {
  const some = selectedRows();
  if (!some.length) return;
  const table = lines(some), escaped = (text) => { const node = made('p', text); return node.innerHTML; };
  event.clipboardData.setData('text/plain', table.map((line) => line.map((cell) => quoted(cell, /["\t\r\n]/)).join('\t')).join('\n') + '\n');
  const marked = table.map((line) => '<tr>' + line.map((cell) => '<td>' + escaped(cell) + '</td>').join('') + '</tr>').join('');
  event.clipboardData.setData('text/html', '<table>' + marked + '</table>');
  event.preventDefault();
});
by('copy').addEventListener('click', () => {
  const selection = getSelection();
  selection.selectAllChildren(grid);
  isCopying = true;
  const isCopied = document.execCommand('copy');
  isCopying = false;
  selection.removeAllRanges();
  const done = 'Copied ' + counted(shown.length, 'position', 'positions') + ', with heads.';
  by('copied').textContent = isCopied ? done : 'The browser does not let it be copied: select the table and copy it.';
});
