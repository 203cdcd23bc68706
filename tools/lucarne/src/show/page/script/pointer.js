// The column under the pointer, and that of the relay that has the focus.
const markColumn = (relay) => {
  relays.forEach((other) => other.head.classList.toggle('at', other === relay));
  mark.hidden = !relay;
  if (!relay) return;
  const cell = relay.head.getBoundingClientRect(), frame = scroll.getBoundingClientRect();
  mark.style.left = cell.left - frame.left - scroll.clientLeft + scroll.scrollLeft + 'px';
  mark.style.width = cell.width + 'px';
  mark.style.height = grid.offsetHeight + 'px';
};
const columnOf = (target) => {
  const cell = target.closest('th, td');
  return cell && !cell.closest('.units, #instead') ? columns[cell.cellIndex - first] : undefined;
};
grid.addEventListener('pointerover', (event) => markColumn(columnOf(event.target)));
grid.addEventListener('pointerleave', () => markColumn(undefined));
grid.tHead.addEventListener('focusin', (event) => markColumn(columnOf(event.target)));
grid.tHead.addEventListener('focusout', () => markColumn(undefined));
