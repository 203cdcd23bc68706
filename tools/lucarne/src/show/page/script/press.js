// Pressing relays, numbers and arrows.

// Of many alike one is reached by the tabulator, the others from there by arrows.
const rove = (nodes, isShown) => {
  const usable = nodes.filter(isShown);
  const chosen = usable.find((node) => node === document.activeElement) || usable.find((node) => node.getAttribute('tabindex') === '0') || usable[0];
  nodes.forEach((node) => { if (node.getAttribute('tabindex') !== (node === chosen ? '0' : '-1')) node.tabIndex = node === chosen ? 0 : -1; });
};
const move = (nodes, at, step) => {
  const next = nodes[Math.min(Math.max(at + step, 0), nodes.length - 1)];
  nodes[at].tabIndex = -1;
  next.tabIndex = 0;
  next.focus();
};
const arrows = (event, nodes, back, forth) => {
  const step = { [forth]: 1, [back]: -1, Home: -nodes.length, End: nodes.length }[event.key];
  const at = nodes.indexOf(document.activeElement);
  if (step === undefined || at < 0) return;
  event.preventDefault();
  move(nodes, at, step);
};

// Pressing a relay asks for it, sorts by it or hides it.
const turn = (relay) => {
  const { asked } = read(positions(inAddress()) ? '' : inAddress());
  if (!asked.has(relay)) asked.set(relay, true); else if (asked.get(relay)) asked.set(relay, false); else asked.delete(relay);
  ask(written(asked));
};
const sortBy = (relay) => {
  const isSame = sorted && sorted.relay === relay;
  sorted = !isSame ? { relay, isUpFirst: true } : sorted.isUpFirst ? { relay, isUpFirst: false } : null;
  drawTable();
};
const hide = (relay) => {
  const visible = columns.filter((other) => !hidden.has(other)), at = visible.indexOf(relay), next = visible[at + 1] || visible[at - 1];
  hidden.add(relay);
  drawTable();
  if (next) { rove(relays.map(({ button }) => button), (button) => button === next.button); next.button.focus(); } else order.querySelector('button').focus();
};
const press = (relay) => ({ ask: turn, sort: sortBy, hide })[view.elements.press.value](relay);

relays.forEach((relay) => relay.button.addEventListener('click', () => press(relay)));
grid.tHead.addEventListener('keydown', (event) => {
  arrows(event, columns.filter((relay) => !hidden.has(relay)).map(({ button }) => button), 'ArrowLeft', 'ArrowRight');
});
body.addEventListener('keydown', (event) => arrows(event, shown.map(({ link }) => link), 'ArrowUp', 'ArrowDown'));
// With Shift a second position is put beside the one of the address.
body.addEventListener('click', (event) => {
  const link = event.target.closest('a');
  if (!link) return;
  const number = Number(link.textContent), before = positions(inAddress()) || [];
  event.preventDefault();
  ask(address(event.shiftKey ? [...before.filter((other) => other !== number), number] : [number]));
});
compare.addEventListener('submit', (event) => {
  event.preventDefault();
  const number = Number(compare.elements.other.value);
  if (number) ask(address([...positions(inAddress()), number]));
});
view.addEventListener('submit', (event) => event.preventDefault());
by('by-unit').addEventListener('change', (event) => { isByUnit = event.target.checked; drawTable(); });
by('differing').addEventListener('click', () => {
  relays.filter((_, k) => shown.length && shown.every(({ up }) => up[k] === shown[0].up[k])).forEach((relay) => hidden.add(relay));
  drawTable();
});
