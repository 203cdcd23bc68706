// Relays while a question is typed: by label or name, those that start so first.
let suggested = [], active = -1;
const close = () => { suggested = []; active = -1; drawList(); };
const drawList = () => {
  const option = (relay, place) => {
    const node = made('li', relay.label, relay.label === relay.name ? '' : made('small', ' ' + relay.name));
    node.id = 'option-' + place;
    node.role = 'option';
    node.setAttribute('role', 'option');
    node.setAttribute('aria-selected', String(place === active));
    node.addEventListener('click', () => accept(relay));
    return node;
  };
  list.replaceChildren(...suggested.map(option));
  list.hidden = suggested.length === 0;
  input.setAttribute('aria-expanded', String(suggested.length > 0));
  if (active < 0) input.removeAttribute('aria-activedescendant'); else input.setAttribute('aria-activedescendant', 'option-' + active);
};
const suggest = () => {
  const stem = fold(signed(parts(input.value).pop().trim()).name);
  const place = (relay) => Math.min(...[relay.label, relay.name].map((text) => fold(text).indexOf(stem)).map((at) => (at < 0 ? Infinity : at)));
  const fitting = stem ? relays.filter((relay) => place(relay) < Infinity) : [];
  suggested = fitting.sort((one, other) => Math.min(place(one), 1) - Math.min(place(other), 1) || one.k - other.k).slice(0, 8);
  active = -1;
  drawList();
};
const accept = (relay) => {
  const all = parts(input.value), last = all.pop(), { up } = signed(last.trim());
  input.value = [...all, (all.length ? ' ' : '') + term([relay, up])].join(',');
  close();
  input.focus();
};
input.addEventListener('input', suggest);
input.addEventListener('blur', close);
list.addEventListener('pointerdown', (event) => event.preventDefault());
list.addEventListener('mousedown', (event) => event.preventDefault());
input.addEventListener('keydown', (event) => {
  const step = { ArrowDown: 1, ArrowUp: -1 }[event.key];
  if (step && suggested.length) {
    event.preventDefault();
    active = (active + step + suggested.length + (active < 0 && step < 0 ? 1 : 0)) % suggested.length;
    drawList();
  } else if (event.key === 'Enter' && active >= 0) { event.preventDefault(); accept(suggested[active]); } else if (event.key === 'Escape') close();
});
form.addEventListener('submit', (event) => { event.preventDefault(); close(); ask(input.value.trim()); });
clear.addEventListener('click', () => { ask(''); input.focus(); });
