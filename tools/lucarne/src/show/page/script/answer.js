// What a question or an address asks for: the answer in words, the rows that fit, and what differs.

const drawHeads = (asked) => relays.forEach((relay) => {
  const up = asked.get(relay);
  relay.button.setAttribute('aria-pressed', String(up !== undefined));
  relay.button.className = up === undefined ? '' : up ? 'up' : 'dropped';
  relay.button.querySelector('i').textContent = up === undefined ? '' : up ? ', asked up' : ', asked dropped';
});

const drawFoot = () => relays.forEach((relay, k) => {
  const count = shown.filter(({ up }) => up[k]).length;
  const word = count > 0 && count === shown.length ? 'all' : '';
  relay.foot.className = word;
  relay.foot.firstChild.data = by('instead').hidden ? count : '';
  relay.foot.querySelector('small').textContent = word;
});

// The largest reading of the positions that are shown.
const reading = ({ row }) => row.cells[1].dataset.v;
const drawReading = () => {
  if (first < 2) return;
  const values = shown.map(reading).filter((value) => value !== undefined).map(Number);
  foot.cells[1].textContent = values.length ? 'most ' + (Math.max(...values) / 10).toFixed(1) : '';
};

// A question that is not understood: it is said in the place of the rows, with what may be meant.
const drawFaults = (text, faults) => {
  const lines = faults.map(({ what, place, up, near }) => {
    const buttons = near.map((relay) => {
      const button = made('button', relay.label);
      button.type = 'button';
      button.addEventListener('click', () => ask(terms(text).map((part, k) => (k === place ? term([relay, up]) : part)).join(',')));
      return button;
    });
    return made('p', what, near.length ? '. Is it ' : '.', ...buttons.flatMap((button, k) => (k ? [' or ', button] : [button])), near.length ? '?' : '');
  });
  by('instead').hidden = lines.length === 0;
  by('instead').rows[0].cells[0].colSpan = head.cells.length;
  by('instead').rows[0].cells[0].replaceChildren(made('div', ...lines));
};

const drawAnswer = (text, { asked, faults, both }) => {
  const count = made('b', shown.length + ' of ' + counted(rows.length, 'position', 'positions'));
  const contrary = both.map((label) => ', ' + label + ' both up and dropped').join('');
  if (faults.length) answer.replaceChildren('The question is not understood, and nothing is shown.');
  else answer.replaceChildren(count, asked.size ? ' with ' + told(asked) + contrary : '');
  answer.className = faults.length ? 'fault' : '';
  clear.disabled = asked.size === 0 && !text;
  input.value = faults.length || both.length ? text : written(asked);
};

const drawQuestion = (text) => {
  const question = read(text), { asked, faults, both } = question;
  const fits = ({ up }) => relays.every((relay, k) => !asked.has(relay) || asked.get(relay) === up[k]);
  shown = both.length || faults.length ? [] : rows.filter(fits);
  drawHeads(asked);
  drawAnswer(text, question);
  drawFaults(text, faults);
};

const labels = (some) => (some.length ? some.map((relay) => relay.label).join(', ') : 'no relay');

// One position is marked among all; several stand alone, with what differs.
const drawPositions = (text, numbers) => {
  const known = numbers.map((number) => rows[number - 1]).filter((row) => row);
  const differing = relays.filter((_, k) => known.some(({ up }) => up[k] !== known[0].up[k]));
  const lost = numbers.filter((number) => !rows[number - 1]);
  shown = lost.length ? [] : known.length === 1 ? rows : known;
  drawHeads(new Map());
  drawFaults(text, lost.map((number) => ({ what: 'There is no position ' + number + ': the list has ' + rows.length, near: [] })));
  input.value = text;
  clear.disabled = false;
  answer.className = lost.length ? 'fault' : '';
  if (lost.length) answer.replaceChildren('Nothing is shown.');
  else if (known.length === 1) {
    const up = relays.filter((_, k) => known[0].up[k]);
    answer.replaceChildren(made('b', 'Position ' + numbers[0] + ' of ' + rows.length), ': ' + labels(up) + ' up');
  } else {
    const differ = ' differ in ' + counted(differing.length, 'relay', 'relays') + ': ' + labels(differing);
    answer.replaceChildren(made('b', 'Positions ' + numbers.join(', ')), differ);
    drawPair(known, differing);
  }
  compare.hidden = lost.length > 0 || known.length !== 1;
  if (!lost.length && known.length === 1) { known[0].row.classList.add('here'); known[0].row.setAttribute('aria-current', 'true'); }
  if (known.length > 1) differing.forEach((relay) => relay.head.classList.add('differs'));
};

const drawPair = (known, differing) => {
  const scoped = (text, scope) => { const cell = made('th', text); cell.scope = scope; return cell; };
  const titles = made('tr', scoped('relay', 'col'), ...known.map(({ number }) => scoped('position ' + number, 'col')));
  const line = (relay) => made('tr', scoped(relay.label, 'row'), ...known.map(({ up }) => {
    const cell = made('td', up[relay.k] ? 'up' : 'dropped');
    cell.className = up[relay.k] ? 'u' : '';
    return cell;
  }));
  pair.replaceChildren(made('caption', 'What differs'), made('thead', titles), made('tbody', ...differing.map(line)));
  pair.hidden = differing.length === 0;
};
