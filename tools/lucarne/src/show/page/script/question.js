// Questions and positions, as they are typed and as they stand in the address.

// Names and labels count alike in any case, and with _ or a space.
const fold = (text) => text.toLowerCase().replace(/[_\s]+/g, ' ').trim();
const meant = (text) => {
  const exact = relays.find((relay) => relay.name === text) || relays.find((relay) => relay.label === text);
  return exact ? [exact] : relays.filter((relay) => fold(relay.name) === fold(text) || fold(relay.label) === fold(text));
};

// A question is written as for `lucarne ask`: a, -b is a up and b dropped; so are +a and not b. It stands in the address.
const told = (asked) => [...asked].map(([relay, up]) => relay.label + (up ? ' up' : ' dropped')).join(', ');
const term = ([relay, up]) => {
  if (up) return (relay.name.startsWith('-') ? '+' : '') + relay.name;
  return (relay.name.startsWith('-') || relays.some((other) => other.name === '-' + relay.name) ? 'not ' : '-') + relay.name;
};
const written = (asked) => [...asked].map(term).join(', ');
const inAddress = () => {
  const text = location.hash.slice(1);
  try { return decodeURIComponent(text); } catch { return text; }
};
const ask = (question) => { location.hash = encodeURIComponent(question).replace(/%2C%20/g, ',').replace(/%2C/g, ',').replace(/%2B/g, '+'); };

// The parts between commas that stand outside of brackets and quotation marks, as they are written.
const parts = (text) => {
  const found = [''];
  let depth = 0, isQuoted = false;
  for (const sign of text) {
    if (sign === '"') isQuoted = !isQuoted;
    else if (!isQuoted) depth += sign === '(' ? 1 : sign === ')' ? -1 : 0;
    if (sign === ',' && !isQuoted && depth <= 0) found.push(''); else found[found.length - 1] += sign;
  }
  return found;
};
const terms = (text) => parts(text).map((part) => part.trim()).filter((part) => part);
const signed = (part) => {
  const sign = (/^(not\s+|[-+]\s*)/.exec(part) || [''])[0];
  return { sign, name: part.slice(sign.length), up: !sign || sign.startsWith('+') };
};

// How many letters must be put in, taken out, changed or swapped with the next one to get from one word to the other.
const distance = (one, other) => {
  const table = [[...Array(other.length + 1).keys()]];
  for (let i = 1; i <= one.length; i += 1) {
    table.push([i]);
    for (let j = 1; j <= other.length; j += 1) {
      let least = Math.min(table[i - 1][j] + 1, table[i][j - 1] + 1, table[i - 1][j - 1] + (one[i - 1] === other[j - 1] ? 0 : 1));
      if (i > 1 && j > 1 && one[i - 1] === other[j - 2] && one[i - 2] === other[j - 1]) least = Math.min(least, table[i - 2][j - 2] + 1);
      table[i].push(least);
    }
  }
  return table[one.length][other.length];
};
const nearest = (text) => {
  const word = fold(text), far = Math.floor(word.length / 3) + 1;
  const apart = relays.map((relay) => [Math.min(distance(word, fold(relay.name)), distance(word, fold(relay.label))), relay]);
  const least = Math.min(far, ...apart.map(([steps]) => steps));
  return apart.filter(([steps]) => steps === least).map(([, relay]) => relay).slice(0, 3);
};

// The relays of a question, and what is wrong with it: a sentence, and relays that may be meant in place of the part.
const read = (text) => {
  const asked = new Map(), faults = [], both = [];
  terms(text).forEach((part, place) => {
    const { sign, name, up } = signed(part), found = meant(name), [relay] = found;
    if (sign.startsWith('-') && relays.some((other) => other.name === part)) {
      faults.push({ what: part + ' may mean two things: write +' + part + ' or not ' + name, place, up, near: [] });
    } else if (found.length > 1) faults.push({ what: name + ' may be several relays', place, up, near: found });
    else if (!relay) faults.push({ what: 'No relay is called ' + name, place, up, near: nearest(name) });
    else if (asked.has(relay) && asked.get(relay) !== up) both.push(relay.label);
    else asked.set(relay, up);
  });
  return { asked, faults, both };
};

// The positions that an address names: #7, or several to stand side by side, #7,12. A relay that is called so comes first; #position 7 is never one.
const positions = (text) => {
  const match = /^\s*(positions?\s+)?(\d+(?:\s*,\s*\d+)*)\s*$/.exec(text);
  if (!match || !match[1] && terms(text).some((part) => meant(part).length)) return null;
  return [...new Set(match[2].split(',').map(Number))];
};
const address = (numbers) => (numbers.some((number) => meant(String(number)).length) ? 'position ' : '') + numbers.join(',');
