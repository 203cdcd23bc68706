#!/usr/bin/env python3
"""faces.py [--check] [--kit] [CRATE ..]: a crate's proofs take the names of the kit, of crates below and of their own definitions from its `Prelude`, and
function proofs take the crate's own laws from its `Face`. Write a plain `use HOME.{name}` line where a proof needs a name, then run this: it moves the names of
homes that several files use to the two modules, and takes those away that no file uses. The kit's names come through `atoms.proofs.Kit`, which stays as it is,
since every crate stands on it: --kit writes it anew. A file that names what it should stays as it is. --check writes nothing, and says which files would
change."""
import glob, os, re, sys
from collections import Counter, defaultdict

WIDTH = 158
KIT, KIT_HOME = 'crates/atoms/proofs/Kit.antt', 'Rattle.atoms.proofs.Kit'
COMMENTS = {
    'Kit': '-- The names of the kit that proofs use, each with its home.',
    'Prelude': '-- What the proofs of this crate name of the kit, of the crates below and of its own definitions, each with its home.',
    'Face': '-- The laws of this crate that the proofs of its functions name, each with its home.',
}
USE = re.compile(r'^use (\S+?)\.\{(.*)\}$')
PASS = re.compile(r'^(?:unfoldable )?pub use (\S+?)\.\{(.*)\}$')
WORD = r'[^\s(){},;]+'
OF_FUNCTIONS = ('Answers.antt', 'Invariants.antt', 'Proof.antt')  # the files of a function's own proof


def read(path):
    if not os.path.exists(path): return ''
    with open(path, encoding='utf-8') as f: return f.read()


# The crates of crates.txt, each with what it stands on.
LISTED = {m[1]: m[2].split() for m in re.finditer(r'^(\w+)(?: staticlib)?:(.*)$', read('crates.txt'), re.M)}


def names(group):
    return [n.strip() for n in group.split(',') if n.strip()]


def plain(name):
    return name.split(' as ')[0]


def in_order(group):
    """Names as they stand in a line: capitals, operators, small letters."""
    return sorted(group, key=lambda n: n.replace('◌', '_'))


def is_ours(home):
    """Whether a home is one of this repository's crates, and not the kit's. What `Kit` has under a name of its own is at home there, and is the kit's."""
    found = re.match(r'Rattle\.(\w+)\.', home)
    return bool(found) and found[1] in LISTED and home != KIT_HOME


def packed(start, home, group):
    """Lines of imports, none wider than WIDTH."""
    lines, now = [], []
    for n in group:
        if now and len(f'{start}use {home}.{{{", ".join(now + [n])}}}') > WIDTH: lines, now = lines + [now], []
        now = now + [n]
    return [f'{start}use {home}.{{{", ".join(g)}}}'.replace('{!', '{ !') for g in lines + [now] if g]  # as `rt fmt` has it


def passed(path):
    """The names that a module passes on, with their homes."""
    found = [PASS.match(line) for line in read(path).split('\n')]
    return {n: m[1] for m in found if m for n in names(m[2])}


def face(module, chosen, unfolded, through=lambda n, h: h):
    """The text of a module that passes these names on."""
    homes, out = defaultdict(list), [COMMENTS[module]]
    for n, h in chosen.items(): homes[through(n, h)].append(n)
    for h in sorted(homes):
        opened = [n for n in in_order(homes[h]) if (chosen[n], n) in unfolded]
        out += packed('pub ', h, [n for n in in_order(homes[h]) if n not in opened]) + packed('unfoldable pub ', h, opened)
    return '\n'.join(out) + '\n'


class Crate:
    def __init__(self, name, deps):
        self.name, self.base, self.root = name, f'crates/{name}/proofs', f'Rattle.{name}.proofs'
        self.kit_home = KIT_HOME if name == 'atoms' or 'atoms' in deps else None
        kit, self.homes = passed(KIT), {}
        for module in ('Prelude', 'Face'):
            for n, home in passed(f'{self.base}/{module}.antt').items(): self.homes[module, n] = kit.get(n, home) if home == self.kit_home else home
        own = [f'{self.base}/{m}.antt' for m in ('Lib', 'Kit', 'Prelude', 'Face')]
        self.texts = {p: read(p) for p in sorted(glob.glob(self.base + '/**/*.antt', recursive=True)) if p not in own}

    def imports(self, path):
        """The names that a file imports, with their true homes."""
        for m in filter(None, map(USE.match, self.texts[path].split('\n'))):
            module = m[1][len(self.root) + 1:] if m[1].startswith(self.root + '.') else ''
            for n in names(m[2]): yield self.homes.get((module, plain(n)), m[1]), n

    def module_of(self, path, home, name):
        """The module that may pass the name on to this file, or none."""
        if '.' in plain(name): return None
        if home == KIT_HOME or not home.startswith(self.root + '.'): return 'Prelude'
        law = re.fullmatch(re.escape(self.root) + r'\.[A-Z][^.]*', home)
        return 'Face' if law and os.path.basename(path) in OF_FUNCTIONS else None

    def choose(self):
        """For each of the two modules the names that it passes on: those of homes that two files use, each from the home that most files mean by it."""
        users, files = {'Prelude': defaultdict(Counter), 'Face': defaultdict(Counter)}, defaultdict(set)
        for p in self.texts:
            for home, n in self.imports(p):
                module = self.module_of(p, home, n)
                if not module: continue
                users[module][plain(n)][home] += 1
                files[module, home if is_ours(home) else 'kit'].add(p)
        best = {m: {n: by.most_common(1)[0][0] for n, by in found.items()} for m, found in users.items()}
        return {m: {n: h for n, h in found.items() if len(files[m, h if is_ours(h) else 'kit']) > 1} for m, found in best.items()}

    def unfolded(self):
        """The imported names that some file unfolds, with their homes."""
        found = set()
        for p, text in self.texts.items():
            lines = [m[2] for m in re.finditer(r'^( *)unfolding (.*(?:\n\1 +\S.*)*)', text, re.M)] + re.findall(r'\bunfold (.*?) in\b', text)
            opened = {w for line in lines for w in re.findall(WORD, line)}
            found |= {(home, plain(n)) for home, n in self.imports(p) if n.split(' as ')[-1] in opened}
        return found

    def rewritten(self, path, chosen):
        """The file with its imports in order: prelude, face, and what it names besides."""
        taken, direct = {'Prelude': [], 'Face': []}, defaultdict(list)
        for home, n in dict.fromkeys(self.imports(path)):
            module = self.module_of(path, home, n)
            (taken[module] if module and chosen[module].get(plain(n)) == home else direct[home]).append(n)
        lines = self.texts[path].split('\n')
        first = next((i for i, l in enumerate(lines) if USE.match(l)), None)
        if first is None: return self.texts[path]
        new = [l for m in ('Prelude', 'Face') for l in packed('', f'{self.root}.{m}', taken[m])]
        new += [l for h, group in direct.items() for l in packed('', h, group)]
        return '\n'.join(lines[:first] + new + [l for l in lines[first:] if not USE.match(l)])

    def results(self, chosen, kit):
        out = {p: self.rewritten(p, chosen) for p in self.texts}
        lib = re.sub(r'^-- .*\n(?:pub )?mod (?:Prelude|Face)\n', '', read(f'{self.base}/Lib.antt'), flags=re.M)
        for module in ('Face', 'Prelude'):
            if chosen[module]:
                through = lambda n, h: self.kit_home if self.kit_home and kit.get(n) == h else h
                out[f'{self.base}/{module}.antt'] = face(module, chosen[module], self.unfolded(), through)
                lib = f'{COMMENTS[module]}\npub mod {module}\n' + lib
        return {**out, f'{self.base}/Lib.antt': lib}


def kit_of(chosen, kit):
    """The kit's names that preludes pass on, each from the home that most of them mean, and those that `kit` has under another name."""
    homes, others = defaultdict(Counter), {n.split(' as ')[1]: n for n in kit if ' as ' in n}
    for modules in chosen.values():
        for n, h in modules['Prelude'].items():
            if h == KIT_HOME: homes[others[n]][kit[others[n]]] += 1
            elif not is_ours(h): homes[n][h] += 1
    return {n: by.most_common(1)[0][0] for n, by in homes.items()}


def spoken(text):
    """What a file names: its imports, what it passes on and its modules, in whatever lines."""
    found = [re.match(r'((?:unfoldable )?(?:pub )?(?:use|mod)) ([^{]*)(?:\{(.*)\})?$', line) for line in text.split('\n')]
    return {(m[1], m[2], n) for m in found if m for n in names(m[3] or '') or ['']}


def main():
    check, named = '--check' in sys.argv, [a for a in sys.argv[1:] if not a.startswith('--')]
    crates = [Crate(name, deps) for name, deps in LISTED.items() if os.path.isdir(f'crates/{name}/proofs')]
    chosen = {c.name: c.choose() for c in crates}
    kit, results = passed(KIT), {}
    if '--kit' in sys.argv:
        kit = kit_of(chosen, kit)
        results[KIT] = face('Kit', kit, set().union(*(c.unfolded() for c in crates)))
    for c in crates:
        if not named or c.name in named: results.update(c.results(chosen[c.name], kit))
    stale = [p for p, text in results.items() if spoken(read(p)) != spoken(text)]
    if check: sys.exit('docs/faces.py: out of date: ' + ', '.join(stale) if stale else 0)
    for p in stale:
        with open(p, 'w', encoding='utf-8') as f: f.write(results[p])


main()
