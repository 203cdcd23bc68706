#!/usr/bin/env python3
"""senses.py: one sense for a name. Says each name of `specs/` that has several homes, in the definitions of all crates together, each file name of `specs/` and
`proofs/` that several crates have, and each public function and type that several crates have; fails if there is one. A function for C has the name of the one
that it calls, in the same sense: docs/promises.py holds their contracts against each other."""
import glob, os, re, sys
from collections import defaultdict

DECLARED = re.compile(r'^( *)(?:unfoldable )?(?:abbrev )?pub (?:(?:record|data) )?([^\s:({]+)(?= |$)')
MODULES = {'Lib', 'Kit', 'Prelude', 'Face', 'Examples'}  # each crate may have one of these


def declared(path):
    """The names of a file, but for fields: those at its edge and those of its `module _` blocks."""
    block = ''
    for line in open(path, encoding='utf-8'):
        if line.strip() and not line.startswith((' ', '--')): block = line
        m = DECLARED.match(line)
        if m and m[2] not in ('use', 'mod') and (not m[1] or block.startswith('module ') and len(m[1]) == 2): yield m[2]


def homes():
    found = defaultdict(set)
    for path in glob.glob('crates/*/specs/**/*.antt', recursive=True):
        for name in declared(path): found['definition ' + name].add(path)
    for path in glob.glob('crates/*/specs/*.antt') + glob.glob('crates/*/proofs/*.antt'):
        module = os.path.basename(path)[:-5]
        if module not in MODULES: found[f'{path.split("/")[2]} file ' + module].add(path)
    for path in glob.glob('crates/*/src/**/*.rt', recursive=True):
        text = open(path, encoding='utf-8').read()
        for name in re.findall(r'^pub (?:fn|struct|enum|const) (\w+)', text, re.M): found['item ' + name].add(path)
    return {name: paths for name, paths in found.items() if len(paths) > 1}


twice = homes()
for name in sorted(twice): print(f'{name}: ' + ', '.join(sorted(p[len("crates/"):] for p in twice[name])))
sys.exit(f'docs/senses.py: {len(twice)} names with several homes' if twice else 0)
