#!/usr/bin/env python3
"""Brings the repository's own names to today's spelling, behind port.py: functions, lemmas, fields and constructors in snake case, and a dash only where it
joins the names of two definitions. Types, facts and modules keep their capitals. Functions of src/, exported names, strings, inputs and outputs stay.

usage: tools/today_names.py [--dry] [--list]     at the top of the repository: rewrites crates/, and prints the names that would have fallen together;
                                                 with --list every name and what it becomes, with --dry nothing is written
"""
import collections
import glob
import os
import re
import sys

KIT = "/opt/rattle/rattle"
HEAD = re.compile(r"^(\s*)(?:(?:pub|abbrev|unfoldable|private|record|data)\s+)*([^\s:(){}=.,;\[\]]+)\s*(?:[({:]|:$)")
WORD = re.compile(r"[^\s(){}\[\].,;:`\"⌜⌝]+")
# Names under which proofs/Kit.antt of atoms brings lemmas of the kit: no middle dot.
ALIASES = {
    "List·getD-append": "get_or-append",
    "List·getD-eq-default": "get_or-eq_default",
    "Nat·lt-wfRel": "lt-wf_rel",
    "leb·suc-zero": "leb-suc-zero",
    "List·Memᴰ·append-cases": "Memᴰ-append_cases",
    "List·Memᴰ·cases-cons": "Memᴰ-cases_cons",
    "List·Memᴰ·eq-of-singleton": "Memᴰ-eq_of_singleton",
    "List·Memᴰ·head": "Memᴰ-head",
    "List·Memᴰ·not-nil": "Memᴰ-not-nil",
    "List·Memᴰ·tail": "Memᴰ-tail",
    "Memᴰ·append-left": "Memᴰ-append_left",
    "Memᴰ·append-right": "Memᴰ-append_right",
    "Memᴰ·cast": "Memᴰ-cast",
    "Memᴰ·map": "Memᴰ-map",
    "Memᴰ·of-map": "Memᴰ-of_map",
    "InvImage·wf": "InvImage-wf",
}
NOT_NAMES = {"use", "mod", "let", "in", "where", "--", "unfolding", "infix", "infixl", "infixr", "λ", "elim", "as", "then", "else"}


def snake(part):
    """camelCase as camel_case; a part that begins with a capital stays."""
    if not part or not part[0].islower():
        return part
    return re.sub(r"(?<=[a-z0-9])([A-Z])", lambda m: "_" + m.group(1).lower(), part)


def is_fact(part):
    return part[:1].isupper()


def files():
    for folder in sorted(glob.glob("crates/*")):
        for sub in ("src", "specs", "proofs"):
            for top, dirs, names in os.walk(os.path.join(folder, sub)):
                dirs.sort()
                for n in sorted(names):
                    if n.endswith((".antt", ".rt")):
                        yield os.path.join(top, n)


def defined(paths):
    found = collections.OrderedDict()
    for p in paths:
        comment = re.compile(r"\s*--")
        for line in open(p, encoding="utf-8"):
            if comment.match(line):
                continue
            m = HEAD.match(line)
            if m and m.group(2) not in NOT_NAMES and re.search(r"[A-Za-zℕ]", m.group(2)) and "◌" not in m.group(2):
                found.setdefault(m.group(2), p)
    return found


def library():
    """The names that the kit's library defines."""
    names = set()
    for top in ("core", "std", "std_alloc", "std_heap", "std_io", "std_collections", "logic", "antt"):
        for folder, dirs, fs in os.walk(os.path.join(KIT, top)):
            for n in fs:
                if n.endswith(".antt"):
                    for line in open(os.path.join(folder, n), encoding="utf-8", errors="replace"):
                        m = HEAD.match(line)
                        if m:
                            names.add(m.group(2))
    return names


def spelled(name):
    """A name's new spelling: a dash stays beside the name of a type or a fact, else it is an underscore."""
    parts = [snake(p) for p in name.split("-")]
    out = parts[0]
    for a, b in zip(parts, parts[1:]):
        out += ("-" if is_fact(a) or is_fact(b) else "_") + b
    return out


def spoken(path):
    """The words of a file that stand for themselves: no paths of use lines, no fields, and of a source file its clauses alone."""
    text = open(path, encoding="utf-8").read()
    if path.endswith(".rt"):
        ghost = re.findall(r"^ghost use [^{]*\{([^}]*)\}", text, re.M)
        clauses = re.findall(r"^\s*(?:requires|ensures|ghost)\b[^{]*\{(.*)\}\s*$", text, re.M)
        named = re.findall(r"^\s*(?:pub )?(?:extern \"C\" )?fn \w+[^(]*\(([^)]*)\)", text, re.M)
        params = re.findall(r"(\w+):", " ".join(named))
        return set(WORD.findall(" ".join(ghost + clauses))) | set(params)
    lines = [re.sub(r"^((?:pub )?use )[^{]*", r"\1", l) for l in text.split("\n") if not re.match(r"\s*--|(pub )?mod ", l)]
    return set(WORD.findall(re.sub(r"(?<=[\w)'])\.(?=[\w])[\w'-]+", "", "\n".join(lines))))


def mapping():
    paths = [p for p in files() if p.endswith(".antt")]
    specs = defined([p for p in paths if "/specs/" in p])
    laws = defined([p for p in paths if "/proofs/" in p and not p.endswith("/Proof.antt")])
    kit = library()
    every = set()
    for p in files():
        every |= spoken(p)
    chosen = {"unit-work": "work_place", "rule-count": "rule_count_is", "unit-count": "unit_count_is"}
    old = [n for n in list(specs) + [n for n in laws if n not in specs]]
    to, taken, said = {}, set(), []
    changing = [n for n in old if n not in kit and spelled(n) != n]
    staying = (every | set(old)) - set(changing)
    for n in changing:
        new = chosen.get(n) or spelled(n)
        if n in specs and new in laws and new not in specs and new not in taken and new + "_lem" not in every | taken:
            # "A lemma that would have its function's name gets `_lem`."
            to[new] = new + "_lem"
            taken |= {new, new + "_lem"}
            said.append(f"{new}: {new}_lem, since {n} takes its name")
            to[n] = new
            continue
        if new in staying or new in taken:
            other = new
            new = new + "_lem" if n in laws and n not in specs else new + "_of"
            if new in staying or new in taken:
                new = other.replace("_", "-")
                if new == n or new in staying or new in taken:
                    said.append(f"{n}: stays, since {other} is taken")
                    continue
            said.append(f"{n}: {new}, since {other} is taken")
        taken.add(new)
        to[n] = new
    return to, said


def turn(text, to, code):
    def one(m):
        w = m.group(0)
        return to.get(w, w)

    out = []
    for line in text.split("\n"):
        at = re.search(r"(^|\s)--(\s|$)", line) if not code else re.search(r"(^|\s)//", line)
        body, tail = (line[: at.start()], line[at.start():]) if at else (line, "")
        body = WORD.sub(one, body)
        # In a comment camelCase and what stands in backquotes is a name.
        tail = re.sub(r"`([^`]+)`", lambda m: "`" + WORD.sub(one, m.group(1)) + "`", tail)
        tail = re.sub(r"\b[a-z]+[A-Z]\w*\b", one, tail)
        out.append(body + tail)
    return "\n".join(out)


def main():
    to, said = mapping()
    print(f"{len(to)} names change")
    print("\n".join(said))
    if "--list" in sys.argv:
        for a, b in to.items():
            print(a, "->", b)
    if "--dry" in sys.argv:
        return
    to.update(ALIASES)
    for p in files():
        text = open(p, encoding="utf-8").read()
        new = re.sub(r"(?<=[{ ])([^ ,{}]+) as \1(?=[,}])", r"\1", turn(text, to, p.endswith(".rt")))
        if new != text:
            open(p, "w", encoding="utf-8").write(new)


main()
