#!/usr/bin/env python3
"""docs/points.py [-v] [POINT..]: counts in crates/*/src the places of the points of docs/DESIGN-PASS.md, and with -v prints each.

1  own enums of the shape of Option or Result, a flag with a value beside it, numbers that stand for "none"
2  twins: functions of the same text but for names and numbers, and constants of one name or one value in two crates
3  loops by hand: `while` and `loop`
4  conversion, comparison and copying by hand: functions that only cast, that only say which variant it is, or that copy word by word
5  a fact in the requires of three or more functions, and three or more parameters that stand together in three or more functions
6  an array with its count beside it, parallel arrays, a slice passed with its base or its count
7  a `match` of four or more arms that calls another function in each
"""
import re
import sys
from itertools import combinations
from pathlib import Path

ROOT = Path(__file__).resolve().parent.parent
FILES = sorted(ROOT.glob("crates/*/src/**/*.rt"))
WORD = re.compile(r"[A-Za-z_]\w*|0x[0-9a-f_]+|\d[\d_]*|\S")
KEPT = {"if", "else", "while", "for", "in", "let", "mut", "return", "match", "loop", "as", "true", "false", "fn", "usize", "u64", "u8", "bool"}
INFALLIBLE = re.compile(r"^(Some|None|Ok|Err)$")


def place(file, text, at):
    return f"{file.relative_to(ROOT / 'crates')}:{text.count(chr(10), 0, at) + 1}"


def uncommented(text):
    return re.sub(r"//.*", lambda m: " " * len(m[0]), text)


def items(kind):
    """Name, body and place of each enum or struct."""
    for file in FILES:
        text = uncommented(file.read_text())
        for m in re.finditer(rf"^(?:pub )?{kind} (\w+)[^{{;]*\{{(.*?)^\}}", text, re.M | re.S):
            yield m[1], m[2], place(file, text, m.start())


def functions():
    """Name, parameters, contract, body and place of each function."""
    for file in FILES:
        text = uncommented(file.read_text())
        for m in re.finditer(r"^( *)(?:pub )?(?:extern \"C\" )?fn (\w+)", text, re.M):
            end = re.compile(rf"^{m[1]}\}}$", re.M).search(text, m.end())
            body = re.compile(rf"^{m[1]}\{{$|\{{$", re.M).search(text, m.end())
            if not end or not body or body.start() > end.start():
                continue
            head = text[m.end():body.start()]
            cut = re.search(r"\n\s*(requires|ensures)", head)
            yield m[2], head[:cut.start()] if cut else head, head[cut.start():] if cut else "", text[body.end():end.start()], place(file, text, m.start())


def variants(body):
    return [v.strip() for v in re.findall(r"^ {4}(\w+(?:\([^)]*\)| \{.*?^ {4}\})?)[^\n]*$", body, re.M | re.S)]


def point_1():
    for name, body, at in items("enum"):
        own = variants(body)
        bare = [v for v in own if re.fullmatch(r"\w+", v)]
        if any(v.startswith("Refused") for v in own) or (len(own) == 2 and len(bare) == 1):
            yield f"{at} enum {name}: {', '.join(own)}"
    for name, body, at in items("struct"):
        if re.search(r": bool,", body) and body.count(":") > 1:
            yield f"{at} struct {name}: a flag with values beside it"
        if re.search(r"^ +(?:pub )?count: usize,", body, re.M) and "Found" not in name and re.search(r"0 <[^;]*\.count|once", name + body):
            yield f"{at} struct {name}: a count of none or one with values beside it"
    for name, body, at in items("struct"):
        if name in ("Declared", "OnceWord"):
            yield f"{at} struct {name}: a count of none or one with values beside it"


def point_2():
    seen = {}
    for name, params, contract, body, at in functions():
        numbers = {}
        tokens = [t if t in KEPT or not re.match(r"\w", t) else numbers.setdefault(t, f"${len(numbers)}") for t in WORD.findall(params + body)]
        if len(tokens) > 24:
            seen.setdefault(" ".join(tokens), []).append(f"{at} {name}")
    for same in seen.values():
        for other in same[1:]:
            yield f"{other} is as {same[0]}"
    constants = {}
    for file in FILES:
        for m in re.finditer(r"^(?:pub )?const (\w+): \w+ = (.*?);", uncommented(file.read_text()), re.M):
            constants.setdefault(m[1], []).append((file.parts[-3], m[2]))
    for name, homes in constants.items():
        if len({home for home, _ in homes}) > 1:
            yield f"const {name} in {', '.join(home for home, _ in homes)}"


def point_3():
    for file in FILES:
        text = uncommented(file.read_text())
        for m in re.finditer(r"^ *(while\b.*|loop) \{", text, re.M):
            yield f"{place(file, text, m.start())} {m[1]}"


def point_4():
    for name, params, contract, body, at in functions():
        plain = body.strip()
        if re.fullmatch(r"\w+ as \w+", plain):
            yield f"{at} {name}: only casts"
        if re.search(r"=> (true|false),", plain) and plain.startswith("match") and not re.search(r"=> (?!true|false)", plain):
            yield f"{at} {name}: only says which variant"
        if re.search(r"(\w+)\[([^\]]*\b(\w+))\] = (\w+)\[\3\];", plain) and plain.count(";") <= 6:
            yield f"{at} {name}: copies word by word"
        if re.search(r"if (\w)\.(\w+) != (\w)\.\2", plain):
            yield f"{at} {name}: compares field by field"


def point_5():
    facts, groups, single = {}, {}, {}
    for name, params, contract, body, at in functions():
        m = re.search(r"requires(?: \w+)? \{(.*?)\}\s*(?=\n\s*(?:requires|ensures)|$)", contract, re.S)
        for fact in (re.split(r" × ", " ".join(m[1].split())) if m else []):
            fact = re.sub(r"\.(now|old)\b", "", fact.strip().strip("()"))
            facts.setdefault(fact, []).append(f"{at} {name}")
        named = [f"{n}: {t.strip()}" for n, t in re.findall(r"(\w+): ([^,()]+)", params)]
        for one in named:
            single.setdefault(one, set()).add(f"{at} {name}")
        for three in combinations(sorted(named), 3):
            groups.setdefault(three, set()).add(f"{at} {name}")
    for fact, where in sorted(facts.items(), key=lambda f: -len(f[1])):
        if len(where) >= 3 and not re.fullmatch(r"\S+ [<≤] \S+", fact):
            yield f"fact {fact} in {len(where)} functions"
    # Parameters travel together where more than half of the functions that have one of them have all.
    together = []
    for three, where in sorted(groups.items(), key=lambda g: -len(g[1])):
        if len(where) >= 3 and 2 * len(where) > max(len(single[one]) for one in three):
            for other in together:
                if len(other[0] & set(three)) >= 2:
                    other[0].update(three)
                    break
            else:
                together.append((set(three), len(where)))
    for names, n in together:
        yield f"parameters {', '.join(sorted(names))} in {n} functions"


def point_6():
    for name, body, at in items("struct"):
        arrays = re.findall(r"(\w+): \[[^;\]]+; (\w+)\]", body)
        if any(re.search(r"\b(length|\w*count)\b: usize", body) for _ in arrays[:1]):
            yield f"{at} struct {name}: arrays with counts beside them"
        if len({size for _, size in arrays}) < len(arrays):
            yield f"{at} struct {name}: parallel arrays"
    for name, params, contract, body, at in functions():
        if re.search(r"&(?:mut )?\[\w+\]", params) and re.search(r"\b(base|at|count|n): usize", params):
            yield f"{at} {name}: a slice with a place or a count"


def point_7():
    for name, params, contract, body, at in functions():
        for m in re.finditer(r"match [^{]*\{(.*)", body, re.S):
            arms = re.findall(r"=> (\w+(?:::\w+)*)\(", m[1])
            if len({a for a in arms if not a[0].isupper()}) >= 4:
                yield f"{at} {name}: {len(arms)} arms"
                break


def main():
    wordy = "-v" in sys.argv
    chosen = [a for a in sys.argv[1:] if a != "-v"] or "1234567"
    for point in chosen:
        found = list(globals()[f"point_{point}"]())
        print(f"point {point}: {len(found)}")
        if wordy:
            print(*(f"  {line}" for line in found), sep="\n")


if __name__ == "__main__":
    main()
