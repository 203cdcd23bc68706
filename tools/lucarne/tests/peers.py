#!/usr/bin/env python3
"""tools/lucarne/tests/peers.py [TOOL]: the small programs of the test suites of gringo, clingo and clasp, listed by the tool.

The suites are fetched by apt-get source with settings of their own, so that nothing of the machine's is changed; none of their text is kept here. Each
program is listed as a sheet and as gringo's ground program, and each list is held against `clingo --eq=0 --no-gamma` and, where the suite prints the
answers itself, against these. The last lines are the figures, among them those of the programs within 64 atoms that clingo takes; -v tells why others are
refused. The exit status is 1 where a list differs, a run has no end, or the tool has trouble.
"""
import json
import os
import re
import subprocess
import sys
import tarfile

TOOL = os.path.abspath(sys.argv[1] if len(sys.argv) > 1 else "target/lucarne/lucarne")
WORK = "target/peers"
PACKAGES = ["gringo", "clasp"]
SOURCES = "deb-src [signed-by=/usr/share/keyrings/debian-archive-keyring.gpg] http://deb.debian.org/debian bookworm main\n"
SECONDS = 20
CLINGO = ["clingo", "0", "--outf=2", "--warn=none", "--eq=0", "--no-gamma"]
# A C++ text as comments, strings (plain or raw) and all else.
PIECES = re.compile(r'//[^\n]*|/\*.*?\*/|R"(?P<mark>[^(]*)\((?P<raw>.*?)\)(?P=mark)"|"(?P<plain>(?:[^"\\]|\\.)*)"|\'(?:[^\'\\]|\\.)\'|.', re.S)
ESCAPES = {"n": "\n", "t": "\t"}


def fetch():
    """The folders of the suites' sources."""
    folder = os.path.abspath(WORK)
    for part in ["lists/partial", "cache/archives/partial"]:
        os.makedirs(f"{folder}/{part}", exist_ok=True)
    with open(f"{folder}/sources.list", "w") as sources:
        sources.write(SOURCES)
    settings = {"Dir::Etc::sourcelist": "sources.list", "Dir::Etc::sourceparts": "none", "Dir::State::lists": "lists", "Dir::Cache": "cache"}
    apt = ["apt-get", "-q"] + [word for name, value in settings.items() for word in ("-o", f"{name}={folder}/{value}")]
    if not any(name.endswith(".orig.tar.gz") for name in os.listdir(folder)):
        subprocess.run(apt + ["update"], check=True, stdout=subprocess.DEVNULL)
        subprocess.run(apt + ["source", "--download-only"] + PACKAGES, check=True, cwd=folder, stdout=subprocess.DEVNULL)
    for name in sorted(os.listdir(folder)):
        if name.endswith(".orig.tar.gz"):
            with tarfile.open(f"{folder}/{name}") as archive:
                archive.extractall(folder, [member for member in archive if not member.issym()])  # rt takes no links in the checkout
    return sorted(entry.path for entry in os.scandir(folder) if re.match(r"(clingo|clasp)-", entry.name))


def pieces(text):
    """Strings, joined where they stand side by side, and the code between them: pairs (is a string, text)."""
    found = []
    for match in PIECES.finditer(text):
        if match.group().startswith(("//", "/*")):
            continue
        is_string = match.group("raw") is not None or match.group("plain") is not None
        value = match.group()
        if is_string:
            plain = match.group("plain")
            value = match.group("raw") if plain is None else re.sub(r"\\(.)", lambda sign: ESCAPES.get(sign[1], sign[1]), plain, flags=re.S)
        elif found and found[-1][0] and value.isspace():
            continue
        if found and found[-1][0] == is_string:
            found[-1] = (is_string, found[-1][1] + value)
        else:
            found.append((is_string, value))
    return found


def in_code(path):
    """The programs in a C++ file of tests, each with the answers that the test wants where it says so."""
    with open(path, encoding="utf-8", errors="replace") as file:
        parts = pieces(file.read())
    for place, (is_string, text) in enumerate(parts):
        before = parts[place - 1][1] if place else ""
        call = re.search(r"\b(solve|ground|parse|add)\(\s*$|\blpAdd\([^;]*,\s*$", before)
        if not is_string or not call or not re.search(r"[.\]]\s*$", re.sub(r"%[^\n]*", "", text)):
            continue
        wanted = None
        if re.fullmatch(r"\s*==\s*IO::to_string\(solve\(\s*", before):
            wanted = answers(parts[place - 2][1], prefixes(parts, place))
        yield text, wanted


def prefixes(parts, place):
    """The names that a test looks at: `solve("..", {"p(", "q("})`."""
    found = []
    place += 1
    if not parts[place][1].lstrip().startswith(","):
        return [""]
    while not parts[place][0] and "}" not in parts[place][1] and parts[place + 1][0]:
        found.append(parts[place + 1][1])
        place += 2
    return found or [""]


def answers(printed, starts):
    """`([[a,p(1,2)],[b]],[messages])`: the answers as sets of names, with the names that are looked at."""
    start, depth, answer, name, found = printed.index("[") + 1, 0, [], "", []
    for sign in printed[start:]:
        if depth == 0 and sign == "]":
            return {frozenset(answer) for answer in found}, starts
        if sign in "([":
            depth += 1
        if sign in ")]":
            depth -= 1
        if depth == 1 and sign == "[":
            answer, name = [], ""
        elif depth == 0 and sign == "]" or depth == 1 and sign == ",":
            answer += [name] if name else []
            name = ""
            if depth == 0:
                found.append(answer)
        elif depth > 0:
            name += sign
    return None


def in_sheets(path):
    """A program of clingo's own tests, with its answers where it was run without options."""
    with open(path, encoding="utf-8", errors="replace") as file:
        text = file.read()
    base = path[: -len(".lp")]
    if os.path.exists(base + ".cmd") or not os.path.exists(base + ".sol"):
        return text, None
    with open(base + ".sol") as file:
        lines = file.read().split("\n")
    steps = [number for number, line in enumerate(lines) if line.startswith("Step:")]
    end = next((number for number, line in enumerate(lines) if line in ("SAT", "UNSAT")), len(lines))
    if len(steps) != 1:
        return text, None
    return text, ({frozenset(line.split()) for line in lines[steps[0] + 1 : end]}, [""])


def programs(folders):
    """All programs, each once: name, text, wanted answers."""
    seen = set()
    for folder in folders:
        for root, _, files in sorted(os.walk(folder)):
            if "/tests" not in root or "/clasp/" in root and "clingo-" in root:
                continue
            for name in sorted(files):
                path = os.path.join(root, name)
                found = in_code(path) if name.endswith((".cc", ".cpp")) else [in_sheets(path)] if name.endswith(".lp") else []
                for number, (text, wanted) in enumerate(found):
                    if text not in seen:
                        seen.add(text)
                        yield f"{os.path.relpath(path, WORK)}#{number}", text, wanted


def run(command, text):
    """Exit status, output and errors of a command; the status is None where it does not end."""
    try:
        done = subprocess.run(command, input=text.encode(), capture_output=True, timeout=SECONDS)
    except subprocess.TimeoutExpired:
        return None, "", ""
    return done.returncode, done.stdout.decode(), done.stderr.decode()


def listed(printed):
    """The answers of clingo's JSON, or of the tool's."""
    calls = json.loads(printed).get("Call", [])
    return {frozenset(witness.get("Value", [])) for call in calls for witness in call.get("Witnesses", [])}


def compare(text, wanted, ground):
    """One program, as a sheet or as a ground program: a word of how it went, and what is to be told of it."""
    status, printed, errors = run([TOOL, "list", "-", "--as", "json"], ground if ground is not None else text)
    if status is None:
        return ("both without end" if run(CLINGO, text)[0] is None else "without end"), ""
    if status == 2:
        return "refused", errors.split("\n")[0]
    if status not in (0, 1):
        return "trouble", errors
    ours, (clingo, theirs, _) = listed(printed), run(CLINGO, text)
    if clingo is None or clingo & 1 or not theirs:
        return "not listed by clingo", errors
    if ours != listed(theirs):
        return "different", f"only ours {sorted(map(sorted, ours - listed(theirs)))}, only clingo's {sorted(map(sorted, listed(theirs) - ours))}"
    if wanted is not None and "#show" not in text:
        answers, starts = wanted
        if {frozenset(name for name in answer if name.startswith(tuple(starts))) for answer in ours} != answers:
            return "different", f"the suite wants {sorted(map(sorted, answers))}"
        return "the same, also as the suite prints", ""
    return "the same", ""


def atoms(ground):
    """How many atoms a ground program has beside its facts."""
    found = set()
    for line in ground.split("\n"):
        kind, *numbers = (int(word) for word in line.split()) if line.startswith(("1 ", "5 ")) else (0,)
        if kind == 5:
            found.add(numbers[0])
        if kind == 1:
            choice, count = numbers[:2]
            heads, body = numbers[2 : 2 + count], numbers[2 + count :]
            literals = body[3::2] if body[0] else body[2:]
            if choice or count != 1 or literals:
                found.update(abs(literal) for literal in heads + literals)
    return len(found)


def reason(told):
    """Why a program is refused, without its own names and numbers."""
    return re.sub(r"^-:\d+:\d+: |\d+|\"[^\"]*\"|^[^:]* is (?=shown|driven)", "", told)


def main():
    count, reasons, within = {}, {}, []
    for name, text, wanted in programs(fetch()):
        status, ground, _ = run(["gringo", "--output=intermediate", "--warn=none"], text)
        ways = [("sheet", None)] + ([("ground program", ground)] if status == 0 else [])
        for way, given in ways:
            how, told = compare(text, wanted, given)
            count[way, how] = count.get((way, how), 0) + 1
            if how in ("different", "without end", "trouble", "not listed by clingo"):
                print(f"{how} as {way}: {name}: {told}\n{text}\n")
            is_small = way == "sheet" and status == 0 and atoms(ground) <= 64
            is_within = is_small and (how.startswith("the same") or run(CLINGO, text)[0] in (10, 20, 30))
            within += [how] if is_within else []
            if how == "refused" and way == "sheet":
                both = reasons.setdefault(reason(told), [0, 0])
                both[0] += 1
                both[1] += is_within
    if "-v" in sys.argv:
        print("refused, and of these within 64 atoms and taken by clingo:")
        for why, (number, small) in sorted(reasons.items(), key=lambda pair: pair[1], reverse=True):
            print(f"{number:5} {small:5} {why}")
    for (way, how), number in sorted(count.items()):
        print(f"{way}: {number} {how}")
    print(f"within 64 atoms and taken by clingo: {len(within)}, of which {within.count('refused')} are refused")
    bad = sum(number for (_, how), number in count.items() if how in ("different", "without end", "trouble"))
    print(f"{sum(count.values()) - bad} passed, {bad} failed")
    return bad > 0 or not count


if __name__ == "__main__":
    sys.exit(main())
