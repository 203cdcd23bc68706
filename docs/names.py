#!/usr/bin/env python3
"""docs/names.py: holds every name that a document cites against the sources.

In docs/PROOF.md each table cell but the first of its row is read from the left. A path (`judge/specs/Answers`, below crates/, without its ending) is a home,
and each name behind it must be defined in that file: a definition, a record with its fields, a constructor, a function, a struct or an enum. Behind a folder
come its files; `../Sheets` is the file beside the last one. A cell without a home has that of its column's head. `judge::judge` must be a function of that
crate, and the names behind it, up to the next path or semicolon, must stand in its contract. The tables of tests/must-fail/README.md must have just the edits
that the gate tries, and the patches of tests/bent. In these and the other DOCUMENTS each name in backquotes must stand somewhere in the sources. The status is
1 where one of these does not hold, and each such place is printed.
"""
import os
import re
import sys
from functools import lru_cache
from pathlib import Path

ROOT = Path(__file__).resolve().parent.parent
CRATES = ROOT / "crates"
PROOF = "docs/PROOF.md"
WRONG = "tests/must-fail/README.md"
HEADS = ("sentence", "step", "read", "crate", "bent program")
DOCUMENTS = [
    PROOF, WRONG, "docs/ARCHITECTURE.md", "docs/CHANGING.md", "docs/FIRST-HOUR.md", "docs/DECISIONS.md", "bench/TUNING.md", "tools/lucarne/DECISIONS.md",
]
TICKED = re.compile(r"`([^`]+)`")
HOME = re.compile(r"^(?!tests/)(\w+)/(specs|proofs|src|must-fail)(/[\w/]+)?$")
FUNCTION = re.compile(r"^(\w+)::(?:(\w+)::)?(\w+)$")
DEFINED = re.compile(r"^\s*(?:(?:pub|abbrev|unfoldable|opaque|irreducible|record|data)\s+)*([^\s:(){}]+)(.*)$")
IN_CODE = re.compile(r"^\s*(?:pub )?(?:extern \"C\" )?(?:fn|struct|enum|const) (\w+)|^    (?:pub )?(\w+)(?:\(.*\))?[:,]", re.M)
NAME = re.compile(r"^[A-Za-z][\w'-]*$")
SOURCES = ["crates", "tests", "bench", "tools", "host", "include", "examples", "docs", ".ci"]
ENDINGS = {".rt", ".antt", ".rs", ".py", ".sh", ".c", ".h", ".cc", ".txt", ".toml", ".edit", ".patch", ""}

wrong = []
bent = set()  # the patches of tests/bent that are named


def tell(place, line, what):
    wrong.append(f"{place}:{line}: {what}")


@lru_cache(maxsize=None)
def defined_in(home):
    """The names that a file defines, the files of a folder, or None where there is neither."""
    if (CRATES / home).is_dir():
        return {file.stem for file in (CRATES / home).iterdir()}
    for ending in (".antt", ".rt"):
        file = CRATES / (home + ending)
        if file.exists():
            text = file.read_text()
            return definitions(text) if ending == ".antt" else {a or b for a, b in IN_CODE.findall(text)}
    return None


def definitions(text):
    """The names that a file of definitions or laws declares: `record N`, `data N`, and each `N :`, fields and constructors among them."""
    names = set()
    for line in text.splitlines():
        if line.lstrip().startswith(("--", "use ", "pub use ", "module ")):
            continue
        found = DEFINED.match(line)
        if not found:
            continue
        name, rest = found.groups()
        if re.match(r"\s*(?:pub )?(record|data) ", line) or re.match(r"^(?:\s+[^\s:(){}=]+)*\s*:(\s|$)", rest):
            names.add(name)
            names.update(word for word in rest.split(":")[0].split() if not re.search(r"[(){}=]", word))
    return names


@lru_cache(maxsize=None)
def contract_of(crate, function):
    """The text of a function from its name to its body, or None."""
    for source in sorted((CRATES / crate / "src").glob("*.rt")):
        found = re.search(rf'^(?:pub )?(?:extern "C" )?fn {function}\b.*?^(?:{{|.*[^{{}}] {{)$', source.read_text(), re.M | re.S)
        if found:
            return found.group()
    return None


def hold_cell(place, line, cell, head=""):
    """A cell of PROOF: each name against the home before it, or against the home in the column's head."""
    home = next((token for token in TICKED.findall(head) if HOME.match(token)), None)
    known, contract = defined_in(home) if home else None, None
    for token in re.findall(r"`[^`]+`|;", cell):
        if token == ";":
            contract = None
            continue
        token = token.strip("`")
        if token.startswith("../") and home:
            token = home.rsplit("/", 1)[0] + token[2:]
        function = FUNCTION.match(token)
        if HOME.match(token):
            home, known, contract = token, defined_in(token), None
            if known is None:
                tell(place, line, f"there is no file crates/{token}")
        elif function:
            crate, _, name = function.groups()
            contract = contract_of(crate, name)
            if contract is None:
                tell(place, line, f"there is no function {token}")
        elif "/" in token:
            if not any(ROOT.glob(token)) and not any(ROOT.glob(token + ".*")):
                tell(place, line, f"there is no {token}")
        elif contract is not None:
            if not re.search(rf"(?<![\w-]){re.escape(token)}(?![\w-])", contract):
                tell(place, line, f"`{token}` is not in the contract before it")
        elif home is None:
            tell(place, line, f"`{token}` has no home before it")
        elif known is not None and token not in known:
            tell(place, line, f"`{token}` is not defined in crates/{home}")


def cells_of(text):
    """The rows of all tables: line, heading above, and cells."""
    heading = ""
    for number, line in enumerate(text.splitlines(), 1):
        if line.startswith("#"):
            heading = line.lstrip("# ")
        if line.startswith("|") and not re.match(r"^\|[\s:|-]+$", line):
            yield number, heading, [cell.strip() for cell in re.split(r"(?<!\\)\|", line)[1:-1]]


def gate_edits(crate):
    """The edits of a crate that the gate tries."""
    edits = {file.stem for file in (CRATES / crate / "must-fail").glob("*.edit")}
    for line in (ROOT / "tests/must-fail/gate.txt").read_text().splitlines():
        words = re.split(r"[\s/]+", line.split("#")[0].strip())
        if words and words[0] == crate:
            edits.update(word.removesuffix(".edit") for word in words[1:])
    return edits


def hold_edits(line, cells):
    crates = TICKED.findall(cells[0])
    tried = set().union(*(gate_edits(crate) for crate in crates))
    told = set(TICKED.findall(cells[1]))
    for name in sorted(told - tried):
        tell(WRONG, line, f"the gate tries no edit {name} of {', '.join(crates)}")
    for name in sorted(tried - told):
        tell(WRONG, line, f"the edit {name} of {', '.join(crates)}, which the gate tries, is missing")
    return crates


def hold_bent(line, cells):
    for name in TICKED.findall(cells[0]):
        if not (ROOT / f"tests/bent/{name}.patch").exists():
            tell(WRONG, line, f"there is no tests/bent/{name}.patch")
        bent.add(name)
    hold_cell(WRONG, line, cells[-1])


def hold_proof():
    heads = []
    for line, _, cells in cells_of((ROOT / PROOF).read_text()):
        if cells[0] in HEADS:
            heads = cells
            continue
        for cell, head in list(zip(cells, heads))[0 if heads[0] == "read" else 1:]:
            hold_cell(PROOF, line, cell, head)


def hold_wrong_programs():
    edited, heads = set(), []
    for line, _, cells in cells_of((ROOT / WRONG).read_text()):
        if cells[0] in HEADS:
            heads = cells
        elif heads[0] == "crate":
            edited.update(hold_edits(line, cells))
        else:
            hold_bent(line, cells)
    for crate in sorted(folder.name for folder in CRATES.iterdir() if folder.is_dir()):
        if gate_edits(crate) and crate not in edited:
            tell(WRONG, 0, f"the edits of {crate} are missing")
    for patch in sorted((ROOT / "tests/bent").glob("*.patch")):
        if patch.stem not in bent:
            tell(WRONG, 0, f"the bent program {patch.stem} is missing")


def words_of_sources():
    """Every word of the sources, and every path."""
    words, paths = set(), set()
    for file in (file for folder in SOURCES for file in files_below(ROOT / folder)):
        paths.add(file.stem)
        paths.update(file.relative_to(ROOT).parts)
        if file.suffix in ENDINGS and file.stat().st_size < 400_000:
            words.update(re.findall(r"[A-Za-z][\w'-]*", file.read_text(errors="ignore")))
    return words, paths


def files_below(top):
    """The files below a folder, but for what is made: target/, and out/ of a crate."""
    for folder, folders, names in os.walk(top):
        folders[:] = [name for name in folders if name != "target" and not (name == "out" and Path(folder).parent == CRATES)]
        yield from (Path(folder) / name for name in names)


def hold_documents():
    words, paths = words_of_sources()
    for document in DOCUMENTS:
        if not (ROOT / document).exists():
            tell(document, 0, "there is no such document")
            continue
        text = (ROOT / document).read_text()
        for number, line in enumerate(text.splitlines(), 1):
            for token in TICKED.findall(line):
                if ".." in token or token.startswith("target/"):
                    continue
                for part in re.split(r"::|/", token):
                    part = re.sub(r"\.(antt|rt|rs|md|py|sh|c|h|plan|lp|txt|json)$", "", part).strip(".")
                    if NAME.match(part) and part not in words and part not in paths:
                        tell(document, number, f"`{token}` stands nowhere in the sources")


def main():
    hold_proof()
    hold_wrong_programs()
    hold_documents()
    for line in wrong:
        print(line, file=sys.stderr)
    return 1 if wrong else 0


if __name__ == "__main__":
    sys.exit(main())
