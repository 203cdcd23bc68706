#!/usr/bin/env python3
"""docs/links.py: holds the documents against the repository: links, paths, names and sizes.

- Each relative link of each .md file, and each picture, is there; an anchor is a heading of the page that is named.
- Each path in backquotes that begins with a folder of the root is there, a sample or a source also without its ending. Paths with a word in capitals are
  forms.
- In the pages of CITING a path below crates/ without its ending (`splitting/proofs/Last`) is a home: each name behind it in the same paragraph, up to the
  next home, is defined in that file. `judge::judge` is a function of that crate, in a module or not.
- No page of SIZES is larger than its bytes there.

The status is 1 where one of these does not hold, and each such place is printed."""
import os
import re
import sys
from functools import lru_cache
from pathlib import Path

ROOT = Path(__file__).resolve().parent.parent
CRATES = ROOT / "crates"
CITING = ["docs/THEOREMS.md"]
# The greatest size of a page in bytes: what its readers have time for, and a tenth.
SIZES = {
    "README.md": 10_000,
    "docs/PLANNER.md": 9_900,
    "docs/SHEETS.md": 9_900,
    "docs/CLINGO.md": 2_200,
    "docs/FORMAT.md": 8_800,
    "docs/HOST.md": 7_700,
    "docs/THEOREMS.md": 4_400,
    "docs/QUALIFICATION.md": 4_400,
    "docs/PROMISES.md": 15_400,
    "docs/PROOF.md": 39_400,
    "docs/ARCHITECTURE.md": 13_200,
    "docs/CHANGING.md": 11_000,
    "docs/DECISIONS.md": 27_500,
    "docs/LANDINGS.md": 33_000,
    "bench/TUNING.md": 19_800,
}
PAST = {"docs/LANDINGS.md"}  # tells of files that are gone
SKIPPED = {"target", ".git", "out"}  # folders whose files are nobody's documents
LINK = re.compile(r"\[[^\]]*\]\(([^)\s]+)\)|<img src=\"([^\"]+)\"")
TICKED = re.compile(r"`([^`\n]+)`")
PATH = re.compile(r"^[\w.-]+(?:/[\w.*-]+)*/?$")
HOME = re.compile(r"^\w+/(?:specs|proofs|src)/[\w/]+$")
NAME = re.compile(r"^[^\s/.():=]+$")
FUNCTION = re.compile(r"^(\w+)(?:::\w+)*::(\w+)$")
FORM = re.compile(r"(?<![\w.-])[A-Z]{2,}(?![\w-])|\.\.")
ENDINGS = ("", ".plan", ".lp", ".antt", ".rt", ".rs", ".py", ".md")

wrong = []


def pages():
    found = []
    for folder, folders, names in os.walk(ROOT):
        folders[:] = [name for name in folders if name not in SKIPPED]
        found += [Path(folder) / name for name in names if name.endswith(".md")]
    yield from sorted(found)


def lines_of(page):
    """Lines with their numbers, but for code that stands apart."""
    is_code = False
    for number, line in enumerate(page.read_text().splitlines(), 1):
        if line.startswith("```"):
            is_code = not is_code
        elif not is_code and not line.startswith("    "):
            yield number, line


@lru_cache(maxsize=None)
def anchors(page):
    """The anchors of a page's headings: small letters, hyphens for spaces, other signs left out."""
    headings = [line.lstrip("# ") for _, line in lines_of(page) if line.startswith("#")]
    return {re.sub(r"[^\w\- ]", "", heading.lower()).replace(" ", "-") for heading in headings}


def hold_link(page, link):
    """What is wrong with a link, or nothing."""
    path, _, anchor = link.partition("#")
    target = (page.parent / path).resolve() if path else page
    if not target.exists():
        return f"there is no {path}"
    if anchor and anchor not in anchors(target):
        return f"{path or page.name} has no heading #{anchor}"
    return None


def hold_path(page, token):
    """What is wrong with a path in backquotes, or nothing; what does not begin with a folder of the root is no path. It may be the page's own folder's."""
    first = token.split("/")[0]
    if "/" not in token or not PATH.match(token) or FORM.search(token) or first in SKIPPED or not (ROOT / first).is_dir():
        return None
    is_there = any(any(folder.glob(token.rstrip("/") + ending)) for folder in (ROOT, page.parent) for ending in ENDINGS)
    return None if is_there else f"there is no {token}"


@lru_cache(maxsize=None)
def source_of(home):
    """A file below crates/ by its path without its ending."""
    files = [CRATES / (home + ending) for ending in (".antt", ".rt")]
    return next((file.read_text() for file in files if file.exists()), None)


def is_defined(name, source):
    """Whether a source defines a name: a definition, a theorem, a field, a constructor, a function."""
    name = re.escape(name)
    return re.search(rf"^\s*(?:(?:pub|abbrev|unfoldable|opaque|record|data)\s+)*{name}\s+(?:[^\s:]+\s+)*:", source, re.M) or re.search(
        rf"^\s*(?:pub )?(?:record|data|fn|struct|enum|const) {name}\b", source, re.M)


def has_function(crate, name):
    return any(re.search(rf'^(?:pub )?(?:extern "C" )?fn {name}\b', file.read_text(), re.M) for file in (CRATES / crate / "src").glob("*.rt"))


def paragraphs(page):
    """Runs of lines up to a blank one, each with the number of its first line; a row of a table is one of its own."""
    start, lines = 0, []
    for number, line in [*lines_of(page), (0, "")]:
        if lines and (not line.strip() or line.startswith("|") or number != start + len(lines)):
            yield start, " ".join(lines)
            lines = []
        if line.strip():
            start, lines = (start, [*lines, line]) if lines else (number, [line])


def hold_names(paragraph):
    """What is wrong with the names of a paragraph, each held against the home before it."""
    home = source = None
    for token in TICKED.findall(paragraph):
        function = FUNCTION.match(token)
        if HOME.match(token):
            home, source = token, source_of(token)
            if source is None:
                yield f"there is no file crates/{token}"
        elif function:
            if not has_function(*function.groups()):
                yield f"there is no function {token}"
        elif source is not None and NAME.match(token) and not is_defined(token, source):
            yield f"{token} is not defined in crates/{home}"


def main():
    for page in pages():
        place = page.relative_to(ROOT).as_posix()
        for number, line in lines_of(page):
            links = [a or b for a, b in LINK.findall(TICKED.sub("", line)) if not re.match(r"[a-z]+:", a or b)]
            found = [hold_link(page, link) for link in links] + [hold_path(page, token) for token in TICKED.findall(line) if place not in PAST]
            wrong.extend(f"{place}:{number}: {what}" for what in found if what)
        for number, paragraph in paragraphs(page) if place in CITING else []:
            wrong.extend(f"{place}:{number}: {what}" for what in hold_names(paragraph))
    for place, most in SIZES.items():
        size = len((ROOT / place).read_bytes()) if (ROOT / place).exists() else None
        if size is None or size > most:
            wrong.append(f"{place}: is missing" if size is None else f"{place}: {size} bytes, and {most} at most")
    for line in wrong:
        print(line, file=sys.stderr)
    return 1 if wrong else 0


if __name__ == "__main__":
    sys.exit(main())
