#!/usr/bin/env python3
"""tests/documents.py [--tool TOOL] [PAGE..]: runs the commands that the readers' pages print, and holds what they print against the page.

A command stands behind '$ ' in an indented block; the lines behind it, up to a blank line or the next command, are its whole output, and '..' alone stands for
any lines. A command in backquotes that begins with 'lucarne ' or 'gringo ' must run too, and what it prints is not compared; one with a word in capitals,
such as GROUP, is a form and not a command. The status of each must be 0 or 1, of which 1 says that lists differ or that there is no position; one whose output
is printed may be 2, refused. Commands run in a folder that looks like the repository's root, so that files which they write do not stay. In STRICT pages
every indented block is of commands.

TOOL is lucarne (default target/lucarne-tests/lucarne). Commands of a program that is not installed or built are skipped with a word. The last line is
'N passed, M failed'."""
import argparse
import os
import re
import shutil
import subprocess
import sys
import tempfile
from pathlib import Path

ROOT = Path(__file__).resolve().parent.parent
PAGES = ["README.md", "docs/PLANNER.md", "docs/SHEETS.md", "docs/CLINGO.md", "docs/QUALIFICATION.md"]
STRICT = {"PLANNER.md"}
SECONDS = 60
ANY = ".."
FORM = re.compile(r"(?<![\w.])[A-Z]{3,}\b")
PROGRAMS = {"gringo": r"^gringo ", "clingo": r"--check-with clingo|^clingo ", "target/bin/settle": r"target/bin/settle\b"}


def blocks(page):
    """The indented blocks of a page, each a list of lines without the indentation; one ends where a line is blank or not indented."""
    block = []
    for line in [*page.splitlines(), ""]:
        if line.startswith("    "):
            block.append(line[4:])
        elif block:
            yield block
            block = []


def shown(page, is_strict):
    """Commands with their output; of a strict page what is no command is handed out as such."""
    for block in blocks(page):
        if not block[0].startswith("$ "):
            if is_strict:
                yield None, block
            continue
        starts = [place for place, line in enumerate(block) if line.startswith("$ ")]
        for start, end in zip(starts, [*starts[1:], len(block)]):
            yield block[start][2:], block[start + 1 : end]


def inline(page):
    """Commands in backquotes."""
    for found in re.findall(r"`([^`\n]+)`", page):
        command = found.replace("\\|", "|")
        if re.match(r"(lucarne|gringo) \S", command) and not FORM.search(command):
            yield command


def fits(expected, found):
    """Whether lines are the expected ones, of which '..' stands for any."""
    if ANY not in expected:
        return expected == found
    place = expected.index(ANY)
    if expected[:place] != found[:place]:
        return False
    rest = expected[place + 1 :]
    return any(fits(rest, found[start:]) for start in range(place, len(found) + 1))


def missing_program(command):
    """The program that a command asks for and that is not there."""
    for program, pattern in PROGRAMS.items():
        is_there = (ROOT / program).exists() if "/" in program else shutil.which(program)
        if re.search(pattern, command) and not is_there:
            return program
    return None


def looks_like_root(folder, tool):
    """Fills a folder with links to all that stands in the root; the tool comes first on the path."""
    for entry in ROOT.iterdir():
        (folder / entry.name).symlink_to(entry)
    programs = folder / ".bin"
    programs.mkdir()
    (programs / "lucarne").symlink_to(tool)
    return {**os.environ, "PATH": f"{programs}:{os.environ['PATH']}", "LC_ALL": "C.UTF-8"}


def run(command, folder, environment):
    try:
        done = subprocess.run(["bash", "-o", "pipefail", "-c", command], cwd=folder, env=environment, stdin=subprocess.DEVNULL, stdout=subprocess.PIPE,
                              stderr=subprocess.STDOUT, timeout=SECONDS)
    except subprocess.TimeoutExpired:
        return None, [f"it took longer than {SECONDS} seconds"]
    return done.returncode, done.stdout.decode().splitlines()


class Trial:
    """What was run so far."""

    def __init__(self, folder, environment):
        self.folder, self.environment = folder, environment
        self.passed = self.failed = 0

    def result(self, holds, place, what):
        self.passed, self.failed = self.passed + bool(holds), self.failed + (not holds)
        if not holds:
            print(f"FAILED: {place}: {what}")

    def command(self, place, command, expected=None):
        program = missing_program(command)
        if program:
            print(f"skipped, since {program} is not installed: {place}: {command}")
            return
        status, found = run(command, self.folder, self.environment)
        self.result(status in ((0, 1) if expected is None else (0, 1, 2)), place, f"status {status}: {command}\n  " + "\n  ".join(found[-3:]))
        if expected is not None:
            self.result(fits(expected, found), place, f"prints something else: {command}\n  " + "\n  ".join(found[:12]))

    def page(self, path):
        place, page = path.name, path.read_text()
        for command, output in shown(page, path.name in STRICT):
            if command is None:
                self.result(False, place, f"an indented block that is no command: {output[0]}")
            else:
                self.command(place, command, output)
        for command in dict.fromkeys(inline(page)):
            self.command(place, command)


def main():
    parser = argparse.ArgumentParser()
    parser.add_argument("--tool", default=str(ROOT / "target/lucarne-tests/lucarne"))
    parser.add_argument("pages", nargs="*", default=[str(ROOT / page) for page in PAGES])
    args = parser.parse_args()
    tool = Path(args.tool).resolve()
    if not tool.exists():
        print(f"documents.py: {tool} is not built: tools/lucarne/build.sh {args.tool}")
        return 2
    with tempfile.TemporaryDirectory() as scratch:
        folder = Path(scratch)
        trial = Trial(folder, looks_like_root(folder, tool))
        for page in args.pages:
            trial.page(Path(page))
    if trial.passed + trial.failed == 0:
        trial.result(False, "all pages", "no command was found")
    print(f"{trial.passed} passed, {trial.failed} failed")
    return 1 if trial.failed else 0


if __name__ == "__main__":
    sys.exit(main())
