#!/usr/bin/env python3
"""tests/told.py: holds what is written in several places against each other: the version of tool and library; each refusal's words in the library
against the tool's; every exported function in header, man page, HOST and the test of all functions. The last line is 'N passed, M failed'."""

import pathlib
import re
import sys

HEADER, WORDS = "include/lucarnecress.h", "tools/lucarne/src/plan/words.rs"
PLACES = ["host/lucarnecress.3", "docs/HOST.md", "tests/host.c"]  # of every function
MOST_POSITIONS = "256"
failed = passed = 0


def text(path):
    return pathlib.Path(path).read_text()


def expect(holds, what):
    """Counts one comparison; a difference is printed."""
    global failed, passed
    passed, failed = passed + bool(holds), failed + (not holds)
    if not holds:
        print(f"differs: {what}")


def one(pattern, path):
    """What a pattern finds in a file, which has it just once."""
    found = re.findall(pattern, text(path), re.MULTILINE)
    expect(len(found) == 1, f"{path} has {len(found)} lines of {pattern}")
    return found[0] if found else ""


def check_versions():
    version = one(r'^version = "(.*)"$', "tools/lucarne/Cargo.toml")
    told = one(r'^#define LUCARNECRESS_VERSION "(.*)"$', HEADER)
    expect(version == told, f"the tool's version is {version}, the library's {told}")
    expect(f"lucarne_{version}_amd64.deb" in text("README.md"), f"README.md names another package than that of {version}")
    one(r'^pub const VERSION: &str = env!\("CARGO_PKG_VERSION"\);', "tools/lucarne/src/lib.rs")


def library_words():
    """The library's words by number, and how often each number has some."""
    numbers = {name: int(number) for name, number in re.findall(r"^    (LUCARNECRESS_\w+) = (\d+),?$", text(HEADER), re.MULTILINE)}
    cases = re.findall(r'case (LUCARNECRESS_\w+):\s+return "(.*)";', text("host/lucarnecress.c"))
    expect(sorted(numbers.values()) == list(range(1, len(numbers) + 1)), "the header's numbers of refusals have gaps")
    expect(len({words for _, words in cases}) == len(cases), "two refusals have the same words")
    found = {numbers.get(name, 0): words for name, words in cases}
    expect(sorted(found) == sorted(numbers.values()), "words are missing, or there for no refusal")
    return found


def tool_words():
    """The tool's words as pairs of number and text, in which names and places stand as {}."""
    source = text(WORDS)
    table = source[source.index("COMMAND_FAULTS") : source.index("];")]
    yield from re.findall(r'\(\s*(\d+),\s*"([^"]*)",\s*"[^"]*",?\s*\)', table)
    yield from re.findall(r'^ +(\d+) (?:if [^\n]*)?=> \(?\s*format!\(\s*"((?:rule|unit|the plan has) [^"]*)"', source, re.MULTILINE)
    given = re.findall(r'^ +_ => format!\("(rule [^"]*)", rule\)', source, re.MULTILINE)  # of 10, 11, 13, 14 and 16 what is left
    yield from (("16", words) for words in given)


def plain(words):
    """Words without names, places and numbers of positions."""
    return re.sub(rf":? (\{{\}}|{MOST_POSITIONS}(?= positions))", "", words)


def check_words():
    ours, theirs = library_words(), list(tool_words())
    told = {int(number) for number, _ in theirs}
    expect(told == set(range(2, 25)) - {17, 20, 22, 24}, f"the tool has words for {sorted(told)}")  # the others are no faults of a plan
    for number, words in theirs:
        expect(plain(words) in plain(ours.get(int(number), "")), f"refusal {number}: the tool says '{words}', the library '{ours.get(int(number))}'")


def check_functions():
    exported = re.findall(r'^pub extern "C" fn (lucarnecress_\w+)', "".join(text(path) for path in pathlib.Path("crates/exports_c/src").glob("*.rt")), re.M)
    plain_c = re.findall(r"^const char \*(lucarnecress_\w+)\(", text("host/lucarnecress.c"), re.MULTILINE)
    declared = re.findall(r"^(?:uint64_t |const char \*)(lucarnecress_\w+)\(", text(HEADER), re.MULTILINE)
    expect(sorted(exported + plain_c) == sorted(declared), f"exported and declared differ: {sorted(set(exported + plain_c) ^ set(declared))}")
    for path in PLACES:
        for name in declared:
            expect(f"{name}(" in text(path), f"{path} does not have {name}")


check_versions()
check_words()
check_functions()
print(f"{passed} passed, {failed} failed")
sys.exit(failed != 0)
