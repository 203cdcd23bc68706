#!/usr/bin/env python3
"""docs/numbers.py: holds every number that stands outside the proofs against the sources that are proved.

The limits (`plan/src/limits.rt`), the command table (`reading/src/kinds.rt`) and the faults (`plan/src/fault.rt`) are read, with the few constants of other
crates that a host meets. Their numbers stand again in the C header, in the tests' lister and encoders, in the planner's tool, in FORMAT and in HOST. The
status is 1 where one of these differs or is not found, and each such place is named. So whoever changes a number, a command or a fault finds all of them.
"""
import re
import sys
from pathlib import Path

ROOT = Path(__file__).resolve().parent.parent
sys.path.insert(0, str(ROOT / "tests"))
sys.dont_write_bytecode = True
import commands  # noqa: E402 the encoder of the tests, which is one of the places

SOURCES = [
    "atoms/src/lib.rt",
    "plan/src/limits.rt",
    "plan/src/fault.rt",
    "reading/src/words.rt",
    "reading/src/kinds.rt",
    "judge/src/sheet.rt",
    "questions/src/counter.rt",
    "relay_rows/src/area.rt",
    "sheet/src/lib.rt",
    "plan_sheet/src/lib.rt",
]
COMMANDS = ["COUNT", "GIVEN", "TABLE", "RULE", "USE", "UNIT", "EDGE", "SHOW", "END"]
LISTED_NUMBERS = {17, 22, 24}  # no faults of a plan: questions, rows, sheets; 20, of readings, is `packed.rs`'s
FORMAT_LIMITS = {
    "atoms": "ATOMS", "tables": "MAX_TABLES", "rules": "MAX_RULES", "uses of tables": "MAX_USES", "units": "MAX_UNITS", "edges": "MAX_EDGES",
    "bytes of a plan": "LONGEST_PLAN", "positions in one list": "LIST_WORDS", "positions in a list to judge or to audit": "MAX_POSITIONS",
    "words of the table": "TABLE_WORDS",
}
HEADER = {
    "UNITS": "MAX_UNITS", "POSITION_BYTES": "WORD_BYTES", "ALL_SETTLED": "MAX_POSITIONS",
    **{name: name for name in ("LIST_WORDS", "LAST_LIST", "TABLE_WORDS", "COUNTS", "LAST_COUNT", "CODE_STEP", "SHEET_BYTES", "MAX_QUESTIONS", "ROW_WORDS")},
}
LISTER = {
    "QUESTION_WORDS": 3, "POSITION_BYTES": "WORD_BYTES", "LAST_LIST_START": "LAST_LIST",
    **{name: name for name in ("MAX_TABLES", "MAX_INPUTS", "MAX_RULES", "MAX_USES", "MAX_UNITS", "LIST_WORDS", "TABLE_WORDS", "COUNTS", "MAX_QUESTIONS")},
}
TOOL_LIMITS = {"MAX_ATOMS": "ATOMS", **{name: name for name in ("MAX_RULES", "MAX_TABLES", "MAX_USES", "MAX_UNITS")}}

wrong = []


def text(place):
    return (ROOT / place).read_text()


def constants(source, known, pattern=r"(?:pub )?const (\w+): \w+ = ([^;]+);"):
    """The constants of a source, worked out in the order in which they stand; those that rest on what is not read here are left out."""
    for name, value in re.findall(pattern, source):
        value = re.sub(r"\b\w+::", "", value).replace("/", "//")
        try:
            known[name] = eval(value, {"__builtins__": {}}, dict(known))
        except (NameError, SyntaxError):
            pass
    return known


def proved():
    """All numbers of the sources by name, and the numbers of the faults."""
    known = {}
    for source in SOURCES:
        constants(text(f"crates/{source}"), known)
    known["MAX_EDGES"] = known["MAX_UNITS"] * (known["MAX_UNITS"] - 1)
    known["END_OPERANDS"] = 0
    known["LONGEST_PLAN"] = sum((1 + known[f"{name}_OPERANDS"]) * most(known, name) for name in COMMANDS)
    faults = {int(number) for number in re.findall(r"Fault::\w+\(_\) => (\d+),", text("crates/plan/src/fault.rt"))}
    return known, faults


def most(known, command):
    """How many commands of a kind there are at most."""
    return known.get(f"MAX_{command}S", 1)


def same(place, what, expected, found):
    if expected != found:
        wrong.append(f"{place}: {what} is {found}, and {expected} by the sources")


def hold_constants(place, source, wanted, known, pattern=None):
    """Constants of a file against the proved ones that they stand for."""
    found = constants(source, {}, pattern) if pattern else constants(source, {})
    for name, stands_for in wanted.items():
        same(place, name, known[stands_for] if isinstance(stands_for, str) else stands_for, found.get(name))


def hold_commands(place, bytes_of, operands_of, known):
    """A command table: the byte of each command, and the bytes of its operands where they are told."""
    same(place, "commands", sorted(COMMANDS), sorted(bytes_of))
    for name in COMMANDS:
        same(place, f"the byte of {name}", known[name], bytes_of.get(name))
        if operands_of is not None:
            same(place, f"the operands of {name}", known[f"{name}_OPERANDS"], operands_of.get(name))


def lister_commands(source):
    body = re.search(r"fn of\(byte: u8\).*?\n    }\n", source, re.S).group()
    bytes_of = {name.upper(): int(byte, 16) for byte, name in re.findall(r"(0x\w\w) => Some\(Kind::(\w+)\)", body)}
    body = re.search(r"fn operand_bytes\(self\).*?\n    }\n", source, re.S).group()
    operands_of = {}
    for names, count in re.findall(r"((?:Kind::\w+(?: \| )?)+) => (\d+)", body):
        operands_of.update({name.upper(): int(count) for name in re.findall(r"Kind::(\w+)", names)})
    return bytes_of, operands_of


def python_commands():
    made = {
        "COUNT": commands.count(0, 0, 0), "GIVEN": commands.given(), "TABLE": commands.table(), "RULE": commands.rule(), "USE": commands.use(0, 0, 0),
        "UNIT": commands.unit(), "EDGE": commands.edge(0, 0), "SHOW": commands.show(), "END": commands.END,
    }
    return {name: code[0] for name, code in made.items()}, {name: len(code) - 1 for name, code in made.items()}


def bytes_in(source):
    return {name: int(byte, 0) for name, byte in re.findall(r"pub const ([A-Z]+): u8 = (\w+);", source)}


def hold_format(known, faults):
    place = "docs/FORMAT.md"
    page = text(place)
    bytes_of = {name: int(byte, 16) for byte, name in re.findall(r"^\| `(\w\w)` \| ([A-Z]+) \|", page, re.M)}
    hold_commands(f"{place}, the commands", bytes_of, None, known)
    rows = page.split("| no. | fault |")[1].split("\n\n")[0]
    numbers = {int(number) for number in re.findall(r"^\| (\d+) \|", rows, re.M)}
    same(f"{place}, the refusals", "numbers", sorted(faults), sorted(numbers))
    limits = dict(re.findall(r"^\| ([^|]+?) \| ([\d,]+)", page.split("## Limits")[1].split("\n## ")[0], re.M))
    for line, name in FORMAT_LIMITS.items():
        found = limits.get(line)
        same(f"{place}, the limits", line, known[name], found and int(found.strip(",").replace(",", "")))


def hold_host(known, header):
    """What HOST says in words: the stack that is enough for each function, the table's words and where lists start, the step of a refusal's code."""
    place = "docs/HOST.md"
    page = text(place)
    stack = re.search(r"#define LUCARNECRESS_STACK (\d+)u\b", header)
    told = {
        "the stack": (r"([\d,]+) bytes \(`LUCARNECRESS_STACK`\)", stack and int(stack.group(1))),
        "the words of the table": (r"`table` has at least ([\d,]+) words", known["TABLE_WORDS"]),
        "the start of the last list": (r"the last list at word ([\d,]+)", known["LAST_LIST"]),
        "a list's words": (r"starts at word (\d+)·i, the last list", known["LIST_WORDS"]),
        "the step of a code": (r"code is ([\d,]+) times its number", known["CODE_STEP"]),
        "the words of a row": (r"row i starts at word (\d+)·i", known["ROW_WORDS"]),
    }
    for what, (pattern, expected) in told.items():
        found = re.search(pattern, page)
        same(place, what, expected, found and int(found.group(1).replace(",", "")))


def main():
    known, faults = proved()
    missing = [name for name in [*HEADER.values(), *FORMAT_LIMITS.values()] if name not in known]
    if missing:
        print(f"docs/numbers.py: not found in the sources: {', '.join(missing)}", file=sys.stderr)
        return 1
    header = text("include/lucarnecress.h")
    hold_constants("include/lucarnecress.h", header, {f"LUCARNECRESS_{name}": of for name, of in HEADER.items()}, known,
                   r"#define (LUCARNECRESS_\w+) (\d+)u\b")
    lister = text("tests/lister.rs")
    hold_constants("tests/lister.rs", lister, LISTER, known)
    hold_commands("tests/lister.rs", *lister_commands(lister), known)
    refused = {int(number) for number in re.findall(r"\b(?:refuse(?:_lowest)?|Some)\(([1-9]\d*)\b", lister)}
    same("tests/lister.rs", "its refusals", sorted(faults | LISTED_NUMBERS), sorted(refused))
    hold_commands("tests/encode.rs", bytes_in(text("tests/encode.rs")), None, known)
    hold_commands("tests/commands.py", *python_commands(), known)
    hold_constants("tools/lucarne/src/plan/limits.rs", text("tools/lucarne/src/plan/limits.rs"), TOOL_LIMITS, known)
    hold_commands("tools/lucarne/src/plan/bytes.rs", bytes_in(text("tools/lucarne/src/plan/bytes.rs")), None, known)
    hold_format(known, faults)
    hold_host(known, header)
    for line in wrong:
        print(line, file=sys.stderr)
    return 1 if wrong else 0


if __name__ == "__main__":
    sys.exit(main())
