#!/usr/bin/env python3
"""docs/promises.py [--check]: writes the contracts of all functions that a crate hands to others, from the sources.

docs/PROMISES.md has the entry points, which have no `requires`; docs/PROMISES-INNER.md has the functions that crates call in each other. With --check
nothing is written: the status is 1 where a page is not what would be written. In both cases the status is 1 where an entry point has a `requires` or is gone,
and where a function for C has another contract than the one that it calls.
"""
import re
import sys
import textwrap
from pathlib import Path

ROOT = Path(__file__).resolve().parent.parent
ENTRY_PAGE = ROOT / "docs/PROMISES.md"
INNER_PAGE = ROOT / "docs/PROMISES-INNER.md"
ENTRY_POINTS = {  # by crate; "*" stands for every function that other languages call
    "answer_sets": ["has_smaller"],
    "reading": ["read_plan"],
    "judge": ["judge", "answer_code", "judge_sheet", "sheet_code"],
    "unit_lists": ["list_positions"],
    "stepping": ["next_position", "next_positions"],
    "blaming": ["blame_plan"],
    "auditing": ["first_missing"],
    "questions": ["count_questions", "counted_code", "count_words", "common_atoms"],
    "relay_rows": ["to_rows", "to_positions", "rearranged_code"],
    "sheet": ["write_positions", "write_refusal"],
    "plan_sheet": ["write_plan_sheet", "kept_sheet"],
    "packed_decimal": ["to_number", "to_reading", "add", "compare", "find_largest"],
    "exports": ["*"],
}
FOR_C, CALLED = "exports_c", "exports"  # the crate whose functions C calls, and the one whose functions these call, under the same names
ENTRY_HEAD = """# What every entry point promises

An entry point takes any bytes, words and numbers: it has no `requires`. Its contract says all that it hands back. Here are the entry points with their
contracts, crate by crate from the bottom up; [PROMISES-INNER.md](PROMISES-INNER.md) has the functions that crates call in each other. `docs/promises.py`
writes both pages from the sources, and the gate compares them. The names in a contract are defined in the crates' `specs/`;
[PROOF.md](PROOF.md) says in which order to read them. In a contract `result` is what the function returns and `x.now` what the lent x holds. Where x is
lent to be written, `x.old` is what it holds at the call and `x.new` what it holds at the return.
"""
INNER_HEAD = """# What functions between crates promise

The functions that a crate hands to other crates, with their contracts, crate by crate from the bottom up. Where a function has a `requires`, its contract
holds where that is true; the prover checks it at every call. [PROMISES.md](PROMISES.md) has the entry points. `docs/promises.py` writes both pages.
"""
FUNCTION = re.compile(r'pub (?:extern "C" )?fn (\w+)')


def crates():
    """The crates of crates.txt in its order, each with the words on it."""
    words = []
    for line in (ROOT / "crates.txt").read_text().splitlines():
        if line.startswith("# ----") or not line:
            words = []
        elif line.startswith("#"):
            words.append(line[1:].strip())
        else:
            yield line.split(":")[0].split()[0], " ".join(words)


def signature_of(lines, start):
    """The lines of a function from its `pub fn` to the last clause of its contract, without the brace."""
    signature = []
    for line in lines[start:]:
        if line == "{":
            break
        if line.endswith(" {") and not line.lstrip().startswith(("ensures", "requires")):
            signature.append(line[:-2])
            break
        signature.append(line)
    return signature


def functions_of(source):
    """Each public function of a file: its name, the comment on it, its signature with the contract."""
    lines = source.read_text().splitlines()
    for number, line in enumerate(lines):
        found = FUNCTION.match(line)
        if found:
            above = number - 1
            comment = []
            while above >= 0 and lines[above].startswith(("//", "#[")):
                if lines[above].startswith("//"):
                    comment.insert(0, lines[above][2:].strip())
                above -= 1
            yield found.group(1), " ".join(comment), signature_of(lines, number)


def handed_out(folder):
    """The modules that a crate opens, and the names that it hands on from closed ones."""
    root = (folder / "lib.rt").read_text()
    handed = set(re.findall(r"^pub use (\w+)::(\w+);", root, re.M))
    for module, names in re.findall(r"^pub use (\w+)::\{([^}]*)\};", root, re.M):
        handed |= {(module, name) for name in re.findall(r"\w+", names)}
    return set(re.findall(r"^pub mod (\w+);", root, re.M)), handed


def public_functions(crate):
    """The functions that a crate hands to others."""
    folder = ROOT / "crates" / crate / "src"
    if not (folder / "lib.rt").exists():
        return
    opened, handed = handed_out(folder)
    for source in sorted(folder.glob("*.rt"), key=lambda file: (file.stem != "lib", file.stem)):
        module = source.stem
        for name, comment, signature in functions_of(source):
            if module == "lib" or module in opened or (module, name) in handed:
                yield name, comment, signature


def is_entry_point(crate, name):
    names = ENTRY_POINTS.get(crate, [])
    return "*" in names or name in names


def contract_of(signature):
    """A function's signature and contract without its layout and calling convention."""
    text = re.sub(r"\s+", " ", " ".join(signature)).replace('pub extern "C" fn', "pub fn")
    return text.replace("( ", "(").replace(", )", ")")


def differences_for_c():
    """What is wrong with the functions for C: those that do not promise what the function of that name promises, which they call."""
    called = {name: contract_of(signature) for name, _, signature in public_functions(CALLED)}
    for_c = {name: contract_of(signature) for name, _, signature in public_functions(FOR_C)}
    for name in sorted({*called, *for_c}):
        if called.get(name) != for_c.get(name):
            yield f"{FOR_C}::{name} has another contract than {CALLED}::{name}, or one of them is not there"


def section(crate, words, functions):
    """A crate's part of a page, or nothing where it has no function there."""
    lines = ["", f"## {crate}", "", *textwrap.wrap(words, 150)] if functions else []
    for _, comment, signature in functions:
        lines += ["", *textwrap.wrap(comment, 150), "", "```rust", *signature, "```"]
    return lines


def pages():
    """Both pages, and what is wrong with the entry points."""
    entry, inner, wrong = ENTRY_HEAD.splitlines(), INNER_HEAD.splitlines(), []
    for crate, words in crates():
        if crate == FOR_C:
            entry += ["", f"## {crate}", "", *textwrap.wrap(f"{words} Names and contracts are the same.", 150)]
            continue
        functions = list(public_functions(crate))
        outer = [one for one in functions if is_entry_point(crate, one[0])]
        entry += section(crate, words, outer)
        inner += section(crate, words, [one for one in functions if one not in outer])
        names = [name for name, _, _ in outer]
        wrong += [f"{crate}::{name} is not public any more" for name in ENTRY_POINTS.get(crate, []) if name != "*" and name not in names]
        wrong += [f"{crate}::{name} has a requires" for name, _, signature in outer if any(line.strip().startswith("requires") for line in signature)]
    wrong += differences_for_c()
    return {ENTRY_PAGE: "\n".join(entry) + "\n", INNER_PAGE: "\n".join(inner) + "\n"}, wrong


def main():
    texts, wrong = pages()
    for page, text in texts.items():
        if "--check" not in sys.argv[1:]:
            page.write_text(text)
        elif not page.exists() or page.read_text() != text:
            wrong.append(f"docs/{page.name} is not what docs/promises.py writes")
    for line in wrong:
        print(line, file=sys.stderr)
    return 1 if wrong else 0


if __name__ == "__main__":
    sys.exit(main())
