#!/usr/bin/env python3
"""host/stack.py [--write | --table] [ARCHIVE] [HEADER]: how much stack each exported function of the proved library takes, worked out from the
machine code of ARCHIVE (default target/staticlib/libexports.a), and whether the constants LUCARNECRESS_.._STACK of HEADER (default
include/lucarnecress.h) are enough. With --write the constants are written into the header, with room to spare; with --table a line for each
function is printed, its name and its bytes.

A frame is followed through the control flow of its function: pushes, pops, changes of rsp, the loop that touches each page of a large frame, in steps of at
most a page, and what a leaf writes below rsp. Calls are taken from the relocations. A function that calls itself is as deep as its proof says: the measure of
its recursion must be the count of a word's bits, in crates/CRATE/proofs/MODULE/+FUNCTION/Invariants.antt, so at most 64 calls are nested in the first. What the
script does not understand, as another way to change rsp, a call by pointer or a recursion with another measure, ends it with a word and status 2: then nothing
is told."""

import pathlib
import re
import subprocess
import sys

BITS = 64  # of a word: the most that `ones` counts, and so the most nested calls
RETURN = 8  # bytes of a return address
PAGE = 4096
# What the C library's memcpy and memset take, the loader's part of the first call included: it saves the processor's wide registers.
LIBRARY = {"memcpy": PAGE, "memset": PAGE}
PREFIX = "lucarnecress_"
SPARE = 8  # a constant has an eighth to spare

INSTRUCTION = re.compile(r"^\s*([0-9a-f]+):\t(\S+)\s*(.*?)\s*$")
FUNCTION = re.compile(r"^[0-9a-f]+ <(.*)>:$")
RELOCATION = re.compile(r"^\s+([0-9a-f]+): (R_X86_64_\w+)\t(\S+?)([-+]0x[0-9a-f]+)?$")
MEASURE = re.compile(r"^decreases-(\S+) \w+ =\s+ones \(", re.MULTILINE)


class Unclear(Exception):
    """Something in the machine code or in a proof that is not understood."""


class Instruction:
    def __init__(self, at, name, operands):
        self.at, self.name, self.operands, self.symbol = at, name, operands, None

    def target(self):
        """The offset of a jump or call within its own function, if it is one."""
        found = re.match(r"^([0-9a-f]+) <", self.operands)
        return int(found.group(1), 16) if found else None


def functions(archive):
    """The functions of the archive by name, each a list of instructions; a call or jump elsewhere has the symbol it goes to."""
    text = subprocess.run(["objdump", "-dr", "--no-show-raw-insn", archive], check=True, capture_output=True, text=True).stdout
    found, current = {}, None
    for line in text.splitlines():
        if match := FUNCTION.match(line):
            if match.group(1) in found:
                raise Unclear(f"two functions are called {match.group(1)}")
            current = found.setdefault(match.group(1), [])
        elif match := RELOCATION.match(line):
            if current and current[-1].name.startswith(("call", "j")):
                current[-1].symbol = re.sub(r"^\.text\.(unlikely\.)?", "", match.group(3))
        elif match := INSTRUCTION.match(line):
            current.append(Instruction(int(match.group(1), 16), match.group(2), match.group(3)))
    if not found:
        raise Unclear(f"{archive} has no functions")
    return found


class Frame:
    """The frame of one function: the most it takes itself, and how deep it stands at each call. Depths are counted from the return address."""

    def __init__(self, name, code):
        self.name, self.code = name, code
        self.place = {instruction.at: i for i, instruction in enumerate(code)}
        self.depth, self.most, self.calls = {}, 0, []
        self.jumps = set()  # depths at jumps by a table
        self.follow(0, (0, None))
        self.follow_tables()

    def unclear(self, instruction, why):
        return Unclear(f"{self.name}+{instruction.at:#x}: {why}: {instruction.name} {instruction.operands}")

    def follow(self, start, state):
        """Goes through the code from here on; `state` is the depth, and what depth r11 holds, if any."""
        work = [(start, state)]
        while work:
            i, state = work.pop()
            if i >= len(self.code):
                raise Unclear(f"{self.name}: the code goes on behind its end")
            known = self.depth.get(i)
            if known is not None:
                if known != state[0]:
                    raise self.unclear(self.code[i], f"two depths, {known} and {state[0]}")
                continue
            self.depth[i] = state[0]
            work.extend(self.step(i, state))

    def follow_tables(self):
        """What nothing leads to is led to by a jump table, at the depth of the jump."""
        for i, instruction in enumerate(self.code):
            is_filler = instruction.name.startswith(("nop", "int3", "xchg", "cs", "data16", "ud2"))
            if i in self.depth or is_filler:
                continue
            if len(self.jumps) != 1:
                raise self.unclear(instruction, f"nothing leads here, and there are {len(self.jumps)} depths of jump tables")
            self.follow(i, (next(iter(self.jumps)), None))

    def step(self, i, state):
        """The places behind an instruction with their states."""
        instruction = self.code[i]
        name, operands = instruction.name, instruction.operands
        if name in ("ret", "retq"):
            if state[0] != 0:
                raise self.unclear(instruction, f"returns at depth {state[0]}")
            return []
        if name in ("ud2", "int3", "hlt"):
            return []
        if name in ("call", "callq"):
            self.call(instruction, state[0] + RETURN)
            return [(i + 1, (state[0], None))]
        if name.startswith("jmp"):
            return self.jump(instruction, state)
        if name.startswith("j"):
            return self.branch(i, state)
        state = self.moved(instruction, state)
        self.note(state[0], operands)
        return [(i + 1, state)]

    def note(self, depth, operands):
        """What is written below rsp counts too."""
        below = re.search(r"-0x([0-9a-f]+)\(%rsp", operands)
        self.most = max(self.most, depth + (int(below.group(1), 16) if below else 0))

    def call(self, instruction, depth):
        target = instruction.symbol
        if target is None and instruction.target() == 0:
            target = self.name
        if target is None:
            raise self.unclear(instruction, "a call of what is not known")
        self.most = max(self.most, depth)
        self.calls.append((target, depth))

    def jump(self, instruction, state):
        if instruction.operands.startswith("*"):
            self.jumps.add(state[0])
            return []
        if instruction.symbol is not None:  # a call in place of a return
            self.calls.append((instruction.symbol, state[0]))
            return []
        return [(self.at(instruction), state)]

    def branch(self, i, state):
        """A branch goes on both ways; the one that closes the loop over the pages of a frame ends at the depth that r11 holds."""
        instruction, before = self.code[i], self.code[i - 1]
        if before.name == "cmp" and before.operands == "%r11,%rsp":
            step = re.match(r"^\$0x([0-9a-f]+),%rsp$", self.code[self.at(instruction)].operands)
            size = int(step.group(1), 16) if step and self.code[self.at(instruction)].name in ("sub", "subq") else 0
            if instruction.name != "jne" or state[1] is None or not 0 < size <= PAGE or (state[1] - state[0]) % size != 0:
                raise self.unclear(instruction, "no loop over pages")
            self.most = max(self.most, state[1])
            return [(i + 1, (state[1], None))]
        if instruction.symbol is not None:
            raise self.unclear(instruction, "a branch to another function")
        return [(i + 1, state), (self.at(instruction), state)]

    def at(self, instruction):
        place = self.place.get(instruction.target())
        if place is None:
            raise self.unclear(instruction, "a jump to no instruction")
        return place

    def moved(self, instruction, state):
        """The state behind an instruction that goes on to the next."""
        depth, probe = state
        name, operands = instruction.name, instruction.operands
        if name in ("push", "pushq"):
            return depth + 8, probe
        if name in ("pop", "popq") and operands != "%rsp":
            return depth - 8, probe
        if match := re.match(r"^\$0x([0-9a-f]+),%rsp$", operands):
            size = int(match.group(1), 16)
            size -= 2**64 if size >= 2**63 else 0
            if name in ("sub", "subq"):
                return depth + size, probe
            if name in ("add", "addq"):
                return depth - size, probe
        if (name, operands) == ("mov", "%rsp,%r11"):
            return depth, depth
        if probe is not None and name == "sub" and (match := re.match(r"^\$0x([0-9a-f]+),%r11$", operands)):
            return depth, probe + int(match.group(1), 16)
        if name == "lea" and (match := re.match(r"^-0x([0-9a-f]+)\(%rsp\),%r11$", operands)):
            return depth, depth + int(match.group(1), 16)
        if re.search(r"(^|,)%(rsp|esp|sp|spl)$", operands) and name not in ("cmp", "test"):
            raise self.unclear(instruction, "rsp is changed in a way that is not known")
        return depth, None if operands.endswith(",%r11") else probe


def nested_calls(function):
    """How many calls of a function may be nested in its first one: what the measure of its recursion is at most."""
    crate, *modules, name = function.split("::")
    proof = pathlib.Path("crates", crate, "proofs", *modules, "+" + name, "Invariants.antt")
    if not proof.is_file():
        raise Unclear(f"{function} calls itself, and {proof} is not there")
    if name not in MEASURE.findall(proof.read_text()):
        raise Unclear(f"{function} calls itself, and the measure in {proof} is not the count of a word's bits")
    return BITS


class Stacks:
    """How much each function takes, with all that it calls; the return address of its own call is the caller's."""

    def __init__(self, code):
        self.frames = {name: Frame(name, body) for name, body in code.items()}
        self.known, self.open = dict(LIBRARY), []

    def of(self, name):
        if name in self.known:
            return self.known[name]
        if name in self.open:
            raise Unclear("a circle of calls: " + " > ".join(self.open[self.open.index(name):] + [name]))
        if name not in self.frames:
            raise Unclear(f"{self.open[-1]} calls {name}, of which nothing is known")
        self.open.append(name)
        frame = self.frames[name]
        others = max([frame.most] + [depth + self.of(target) for target, depth in frame.calls if target != name])
        own = [depth for target, depth in frame.calls if target == name]
        self.known[name] = others + (max(own) * nested_calls(name) if own else 0)
        self.open.pop()
        return self.known[name]


def constants(needs):
    """The constants that the header must have, with what each must be at least."""
    return {**{f"{name.upper()}_STACK": need for name, need in needs.items()}, PREFIX.upper() + "STACK": max(needs.values())}


def with_room(size):
    return -(-(size + size // SPARE) // PAGE) * PAGE


def written(header, needs):
    """The header with its constants for these needs."""
    for name, need in constants(needs).items():
        header, count = re.subn(rf"^(#define {name}) \d+u", rf"\g<1> {with_room(need)}u", header, flags=re.MULTILINE)
        if count != 1:
            raise Unclear(f"the header has no line for {name}")
    return header


def faults(header, needs):
    """What is wrong with the header's constants."""
    told = dict(re.findall(r"^#define (LUCARNECRESS_(?:\w+_)?STACK) (\d+)u", header, re.MULTILINE))
    for name, need in constants(needs).items():
        have = told.pop(name, None)
        if have is None:
            yield f"{name} is missing in the header: {need} bytes are taken"
        elif int(have) < need:
            yield f"{name} is {have}, and {need} bytes are taken"
    yield from (f"{name} is no function's" for name in told)


def main(arguments):
    options = {argument for argument in arguments if argument.startswith("--")}
    places = [argument for argument in arguments if not argument.startswith("--")]
    archive, header = (places + ["target/staticlib/libexports.a", "include/lucarnecress.h"][len(places):])[:2]
    if options - {"--write", "--table"}:
        raise Unclear("unknown option: " + " ".join(sorted(options)))
    stacks = Stacks(functions(archive))
    needs = {name: RETURN + stacks.of(name) for name in sorted(stacks.frames) if name.startswith(PREFIX)}
    if "--table" in options:
        print("".join(f"{name} {need}\n" for name, need in needs.items()), end="")
        return 0
    text = pathlib.Path(header).read_text()
    if "--write" in options:
        pathlib.Path(header).write_text(written(text, needs))
        return 0
    wrong = list(faults(text, needs))
    print("".join(line + "\n" for line in wrong), end="")
    print(f"{header}: write the constants with host/stack.py --write" if wrong else f"{header} tells the stack of {len(needs)} functions")
    return 1 if wrong else 0


if __name__ == "__main__":
    try:
        sys.exit(main(sys.argv[1:]))
    except Unclear as unclear:
        print(f"host/stack.py: {unclear}", file=sys.stderr)
        sys.exit(2)
