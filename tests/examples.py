#!/usr/bin/env python3
"""tests/examples.py FOLDER: tries the examples audit and walk, built in this folder, and examples/lucarnecress.py, on sample plans. What differs is
printed; the last line is 'N passed, M failed'."""

import pathlib
import subprocess
import sys

sys.path.insert(0, "examples")
sys.dont_write_bytecode = True
import lucarnecress as library

FOLDER = pathlib.Path(sys.argv[1])
passed = failed = 0


def same(what, expected, actual):
    global passed, failed
    if expected == actual:
        passed += 1
        return
    failed += 1
    print(f"differs: {what}: expected {expected!r}, got {actual!r}")


def plan_of(name):
    return pathlib.Path("plans", name + ".plan").read_bytes()


def sheet_of(name):
    return pathlib.Path("plans", name + ".sheet").read_text()


def run(program, *arguments, given=b""):
    """Output, messages and status of an example."""
    done = subprocess.run([FOLDER / program, *arguments], input=given, capture_output=True)
    return done.stdout.decode(), done.stderr.decode(), done.returncode


def audit(listed, plan="plans/plan-p.plan"):
    return run("audit", plan, given=listed.encode())


def check_audit():
    two, five, seven = "0000000000000002\n", "0000000000000005\n", "0000000000000007\n"
    exact = ("the list is just the settled positions\n", "", 0)
    same("audit, exact", exact, audit(sheet_of("plan-p")))
    same("audit, any order and repeats", exact, audit(five + two + five))
    same("audit, one missing", ("missing, the least: " + five, "", 1), audit(two))
    same("audit, none listed", ("missing, the least: " + two, "", 1), audit(""))
    same("audit, two not settled", ("not settled: " + seven + "not settled: " + seven, "", 1), audit(two + seven + five + seven))
    same("audit, both", ("not settled: " + seven + "missing, the least: " + five, "", 1), audit(seven + two))
    same("audit, 256 lines", exact, audit(two * 255 + five))
    same("audit, 257 lines", ("", "refused 24 at 0: a sheet has more than 256 positions, or bytes that are no whole positions\n", 2), audit(two * 257))
    same("audit, no position", ("", "audit: a line of the list is no position\n", 2), audit("0000000000000005x\n"))
    same("audit, no plan", ("", "refused 2 at 0: a command is cut short, or the plan ends before its END\n", 2), audit(two, "plans/circuit-01-no-bytes.plan"))
    same("audit, 246 positions", exact, audit(sheet_of("clingo-default-misses-ten"), "plans/clingo-default-misses-ten.plan"))


def check_walk():
    lines = "".join(sheet_of("plan-p").splitlines(keepends=True)[1:])
    same("walk", (lines, "", 0), run("walk", given=plan_of("plan-p")))
    found, _, status = run("walk", "60", given=plan_of("nine-points"))
    same("walk, 512 positions", (512, 0), (len(set(found.splitlines())), status))
    same("walk, rising", sorted(found.splitlines()), found.splitlines())
    same("walk, refused", ("", "refused 9 at 72: bytes stand behind END\n", 2), run("walk", given=plan_of("plan-p") + b"\0"))
    found, told, status = run("walk", "1", given=plan_of("show-two-of-sixteen"))  # over four thousand million positions
    same("walk, stopped", ("walk: stopped after 1 seconds\n", 1), (told, status))
    same("walk, stopped: what was found is kept", True, len(found.splitlines()) >= 256)


def refused(name, *operands):
    """The refusal of a call, as a tuple."""
    try:
        getattr(library, name)(*operands)
    except library.Refused as refusal:
        return refusal.number, refusal.spot, refusal.text
    return None


def check_sheets():
    for plan in sorted(pathlib.Path("plans").glob("*.plan")):
        same(f"the sheet of {plan}", plan.with_suffix(".sheet").read_bytes(), library.sheet(plan.read_bytes()))
    done = subprocess.run([sys.executable, "examples/lucarnecress.py"], input=plan_of("plan-p"), capture_output=True)
    same("lucarnecress.py as a program", sheet_of("plan-p"), done.stdout.decode())


def check_module():
    plan, version = plan_of("plan-p"), pathlib.Path("tools/lucarne/Cargo.toml").read_text().split('version = "')[1].split('"')[0]
    same("version", version, library.version())
    same("positions", [2, 5], library.positions(plan))
    same("unit lists", [[1, 2], [2, 5]], library.unit_lists(plan)[:2])
    same("settled", [False, True, False, True], [library.is_settled(plan, position) for position in (0, 2, 3, 5)])
    same("judged", [None, 1, None], [library.first_unsettled(plan, listed) for listed in ([5, 2, 2], [2, 7], [])])
    same("missing", [None, 5, 2], [library.missing(plan, listed) for listed in ([5, 2, 2], [2, 7], [])])
    same("walk", [[2, 5], [5], []], [list(library.walk(plan)), list(library.walk(plan, 2)), list(library.walk(plan, 5))])
    same("walk in small calls", 512, len(list(library.walk(plan_of("nine-points"), batch=7))))
    same("blame, a position", (2, None), library.blame(plan))
    same("blame, constraints", (None, [3, 4]), library.blame(plan_of("blame-two-groups")))
    same("count", [1, 2, 0], library.count([2, 5], [(1, 2), (0, 0), (1, 1)]))
    same("sheet", sheet_of("plan-p"), library.sheet(plan).decode())
    same("a word of 64 bits", True, library.is_settled(plan_of("clingo-default-misses-one"), 0xC000000000000000))
    same("refused", (14, 1, "a rule shares relays with rules that its unit does not see"), refused("positions", plan_of("plan-p-without-edge")))
    same("refused, no plan", (2, 0, "a command is cut short, or the plan ends before its END"), refused("is_settled", b"", 0))
    same("refused, 65 questions", (17, 0, "more than 64 questions are asked at once"), refused("count", [1], [(0, 0)] * 65))


check_audit()
check_walk()
check_sheets()
check_module()
print(f"{passed} passed, {failed} failed")
sys.exit(failed != 0)
