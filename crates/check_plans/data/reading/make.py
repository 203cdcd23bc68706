#!/usr/bin/env python3
"""make.py [FOLDER]: writes the plans of this folder, each under its name; PLANS.md says what each is."""
import pathlib
import sys

HERE = pathlib.Path(__file__).resolve().parent
sys.path.insert(0, str(next(top / "tests" for top in HERE.parents if (top / "tests/commands.py").exists())))
sys.dont_write_bytecode = True

from commands import END, count, edge, given, rule, show, table, unit, use, word

FACT = rule(head=1)
TWO_UNITS = unit() + unit()
P_RULES = rule(head=3) + rule(head=4, positive=1)
PLAN_P = P_RULES + unit(1) + unit(2) + edge(1, 0) + END
EDGES = b"".join(edge(u, v) for u in range(16) for v in range(16) if u != v)
ALL_UNITS = unit() * 16
KEY = table(inputs=1, truth=2)
KEY_AND_FACT = KEY + FACT
ALL_TABLES = b"".join(table(truth=1 - t % 2) for t in range(16))
ALL_USES = b"".join(use(r, t, t % 2) for r in range(16) for t in range(16))
ALL_BUT_UNITS = ALL_TABLES + FACT * 16 + ALL_USES

PLANS = {
    "rule-in-no-unit": rule(head=3) + END,
    "given": given(2) + FACT + END,
    "given-of-no-atoms": given() + END,
    "table-used": KEY_AND_FACT + rule(head=2) + use(1, 0, 0) + END,
    "table-unused": KEY_AND_FACT + END,
    "table-of-no-inputs": table(truth=1) + FACT + use(0, 0, 1) + END,
    "table-of-six-inputs": table(inputs=0x3F, truth=2**64 - 1) + END,
    "row-31-of-five-inputs": table(inputs=0x1F << 59, truth=1 << 31) + END,
    "use-of-the-other-sign": KEY_AND_FACT + rule(head=2) + use(1, 0, 0) + use(1, 0, 1) + END,
    "show": FACT + unit(1) + show(2) + END,
    "show-of-no-atoms": show() + END,
    "show-behind-edge": TWO_UNITS + edge(1, 0) + show(1 << 63) + END,
    "count": count(1, 1, 0) + FACT + unit(1) + END,
    "count-of-zeros": count(0, 0, 0) + END,
    "count-before-given": count(1, 0, 0) + given(2) + FACT + END,
    "count-of-no-tables-or-uses": count(2, 0, 0) + KEY_AND_FACT + rule(head=2) + use(1, 0, 0) + show(1) + END,
    "longest": count(64, 16, 240) + given() + ALL_TABLES + b"".join(rule(1 << i) for i in range(64)) + ALL_USES + unit(2**64 - 1)
    + unit() * 15 + EDGES + show() + END,

    "no-end": FACT,
    "rule-without-operands": b"\x01",
    "second-rule-cut-short": FACT + FACT[:-1],
    "unit-cut-short": FACT + unit(1)[:-1],
    "given-cut-short": given(1)[:-1],
    "table-cut-short": KEY[:-1],
    "use-cut-short": KEY_AND_FACT + use(0, 0, 0)[:-1],
    "edge-cut-short": TWO_UNITS + edge(1, 0)[:-1],
    "show-cut-short": FACT + show(1)[:-1],
    "show-and-no-end": TWO_UNITS + show(1),
    "count-cut-short": count(1, 0, 0)[:-1],
    "count-without-operands": b"\x07",
    "count-and-no-end": count(1, 0, 0),

    "unknown-byte": b"\xff" + END,
    "unknown-byte-behind-unit": FACT + unit(1) + b"\x0a",
    "command-nine": b"\x09" + word(1) + END,
    "unknown-byte-behind-show": show(1) + b"\xff" + END,

    "second-given": given(1) + given(1) + END,
    "second-given-cut-short": given() + b"\x04",
    "given-behind-rule": FACT + given(2) + END,
    "given-behind-rule-cut-short": FACT + b"\x04",
    "given-behind-unit": unit() + given(1) + END,
    "given-behind-edge": TWO_UNITS + edge(1, 0) + given(1) + END,
    "second-given-behind-rule": given(2) + FACT + given(2) + END,
    "given-behind-table": KEY + given(2) + END,
    "table-behind-rule": FACT + KEY + END,
    "table-behind-rule-cut-short": FACT + b"\x05",
    "table-behind-use": KEY_AND_FACT + use(0, 0, 0) + KEY + END,
    "17th-table-behind-rule": ALL_TABLES + FACT + table() + END,
    "rule-behind-use": KEY_AND_FACT + use(0, 0, 0) + FACT + END,
    "use-behind-unit": KEY_AND_FACT + unit(1) + use(0, 0, 0) + END,
    "use-behind-edge-cut-short": KEY_AND_FACT + TWO_UNITS + edge(1, 0) + b"\x06",
    "257th-use-behind-unit": ALL_BUT_UNITS + unit() + use(0, 0, 1) + END,
    "second-show": show(1) + show(1) + END,
    "second-show-cut-short": show() + b"\x08",
    "edge-behind-show": TWO_UNITS + show(1) + edge(1, 0) + END,
    "edge-behind-show-cut-short": TWO_UNITS + show(1) + b"\x03",
    "241st-edge-behind-show": ALL_UNITS + EDGES + show(1) + edge(0, 1) + END,
    "unit-behind-show": show(1) + unit() + END,
    "given-behind-show": show(1) + given(2) + END,
    "rule-behind-show": show(1) + FACT + END,
    "second-count": count(0, 0, 0) * 2 + END,
    "second-count-cut-short": count(0, 0, 0) + b"\x07",
    "count-behind-given": given() + count(0, 0, 0) + END,
    "count-behind-given-cut-short": given() + b"\x07",
    "count-behind-rule": FACT + count(1, 0, 0) + END,
    "count-behind-edge": TWO_UNITS + edge(1, 0) + count(0, 2, 1) + END,
    "count-behind-show": show(1) + count(0, 0, 0) + END,
    "rule-behind-unit": FACT + unit(1) + FACT + END,
    "rule-behind-edge": TWO_UNITS + edge(1, 0) + FACT + END,
    "unit-behind-edge": TWO_UNITS + edge(1, 0) + unit() + END,
    "rule-behind-unit-cut-short": FACT + unit(1) + b"\x01",
    "65th-rule-behind-unit": FACT * 64 + unit(1) + FACT + END,
    "17th-unit-behind-edge": ALL_UNITS + edge(0, 1) + unit() + END,

    "65th-rule": FACT * 65 + END,
    "65th-rule-cut-short": FACT * 64 + b"\x01",
    "65th-rule-of-zeros": FACT * 64 + rule() + END,
    "17th-table": ALL_TABLES + table() + END,
    "17th-table-cut-short": ALL_TABLES + b"\x05",
    "17th-table-of-seven-inputs": ALL_TABLES + table(inputs=0x7F) + END,
    "257th-use": ALL_BUT_UNITS + use(0, 0, 1) + END,
    "257th-use-cut-short": ALL_BUT_UNITS + b"\x06",
    "257th-use-repeated": ALL_BUT_UNITS + use(0, 0, 0) + END,
    "17th-unit": unit() * 17 + END,
    "17th-unit-cut-short": ALL_UNITS + b"\x02",
    "17th-unit-of-an-absent-rule": ALL_UNITS + unit(1) + END,

    "rule-of-zeros": rule() + END,
    "second-rule-of-zeros": FACT + rule() + END,
    "rule-of-zeros-cut-short": rule()[:-1],
    "rule-of-zeros-with-a-use": KEY + rule() + use(0, 0, 0) + END,

    "contradictory-rule": rule(head=1, positive=6, negative=4) + unit(1) + END,
    "contradictory-constraint": FACT + rule(positive=1 << 63, negative=1 << 63) + END,
    "contradictory-rule-cut-short": rule(head=1, positive=2, negative=2)[:-1],
    "contradictory-rule-behind-unit": FACT + unit(1) + rule(head=1, positive=2, negative=2) + END,
    "atom-in-head-and-body": rule(head=3, positive=1, negative=2) + END,

    "table-of-seven-inputs": table(inputs=0x7F) + END,
    "table-of-64-inputs": table(inputs=2**64 - 1, truth=1) + END,
    "table-row-too-many": table(inputs=1, truth=4) + END,
    "row-1-of-no-inputs": KEY + table(truth=2) + END,
    "row-32-of-five-inputs": table(inputs=0x1F << 59, truth=1 << 32) + END,
    "table-of-seven-inputs-cut-short": table(inputs=0x7F)[:-1],

    "use-of-an-absent-rule": KEY_AND_FACT + use(1, 0, 0) + END,
    "use-of-an-absent-table": KEY_AND_FACT + use(0, 1, 0) + END,
    "use-of-table-16": ALL_TABLES + FACT + use(0, 16, 0) + END,
    "use-without-tables": FACT + use(0, 0, 0) + END,
    "use-of-sign-2": KEY_AND_FACT + use(0, 0, 2) + END,
    "use-repeated": KEY_AND_FACT + use(0, 0, 1) + use(0, 0, 1) + END,
    "use-of-an-absent-rule-cut-short": KEY_AND_FACT + use(1, 0, 0)[:-1],

    "unit-of-an-absent-rule": FACT + unit(2) + END,
    "unit-of-rule-63-of-63": FACT * 63 + unit(1 << 63) + END,
    "unit-of-an-absent-rule-cut-short": FACT + unit(2)[:-1],

    "edge-to-no-unit": TWO_UNITS + edge(0, 2) + END,
    "edge-from-no-unit": TWO_UNITS + edge(2, 0) + END,
    "edge-to-unit-64": TWO_UNITS + edge(0, 64) + END,
    "edge-to-itself": TWO_UNITS + edge(1, 1) + END,
    "edge-repeated": TWO_UNITS + edge(1, 0) + edge(1, 0) + END,
    "edge-turned": TWO_UNITS + edge(1, 0) + edge(0, 1) + END,
    "edge-without-units": edge(0, 1) + END,
    "241st-edge": ALL_UNITS + EDGES + edge(0, 1) + END,
    "241st-edge-cut-short": ALL_UNITS + EDGES + b"\x03",

    "count-of-a-rule-more": count(2, 0, 0) + FACT + END,
    "count-of-a-rule-fewer": count(0, 0, 0) + FACT + END,
    "count-of-a-unit-more": count(0, 3, 0) + TWO_UNITS + END,
    "count-of-an-edge-fewer": count(0, 2, 0) + TWO_UNITS + edge(1, 0) + END,
    "count-of-a-use-as-edge": count(1, 0, 1) + KEY_AND_FACT + use(0, 0, 0) + END,
    "count-of-255": count(255, 255, 255) + END,
    "counted-plan-p-without-edge": count(2, 2, 1) + PLAN_P[:-4] + END,
    "counted-plan-p-without-rule": count(2, 2, 1) + rule(head=3) + unit(1) + unit(2) + edge(1, 0) + END,
    "wrong-count-and-a-bad-edge": count(9, 9, 9) + TWO_UNITS + edge(1, 1) + END,
    "wrong-count-and-a-byte-behind-end": count(1, 0, 0) + END + END,

    "two-ends": END + END,
    "plan-p-and-two-bytes": PLAN_P + b"\x0a\x0a",
    "rule-behind-end": END + FACT,
    "given-behind-end": END + given(1),
    "show-behind-end": END + show(1),
    "byte-behind-show-and-end": show(1) + END + END,
    "unknown-byte-behind-end": END + b"\xff",
    "right-count-and-a-byte-behind-end": count(0, 0, 0) + END + END,

    "5000-ends": END * 5000,
    "200-rules": FACT * 200,
}

folder = pathlib.Path(sys.argv[1]) if len(sys.argv) > 1 else HERE
for name, plan in PLANS.items():
    (folder / f"{name}.plan").write_bytes(plan)
