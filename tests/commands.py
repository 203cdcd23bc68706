"""The bytes of each command of a plan, for all that makes plans in Python; `encode.rs` has them for Rust. Words are numbers, lowest byte first."""


def word(bits):
    return bits.to_bytes(8, "little")


def count(rules, units, edges):
    return bytes([7, rules, units, edges])


def given(atoms=0):
    return b"\x04" + word(atoms)


def table(inputs=0, truth=0):
    return b"\x05" + word(inputs) + word(truth)


def rule(head=0, positive=0, negative=0):
    return b"\x01" + word(head) + word(positive) + word(negative)


def use(rule, table, sign):
    """The sign is 0 for must be true and 1 for must be false."""
    return bytes([6, rule, table, sign])


def unit(rules=0):
    return b"\x02" + word(rules)


def edge(u, v):
    return bytes([3, u, v])


def show(atoms=0):
    return b"\x08" + word(atoms)


END = b"\x00"
