"""Lucarnecress from Python, by ctypes alone.

    python3 lucarnecress.py < PLAN        prints the plan's sheet

The library is the loader's liblucarnecress.so.1, or the file that the environment's LUCARNECRESS_LIBRARY names. A plan is its bytes, and a position a
number in which bit i is atom i."""

import ctypes
import os
import sys

CODE_STEP, ALL_SETTLED, LIST_WORDS, LAST_LIST, TABLE_WORDS, COUNTS, SHEET_BYTES = 65536, 256, 256, 4096, 4352, 17, 4366

library = ctypes.CDLL(os.environ.get("LUCARNECRESS_LIBRARY", "liblucarnecress.so.1"))
library.lucarnecress_version.restype = library.lucarnecress_refusal_text.restype = ctypes.c_char_p
library.lucarnecress_refusal_text.argtypes = [ctypes.c_uint64]


class Refused(Exception):
    """A refusal: its number, its spot, and the number in words."""

    def __init__(self, code):
        self.number, self.spot = divmod(code, CODE_STEP)
        self.text = library.lucarnecress_refusal_text(self.number).decode()
        super().__init__(f"refused {self.number} at {self.spot}: {self.text}")


def version():
    return library.lucarnecress_version().decode()


def lent(operand):
    """The operands in C for one in Python: bytes and words pass as pointer and length, a number as it is."""
    if isinstance(operand, int):
        return [ctypes.c_uint64(operand)]
    if isinstance(operand, bytes):
        return [ctypes.c_char_p(operand), ctypes.c_size_t(len(operand))]
    return [operand, ctypes.c_size_t(len(operand))]


def call(name, *operands):
    """Calls a function: what it gives below the codes of refusals, which are raised."""
    function = getattr(library, "lucarnecress_" + name)
    function.restype = ctypes.c_uint64
    code = function(*(part for operand in operands for part in lent(operand)))
    if code >= CODE_STEP:
        raise Refused(code)
    return code


def words(count, values=()):
    return (ctypes.c_uint64 * count)(*values)


def position_bytes(positions):
    return b"".join(position.to_bytes(8, "little") for position in positions)


def unit_lists(plan):
    """The list of each of 16 units, then the last list."""
    table, counts = words(TABLE_WORDS), words(COUNTS)
    call("list", plan, table, counts)
    return [table[LIST_WORDS * i : LIST_WORDS * i + counts[i]] for i in range(COUNTS)]


def positions(plan):
    """Every settled position, rising, cut to what the plan shows: the last list."""
    return unit_lists(plan)[-1]


def is_settled(plan, position):
    return call("judge", plan, position) == 1


def first_unsettled(plan, listed):
    """The place of the first listed position that is not settled, or None."""
    place = call("judge_sheet", plan, position_bytes(listed))
    return None if place == ALL_SETTLED else place


def missing(plan, listed):
    """The least settled position that is not listed, or None."""
    found = words(1)
    return found[0] if call("missing", plan, position_bytes(listed), found) else None


def walk(plan, above=None, batch=256):
    """Every settled position, or those above one, rising, however many there are."""
    found, count = words(batch), words(1)
    while True:
        if above is None:
            call("first_positions", plan, found, count)
        else:
            call("next_positions", plan, above, found, count)
        yield from found[: count[0]]
        if count[0] < batch:
            return
        above = found[batch - 1]


def blame(plan):
    """(position, None) for a plan that has a position, the least one; else (None, rules): the few constraints that leave none."""
    found = words(1)
    if call("blame", plan, found):
        return found[0], None
    return None, [rule for rule in range(64) if found[0] >> rule & 1]


def count(listed, questions):
    """For each question, a pair of words up and dropped, how many listed positions have every up atom and no dropped one."""
    asked = words(3 * len(questions), [word for up, dropped in questions for word in (up, dropped, 0)])
    call("count", words(len(listed), listed), asked)
    return asked[2::3]


def sheet(plan):
    """The plan's sheet, that of a refused one too."""
    area = (ctypes.c_uint8 * SHEET_BYTES)()
    return bytes(area[: call("sheet", plan, area)])


if __name__ == "__main__":
    sys.stdout.buffer.write(sheet(sys.stdin.buffer.read(4096)))
