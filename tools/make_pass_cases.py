#!/usr/bin/env python3
"""Writes the nodes and passes that crates/run_passes is run on, and what it should say of each.

    python3 tools/make_pass_cases.py

The line of an event comes from `Session` of pass_files, a tiny evaluator over Python's unbounded whole numbers that is written from
the published rules. Of many events the line is also written down (`says`), and the two must agree. The lines of refused node files
are written down. The files go to crates/run_passes/data, the names, node and pass in turn, to args and the lines to stdout beside
it. Here stand the passes of old calls alone; those with trials, commits and beginnings stand in trial_cases.
"""
import struct

import flight_proofs
import order_proofs
import trial_cases
from node_files import ALL, BOOL, INPUT, INT, PROPERTY_FIRST, TWO_BANDS, node, rec, reordered, replaced, write_data, write_lines
from pass_files import FILES, GREATEST, LEAST, LINES, NAMES, OLD, begun, not_begun, shown

HALF = 1 << 62
BILLION = 1_000_000_000
NUMBER = rec(0, INT)
TRUE = rec(1, BOOL, k=1)


def refused(name, data, says):
    """A record that holds no node, whatever the call."""
    p = not_begun(name, data, says)
    p.call(room=0, says="refused 30 file")
    p.call(1, 1, room=6, says="refused 30 file")
    p.call(2, room=1, says="refused 30 file")


def bands(name):
    return begun(name, TWO_BANDS, 5, node_name="two-bands")


def two_bands():
    p = bands("two-bands")
    p.call(1, 1, says="answered 1 1 0 0 0 1")
    p.call(0, 1, says="answered 0 1 1 1 0 1")
    p.call(1, 0, says="answered 1 0 0 0 0 1")
    p.call(0, 0, says="answered 0 0 1 0 0 1")

    p = bands("input-count")
    p.call(says="refused 31 file")
    p.call(1, says="refused 31 file")
    p.call(1, 1, says="answered 1 1 0 0 0 1")
    p.call(1, 1, 1, says="refused 31 file")
    p.calls([0] * 63, [0] * 64, [0] * 65, [0] * 66, [1] * 300)
    p.call(0, 1, says="answered 0 1 1 1 0 1")

    p = bands("slice-length")
    for room in (0, 1, 5, 7, 64, 65, 66, 65535):
        p.call(1, 1, room=room, says="refused 32 file")
    p.call(1, 0, says="answered 1 0 0 0 0 1")
    p.call(1, 0, room=5, says="refused 32 file")
    p.call(0, 0, says="answered 0 0 1 0 0 1")

    p = bands("bool-input")
    p.call(2, 1, says="refused 33 record 0")
    p.call(-1, 1, says="refused 33 record 0")
    p.call(1, 2, says="refused 33 record 1")
    p.call(0, -1, says="refused 33 record 1")
    p.call(2, -1, says="refused 33 record 0")
    p.calls((1, 1), (LEAST, 0), (0, GREATEST), (256, 0), (1 << 32, 1), (LEAST + 1, 1), (0, 1))

    p = bands("cut-off-in-the-inputs")
    p.calls((1, 1), (0, 1))
    p.cut_off(struct.pack("<HHHq", OLD, 2, 6, 1) + bytes(7))
    p = bands("cut-off-in-the-counts")
    p.call(1, 1)
    p.cut_off(bytes(5))
    bands("no-calls")
    FILES[bands("missing").name] = None


def order():
    """31 before 32 before 33 before 34."""
    p = begun("order", [INPUT, NUMBER, rec(6, INT, 1, 1), INPUT], 3)
    p.call(2, HALF, room=3, says="refused 31 file")
    p.call(2, HALF, 2, 0, room=4, says="refused 31 file")
    p.call(2, HALF, 1, room=3, says="refused 32 file")
    p.call(1, HALF, 1, room=5, says="refused 32 file")
    p.call(1, HALF, 2, says="refused 33 record 3")
    p.call(2, HALF, 2, says="refused 33 record 0")
    p.call(1, HALF, 1, says="refused 34 record 2")
    p.call(1, HALF - 1, 0, says="answered 1 4611686018427387903 9223372036854775806 0")

    # inputs stand between other records: their order is the records', and 33 names the record
    p = begun("inputs-between", [TRUE, INPUT, rec(2, BOOL, 1), NUMBER, INPUT, rec(8, INT, 3, k=-3), NUMBER, INPUT], 0)
    p.call(1, 5, 0, -7, 1, says="answered 1 1 0 5 0 -15 -7 1")
    p.call(0, -1, 2, -1, 2, says="refused 33 record 4")
    p.call(1, 2, 1, 2, 2, says="refused 33 record 7")
    p.call(0, 2, 1, 2, 0, says="answered 1 0 1 2 1 -6 2 0")


def counters():
    # 2 = zero -> pre 3; 3 = 2 + one
    p = begun("counter", [rec(1, INT), rec(1, INT, k=1), rec(13, INT, 0, 3), rec(6, INT, 2, 1), rec(9, BOOL, 0, 2)], 4)
    p.call(says="answered 0 1 0 1 1")
    p.call(says="answered 0 1 1 2 1")
    p.call(0, says="refused 31 file")
    p.call(says="answered 0 1 2 3 1")
    p.call(room=4, says="refused 32 file")
    p.call(room=6, says="refused 32 file")
    p.calls((), (), ())

    # 3 = (zero -> pre 3) + x, the sum of the answered inputs: a refused call does not count
    p = begun("sum-so-far", [NUMBER, rec(1, INT), rec(13, INT, 1, 3), rec(6, INT, 2, 0), rec(9, BOOL, 3, 0)], 4)
    p.call(GREATEST - 1, says="answered 9223372036854775806 0 0 9223372036854775806 1")
    p.call(2, says="refused 34 record 3")
    p.call(1, says="answered 1 0 9223372036854775806 9223372036854775807 0")
    p.call(1, says="refused 34 record 3")
    p.call(-1, says="answered -1 0 9223372036854775807 9223372036854775806 0")
    p.calls((1, 1), (2,), (LEAST,), (LEAST,), (LEAST,), (1,))

    # 1, 10^9, 10^18, and then no further
    p = begun("stuck", [rec(1, INT, k=1), rec(13, INT, 0, 2), rec(8, INT, 1, k=BILLION), TRUE], 3)
    p.call(says="answered 1 1 1000000000 1")
    p.call(says="answered 1 1000000000 1000000000000000000 1")
    for _ in range(3):
        p.call(says="refused 34 record 2")

    # 1 = false -> pre not 1
    p = begun("to-and-fro", [rec(1, BOOL), rec(13, BOOL, 0, 2), rec(2, BOOL, 1)], 1)
    p.call(says="answered 0 0 1")
    p.call(says="answered 0 1 0")
    p.call(room=2, says="refused 32 file")
    p.call(says="answered 0 0 1")


def arrows():
    # 2 = 0 -> 1; 3 = 0 -> pre 1; 4 = 1 -> pre 3
    p = begun("arrows-int", [NUMBER, NUMBER, rec(12, INT, 0, 1), rec(13, INT, 0, 1), rec(13, INT, 1, 3), rec(9, BOOL, 2, 3)], 5)
    p.call(10, 20, says="answered 10 20 10 10 20 1")
    p.call(11, 21, says="answered 11 21 21 20 10 0")
    p.call(12, 22, 32, says="refused 31 file")
    p.call(12, 22, room=5, says="refused 32 file")
    p.call(13, LEAST, says="answered 13 -9223372036854775808 -9223372036854775808 21 20 1")
    p.calls((14, GREATEST), (15, 25), (0, 0))

    p = begun("arrows-bool", [INPUT, INPUT, rec(12, BOOL, 0, 1), rec(13, BOOL, 0, 1), rec(13, BOOL, 1, 3), rec(5, BOOL, 2, 3)], 5)
    p.call(1, 0, says="answered 1 0 1 1 0 1")
    p.call(0, 1, says="answered 0 1 1 0 1 0")
    p.call(0, 2, says="refused 33 record 1")
    p.call(1, 0, says="answered 1 0 0 1 0 0")
    p.call(-1, 0, says="refused 33 record 0")
    p.calls((1, 1), (1, 0), (0, 0), (0, 0))

    # before instant 0 a refused call does not make an instant
    p = begun("refused-first", [NUMBER, rec(6, INT, 0, 0), rec(12, INT, 0, 1), rec(13, INT, 0, 1), TRUE], 4)
    p.call(HALF, says="refused 34 record 1")
    p.call(room=5, says="refused 31 file")
    p.call(3, says="answered 3 6 3 3 1")
    p.call(-HALF - 1, says="refused 34 record 1")
    p.call(4, says="answered 4 8 8 6 1")
    p.call(5, says="answered 5 10 10 8 1")


def sums():
    p = begun("double", [NUMBER, rec(6, INT, 0, 0), TRUE], 2)
    p.call(4611686018427387903, says="answered 4611686018427387903 9223372036854775806 1")
    p.call(4611686018427387904, says="refused 34 record 1")
    p.call(-4611686018427387904, says="answered -4611686018427387904 -9223372036854775808 1")
    p.call(-4611686018427387905, says="refused 34 record 1")
    p.calls((LEAST,), (GREATEST,), (0,), (-1,))

    p = begun("sum", [NUMBER, NUMBER, rec(6, INT, 0, 1), TRUE], 3)
    p.call(GREATEST, 0, says="answered 9223372036854775807 0 9223372036854775807 1")
    p.call(GREATEST, 1, says="refused 34 record 2")
    p.call(1, GREATEST, says="refused 34 record 2")
    p.call(LEAST, -1, says="refused 34 record 2")
    p.call(LEAST, GREATEST, says="answered -9223372036854775808 9223372036854775807 -1 1")
    p.calls((GREATEST, LEAST), (LEAST, 0), (0, LEAST), (-1, LEAST), (LEAST, LEAST), (GREATEST, GREATEST), (GREATEST, -1), (LEAST, 1))

    p = begun("difference", [NUMBER, NUMBER, rec(7, INT, 0, 1), TRUE], 3)
    p.call(LEAST, 1, says="refused 34 record 2")
    p.call(0, LEAST, says="refused 34 record 2")
    p.call(-1, LEAST, says="answered -1 -9223372036854775808 9223372036854775807 1")
    p.call(-2, GREATEST, says="refused 34 record 2")
    p.call(-1, GREATEST, says="answered -1 9223372036854775807 -9223372036854775808 1")
    p.calls((LEAST, 0), (LEAST, LEAST), (GREATEST, GREATEST), (GREATEST, -1), (GREATEST, 0), (0, GREATEST), (GREATEST, LEAST), (LEAST, GREATEST),
            (LEAST, -1), (3, 5))


def multiples():
    def multiple(name, k):
        return begun(name, [NUMBER, rec(8, INT, 0, k=k), TRUE], 2)

    p = multiple("billion-times", BILLION)
    p.call(9223372036, says="answered 9223372036 9223372036000000000 1")
    p.call(9223372037, says="refused 34 record 1")
    p.call(-9223372036, says="answered -9223372036 -9223372036000000000 1")
    p.call(-9223372037, says="refused 34 record 1")
    p.calls((LEAST,), (GREATEST,), (0,), (1 << 32,))

    p = multiple("minus-billion-times", -BILLION)
    p.call(9223372036, says="answered 9223372036 -9223372036000000000 1")
    p.call(-9223372036, says="answered -9223372036 9223372036000000000 1")
    p.calls((9223372037,), (-9223372037,), (LEAST,), (GREATEST,), (-1,))

    p = multiple("minus-once", -1)
    p.call(LEAST, says="refused 34 record 1")
    p.call(LEAST + 1, says="answered -9223372036854775807 9223372036854775807 1")
    p.call(GREATEST, says="answered 9223372036854775807 -9223372036854775807 1")
    p.call(0, says="answered 0 0 1")

    p = multiple("minus-twice", -2)
    p.call(HALF, says="answered 4611686018427387904 -9223372036854775808 1")
    p.calls((HALF + 1,), (-HALF,), (1 - HALF,))

    p = begun("none-and-once", [NUMBER, rec(8, INT, 0, k=0), rec(8, INT, 0, k=1), TRUE], 3)
    p.call(LEAST, says="answered -9223372036854775808 0 -9223372036854775808 1")
    p.calls((GREATEST,), (-1,))


def outside():
    p = begun("lowest-of-two", [NUMBER, NUMBER, TRUE, rec(6, INT, 0, 0), rec(8, INT, 1, k=2)], 2)
    p.call(HALF, 0, says="refused 34 record 3")
    p.call(0, HALF, says="refused 34 record 4")
    p.call(HALF, HALF, says="refused 34 record 3")
    p.call(-3, 4, says="answered -3 4 1 -6 8")

    # 3 = if 0 then 2 else 1; 4 = if 0 then 1 else 2
    p = begun("untaken-branch", [INPUT, NUMBER, rec(6, INT, 1, 1), rec(11, INT, 2, 1, 0), rec(11, INT, 1, 2, 0)], 0)
    p.call(0, HALF, says="refused 34 record 2")
    p.call(1, HALF, says="refused 34 record 2")
    p.call(0, 7, says="answered 0 7 14 7 14")
    p.call(1, 7, says="answered 1 7 14 14 7")
    p.call(2, HALF, says="refused 33 record 0")

    # 2, which is 1 less x, is inside where 1, twice x, is not
    p = begun("inside-again", [NUMBER, rec(6, INT, 0, 0), rec(7, INT, 1, 0), rec(9, BOOL, 0, 2)], 3)
    p.call(HALF, says="refused 34 record 1")
    p.call(HALF - 1, says="answered 4611686018427387903 9223372036854775806 4611686018427387903 1")

    # the later operand of an arrow is worked out at instant 0 too; that of a pre is the last answered one
    p = begun("later-operands", [NUMBER, rec(8, INT, 0, k=4), rec(12, INT, 0, 1), rec(13, INT, 0, 4), rec(7, INT, 3, 0), TRUE], 5)
    p.call(HALF, says="refused 34 record 1")
    p.call(5, says="answered 5 20 5 5 0 1")
    p.call(-1, says="answered -1 -4 -4 0 1 1")
    p.call(HALF // 2, says="refused 34 record 1")
    p.call(2, says="answered 2 8 8 1 -1 1")


def whole_nodes():
    p = begun("all-operators", ALL, 17)
    p.call(1, 5, says="answered 1 5 1 -7 0 0 1 1 -2 -7 -21 0 0 0 -7 1 -7 1 -7 -2 -7 -2")
    p.call(0, -4, says="answered 0 -4 1 -7 1 0 1 0 -11 -7 -21 0 0 0 -7 0 -7 1 -2 -6 -7 -6")
    p.call(1, LEAST, says="refused 34 record 8")
    p.call(1, -30, says="answered 1 -30 1 -7 0 0 1 1 -37 -7 -21 1 0 0 -37 0 -37 1 -6 -36 -30 -30")
    p.calls((2, 0), (0, 0), (1, -21), (0, GREATEST), (0, 6))

    p = begun("all-operators-with-note", ALL, 0, b"every operator")
    p.calls((0, 0), (1, 1), (0, -22))
    p = begun("note-is-a-node", [INPUT, rec(13, BOOL, 0, 0)], 0, node(TWO_BANDS, 5))
    p.call(1, says="answered 1 1")
    p.call(0, says="answered 0 1")
    p.call(1, 1, room=6, says="refused 31 file")
    p.call(0, says="answered 0 0")
    p = begun("longest-note", TWO_BANDS, 5, b"\xff" * (65535 - 112))
    p.call(1, 1, says="answered 1 1 0 0 0 1")

    p = begun("sixty-four-nots", [INPUT] + [rec(2, BOOL, i) for i in range(63)], 63)
    p.call(1, says="answered" + " 1 0" * 32)
    p.call(0, room=63, says="refused 32 file")
    p.call(0, room=65, says="refused 32 file")
    p.call(0, says="answered" + " 0 1" * 32)
    p = begun("sixty-four-inputs", [INPUT] * 63 + [NUMBER], 0)
    p.call(*[0, 1] * 31, 1, LEAST, says="answered" + " 0 1" * 31 + " 1 -9223372036854775808")
    p.calls([1] * 63, [1] * 65, [1] * 62 + [2, 2], [0] * 64)
    # each stream is the one before it, one instant later
    p = begun("sixty-four-delays", [NUMBER] + [rec(13, INT, 0, i) for i in range(62)] + [TRUE], 63)
    p.call(9, says="answered" + " 9" * 63 + " 1")
    p.call(8, says="answered 8" + " 9" * 62 + " 1")
    p.call(7, says="answered 7 8" + " 9" * 61 + " 1")
    p = begun("doubled-sixty-two-times", [NUMBER] + [rec(6, INT, i, i) for i in range(62)] + [TRUE], 63)
    p.call(1, says="answered " + " ".join(str(2 ** i) for i in range(63)) + " 1")
    p.call(2, says="refused 34 record 62")
    p.call(-2, says="answered " + " ".join(str(-2 ** i) for i in range(1, 64)) + " 1")
    p.calls((4,), (GREATEST,), (LEAST,), (0,))

    p = begun("one-input", [INPUT], 0)
    p.call(1, says="answered 1")
    p.call(0, says="answered 0")
    p.call(0, room=0, says="refused 32 file")
    p = begun("constants", [rec(1, BOOL), rec(1, BOOL, k=1), rec(1, INT, k=BILLION), rec(1, INT, k=-BILLION)], 0)
    p.call(says="answered 0 1 1000000000 -1000000000")
    p.call(says="answered 0 1 1000000000 -1000000000")


def reordered_nodes():
    """Nodes from above, or alike, whose records stand in another order."""
    p = begun("property-first", PROPERTY_FIRST, 0)
    p.call(1, 1, says="answered 1 1 1 0 0 0")
    p.call(1, 1, room=5, says="refused 32 file")
    p.call(0, 1, says="answered 1 0 1 1 1 0")
    p.call(1, 2, says="refused 33 record 2")
    p.call(2, 2, says="refused 33 record 1")
    p.call(1, 0, says="answered 1 1 0 0 0 0")
    p.call(1, says="refused 31 file")
    p.call(0, 0, says="answered 1 0 0 1 0 0")
    p = begun("property-first-with-note", PROPERTY_FIRST, 0, node(TWO_BANDS, 5))
    p.call(0, 1, says="answered 1 0 1 1 1 0")

    # 2 = zero -> pre 1; 1 = 2 + one
    p = begun("counter-reversed", [rec(9, BOOL, 4, 2), rec(6, INT, 2, 3), rec(13, INT, 4, 1), rec(1, INT, k=1), rec(1, INT)], 0)
    p.call(says="answered 1 1 0 1 0")
    p.call(0, says="refused 31 file")
    p.call(says="answered 1 2 1 1 0")
    p.call(says="answered 1 3 2 1 0")
    # 0 = not 1; 1 = false -> pre 0
    p = begun("to-and-fro-closed-by-pre", [rec(2, BOOL, 1), rec(13, BOOL, 2, 0), rec(1, BOOL)], 0)
    p.call(says="answered 1 0 0")
    p.call(room=2, says="refused 32 file")
    p.call(says="answered 0 1 0")
    p.call(says="answered 1 0 0")
    # 0 = 4 -> pre 2; 1 = 4 -> 3; 2 = 4 -> pre 3; 3 = 4 less 5
    p = begun("arrows-of-later", [rec(13, INT, 4, 2), rec(12, INT, 4, 3), rec(13, INT, 4, 3), rec(7, INT, 4, 5), NUMBER, NUMBER,
                                  rec(9, BOOL, 0, 1)], 6)
    p.call(10, 3, says="answered 10 10 10 7 10 3 1")
    p.call(20, 1, says="answered 10 19 7 19 20 1 1")
    p.call(LEAST, 1, says="refused 34 record 3")
    p.call(5, 6, says="answered 7 -1 19 -1 5 6 0")
    p.call(0, 0, says="answered 19 0 -1 0 0 0 0")

    # the node of examples/property-first
    p = begun("handover-property-first", order_proofs.AS_WRITTEN, 0)
    p.call(0, says="answered 1 40 30 40 45 40 30 0")
    p.call(0, says="answered 1 30 40 30 45 40 30 0")
    p.call(1, says="answered 1 40 30 30 45 40 30 1")
    p.call(2, says="refused 33 record 7")
    p.call(0, says="answered 1 30 30 30 45 40 30 0")

    p = begun("sixty-four-nots-reversed", [rec(2, BOOL, i + 1) for i in range(63)] + [INPUT], 0)
    p.call(1, says="answered" + " 0 1" * 32)
    p.call(2, says="refused 33 record 63")
    p.call(0, room=63, says="refused 32 file")
    p.call(0, says="answered" + " 1 0" * 32)
    p = begun("sixty-four-delays-reversed", [TRUE] + [rec(13, INT, 63, i) for i in range(2, 64)] + [NUMBER], 0)
    p.call(9, says="answered 1" + " 9" * 63)
    p.call(8, says="answered 1" + " 9" * 62 + " 8")
    p.call(7, says="answered 1" + " 9" * 61 + " 8 7")


def shuffled_nodes():
    # 1, an int, is now the first input, and 0 the second
    order = trial_cases.SHUFFLED
    p = begun("all-operators-shuffled", reordered(ALL, order), order.index(17))
    p.call(5, 1, says=shown(order, "answered 1 5 1 -7 0 0 1 1 -2 -7 -21 0 0 0 -7 1 -7 1 -7 -2 -7 -2"))
    p.call(-4, 0, says=shown(order, "answered 0 -4 1 -7 1 0 1 0 -11 -7 -21 0 0 0 -7 0 -7 1 -2 -6 -7 -6"))
    # record 2 is 19, which is -6 and the int, and stands in the order before record 19, which is 8, the int less 7
    p.call(LEAST, 1, says="refused 34 record 2")
    p.call(LEAST + 6, 1, says="refused 34 record 19")
    p.call(LEAST, 2, says="refused 33 record 13")
    p.call(-30, 1, says=shown(order, "answered 1 -30 1 -7 0 0 1 1 -37 -7 -21 1 0 0 -37 0 -37 1 -6 -36 -30 -30"))
    p.calls((0, 2), (0, 0), (-21, 1), (GREATEST, 0), (6, 0))
    order = list(range(21, -1, -1))
    p = begun("all-operators-reversed", reordered(ALL, order), 4)
    p.call(5, 1, says=shown(order, "answered 1 5 1 -7 0 0 1 1 -2 -7 -21 0 0 0 -7 1 -7 1 -7 -2 -7 -2"))
    p.call(-4, 0, says=shown(order, "answered 0 -4 1 -7 1 0 1 0 -11 -7 -21 0 0 0 -7 0 -7 1 -2 -6 -7 -6"))
    p.call(-30, 1, says=shown(order, "answered 1 -30 1 -7 0 0 1 1 -37 -7 -21 1 0 0 -37 0 -37 1 -6 -36 -30 -30"))
    p.calls((0, 2), (0, 0), (-21, 1), (GREATEST, 0), (6, 0))

    # stream i of the chain is record 29 i + 7, modulo 64
    order = [53 * (r - 7) % 64 for r in range(64)]
    p = begun("sixty-four-nots-shuffled", reordered([INPUT] + [rec(2, BOOL, i) for i in range(63)], order), 42)
    p.call(1, says=shown(order, "answered" + " 1 0" * 32))
    p.call(0, says=shown(order, "answered" + " 0 1" * 32))
    p = begun("doubled-shuffled", reordered([NUMBER] + [rec(6, INT, i, i) for i in range(62)] + [TRUE], order), 42)
    p.call(1, says=shown(order, "answered " + " ".join(str(2 ** i) for i in range(63)) + " 1"))
    # stream 62 is record 13; stream 61, which it reads, is record 48
    p.call(2, says="refused 34 record 13")
    p.call(4, says="refused 34 record 48")
    p.calls((GREATEST,), (LEAST,), (-2,))


def first_outside():
    """34 names the first in the order, which may stand above another that is outside too. 33 comes before, and goes by records."""
    # the order is 2, 1, 0
    p = begun("higher-first", [rec(6, INT, 1, 1), rec(6, INT, 2, 2), NUMBER, TRUE], 3)
    p.call(HALF, says="refused 34 record 1")
    p.call(HALF // 2, says="refused 34 record 0")
    p.call(HALF // 2 - 1, says="answered 9223372036854775804 4611686018427387902 2305843009213693951 1")
    p.call(-HALF - 1, says="refused 34 record 1")
    # the order is 1, 2, 3, 0: what 2 reads comes before what 0 reads
    p = begun("higher-first-of-two-inputs", [rec(6, INT, 3, 3), NUMBER, rec(6, INT, 1, 1), NUMBER, TRUE], 4)
    p.call(HALF, HALF, says="refused 34 record 2")
    p.call(HALF, 0, says="refused 34 record 2")
    p.call(0, HALF, says="refused 34 record 0")
    p.call(3, -4, says="answered -8 3 6 -4 1")
    # the order is 1, 0, 2: 0 as soon as it can be
    p = begun("lower-first", [rec(6, INT, 1, 1), NUMBER, rec(8, INT, 1, k=4), TRUE], 3)
    p.call(HALF, says="refused 34 record 0")
    p.call(HALF // 2, says="refused 34 record 2")
    p.call(5, says="answered 10 5 20 1")
    # the order is 3, 0, 4, 1, 2: 0 comes before 4, which 1 waits for
    p = begun("lower-first-again", [rec(8, INT, 3, k=2), rec(6, INT, 4, 4), rec(7, INT, 1, 0), NUMBER, NUMBER, TRUE], 5)
    p.call(HALF, HALF, says="refused 34 record 0")
    p.call(0, HALF, says="refused 34 record 1")
    p.call(-HALF, HALF - 1, says="refused 34 record 2")
    p.call(2, 5, says="answered 4 10 6 2 5 1")
    # doubled from 63 down to 1: where 2 is outside so is 1, but 2 comes first
    p = begun("doubled-reversed", [TRUE] + [rec(6, INT, i + 1, i + 1) for i in range(1, 63)] + [NUMBER], 0)
    p.call(1, says="answered 1 " + " ".join(str(2 ** i) for i in range(62, -1, -1)))
    p.call(2, says="refused 34 record 1")
    p.call(4, says="refused 34 record 2")
    p.call(GREATEST, says="refused 34 record 62")
    p.call(-2, says="answered 1 " + " ".join(str(-2 ** i) for i in range(63, 0, -1)))
    # the untaken branch, and the later operand at instant 0, are worked out before what doesn't take them
    p = begun("untaken-branch-later", [rec(11, INT, 3, 2, 4), rec(12, INT, 3, 2), rec(6, INT, 3, 3), NUMBER, INPUT], 4)
    p.call(HALF, 1, says="refused 34 record 2")
    p.call(7, 1, says="answered 7 7 14 7 1")
    p.call(8, 0, says="answered 16 16 16 8 0")

    # the order is 2, 3, 1, 4, 0; inputs are those of 2, 3 and 4, and 33 is looked at before 1 is worked out
    p = begun("inputs-later", [rec(3, BOOL, 2, 4), rec(6, INT, 3, 3), INPUT, NUMBER, INPUT], 0)
    p.call(1, HALF, 2, says="refused 33 record 4")
    p.call(2, HALF, 2, says="refused 33 record 2")
    p.call(1, HALF, 1, says="refused 34 record 1")
    p.call(1, 5, 1, says="answered 1 10 1 5 1")
    p.call(0, -6, 1, says="answered 0 -12 0 -6 1")
    p.call(1, 1, room=4, says="refused 31 file")
    p.call(1, 7, 0, says="answered 0 14 1 7 0")


def operators():
    """Truth tables; comparisons at the limits."""
    p = begun("truth-tables", [INPUT, INPUT, INPUT, rec(2, BOOL, 0), rec(3, BOOL, 0, 1), rec(4, BOOL, 0, 1), rec(5, BOOL, 0, 1),
                               rec(11, BOOL, 0, 1, 2)], 5)
    p.call(0, 0, 0, says="answered 0 0 0 1 0 0 1 0")
    p.call(0, 1, 0, says="answered 0 1 0 1 0 1 0 1")
    p.call(1, 0, 1, says="answered 1 0 1 0 0 1 0 1")
    p.call(1, 1, 1, says="answered 1 1 1 0 1 1 1 1")
    p.calls((0, 0, 1), (0, 1, 1), (1, 0, 0), (1, 1, 0))

    p = begun("comparisons", [NUMBER, NUMBER, rec(9, BOOL, 0, 1), rec(10, BOOL, 0, 1)], 2)
    p.call(LEAST, GREATEST, says="answered -9223372036854775808 9223372036854775807 1 0")
    p.call(GREATEST, LEAST, says="answered 9223372036854775807 -9223372036854775808 0 0")
    p.call(LEAST, LEAST, says="answered -9223372036854775808 -9223372036854775808 1 1")
    p.calls((GREATEST, GREATEST), (-1, 0), (0, -1), (-1, -1), (-1, 1), (1, -1), (LEAST, 0), (0, LEAST), (LEAST, LEAST + 1), (-2, -1))


def lessers():
    """Operators 14 and 15, of each operand and of both."""
    p = begun("lesser-and-greater", [NUMBER, NUMBER, rec(14, INT, 0, 1), rec(15, INT, 0, 1), rec(14, INT, 1, 0),
                                     rec(15, INT, 1, 0), TRUE], 6)
    p.call(3, 5, says="answered 3 5 3 5 3 5 1")
    p.call(5, 3, says="answered 5 3 3 5 3 5 1")
    p.call(4, 4, says="answered 4 4 4 4 4 4 1")
    p.call(-3, -5, says="answered -3 -5 -5 -3 -5 -3 1")
    p.call(-5, -3, says="answered -5 -3 -5 -3 -5 -3 1")
    p.call(-4, -4, says="answered -4 -4 -4 -4 -4 -4 1")
    p.call(-1, 1, says="answered -1 1 -1 1 -1 1 1")
    p.call(0, -1, says="answered 0 -1 -1 0 -1 0 1")
    p.call(0, 0, says="answered 0 0 0 0 0 0 1")
    p.call(LEAST, GREATEST, says="answered {0} {1} {0} {1} {0} {1} 1".format(LEAST, GREATEST))
    p.call(GREATEST, LEAST, says="answered {1} {0} {0} {1} {0} {1} 1".format(LEAST, GREATEST))
    p.call(LEAST, LEAST, says="answered" + f" {LEAST}" * 6 + " 1")
    p.call(GREATEST, GREATEST, says="answered" + f" {GREATEST}" * 6 + " 1")
    p.call(LEAST, 0, says="answered {0} 0 {0} 0 {0} 0 1".format(LEAST))
    p.call(GREATEST, 0, says="answered {0} 0 0 {0} 0 {0} 1".format(GREATEST))
    p.calls((LEAST, LEAST + 1), (LEAST + 1, LEAST), (GREATEST - 1, GREATEST), (GREATEST, GREATEST - 1), (LEAST, -1),
            (-1, GREATEST), (1 << 31, -(1 << 31)), (1 << 32, 1), (-(1 << 32), -1), ((1 << 32) - 1, 1 << 32), (HALF, -HALF),
            (5, 256))
    p.call(1, says="refused 31 file")
    p.call(1, 2, room=6, says="refused 32 file")
    p.call(2, 1, says="answered 2 1 1 2 1 2 1")

    p = begun("lesser-of-one-operand", [NUMBER, rec(14, INT, 0, 0), rec(15, INT, 0, 0), rec(10, BOOL, 1, 2)], 3)
    for x in (7, -7, 0, LEAST, GREATEST):
        p.call(x, says=f"answered {x} {x} {x} 1")


def held():
    """Counters that 14 and 15 hold, at instant 0 and later."""
    # 3 = 10 -> pre 5; 4 = 3 + x; 5 = lesser of 4 and 12
    p = begun("held-by-lesser", [NUMBER, rec(1, INT, k=10), rec(1, INT, k=12), rec(13, INT, 1, 5), rec(6, INT, 3, 0),
                                 rec(14, INT, 4, 2), rec(9, BOOL, 5, 2)], 6)
    p.call(1, says="answered 1 10 12 10 11 11 1")
    p.call(1, says="answered 1 10 12 11 12 12 1")
    p.call(1, says="answered 1 10 12 12 13 12 1")
    p.call(GREATEST, says="refused 34 record 4")
    p.call(GREATEST - 12, says=f"answered {GREATEST - 12} 10 12 12 {GREATEST} 12 1")
    p.call(-20, says="answered -20 10 12 12 -8 -8 1")
    p.call(LEAST, says="refused 34 record 4")
    p.call(LEAST + 8, says=f"answered {LEAST + 8} 10 12 -8 {LEAST} {LEAST} 1")
    # 2 = greater of x and 0, 3 = 2 -> pre 2, 4 = 2 -> x
    p = begun("held-at-instant-0", [NUMBER, rec(1, INT), rec(15, INT, 0, 1), rec(13, INT, 2, 2), rec(12, INT, 2, 0),
                                    rec(9, BOOL, 1, 3)], 5)
    p.call(-5, says="answered -5 0 0 0 0 1")
    p.call(6, says="answered 6 0 6 0 6 1")
    p.call(-7, says="answered -7 0 0 6 -7 1")
    p.call(0, says="answered 0 0 0 0 0 1")
    # the least and the greatest input so far: 2 = 0 -> pre 3, 3 = lesser of 0 and 2; 4 and 5 likewise
    p = begun("least-and-greatest-so-far", [NUMBER, TRUE, rec(13, INT, 0, 3), rec(14, INT, 0, 2), rec(13, INT, 0, 5),
                                            rec(15, INT, 4, 0)], 1)
    p.call(4, says="answered 4 1 4 4 4 4")
    p.call(9, says="answered 9 1 4 4 4 9")
    p.call(-2, says="answered -2 1 4 -2 9 9")
    p.call(3, says="answered 3 1 -2 -2 9 9")
    p.calls((GREATEST,), (1,), (LEAST,), (0,))

    # the node of examples/flight-list: up and down, both counters held at both ends; its inputs past their range in the end
    p = begun("flight-list", flight_proofs.FLIGHT_LIST, 16)
    p.call(25, says="answered 25 0 -30 30 90 25 25 0 25 25 25 90 65 65 65 90 1")
    p.call(4_000_000_000, says="answered 4000000000 0 -30 30 90 4000000000 30 25 55 55 55 65 35 35 35 90 1")
    p.call(-4_000_000_000, says="answered -4000000000 0 -30 30 90 -30 -30 55 25 25 25 35 65 65 65 90 1")
    p.call(room=17, says="refused 31 file")
    p.call(-29, says="answered -29 0 -30 30 90 -29 -29 25 -4 0 0 65 94 90 90 90 1")
    p.call(-1, says="answered -1 0 -30 30 90 -1 -1 0 -1 0 0 90 91 90 90 90 1")
    p.call(0, says="answered 0 0 -30 30 90 0 0 0 0 0 0 90 90 90 90 90 1")
    p.call(30, says="answered 30 0 -30 30 90 30 30 0 30 30 30 90 60 60 60 90 1")
    p.call(31, says="answered 31 0 -30 30 90 31 30 30 60 60 60 60 30 30 30 90 1")
    p.call(29, says="answered 29 0 -30 30 90 29 29 60 89 89 89 30 1 1 1 90 1")
    p.call(2, says="answered 2 0 -30 30 90 2 2 89 91 91 90 1 -1 -1 0 90 1")
    p.call(1, says="answered 1 0 -30 30 90 1 1 90 91 91 90 0 -1 -1 0 90 1")
    p.call(-31, says="answered -31 0 -30 30 90 -30 -30 90 60 60 60 0 30 30 30 90 1")
    p.call(-30, says="answered -30 0 -30 30 90 -30 -30 60 30 30 30 30 60 60 60 90 1")
    p.call(-30, says="answered -30 0 -30 30 90 -30 -30 30 0 0 0 60 90 90 90 90 1")
    p.call(-30, says="answered -30 0 -30 30 90 -30 -30 0 -30 0 0 90 120 90 90 90 1")
    p.calls((30,), (30,), (30,), (30,), (-7,))
    p.call(GREATEST, says=f"answered {GREATEST} 0 -30 30 90 {GREATEST} 30 83 113 113 90 7 -23 -23 0 90 1")
    p.call(LEAST, says=f"answered {LEAST} 0 -30 30 90 -30 -30 90 60 60 60 0 30 30 30 90 1")
    # at instant 0 both counters are held already
    p = begun("flight-list-handed-back", flight_proofs.FLIGHT_LIST, 16, node_name="flight-list")
    p.call(-4_000_000_000, says="answered -4000000000 0 -30 30 90 -30 -30 0 -30 0 0 90 120 90 90 90 1")
    p.call(30, says="answered 30 0 -30 30 90 30 30 0 30 30 30 90 60 60 60 90 1")
    # that of examples/forged-flight-list: 16 fails from instant 2 to 5, and 8 is over 119 at instant 3
    p = begun("forged-flight-list", flight_proofs.FORGED, 16)
    p.call(30, says="answered 30 0 -30 30 90 30 30 0 30 30 30 90 60 60 60 90 1")
    p.call(30, says="answered 30 0 -30 30 90 30 30 30 60 60 60 60 30 30 30 90 1")
    p.call(30, says="answered 30 0 -30 30 90 30 30 60 90 90 90 30 0 0 30 120 0")
    p.call(30, says="answered 30 0 -30 30 90 30 30 90 120 120 90 30 0 0 30 120 0")
    p.call(-30, says="answered -30 0 -30 30 90 -30 -30 90 60 60 60 30 60 60 60 120 0")
    p.call(-30, says="answered -30 0 -30 30 90 -30 -30 60 30 30 30 60 90 90 90 120 0")
    p.call(-30, says="answered -30 0 -30 30 90 -30 -30 30 0 0 0 90 120 90 90 90 1")


def lessers_reordered():
    """14 and 15 before their operands, and in any order."""
    p = begun("lesser-reversed", [rec(9, BOOL, 1, 2), rec(14, INT, 4, 3), rec(15, INT, 4, 3), NUMBER, NUMBER], 0)
    p.call(3, 5, says="answered 1 3 5 3 5")
    p.call(GREATEST, LEAST, says=f"answered 1 {LEAST} {GREATEST} {GREATEST} {LEAST}")
    p.call(-6, -6, says="answered 1 -6 -6 -6 -6")
    # 1 = 5 -> pre 0; 0 = lesser of 1 and 4; 2 = greater of 0 and 3, where 3 is twice 4
    p = begun("lesser-in-any-order", [rec(14, INT, 1, 4), rec(13, INT, 5, 0), rec(15, INT, 0, 3), rec(8, INT, 4, k=2), NUMBER,
                                      rec(1, INT, k=7), INPUT], 6)
    p.call(9, 1, says="answered 7 7 18 18 9 7 1")
    p.call(-1, 0, says="answered -1 7 -1 -2 -1 7 0")
    p.call(4, 0, says="answered -1 -1 8 8 4 7 0")
    # what 14 and 15 read is worked out, also where it is not the one they take
    p = begun("lesser-of-one-outside", [rec(14, INT, 1, 2), rec(6, INT, 2, 2), NUMBER, TRUE], 3)
    p.call(HALF, says="refused 34 record 1")
    p.call(HALF - 1, says="answered 4611686018427387903 9223372036854775806 4611686018427387903 1")
    p.call(-HALF, says="answered -9223372036854775808 -9223372036854775808 -4611686018427387904 1")
    p.call(-HALF - 1, says="refused 34 record 1")
    p = begun("twice-the-greater", [NUMBER, NUMBER, rec(15, INT, 0, 1), rec(6, INT, 2, 2), rec(14, INT, 0, 1), rec(6, INT, 4, 4),
                                    TRUE], 6)
    p.call(HALF, 0, says="refused 34 record 3")
    p.call(0, -HALF - 1, says="refused 34 record 5")
    p.call(HALF, -HALF - 1, says="refused 34 record 3")
    p.call(HALF - 1, -HALF, says="answered 4611686018427387903 -4611686018427387904 4611686018427387903 9223372036854775806"
                                 " -4611686018427387904 -9223372036854775808 1")

    # stream i is the greater of the one before it and the first where i is even, else the lesser of it and the last
    chain = [NUMBER] + [rec(14 + i % 2, INT, i, 63 * (1 - i % 2)) for i in range(62)] + [NUMBER]
    p = begun("sixty-four-lessers", replaced(chain, 62, rec(9, BOOL, 61, 0)), 62)
    p.call(5, 3, says="answered 5" + " 3 5" * 30 + " 3 1 3")
    p.call(5, 9, says="answered" + " 5" * 62 + " 1 9")
    p.call(LEAST, GREATEST, says="answered" + f" {LEAST}" * 62 + f" 1 {GREATEST}")
    order = list(range(63, -1, -1))
    p = begun("sixty-four-lessers-reversed", reordered(replaced(chain, 62, rec(9, BOOL, 61, 0)), order), 1)
    p.call(3, 5, says=shown(order, "answered 5" + " 3 5" * 30 + " 3 1 3"))
    p.call(9, 5, says=shown(order, "answered" + " 5" * 62 + " 1 9"))


def no_node():
    refused("1-missing", None, "refused 1 file")
    refused("1-length-15", node(TWO_BANDS, 5)[-15:], "refused 1 file")
    refused("2-version-2", node(TWO_BANDS, 5, version=2), "refused 2 file")
    refused("3-property-is-n", node(TWO_BANDS, 6), "refused 3 file")
    refused("4-past-the-start", node(TWO_BANDS, 5)[1:], "refused 4 file")
    refused("5-operator-16", node(replaced(TWO_BANDS, 3, rec(16, BOOL)), 5), "refused 5 record 3")
    refused("6-operand-is-n", node(replaced(TWO_BANDS, 4, rec(3, BOOL, 0, 6)), 5), "refused 6 record 4")
    refused("23-reads-itself", node(replaced(TWO_BANDS, 4, rec(3, BOOL, 0, 4)), 5), "refused 23 record 4")
    # 1 = 3 and 2, 2 = not 1; the property only waits for them
    loop = [rec(2, BOOL, 2), rec(3, BOOL, 3, 2), rec(2, BOOL, 1), INPUT]
    refused("23-property-waits", node(loop, 0), "refused 23 record 0")
    refused("23-with-note", node(loop, 0, node(TWO_BANDS, 5)), "refused 23 record 0")
    refused("7-not-typed-int", node(replaced(TWO_BANDS, 2, rec(2, INT, 0)), 5), "refused 7 record 2")
    refused("7-lesser-of-bools", node(replaced(TWO_BANDS, 3, rec(14, BOOL)), 5), "refused 7 record 3")
    refused("23-greater-of-itself", node(replaced(TWO_BANDS, 0, rec(15, BOOL)), 5), "refused 23 record 0")
    refused("8-property-is-int", node(TWO_BANDS + [NUMBER], 6), "refused 8 record 6")


def main():
    for part in (two_bands, order, counters, arrows, sums, multiples, outside, whole_nodes, reordered_nodes, shuffled_nodes,
                 first_outside, operators, lessers, held, lessers_reordered, no_node, *trial_cases.PARTS):
        part()
    write_data("run_passes", FILES)
    write_lines("run_passes", "args", NAMES)
    write_lines("run_passes", "stdout", LINES)
    pairs = len(NAMES) // 2
    print(f"{pairs} pairs, {len(LINES) - pairs} events")


main()
