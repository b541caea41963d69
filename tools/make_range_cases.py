#!/usr/bin/env python3
"""Writes the node files and tables of ranges that crates/check_ranges is run on, and what it should say of each.

    python3 tools/make_range_cases.py

A table file is signed 64-bit numbers in a row, little-endian: least and greatest of stream 0, of stream 1, and on. One that is not
there, or whose length is no multiple of 8, counts as empty.

Each case gives a node file, a table file and the line, written down from the published rules and not computed by any checker. The
files go to crates/check_ranges/data, the names, node and table in turn, to args and the lines to stdout beside it.
"""
import struct

import flight_proofs
from node_files import ALL, BOOL, INPUT, INT, TWO_BANDS, node, rec, reordered, replaced, table, trailer, write_data, write_lines

LARGEST = 4_000_000_000
BILLION = 1_000_000_000
LEAST_64, GREATEST_64 = -(1 << 63), (1 << 63) - 1
NUMBER = rec(0, INT)
TRUE = rec(1, BOOL, k=1)
ZERO = (0, 0)
WIDE = (-LARGEST, LARGEST)
NODES, CASES = {}, []


def case(name, node_name, ranges, says):
    """`ranges` are those of the streams, or the bytes of the table file."""
    name = f"{name}.table"
    assert name not in [c[1] for c in CASES], name
    CASES.append((f"{node_name}.node", name, table(ranges) if isinstance(ranges, list) else ranges, says))


def listed(name, node_name, *ranges):
    case(name, node_name, list(ranges), "listed")


def refused(name, node_name, ranges, number, place):
    case(f"{number}-{name}", node_name, ranges, f"refused {number} {place}")


def of_table(name, node_name, *ranges):
    refused(name, node_name, list(ranges), 71, "file")


def of_record(name, node_name, i, *ranges):
    refused(name, node_name, list(ranges), 72, f"record {i}")


def whole_nodes():
    NODES["two-bands"] = node(TWO_BANDS, 5)
    listed("two-bands", "two-bands", *[ZERO] * 6)
    NODES.update(flight_proofs.NODES)
    ranges = flight_proofs.TABLES["flight-list"]
    listed("flight-list", "flight-list", *ranges)
    of_record("forged-flight-list", "forged-flight-list", 8, *flight_proofs.TABLES["forged-flight-list"])
    listed("flight-list-of-forged", "forged-flight-list", *ranges)
    # each range that an operator gives is as small as it can be
    for i, (least, greatest) in list(enumerate(ranges))[5:16]:
        of_record(f"flight-list-{i}-least", "flight-list", i, *replaced(ranges, i, (least + 1, greatest)))
        of_record(f"flight-list-{i}-greatest", "flight-list", i, *replaced(ranges, i, (least, greatest - 1)))

    # with the number 0 all that follows from it is fixed; with another, 19 adds it to itself for ever
    NODES["all-operators"] = node(ALL, 17)
    ends = {3: -7, 8: -7, 9: -7, 10: -21, 14: -7, 16: -7, 18: -7, 19: -7, 20: -7, 21: -7}
    fixed = [(ends.get(i, 0),) * 2 for i in range(22)]
    listed("all-operators", "all-operators", *fixed)
    of_record("all-operators-last", "all-operators", 21, *replaced(fixed, 21, (-6, 0)))
    types = [record[1] for record in ALL]
    # 8 is the sum of the number and of 3, which is -7 and has the widest range too
    of_record("all-operators-wide", "all-operators", 8, *[WIDE if kind == INT else ZERO for kind in types])
    NODES["all-operators-reversed"] = node(reordered(ALL, range(21, -1, -1)), 4)
    listed("all-operators-reversed", "all-operators-reversed", *fixed[::-1])
    of_record("all-operators-reversed-last", "all-operators-reversed", 0, *replaced(fixed[::-1], 0, (-6, 0)))
    # stream 19 of old, 18 and the number, is record 2
    of_record("all-operators-reversed-wide", "all-operators-reversed", 2, *[WIDE if kind == INT else ZERO for kind in types[::-1]])


def of_inputs():
    """71 of a node that is one int input and one bool."""
    NODES["number"] = node([NUMBER, INPUT], 1)
    for name, ends in (("both-ends-largest", WIDE), ("ends-0", ZERO), ("ends-5", (5, 5)), ("ends-largest", (LARGEST, LARGEST)),
                       ("ends-least", (-LARGEST, -LARGEST)), ("ends-one-apart", (-1, 0)), ("negative-ends", (-9, -4)),
                       ("past-32-bits", (-(1 << 31) - 1, 1 << 31)), ("input-not-0", (7, 8))):
        listed(name, "number", ends, ZERO)
    for name, ends in (("greatest-one-past", (0, LARGEST + 1)), ("least-one-past", (-LARGEST - 1, 0)),
                       ("ends-one-past", (LARGEST + 1, LARGEST + 1)), ("ends-one-past-negative", (-LARGEST - 1, -LARGEST - 1)),
                       ("both-one-past", (-LARGEST - 1, LARGEST + 1)), ("ends-of-64-bits", (LEAST_64, GREATEST_64)),
                       ("greatest-of-64-bits", (0, GREATEST_64)), ("least-of-64-bits", (LEAST_64, 0)),
                       ("greatest-2-to-the-32", (0, 1 << 32)), ("least-minus-2-to-the-32", (-(1 << 32), 0)),
                       ("greatest-2-to-the-33", (0, 1 << 33)), ("reversed-by-one", (1, 0)), ("reversed-by-one-negative", (-4, -5)),
                       ("reversed-largest", (LARGEST, -LARGEST)), ("reversed-at-largest", (LARGEST, LARGEST - 1)),
                       ("reversed-at-least", (1 - LARGEST, -LARGEST)), ("reversed-of-64-bits", (GREATEST_64, LEAST_64))):
        of_table(name, "number", ends, ZERO)
    for name, ends in (("least-1", (1, 0)), ("least-minus-1", (-1, 0)), ("greatest-1", (0, 1)), ("greatest-minus-1", (0, -1)),
                       ("ends-1", (1, 1)), ("ends-minus-1-and-1", (-1, 1)), ("greatest-256", (0, 256)),
                       ("greatest-2-to-the-32", (0, 1 << 32)), ("least-of-64-bits", (LEAST_64, 0))):
        of_table(f"bool-{name}", "number", (0, 5), ends)
    NODES["true"] = node([TRUE], 0)
    listed("true", "true", ZERO)
    of_table("true-as-1", "true", (1, 1))

    # a bool that an operator gives, among ints and last of all
    NODES["compared"] = node([NUMBER, rec(9, BOOL, 0, 0), NUMBER, rec(10, BOOL, 0, 2)], 3)
    listed("compared", "compared", WIDE, ZERO, (-5, 5), ZERO)
    for i, name in ((1, "middle"), (3, "last")):
        of_table(f"compared-{name}", "compared", *replaced([WIDE, ZERO, (-5, 5), ZERO], i, (0, 1)))
    for i, name in ((0, "first"), (2, "middle")):
        of_table(f"reversed-{name}", "compared", *replaced([WIDE, ZERO, (-5, 5), ZERO], i, (6, 5)))


def of_lengths():
    right = table([(0, 5), ZERO])
    for name, data in (("missing", None), ("empty", b""), ("one-number", right[:8]), ("one-number-less", right[:-8]),
                       ("one-stream-less", right[:-16]), ("one-number-more", right + bytes(8)),
                       ("one-stream-more", right + bytes(16)), ("one-byte", b"\0"), ("one-byte-less", right[:-1]),
                       ("one-byte-more", right + b"\0"), ("4-bytes-more", right + bytes(4)), ("7-bytes-less", right[:-7]),
                       ("129-numbers", bytes(129 * 8)), ("130-numbers", bytes(130 * 8)),
                       ("65536-bytes", bytes(65536)), ("65544-bytes", bytes(65544)), ("70000-bytes", bytes(70000))):
        refused(name, "number", data, 71, "file")
    # the low bytes come first
    case("in-bytes", "number", b"\xfe" + b"\xff" * 7 + b"\x01\x02" + bytes(6) + bytes(16), "listed")
    refused("in-bytes-high-first", "number", struct.pack(">4q", -2, 513, 0, 0), 71, "file")

    NODES["one-bool"] = node([INPUT], 0)
    listed("one-stream", "one-bool", ZERO)
    of_table("two-of-one-stream", "one-bool", ZERO, ZERO)
    refused("none-of-one-stream", "one-bool", b"", 71, "file")
    refused("half-of-one-stream", "one-bool", bytes(8), 71, "file")
    NODES["sixty-four"] = node([NUMBER] * 63 + [INPUT], 63)
    listed("sixty-four", "sixty-four", *[WIDE] * 63, ZERO)
    listed("sixty-four-others", "sixty-four", *[(-i, i * i) for i in range(63)], ZERO)
    of_table("sixty-four-first", "sixty-four", (1, 0), *[WIDE] * 62, ZERO)
    of_table("sixty-four-last-int", "sixty-four", *[WIDE] * 62, (1, 0), ZERO)
    of_table("sixty-four-last", "sixty-four", *[WIDE] * 63, (0, 1))
    full = table([WIDE] * 63 + [ZERO])
    for name, data in (("126-numbers", full[:-16]), ("127-numbers", full[:-8]), ("129-numbers", full + bytes(8)),
                       ("130-numbers", full + bytes(16)), ("8192-numbers", full + bytes(65536 - 1024)), ("1023-bytes", full[:-1]),
                       ("1025-bytes", full + b"\0")):
        refused(f"sixty-four-{name}", "sixty-four", data, 71, "file")


def operated(name, record):
    """A node of the ints 0 and 1, the bool 2, which is the property, and this record, 3."""
    NODES[name] = node([NUMBER, NUMBER, INPUT, record], 2)


def exactly(name, node_name, a, b, least, greatest):
    """Record 3 gives `least` to `greatest`: with that range it is listed, with one less at either end it is not."""
    listed(name, node_name, a, b, ZERO, (least, greatest))
    listed(f"{name}-wider", node_name, a, b, ZERO, (least - 1, greatest + 1))
    of_record(f"{name}-least", node_name, 3, a, b, ZERO, (least + 1, greatest))
    of_record(f"{name}-greatest", node_name, 3, a, b, ZERO, (least, greatest - 1))


def of_constants():
    for name, k in (("seven", 7), ("minus-seven", -7), ("zero", 0), ("billion", BILLION), ("minus-billion", -BILLION)):
        NODES[name] = node([INPUT, rec(1, INT, k=k)], 0)
        listed(name, name, ZERO, (k, k))
        listed(f"{name}-at-greatest", name, ZERO, (k - 3, k))
        listed(f"{name}-at-least", name, ZERO, (k, k + 3))
        listed(f"{name}-wide", name, ZERO, WIDE)
        of_record(f"{name}-one-over", name, 1, ZERO, (k - 3, k - 1))
        of_record(f"{name}-one-under", name, 1, ZERO, (k + 1, k + 3))
        of_record(f"{name}-one-off", name, 1, ZERO, (k + 1, k + 1))


def of_sums():
    a, b = (-3, 5), (10, 20)
    operated("sum", rec(6, INT, 0, 1))
    exactly("sum", "sum", a, b, 7, 25)
    exactly("sum-exchanged", "sum", b, a, 7, 25)
    exactly("sum-of-negatives", "sum", (-9, -4), (-8, -6), -17, -10)
    listed("sum-of-fixed", "sum", (4, 4), (-6, -6), ZERO, (-2, -2))
    listed("sum-largest", "sum", (-2 * BILLION, 2 * BILLION), (-2 * BILLION, 2 * BILLION), ZERO, WIDE)
    of_record("sum-over-largest", "sum", 3, (-2 * BILLION, 2 * BILLION), (-2 * BILLION, 2 * BILLION + 1), ZERO, WIDE)
    of_record("sum-under-least", "sum", 3, (-2 * BILLION - 1, 2 * BILLION), (-2 * BILLION, 2 * BILLION), ZERO, WIDE)
    of_record("sum-of-widest", "sum", 3, WIDE, WIDE, ZERO, WIDE)
    of_record("sum-2-to-the-32", "sum", 3, (1 << 31, 1 << 31), (1 << 31, 1 << 31), ZERO, ZERO)
    operated("twice", rec(6, INT, 0, 0))
    exactly("twice", "twice", a, b, -6, 10)

    operated("difference", rec(7, INT, 0, 1))
    exactly("difference", "difference", a, b, -23, -5)
    exactly("difference-exchanged", "difference", b, a, 5, 23)
    exactly("difference-of-negatives", "difference", (-9, -4), (-8, -6), -3, 4)
    listed("difference-largest", "difference", (-2 * BILLION, 2 * BILLION), (-2 * BILLION, 2 * BILLION), ZERO, WIDE)
    of_record("difference-over-largest", "difference", 3, (-2 * BILLION, 2 * BILLION), (-2 * BILLION - 1, 2 * BILLION), ZERO, WIDE)
    of_record("difference-under-least", "difference", 3, (-2 * BILLION, 2 * BILLION), (-2 * BILLION, 2 * BILLION + 1), ZERO, WIDE)
    of_record("difference-of-widest", "difference", 3, WIDE, WIDE, ZERO, WIDE)
    of_record("difference-as-sum", "difference", 3, a, b, ZERO, (7, 25))
    # each operand by itself, though both are the same stream
    operated("nothing", rec(7, INT, 0, 0))
    exactly("nothing", "nothing", a, b, -8, 8)
    of_record("nothing-as-0", "nothing", 3, a, b, ZERO, ZERO)
    listed("nothing-of-fixed", "nothing", (5, 5), b, ZERO, ZERO)


def of_multiples():
    a, b = (-3, 5), (10, 20)
    for name, k, least, greatest in (("triple", 3, -9, 15), ("minus-triple", -3, -15, 9), ("once", 1, -3, 5),
                                     ("minus-once", -1, -5, 3)):
        operated(name, rec(8, INT, 0, k=k))
        exactly(name, name, a, b, least, greatest)
    exactly("triple-of-positives", "triple", b, a, 30, 60)
    exactly("minus-triple-of-positives", "minus-triple", b, a, -60, -30)
    exactly("minus-triple-of-negatives", "minus-triple", (-9, -4), a, 12, 27)
    of_record("ends-not-swapped", "minus-triple", 3, a, b, ZERO, (-9, 15))
    listed("triple-of-fixed", "triple", (-7, -7), b, ZERO, (-21, -21))
    listed("minus-once-of-widest", "minus-once", WIDE, b, ZERO, WIDE)
    operated("zerofold", rec(8, INT, 0))
    listed("zerofold", "zerofold", WIDE, b, ZERO, ZERO)
    listed("zerofold-wider", "zerofold", WIDE, b, ZERO, (-1, 1))
    of_record("zerofold-least", "zerofold", 3, WIDE, b, ZERO, (1, 9))
    of_record("zerofold-greatest", "zerofold", 3, WIDE, b, ZERO, (-9, -1))
    of_record("zerofold-of-positives", "zerofold", 3, b, b, ZERO, b)
    for name, k in (("billionfold", BILLION), ("minus-billionfold", -BILLION)):
        operated(name, rec(8, INT, 0, k=k))
        listed(f"{name}-of-4", name, (-4, 4), b, ZERO, WIDE)
        of_record(f"{name}-of-4-least", name, 3, (-4, 4), b, ZERO, (1 - LARGEST, LARGEST))
        of_record(f"{name}-of-4-greatest", name, 3, (-4, 4), b, ZERO, (-LARGEST, LARGEST - 1))
        of_record(f"{name}-of-5", name, 3, (-4, 5), b, ZERO, WIDE)
        of_record(f"{name}-of-minus-5", name, 3, (-5, 4), b, ZERO, WIDE)
        of_record(f"{name}-of-widest", name, 3, WIDE, b, ZERO, WIDE)
        of_record(f"{name}-of-largest", name, 3, (LARGEST, LARGEST), b, ZERO, WIDE)
        listed(f"{name}-of-0", name, ZERO, b, ZERO, ZERO)
    operated("by-65536", rec(8, INT, 0, k=1 << 16))
    of_record("multiple-2-to-the-32", "by-65536", 3, (1 << 16, 1 << 16), b, ZERO, ZERO)


def of_choices():
    """For 11, 12 and 13 both a's and b's ranges lie inside."""
    a, b = (-3, 5), (10, 20)
    for name, record in (("if", rec(11, INT, 0, 1, 2)), ("arrow", rec(12, INT, 0, 1)), ("pre", rec(13, INT, 0, 1))):
        operated(name, record)
        exactly(name, name, a, b, -3, 20)
        exactly(f"{name}-exchanged", name, b, a, -3, 20)
        exactly(f"{name}-a-around-b", name, (-9, 9), a, -9, 9)
        exactly(f"{name}-b-around-a", name, a, (-9, 9), -9, 9)
        # only one of the two ends of one of the two operands is outside
        of_record(f"{name}-least-of-a", name, 3, (-4, 5), a, ZERO, a)
        of_record(f"{name}-greatest-of-a", name, 3, (-3, 6), a, ZERO, a)
        of_record(f"{name}-least-of-b", name, 3, a, (-4, 5), ZERO, a)
        of_record(f"{name}-greatest-of-b", name, 3, a, (-3, 6), ZERO, a)
        of_record(f"{name}-a-alone-inside", name, 3, a, b, ZERO, a)
        of_record(f"{name}-b-alone-inside", name, 3, a, b, ZERO, b)
        listed(f"{name}-of-fixed", name, (6, 6), (6, 6), ZERO, (6, 6))
        listed(f"{name}-widest", name, WIDE, WIDE, ZERO, WIDE)
    # the condition's ends, 0 and 0, don't have to be inside
    listed("if-without-0", "if", b, b, ZERO, b)
    for op, name in ((11, "if"), (12, "arrow"), (13, "pre")):
        operated(f"{name}-of-one", rec(op, INT, 0, 0, 2 if op == 11 else 0))
        exactly(f"{name}-of-one", f"{name}-of-one", a, b, -3, 5)

    # 3 = 0 -> pre 3; and a counter, which leaves every range: 1 = 0 -> pre 2, 2 = 1 + 0
    operated("pre-of-itself", rec(13, INT, 0, 3))
    exactly("pre-of-itself", "pre-of-itself", a, b, -3, 5)
    NODES["counter"] = node([rec(1, INT, k=1), rec(13, INT, 0, 2), rec(6, INT, 1, 0), TRUE], 3)
    of_record("counter-of-pre", "counter", 1, (1, 1), (1, 10), (2, 11), ZERO)
    of_record("counter-of-sum", "counter", 2, (1, 1), (1, 10), (1, 10), ZERO)
    of_record("counter-largest", "counter", 2, (1, 1), (1, LARGEST), (1, LARGEST), ZERO)
    # held: 3 = lesser of 2 and 4
    NODES["held"] = node([rec(1, INT, k=1), rec(13, INT, 0, 3), rec(6, INT, 1, 0), rec(14, INT, 2, 4), rec(1, INT, k=10), TRUE], 5)
    listed("held", "held", (1, 1), (1, 10), (2, 11), (2, 10), (10, 10), ZERO)
    of_record("held-sum", "held", 2, (1, 1), (1, 10), (2, 10), (2, 10), (10, 10), ZERO)
    of_record("held-pre", "held", 1, (1, 1), (2, 10), (2, 11), (2, 10), (10, 10), ZERO)


def of_lessers():
    operated("lesser", rec(14, INT, 0, 1))
    operated("greater", rec(15, INT, 0, 1))
    # ends of either operand
    for name, a, b in (("around", (-10, 20), (-3, 5)), ("within", (-3, 5), (-10, 20)), ("below", (-10, 5), (-3, 20)),
                       ("above", (-3, 20), (-10, 5))):
        exactly(f"lesser-{name}", "lesser", a, b, -10, 5)
        exactly(f"greater-{name}", "greater", a, b, -3, 20)
    exactly("lesser-touching", "lesser", (-10, 5), (5, 20), -10, 5)
    exactly("greater-touching", "greater", (-10, 5), (5, 20), 5, 20)
    exactly("lesser-apart", "lesser", (-3, 5), (10, 20), -3, 5)
    exactly("greater-apart", "greater", (-3, 5), (10, 20), 10, 20)
    exactly("lesser-apart-exchanged", "lesser", (10, 20), (-3, 5), -3, 5)
    exactly("greater-apart-exchanged", "greater", (10, 20), (-3, 5), 10, 20)
    exactly("lesser-of-equal", "lesser", (-3, 5), (-3, 5), -3, 5)
    exactly("greater-of-equal", "greater", (-3, 5), (-3, 5), -3, 5)
    listed("lesser-held", "lesser", WIDE, (90, 90), ZERO, (-LARGEST, 90))
    of_record("lesser-held-least", "lesser", 3, WIDE, (90, 90), ZERO, (1 - LARGEST, 90))
    of_record("lesser-held-greatest", "lesser", 3, WIDE, (90, 90), ZERO, (-LARGEST, 89))
    listed("greater-held", "greater", (0, 0), WIDE, ZERO, (0, LARGEST))
    of_record("greater-held-least", "greater", 3, (0, 0), WIDE, ZERO, (1, LARGEST))
    of_record("greater-held-greatest", "greater", 3, (0, 0), WIDE, ZERO, (0, LARGEST - 1))
    for name in ("lesser", "greater"):
        listed(f"{name}-widest", name, WIDE, WIDE, ZERO, WIDE)
        listed(f"{name}-of-fixed", name, (4, 4), (4, 4), ZERO, (4, 4))
    # an operand's range needn't be inside, other than for 11, 12 and 13
    listed("lesser-b-outside", "lesser", (-3, 5), (-1, 20), ZERO, (-3, 5))
    listed("greater-a-outside", "greater", (-3, 5), (-1, 20), ZERO, (-1, 20))
    of_record("lesser-as-greater", "lesser", 3, (-3, 5), (10, 20), ZERO, (10, 20))
    of_record("greater-as-lesser", "greater", 3, (-3, 5), (10, 20), ZERO, (-3, 5))
    for name, op in (("lesser", 14), ("greater", 15)):
        operated(f"{name}-of-one", rec(op, INT, 0, 0))
        exactly(f"{name}-of-one", f"{name}-of-one", (-3, 5), (10, 20), -3, 5)


def not_asked():
    """72 asks nothing of inputs and of bools."""
    NODES["bools"] = node([INPUT, INPUT, rec(2, BOOL, 0), rec(3, BOOL, 0, 1), rec(4, BOOL, 0, 1), rec(5, BOOL, 0, 1), TRUE,
                           rec(11, BOOL, 0, 1, 2), rec(12, BOOL, 0, 1), rec(13, BOOL, 6, 9), NUMBER, NUMBER, rec(9, BOOL, 10, 11),
                           rec(10, BOOL, 10, 11)], 9)
    listed("bools", "bools", *[ZERO] * 10, (3, 4), (-9, -8), *[ZERO] * 2)
    listed("bools-of-widest", "bools", *[ZERO] * 10, WIDE, WIDE, *[ZERO] * 2)
    of_table("bools-compared-with-1", "bools", *[ZERO] * 10, (3, 4), (-9, -8), (0, 1), ZERO)
    NODES["inputs"] = node([NUMBER, rec(6, INT, 0, 2), NUMBER, INPUT], 3)
    listed("inputs", "inputs", (100, 200), (101, 203), (1, 3), ZERO)
    listed("inputs-largest", "inputs", (LARGEST, LARGEST), ZERO, (-LARGEST, -LARGEST), ZERO)


def in_any_order():
    """Operands after their records; the lowest record at fault, whatever the worked-out order is."""
    # 1 = 2 + 3, 2 = twice 3; the order is 3, 2, 1, 0
    NODES["later"] = node([rec(9, BOOL, 1, 3), rec(6, INT, 2, 3), rec(8, INT, 3, k=2), NUMBER], 0)
    listed("later", "later", ZERO, (-9, 15), (-6, 10), (-3, 5))
    of_record("later-sum", "later", 1, ZERO, (-9, 14), (-6, 10), (-3, 5))
    of_record("later-multiple", "later", 2, ZERO, (-9, 15), (-6, 9), (-3, 5))
    # both, and 2 comes first in the order; and 2 alone, for 1 goes by the range that 2 has
    of_record("later-both", "later", 1, ZERO, (-7, 15), (-5, 10), (-3, 5))
    of_record("later-multiple-of-smaller", "later", 2, ZERO, (-8, 15), (-5, 10), (-3, 5))
    NODES["later-lesser"] = node([rec(15, INT, 1, 4), rec(14, INT, 3, 4), INPUT, NUMBER, NUMBER], 2)
    listed("later-lesser", "later-lesser", (-1, 20), (-3, 5), ZERO, (-3, 5), (-1, 20))
    of_record("later-lesser", "later-lesser", 1, (-1, 20), (-2, 5), ZERO, (-3, 5), (-1, 20))
    of_record("later-greater", "later-lesser", 0, (0, 20), (-3, 5), ZERO, (-3, 5), (-1, 20))
    # 0 = 1 -> pre 2
    NODES["later-pre"] = node([rec(13, INT, 1, 2), NUMBER, NUMBER, INPUT], 3)
    listed("later-pre", "later-pre", (0, 9), (0, 4), (5, 9), ZERO)
    of_record("later-pre-a", "later-pre", 0, (1, 9), (0, 4), (5, 9), ZERO)
    of_record("later-pre-b", "later-pre", 0, (0, 8), (0, 4), (5, 9), ZERO)

    # 1, 2 and 3 are each one more than the one before
    NODES["steps"] = node([rec(1, INT, k=1), rec(6, INT, 0, 0), rec(6, INT, 1, 0), rec(6, INT, 2, 0), TRUE], 4)
    right = [(1, 1), (2, 2), (3, 3), (4, 4), ZERO]
    listed("steps", "steps", *right)
    of_record("steps-first", "steps", 0, *replaced(right, 0, (2, 2)))
    of_record("steps-second", "steps", 1, *replaced(right, 1, (3, 3)))
    of_record("steps-third", "steps", 2, *replaced(right, 2, (4, 4)))
    of_record("steps-last", "steps", 3, *replaced(right, 3, (5, 5)))
    of_record("steps-lowest-of-three", "steps", 1, (1, 1), (3, 3), (5, 5), (7, 7), ZERO)
    of_record("steps-lowest-of-all", "steps", 0, ZERO, ZERO, (1, 1), (7, 7), ZERO)

    # 71 first, wherever it is
    of_table("before-72-of-a-lower-record", "steps", ZERO, (2, 2), (3, 3), (5, 4), ZERO)
    of_table("before-72-of-a-higher-record", "steps", (2, 1), (2, 2), (3, 3), (5, 5), ZERO)
    of_table("before-72-of-the-same-record", "steps", (1, 1), (2, 2), (LARGEST + 1, LARGEST + 1), (4, 4), ZERO)
    of_table("bool-before-72", "steps", (1, 1), (2, 2), (3, 3), (5, 5), (0, 1))
    of_table("length-before-72", "steps", (1, 1), (2, 2), (3, 3), (5, 5))
    of_table("ends-before-72-one-past", "steps", (1, 1), (9, 9), (3, 3), (4, LARGEST + 1), ZERO)


def of_64_streams():
    # each the lesser or the greater of the one before it and the first
    chain = [NUMBER] + [rec(14 + i % 2, INT, i, 0) for i in range(62)] + [INPUT]
    NODES["sixty-four-lessers"] = node(chain, 63)
    listed("sixty-four-lessers", "sixty-four-lessers", *[(-3, 5)] * 63, ZERO)
    of_record("sixty-four-lessers-first", "sixty-four-lessers", 1, (-3, 5), *[(-3, 4)] * 62, ZERO)
    of_record("sixty-four-lessers-last", "sixty-four-lessers", 62, *[(-3, 5)] * 62, (-2, 5), ZERO)
    NODES["sixty-four-reversed"] = node(reordered(chain, range(63, -1, -1)), 0)
    listed("sixty-four-reversed", "sixty-four-reversed", ZERO, *[(-3, 5)] * 63)
    of_record("sixty-four-reversed-first", "sixty-four-reversed", 1, ZERO, (-2, 5), *[(-3, 5)] * 62)
    of_record("sixty-four-reversed-last", "sixty-four-reversed", 62, ZERO, *[WIDE] * 61, (-3, 4), (-3, 5))
    # the last record is an int
    NODES["sixty-four-last"] = node([INPUT] + [NUMBER] * 62 + [rec(6, INT, 1, 62)], 0)
    listed("sixty-four-last", "sixty-four-last", ZERO, *[(0, 7)] * 62, (0, 14))
    of_record("sixty-four-last", "sixty-four-last", 63, ZERO, *[(0, 7)] * 62, (0, 13))
    # 31 times twice the one before is 2 to the 31, 32 times is too much
    doubled = [rec(1, INT, k=1)] + [rec(6, INT, i, i) for i in range(32)] + [TRUE]
    NODES["doubled"] = node(doubled, 33)
    of_record("doubled", "doubled", 32, *[(1 << i, 1 << i) for i in range(32)], WIDE, ZERO)
    NODES["doubled-31-times"] = node(doubled[:32] + [TRUE], 32)
    listed("doubled-31-times", "doubled-31-times", *[(1 << i, 1 << i) for i in range(32)], ZERO)


def of_notes():
    records = [NUMBER, rec(7, INT, 0, 0), INPUT]
    for name, note in (("noted", b"for the flight list"), ("noted-with-node", node(TWO_BANDS, 5)),
                       ("longest", b"\xff" * (65535 - 64))):
        NODES[name] = node(records, 2, note)
        listed(name, name, (2, 3), (-1, 1), ZERO)
        of_record(name, name, 1, (2, 3), (-1, 0), ZERO)
        of_table(name, name, (2, 3), (-1, 1), (0, 1))


def of_refused_nodes():
    """The node's own refusal wins over each of the table's."""
    right = [(0, 5), (0, 10), ZERO]
    records = [NUMBER, rec(6, INT, 0, 0), INPUT]
    for number, name, data, place in (
            (1, "no-node", None, "file"), (1, "length-15", trailer(1, 0)[1:], "file"),
            (1, "length-65536", node(records, 2, bytes(65536 - 64)), "file"), (2, "version-2", node(records, 2, version=2), "file"),
            (3, "property-is-n", node(records, 3), "file"), (4, "distance", node(records, 2, distance=65), "file"),
            (5, "operator-16", node(replaced(records, 1, rec(16, INT, 0, 0)), 2), "record 1"),
            (6, "operand-is-n", node(replaced(records, 1, rec(14, INT, 0, 3)), 2), "record 1"),
            (23, "reads-itself", node(replaced(records, 1, rec(15, INT, 0, 1)), 2), "record 1"),
            (7, "lesser-of-bool", node(replaced(records, 1, rec(14, INT, 0, 2)), 2), "record 1"),
            (8, "property-int", node(records, 1), "record 1")):
        NODES[name] = data
        refused(name, name, right, number, place)
        refused(f"{name}-before-71", name, replaced(right, 2, (0, 1)), number, place)
        refused(f"{name}-before-71-of-length", name, b"", number, place)
        refused(f"{name}-before-72", name, replaced(right, 1, ZERO), number, place)
    refused("no-node-no-table", "no-node", None, 1, "file")


def main():
    for cases in (whole_nodes, of_inputs, of_lengths, of_constants, of_sums, of_multiples, of_choices, of_lessers, not_asked,
                  in_any_order, of_64_streams, of_notes, of_refused_nodes):
        cases()
    nodes = {f"{name}.node": data for name, data in NODES.items()}
    write_data("check_ranges", {**nodes, **{name: data for _, name, data, _ in CASES}})
    write_lines("check_ranges", "args", [name for pair in CASES for name in pair[:2]])
    write_lines("check_ranges", "stdout", [f"{name}: {says}" for _, name, _, says in CASES])
    print(f"{len(CASES)} tables")


main()
