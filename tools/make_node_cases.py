#!/usr/bin/env python3
"""Writes the node files that crates/check_node is run on, and what it should say of each.

    python3 tools/make_node_cases.py

Each case gives a file and its verdict line, written down from the published rules and not computed by any reader. The files
go to crates/check_node/data, their names to args and the lines to stdout beside it.
"""
from node_files import (ALL, BOOL, INPUT, INT, PROPERTY_FIRST, TWO_BANDS, node, rec, reordered, replaced, trailer, write_data,
                        write_lines)

CASES = []


def case(name, data, says):
    assert name not in [c[0] for c in CASES], name
    CASES.append((name, data, says))


def accepted(name, data, streams, prop, inputs, note=0):
    case(name, data, f"accepted streams {streams} property {prop} inputs {inputs} note {note}")


def refused(name, data, number, place):
    case(name, data, f"refused {number} {place}")


CHAIN = [INPUT] + [rec(2, BOOL, i) for i in range(63)]
# 0 = not 1, 1 = not 2 and on to 63, an input
REVERSED_CHAIN = [rec(2, BOOL, i + 1) for i in range(63)] + [INPUT]
NUMBER = rec(0, INT)
LIMIT = 1_000_000_000


def shuffled(chain):
    """Stream i of 64 as record 29 i + 7, modulo 64: record r is stream 53 (r - 7), and 63 is record 42."""
    return reordered(chain, [53 * (r - 7) % 64 for r in range(64)])


def valid():
    accepted("two-bands.bin", node(TWO_BANDS, 5), 6, 5, 2)
    accepted("two-bands-with-note.bin", node(TWO_BANDS, 5, b"two bands, one dish"), 6, 5, 2, 19)
    accepted("all-operators.bin", node(ALL, 17), 22, 17, 2)
    accepted("all-operators-with-note.bin", node(ALL, 0, b"\0"), 22, 0, 2, 1)
    accepted("one-stream.bin", node([INPUT], 0), 1, 0, 1)
    accepted("one-stream-with-note.bin", node([rec(1, BOOL, k=0)], 0, b"x" * 5), 1, 0, 0, 5)
    accepted("sixty-four-streams.bin", node(CHAIN, 63), 64, 63, 1)
    accepted("sixty-four-inputs-with-note.bin", node([INPUT] * 64, 0, b"n" * 100), 64, 0, 64, 100)
    accepted("longest.bin", node(TWO_BANDS, 5, b"\xff" * (65535 - 112)), 6, 5, 2, 65535 - 112)
    accepted("constants-at-their-limits.bin", node(
        [rec(1, BOOL, k=0), rec(1, BOOL, k=1), rec(1, INT, k=LIMIT), rec(1, INT, k=-LIMIT), rec(8, INT, 2, k=LIMIT),
         rec(8, INT, 2, k=-LIMIT), rec(8, INT, 2, k=0)], 1), 7, 1, 0)
    accepted("pre-of-itself-at-record-1.bin", node([INPUT, rec(13, BOOL, 0, 1)], 1), 2, 1, 1)


def in_any_order():
    """An operand needed now may have any number below n."""
    accepted("property-first.bin", node(PROPERTY_FIRST, 0), 6, 0, 2)
    accepted("property-first-with-note.bin", node(PROPERTY_FIRST, 0, b"as people write it"), 6, 0, 2, 18)
    accepted("two-bands-reversed.bin", node(
        [rec(2, BOOL, 1), rec(3, BOOL, 5, 2), rec(3, BOOL, 4, 3), rec(2, BOOL, 5), INPUT, INPUT], 0), 6, 0, 2)
    # 17 becomes 4
    accepted("all-operators-reversed.bin", node(reordered(ALL, range(21, -1, -1)), 4), 22, 4, 2)
    accepted("all-operators-reversed-with-note.bin", node(reordered(ALL, range(21, -1, -1)), 21, b"\xff"), 22, 21, 2, 1)
    accepted("sixty-four-streams-reversed.bin", node(REVERSED_CHAIN, 0), 64, 0, 1)
    accepted("sixty-four-streams-shuffled.bin", node(shuffled(CHAIN), 42), 64, 42, 1)
    # every stream but the last reads the last twice
    accepted("sixty-three-read-the-last.bin", node([rec(5, BOOL, 63, 63)] * 63 + [INPUT], 62), 64, 62, 1)
    accepted("operand-is-n-minus-1.bin", node([rec(2, BOOL, 1), INPUT], 0), 2, 0, 1)
    accepted("operand-63-of-64.bin", node([rec(2, BOOL, 63)] + [INPUT] * 63, 0), 64, 0, 63)
    accepted("operand-b-later.bin", node([INPUT, rec(3, BOOL, 0, 2), INPUT], 1), 3, 1, 2)
    accepted("condition-later.bin", node([INPUT, rec(11, BOOL, 0, 0, 2), INPUT], 0), 3, 0, 2)
    accepted("if-of-three-later.bin", node([rec(11, BOOL, 1, 2, 3), INPUT, rec(2, BOOL, 3), INPUT], 0), 4, 0, 2)
    accepted("arrow-of-later.bin", node([rec(12, BOOL, 2, 1), rec(2, BOOL, 2), INPUT], 1), 3, 1, 1)
    accepted("ints-of-later.bin", node(
        [rec(9, BOOL, 1, 2), rec(6, INT, 2, 4), rec(7, INT, 3, 4), rec(8, INT, 4, k=2), rec(0, INT)], 0), 5, 0, 1)

    # what 13 reads of one instant before is no part of the order
    accepted("pre-of-itself-at-record-0.bin", node([rec(13, BOOL, 1, 0), INPUT], 0), 2, 0, 1)
    accepted("pre-of-later.bin", node([INPUT, rec(13, BOOL, 0, 2), rec(2, BOOL, 0)], 1), 3, 1, 1)
    accepted("loop-closed-by-pre.bin", node([rec(2, BOOL, 1), rec(13, BOOL, 2, 0), rec(1, BOOL)], 0), 3, 0, 0)
    accepted("loop-of-two-pres.bin", node([rec(13, BOOL, 2, 1), rec(13, BOOL, 2, 0), INPUT], 1), 3, 1, 1)
    accepted("loop-of-63-closed-by-pre.bin", node(replaced(CHAIN, 1, rec(13, BOOL, 0, 63)), 63), 64, 63, 1)


def through(first, op, kind, a, b=0, c=0, back=None):
    """The operator at record 1 after a first record; what it reads at 2 reads it back."""
    k = 2 if op == 8 else 0
    return node([first, rec(op, kind, a, b, c, k), back or rec(2, BOOL, 1), rec(1, BOOL, k=1)], 3)


def of_loops():
    """Operands needed now that lead back to their record: no order has it, nor what waits for it."""
    refused("23-first-reads-itself.bin", node([rec(2, BOOL, 0)], 0), 23, "record 0")
    refused("23-middle-reads-itself.bin", node(replaced(TWO_BANDS, 3, rec(3, BOOL, 1, 3)), 5), 23, "record 3")
    refused("23-last-reads-itself.bin", node(replaced(CHAIN, 63, rec(2, BOOL, 63)), 0), 23, "record 63")
    refused("23-loop-of-2.bin", node([INPUT, rec(2, BOOL, 2), rec(2, BOOL, 1)], 0), 23, "record 1")
    refused("23-loop-of-2-by-operand-b.bin", node(replaced(TWO_BANDS, 3, rec(3, BOOL, 1, 4)), 5), 23, "record 3")
    refused("23-loop-of-3.bin", node([rec(2, BOOL, 1), rec(2, BOOL, 2), rec(2, BOOL, 0)], 0), 23, "record 0")
    refused("23-loop-of-3-falling.bin", node([INPUT, rec(2, BOOL, 3), rec(2, BOOL, 1), rec(2, BOOL, 2)], 0), 23, "record 1")
    refused("23-loop-of-64.bin", node(replaced(REVERSED_CHAIN, 63, rec(2, BOOL, 0)), 0), 23, "record 0")
    refused("23-loop-of-64-falling.bin", node(replaced(CHAIN, 0, rec(2, BOOL, 63)), 0), 23, "record 0")
    refused("23-loop-of-64-shuffled.bin", node(shuffled(replaced(CHAIN, 0, rec(2, BOOL, 63))), 42), 23, "record 0")
    refused("23-last-two-of-64.bin", node(replaced(CHAIN, 62, rec(2, BOOL, 63)), 0), 23, "record 62")
    refused("23-loop-with-note.bin", node([rec(2, BOOL, 0)], 0, b"a note"), 23, "record 0")

    # through each operand of each operator that needs it now
    refused("23-through-not.bin", through(INPUT, 2, BOOL, 2), 23, "record 1")
    refused("23-through-multiple.bin", through(NUMBER, 8, INT, 2, back=rec(8, INT, 1, k=3)), 23, "record 1")
    for name, op in (("and", 3), ("or", 4), ("same", 5), ("arrow", 12)):
        refused(f"23-through-{name}-a.bin", through(INPUT, op, BOOL, 2, 0), 23, "record 1")
        refused(f"23-through-{name}-b.bin", through(INPUT, op, BOOL, 0, 2), 23, "record 1")
    for name, op in (("sum", 6), ("difference", 7), ("arrow-int", 12)):
        refused(f"23-through-{name}-a.bin", through(NUMBER, op, INT, 2, 0, back=rec(8, INT, 1, k=1)), 23, "record 1")
        refused(f"23-through-{name}-b.bin", through(NUMBER, op, INT, 0, 2, back=rec(8, INT, 1, k=1)), 23, "record 1")
    for name, op in (("at-most", 9), ("equal", 10)):
        refused(f"23-through-{name}-a.bin", through(NUMBER, op, BOOL, 2, 0, back=rec(11, INT, 0, 0, 1)), 23, "record 1")
        refused(f"23-through-{name}-b.bin", through(NUMBER, op, BOOL, 0, 2, back=rec(11, INT, 0, 0, 1)), 23, "record 1")
    refused("23-through-if-a.bin", through(INPUT, 11, BOOL, 2, 0, 0), 23, "record 1")
    refused("23-through-if-b.bin", through(INPUT, 11, BOOL, 0, 2, 0), 23, "record 1")
    refused("23-through-if-c.bin", through(INPUT, 11, BOOL, 0, 0, 2), 23, "record 1")
    # the branch that is never taken
    refused("23-through-if-a-untaken.bin", through(rec(1, BOOL, k=0), 11, BOOL, 2, 0, 0), 23, "record 1")
    refused("23-through-if-b-untaken.bin", through(rec(1, BOOL, k=1), 11, BOOL, 0, 2, 0), 23, "record 1")
    # and operands whose value never matters
    refused("23-0-times-itself.bin", node([INPUT, rec(8, INT, 1, k=0)], 0), 23, "record 1")
    refused("23-if-same-branches-of-itself.bin", node([INPUT, rec(11, BOOL, 0, 0, 1)], 0), 23, "record 1")
    refused("23-through-pre-a.bin", through(INPUT, 13, BOOL, 2, 0), 23, "record 1")
    refused("23-through-pre-a-int.bin", through(NUMBER, 13, INT, 2, 0, back=rec(8, INT, 1, k=1)), 23, "record 1")
    refused("23-first-value-of-pre-itself.bin", node([INPUT, rec(13, BOOL, 1, 0)], 0), 23, "record 1")
    refused("23-pre-of-itself-alone.bin", node([rec(13, BOOL, 0, 0)], 0), 23, "record 0")
    refused("23-later-value-of-arrow-itself.bin", node([INPUT, rec(12, BOOL, 0, 1)], 0), 23, "record 1")
    refused("23-first-value-of-arrow-itself.bin", node([INPUT, rec(12, BOOL, 1, 0)], 0), 23, "record 1")
    accepted("through-pre-b.bin", through(INPUT, 13, BOOL, 0, 2), 4, 3, 1)
    accepted("through-pre-b-int.bin", through(NUMBER, 13, INT, 0, 2, back=rec(8, INT, 1, k=1)), 4, 3, 1)


def of_waiting():
    """23 names the lowest record never placed, in a loop or waiting for one."""
    loop = [rec(2, BOOL, 3), rec(2, BOOL, 2)]
    refused("23-lowest-waits.bin", node([rec(2, BOOL, 2), INPUT] + loop, 1), 23, "record 0")
    refused("23-lowest-waits-after-placed.bin", node([INPUT, rec(2, BOOL, 2)] + loop, 0), 23, "record 1")
    refused("23-placed-before-and-after.bin", node([INPUT, rec(2, BOOL, 0)] + loop + [rec(2, BOOL, 1)], 0), 23, "record 2")
    # 0 = not 4 is placed after 4
    refused("23-placed-by-later.bin", node([rec(2, BOOL, 4), INPUT] + loop + [rec(2, BOOL, 1)], 0), 23, "record 2")
    refused("23-waits-along-a-chain.bin", node(
        [rec(2, BOOL, 1), rec(2, BOOL, 4), INPUT, rec(2, BOOL, 4), rec(2, BOOL, 5), rec(2, BOOL, 4)], 2), 23, "record 0")
    refused("23-waits-by-operand-b.bin", node([INPUT, rec(3, BOOL, 0, 2)] + loop, 0), 23, "record 1")
    refused("23-waits-by-condition.bin", node([INPUT, rec(11, BOOL, 0, 0, 2)] + loop, 0), 23, "record 1")
    refused("23-waits-above.bin", node([INPUT, rec(2, BOOL, 2), rec(2, BOOL, 1), rec(2, BOOL, 2)], 0), 23, "record 1")
    # a pre of the loop doesn't wait for it
    refused("23-pre-of-loop-is-placed.bin", node([rec(13, BOOL, 1, 2), INPUT] + loop, 0), 23, "record 2")
    refused("23-two-loops.bin", node(
        [INPUT, rec(2, BOOL, 2), rec(2, BOOL, 1), rec(2, BOOL, 4), rec(2, BOOL, 3)], 0), 23, "record 1")
    refused("23-two-loops-nested.bin", node([rec(2, BOOL, 3), rec(2, BOOL, 2), rec(2, BOOL, 1), rec(2, BOOL, 0)], 0), 23, "record 0")
    refused("23-two-loops-share-a-record.bin", node(
        [INPUT, rec(3, BOOL, 2, 3), rec(2, BOOL, 1), rec(2, BOOL, 1)], 0), 23, "record 1")
    refused("23-loop-and-loop-closed-by-pre.bin", node(
        [rec(1, BOOL), rec(13, BOOL, 0, 2), rec(2, BOOL, 1), rec(2, BOOL, 4), rec(2, BOOL, 3)], 0), 23, "record 3")
    # 20 reads 40: 20 to 40 are a loop, for which 41 to 63 wait. Records 0 and 1 are 13 and 2, record 2 is 55
    refused("23-waits-shuffled.bin", node(shuffled(replaced(CHAIN, 20, rec(2, BOOL, 40))), 42), 23, "record 2")

    refused("6-before-23.bin", node([rec(2, BOOL, 1), rec(2, BOOL, 0), rec(2, BOOL, 3)], 0), 6, "record 2")
    refused("6-before-23-of-one-record.bin", node([rec(3, BOOL, 0, 1)], 0), 6, "record 0")
    refused("23-before-7.bin", node([INPUT, rec(2, INT, 0), rec(2, BOOL, 2)], 0), 23, "record 2")
    refused("23-before-7-of-one-record.bin", node([INPUT, rec(6, INT, 0, 1)], 0), 23, "record 1")
    refused("23-before-8.bin", node([rec(0, INT), rec(2, BOOL, 1)], 0), 23, "record 1")


def of_the_file():
    refused("1-missing.bin", None, 1, "file")
    refused("1-empty.bin", b"", 1, "file")
    refused("1-length-15.bin", trailer(1, 0)[1:], 1, "file")
    refused("1-length-65536.bin", node(TWO_BANDS, 5, b"\0" * (65536 - 112)), 1, "file")
    refused("1-length-70000.bin", node(TWO_BANDS, 5, b"\0" * (70000 - 112)), 1, "file")
    refused("2-first-byte.bin", node(TWO_BANDS, 5, first=0x4D), 2, "file")
    refused("2-second-byte.bin", node(TWO_BANDS, 5, second=0x4D), 2, "file")
    refused("2-version-0.bin", node(TWO_BANDS, 5, version=0), 2, "file")
    refused("2-version-2.bin", node(TWO_BANDS, 5, version=2), 2, "file")
    refused("2-fourth-byte.bin", node(TWO_BANDS, 5, zero=1), 2, "file")
    for i in range(4):
        refused(f"2-zero-byte-{i}.bin", node(TWO_BANDS, 5, rest=1 << (8 * i)), 2, "file")
    refused("2-length-16-of-zeros.bin", b"\0" * 16, 2, "file")
    refused("3-no-streams.bin", node([], 0), 3, "file")
    refused("3-sixty-five-streams.bin", node(CHAIN + [INPUT], 0), 3, "file")
    refused("3-most-streams.bin", node(TWO_BANDS, 5, n=65535), 3, "file")
    refused("3-property-is-n.bin", node(TWO_BANDS, 6), 3, "file")
    refused("3-property-past-64.bin", node(CHAIN, 64), 3, "file")
    refused("3-property-65535.bin", node(TWO_BANDS, 65535), 3, "file")
    refused("4-length-16.bin", node([], 0, n=1), 4, "file")
    refused("4-distance-one-less.bin", node(TWO_BANDS, 5, distance=111), 4, "file")
    refused("4-distance-one-more.bin", node(TWO_BANDS, 5, b"note", distance=113), 4, "file")
    refused("4-distance-0.bin", node(TWO_BANDS, 5, distance=0), 4, "file")
    refused("4-distance-high-byte.bin", node(TWO_BANDS, 5, distance=112 + (1 << 24)), 4, "file")
    refused("4-past-the-start.bin", node(TWO_BANDS, 5)[1:], 4, "file")
    refused("4-one-record-too-many.bin", node(TWO_BANDS, 5, n=7), 4, "file")


def of_records():
    for name, i in (("first", 0), ("middle", 3), ("last", 5)):
        refused(f"5-operator-16-{name}.bin", node(replaced(TWO_BANDS, i, rec(16, BOOL)), 5), 5, f"record {i}")
        refused(f"5-type-2-{name}.bin", node(replaced(TWO_BANDS, i, rec(0, 2)), 5), 5, f"record {i}")
    for name, k, kind, op in (("value-past-limit", LIMIT + 1, INT, 1), ("value-past-negative-limit", -LIMIT - 1, INT, 1),
                              ("factor-past-limit", LIMIT + 1, INT, 8), ("factor-past-negative-limit", -LIMIT - 1, INT, 8),
                              ("bool-2", 2, BOOL, 1), ("bool-minus-1", -1, BOOL, 1),
                              ("least-32-bit", -(1 << 31), INT, 1)):
        refused(f"5-constant-{name}.bin", node([INPUT, rec(1, INT), rec(op, kind, op // 8, k=k)], 0), 5, "record 2")
    refused("5-unused-constant.bin", node(replaced(TWO_BANDS, 5, rec(2, BOOL, 4, k=1)), 5), 5, "record 5")
    refused("5-input-with-constant.bin", node(replaced(TWO_BANDS, 0, rec(0, BOOL, k=-1)), 5), 5, "record 0")
    refused("5-input-with-operand.bin", node(replaced(TWO_BANDS, 1, rec(0, BOOL, 1)), 5), 5, "record 1")
    refused("5-constant-with-operand-b.bin", node([INPUT, rec(1, BOOL, b=1)], 0), 5, "record 1")
    refused("5-not-with-operand-b.bin", node(replaced(TWO_BANDS, 2, rec(2, BOOL, 0, 1)), 5), 5, "record 2")
    refused("5-and-with-operand-c.bin", node(replaced(TWO_BANDS, 4, rec(3, BOOL, 0, 3, 1)), 5), 5, "record 4")
    refused("5-arrow-with-operand-c.bin", node(replaced(TWO_BANDS, 4, rec(12, BOOL, 0, 3, 256)), 5), 5, "record 4")
    for i in range(4):
        refused(f"5-zero-byte-{i}.bin", node(replaced(TWO_BANDS, i, rec(0, BOOL, rest=1 << (8 * i))), 5), 5, f"record {i}")
    refused("5-lowest-of-two.bin", node(replaced(replaced(TWO_BANDS, 4, rec(16, 0)), 2, rec(255, 0)), 5), 5, "record 2")
    refused("5-before-6-and-7.bin", node([INPUT, rec(2, INT, 9), rec(16, BOOL)], 0), 5, "record 2")
    refused("5-before-23.bin", node([rec(2, BOOL, 0), rec(16, BOOL)], 0), 5, "record 1")
    refused("5-before-6-and-23.bin", node([rec(2, BOOL, 0), rec(2, BOOL, 9), rec(2, BOOL, 0, 1)], 0), 5, "record 2")
    refused("5-last-of-64.bin", node(replaced(CHAIN, 63, rec(16, BOOL)), 0), 5, "record 63")

    refused("6-operand-is-n.bin", node(replaced(TWO_BANDS, 5, rec(2, BOOL, 6)), 5), 6, "record 5")
    refused("6-operand-65535.bin", node(replaced(TWO_BANDS, 2, rec(2, BOOL, 65535)), 5), 6, "record 2")
    refused("6-operand-plus-256.bin", node(replaced(TWO_BANDS, 3, rec(3, BOOL, 1, 256 + 2)), 5), 6, "record 3")
    refused("6-operand-64-of-64.bin", node(replaced(REVERSED_CHAIN, 0, rec(2, BOOL, 64)), 0), 6, "record 0")
    for name, record in (("first", rec(11, BOOL, 2, 0, 0)), ("second", rec(11, BOOL, 0, 2, 0)), ("condition", rec(11, BOOL, 0, 0, 2))):
        refused(f"6-if-{name}-is-n.bin", node([INPUT, record], 0), 6, "record 1")
    refused("6-arrow-second-is-n.bin", node([INPUT, rec(12, BOOL, 0, 2)], 0), 6, "record 1")
    refused("6-pre-first-is-n.bin", node([INPUT, rec(13, BOOL, 2, 0)], 0), 6, "record 1")
    refused("6-pre-past-n.bin", node([INPUT, rec(13, BOOL, 0, 2)], 0), 6, "record 1")
    # the order would have 2 before 1
    refused("6-lowest-of-two.bin", node([INPUT, rec(3, BOOL, 2, 3), rec(2, BOOL, 3)], 0), 6, "record 1")
    refused("6-before-7.bin", node([INPUT, rec(2, INT, 0), rec(2, BOOL, 3)], 0), 6, "record 2")
    refused("6-before-8.bin", node([rec(0, INT), rec(2, BOOL, 2)], 0), 6, "record 1")

    ints = [INPUT, rec(0, INT)]
    for name, record in (("not-typed-int", rec(2, INT, 0)), ("not-of-int", rec(2, BOOL, 1)), ("and-second-int", rec(3, BOOL, 0, 1)),
                         ("or-first-int", rec(4, BOOL, 1, 0)), ("same-of-ints", rec(5, BOOL, 1, 1)), ("sum-typed-bool", rec(6, BOOL, 1, 1)),
                         ("sum-second-bool", rec(6, INT, 1, 0)), ("difference-first-bool", rec(7, INT, 0, 1)),
                         ("multiple-typed-bool", rec(8, BOOL, 1, k=5)), ("multiple-of-bool", rec(8, INT, 0)),
                         ("at-most-typed-int", rec(9, INT, 1, 1)), ("at-most-second-bool", rec(9, BOOL, 1, 0)),
                         ("equal-first-bool", rec(10, BOOL, 0, 1)), ("if-condition-int", rec(11, BOOL, 0, 0, 1)),
                         ("if-first-other", rec(11, BOOL, 1, 0, 0)), ("if-second-other", rec(11, INT, 1, 0, 0)),
                         ("arrow-second-other", rec(12, INT, 1, 0)), ("pre-first-other", rec(13, BOOL, 1, 0)),
                         ("pre-second-other", rec(13, INT, 1, 0))):
        refused(f"7-{name}.bin", node(ints + [record], 0), 7, "record 2")
    refused("7-pre-of-itself-other-operand.bin", node([rec(0, INT), rec(13, BOOL, 0, 1), INPUT], 2), 7, "record 1")
    refused("7-last-of-64.bin", node(replaced(CHAIN, 63, rec(2, INT, 0)), 0), 7, "record 63")
    refused("7-lowest-of-two.bin", node(ints + [rec(2, INT, 0), rec(6, BOOL, 1, 1)], 0), 7, "record 2")
    refused("7-operand-is-later.bin", node([rec(2, BOOL, 1), rec(0, INT)], 0), 7, "record 0")
    refused("7-lowest-of-two-is-last-in-order.bin", node([rec(2, INT, 1), rec(2, INT, 2), INPUT], 2), 7, "record 0")
    refused("7-before-8-of-reordered.bin", node([rec(8, INT, 1, k=2), rec(6, INT, 2, 2), INPUT], 0), 7, "record 1")

    refused("8-first.bin", node([rec(0, INT)], 0), 8, "record 0")
    refused("8-middle.bin", node([INPUT, rec(0, INT), INPUT], 1), 8, "record 1")
    refused("8-last.bin", node(ALL, 21), 8, "record 21")
    refused("8-of-reordered.bin", node([rec(8, INT, 1, k=2), rec(0, INT)], 0), 8, "record 0")


def lessers():
    """Operators 14 and 15, lesser and greater, where a file is accepted."""
    both = [NUMBER, NUMBER, rec(14, INT, 0, 1), rec(15, INT, 0, 1), rec(9, BOOL, 2, 3)]
    accepted("lesser-and-greater.bin", node(both, 4), 5, 4, 2)
    accepted("lesser-and-greater-with-note.bin", node(both, 4, b"held by both"), 5, 4, 2, 12)
    accepted("lesser-and-greater-reversed.bin", node(reordered(both, range(4, -1, -1)), 0), 5, 0, 2)
    accepted("lesser-of-one-operand.bin", node([NUMBER, rec(14, INT, 0, 0), rec(15, INT, 0, 0), INPUT], 3), 4, 3, 2)
    # each reads the one before it and the first; the property is the last
    chain = [NUMBER] + [rec(14 + i % 2, INT, i, 0) for i in range(62)] + [INPUT]
    accepted("sixty-four-lessers.bin", node(chain, 63), 64, 63, 2)
    accepted("sixty-four-lessers-reversed.bin", node(reordered(chain, range(63, -1, -1)), 0), 64, 0, 2)
    accepted("sixty-four-lessers-shuffled.bin", node(shuffled(chain), 42), 64, 42, 2)
    accepted("lesser-operand-63-of-64.bin", node([rec(14, INT, 63, 62)] + [INPUT] * 61 + [NUMBER] * 2, 1), 64, 1, 63)
    accepted("lesser-operand-b-later.bin", node([NUMBER, rec(14, INT, 0, 2), NUMBER, INPUT], 3), 4, 3, 3)
    accepted("greater-operand-a-later.bin", node([NUMBER, rec(15, INT, 2, 0), NUMBER, INPUT], 3), 4, 3, 3)
    # 1 = 0 -> pre 2
    accepted("lesser-closed-by-pre.bin", node([NUMBER, rec(13, INT, 0, 2), rec(14, INT, 0, 1), rec(9, BOOL, 2, 0)], 3), 4, 3, 1)
    accepted("greater-closed-by-pre.bin", node([rec(15, INT, 1, 2), rec(13, INT, 2, 0), NUMBER, rec(9, BOOL, 2, 0)], 3), 4, 3, 1)


def of_lessers():
    """Operators 14 and 15 against each rule of records."""
    ints = [INPUT, NUMBER, NUMBER]

    def third(number, name, record):
        refused(f"{number}-{name}.bin", node(ints + [record], 0), number, "record 3")

    third(5, "operator-16-int", rec(16, INT, 1, 2))
    third(5, "operator-17", rec(17, INT, 1, 2))
    # 14 and 15 in the low four bits, and in the low seven
    for op in (30, 31, 142, 143):
        third(5, f"operator-{op}", rec(op, INT, 1, 2))
    for name, op in (("lesser", 14), ("greater", 15)):
        third(5, f"{name}-with-constant", rec(op, INT, 1, 2, k=1))
        third(5, f"{name}-with-negative-constant", rec(op, INT, 1, 2, k=-1))
        third(5, f"{name}-with-operand-c", rec(op, INT, 1, 2, 1))
        third(5, f"{name}-with-operand-c-256", rec(op, INT, 1, 2, 256))
        third(5, f"{name}-with-type-2", rec(op, 2, 1, 2))
        third(5, f"{name}-with-zero-byte", rec(op, INT, 1, 2, rest=1 << 24))
        third(6, f"{name}-first-is-n", rec(op, INT, 4, 2))
        third(6, f"{name}-second-is-n", rec(op, INT, 1, 4))
        third(6, f"{name}-first-65535", rec(op, INT, 65535, 2))
        third(6, f"{name}-second-plus-256", rec(op, INT, 1, 256 + 2))
        third(23, f"{name}-of-itself-and-another", rec(op, INT, 3, 1))
        third(23, f"{name}-of-another-and-itself", rec(op, INT, 1, 3))
        third(23, f"{name}-of-itself-twice", rec(op, INT, 3, 3))
        third(7, f"{name}-typed-bool", rec(op, BOOL, 1, 2))
        third(7, f"{name}-first-bool", rec(op, INT, 0, 2))
        third(7, f"{name}-second-bool", rec(op, INT, 1, 0))
        third(7, f"{name}-of-bools", rec(op, INT, 0, 0))
        third(7, f"{name}-of-bools-typed-bool", rec(op, BOOL, 0, 0))
        for operand, a, b in (("a", 2, 0), ("b", 0, 2)):
            refused(f"23-through-{name}-{operand}.bin", through(NUMBER, op, INT, a, b, back=rec(8, INT, 1, k=1)), 23, "record 1")
        refused(f"8-property-is-{name}.bin", node(ints + [rec(op, INT, 1, 2)], 3), 8, "record 3")
        refused(f"7-not-of-{name}.bin", node(ints + [rec(op, INT, 1, 2), rec(2, BOOL, 3)], 0), 7, "record 4")

    # where 14 or 15 stood for no operator: an input's fields, which now are those of a stream that reads stream 0
    refused("7-operator-14-of-two-bands.bin", node(replaced(TWO_BANDS, 3, rec(14, BOOL)), 5), 7, "record 3")
    refused("23-operator-15-of-two-bands.bin", node(replaced(TWO_BANDS, 0, rec(15, BOOL)), 5), 23, "record 0")
    # a loop of both, for which the lowest waits
    loop = [rec(14, INT, 3, 4), INPUT, rec(15, INT, 3, 4), rec(14, INT, 2, 4), NUMBER]
    refused("23-waits-for-lesser-and-greater.bin", node(loop, 1), 23, "record 0")
    refused("5-before-7-of-lesser.bin", node(ints + [rec(14, BOOL, 0, 0), rec(15, INT, 1, 2, k=1)], 0), 5, "record 4")
    refused("6-before-23-of-lesser.bin", node(ints + [rec(14, INT, 3, 1), rec(15, INT, 1, 5)], 0), 6, "record 4")
    refused("23-before-7-of-lesser.bin", node(ints + [rec(14, BOOL, 0, 0), rec(15, INT, 4, 1)], 0), 23, "record 4")
    refused("7-before-8-of-lesser.bin", node([NUMBER, INPUT, rec(14, INT, 0, 1)], 0), 7, "record 2")


def main():
    for cases in (valid, in_any_order, lessers, of_the_file, of_records, of_loops, of_waiting, of_lessers):
        cases()
    write_data("check_node", {name: content for name, content, _ in CASES})
    write_lines("check_node", "args", [name for name, _, _ in CASES])
    write_lines("check_node", "stdout", [f"{name}: {says}" for name, _, says in CASES])
    print(f"{len(CASES)} cases")


main()
