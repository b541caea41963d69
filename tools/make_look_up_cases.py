#!/usr/bin/env python3
"""Writes the nodes, histories and questions that crates/look_ups is run on, and what it should say of each.

    python3 tools/make_look_up_cases.py

The answers come from `History` of look_up_files, a tiny look-up over Python's unbounded whole numbers that is written from the
published rules and held against a session on the same inputs. Many answers are also written down, and the two must agree. Those on
refused node files are written down. The files go to crates/look_ups/data, the names, node, history and questions in turn, to args
and the lines to stdout beside it. Here stand the refusals before 34, nodes of the examples and odd files; what is visited stands
in visit_cases.
"""
import struct

import booking_proofs
import duty_proofs
import examiner_proofs
import example_proofs
import flight_proofs
import half_minute_proofs
import order_proofs
import parity_proofs
import set_up_proofs
import visit_cases
from example_proofs import FALSE, NUMBER, TRUE
from look_up_files import FILES, LINES, NAMES, OUT, Questions, accepted, accepted_file, refused
from node_files import BOOL, INPUT, INT, TWO_BANDS, node, rec, replaced, trailer, write_data, write_lines
from pass_files import GREATEST, LEAST

HALF = 1 << 62
# the greatest of an unsigned number
FULL = (1 << 64) - 1
# 1 is twice 0
TWICE = [NUMBER, rec(6, INT, 0, 0), INPUT]
# by what is wrong with it: a history of TWICE
FAULTS = {"31": [(5, 1), (6,)], "33": [(5, 2), (6, 0)], "65": [(5, 1)] * 17, "34": [(HALF, 1), (6, 0)]}
# the last three are outside of a history of two instants
WANTED = ((1, 0), (0, 1), (3, 0), (1, 2), (FULL, FULL))


def all_refused(name, node_name, rows, says, instants=None, history=None):
    """Whatever is wanted."""
    Questions(name, node_name, rows, instants, history).each(WANTED, says)


def of_refused_nodes():
    """The node's own refusal wins over all others."""
    for number, name, data, place in (
            (1, "no-node", None, "file"), (1, "length-15", trailer(1, 0)[1:], "file"),
            (1, "length-65536", node(TWICE, 2, bytes(65536 - 64)), "file"), (2, "version-2", node(TWICE, 2, version=2), "file"),
            (3, "property-is-n", node(TWICE, 3), "file"), (4, "distance", node(TWICE, 2, distance=65), "file"),
            (5, "operator-16", node(replaced(TWICE, 1, rec(16, INT, 0, 0)), 2), "record 1"),
            (6, "operand-is-n", node(replaced(TWICE, 1, rec(6, INT, 0, 3)), 2), "record 1"),
            (23, "reads-itself", node(replaced(TWICE, 1, rec(6, INT, 0, 1)), 2), "record 1"),
            (7, "sum-of-bool", node(replaced(TWICE, 1, rec(6, INT, 0, 2)), 2), "record 1"),
            (8, "property-int", node(TWICE, 1), "record 1")):
        refused(name, data, f"refused {number} {place}")
        all_refused(f"{number}-{name}", name, [(5, 1), (6, 0)], f"refused {number} {place}", history="right")
        for fault, rows in FAULTS.items():
            all_refused(f"{number}-{name}-before-{fault}", name, rows, f"refused {number} {place}", history=f"wrong-by-{fault}")
    all_refused("1-no-node-no-history", "no-node", [], "refused 1 file", history="none")


def in_their_order():
    """Two faults at once, and more: 31 before 33 before 65 before 34."""
    accepted("twice", TWICE, 2)
    q = Questions("right", "twice", [(5, 1), (6, 0)])
    q.all({0: (5, 6), 1: (10, 12), 2: (1, 0)})
    for fault, says in (("31", "refused 31 file"), ("33", "refused 33 record 2"), ("65", "refused 65 file")):
        all_refused(fault, "twice", FAULTS[fault], says, history=f"wrong-by-{fault}")
    Questions("34", "twice", FAULTS["34"], history="wrong-by-34").all({0: (HALF, 6), 1: (OUT, 12), 2: (1, 0)})

    all_refused("31-before-33", "twice", [(5, 2), (6,)], "refused 31 file")
    all_refused("31-too-many-before-33", "twice", [(5, 2), (6, 0), (7,)], "refused 31 file", instants=2)
    all_refused("31-too-many-33-among-them", "twice", [(5, 1), (6, 0), (7, 2)], "refused 31 file", instants=2)
    all_refused("31-before-65", "twice", [(5, 1)] * 16 + [(5,)], "refused 31 file")
    all_refused("31-too-many-before-65", "twice", [(5, 1)] * 18, "refused 31 file", instants=17)
    all_refused("31-before-34", "twice", [(HALF, 1), (6,)], "refused 31 file")
    all_refused("31-before-33-65-34", "twice", [(HALF, 2)] * 16 + [(HALF,)], "refused 31 file")
    all_refused("33-before-65", "twice", [(5, 2)] * 17, "refused 33 record 2")
    all_refused("33-at-instant-17-before-65", "twice", [(5, 1)] * 16 + [(5, -1)], "refused 33 record 2")
    all_refused("33-before-34", "twice", [(HALF, 2), (6, 0)], "refused 33 record 2")
    all_refused("33-later-before-34", "twice", [(HALF, 1), (HALF, 2)], "refused 33 record 2")
    all_refused("33-before-65-34", "twice", [(HALF, 1)] * 16 + [(HALF, 2)], "refused 33 record 2")
    all_refused("65-before-34", "twice", [(HALF, 1)] * 17, "refused 65 file")
    Questions("65-in-part-before-34", "twice", [(HALF, 1)] * 2).each(WANTED[2:], "refused 65 file")


def counts_of(inputs):
    """A node with as many inputs, the first of them bool, and TRUE after them."""
    name = f"inputs-{inputs}"
    accepted(name, [INPUT, *[NUMBER] * (inputs - 1), TRUE][:64], 0)
    return name


def counts():
    """31: the number of inputs is not that of instants times that of the node's. At two instants 2 would be right for its bools
    alone, and 6 for all its streams."""
    row = (1, 5)
    two = counts_of(2)
    Questions("two-instants-4-numbers", two, [row, row]).all({0: (1, 1), 1: (5, 5), 2: (1, 1)})
    for count in (0, 1, 2, 3, 5, 6, 7, 8):
        all_refused(f"31-2-instants-{count}-numbers", two, [(row * 4)[:count]], "refused 31 file", instants=2)
    for count in (0, 1, 2):
        says = "refused 65 file" if count == 0 else "refused 31 file"
        all_refused(f"{says.split()[1]}-no-instants-{count}-numbers", two, [row[:count]], says, instants=0)
    for instants, count in ((1, 0), (1, 1), (1, 3), (16, 0), (16, 31), (16, 33), (17, 0), (17, 33), (17, 35)):
        all_refused(f"31-{instants}-instants-{count}-numbers", two, [(row * 18)[:count]], "refused 31 file", instants=instants)


def wrapping_counts():
    """The product is 2 to the 64 or 2 to the 32 and more, and what is left of it would be right; or the number of instants in 8,
    16 or 32 bits would be."""
    for inputs, instants, count in (
            (2, 1 << 63, 0), (2, (1 << 63) + 1, 2), (2, (1 << 63) + 2, 4), (2, FULL, 0), (2, FULL - 1, 0), (2, 1 << 62, 0),
            (1, FULL, 0), (1, FULL, 1), (3, ((1 << 64) + 2) // 3, 2), (3, ((1 << 65) + 1) // 3, 1), (5, ((1 << 64) + 4) // 5, 4),
            (64, 1 << 58, 0), (64, (1 << 58) + 1, 64), (2, 1 << 31, 0), (2, (1 << 31) + 1, 2), (64, 1 << 26, 0), (2, 1 << 32, 0),
            (2, (1 << 32) + 2, 4), (2, (1 << 16) + 2, 4), (2, 256 + 2, 4)):
        rows = [((1, *[5] * (inputs - 1)) * 2)[:count]]
        all_refused(f"31-{inputs}-times-{instants}-{count}-numbers", counts_of(inputs), rows, "refused 31 file", instants=instants)


def without_inputs():
    """A node that has none takes any number of instants without a number, and 65 says which are too many."""
    accepted("clock", [rec(1, INT, k=1), rec(13, INT, 0, 2), rec(6, INT, 1, 0), TRUE], 3)
    for instants in (1, 2, 16):
        q = Questions(f"clock-{instants}-instants", "clock", [()] * instants, history="none")
        q.all({0: [1] * instants, 1: range(1, instants + 1), 2: range(2, instants + 2), 3: [1] * instants})
        q.each([(4, 0), (0, instants), (3, FULL), (FULL, 0)], "refused 65 file")
    for instants in (0, 17, 18, 256, 257, 1 << 16, (1 << 16) + 1, 1 << 32, (1 << 32) + 1, 1 << 63, (1 << 63) + 1, FULL - 15, FULL):
        q = Questions(f"65-clock-{instants}-instants", "clock", [], instants, history="none")
        q.each([(0, 0), (2, 15), (2, 16), (3, FULL), (FULL, 0), (4, instants)], "refused 65 file")
    for instants, count in ((0, 1), (1, 1), (16, 1), (16, 16), (17, 1), (17, 17), (FULL, 1)):
        all_refused(f"31-clock-{instants}-instants-{count}-numbers", "clock", [[7] * count], "refused 31 file", instants)


def bools():
    """33: a bool input that is not 0 or 1. Ints may have any size."""
    # 1 and 3 are bool inputs, 0 and 4 int ones
    accepted("mixed", [NUMBER, INPUT, rec(2, BOOL, 1), INPUT, NUMBER, rec(6, INT, 0, 4)], 2)
    for name, number in (("minus-1", -1), ("2", 2), ("greatest", GREATEST), ("least", LEAST), ("256", 256), ("257", 257),
                         ("2-to-the-32", 1 << 32), ("2-to-the-32-and-1", (1 << 32) + 1), ("minus-2-to-the-32", -(1 << 32))):
        for stream, row in ((1, (7, number, 0, 9)), (3, (7, 1, number, 9))):
            Questions(f"33-{name}-of-{stream}", "mixed", [row]).each(
                [(1, 0), (0, 0), (5, 0), (6, 0), (0, 1)], f"refused 33 record {stream}")
    q = Questions("ints-of-any-size", "mixed", [(GREATEST, 0, 1, LEAST), (LEAST, 1, 0, GREATEST), (2, 1, 1, -1), (-1, 0, 0, 2)])
    q.streams(0, GREATEST, 0, 1, 1, LEAST, -1)
    q.streams(1, LEAST, 1, 0, 0, GREATEST, -1)
    q.streams(2, 2, 1, 0, 1, -1, 1)
    q.streams(3, -1, 0, 1, 0, 2, 1)


def which_bool():
    """Of the earliest instant the lowest record."""
    right = (7, 0, 1, 9)
    for name, rows, record in (
            ("both-of-an-instant", [right, (7, 2, 2, 9), right], 1),
            ("higher-of-an-earlier", [right, (7, 0, 2, 9), (7, 2, 0, 9)], 3),
            ("lower-of-an-earlier", [(7, -1, 0, 9), (7, 0, -1, 9), right], 1),
            ("same-of-two", [right, (7, 0, 3, 9), (7, 0, 4, 9)], 3),
            ("higher-then-both", [(7, 1, 5, 9), (7, 5, 5, 9), (7, 5, 5, 9)], 3), ("first-of-all", [(7, 8, 8, 9)] * 3, 1),
            ("last-of-all", [right, right, (7, 1, 9, 9)], 3), ("first-of-the-last", [right, right, (7, 9, 1, 9)], 1)):
        q = Questions(f"33-{name}", "mixed", rows)
        # also where an earlier instant is wanted, and streams that rest on neither
        q.each([(i, j) for j in range(3) for i in (0, 1, 3, 5)] + [(0, 3), (6, 0)], f"refused 33 record {record}")
    for instants, place, record in ((16, 15, 1), (17, 16, 3), (17, 0, 1), (18, 17, 1), (300, 299, 3), (512, 511, 3), (512, 16, 1)):
        rows = replaced([right] * instants, place, (7, 0, 2, 9) if record == 3 else (7, 2, 0, 9))
        q = Questions(f"33-instant-{place}-of-{instants}", "mixed", rows)
        q.each([(0, 0), (0, place), (5, 15), (6, 0), (0, instants)], f"refused 33 record {record}")
    # the very first number
    accepted("bool", [INPUT], 0)
    for name, rows in (("one-instant", [(2,)]), ("two-instants", [(2,), (1,)]), ("seventeen-instants", [(-1,)] + [(0,)] * 16)):
        Questions(f"33-first-of-{name}", "bool", rows).each([(0, 0), (0, 1), (1, 0)], "refused 33 record 0")
    # 63 inputs, the last of them bool
    accepted("last-bool", [TRUE, *[NUMBER] * 62, INPUT], 0)
    for instants in (1, 16, 17, 32):
        rows = [[t] * 62 + [2 * (t == instants - 1)] for t in range(instants)]
        Questions(f"33-last-of-{instants}", "last-bool", rows).each([(0, 0), (63, 0)], "refused 33 record 63")


def outside_of_a_history():
    """65: a number of instants, a stream or an instant; also ones whose low bytes are inside."""
    great = [64, 65, 255, 256, 257, 1 << 16, (1 << 16) + 1, 1 << 32, (1 << 32) + 1, 1 << 63, (1 << 63) + 1, FULL - 1, FULL]
    for instants in (1, 2, 15, 16):
        q = Questions(f"within-{instants}-instants", "twice", [(t, t % 2) for t in range(instants)])
        q.all({0: range(instants), 1: range(0, 2 * instants, 2), 2: [t % 2 for t in range(instants)]})
        q.each([(stream, 0) for stream in (3, 4, *great)], "refused 65 file")
        q.each([(2, instant) for instant in (instants, instants + 1, *great)], "refused 65 file")
        q.each([(3, instants), (FULL, FULL), (3, instants - 1), (3, FULL)], "refused 65 file")
    for instants in (17, 18, 32, 256, 257, 1024):
        q = Questions(f"65-{instants}-instants", "twice", [(t, t % 2) for t in range(instants)])
        q.each([(0, 0), (2, 15), (2, 16), (1, instants - 1), (1, instants), (3, 0), (FULL, FULL)], "refused 65 file")
    q = Questions("one-stream", "bool", [(1,)])
    q.ask(0, 0, 1)
    q.each([(1, 0), (0, 1), (1, 1), (FULL, 0), (0, FULL)], "refused 65 file")
    q = Questions("65-one-stream-no-instants", "bool", [], history="none")
    q.each([(0, 0), (1, 0), (0, 1), (FULL, FULL)], "refused 65 file")


def limits_of_64_streams():
    accepted("sixty-four-false", [TRUE, *[FALSE] * 62, TRUE], 63)
    q = Questions("sixty-four-false", "sixty-four-false", [()] * 16, history="none")
    q.streams(15, 1, *[0] * 62, 1)
    q.each([(64, 15), (64, 0), (63, 16), (127, 0), (128, 0), (320, 0), (65536, 0), (1 << 58, 0)], "refused 65 file")


def examples():
    """All streams at all instants of histories of the example nodes; columns are as the pages of the examples say."""
    nodes = {**example_proofs.NODES, **booking_proofs.NODES, **parity_proofs.NODES, **half_minute_proofs.NODES,
             **order_proofs.NODES, **flight_proofs.NODES, **set_up_proofs.NODES}
    bands = ((0, 0), (0, 1), (1, 0), (1, 1))
    given_up, asked = [(0,), (0,), (1,), (0,), (0,), (0,)], [(60,), (1,), (-10,), (11,), (10,)]
    halves, early, late = (120, 120, 100, 100, 120), (40, 30, 40, 30, 30, 30), (30, 40, 30, 30, 30, 30)
    for name, rows, columns in (
            ("two-bands", bands * 4, {3: (0, 1, 0, 0) * 4, 4: [0] * 16, 5: [1] * 16}),
            ("free-minutes", [(60,), (31,), (30,), (1,), (-5,), (5,)], {6: (30, 30, 0, 0, 5, 0), 7: [1] * 6}),
            ("grant", [(0, 0), (1, 0), (0, 0), (0, 1), (0, 0), (1, 1), (1, 0)], {5: (0, 1, 1, 0, 0, 0, 1), 9: [1] * 7}),
            ("turns", [(1, 1), (1, 1), (0, 1), (1, 0), (1, 0), (1, 1)],
             {6: (1, 0, 0, 1, 0, 0), 7: (0, 1, 0, 0, 0, 1), 13: [1] * 6}),
            ("quota", [(1, 0), (1, 0), (0, 0), (1, 0), (1, 0), (1, 1), (1, 0)],
             {9: (1, 1, 0, 1, 0, 1, 1), 12: (20, 40, 40, 60, 60, 20, 40), 14: [1] * 7}),
            ("handover", given_up, {4: early, 5: late, 7: [1] * 6}), ("property-first", given_up, {0: [1] * 6, 1: early, 2: late}),
            ("relay", [()] * 16, {8: [1] * 16}),
            ("pairs-of-minutes", [(1, 0), (1, 0), (-2, -3), (HALF, 0), (0, 1)], {9: (1, 1, 1, OUT, 1)}),
            ("forged-pairs", [(1, 0), (1, 0), (-2, -3)], {9: (1, 0, 0)}),
            ("half-minutes", asked, {8: halves, 10: [1] * 5}), ("forged-minutes", asked, {8: halves, 10: [0] * 5}),
            ("flight-list", [(30,)] * 3 + [(GREATEST,), (LEAST,), (-31,), (12,), (0,)],
             {10: (30, 60, 90, 90, 60, 30, 42, 42), 14: (60, 30, 0, 0, 30, 60, 48, 48), 16: [1] * 8}),
            ("forged-flight-list", [(30,)] * 3, {16: (1, 1, 0)}),
            ("set-up", [()] * 4, {2: (5, 0, 0, 0), 3: (0, 5, 0, 0), 4: [1] * 4}), ("forged-set-up", [()] * 3, {4: (1, 0, 1)})):
        accepted_file(name, nodes[name])
        Questions(f"of-{name}", name, rows).all(columns)


def on_duty_and_examined():
    accepted_file("on-duty", duty_proofs.NODES["on-duty"])
    q = Questions("of-on-duty", "on-duty", [(50, 30), (20, 5)])
    q.streams(0, 50, 30, 90, 1, 1, 10, 1, 40, 40, 10, 90, 0)
    q.streams(1, 20, 5, 10, 0, 1, 5, 1, -10, 10, 5, 90, 0)
    accepted_file("one-value", examiner_proofs.NODES["one-value"])
    q = Questions("of-one-value", "one-value", examiner_proofs.HISTORY)
    for stream, instant, says in examiner_proofs.QUESTIONS:
        q.ask(stream, instant, says)
    q.stops(1, "refused 34 record 7")
    Questions("of-one-value-all", "one-value", examiner_proofs.HISTORY, history="of-one-value").all()


def odd_histories():
    accepted("number", [NUMBER, TRUE], 1)
    rows = [(5,), (6,), (7,)]
    for length in (1, 7):
        # the start of an 8
        name, rest = f"history-rest-of-{length}-bytes", struct.pack("<q", 8)[:length]
        Questions(name, "number", rows, more=rest).instants(0, 5, 6, 7)
        Questions(f"31-{name}", "number", rows, 4, name, rest).each([(0, 0), (0, 3)], "refused 31 file")
    for length in (1, 7):
        Questions(f"31-history-of-{length}-bytes", "number", [], 1, more=b"\1" * length).ask(0, 0, "refused 31 file")
    Questions("31-history-empty", "number", [], 1, history="none").ask(0, 0, "refused 31 file")
    Questions("31-history-missing", "number", [], 1, history="missing").ask(0, 0, "refused 31 file")
    Questions("65-history-missing", "number", [], history="missing").ask(0, 0, "refused 65 file")
    q = Questions("clock-history-missing", "clock", [()] * 3, history="missing")
    q.instants(2, 2, 3, 4)
    FILES["missing.history"] = None


def long_histories():
    """More than 2,048 numbers count as the first 2,048."""
    for count, instants, number in ((2047, 2047, 65), (2048, 2048, 65), (2048, 2047, 31), (2049, 2048, 65), (2049, 2049, 31),
                                    (8193, 2048, 65), (8193, 8193, 31), (8193, 8192, 31)):
        Questions(f"{number}-{count}-numbers-{instants}-instants", "bool", [(1,)] * count, instants,
                  history=f"{count}-numbers").ask(0, 0, f"refused {number} file")
    for count, place in ((2048, 2047), (2049, 2047), (2049, 2048)):
        q = Questions(f"2-at-{place}-of-{count}", "bool", replaced([(1,)] * count, place, (2,)), 2048)
        q.ask(0, 0, "refused 33 record 0" if place == 2047 else "refused 65 file")
    # 64 inputs: 32 instants are as many numbers as are read
    for instants, number in ((32, 65), (33, 31)):
        rows = [[t] * 63 + [1] for t in range(instants)]
        all_refused(f"{number}-sixty-four-inputs-{instants}-instants", "sixty-four-inputs", rows, f"refused {number} file")


def odd_questions():
    for length in (0, 1, 7):
        q = Questions(f"questions-of-{length}-bytes", "twice", [], 0, history="none")
        q.file(struct.pack("<Q", 2)[:length])
    Questions("questions-of-8-bytes", "twice", [(5, 1), (6, 0)], history="right")
    Questions("questions-of-8-bytes-no-node", "no-node", [(5, 1), (6, 0)], FULL, history="right")
    Questions("questions-missing", "twice", [(5, 1), (6, 0)], 0, history="right").file(None)
    # the start of a question, stream 1 at instant 1
    for length in (1, 7, 8, 9, 15):
        rest = struct.pack("<QQ", 1, 1)[:length]
        Questions(f"questions-cut-off-{length}-bytes", "twice", [(5, 1), (6, 0)], history="right").cut_off(rest)
        q = Questions(f"questions-and-{length}-bytes", "twice", [(5, 1), (6, 0)], history="right")
        q.ask(1, 0, 10)
        q.ask(1, 1, 12)
        q.cut_off(rest)


def mixed_streams():
    """Eight streams and seven times eight more, each of the eight before; 2 and 5 read the last ones one instant before, and
    where 0 holds 4 does without 2."""
    records = [INPUT, NUMBER, rec(13, INT, 1, 58), TRUE, rec(11, INT, 1, 2, 0), rec(13, BOOL, 3, 59), rec(9, BOOL, 1, 4),
               rec(2, BOOL, 0)]
    for p in range(0, 56, 8):
        records += [rec(3, BOOL, p, p + 6), rec(6 + p // 8 % 2, INT, p + 1, p + 4), rec(11, INT, p + 2, p + 1, p + 3),
                    rec(5, BOOL, p + 3, p), rec(14 + p // 8 % 2, INT, p + 4, p + 2), rec(9, BOOL, p + 1, p + 4),
                    rec(12, BOOL, p + 5, p + 6), rec(4, BOOL, p + 7, p)]
    return records


def many_questions():
    """All streams at all instants, in four orders, for what was asked before changes no answer. The last of these questions and
    those after it are past what is read of a file, and nothing is said of them."""
    accepted("sixty-four-mixed", mixed_streams(), 3)
    steps = (4, -9, 0, 7, GREATEST, -1, 3, LEAST, 12, -7, -8, 1, 5, 77, 2, 6)
    q = Questions("sixty-four-mixed", "sixty-four-mixed", [(int(t % 5 < 2), steps[t]) for t in range(16)])
    rising = [(stream, instant) for instant in range(16) for stream in range(64)]
    by_stream = [(stream, instant) for stream in range(64) for instant in range(16)]
    asked = [*rising, *reversed(by_stream), *[(37 * i % 64, (i // 64 + i) % 16) for i in range(1024)], *by_stream]
    for stream, instant in asked[:4095]:
        q.ask(stream, instant)
    q.cut_off(struct.pack("<QQ", *asked[4095]) + struct.pack("<QQ", 0, 0) * 300)


def main():
    for part in (in_their_order, of_refused_nodes, counts, wrapping_counts, without_inputs, bools, which_bool,
                 outside_of_a_history, limits_of_64_streams, *visit_cases.PARTS, examples, on_duty_and_examined, odd_histories,
                 long_histories, odd_questions, many_questions):
        part()
    write_data("look_ups", FILES)
    write_lines("look_ups", "args", NAMES)
    write_lines("look_ups", "stdout", LINES)
    threes = len(NAMES) // 3
    print(f"{threes} threes, {len(LINES) - threes} questions")


main()
