"""Questions that are answered with a value or with 34: which streams are visited from the wanted one, and at which instants."""
from example_proofs import FALSE, NUMBER, TRUE
from look_up_files import OUT, Questions, accepted
from node_files import ALL, BOOL, INPUT, INT, node, rec, reordered
from pass_files import GREATEST, LEAST

HALF = 1 << 62
BILLION = 1_000_000_000
ONE, ZERO = rec(1, INT, k=1), rec(1, INT, k=0)
# 1 is twice 0, 2 is that less 0, which is 0 again
RETURNS = [NUMBER, rec(6, INT, 0, 0), rec(7, INT, 1, 0), rec(10, BOOL, 2, 0), rec(2, BOOL, 3), rec(14, INT, 0, 2)]


def limits_of(name, record, *rows):
    """Stream 2 is the record, of inputs 0 and 1. Rows have these and what is said of it."""
    accepted(name, [NUMBER, NUMBER, record, TRUE], 3)
    Questions(f"{name}-limits", name, [row[:2] for row in rows]).instants(2, *[row[2] for row in rows])


def limits():
    """Values at the ends of the range and one past them. Those past that would wrap to -1 or 0 are outside too."""
    limits_of("sum", rec(6, INT, 0, 1), (GREATEST, 0, GREATEST), (GREATEST, 1, OUT), (1, GREATEST, OUT), (LEAST, 0, LEAST),
              (LEAST, -1, OUT), (-1, LEAST, OUT), (HALF, HALF - 1, GREATEST), (HALF, HALF, OUT), (-HALF, -HALF, LEAST),
              (-HALF, -HALF - 1, OUT), (GREATEST, LEAST, -1), (LEAST, GREATEST, -1), (GREATEST, GREATEST, OUT),
              (LEAST, LEAST, OUT), (0, 0, 0), (GREATEST - 1, 1, GREATEST))
    limits_of("difference", rec(7, INT, 0, 1), (LEAST, 0, LEAST), (LEAST, 1, OUT), (GREATEST, 0, GREATEST), (GREATEST, -1, OUT),
              (0, LEAST, OUT), (-1, LEAST, GREATEST), (-1, GREATEST, LEAST), (-2, GREATEST, OUT), (LEAST, LEAST, 0),
              (GREATEST, GREATEST, 0), (GREATEST, LEAST, OUT), (LEAST, GREATEST, OUT), (0, GREATEST, -GREATEST),
              (HALF, -HALF, OUT), (HALF - 1, -HALF, GREATEST), (-HALF, HALF, LEAST))


def limits_of_multiple(k, name, *rows):
    accepted(f"times-{name}", [NUMBER, rec(8, INT, 0, k=k), TRUE], 2)
    Questions(f"times-{name}", f"times-{name}", [row[:1] for row in rows]).instants(1, *[row[1] for row in rows])


def limits_of_multiples():
    limits_of_multiple(0, "0", (GREATEST, 0), (LEAST, 0), (1, 0))
    limits_of_multiple(1, "1", (GREATEST, GREATEST), (LEAST, LEAST), (0, 0))
    limits_of_multiple(-1, "minus-1", (GREATEST, -GREATEST), (LEAST, OUT), (LEAST + 1, GREATEST), (1, -1))
    limits_of_multiple(2, "2", (HALF - 1, GREATEST - 1), (HALF, OUT), (-HALF, LEAST), (-HALF - 1, OUT), (GREATEST, OUT),
                       (LEAST, OUT), (0, 0))
    limits_of_multiple(-2, "minus-2", (HALF, LEAST), (HALF + 1, OUT), (-HALF, OUT), (1 - HALF, GREATEST - 1), (LEAST, OUT))
    third = 3074457345618258602
    limits_of_multiple(3, "3", (third, GREATEST - 1), (third + 1, OUT), (-third, 1 - GREATEST), (-third - 1, OUT))
    # the greatest is seven times a number
    seventh = 1317624576693539401
    limits_of_multiple(7, "7", (seventh, GREATEST), (seventh + 1, OUT), (-seventh, -GREATEST), (-seventh - 1, OUT))
    # 2 to the 55 a billion times is a multiple of 2 to the 64
    limits_of_multiple(BILLION, "billion", (9223372036, 9223372036000000000), (9223372037, OUT),
                       (-9223372036, -9223372036000000000), (-9223372037, OUT), (1 << 55, OUT), (GREATEST, OUT), (LEAST, OUT))
    limits_of_multiple(-BILLION, "minus-billion", (9223372036, -9223372036000000000), (9223372037, OUT),
                       (-9223372036, 9223372036000000000), (-9223372037, OUT), (1 << 55, OUT), (GREATEST, OUT), (LEAST, OUT))


def leaves_and_returns():
    """34 names the wanted record, not 1, which left the range."""
    rows = [(HALF - 1,), (HALF,), (-HALF,), (-HALF - 1,), (GREATEST,), (3,)]
    accepted("returns", RETURNS, 3)
    q = Questions("returns", "returns", rows)
    q.streams(0, HALF - 1, GREATEST - 1, HALF - 1, 1, 0, HALF - 1)
    q.streams(1, HALF, *[OUT] * 5)
    q.streams(2, -HALF, LEAST, -HALF, 1, 0, -HALF)
    q.streams(3, -HALF - 1, *[OUT] * 5)
    q.streams(4, GREATEST, *[OUT] * 5)
    q.streams(5, 3, 6, 3, 1, 0, 3)
    q.stops(1, "refused 34 record 1")
    # the same, last record first: 4 left the range
    accepted("returns-reversed", reordered(RETURNS, range(5, -1, -1)), 2)
    q = Questions("returns-reversed", "returns-reversed", rows, history="returns")
    q.streams(0, HALF - 1, 0, 1, HALF - 1, GREATEST - 1, HALF - 1)
    q.streams(1, *[OUT] * 5, HALF)
    q.streams(2, -HALF, 0, 1, -HALF, LEAST, -HALF)
    q.streams(3, *[OUT] * 5, -HALF - 1)
    q.stops(1, "refused 34 record 4")


def leaves_for_good():
    """3 adds all inputs up. Once it has left the range, each later sum is outside, whatever it would be."""
    accepted("total", [NUMBER, ZERO, rec(13, INT, 1, 3), rec(6, INT, 2, 0), rec(9, BOOL, 1, 3)], 4)
    q = Questions("total-leaves", "total", [(HALF,), (HALF - 1,), (1,), (-1,), (-HALF,), (0,)])
    q.all({0: (HALF, HALF - 1, 1, -1, -HALF, 0), 1: [0] * 6, 2: (0, HALF, GREATEST, OUT, OUT, OUT),
           3: (HALF, GREATEST, OUT, OUT, OUT, OUT), 4: (1, 1, OUT, OUT, OUT, OUT)})
    q.stops(2, "refused 34 record 3")
    q = Questions("total-stays", "total", [(HALF,), (HALF - 1,), (-1,), (1,), (LEAST,), (LEAST,), (1,)])
    q.instants(3, HALF, GREATEST, GREATEST - 1, GREATEST, -1, OUT, OUT)
    q.instants(2, 0, HALF, GREATEST, GREATEST - 1, GREATEST, -1, OUT)
    q.stops(5, "refused 34 record 3")


def branches():
    """The taken branch of an "if" and its condition are visited, the other branch is not. A session, which works out 2 at each
    instant, stops at the first."""
    accepted("if", [NUMBER, INPUT, rec(6, INT, 0, 0), rec(11, INT, 2, 0, 1), rec(11, INT, 0, 2, 1), rec(9, BOOL, 2, 0),
                    rec(11, INT, 0, 0, 5), rec(11, INT, 3, 4, 1), rec(11, INT, 4, 3, 1), rec(11, BOOL, 5, 1, 1),
                    rec(11, BOOL, 1, 5, 1), rec(11, INT, 0, 2, 9), rec(11, INT, 2, 2, 1)], 1)
    q = Questions("if", "if", [(HALF, 1), (HALF, 0), (5, 1), (-5, 0), (-5, 1), (-HALF - 1, 1), (-HALF - 1, 0)])
    q.streams(0, HALF, 1, OUT, OUT, HALF, OUT, OUT, OUT, HALF, OUT, 1, OUT, OUT)
    q.streams(1, HALF, 0, OUT, HALF, OUT, OUT, OUT, OUT, HALF, 0, OUT, OUT, OUT)
    q.streams(2, 5, 1, 10, 10, 5, 0, 5, 10, 5, 0, 1, 10, 10)
    q.streams(3, -5, 0, -10, -5, -10, 1, -5, -10, -5, 0, 1, -10, -10)
    q.streams(4, -5, 1, -10, -10, -5, 1, -5, -10, -5, 1, 1, -5, -10)
    q.streams(5, -HALF - 1, 1, OUT, OUT, -HALF - 1, OUT, OUT, OUT, -HALF - 1, OUT, 1, OUT, OUT)
    q.streams(6, -HALF - 1, 0, OUT, -HALF - 1, OUT, OUT, OUT, OUT, -HALF - 1, 0, OUT, OUT, OUT)
    q.stops(0, "refused 34 record 2")


def conditions():
    """A condition of an untaken branch is not visited either; one that rests on an earlier instant is."""
    # 2 = twice 0; 3 is whether that is at most 0, 4 rests on it; 5 and 6 take or leave 4. 7 = true -> pre 3 chooses in 8, and so
    # does 9 = true -> pre 9 in 10
    accepted("conditions", [NUMBER, INPUT, rec(6, INT, 0, 0), rec(9, BOOL, 2, 0), rec(11, INT, 0, 0, 3), rec(11, INT, 4, 0, 1),
                            rec(11, INT, 0, 4, 1), rec(13, BOOL, 11, 3), rec(11, INT, 0, 2, 7), rec(13, BOOL, 11, 9),
                            rec(11, INT, 0, 2, 9), TRUE], 1)
    q = Questions("conditions", "conditions", [(HALF, 1), (7, 0), (-8, 1), (HALF, 0), (9, 1)])
    q.streams(0, HALF, 1, OUT, OUT, OUT, OUT, HALF, 1, HALF, 1, HALF, 1)
    q.streams(1, 7, 0, 14, 0, 7, 7, 7, OUT, OUT, 1, 7, 1)
    q.streams(2, -8, 1, -16, 1, -8, -8, -8, 0, -16, 1, -8, 1)
    q.streams(3, HALF, 0, OUT, OUT, OUT, HALF, OUT, 1, HALF, 1, HALF, 1)
    q.streams(4, 9, 1, 18, 0, 9, 9, 9, OUT, OUT, 1, 9, 1)
    q.stops(0, "refused 34 record 2")


def arrows():
    """Of 12 the operand chosen, at the same instant."""
    accepted("arrow", [NUMBER, rec(6, INT, 0, 0), rec(12, INT, 0, 1), rec(12, INT, 1, 0), rec(12, INT, 2, 3), rec(12, INT, 3, 2),
                       rec(9, BOOL, 1, 0), TRUE, rec(12, BOOL, 7, 6), rec(12, BOOL, 6, 7)], 7)
    q = Questions("arrow-outside", "arrow", [(HALF,)] * 3)
    q.streams(0, HALF, OUT, HALF, OUT, HALF, OUT, OUT, 1, 1, OUT)
    q.streams(1, HALF, OUT, OUT, HALF, HALF, OUT, OUT, 1, OUT, 1)
    q.streams(2, HALF, OUT, OUT, HALF, HALF, OUT, OUT, 1, OUT, 1)
    q.session("refused 34 record 1")
    q = Questions("arrow", "arrow", [(5,), (HALF,), (7,), (-3,)])
    q.streams(0, 5, 10, 5, 10, 5, 10, 0, 1, 1, 0)
    q.streams(1, HALF, OUT, OUT, HALF, HALF, OUT, OUT, 1, OUT, 1)
    q.streams(2, 7, 14, 14, 7, 7, 14, 0, 1, 0, 1)
    q.streams(3, -3, -6, -6, -3, -3, -6, 1, 1, 1, 1)
    q.session("answered 5 10 5 10 5 10 0 1 1 0", "refused 34 record 1")


def pres():
    """Of 13 at instant 0 a, later b one instant before and nothing of the same instant. 4 and 5 read themselves, 6 reads another
    one."""
    accepted("pre", [NUMBER, rec(6, INT, 0, 0), rec(13, INT, 0, 1), rec(13, INT, 1, 0), rec(13, INT, 0, 4), rec(13, INT, 1, 5),
                     rec(13, INT, 0, 2), rec(9, BOOL, 1, 0), TRUE, rec(13, BOOL, 8, 7), rec(13, BOOL, 7, 8)], 8)
    q = Questions("pre", "pre", [(1,), (HALF,), (2,), (3,), (HALF,), (4,)])
    q.streams(0, 1, 2, 1, 2, 1, 2, 1, 0, 1, 1, 0)
    q.streams(1, HALF, OUT, 2, 1, 1, 2, 1, OUT, 1, 0, 1)
    q.streams(2, 2, 4, OUT, HALF, 1, 2, 2, 0, 1, OUT, 1)
    q.streams(3, 3, 6, 4, 2, 1, 2, OUT, 0, 1, 0, 1)
    q.streams(4, HALF, OUT, 6, 3, 1, 2, 4, OUT, 1, 0, 1)
    q.streams(5, 4, 8, OUT, HALF, 1, 2, 6, 0, 1, OUT, 1)
    q.stops(1, "refused 34 record 1")
    q = Questions("pre-outside-at-first", "pre", [(HALF,), (1,), (2,)])
    q.streams(0, HALF, OUT, HALF, OUT, HALF, OUT, HALF, OUT, 1, 1, OUT)
    q.streams(1, 1, 2, OUT, HALF, HALF, OUT, HALF, 0, 1, OUT, 1)
    q.streams(2, 2, 4, 2, 1, HALF, OUT, OUT, 0, 1, 0, 1)
    q.stops(0, "refused 34 record 1")


def back_through_all_instants():
    # 1 = 0 -> pre 1 is the first input, whatever comes later; 2 is twice that
    accepted("held", [NUMBER, rec(13, INT, 0, 1), rec(6, INT, 1, 1), TRUE], 3)
    for name, first, twice in (("held", 9, 18), ("held-least", -HALF, LEAST), ("held-outside", HALF, OUT)):
        q = Questions(name, "held", [(first,)] + [(GREATEST - i,) for i in range(15)])
        q.instants(1, *[first] * 16)
        q.instants(2, *[twice] * 16)
    # 2 to 16 are each the one before it one instant before, and 2 is 1: what 1, twice 0, was up to 15 instants before
    accepted("handed-on", [NUMBER, rec(6, INT, 0, 0), *[rec(13, INT, 1, i) for i in range(1, 16)], TRUE], 17)
    q = Questions("handed-on", "handed-on", [(100 + t,) for t in range(16)])
    q.instants(16, *[200] * 16)
    q.streams(15, 115, *[230 - 2 * i for i in range(16)], 1)
    q.instants(9, *[200] * 8, *[200 + 2 * t for t in range(8)])
    # outside at instants 0 and 3 alone
    q = Questions("handed-on-outside", "handed-on", [(HALF if t in (0, 3) else t,) for t in range(16)])
    q.instants(16, *[OUT] * 16)
    q.streams(15, 15, *[OUT if i in (12, 15) else 30 - 2 * i for i in range(16)], 1)
    q.instants(2, OUT, OUT, 2, 4, OUT, *[2 * t for t in range(4, 14)], 28)
    q.stops(0, "refused 34 record 1")


def far_back():
    """Up to 62 streams at each of 16 instants lead from one to the next."""
    # 2 = 1 -> pre 63, and each of the others is one more than the one before it
    records = [TRUE, ONE, rec(13, INT, 1, 63), *[rec(6, INT, i, 1) for i in range(2, 63)]]
    accepted("sixty-two-steps", records, 0)
    q = Questions("sixty-two-steps", "sixty-two-steps", [()] * 16, history="none")
    q.instants(63, *[62 + 61 * t for t in range(16)])
    q.instants(2, 1, *[62 + 61 * t for t in range(15)])
    q.streams(15, 1, 1, *[916 + i for i in range(62)])
    accepted("sixty-two-steps-reversed", reordered(records, range(63, -1, -1)), 63)
    q = Questions("sixty-two-steps-reversed", "sixty-two-steps-reversed", [()] * 16, history="none")
    q.instants(0, *[62 + 61 * t for t in range(16)])
    q.streams(15, *[977 - i for i in range(62)], 1, 1)
    # 3 = 1 + 2, 1 = 0 -> pre 2 and 2 = 0 -> pre 3
    accepted("rabbits", [ONE, rec(13, INT, 0, 2), rec(13, INT, 0, 3), rec(6, INT, 1, 2), TRUE], 4)
    q = Questions("rabbits", "rabbits", [()] * 16, history="none")
    q.instants(3, 2, 3, 5, 8, 13, 21, 34, 55, 89, 144, 233, 377, 610, 987, 1597, 2584)


def all_operands():
    """Of other operators all operands are visited, though one of them settles the value. 2 is twice 0, and 3 rests on it."""
    accepted("operands", [NUMBER, INPUT, rec(6, INT, 0, 0), rec(9, BOOL, 2, 0), rec(3, BOOL, 1, 3), rec(3, BOOL, 3, 1),
                          rec(4, BOOL, 1, 3), rec(4, BOOL, 3, 1), rec(5, BOOL, 1, 3), rec(2, BOOL, 3), rec(8, INT, 2, k=0),
                          rec(7, INT, 2, 2), rec(10, BOOL, 2, 2), rec(10, BOOL, 0, 2), rec(9, BOOL, 2, 2), rec(3, BOOL, 1, 1),
                          rec(4, BOOL, 1, 1)], 1)
    q = Questions("operands-outside", "operands", [(HALF, 0), (HALF, 1), (-HALF - 1, 0), (-HALF - 1, 1)])
    for instant, (x, p) in enumerate(((HALF, 0), (HALF, 1), (-HALF - 1, 0), (-HALF - 1, 1))):
        q.streams(instant, x, p, *[OUT] * 13, p, p)
    q.stops(0, "refused 34 record 2")
    q = Questions("operands", "operands", [(5, 0), (5, 1), (-5, 0), (-5, 1)])
    q.streams(0, 5, 0, 10, 0, 0, 0, 0, 0, 1, 1, 0, 0, 1, 0, 1, 0, 0)
    q.streams(1, 5, 1, 10, 0, 0, 0, 1, 1, 0, 1, 0, 0, 1, 0, 1, 1, 1)
    q.streams(2, -5, 0, -10, 1, 0, 0, 1, 1, 0, 0, 0, 0, 1, 0, 1, 0, 0)
    q.streams(3, -5, 1, -10, 1, 1, 1, 1, 1, 1, 0, 0, 0, 1, 0, 1, 1, 1)


def lessers():
    """Both operands of 14 and 15 are visited. 2 is twice 0; at instants 0 and 1 it is outside and would not be the result."""
    accepted("lesser", [NUMBER, NUMBER, rec(6, INT, 0, 0), rec(14, INT, 2, 1), rec(14, INT, 1, 2), rec(15, INT, 2, 1),
                        rec(15, INT, 1, 2), rec(14, INT, 0, 1), rec(15, INT, 0, 1), rec(14, INT, 0, 0), TRUE], 10)
    q = Questions("lesser", "lesser", [(HALF, 1), (-HALF - 1, 1), (5, 20), (10, 5), (5, 10), (-7, -20), (HALF - 1, GREATEST),
                                       (-HALF, GREATEST), (-HALF, LEAST)])
    q.streams(0, HALF, 1, *[OUT] * 5, 1, HALF, HALF, 1)
    q.streams(1, -HALF - 1, 1, *[OUT] * 5, -HALF - 1, 1, -HALF - 1, 1)
    q.streams(2, 5, 20, 10, 10, 10, 20, 20, 5, 20, 5, 1)
    q.streams(3, 10, 5, 20, 5, 5, 20, 20, 5, 10, 10, 1)
    q.streams(4, 5, 10, 10, 10, 10, 10, 10, 5, 10, 5, 1)
    q.streams(5, -7, -20, -14, -20, -20, -14, -14, -20, -7, -7, 1)
    q.streams(6, HALF - 1, GREATEST, GREATEST - 1, GREATEST - 1, GREATEST - 1, GREATEST, GREATEST, HALF - 1, GREATEST, HALF - 1, 1)
    q.streams(7, -HALF, GREATEST, LEAST, LEAST, LEAST, GREATEST, GREATEST, -HALF, GREATEST, -HALF, 1)
    q.streams(8, -HALF, LEAST, LEAST, LEAST, LEAST, LEAST, LEAST, LEAST, -HALF, -HALF, 1)


def truth_tables():
    accepted("truth-tables", [INPUT, INPUT, INPUT, rec(2, BOOL, 0), rec(3, BOOL, 0, 1), rec(4, BOOL, 0, 1), rec(5, BOOL, 0, 1),
                              rec(11, BOOL, 0, 1, 2), rec(12, BOOL, 0, 1), rec(13, BOOL, 0, 1), TRUE, FALSE], 10)
    q = Questions("truth-tables", "truth-tables", [(p, q, r) for p in (0, 1) for q in (0, 1) for r in (0, 1)])
    q.all({0: (0, 0, 0, 0, 1, 1, 1, 1), 1: (0, 0, 1, 1, 0, 0, 1, 1), 2: (0, 1, 0, 1, 0, 1, 0, 1), 3: (1, 1, 1, 1, 0, 0, 0, 0),
           4: (0, 0, 0, 0, 0, 0, 1, 1), 5: (0, 0, 1, 1, 1, 1, 1, 1), 6: (1, 1, 0, 0, 0, 0, 1, 1), 7: (0, 0, 1, 0, 0, 1, 1, 1),
           8: (0, 0, 1, 1, 0, 0, 1, 1), 9: (0, 0, 0, 1, 1, 0, 0, 1), 10: [1] * 8, 11: [0] * 8})


def comparisons():
    """Also of numbers that differ in one half or in the last bit alone."""
    accepted("comparisons", [NUMBER, NUMBER, rec(9, BOOL, 0, 1), rec(9, BOOL, 1, 0), rec(10, BOOL, 0, 1)], 2)
    less, same, more = (1, 0, 0), (1, 1, 1), (0, 1, 0)
    rows = [(LEAST, GREATEST, less), (GREATEST, LEAST, more), (GREATEST, GREATEST, same), (LEAST, LEAST, same),
            (GREATEST - 1, GREATEST, less), (LEAST + 1, LEAST, more), (1 << 53, (1 << 53) + 1, less), (0, 1 << 32, less),
            (1 << 32, 0, more), (-1, 0, less), (0, -1, more), (-1, GREATEST, less), (LEAST, -1, less), (5, 5, same), (-5, 5, less)]
    q = Questions("comparisons", "comparisons", [row[:2] for row in rows])
    for stream in (2, 3, 4):
        q.instants(stream, *[row[2][stream - 2] for row in rows])


def constants():
    accepted("constants", [rec(1, INT, k=BILLION), rec(1, INT, k=-BILLION), ZERO, TRUE, FALSE], 3)
    q = Questions("constants", "constants", [()] * 2, history="none")
    for instant in (0, 1):
        q.streams(instant, BILLION, -BILLION, 0, 1, 0)


def doublings():
    """Each stream is read twice by the next; 62 of these are 2 to the 62 visits for one who repeats them."""
    accepted("doubled", [NUMBER, *[rec(6, INT, i, i) for i in range(62)], TRUE], 63)
    q = Questions("doubled", "doubled", [(1,), (2,), (-2,), (-3,), (0,), (GREATEST,), (-1,)])
    q.instants(62, 1 << 62, OUT, LEAST, OUT, 0, OUT, -HALF)
    q.instants(61, 1 << 61, 1 << 62, -HALF, -3 * (1 << 61), 0, OUT, -(1 << 61))
    q.instants(1, 2, 4, -4, -6, 0, OUT, -2)
    q.streams(0, *[1 << i for i in range(63)], 1)
    q.streams(1, *[1 << (i + 1) for i in range(62)], OUT, 1)
    q.stops(1, "refused 34 record 62")
    accepted("doubled-reversed", [TRUE, *[rec(6, INT, i, i) for i in range(2, 64)], NUMBER], 0)
    q = Questions("doubled-reversed", "doubled-reversed", [(1,), (2,), (-2,), (-3,)])
    q.instants(1, 1 << 62, OUT, LEAST, OUT)
    q.instants(2, 1 << 61, 1 << 62, -HALF, -3 * (1 << 61))
    # 1 = 0 -> pre 33, and on to 33: 32 doublings an instant, so that 31 at instant 1 is the 62nd and 32 the 63rd
    accepted("doubled-on", [ONE, rec(13, INT, 0, 33), *[rec(6, INT, i, i) for i in range(1, 33)], TRUE], 34)
    q = Questions("doubled-on", "doubled-on", [()] * 16, history="none")
    q.streams(0, 1, *[1 << i for i in range(33)], 1)
    q.streams(1, 1, *[1 << (32 + i) for i in range(31)], OUT, OUT, 1)
    q.streams(2, 1, *[OUT] * 33, 1)
    q.streams(15, 1, *[OUT] * 33, 1)
    q.stops(1, "refused 34 record 32")


def shared():
    """1,008 streams and instants, each read twice or more by the next."""
    accepted("shared-bools", [INPUT, rec(13, BOOL, 0, 63), *[
        (rec(3, BOOL, i, i), rec(4, BOOL, i, i), rec(11, BOOL, i, i, i))[i % 3] for i in range(1, 63)]], 0)
    for name, first in (("true", 1), ("false", 0)):
        q = Questions(f"shared-bools-{name}", "shared-bools", [(first,)] + [(1 - first,)] * 15)
        q.instants(63, *[first] * 16)
        q.instants(32, *[first] * 16)
    # 1 is the property: whether 0 is at most itself. 2 = 0 -> pre 63
    accepted("shared-ints", [NUMBER, rec(9, BOOL, 0, 0), rec(13, INT, 0, 63), *[
        (rec(14, INT, i, i), rec(15, INT, i, i), rec(11, INT, i, i, 1))[i % 3] for i in range(2, 63)]], 1)
    q = Questions("shared-ints", "shared-ints", [(LEAST,)] + [(t,) for t in range(15)])
    q.instants(63, *[LEAST] * 16)
    q.instants(33, *[LEAST] * 16)
    # 2 = 0 -> pre 63 and sums of zeros, then differences
    accepted("shared-zeros", [ZERO, TRUE, rec(13, INT, 0, 63), *[rec(6 + i % 2, INT, i, i) for i in range(2, 63)]], 1)
    q = Questions("shared-zeros", "shared-zeros", [()] * 16, history="none")
    q.instants(63, *[0] * 16)


def inputs_between():
    """Inputs are the numbers in record order, whatever stands between them."""
    # 1, 4, 6 and 7 are inputs; 0 = 1 - 4, 2 = not 6, 5 = twice 4
    accepted("inputs-between", [rec(7, INT, 1, 4), NUMBER, rec(2, BOOL, 6), TRUE, NUMBER, rec(8, INT, 4, k=2), INPUT, NUMBER], 3)
    q = Questions("inputs-between", "inputs-between", [(10, 20, 1, 30), (11, 22, 0, 33), (GREATEST, -1, 1, LEAST)])
    q.streams(0, -10, 10, 0, 1, 20, 40, 1, 30)
    q.streams(1, -11, 11, 1, 1, 22, 44, 0, 33)
    q.streams(2, OUT, GREATEST, 0, 1, -1, -2, 1, LEAST)
    q.stops(2, "refused 34 record 0")


def sixty_four_inputs():
    accepted("sixty-four-inputs", [NUMBER] * 63 + [INPUT], 63)
    q = Questions("sixty-four-inputs", "sixty-four-inputs", [[1000 * t + i for i in range(63)] + [t % 2] for t in range(16)])
    q.streams(0, *range(63), 0)
    q.streams(15, *[15000 + i for i in range(63)], 1)
    q.instants(62, *[1000 * t + 62 for t in range(16)])
    q.instants(63, *[t % 2 for t in range(16)])
    accepted("sixty-four-bools", [INPUT] * 64, 0)
    q = Questions("sixty-four-bools", "sixty-four-bools", [[int(i % 16 == t) for i in range(64)] for t in range(16)])
    for i in (0, 15, 16, 31, 47, 63):
        q.instants(i, *[int(i % 16 == t) for t in range(16)])


def any_order():
    # 0 is whether 1, the sum of 2 and 3, is at most 3; 2 is twice 3, which is 4 or 5, by 6
    accepted("later", [rec(9, BOOL, 1, 3), rec(6, INT, 2, 3), rec(8, INT, 3, k=2), rec(11, INT, 4, 5, 6), rec(12, INT, 7, 8),
                       rec(13, INT, 7, 1), INPUT, NUMBER, rec(7, INT, 7, 9), rec(1, INT, k=3)], 0)
    q = Questions("later", "later", [(1, 5), (0, 8), (1, -4), (0, 0), (1, HALF), (0, HALF), (0, 1), (1, 1)])
    q.streams(0, 0, 15, 10, 5, 5, 5, 1, 5, 2, 3)
    q.streams(1, 0, 45, 30, 15, 5, 15, 0, 8, 5, 3)
    q.streams(2, 1, -21, -14, -7, -7, 45, 1, -4, -7, 3)
    q.streams(3, 1, -63, -42, -21, -3, -21, 0, 0, -3, 3)
    q.streams(4, OUT, OUT, GREATEST - 5, HALF - 3, HALF - 3, -63, 1, HALF, HALF - 3, 3)
    q.streams(5, OUT, OUT, OUT, OUT, HALF - 3, OUT, 0, HALF, HALF - 3, 3)
    q.streams(6, OUT, OUT, OUT, OUT, -2, OUT, 0, 1, -2, 3)
    q.streams(7, 1, -6, -4, -2, -2, OUT, 1, 1, -2, 3)
    q.stops(4, "refused 34 record 1")


def all_operators():
    """In record order, last record first, and shuffled."""
    rows = list(zip((1, 0, 0, 1, 1, 0, 1, 0) * 2, (4, -9, 0, 7, HALF, -1, 3, LEAST, 12, -7, -8, 1, 5, GREATEST, 2, 6)))
    accepted("all-operators", ALL, 17)
    q = Questions("all-operators", "all-operators", rows)
    q.streams(0, 1, 4, 1, -7, 0, 0, 1, 1, -3, -7, -21, 0, 0, 0, -7, 1, -7, 1, -7, -3, -7, -3)
    q.streams(1, 0, -9, 1, -7, 1, 0, 1, 0, -16, -7, -21, 0, 0, 0, -7, 0, -7, 1, -3, -12, -9, -9)
    q.all()
    for name, order in (("reversed", list(range(21, -1, -1))),
                        ("shuffled", [13, 4, 19, 1, 16, 10, 7, 18, 15, 2, 9, 6, 12, 0, 17, 3, 14, 5, 11, 8, 21, 20])):
        accepted(f"all-operators-{name}", reordered(ALL, order), order.index(17))
        Questions(f"all-operators-{name}", f"all-operators-{name}", rows[:8]).all()


def notes():
    """A note before the node, one with a node in it, and the longest."""
    for name, note in (("noted", b"for the examiner"), ("noted-with-node", node(RETURNS, 3)),
                       ("longest", b"\xff" * (65535 - 112))):
        accepted(name, RETURNS, 3, note)
        q = Questions(name, name, [(3,), (HALF,)], history="noted")
        q.streams(0, 3, 6, 3, 1, 0, 3)
        q.streams(1, HALF, *[OUT] * 5)
        q.each([(6, 0), (0, 2)], "refused 65 file")


PARTS = (limits, limits_of_multiples, leaves_and_returns, leaves_for_good, branches, conditions, arrows, pres,
         back_through_all_instants, far_back, all_operands, lessers, truth_tables, comparisons, constants, doublings, shared,
         inputs_between, sixty_four_inputs, any_order, all_operators, notes)
