"""Passes with trials, commits and beginnings, on nodes of make_pass_cases and a few of their own."""
import struct

import duty_proofs
from example_proofs import NUMBER, TRUE
from node_files import INPUT, INT, TWO_BANDS, node, rec
from pass_files import (BEGINNING, COMMIT, FILES, GREATEST, LEAST, LINES, NODES, OLD, REFUSED, TRIAL, again, begun, not_begun,
                        pass_file, shown)

HALF = 1 << 62
BANDS = node(TWO_BANDS, 5)
# the order in which the records of all-operators-shuffled stand
SHUFFLED = [13, 4, 19, 1, 16, 10, 7, 18, 15, 2, 9, 6, 12, 0, 17, 3, 14, 5, 11, 8, 21, 20]


def not_advanced():
    """A trial works from the last committed instant, and the last one of a row counts."""
    # 2 = zero -> pre 3; 3 = 2 + one
    p = again("counter-tried", "counter")
    p.trial(says="answered 0 1 0 1 1")
    p.trial(says="answered 0 1 0 1 1")
    p.commit(says="answered")
    for _ in range(3):
        p.trial(says="answered 0 1 1 2 1")
    p.commit(says="answered")
    p.call(says="answered 0 1 2 3 1")
    p.trial(says="answered 0 1 3 4 1")
    p.call(says="answered 0 1 3 4 1")
    p.commit(says="refused 35 file")
    p.call(says="answered 0 1 4 5 1")

    # 3 = (zero -> pre 3) + x, the sum of the committed inputs
    p = again("second-trial-counts", "sum-so-far")
    p.trial(5, says="answered 5 0 0 5 1")
    p.trial(7, says="answered 7 0 0 7 1")
    p.commit(says="answered")
    p.trial(1, says="answered 1 0 7 8 0")
    p.trial(-2, says="answered -2 0 7 5 0")
    p.trial(3, says="answered 3 0 7 10 0")
    p.commit(says="answered")
    p.call(0, says="answered 0 0 10 10 0")
    p.trial(4, says="answered 4 0 10 14 0")
    p.trial(5, says="answered 5 0 10 15 0")
    p.trial(4, says="answered 4 0 10 14 0")
    p.commit(says="answered")
    p.trial(0, says="answered 0 0 14 14 0")

    # 1 = false -> pre not 1
    p = again("to-and-fro-tried", "to-and-fro")
    for line in ("answered 0 0 1", "answered 0 1 0", "answered 0 0 1"):
        p.trial(says=line)
        p.trial(says=line)
        p.commit(says="answered")

    # each stream is the one before it, one instant later
    p = again("delays-tried", "sixty-four-delays")
    p.trial(9, says="answered" + " 9" * 63 + " 1")
    p.trial(8, says="answered" + " 8" * 63 + " 1")
    p.commit(says="answered")
    p.trial(7, says="answered 7" + " 8" * 62 + " 1")
    p.trial(6, says="answered 6" + " 8" * 62 + " 1")
    p.commit(says="answered")
    p.trial(5, says="answered 5 6" + " 8" * 61 + " 1")
    p.commit(says="answered")
    p.call(4, says="answered 4 5 6" + " 8" * 60 + " 1")


def at_instant_0():
    """Operators 12 and 13 take their first operand until an instant is committed."""
    # 2 = 0 -> 1; 3 = 0 -> pre 1; 4 = 1 -> pre 3
    p = again("arrows-int-tried", "arrows-int")
    p.trial(10, 20, says="answered 10 20 10 10 20 1")
    p.trial(11, 21, says="answered 11 21 11 11 21 1")
    p.commit(says="answered")
    p.trial(12, 22, says="answered 12 22 22 21 11 0")
    p.trial(13, 23, says="answered 13 23 23 21 11 0")
    p.commit(says="answered")
    p.trial(14, 24, says="answered 14 24 24 23 21 0")
    p.trial(15, 20, says="answered 15 20 20 23 21 1")
    p.commit(says="answered")
    p.call(0, 0, says="answered 0 0 0 20 23 1")
    p = again("arrows-bool-tried", "arrows-bool")
    p.trial(1, 0, says="answered 1 0 1 1 0 1")
    p.trial(0, 1, says="answered 0 1 0 0 1 1")
    p.commit(says="answered")
    p.trial(1, 0, says="answered 1 0 0 1 0 0")
    p.trial(0, 2, says="refused 33 record 1")
    p.commit(says="answered")
    p.trial(0, 0, says="answered 0 0 0 0 1 1")

    # 1 = 2 x; 2 = x -> 1; 3 = x -> pre 1
    p = again("refused-first-tried", "refused-first")
    p.trial(HALF, says="refused 34 record 1")
    p.commit(says="refused 35 file")
    p.trial(3, says="answered 3 6 3 3 1")
    p.trial(HALF, says="refused 34 record 1")
    p.trial(4, says="answered 4 8 4 4 1")
    p.commit(says="answered")
    p.trial(5, says="answered 5 10 10 8 1")
    p.trial(-HALF - 1, says="refused 34 record 1")
    p.commit(says="answered")
    p.call(6, says="answered 6 12 12 10 1")
    # 1 = 4 x, also at instant 0; 2 = x -> 1; 3 = x -> pre 4; 4 = 3 - x
    p = again("later-operands-tried", "later-operands")
    p.trial(HALF, says="refused 34 record 1")
    p.trial(5, says="answered 5 20 5 5 0 1")
    p.commit(says="answered")
    p.trial(-1, says="answered -1 -4 -4 0 1 1")
    p.trial(HALF // 2, says="refused 34 record 1")
    p.commit(says="answered")
    p.call(2, says="answered 2 8 8 1 -1 1")


def refused_trials():
    """A refused trial keeps the earlier one, which is then committed."""
    # 2 = 1 + 1; 3 = 1 -> pre 2
    p = begun("trial-kept", [INPUT, NUMBER, rec(6, INT, 1, 1), rec(13, INT, 1, 2), TRUE], 4)
    p.trial(2, 5, says="refused 33 record 0")
    p.commit(says="refused 35 file")
    p.trial(1, 5, says="answered 1 5 10 5 1")
    p.trial(1, says="refused 31 file")
    p.commit(says="answered")
    p.trial(0, 6, says="answered 0 6 12 10 1")
    p.trial(0, 7, room=4, says="refused 32 file")
    p.commit(says="answered")
    p.trial(1, 7, says="answered 1 7 14 12 1")
    p.trial(2, 8, says="refused 33 record 0")
    p.commit(says="answered")
    p.trial(0, 8, says="answered 0 8 16 14 1")
    p.trial(0, HALF, says="refused 34 record 2")
    p.commit(says="answered")
    p.trial(0, 9, says="answered 0 9 18 16 1")
    p.trial(says="refused 31 file")
    p.trial(1, 10, 1, says="refused 31 file")
    for room in (0, 6, 65535):
        p.trial(1, 10, room=room, says="refused 32 file")
    p.trial(-1, 10, says="refused 33 record 0")
    p.trial(1, -HALF - 1, says="refused 34 record 2")
    p.commit(says="answered")
    p.call(1, 0, says="answered 1 0 0 18 1")

    # 31 before 32 before 33 before 34
    p = again("order-tried", "order")
    p.trial(1, 3, 1, says="answered 1 3 6 1")
    p.trial(2, HALF, room=3, says="refused 31 file")
    p.trial(2, HALF, 2, 0, room=4, says="refused 31 file")
    p.trial(2, HALF, 1, room=3, says="refused 32 file")
    p.trial(1, HALF, 1, room=5, says="refused 32 file")
    p.trial(1, HALF, 2, says="refused 33 record 3")
    p.trial(2, HALF, 2, says="refused 33 record 0")
    p.trial(1, HALF, 1, says="refused 34 record 2")
    p.commit(says="answered")
    p.commit(says="refused 35 file")

    p = again("counts-tried", "two-bands")
    p.trial(0, 1, says="answered 0 1 1 1 0 1")
    for count in (0, 1, 3, 63, 64, 65, 66, 300):
        p.trial(*[1] * count, says="refused 31 file")
    for room in (0, 1, 5, 7, 64, 65, 66, 65535):
        p.trial(1, 1, room=room, says="refused 32 file")
    p.commit(says="answered")
    p.trial(1, 0, says="answered 1 0 0 0 0 1")
    for inputs in ((2, 1), (-1, 0), (256, 0), (1 << 32, 1), (LEAST, 1), (GREATEST, 1)):
        p.trial(*inputs, says="refused 33 record 0")
    p.commit(says="answered")


def no_trial():
    """35: after a beginning, a commit, an old call, and after refused ones."""
    p = again("no-trial", "sum-so-far")
    p.commit(says="refused 35 file")
    p.commit(says="refused 35 file")
    p.trial(3, says="answered 3 0 0 3 1")
    p.commit(says="answered")
    p.commit(says="refused 35 file")
    p.call(4, says="answered 4 0 3 7 0")
    p.commit(says="refused 35 file")
    p.trial(1, 2, says="refused 31 file")
    p.commit(says="refused 35 file")
    p.call(says="refused 31 file")
    p.commit(says="refused 35 file")
    p.trial(5, says="answered 5 0 7 12 0")
    p.trial(6, says="answered 6 0 7 13 0")
    p.commit(says="answered")
    p.commit(says="refused 35 file")
    p.call(0, says="answered 0 0 13 13 0")

    # neither count nor room of a commit is looked at, and its bytes are skipped
    p = again("commit-with-inputs", "sum-so-far")
    p.commit(7, says="refused 35 file")
    p.trial(5, says="answered 5 0 0 5 1")
    p.commit(7, room=5, says="answered")
    p.trial(6, says="answered 6 0 5 11 0")
    p.commit(*[LEAST] * 70, room=65535, says="answered")
    p.commit(*[1] * 300, says="refused 35 file")
    p.commit(room=4, says="refused 35 file")
    p.call(0, says="answered 0 0 11 11 0")


def old_calls():
    """An answered old call drops a trial that is held, a refused one keeps it."""
    p = again("old-call-drops-trial", "sum-so-far")
    p.trial(5, says="answered 5 0 0 5 1")
    p.call(7, says="answered 7 0 0 7 1")
    p.commit(says="refused 35 file")
    p.trial(5, says="answered 5 0 7 12 0")
    p.call(5, says="answered 5 0 7 12 0")
    p.commit(says="refused 35 file")
    p.call(0, says="answered 0 0 12 12 0")

    p = again("refused-call-keeps-trial", "trial-kept")
    p.trial(1, 5, says="answered 1 5 10 5 1")
    p.call(1, says="refused 31 file")
    p.commit(says="answered")
    p.trial(0, 6, says="answered 0 6 12 10 1")
    p.call(1, 7, room=4, says="refused 32 file")
    p.commit(says="answered")
    p.trial(1, 7, says="answered 1 7 14 12 1")
    p.call(2, 8, says="refused 33 record 0")
    p.commit(says="answered")
    p.trial(0, 8, says="answered 0 8 16 14 1")
    p.call(1, HALF, says="refused 34 record 2")
    p.trial(0, -HALF - 1, says="refused 34 record 2")
    p.commit(says="answered")
    p.call(0, 0, says="answered 0 0 0 16 1")

    # every kind but 1, 2 and 3 is the old call, also where its low byte is one of these
    p = again("other-kinds", "sum-so-far")
    p.trial(1, says="answered 1 0 0 1 1")
    p.call(2, kind=65535, says="answered 2 0 0 2 1")
    p.commit(says="refused 35 file")
    p.call(3, kind=4, says="answered 3 0 2 5 0")
    p.call(4, kind=256, says="answered 4 0 5 9 0")
    p.call(5, kind=257, says="answered 5 0 9 14 0")
    p.commit(says="refused 35 file")
    p.trial(1, says="answered 1 0 14 15 0")
    p.call(kind=65535, says="refused 31 file")
    p.commit(says="answered")
    p.call(6, kind=258, says="answered 6 0 15 21 0")
    p.call(7, kind=259, says="answered 7 0 21 28 0")
    p.call(8, room=6, kind=32768, says="refused 32 file")


def limits():
    """A trial that is outside 64 signed bits, a smaller one, and its commit."""
    p = again("sum-tried", "sum-so-far")
    p.call(GREATEST - 1, says=f"answered {GREATEST - 1} 0 0 {GREATEST - 1} 1")
    p.trial(2, says="refused 34 record 3")
    p.commit(says="refused 35 file")
    p.trial(1, says=f"answered 1 0 {GREATEST - 1} {GREATEST} 0")
    p.trial(2, says="refused 34 record 3")
    p.commit(says="answered")
    p.trial(1, says="refused 34 record 3")
    p.trial(-1, says=f"answered -1 0 {GREATEST} {GREATEST - 1} 0")
    p.trial(0, says=f"answered 0 0 {GREATEST} {GREATEST} 0")
    p.trial(1, says="refused 34 record 3")
    p.commit(says="answered")
    p.trial(LEAST, says=f"answered {LEAST} 0 {GREATEST} -1 0")
    p.commit(says="answered")
    p.trial(LEAST, says="refused 34 record 3")
    p.trial(LEAST + 1, says=f"answered {LEAST + 1} 0 -1 {LEAST} 1")
    p.commit(says="answered")
    p.trial(-1, says="refused 34 record 3")
    p.trial(GREATEST, says=f"answered {GREATEST} 0 {LEAST} -1 1")
    p.commit(says="answered")
    p.call(1, says="answered 1 0 -1 0 1")

    p = again("double-tried", "double")
    p.trial(HALF, says="refused 34 record 1")
    p.trial(HALF - 1, says="answered 4611686018427387903 9223372036854775806 1")
    p.trial(HALF, says="refused 34 record 1")
    p.commit(says="answered")
    p.trial(-HALF - 1, says="refused 34 record 1")
    p.commit(says="refused 35 file")
    p.trial(-HALF, says="answered -4611686018427387904 -9223372036854775808 1")
    p.trial(LEAST, says="refused 34 record 1")
    p.trial(GREATEST, says="refused 34 record 1")
    p.commit(says="answered")

    p = again("minus-once-tried", "minus-once")
    p.trial(LEAST, says="refused 34 record 1")
    p.trial(LEAST + 1, says=f"answered {LEAST + 1} {GREATEST} 1")
    p.trial(LEAST, says="refused 34 record 1")
    p.commit(says="answered")
    p = again("difference-tried", "difference")
    p.trial(0, LEAST, says="refused 34 record 2")
    p.trial(-1, LEAST, says=f"answered -1 {LEAST} {GREATEST} 1")
    p.trial(-2, GREATEST, says="refused 34 record 2")
    p.commit(says="answered")
    p.trial(-1, GREATEST, says=f"answered -1 {GREATEST} {LEAST} 1")
    p.commit(says="answered")

    # 1, 10^9, 10^18, and then no further
    p = again("stuck-tried", "stuck")
    p.trial(says="answered 1 1 1000000000 1")
    p.trial(says="answered 1 1 1000000000 1")
    p.commit(says="answered")
    p.trial(says="answered 1 1000000000 1000000000000000000 1")
    p.commit(says="answered")
    p.trial(says="refused 34 record 2")
    p.call(says="refused 34 record 2")
    p.commit(says="refused 35 file")


def any_order():
    # 2 = zero -> pre 1; 1 = 2 + one
    p = again("counter-reversed-tried", "counter-reversed")
    p.trial(says="answered 1 1 0 1 0")
    p.trial(says="answered 1 1 0 1 0")
    p.commit(says="answered")
    p.trial(says="answered 1 2 1 1 0")
    p.commit(says="answered")
    p.trial(says="answered 1 3 2 1 0")
    p = again("property-first-tried", "property-first")
    p.trial(1, 1, says="answered 1 1 1 0 0 0")
    p.trial(0, 1, says="answered 1 0 1 1 1 0")
    p.trial(1, 2, says="refused 33 record 2")
    p.commit(says="answered")
    # 0 = 4 -> pre 2; 1 = 4 -> 3; 2 = 4 -> pre 3; 3 = 4 less 5
    p = again("arrows-of-later-tried", "arrows-of-later")
    p.trial(10, 3, says="answered 10 10 10 7 10 3 1")
    p.trial(9, 1, says="answered 9 9 9 8 9 1 1")
    p.commit(says="answered")
    p.trial(20, 1, says="answered 9 19 8 19 20 1 1")
    p.trial(LEAST, 1, says="refused 34 record 3")
    p.trial(5, 6, says="answered 9 -1 8 -1 5 6 0")
    p.commit(says="answered")
    p.trial(0, 0, says="answered 8 0 -1 0 0 0 0")
    # the node of examples/property-first
    p = again("handover-tried", "handover-property-first")
    p.trial(1, says="answered 1 40 30 30 45 40 30 1")
    p.trial(0, says="answered 1 40 30 40 45 40 30 0")
    p.commit(says="answered")
    p.trial(1, says="answered 1 30 40 30 45 40 30 1")
    p.trial(2, says="refused 33 record 7")
    p.commit(says="answered")
    p.trial(0, says="answered 1 40 30 40 45 40 30 0")
    # the order is 2, 1, 0
    p = again("higher-first-tried", "higher-first")
    p.trial(HALF, says="refused 34 record 1")
    p.trial(HALF // 2, says="refused 34 record 0")
    p.commit(says="refused 35 file")
    p.trial(HALF // 2 - 1, says="answered 9223372036854775804 4611686018427387902 2305843009213693951 1")
    p.trial(-HALF - 1, says="refused 34 record 1")
    p.commit(says="answered")


def every_operator():
    p = again("all-operators-tried", "all-operators")
    p.trial(0, -4)
    p.trial(1, 5, says="answered 1 5 1 -7 0 0 1 1 -2 -7 -21 0 0 0 -7 1 -7 1 -7 -2 -7 -2")
    p.commit(says="answered")
    p.trial(1, LEAST, says="refused 34 record 8")
    p.trial(1, -30)
    p.trial(0, -4, says="answered 0 -4 1 -7 1 0 1 0 -11 -7 -21 0 0 0 -7 0 -7 1 -2 -6 -7 -6")
    p.commit(says="answered")
    p.call(1, -30, says="answered 1 -30 1 -7 0 0 1 1 -37 -7 -21 1 0 0 -37 0 -37 1 -6 -36 -30 -30")

    # record 2 is 19, which is -2 and the int after instant 0, and stands in the order before record 19, the int less 7
    p = again("all-operators-shuffled-tried", "all-operators-shuffled")
    p.trial(-4, 0)
    p.trial(5, 1, says=shown(SHUFFLED, "answered 1 5 1 -7 0 0 1 1 -2 -7 -21 0 0 0 -7 1 -7 1 -7 -2 -7 -2"))
    p.commit(says="answered")
    p.trial(LEAST + 1, 1, says="refused 34 record 2")
    p.trial(LEAST + 6, 1, says="refused 34 record 19")
    p.commit(says="refused 35 file")
    p.trial(-4, 0, says=shown(SHUFFLED, "answered 0 -4 1 -7 1 0 1 0 -11 -7 -21 0 0 0 -7 0 -7 1 -2 -6 -7 -6"))
    p.trial(LEAST, 2, says="refused 33 record 13")
    p.commit(says="answered")
    p.trial(-30, 1, says=shown(SHUFFLED, "answered 1 -30 1 -7 0 0 1 1 -37 -7 -21 1 0 0 -37 0 -37 1 -6 -36 -30 -30"))
    p.commit(says="answered")

    p = again("sixty-four-inputs-tried", "sixty-four-inputs")
    p.trial(*[1] * 63, LEAST, says="answered" + " 1" * 63 + f" {LEAST}")
    p.trial(*[0, 1] * 31, 1, GREATEST, says="answered" + " 0 1" * 31 + f" 1 {GREATEST}")
    p.trial(*[1] * 63, says="refused 31 file")
    p.trial(*[1] * 65, says="refused 31 file")
    p.trial(*[1] * 62, 2, 2, says="refused 33 record 62")
    p.trial(*[1] * 64, room=65, says="refused 32 file")
    p.commit(says="answered")
    # no line is longer
    p = again("longest-line-tried", "sixty-four-delays")
    p.trial(LEAST, says="answered" + f" {LEAST}" * 63 + " 1")
    p.commit(says="answered")
    p.call(LEAST, says="answered" + f" {LEAST}" * 63 + " 1")


def lessers():
    # the node of examples/flight-list
    p = again("flight-list-tried", "flight-list")
    p.trial(25, says="answered 25 0 -30 30 90 25 25 0 25 25 25 90 65 65 65 90 1")
    p.trial(4_000_000_000, says="answered 4000000000 0 -30 30 90 4000000000 30 0 30 30 30 90 60 60 60 90 1")
    p.trial(25, says="answered 25 0 -30 30 90 25 25 0 25 25 25 90 65 65 65 90 1")
    p.commit(says="answered")
    p.trial(-4_000_000_000, says="answered -4000000000 0 -30 30 90 -30 -30 25 -5 0 0 65 95 90 90 90 1")
    p.trial(30, says="answered 30 0 -30 30 90 30 30 25 55 55 55 65 35 35 35 90 1")
    p.trial(room=17, says="refused 31 file")
    p.commit(says="answered")
    p.trial(40, says="answered 40 0 -30 30 90 40 30 55 85 85 85 35 5 5 5 90 1")
    p.trial(GREATEST, says=f"answered {GREATEST} 0 -30 30 90 {GREATEST} 30 55 85 85 85 35 5 5 5 90 1")
    p.commit(says="answered")
    p.call(10, says="answered 10 0 -30 30 90 10 10 85 95 95 90 5 -5 -5 0 90 1")
    # 2 = 0 -> pre 3, 3 = lesser of 0 and 2; 4 = 0 -> pre 5, 5 = greater of 4 and 0
    p = again("least-and-greatest-tried", "least-and-greatest-so-far")
    p.trial(4, says="answered 4 1 4 4 4 4")
    p.trial(9, says="answered 9 1 9 9 9 9")
    p.trial(6, says="answered 6 1 6 6 6 6")
    p.commit(says="answered")
    p.trial(-2, says="answered -2 1 6 -2 6 6")
    p.trial(9, says="answered 9 1 6 6 6 9")
    p.commit(says="answered")
    p.trial(LEAST, says=f"answered {LEAST} 1 6 {LEAST} 9 9")
    p.trial(GREATEST, says=f"answered {GREATEST} 1 6 6 9 {GREATEST}")
    p.commit(says="answered")
    p.call(0, says=f"answered 0 1 6 0 {GREATEST} {GREATEST}")
    # 3 = 10 -> pre 5; 4 = 3 + x; 5 = lesser of 4 and 12
    p = again("held-by-lesser-tried", "held-by-lesser")
    p.trial(1, says="answered 1 10 12 10 11 11 1")
    p.trial(5, says="answered 5 10 12 10 15 12 1")
    p.commit(says="answered")
    p.trial(GREATEST, says="refused 34 record 4")
    p.trial(GREATEST - 12, says=f"answered {GREATEST - 12} 10 12 12 {GREATEST} 12 1")
    p.trial(-20, says="answered -20 10 12 12 -8 -8 1")
    p.commit(says="answered")
    p.trial(LEAST, says="refused 34 record 4")
    p.trial(LEAST + 8, says=f"answered {LEAST + 8} 10 12 -8 {LEAST} {LEAST} 1")
    p.commit(says="answered")
    p.call(0, says=f"answered 0 10 12 {LEAST} {LEAST} {LEAST} 1")
    # 1 = 7 -> pre 0; 0 = lesser of 1 and 4; 2 = greater of 0 and 3, where 3 is twice 4
    p = again("lesser-in-any-order-tried", "lesser-in-any-order")
    p.trial(9, 1, says="answered 7 7 18 18 9 7 1")
    p.trial(-1, 0, says="answered -1 7 -1 -2 -1 7 0")
    p.commit(says="answered")
    p.trial(9, 1, says="answered -1 -1 18 18 9 7 1")
    p.trial(-6, 2, says="refused 33 record 6")
    p.trial(-6, 1, says="answered -6 -1 -6 -12 -6 7 1")
    p.trial(HALF, 0, says="refused 34 record 3")
    p.commit(says="answered")
    p.call(0, 0, says="answered -6 -6 0 0 0 7 0")


def begin(p, node_name, says):
    """A beginning on a node that has a name."""
    records, prop, note = NODES[node_name]
    p.begin(node(records, prop, note), records, says=says)


def beginnings():
    """An answered beginning is before instant 0 and holds no trial."""
    p = again("begun-again", "sum-so-far")
    p.trial(5, says="answered 5 0 0 5 1")
    begin(p, "sum-so-far", "begun streams 5")
    p.commit(says="refused 35 file")
    p.trial(6, says="answered 6 0 0 6 1")
    p.commit(says="answered")
    p.trial(7, says="answered 7 0 6 13 0")
    begin(p, "sum-so-far", "begun streams 5")
    p.commit(says="refused 35 file")
    p.trial(1, says="answered 1 0 0 1 1")
    p.commit(says="answered")
    p.call(2, says="answered 2 0 1 3 0")
    begin(p, "sum-so-far", "begun streams 5")
    begin(p, "sum-so-far", "begun streams 5")
    p.call(3, says="answered 3 0 0 3 1")

    p = again("begun-on-others", "two-bands")
    p.trial(1, 1, says="answered 1 1 0 0 0 1")
    begin(p, "sum-so-far", "begun streams 5")
    p.commit(says="refused 35 file")
    p.trial(1, 1, says="refused 31 file")
    p.trial(1, room=6, says="refused 32 file")
    p.trial(3, says="answered 3 0 0 3 1")
    p.commit(says="answered")
    p.trial(4, says="answered 4 0 3 7 0")
    begin(p, "sixty-four-delays", "begun streams 64")
    p.commit(says="refused 35 file")
    p.trial(9, room=5, says="refused 32 file")
    p.trial(9, says="answered" + " 9" * 63 + " 1")
    p.commit(says="answered")
    p.trial(8, says="answered 8" + " 9" * 62 + " 1")
    begin(p, "one-input", "begun streams 1")
    p.call(9, says="refused 33 record 0")
    p.trial(1, says="answered 1")
    begin(p, "arrows-int", "begun streams 6")
    p.commit(says="refused 35 file")
    p.call(10, 20, says="answered 10 20 10 10 20 1")
    begin(p, "all-operators-with-note", "begun streams 22")
    p.call(10, 20, says="refused 33 record 0")
    p.trial(0, 0)
    p.commit(says="answered")
    begin(p, "property-first", "begun streams 6")
    p.call(0, 1, says="answered 1 0 1 1 1 0")

    # a refused beginning keeps record and trial
    p = again("beginning-refused", "sum-so-far")
    for i, (data, line) in enumerate(REFUSED.values()):
        p.trial(1, says=f"answered 1 0 {i} {i + 1} {int(i == 0)}")
        p.begin(data or b"", None, says=line)
        p.commit(says="answered")
        p.begin(data or b"", None, says=line)
        p.commit(says="refused 35 file")
    p.call(0, says="answered 0 0 14 14 0")

    # 30, and not 35, while no beginning was answered
    p = not_begun("begun-in-the-end", *REFUSED["8-property-is-int"], "8-property-is-int")
    p.commit(says="refused 30 file")
    p.trial(1, 1, room=7, says="refused 30 file")
    p.commit(says="refused 30 file")
    p.begin(node(TWO_BANDS, 6), None, says="refused 3 file")
    p.commit(1, room=1, says="refused 30 file")
    p.call(1, 1, room=6, says="refused 30 file")
    p.begin(BANDS, TWO_BANDS, says="begun streams 6")
    p.commit(says="refused 35 file")
    p.trial(1, 1, says="answered 1 1 0 0 0 1")
    p.begin(node(TWO_BANDS, 6), None, says="refused 3 file")
    p.commit(says="answered")
    p = not_begun("never-begun", *REFUSED["1-missing"], "1-missing")
    for data, line in REFUSED.values():
        p.begin(data or b"", None, says=line)
        p.trial(1, 1, room=6, says="refused 30 file")
        p.commit(says="refused 30 file")


def rooms():
    """A beginning's file is the first r of its bytes, or all of them where r is more."""
    p = again("beginning-cut-short", "two-bands")
    p.trial(0, 1, says="answered 0 1 1 1 0 1")
    for room, line in ((0, "refused 1 file"), (15, "refused 1 file"), (16, "refused 2 file"), (111, "refused 2 file")):
        p.begin(BANDS, None, room=room, says=line)
    p.begin(b"", None, says="refused 1 file")
    p.begin(b"", None, room=112, says="refused 1 file")
    p.commit(says="answered")
    p = again("beginning-with-room", "one-input")
    for room in (112, 113, 119, 65535):
        p.begin(BANDS, TWO_BANDS, room=room, says="begun streams 6")
        p.commit(says="refused 35 file")
        p.trial(1, 0, says="answered 1 0 0 0 0 1")

    # eight bytes after the file, and three before it
    p = again("beginning-before-others", "one-input")
    p.trial(1, says="answered 1")
    for room in (113, 120, 121, 65535):
        p.begin(BANDS + b"\xff" * 8, None, room=room, says="refused 2 file")
    p.commit(says="answered")
    p.begin(BANDS + b"\xff" * 8, TWO_BANDS, room=112, says="begun streams 6")
    p.trial(1, 1, says="answered 1 1 0 0 0 1")
    p.begin(b"\xff" * 3 + BANDS, None, room=116, says="refused 2 file")
    p.commit(says="answered")
    p.begin(b"\xff" * 3 + BANDS, TWO_BANDS, says="begun streams 6")
    p.commit(says="refused 35 file")

    # two files in a row: the first, or the second with the first as its note; and a long note
    records, prop, note = NODES["sum-so-far"]
    both = node(records, prop, note) + BANDS
    p = again("beginning-on-one-of-two", "one-input")
    p.begin(both, records, room=96, says="begun streams 5")
    p.trial(5, says="answered 5 0 0 5 1")
    p.begin(both, None, room=95, says="refused 2 file")
    p.begin(both, None, room=97, says="refused 2 file")
    p.commit(says="answered")
    p.call(6, says="answered 6 0 5 11 0")
    p.begin(both, TWO_BANDS, room=208, says="begun streams 6")
    p.trial(0, 1, says="answered 0 1 1 1 0 1")
    p.begin(both, None, room=207, says="refused 2 file")
    p.commit(says="answered")
    p.begin(both, TWO_BANDS, room=209, says="begun streams 6")
    p.begin(b"\xff" * 3001 + BANDS, TWO_BANDS, says="begun streams 6")
    p.call(1, 1, says="answered 1 1 0 0 0 1")


def cut_off():
    """A cut-off last event of each kind."""
    def after_a_trial(name, *cut):
        p = again(f"cut-off-{name}", "two-bands")
        p.trial(1, 1, says="answered 1 1 0 0 0 1")
        p.cut_off(b"".join(cut))

    after_a_trial("in-the-kind", b"\x02")
    after_a_trial("before-the-count", struct.pack("<H", COMMIT))
    for name, kind in (("trial", TRIAL), ("commit", COMMIT), ("beginning", BEGINNING)):
        after_a_trial(f"{name}-in-the-counts", struct.pack("<HHB", kind, 0, 0))
        after_a_trial(f"{name}-in-the-inputs", struct.pack("<HHHq", kind, 2, 6, 1), bytes(7))
    after_a_trial("other-kind", struct.pack("<HHHq", 65535, 2, 6, 1), bytes(7))
    # the room is a whole file, or none of the bytes
    after_a_trial("file", struct.pack("<HHH", BEGINNING, 15, 112), BANDS, bytes(7))
    after_a_trial("no-room", struct.pack("<HHH", BEGINNING, 14, 0), BANDS[:-1])


def on_duty():
    """The pass of examples/on-duty."""
    p = begun("on-duty", duty_proofs.ON_DUTY, 6)
    added = {OLD: p.call, TRIAL: p.trial, COMMIT: p.commit}
    for kind, inputs, line in duty_proofs.EVENTS:
        added[kind](*inputs)
        assert LINES[-1] == line, (LINES[-1], line)
    assert FILES[p.name] == pass_file(duty_proofs.EVENTS, len(duty_proofs.ON_DUTY))


def every_three(count):
    """Numbers below `count`, every three of them in a row once: each time the greatest that makes a new three."""
    row, seen = [0, 0], set()
    while left := [x for x in range(count) if (*row[-2:], x) not in seen]:
        row.append(left[-1])
        seen.add(tuple(row[-3:]))
    assert len(seen) == count ** 3
    return row


def any_mix():
    """Every three events in a row."""
    p = again("every-three-in-a-row", "sum-so-far")
    records, prop, _ = NODES["sum-so-far"]
    events = (p.trial, lambda i: p.trial(i, i), lambda _: p.commit(), p.call, lambda i: p.call(i, room=4),
              lambda _: p.begin(node(records, prop), records),
              lambda _: p.begin(node(records, prop, version=2), None, says="refused 2 file"))
    for i, which in enumerate(every_three(len(events))):
        events[which](i)


PARTS = (not_advanced, at_instant_0, refused_trials, no_trial, old_calls, limits, any_order, every_operator, lessers, beginnings,
         rooms, cut_off, any_mix, on_duty)
