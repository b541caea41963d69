"""Nodes of a booking scheduler, with a whole certificate for each; and one whose property fails, with a forged certificate."""
from certificate_files import Proof, lit, opp
from example_proofs import FALSE, NUMBER, TRUE, at
from node_files import BOOL, INPUT, INT, node, rec

# 1 is an input, 2 = true -> pre 1, 3 = true -> pre 2: that 3 holds fails at instant 2
LATE = [TRUE, INPUT, rec(13, BOOL, 0, 1), rec(13, BOOL, 0, 2)]
NODES = {
    # 3 = 90 -> pre 6 are the free minutes; 0 are asked for, and booked (5) if at most 3. What is left, 6, is not negative
    "free-minutes": node([NUMBER, rec(1, INT, k=0), rec(1, INT, k=90), rec(13, INT, 2, 6), rec(9, BOOL, 0, 3),
                          rec(7, INT, 3, 0), rec(11, INT, 5, 3, 4), rec(9, BOOL, 1, 6)], 7),
    # 4 = true -> pre 9 is whether the first station has the turn, 6 and 7 are the grants, after each of which the turn changes;
    # 10 = true -> pre 12 is whether the first station was not the last one granted. 4 is the same as 10
    "turns": node([INPUT, INPUT, TRUE, FALSE, rec(13, BOOL, 2, 9), rec(2, BOOL, 4), rec(3, BOOL, 0, 4), rec(3, BOOL, 1, 5),
                   rec(4, BOOL, 6, 7), rec(11, BOOL, 5, 4, 8), rec(13, BOOL, 2, 12), rec(4, BOOL, 7, 10),
                   rec(11, BOOL, 3, 11, 6), rec(5, BOOL, 4, 10)], 13),
    # 5 = 0 -> pre 11 are the grants so far, and 6 those of this pass; 9 is a grant, on request 0 where 6 is under 3, and 11
    # counts it. 20 times 11 is at most 60
    "quota": node([INPUT, INPUT, rec(1, INT, k=0), rec(1, INT, k=1), rec(1, INT, k=3), rec(13, INT, 2, 11),
                   rec(11, INT, 2, 5, 1), rec(9, BOOL, 4, 6), rec(2, BOOL, 7), rec(3, BOOL, 0, 8), rec(6, INT, 6, 3),
                   rec(11, INT, 10, 6, 9), rec(8, INT, 11, k=20), rec(1, INT, k=60), rec(9, BOOL, 12, 13)], 14),
    # 4 = 40 -> pre 5 and 5 = 30 -> pre 6, where 6 is 30 or 4: that 4 is at most 45 needs depth 2
    "handover": node([INPUT, rec(1, INT, k=40), rec(1, INT, k=30), rec(1, INT, k=45), rec(13, INT, 1, 5), rec(13, INT, 2, 6),
                      rec(11, INT, 2, 4, 0), rec(9, BOOL, 4, 3)], 7),
    # 8 = true -> pre 7, and on to 1 = true -> pre 8: that 8 holds needs depth 8
    "relay": node([TRUE, rec(13, BOOL, 0, 8)] + [rec(13, BOOL, 0, i) for i in range(1, 8)], 8),
}


def comparing(proof):
    """Literals of "x at most y" and, with bound -1, "x less than y"; x and y are each a stream and an offset."""
    return lambda x, y, bound=0: proof.at_most({x: 1, y: -1}, bound)


def free_minutes():
    proof = Proof(1)
    most = comparing(proof)

    def part(o, free_is_not_negative, *fails):
        """That 7 holds at this offset. `free_is_not_negative` gives lines whose sum is that 0 is at most 3 there."""
        zero = proof.equation(1, o, 0, proof.at_most({(1, o): 1}, 0))
        negative = proof.strike(proof.equation(7, o, 1, lit(7, o), most((6, o), (1, o), -1)), *fails)
        not_4 = proof.clash(negative, zero, proof.equation(6, o, 1, opp(lit(4, o)), most((5, o), (6, o))),
                            proof.equation(5, o, 1, proof.at_most({(3, o): 1, (0, o): -1, (5, o): -1}, 0)),
                            proof.equation(4, o, 0, opp(lit(4, o)), most((0, o), (3, o))))
        four = proof.clash(negative, zero, proof.equation(6, o, 3, lit(4, o), most((3, o), (6, o))), *free_is_not_negative())
        return proof.strike(four, not_4)

    def later(holds, *fails):
        return part(1, lambda: (
            proof.equation(3, 1, 1, most((6, 0), (3, 1))), proof.equation(1, 0, 1, proof.at_most({(1, 0): -1}, 0)),
            proof.strike(proof.equation(7, 0, 0, opp(lit(7)), most((1, 0), (6, 0))), holds)), *fails)

    fails = proof.fails(7)
    holds = part(0, lambda: (proof.equation(3, 0, 1, most((2, 0), (3, 0))),
                             proof.equation(2, 0, 1, proof.at_most({(2, 0): -1}, -90))))
    proof.strike(fails, holds, later(holds))
    proof.begin_step()
    later(proof.property(0, lit(7)), proof.property(1, opp(lit(7, 1))))
    return proof.certificate()


def same_turn_later(proof, holds, *fails):
    """That 13 holds at offset 1, from a line that it holds at 0."""
    s, t = at(0), at(1)
    # one instant before, 9 and 12 differ, and 4 is the same as 10
    either = proof.strike(proof.equation(13, 1, 2, t(13), t(4), t(10)), *fails, proof.equation(4, 1, 0, opp(t(4)), s(9)),
                          proof.equation(10, 1, 0, opp(t(10)), s(12)))
    not_both = proof.strike(proof.equation(13, 1, 3, t(13), opp(t(4)), opp(t(10))), *fails,
                            proof.equation(4, 1, 1, t(4), opp(s(9))), proof.equation(10, 1, 1, t(10), opp(s(12))))
    from_4 = proof.strike(proof.equation(13, 0, 0, opp(s(13)), opp(s(4)), s(10)), holds)
    from_10 = proof.strike(proof.equation(13, 0, 1, opp(s(13)), s(4), opp(s(10))), holds)

    # the first station is not granted: neither 9 nor 12 would hold
    passed = proof.strike(proof.equation(9, 0, 0, opp(s(8)), opp(s(9)), s(5)), proof.equation(8, 0, 0, s(8), opp(s(6))),
                          proof.equation(5, 0, 1, opp(s(5)), opp(s(4))), proof.equation(6, 0, 1, opp(s(6)), s(4)))
    noted = proof.strike(proof.equation(12, 0, 0, opp(s(6)), opp(s(12)), s(3)), proof.equation(3, 0, 0, opp(s(3))))
    not_6 = proof.strike(either, passed, noted)

    # nor is the second: both would hold
    from_11 = proof.strike(proof.equation(12, 0, 3, s(6), s(12), opp(s(11))), not_6)
    passed = proof.strike(proof.equation(9, 0, 1, opp(s(8)), s(9), opp(s(5))), proof.equation(8, 0, 1, s(8), opp(s(7))),
                          proof.equation(7, 0, 1, opp(s(7)), s(5)))
    noted = proof.strike(from_11, proof.equation(11, 0, 0, s(11), opp(s(7))))
    not_7 = proof.strike(not_both, passed, noted)

    # without a grant 9 is 4 and 12 is 10
    not_8 = proof.strike(proof.equation(8, 0, 2, opp(s(8)), s(6), s(7)), not_6, not_7)
    to_4 = proof.strike(proof.equation(9, 0, 2, s(8), opp(s(9)), s(4)), not_8)
    to_9 = proof.strike(proof.equation(9, 0, 3, s(8), s(9), opp(s(4))), not_8)
    to_10 = proof.strike(proof.equation(12, 0, 2, s(6), opp(s(12)), s(11)), not_6,
                         proof.equation(11, 0, 2, opp(s(11)), s(7), s(10)), not_7)
    to_12 = proof.strike(from_11, proof.equation(11, 0, 1, s(11), opp(s(10))))
    return proof.strike(proof.strike(either, to_4, to_10, from_10), proof.strike(not_both, to_9, to_12, from_4))


def turns():
    proof, s, t = Proof(1), at(0), at(1)
    fails, true = proof.fails(13), proof.equation(2, 0, 0, s(2))
    turn = proof.strike(proof.equation(4, 0, 1, s(4), opp(s(2))), true)
    last = proof.strike(proof.equation(10, 0, 1, s(10), opp(s(2))), true)
    holds = proof.strike(proof.equation(13, 0, 3, s(13), opp(s(4)), opp(s(10))), turn, last)
    proof.strike(fails, holds, same_turn_later(proof, holds))
    proof.begin_step()
    same_turn_later(proof, proof.property(0, s(13)), proof.property(1, opp(t(13))))
    return proof.certificate()


def quota():
    proof = Proof(1)
    most = comparing(proof)

    def part(o, carried, times, *fails):
        """That 14 holds at this offset. `carried` gives lines whose sum, with these multipliers, is that 20 times 5 is at most 60
        there."""
        s = at(o)
        over = proof.strike(proof.equation(14, o, 1, s(14), most((13, o), (12, o), -1)), *fails)
        # 20 times 11 is over 60
        said = (over, proof.equation(12, o, 0, proof.at_most({(12, o): 1, (11, o): -20}, 0)),
                proof.equation(13, o, 1, proof.at_most({(13, o): -1}, -60)))
        full = proof.clash(*said, proof.equation(11, o, 0, opp(s(9)), most((11, o), (10, o))),
                           proof.equation(10, o, 0, proof.at_most({(10, o): 1, (6, o): -1, (3, o): -1}, 0)),
                           proof.equation(3, o, 0, proof.at_most({(3, o): 1}, 1)),
                           proof.equation(7, o, 1, s(7), most((6, o), (4, o), -1)),
                           proof.equation(4, o, 0, proof.at_most({(4, o): 1}, 3)), times=(1, 1, 1, 20, 20, 20, 20, 20))
        not_9 = proof.strike(full, proof.equation(8, o, 1, opp(s(8)), opp(s(7))), proof.equation(9, o, 1, opp(s(9)), s(8)))
        kept = proof.strike(proof.equation(11, o, 2, s(9), most((11, o), (6, o))), not_9)
        not_1 = proof.clash(*said, kept, proof.equation(6, o, 0, opp(s(1)), most((6, o), (2, o))),
                            proof.equation(2, o, 0, proof.at_most({(2, o): 1}, 0)), times=(1, 1, 1, 20, 20, 20))
        one = proof.clash(*said, kept, proof.equation(6, o, 2, s(1), most((6, o), (5, o))), *carried(),
                          times=(1, 1, 1, 20, 20, *times))
        return proof.strike(one, not_1)

    def later(holds, *fails):
        return part(1, lambda: (
            proof.equation(5, 1, 0, most((5, 1), (11, 0))),
            proof.equation(12, 0, 1, proof.at_most({(11, 0): 20, (12, 0): -1}, 0)),
            proof.strike(proof.equation(14, 0, 0, opp(lit(14)), most((12, 0), (13, 0))), holds),
            proof.equation(13, 0, 0, proof.at_most({(13, 0): 1}, 60))), (20, 1, 1, 1), *fails)

    fails = proof.fails(14)
    holds = part(0, lambda: (proof.equation(5, 0, 0, most((5, 0), (2, 0))),
                             proof.equation(2, 0, 0, proof.at_most({(2, 0): 1}, 0))), (20, 20))
    proof.strike(fails, holds, later(holds))
    proof.begin_step()
    later(proof.property(0, lit(14)), proof.property(1, opp(lit(14, 1))))
    return proof.certificate()


def handover():
    proof = Proof(2)
    most = comparing(proof)

    def over(o):
        """Lines {7, 3 < 4} and {45 <= 3}."""
        return (proof.equation(7, o, 1, lit(7, o), most((3, o), (4, o), -1)),
                proof.equation(3, o, 1, proof.at_most({(3, o): -1}, -45)))

    def thirty():
        return proof.equation(2, 0, 0, proof.at_most({(2, 0): 1}, 30))

    def two_later(holds):
        """That 7 holds at offset 2, from a line that it holds at 0."""
        known = (*over(2), proof.equation(4, 2, 0, most((4, 2), (5, 1))), proof.equation(5, 1, 0, most((5, 1), (6, 0))))
        given_up = proof.clash(*known, proof.equation(6, 0, 0, opp(lit(0)), most((6, 0), (2, 0))), thirty())
        assumed = proof.strike(proof.equation(7, 0, 0, opp(lit(7)), most((4, 0), (3, 0))), holds)
        kept = proof.clash(*known, proof.equation(6, 0, 2, lit(0), most((6, 0), (4, 0))), assumed,
                           proof.equation(3, 0, 0, proof.at_most({(3, 0): 1}, 45)))
        return proof.strike(kept, given_up)

    fails = proof.fails(7)
    now = proof.clash(*over(0), proof.equation(4, 0, 0, most((4, 0), (1, 0))),
                      proof.equation(1, 0, 0, proof.at_most({(1, 0): 1}, 40)))
    later = proof.clash(*over(1), proof.equation(4, 1, 0, most((4, 1), (5, 0))), proof.equation(5, 0, 0, most((5, 0), (2, 0))),
                        thirty())
    proof.strike(fails, now, later, two_later(now))
    proof.begin_step()
    proof.strike(two_later(proof.property(0, lit(7))), proof.property(2, opp(lit(7, 2))))
    return proof.certificate()


def start_only(proof):
    """The base of the late nodes, whose property 3 holds at instants 0 and 1: {!3, !3 at 1}, {3, !0}, {3 at 1, !2}, {2, !0}, {0};
    joins {!0, !3 at 1}, {!2, !0}, {!0} and { }."""
    proof.strike(proof.fails(3), proof.equation(3, 0, 1, lit(3), opp(lit(0))), proof.equation(3, 1, 1, lit(3, 1), opp(lit(2))),
                 proof.equation(2, 0, 1, lit(2), opp(lit(0))), proof.equation(0, 0, 0, lit(0)))


def base_for_step():
    """The step's line 10 joins the base's {!0} and {0}."""
    proof = Proof(1)
    start_only(proof)
    proof.begin_step()
    proof.property(1, opp(lit(3, 1)))
    proof.join(7, 4, opp(lit(0)))
    return proof.certificate()
