"""A node for the flight list, whose counters lesser and greater hold at both ends, with its table of ranges and a whole
certificate; and a twin that holds one of them too high, with a table that is too small by one and a forged certificate."""
from certificate_files import Proof, lit, opp
from example_proofs import NUMBER
from node_files import BOOL, INT, node, rec, replaced

# 0 are the minutes asked for, or handed back where they are negative; 6 is what of them counts at once: from 2, which is -30, to
# 3, which is 30. 10 are those booked, which go up by 6, and 14 those free, which go down by it: both are held from 1, which is
# 0, to 4, which is 90, and 9 and 13 are half-way to that. That the sum of both, 15, is at most 4 holds at every instant
FLIGHT_LIST = [NUMBER, rec(1, INT, k=0), rec(1, INT, k=-30), rec(1, INT, k=30), rec(1, INT, k=90), rec(15, INT, 0, 2),
               rec(14, INT, 5, 3), rec(13, INT, 1, 10), rec(6, INT, 7, 6), rec(15, INT, 8, 1), rec(14, INT, 9, 4),
               rec(13, INT, 4, 14), rec(7, INT, 11, 6), rec(14, INT, 12, 4), rec(15, INT, 13, 1), rec(6, INT, 10, 14),
               rec(9, BOOL, 15, 4)]
# 14 is held at 3 in place of 1: once 90 are booked, 30 are free
FORGED = replaced(FLIGHT_LIST, 14, rec(15, INT, 13, 3))
NODES = {"flight-list": node(FLIGHT_LIST, 16), "forged-flight-list": node(FORGED, 16)}
LARGEST = 4_000_000_000
# least and greatest of each stream
RANGES = [(-LARGEST, LARGEST), (0, 0), (-30, -30), (30, 30), (90, 90), (-30, LARGEST), (-30, 30), (0, 90), (-30, 120), (0, 120),
          (0, 90), (0, 90), (-30, 120), (-30, 90), (0, 90), (0, 180), (0, 0)]
# 8 is the sum of 7 and 6, which may be 90 and 30
TABLES = {"flight-list": RANGES, "forged-flight-list": replaced(RANGES, 8, (-30, 119))}


def by_cases_of(held_at):
    """Gives a line {14 is at most 13}: 14 is that, or at most what it is held at. In the second case 10, at most 4, and 14, at most
    0, are not over 4, as the lines `known` say."""
    def line(proof, o, known):
        capped, none = (proof.at_most({(14, o): 1, (x, o): -1}, 0) for x in (13, held_at))
        either = proof.equation(14, o, 2, capped, none)
        known = (*known, proof.equation(10, o, 1, proof.at_most({(10, o): 1, (4, o): -1}, 0)))
        return proof.strike(either, proof.strike(proof.arithmetic(opp(none), *proof.against(known)), *known))

    return line


def half_a_clause(proof, o, _):
    """The same line, as if it were the clause."""
    return proof.equation(14, o, 2, proof.at_most({(14, o): 1, (13, o): -1}, 0))


def flight_list(free_is_capped=by_cases_of(1)):
    proof = Proof(1)

    def most(x, y, bound=0):
        return proof.at_most({x: 1, y: -1}, bound)

    def part(o, carried, *fails):
        """That 16 holds at this offset. `carried` gives lines whose sum, with that 1 is at most 0 at instant 0, is that 7 plus 11
        is at most 4 there."""
        more = proof.strike(proof.equation(16, o, 1, lit(16, o), most((4, o), (15, o), -1)), *fails)
        over = (more, proof.equation(15, o, 0, proof.at_most({(15, o): 1, (10, o): -1, (14, o): -1}, 0)))
        zero = proof.equation(1, o, 0, proof.at_most({(1, o): 1}, 0))
        free = free_is_capped(proof, o, (*over, zero))
        # 9 is at most 8: else 10, at most 0, and 14, at most 4, are not over 4
        summed, none = most((9, o), (8, o)), most((9, o), (1, o))
        either = proof.equation(9, o, 2, summed, none)
        raised = proof.equation(10, o, 0, most((10, o), (9, o)))
        known = (*over, zero, free, raised, proof.equation(13, o, 1, most((13, o), (4, o))))
        booked = proof.strike(either, proof.strike(proof.arithmetic(opp(none), *proof.against(known)), *known))
        # 6 goes to the one and from the other
        before = carried(zero)
        both = proof.arithmetic(proof.at_most({(7, o): 1, (11, o): 1, (4, o): -1}, 0), *proof.against(before))
        return proof.clash(*over, free, raised, booked, proof.strike(both, *before),
                           proof.equation(8, o, 0, proof.at_most({(8, o): 1, (7, o): -1, (6, o): -1}, 0)),
                           proof.equation(13, o, 0, most((13, o), (12, o))),
                           proof.equation(12, o, 0, proof.at_most({(12, o): 1, (11, o): -1, (6, o): 1}, 0)))

    def later(holds, *fails):
        return part(1, lambda _: (
            proof.equation(7, 1, 0, most((7, 1), (10, 0))), proof.equation(11, 1, 0, most((11, 1), (14, 0))),
            proof.equation(15, 0, 1, proof.at_most({(10, 0): 1, (14, 0): 1, (15, 0): -1}, 0)),
            proof.strike(proof.equation(16, 0, 0, opp(lit(16)), most((15, 0), (4, 0))), holds),
            proof.equation(4, 0, 0, proof.at_most({(4, 0): 1}, 90)),
            proof.equation(4, 1, 1, proof.at_most({(4, 1): -1}, -90))), *fails)

    fails = proof.fails(16)
    holds = part(0, lambda zero: (zero, proof.equation(7, 0, 0, most((7, 0), (1, 0))),
                                  proof.equation(11, 0, 0, most((11, 0), (4, 0)))))
    proof.strike(fails, holds, later(holds))
    proof.begin_step()
    later(proof.property(0, lit(16)), proof.property(1, opp(lit(16, 1))))
    return proof.certificate()


def forged():
    return flight_list(half_a_clause)
