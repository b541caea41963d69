"""A pass that is booked in minutes and measured in half minutes: a whole certificate as a solver writes it that reckons in half
minutes throughout, the same with constraints as they are defined, and a forged one."""
from certificate_files import Proof, lit, opp
from example_proofs import NUMBER, at
from node_files import BOOL, INT, node, rec

# half minutes in a minute, and in a slot of 20 minutes
MINUTE, SLOT = 2, 40


def half_minutes_node(length):
    """3 are the minutes of 3 slots. 0 are asked for, and booked (7) if with those from before (4) they are at most 3. 8 are the
    half minutes of 7: that they are at most `length` holds from 120 on."""
    return node([NUMBER, rec(1, INT, k=0), rec(1, INT, k=3), rec(8, INT, 2, k=20), rec(13, INT, 1, 7), rec(6, INT, 4, 0),
                 rec(9, BOOL, 5, 3), rec(11, INT, 5, 4, 6), rec(8, INT, 7, k=2), rec(1, INT, k=length), rec(9, BOOL, 8, 9)], 10)


NODES = {"half-minutes": half_minutes_node(120), "forged-minutes": half_minutes_node(60)}


def half_minutes(length=120, minute=MINUTE, slot=SLOT, slots=120):
    """Constraints on minutes are times `minute`, that on slots is times `slot` and has the bound `slots`; what is missing to half
    minutes is left to the multipliers. Other numbers change no line but for these."""
    proof = Proof(1)
    by_minute, by_slot = MINUTE // minute, SLOT // slot

    def most(x, y, unit=1, times=1, bound=0):
        """x is at most so many times y."""
        return proof.at_most({x: unit, y: -unit * times}, bound)

    def part(o, carried, times, *fails):
        """That 10 holds at this offset. `carried` gives lines whose sum, with these multipliers, is that twice 4 is at most
        `length` there."""
        s = at(o)
        more = proof.strike(proof.equation(10, o, 1, s(10), most((9, o), (8, o), bound=-1)), *fails)
        # twice 7 is over `length`
        over = (more, proof.equation(8, o, 0, most((8, o), (7, o), times=2)),
                proof.equation(9, o, 1, proof.at_most({(9, o): -1}, -length)))
        not_6 = proof.clash(*over, proof.equation(7, o, 0, opp(s(6)), most((7, o), (5, o), minute)),
                            proof.equation(6, o, 0, opp(s(6)), most((5, o), (3, o), minute)),
                            proof.equation(3, o, 0, most((3, o), (2, o), minute, 20)),
                            proof.equation(2, o, 0, proof.at_most({(2, o): slot}, slots)),
                            times=(1, 1, 1, by_minute, by_minute, by_minute, by_slot))
        six = proof.clash(*over, proof.equation(7, o, 2, s(6), most((7, o), (4, o), minute)), *carried(),
                          times=(1, 1, 1, by_minute, *times))
        return proof.strike(six, not_6)

    def later(holds, *fails):
        return part(1, lambda: (
            proof.equation(4, 1, 0, most((4, 1), (7, 0), minute)),
            proof.equation(8, 0, 1, proof.at_most({(7, 0): 2, (8, 0): -1}, 0)),
            proof.strike(proof.equation(10, 0, 0, opp(lit(10)), most((8, 0), (9, 0))), holds),
            proof.equation(9, 0, 0, proof.at_most({(9, 0): 1}, length))), (by_minute, 1, 1, 1), *fails)

    fails = proof.fails(10)
    holds = part(0, lambda: (proof.equation(4, 0, 0, most((4, 0), (1, 0), minute)),
                             proof.equation(1, 0, 0, proof.at_most({(1, 0): minute}, 0))), (by_minute, by_minute))
    proof.strike(fails, holds, later(holds))
    proof.begin_step()
    later(proof.property(0, lit(10)), proof.property(1, opp(lit(10, 1))))
    return proof.certificate()


def as_defined():
    return half_minutes(minute=1, slot=1, slots=3)


def forged():
    """Of 40 times the 3 slots it says: at most 3."""
    return half_minutes(60, slots=3)
