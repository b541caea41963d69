"""A dish with two bands whose operator tries bookings before one is made: the node with a whole certificate, and a pass on it."""
from booking_proofs import comparing
from certificate_files import Proof, lit, opp
from example_proofs import NUMBER
from node_files import BOOL, INT, node, rec
from pass_files import COMMIT, OLD, TRIAL

# 0 and 1 are the minutes that the bands ask for, 2 = 90 -> pre 5 those left. 3 grants the first band its minutes where there are as
# many, which leaves 8, and 4 the second where 8 has as many, which leaves 5. That 5 is not negative holds at every instant
ON_DUTY = [NUMBER, NUMBER, rec(13, INT, 10, 5), rec(9, BOOL, 0, 2), rec(9, BOOL, 1, 8), rec(11, INT, 9, 8, 4), rec(9, BOOL, 11, 5),
           rec(7, INT, 2, 0), rec(11, INT, 7, 2, 3), rec(7, INT, 8, 1), rec(1, INT, k=90), rec(1, INT)]
NODES = {"on-duty": node(ON_DUTY, 6)}
# of each band: minutes asked for, those left for it, its grant, what that leaves, and what is left after the band
FIRST, SECOND = (0, 2, 3, 7, 8), (1, 8, 4, 9, 5)
# kind, inputs and the line of each event
EVENTS = (
    (TRIAL, (50, 45), "trial: answered 50 45 90 1 0 40 1 40 40 -5 90 0"),
    (TRIAL, (50, 30), "trial: answered 50 30 90 1 1 10 1 40 40 10 90 0"),
    (TRIAL, (50,), "trial: refused 31 file kept"),
    (COMMIT, (), "commit: answered"),
    (COMMIT, (), "commit: refused 35 file kept"),
    (OLD, (20, 5), "answered 20 5 10 0 1 5 1 -10 10 5 90 0"),
)


def on_duty():
    proof = Proof(1)
    most = comparing(proof)

    def part(o, left_is_not_negative, *fails):
        """That 6 holds at this offset. `left_is_not_negative` gives lines whose sum is that 0 is at most 2 there."""
        def nothing_granted(band, known):
            """A line {left is at most after}: with a grant to the band, `after` is not negative, against the lines `known`."""
            asked, left, grant, less, after = band
            not_granted = proof.clash(
                *known, proof.equation(after, o, 1, opp(lit(grant, o)), most((less, o), (after, o))),
                proof.equation(less, o, 1, proof.at_most({(left, o): 1, (asked, o): -1, (less, o): -1}, 0)),
                proof.equation(grant, o, 0, opp(lit(grant, o)), most((asked, o), (left, o))))
            return proof.strike(proof.equation(after, o, 3, lit(grant, o), most((left, o), (after, o))), not_granted)

        negative = proof.strike(proof.equation(6, o, 1, lit(6, o), most((5, o), (11, o), -1)), *fails)
        known = [negative, proof.equation(11, o, 0, proof.at_most({(11, o): 1}, 0))]
        for band in (SECOND, FIRST):
            known.append(nothing_granted(band, known))
        return proof.clash(*known, *left_is_not_negative())

    def later(holds, *fails):
        return part(1, lambda: (
            proof.equation(2, 1, 1, most((5, 0), (2, 1))), proof.equation(11, 0, 1, proof.at_most({(11, 0): -1}, 0)),
            proof.strike(proof.equation(6, 0, 0, opp(lit(6)), most((11, 0), (5, 0))), holds)), *fails)

    fails = proof.fails(6)
    holds = part(0, lambda: (proof.equation(2, 0, 1, most((10, 0), (2, 0))),
                             proof.equation(10, 0, 1, proof.at_most({(10, 0): -1}, -90))))
    proof.strike(fails, holds, later(holds))
    proof.begin_step()
    later(proof.property(0, lit(6)), proof.property(1, opp(lit(6, 1))))
    return proof.certificate()
