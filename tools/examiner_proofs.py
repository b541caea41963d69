"""A dish with two licensed bands, and an examiner who asks for single values of a pass: the node with a whole certificate, and a
history with questions on it."""
from booking_proofs import comparing
from certificate_files import lit, opp
from example_proofs import NUMBER, at_each_offset
from node_files import BOOL, INT, node, rec
from pass_files import GREATEST

# 0 and 1 are the minutes that the bands ask for. 4 and 5 are whether they are licensed for as many: at most 2, which is 40. 6 and
# 7 are these minutes in seconds, 8 and 9 those booked: 6 and 7, or none without a licence. 10 adds these, and 12 all up to now.
# That 10 is at most 13, which is 4800, holds at every instant
ONE_VALUE = [NUMBER, NUMBER, rec(1, INT, k=40), rec(1, INT), rec(9, BOOL, 0, 2), rec(9, BOOL, 1, 2), rec(8, INT, 0, k=60),
             rec(8, INT, 1, k=60), rec(11, INT, 6, 3, 4), rec(11, INT, 7, 3, 5), rec(6, INT, 8, 9), rec(13, INT, 3, 12),
             rec(6, INT, 11, 10), rec(1, INT, k=4800), rec(9, BOOL, 10, 13)]
NODES = {"one-value": node(ONE_VALUE, 14)}
# the inputs of each instant: one desk sends the greatest number that fits, and the other a number that can't be right
HISTORY = ((30, 10), (20, GREATEST), (40, 40), (-200_000_000_000_000_000, 5), (0, 15))
# stream and instant of each question, and its line
QUESTIONS = (
    (12, 0, "value 2400"), (10, 1, "value 1200"), (7, 1, "refused 34 record 7"), (14, 1, "value 1"), (12, 2, "value 8400"),
    (10, 3, "refused 34 record 10"), (9, 3, "value 300"), (10, 4, "value 900"), (12, 4, "refused 34 record 12"),
    (15, 0, "refused 65 file"), (0, 5, "refused 65 file"),
)
# of each band: minutes asked for, whether they are licensed, these in seconds, and those booked
BANDS = ((0, 4, 6, 8), (1, 5, 7, 9))


def refute(proof, o, fails):
    """From a line that the property fails at an offset: over 4,800 seconds are booked, yet each band has at most 2,400."""
    most = comparing(proof)
    licence = proof.equation(2, o, 0, proof.at_most({(2, o): 1}, 40))
    none = proof.equation(3, o, 0, proof.at_most({(3, o): 1}, 0))

    def capped(asked, licensed, seconds, booked):
        """A line {booked is at most 2,400}: with a licence 60 times 40, and none without."""
        cap, yes = proof.at_most({(booked, o): 1}, 2400), lit(licensed, o)
        with_licence = (proof.equation(booked, o, 0, opp(yes), most((booked, o), (seconds, o))),
                        proof.equation(seconds, o, 0, proof.at_most({(seconds, o): 1, (asked, o): -60}, 0)),
                        proof.equation(licensed, o, 0, opp(yes), most((asked, o), (2, o))), licence)
        without = (proof.equation(booked, o, 2, yes, most((booked, o), (3, o))), none)
        licensed_at_most = proof.arithmetic(cap, *proof.against(with_licence), times=(1, 1, 1, 60, 60))
        return proof.strike(proof.strike(licensed_at_most, *with_licence),
                            proof.strike(proof.arithmetic(cap, *proof.against(without)), *without))

    over = proof.strike(proof.equation(14, o, 1, lit(14, o), most((13, o), (10, o), -1)), fails)
    return proof.clash(over, proof.equation(13, o, 1, proof.at_most({(13, o): -1}, -4800)),
                       proof.equation(10, o, 0, proof.at_most({(10, o): 1, (8, o): -1, (9, o): -1}, 0)),
                       *[capped(*band) for band in BANDS])


def one_value():
    return at_each_offset(14, refute)
