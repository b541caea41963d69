"""A node whose records stand as people write them, with a certificate carried over to it; and a node whose equations chase each
other, with a certificate whose every line is as these have it."""
import booking_proofs
from certificate_files import opp
from example_proofs import at, at_each_offset
from node_files import BOOL, INPUT, INT, node, rec, reordered_node

# The records of handover: the property, then what it reads, constants and the input last.
ORDER = (7, 4, 5, 6, 3, 1, 2, 0)
# 0 is that 1 is at most 45; 1 = 40 -> pre 2 and 2 = 30 -> pre 3, where 3 is 30 or 1
AS_WRITTEN = [rec(9, BOOL, 1, 4), rec(13, INT, 5, 2), rec(13, INT, 6, 3), rec(11, INT, 6, 1, 7), rec(1, INT, k=45),
              rec(1, INT, k=40), rec(1, INT, k=30), INPUT]
# 2 = 0 and 3, 3 = not 2: where 0 holds no values solve these. 5 is that 2 and 1 don't both hold
LOOP = [INPUT, INPUT, rec(3, BOOL, 0, 3), rec(2, BOOL, 2), rec(3, BOOL, 2, 1), rec(2, BOOL, 4)]
NODES = {"property-first": node(AS_WRITTEN, 0), "forged-loop": node(LOOP, 5)}
assert NODES["property-first"] == reordered_node(booking_proofs.NODES["handover"], ORDER)


def property_first():
    return booking_proofs.handover().carried(ORDER)


def forged():
    """From 4 follow 2, then 3, then not 2."""
    def prove(proof, o, fails):
        s = at(o)
        two = proof.strike(fails, proof.equation(5, o, 0, s(5), s(4)), proof.equation(4, o, 0, opp(s(4)), s(2)))
        not_two = proof.strike(two, proof.equation(2, o, 1, opp(s(2)), s(3)), proof.equation(3, o, 1, opp(s(3)), opp(s(2))))
        return proof.strike(two, not_two)

    return at_each_offset(5, prove)
