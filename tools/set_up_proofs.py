"""A dish that is set up once, with a certificate that needs what the step says at offset 0: its window begins after instant 0.
And a twin whose property fails at instant 1, with certificates that get past this instant."""
from certificate_files import Proof, lit, opp
from node_files import BOOL, INT, node, rec


def set_up_node(limit):
    """2 = 5 -> 0 are the minutes of set-up, 3 = 0 -> pre 2 those of one instant before. That 3 is at most 0, which is 5, holds at
    every instant; that it is at most 1, which is 0, fails at instant 1."""
    return node([rec(1, INT, k=5), rec(1, INT, k=0), rec(12, INT, 0, 1), rec(13, INT, 1, 2), rec(9, BOOL, 3, limit)], 4)


NODES = {"set-up": set_up_node(0), "forged-set-up": set_up_node(1)}


class SetUp(Proof):
    """That 3 is at most the stream `limit`, which is `minutes`."""

    def __init__(self, limit, minutes):
        super().__init__(1)
        self.limit, self.minutes = limit, minutes

    def is_at_most(self, p, o, x, before=0):
        """Clause 0 of stream p: it is at most x, at this offset or one before."""
        return self.equation(p, o, 0, self.at_most({(p, o): 1, (x, o - before): -1}, 0))

    def constant(self, p, value):
        """Clause 0 of a constant, at offset 0."""
        return self.equation(p, 0, 0, self.at_most({(p, 0): 1}, value))

    def refute(self, o, fails, carried):
        """From a line that the property fails at an offset: 3 is over `limit`, yet `carried` gives lines that say it isn't."""
        over = self.at_most({(self.limit, o): 1, (3, o): -1}, -1)
        more = self.strike(self.equation(4, o, 1, lit(4, o), over), fails)
        at_least = self.equation(self.limit, o, 1, self.at_most({(self.limit, o): -1}, -self.minutes))
        return self.clash(more, at_least, *carried())

    def at_first(self):
        """3 is at most 1 at offset 0, which is instant 0."""
        return self.is_at_most(3, 0, 1), self.constant(1, 0)

    def at_second(self):
        """3 at offset 1 is what 2 was at instant 0, at most 5."""
        return self.is_at_most(3, 1, 2, before=1), self.is_at_most(2, 0, 0), self.constant(0, 5)

    def later(self):
        """3 at offset 1 is what 2 was at offset 0, which is not instant 0: at most 0."""
        return self.is_at_most(3, 1, 2, before=1), self.is_at_most(2, 0, 1), self.constant(1, 0)

    def step(self):
        self.begin_step()
        self.refute(1, self.property(1, opp(lit(4, 1))), self.later)
        return self.certificate()


def set_up():
    proof = SetUp(0, 5)
    left = proof.refute(0, proof.fails(4), proof.at_first)
    proof.refute(1, left, proof.at_second)
    return proof.step()


def first_instant_alone():
    """The property line, line 0, has instant 0 alone."""
    proof = SetUp(1, 0)
    proof.refute(0, proof.property(0, opp(lit(4))), proof.at_first)
    return proof.step()


def second_instant_left():
    """The base's last line is {!4 at 1}."""
    proof = SetUp(1, 0)
    proof.refute(0, proof.fails(4), proof.at_first)
    return proof.step()


def base_takes_b():
    """Line 15 says of 2 at instant 0 that it is at most 1, which it is later."""
    proof = SetUp(1, 0)
    proof.refute(1, proof.refute(0, proof.fails(4), proof.at_first), proof.later)
    return proof.step()
