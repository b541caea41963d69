"""Bookings that begin at even minutes and tones at odd ones: a whole certificate by cuts, the same without, and a forged one."""
from certificate_files import opp
from example_proofs import NUMBER, at, at_each_offset
from node_files import BOOL, INT, node, rec


def pairs_node(later):
    """2 is twice 0; 7 is twice 1, plus 1 and at later instants plus `later`. That they differ holds where `later` is odd."""
    return node([NUMBER, NUMBER, rec(8, INT, 0, k=2), rec(8, INT, 1, k=2), rec(1, INT, k=1), rec(1, INT, k=later),
                 rec(12, INT, 4, 5), rec(6, INT, 3, 6), rec(10, BOOL, 2, 7), rec(2, BOOL, 8)], 9)


NODES = {"pairs-of-minutes": pairs_node(3), "forged-pairs": pairs_node(2)}


def part(proof, o, fails, halve, constant, minutes, half):
    """Twice 0, less twice 1, is `minutes`, the value of `constant`; yet 0 less 1 is at most `half`, and at least one more."""
    s = at(o)

    def equation(p, r, others, bound=0):
        """Clause r of an int stream: 0 is that it is at most what it should be, 1 at least."""
        sign = (1, -1)[r]
        return proof.equation(p, o, r, proof.at_most({(q, o): sign * c for q, c in {p: 1, **others}.items()}, sign * bound))

    meets = proof.strike(proof.equation(9, o, 0, s(9), s(8)), fails)

    def halved(r, bound):
        """Of lines that say, r 0, that twice 0 less twice 1 is at most `minutes` and, r 1, at least: half of that."""
        sign = (1, -1)[r]
        end = proof.strike(proof.equation(8, o, r, opp(s(8)), proof.at_most({(2, o): sign, (7, o): -sign}, 0)), meets)
        lines = (end, equation(2, 1 - r, {0: -2}), equation(7, r, {3: -1, 6: -1}), equation(3, r, {1: -2}),
                 equation(6, r, {constant: -1}), equation(constant, r, {}, minutes))
        return halve(proof, lines, proof.at_most({(0, o): sign, (1, o): -sign}, bound))

    return proof.clash(halved(0, half), halved(1, -half - 1))


def by_cut(proof, lines, last):
    return proof.cut(lines, last, 2)


def by_arithmetic(proof, lines, last):
    """The same clause as the cut's, by kind 4: twice the opposite of the last can't stand beside these constraints."""
    against = proof.against(lines)
    return proof.strike(proof.arithmetic(*against, last, times=(1,) * len(against) + (2,)), *lines)


def pairs_of_minutes(later=3, halve=by_cut):
    """Another `later` changes what the constraints say of it, and no line."""
    def prove(proof, o, fails):
        return part(proof, o, fails, halve, *((4, 1, 0), (5, later, 1))[o])

    return at_each_offset(9, prove)


def forged():
    """Of 1 less 0, twice which is at most -2, the second cut at offset 1 says at most -2."""
    return pairs_of_minutes(2)
