"""Operators 14 and 15: whole certificates that need each of their clauses, equation lines that come near one, and forged ones.

Which lines match is written down from the published rules and not computed by any checker.
"""
import factor_cases
from certificate_files import COEFFICIENT, Proof, lit, opp
from example_proofs import NUMBER, at, at_each_offset
from factor_cases import CLAUSES, STREAMS, every_factor, times, whole
from node_files import BOOL, INT, node, rec

# streams of the node of factor cases
OF_THESE = ("lesser", "greater", "lesser-of-one", "greater-of-one")
# 2 is the lesser of 0 and 1, 3 the greater
BOTH = [NUMBER, NUMBER, rec(14, INT, 0, 1), rec(15, INT, 0, 1)]
NODES = {
    # the lesser is at most the greater
    "lesser-at-most": node(BOTH + [rec(9, BOOL, 2, 3)], 4),
    # the sum of both is that of the operands
    "lesser-and-greater": node(BOTH + [rec(6, INT, 2, 3), rec(6, INT, 0, 1), rec(10, BOOL, 4, 5)], 6),
    # the lesser and the greater of one operand are equal
    "lesser-of-one": node([NUMBER, rec(14, INT, 0, 0), rec(15, INT, 0, 0), rec(10, BOOL, 1, 2)], 3),
    # the greater of a number and its negation is not negative
    "absolute-by-greater": node([NUMBER, rec(8, INT, 0, k=-1), rec(15, INT, 0, 1), rec(1, INT), rec(9, BOOL, 3, 2)], 4),
    # 1 = 0 -> pre 2 and 2 = lesser of 0 and 1, the least so far; 3 = 0 -> pre 3, the first: 2 is at most 3
    "least-so-far": node([NUMBER, rec(13, INT, 0, 2), rec(14, INT, 0, 1), rec(13, INT, 0, 3), rec(9, BOOL, 2, 3)], 4),
    # false: 0 may be over 1, and 1 over 0
    "at-most-lesser": node(BOTH + [rec(9, BOOL, 0, 2)], 4),
    "at-least-greater": node(BOTH + [rec(9, BOOL, 3, 0)], 4),
    # false: where 0 is at most 1, that is the lesser
    "under-lesser": node(BOTH + [rec(9, BOOL, 0, 2), rec(2, BOOL, 4)], 5),
}


def most(proof, o, x, y, bound=0):
    """The literal of x at most y at an offset; with bound -1, of x less than y."""
    return proof.at_most({(x, o): 1, (y, o): -1}, bound)


def against(proof, literals, *lines):
    """These constraints can't hold together with those of the lines, one in each."""
    return proof.strike(proof.arithmetic(*map(opp, literals), *proof.against(lines)), *lines)


def fails_by(proof, o, prop, x, y, *fails):
    """A line {y < x}: the property, that x is at most y, fails, as a line says. Without such a line it has the property too."""
    return proof.strike(proof.equation(prop, o, 1, lit(prop, o), most(proof, o, y, x, -1)), *fails)


def lesser_at_most():
    """By clause 0 of each: the lesser is at most 0, and that at most the greater."""
    def prove(proof, o, fails):
        return proof.clash(fails_by(proof, o, 4, 2, 3, fails), proof.equation(2, o, 0, most(proof, o, 2, 0)),
                           proof.equation(3, o, 0, most(proof, o, 0, 3)))

    return at_each_offset(4, prove)


def lesser_and_greater():
    """All six clauses. If the sum is less than that of the operands, both are over the lesser, for the greater is at least the
    other one; and if it is more, both are under the greater."""
    def prove(proof, o, fails):
        s = at(o)

        def said(p, r, x, y):
            return proof.equation(p, o, r, most(proof, o, x, y))

        def total(p, r, x, y):
            sign = (1, -1)[r]
            return proof.equation(p, o, r, proof.at_most({(p, o): sign, (x, o): -sign, (y, o): -sign}, 0))

        under, over = most(proof, o, 4, 5, -1), most(proof, o, 5, 4, -1)
        either = proof.strike(proof.equation(6, o, 2, s(6), under, over), fails)
        sums = total(4, 1, 2, 3), total(5, 0, 0, 1)
        zero, one = most(proof, o, 0, 2), most(proof, o, 1, 2)
        not_under = proof.strike(proof.equation(2, o, 2, zero, one), against(proof, (under, zero), *sums, said(3, 1, 1, 3)),
                                 against(proof, (under, one), *sums, said(3, 0, 0, 3)))
        sums = total(4, 0, 2, 3), total(5, 1, 0, 1)
        zero, one = most(proof, o, 3, 0), most(proof, o, 3, 1)
        not_over = proof.strike(proof.equation(3, o, 2, zero, one), against(proof, (over, zero), *sums, said(2, 1, 2, 1)),
                                against(proof, (over, one), *sums, said(2, 0, 2, 0)))
        return proof.strike(either, not_under, not_over)

    return at_each_offset(6, prove)


def lesser_of_one():
    """Clause 2 of each has one constraint twice."""
    def prove(proof, o, fails):
        s = at(o)
        under, over = most(proof, o, 1, 2, -1), most(proof, o, 2, 1, -1)
        least, greatest = most(proof, o, 0, 1), most(proof, o, 2, 0)
        not_under = proof.strike(proof.arithmetic(opp(under), opp(least), opp(greatest)), proof.equation(1, o, 2, least, least),
                                 proof.equation(2, o, 2, greatest, greatest))
        not_over = against(proof, (over,), proof.equation(1, o, 1, most(proof, o, 1, 0)),
                           proof.equation(2, o, 0, most(proof, o, 0, 2)))
        return proof.strike(proof.equation(3, o, 2, s(3), under, over), fails, not_under, not_over)

    return at_each_offset(3, prove)


def absolute_by_greater():
    """Clauses 0 and 1 of the greater add up: twice it is at least the sum of a number and its negation."""
    def prove(proof, o, fails):
        return proof.clash(fails_by(proof, o, 4, 3, 2, fails), proof.equation(2, o, 0, most(proof, o, 0, 2)),
                           proof.equation(2, o, 1, most(proof, o, 1, 2)),
                           proof.equation(1, o, 1, proof.at_most({(0, o): -1, (1, o): -1}, 0)),
                           proof.equation(3, o, 0, proof.at_most({(3, o): 1}, 0)), times=(2, 1, 1, 1, 2))

    return at_each_offset(4, prove)


def least_so_far():
    """Clause 0 of the lesser at instant 0, clause 1 later."""
    proof = Proof(1)

    def later(holds, *fails):
        held = proof.strike(proof.equation(4, 0, 0, opp(lit(4)), most(proof, 0, 2, 3)), holds)
        return proof.clash(fails_by(proof, 1, 4, 2, 3, *fails), proof.equation(2, 1, 1, most(proof, 1, 2, 1)),
                           proof.equation(1, 1, 0, proof.at_most({(1, 1): 1, (2, 0): -1}, 0)), held,
                           proof.equation(3, 1, 1, proof.at_most({(3, 0): 1, (3, 1): -1}, 0)))

    fails = proof.fails(4)
    holds = proof.clash(fails_by(proof, 0, 4, 2, 3), proof.equation(2, 0, 0, most(proof, 0, 2, 0)),
                        proof.equation(3, 0, 1, most(proof, 0, 0, 3)))
    proof.strike(fails, holds, later(holds))
    proof.begin_step()
    later(proof.property(0, lit(4)), proof.property(1, opp(lit(4, 1))))
    return proof.certificate()


def by_one_line(prop, x, y, r):
    """That x is at most y, by line 3 alone, which says so as clause r of the lesser or the greater among them."""
    def prove(proof, o, fails):
        return proof.clash(fails_by(proof, o, prop, x, y, fails), proof.equation(max(x, y), o, r, most(proof, o, x, y)))

    return at_each_offset(prop, prove)


def by_strict_clause(proof, o, fails):
    """{5, 4}, {4}, {not 4, 0 at most 2}, {0 at most 2}; then, as clause 0 of the lesser, that 2 is less than 0: line 5."""
    s = at(o)
    four = proof.strike(proof.equation(5, o, 0, s(5), s(4)), fails)
    return proof.clash(proof.strike(proof.equation(4, o, 0, opp(s(4)), most(proof, o, 0, 2)), four),
                       proof.equation(2, o, 0, most(proof, o, 2, 0, -1)))


def by_cases(proof, o, *fails):
    """Of clause 2 of the lesser the first literal is refuted: {2 less than 0} and {1 at most 2}, the last line, are left."""
    over = fails_by(proof, o, 4, 0, 2, *fails)
    zero, one = most(proof, o, 0, 2), most(proof, o, 1, 2)
    return over, proof.strike(proof.equation(2, o, 2, zero, one), against(proof, (zero,), over))


def first_case():
    """The last line of the base is {1 at most 2 at 0, 1 at most 2 at 1}, and that of the step its second half."""
    proof = Proof(1)
    proof.strike(proof.fails(4), *[by_cases(proof, o)[1] for o in (0, 1)])
    proof.begin_step()
    by_cases(proof, 1, proof.property(1, opp(lit(4, 1))))
    return proof.certificate()


def both_cases():
    """The second one too, by line 7, as if 0 stood there: 2 may be less than 0 and 1 at most 2."""
    def prove(proof, o, fails):
        return proof.clash(*by_cases(proof, o, fails))

    return at_each_offset(4, prove)


def forged():
    """Certificates of properties that are false: the node's name, the certificate, and the line that is no clause."""
    return {
        # the second literal of clause 2 missing, the sides of clause 0 swapped, a clause that is not there
        "literal-missing": ("at-most-lesser", by_one_line(4, 0, 2, 2), 3),
        "sides-swapped": ("at-most-lesser", by_one_line(4, 0, 2, 0), 3),
        "clause-3": ("at-most-lesser", by_one_line(4, 0, 2, 3), 3),
        "literal-missing-of-greater": ("at-least-greater", by_one_line(4, 3, 0, 2), 3),
        "sides-swapped-of-greater": ("at-least-greater", by_one_line(4, 3, 0, 0), 3),
        "clause-3-of-greater": ("at-least-greater", by_one_line(4, 3, 0, 3), 3),
        "strict": ("under-lesser", at_each_offset(5, by_strict_clause), 5),
    }


def everywhere():
    """Every clause twice at each offset, of depth 2: at 0 to 2 in the base and in the step."""
    def lines(proof):
        for o in range(3):
            for s in OF_THESE:
                every_factor(proof, o, s, CLAUSES[s], (1, COEFFICIENT))

    return whole(lines, lines, 2)


def near(s, mirror):
    """Lines near the clauses {s at most a}, {s at most b}, {a at most s, b at most s} of a lesser; for a greater each constraint
    the other way round. `mirror` is the stream that is the other of the two."""
    sign = 1 if s == "lesser" else -1

    def one(x, bound=0, of=s, **others):
        return {of: sign, x: -sign} | others, bound

    def other(x, bound=0):
        return {x: sign, s: -sign}, bound

    def clause(r, *literals):
        return s, r, *literals

    return {
        "a-swapped": clause(0, other("a")), "b-swapped": clause(1, other("b")), "both-swapped": clause(2, one("a"), one("b")),
        "first-of-two-swapped": clause(2, one("a"), other("b")), "second-of-two-swapped": clause(2, other("a"), one("b")),
        "a-strict": clause(0, one("a", -1)), "b-strict": clause(1, one("b", -1)), "a-loose": clause(0, one("a", 1)),
        "first-of-two-strict": clause(2, other("a", -1), other("b")), "second-of-two-strict": clause(2, other("a"), other("b", -1)),
        "second-of-two-loose": clause(2, other("a"), other("b", 1)),
        "b-for-a": clause(0, one("b")), "a-for-b": clause(1, one("a")), "two-exchanged": clause(2, other("b"), other("a")),
        "second-missing": clause(2, other("a")), "first-missing": clause(2, other("b")), "both-missing": clause(2),
        "a-missing": clause(0), "a-twice": clause(0, one("a"), one("a")), "b-added": clause(0, one("a"), one("b")),
        "first-twice": clause(2, other("a"), other("a")), "third-added": clause(2, other("a"), other("b"), other("b")),
        "clause-3": clause(3, other("a"), other("b")), "clause-3-of-one": clause(3, one("a")), "clause-4": clause(4, one("b")),
        "clause-256": clause(256, one("a")), "clause-258": clause(258, other("a"), other("b")),
        "clause-65535": clause(65535, one("a")),
        "clause-2-as-0": clause(0, other("a"), other("b")), "clause-0-as-2": clause(2, one("a")),
        # clauses of an "if" that compares a and b, and what clauses 0 and 1 add up to
        "guarded": clause(0, "!at-most", one("a")), "guarded-of-two": clause(2, "!at-most", other("a")),
        "two-added-up": clause(0, ({s: 2 * sign, "a": -sign, "b": -sign}, 0)), "of-sum": clause(0, one("a", b=-sign)),
        "negated": clause(0, (*one("a"), "negated")), "first-of-two-negated": clause(2, (*other("a"), "negated"), other("b")),
        # the negation of a - s at most -1 is s - a at most 0
        "as-negation": clause(0, (*other("a", -1), "negated")),
        "of-mirror": clause(0, one("a", of=mirror)), "another-stream": clause(0, one("sum")), "itself": clause(0, ({}, 0)),
        "another-offset": clause(0, ({s: sign, ("a", 1): -sign}, 0)),
        "one-offset-lower": clause(0, ({(s, 1): sign, ("a", 1): -sign}, 0)),
        # multiples that are none
        "by-0-of-two": clause(2, ({}, 0), other("b")), "by-2-and-3": clause(0, ({s: 2 * sign, "a": -3 * sign}, 0)),
        "by-1-and-2-of-two": clause(2, other("a"), ({"b": sign, s: -2 * sign}, 0)),
        "by-minus-2": clause(0, times(-2, *one("a"))), "by-minus-2-of-two": clause(2, other("a"), times(-2, *other("b"))),
        "by-2-strict": clause(0, times(2, *one("a", -1))), "by-2-bound-1": clause(0, (times(2, *one("a"))[0], 1)),
    }


def wrong():
    """Lines of 17. Of one operand clause 2 has two literals still."""
    mirrors = {"lesser": "greater", "greater": "lesser"}
    lines = {f"{s}-{name}": line for s, mirror in mirrors.items() for name, line in near(s, mirror).items()}
    for s in ("lesser-of-one", "greater-of-one"):
        [first, _] = CLAUSES[s][2]
        lines |= {f"{s}-once": (s, 2, first), f"{s}-doubled": (s, 2, times(2, *first)), f"{s}-thrice": (s, 2, *[first] * 3),
                  f"{s}-0-at-most-0": (s, 2, ({}, 0), ({}, 0))}
    return lines


def past_depth(proof, s):
    """The first clause of a stream at offset 1, said to be at 2."""
    proof.equation(STREAMS[s], 2, 0, factor_cases.literal(proof, 1, CLAUSES[s][0][0]))


def past_depth_in_base():
    """Line 0."""
    return whole(lambda proof: past_depth(proof, "lesser"))


def past_depth_in_step():
    """Line 8."""
    proof = factor_cases.going_on()
    past_depth(proof, "greater")
    return proof.certificate()
