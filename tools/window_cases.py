"""Operators 12 and 13 at each offset of both parts: what they take there, whole certificates by the clauses that operator 12 has
at step offset 0, and equation lines that take something else.

Which lines match is written down from the published rules and not computed by any checker.
"""
from certificate_files import Proof, lit, opp
from example_proofs import FALSE, NUMBER, TRUE
from factor_cases import whole
from node_files import BOOL, INPUT, INT, node, rec

# the property is 0, "true"; 5 and 7 are arrows, 6 and 8 are pres, each of an a and a b
RECORDS = [TRUE, INPUT, INPUT, NUMBER, NUMBER, rec(12, BOOL, 1, 2), rec(13, BOOL, 1, 2), rec(12, INT, 3, 4), rec(13, INT, 3, 4)]
# stream, a and b
STREAMS = {"arrow-bool": (5, 1, 2), "pre-bool": (6, 1, 2), "arrow-int": (7, 3, 4), "pre-int": (8, 3, 4)}
# 2 = a -> b and 3 = a -> pre 2, where a and b are two constants that are alike
ALIKE = (rec(12, BOOL, 0, 1), rec(13, BOOL, 0, 2))
NODES = {
    "window": node(RECORDS, 0),
    # 3 holds; 3 doesn't
    "opened": node([TRUE, TRUE, *ALIKE], 3), "closed": node([FALSE, FALSE, *ALIKE, rec(2, BOOL, 3)], 4),
    # 3, what 2 = 5 -> 0 was one instant before, is not negative
    "set-up-least": node([rec(1, INT, k=5), rec(1, INT), rec(12, INT, 0, 1), rec(13, INT, 1, 2), rec(9, BOOL, 1, 3)], 4),
    # 3 = 0 -> pre 4 and 4 = 3 + 1: 3 counts up from 0, and that it is at most 5 fails at instant 6
    "counts-on": node([rec(1, INT, k=5), rec(1, INT), rec(1, INT, k=1), rec(13, INT, 1, 4), rec(6, INT, 3, 2),
                       rec(9, BOOL, 3, 0)], 5),
}


def taken(part, name, o):
    """Which operand the stream takes at an offset, and where; None: it has no clauses there."""
    arrow = name.startswith("arrow")
    if o > 0:
        return "b", o if arrow else o - 1
    if part == "base":
        return "a", 0
    return ("b", 0) if arrow else None


def clause(proof, name, o, r, operand, number=None):
    """Clause r of the stream at an offset, the operand there as given; `number` is another number for it."""
    s, a, b = STREAMS[name]
    which, at = operand
    t = a if which == "a" else b
    if name.endswith("bool"):
        literals = [(opp(lit(s, o)), lit(t, at)), (lit(s, o), opp(lit(t, at)))][r]
    else:
        sign = (1, -1)[r]
        literals = (proof.at_most({(s, o): sign, (t, at): -sign}, 0),)
    proof.equation(s, o, r if number is None else number, *literals)


def everywhere(depth):
    """Both clauses of all streams wherever they have them."""
    def lines(part):
        def add(proof):
            for o in range(depth + 1):
                for name in STREAMS:
                    operand = taken(part, name, o)
                    for r in (0, 1) if operand else ():
                        clause(proof, name, o, r, operand)

        return add

    return whole(lines("base"), lines("step"), depth)


def with_line(part, add, depth=1):
    """One line more, the first of its part: 0, or of the step at depth 1 line 5."""
    return whole(**{part: add}, depth=depth)


def other_operands(part, name, o):
    """Lines that take another operand than they should, or one at another offset; at step offset 0 by both clauses."""
    for which, at in (("a", 0), ("b", 0), ("a", 1), ("b", 1)):
        for r in (0, 1) if (part, o) == ("step", 0) else (0,):
            if (which, at) != taken(part, name, o):
                yield (f"{name}-{part}-{o}-clause-{r}-takes-{which}-at-{at}",
                       lambda proof, r=r, operand=(which, at): clause(proof, name, o, r, operand))


def no_such_clause(part, name, o):
    operand = taken(part, name, o) or ("b", 0)
    yield f"{name}-{part}-{o}-clause-2", lambda proof: clause(proof, name, o, 0, operand, number=2)
    if not taken(part, name, o):
        yield f"{name}-{part}-{o}-no-literals", lambda proof: proof.equation(STREAMS[name][0], o, 0)


def wrong():
    """Certificates of depth 1, and their wrong line."""
    return {title: (with_line(part, add), {"base": 0, "step": 5}[part]) for part in ("base", "step") for o in (0, 1)
            for name in STREAMS for lines in (other_operands, no_such_clause) for title, add in lines(part, name, o)}


def wrong_of_depth_8():
    """The same at offset 8: line 0, or of the step line 19."""
    def of(name, which):
        return lambda proof: clause(proof, name, 8, 0, (which, 8))

    others = {"arrow-bool": "a", "arrow-int": "a", "pre-bool": "b", "pre-int": "b"}
    return {f"{name}-{part}-8-takes-{which}-at-8": (with_line(part, of(name, which), 8), line)
            for part, line in (("base", 0), ("step", 19)) for name, which in others.items()}


def offset_9(filler):
    """Line 0 is of "true" at offset 9 of depth 8, which is no offset: the literal is that of constraint 0, a filler."""
    def add(proof):
        proof.constraints.append(filler)
        proof.equation(0, 9, 0, lit(0, 9))

    return with_line("base", add, 8)


def alike(prop, r):
    """That 3 holds, by clauses 1 of 2 and 3; or that it doesn't, by clauses 0."""
    proof = Proof(1)

    def known(literal):
        return literal if r == 1 else opp(literal)

    def constant(p):
        return proof.equation(p, 0, 0, known(lit(p)))

    def follows(p, o, t):
        """The clause that stream p is as it is known where t is."""
        return proof.equation(p, o, r, known(lit(p, o)), opp(known(t)))

    def third(o):
        """Lines that lead from the property to 3."""
        return [proof.equation(4, o, 0, lit(4, o), lit(3, o))] if prop == 4 else []

    proof.strike(proof.fails(prop), *third(0), follows(3, 0, lit(0)), *third(1), follows(3, 1, lit(2)), follows(2, 0, lit(0)),
                 constant(0))
    proof.begin_step()
    proof.strike(proof.property(1, opp(lit(prop, 1))), *third(1), follows(3, 1, lit(2)), follows(2, 0, lit(1)), constant(1))
    return proof.certificate()


def opened():
    return alike(3, 1)


def closed():
    return alike(4, 0)


def set_up_least():
    """By clause 1 of 2: at step offset 0 it is at least b."""
    proof = Proof(1)

    def least(p, o, x, at):
        """Clause 1 of stream p: it is at least x."""
        return proof.equation(p, o, 1, proof.at_most({(x, at): 1, (p, o): -1}, 0))

    def constant(p, o, r, value):
        sign = (1, -1)[r]
        return proof.equation(p, o, r, proof.at_most({(p, o): sign}, sign * value))

    def negative(o, fails):
        return proof.strike(proof.equation(4, o, 1, lit(4, o), proof.at_most({(3, o): 1, (1, o): -1}, -1)), fails)

    left = proof.clash(negative(0, proof.fails(4)), least(3, 0, 1, 0))
    proof.clash(negative(1, left), least(3, 1, 2, 0), least(2, 0, 0, 0), constant(0, 0, 1, 5), constant(1, 1, 0, 0))
    proof.begin_step()
    proof.clash(negative(1, proof.property(1, opp(lit(4, 1)))), least(3, 1, 2, 0), least(2, 0, 1, 0), constant(1, 0, 1, 0),
                constant(1, 1, 0, 0))
    return proof.certificate()


def counts_on():
    """The base is sound. The step says that 4 is at least one more than 3 at offset 0, and then, by line 29, that it is at most 3,
    as if a pre were b at its own offset."""
    proof = Proof(1)

    def said(p, o, r, others, bound=0):
        """Clause r of an int stream: 0 is that it is at most what it should be, 1 at least."""
        sign = (1, -1)[r]
        terms = {(p, o): 1} | {x: -c for x, c in others.items()}
        return proof.equation(p, o, r, proof.at_most({x: sign * c for x, c in terms.items()}, sign * bound))

    def over(o, fails):
        """Lines that 3 is over 0 at an offset, and that this is at least 5."""
        more = proof.at_most({(0, o): 1, (3, o): -1}, -1)
        return proof.strike(proof.equation(5, o, 1, lit(5, o), more), fails), said(0, o, 1, {}, 5)

    def first():
        return said(3, 0, 0, {(1, 0): 1}), said(1, 0, 0, {})

    def next_one(r):
        return said(4, 0, r, {(3, 0): 1, (2, 0): 1}), said(2, 0, r, {}, 1)

    left = proof.clash(*over(0, proof.fails(5)), *first())
    proof.clash(*over(1, left), said(3, 1, 0, {(4, 0): 1}), *next_one(0), *first())
    proof.begin_step()
    proof.clash(*next_one(1), said(3, 0, 1, {(4, 0): 1}))
    return proof.certificate()
