"""Equation lines on constraints that are multiplied through: of every clause that has a constraint, by factors up to the greatest
that a file can hold; lines that come near; and lines of other kinds on such constraints.

Which of them match is written down from the published rules and not computed by any checker.
"""
import struct
from dataclasses import replace

from certificate_files import BOUND, COEFFICIENT, Proof, lit, on, opp
from example_proofs import NUMBER, TRUE
from node_files import BOOL, INPUT, INT, node, rec

# the property is "true"; operands by number: 1 is c, 2 is a, 3 is b
RECORDS = {
    "true": TRUE, "c": INPUT, "a": NUMBER, "b": NUMBER,
    # one instant before: b, a stream with a higher number (8), itself
    "pre": rec(13, INT, 2, 3), "pre-higher": rec(13, INT, 2, 8), "pre-itself": rec(13, INT, 2, 6),
    "arrow": rec(12, INT, 2, 3), "sum": rec(6, INT, 2, 3), "difference": rec(7, INT, 2, 3),
    "twice": rec(6, INT, 2, 2), "nothing": rec(7, INT, 2, 2),
    "hundred": rec(1, INT, k=100), "minus-hundred": rec(1, INT, k=-100), "zero": rec(1, INT),
    "greatest": rec(1, INT, k=COEFFICIENT), "least": rec(1, INT, k=-COEFFICIENT),
    "triple": rec(8, INT, 2, k=3), "minus-triple": rec(8, INT, 2, k=-3), "thousandfold": rec(8, INT, 2, k=1000),
    "greatest-multiple": rec(8, INT, 2, k=COEFFICIENT), "least-multiple": rec(8, INT, 2, k=-COEFFICIENT),
    "zerofold": rec(8, INT, 2),
    "at-most": rec(9, BOOL, 2, 3), "at-least": rec(9, BOOL, 3, 2), "equal": rec(10, BOOL, 2, 3), "if": rec(11, INT, 2, 3, 1),
    "at-most-itself": rec(9, BOOL, 2, 2), "equal-to-itself": rec(10, BOOL, 2, 2),
    "lesser": rec(14, INT, 2, 3), "greater": rec(15, INT, 2, 3),
    "lesser-of-one": rec(14, INT, 2, 2), "greater-of-one": rec(15, INT, 2, 2),
}
STREAMS = {name: i for i, name in enumerate(RECORDS)}
NODE = node(list(RECORDS.values()), 0)
NEVER = ({}, -1)


def most(x, y, bound=0):
    """x at most y; with bound -1, x less than y."""
    return {x: 1, y: -1}, bound


def less(x, y):
    return most(x, y, -1)


def both(s, right, bound=0):
    """The two clauses of an int stream: it is at most its right side, and at least."""
    return [(({s: 1} | {x: -c for x, c in right.items()}, bound),), (({s: -1} | right, -bound),)]


def lesser(s, a, b):
    return [(most(s, a),), (most(s, b),), (most(a, s), most(b, s))]


def greater(s, a, b):
    return [(most(a, s),), (most(b, s),), (most(s, a), most(s, b))]


# The clauses as the rules list them. A literal is a bool stream, "!" before it where negated, or a constraint: coefficients by
# stream, or by stream and how many offsets lower, and a bound.
CLAUSES = {
    "hundred": both("hundred", {}, 100), "minus-hundred": both("minus-hundred", {}, -100), "zero": both("zero", {}),
    "greatest": both("greatest", {}, COEFFICIENT), "least": both("least", {}, -COEFFICIENT),
    "sum": both("sum", {"a": 1, "b": 1}), "difference": both("difference", {"a": 1, "b": -1}),
    "twice": both("twice", {"a": 2}), "nothing": both("nothing", {}),
    "triple": both("triple", {"a": 3}), "minus-triple": both("minus-triple", {"a": -3}),
    "thousandfold": both("thousandfold", {"a": 1000}), "zerofold": both("zerofold", {}),
    "greatest-multiple": both("greatest-multiple", {"a": COEFFICIENT}),
    "least-multiple": both("least-multiple", {"a": -COEFFICIENT}),
    "at-most": [("!at-most", most("a", "b")), ("at-most", less("b", "a"))],
    "at-least": [("!at-least", most("b", "a")), ("at-least", less("a", "b"))],
    "equal": [("!equal", most("a", "b")), ("!equal", most("b", "a")), ("equal", less("a", "b"), less("b", "a"))],
    "if": [("!c", most("if", "a")), ("!c", most("a", "if")), ("c", most("if", "b")), ("c", most("b", "if"))],
    # equal variables are summed and zeros dropped
    "at-most-itself": [("!at-most-itself", ({}, 0)), ("at-most-itself", NEVER)],
    "equal-to-itself": [("!equal-to-itself", ({}, 0)), ("!equal-to-itself", ({}, 0)), ("equal-to-itself", NEVER, NEVER)],
    "lesser": lesser("lesser", "a", "b"), "greater": greater("greater", "a", "b"),
    "lesser-of-one": lesser("lesser-of-one", "a", "a"), "greater-of-one": greater("greater-of-one", "a", "a"),
}
AT_INSTANT_0 = {s: both(s, {"a": 1}) for s in ("arrow", "pre", "pre-higher", "pre-itself")}
LATER = {"arrow": both("arrow", {"b": 1}), "pre": both("pre", {("b", 1): 1}), "pre-higher": both("pre-higher", {("sum", 1): 1}),
         "pre-itself": both("pre-itself", {("pre-itself", 1): 1})}
# the last is the greatest that a coefficient of 1 can have
UNIT = (1, 2, 1_000_000, COEFFICIENT)
# The greatest is the limit of coefficients over K, rounded down, or the limit of bounds over K; of K 100 it is both at once.
FACTORS = {
    "hundred": UNIT, "minus-hundred": UNIT, "greatest": (1, 2, 50, 100), "least": (1, 2, 50, 100),
    "sum": UNIT, "difference": UNIT, "twice": (1, 2, 1_000_000, 500_000_000),
    "triple": (1, 2, 1_000_000, 333_333_333), "minus-triple": (1, 2, 1_000_000, 333_333_333),
    "thousandfold": (1, 2, 999_999, 1_000_000), "greatest-multiple": (1,), "least-multiple": (1,),
    "zero": UNIT, "nothing": UNIT, "zerofold": UNIT, "at-most": UNIT, "at-least": UNIT, "equal": UNIT, "if": UNIT,
    "arrow": UNIT, "pre": UNIT, "pre-higher": UNIT, "pre-itself": UNIT,
    "lesser": UNIT, "greater": UNIT, "lesser-of-one": UNIT, "greater-of-one": UNIT,
    # "0 at most 0" times anything is itself
    "at-most-itself": (1, 2, 1_000_000, BOUND), "equal-to-itself": (1, 2, 1_000_000, BOUND),
}


def times(factor, coefficients, bound):
    return {x: factor * c for x, c in coefficients.items()}, factor * bound


def literal(proof, o, x):
    """The literal at offset o; that of a constraint is negated where the constraint has a third part."""
    if isinstance(x, str):
        atom = lit(STREAMS[x.removeprefix("!")], o)
        return opp(atom) if x.startswith("!") else atom
    coefficients, bound, *negated = x
    variables = {(s, 0) if isinstance(s, str) else s: c for s, c in coefficients.items() if c != 0}
    atom = proof.at_most({(STREAMS[s], o - lower): c for (s, lower), c in variables.items()}, bound)
    return opp(atom) if negated else atom


def equation(proof, o, s, r, *literals):
    return proof.equation(STREAMS[s], o, r, *[literal(proof, o, x) for x in literals])


def every_factor(proof, o, s, clauses, factors):
    """A line for each clause and factor. Where a clause has two constraints, the second has the next factor."""
    for r, clause in enumerate(clauses):
        for i in range(len(factors)):
            own = iter(factors[i:] + factors[:i])
            equation(proof, o, s, r, *[x if isinstance(x, str) else times(next(own), *x) for x in clause])


def whole(base=None, step=None, depth=1):
    """What these two add to a part, and then its proof: in the base one line and two for each offset, in the step three lines."""
    proof = Proof(depth)
    if base:
        base(proof)
    fails = proof.fails(0)
    for o in range(depth + 1):
        fails = proof.strike(fails, proof.equation(0, o, 0, lit(0, o)))
    proof.begin_step()
    if step:
        step(proof)
    proof.strike(proof.property(depth, opp(lit(0, depth))), proof.equation(0, depth, 0, lit(0, depth)))
    return proof.certificate()


def of_streams(*streams, factors=None):
    """Every clause of the streams by each of their factors, at offsets 0 and 1 of each part; a pre has none at step offset 0."""
    def lines(*clauses):
        def add(proof):
            for o, listed in enumerate(clauses):
                for s in streams:
                    every_factor(proof, o, s, listed.get(s, ()), factors or FACTORS[s])

        return add

    later = CLAUSES | LATER
    return whole(lines(CLAUSES | AT_INSTANT_0, later), lines(CLAUSES | {"arrow": LATER["arrow"]}, later))


def right():
    """Certificates, and how many lines each part has: one for each clause and factor at each offset, and five or three."""
    return {
        "constants": (of_streams("hundred", "minus-hundred"), 37, 35),
        "greatest-constants": (of_streams("greatest", "least"), 37, 35),
        "zeros": (of_streams("zero", "nothing", "zerofold"), 53, 51),
        "sum": (of_streams("sum"), 21, 19), "difference": (of_streams("difference"), 21, 19),
        "twice": (of_streams("twice"), 21, 19),
        "multiples": (of_streams("triple", "minus-triple"), 37, 35), "thousandfold": (of_streams("thousandfold"), 21, 19),
        "greatest-multiples": (of_streams("greatest-multiple", "least-multiple"), 13, 11),
        "at-most": (of_streams("at-most"), 21, 19), "at-least": (of_streams("at-least"), 21, 19),
        "equal": (of_streams("equal"), 29, 27), "if": (of_streams("if"), 37, 35), "arrow": (of_streams("arrow"), 21, 19),
        "pre": (of_streams("pre"), 21, 11), "pre-of-others": (of_streams("pre-higher", "pre-itself"), 37, 19),
        "at-most-itself": (of_streams("at-most-itself"), 21, 19), "equal-to-itself": (of_streams("equal-to-itself"), 29, 27),
        "lesser": (of_streams("lesser"), 29, 27), "greater": (of_streams("greater"), 29, 27),
        "of-one-operand": (of_streams("lesser-of-one", "greater-of-one"), 53, 51),
        # factors past 32 bits, of which one is 0 in 32, and one below the greatest
        "past-32-bits": (of_streams("at-most-itself", factors=(1 << 31, 1 << 32, (1 << 32) + 1, BOUND - 1)), 21, 19),
    }


def of_depth_2():
    """Later clauses of operators 12 and 13, at offsets 1 and 2 of each part: four streams, two clauses, two factors."""
    def lines(proof):
        for o in (1, 2):
            for s, clauses in LATER.items():
                every_factor(proof, o, s, clauses, (2, COEFFICIENT))

    return whole(lines, lines, 2)


def going_on():
    """Lines 0 to 7 are the proof alone; the next is 8, of the step."""
    proof = Proof(1)
    proof.lines, proof.base = whole().lines, 5
    return proof


def after(o, *lines):
    """With these equation lines at an offset of the step, from line 8 on."""
    proof = going_on()
    for line in lines:
        equation(proof, o, *line)
    return proof.certificate()


def sums(s, a, b, bound=0, **others):
    """In place of s - a - b at most 0."""
    return "sum", 0, ({"sum": s, "a": a, "b": b} | others, bound)


def hundreds(s, bound, r=0):
    """In place of s at most 100; r 1: of -s at most -100."""
    return "hundred", r, ({"hundred": s}, bound)


def guarded(b, a, bound, **others):
    """In place of {s, b - a at most -1}."""
    return "at-most", 1, "at-most", ({"b": b, "a": a} | others, bound)


def wrong_factors():
    return {
        "by-0": sums(0, 0, 0), "by-0-of-constant": hundreds(0, 0), "by-0-guarded": guarded(0, 0, 0),
        # says that the guard holds
        "by-0-bound-kept": guarded(0, 0, -1),
        "by-minus-1": sums(-1, 1, 1), "by-minus-2-of-constant": hundreds(-2, -200),
        "by-minus-1-guarded": guarded(-1, 1, 1), "by-minus-2-of-coefficients": guarded(-2, 2, -2),
        "by-minus-2-of-bound": hundreds(2, -200),
        "by-2-and-3": sums(2, -3, -3), "by-2-and-3-of-bound": hundreds(2, 300),
        # s - 2a
        "by-half": ("twice", 0, ({"twice": 1, "a": -1}, 0)), "by-one-and-a-half": ("twice", 0, ({"twice": 2, "a": -3}, 0)),
        "by-half-of-bound": hundreds(1, 50),
        # right in 32 bits: 1,000 times 4,294,968 is 2 to the 32 and 704, 5 times 1,000,000,000 is 2 to the 32 and 705,032,704
        "coefficient-2-to-the-32": ("thousandfold", 0, ({"thousandfold": 4_294_968, "a": -704}, 0)),
        "bound-2-to-the-32-of-greatest": ("greatest", 0, ({"greatest": 5}, 705_032_704)),
    }


def wrong_bounds():
    return {
        "bound-not-scaled": hundreds(2, 100), "bound-not-scaled-at-least": hundreds(-2, -100, r=1),
        # says the same, for whole numbers, but is no multiple
        "bound-not-scaled-guarded": guarded(2, -2, -1), "bound-scaled-alone": hundreds(1, 200),
        "bound-one-more": hundreds(2, 201), "bound-one-less": hundreds(2, 199), "bound-one-less-guarded": guarded(2, -2, -3),
        "bound-minus-1-of-0": sums(2, -2, -2, -1), "bound-one-less-greatest": hundreds(COEFFICIENT, BOUND - 1),
    }


def wrong_coefficients():
    return {
        "first-not-scaled": sums(1, -2, -2), "second-not-scaled": sums(2, -1, -2), "third-not-scaled": sums(2, -2, -1),
        "first-not-scaled-guarded": guarded(1, -2, -2),
        "first-one-more": sums(3, -2, -2), "second-one-more": sums(2, -3, -2), "third-one-more": sums(2, -2, -3),
        # s - 3a
        "constant-one-more": ("triple", 0, ({"triple": 2, "a": -7}, 0)), "one-negated": sums(2, 2, -2),
        "first-missing": sums(0, -2, -2), "second-missing": sums(2, 0, -2), "third-missing": sums(2, -2, 0),
        "missing-guarded": guarded(2, 0, -2), "added": sums(2, -2, -2, arrow=2), "added-guarded": guarded(2, -2, -2, sum=-2),
        "another-offset": ("sum", 0, ({"sum": 2, "a": -2, ("b", 1): -2}, 0)),
    }


def wrong_without_terms():
    def at_most(bound, **terms):
        """In place of {!s, 0 at most 0}."""
        return "at-most-itself", 0, "!at-most-itself", (terms, bound)

    def below(bound, **terms):
        """In place of {s, 0 at most -1}."""
        return "at-most-itself", 1, "at-most-itself", (terms, bound)

    return {
        "0-at-most-0-as-minus-1": at_most(-1), "0-at-most-0-as-1": at_most(1), "0-at-most-0-with-a-term": at_most(0, a=1),
        "0-at-most-0-as-minus-2-to-the-32": at_most(-(1 << 32)),
        "0-at-most-minus-1-as-0": below(0), "0-at-most-minus-1-as-1": below(1), "0-at-most-minus-1-with-a-term": below(-2, a=1),
        "0-at-most-minus-1-as-0-of-two": ("equal-to-itself", 2, "equal-to-itself", ({}, -2), ({}, 0)),
    }


def wrong_literals():
    def doubled(x, y, bound=0):
        return times(2, *most(x, y, bound))

    return {
        "negated": ("sum", 0, ({"sum": 2, "a": -2, "b": -2}, 0, "negated")),
        # the negation of 2a - 2b at most 1 is 2b - 2a at most -2
        "as-negation": ("at-most", 1, "at-most", ({"a": 2, "b": -2}, 1, "negated")),
        "without-guard": ("at-most", 0, doubled("a", "b")),
        "of-clause-1": sums(-2, 2, 2), "of-other-branch": ("if", 0, "!c", doubled("if", "b")),
        "two-exchanged": ("equal", 2, "equal", doubled("b", "a", -1), doubled("a", "b", -1)),
        "first-of-two-not-scaled": ("equal", 2, "equal", ({"a": 2, "b": -2}, -1), doubled("b", "a", -1)),
        "second-of-two-not-scaled": ("equal", 2, "equal", doubled("a", "b", -1), ({"b": 2, "a": -2}, -1)),
        "of-pre-at-same-offset": ("pre", 0, doubled("pre", "b")), "of-first-operand-later": ("pre", 0, doubled("pre", "a")),
    }


def wrong():
    return wrong_factors() | wrong_bounds() | wrong_coefficients() | wrong_without_terms() | wrong_literals()


def past_limits():
    """A multiple by one more than the greatest factor, as constraint 1 after the defined one: 15, before any line."""
    def of(s, factor, r=0):
        clause = CLAUSES[s][r]
        return after(1, (s, r, *clause), (s, r, *[x if isinstance(x, str) else times(factor, *x) for x in clause]))

    return {
        "sum": of("sum", COEFFICIENT + 1), "triple": of("triple", 333_333_334), "least-multiple": of("least-multiple", 2),
        "greatest": of("greatest", 101), "at-most": of("at-most", COEFFICIENT + 1, 1),
        "at-most-itself": of("at-most-itself", BOUND + 1, 1),
        "lesser": of("lesser", COEFFICIENT + 1), "greater": of("greater", COEFFICIENT + 1, 1),
    }


def of_sum(*factors):
    """A certificate to go on with, and the literals of s - a - b at most 0 times these factors; line 8 says the first of them."""
    proof = going_on()
    literals = [literal(proof, 1, times(factor, {"sum": 1, "a": -1, "b": -1}, 0)) for factor in factors]
    return proof, proof.equation(STREAMS["sum"], 1, 0, literals[0]), *literals


def by_arithmetic(*multipliers):
    """From {2s - 2a - 2b at most 0}, by line 9 of kind 4 and a join: {s - a - b at most 0}."""
    proof, said, two, one = of_sum(2, 1)
    proof.strike(proof.arithmetic(opp(two), one, times=multipliers), said)
    return proof.certificate()


def by_cut(factor, r):
    """From {2s - 2a - 2b at most 0}, by line 9 of kind 5 and a join: the factor times s - a - b at most 0."""
    proof, said, two, last = of_sum(2, factor)
    proof.cut([said], last, r)
    return proof.certificate()


def joined(factor):
    """{2s - 2a - 2b at most 0} and line 9, {not c, c}, joined by line 10 to {c}; c is the factor times s - a - b at most 0."""
    proof, said, two, other = of_sum(2, factor)
    proof.add(3, (other,), p=said, q=proof.arithmetic(opp(other), other), r=two)
    return proof.certificate()


def left_by_join(factor):
    """Lines 8 and 9, the first clauses of both branches, each doubled, joined on c. Line 10 has the first with the factor."""
    proof = going_on()
    first, second, said = [literal(proof, 1, times(n, *most("if", x))) for n, x in ((2, "a"), (2, "b"), (factor, "a"))]
    c = literal(proof, 1, "c")
    then, other = (proof.equation(STREAMS["if"], 1, r, *clause) for r, clause in ((0, (opp(c), first)), (2, (c, second))))
    proof.add(3, (said, second), p=then, q=other, r=opp(c))
    return proof.certificate()


def in_property():
    """Line 9 is the property's, but for its literal."""
    proof, _, two = of_sum(2)
    proof.property(1, two)
    return proof.certificate()


def number(x):
    """The number of a literal's constraint."""
    return (x - on(0)) // 2


def scaled(packed, factor):
    """A packed constraint times a factor."""
    fields = struct.unpack("<B7sq" + "HBBi" * 8, packed)
    return struct.pack("<B7sq" + "HBBi" * 8, *fields[:2], factor * fields[2],
                       *[factor * field if i % 4 == 3 else field for i, field in enumerate(fields[3:])])


def multiplied(certificate, factors, common=1):
    """Each constraint times the next of the factors, over and over. A multiplier of kind 4 makes up for it, so that the sums are
    `common` times what they were: each factor divides that."""
    def factor(i):
        return factors[i % len(factors)]

    def fitting(line):
        multipliers = [m * common // factor(number(x)) for x, m in zip(line.literals, line.multipliers)]
        return replace(line, multipliers=tuple(multipliers))

    return replace(certificate, constraints=[scaled(c, factor(i)) for i, c in enumerate(certificate.constraints)],
                   lines=[fitting(line) if line.kind == 4 else line for line in certificate.lines])


def equations_doubled(certificate, r):
    """Each constraint of an equation line times 2, and this r in each cut."""
    used = {number(x) for line in certificate.lines if line.kind == 1 for x in line.literals if x >= on(0)}
    return replace(certificate, constraints=[scaled(c, 2 if i in used else 1) for i, c in enumerate(certificate.constraints)],
                   lines=[replace(line, r=r) if line.kind == 5 else line for line in certificate.lines])
