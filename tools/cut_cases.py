"""Kind 5 lines at each limit and one past it, each with its constraints, the first of which is number FIRST.

Which of them are cuts is written down from the published rules and not computed by any checker.
"""
from dataclasses import replace

from certificate_files import BOUND, COEFFICIENT, DIVISOR, MULTIPLIER, at_most, cut, lit, on, opp

FIRST = 9
X, Y, Y_LATER = (0, 0), (1, 0), (1, 1)
# all that the counter has at depth 1
VARIABLES = [(stream, offset) for offset in (0, 1) for stream in range(4)]


def at(i):
    """The literal of the i-th constraint that stands with the line."""
    return on(FIRST + i)


def difference(times, bound):
    """Some times x, less as many times y, is at most the bound."""
    return at_most({X: times, Y: -times}, bound)


def of(premises, last, r, times=None, **fields):
    """The line of the last constraint from the premises, and all of these; `fields` are those of the line that shall say
    something else."""
    others = [opp(at(i)) for i in range(len(premises))]
    return replace(cut(others, at(len(premises)), r, times), **fields), [*premises, last]


def by_3(bound, third):
    """A third of a difference that is at most the bound."""
    return of([difference(3, bound)], difference(1, third), 3)


def greatest(sign=1, less=0, r=DIVISOR):
    """Twelve literals: the greatest coefficients and bounds from five times themselves, five times the least, and DIVISOR
    millionths; or, with sign -1, the least ones. `less` is taken off the bound."""
    ends = [at_most({X: end * COEFFICIENT}, end * BOUND) for end in (sign, -sign) for _ in range(5)]
    share = at_most({X: sign * COEFFICIENT // MULTIPLIER * DIVISOR}, sign * BOUND // MULTIPLIER * DIVISOR)
    return of([*ends, share], at_most({X: sign * COEFFICIENT}, sign * BOUND - less), r, (MULTIPLIER,) * 11)


def sums(sign):
    """Eleven times the same eight terms and bound, all of them as great or as small as they get."""
    whole = at_most({v: sign * COEFFICIENT for v in VARIABLES}, sign * BOUND)
    return cut([opp(at(0))] * 11, at(0), DIVISOR, (MULTIPLIER,) * 11), [whole]


def both_signs(bound):
    """The opposite of the first, which is not negated, is "2x at most 5"; 2y is at most 4."""
    return cut([at(0), opp(at(1))], at(2), 2), [at_most({X: -2}, -6), at_most({Y: 2}, 4), at_most({X: 1, Y: 1}, bound)]


def alone(bound, r=1, coefficients=None):
    return cut([], at(0), r), [at_most(coefficients or {}, bound)]


def right():
    one, two = at_most({X: 1}, 5), at_most({X: 2}, 11)
    return {
        "floor": by_3(5, 1), "floor-of-negative": by_3(-5, -2), "floor-of-minus-1": by_3(-1, -1),
        "no-remainder": by_3(6, 2), "no-remainder-of-negative": by_3(-6, -2), "of-0": by_3(0, 0),
        "r-1": of([one], one, 1), "r-2": of([two], one, 2),
        "r-65535": of([at_most({X: DIVISOR}, -1)], at_most({X: 1}, -1), DIVISOR),
        "multiplier-1000000": of([at_most({X: 1}, 7)], at_most({X: 20}, 140), 50_000, (MULTIPLIER,)),
        "both-signs": both_signs(4),
        "literal-repeated": (cut([opp(at(0)), opp(at(0))], at(1), 3, (1, 2)), [difference(1, 1), difference(1, 1)]),
        # {not c, c}, and c from "3x at most 16" and the negation of c
        "last-among-others": (cut([opp(at(0))], at(0), 1), [one]),
        "last-among-others-unnegated": (cut([at(1), opp(at(0))], at(1), 2), [at_most({X: 3}, 16), one]),
        "terms-that-cancel": of([difference(1, 2), at_most({X: 1, Y: 1}, 3)], at_most({X: 1}, 2), 2),
        "eight-variables": of([at_most({v: 2 for v in VARIABLES}, 3)], at_most({v: 1 for v in VARIABLES}, 1), 2),
        "alone": alone(0), "alone-r-65535": alone(0, DIVISOR),
        "twelve-literals-greatest": greatest(), "twelve-literals-least": greatest(-1),
    }


def wrong_bounds():
    return {
        "ceiling": by_3(5, 2), "toward-zero": by_3(-5, -1), "minus-1-toward-zero": by_3(-1, 0), "below-floor": by_3(5, 0),
        "below-floor-of-negative": by_3(-5, -3), "above-no-remainder": by_3(6, 3), "below-no-remainder": by_3(6, 1),
        "above-no-remainder-of-negative": by_3(-6, -1), "below-no-remainder-of-negative": by_3(-6, -3),
        "minus-1-of-opposite-dropped": both_signs(5),
        "bound-2-to-the-32": of([at_most({}, 1 << 32)], at_most({}, 0), 1),
        "alone-0-at-most-1": alone(1), "alone-0-at-most-minus-1": alone(-1), "alone-0-at-most-minus-1-r-65535": alone(-1, DIVISOR),
        "greatest-bound-one-less": greatest(less=1),
    }


def wrong_coefficients():
    third = difference(1, 1)
    return {
        "coefficient-one-off": of([at_most({X: 3, Y: -4}, 5)], third, 3),
        "coefficient-of-last-one-off": of([difference(3, 5)], at_most({X: 1, Y: -2}, 1), 3),
        "coefficients-negated": of([difference(3, 5)], difference(-1, 1), 3),
        "coefficients-rounded-down": of([at_most({X: 5}, 7)], at_most({X: 2}, 3), 2),
        "coefficient-2-to-the-32": of([at_most({X: 1 << 16}, 0)], at_most({}, 0), 1, (1 << 16,)),
        "variable-of-last-alone": of([at_most({X: 3}, 5)], third, 3),
        "variable-of-sum-alone": of([difference(3, 5)], at_most({X: 1}, 1), 3),
        "another-offset": of([difference(3, 5)], at_most({X: 1, Y_LATER: -1}, 1), 3),
        "another-sign": (cut([at(0)], at(1), 3), [difference(3, 5), third]),
        "repeated-counted-twice": (cut([opp(at(0)), opp(at(0))], at(1), 3), [difference(3, 5), third]),
        "alone-with-a-term": alone(0, coefficients={X: 1}),
        # right if the last one's opposite, or it itself, were added with multiplier 1
        "opposite-of-last-added": of([at_most({X: 2}, 11)], at_most({X: 1}, 5), 1),
        "last-added": of([at_most({X: 2}, 10)], at_most({X: 1}, 5), 3),
        "greatest-r-one-less": greatest(r=DIVISOR - 1), "greatest-sums": sums(1), "least-sums": sums(-1),
    }


def wrong_fields():
    x = at_most({X: 1}, 5)
    half = [at_most({X: 2}, 11)], x, 2
    negative = at_most({X: 1}, -1)
    return {
        "no-literal": (replace(cut([], 0, 1), literals=(), multipliers=()), []),
        "r-0": of([at_most({}, 0)], negative, 0), "r-0-alone": alone(0, 0),
        "r-0-of-65536": of([at_most({X: DIVISOR + 1}, -1)], negative, 0),
        "r-65534": of([at_most({X: DIVISOR}, -1)], negative, DIVISOR - 1),
        "r-65535-of-65534": of([at_most({X: DIVISOR - 1}, -1)], negative, DIVISOR),
        # with sums that are right
        "multiplier-0": of([x, at_most({Y: 1}, 3)], x, 1, (1, 0)),
        "multiplier-1000001": of([at_most({X: 1}, 7)], at_most({X: 1_000_001}, 7_000_007), 1, (MULTIPLIER + 1,)),
        "multiplier-greatest": of([at_most({X: 1}, 1)], at_most({X: 65_537}, 65_537), DIVISOR, (2**32 - 1,)),
        "last-multiplier-1": of(*half, multipliers=(1, 1)), "last-multiplier-r": of(*half, multipliers=(1, 2)),
        "last-multiplier-greatest": of(*half, multipliers=(1, 2**32 - 1)),
        "last-negated": of(*half, literals=(opp(at(0)), opp(at(1)))),
        # "x at most 5" as the negation of "-x at most -6"
        "last-negated-of-negation": of([half[0][0]], at_most({X: -1}, -6), 2, literals=(opp(at(0)), opp(at(1)))),
        "bool-first": of(*half, literals=(lit(4), opp(at(0)), at(1)), multipliers=(1, 1, 0)),
        "bool-last": of(*half, literals=(opp(at(0)), lit(4))),
        "bool-after-the-last": of(*half, literals=(opp(at(0)), at(1), opp(lit(4, 1))), multipliers=(1, 0, 0)),
        "last-is-first": of(*half, literals=(at(1), opp(at(0))), multipliers=(0, 1)),
    }


def wrong():
    return wrong_bounds() | wrong_coefficients() | wrong_fields()


def of_no_shape():
    half = [at_most({X: 2}, 11)], at_most({X: 1}, 5), 2
    return {
        "kind-6": of(*half, kind=6), "p": of(*half, p=1), "q": of(*half, q=256), "13-literals": of(*half, count=13),
        "int-stream": of(*half, literals=(lit(2), at(1))), "last-names-no-atom": of(*half, literals=(opp(at(0)), at(2))),
        "unlisted-literal": of(*half, literals=(opp(at(0)), at(1), at(1)), count=2),
        "unlisted-multiplier": of(*half, multipliers=(1, 0, 1)),
        "last-unlisted-multiplier": of(*half, multipliers=(1,) + (0,) * 10 + (1,)),
        "before-22": of(*half[:2], 0, q=1),
    }
