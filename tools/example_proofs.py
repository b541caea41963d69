"""Nodes with a property that holds at every instant, and a whole certificate for each."""
from certificate_files import Proof, lit, opp
from node_files import ALL, BOOL, INPUT, INT, TWO_BANDS, node, rec

TRUE, FALSE, NUMBER = rec(1, BOOL, k=1), rec(1, BOOL, k=0), rec(0, INT)
NODES = {
    "two-bands": node(TWO_BANDS, 5),
    # 17 = true -> pre 17
    "all-operators": node(ALL, 17),
    # 2 = 0 -> pre 3, 3 = 2 + 1: 2 counts up from 0 and is never negative
    "counter": node([rec(1, INT, k=0), rec(1, INT, k=1), rec(13, INT, 0, 3), rec(6, INT, 2, 1), rec(9, BOOL, 0, 2)], 4),
    # 3 = 2 - 1, 4 = 10 -> 3, 2 = 10 -> pre 4: 4 counts down from 10 and is never over 10
    "countdown": node([rec(1, INT, k=10), rec(1, INT, k=1), rec(13, INT, 0, 4), rec(7, INT, 2, 1), rec(12, INT, 0, 3),
                       rec(9, BOOL, 4, 0)], 5),
    # 5 is a grant: none on release 1, else on request 0 or where held before (3); 7 is whether there ever was a request.
    # A grant had a request
    "grant": node([INPUT, INPUT, FALSE, rec(13, BOOL, 2, 5), rec(4, BOOL, 0, 3), rec(11, BOOL, 2, 4, 1), rec(13, BOOL, 2, 7),
                   rec(4, BOOL, 0, 6), rec(2, BOOL, 5), rec(4, BOOL, 8, 7)], 9),
    # 1 = true -> pre 2, 2 = true -> pre 1: that 1 holds needs depth 2
    "delayed": node([TRUE, rec(13, BOOL, 0, 2), rec(13, BOOL, 0, 1)], 1),
    # 63 = true -> pre 62, and on to 56 = true -> pre 63: that 63 holds needs depth 8
    "ring": node([TRUE] + [INPUT] * 55 + [rec(13, BOOL, 0, 63)] + [rec(13, BOOL, 0, i) for i in range(56, 63)], 63),
    # 2 = true -> false, 3 = true -> pre 3: 2 fails after instant 0, and 3 holds
    "first": node([TRUE, FALSE, rec(12, BOOL, 0, 1), rec(13, BOOL, 0, 3), rec(2, BOOL, 2), rec(4, BOOL, 4, 3)], 5),
    # 2 times a number is the number added to itself
    "double": node([NUMBER, rec(8, INT, 0, k=2), rec(6, INT, 0, 0), rec(10, BOOL, 1, 2)], 3),
    # no number is equal to itself plus 1
    "successor": node([NUMBER, rec(1, INT, k=1), rec(6, INT, 0, 1), rec(10, BOOL, 0, 2), rec(2, BOOL, 3)], 4),
    # if 0 is not negative then 0 else minus 0: not negative
    "absolute": node([NUMBER, rec(1, INT, k=0), rec(9, BOOL, 1, 0), rec(7, INT, 1, 0), rec(11, INT, 0, 3, 2),
                      rec(9, BOOL, 1, 4)], 5),
    # a number is at most itself
    "itself": node([NUMBER, rec(9, BOOL, 0, 0)], 1),
    # everything is the same as itself
    "mirror": node([INPUT, rec(5, BOOL, 0, 0)], 1),
}


def base_of(proof, prop, prove):
    """The base, offset by offset: `prove` takes a line that has "the property fails" at its offset and maybe later ones, and
    gives one that has the later ones alone, or none."""
    line = proof.fails(prop)
    for o in range(proof.depth + 1):
        line = prove(proof, o, line)


def step_of(proof, prop, prove):
    """The same at the step's last offset."""
    proof.begin_step()
    prove(proof, proof.depth, proof.property(proof.depth, opp(lit(prop, proof.depth))))


def at_each_offset(prop, prove):
    """Of depth 1, where nothing is remembered: `prove` at offsets 0 and 1 for the base, and at 1 for the step."""
    proof = Proof(1)
    base_of(proof, prop, prove)
    step_of(proof, prop, prove)
    return proof.certificate()


def at(offset):
    """The literals of bool streams at this offset."""
    return lambda stream: lit(stream, offset)


def two_bands_part(proof, o, fails):
    """The eleven lines of the published rules after the property's, in their order."""
    s = at(o)
    four = proof.join(fails, proof.equation(5, o, 0, s(5), s(4)), opp(s(5)))
    zero = proof.join(four, proof.equation(4, o, 0, opp(s(4)), s(0)), s(4))
    three = proof.join(four, proof.equation(4, o, 1, opp(s(4)), s(3)), s(4))
    two = proof.join(three, proof.equation(3, o, 1, opp(s(3)), s(2)), s(3))
    not_zero = proof.join(two, proof.equation(2, o, 1, opp(s(2)), opp(s(0))), s(2))
    return proof.join(zero, not_zero, s(0))


def two_bands():
    return at_each_offset(5, two_bands_part)


def by_lemma(proof, prop, lemma, contrary, first, carry):
    """The property stream, a comparison, is `lemma` at each offset and else `contrary`. `first` gives the lemma at instant 0,
    `carry` the lines that with the lemma one offset before give it at an offset."""
    k = proof.depth

    def carried(known, j):
        lines = carry(j)
        used = [opp(proof.lines[line].literals[0]) for line in lines]
        return proof.strike(proof.arithmetic(lemma(j), opp(lemma(j - 1)), *used), known, *lines)

    def holds(known, j):
        either = proof.equation(prop, j, 1, lit(prop, j), contrary(j))
        return proof.strike(either, proof.arithmetic(opp(lemma(j)), opp(contrary(j))), known)

    fails = proof.fails(prop)
    known = first()
    for j in range(k + 1):
        known = carried(known, j) if j else known
        fails = proof.strike(fails, holds(known, j))
    proof.begin_step()
    assumed = proof.property(k - 1, lit(prop, k - 1))
    known = proof.strike(proof.equation(prop, k - 1, 0, opp(lit(prop, k - 1)), lemma(k - 1)), assumed)
    known = carried(known, k)
    proof.strike(proof.property(k, opp(lit(prop, k))), holds(known, k))
    return proof.certificate()


def counter(depth, constraints=()):
    proof = Proof(depth, constraints)

    def lemma(j):
        return proof.at_most({(0, j): 1, (2, j): -1}, 0)

    def carry(j):
        i = j - 1
        return (proof.equation(2, j, 1, proof.at_most({(3, i): 1, (2, j): -1}, 0)),
                proof.equation(3, i, 1, proof.at_most({(2, i): 1, (1, i): 1, (3, i): -1}, 0)),
                proof.equation(1, i, 1, proof.at_most({(1, i): -1}, -1)),
                proof.equation(0, i, 1, proof.at_most({(0, i): -1}, 0)),
                proof.equation(0, j, 0, proof.at_most({(0, j): 1}, 0)))

    return by_lemma(proof, 4, lemma, lambda j: proof.at_most({(2, j): 1, (0, j): -1}, -1),
                    lambda: proof.equation(2, 0, 1, lemma(0)), carry)


def countdown(depth):
    proof = Proof(depth)

    def lemma(j):
        return proof.at_most({(4, j): 1, (0, j): -1}, 0)

    def carry(j):
        i = j - 1
        return (proof.equation(4, j, 0, proof.at_most({(4, j): 1, (3, j): -1}, 0)),
                proof.equation(3, j, 0, proof.at_most({(3, j): 1, (2, j): -1, (1, j): 1}, 0)),
                proof.equation(1, j, 1, proof.at_most({(1, j): -1}, -1)),
                proof.equation(2, j, 0, proof.at_most({(2, j): 1, (4, i): -1}, 0)),
                proof.equation(0, i, 0, proof.at_most({(0, i): 1}, 10)),
                proof.equation(0, j, 1, proof.at_most({(0, j): -1}, -10)))

    return by_lemma(proof, 5, lemma, lambda j: proof.at_most({(0, j): 1, (4, j): -1}, -1),
                    lambda: proof.equation(4, 0, 0, lemma(0)), carry)


def grant():
    proof, s, t = Proof(1), at(0), at(1)

    def until_held(o, *fails):
        """Lines {not 7}, {not 2} and {3}: the grant must have been held, where no request was ever made. Without a line that the
        property fails, the first and the last have the property too."""
        s = at(o)
        not_8 = proof.strike(proof.equation(9, o, 0, s(9), opp(s(8))), *fails)
        not_7 = proof.strike(proof.equation(9, o, 1, s(9), opp(s(7))), *fails)
        five = proof.strike(not_8, proof.equation(8, o, 0, s(8), s(5)))
        not_0 = proof.strike(not_7, proof.equation(7, o, 0, s(7), opp(s(0))))
        not_2 = proof.equation(2, o, 0, opp(s(2)))
        not_1 = proof.strike(proof.equation(5, o, 0, opp(s(1)), opp(s(5)), s(2)), five, not_2)
        four = proof.strike(proof.equation(5, o, 2, s(1), opp(s(5)), s(4)), not_1, five)
        return not_7, not_2, proof.strike(proof.equation(4, o, 2, opp(s(4)), s(0), s(3)), four, not_0)

    def later(holds, *fails):
        """That 9 holds at offset 1, from a line that it holds at 0."""
        not_7, _, held = until_held(1, *fails)
        granted = proof.strike(proof.equation(3, 1, 0, opp(t(3)), s(5)), held)
        not_8 = proof.strike(proof.equation(8, 0, 1, opp(s(8)), opp(s(5))), granted)
        ever = proof.strike(proof.equation(9, 0, 2, opp(s(9)), s(8), s(7)), holds, not_8)
        before = proof.strike(proof.equation(6, 1, 1, t(6), opp(s(7))), ever)
        return proof.strike(proof.equation(7, 1, 1, t(7), opp(t(6))), before, not_7)

    fails = proof.fails(9)
    _, not_2, held = until_held(0)
    holds = proof.strike(proof.equation(3, 0, 0, opp(s(3)), s(2)), held, not_2)
    proof.strike(fails, holds, later(holds))
    proof.begin_step()
    later(proof.property(0, s(9)), proof.property(1, opp(t(9))))
    return proof.certificate()


def delayed():
    def two_before():
        """Lines that in place of 1 at offset 2 have it at 0."""
        return (proof.equation(1, 2, 1, lit(1, 2), opp(lit(2, 1))), proof.equation(2, 1, 1, lit(2, 1), opp(lit(1))))

    proof = Proof(2)
    proof.strike(proof.fails(1), *two_before(),
                 proof.equation(1, 0, 1, lit(1), opp(lit(0))),
                 proof.equation(1, 1, 1, lit(1, 1), opp(lit(2))),
                 proof.equation(2, 0, 1, lit(2), opp(lit(0))),
                 proof.equation(0, 0, 0, lit(0)))
    proof.begin_step()
    proof.strike(proof.property(2, opp(lit(1, 2))), *two_before(), proof.property(0, lit(1)))
    return proof.certificate()


def ring(low=56, high=63):
    """Each stream from low to high is true -> pre the one below it, and the lowest of them true -> pre the highest."""
    size = high - low + 1

    def taken(i, offset):
        """That the stream i below the highest is so because the next one was."""
        return proof.equation(high - i, offset, 1, lit(high - i, offset), opp(lit(high - i - 1, offset - 1)))

    def around(line):
        """In place of the highest at the last offset the line has it at 0."""
        for i in range(size - 1):
            line = proof.strike(line, taken(i, size - i))
        return proof.strike(line, proof.equation(low, 1, 1, lit(low, 1), opp(lit(high))))

    proof = Proof(size)
    line = around(proof.fails(high))
    for j in range(size):
        for i in range(j):
            line = proof.strike(line, taken(i, j - i))
        line = proof.strike(line, proof.equation(high - j, 0, 1, lit(high - j), opp(lit(0))))
    proof.strike(line, proof.equation(0, 0, 0, lit(0)))
    proof.begin_step()
    proof.strike(around(proof.property(size, opp(lit(high, size)))), proof.property(0, lit(high)))
    return proof.certificate()


def first():
    def later(proof, o):
        """Lines that from {not 5} at a later offset lead to the empty one."""
        s = at(o)
        return (proof.equation(5, o, 0, s(5), opp(s(4))), proof.equation(4, o, 0, s(4), s(2)),
                proof.equation(2, o, 0, opp(s(2)), s(1)), proof.equation(1, o, 0, opp(s(1))))

    proof, s = Proof(2), at(0)
    proof.strike(proof.fails(5), proof.equation(5, 0, 1, s(5), opp(s(3))), proof.equation(3, 0, 1, s(3), opp(s(0))),
                 proof.equation(0, 0, 0, s(0)), *later(proof, 1), *later(proof, 2))
    proof.begin_step()
    proof.strike(proof.property(2, opp(lit(5, 2))), *later(proof, 2))
    return proof.certificate()


def double():
    def prove(proof, o, fails):
        below, above = proof.at_most({(1, o): 1, (2, o): -1}, -1), proof.at_most({(2, o): 1, (1, o): -1}, -1)
        # 1 and 2 are each at most and at least twice 0
        bounds = [proof.at_most({(1, o): 1, (0, o): -2}, 0), proof.at_most({(0, o): 2, (1, o): -1}, 0),
                  proof.at_most({(2, o): 1, (0, o): -2}, 0), proof.at_most({(0, o): 2, (2, o): -1}, 0)]
        differ = proof.strike(fails, proof.equation(3, o, 2, lit(3, o), below, above))
        return proof.strike(differ, proof.arithmetic(opp(below), opp(bounds[1]), opp(bounds[2])),
                            proof.arithmetic(opp(above), opp(bounds[3]), opp(bounds[0])),
                            proof.equation(1, o, 0, bounds[0]), proof.equation(1, o, 1, bounds[1]),
                            proof.equation(2, o, 0, bounds[2]), proof.equation(2, o, 1, bounds[3]))

    return at_each_offset(3, prove)


def successor():
    def prove(proof, o, fails):
        s = at(o)
        under, over = proof.at_most({(0, o): 1, (2, o): -1}, 0), proof.at_most({(2, o): 1, (0, o): -1}, 0)
        equal = proof.strike(fails, proof.equation(4, o, 0, s(4), s(3)))
        proof.strike(proof.equation(3, o, 0, opp(s(3)), under), equal)
        return proof.clash(proof.strike(proof.equation(3, o, 1, opp(s(3)), over), equal),
                           proof.equation(2, o, 1, proof.at_most({(0, o): 1, (1, o): 1, (2, o): -1}, 0)),
                           proof.equation(1, o, 1, proof.at_most({(1, o): -1}, -1)))

    return at_each_offset(4, prove)


def absolute():
    def prove(proof, o, fails):
        s = at(o)
        negative = proof.at_most({(4, o): 1, (1, o): -1}, -1)
        fails = proof.strike(fails, proof.equation(5, o, 1, s(5), negative))
        same, least = proof.at_most({(0, o): 1, (4, o): -1}, 0), proof.at_most({(1, o): 1, (0, o): -1}, 0)
        not_2 = proof.strike(proof.arithmetic(opp(negative), opp(same), opp(least)), fails,
                             proof.equation(4, o, 1, opp(s(2)), same), proof.equation(2, o, 0, opp(s(2)), least))
        other, less = proof.at_most({(3, o): 1, (4, o): -1}, 0), proof.at_most({(0, o): 1, (1, o): -1}, -1)
        minus, zero = proof.at_most({(1, o): 1, (0, o): -1, (3, o): -1}, 0), proof.at_most({(1, o): 1}, 0)
        return proof.strike(proof.arithmetic(opp(negative), opp(other), opp(less), opp(minus), opp(zero)), fails,
                            proof.equation(4, o, 3, s(2), other), proof.equation(2, o, 1, s(2), less),
                            proof.equation(3, o, 1, minus), proof.equation(1, o, 0, zero), not_2)

    return at_each_offset(5, prove)


def itself_part(proof, o, fails):
    """The constraint "0 < 0" has no terms and bound -1."""
    never = proof.at_most({}, -1)
    return proof.strike(fails, proof.equation(1, o, 1, lit(1, o), never), proof.arithmetic(opp(never)))


def itself():
    return at_each_offset(1, itself_part)


def mirror():
    """Its clauses repeat a literal, and so do the lines that join them."""
    def prove(proof, o, fails):
        s = at(o)
        either, neither = proof.equation(1, o, 2, s(1), s(0), s(0)), proof.equation(1, o, 3, s(1), opp(s(0)), opp(s(0)))
        return proof.join(proof.join(fails, either, opp(s(1)), s(0)), proof.join(fails, neither, opp(s(1)), opp(s(0))), s(0))

    return at_each_offset(1, prove)


def every_clause(proof, o, first):
    """The lines of all clauses of all streams at an offset, by stream and clause; `first` is whether it is instant 0."""
    s, at_most = at(o), proof.at_most

    def n(stream):
        return (stream, o)

    def below(x, y, bound=-1):
        return at_most({x: 1, y: -1}, bound)

    def same(x, y):
        return [[below(x, y, 0)], [below(y, x, 0)]]

    def as_bool(i, t):
        return [[opp(s(i)), t], [s(i), opp(t)]]

    clauses = {
        2: [[s(2)]],
        3: [[at_most({n(3): 1}, -7)], [at_most({n(3): -1}, 7)]],
        4: [[s(4), s(0)], [opp(s(4)), opp(s(0))]],
        5: [[opp(s(5)), s(0)], [opp(s(5)), s(4)], [s(5), opp(s(0)), opp(s(4))]],
        6: [[s(6), opp(s(2))], [s(6), opp(s(5))], [opp(s(6)), s(2), s(5)]],
        7: [[opp(s(7)), opp(s(0)), s(6)], [opp(s(7)), s(0), opp(s(6))], [s(7), s(0), s(6)], [s(7), opp(s(0)), opp(s(6))]],
        8: [[at_most({n(8): 1, n(1): -1, n(3): -1}, 0)], [at_most({n(1): 1, n(3): 1, n(8): -1}, 0)]],
        9: [[at_most({n(9): 1, n(8): -1, n(1): 1}, 0)], [at_most({n(8): 1, n(1): -1, n(9): -1}, 0)]],
        10: [[at_most({n(10): 1, n(9): -3}, 0)], [at_most({n(9): 3, n(10): -1}, 0)]],
        11: [[opp(s(11)), below(n(1), n(10), 0)], [s(11), below(n(10), n(1))]],
        12: [[opp(s(12)), *c] for c in same(n(8), n(9))] + [[s(12), below(n(8), n(9)), below(n(9), n(8))]],
        13: [[opp(s(12)), opp(s(13)), s(4)], [opp(s(12)), s(13), opp(s(4))],
             [s(12), opp(s(13)), s(5)], [s(12), s(13), opp(s(5))]],
        14: [[opp(s(11)), *c] for c in same(n(14), n(8))] + [[s(11), *c] for c in same(n(14), n(9))],
        19: [[at_most({n(19): 1, n(18): -1, n(1): -1}, 0)], [at_most({n(18): 1, n(1): 1, n(19): -1}, 0)]],
        20: [[below(n(20), n(1), 0)], [below(n(20), n(3), 0)], [below(n(1), n(20), 0), below(n(3), n(20), 0)]],
        21: [[below(n(19), n(21), 0)], [below(n(20), n(21), 0)], [below(n(21), n(19), 0), below(n(21), n(20), 0)]],
    }
    if first:
        clauses |= {15: as_bool(15, s(2)), 16: same(n(16), n(3)), 17: as_bool(17, s(2)), 18: same(n(18), n(3))}
    else:
        clauses |= {15: as_bool(15, s(13)), 16: same(n(16), n(14))}
    if o > 0:
        clauses |= {17: as_bool(17, lit(17, o - 1)), 18: same(n(18), (19, o - 1))}
    return {(p, r): proof.equation(p, o, r, *literals) for p, listed in clauses.items() for r, literals in enumerate(listed)}


def all_operators():
    """Every clause there is at depth 2; only a few are needed."""
    proof = Proof(2)
    now, later, last = (every_clause(proof, o, o == 0) for o in range(3))
    proof.strike(proof.fails(17), last[17, 1], later[17, 1], now[17, 1], now[2, 0])
    proof.begin_step()
    every_clause(proof, 0, False)
    every_clause(proof, 1, False)
    last = every_clause(proof, 2, False)
    proof.strike(proof.property(2, opp(lit(17, 2))), last[17, 1], proof.property(1, lit(17, 1)))
    return proof.certificate()
