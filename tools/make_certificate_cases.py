#!/usr/bin/env python3
"""Writes the certificates that crates/check_pairs and crates/check_certificate are run on, and what they should say of each.

    python3 tools/make_certificate_cases.py

Each case gives a node file, a certificate file and the verdict line, written down from the published rules and not computed by
any checker. The files go to crates/check_pairs/data, the names, node and certificate in turn, to args and the lines to stdout
beside it. The data and stdout of crates/check_certificate are written too. Archived certificates, of version 1, are not written:
they stay in crates/check_pairs/data as they are.
"""
import booking_proofs
import cut_cases
import duty_proofs
import example_proofs
import factor_cases
import flight_proofs
import half_minute_proofs
import lesser_cases
import order_proofs
import parity_proofs
import set_up_proofs
import window_cases
from archived_files import PREFIX, archived, archived_file
from booking_proofs import LATE, base_for_step, start_only
from certificate_files import (BOUND, COEFFICIENT, MULTIPLIER, Certificate, Line, Proof, constraint, cut, lit, on, opp, term,
                               trailer)
from node_files import BOOL, INPUT, INT, PROPERTY_FIRST, TWO_BANDS, node, rec, reordered_node, replaced, write_data, write_lines

NODES = {**example_proofs.NODES, **booking_proofs.NODES, **parity_proofs.NODES, **half_minute_proofs.NODES, **order_proofs.NODES,
         **flight_proofs.NODES, **duty_proofs.NODES, **lesser_cases.NODES,
         **set_up_proofs.NODES, **window_cases.NODES, "factors": factor_cases.NODE}
CASES = []
# Of depth 1. Base lines 0 {!5, !5 at 1}, 1 to 11 of offset 0, whose joins keep !5 at 1, and 12 to 22 of offset 1. Step lines 23 to
# 34. No constraints.
BANDS = example_proofs.two_bands()
LATER = opp(lit(5, 1))
# Of depth 1. Base lines 0 {!4, !4 at 1}, 1 {0 <= 2}, 2 {4, 2 < 0}, 3 arithmetic, 4 to 6 joins; at offset 1 equations 7 to 11,
# arithmetic 12, joins, 19 {4, 2 < 0}, 20 arithmetic, joins. Step lines 24 to 44: {4}, {!4, 0 <= 2}, join, equations 27 to 31,
# arithmetic 32, joins, {!4 at 1} at 39, {4, 2 < 0}, arithmetic 41, joins. Constraints 0 to 8.
COUNTER = example_proofs.counter(1)
# Of depth 2. Line 0 is {!1 at 0, !1 at 1, !1 at 2}, 1 and 2 are equations at 2 and 1, 3 to 6 at 0, 1, 0 and 0, then joins; the step
# is 13 {!1 at 2}, 14 and 15 as 1 and 2, 16 {1 at 0}, joins.
DELAYED = example_proofs.delayed()
# "0 at most 0"
FILLER = constraint([], 0)
# Proofs by clauses of lesser and greater.
LESSER_PROOFS = (
    ("lesser-at-most", lesser_cases.lesser_at_most(), 1, 17, 9),
    ("lesser-and-greater", lesser_cases.lesser_and_greater(), 1, 69, 35),
    ("lesser-of-one", lesser_cases.lesser_of_one(), 1, 29, 15),
    ("absolute-by-greater", lesser_cases.absolute_by_greater(), 1, 25, 13),
    ("least-so-far", lesser_cases.least_so_far(), 1, 22, 15), ("flight-list", flight_proofs.flight_list(), 1, 93, 52),
)
# The two bands with the property first, and every operator in disorder.
FIRST = (5, 0, 1, 2, 3, 4)
SHUFFLED = (13, 4, 19, 1, 16, 10, 7, 18, 15, 2, 9, 6, 12, 0, 17, 3, 14, 5, 11, 8, 21, 20)


def case(name, node_name, data, says):
    name = f"{name}.cert"
    assert name not in [c[1] for c in CASES], name
    CASES.append((f"{node_name}.node", name, data.file() if isinstance(data, Certificate) else data, says))


def accepted(name, node_name, data, depth, base, step):
    case(name, node_name, data, f"accepted depth {depth} base {base} step {step}")


def refused(name, node_name, data, number, place):
    case(name, node_name, data, f"refused {number} {place}")


def bands(name, data, number, place):
    refused(name, "two-bands", data, number, place)


def counter(name, data, number, place):
    refused(name, "counter", data, number, place)


def whole_proofs():
    accepted("two-bands", "two-bands", BANDS, 1, 23, 12)
    accepted("counter", "counter", COUNTER, 1, 24, 21)
    accepted("counter-depth-8", "counter", example_proofs.counter(8), 8, 143, 21)
    accepted("countdown-depth-2", "countdown", example_proofs.countdown(2), 2, 45, 23)
    accepted("grant", "grant", example_proofs.grant(), 1, 50, 32)
    accepted("delayed-depth-2", "delayed", DELAYED, 2, 13, 7)
    accepted("ring-depth-8", "ring", example_proofs.ring(), 8, 91, 19)
    accepted("first-depth-2", "first", example_proofs.first(), 2, 23, 9)
    accepted("double", "double", example_proofs.double(), 1, 29, 15)
    accepted("successor", "successor", example_proofs.successor(), 1, 25, 13)
    accepted("absolute", "absolute", example_proofs.absolute(), 1, 39, 20)
    accepted("itself", "itself", example_proofs.itself(), 1, 9, 5)
    accepted("mirror", "mirror", example_proofs.mirror(), 1, 11, 6)
    accepted("pairs-of-minutes", "pairs-of-minutes", parity_proofs.pairs_of_minutes(), 1, 67, 34)
    without_cuts = parity_proofs.pairs_of_minutes(halve=parity_proofs.by_arithmetic)
    accepted("pairs-of-minutes-without-cuts", "pairs-of-minutes", without_cuts, 1, 67, 34)
    accepted("half-minutes", "half-minutes", half_minute_proofs.half_minutes(), 1, 60, 34)
    accepted("half-minutes-as-defined", "half-minutes", half_minute_proofs.as_defined(), 1, 60, 34)
    # 50 clauses an offset; 46 at step offset 0
    accepted("all-operators", "all-operators", example_proofs.all_operators(), 2, 155, 150)
    accepted("free-minutes", "free-minutes", booking_proofs.free_minutes(), 1, 48, 27)
    accepted("turns", "turns", booking_proofs.turns(), 1, 69, 62)
    accepted("on-duty", "on-duty", duty_proofs.on_duty(), 1, 74, 40)
    accepted("quota", "quota", booking_proofs.quota(), 1, 96, 52)
    accepted("handover", "handover", booking_proofs.handover(), 2, 50, 29)
    accepted("relay", "relay", example_proofs.ring(1, 8), 8, 91, 19)


def most_lines():
    """818 lines: each part is equations alone, 391 and 392, and then the proof, whose joins cite lines past 255."""
    def repeated(o, count):
        for _ in range(count):
            proof.equation(5, o, 0, lit(5, o), lit(4, o))

    proof = Proof(1)
    repeated(0, 391)
    example_proofs.base_of(proof, 5, example_proofs.two_bands_part)
    proof.begin_step()
    repeated(1, 392)
    example_proofs.two_bands_part(proof, 1, proof.property(1, LATER))
    return proof.certificate()


def after_first_line(add):
    """The proof of "itself", which is lines 1 to 14, after a first line of the base."""
    proof = Proof(1)
    add(proof)
    example_proofs.base_of(proof, 1, example_proofs.itself_part)
    example_proofs.step_of(proof, 1, example_proofs.itself_part)
    return proof.certificate()


def base_names_offset_k():
    """The first line, {c, !c}, is on a constraint at offset 1; its sum is -1 only by the -1 of a negated constraint."""
    def add(proof):
        c = proof.at_most({(0, 1): 1}, 5)
        proof.arithmetic(c, opp(c))

    return after_first_line(add)


def proved_twice():
    """The base is proved twice. Its last line has needless literals, one of them twice; line 22 is its empty one."""
    proof = Proof(1)
    for _ in range(2):
        example_proofs.base_of(proof, 5, example_proofs.two_bands_part)
    example_proofs.step_of(proof, 5, example_proofs.two_bands_part)
    return proof.certificate().changed(45, literals=(lit(3, 1), lit(0), lit(3, 1)))


def allowed():
    NODES["noted"] = node(TWO_BANDS, 5, b"two bands, one dish")
    NODES["longest"] = node(TWO_BANDS, 5, b"\xff" * (65535 - 112))
    accepted("notes-in-front", "noted", BANDS.file(COUNTER.file()), 1, 23, 12)
    accepted("longest-file", "longest", BANDS.file(b"\xff" * (65535 - 2816)), 1, 23, 12)
    accepted("longest-file-818-lines", "two-bands", most_lines().file(b"n" * 79), 1, 414, 404)
    accepted("256-constraints", "counter", example_proofs.counter(1, [FILLER] * 247), 1, 24, 21)
    accepted("constraints-at-their-limits", "counter", COUNTER.more(constraints=[
        constraint([], BOUND), constraint([], -BOUND),
        constraint([term(0, 0, COEFFICIENT), term(0, 1, -COEFFICIENT)], BOUND),
        constraint([term(s, o, 1) for o in (0, 1) for s in range(4)], 0)]), 1, 24, 21)
    accepted("base-names-offset-k", "itself", base_names_offset_k(), 1, 10, 5)
    accepted("proved-twice", "two-bands", proved_twice(), 1, 46, 12)

    # {4, !4} by two clauses of stream 5, and that line joined with itself
    both = (lit(4, 1), opp(lit(4, 1)))
    accepted("join-of-a-line-with-itself", "two-bands", BANDS.more(
        Line(1, 5, 1, 1, (opp(lit(5, 1)), opp(lit(4, 1)))), Line(3, 24, 35, lit(5, 1), both), Line(3, 36, 36, lit(4, 1), both)),
        1, 23, 15)
    twelve = (*[opp(lit(s)) for s in range(6)], *[lit(s, 1) for s in range(6)])
    accepted("join-of-12-literals", "two-bands", BANDS.more(Line(3, 23, 24, opp(lit(5, 1)), twelve)), 1, 23, 13)
    # constraint 9 is equal to constraint 6: an equation may have either, and arithmetic leads from one to the other
    accepted("equal-constraints", "counter", COUNTER.more(
        Line(1, 0, 1, 0, (on(9),)), Line(4, literals=(opp(on(9)), on(6)), multipliers=(1, 1)), Line(3, 45, 46, on(9), (on(6),)),
        constraints=[COUNTER.constraints[6]]), 1, 24, 24)
    accepted("literals-of-kind-4-repeated", "counter", COUNTER.more(
        Line(4, literals=(opp(on(0)), opp(on(1)), opp(on(0))), multipliers=(1, 3, 2))), 1, 24, 22)
    greatest = [constraint([term(0, 0, c)], -BOUND) for c in (COEFFICIENT, -COEFFICIENT)]
    accepted("greatest-multipliers-and-sums", "counter", COUNTER.more(
        Line(4, literals=(opp(on(9)), opp(on(10))) * 6, multipliers=(MULTIPLIER,) * 12), constraints=greatest), 1, 24, 22)


def of_the_node():
    """A refused node wins over a certificate that would be refused too."""
    NODES["version-2"] = node(TWO_BANDS, 5, version=2)
    NODES["property-is-n"] = node(TWO_BANDS, 6)
    NODES["distance-one-less"] = node(TWO_BANDS, 5, distance=111)
    NODES["operator-16"] = node(replaced(TWO_BANDS, 3, rec(16, BOOL)), 5)
    NODES["lesser-of-bools"] = node(replaced(TWO_BANDS, 3, rec(14, BOOL)), 5)
    NODES["operand-is-n"] = node(replaced(TWO_BANDS, 4, rec(3, BOOL, 6, 3)), 5)
    NODES["reads-itself"] = node(replaced(TWO_BANDS, 4, rec(3, BOOL, 4, 3)), 5)
    # 3 and 4 are a loop, for which 0 waits
    NODES["waits"] = node(replaced(PROPERTY_FIRST, 3, rec(2, BOOL, 4)), 0)
    NODES["typed-int"] = node(replaced(TWO_BANDS, 2, rec(2, INT, 0)), 5)
    NODES["property-int"] = node([rec(0, INT)], 0)
    refused("1-no-node-file", "missing", b"", 1, "file")
    refused("2-node-version-2", "version-2", BANDS.file(version=1), 2, "file")
    refused("3-node-property-is-n", "property-is-n", BANDS.file(depth=0), 3, "file")
    refused("4-node-distance", "distance-one-less", BANDS.file(distance=0), 4, "file")
    refused("5-node-operator-16", "operator-16", BANDS.more(constraints=[constraint([], 0, count=9)]), 5, "record 3")
    refused("6-node-operand-is-n", "operand-is-n", BANDS.changed(0, kind=0), 6, "record 4")
    refused("23-node-reads-itself", "reads-itself", BANDS.changed(0, kind=0), 23, "record 4")
    refused("23-node-reads-itself-before-11", "reads-itself", b"", 23, "record 4")
    refused("23-node-waits-before-11", "waits", None, 23, "record 0")
    refused("23-node-waits-before-12", "waits", BANDS.file(version=1), 23, "record 0")
    refused("23-node-waits", "waits", BANDS.carried(FIRST), 23, "record 0")
    refused("7-node-typed-int", "typed-int", BANDS.changed(2, p=2), 7, "record 2")
    refused("7-node-lesser-of-bools", "lesser-of-bools", BANDS, 7, "record 3")
    refused("8-node-property-int", "property-int", b"\0" * 15, 8, "record 0")


def of_the_file():
    bands("11-missing", None, 11, "file")
    bands("11-empty", b"", 11, "file")
    bands("11-length-15", trailer(1, 0, 0, 0)[1:], 11, "file")
    bands("11-length-65536", BANDS.file(b"\0" * (65536 - 2816)), 11, "file")

    bands("12-first-byte", BANDS.file(first=0x4C), 12, "file")
    bands("12-second-byte", BANDS.file(second=0x4E), 12, "file")
    for version in (0, 1, 3, 255):
        bands(f"12-version-{version}", BANDS.file(version=version), 12, "file")
        bands(f"12-version-{version}-after-a-note", BANDS.file(b"two bands", version=version), 12, "file")
    bands("12-first-zero-byte", BANDS.file(zeros=1), 12, "file")
    bands("12-second-zero-byte", BANDS.file(zeros=256), 12, "file")
    bands("12-before-13", BANDS.file(version=1, depth=0), 12, "file")
    bands("12-before-14", BANDS.file(version=1, distance=0), 12, "file")
    bands("12-before-any-line", BANDS.changed(0, kind=0).file(version=1), 12, "file")

    bands("13-depth-0", BANDS.file(depth=0), 13, "file")
    bands("13-depth-9", BANDS.file(depth=9), 13, "file")
    counter("13-257-constraints", example_proofs.counter(1, [FILLER] * 248), 13, "file")
    bands("13-before-14", BANDS.file(constraints=65535, distance=2816), 13, "file")

    bands("14-distance-one-less", BANDS.file(distance=2815), 14, "file")
    bands("14-distance-one-more", BANDS.file(b"note", distance=2817), 14, "file")
    bands("14-distance-high-byte", BANDS.file(distance=2816 + (1 << 24)), 14, "file")
    bands("14-past-the-start", BANDS.file()[1:], 14, "file")
    # 80 times 4,096 is 5 times 65,536
    bands("14-lines-4096", trailer(1, 0, 0, 4096, distance=16), 14, "file")
    counter("14-before-15", COUNTER.with_constraint(0, constraint([], 0, count=9)).file(distance=0), 14, "file")


def of_constraints():
    def extra(name, *constraints, number=9):
        counter(f"15-{name}", COUNTER.more(constraints=constraints), 15, f"constraint {number}")

    extra("bound-past-limit", constraint([], BOUND + 1))
    extra("bound-past-negative-limit", constraint([], -BOUND - 1))
    extra("coefficient-0", constraint([term(0, 0, 0)], 0))
    extra("coefficient-past-limit", constraint([term(0, 0, COEFFICIENT + 1)], 0))
    extra("coefficient-past-negative-limit", constraint([term(0, 0, -COEFFICIENT - 1)], 0))
    extra("9-terms", constraint([term(s, o, 1) for o in (0, 1) for s in range(4)], 0, count=9))
    extra("first-zero-byte", constraint([], 0, zeros=b"\1"))
    extra("last-zero-byte", constraint([], 0, zeros=b"\0" * 6 + b"\1"))
    extra("zero-byte-of-term", constraint([term(0, 0, 1, zero=1)], 0))
    extra("offset-past-k", constraint([term(0, 2, 1)], 0))
    extra("bool-stream", constraint([term(4, 0, 1)], 0))
    extra("stream-is-n", constraint([term(5, 0, 1)], 0))
    extra("stream-plus-256", constraint([term(256, 0, 1)], 0))
    extra("streams-fall", constraint([term(1, 0, 1), term(0, 0, 1)], 0))
    extra("offsets-fall", constraint([term(0, 1, 1), term(1, 0, 1)], 0))
    extra("variable-twice", constraint([term(3, 1, 1), term(3, 1, 1)], 0))
    extra("unused-stream", constraint([term(1, 0, 0)], 0, count=0))
    extra("unused-last-coefficient", constraint([term(0, 0, 0)] * 7 + [term(0, 0, 1)], 0, count=0))
    extra("lowest-of-two", FILLER, constraint([term(0, 2, 1)], 0), constraint([], 0, count=9), number=10)
    extra("last-of-256", *[FILLER] * 246, constraint([], BOUND + 1), number=255)
    wrong = COUNTER.with_constraint(8, constraint([term(4, 1, 1)], 0))
    counter("15-before-any-line", wrong.changed(0, kind=0), 15, "constraint 8")


def of_any_kind():
    bands("16-kind-0", BANDS.changed(0, kind=0), 16, "line 0")
    counter("16-kind-6", COUNTER.changed(3, kind=6), 16, "line 3")
    bands("16-kind-255-in-step", BANDS.changed(23, kind=255), 16, "line 23")
    bands("16-13-literals", BANDS.changed(4, count=13), 16, "line 4")
    bands("16-255-literals-in-step", BANDS.changed(27, count=255), 16, "line 27")

    # a join may have more literals, but each names an atom
    for name, literal in (("offset-past-k", lit(0, 2)), ("stream-is-n", lit(6))):
        bands(f"16-{name}", BANDS.changed(4, literals=(lit(0), LATER, literal)), 16, "line 4")
    for name, literal in (("int-stream", lit(2)), ("constraint-is-m", on(9)), ("constraint-past-m", opp(on(255)))):
        counter(f"16-{name}", COUNTER.changed(4, literals=(lit(4), opp(on(0)), literal)), 16, "line 4")
    ring = example_proofs.ring()
    refused("16-offset-9-of-depth-8", "ring", ring.changed(90, literals=(lit(0, 9),)), 16, "line 90")

    for name, multipliers in (("0", (1, 0)), ("1000001", (1, MULTIPLIER + 1)), ("greatest", (2**32 - 1, 1))):
        counter(f"16-multiplier-{name}", COUNTER.changed(3, multipliers=multipliers), 16, "line 3")

    # what a kind or a count does not use
    bands("16-equation-unlisted-literal", BANDS.changed(1, literals=(lit(5), lit(4), 1), count=2), 16, "line 1")
    bands("16-equation-multiplier", BANDS.changed(1, multipliers=(1, 1)), 16, "line 1")
    bands("16-property-p", BANDS.changed(0, p=5), 16, "line 0")
    bands("16-property-r", BANDS.changed(23, r=256), 16, "line 23")
    bands("16-property-unlisted-literal", BANDS.changed(0, literals=(11, 139) + (0,) * 9 + (11,), count=2), 16, "line 0")
    bands("16-property-multiplier", BANDS.changed(23, multipliers=(1 << 24,)), 16, "line 23")
    bands("16-join-unlisted-literal", BANDS.changed(22, literals=(lit(1),), count=0), 16, "line 22")
    bands("16-join-last-multiplier", BANDS.changed(34, multipliers=(0,) * 11 + (1,)), 16, "line 34")
    for field in "pqr":
        counter(f"16-arithmetic-{field}", COUNTER.changed(3, **{field: 1}), 16, "line 3")
    unlisted = (opp(on(0)), opp(on(1)), on(0))
    counter("16-arithmetic-unlisted-literal", COUNTER.changed(3, literals=unlisted, count=2), 16, "line 3")
    counter("16-arithmetic-unlisted-multiplier", COUNTER.changed(3, multipliers=(1, 1, 1)), 16, "line 3")

    # before the number of the line's kind, and line by line
    bands("16-before-17", BANDS.changed(1, p=6, multipliers=(1,)), 16, "line 1")
    bands("16-before-18", BANDS.changed(0, q=1, r=1), 16, "line 0")
    bands("16-before-19", BANDS.changed(2, p=2, literals=(lit(0, 2),)), 16, "line 2")
    counter("16-before-20", COUNTER.changed(3, literals=(), multipliers=(1,)), 16, "line 3")
    bands("19-at-line-2-before-16-at-line-5", BANDS.changed(2, p=2).changed(5, kind=0), 19, "line 2")


def of_equations():
    for name, i, fields in (
            ("stream-is-n", 1, {"p": 6}), ("stream-plus-256", 24, {"p": 256 + 5}),
            ("input", 3, {"p": 0, "literals": (lit(0),)}),
            ("offset-past-k-in-base", 12, {"q": 2}), ("offset-past-k-in-step", 24, {"q": 2}), ("offset-plus-256", 3, {"q": 256}),
            ("offset-plus-256-at-k-in-base", 12, {"q": 257}),
            ("no-such-clause", 1, {"r": 2, "literals": (opp(lit(5)), opp(lit(4)))}), ("no-clause-256", 1, {"r": 256}),
            ("literals-in-another-order", 1, {"literals": (lit(4), lit(5))}), ("a-literal-less", 1, {"literals": (lit(5),)}),
            ("another-offset", 24, {"literals": (lit(5, 1), lit(4))}),
            ("another-offset-in-base", 12, {"literals": (lit(5, 1), lit(4))})):
        bands(f"17-{name}", BANDS.changed(i, **fields), 17, f"line {i}")

    # of true at offset 9, which is no offset: the literal is that of constraint 0
    ring = example_proofs.ring()
    refused("17-offset-9-of-depth-8", "ring", ring.more(Line(1, 0, 9, 0, (lit(0, 9),)), constraints=[FILLER]), 17, "line 110")
    counter("17-constraint-of-another-content", COUNTER.changed(28, literals=(on(2),)), 17, "line 28")
    counter("17-constraint-negated", COUNTER.changed(25, literals=(opp(lit(4)), opp(on(0)))), 17, "line 25")
    counter("17-bound-one-off", COUNTER.with_constraint(4, constraint([term(1, 0, -1)], 0)), 17, "line 9")
    counter("17-coefficient-one-off", COUNTER.with_constraint(3, constraint(
        [term(1, 0, 2), term(2, 0, 1), term(3, 0, -1)], 0)), 17, "line 8")
    counter("17-variable-one-instant-off", COUNTER.with_constraint(2, constraint(
        [term(2, 0, -1), term(3, 0, 1)], 0)), 17, "line 7")
    counter("17-pre-at-step-offset-0", COUNTER.changed(27, q=0, literals=(on(0),)), 17, "line 27")
    # the arrow of stream 4 at step offset 0, where line 29 has it at 1; and at base offset 1: each with its first operand
    countdown = example_proofs.countdown(1)
    arrow = countdown.changed(29, q=0, literals=(on(0),))
    refused("17-first-operand-of-arrow-at-step-offset-0", "countdown", arrow, 17, "line 29")
    first = example_proofs.first()
    refused("17-first-operand-later", "first", first.changed(6, literals=(opp(lit(2, 1)), lit(0, 1))), 17, "line 6")
    refused("17-pre-one-offset-too-late", "delayed", DELAYED.changed(4, literals=(lit(1, 1), opp(lit(2, 1)))), 17, "line 4")


def of_properties():
    now = opp(lit(5))
    for name, i, fields in (
            ("base-offset-k", 0, {"q": 1}), ("base-offset-past-k", 0, {"q": 2}), ("base-offset-plus-256", 0, {"q": 256}),
            ("base-no-literal", 0, {"literals": ()}), ("base-k-literals", 0, {"literals": (now,)}),
            ("base-offset-k-alone", 0, {"literals": (LATER,)}), ("base-k-plus-2-literals", 0, {"literals": (now, LATER, LATER)}),
            ("base-offset-twice", 0, {"literals": (now, now)}), ("base-falls", 0, {"literals": (LATER, now)}),
            ("base-another-sign", 0, {"literals": (lit(5), LATER)}),
            ("base-another-sign-at-k", 0, {"literals": (now, lit(5, 1))}),
            ("base-as-step-below-k", 0, {"literals": (lit(5),)}), ("base-as-step-at-k", 0, {"q": 1, "literals": (LATER,)}),
            ("step-as-base", 23, {"q": 0, "literals": (now, LATER)}), ("step-both-at-k", 23, {"literals": (now, LATER)}),
            ("step-another-sign-at-k", 23, {"literals": (lit(5, 1),)}),
            ("step-another-sign-below-k", 23, {"q": 0, "literals": (now,)}),
            ("step-above-k", 23, {"q": 2}), ("step-plus-256", 23, {"q": 257})):
        bands(f"18-{name}", BANDS.changed(i, **fields), 18, f"line {i}")
    # offset 2 is none of depth 1; offset 9 none of depth 8, where the literal is that of constraint 63
    bands("16-base-property-past-k", BANDS.changed(0, literals=(now, LATER, opp(lit(5, 2)))), 16, "line 0")
    ten = tuple(opp(lit(63, o)) for o in range(10))
    ring = example_proofs.ring().more(constraints=[FILLER] * 64)
    for name, literals in (("offset-9", ten), ("0-to-7", ten[:8]), ("1-to-8", ten[1:9]), ("falls", ten[8::-1])):
        refused(f"18-base-{name}-of-depth-8", "ring", ring.changed(0, literals=literals), 18, "line 0")
    bands("18-depth-8-of-depth-1", BANDS.file(depth=8), 18, "line 0")
    for name, offsets in (("misses-offset-0", (1, 2)), ("misses-an-offset", (0, 2)), ("misses-offset-k", (0, 1)),
                          ("falls", (2, 1, 0)), ("falls-below-k", (1, 0, 2)), ("falls-to-k", (0, 2, 1))):
        literals = tuple(opp(lit(1, o)) for o in offsets)
        refused(f"18-base-{name}-of-depth-2", "delayed", DELAYED.changed(0, literals=literals), 18, "line 0")
    refused("18-certificate-of-another-node", "grant", BANDS, 18, "line 0")
    # archived certificates, but said to be of version 2
    for name, node_name in (("two-bands", "two-bands"), ("delayed-depth-2", "delayed"), ("ring-depth-8", "ring")):
        data = archived_file(name)
        refused(f"18-archived-as-version-2-{name}", node_name, data[:-14] + b"\2" + data[-13:], 18, "line 0")


def of_joins():
    def swapped(i, line):
        """Line i after the one that follows it, which cites it."""
        lines = BANDS.lines
        return Certificate(1, [], lines[:i] + [line, lines[i]] + lines[i + 2:], 23)

    four = (lit(4), LATER)
    bands("19-p-not-lower", swapped(1, Line(3, 2, 0, lit(5), four)), 19, "line 1")
    bands("19-q-not-lower", swapped(1, Line(3, 0, 2, opp(lit(5)), four)), 19, "line 1")
    bands("19-cites-itself", BANDS.changed(2, p=2, q=2, r=lit(4), literals=(lit(4), opp(lit(4)))), 19, "line 2")
    bands("19-q-plus-256", BANDS.changed(4, q=256 + 3), 19, "line 4")
    # the step's line 35 and the base's line 4, {0, !5 at 1}; lines 24 and 11, {!5 at 1}
    equation, left = Line(1, 2, 0, 1, (opp(lit(2)), opp(lit(0)))), (opp(lit(2)), LATER)
    bands("19-step-cites-base-by-p", BANDS.more(equation, Line(3, 4, 35, lit(0), left)), 19, "line 36")
    bands("19-step-cites-base-by-q", BANDS.more(equation, Line(3, 35, 4, opp(lit(0)), left)), 19, "line 36")
    bands("19-step-cites-base-at-offset-k", BANDS.changed(25, p=11), 19, "line 25")
    bands("19-r-not-in-p", BANDS.changed(4, p=3, q=0, r=lit(5), literals=(opp(lit(4)), lit(0), LATER)), 19, "line 4")
    bands("19-r-names-no-atom", BANDS.changed(2, r=65535), 19, "line 2")
    bands("19-opposite-not-in-q", BANDS.changed(8, q=5, literals=(lit(2), opp(lit(4)), lit(3), LATER)), 19, "line 8")
    bands("19-forgets-literal-of-p", BANDS.changed(2, p=1, q=0, r=lit(5), literals=(LATER,)), 19, "line 2")
    bands("19-forgets-literal-of-q", BANDS.changed(2, literals=(LATER,)), 19, "line 2")
    bands("19-forgets-offset-k", BANDS.changed(2, literals=(lit(4),)), 19, "line 2")
    bands("19-forgets-offset-k-at-last", BANDS.changed(11, literals=()), 19, "line 11")
    bands("19-other-sign-in-its-place", BANDS.changed(25, literals=(opp(lit(4, 1)),)), 19, "line 25")
    # constraint 9 is equal to constraint 6, but another atom
    counter("19-equal-constraint-is-another-atom", COUNTER.more(
        Line(1, 0, 1, 0, (on(9),)), Line(3, 45, 32, on(9), COUNTER.lines[32].literals), constraints=[COUNTER.constraints[6]]),
        19, "line 46")


def of_arithmetic():
    counter("20-no-literal", COUNTER.changed(3, literals=(), multipliers=()), 20, "line 3")
    mixed = (opp(on(0)), opp(on(1)), lit(4))
    counter("20-bool-literal", COUNTER.changed(3, literals=mixed, multipliers=(1, 1, 1)), 20, "line 3")
    counter("20-coefficient-not-0", COUNTER.changed(3, multipliers=(1, 2)), 20, "line 3")
    counter("20-another-offset", COUNTER.changed(41, literals=(opp(on(0)), opp(on(8)))), 20, "line 41")
    counter("20-another-sign", COUNTER.changed(3, literals=(on(0), opp(on(1)))), 20, "line 3")

    def extra(name, literals, multipliers, *constraints):
        line = Line(4, literals=literals, multipliers=multipliers)
        counter(f"20-{name}", COUNTER.more(line, constraints=constraints), 20, "line 45")

    # constraint 0 and its converse, both with bound 0: opposites that sum to 0
    extra("bound-0", (opp(on(0)), opp(on(9))), (1, 1), constraint([term(0, 0, -1), term(2, 0, 1)], 0))
    # opposites "at most -1" and "at most 1"
    extra("bound-0-of-negated", (on(0), on(9)), (1, 1), constraint([term(0, 0, -1), term(2, 0, 1)], -2))
    extra("bound-2-to-the-31", (opp(on(9)),), (1,), constraint([], 1 << 31))
    extra("coefficient-2-to-the-32", (opp(on(9)),), (1 << 16,), constraint([term(0, 0, 1 << 16)], -1))
    extra("literals-repeated", (opp(on(0)), opp(on(1)), opp(on(0))), (1, 1, 1))


def cut_in_base(half):
    """The base's first line is a cut, on constraints at offset 1."""
    def add(proof):
        proof.lines.append(cut([opp(proof.at_most({(0, 1): 2}, 5))], proof.at_most({(0, 1): 1}, half), 2))

    return after_first_line(add)


def of_cuts():
    """Most are one line more after the counter's, in the step. A cut cites no line."""
    def after(line, constraints, *lines):
        return COUNTER.more(line, *lines, constraints=constraints)

    for name, pair in cut_cases.right().items():
        accepted(f"cut-{name}", "counter", after(*pair), 1, 24, 22)
    accepted("cut-in-base", "itself", cut_in_base(2), 1, 10, 5)
    for name, pair in cut_cases.of_no_shape().items():
        counter(f"16-cut-{name}", after(*pair), 16, "line 45")
    for name, pair in cut_cases.wrong().items():
        counter(f"22-{name}", after(*pair), 22, "line 45")
    refused("22-in-base", "itself", cut_in_base(3), 22, "line 0")
    counter("22-arithmetic-as-cut", COUNTER.changed(3, kind=5), 22, "line 3")

    # line by line
    wrong = cut_cases.alone(1)
    counter("20-at-line-45-before-22-at-line-46", COUNTER.more(Line(4), wrong[0], constraints=wrong[1]), 20, "line 45")
    counter("22-at-line-45-before-20-at-line-46", after(*wrong, Line(4)), 22, "line 45")
    counter("22-at-line-45-before-16-at-line-46", after(*wrong, Line(6)), 22, "line 45")
    counter("22-before-21", after(*wrong).changed(23, literals=(lit(4),)), 22, "line 45")


def whole_proofs_multiplied():
    """Certificates from above with constraints multiplied through, accepted as they were: sums of kind 4 are twelvefold."""
    factors = (2, 3, 12, 1, 4, 6)
    for name, node_name, proof, *says in (
            ("counter-depth-8", "counter", example_proofs.counter(8), 8, 143, 21),
            ("countdown-depth-2", "countdown", example_proofs.countdown(2), 2, 45, 23),
            ("double", "double", example_proofs.double(), 1, 29, 15),
            ("absolute", "absolute", example_proofs.absolute(), 1, 39, 20),
            ("itself", "itself", example_proofs.itself(), 1, 9, 5),
            ("set-up", "set-up", set_up_proofs.set_up(), 1, 23, 13)):
        accepted(f"factors-{name}", node_name, factor_cases.multiplied(proof, factors, 12), *says)
    # with no line of kind 4: every clause at every offset; the greatest for a coefficient of 3
    every = example_proofs.all_operators()
    for name, factors in (("each-another", range(1, 257)), ("333333333", (333_333_333,))):
        accepted(f"factors-all-operators-{name}", "all-operators", factor_cases.multiplied(every, factors), 2, 155, 150)
    # all alike, so that multipliers of 1 still fit; and one alone, where those of line 3 don't
    accepted("factors-counter-2", "counter", factor_cases.multiplied(COUNTER, (2,), 2), 1, 24, 21)
    alone = COUNTER.with_constraint(0, factor_cases.scaled(COUNTER.constraints[0], 2))
    counter("20-multiple-of-one-alone", alone, 20, "line 3")
    # sums of kind 5 are twice what they were, so that r is 4; line 10 is the first cut
    pairs = parity_proofs.pairs_of_minutes()
    accepted("factors-pairs-of-minutes", "pairs-of-minutes", factor_cases.equations_doubled(pairs, 4), 1, 67, 34)
    refused("22-multiple-r-2", "pairs-of-minutes", factor_cases.equations_doubled(pairs, 2), 22, "line 10")


def of_factors():
    """Most of the wrong ones are one line more after the proof, in the step. Other kinds take a constraint as it is written."""
    def factors(name, data, number, place):
        refused(f"{number}-multiple-{name}", "factors", data, number, place)

    for name, (proof, *lines) in factor_cases.right().items():
        accepted(f"factors-{name}", "factors", proof, 1, *lines)
    # 32 lines and seven, 32 and three
    accepted("factors-depth-2", "factors", factor_cases.of_depth_2(), 2, 39, 35)
    for name, line in factor_cases.wrong().items():
        factors(name, factor_cases.after(1, line), 17, "line 8")
    factors("bound-not-scaled-in-base", factor_cases.whole(
        lambda proof: factor_cases.equation(proof, 0, *factor_cases.hundreds(2, 100))), 17, "line 0")
    for name, s, x in (("first-operand-of-arrow", "arrow", "a"), ("first-operand-of-pre", "pre", "a"), ("pre", "pre", "b")):
        factors(f"of-{name}-at-step-offset-0", factor_cases.after(0, (s, 0, ({s: 2, x: -2}, 0))), 17, "line 8")
    for name, proof in factor_cases.past_limits().items():
        factors(f"of-{name}-past-limit", proof, 15, "constraint 1")

    factors("in-property", factor_cases.in_property(), 18, "line 9")
    accepted("factors-join", "factors", factor_cases.joined(2), 1, 5, 6)
    accepted("factors-left-by-join", "factors", factor_cases.left_by_join(2), 1, 5, 6)
    factors("is-another-atom", factor_cases.joined(1), 19, "line 10")
    factors("in-place-of-literal", factor_cases.left_by_join(1), 19, "line 10")
    accepted("factors-arithmetic", "factors", factor_cases.by_arithmetic(1, 2), 1, 5, 6)
    for multipliers in ((1, 1), (2, 1)):
        factors("times-{}-and-{}".format(*multipliers), factor_cases.by_arithmetic(*multipliers), 20, "line 9")
    accepted("factors-cut", "factors", factor_cases.by_cut(1, 2), 1, 5, 6)
    accepted("factors-cut-to-itself", "factors", factor_cases.by_cut(2, 1), 1, 5, 6)
    for factor, r in ((1, 1), (2, 2)):
        factors(f"cut-to-{factor}-r-{r}", factor_cases.by_cut(factor, r), 22, "line 9")


def of_lessers():
    """Operators 14 and 15. The lines are one more after the proof of the node of factors, in the step."""
    for name, proof, *says in LESSER_PROOFS:
        accepted(name, name, proof, *says)
        accepted(f"factors-{name}", name, factor_cases.multiplied(proof, (2, 3, 12, 1, 4, 6), 12), *says)
    accepted("lessers-at-every-offset", "factors", lesser_cases.everywhere(), 2, 79, 75)
    for name, line in lesser_cases.wrong().items():
        refused(f"17-{name}", "factors", factor_cases.after(1, line), 17, "line 8")
    refused("17-lesser-past-k-in-base", "factors", lesser_cases.past_depth_in_base(), 17, "line 0")
    refused("17-greater-past-k-in-step", "factors", lesser_cases.past_depth_in_step(), 17, "line 8")
    for name, (node_name, proof, line) in lesser_cases.forged().items():
        refused(f"false-turn-lesser-{name}", node_name, proof, 17, f"line {line}")
    # with both literals of clause 2, of which nothing refutes the second
    refused("false-turn-lesser-first-case-alone", "at-most-lesser", lesser_cases.first_case(), 21, "base")
    refused("false-turn-lesser-both-cases", "at-most-lesser", lesser_cases.both_cases(), 20, "line 7")
    # the two exchanged: 2 is the greater, of which line 5 says the lesser's clause 2
    exchanged = (0, 1, 3, 2, 4, 5, 6)
    carried("lesser-and-greater-exchanged", "lesser-and-greater", lesser_cases.lesser_and_greater(), exchanged, 1, 69, 35)
    refused("17-greater-for-lesser", "lesser-and-greater-exchanged", lesser_cases.lesser_and_greater(), 17, "line 5")


def lessers_in_another_order():
    for name, proof, *says in LESSER_PROOFS:
        carried(f"{name}-reversed", name, proof, reversed_order(name), *says)
    order = reversed_order("factors")
    accepted("lessers-at-every-offset-reversed", "factors-reversed", lesser_cases.everywhere().carried(order), 2, 79, 75)
    for name, line in lesser_cases.wrong().items():
        refused(f"17-reversed-{name}", "factors-reversed", factor_cases.after(1, line).carried(order), 17, "line 8")


def reversed_order(node_name):
    return range(len(NODES[node_name]) // 16 - 2, -1, -1)


def carried(name, node_name, proof, order, *says):
    """A certificate from above for the node in another order: accepted as it was."""
    NODES[name] = reordered_node(NODES[node_name], order)
    accepted(name, name, proof.carried(order), *says)


def in_another_order():
    """The same certificates, but every stream has its new number and the terms of constraints rise by these."""
    carried("two-bands-property-first", "two-bands", BANDS, FIRST, 1, 23, 12)
    carried("counter-property-first", "counter", COUNTER, (4, 0, 1, 2, 3), 1, 24, 21)
    accepted("property-first", "property-first", order_proofs.property_first(), 2, 50, 29)
    every = example_proofs.all_operators()
    carried("all-operators-shuffled", "all-operators", every, SHUFFLED, 2, 155, 150)
    multiplied = factor_cases.multiplied(every, range(1, 257))
    accepted("factors-all-operators-shuffled", "all-operators-shuffled", multiplied.carried(SHUFFLED), 2, 155, 150)
    for name, proof, *says in (
            ("two-bands", BANDS, 1, 23, 12), ("counter", example_proofs.counter(8), 8, 143, 21),
            ("countdown", example_proofs.countdown(2), 2, 45, 23), ("grant", example_proofs.grant(), 1, 50, 32),
            ("delayed", DELAYED, 2, 13, 7), ("ring", example_proofs.ring(), 8, 91, 19),
            ("first", example_proofs.first(), 2, 23, 9), ("double", example_proofs.double(), 1, 29, 15),
            ("successor", example_proofs.successor(), 1, 25, 13), ("absolute", example_proofs.absolute(), 1, 39, 20),
            ("itself", example_proofs.itself(), 1, 9, 5), ("mirror", example_proofs.mirror(), 1, 11, 6),
            ("pairs-of-minutes", parity_proofs.pairs_of_minutes(), 1, 67, 34),
            ("half-minutes", half_minute_proofs.half_minutes(), 1, 60, 34), ("all-operators", every, 2, 155, 150),
            ("set-up", set_up_proofs.set_up(), 1, 23, 13)):
        carried(f"{name}-reversed", name, proof, reversed_order(name), *says)


def of_another_order():
    """Certificates that are for the same records in another order, wholly or in part."""
    refused("18-original-order", "two-bands-property-first", BANDS, 18, "line 0")
    refused("18-original-order-reversed", "two-bands-reversed", BANDS, 18, "line 0")
    bands("18-carried-to-another-order", BANDS.carried(FIRST), 18, "line 0")
    # line 1 is of stream 5, which is now 1 and 4
    refused("17-original-order-but-property", "two-bands-property-first",
            BANDS.changed(0, literals=(opp(lit(0)), opp(lit(0, 1)))), 17, "line 1")
    # constraint 0 has a term on stream 0, now the property; and line 0 names stream 1, now the number
    refused("15-original-order", "counter-property-first", COUNTER, 15, "constraint 0")
    refused("16-original-order", "itself-reversed", example_proofs.itself(), 16, "line 0")
    # the constants exchanged: 2 = 1 -> pre 3, where line 1 says 0
    NODES["counter-exchanged"] = reordered_node(NODES["counter"], (1, 0, 2, 3, 4))
    refused("17-original-order", "counter-exchanged", COUNTER, 17, "line 1")

    # constraint 0 is 4 <= 2, so that 2 comes first
    turned = example_proofs.counter(1).carried(reversed_order("counter"))
    terms = [term(4, 0, 1), term(2, 0, -1)]
    refused("15-terms-not-sorted-again", "counter-reversed", turned.with_constraint(0, constraint(terms, 0)), 15, "constraint 0")
    refused("17-bound-one-off-reversed", "counter-reversed", turned.with_constraint(0, constraint(terms[::-1], 1)), 17, "line 1")
    # clause literals go by operands, not by numbers: {s, a} of stream 0 and its operand 1
    turned = BANDS.carried(reversed_order("two-bands"))
    refused("17-literals-fall-reversed", "two-bands-reversed", turned.changed(1, literals=(lit(1), lit(0))), 17, "line 1")


def factors_reversed():
    """Streams before their operands: the first term of a constraint is then the stream's."""
    order = reversed_order("factors")
    NODES["factors-reversed"] = reordered_node(factor_cases.NODE, order)
    for name, (proof, *lines) in factor_cases.right().items():
        accepted(f"factors-reversed-{name}", "factors-reversed", proof.carried(order), 1, *lines)
    accepted("factors-reversed-depth-2", "factors-reversed", factor_cases.of_depth_2().carried(order), 2, 39, 35)
    for name, line in factor_cases.wrong().items():
        refused(f"17-reversed-multiple-{name}", "factors-reversed", factor_cases.after(1, line).carried(order), 17, "line 8")


def base_at_offset_0():
    """The base leads from line 0 to line 11, {!5 at 1}, and ends."""
    proof = Proof(1)
    example_proofs.two_bands_part(proof, 0, proof.fails(5))
    example_proofs.step_of(proof, 5, example_proofs.two_bands_part)
    return proof.certificate()


def of_parts():
    no_base = Proof(1)
    example_proofs.step_of(no_base, 5, example_proofs.two_bands_part)
    bands("21-no-lines", trailer(1, 0, 0, 0), 21, "base")
    bands("21-no-base-lines", no_base.certificate(), 21, "base")
    bands("21-no-step-lines", Certificate(1, [], BANDS.lines[:23], 23), 21, "step")
    bands("21-no-empty-base-line", BANDS.changed(22, literals=(lit(1),)), 21, "base")
    bands("21-base-without-offset-k", base_at_offset_0(), 21, "base")
    bands("21-no-empty-step-line", BANDS.changed(34, literals=(lit(1, 1),)), 21, "step")
    bands("21-base-before-step", BANDS.changed(22, literals=(lit(1),)).changed(34, literals=(lit(1),)), 21, "base")
    bands("16-in-step-before-21-no-base-lines", no_base.certificate().changed(0, kind=0), 16, "line 0")
    bands("19-in-step-before-21-base", BANDS.changed(22, literals=(lit(1),)).changed(34, r=lit(1)), 19, "line 34")


def of_the_window():
    """Operators 12 and 13 at each offset, and what is shown by operator 12 at step offset 0. Wrong lines come first in a part."""
    accepted("set-up", "set-up", set_up_proofs.set_up(), 1, 23, 13)
    accepted("set-up-least", "set-up-least", window_cases.set_up_least(), 1, 19, 13)
    accepted("opened", "opened", window_cases.opened(), 1, 9, 7)
    accepted("closed", "closed", window_cases.closed(), 1, 13, 9)
    # eight lines an offset, four at step offset 0
    for depth, base, step in ((1, 21, 15), (2, 31, 23), (8, 91, 71)):
        accepted(f"window-depth-{depth}", "window", window_cases.everywhere(depth), depth, base, step)
    for name, (proof, line) in (window_cases.wrong() | window_cases.wrong_of_depth_8()).items():
        refused(f"17-{name}", "window", proof, 17, f"line {line}")
    refused("17-offset-9-of-depth-8-in-base", "window", window_cases.offset_9(FILLER), 17, "line 0")


def as_instant_0():
    """Step offset 0 taken for instant 0, where 2 is true: line 11."""
    proof = Proof(1)
    start_only(proof)
    proof.begin_step()
    proof.strike(proof.property(1, opp(lit(3, 1))), proof.equation(3, 1, 1, lit(3, 1), opp(lit(2))),
                 proof.equation(2, 0, 1, lit(2), opp(lit(0))), proof.equation(0, 0, 0, lit(0)))
    return proof.certificate()


def both_signs_struck():
    """{1, 0} and {!1, !0} join to {0, !0}, and that line with itself, 0 struck with both signs, to { }: line 4."""
    def prove(proof, o, _):
        either, neither = proof.equation(1, o, 0, lit(1, o), lit(0, o)), proof.equation(1, o, 1, opp(lit(1, o)), opp(lit(0, o)))
        both = proof.join(either, neither, lit(1, o))
        return proof.add(3, (), p=both, q=both, r=lit(0, o))

    return example_proofs.at_each_offset(1, prove)


def false_turns():
    """The properties of the late nodes, of the wish, of the forged pairs and minutes, of the forged flight list and of the one that
    a greater holds, of the forged set-up and of the node that counts on fail. The counter's holds, but not by lines that drop the
    -1. The equations of the forged loop have no solution."""
    # 3 = true -> pre 2 fails at instant 2, where 2 = true -> pre 1 or true -> 1, an input
    NODES["late"] = node(LATE, 3)
    NODES["late-arrow"] = node(replaced(LATE, 2, rec(12, BOOL, 0, 1)), 3)
    NODES["wish"] = node([INPUT, rec(2, BOOL, 0)], 1)
    refused("false-turn-step-offset-0-as-instant-0", "late", as_instant_0(), 17, "line 11")
    refused("false-turn-step-offset-0-as-instant-0-of-arrow", "late-arrow", as_instant_0(), 17, "line 11")
    not_below = constraint([term(0, 0, -1), term(2, 0, 1)], 0)
    counter("false-turn-minus-1-dropped-in-clause", COUNTER.with_constraint(1, not_below), 17, "line 2")
    counter("false-turn-minus-1-dropped-in-sum", COUNTER.changed(3, literals=(opp(on(0)), opp(on(9)))).more(
        constraints=[not_below]), 20, "line 3")
    refused("false-turn-both-signs-struck", "wish", both_signs_struck(), 19, "line 4")
    refused("false-turn-step-cites-base", "late", base_for_step(), 19, "line 10")
    refused("false-turn-cut-below-floor", "forged-pairs", parity_proofs.forged(), 22, "line 57")
    forged = parity_proofs.pairs_of_minutes(2, parity_proofs.by_arithmetic)
    refused("false-turn-without-cuts", "forged-pairs", forged, 20, "line 57")
    refused("false-turn-bound-not-scaled", "forged-minutes", half_minute_proofs.forged(), 17, "line 7")
    # and with the bound that it should have
    refused("false-turn-bound-scaled", "forged-minutes", half_minute_proofs.half_minutes(60), 20, "line 8")
    refused("false-turn-loop", "forged-loop", order_proofs.forged(), 23, "record 2")
    refused("false-turn-half-a-clause", "forged-flight-list", flight_proofs.forged(), 17, "line 4")
    # with the whole clause, which has 3 in place of 1; and with what flight-list says
    refused("false-turn-whole-clause", "forged-flight-list", flight_proofs.flight_list(flight_proofs.by_cases_of(3)), 20, "line 6")
    refused("false-turn-another-clause", "forged-flight-list", flight_proofs.flight_list(), 17, "line 4")
    # 10 is the greater of 9 and 4, where line 5 says that it is at most 4
    NODES["held-by-greater"] = node(replaced(flight_proofs.FLIGHT_LIST, 10, rec(15, INT, 9, 4)), 16)
    refused("false-turn-held-by-greater", "held-by-greater", flight_proofs.flight_list(), 17, "line 5")
    # instant 1, where the property fails: not in the property line, left, or said by what holds later
    refused("false-turn-first-instant-alone", "forged-set-up", set_up_proofs.first_instant_alone(), 18, "line 0")
    refused("false-turn-second-instant-left", "forged-set-up", set_up_proofs.second_instant_left(), 21, "base")
    refused("false-turn-instant-0-takes-b", "forged-set-up", set_up_proofs.base_takes_b(), 17, "line 15")
    refused("false-turn-pre-at-step-offset-0-takes-b", "counts-on", window_cases.counts_on(), 17, "line 29")


def of_version_1():
    """Archived certificates, accepted when they were written: each for the node of the pair that it is named after."""
    kept = archived()
    for node_name, name, _, says in list(CASES):
        if says.startswith("accepted") and f"{PREFIX}{name}" in kept:
            CASES.append((node_name, f"{PREFIX}{name}", None, "refused 12 file"))
    assert [name for _, name, _, _ in sorted(CASES, key=lambda c: c[1]) if name.startswith(PREFIX)] == kept


def all_cases():
    """Fills CASES, and NODES with the nodes that they are for."""
    for cases in (whole_proofs, allowed, of_the_node, of_the_file, of_constraints, of_any_kind, of_equations, of_properties,
                  of_joins, of_arithmetic, of_cuts, whole_proofs_multiplied, of_factors, in_another_order, of_another_order,
                  factors_reversed, of_lessers, lessers_in_another_order, of_parts, of_the_window, false_turns,
                  of_version_1):
        cases()


def main():
    all_cases()
    nodes = {f"{name}.node": data for name, data in NODES.items()}
    write_data("check_pairs", {**nodes, **{name: data for _, name, data, _ in CASES}}, kept=archived())
    write_lines("check_pairs", "args", [name for pair in CASES for name in pair[:2]])
    write_lines("check_pairs", "stdout", [f"{name}: {says}" for _, name, _, says in CASES])

    write_data("check_certificate", {"node.bin": NODES["two-bands"], "cert.bin": BANDS.file()})
    write_lines("check_certificate", "stdout", ["accepted depth 1 base 23 step 12"])
    print(f"{len(CASES)} pairs")


if __name__ == "__main__":
    main()
