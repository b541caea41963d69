"""Runs from records that no turn gave.

What a turn with the greatest quota answers is written down for each. From a record past a refused line that line is not seen, so
that an acceptance proves nothing: "Only such an acceptance, or that of one call, is one in the demands."
"""
from certificate_files import Certificate, Line, lit, opp
from make_certificate_cases import BANDS, LATER, NODES
from turn_files import GREATEST, PAIRS, Pair, forged

BANDS_ACCEPTED = "accepted depth 1 base 23 step 12"
COUNTER_ACCEPTED = "accepted depth 1 base 24 step 21"


def past_the_last_line():
    for line in (36, 1 << 16, 1 << 32, (1 << 32) + 35, 1 << 63, GREATEST):
        r = forged(f"55-line-{line}", PAIRS["two-bands"], line, "refused 55 file")
        for quota in (0, 1, GREATEST):
            r.turn(quota, says=f"checked 0 to line {line}: refused 55 file")
    r = forged("at-the-end", PAIRS["two-bands"], 35, BANDS_ACCEPTED)
    for quota in (0, 1, GREATEST):
        r.turn(quota, says="checked 0 to line 35: accepted depth 1 base 23 step 12")
    forged("55-depth-8", PAIRS["counter-depth-8"], 165, "refused 55 file").turns(0, 7)
    forged("55-no-lines", PAIRS["21-no-lines"], 1, "refused 55 file").turns(0, 1)
    for name, line in (("16-kind-0", 36), ("19-in-step-before-21-base", GREATEST), ("21-no-step-lines", 24),
                       ("21-no-base-lines", 13)):
        forged(f"55-before-{name}", PAIRS[name], line, "refused 55 file").turns(0, 1, GREATEST)


def refused_before_lines():
    """Where 55 would be given too, and where lines would be left."""
    for name, line in (("8-node-property-int", 1), ("23-node-reads-itself", 36), ("11-empty", 1), ("12-version-1", 36),
                       ("13-depth-0", 36), ("14-lines-4096", 4097), ("15-bound-past-limit", 46), ("15-last-of-256", GREATEST)):
        forged(f"{name}-before-55", PAIRS[name], line, PAIRS[name].says).turns(0, 1, GREATEST)
    for name, line in (("7-node-typed-int", 2), ("12-before-any-line", 35), ("15-before-any-line", 45)):
        forged(f"{name}-from-line-{line}", PAIRS[name], line, PAIRS[name].says).turns(0, 1, GREATEST)


def on_right_lines():
    """Each line is right, and so are those from any on."""
    for line in (1, 5, 22, 23, 24, 34):
        left = 35 - line
        r = forged(f"two-bands-from-line-{line}", PAIRS["two-bands"], line, BANDS_ACCEPTED)
        r.turn(0, says=f"checked 0 to line {line}: unfinished")
        r.turn(left, says=f"checked {left} to line 35: accepted depth 1 base 23 step 12")
    depth_8 = PAIRS["counter-depth-8"]
    forged("counter-depth-8-from-line-100", depth_8, 100, "accepted depth 8 base 143 step 21").turns(43, 7, GREATEST)


def at_refused_lines():
    """Refused as by one call, at the line itself or where a part has no line without literals."""
    for name in ("16-255-literals-in-step", "17-another-offset", "18-step-as-base", "19-forgets-literal-of-q", "20-another-offset",
                 "22-ceiling"):
        pair = PAIRS[name]
        forged(f"{name}-from-line-{pair.fault}", pair, pair.fault, pair.says).turns(0, 1, GREATEST)
    for name, line in (("21-no-empty-base-line", 23), ("21-no-empty-base-line", 35), ("21-no-empty-step-line", 35),
                       ("21-no-base-lines", 12), ("21-no-step-lines", 23)):
        forged(f"{name}-from-line-{line}", PAIRS[name], line, PAIRS[name].says).turns(0, 1, GREATEST)


def past(pair, line, ends):
    """From past the line that one call refuses."""
    assert pair.fault < line <= pair.lines, pair.cert_name
    forged(f"{pair.cert_name.removesuffix('.cert')}-from-line-{line}", pair, line, ends).turns(0, 1, 7, GREATEST, 0)


def unseen():
    """Of the refused line later ones take the literals alone."""
    # they are the right ones
    past(PAIRS["16-kind-0"], 1, BANDS_ACCEPTED)
    past(PAIRS["17-offset-past-k-in-base"], 13, BANDS_ACCEPTED)
    past(PAIRS["20-coefficient-not-0"], 4, COUNTER_ACCEPTED)
    # it is the last of its part, and without literals
    past(PAIRS["16-join-unlisted-literal"], 23, BANDS_ACCEPTED)
    past(PAIRS["16-join-last-multiplier"], 35, BANDS_ACCEPTED)
    # it is {!5}, and line 2, which has 4 and !5 at 1, may have more than it needs
    past(PAIRS["18-base-k-literals"], 1, BANDS_ACCEPTED)
    # no line cites it
    past(PAIRS["22-in-base"], 1, "accepted depth 1 base 10 step 5")
    past(PAIRS["19-step-cites-base-by-p"], 37, "accepted depth 1 base 23 step 14")


def unseen_but_cited():
    """A line that cites the refused one is refused for its literals, and from past both all is right."""
    # line 25 lacks 4 at 0
    past(PAIRS["17-another-offset"], 25, "refused 19 line 25")
    past(PAIRS["17-another-offset"], 26, BANDS_ACCEPTED)
    # line 25 lacks !5 at 0
    past(PAIRS["18-step-as-base"], 24, "refused 19 line 25")
    past(PAIRS["18-step-as-base"], 26, BANDS_ACCEPTED)
    # it lacks 4, on which lines 4 and 6 join it
    past(PAIRS["19-forgets-literal-of-q"], 3, "refused 19 line 4")
    past(PAIRS["19-forgets-literal-of-q"], 5, "refused 19 line 6")
    past(PAIRS["19-forgets-literal-of-q"], 7, BANDS_ACCEPTED)
    # it is without literals, and line 13 joins it on !5 at 1
    past(PAIRS["19-forgets-offset-k-at-last"], 12, "refused 19 line 13")
    past(PAIRS["19-forgets-offset-k-at-last"], 14, BANDS_ACCEPTED)
    # it is without literals, and line 4 joins line 2 with it on c1
    past(PAIRS["20-no-literal"], 4, "refused 19 line 4")
    past(PAIRS["20-no-literal"], 5, COUNTER_ACCEPTED)
    # line 42 lacks !c0
    past(PAIRS["20-another-offset"], 42, "refused 19 line 42")
    past(PAIRS["20-another-offset"], 43, COUNTER_ACCEPTED)


def next_fault():
    """The first of several faults is not seen."""
    past(PAIRS["19-at-line-2-before-16-at-line-5"], 3, "refused 16 line 5")
    past(PAIRS["19-at-line-2-before-16-at-line-5"], 6, BANDS_ACCEPTED)
    past(PAIRS["20-at-line-45-before-22-at-line-46"], 46, "refused 22 line 46")
    past(PAIRS["22-at-line-45-before-20-at-line-46"], 46, "refused 20 line 46")
    past(PAIRS["22-at-line-45-before-20-at-line-46"], 47, "accepted depth 1 base 24 step 23")
    past(PAIRS["22-at-line-45-before-16-at-line-46"], 46, "refused 16 line 46")
    past(PAIRS["22-before-21"], 46, "refused 21 base")
    past(PAIRS["19-in-step-before-21-base"], 35, "refused 21 base")
    past(PAIRS["16-in-step-before-21-no-base-lines"], 1, "refused 21 base")
    # each of the six cuts is wrong: lines 10 and 24 at offset 0, 43 and 57 at 1, and the step's 77 and 91
    past(PAIRS["22-multiple-r-2"], 11, "refused 22 line 24")
    past(PAIRS["22-multiple-r-2"], 92, "accepted depth 1 base 67 step 34")


def false_turns():
    """Properties that fail, and yet the last record ends in an acceptance."""
    past(PAIRS["false-turn-step-cites-base"], 11, "accepted depth 1 base 9 step 2")
    # line 91 is the cut of line 57 again, in the step
    past(PAIRS["false-turn-cut-below-floor"], 58, "refused 22 line 91")
    past(PAIRS["false-turn-cut-below-floor"], 92, "accepted depth 1 base 67 step 34")
    # both signs are struck in lines 4, 8 and 13: at offsets 0 and 1, and in the step
    past(PAIRS["false-turn-both-signs-struck"], 5, "refused 19 line 8")
    past(PAIRS["false-turn-both-signs-struck"], 9, "refused 19 line 13")
    past(PAIRS["false-turn-both-signs-struck"], 14, "accepted depth 1 base 9 step 5")


def on_bands(name, certificate, says):
    """A pair that is not in crates/check_pairs."""
    return Pair("two-bands.node", NODES["two-bands"], f"{name}.cert", certificate.file(), says)


def more_than_12(name, i, literals, count, multipliers=()):
    """The two bands, but line i says that it has more literals than there is room for."""
    changed = BANDS.changed(i, literals=literals, count=count, multipliers=multipliers)
    return on_bands(f"cited-{name}", changed, f"refused 16 line {i}")


def more_than_12_literals_cited():
    """Of a cited line that was never checked the first twelve literals are looked at, and nothing after them. There is 0 where
    nothing else is given, which as a literal would be stream 0."""
    # line 2, {4, !5 at 1}, joins lines 0 and 1 on !5
    for count in (13, 200, 255):
        past(more_than_12(f"{count}-literals", 1, (lit(5), *[lit(4)] * 11), count), 2, BANDS_ACCEPTED)
        # it lacks 3
        past(more_than_12(f"{count}-literals-3-the-twelfth", 1, (lit(5), *[lit(4)] * 10, lit(3)), count), 2, "refused 19 line 2")
    past(more_than_12("255-literals-by-p", 0, (opp(lit(5)), *[LATER] * 11), 255), 1, BANDS_ACCEPTED)
    past(more_than_12("struck-literal-is-the-twelfth", 0, (*[LATER] * 11, opp(lit(5))), 13), 1, BANDS_ACCEPTED)
    past(more_than_12("struck-literal-after-the-twelfth", 0, (LATER,) * 12, 13, (opp(lit(5)),)), 1, "refused 19 line 2")
    # line 34, the last, joins 27 and 33 to { }; 255 literals of line 33 would not end within the file
    not_zero = opp(lit(0, 1))
    past(more_than_12("255-literals-near-the-end", 33, (not_zero,) * 12, 255), 34, BANDS_ACCEPTED)
    past(more_than_12("255-literals-near-the-end-1-the-twelfth", 33, (*[not_zero] * 11, lit(1)), 255), 34, "refused 19 line 34")


def no_atom_cited():
    """Neither the literals of cited lines nor r need name an atom: 65535 and its opposite name none."""
    changed = BANDS.changed(0, literals=(65535, LATER)).changed(1, literals=(65534, lit(4))).changed(2, r=65535)
    past(on_bands("cited-no-atom", changed, "refused 16 line 0"), 2, BANDS_ACCEPTED)


def no_line_right():
    """Three base lines and two step lines, each to be refused with 16. At the end only their counts are looked at."""
    none, one, many = Line(0, literals=(1, 2), count=0), Line(6, literals=(1,)), Line(255, 1, 2, 3, count=255)

    def from_line(line, name, ends, *lines):
        past(on_bands(f"no-line-right-{name}", Certificate(1, [], list(lines), 3), "refused 16 line 0"), line, ends)

    from_line(5, "both-parts-have-an-empty-one", "accepted depth 1 base 3 step 2", one, none, many, many, none)
    from_line(5, "no-part-has-an-empty-one", "refused 21 base", one, one, many, many, one)
    from_line(5, "base-has-no-empty-one", "refused 21 base", many, one, one, none, none)
    from_line(5, "step-has-no-empty-one", "refused 21 step", none, none, none, many, one)
    from_line(4, "one-left", "refused 16 line 4", none, none, none, none, none)


PARTS = (past_the_last_line, refused_before_lines, on_right_lines, at_refused_lines, unseen, unseen_but_cited, next_fault,
         false_turns, more_than_12_literals_cited, no_atom_cited, no_line_right)
