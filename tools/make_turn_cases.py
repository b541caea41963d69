#!/usr/bin/env python3
"""Writes the files that crates/check_turns is run on, and what it should say of each run.

    python3 tools/make_turn_cases.py

What one call says of a pair is written down in make_certificate_cases, and what each turn from a begun record says follows from
that by the published rule (`Run` of turn_files); no checker is run. The lines of many turns are also written down (`says`), and the
two must agree. The files go to crates/check_turns/data, the names, node, certificate and turns in turn, to args and the lines to
stdout beside it. Here stand the runs from begun records; those from forged ones stand in forged_turns.
"""
import forged_turns
from node_files import write_data, write_lines
from turn_files import FILES, GREATEST, LINES, NAMES, PAIRS, begun, forged, read_pairs

# Certificates with a refused line, each in another place of its part.
REFUSED_LINES = {
    "16": ("16-kind-0", "16-13-literals", "16-join-unlisted-literal", "16-property-r", "16-255-literals-in-step",
           "16-join-last-multiplier"),
    "17": ("17-multiple-bound-not-scaled-in-base", "17-offset-past-k-in-base", "17-another-offset", "17-offset-9-of-depth-8"),
    "18": ("18-base-k-literals", "18-step-as-base", "18-multiple-in-property"),
    "19": ("19-forgets-offset-k-at-last", "19-other-sign-in-its-place", "19-step-cites-base-by-p"),
    "20": ("20-bool-literal", "20-another-offset", "20-bound-0"),
    "22": ("22-in-base", "22-multiple-r-2", "22-at-line-45-before-20-at-line-46", "22-ceiling"),
    "16-of-depth-8": ("16-offset-9-of-depth-8",), "19-before-16": ("19-at-line-2-before-16-at-line-5",),
    "19-before-21": ("19-in-step-before-21-base",),
}
REFUSED_BEFORE_LINES = (
    "1-no-node-file", "2-node-version-2", "3-node-property-is-n", "4-node-distance", "5-node-operator-16", "6-node-operand-is-n",
    "23-node-reads-itself", "23-node-waits", "7-node-typed-int", "8-node-property-int", "11-missing", "11-empty", "11-length-15",
    "12-version-1", "12-before-any-line", "13-depth-0", "13-257-constraints", "14-distance-one-less", "14-lines-4096",
    "15-bound-past-limit", "15-last-of-256", "15-before-any-line",
)


def two_bands():
    """23 base lines and 12 step lines."""
    bands, accepted = PAIRS["two-bands"], "accepted depth 1 base 23 step 12"
    r = begun("two-bands-quota-0", bands)
    r.turn(0, says="checked 0 to line 0: unfinished")
    r.turn(0, says="checked 0 to line 0: unfinished")
    r.turn(34, says="checked 34 to line 34: unfinished")
    r.turn(0, says="checked 0 to line 34: unfinished")
    r.turn(1, says=f"checked 1 to line 35: {accepted}")
    r.turn(0, says=f"checked 0 to line 35: {accepted}")
    r = begun("two-bands-quota-8", bands)
    for line in (8, 16, 24, 32):
        r.turn(8, says=f"checked 8 to line {line}: unfinished")
    r.turn(8, says=f"checked 3 to line 35: {accepted}")
    r.turn(8, says=f"checked 0 to line 35: {accepted}")


def two_bands_great_quotas():
    """Their low bytes are 0, or the sum of line and quota is 2^64 and more."""
    bands, accepted = PAIRS["two-bands"], "accepted depth 1 base 23 step 12"
    for bits in (16, 32, 63):
        r = begun(f"two-bands-quota-2-to-the-{bits}", bands)
        r.turn(1 << bits, says=f"checked 35 to line 35: {accepted}")
    for name, quota in (("sum-2-to-the-64", GREATEST - 29), ("greatest-sum", GREATEST)):
        r = begun(f"two-bands-{name}", bands)
        r.turn(30, says="checked 30 to line 30: unfinished")
        r.turn(quota, says=f"checked 5 to line 35: {accepted}")


def rising(lines):
    """0, 1, 2 and on, until they add up to all lines."""
    return range(next(n for n in range(lines + 2) if n * (n - 1) // 2 >= lines))


def ways(pair):
    """Quotas that take all lines of a certificate."""
    n, (base, step) = pair.lines, pair.counts
    return {
        "whole": [n], "one-more-than-all": [n + 1], "greatest-quota": [GREATEST], "one-less-than-all": [n - 1, 1],
        "one-by-one": [1] * n, "quota-7": [7] * -(-n // 7), "part-by-part": [base, step], "rising": rising(n),
        "mixed": [3, 0, 5, 1, 0, 0, 2, GREATEST], "after-the-end": [n, 0, 1, n, GREATEST, 0],
    }


def accepted_certificates():
    # depth 1 without constraints, and depth 8 with constraints
    for name in ("two-bands", "counter-depth-8"):
        for way, quotas in ways(PAIRS[name]).items():
            begun(f"{name}-{way}", PAIRS[name]).turns(*quotas)
    # cuts in both parts, longest files, and a base whose line without literals is not its last
    for way, names in (
            ("quota-7", ("pairs-of-minutes", "counter", "delayed-depth-2", "all-operators", "256-constraints", "flight-list",
                         "proved-twice", "longest-file")),
            ("mixed", ("pairs-of-minutes", "ring-depth-8", "window-depth-8", "notes-in-front", "join-of-12-literals",
                       "property-first")),
            ("rising", ("pairs-of-minutes", "all-operators", "longest-file-818-lines")),
            ("one-by-one", ("pairs-of-minutes", "counter", "ring-depth-8", "cut-in-base", "longest-file-818-lines"))):
        for name in names:
            begun(f"{name}-{way}", PAIRS[name]).turns(*ways(PAIRS[name])[way])


def place(pair):
    """Where the refused line stands."""
    i, (base, _) = pair.fault, pair.counts
    ends = {0: "first-line", base - 1: "last-of-base", base: "first-of-step", pair.lines - 1: "last-line"}
    return ends.get(i, "base" if i < base else "step")


def refused_lines():
    """After a refusal the record is where it was: the lines before the refused one are unfinished, and it is refused again."""
    for number, certs in REFUSED_LINES.items():
        for pair in [PAIRS[cert] for cert in certs]:
            name, i = f"{number}-{place(pair)}", pair.fault
            begun(f"{name}-whole", pair).turns(pair.lines, i, 1, 0, GREATEST)
            begun(f"{name}-quota-7", pair).turns(*[7] * (i // 7 + 1), i % 7, 0, 1, GREATEST, 0)
    for number in ("16", "17", "18", "19", "20", "22"):
        pair = PAIRS[REFUSED_LINES[number][1]]
        begun(f"{number}-{place(pair)}-one-by-one", pair).turns(*[1] * (pair.fault + 1), 0, 1)


def refused_lines_written_down():
    r = begun("19-line-25", PAIRS["19-other-sign-in-its-place"])
    r.turn(35, says="checked 0 to line 0: refused 19 line 25")
    r.turn(26, says="checked 0 to line 0: refused 19 line 25")
    r.turn(25, says="checked 25 to line 25: unfinished")
    r.turn(1, says="checked 0 to line 25: refused 19 line 25")
    r.turn(0, says="checked 0 to line 25: unfinished")
    r.turn(10, says="checked 0 to line 25: refused 19 line 25")
    r = begun("22-line-0", PAIRS["22-in-base"])
    r.turn(0, says="checked 0 to line 0: unfinished")
    r.turn(1, says="checked 0 to line 0: refused 22 line 0")
    r.turn(0, says="checked 0 to line 0: unfinished")
    r.turn(GREATEST, says="checked 0 to line 0: refused 22 line 0")


def refused_parts():
    """21 is given where the end is reached, for the base too."""
    for name in ("21-no-base-lines", "21-no-step-lines", "21-no-empty-base-line", "21-no-empty-step-line"):
        n, (base, step) = PAIRS[name].lines, PAIRS[name].counts
        begun(f"{name}-whole", PAIRS[name]).turns(n, 0, n - 1, 0, 1, 0, GREATEST)
        begun(f"{name}-part-by-part", PAIRS[name]).turns(base, step, 0)
        begun(f"{name}-one-by-one", PAIRS[name]).turns(*[1] * n, 0, 1)
    for name in ("21-base-before-step", "false-turn-second-instant-left"):
        begun(f"{name}-mixed", PAIRS[name]).turns(*ways(PAIRS[name])["mixed"], 0)


def refused_parts_written_down():
    r = begun("21-no-lines", PAIRS["21-no-lines"])
    for quota in (0, 1, GREATEST):
        r.turn(quota, says="checked 0 to line 0: refused 21 base")
    r = begun("21-base", PAIRS["21-no-empty-base-line"])
    r.turn(23, says="checked 23 to line 23: unfinished")
    r.turn(11, says="checked 11 to line 34: unfinished")
    r.turn(1, says="checked 0 to line 34: refused 21 base")
    r.turn(0, says="checked 0 to line 34: unfinished")
    r.turn(2, says="checked 0 to line 34: refused 21 base")
    r = begun("21-step", PAIRS["21-no-step-lines"])
    r.turn(22, says="checked 22 to line 22: unfinished")
    r.turn(1, says="checked 0 to line 22: refused 21 step")
    r.turn(0, says="checked 0 to line 22: unfinished")


def refused_before_lines():
    """Whatever the quota."""
    for name in REFUSED_BEFORE_LINES:
        begun(name, PAIRS[name]).turns(0, 1, 7, GREATEST)


def odd_files():
    bands = PAIRS["two-bands"]
    for length in (0, 7):
        # of line number 35 the first bytes alone
        FILES[begun(f"turns-of-{length}-bytes", bands).name] = (35).to_bytes(8, "little")[:length]
    begun("turns-of-8-bytes", bands)
    forged("turns-of-8-bytes-greatest-line", bands, GREATEST, "refused 55 file")
    forged("turns-of-8-bytes-no-node-file", PAIRS["1-no-node-file"], 5, "refused 1 file")
    begun("turns-of-12-bytes", bands).cut_off(bytes([1, 0, 0, 0]))
    r = begun("turns-of-23-bytes", bands)
    r.turn(7, says="checked 7 to line 7: unfinished")
    r.cut_off(b"\xff" * 7)
    r = begun("turns-of-25-bytes", bands)
    r.turns(7, 28)
    r.cut_off(b"\1")
    FILES[begun("turns-missing", bands).name] = None


def main():
    read_pairs()
    for part in (two_bands, two_bands_great_quotas, accepted_certificates, refused_lines, refused_lines_written_down, refused_parts,
                 refused_parts_written_down, refused_before_lines, *forged_turns.PARTS, odd_files):
        part()
    write_data("check_turns", FILES)
    write_lines("check_turns", "args", NAMES)
    write_lines("check_turns", "stdout", LINES)
    runs = len(NAMES) // 3
    print(f"{runs} runs, {len(LINES) - runs} turns")


main()
