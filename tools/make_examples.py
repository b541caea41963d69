#!/usr/bin/env python3
"""Writes the folders of examples: node.bin, cert.bin, the verdict line and a page on each, and a page on all; of those for the
flight list also table.bin and the line of the check of ranges, of those with a pass also pass.bin and the lines on it, and of
those with a history also history.bin, questions.bin and the lines on these.

    python3 tools/make_examples.py

The lines are written down here from the published rules and not computed by any checker.
"""
import struct
import textwrap
from dataclasses import dataclass

import booking_proofs
import duty_proofs
import examiner_proofs
import example_proofs
import flight_proofs
import half_minute_proofs
import order_proofs
import parity_proofs
import set_up_proofs
from archived_files import archived_file
from certificate_files import Certificate
from look_up_files import history_file, questions_file
from node_files import ROOT, node, table
from pass_files import COMMIT, OLD, TRIAL, pass_file

NODES = {**example_proofs.NODES, **booking_proofs.NODES, **parity_proofs.NODES, **half_minute_proofs.NODES, **order_proofs.NODES,
         **flight_proofs.NODES, **set_up_proofs.NODES, **duty_proofs.NODES, **examiner_proofs.NODES,
         "forged": node(booking_proofs.LATE, 3), "archived-two-bands": example_proofs.NODES["two-bands"]}
TYPES = ("bool", "int")
# by operator
EQUATIONS = ("input", "{k}", "not {a}", "{a} and {b}", "{a} or {b}", "{a} same as {b}", "{a} + {b}", "{a} - {b}", "{k} * {a}",
             "{a} at most {b}", "{a} equal to {b}", "if {c} then {a} else {b}", "{a} -> {b}", "{a} -> pre {b}",
             "lesser of {a} and {b}", "greater of {a} and {b}")
WORDS = {OLD: "old call", TRIAL: "trial", COMMIT: "commit"}


@dataclass(frozen=True)
class Examined:
    """A history, which has the inputs of each instant, and questions on it, each stream, instant and answer. The texts are on the
    two, and `shows` on each question."""
    history: tuple
    history_says: str
    questions: tuple
    questions_say: str
    shows: tuple

    def printed(self):
        """The lines on the questions."""
        return [f"questions.bin: instants {len(self.history)} inputs {sum(map(len, self.history))}",
                *[f"stream {stream} instant {instant}: {answer}" for stream, instant, answer in self.questions]]

    def page(self, inputs):
        """The part of the folder's page; the inputs are by name."""
        instants = [(instant, *row) for instant, row in enumerate(self.history)]
        questions = [(f"`{line}`", shown) for line, shown in zip(self.printed()[1:], self.shows, strict=True)]
        return "\n\n".join([
            wrapped(f"History: {self.history_says}"), rows_under(("Instant", *[f"`{name}`" for name in inputs]), instants),
            wrapped(f"Questions: {self.questions_say}"), rows_under(("Line", "What it shows"), questions)])


def records_of(name):
    """The records of an example's node file."""
    return list(struct.iter_unpack("<BBHHHiI", NODES[name][:-16]))


def rows_under(heading, rows):
    """A table."""
    return "\n".join([f"| {' | '.join(heading)} |", "|---" * len(heading) + "|",
                      *[f"| {' | '.join(map(str, row))} |" for row in rows]])


@dataclass(frozen=True)
class Example:
    """Streams are names and what they are, in record order. The texts are those of the folder's page. An archived certificate is
    its bytes. Rows on lines are those of the base's offsets 0 and 1, those of the step and what they say. Ranges are those of the
    table, where there is one; `ranges_say` is on them. Events are those of the pass, where there is one: kind, inputs and the line
    of each; `pass_says` is on them, and `shows` on the beginning and on each of them."""
    name: str
    title: str
    books: str
    streams: tuple
    prop: str
    depth: str
    argument: str
    certificate: Certificate | bytes
    verdict: str
    lines: tuple = ()
    aside: str = ""
    ranges: tuple = ()
    ranges_say: str = ""
    listed: str = ""
    events: tuple = ()
    pass_says: str = ""
    shows: tuple = ()
    examined: Examined | None = None

    def equations(self):
        """The rows of a table, one a stream, from the records of the node file; a stream is called by its name."""
        names = [name for name, _ in self.streams]
        records = zip(records_of(self.name), self.streams, strict=True)
        for i, ((op, kind, a, b, c, k, _), (name, meaning)) in enumerate(records):
            constant = ("false", "true")[k] if (op, kind) == (1, 0) else k
            equation = EQUATIONS[op].format(a=names[a], b=names[b], c=names[c], k=constant)
            ends = "{} to {} | ".format(*self.ranges[i]) if self.ranges else ""
            yield f"| {i} | {TYPES[kind]} | `{name}` = {equation} | {ends}{meaning} |"

    def inputs(self):
        return [name for (name, _), record in zip(self.streams, records_of(self.name), strict=True) if record[0] == 0]

    def heading(self):
        columns = ["Stream", "Type", "Equation", *["Range"] * bool(self.ranges), "What it is"]
        return [f"| {' | '.join(columns)} |", "|---" * len(columns) + "|"]

    def listing(self):
        """The table of lines, where there is one."""
        rows = [f"| {' | '.join(row)} |" for row in self.lines]
        heading = ["| Base, offset 0 | Base, offset 1 | Step | What the lines say |", "|---|---|---|---|"]
        return "\n".join([*heading, *rows]) if rows else ""

    def printed(self):
        """The lines on the pass."""
        return [f"pass.bin: begun streams {len(self.streams)}", *[line for _, _, line in self.events]]

    def passing(self):
        """The table of events, where there is a pass."""
        calls = [f"{WORDS[kind]} {', '.join(map(str, inputs))}".strip() for kind, inputs, _ in self.events]
        lines = [f"`{line}`" for line in self.printed()]
        return rows_under(("Event", "Line", "What it shows"), zip(["beginning", *calls], lines, self.shows, strict=True))

    def certificate_file(self):
        return self.certificate if isinstance(self.certificate, bytes) else self.certificate.file()

    def page(self):
        parts = [f"# {self.title}", wrapped(self.books), "\n".join([*self.heading(), *self.equations()]),
                 wrapped(f"Property: {self.prop}"), wrapped(f"Depth: {self.depth}"), wrapped(f"Certificate: {self.argument}"),
                 self.listing(), wrapped(self.aside), wrapped(f"Table: {self.ranges_say}") if self.ranges else "",
                 f"Listed: `{self.listed}`" if self.ranges else "", wrapped(f"Pass: {self.pass_says}") if self.events else "",
                 self.passing() if self.events else "", self.examined.page(self.inputs()) if self.examined else "",
                 f"Verdict: `{self.verdict}`"]
        return "\n\n".join(part for part in parts if part) + "\n"


def wrapped(text):
    return textwrap.fill(" ".join(text.split()), 125)


BANDS = (("first", "the first station asks, and is granted"), ("second", "the second station asks"),
         ("quiet", "the first doesn't ask"), ("granted", "the second is granted"), ("both", "both are granted"),
         ("fine", "the property"))
SET_UP = (("five", "a constant"), ("none", "a constant"), ("set up", "minutes of set-up"),
          ("carried", "minutes carried over from one instant before"), ("fine", "the property"))
PAIRS = (("slot", "a booking's pair of minutes, any whole number"), ("turn", "a tone's pair of minutes"),
         ("start", "the minute that the booking begins at"), ("pair", "the minute that the tone's pair begins at"),
         ("one", "a constant"), ("{later}", "a constant"), ("lead", "how many minutes after its pair's first one a tone is sent"),
         ("tone", "the minute that it is sent at"), ("meets", "the booking begins in the tone's minute"), ("fine", "the property"))


def pairs(later):
    """The streams of the two nodes with pairs of minutes."""
    return tuple((name.format(later=later), meaning) for name, meaning in PAIRS)


HALVES = (("asked", "minutes asked for"), ("zero", "a constant"), ("slots", "the slots of a pass"),
          ("room", "their minutes, 20 each"), ("before", "minutes booked up to one instant before"),
          ("sum", "these and those asked for"), ("fits", "there is room for them"), ("booked", "minutes booked"),
          ("halves", "their half minutes"), ("pass", "how many half minutes a pass has"), ("fine", "the property"))
FLIGHT = (("asked", "minutes asked for; negative ones are handed back"), ("none", "a constant"),
          ("back", "the most minutes that can be handed back at one instant, as a negative number"),
          ("slot", "the most minutes that can be had at one instant"), ("pass", "the minutes of a pass"),
          ("wanted", "minutes asked for, or -30 if these are fewer"), ("change", "these, or 30 if these are more"),
          ("before", "minutes booked one instant before"), ("sum", "these and `change`"),
          ("raised", "these, or 0 if these are negative"), ("booked", "minutes booked"), ("had", "minutes free one instant before"),
          ("rest", "these less `change`"), ("capped", "these, or 90 if these are more"), ("free", "minutes free"),
          ("total", "minutes booked and free"), ("fine", "the property"))
EXAMPLES = (
    Example(
        "two-bands", "Two bands, one dish",
        """Two stations ask for one dish, each on its own band. The first is granted whenever it asks, the second only if the
        first doesn't ask.""",
        BANDS,
        "never are both granted at one instant.",
        "1. Nothing is remembered from one instant to the next, so that the step doesn't need what held before.",
        """if both were granted, the first was (`first`) and the second was (`granted`); then the first was `quiet`, which is not
        `first`. The base begins with "not `fine` at offset 0 or not `fine` at offset 1". Eleven lines refute the first of these,
        each join keeping the second one, and the same eleven one offset on refute that. The step is the property line and these
        eleven at offset 1.""",
        example_proofs.two_bands(), "accepted depth 1 base 23 step 12"),
    Example(
        "free-minutes", "Free minutes",
        """A dish has 90 free minutes. At each instant some minutes are asked for, and booked if there are as many; if not,
        nothing is booked. Asking for a negative number gives minutes back.""",
        (("asked", "minutes asked for"), ("zero", "a constant"), ("start", "free minutes at first"),
         ("free", "free minutes before"), ("enough", "the minutes asked for are there"),
         ("rest", "free minutes if they are booked"), ("left", "free minutes after"), ("fine", "the property")),
        "the free minutes are never negative.",
        "1. That `left` was not negative one instant before is all that is needed now.",
        """say `left` is negative. Where `enough` holds, `left` is `free - asked` and `asked` is at most `free`: the sum of
        these constraints says 0 is at most -1. Where it doesn't, `left` is `free`, which is 90 at instant 0 and later the
        `left` of one instant before, not negative by the property. One join on `enough` puts the two cases together.""",
        booking_proofs.free_minutes(), "accepted depth 1 base 48 step 27"),
    Example(
        "grant", "A grant that holds until release",
        """A station that asks is granted the dish and keeps it, asking or not, until the dish is released. A release wins over
        a request at the same instant.""",
        (("request", "the station asks"), ("release", "the dish is released"), ("no", "a constant"),
         ("held", "granted one instant before"), ("wanted", "asked for now, or held"), ("grant", "the station has the dish"),
         ("before", "it had ever asked, up to one instant before"), ("ever", "it has ever asked"),
         ("idle", "it hasn't the dish"), ("fine", "the property")),
        "the station never has the dish without ever having asked for it.",
        """1. Either a grant is new, and there is a request now, or it was held; that a held one had a request is the property
        one instant before.""",
        """say there is a grant and never was a request. Then there is no release and no request now, so the grant was held. At
        instant 0 `held` is false. Later there was a grant one instant before, thus by the property a request up to then, and
        `ever` holds now.""",
        example_proofs.grant(), "accepted depth 1 base 50 step 32"),
    Example(
        "turns", "Two stations take turns",
        """One of two stations has the turn, at first the first one, and only that one is granted when it asks. After a grant
        the turn passes to the other; without one it stays. Apart from that the scheduler notes who was granted last.""",
        (("first asks", "the first station asks"), ("second asks", "the second station asks"), ("yes", "a constant"),
         ("no", "a constant"), ("turn", "the first station has the turn"), ("other", "the second has it"),
         ("first granted", "the first is granted"), ("second granted", "the second is granted"),
         ("granted", "there is a grant"), ("next", "the first has the turn after this"),
         ("open", "the last grant was not the first station's"),
         ("cleared", "it is the second's now, or `open` held before"), ("noted", "`open` after this"),
         ("fine", "the property")),
        """the first station has the turn exactly if the last grant was not its own, or there was none yet. So no station is
        granted twice in a row.""",
        "1. The turn and the note change together, so if they agree at one instant they agree at the next.",
        """at instant 0 `turn` and `open` both hold. Say that they differ later. Then `next` and `noted` differed one instant
        before, while `turn` and `open` agreed. Had the first station been granted, neither `next` nor `noted` would hold; had the
        second been, both would. So nobody was, and `next` is `turn` and `noted` is `open`: these agree.""",
        booking_proofs.turns(), "accepted depth 1 base 69 step 62"),
    Example(
        "quota", "A quota of grants per pass",
        """In one pass of a satellite a station may be granted the dish three times, 20 minutes each. Grants are counted, and a
        new pass begins the count anew. What is to be kept is said in minutes.""",
        (("asks", "the station asks"), ("pass", "a new pass begins"), ("zero", "a constant"), ("one", "a constant"),
         ("quota", "grants a pass"),
         ("before", "grants counted one instant before"), ("so far", "grants of this pass up to now"),
         ("full", "the quota is used up"), ("room", "the quota is not used up"), ("granted", "the station is granted"),
         ("more", "one grant more"),
         ("count", "grants of this pass, with this one"), ("minutes", "their minutes"),
         ("hour", "the minutes that three grants take"), ("fine", "the property")),
        "the minutes granted in a pass are at most 60.",
        "1. Either the count changes now, and the quota limits it, or it is the one of an instant before.",
        """say there are over 60 `minutes`, which are 20 times `count`. With a grant, `so far` is under 3 and `count` is one
        more. Without one and in a new pass, `count` is 0. Else it is `before`: 0 at instant 0, and later the `count` of one
        instant before, 20 times which is at most 60 by the property. Constraints on counts are taken 20 times in the sums.""",
        booking_proofs.quota(), "accepted depth 1 base 96 step 52"),
    Example(
        "handover", "Two crews hand over",
        """An early and a late crew share a dish and hand their minutes over to each other at every instant. The early crew may
        give its minutes up; it then hands over 30, those of a short booking.""",
        (("gives up", "the early crew gives its minutes up"), ("long", "minutes of a long booking"),
         ("short", "minutes of a short one"), ("limit", "the most minutes allowed"),
         ("early", "minutes of the early crew"), ("late", "minutes of the late crew"),
         ("handed", "what the early crew hands over"), ("fine", "the property")),
        "the early crew never has more than 45 minutes.",
        """2. The property says nothing of the late crew, whose minutes are the early crew's at the next instant: at depth 1 it
        could have 100. Two instants on they come from the early crew itself.""",
        """`early` is 40 at instant 0, and at instant 1 what `late` was at first, 30. At offset 2, in the base and in the step,
        `early` is `late` at offset 1 and `handed` at offset 0. That is 30 or what `early` was at offset 0, at most 45 by the
        property. The sum of the constraints on this way says 0 is at most -1, in both cases.""",
        booking_proofs.handover(), "accepted depth 2 base 50 step 29"),
    Example(
        "relay", "A licence handed along eight stations",
        """Eight stations hand a licence along: at each instant each takes over what the one before it had, and the first what
        the eighth had. At instant 0 all have a valid one.""",
        (("valid", "a constant"), *[(f"station {i}", f"station {i} has a valid licence") for i in range(1, 8)],
         ("station 8", "so has station 8, the property")),
        "station 8 always has a valid licence.",
        """8. An invalid licence at station 1 is not seen at station 8 before seven instants have passed, so that seven valid
        ones in a row at station 8 don't show that the eighth is.""",
        """what station 8 has at offset 8 is what station 7 had at 7, and so on down to station 1 at 1, which is what station 8
        had at offset 0. That is the step. The base has nine instants: at instant 8 it is the same, and at each one below, what
        station 8 has is what some station had at instant 0.""",
        example_proofs.ring(1, 8), "accepted depth 8 base 91 step 19"),
    Example(
        "pairs-of-minutes", "Pairs of minutes",
        """A dish is booked in pairs of minutes: the booking of slot s begins at minute 2s. A tone that would spoil its first
        minute is sent at odd minutes: in turn t at minute 2t + 1, and at minute 2t + 3 after the first instant, when the
        tone's clock is put two minutes on. Slots and turns are any whole numbers, at each instant other ones.""",
        pairs("three"),
        "no booking begins in a tone's minute.",
        "1. Nothing is remembered from one instant to the next.",
        """the argument is one of parity: twice a whole number is even, 2t + 1 and 2t + 3 are odd, and no number is both. To add
        the constraints up doesn't show it, for half a slot after t, 2s is 2t + 1. A cut does: a whole number that is at most a
        half is at most 0. If the two minutes were equal, 2s - 2t would be at most 1, so s - t at most 0, the half of 1 rounded
        down; and 2t - 2s would be at most -1, so t - s at most -1, the half of -1 rounded down. Added up, 0 is at most -1. A line
        of kind 5 says each of the two: r is 2, its last literal is the constraint on s - t or t - s, and the others are the
        negations of the constraints that are added up. At offset 1, in both parts, it is 3 in place of 1, and the halves are 1
        and -2.""",
        parity_proofs.pairs_of_minutes(), "accepted depth 1 base 67 step 34",
        (("0", "", "67", "the property fails: at offset 0 or 1 (step: at 1)"),
         ("1, 2", "34, 35", "68, 69", "`{meets}`; at offset 0, here and in all that is won from this, or the property fails "
          "at offset 1"),
         ("3, 4", "36, 37", "70, 71", "`start` is at most `tone`"),
         ("5 to 9", "38 to 42", "72 to 76", "equations: 2 `slot` is at most `start`; `tone` at most `pair` + `lead`; `pair` "
          "at most 2 `turn`; `lead` at most `one`, and `one` at most 1 (offset 1: `three`, 3)"),
         ("10", "43", "77", "cut, r = 2: the sum of these six is 2 `slot` - 2 `turn` at most 1 (offset 1: 3), so `slot` - "
          "`turn` is at most 0 (offset 1: 1), or one of the six doesn't hold"),
         ("11 to 16", "44 to 49", "78 to 83", "joins with the six: `slot` - `turn` is at most 0 (offset 1: 1)"),
         ("17, 18", "50, 51", "84, 85", "`tone` is at most `start`"),
         ("19 to 23", "52 to 56", "86 to 90", "equations: those of 5 to 9 the other way round"),
         ("24", "57", "91", "cut, r = 2: the sum is 2 `turn` - 2 `slot` at most -1 (offset 1: -3), so `turn` - `slot` is at "
          "most -1 (offset 1: -2)"),
         ("25 to 30", "58 to 63", "92 to 97", "joins: `turn` - `slot` is at most -1 (offset 1: -2)"),
         ("31", "64", "98", "arithmetic: lines 16 and 30 (49 and 63, 83 and 97) don't hold both"),
         ("32, 33", "65, 66", "99, 100", "joins: the property fails at offset 1; then `{ }`")),
        """Kind 4 and joins can say every cut too, and in as many lines: a line of kind 4 with the same literals and multipliers,
        but r for the last one, has the same clause. Here, twice "`slot` - `turn` is at least 1" can't stand beside
        "2 `slot` - 2 `turn` is at most 1"; that "not at most 0" is "at least 1" is where kind 4 knows that numbers are whole.
        Written so, this certificate is accepted with 67 and 34 lines, 0 more. What kind 5 adds is that a solver's cut stands
        there as the solver made it, divided and rounded, with the least bound that follows."""),
    Example(
        "half-minutes", "Half minutes",
        """In a pass of a satellite a dish has three slots of 20 minutes. At each instant some minutes are asked for, and booked
        if there is room for them beside those booked before; if not, nothing is. Asking for a negative number gives minutes back.
        The dish's clock counts half minutes, and what is to be kept is said in these.""",
        HALVES,
        "the half minutes booked are at most 120, those of a pass.",
        "1. Either more is booked now, and `room` limits it, or what is booked was so one instant before.",
        """the solver that wrote it reckons in half minutes throughout. What is in half minutes it writes as it is, what is in
        minutes times 2, and what is in slots times 40: for "`sum` is at most `room`" it writes 2 `sum` - 2 `room` at most 0, and
        for "`slots` is at most 3" 40 `slots` at most 120. An equation line takes a constraint that is the defined one times a
        whole number from 1 on, bound and coefficients alike, for each constraint its own. Say there are over 120 `halves`, which
        are twice `booked`. Where `fits` holds, `booked` is `sum`, and that is at most `room`, 20 times `slots`. Where it
        doesn't, `booked` is `before`: 0 at instant 0, and later the `booked` of one instant before, twice which is at most 120
        by the property. In both cases the constraints, added up as they are written, say 0 is at most a negative number.""",
        half_minute_proofs.half_minutes(), "accepted depth 1 base 60 step 34",
        (("0", "", "60, 61", "the property fails, at offset 0 or 1 (step: it holds at 0 and fails at 1)"),
         ("1", "27", "62, 63", "`pass` - `halves` is at most -1, or `fine`, which stays in all that is won from this (step: a "
          "join strikes `fine`)"),
         ("2, 3", "28, 29", "64, 65", "equations, as defined: `halves` - 2 `booked` is at most 0; -`pass` at most -120"),
         ("4, 5", "30, 31", "66, 67", "equations, times 2: `!fits`, or 2 `booked` - 2 `sum` is at most 0; `!fits`, or 2 `sum` "
          "- 2 `room` is"),
         ("6", "32", "68", "equation, times 2: 2 `room` - 40 `slots` is at most 0"),
         ("7", "33", "69", "equation, times 40: 40 `slots` is at most 120"),
         ("8 to 15", "34 to 41", "70 to 77", "arithmetic with multipliers 1: these seven don't hold together; joins with "
          "them: `{!fits}`"),
         ("16", "42", "78", "equation, times 2: `fits`, or 2 `booked` - 2 `before` is at most 0"),
         ("17, 18", "43 to 47", "79 to 83", "equations, those on minutes times 2: `before` is at most `zero`, and `zero` at "
          "most 0 (offset 1: `before` is at most `booked` of one instant before, twice that at most `halves`, these at most "
          "`pass` by the property there, which line 26 shows and line 60 says, and `pass` at most 120)"),
         ("19 to 25", "48 to 56", "84 to 92", "arithmetic with multipliers 1, and joins: `{fits}`"),
         ("26", "57", "93", "join: `{fine}` (step: `{ }`)"),
         ("", "58, 59", "", "joins of line 0 with lines 26 and 57: `{ }`")),
        """With its constraints as they are defined the certificate has as many lines and is accepted too; lines 8, 19, 34, 48, 70
        and 84 then have multipliers 2 and 40 where these have 1. Lines of the other kinds take a constraint as it is written:
        joins cite this constraint and no multiple of it, and arithmetic adds up the coefficients that stand there."""),
    Example(
        "property-first", "The property first",
        """The node of handover as its author writes it: what is to be kept stands first, then what that reads, and constants and
        the input last. An early and a late crew share a dish and hand their minutes over to each other at every instant. The
        early crew may give its minutes up; it then hands over 30, those of a short booking.""",
        (("fine", "the property"), ("early", "minutes of the early crew"), ("late", "minutes of the late crew"),
         ("handed", "what the early crew hands over"), ("limit", "the most minutes allowed"),
         ("long", "minutes of a long booking"), ("short", "minutes of a short one"),
         ("gives up", "the early crew gives its minutes up")),
        "the early crew never has more than 45 minutes.",
        "2, as for handover.",
        """that of handover, line by line. Only the streams have other numbers, and the terms of each constraint rise by these:
        where it is on `early` and `limit`, that on `early` now comes first.""",
        order_proofs.property_first(), "accepted depth 2 base 50 step 29", (),
        """The reader works out an order, each time the lowest record whose operands needed now are all placed: `limit`, `long`,
        `early`, `fine`, `short`, `late`, `gives up`, `handed`. What `pre` reads is not needed now: `early` reads `late`, `late`
        reads `handed` and `handed` reads `early`, but only `handed` does so at the same instant. A session works its values out
        in this order and gives them by record, as it takes its inputs. Where `gives up` is 0 at instant 0, the values are 1, 40,
        30, 40, 45, 40, 30, 0."""),
    Example(
        "flight-list", "Counters for the flight list",
        """Crews on the ground ask for minutes of a pass and hand minutes back, any number at each instant; up to 30 are given or
        taken at once. The minutes booked begin at 0 and go up by this change, the minutes free begin at 90, those of a pass, and
        go down by it. Both are held between 0 and 90 by a lesser and a greater. What is on the crews' flight list may never stop
        for the size of a number, so the node comes with a table of ranges.""",
        FLIGHT,
        "the minutes booked and those free are together at most 90: no minute is both.",
        """1. Both counters move by the same `change`, or one of them is held; that they were together at most 90 one instant
        before is all that is needed now. Without that both could be 90.""",
        """say `total` is over `pass`. Clause 2 of a greater says that `free` is at most `capped` or at most `none`. In the second
        case `free`, at most 0, and `booked`, at most `pass` by clause 1 of a lesser, are together at most `pass`. So `free` is at
        most `capped`. In the same way `raised` is at most `sum` or at most `none`. In the second case `booked`, at most `raised`
        by clause 0 of a lesser, is at most 0, and `free` is at most `capped`, at most `pass` by clause 1. So `raised` is at most
        `sum`. Now `booked` is at most `before` plus `change` and `free` at most `had` less `change`: together at most `before`
        plus `had`. That is 0 and 90 at instant 0, and later the `booked` and the `free` of one instant before, together at most
        90 by the property. How the minutes asked for are held doesn't matter here.""",
        flight_proofs.flight_list(), "accepted depth 1 base 93 step 52",
        (("0", "", "93, 94", "the property fails, at offset 0 or 1 (step: it holds at 0 and fails at 1)"),
         ("1", "42", "95, 96", "`pass` - `total` is at most -1, or `fine`, which stays in all that is won from this (step: a "
          "join strikes `fine`)"),
         ("2", "43", "97", "equation: `total` is at most `booked` + `free`"),
         ("3", "44", "98", "equation: `none` is at most 0"),
         ("4", "45", "99", "clause 2 of a greater: `free` is at most `capped`, or `free` is at most `none`"),
         ("5", "46", "100", "clause 1 of a lesser: `booked` is at most `pass`"),
         ("6 to 10", "47 to 51", "101 to 105", "arithmetic: lines 1, 2, 3 and 5 (42, 43, 44 and 46; step: 96, 97, 98 and 100) "
          "don't hold together with \"`free` is at most `none`\"; joins with them: that doesn't hold"),
         ("11", "52", "106", "join: `free` is at most `capped`"),
         ("12", "53", "107", "clause 2 of a greater: `raised` is at most `sum`, or `raised` is at most `none`"),
         ("13", "54", "108", "clause 0 of a lesser: `booked` is at most `raised`"),
         ("14", "55", "109", "clause 1 of a lesser: `capped` is at most `pass`"),
         ("15 to 21", "56 to 62", "110 to 116", "arithmetic: lines 1, 2, 3, 11, 13 and 14 (42, 43, 44, 52, 54 and 55; step: "
          "96, 97, 98, 106, 108 and 109) don't hold together with \"`raised` is at most `none`\"; joins with them: that "
          "doesn't hold"),
         ("22", "63", "117", "join: `raised` is at most `sum`"),
         ("23, 24", "64 to 70", "118 to 124", "equations: `before` is at most `none`, and `had` at most `pass` (offset 1: "
          "`before` is at most `booked` and `had` at most `free` of one instant before, these together at most `total`, that "
          "at most `pass` by the property there, which line 41 shows and line 93 says, `pass` at most 90, and now at least 90)"),
         ("25 to 28", "71 to 77", "125 to 131", "arithmetic and joins: `before` + `had` - `pass` is at most 0"),
         ("29", "78", "132", "equation: `sum` is at most `before` + `change`"),
         ("30", "79", "133", "clause 0 of a lesser: `capped` is at most `rest`"),
         ("31", "80", "134", "equation: `rest` is at most `had` - `change`"),
         ("32 to 41", "81 to 90", "135 to 144", "arithmetic and joins: `{fine}` (step: `{ }`)"),
         ("", "91, 92", "", "joins of line 0 with lines 41 and 90: `{ }`")),
        "", tuple(flight_proofs.TABLES["flight-list"]),
        """least and greatest of each stream, in record order. `asked` has the widest range that a table may have, and no other
        stream but `wanted` gets more by it, for lesser and greater give one of their operands. The range of each other stream is
        just what its operator gives where each operand is by itself anywhere in its range. So `total` is up to 180 here, 90 and
        90, although the certificate shows that it is at most 90: a table is reckoned stream by stream. `before` and `had` have
        room for what they are at instant 0 and for what they take over later, which closes the circle: no instant is refused with
        34 as long as `asked` stays in its range.""",
        "listed"),
    Example(
        "set-up", "A dish set up once",
        """A dish is set up once: it takes five minutes at the first instant, and none later. The minutes of an instant are
        carried over to the account of the next one.""",
        SET_UP,
        "never are more than five minutes carried over.",
        "1. What is carried over is told by the instant before, and the property there is not needed.",
        """say that `carried` is over `five`. At instant 0 it is `none`, 0. At instant 1 it is what `set up` was at instant 0,
        `five`. For the step it is what `set up` was at offset 0. The window begins after instant 0, so that this is `none`, 0:
        clause 0 of `->` at step offset 0 takes b.""",
        set_up_proofs.set_up(), "accepted depth 1 base 23 step 13",
        (("0", "", "23", "the property fails: at offset 0 or 1 (step: at 1)"),
         ("1, 2", "11, 12", "24, 25", "`five` - `carried` is at most -1; at offset 0, here and in all that is won from "
          "this, or the property fails at offset 1"),
         ("3", "13", "26", "equation: -`five` is at most -5"),
         ("4", "14", "27", "equation: `carried` is at most `none` (offset 1: at most `set up` at offset 0)"),
         ("", "15", "28", "clause 0 of `->` at offset 0: `set up` is at most `five` (step: at most `none`)"),
         ("5", "16", "29", "equation at offset 0: `none` is at most 0 (base, for offset 1: `five` is at most 5)"),
         ("6 to 10", "17 to 22", "30 to 35", "arithmetic and joins: the property fails at offset 1; then `{ }`")),
        """In version 1 a window could begin at any instant, and `->` had no clause at step offset 0. Of depth 1 there was no
        refutation of the step: with `set up` 6 and `carried` 0 at offset 0, `set up` 0 and `carried` 6 at offset 1, and `five` 5
        and `none` 0 at both, every clause holds, `fine` holds at offset 0 and fails at offset 1. It took depth 2, where `carried`
        at offset 2 is `set up` at offset 1."""),
    Example(
        "on-duty", "An operator on duty",
        """Two bands of one dish share the 90 minutes of a pass. At each instant each asks for some minutes. The first is granted
        its own if there are as many left, and then the second if there are as many left after that; a band that is not granted
        its own gets none. Asking for a negative number gives minutes back. The operator on duty sees what would be granted, and
        then decides; the streams to look at stand first.""",
        (("first", "minutes that the first band asks for"), ("second", "minutes that the second asks for"),
         ("left", "minutes left before"), ("first granted", "the first is granted its own"),
         ("second granted", "the second is granted its own"), ("rest", "minutes left after"), ("fine", "the property"),
         ("less", "minutes left if the first is granted its own"), ("between", "minutes left for the second"),
         ("fewer", "minutes left if the second is granted its own"), ("pass", "the minutes of a pass"), ("none", "a constant")),
        "the minutes left are never negative.",
        "1. That `rest` was not negative one instant before is all that is needed now.",
        """say `rest` is negative. Where `second granted` holds, `rest` is `between - second` and `second` is at most `between`: the
        sum of these constraints says 0 is at most -1. So it doesn't, and `rest` is `between`. In the same way `first granted`
        doesn't hold, and `between` is `left`. That is 90 at instant 0 and later the `rest` of one instant before, not negative by
        the property.""",
        duty_proofs.on_duty(), "accepted depth 1 base 74 step 40", events=duty_proofs.EVENTS,
        pass_says="""the operator tries two bookings and commits one. An answered trial has the line of an instant, the values of
        all streams in record order, but the session stays where it is. `fine`, the seventh of them, is 1 in each: what the
        certificate shows of every instant holds of one that is only tried, too.""",
        shows=("the session stands before instant 0",
               "of 90 minutes the first band would be granted 50; 40 would be left, too few for the second",
               "of 90 minutes again, for the first trial doesn't count: both would be granted theirs, and 10 would be left",
               "the minutes of the second band are missing; the trial of 50 and 30 is still held",
               "that trial is instant 0 now",
               "no trial is held any more",
               "a trial and its commit in one, instant 1: 10 minutes are left, too few for the first band's 20, and the second is "
               "granted 5 of them")),
    Example(
        "one-value", "One value of a pass",
        """Two bands of one dish are each licensed for 40 minutes an instant. A band that asks for no more is booked, in seconds; one
        that asks for more gets none. Asking for a negative number gives minutes back. What is booked is added up over the pass,
        and later an examiner asks for single values of it.""",
        (("first", "minutes that the first band asks for"), ("second", "minutes that the second asks for"),
         ("licence", "the most minutes that a band is licensed for at one instant"), ("none", "a constant"),
         ("first licensed", "the first is licensed for its own"), ("second licensed", "the second is licensed for its own"),
         ("first seconds", "the first's minutes in seconds"), ("second seconds", "the second's"),
         ("first booked", "seconds that are booked for the first"), ("second booked", "those for the second"),
         ("booked", "seconds booked at this instant"), ("before", "seconds booked up to one instant before"),
         ("total", "seconds booked up to now"), ("most", "twice 40 minutes in seconds"), ("fine", "the property")),
        "at one instant at most 4,800 seconds are booked.",
        "1. Nothing that is remembered plays a part, so that the step doesn't need what held before.",
        """say `booked` is over 4,800. Where `first licensed` holds, `first booked` is 60 times `first`, which is at most `licence`,
        thus at most 2,400; in the sum the constraints on minutes are taken 60 times. Where it doesn't hold, `first booked` is
        `none`, and that is at most 2,400 too. The second band has as much, and both together have 4,800. The base says so of
        offsets 0 and 1, the step of offset 1.""",
        examiner_proofs.one_value(), "accepted depth 1 base 77 step 39",
        examined=Examined(
            examiner_proofs.HISTORY,
            """at instant 1 the second band asks for all minutes there are, for which its desk writes the greatest number that fits,
            and at instant 3 the first one gives back more than it can have had.""",
            examiner_proofs.QUESTIONS,
            """a session on these inputs answers instant 0 and no other. It works out all streams, and at instant 1 `second
            seconds`, 60 times that number, is outside of 64 signed bits: `refused 34 record 7`. Nothing that was booked rests on
            it, for the band has no licence and `second booked` is `none`. A look-up follows the equations down from the wanted
            stream, at an "if" to its condition and its taken branch alone, and gives every value up to instant 2 but that one.
            Where it comes to `first seconds` at instant 3, whose branch is taken, it refuses, with the number of the wanted
            stream.""",
            ("30 and 10 minutes, the value that a session gives", "20 minutes and none; a session gives no value of this instant",
             "the number itself is wanted, and it is outside", "the property at this instant",
             "2,400, 1,200 and 4,800, back through three instants",
             "the sum is wanted and named, and not stream 6, which left the range", "the other band at the same instant",
             "an instant later, where nothing is remembered", "and where all that was booked is added up",
             "there are streams 0 to 14", "there are instants 0 to 4"))),
    Example(
        "forged", "A forged certificate",
        """A licence office says at each instant whether a licence is valid, and its word takes two instants to arrive at the
        booking desk. Until then the desk takes the licence to be valid.""",
        (("valid", "a constant"), ("said", "the licence is valid, says the office"),
         ("under way", "what it said one instant before"), ("known", "what the desk knows, the property")),
        "the desk always has a valid licence. This is false: if `said` is 0 at instant 0, `known` is 0 at instant 2.",
        "1, but no depth would do.",
        """the base is sound: `known` holds at instants 0 and 1. The step's line 10 joins lines 7 and 4, `{!valid}` and `{valid}`,
        and has no literals left, which would end the step. Both are lines of the base, where line 7 was won from "`known` fails
        at instant 0 or 1". The step may not say that: its offset 1 is any instant from 2 on. A join takes lower lines of its own
        part, so line 10 is refused with 19. A checker that looks up cited lines without asking for their part would accept a
        false property.""",
        booking_proofs.base_for_step(), "refused 19 line 10"),
    Example(
        "forged-pairs", "A forged cut",
        """The node of pairs-of-minutes, but the tone's clock is put only one minute on: after the first instant the tone of
        turn t is sent at minute 2t + 2, which is even.""",
        pairs("two"),
        """no booking begins in a tone's minute. This is false: at instant 1 the booking of slot 1 begins at minute 2, and the
        tone of turn 0 is sent then.""",
        "1, but no depth would do.",
        """its lines are those of pairs-of-minutes, byte for byte, and its constraints too, but for two: where those say that
        `three` is at most 3, and at least, these say that `two` is at most 2, and at least. The base is sound at instant 0. So is
        the first cut at instant 1, line 43: 2 `slot` - 2 `turn` is at most 2, and half of that is 1. The second one, line 57, has
        2 `turn` - 2 `slot` at most -2, so `turn` - `slot` is at most -1, but says at most -2, as if there were something to round
        down. But for line 91, the same cut in the step, all lines after it would stand, up to the empty ones: a checker that
        doesn't look at the bound of a cut would accept a false property. As a line of kind 4 it would be refused with 20.""",
        parity_proofs.forged(), "refused 22 line 57"),
    Example(
        "forged-minutes", "A forged bound",
        """The node of half-minutes, but passes are half as long: 60 half minutes. The slots are as before.""",
        HALVES,
        """the half minutes booked are at most 60, those of a pass. This is false: where 60 minutes are asked for at instant 0
        they are booked, and these are 120 half minutes.""",
        "1, but no depth would do.",
        """its lines are those of half-minutes, byte for byte, and its constraints too, but for five. Three say 60 of `pass` in
        place of 120. The other two, one for each offset, say that 40 `slots` is at most 3: the coefficient of "`slots` is at most
        3" is multiplied and the bound is not. Line 7 has the first of them and is refused with 17, for 40 times the defined
        constraint has bound 120. But for lines 33 and 69, which have the second, all lines after it would stand, up to the empty
        ones: a checker that multiplies coefficients alone would accept a false property. With the bound 120 in both, line 8 would
        be refused with 20.""",
        half_minute_proofs.forged(), "refused 17 line 7"),
    Example(
        "forged-loop", "A loop of equations",
        """Two stations ask for one dish. The second is granted whenever it asks. The first is to be granted if it asks and was
        not granted one instant before, but the author left the `pre` out: it is granted if it is not granted.""",
        (("first", "the first station asks"), ("second", "the second station asks, and is granted"),
         ("granted", "the first is granted"), ("idle", "the first is not granted"), ("both", "both are granted"),
         ("fine", "the property")),
        """never are both granted at one instant. It is neither true nor false: where `first` is 1 the equations have no
        solution, for `granted` would be not `granted`.""",
        "1, but no depth would do.",
        """if both were granted, the first was (`granted`); then it was `idle`, which is not `granted`. The base says so of
        instants 0 and 1, nine lines each, and the step of offset 1. Every line is as the equations have it, and the last one of
        each part has no literals: from equations that nothing solves, everything follows. A checker that only compared lines with
        equations would accept it.""",
        order_proofs.forged(), "refused 23 record 2", (),
        """So the reader asks for an order in which each record comes after those that it needs now. `first` and `second` are
        placed. `granted` waits for `idle` and `idle` for `granted`; `both` waits for `granted`, and `fine` for `both`. The lowest
        record never placed is 2, and the node is refused with 23 before its certificate is looked at. With the property as
        record 0 the verdict would be `refused 23 record 0`: it is in no loop and only waits for one. With the `pre` there is an
        order, and the property fails where both stations ask at instant 0."""),
    Example(
        "forged-flight-list", "A forged clause",
        """The node of flight-list, but its author wants to see a slot free at all times: `free` is held at `slot`, 30, and not at
        `none`. The minutes booked are held between 0 and 90 as before.""",
        FLIGHT,
        """the minutes booked and those free are together at most 90. This is false: where `asked` is 30 at instants 0, 1 and 2,
        90 are booked at instant 2 and 30 are free, together 120.""",
        "1, but no depth would do.",
        """the argument is flight-list's without its first case. Clause 2 of a greater is that `free` is at most `capped` or at
        most `slot`. Line 4 says that `free` is at most `capped`, as if a greater were never its second operand, and is refused
        with 17: a literal is missing. But for lines 38 and 85, which say the same of offset 1, all lines after it would stand, up
        to the empty ones: a checker that is content if what a line has stands in the clause would accept a false property. With
        both literals the case of `slot` is left, which nothing contradicts.""",
        flight_proofs.forged(), "refused 17 line 4", (), "", tuple(flight_proofs.TABLES["forged-flight-list"]),
        """that of flight-list, but `sum` has 119 for 120, too small by one. `before` is at most 90 and `change` at most 30, so
        that 120 would have to be inside, and record 8 is named. With the inputs from above and 30 once more `sum` is 120, at
        instant 3. With the table of flight-list the node would be listed: `free` is 30 to 90 by its operator, which lies inside
        0 to 90. A table says nothing of the property.""",
        "refused 72 record 8"),
    Example(
        "forged-set-up", "A forged base",
        """The node of set-up, but its author says that nothing is ever carried over.""",
        SET_UP,
        """the minutes carried over are at most `none`, 0. This is false: at instant 1 `carried` is 5. The values at instants 0, 1
        and 2 are 5, 0, 5, 0, 1; 5, 0, 0, 5, 0 and 5, 0, 0, 0, 1.""",
        "1, but no depth would do.",
        """its base has instant 0 alone, as in version 1, and begins with line 0, `{!fine}` at offset 0. Its step is that of
        set-up: what is carried over at offset 1 is what `set up` was at offset 0, and that is `none`, for the window begins after
        instant 0. So no part says anything of instant 1. At depth 1 the base's property line has offsets 0 and 1, and line 0 is
        refused with 18. All lines after it would stand, up to the empty ones: a checker with the step of version 2 and the base
        of version 1 would accept a false property. With both literals in line 0, "not `fine` at offset 1" is left, which nothing
        contradicts.""",
        set_up_proofs.first_instant_alone(), "refused 18 line 0"),
    Example(
        "archived-two-bands", "Two bands, archived",
        """The node of two-bands. Two stations ask for one dish, each on its own band. The first is granted whenever it asks, the
        second only if the first doesn't ask.""",
        BANDS,
        "never are both granted at one instant.",
        "1.",
        """that of version 1, byte for byte as it was accepted: `accepted depth 1 base 12 step 12`. Its base is of instant 0 alone
        and its step the same twelve lines one offset on. In version 1 a window of the step could begin at instant 0, so that the
        base ended there. What was shown of the node then holds still, but the file is refused now, by its version byte and before
        any of its lines is looked at. The certificate of two-bands says the same in version 2. With the version byte alone made
        2, line 0 would be refused with 18: it has no offset 1.""",
        archived_file("two-bands"), "refused 12 file"),
)

PAGE = """# Examples

Nodes of a booking scheduler. Each folder has a node file, a certificate file, the one line `verdict` that a checker says of the
two, and a page that gives the equations and the argument. Those for the flight list also have a table of ranges, `table.bin`, and
the one line `listed` that the check of ranges says of node and table. One has a pass of a session on its node, `pass.bin`, and the
lines `says` that are printed when it is run, and one a history of inputs, `history.bin`, questions on it, `questions.bin`, and the
lines `says` that answer these. `tools/make_examples.py` writes all of these.

The certificates are of version 2: at depth k the base shows the property at instants 0 to k, and the step at the last of k + 1
instants in a row that begin after instant 0. Where an argument needs the property of an earlier instant, the step takes it from
its property lines and the base from what it has shown of that instant. One certificate is archived, of version 1.

| Folder | What it is | Verdict |
|---|---|---|
{rows}

From `rust/reference`, a listing of both files and the verdict of the second checker:

    cargo run --offline --quiet --bin reference-list ../../examples/quota/node.bin ../../examples/quota/cert.bin

The line on a table of ranges, after its name:

    tools/check-ranges examples/flight-list/node.bin examples/flight-list/table.bin

The lines of a pass:

    tools/run-pass examples/on-duty

The answers to questions on a history, in its folder:

    cd examples/one-value
    ../../tools/look-up node.bin history.bin questions.bin

[between-commands](between-commands/README.md) has no node of its own: it is a program in C that checks a certificate ten lines at a time between two
commands to an antenna.

    tools/check-in-turns examples/relay
"""


def main():
    folder = ROOT / "examples"
    for example in EXAMPLES:
        files = folder / example.name
        files.mkdir(parents=True, exist_ok=True)
        (files / "node.bin").write_bytes(NODES[example.name])
        (files / "cert.bin").write_bytes(example.certificate_file())
        (files / "verdict").write_text(f"{example.verdict}\n")
        (files / "README.md").write_text(example.page())
        if example.ranges:
            (files / "table.bin").write_bytes(table(example.ranges))
            (files / "listed").write_text(f"{example.listed}\n")
        if example.events:
            (files / "pass.bin").write_bytes(pass_file(example.events, len(example.streams)))
            (files / "says").write_text("".join(f"{line}\n" for line in example.printed()))
        if example.examined:
            history, questions = example.examined.history, example.examined.questions
            (files / "history.bin").write_bytes(history_file(history))
            (files / "questions.bin").write_bytes(questions_file(len(history), [question[:2] for question in questions]))
            (files / "says").write_text("".join(f"{line}\n" for line in example.examined.printed()))
    rows = [f"| [{e.name}]({e.name}/README.md) | {e.title} | `{e.verdict}` |" for e in EXAMPLES]
    (folder / "README.md").write_text(PAGE.format(rows="\n".join(rows)))
    print(f"{len(EXAMPLES)} examples")


main()
