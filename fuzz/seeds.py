#!/usr/bin/env python3
"""Writes the seeds of all targets: seeds.py FOLDER. From the examples, crates/check_pairs, nodes in another order and with loops,
certificates of every depth and of other versions, turns from any line, sessions at the ends of 64 bits, records with trials, look-ups
in and out of histories, and a held level with its ranges."""
import itertools
import pathlib
import struct
import sys

ROOT = pathlib.Path(__file__).resolve().parent.parent
sys.path.insert(0, str(ROOT / "tools"))
from certificate_files import Proof, lit, opp
from node_files import ALL, BOOL, INT, OPERANDS, TWO_BANDS, node as node_file, rec, replaced

DATA = ROOT / "crates" / "check_pairs" / "data"
VERSION = 2
RECORD_FILE = 1040
NATURAL = 128
GREATEST = 0xFFFF
# bytes of a look-up that stand for the greatest number and for half of all
FAR, HALF = 0xF7, 0xF8
INSTANTS = 16
INSTANT, TRIAL, COMMIT, BEGIN = range(4)
# events of a session, eight a seed
AT_ONCE = [INSTANT] * 4 + [TRIAL, INSTANT, COMMIT, INSTANT]
TRIED = [TRIAL, TRIAL, COMMIT, COMMIT, TRIAL, COMMIT, TRIAL, INSTANT]
BEGUN_AGAIN = [COMMIT, TRIAL, INSTANT, TRIAL, BEGIN, COMMIT, TRIAL, COMMIT]
ENDS = [-2**63, -2**62, -1, 0, 1, 2**62, 2**63 - 1]
LIMIT = 4_000_000_000
# 4 is a level that changes by 1, an input, and is held between 2 and 3; 8 to 11 have the other operators of ints
HELD = [
    (rec(1, BOOL, k=1), 0, 0),
    (rec(0, INT), -5, 5),
    (rec(1, INT), 0, 0),
    (rec(1, INT, k=100), 100, 100),
    (rec(13, INT, 2, 7), 0, 100),
    (rec(6, INT, 4, 1), -5, 105),
    (rec(14, INT, 5, 3), -5, 100),
    (rec(15, INT, 6, 2), 0, 100),
    (rec(7, INT, 7, 1), -5, 105),
    (rec(8, INT, 8, k=-3), -315, 15),
    (rec(11, INT, 8, 9, 0), -315, 105),
    (rec(12, INT, 9, 10), -315, 105),
]


def content(path):
    return path.read_bytes() if path.is_file() else b""


def with_operands(record, change):
    """The record with each operand that it reads changed."""
    op, kind, a, b, c, k, rest = struct.unpack("<BBHHHiI", record)
    operands = [change(j, x) if j < OPERANDS[op] else x for j, x in enumerate((a, b, c))]
    return rec(op, kind, *operands, k, rest)


def orders():
    """Nodes with the last record first, and each with an operand that is its own record: a loop, but for b of operator 13."""
    for name, records, prop in [("two-bands", TWO_BANDS, 5), ("all", ALL, 15)]:
        last = len(records) - 1
        there = [with_operands(r, lambda _, x: last - x) for r in reversed(records)]
        yield f"{name}-reversed", node_file(there, last - prop)
        for i, r in enumerate(there):
            for which in range(OPERANDS[r[0]]):
                wrong = with_operands(r, lambda j, x: i if j == which else x)
                yield f"{name}-own-{i}-{which}", node_file(replaced(there, i, wrong), last - prop)


def late(k):
    """A node whose property is what 2 was k instants before, and its certificate of depth k. 2 is 0 -> 1, both true, and 5 is
    3 -> 4, both 7, so that the step has operator 12 of both types at offset 0."""
    true, seven = rec(1, BOOL, k=1), rec(1, INT, k=7)
    streams = [2, *range(6, 6 + k)]
    delays = [rec(13, BOOL, 0, before) for before in streams[:-1]]
    node = node_file([true, true, rec(12, BOOL, 0, 1), seven, seven, rec(12, INT, 3, 4), *delays], streams[k])
    proof = Proof(k)

    def back(line, q):
        """The line with a stream at offset 0 for the property at offset q."""
        for offset in range(q, 0, -1):
            now, before = streams[k - q + offset], streams[k - q + offset - 1]
            line = proof.strike(line, proof.equation(now, offset, 1, lit(now, offset), opp(lit(before, offset - 1))))
        return line

    def arrow(operand):
        """Both clauses of 5 at offset 0."""
        for r, sign in enumerate((1, -1)):
            proof.equation(5, 0, r, proof.at_most({(operand, 0): -sign, (5, 0): sign}, 0))

    fails = proof.property(0, *[opp(lit(streams[k], q)) for q in range(k + 1)])
    for q in range(k + 1):
        first = streams[k - q]
        begins = proof.equation(first, 0, 1, lit(first), opp(lit(0)))
        fails = proof.strike(back(fails, q), begins, proof.equation(0, 0, 0, lit(0)))
    arrow(3)
    proof.begin_step()
    fails = back(proof.property(k, opp(lit(streams[k], k))), k)
    proof.strike(fails, proof.equation(2, 0, 1, lit(2), opp(lit(1))), proof.equation(1, 0, 0, lit(1)))
    arrow(4)
    return node, proof.certificate()


def depths():
    """Certificates of every depth, of other depths and of other versions."""
    for k in range(1, 9):
        node, certificate = late(k)
        yield f"late-{k}", node, certificate.file(version=VERSION)
        for other in (0, 1, 3, 255):
            yield f"late-{k}-version-{other}", node, certificate.file(version=other)
        for other in (0, k - 1, k + 1, 9):
            yield f"late-{k}-depth-{other}", node, certificate.file(version=VERSION, depth=other)


def pairs():
    for name, node in orders():
        yield name, node, b""
    yield from depths()
    for path in sorted((ROOT / "examples").glob("*/node.bin")):
        yield path.parent.name, content(path), content(path.parent / "cert.bin")
    names = (DATA.parent / "args").read_text().splitlines()
    for node, cert in zip(names[::2], names[1::2]):
        yield f"{node}-{cert}", content(DATA / node), content(DATA / cert)


def check_seed(node, cert):
    return struct.pack("<H", len(node)) + node + cert


def turns_seed(node, cert, line, *quotas):
    return struct.pack("<HHH", line, *quotas) + check_seed(node, cert)


def with_cited(cert, first, lines):
    """The first join's line, and the certificate with a line that it cites overwritten: more literals than there is room for."""
    for i in range(lines):
        kind, _, cited = struct.unpack_from("<BBH", cert, first + 80 * i)
        if kind == 3 and cited < i:
            at = first + 80 * cited
            count = min(cert[at + 1], 12)
            listed = cert[at + 8:at + 8 + 2 * count].ljust(24, cert[at + 8:at + 9])
            return i, cert[:at + 1] + b"\xff" + cert[at + 2:at + 8] + listed + cert[at + 32:]
    return 0, cert


def turns(node, cert):
    """Turns from the first line, from the middle, at the end and past it, and at a join that cites an overwritten line."""
    lines = sum(struct.unpack_from("<HH", cert, len(cert) - 10)) if len(cert) >= 16 else 0
    yield "begun", turns_seed(node, cert, 0, 1, 2)
    yield "middle", turns_seed(node, cert, lines // 2, lines // 4, GREATEST)
    first = len(cert) - 16 - 80 * lines
    if not 0 < lines <= 818 or first < 0:
        return
    yield "end", turns_seed(node, cert, lines, 0, GREATEST - 1)
    yield "past", turns_seed(node, cert, lines + 1, GREATEST, 0)
    line, other = with_cited(cert, first, lines)
    yield "cited", turns_seed(node, other, line, 1, 0)


def record(node, started, last, held=0, trial=0):
    """A session record that holds the node, its note taken off; what is not read is 9."""
    used = b""
    if len(node) >= 16:
        used = node[-min(len(node), 16 + 16 * struct.unpack_from("<H", node, len(node) - 12)[0], RECORD_FILE):]
    values = struct.pack("<Q128q", len(used), *[last] * 64, *[trial] * 64)
    return values + used.ljust(RECORD_FILE, b"\0") + bytes([started, held] + [9] * 6)


def session_seed(node, kept, inputs, calls=AT_ONCE, room=NATURAL, count=NATURAL):
    """Calls on a record with these kept parts."""
    events = b"".join(bytes([call, room, count]) for call in calls)
    return events + record(node, *kept) + check_seed(node, struct.pack(f"<{len(inputs)}q", *inputs))


def at_the_ends():
    """A sum, a difference and a multiple of inputs near the ends of 64 bits, four instants a seed."""
    inputs = [x for pair in itertools.product(ENDS, ENDS) for x in pair]
    for name, record in [("sum", rec(6, INT, 0, 1)), ("difference", rec(7, INT, 0, 1)), ("multiple", rec(8, INT, 0, k=-2))]:
        node = node_file([rec(0, INT), rec(0, INT), record, rec(9, BOOL, 0, 1)], 3)
        for i in range(0, len(inputs), 8):
            yield f"{name}-{i}", session_seed(node, (0, 0), inputs[i:i + 8])


def look_up_seed(node, instants, stream, instant, inputs, typed=1, count=NATURAL):
    return bytes([instants, stream, instant, count, typed]) + check_seed(node, struct.pack(f"<{len(inputs)}q", *inputs))


def look_ups(node):
    """The last stream of a node at the last instant, in histories of one and of 16 instants, right and wrong."""
    n = min(node[-12], 64) if len(node) >= 16 else 0
    last = max(n, 1) - 1
    for name, inputs in [("bools", [1, 0, 1]), ("ends", ENDS), ("small", [3, -2, 0, 1, 5])]:
        filled = [inputs[i % len(inputs)] for i in range(INSTANTS * n)]
        yield f"{name}-1", look_up_seed(node, 1, last, 0, filled)
        yield f"{name}-16", look_up_seed(node, INSTANTS, last, INSTANTS - 1, filled)
        yield f"{name}-middle", look_up_seed(node, INSTANTS, last // 2, INSTANTS // 2, filled)
    ones = [1] * (INSTANTS + 1) * n
    yield "untyped", look_up_seed(node, INSTANTS, last, 0, ENDS, typed=0)
    for instants in (INSTANTS, INSTANTS + 1):
        yield f"untyped-later-{instants}", look_up_seed(node, instants, last, 0, ones[:64] + ENDS, typed=0)
    yield "count", look_up_seed(node, INSTANTS, last, 0, ones, count=1)
    yield "long", look_up_seed(node, INSTANTS + 1, last, 0, ones)
    yield "none", look_up_seed(node, 0, last, 0, [])
    yield "no-stream", look_up_seed(node, INSTANTS, n, 0, ones)
    yield "no-instant", look_up_seed(node, INSTANTS, last, INSTANTS, ones)
    yield "far", look_up_seed(node, FAR, FAR, FAR, [])
    yield "half", look_up_seed(node, HALF, 0, 0, [])


def deep():
    """Nodes that are followed far down: 62 doublings, and a chain through all instants."""
    doublings = [rec(1, BOOL, k=1), rec(0, INT), *[rec(6, INT, i, i) for i in range(1, 63)]]
    chain = [rec(0, BOOL), rec(13, BOOL, 0, 63), *[rec(5, BOOL, i, 0) for i in range(1, 63)]]
    return [("doublings", node_file(doublings, 0)), ("chain", node_file(chain, 63))]


def beside_outside():
    """Streams that read 3, twice an input and outside at one of two instants, or 4, a bool made of it."""
    first = [rec(1, BOOL, k=1), rec(1, INT), rec(0, INT), rec(6, INT, 2, 2), rec(9, BOOL, 3, 1), rec(2, BOOL, 0)]
    reading = [rec(3, BOOL, 5, 4), rec(3, BOOL, 4, 5), rec(4, BOOL, 0, 4), rec(4, BOOL, 4, 0), rec(8, INT, 3), rec(7, INT, 3, 2)]
    choosing = [rec(op, INT, *pair, 0) for op in (11, 12, 13) for pair in ((1, 3), (3, 1))]
    records = first + reading + choosing
    node = node_file(records, 0)
    for stream in range(len(first), len(records)):
        for instant, at in itertools.product((0, 1), (0, 1)):
            inputs = replaced([1, 1], at, 2**62)
            yield f"outside-{stream}-{instant}-{at}", look_up_seed(node, 2, stream, instant, inputs)


def ranges_seed(node, table, draws=(), numbers=NATURAL):
    return bytes([numbers]) + check_seed(node, struct.pack(f"<{len(table) + len(draws)}q", *table, *draws))


def tables():
    """The held level with its ranges, with each end one off either way and at or past the limit, and the examples' tables."""
    node = node_file([record for record, _, _ in HELD], 0)
    table = [end for _, *ends in HELD for end in ends]
    for numbers in (NATURAL, len(table), len(table) - 1, 0):
        yield f"held-{numbers}", ranges_seed(node, table, [0, 1, 2, 3], numbers)
    for i, end in enumerate(table):
        for off in (end - 1, end + 1, LIMIT, -LIMIT, LIMIT + 1):
            yield f"held-{i}-{off}", ranges_seed(node, replaced(table, i, off))
    for path in sorted((ROOT / "examples").glob("*/table.bin")):
        yield path.parent.name, bytes([NATURAL]) + check_seed(content(path.parent / "node.bin"), content(path))


def main():
    out = pathlib.Path(sys.argv[1])
    for target in ("fuzz_check", "fuzz_turns", "fuzz_session", "fuzz_look_up", "fuzz_ranges"):
        (out / target).mkdir(parents=True, exist_ok=True)
    nodes = {}
    for name, node, cert in pairs():
        (out / "fuzz_check" / name).write_bytes(check_seed(node, cert))
        for turn, seed in turns(node, cert):
            (out / "fuzz_turns" / f"{name}-{turn}").write_bytes(seed)
        nodes.setdefault(node, name)
    for node, name in nodes.items():
        for i, (kept, inputs, calls) in enumerate([
            ((0, 0), [1, 0] * 32, AT_ONCE),
            ((7, 1, 7, 1), [0, 1, 1] * 21, TRIED),
            ((1, 0), ENDS * 9, TRIED),
            ((1, 2), [], AT_ONCE),
            ((0, 2, 7, 1), [1, 1, 0] * 21, BEGUN_AGAIN),
            ((0, 0, 1, 2), [1, 0] * 32, BEGUN_AGAIN),
            ((1, 1, 0, 2), [1, 0] * 32, TRIED),
        ]):
            (out / "fuzz_session" / f"{name}-{i}").write_bytes(session_seed(node, kept, inputs, calls))
        (out / "fuzz_ranges" / name).write_bytes(ranges_seed(node, []))
    for name, node in [(name, node) for node, name in nodes.items()] + deep():
        for look_up, seed in look_ups(node):
            (out / "fuzz_look_up" / f"{name}-{look_up}").write_bytes(seed)
    for name, seed in beside_outside():
        (out / "fuzz_look_up" / name).write_bytes(seed)
    for name, seed in at_the_ends():
        (out / "fuzz_session" / name).write_bytes(seed)
    for name, seed in tables():
        (out / "fuzz_ranges" / name).write_bytes(seed)


main()
