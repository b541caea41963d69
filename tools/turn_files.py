"""Writers of turns files; and runs on pairs of files, with the lines that crates/check_turns prints of them.

A turns file is a list of unsigned 64-bit numbers, little-endian: the line number of the record that the first turn takes, 0 for a
begun one, and then a quota a turn. Each turn takes the record that the turn before gave. A cut-off last number is ignored, and a
file without a first number has line 0 and no turns.
"""
import struct
from dataclasses import dataclass

import make_certificate_cases

GREATEST = (1 << 64) - 1
# what is written in the end
FILES, NAMES, LINES = {}, [], []
# by the certificate's name: the pairs of crates/check_pairs
PAIRS = {}


@dataclass(frozen=True)
class Pair:
    """A node file and a certificate, each with its name, and what one call says of them. A file may be missing."""
    node_name: str
    node: bytes
    cert_name: str
    cert: bytes
    says: str

    @property
    def counts(self):
        """How many lines base and step have; none where the file has no trailer."""
        return struct.unpack_from("<HH", self.cert, len(self.cert) - 10) if len(self.cert or b"") >= 16 else (0, 0)

    @property
    def lines(self):
        return sum(self.counts)

    @property
    def fault(self):
        """The number of the line that one call refuses."""
        return int(self.says.split(" line ")[1])


def read_pairs():
    make_certificate_cases.all_cases()
    for node_name, name, data, says in make_certificate_cases.CASES:
        node = make_certificate_cases.NODES.get(node_name.removesuffix(".node"))
        PAIRS[name.removesuffix(".cert")] = Pair(node_name, node, name, data, says)


def least_for(answer, lines):
    """The line number that a turn must reach for this answer: past the line that is refused; the end, for an acceptance and for 21;
    none for other refusals, which come before all lines."""
    number, *place = answer.removeprefix("refused ").split()
    if place[0] == "line":
        return int(place[1]) + 1
    return lines if number in ("accepted", "21") else 0


class Run:
    """The turns of a run on a pair, from the record of a line on. `ends` is what a turn with the greatest quota answers there, and
    so does each turn that goes far enough; one that does not is unfinished."""

    def __init__(self, name, pair, line, ends):
        self.name, self.pair, self.line, self.ends = f"{name}.turns", pair, line, ends
        assert self.name not in FILES, name
        for file, data in ((pair.node_name, pair.node), (pair.cert_name, pair.cert)):
            assert FILES.setdefault(file, data) == data, file
        FILES[self.name] = struct.pack("<Q", line)
        NAMES.extend([pair.node_name, pair.cert_name, self.name])
        LINES.append(f"{self.name}: from line {line}")

    def turn(self, quota, says=None):
        """`says` is the line of the turn without its quota."""
        reached = self.line + min(quota, self.pair.lines - self.line)
        answer = self.ends if reached >= least_for(self.ends, self.pair.lines) else "unfinished"
        checked = 0 if answer.startswith("refused") else reached - self.line
        self.line += checked
        line = f"checked {checked} to line {self.line}: {answer}"
        assert says in (None, line), (self.name, line, says)
        FILES[self.name] += struct.pack("<Q", quota)
        LINES.append(f"quota {quota}: {line}")

    def turns(self, *quotas):
        for quota in quotas:
            self.turn(quota)

    def cut_off(self, written):
        """The start of a quota, of which nothing is said."""
        FILES[self.name] += written


def begun(name, pair):
    return Run(name, pair, 0, pair.says)


def forged(name, pair, line, ends):
    """From a record that no turn gave."""
    return Run(name, pair, line, ends)
