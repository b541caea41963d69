"""Writers of certificate files, field by field, right or wrong; and a builder of proofs that works out their joins."""
import struct
from dataclasses import dataclass, replace

from node_files import replaced

# the greatest that a file may have; DIVISOR is a cut's r
BOUND, COEFFICIENT, MULTIPLIER, DIVISOR = 100_000_000_000, 1_000_000_000, 1_000_000, 65_535


def lit(stream, offset=0):
    """The literal of a bool stream at an offset."""
    return 2 * (64 * offset + stream)


def on(i):
    """The literal of constraint i."""
    return 2 * (576 + i)


def opp(literal):
    """A literal's opposite."""
    return literal ^ 1


def term(stream, offset, coefficient, zero=0):
    return struct.pack("<HBBi", stream, offset, zero, coefficient)


def constraint(terms, bound, count=None, zeros=b""):
    """Terms past the count are unused ones; what is not given is zero."""
    count = len(terms) if count is None else count
    return struct.pack("<B7sq64s", count, zeros, bound, b"".join(terms))


def at_most(coefficients, bound):
    """A constraint by its coefficients, which stand by stream and offset."""
    rising = sorted(coefficients.items(), key=lambda item: (item[0][1], item[0][0]))
    return constraint([term(*variable, coefficient) for variable, coefficient in rising], bound)


@dataclass(frozen=True)
class Line:
    """A line; literals and multipliers past the count are unlisted ones, and what is not given is zero."""
    kind: int
    p: int = 0
    q: int = 0
    r: int = 0
    literals: tuple = ()
    multipliers: tuple = ()
    count: int = None

    def packed(self):
        count = len(self.literals) if self.count is None else self.count
        literals = struct.pack(f"<{len(self.literals)}H", *self.literals)
        multipliers = struct.pack(f"<{len(self.multipliers)}I", *self.multipliers)
        return struct.pack("<BBHHH24s48s", self.kind, count, self.p, self.q, self.r, literals, multipliers)


def cut(others, last, r, times=None):
    """A kind 5 line: opposites of the others, times multipliers, over r give the last; each multiplier 1 where none are given."""
    return Line(5, r=r, literals=(*others, last), multipliers=(*(times or (1,) * len(others)), 0))


def trailer(depth, constraints, base, step, distance=None, first=0x4B, second=0x43, version=2, zeros=0):
    if distance is None:
        distance = 16 + 80 * (constraints + base + step)
    return struct.pack("<BBBBHHHHI", first, second, version, depth, constraints, base, step, zeros, distance)


def carried_literal(literal, order):
    """A literal of a node in another order; those on constraints stay."""
    offset, stream = divmod(literal // 2, 64)
    return literal if literal >= on(0) else lit(order.index(stream), offset) + literal % 2


def carried_constraint(packed, order):
    """A constraint of a node in another order: its terms rise by the new numbers."""
    count, _, bound, terms = struct.unpack("<B7sq64s", packed)
    used = list(struct.iter_unpack("<HBBi", terms))[:count]
    return at_most({(order.index(stream), offset): coefficient for stream, offset, _, coefficient in used}, bound)


@dataclass(frozen=True)
class Certificate:
    """Constraints, packed, and lines, of which the first `base` are the base's."""
    depth: int
    constraints: list
    lines: list
    base: int

    def file(self, note=b"", **fields):
        """The file; `fields` are those of its trailer that shall say something else."""
        said = {"depth": self.depth, "constraints": len(self.constraints), "base": self.base,
                "step": len(self.lines) - self.base, **fields}
        return note + b"".join(self.constraints) + b"".join(line.packed() for line in self.lines) + trailer(**said)

    def changed(self, i, **fields):
        """With other fields in line i."""
        return replace(self, lines=replaced(self.lines, i, replace(self.lines[i], **fields)))

    def more(self, *lines, constraints=()):
        """With these step lines and constraints after the others."""
        return replace(self, lines=[*self.lines, *lines], constraints=[*self.constraints, *constraints])

    def with_constraint(self, i, other):
        return replace(self, constraints=replaced(self.constraints, i, other))

    def carried(self, order):
        """The same for the node in another order (`reordered`): every stream that is named has its new number."""
        def moved(line):
            return replace(line, literals=tuple(carried_literal(x, order) for x in line.literals),
                           p=order.index(line.p) if line.kind == 1 else line.p,
                           r=carried_literal(line.r, order) if line.kind == 3 else line.r)

        return replace(self, constraints=[carried_constraint(c, order) for c in self.constraints],
                       lines=[moved(line) for line in self.lines])


class Proof:
    """A certificate that grows line by line, the base first. A method that adds a line gives its number."""

    def __init__(self, depth, constraints=()):
        self.depth = depth
        self.constraints = list(constraints)
        self.lines = []
        self.base = None

    def begin_step(self):
        self.base = len(self.lines)

    def certificate(self):
        return Certificate(self.depth, self.constraints, self.lines, self.base)

    def at_most(self, coefficients, bound):
        """The literal of this constraint, coefficients by stream and offset; one that is not there yet is added."""
        packed = at_most(coefficients, bound)
        if packed not in self.constraints:
            self.constraints.append(packed)
        return on(self.constraints.index(packed))

    def add(self, kind, literals, **fields):
        assert len(literals) <= 12, literals
        self.lines.append(Line(kind, literals=tuple(literals), **fields))
        return len(self.lines) - 1

    def equation(self, p, q, r, *literals):
        return self.add(1, literals, p=p, q=q, r=r)

    def property(self, q, *literals):
        return self.add(2, literals, q=q)

    def fails(self, prop):
        """The base's property line: the property fails at some offset."""
        return self.property(0, *[opp(lit(prop, o)) for o in range(self.depth + 1)])

    def arithmetic(self, *literals, times=None):
        """A kind 4 line, each multiplier 1 where none are given."""
        return self.add(4, literals, multipliers=times or (1,) * len(literals))

    def join(self, p, q, r, *more):
        """Lines p and q joined on r: what q and then p leave, each literal once, and more."""
        left = [x for x in self.lines[q].literals if x != opp(r)] + [x for x in self.lines[p].literals if x != r]
        return self.add(3, [*dict.fromkeys(left), *more], p=p, q=q, r=r)

    def strike(self, line, *others):
        """Joins the line with each of the others in turn, on the one literal that clashes."""
        for other in others:
            [r] = {x for x in self.lines[line].literals if opp(x) in self.lines[other].literals}
            line = self.join(line, other, r)
        return line

    def against(self, lines):
        """The opposites of the constraints of these lines, one in each."""
        return [opp(literal) for line in lines for literal in self.lines[line].literals if literal >= on(0)]

    def clash(self, *lines, times=None):
        """The constraints of these lines, one in each, can't hold together: what the lines have besides them."""
        return self.strike(self.arithmetic(*self.against(lines), times=times), *lines)

    def cut(self, lines, last, r):
        """The sum of the constraints of these lines, one in each, over r is the last: it and what the lines have besides them."""
        self.lines.append(cut(self.against(lines), last, r))
        return self.strike(len(self.lines) - 1, *lines)
