"""Writers of history files and of questions files; a look-up over Python's unbounded whole numbers, written from the published
rules; and questions on nodes and histories, with the lines that crates/look_ups prints of them.

A history file is signed 64-bit numbers in a row, little-endian: all inputs in turn, those of an instant in record order. A rest of
fewer than 8 bytes is ignored, and more than 2,048 numbers count as the first 2,048. A questions file is unsigned 64-bit numbers in
a row, little-endian: the count of instants, and then a stream and an instant for each question. A last number without its pair and
a rest of fewer than 8 bytes are ignored, and a file without a whole number has no instants and no question. A file that is not
there counts as empty, and of a longer one the first 65,536 bytes are read.
"""
import struct

from node_files import BOOL, OPERANDS, node
from pass_files import GREATEST, LEAST, ROWS, Session, order_of

MOST_INSTANTS, MOST_NUMBERS = 16, 2048
# what is written in the end
FILES, NAMES, LINES = {}, [], []
# by name: a node's file, its records, None where it is refused, and what is said of it then
NODES = {}
# written down for an answer: 34 with the wanted record
OUT = "34"


def history_file(rows):
    """Of the inputs of each instant."""
    numbers = [number for row in rows for number in row]
    return struct.pack(f"<{len(numbers)}q", *numbers)


def questions_file(instants, questions=()):
    return struct.pack("<Q", instants) + b"".join(struct.pack("<QQ", *question) for question in questions)


def numbers_of(data):
    """What a history file holds."""
    return list(struct.unpack_from(f"<{min(len(data) // 8, MOST_NUMBERS)}q", data))


def unpacked(records):
    return [struct.unpack("<BBHHHiI", record) for record in records]


def solution(records, inputs, numbers, instants):
    """The value of each stream at each instant, however large: the only one that the equations have."""
    order, values, before = order_of(records), [], None
    for j in range(instants):
        now = dict(zip(inputs, numbers[len(inputs) * j:]))
        for i in order:
            op, _, a, b, c, k, _ = records[i]
            if op != 0:
                now[i] = ROWS[op](a, b, c, k, now, before)
        values.append(now)
        before = now
    return values


def followed(record, now, instant):
    """Where a visited stream leads to: "the condition and taken branch of an "if", the operand chosen by 12 and 13, and all
    operands of others"."""
    op, _, a, b, c, _, _ = record
    if op == 11:
        return [(c, instant), (a if now[c] == 1 else b, instant)]
    if op == 12:
        return [(a if instant == 0 else b, instant)]
    if op == 13:
        return [(a, instant) if instant == 0 else (b, instant - 1)]
    return [(operand, instant) for operand in (a, b)[:OPERANDS[op]]]


def visited(records, values, stream, instant):
    """All streams, each with its instant, that are visited from the wanted one."""
    found, waiting = set(), [(stream, instant)]
    while waiting:
        i, j = waiting.pop()
        if (i, j) not in found:
            found.add((i, j))
            waiting += followed(records[i], values[j], j)
    return found


class History:
    """A count of instants and all their inputs in turn, for an accepted node's records."""

    def __init__(self, records, instants, numbers):
        self.records, self.instants, self.numbers = unpacked(records), instants, numbers
        self.inputs = [i for i, record in enumerate(self.records) if record[0] == 0]
        self.refusal = self.refused()
        if self.refusal is None and instants <= MOST_INSTANTS:
            self.values = solution(self.records, self.inputs, numbers, instants)
            self.session = self.stepped(records)

    def refused(self):
        """31 or 33, where the history itself is refused."""
        if len(self.numbers) != self.instants * len(self.inputs):
            return "refused 31 file"
        for place, number in enumerate(self.numbers):
            i = self.inputs[place % len(self.inputs)]
            if self.records[i][1] == BOOL and number not in (0, 1):
                return f"refused 33 record {i}"
        return None

    def stepped(self, records):
        """What a session says of each instant, up to the first that it refuses."""
        session, lines, count = Session(), [], len(self.inputs)
        session.begin(records)
        for j in range(self.instants):
            lines.append(session.call(self.numbers[count * j:count * (j + 1)], len(records)))
            if not lines[-1].startswith("answered"):
                break
        return lines

    def look_up(self, stream, instant):
        if self.refusal:
            return self.refusal
        if self.instants > MOST_INSTANTS or stream >= len(self.records) or instant >= self.instants:
            return "refused 65 file"
        inside = all(LEAST <= self.values[j][i] <= GREATEST for i, j in visited(self.records, self.values, stream, instant))
        line = f"value {self.values[instant][stream]}" if inside else f"refused 34 record {stream}"
        # "It agrees with the session on each instant that the session reaches."
        reached = self.session[instant].split() if instant < len(self.session) else ["refused"]
        assert reached[0] == "refused" or line == f"value {reached[1 + stream]}", (stream, instant, line)
        return line


def accepted(name, records, prop, note=b""):
    NODES[name] = node(records, prop, note), records, None


def accepted_file(name, data):
    """A node file that is accepted and has no note."""
    NODES[name] = data, [data[at:at + 16] for at in range(0, len(data) - 16, 16)], None


def refused(name, data, says):
    NODES[name] = data, None, says


def written(stream, says):
    """An answer that is written down: a value as its number, 34 with the wanted record as OUT, and others to the letter."""
    if isinstance(says, int):
        return f"value {says}"
    return f"refused 34 record {stream}" if says == OUT else says


class Questions:
    """Questions on a node and the inputs of each instant, with as many instants as there are rows unless another count is given.
    `history` is the name of an earlier case whose history file this is too; `more` are bytes after the rows."""

    def __init__(self, name, node_name, rows, instants=None, history=None, more=b""):
        data, records, self.refusal = NODES[node_name]
        instants = len(rows) if instants is None else instants
        held = history_file(rows) + more
        self.name, history = f"{name}.questions", f"{history or name}.history"
        assert self.name not in FILES, name
        for file, content in ((f"{node_name}.node", data), (history, held)):
            assert FILES.setdefault(file, content) == content, file
        numbers = numbers_of(held)
        self.history = History(records, instants, numbers) if records else None
        FILES[self.name] = questions_file(instants)
        NAMES.extend([f"{node_name}.node", history, self.name])
        LINES.append(f"{self.name}: instants {instants} inputs {len(numbers)}")

    def ask(self, stream, instant, says=None):
        line = self.refusal or self.history.look_up(stream, instant)
        assert says is None or written(stream, says) == line, (self.name, stream, instant, line, says)
        FILES[self.name] += struct.pack("<QQ", stream, instant)
        LINES.append(f"stream {stream} instant {instant}: {line}")

    def each(self, questions, says):
        """Questions that all have one answer."""
        for stream, instant in questions:
            self.ask(stream, instant, says)

    def streams(self, instant, *says):
        """All streams at an instant."""
        for stream, answer in zip(range(len(self.history.records)), says, strict=True):
            self.ask(stream, instant, answer)

    def instants(self, stream, *says):
        """A stream at all instants."""
        for instant, answer in zip(range(self.history.instants), says, strict=True):
            self.ask(stream, instant, answer)

    def all(self, columns=()):
        """All streams at all instants; of some streams all answers are written down."""
        columns = dict(columns)
        for stream in range(len(self.history.records)):
            self.instants(stream, *columns.get(stream, [None] * self.history.instants))

    def session(self, *lines):
        """What a session says of the instants up to the first that it refuses."""
        assert list(lines) == self.history.session, (self.name, self.history.session)

    def stops(self, instant, line):
        """The instant that a session refuses, after it has answered those before, and its word."""
        assert (len(self.history.session) - 1, self.history.session[-1]) == (instant, line), (self.name, self.history.session)

    def cut_off(self, more):
        """Bytes of which nothing is said."""
        FILES[self.name] += more

    def file(self, data):
        """Other bytes in place of the questions file's, None where it is missing."""
        FILES[self.name] = data
