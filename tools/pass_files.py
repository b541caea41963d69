"""Writers of pass files, event by event; a tiny session over Python's unbounded whole numbers, written from the published rules;
and passes on nodes, with the lines that crates/run_passes prints of them.

A pass file is a list of events, each: u16 kind, u16 count m, u16 room r, 8·m bytes; all little-endian. A cut-off last event is
ignored. A trial has m signed 64-bit inputs and a slice of r values, and so has the old call, which is every kind but 1, 2 and 3;
the program makes a count or a room over 65 as 65. A commit's m and r say nothing, and its bytes are skipped. A beginning's file is
the first r of its bytes, or all of them where r is more.
"""
import struct

from node_files import BOOL, node

OLD, TRIAL, COMMIT, BEGINNING = range(4)
LEAST, GREATEST = -(1 << 63), (1 << 63) - 1
# what is written in the end
FILES, NAMES, LINES = {}, [], []
# by name: records, property and note of a node; a file that is refused and what is said of it
NODES, REFUSED = {}, {}


def event(kind, inputs, room):
    return struct.pack(f"<HHH{len(inputs)}q", kind, len(inputs), room, *inputs)


def pass_file(events, streams):
    """Of events that are each a kind, inputs and a line, none of them a beginning; slices have the length they should have."""
    return b"".join(event(kind, inputs, 0 if kind == COMMIT else streams) for kind, inputs, _ in events)


def beginning(data, room):
    """Zeros fill the last eight bytes up."""
    count = (len(data) + 7) // 8
    return struct.pack(f"<HHH{8 * count}s", BEGINNING, count, room, data)


# What a record with operands a, b, c and constant k gives, from the values now and before, None at instant 0.
ROWS = {
    1: lambda a, b, c, k, now, before: k,
    2: lambda a, b, c, k, now, before: 1 - now[a],
    3: lambda a, b, c, k, now, before: int(now[a] == 1 and now[b] == 1),
    4: lambda a, b, c, k, now, before: int(now[a] == 1 or now[b] == 1),
    5: lambda a, b, c, k, now, before: int(now[a] == now[b]),
    6: lambda a, b, c, k, now, before: now[a] + now[b],
    7: lambda a, b, c, k, now, before: now[a] - now[b],
    8: lambda a, b, c, k, now, before: k * now[a],
    9: lambda a, b, c, k, now, before: int(now[a] <= now[b]),
    10: lambda a, b, c, k, now, before: int(now[a] == now[b]),
    11: lambda a, b, c, k, now, before: now[a] if now[c] == 1 else now[b],
    12: lambda a, b, c, k, now, before: now[a] if before is None else now[b],
    13: lambda a, b, c, k, now, before: now[a] if before is None else before[b],
    14: lambda a, b, c, k, now, before: now[a] if now[a] <= now[b] else now[b],
    15: lambda a, b, c, k, now, before: now[b] if now[a] <= now[b] else now[a],
}


# how many operands each operator needs now, a first
NEEDED = (0, 0, 1, 2, 2, 2, 2, 2, 1, 2, 2, 3, 2, 1, 2, 2)


def order_of(records):
    """Each time the lowest record that is not placed and whose operands needed now are."""
    order = []
    while len(order) < len(records):
        order.append(next(i for i, (op, _, *operands) in enumerate(records)
                          if i not in order and all(a in order for a in operands[:NEEDED[op]])))
    return order


class Session:
    """A session on a node's records, or on none. `last` are the values of the last committed instant, None before instant 0, and
    `held` those of the trial that is held, None where none is."""

    def __init__(self):
        self.records = self.order = self.last = self.held = None

    def begin(self, records):
        """Beginning on a node that is accepted; one that is refused keeps all."""
        self.records = [struct.unpack("<BBHHHiI", record) for record in records]
        self.order = order_of(self.records)
        self.last = self.held = None
        return f"begun streams {len(records)}"

    def trial(self, inputs, room):
        """Holds its values; where it is refused, what was held."""
        if self.records is None:
            return "refused 30 file"
        places = [i for i, record in enumerate(self.records) if record[0] == 0]
        if len(inputs) != len(places):
            return "refused 31 file"
        if room != len(self.records):
            return "refused 32 file"
        given = dict(zip(places, inputs))
        for i in places:
            if self.records[i][1] == BOOL and given[i] not in (0, 1):
                return f"refused 33 record {i}"
        now = {}
        for i in self.order:
            op, _, a, b, c, k, _ = self.records[i]
            now[i] = given[i] if op == 0 else ROWS[op](a, b, c, k, now, self.last)
            if not LEAST <= now[i] <= GREATEST:
                return f"refused 34 record {i}"
        self.held = now
        return " ".join(["answered", *[str(now[i]) for i in range(len(now))]])

    def commit(self):
        """Advances to the trial that is held, and then holds none."""
        if self.records is None:
            return "refused 30 file"
        if self.held is None:
            return "refused 35 file"
        self.last, self.held = self.held, None
        return "answered"

    def call(self, inputs, room):
        """The old call: a trial and its commit."""
        line = self.trial(inputs, room)
        if line.startswith("answered"):
            self.commit()
        return line


def kept(line):
    """An answer as the program prints it: a refused call keeps what it was lent."""
    return f"{line} kept" if line.startswith("refused") else line


class Pass:
    """A node file and the events of a pass on it; `begins` is what is said of a file that is refused and has no records. An event
    `says` its answer alone: the line without the word before it and `kept` after it."""

    def __init__(self, name, node_name, data, records, begins=None):
        assert FILES.get(f"{node_name}.node", data) == data and f"{name}.pass" not in FILES, name
        self.name, self.session = f"{name}.pass", Session()
        FILES[f"{node_name}.node"] = data
        FILES[self.name] = b""
        NAMES.extend([f"{node_name}.node", self.name])
        LINES.append(f"{self.name}: {self.session.begin(records) if records else begins}")

    def add(self, written, line, printed, says):
        assert says in (None, line), (self.name, line, says)
        FILES[self.name] += written
        LINES.append(printed)

    def room(self, room):
        """That of a slice of n values where none is given."""
        return len(self.session.records or []) if room is None else room

    def call(self, *inputs, room=None, kind=OLD, says=None):
        room = self.room(room)
        line = self.session.call(inputs, room)
        self.add(event(kind, inputs, room), line, kept(line), says)

    def calls(self, *lists):
        for inputs in lists:
            self.call(*inputs)

    def trial(self, *inputs, room=None, says=None):
        room = self.room(room)
        line = self.session.trial(inputs, room)
        self.add(event(TRIAL, inputs, room), line, f"trial: {kept(line)}", says)

    def commit(self, *skipped, room=0, says=None):
        line = self.session.commit()
        self.add(event(COMMIT, skipped, room), line, f"commit: {kept(line)}", says)

    def begin(self, data, records, room=None, says=None):
        """A beginning on these bytes, or on the first `room` of them: a file with these records, or, without any, one that is
        refused as it `says`."""
        line = self.session.begin(records) if records else says
        self.add(beginning(data, len(data) if room is None else room), line, f"beginning: {line}", says)

    def cut_off(self, written):
        """The start of an event, of which nothing is said."""
        FILES[self.name] += written


def begun(name, records, prop, note=b"", node_name=None):
    NODES[node_name or name] = records, prop, note
    return Pass(name, node_name or name, node(records, prop, note), records)


def again(name, node_name):
    """Another pass on a node."""
    return begun(name, *NODES[node_name], node_name)


def not_begun(name, data, says, node_name=None):
    """A pass on a record that holds no node."""
    REFUSED[node_name or name] = data, says
    return Pass(name, node_name or name, data, None, says)


def shown(order, line):
    """The line of an answered call on records that stand in another order."""
    word, *values = line.split()
    return " ".join([word, *[values[old] for old in order]])
