"""Writers of node files, field by field, right or wrong, and of tables of ranges; and of the folder of a program that is run on
files."""
import pathlib
import struct

ROOT = pathlib.Path(__file__).resolve().parent.parent
BOOL, INT = 0, 1


def rec(op, kind, a=0, b=0, c=0, k=0, rest=0):
    return struct.pack("<BBHHHiI", op, kind, a, b, c, k, rest)


def trailer(n, prop, distance=None, first=0x4C, second=0x4E, version=1, zero=0, rest=0):
    if distance is None:
        distance = 16 + 16 * n
    return struct.pack("<BBBBHHII", first, second, version, zero, n, prop, distance, rest)


def node(records, prop, note=b"", **fields):
    n = fields.pop("n", len(records))
    return note + b"".join(records) + trailer(n, prop, **fields)


def table(ranges):
    """A table of ranges: least and greatest of stream 0, of stream 1, and on, 8 bytes each."""
    return struct.pack(f"<{2 * len(ranges)}q", *[end for ends in ranges for end in ends])


def replaced(items, i, item):
    return items[:i] + [item] + items[i + 1:]


# how many operands an operator reads, a first
OPERANDS = (0, 0, 1, 2, 2, 2, 2, 2, 1, 2, 2, 3, 2, 2, 2, 2)


def reordered(records, order):
    """The records in another order: `order` has the old number of each. Operands that are read are renumbered with them."""
    def moved(old):
        op, kind, *operands, k, rest = struct.unpack("<BBHHHiI", records[old])
        read = OPERANDS[op]
        return rec(op, kind, *map(order.index, operands[:read]), *operands[read:], k, rest)

    return [moved(old) for old in order]


def reordered_node(data, order):
    """A node file without a note, its records in another order."""
    records = [data[i:i + 16] for i in range(0, len(data) - 16, 16)]
    return node(reordered(records, order), order.index(struct.unpack_from("<H", data, len(data) - 10)[0]))


INPUT = rec(0, BOOL)
# 0, 1 inputs; 2 not 0; 3 = 1 and 2; 4 = 0 and 3; 5 not 4, the property
TWO_BANDS = [INPUT, INPUT, rec(2, BOOL, 0), rec(3, BOOL, 1, 2), rec(3, BOOL, 0, 3), rec(2, BOOL, 4)]
# the same as people write it: 0 = not 5, the property; 1, 2 inputs; 3 not 1; 4 = 2 and 3; 5 = 1 and 4
PROPERTY_FIRST = [rec(2, BOOL, 5), INPUT, INPUT, rec(2, BOOL, 1), rec(3, BOOL, 2, 3), rec(3, BOOL, 1, 4)]
# every operator, and both types of 0, 1, 11, 12 and 13
ALL = [
    rec(0, BOOL),                       # 0
    rec(0, INT),                        # 1
    rec(1, BOOL, k=1),                  # 2
    rec(1, INT, k=-7),                  # 3
    rec(2, BOOL, 0),                    # 4
    rec(3, BOOL, 0, 4),                 # 5
    rec(4, BOOL, 2, 5),                 # 6
    rec(5, BOOL, 0, 6),                 # 7
    rec(6, INT, 1, 3),                  # 8
    rec(7, INT, 8, 1),                  # 9
    rec(8, INT, 9, k=3),                # 10
    rec(9, BOOL, 1, 10),                # 11
    rec(10, BOOL, 8, 9),                # 12
    rec(11, BOOL, 4, 5, 12),            # 13
    rec(11, INT, 8, 9, 11),             # 14
    rec(12, BOOL, 2, 13),               # 15
    rec(12, INT, 3, 14),                # 16
    rec(13, BOOL, 2, 17),               # 17, of itself one instant before
    rec(13, INT, 3, 19),                # 18, of a later record
    rec(6, INT, 18, 1),                 # 19
    rec(14, INT, 1, 3),                 # 20
    rec(15, INT, 19, 20),               # 21
]


def write_data(crate, files, kept=()):
    """The crate's data folder holds these files, by name, those that are kept as they stand, and no others; a file that is None
    is not written."""
    data = ROOT / "crates" / crate / "data"
    data.mkdir(parents=True, exist_ok=True)
    for path in data.iterdir():
        if path.name not in kept:
            path.unlink()
    for name, content in files.items():
        if content is not None:
            (data / name).write_bytes(content)


def write_lines(crate, name, lines):
    (ROOT / "crates" / crate / name).write_text("".join(f"{line}\n" for line in lines))
