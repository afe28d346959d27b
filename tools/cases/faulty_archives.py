# Archives in which faults are planted, for tools/cases/faulty_cases.py: small whole archives, each with the faults
# that are put into it one by one: each byte and each field of its header, each byte and each number of its
# directories, its end, and several at once. An archive is its number and its edits, (place, bytes that are lost,
# bytes that come).
import random

from cases import hostile_archives
from cases import sample_archives
from models import pmtiles as pm
from models.imported import DEEP

ALL, GREAT = 2 ** 64 - 1, 2 ** 32 - 1
ROOM = 48
CONTENTS = bytes(range(48, 64))


class Tile:
    def __init__(self, first, offset, length, run=1):
        self.first, self.offset, self.length, self.run = first, offset, length, run


class Leaf:
    """A directory below another one. Where it is said to lie at a place, it lies there and has no entries of its own.
    """

    def __init__(self, first, entries, place=None):
        self.first, self.entries, self.place = first, entries, place


def spelled(numbers):
    """Numbers as varints, where they aren't bytes already."""
    return b''.join(n if isinstance(n, bytes) else pm.varint(n) for n in numbers)


class Base:
    """An archive by its entries: the header, the root with room behind it, the metadata, the contents, and the
    leaves, each with room behind it, so that a longer directory leaves all else where it is."""

    def __init__(self, root, text=b'{}', **fields):
        self.text, self.fields, self.planted = text, fields, {}
        self.directories = []
        self.number(root)
        self.data = self.laid()

    def number(self, entries):
        """Numbers the directories, each before those below it."""
        self.directories.append(entries)
        for e in entries:
            if isinstance(e, Leaf) and e.place is None:
                e.number = len(self.directories)
                self.number(e.entries)

    def row(self, e):
        if isinstance(e, Tile):
            return e.first, e.offset, e.length, e.run
        if e.place is not None:
            return e.first, *e.place, 0
        return e.first, (e.number - 1) * ROOM, len(self.spelled(e.number)), 0

    def numbers(self, k):
        return pm.numbers([self.row(e) for e in self.directories[k]])

    def spelled(self, k):
        numbers = self.numbers(k)
        for (at, i), n in self.planted.items():
            if at == k:
                numbers[i] = n
        return spelled(numbers)

    def place(self, k):
        """Where a directory lies in the archive."""
        return 127 if k == 0 else 127 + 2 * ROOM + len(self.text) + len(CONTENTS) + (k - 1) * ROOM

    def laid(self):
        root = self.spelled(0)
        leaves = b''.join(self.spelled(k).ljust(ROOM, b'\0') for k in range(1, len(self.directories)))
        h = pm.default_header()
        text = 127 + 2 * ROOM
        h.update(root_length=len(root), metadata_offset=text, metadata_length=len(self.text), data_offset=text + len(self.text), data_length=len(CONTENTS), leaf_offset=text + len(self.text) + len(CONTENTS), leaf_length=len(leaves))
        h.update(self.fields)
        return pm.header(h) + root.ljust(2 * ROOM, b'\0') + self.text + CONTENTS + leaves

    def with_number(self, k, i, n):
        """The archive whose directory has another number at a place, and is said to be as long as it is then."""
        self.planted[k, i] = n
        try:
            return self.laid()
        finally:
            self.planted.clear()


def chain(depth):
    """Leaves one below another, each behind a tile."""
    entries = [Tile(depth, 3, 1, 2)]
    for t in reversed(range(depth)):
        entries = [Tile(t, t % 5, 1), Leaf(t + 1, entries)]
    return entries


FLAT = Base([Tile(0, 0, 2), Tile(1, 2, 1, 2), Tile(3, 0, 2), Tile(5, 7, 0), Tile(6, 15, 1, 3)])
LEVELS = Base([Tile(0, 0, 2), Leaf(1, [Tile(1, 1, 1), Tile(2, 2, 3, 2), Tile(4, 1, 1)]), Leaf(5, [Tile(5, 9, 1), Tile(7, 2, 3)])], text=b'{"a":1}')
SIX, SEVEN = Base(chain(6)), Base(chain(7))
EMPTY = Base([Leaf(t, [], (t % 3 * 0, 1)) for t in range(4)] + [Leaf(4, [Tile(4, 0, 1)])])
CYCLE = Base([Tile(0, 0, 1), Leaf(1, [Tile(1, 1, 1), Leaf(2, [], (0, 9))])])
TO_ROOT = Base([Tile(0, 0, 1), Leaf(1, [], (0, 9))], leaf_offset=127)
BORDERS = Base([Tile(DEEP - 2, 0, 1, 2), Tile(pm.LAST - 1, 1, 0, 2)])


def other_bytes(byte, values):
    return sorted({*values, (byte + 1) % 256, (byte - 1) % 256, byte ^ 128} - {byte})


FEW = (0, 1, 255)
SOME = (0, 1, 2, 3, 4, 5, 7, 126, 127, 128, 129, 254, 255)
MANY = (*range(0, 18), 31, 32, 48, 63, 64, *range(120, 136), 160, 191, 192, 224, 240, *range(248, 256))
EACH = range(256)


def header_bytes(data, values):
    for at in range(127):
        for byte in other_bytes(data[at], values):
            yield [(at, 1, bytes([byte]))]


def header_fields(data):
    """Each place, length and number of the header at its ends: those of the archive, of the bytes that are read
    first, and of u64."""
    h = pm.read_header(data)
    for i, name in enumerate(pm.PLACES):
        now, other = h[name], h.get(name.replace('offset', 'length') if 'offset' in name else name.replace('length', 'offset'), 0)
        values = {0, 1, 126, 127, 128, now - 1, now + 1, 2 * now, len(data) - 1, len(data), len(data) + 1, len(data) - other, len(data) - other + 1, 16383, 16384, 16385, 16384 - other, 16385 - other, GREAT, GREAT + 1,
                  2 ** 60, 2 ** 63 - 1, 2 ** 63, ALL - other - 1, ALL - other, ALL - other + 1, ALL - len(data), ALL - 1, ALL}
        for n in sorted(v for v in values if 0 <= v <= ALL and v != now):
            yield [(8 + 8 * i, 8, n.to_bytes(8, 'little'))]


def directory_bytes(base, directories, values):
    for k in directories:
        at = base.place(k)
        for i, byte in enumerate(base.spelled(k)):
            for other in other_bytes(byte, values):
                yield [(at + i, 1, bytes([other]))]


# Spellings that aren't short, that have no end, and that pass their type.
LONG = [b'\x80\0', b'\x81\0', b'\x80' * 9 + b'\0', b'\x80' * 9 + b'\1', b'\xff' * 9 + b'\1', b'\x80' * 9 + b'\2', b'\x80' * 10, b'\x80' * 10 + b'\1', b'\xff' * 11, b'\xff\xff\xff\xff\x1f',
        b'\x80\x80\x80\x80\x10', b'\x80\x80\x80\x80\x80\0']


def directory_numbers(base, directories):
    """Each number of directories at the ends of its type and of what it says, a count that no memory is taken for,
    and spellings that are none."""
    for k in directories:
        for i, now in enumerate(base.numbers(k)):
            values = {0, 1, 2, 3, 5, now - 1, now + 1, now + 2, 2 * now, 17, 18, 127, 128, 16383, GREAT - 1, GREAT, GREAT + 1, DEEP, pm.LAST, pm.LAST + 1, 2 ** 60, 2 ** 62, 2 ** 63, ALL - 300, ALL - 1, ALL}
            for n in [*sorted(v for v in values if 0 <= v and v != now), *LONG]:
                yield edits(base.data, base.with_number(k, i, n))


def cuts(data, first=0):
    """The archive cut at each length."""
    for length in range(first, len(data)):
        yield [(length, len(data) - length, b'')]


def shifts(base, directories):
    """A byte less and one more at each place of directories, and behind them."""
    for k in directories:
        at = base.place(k)
        for i in range(len(base.spelled(k)) + 1):
            yield [(at + i, 1, b'')]
            for byte in FEW:
                yield [(at + i, 0, bytes([byte]))]


def edits(old, new):
    """What makes one archive of another one: pieces of equal length that differ, and what is behind the shorter one."""
    found, at, least = [], 0, min(len(old), len(new))
    while at < least:
        if old[at:at + 32] == new[at:at + 32]:
            at += 32
            continue
        if old[at] == new[at]:
            at += 1
            continue
        end = at + 1
        while end < least and old[end:end + 6] != new[end:end + 6]:
            end += 1
        found.append((at, end - at, new[at:end]))
        at = end
    if len(old) != len(new):
        found.append((least, len(old) - least, new[least:]))
    return found


def edited(data, changes):
    """Edits one after another, each on what those before it made."""
    for at, lost, piece in changes:
        assert at + lost <= len(data)
        data = data[:at] + piece + data[at + lost:]
    return data


def several(base, chance, count):
    """Two or three faults at once: bytes of the header and of directories, and maybe an end."""
    places = [*range(8, 100), *(base.place(k) + i for k in range(len(base.directories)) for i in range(len(base.spelled(k))))]
    weights = [1 if at < 127 else 6 for at in places]
    for _ in range(count):
        data = base.data
        for at in chance.choices(places, weights, k=chance.choice([2, 2, 3])):
            data = edited(data, [(at, 1, bytes([chance.choice(other_bytes(data[at], MANY if at >= 127 else SOME))]))])
        if chance.random() < 0.1:
            data = data[:chance.randrange(127, len(data))]
        yield edits(base.data, data)


def plans(base, chance, count):
    """Archives of any entries with up to three faults among them."""
    for _ in range(count):
        data, _ = hostile_archives.case(chance)
        yield edits(base.data, data)


class One:
    """The archive of one tile as it is written, with its root in the first 16,384 bytes."""
    data, directories = sample_archives.ONE, [[Tile(0, 0, 1)]]

    def spelled(self, k):
        return self.data[127:132]

    def place(self, k):
        return 127


def all_of(base):
    return range(len(base.directories))


def faults():
    """Each kind of fault: its archive, and its edits one after another."""
    chance, one = random.Random(60), One()
    yield one, [[]]
    yield one, header_bytes(one.data, FEW)
    yield one, header_fields(one.data)
    yield one, directory_bytes(one, (0,), EACH)
    yield LEVELS, header_bytes(LEVELS.data, SOME)
    for base, directories in ((FLAT, (0,)), (LEVELS, (0, 1, 2)), (EMPTY, (0, 1)), (CYCLE, (0, 1)), (TO_ROOT, (0,)), (BORDERS, (0,))):
        yield base, [[]]
        yield base, header_fields(base.data)
        yield base, directory_bytes(base, directories, MANY if base is LEVELS else SOME)
        yield base, directory_numbers(base, directories)
        yield base, shifts(base, directories)
        yield base, several(base, chance, 200)
    for base, directories in ((SIX, (0, 5, 6)), (SEVEN, (6, 7))):
        yield base, [[]]
        yield base, directory_bytes(base, all_of(base), FEW)
        yield base, directory_numbers(base, directories)
        yield base, several(base, chance, 200)
    for base in (LEVELS, FLAT):
        yield base, cuts(base.data)
    yield SEVEN, cuts(SEVEN.data, 240)
    yield LEVELS, plans(LEVELS, chance, 400)
