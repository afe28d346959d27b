# Archives with planted faults, imported into an empty flat set, for tools/cases/import_rows.py. The first failing
# test is worked out by tools/models/imported.py from the bytes alone.
import collections
import random

from cases.import_cases import Quiet, rows_text
from cases.rows import word
from models import pmtiles as pm
from models.imported import DEEP, Reads, imported

ALL, GREAT = 2 ** 64 - 1, 2 ** 32 - 1
BYTES = bytes(range(48, 48 + 24))
COUNT = 3000


class Tile:
    def __init__(self, first, run, offset, length):
        self.first, self.run, self.offset, self.length = first, run, offset, length


class Leaf:
    """A directory below another one: its entries, and what its range is said to be, where that isn't where it lies."""

    def __init__(self, first, entries):
        self.first, self.entries = first, entries
        self.offset = self.length = self.spelled = None


class Plan:
    """An archive that is still entries: the root, fields of its header, and what is cut off at the end."""

    def __init__(self, chance):
        self.chance, self.fields, self.lost = chance, {}, 0
        self.next = chance.choice([0, 0, 0, 1, 5, 20, DEEP - 20, pm.LAST - 30])
        self.root = self.directory(chance.choice([0, 0, 1, 1, 2, 3, 4, 5, 6]))

    def directory(self, leaves):
        """Entries in order, some of which are leaves, down to so many more."""
        entries = []
        for _ in range(self.chance.choice([1, 2, 2, 3, 4])):
            if leaves and self.chance.random() < 0.6:
                first = self.next
                self.next += self.chance.randrange(3)
                entries.append(Leaf(first, self.directory(leaves - 1)))
            else:
                entries.append(self.tile())
        return entries

    def tile(self):
        first, run = self.next, self.chance.choice([1, 1, 1, 2, 3])
        self.next += run + self.chance.choice([0, 0, 1, 4])
        offset = self.chance.randrange(20)
        return Tile(first, run, offset, self.chance.choice([0, 1, 1, 2, 4]))

    def all(self, entries=None, above=()):
        """Each entry with the directory that it stands in, its index there, and the leaves above it."""
        for i, e in enumerate(self.root if entries is None else entries):
            yield e, (self.root if entries is None else entries), i, above
            if isinstance(e, Leaf):
                yield from self.all(e.entries, (*above, e))


def spelled(entries):
    """A directory whose ids may fall: they pass u64 then."""
    return b''.join(pm.varint(n % 2 ** 64) for n in pm.numbers(entries))


def laid(entries, leaf_part):
    """The entries of a directory, whose leaves are put behind those that are there already."""
    rows = []
    for e in entries:
        if isinstance(e, Tile):
            rows.append((e.first % 2 ** 64, min(e.offset, ALL - 1), e.length, e.run))
            continue
        inner = laid(e.entries, leaf_part)
        data = spelled(inner) if e.spelled is None else e.spelled(spelled(inner))
        offset, length = len(leaf_part), len(data)
        leaf_part += data
        rows.append((e.first % 2 ** 64, offset if e.offset is None else e.offset, length if e.length is None else e.length(length), 0))
    return rows


def archive(plan):
    """Its bytes: the header, the root, the tiles and the leaves."""
    leaf_part = bytearray()
    root = spelled(laid(plan.root, leaf_part))
    h = pm.default_header()
    data_offset = 127 + len(root)
    h.update(root_length=len(root), metadata_offset=127, metadata_length=0, data_offset=data_offset, data_length=len(BYTES), leaf_offset=data_offset + len(BYTES), leaf_length=len(leaf_part))
    h.update(plan.fields)
    data = pm.header(h) + root + BYTES + bytes(leaf_part)
    return data[:len(data) - plan.lost]

# Faults. Each takes a plan, and changes it where it can.


def some(plan, kind):
    found = [x for x in plan.all() if isinstance(x[0], kind)]
    return plan.chance.choice(found) if found else (None, None, None, ())


def equal_id(plan):
    e, entries, i, _ = some(plan, (Tile, Leaf))
    if i:
        e.first = entries[i - 1].first


def falling_id(plan):
    e, entries, i, _ = some(plan, (Tile, Leaf))
    if i:
        e.first = entries[i - 1].first - 1


def below_its_leaf(plan):
    e, _, i, above = some(plan, (Tile, Leaf))
    if above:
        above[-1].first += plan.chance.choice([1, 2, 9])


def past_its_leaf(plan):
    e, entries, i, above = some(plan, (Tile, Leaf))
    if above and i == len(entries) - 1:
        e.first += plan.chance.choice([0, 3, 20, 200])


def run_too_long(plan):
    e, _, _, _ = some(plan, Tile)
    if e:
        e.run += plan.chance.choice([1, 2, 5, 50, GREAT - 10])
        e.run = min(e.run, GREAT)


def run_of_billions(plan):
    e, entries, i, above = some(plan, Tile)
    if e and i == len(entries) - 1 and not above:
        e.run, e.length = GREAT, plan.chance.choice([0, 1])


def too_deep(plan):
    """Leaves of one entry each, up to seven."""
    e, entries, i, above = some(plan, (Tile, Leaf))
    for _ in range(plan.chance.choice([1, 7 - len(above), 6 - len(above), 7]) if e else 0):
        entries[i] = Leaf(e.first, [entries[i]])


def tile_past_end(plan):
    e, _, _, _ = some(plan, Tile)
    if e:
        e.offset = plan.chance.choice([24, 25, 400, 2 ** 40, ALL - 1, ALL - 5])
        e.length = plan.chance.choice([0, 1, 4, GREAT])


def leaf_past_end(plan):
    e, _, _, _ = some(plan, Leaf)
    if e:
        e.offset = plan.chance.choice([300, 2 ** 40, ALL - 1, ALL - 5])


def leaf_too_long(plan):
    e, _, _, _ = some(plan, Leaf)
    if e:
        more = plan.chance.choice([1, 3, 50, 10 ** 6])
        e.length = lambda n: n + more


def leaf_too_short(plan):
    e, _, _, _ = some(plan, Leaf)
    if e:
        left = plan.chance.choice([0, 1, 2, 4])
        e.length = lambda n: min(left, n)


def leaf_not_decoded(plan):
    e, _, _, _ = some(plan, Leaf)
    if e:
        piece = plan.chance.choice([b'\xff' * 11, b'\x80', b'\x7f', b'', b'\1\0\1\1\0', b'\2\0\1'])
        e.spelled = lambda data: piece + data[len(piece):]


def cycle(plan):
    """A leaf that leads to the place of another one, or to its own."""
    e, _, _, _ = some(plan, Leaf)
    if e:
        e.offset = plan.chance.choice([0, 5, 10])


def past_max_id(plan):
    plan.root.append(Tile(plan.chance.choice([pm.LAST, pm.LAST + 1, pm.LAST - 1, ALL - 1, ALL]), plan.chance.choice([1, 2, 3, GREAT]), 0, plan.chance.choice([0, 1, 1])))


def deep_zoom(plan):
    plan.root.append(Tile(plan.chance.choice([DEEP - 2, DEEP - 1, DEEP, DEEP + 7]), plan.chance.choice([1, 2, 3]), 0, plan.chance.choice([0, 1, 1])))


def header_field(plan):
    plan.fields[plan.chance.choice(['root_offset', 'root_length', 'data_offset', 'leaf_offset', 'internal', 'tile', 'type', 'version'])] = plan.chance.choice([0, 1, 2, 4, 7, 126, 127, 128])


def far_parts(plan):
    plan.fields[plan.chance.choice(['data_offset', 'leaf_offset', 'root_offset', 'root_length'])] = plan.chance.choice([ALL, ALL - 20, 2 ** 63, 16384, 100000])


def cut_short(plan):
    plan.lost = plan.chance.choice([1, 1, 2, 5, 30, 100])


FAULTS = (equal_id, falling_id, below_its_leaf, past_its_leaf, run_too_long, run_of_billions, too_deep, tile_past_end, leaf_past_end, leaf_too_long, leaf_too_short, leaf_not_decoded, cycle, past_max_id, deep_zoom,
          header_field, far_parts, cut_short)


def case(chance):
    """The bytes of an archive, and how many tiles may be imported from it."""
    plan = Plan(chance)
    for _ in range(chance.choice([0, 1, 1, 1, 2, 2, 3])):
        chance.choice(FAULTS)(plan)
    most = chance.choice([0, 1, 2, 3, 5, 10, 100, 100, 100, ALL])
    tiles = sum(e.run for e, _, _, _ in plan.all() if isinstance(e, Tile))
    return archive(plan), min(most, 1000) if tiles > 1000 else most


def write(rows):
    chance = random.Random(50)
    met = collections.Counter()
    for _ in range(COUNT):
        data, most = case(chance)
        held, reads = Quiet(), Reads()
        answer = imported(held, data, most, reads)
        met[answer.split('(')[0] if answer.startswith('Ok') else answer[4:].split('(')[0] + answer.rstrip(')').split('(')[-1][:12]] += 1
        rows.rows.append((f'fresh {most} {word(data)}', f'{answer} {reads.calls} ' + rows_text(held.tables)))
    return met
