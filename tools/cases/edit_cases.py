# Rows that edit a loaded set, one edit after another, and commit the changes, for tools/cases/set_rows.py.
import random

from cases.patch_cases import held, named, say_rows, some_set
from models import patches
from models.hashes import digest
from models.names import ALGORITHMS, CONTENT_TABLES, TILE_TABLES
from models.patches import order
from models.tables import loaded

CONTENT = 'images'


def shown_set(rows, layout, s, algorithm):
    after = patches.State(layout, s.tables)
    tiles = [((z, c, r), cell, after.ids.get((z, c, r))) for (z, c, r), cell in sorted(after.tiles.items())]
    names = [(name, 'n' if value is None else 't' + value) for name, value in sorted(after.names.items(), key=lambda n: n[0].encode())]
    return loaded(layout, tiles, names, ALGORITHMS[algorithm])


class Edits:
    """The tables of a set under edits, and what was edited."""

    def __init__(self, rows, layout, s):
        self.rows, self.layout, self.s = rows, layout, s
        self.algorithm = patches.State(layout, s.tables).algorithm
        self.edited = set()

    def state(self):
        return patches.State(self.layout, self.s.tables)

    def set(self, z, x, y, cell):
        row = 2 ** z - 1 - y
        key, name = [f'i{z}', f'i{x}', f'i{row}'], 't' + digest(self.algorithm, bytes.fromhex(cell[1:]))
        rest = {'flat': [cell], 'flat-with-hash': [cell, name], 'cache': ['n', 'n', 'n', cell]}.get(self.layout, [name])
        patches.put_row(self.s.tables[TILE_TABLES[self.layout]], 3, order, key + rest)
        self.edited.add((z, x, row))
        if self.layout in CONTENT_TABLES:
            patches.put_row(self.s.tables[CONTENT], 1, order, [name, cell])
            self.edited.add(name)

    def clear(self, z, x, y):
        place = (z, x, 2 ** z - 1 - y)
        if place in self.state().tiles:
            patches.remove(self.s.tables[TILE_TABLES[self.layout]], [f'i{n}' for n in place])
            self.edited.add(place)

    def put(self, name, cell):
        patches.put_row(self.s.tables['metadata'], 1, order, ['t' + name, cell])
        self.edited.add(('name', name))

    def remove(self, name):
        if name in self.state().names:
            patches.remove(self.s.tables['metadata'], ['t' + name])
            self.edited.add(('name', name))

    def drop(self):
        state = self.state()
        for name in set(state.contents) - set(state.ids.values()):
            patches.remove(self.s.tables[CONTENT_TABLES[self.layout]], [name])
            self.edited.add(name)


def edit_case(rows, layout, pushes, *edits):
    """A set, its edits in words, the set after them, how many changes there are, and the tables after the commit."""
    s = held(rows, layout, pushes)
    e = Edits(rows, layout, s)
    for word, *given in edits:
        getattr(e, word)(*given)
    call = f'edit {len(edits)}' + ''.join(' ' + ' '.join(map(str, edit)) for edit in edits)
    rows.row(call, *shown_set(rows, layout, s, e.algorithm), len(e.edited), 'Ok(())')
    say_rows(s)
    rows.row('load', *shown_set(rows, layout, s, e.state().algorithm))


def each_layout(rows):
    d = {h: 't' + digest('md5', bytes.fromhex(h)) for h in ('01', '02')}
    sets = {
        'flat': [('tiles', 'i1', 'i0', 'i0', 'x01'), ('tiles', 'i1', 'i1', 'i0', 'n')],
        'flat-with-hash': [('tiles_with_hash', 'i1', 'i0', 'i0', 'x01', d['01']), ('tiles_with_hash', 'i1', 'i1', 'i0', 'n', 'n')],
        'cache': [('tile_cache', 'i1', 'i0', 'i0', 'i5', 'i6', 'tv', 'x01'), ('tile_cache', 'i1', 'i1', 'i0', 'n', 'n', 'n', 'n')],
    }
    for layout in ('normalized', 'normalized-with-view'):
        sets[layout] = [('images', d['01'], 'x01'), ('images', d['02'], 'x02'), ('images', 'n', 'x09'), ('map', 'i1', 'i0', 'i0', d['01']), ('map', 'i1', 'i1', 'i0', d['01']), ('map', 'i1', 'i0', 'i1', 'n')]
    for layout, pushes in sets.items():
        pushes = pushes + named(('name', 'town'), ('bounds', None))
        there, other, none = (1, 0, 1), (1, 1, 1), (1, 0, 0)
        for edits in (
            [],
            # one that is new, one in place of another, and the same bytes again
            [('set', *none, 'x0203')], [('set', *there, 'x0203')], [('set', *there, 'x01')], [('set', 0, 0, 0, 'x')], [('set', 30, 0, 0, 'x02')], [('set', *there, 'x02'), ('drop',)],
            [('set', *there, 'x0203'), ('set', *there, 'x0405')], [('set', *none, 'x0203'), ('set', *other, 'x0203')],
            # one that goes, one that isn't there, and one that comes back
            [('clear', *there)], [('clear', *other)], [('clear', *none)], [('clear', *there), ('clear', *there)], [('set', *none, 'x07'), ('clear', *none)],
            [('clear', *there), ('set', *there, 'x0203')], [('clear', *there), ('set', *there, 'x0203'), ('clear', *there)],
            [('clear', *other), ('clear', *there), ('set', *there, 'x08'), ('set', *other, 'x09'), ('set', 0, 0, 0, 'x0a')],
            # contents that no tile has any more, and that come back
            [('clear', *there), ('clear', *other), ('drop',)], [('drop',), ('set', *none, 'x02')], [('clear', *there), ('clear', *other), ('drop',), ('set', *none, 'x01'), ('drop',)],
            # names
            [('put', 'name', 'tcity')], [('put', 'format', 'tpng')], [('put', 'name', 'n')], [('put', 'bounds', 't1,2,3,4')], [('put', 'a', 'ta'), ('put', 'z', 'n'), ('put', 'a', 'tb')],
            [('remove', 'name')], [('remove', 'bounds')], [('remove', 'nobody')], [('remove', 'name'), ('remove', 'name')], [('put', 'new', 'tn'), ('remove', 'new')],
            [('remove', 'name'), ('put', 'name', 'tcity')], [('remove', 'bounds'), ('remove', 'name'), ('put', 'bounds', 'n'), ('put', 'm', 'tm'), ('put', 'name', 'tback')],
            # the algorithm stays
            [('put', 'hash_algorithm', 'tmd5'), ('set', *none, 'x0203')],
        ):
            edit_case(rows, layout, pushes, *edits)


def other_sets(rows):
    """Other algorithms; sets of numbers as ids, whose tiles go and whose names change; and what is no edit."""
    edit_case(rows, 'flat', [('tiles', 'i1', 'i0', 'i0', 'x01'), ('tiles', 'i1', 'i1', 'i0', 'n')], ('put', 'hash_algorithm', 'tXxh64'), ('set', 1, 0, 0, 'x0203'))
    edit_case(rows, 'flat-with-hash', named(('hash_algorithm', 'xxh3')), ('set', 1, 0, 0, 'x0203'), ('set', 2, 3, 3, 'x'))
    edit_case(rows, 'normalized', named(('hash_algorithm', 'fnv1a-decimal')), ('set', 1, 0, 0, 'x0203'), ('set', 2, 3, 3, 'x0203'), ('clear', 1, 0, 0))
    numbers = [('tiles_data', 'i7', 'x01'), ('tiles_data', 'i-3', 'n'), ('tiles_shallow', 'i2', 'i3', 'i0', 'i-3'), ('tiles_shallow', 'i2', 'i0', 'i3', 'i7')]
    for edits in ([('clear', 2, 0, 0)], [('clear', 2, 0, 0), ('drop',)], [('clear', 2, 3, 3), ('clear', 2, 1, 1), ('drop',), ('put', 'name', 'tn')]):
        edit_case(rows, 'dedup-id', numbers, *edits)
    s = held(rows, 'flat', [])
    for call in ('edit', 'edit 1', 'edit 1 set 0 0 0 n', 'edit 1 set 0 0 1 x', 'edit 1 put name i5', 'edit 1 put name x00', 'edit 1 clear 32 0 0', 'edit 1 move 0 0 0'):
        rows.refused(call)
    say_rows(s)


def some_edit(chance, layout):
    z = chance.randrange(3)
    place = (z, chance.randrange(2 ** z), chance.randrange(2 ** z))
    word = chance.choice(['set', 'set', 'set', 'clear', 'clear', 'put', 'remove', 'drop'])
    if word == 'set' and layout != 'dedup-id':
        return ('set', *place, chance.choice(['x', 'x01', 'x02', 'x0203', 'x0405']))
    if word == 'put':
        return ('put', chance.choice(['name', 'format', 'a', 'z']), chance.choice(['tA', 'tB', 't', 'n']))
    if word == 'remove':
        return ('remove', chance.choice(['name', 'format', 'a', 'z']))
    return ('drop',) if word == 'drop' else ('clear', *place)


def random_edits(rows):
    chance = random.Random(16)
    for layout in TILE_TABLES:
        for _ in range(16):
            names = chance.sample([('name', 'town'), ('format', None), ('m', 'M')], chance.randrange(4))
            edit_case(rows, layout, some_set(chance, layout, names), *(some_edit(chance, layout) for _ in range(chance.randrange(1, 12))))


def write(rows):
    each_layout(rows)
    other_sets(rows)
    random_edits(rows)
