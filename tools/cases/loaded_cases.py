# Rows that make a set of nothing, or load one, edit it and commit it, for tools/cases/mbtiles_rows.py.
import random

from cases.patch_cases import named
from models import shown
from models.hashes import digest
from models.held_sets import Held, say_cell, tile_row
from models.names import ALGORITHMS, CONTENT_TABLES, LAYOUTS, TILE_TABLES
from models.patches import remove
from models.tables import show


class Edited:
    """A set under edits: its tables, and what was edited."""

    def __init__(self, held, algorithm):
        self.held, self.algorithm, self.edited = held, algorithm, set()

    def place(self, z, x, y):
        place = (z, x, 2 ** z - 1 - y)
        self.edited.add(place)
        return place

    def set(self, z, x, y, cell):
        for name, *cells in tile_row(self.held.layout, self.algorithm, self.place(z, x, y), bytes.fromhex(cell[1:])):
            self.held.put(name, cells)
            if name in CONTENT_TABLES.values():
                self.edited.add(cells[0])

    def null(self, z, x, y):
        rest = {'flat': 1, 'flat-with-hash': 2, 'cache': 4}[self.held.layout]
        self.held.put(TILE_TABLES[self.held.layout], [*(f'i{n}' for n in self.place(z, x, y)), *['n'] * rest])

    def times(self, z, x, y, fetched, expires, etag):
        place = self.place(z, x, y)
        data = self.held.state().tiles[place]
        self.held.put('tile_cache', [*(f'i{n}' for n in place), fetched, expires, etag, data])

    def clear(self, z, x, y):
        place = (z, x, 2 ** z - 1 - y)
        if place in self.held.state().tiles:
            self.edited.add(place)
            remove(self.held.tables[TILE_TABLES[self.held.layout]], [f'i{n}' for n in place])

    def put(self, name, cell):
        self.held.put('metadata', ['t' + name, cell])
        self.edited.add(('name', name))


def fields(held, z, x, y):
    """The times of a cache's row, where there is one."""
    key = [f'i{z}', f'i{x}', f'i{2 ** z - 1 - y}']
    row = next((r for r in held.tables.get('tile_cache', []) if list(r[:3]) == key), None)
    return shown.option(None if row is None else f'({", ".join(map(show, row[3:6]))})')


def shown_set(held, algorithm):
    """The layout, the algorithm, each tile with its contents, its id and its times, and the names."""
    state = held.state()
    tiles = [piece for (z, c, r), cell in sorted(state.tiles.items()) for piece in
             (f'{z}/{c}/{2 ** z - 1 - r}', say_cell(cell), say_cell(state.ids.get((z, c, r), 'n')), fields(held, z, c, 2 ** z - 1 - r))]
    names = [piece for name, value in sorted(state.names.items(), key=lambda n: n[0].encode()) for piece in (shown.quoted(name), say_cell('n' if value is None else 't' + value))]
    return LAYOUTS[held.layout], ALGORITHMS[algorithm], *tiles, *names


def edit_words(edits):
    return f'{len(edits)}' + ''.join(' ' + ' '.join(map(str, edit)) for edit in edits)


def apply(held, algorithm, edits):
    edited = Edited(held, algorithm)
    for word, *given in edits:
        getattr(edited, word)(*given)
    return edited.edited


def from_nothing(rows, layout, algorithm, edits, word='empty'):
    """A set that is made of nothing and edited, and committed to an empty store of its layout."""
    held = Held(rows, layout, [])
    edited = apply(held, algorithm, edits)
    rows.row(f'loaded {word} {layout} {algorithm} {edit_words(edits)}', *shown_set(held, algorithm), len(edited), 'Ok(())')
    held.say()


def from_store(rows, layout, pushes, edits, word):
    held = Held(rows, layout, pushes)
    algorithm = held.state().algorithm
    edited = apply(held, algorithm, edits)
    rows.row(f'loaded {word} {edit_words(edits)}', *shown_set(held, algorithm), len(edited), 'Ok(())')
    held.say()


def empty_sets(rows):
    made = [layout for layout in TILE_TABLES if layout != 'dedup-id']
    for layout in made:
        for algorithm in ALGORITHMS:
            from_nothing(rows, layout, algorithm, [])
            from_nothing(rows, layout, algorithm, [('set', 1, 0, 1, 'x68656c6c6f'), ('set', 0, 0, 0, 'x68656c6c6f'), ('set', 30, 0, 0, 'x'), ('put', 'name', 'ttown'), ('put', 'bounds', 'n')])
        nulls = [('null', 2, 1, 3), ('null', 0, 0, 0)] if layout not in CONTENT_TABLES else []
        from_nothing(rows, layout, 'md5', [('set', 1, 0, 1, 'x01'), ('set', 1, 0, 1, 'x02'), ('clear', 1, 0, 1), ('set', 1, 0, 1, 'x03'), *nulls])
    rows.row('set new cache 0')
    rows.refused('loaded empty dedup-id md5 0')
    rows.refused('loaded empty flat crc32 0')
    rows.refused('loaded empty normalized md5 1 null 0 0 0')
    rows.refused('loaded empty flat md5 1 null 31 0 0')
    rows.refused('loaded empty flat md5 1 null 1 2 0')
    for call in ('times 0 0 0 n n n', 'set 0 0 0 x01 times 0 0 0 n', 'set 0 0 0 x01 times 0 0 0 tno n n', 'set 0 0 0 x01 times 0 0 0 n o n', 'set 0 0 0 x01 times 0 0 0 n n i5'):
        rows.refused('loaded empty cache md5 ' + ('2 ' if call.startswith('set') else '1 ') + call)
    rows.refused('loaded empty flat md5 2 set 0 0 0 x01 times 0 0 0 n n n')


def times(rows):
    pushes = [('tile_cache', 'i1', 'i0', 'i0', 'i5', 'n', 'tv', 'x01'), ('tile_cache', 'i1', 'i1', 'i0', 'n', 'i-7', 'n', 'n'), ('tile_cache', 'i1', 'i1', 'i1', 'i1', 'i2', 'tw', 'x01'), *named(('name', 'town'))]
    one, null, other, none = (1, 0, 1), (1, 1, 1), (1, 1, 0), (1, 0, 0)
    for word in ('edit', 'editing'):
        for edits in (
            [], [('times', *one, 'i9', 'i10', 'tnew')], [('times', *one, 'n', 'n', 'n')], [('times', *null, 'i9223372036854775807', 'i-9223372036854775808', 't')],
            # bytes that are put have no times, and get some
            [('set', *one, 'x02')], [('set', *none, 'x01')], [('set', *none, 'x03'), ('times', *none, 'i1', 'i2', 'ta')], [('times', *one, 'i1', 'i2', 'ta'), ('set', *one, 'x01')],
            [('set', *one, 'x01'), ('times', *one, 'i1', 'i2', 'ta'), ('times', *one, 'i3', 'n', 'n')],
            # two tiles of equal bytes have their own times
            [('times', *one, 'i9', 'n', 'n'), ('times', *other, 'n', 'i9', 'n')], [('set', *none, 'x01'), ('times', *none, 'i7', 'i8', 'tb'), ('set', *null, 'x01')],
            # null has no times, and gets some
            [('null', *one)], [('null', *null)], [('null', *none)], [('null', *one), ('times', *one, 'i1', 'n', 'te')], [('times', *one, 'i1', 'n', 'te'), ('null', *one)],
            [('null', *one), ('set', *one, 'x04')], [('set', *none, 'x04'), ('null', *none), ('null', *none)],
        ):
            from_store(rows, 'cache', pushes, edits, word)
            cleared = [(('clear',) + edit[1:4]) for edit in edits if edit[0] == 'set']
            from_store(rows, 'cache', pushes, edits + cleared, word)
        # the other layouts that have null tiles
        for layout, table, rest in (('flat', 'tiles', ['x01']), ('flat-with-hash', 'tiles_with_hash', ['x01', 't' + digest('md5', b'\x01')])):
            for edits in ([('null', *one)], [('null', *none)], [('null', 30, 0, 0)], [('null', *one), ('set', *one, 'x02')], [('set', *one, 'x02'), ('null', *one)], [('set', *none, 'x02'), ('null', *none), ('put', 'name', 'tn')],
                          [('null', *one), ('clear', *one)], [('clear', *one), ('null', *one)]):
                from_store(rows, layout, [(table, 'i1', 'i0', 'i0', *rest)], edits, word)


def random_edits(rows):
    chance = random.Random(36)
    for layout in ('flat', 'flat-with-hash', 'cache'):
        for word in ('edit', 'editing', 'empty'):
            for _ in range(12):
                edits, there = [], set()
                for _ in range(chance.randrange(1, 9)):
                    z = chance.randrange(3)
                    place = (z, chance.randrange(2 ** z), chance.randrange(2 ** z))
                    call = chance.choice(['set', 'set', 'null', 'clear', 'times', 'put'])
                    if call == 'times' and (layout != 'cache' or not there):
                        continue
                    if call == 'times':
                        edits.append((call, *chance.choice(sorted(there)), chance.choice(['n', 'i5']), chance.choice(['n', 'i6']), chance.choice(['n', 'te', 't'])))
                    elif call == 'put':
                        edits.append((call, chance.choice(['name', 'format']), chance.choice(['tA', 'n'])))
                    elif call == 'clear':
                        if place in there or word != 'editing':
                            edits.append((call, *place))
                            there.discard(place)
                    else:
                        edits.append((call, *place, *([chance.choice(['x', 'x01', 'x0203'])] if call == 'set' else [])))
                        there.add(place)
                if word == 'empty':
                    from_nothing(rows, layout, 'md5', edits)
                else:
                    from_store(rows, layout, [], edits, word)


def write(rows):
    for cases in (empty_sets, times, random_edits):
        cases(rows)
