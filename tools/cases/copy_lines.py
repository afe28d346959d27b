# Copies of sets and the stores of crates/copy_rows that they are made in, for tools/cases/copy_cases.py and
# patched_copy_cases.py beside it.
from cases.patch_cases import named
from models.copied import copy
from models.hashes import digest
from models.held_sets import cell_word
from models.names import AGG, CONTENT_TABLES, TILE_TABLES
from models.tables import show_row

LAYOUTS = list(TILE_TABLES)
TYPES = [*LAYOUTS, 'dedup-id-with-view']
MODES = ('override', 'ignore', 'abort')
COPIES = ('all', 'metadata', 'tiles')
ONE, TWO = (digest('md5', data) for data in (b'\x01', b'\x02'))


class Cases:
    """The kept stores, made anew by a line where they differ from those that stand, and the call that copies between
    them."""
    places, word, copy = ('src', 'dst'), 'run', staticmethod(copy)

    def __init__(self, rows):
        self.rows = rows

    def make(self, place, of):
        if of.layout is None:
            return self.rows.row(f'{place} none')
        pushes = ''.join(f" {name} {' '.join(map(cell_word, cells))}" for name, *cells in of.pushes)
        self.rows.row(f'{place} new {of.layout} {len(of.pushes)}{pushes}')
        if of.differences:
            self.rows.row(f'{place} differences', 'Ok(())')

    def say(self, place, of):
        """All rows of the tables that can have some."""
        if of.layout is None:
            return self.rows.row(f'{place} tables')
        self.rows.row(f"{place} rows {' '.join(of.tables)}", *(f"{name} Ok([{', '.join(map(show_row, cells))}])" for name, cells in of.tables.items()))

    def say_metadata(self, place, of):
        cells = of.tables['metadata']
        self.rows.row(f'{place} rows metadata', f"metadata Ok([{', '.join(map(show_row, cells))}])")

    def say_tables(self, place, of):
        self.rows.row(f'{place} tables', *(f'{name} {word}' for name, word in of.described()))

    def line(self, copier):
        return ' '.join([self.word, *copier.words()])

    def run(self, copier, *stores):
        """A copy between stores that stand, and the rows of the destination, which is the last of them."""
        answer = self.copy(copier, *stores)
        self.rows.row(self.line(copier), answer)
        self.say('dst', stores[-1])
        return answer

    def run_made(self, copier, *stores, stands=()):
        """The same of stores that are made, but for those that stand."""
        for place, of in zip(self.places, stores):
            if place not in stands:
                self.make(place, of)
        target = stores[-1]
        was_none = target.layout is None
        answer = self.run(copier, *stores)
        if was_none and target.layout is not None:
            self.say_tables('dst', target)
        return answer

    def case(self, copier, source, target, is_there=False):
        return self.run_made(copier, source, target, stands=('src',) if is_there else ())

    def fail(self, at, call, copier, *stores):
        """The stores are made, and one of them fails at its call of this number, so that nothing is copied."""
        for place, of in zip(self.places, stores):
            self.make(place, of)
            if place == at:
                before = len(of.pushes)
        self.rows.row(f'{at} fail {before + call}')
        self.rows.row(self.line(copier), 'Err(StoreFault)')

    def go_on(self, at, copier, *stores):
        """What stands then, and the copy where no store fails."""
        self.say('dst', stores[-1])
        self.rows.row(f'{at} fail')
        self.run(copier, *stores)


def at_times(chance, fields, **choices):
    """Fields of a copier that are chosen at times: how often, and how."""
    for name, (odds, choose) in choices.items():
        if chance.random() < odds:
            fields[name] = choose()


def some_boxes(chance, edges, most):
    return [tuple(chance.choice(edges) for _ in range(4)) for _ in range(chance.randrange(1, most))]


def some_zooms(chance):
    return chance.sample(range(4), chance.randrange(1, 3))


def zooms_of(layout):
    """A set with tiles of zooms 0 to 3, one of them null where the layout has such rows, names, and what else a
    layout can have."""
    one, two = ('x01', 't' + ONE), ('x02', 't' + TWO)
    places = [((0, 0, 0), one), ((1, 0, 1), two), ((1, 1, 0), ('n', 'n')), ((2, 3, 0), one), ((3, 0, 7), two)]
    names = named(('name', 'town'), ('format', None), ('hash_algorithm', 'MD5'), (AGG, 'old'))
    if layout in CONTENT_TABLES:
        numbers = layout == 'dedup-id'
        ids = {'x01': 'i1' if numbers else 't' + ONE.lower(), 'x02': 'i2' if numbers else 't' + TWO, 'n': 'i3' if numbers else 'tnull'}
        contents = [(CONTENT_TABLES[layout], ids[cell], cell) for cell in ('x01', 'x02', 'n')] + [(CONTENT_TABLES[layout], 'n', 'x09')]
        tiles = [(TILE_TABLES[layout], *(f'i{n}' for n in place), ids[cell]) for place, (cell, _) in places] + [(TILE_TABLES[layout], 'i3', 'i7', 'i7', 'n')]
        return names + contents + tiles
    rest = {'flat': lambda n, cell, name: [cell], 'flat-with-hash': lambda n, cell, name: [cell, name], 'cache': lambda n, cell, name: [f'i{n}', f'i{n + 50}' if n % 2 else 'n', 'tv' if n else 'n', cell]}[layout]
    return names + [(TILE_TABLES[layout], *(f'i{n}' for n in place), *rest(n, cell, name)) for n, (place, (cell, name)) in enumerate(places)]


def other_of(layout):
    """A set that has some of the places and the names of those sets, and others."""
    three = digest('md5', b'\x03')
    places = [((1, 0, 1), 'x03'), ((1, 1, 0), 'x01'), ((2, 0, 0), 'n'), ((2, 3, 0), 'n')]
    names = named(('name', 'city'), ('center', '1,2,3')) + [('metadata', 'n', 'tnobody')]
    if layout in CONTENT_TABLES:
        numbers = layout == 'dedup-id'
        ids = {'x03': 'i3' if numbers else 't' + three, 'x01': 'i1' if numbers else 't' + ONE, 'n': 'i9' if numbers else 'tnone'}
        tiles = [(TILE_TABLES[layout], *(f'i{n}' for n in place), ids[cell]) for place, cell in places] + [(TILE_TABLES[layout], 'i3', 'i0', 'i7', 'n'), (TILE_TABLES[layout], 'i40', 'n', 'o', 'n')]
        return names + [(CONTENT_TABLES[layout], ids[cell], cell) for cell in ('x03', 'x01', 'n')] + tiles
    rest = {'flat': lambda cell: [cell], 'flat-with-hash': lambda cell: [cell, 'n'], 'cache': lambda cell: ['i7', 'i8', 'tw', cell]}[layout]
    return names + [(TILE_TABLES[layout], *(f'i{n}' for n in place), *rest(cell)) for place, cell in places]
