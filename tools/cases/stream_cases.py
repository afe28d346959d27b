# Rows that go through the tiles of a set in the order of its rows, for tools/cases/mbtiles_rows.py.
import random
import sqlite3

from cases.patch_cases import named, some_set
from cases.refused_sets import GONE, OUTSIDE, WRONG_HASH, odd_name
from models.hashes import digest
from models.held_sets import Held, data_of, summed
from models.names import CONTENT_TABLES, DATA_COLUMNS, TILE_TABLES


def listed(held, given=None):
    """The tiles in the order of the rows, of all or of so many: each a place and the bytes, or None. A row without an
    id is none."""
    contents = {c[0]: c[1] for c in held.tables.get(CONTENT_TABLES.get(held.layout), []) if c[0] != 'n'}
    for cells in held.tables[TILE_TABLES[held.layout]][:given]:
        if held.layout in CONTENT_TABLES and cells[3] == 'n':
            continue
        z, x, row = (int(c[1:]) for c in cells[:3])
        cell = contents[cells[3]] if held.layout in CONTENT_TABLES else cells[DATA_COLUMNS[held.layout]]
        yield f'{z}/{x}/{2 ** z - 1 - row}', data_of(cell)


def data_word(data):
    return 'n' if data is None else 'x' + data.hex()


def stream(rows, tiles, word='stream'):
    tiles = list(tiles)
    rows.row(f'{word} coords', *(place for place, _ in tiles), 'end')
    rows.row(f'{word} tiles', *(piece for place, data in tiles for piece in (place, data_word(data))), 'end')


def summed_stream(rows, held, given=None, failing=None):
    """How many there are, and the digest of what is printed of all of them. Where a call fails, of those in so many
    rows, behind the failure."""
    tiles = list(listed(held, given))
    for call, text in (('coords', ''.join(f'{place} ' for place, _ in tiles)), ('tiles', ''.join(f'{place} {data_word(data)} ' for place, data in tiles))):
        rows.row(f'stream {call}_digest', *([] if given is None else ['StoreFault']), len(tiles), summed(text))
        if given is not None:
            held.asked += failing
            held.fail(failing)


def each_layout(rows):
    hello = digest('md5', b'hello')
    sets = {
        'flat': [('tiles', 'i1', 'i1', 'i0', 'n'), ('tiles', 'i1', 'i0', 'i1', 'x01'), ('tiles', 'i1', 'i0', 'i0', 'x'), ('tiles', 'i0', 'i0', 'i0', 'x02'), ('tiles', 'i30', 'i0', 'i1073741823', 'n')],
        'flat-with-hash': [('tiles_with_hash', 'i2', 'i3', 'i0', 'x68656c6c6f', 't' + hello.lower()), ('tiles_with_hash', 'i2', 'i0', 'i3', 'n', 'tany'), ('tiles_with_hash', 'i0', 'i0', 'i0', 'x', 'n')],
        'cache': [('tile_cache', 'i1', 'i0', 'i1', 'i5', 'i6', 'tv', 'x68656c6c6f'), ('tile_cache', 'i1', 'i0', 'i0', 'n', 'n', 'n', 'n'), ('tile_cache', 'i0', 'i0', 'i0', 'n', 'n', 'n', 'x')],
        # rows without an id stand before others and between them, also rows of no place
        'dedup-id': [('tiles_data', 'i7', 'x01'), ('tiles_data', 'i-3', 'n'), ('tiles_data', 'n', 'x09'), ('tiles_shallow', 'i2', 'i3', 'i0', 'i-3'), ('tiles_shallow', 'i2', 'i0', 'i3', 'i7'), ('tiles_shallow', 'i2', 'i1', 'i0', 'n'),
                     ('tiles_shallow', 'i0', 'i0', 'i0', 'i7'), ('tiles_shallow', 'n', 'o', 'i5', 'n'), ('tiles_shallow', 'i99', 'i0', 'i0', 'n')],
    }
    for layout in ('normalized', 'normalized-with-view'):
        sets[layout] = [('images', 't' + hello, 'x68656c6c6f'), ('images', 'tnull', 'n'), ('images', 'n', 'x09'), ('map', 'i1', 'i1', 'i0', 't' + hello), ('map', 'i1', 'i0', 'i1', 'n'), ('map', 'i1', 'i0', 'i0', 'tnull'),
                        ('map', 'i0', 'i0', 'i0', 't' + hello), ('map', 'i-1', 'n', 'o', 'n'), ('map', 'i77', 'i0', 'i0', 'n')]
    for layout, pushes in sets.items():
        stream(rows, listed(Held(rows, layout, [*pushes, *named(('name', 'town'))])))
        stream(rows, listed(Held(rows, layout, [])))
    # null rows alone
    stream(rows, listed(Held(rows, 'normalized', [('map', 'i0', 'i0', 'i0', 'n'), ('map', 'i1', 'i0', 'i0', 'n')])))


def random_streams(rows):
    chance = random.Random(34)
    for layout in TILE_TABLES:
        for _ in range(8):
            stream(rows, listed(Held(rows, layout, some_set(chance, layout, []))))


def filled(rows, layout, count, contents):
    """A set of many rows, which the program makes from these numbers: the n-th place, and its contents by the rest of
    n; the last rest has none."""
    held = Held.__new__(Held)
    held.rows, held.layout, held.asked = rows, layout, count + (contents if layout in CONTENT_TABLES else 0)
    ids = [f'i{k}' if layout == 'dedup-id' else 't' + digest('md5', b'%d' % k) for k in range(contents)]
    tiles = {}
    for n in range(count):
        place, k = (13, n * 4999 % 8192, n * 77 % 8192), n % (contents + 1)
        key = [f'i{part}' for part in place]
        plain = 'n' if k == contents else 'x' + (b'%d' % k).hex()
        tiles[place] = (*key, 'n' if k == contents else ids[k]) if layout in CONTENT_TABLES else (*key, plain)
    held.tables = {'metadata': [], TILE_TABLES[layout]: [tiles[place] for place in sorted(tiles)]}
    if layout in CONTENT_TABLES:
        held.tables[CONTENT_TABLES[layout]] = sorted(((ids[k], 'x' + (b'%d' % k).hex()) for k in range(contents)), key=lambda r: int(r[0][1:]) if layout == 'dedup-id' else r[0])
    rows.row(f'set fill {layout} {count} {contents}')
    return held


def large(rows):
    for layout, count, contents in (('flat', 3000, 40), ('dedup-id', 1500, 6), ('normalized', 5000, 100), ('normalized', 1500, 1)):
        held = filled(rows, layout, count, contents)
        held.say_digests()
        summed_stream(rows, held)


def refusals(rows):
    for layout, pushes, refusal in (OUTSIDE, odd_name('cache'), WRONG_HASH, GONE):
        held = Held(rows, layout, pushes)
        for call in ('coords', 'tiles', 'coords_digest', 'tiles_digest'):
            rows.row('stream ' + call, refusal)
        held.say()
    rows.row('set none')
    rows.row('stream coords', 'InvalidDataFormat')
    rows.row('stream tiles', 'InvalidDataFormat')
    rows.refused('stream')
    rows.refused('stream all')


# how many rows of the table of places are asked for at once, where there are few
PAGE = 1024


def faults(rows):
    """Each call of the store fails in turn. While the set is loaded and its rows are counted, the failure is the
    answer; after that it is the last item, behind the tiles of the pages before."""
    hello = digest('md5', b'hello')
    for layout, pushes in (('flat', [('tiles', 'i1', 'i0', 'i0', 'x30'), ('tiles', 'i1', 'i1', 'i0', 'n')]), ('flat', []),
                           ('normalized', [('images', 't' + hello, 'x68656c6c6f'), ('map', 'i1', 'i0', 'i0', 't' + hello), ('map', 'i0', 'i0', 'i0', 'n')])):
        for call in ('coords', 'tiles'):
            held = Held(rows, layout, pushes)
            for number in range(1, held.load_calls() + 2):
                held.fail(number)
                rows.row('stream ' + call, 'StoreFault')
                held.asked += number
            if pushes:
                held.fail(held.load_calls() + 2)
                rows.row('stream ' + call, 'StoreFault', 'end')
                held.asked += held.load_calls() + 2
            rows.row('set fail')
            held.say()
            stream(rows, listed(held))
    for layout, count, contents in (('flat', 3000, 40), ('normalized', 2500, 30)):
        held = filled(rows, layout, count, contents)
        pages = -(-len(held.tables[TILE_TABLES[layout]]) // PAGE)
        for page in range(pages):
            number = held.load_calls() + 2 + page
            held.fail(number)
            summed_stream(rows, held, page * PAGE, number)
        rows.row('set fail')
        summed_stream(rows, held)


def in_a_database(rows):
    """A database gives its rows by their numbers, which is another order than that of places."""
    chance = random.Random(35)
    places = [(z, x, y) for z in range(3) for x in range(2 ** z) for y in range(2 ** z)]
    for layout in ('flat', 'normalized'):
        for _ in range(6):
            base = sqlite3.connect(':memory:')
            if layout == 'flat':
                text = 'CREATE TABLE tiles (zoom_level INTEGER, tile_column INTEGER, tile_row INTEGER, tile_data BLOB);INSERT INTO tiles VALUES ' + ', '.join(
                    f"({z}, {x}, {y}, {chance.choice(['NULL', repr(b'').replace('b', 'x'), chr(120) + chr(39) + '0102' + chr(39)])})" for z, x, y in chance.sample(places, 9))
                asked = 'SELECT zoom_level, tile_column, tile_row, tile_data FROM tiles ORDER BY rowid'
            else:
                name = digest('md5', b'hello')
                text = (f"CREATE TABLE images (tile_id TEXT, tile_data BLOB);INSERT INTO images VALUES ('{name}', x'68656c6c6f'), ('null', NULL);"
                        'CREATE TABLE map (zoom_level INTEGER, tile_column INTEGER, tile_row INTEGER, tile_id TEXT);INSERT INTO map VALUES '
                        + ', '.join(f"({z}, {x}, {y}, {chance.choice(['NULL', chr(39) + name + chr(39), chr(39) + 'null' + chr(39)])})" for z, x, y in chance.sample(places, 9)))
                asked = 'SELECT zoom_level, tile_column, tile_row, tile_data FROM map JOIN images USING (tile_id) ORDER BY map.rowid'
            base.executescript(text)
            rows.row(f"database new {layout} {text.replace(' ', '~')}")
            tiles = [(f'{z}/{x}/{2 ** z - 1 - row}', data) for z, x, row, data in base.execute(asked)]
            stream(rows, tiles, 'database stream')
            base.close()


def write(rows):
    for cases in (each_layout, random_streams, large, refusals, faults, in_a_database):
        cases(rows)
