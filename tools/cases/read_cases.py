# Rows that read a set, for tools/cases/mbtiles_rows.py: single tiles, zooms, the name of a set, and what its
# descriptions tell.
import random

from cases.patch_cases import named, some_set
from cases.refused_sets import OUTSIDE, WRONG_HASH, WRONG_ID, odd_algorithm, odd_name
from cases.rows import text_word
from models import shown
from models.hashes import digest
from models.held_sets import Held, blob, data_of, is_coord, row_cells
from models.names import LAYOUTS, TILE_TABLES

# numbers that are a coordinate, that are one of no set, and that are none
FIXED = [(0, 0, 0), (1, 0, 1), (1, 1, 1), (1, 0, 0), (30, 1073741823, 0), (31, 0, 0), (32, 0, 0), (255, 4294967295, 4294967295), (1, 2, 0), (1, 0, 2), (0, 0, 1), (0, 1, 0)]


def stored_hash(held, place):
    """The digest that the tables have for a tile: a cell of its row, the id of its contents, or none in the other
    layouts."""
    cells = row_cells(held, place)
    at = {'flat-with-hash': 1, 'normalized': 0, 'normalized-with-view': 0}.get(held.layout)
    return None if at is None or cells[at] == 'n' else cells[at][1:]


def tile_answers(held, z, x, y):
    """What the three calls answer at three numbers."""
    place = (z, x, 2 ** z - 1 - y)
    tiles = held.state().tiles
    there = is_coord(z, x, y) and place in tiles
    data = data_of(tiles[place]) if there else None
    if data is None:
        return 'Ok(None)', 'Ok(None)', f'Ok({str(there).lower()})'
    return f'Ok(Some({blob(data)}))', f'Ok(Some(({blob(data)}, {shown.option(maybe_text(stored_hash(held, place)))})))', 'Ok(true)'


def maybe_text(text):
    return None if text is None else shown.text(text)


def zooms(held):
    found = [z for z, _, _ in held.state().tiles]
    return f'Ok(Some(({min(found)}, {max(found)})))' if found else 'Ok(None)'


def read_case(rows, layout, pushes, places=FIXED, word='read'):
    held = Held(rows, layout, pushes)
    for z, x, y in places:
        for call, answer in zip(('tile', 'hash', 'has'), tile_answers(held, z, x, y)):
            rows.row(f'{word} {call} {z} {x} {y}', answer)
    rows.row('read zooms', zooms(held))
    return held


def one_tile_each(rows):
    hello = digest('md5', b'hello')
    flat = [('tiles', 'i1', 'i0', 'i0', 'x30'), ('tiles', 'i1', 'i1', 'i0', 'n'), ('tiles', 'i0', 'i0', 'i0', 'x'), ('tiles', 'i30', 'i1073741823', 'i1073741823', 'x07')]
    read_case(rows, 'flat', flat)
    read_case(rows, 'flat', flat, word='name')
    read_case(rows, 'flat', [])
    # stored digests: in lower and in upper case, null, of a null tile, and of no bytes
    hashed = [('tiles_with_hash', 'i1', 'i0', 'i0', 'x68656c6c6f', 't' + hello.lower()), ('tiles_with_hash', 'i1', 'i1', 'i0', 'x68656c6c6f', 't' + hello),
              ('tiles_with_hash', 'i1', 'i0', 'i1', 'x30', 'n'), ('tiles_with_hash', 'i1', 'i1', 'i1', 'n', 'tany'), ('tiles_with_hash', 'i0', 'i0', 'i0', 'x', 't' + digest('md5', b''))]
    read_case(rows, 'flat-with-hash', hashed)
    read_case(rows, 'flat-with-hash', hashed, word='name')
    for algorithm in ('xxh3', 'fnv1a-decimal'):
        name = 't' + digest(algorithm, b'hello')
        read_case(rows, 'flat-with-hash', [('tiles_with_hash', 'i1', 'i0', 'i0', 'x68656c6c6f', name), *named(('hash_algorithm', algorithm))], [(1, 0, 1)])
        read_case(rows, 'normalized', [('images', name, 'x68656c6c6f'), ('map', 'i1', 'i0', 'i0', name), *named(('hash_algorithm', algorithm))], [(1, 0, 1)])
    # ids in lower and in upper case, contents that are null, contents of two tiles, and rows without an id, one of
    # which has no place
    low, high = 't' + hello.lower(), 't' + digest('md5', b'0')
    contents = [('images', low, 'x68656c6c6f'), ('images', high, 'x30'), ('images', 'tnull', 'n'), ('images', 'n', 'x09'), ('map', 'i1', 'i0', 'i0', low), ('map', 'i1', 'i0', 'i1', low), ('map', 'i1', 'i1', 'i0', high),
                ('map', 'i0', 'i0', 'i0', 'tnull'), ('map', 'i1', 'i1', 'i1', 'n'), ('map', 'i40', 'n', 'o', 'n')]
    for layout in ('normalized', 'normalized-with-view'):
        read_case(rows, layout, contents)
    numbers = [('tiles_data', 'i7', 'x68656c6c6f'), ('tiles_data', 'i-3', 'n'), ('tiles_shallow', 'i1', 'i0', 'i0', 'i7'), ('tiles_shallow', 'i1', 'i1', 'i0', 'i-3'), ('tiles_shallow', 'i1', 'i0', 'i1', 'n')]
    read_case(rows, 'dedup-id', numbers)
    read_case(rows, 'cache', [('tile_cache', 'i1', 'i0', 'i0', 'i5', 'i6', 'tv', 'x68656c6c6f'), ('tile_cache', 'i1', 'i1', 'i0', 'n', 'n', 'n', 'n'), ('tile_cache', 'i0', 'i0', 'i0', 'n', 'n', 'n', 'x')])


def random_reads(rows):
    chance = random.Random(31)
    places = [(z, x, y) for z in range(3) for x in range(2 ** z) for y in range(2 ** z)]
    for layout in TILE_TABLES:
        for _ in range(3):
            read_case(rows, layout, some_set(chance, layout, [('name', 'town')]), places)


def refusals(rows):
    """The first refusal of loading comes from each call, also at numbers that are no coordinate."""
    def case(held, *refusal):
        held()
        for call in ('tile 0 0 0', 'hash 0 0 0', 'has 0 0 0', 'tile 32 0 0', 'hash 32 0 0', 'has 32 0 0', 'zooms'):
            rows.row('read ' + call, *refusal)
    number = 'dedup-id', [('tiles_shallow', 'i0', 'i0', 'i0', 'i8')], f'MissingTileReference {{ tile_id: {shown.text("8")}, table: TilesData }}'
    for layout, pushes, refusal in (OUTSIDE, odd_name('flat'), odd_algorithm('crc32'), WRONG_HASH, WRONG_ID, number):
        case(lambda: Held(rows, layout, pushes), f'Err({refusal})')
    case(lambda: rows.row('set none'), 'Err(InvalidDataFormat)')
    for word in ('bare', 'plain'):
        case(lambda: Held(rows, 'flat', [('tiles', 'i0', 'i0', 'i0', 'x30')], word), 'Err(NoUniquenessConstraint)')


def described(rows):
    """The layout of a set and its table without an index, by its descriptions alone."""
    for layout in TILE_TABLES:
        # a bad row isn't looked at
        Held(rows, layout, [('metadata', 'i1', 'i1')])
        rows.row('name type', f'Ok({LAYOUTS[layout]})')
        rows.row('name index', 'Ok(None)')
        Held(rows, layout, [], 'bare')
        rows.row('name type', 'Err(NoUniquenessConstraint)')
        rows.row('name index', f'Ok(Some("{TILE_TABLES[layout]}"))')
        Held(rows, layout, [], 'plain')
        rows.row('name type', 'Err(NoUniquenessConstraint)')
        rows.row('name index', 'Ok(None)')
    rows.row('set none')
    rows.row('name type', 'Err(InvalidDataFormat)')
    rows.row('name index', 'Err(InvalidDataFormat)')


def file_name(path):
    """The part behind the last `/`, once endings `/` and `/.` are cut, up to its last dot where that isn't its first
    sign."""
    while path.endswith(('/', '/.')):
        path = path[:-1] if path.endswith('/') else path[:-2]
    part = path.rsplit('/', 1)[-1]
    if part in ('', '.', '..'):
        return 'unknown'
    return part[:part.rindex('.')] if '.' in part[1:] else part


def names(rows):
    for path in ('a/b.c.mbtiles', 'world.mbtiles', 'maps/world.mbtiles/', 'maps/world.mbtiles/.', 'maps/world.mbtiles//./', '..', '.', '', '/', '//', '/.', './', '../', 'a/..', 'a/.', 'a/../', '.hidden', 'a/.hidden',
                 '.hidden.mbtiles', 'a.', 'a..', '..a', '...', 'no', 'a/no', 'a.b/no', '/root.x', 'with blank.mbtiles', 'é.ü', 'é', 'a\\b.c', 'a/b.c.', ' ', ' .a'):
        rows.row('name of ' + text_word(path), shown.quoted(path), shown.quoted(file_name(path)), path + '|')


def faults(rows):
    """Each call of the store fails in turn; after that the call is answered. The store holds what it held."""
    hello = digest('md5', b'hello')
    sets = {'flat': [('tiles', 'i1', 'i0', 'i0', 'x30')], 'flat-with-hash': [('tiles_with_hash', 'i1', 'i0', 'i0', 'x68656c6c6f', 't' + hello)],
            'normalized': [('images', 't' + hello, 'x68656c6c6f'), ('map', 'i1', 'i0', 'i0', 't' + hello)]}
    for layout, pushes in sets.items():
        for place in ((1, 0, 1), (32, 0, 0)):
            for at, call in enumerate(('tile', 'hash', 'has', 'zooms')):
                held = Held(rows, layout, pushes)
                more = call == 'hash' and layout == 'flat-with-hash' and place[0] < 32
                line = 'read zooms' if call == 'zooms' else f'read {call} {place[0]} {place[1]} {place[2]}'
                answer = zooms(held) if call == 'zooms' else tile_answers(held, *place)[at]
                calls = held.load_calls() + more
                for number in range(1, calls + 1):
                    held.fail(number)
                    rows.row(line, 'Err(StoreFault)')
                    # each call before the failing one was made, and the failing one
                    held.asked += number
                rows.row(line, answer)
                held.say()
    held = Held(rows, 'flat', sets['flat'])
    for call, answer in (('name type', 'Ok(Flat)'), ('name index', 'Ok(None)')):
        held.fail(1)
        rows.row(call, 'Err(StoreFault)')
        rows.row(call, answer)
        held.asked += 2


def write(rows):
    for cases in (one_tile_each, random_reads, refusals, described, names, faults):
        cases(rows)
