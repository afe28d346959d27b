# Lines of coordinates, tile ids and values, for tools/cases/format_rows.py.
import random

from cases.format_program import U64, coord, refused, row, word
from cases.rows import text_word
from models import pmtiles as pm
from models import shown


def tile(n):
    return f'TileId {{ value: {n} }}'


KNOWN = [(0, 0, 0, 0), (1, 0, 0, 1), (1, 0, 1, 2), (1, 1, 1, 3), (1, 1, 0, 4), (2, 0, 1, 8), (4, 1, 3, 91), (4, 11, 13, 241), (12, 3423, 1763, 19078479),
         (31, 2147483647, 0, 6148914691236517204)]


def ids():
    for z, x, y in [(0, 0, 0), (1, 0, 0), (31, 2 ** 31 - 1, 0), (3, 7, 7), (30, 5, 2 ** 30 - 1)]:
        row(f'ids coord {z} {x} {y}', f'Ok({coord(z, x, y)})')
    for z, x, y in [(32, 0, 0), (255, 0, 0), (0, 1, 0), (0, 0, 1), (3, 8, 0), (3, 0, 8), (31, 2147483648, 0)]:
        row(f'ids coord {z} {x} {y}', f'Err(InvalidCoordinate({z}, {x}, {y}))')
    refused('ids coord 256 0 0')
    for n in [0, 1, 4, 5, pm.LAST]:
        row(f'ids id {n}', f'Ok({tile(n)})')
    for n in [pm.LAST + 1, U64 - 1]:
        row(f'ids id {n}', f'Err(InvalidTileId({n}))')
    places = [(z, x, y) for z in range(6) for x in range(1 << z) for y in range(1 << z)]
    for z, x, y, n in KNOWN:
        assert pm.tile_id(z, x, y) == n
        row(f'ids value parts {z} {x} {y}', z, x, y, n, n)
        places.append((z, x, y))
    chance = random.Random(3)
    for _ in range(200):
        z = chance.randrange(6, 32)
        places.append((z, chance.randrange(1 << z), chance.randrange(1 << z)))
    for z, x, y in places:
        n = pm.tile_id(z, x, y)
        row(f'ids id_of {z} {x} {y}', tile(n))
        row(f'ids coord_of {n}', coord(z, x, y))
    row('ids value limits', 31, pm.LAST, [pm.below(z) for z in range(32)])
    for z, y, w in [(3, 1, 6), (0, 0, 0), (31, 0, 2 ** 31 - 1), (5, 31, 0)]:
        row(f'ids inverted {z} 0 {y}', w)


def indexes():
    for z, x, y, w in [(0, 0, 0, 0), (1, 0, 0, 1), (2, 3, 1, 2), (30, 0, 1073741823, 0)]:
        row(f'ids index {z} {x} {y}', f'Some({coord(z, x, w)})')
    for words in ['- 0 0', '0 - 0', '0 0 -', '-1 0 0', '31 0 0', '9223372036854775807 0 0', '2 4 0', '2 -1 0', '2 0 4', '2 0 -9223372036854775808']:
        row('ids index ' + words, 'None')
    row('ids interval 1 1 0 2', f'Some(({tile(17)}, {tile(20)}))')
    row('ids interval 1 1 0 0', 'None')
    row('ids interval 1 1 0 32', 'None')
    chance = random.Random(4)
    for z in range(8):
        x, y = chance.randrange(1 << z), chance.randrange(1 << z)
        for to in range(z, z + 4):
            step = 1 << (to - z)
            within = [pm.tile_id(to, x * step + i, y * step + j) for i in range(step) for j in range(step)]
            row(f'ids interval {z} {x} {y} {to}', f'Some(({tile(min(within))}, {tile(max(within))}))')


def values():
    row('ids value text tname', 'Ok(' + shown.text('name') + ')', 'name|')
    row('ids value text x61206e616d65', 'Ok(' + shown.text('a name') + ')', 'a name|')
    row('ids value text t', 'Ok(' + shown.text('') + ')', '|')
    for one, other in [('a', 'a'), ('a', 'b'), ('b', 'a'), ('a', 'aa'), ('', 'a'), ('é', 'z'), ('Z', 'a')]:
        a, b = one.encode(), other.encode()
        order = 'Equal' if a == b else 'Less' if a < b else 'Greater'
        row(f'ids value order {text_word(one)} {text_word(other)}', order, shown.flag(a == b))
    for data in [b'', b'\x01\x02', bytes(range(256))]:
        row('ids value blob ' + word(data), word(data), 'true')
    row('json list tone ttwo', '[' + shown.text('one') + ', ' + shown.text('two') + ']')
    row('json list', '[]')


def write():
    for rows in (ids, indexes, values):
        rows()
