# Rows that put batches of tiles into a set, for tools/cases/mbtiles_rows.py. The tables are printed after each of them.
import random

from cases.patch_cases import named, some_set
from cases.read_cases import tile_answers
from cases.refused_sets import GONE, OUTSIDE, odd_name
from models.hashes import digest
from models.held_sets import Held
from models.inserted import insert
from models.names import TILE_TABLES

MODES = ('override', 'ignore', 'abort')
WRITTEN = [layout for layout in TILE_TABLES if layout != 'dedup-id']

# Two byte strings of one MD5 digest (Wang and others, 2004), and two of one FNV-1a digest.
SAME_MD5 = (
    bytes.fromhex('d131dd02c5e6eec4693d9a0698aff95c2fcab58712467eab4004583eb8fb7f8955ad340609f4b30283e488832571415a085125e8f7cdc99fd91dbdf280373c5b'
                  'd8823e3156348f5bae6dacd436c919c6dd53e2b487da03fd02396306d248cda0e99f33420f577ee8ce54b67080a80d1ec69821bcb6a8839396f9652b6ff72a70'),
    bytes.fromhex('d131dd02c5e6eec4693d9a0698aff95c2fcab50712467eab4004583eb8fb7f8955ad340609f4b30283e4888325f1415a085125e8f7cdc99fd91dbd7280373c5b'
                  'd8823e3156348f5bae6dacd436c919c6dd53e23487da03fd02396306d248cda0e99f33420f577ee8ce54b67080280d1ec69821bcb6a8839396f965ab6ff72a70'))
SAME_FNV = (b'8yn0iYCKYHlIj4-BwPqk', b'GReLUrM4wMqfg9yzV3KQ')


def line(mode, batch):
    return f'insert {mode} {len(batch)}' + ''.join(f' {z} {x} {y} x{data.hex()}' for z, x, y, data in batch)


def put(rows, held, mode, batch):
    answer = insert(held, mode, batch)
    rows.row(line(mode, batch), answer)
    held.say()
    return answer


def case(rows, layout, pushes, batch, modes=MODES):
    for mode in modes:
        put(rows, Held(rows, layout, pushes), mode, batch)


def first_tile(rows):
    """A tile that is put is read, and refused when it is put again."""
    for layout in WRITTEN:
        held = Held(rows, layout, [])
        put(rows, held, 'override', [(3, 1, 2, b'hello')])
        for call, answer in zip(('tile', 'hash', 'has'), tile_answers(held, 3, 1, 2)):
            rows.row(f'read {call} 3 1 2', answer)
        rows.row('stream coords', '3/1/2', 'end')
        rows.row('stream tiles', '3/1/2', 'x' + b'hello'.hex(), 'end')
        for mode in ('abort', 'ignore', 'override'):
            put(rows, held, mode, [(3, 1, 2, b'hello')])
        put(rows, held, 'ignore', [(3, 1, 2, b'other')])
        put(rows, held, 'override', [(3, 1, 2, b'other')])
        put(rows, held, 'abort', [])


def sets_before():
    """A set of each layout: tiles with bytes and with null, contents that no tile has, and places without an id."""
    one, two = digest('md5', b'\x01'), digest('md5', b'\x02')
    sets = {
        'flat': [('tiles', 'i1', 'i0', 'i0', 'x01'), ('tiles', 'i1', 'i1', 'i0', 'n')],
        'flat-with-hash': [('tiles_with_hash', 'i1', 'i0', 'i0', 'x01', 't' + one.lower()), ('tiles_with_hash', 'i1', 'i1', 'i0', 'n', 'tany'), ('tiles_with_hash', 'i1', 'i1', 'i1', 'x02', 'n')],
        'cache': [('tile_cache', 'i1', 'i0', 'i0', 'i5', 'i6', 'tv', 'x01'), ('tile_cache', 'i1', 'i1', 'i0', 'i7', 'n', 'n', 'n')],
    }
    for layout in ('normalized', 'normalized-with-view'):
        sets[layout] = [('images', 't' + one.lower(), 'x01'), ('images', 't' + two, 'x02'), ('images', 'n', 'x09'), ('images', 'tnull', 'n'), ('map', 'i1', 'i0', 'i0', 't' + one.lower()),
                        ('map', 'i1', 'i1', 'i0', 'tnull'), ('map', 'i1', 'i0', 'i1', 'n'), ('map', 'i40', 'n', 'o', 'n')]
    return sets


def each_layout(rows):
    for layout, pushes in sets_before().items():
        pushes = pushes + [*named(('name', 'town'), ('agg_tiles_hash', 'stays')), ('metadata', 'n', 'tnobody')]
        # new places, the lowest and the highest, and no bytes
        case(rows, layout, pushes, [(2, 3, 0, b'new'), (0, 0, 0, b''), (30, 2 ** 30 - 1, 0, b'end'), (30, 0, 2 ** 30 - 1, b'end')])
        # a place with bytes, one with null, and for normalised sets one without an id
        case(rows, layout, pushes, [(1, 0, 1, b'in place')])
        case(rows, layout, pushes, [(1, 0, 1, b'\x01')])
        case(rows, layout, pushes, [(1, 1, 1, b'over null')])
        case(rows, layout, pushes, [(1, 0, 0, b'no id')])
        case(rows, layout, pushes, [(1, 0, 0, b'\x02'), (1, 1, 0, b'\x02'), (2, 0, 0, b'\x01')])
        # twice in the batch
        case(rows, layout, pushes, [(2, 0, 0, b'first'), (2, 1, 0, b'other'), (2, 0, 0, b'last')])
        case(rows, layout, pushes, [(2, 0, 0, b'same'), (2, 0, 0, b'same')])
        case(rows, layout, pushes, [(1, 0, 1, b'a'), (1, 0, 1, b'b'), (1, 0, 1, b'c'), (1, 1, 1, b'd'), (1, 1, 1, b'e')])
        # nothing
        case(rows, layout, pushes, [])
        # no places, the first of which is named, before any other refusal
        for z, x, y in ((31, 0, 0), (32, 0, 0), (255, 0, 0), (0, 1, 0), (0, 0, 1), (1, 2, 0), (1, 0, 2), (30, 2 ** 30, 0), (30, 0, 2 ** 30), (31, 4294967295, 4294967295)):
            case(rows, layout, pushes, [(1, 0, 1, b'there'), (z, x, y, b'none'), (77, 0, 0, b'')], ('abort',))
        case(rows, layout, pushes, [(2, 0, 5, b'none'), (2, 5, 0, b'')])
    numbers = [('tiles_data', 'i7', 'x01'), ('tiles_shallow', 'i1', 'i0', 'i0', 'i7')]
    case(rows, 'dedup-id', numbers, [(0, 0, 0, b'')])
    case(rows, 'dedup-id', numbers, [(99, 0, 0, b'')])
    case(rows, 'dedup-id', numbers, [])
    for algorithm in ('Md5', 'fnv1a', 'FNV1A-DECIMAL', 'xxh64', 'xxh3'):
        for layout in ('flat-with-hash', 'normalized'):
            case(rows, layout, named(('hash_algorithm', algorithm)), [(2, 0, 0, b'hello'), (2, 1, 0, b'hello')], ('abort',))


def collisions(rows):
    a, b = SAME_MD5
    name = 't' + digest('md5', a)
    # two contents of one batch: the first by zoom, column and row from the bottom is named, and one that isn't put
    # collides with none
    for batch in ([(1, 0, 0, a), (1, 1, 0, b)], [(1, 0, 0, a), (1, 0, 0, b)], [(1, 0, 0, b), (1, 0, 0, a), (1, 1, 1, b)], [(1, 0, 0, a), (1, 1, 0, a)], [(1, 0, 0, b)]):
        case(rows, 'normalized', [], batch)
        case(rows, 'normalized', [('images', name, 'x' + a.hex()), ('map', 'i0', 'i0', 'i0', name)], batch, ('override', 'ignore'))
    case(rows, 'normalized', [('images', name, 'x' + a.hex())], [(1, 0, 0, b)])
    # the same digest is no matter in the other layouts, or under another id, as in lower case
    case(rows, 'flat-with-hash', [], [(1, 0, 0, a), (1, 1, 0, b)])
    case(rows, 'normalized', [('images', name.lower(), 'x' + a.hex()), ('map', 'i1', 'i0', 'i0', name.lower())], [(1, 0, 0, b)])
    a, b = SAME_FNV
    for algorithm in ('fnv1a', 'fnv1a-decimal'):
        case(rows, 'normalized', named(('hash_algorithm', algorithm)), [(1, 0, 0, b), (1, 0, 1, a)])
    # null, or a cell of another kind, under the id of what is put; the tile that has it loses its place or keeps it
    hello, five = digest('md5', b'hello'), digest('md5', b'5')
    for cell in ('n', 'o', 'i5', 'tany', 'x00'):
        refused_by_load = cell == 'x00'
        if not refused_by_load:
            case(rows, 'normalized-with-view', [('images', 't' + hello, cell), ('map', 'i3', 'i0', 'i0', 'n')], [(1, 0, 0, b'hello')])
    case(rows, 'normalized', [('images', 't' + hello, 'n'), ('map', 'i1', 'i0', 'i1', 't' + hello)], [(1, 0, 0, b'hello')])
    case(rows, 'normalized', [('images', 't' + hello, 'n'), ('map', 'i1', 'i0', 'i1', 't' + hello)], [(1, 0, 0, b'hello'), (1, 0, 0, b'other')])
    both = [('images', 't' + hello, 'n'), ('images', 't' + five, 'o')]
    for batch in ([(2, 1, 0, b'5'), (2, 2, 3, b'hello')], [(2, 2, 3, b'hello'), (2, 1, 0, b'5')], [(2, 1, 0, b'5'), (2, 1, 1, b'hello')], [(2, 1, 0, b'5'), (1, 1, 0, b'hello'), (0, 0, 0, b'new')]):
        case(rows, 'normalized', both, batch)
    # a place that is refused in mode abort comes before a collision, and a bad place before both
    case(rows, 'normalized', both, [(2, 1, 0, b'5'), (2, 1, 0, b'5')])
    case(rows, 'normalized', both, [(2, 1, 0, b'5'), (2, 4, 0, b'5')])


def refusals(rows):
    """The first refusal of loading comes before all others."""
    for layout, pushes, refusal in (OUTSIDE, odd_name('dedup-id'), GONE):
        for mode in MODES:
            held = Held(rows, layout, pushes)
            rows.row(line(mode, [(99, 0, 0, b'')]), f'Err({refusal})')
            rows.row(line(mode, []), f'Err({refusal})')
            held.say()
    for word in ('insert', 'insert all 0', 'insert abort', 'insert abort 1', 'insert abort 1 0 0 0', 'insert abort 1 256 0 0 x', 'insert abort 1 0 -1 0 x'):
        rows.refused(word)


def faults(rows):
    """Each call of the store fails in turn, the last one of which is the commit. The store stands as it was, and the
    batch is put after that."""
    hello = digest('md5', b'hello')
    sets = {'flat': [('tiles', 'i1', 'i0', 'i0', 'x30')], 'flat-with-hash': [], 'cache': [],
            'normalized': [('images', 't' + hello, 'x68656c6c6f'), ('map', 'i1', 'i0', 'i0', 't' + hello)]}
    batch = [(1, 0, 1, b'new'), (2, 0, 0, b'hello')]
    for layout, pushes in sets.items():
        held = Held(rows, layout, pushes)
        for number in range(1, held.load_calls() + 2):
            held.fail(number)
            rows.row(line('override', batch), 'Err(StoreFault)')
            held.asked += number
        rows.row('set fail')
        held.say()
        put(rows, held, 'override', batch)


def random_batches(rows):
    chance = random.Random(32)
    blobs = [b'', b'\x01', b'\x02', b'\x02\x03', b'\x09\x09', b'new']
    for layout in WRITTEN:
        for _ in range(60):
            held = Held(rows, layout, some_set(chance, layout, chance.sample([('name', 'town'), ('format', None)], chance.randrange(3))))
            for _ in range(chance.randrange(1, 3)):
                batch = []
                for _ in range(chance.choice([0, 1, 1, 2, 3, 5])):
                    z = chance.randrange(4)
                    batch.append((z, chance.randrange(2 ** z + (chance.random() < 0.02)), chance.randrange(2 ** z + (chance.random() < 0.02)), chance.choice(blobs)))
                put(rows, held, chance.choice(MODES), batch)


def large(rows):
    """Many tiles at once, each third of them twice, and their digest."""
    for layout in WRITTEN:
        held = Held(rows, layout, [])
        batch = [(9, n * 7 % 512, n * 3 % 512, b'%d' % (n % 50)) for n in range(300)] + [(9, n * 7 % 512, n * 3 % 512, b'last') for n in range(0, 300, 3)]
        assert insert(held, 'override', batch) == 'Ok(())'
        rows.row(line('override', batch), 'Ok(())')
        held.say_digests()
    # all tiles of a zoom
    for layout in ('flat', 'normalized'):
        held = Held(rows, layout, [])
        batch = [(6, n // 64, 63 - n % 64, b'%d' % (n % 997)) for n in reversed(range(4096))]
        assert insert(held, 'abort', batch) == 'Ok(())'
        rows.row(line('abort', batch), 'Ok(())')
        held.say_digests()


def labels(rows):
    rows.row('insert words', 'override|', 'ignore|', 'abort|', 'Override', 'Ignore', 'Abort')


def write(rows):
    for cases in (labels, first_tile, each_layout, collisions, refusals, faults, random_batches, large):
        cases(rows)
