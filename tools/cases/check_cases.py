# Rows that check a set, for tools/cases/set_rows.py. The wanted answers are worked out from the rules of the hash of
# all tiles (tools/models/aggregates.py), of a patch's own digests, and of a summary.
import random

from cases.patch_cases import bsdiff, held, named, say_rows, some_set
from cases.refused_sets import GONE, OUTSIDE, WRONG_HASH, WRONG_ID, odd_algorithm, odd_name
from models.aggregates import aggregate, data, hash_refusal
from models.hashes import digest
from models.names import AFTER, AGG, ALGORITHMS, BEFORE, CONTENT_TABLES, LAYOUTS, TILE_TABLES
from models.patches import State, order, put_row
from models.shown import text
from models.tables import bad_index

U64 = 2 ** 64 - 1


def some(value, show=str):
    return 'None' if value is None else f'Some({show(value)})'


def checked(state):
    """The stored hash, which has to be the computed one."""
    refusal = hash_refusal(state)
    return f'Ok({text(state.names[AGG])})' if refusal is None else f'Err({refusal})'


def own_tests(state):
    """The tests of what a set says of itself: as the base of a patch, and as a patch, without force and then by
    force."""
    agg, before, after = (state.names.get(name) for name in (AGG, BEFORE, AFTER))
    base = 'Ok(())' if agg is not None and before is None and after is None else 'Err(CannotDiffFileWithoutHash)' if agg is None else 'Err(DiffingDiffFile)'
    patch = 'Err(PatchFileHasNoHashes)' if after is None else 'Err(PatchFileHasNoBeforeHash)' if before is None else 'Ok(())'
    return base, patch, 'Ok(())', 'Ok(())'


def info(rows, state):
    fields = ', '.join(f'{name}: {some(state.names.get(name), text)}' for name in (AGG, BEFORE, AFTER))
    return f'PatchFileInfo {{ mbt_type: {LAYOUTS[state.layout]}, {fields}, patch_type: {some(state.patch_type)} }}'


def summary(rows, tiles, layout):
    """Counts and sizes: null counts and has no size; a zoom with only null has sizes of 0, which the least and
    greatest of the whole take in."""
    zooms = []
    for zoom in sorted({place[0] for place in tiles}):
        cells = [cell for place, cell in tiles.items() if place[0] == zoom]
        sizes = [len(data(cell)) for cell in cells if cell != 'n']
        zooms.append((zoom, len(cells), min(sizes, default=0), max(sizes, default=0), min(sum(sizes), U64)))
    shown = ', '.join(f'ZoomInfo {{ zoom: {z}, tile_count: {n}, min_tile_size: {a}, max_tile_size: {b}, total_size: {t} }}' for z, n, a, b, t in zooms)
    least, greatest = min((z[2] for z in zooms), default=None), max((z[3] for z in zooms), default=None)
    first, last = (zooms[0][0], zooms[-1][0]) if zooms else (None, None)
    return LAYOUTS[layout], str(len(tiles)), some(least), some(greatest), str(min(sum(z[4] for z in zooms), U64)), some(first), some(last), f'[{shown}]'


def reads(rows, state):
    """The calls that change nothing."""
    own = aggregate(state.algorithm, state.tiles)
    rows.row('check algorithm', f'Ok({ALGORITHMS[state.algorithm]})')
    rows.row('check stored', f'Ok({some(state.names.get(AGG), text)})')
    rows.row('check hashes', checked(state))
    for algorithm in ALGORITHMS:
        rows.row(f'check calc {algorithm}', f'Ok({text(aggregate(algorithm, state.tiles))})')
    rows.row('check types', 'Ok(())')
    rows.row('check each', 'Ok(())')
    rows.row('check validate verify', 'verify|', checked(state))
    rows.row('check validate default', 'verify|', checked(state))
    rows.row('check validate off', 'off|', f'Ok({text("")})')
    rows.row('check diff', info(rows, state), *own_tests(state))
    rows.row('check summary', *summary(rows, state.tiles, state.layout))
    return own


def check_case(rows, layout, pushes, update='update', patch_type=None):
    """All calls on a set, then its hash is stored, and then the calls again."""
    s = held(rows, layout, pushes)
    if patch_type:
        bsdiff(rows)
    state = State(layout, s.tables, patch_type)
    own = reads(rows, state)
    say_rows(s)
    if update == 'update':
        rows.row('check update', f'Ok({text(own)})')
    else:
        rows.row('check validate update', 'update|', f'Ok({text(own)})')
    for name, value in ((AGG, own), ('hash_algorithm', state.algorithm)):
        put_row(s.tables['metadata'], 1, order, ['t' + name, 't' + value])
    say_rows(s)
    after = State(layout, s.tables, patch_type)
    assert checked(after) == f'Ok({text(own)})'
    reads(rows, after)


def refused_case(rows, layout, pushes, refusal):
    """Each call on a set that doesn't load."""
    s = held(rows, layout, pushes)
    for call in ('algorithm', 'stored', 'hashes', 'calc xxh3', 'types', 'each', 'update'):
        rows.row(f'check {call}', f'Err({refusal})')
    for wanted in ('verify', 'update', 'off'):
        rows.row(f'check validate {wanted}', f'{wanted}|', f'Err({refusal})')
    for call in ('diff', 'summary'):
        rows.row(f'check {call}', refusal)
    say_rows(s)


def one_tile(rows):
    zero = ('tiles', 'i0', 'i0', 'i0', 'x30')
    stored = aggregate('md5', {(0, 0, 0): 'x30'})
    for pushes in ([zero], [zero, *named((AGG, stored))], [zero, *named((AGG, stored.lower()))], [zero, *named((AGG, None))], [zero, *named(('hash_algorithm', 'FNV1A-Decimal'))], [],
                   named(('hash_algorithm', 'fnv1a-decimal')), named(('hash_algorithm', None), (AGG, ''))):
        check_case(rows, 'flat', pushes)
        check_case(rows, 'flat', pushes, 'validate')
    check_case(rows, 'flat', [zero], 'update', 'BinDiffRaw')
    # two sets whose numbers and bytes join to the same text
    check_case(rows, 'flat', [('tiles', 'i4', 'i1', 'i12', 'x30')])
    check_case(rows, 'flat', [('tiles', 'i4', 'i11', 'i2', 'x30')])
    # null, and no bytes
    check_case(rows, 'flat', [('tiles', 'i0', 'i0', 'i0', 'x'), ('tiles', 'i1', 'i0', 'i0', 'n')])
    # zooms that are left out, one with only null, and sizes
    sizes = [('tiles', 'i2', 'i0', 'i0', 'n'), ('tiles', 'i2', 'i1', 'i0', 'x0102'), ('tiles', 'i2', 'i0', 'i3', 'x'), ('tiles', 'i5', 'i9', 'i9', 'n'), ('tiles', 'i30', 'i1073741823', 'i0', 'x' + '00' * 300)]
    check_case(rows, 'flat', sizes)
    check_case(rows, 'flat', sizes[3:4])
    # names of a patch, and rows of a null name that stay
    for names in ([(BEFORE, 'A')], [(AFTER, 'B')], [(BEFORE, 'A'), (AFTER, 'B')], [(AGG, 'A'), (BEFORE, 'B')], [(AGG, 'A'), (AFTER, 'B')], [(AGG, 'A'), (BEFORE, None), (AFTER, None)]):
        check_case(rows, 'flat', [zero, *named(*names, ('name', 'town'), ('zoo', None)), ('metadata', 'n', 'tnobody'), ('metadata', 'n', 'n')])


def layouts(rows):
    chance = random.Random(21)
    for layout in TILE_TABLES:
        check_case(rows, layout, [])
        for turn in range(4):
            names = chance.sample([(AGG, 'A'), (BEFORE, 'B'), (AFTER, 'C'), ('name', 'town'), ('minzoom', None)], chance.randrange(0, 4))
            check_case(rows, layout, some_set(chance, layout, names), chance.choice(['update', 'validate']))
    # contents that no tile has, and those of a null id
    for layout in ('normalized', 'dedup-id'):
        table = CONTENT_TABLES[layout]
        name = 't' + digest('md5', b'\x05') if layout == 'normalized' else 'i5'
        other = 't' + digest('md5', b'\x06') if layout == 'normalized' else 'i6'
        check_case(rows, layout, [(table, name, 'x05'), (table, other, 'x06'), (table, 'n', 'x09'), (TILE_TABLES[layout], 'i3', 'i1', 'i2', name), (TILE_TABLES[layout], 'i3', 'i2', 'i2', 'n')])


def refusals(rows):
    for layout, pushes, refusal in (OUTSIDE, ('flat', [('tiles', 'i0', 'i0', 'i0', 'ttext')], bad_index('i0', 'i0', 'i0')), odd_name('flat'), odd_algorithm('crc32'), WRONG_HASH, WRONG_ID, GONE):
        refused_case(rows, layout, pushes, refusal)
    # nothing described, and a flat set without its unique index
    rows.row('store new')
    rows.row('check algorithm', 'Err(InvalidDataFormat)')
    rows.row('check update', 'Err(InvalidDataFormat)')
    rows.row('check summary', 'InvalidDataFormat')
    rows.row('table add tiles table zoom_level:INTEGER,tile_column:INTEGER,tile_row:INTEGER,tile_data:BLOB -')
    rows.row('table add metadata table name:TEXT,value:TEXT unique:name')
    rows.row('describe', 'Ok(())')
    rows.row('table none')
    rows.row('check validate verify', 'verify|', 'Err(NoUniquenessConstraint)')
    rows.row('check diff', 'NoUniquenessConstraint')
    rows.refused('check')
    rows.refused('check nothing')
    rows.refused('check calc crc32')
    rows.refused('check validate')
    rows.refused('check validate all')


def faults(rows):
    """Each call of the store fails in turn: it stays as it was, and the call is made after that. It is asked for its descriptions, and for the number and the rows of each table; the last
    call of an update is the commit. Each row that was pushed asked for the descriptions before."""
    pushes = [('tiles', 'i1', 'i0', 'i0', 'x07'), *named((AGG, 'A'))]
    own = aggregate('md5', {(1, 0, 0): 'x07'})
    for call in range(1, 7):
        s = held(rows, 'flat', pushes)
        rows.row(f'store fail {len(pushes) + call}')
        rows.row('check update', 'Err(StoreFault)')
        say_rows(s)
        rows.row('check update', f'Ok({text(own)})')
        for name, value in ((AGG, own), ('hash_algorithm', 'md5')):
            put_row(s.tables['metadata'], 1, order, ['t' + name, 't' + value])
        say_rows(s)
    for call in range(1, 6):
        for word, failed in (('algorithm', 'Err(StoreFault)'), ('hashes', 'Err(StoreFault)'), ('each', 'Err(StoreFault)'), ('summary', 'StoreFault'), ('diff', 'StoreFault')):
            s = held(rows, 'flat', pushes)
            rows.row(f'store fail {len(pushes) + call}')
            rows.row(f'check {word}', failed)
            reads(rows, State('flat', s.tables))


def write(rows):
    for cases in (one_tile, layouts, refusals, faults):
        cases(rows)
