# Lines that load sets, for tools/cases/set_rows.py. The wanted answers follow from the order of the tests of loading.
from cases.refused_sets import GONE, WRONG_HASH, WRONG_ID
from cases.set_program import row
from models import hashes
from models.shown import text
from models.tables import bad_index, loaded


def load_case(layout, pushes, *answers):
    """A set of a layout with these rows, and what loading it must answer."""
    row(f'store new layout {layout}')
    for name, *cells in pushes:
        row(f"store push {name} {' '.join(cells)}", 'Ok(())')
    row('load', *answers)


def md5(digits):
    return hashes.md5(bytes.fromhex(digits)).lower()


def loads():
    """One set of each layout: tiles by zoom, column and row from the bottom, names by their bytes."""
    row('store new')
    row('load', 'InvalidDataFormat')
    two = [('metadata', 'tname', 'ttown'), ('metadata', 'tbounds', 'n'), ('metadata', 'n', 'tnone')]
    names = [('bounds', 'n'), ('name', 'ttown')]
    load_case('flat', [('tiles', 'i1', 'i1', 'i0', 'x0203'), ('tiles', 'i1', 'i0', 'i1', 'n'), ('tiles', 'i0', 'i0', 'i0', 'x'), ('tiles', 'i30', 'i1073741823', 'i0', 'x07'), *two],
              *loaded('flat', [((0, 0, 0), 'x', None), ((1, 0, 1), 'n', None), ((1, 1, 0), 'x0203', None), ((30, 1073741823, 0), 'x07', None)], names))
    load_case('flat-with-hash', [('tiles_with_hash', 'i1', 'i0', 'i0', 'x01', 't' + md5('01')), ('tiles_with_hash', 'i0', 'i0', 'i0', 'x02', 'n'), ('tiles_with_hash', 'i1', 'i1', 'i0', 'n', 'tany')],
              *loaded('flat-with-hash', [((0, 0, 0), 'x02', None), ((1, 0, 0), 'x01', None), ((1, 1, 0), 'n', None)], []))
    a, b = 't' + md5('01'), 't' + md5('02').upper()
    for layout in ('normalized', 'normalized-with-view'):
        load_case(layout, [('images', b, 'x02'), ('images', a, 'x01'), ('images', 'n', 'x05'), ('map', 'i1', 'i0', 'i0', a), ('map', 'i1', 'i1', 'i1', a), ('map', 'i0', 'i0', 'i0', b), ('map', 'i40', 'n', 'o', 'n')],
                  *loaded(layout, [((0, 0, 0), 'x02', b), ((1, 0, 0), 'x01', a), ((1, 1, 1), 'x01', a)], []))
    load_case('dedup-id', [('tiles_data', 'i7', 'x01'), ('tiles_data', 'i-3', 'n'), ('tiles_shallow', 'i2', 'i3', 'i0', 'i-3'), ('tiles_shallow', 'i2', 'i0', 'i3', 'i7')],
              *loaded('dedup-id', [((2, 0, 3), 'x01', 'i7'), ((2, 3, 0), 'n', 'i-3')], []))
    load_case('cache', [('tile_cache', 'i0', 'i0', 'i0', 'i5', 'n', 'tv', 'x09')], *loaded('cache', [((0, 0, 0), 'x09', None)], []))


def refusals():
    """Each refusal, over a bad row that comes later in the order."""
    bad = ('tiles', 'i31', 'i0', 'i0', 'n')
    load_case('flat', [bad], bad_index('i31', 'i0', 'i0'))
    load_case('flat', [('tiles', 'i2', 'i4', 'i0', 'n'), ('tiles', 'i1', 'i2', 'i0', 'n')], bad_index('i1', 'i2', 'i0'))
    load_case('flat', [('tiles', 'i1', 'i0', 'i-1', 'n')], bad_index('i1', 'i0', 'i-1'))
    load_case('flat', [('tiles', 'i2147483648', 'o', 'ttext', 'n')], bad_index('i2147483648', 'o', 'ttext'))
    load_case('flat', [('tiles', 'i9223372036854775807', 'i9223372036854775807', 'i-9223372036854775808', 'n')], bad_index('i9223372036854775807', 'i9223372036854775807', 'i-9223372036854775808'))
    load_case('flat', [('tiles', 'i0', 'i0', 'i0', 'ttext')], bad_index('i0', 'i0', 'i0'))
    load_case('flat', [bad, ('metadata', 'tname', 'i1')], 'InvalidDataFormat')
    load_case('flat', [bad, ('metadata', 'x01', 'n')], 'InvalidDataFormat')
    load_case('flat', [bad, ('metadata', 'thash_algorithm', 'tsha1')], f'UnsupportedHashAlgorithm {{ algorithm: {text("sha1")} }}')
    load_case('flat', [('metadata', 'thash_algorithm', 'tXXH3')], *loaded('flat', [], [('hash_algorithm', 'tXXH3')], 'Xxh3'))
    load_case('cache', [('tile_cache', 'i31', 'i0', 'i0', 'n', 'tsoon', 'n', 'n')], 'InvalidDataFormat')
    load_case(*WRONG_HASH)
    load_case('flat-with-hash', [('tiles_with_hash', 'i31', 'i0', 'i0', 'x01', 'i5')], 'InvalidDataFormat')
    load_case(*GONE)
    load_case(*WRONG_ID)
    load_case('normalized', [('images', 'i1', 'x01')], 'InvalidDataFormat')
    load_case('dedup-id', [('tiles_shallow', 'i0', 'i0', 'i0', 'i-8')], f'MissingTileReference {{ tile_id: {text("-8")}, table: TilesData }}')
    load_case('dedup-id', [('tiles_data', 'tseven', 'x01')], 'InvalidDataFormat')


def sets_of_other_tools():
    """A stored hash, none of the whole, and all that the usual tool leaves."""
    hello, wrong = '5d41402abc4b2a76b9719d911017c592', '5d41402abc4b2a76b9719d911017c593'
    load_case('flat-with-hash', [('tiles_with_hash', 'i0', 'i0', 'i0', 'x68656c6c6f', 't' + hello)], *loaded('flat-with-hash', [((0, 0, 0), 'x68656c6c6f', None)], []))
    load_case('flat-with-hash', [('tiles_with_hash', 'i0', 'i0', 'i0', 'x68656c6c6f', 't' + wrong)],
              f'IncorrectTileHash {{ stored: {text(wrong.upper())}, computed: {text(hello.upper())} }}')
    load_case('flat-with-hash', [('tiles_with_hash', 'i0', 'i0', 'i0', 'x68656c6c6f', 't11831194018420276491'), ('metadata', 'thash_algorithm', 'tfnv1a-decimal')],
              *loaded('flat-with-hash', [((0, 0, 0), 'x68656c6c6f', None)], [('hash_algorithm', 'tfnv1a-decimal')], 'Fnv1aDecimal'))
    load_case('flat', [('tiles', 'i0', 'i0', 'i0', 'x30')], *loaded('flat', [((0, 0, 0), 'x30', None)], []))
    cities = [('agg_tiles_hash', 't4A7D1ED414474E4033AC29CCB8653D9B'), ('bounds', 't-180,-85.0511,180,85.0511'), ('format', 'tpbf'), ('hash_algorithm', 'tmd5'), ('name', 'tCities')]
    zero = 'tCFCD208495D565EF66E7DFF9F98764DA'
    load_case('normalized-with-view', [('images', zero, 'x30'), ('map', 'i0', 'i0', 'i0', zero), *(('metadata', 't' + name, value) for name, value in reversed(cities))],
              *loaded('normalized-with-view', [((0, 0, 0), 'x30', zero)], cities))


def without_index():
    """A flat set without its unique index."""
    row('table none')
    row('table add tiles table zoom_level:INTEGER,tile_column:INTEGER,tile_row:INTEGER,tile_data:BLOB plain:zoom_level,tile_column,tile_row')
    row('table add metadata table name:TEXT,value:TEXT unique:name')
    row('store new')
    row('describe', 'Ok(())')
    row('load', 'NoUniquenessConstraint')
    row('table none')


def faults():
    for call in (1, 2, 3):
        row('store new layout flat')
        row(f'store fail {call}')
        row('load', 'StoreFault')
        row('load', *loaded('flat', [], []))


def write():
    for rows in (loads, refusals, sets_of_other_tools, without_index, faults):
        rows()
